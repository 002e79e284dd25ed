//! Files that are begun anew once they are so large: the old one is renamed to `.1`, that one to `.2`, and so on. No line is in two
//! files, but one that is longer than a file may be.

use crate::os;
use std::fs::{self, File};
use std::io;
use std::os::unix::fs::MetadataExt;
use std::path::{Path, PathBuf};

/// When a file is begun anew, and how many old ones are kept.
#[derive(Clone, Copy, Debug, PartialEq, Eq)]
pub struct Rotation {
    /// So many bytes it has at the most.
    pub most: u64,
    /// So many old ones are kept.
    pub keep: u32,
}

/// A file with its rotation, as it stands.
#[derive(Debug)]
pub struct Turning {
    path: PathBuf,
    rotation: Rotation,
    size: u64,
    /// The last byte of it ends a line, or it has none.
    is_at_line: bool,
}

fn old(path: &Path, number: u32) -> PathBuf {
    let mut name = path.as_os_str().to_os_string();
    name.push(format!(".{number}"));
    name.into()
}

impl Turning {
    /// Of a file which is open. What is torn in it ends its line by what is written next.
    pub fn new(path: &Path, rotation: Rotation, file: &File) -> Self {
        let size = file.metadata().map_or(0, |found| found.len());
        Turning { path: path.to_path_buf(), rotation, size, is_at_line: true }
    }

    /// How much of these bytes is written to the file as it is; none where it has to be begun anew first.
    pub fn share(&self, bytes: &[u8]) -> usize {
        let room = usize::try_from(self.rotation.most.saturating_sub(self.size)).unwrap_or(usize::MAX);
        if bytes.len() <= room {
            return bytes.len();
        }
        let lines = bytes[..room].iter().rposition(|&byte| byte == b'\n').map_or(0, |end| end + 1);
        if lines > 0 || (self.is_at_line && self.size > 0) {
            return lines;
        }
        bytes.iter().position(|&byte| byte == b'\n').map_or(bytes.len(), |end| end + 1)
    }

    /// These bytes were written.
    pub fn has_written(&mut self, bytes: &[u8]) {
        self.size += bytes.len() as u64;
        self.is_at_line = bytes.ends_with(b"\n");
    }

    /// The file under its name, if it is another one than the open one: somebody else has renamed or removed that.
    pub fn replaced(&mut self, open: &File) -> io::Result<Option<File>> {
        let is_same = match (fs::metadata(&self.path), open.metadata()) {
            (Ok(named), Ok(open)) => (named.dev(), named.ino()) == (open.dev(), open.ino()),
            (Err(error), _) if error.kind() == io::ErrorKind::NotFound => false,
            _ => true,
        };
        if is_same { Ok(None) } else { self.open_anew().map(Some) }
    }

    /// Renames the old ones, and begins a new one. Where that can't be done it is tried again after as many bytes.
    pub fn turn(&mut self) -> io::Result<File> {
        self.size = 0;
        let keep = self.rotation.keep;
        if keep == 0 {
            fs::remove_file(&self.path)?;
        }
        for number in (0..keep).rev() {
            let from = if number == 0 { self.path.clone() } else { old(&self.path, number) };
            match fs::rename(from, old(&self.path, number + 1)) {
                Err(error) if number == 0 || error.kind() != io::ErrorKind::NotFound => return Err(error),
                _ => {}
            }
        }
        self.open_anew()
    }

    /// Opens the file under its name.
    pub fn open_anew(&mut self) -> io::Result<File> {
        let file = os::append_to(&self.path)?;
        self.size = file.metadata()?.len();
        self.is_at_line = true;
        Ok(file)
    }
}

#[cfg(test)]
mod tests {
    use super::*;
    use crate::sink::Sink;

    fn folder(name: &str) -> PathBuf {
        let folder = std::env::temp_dir().join(format!("otp-procs-rotate-{name}-{}", std::process::id()));
        fs::create_dir_all(&folder).unwrap();
        folder
    }

    #[test]
    fn lines_are_whole_in_each_file_and_the_oldest_go() {
        let folder = folder("lines");
        let path = folder.join("x");
        let rotation = Rotation { most: 100, keep: 3 };
        let mut sink = Sink::turning(&path, rotation).unwrap();
        let text: String = (0..100).map(|number| format!("line {number} of many\n")).collect();
        // In pieces that end anywhere.
        for piece in text.as_bytes().chunks(7) {
            assert_eq!(sink.write(piece).0, piece.len());
        }
        let mut all = String::new();
        for name in ["x.3", "x.2", "x.1", "x"] {
            let part = fs::read_to_string(folder.join(name)).unwrap();
            assert!(part.len() <= 120 && part.ends_with('\n') && part.starts_with("line "), "{name}: {part}");
            all.push_str(&part);
        }
        assert!(text.ends_with(&all) && all.len() > 300, "{all}");
        assert!(!folder.join("x.4").exists());
        fs::remove_dir_all(&folder).unwrap();
    }

    #[test]
    fn a_line_that_is_longer_than_a_file_has_one_of_its_own() {
        let folder = folder("long");
        let path = folder.join("x");
        let mut sink = Sink::turning(&path, Rotation { most: 10, keep: 9 }).unwrap();
        for text in ["short\n", &"y".repeat(30), &"z".repeat(30), "\n", "end\n"] {
            sink.write(text.as_bytes());
        }
        let read = |name: &str| fs::read_to_string(folder.join(name)).unwrap();
        assert_eq!((read("x.2"), read("x")), ("short\n".to_string(), "end\n".to_string()));
        assert_eq!(read("x.1"), format!("{}{}\n", "y".repeat(30), "z".repeat(30)));
        fs::remove_dir_all(&folder).unwrap();
    }

    #[test]
    fn a_file_that_somebody_has_renamed_is_left_and_one_that_cannot_be_renamed_is_kept() {
        let folder = folder("renamed");
        let path = folder.join("x");
        let mut sink = Sink::turning(&path, Rotation { most: 1000, keep: 1 }).unwrap();
        sink.write(b"one\n");
        fs::rename(&path, folder.join("other")).unwrap();
        sink.write(b"two\n");
        assert_eq!(fs::read_to_string(&path).unwrap(), "two\n");
        let mut sink = Sink::turning(&path, Rotation { most: 6, keep: 1 }).unwrap();
        fs::create_dir_all(folder.join("x.1/y")).unwrap();
        let (count, error) = sink.write(b"three\nfour\n");
        assert!(count == 11 && error.is_some());
        assert_eq!(fs::read_to_string(&path).unwrap(), "two\nthree\nfour\n");
        fs::remove_dir_all(&folder).unwrap();
    }
}

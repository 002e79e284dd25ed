//! Files of variables, as systemd and shells have them: a line NAME=VALUE each, `#` or `;` in front of a comment.

use crate::os;
use std::path::Path;

/// So many bytes it has at the most.
const MOST: u64 = 1 << 20;

/// The variables of a file, or what is wrong with it.
pub fn read(file: &Path) -> Result<Vec<(String, String)>, String> {
    let bytes = os::read_file(file, MOST).map_err(|error| format!("{}: {error}", file.display()))?;
    let text = String::from_utf8(bytes).map_err(|_| format!("{} is not UTF-8", file.display()))?;
    let mut variables = Vec::new();
    for (index, line) in text.lines().enumerate() {
        let line = line.trim();
        if line.is_empty() || line.starts_with(['#', ';']) {
            continue;
        }
        let bare = line.strip_prefix("export ").unwrap_or(line).trim_start();
        let found = bare.split_once('=').map(|(name, value)| (name.trim_end(), value.trim_start()));
        match found {
            Some((name, value)) if is_name(name) && !value.contains('\0') => {
                variables.push((name.to_string(), unquoted(value)));
            }
            _ => {
                let place = format!("{}:{}", file.display(), index + 1);
                return Err(format!("{place}: a line is NAME=VALUE or a comment, and {line:?} is none"));
            }
        }
    }
    Ok(variables)
}

fn is_name(name: &str) -> bool {
    !name.is_empty() && name.bytes().all(|byte| byte.is_ascii_alphanumeric() || byte == b'_')
}

/// A value without the quotes around it. In double quotes a backslash stands in front of `"`, `\`, `$` and a backquote.
fn unquoted(value: &str) -> String {
    let within = |quote: char| value.strip_prefix(quote).and_then(|rest| rest.strip_suffix(quote));
    if let Some(text) = within('\'') {
        return text.to_string();
    }
    let Some(text) = within('"') else { return value.to_string() };
    let mut plain = String::new();
    let mut letters = text.chars().peekable();
    while let Some(letter) = letters.next() {
        match letters.peek() {
            Some(&next) if letter == '\\' && matches!(next, '"' | '\\' | '$' | '`') => {
                plain.push(next);
                letters.next();
            }
            _ => plain.push(letter),
        }
    }
    plain
}

#[cfg(test)]
mod tests {
    use super::*;
    use std::fs;
    use std::os::unix::fs::FileTypeExt;

    #[test]
    fn what_is_no_file_keeps_nobody_waiting() {
        let pipe = std::env::temp_dir().join(format!("otp-procs-env-pipe-{}", std::process::id()));
        // A test beside this one that runs a daemon may reap it, so its status isn't asked for.
        let _ = std::process::Command::new("mkfifo").arg(&pipe).status();
        assert!(fs::metadata(&pipe).unwrap().file_type().is_fifo());
        for path in [pipe.as_path(), Path::new("/dev/zero"), Path::new("/tmp")] {
            let told = read(path).unwrap_err();
            assert_eq!(told, format!("{}: it is no file", path.display()));
        }
        fs::remove_file(&pipe).unwrap();
    }

    #[test]
    fn variables_are_read_and_faults_told_with_their_line() {
        let file = std::env::temp_dir().join(format!("otp-procs-env-{}", std::process::id()));
        fs::write(&file, "# one\n; two\n\nA=b c\nexport B = \"x \\\"y\\\" \\n\"\nC='a=\"b\"'\nD=\n").unwrap();
        let found = read(&file).unwrap();
        let found: Vec<(&str, &str)> = found.iter().map(|(name, value)| (name.as_str(), value.as_str())).collect();
        assert_eq!(found, [("A", "b c"), ("B", "x \"y\" \\n"), ("C", "a=\"b\""), ("D", "")]);
        for bad in ["x", "=y", "a b=c", "1-2=3"] {
            fs::write(&file, format!("A=b\n{bad}\n")).unwrap();
            let told = read(&file).unwrap_err();
            assert!(told.contains(&format!("{}:2: a line is NAME=VALUE", file.display())), "{told}");
        }
        fs::write(&file, vec![b'\n'; 1 << 20]).unwrap();
        assert_eq!(read(&file).unwrap(), []);
        fs::write(&file, vec![b'\n'; (1 << 20) + 1]).unwrap();
        assert!(read(&file).unwrap_err().ends_with("it has more than 1048576 bytes"));
        fs::remove_file(&file).unwrap();
        assert!(read(&file).unwrap_err().contains("No such file"));
    }
}

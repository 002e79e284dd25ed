//! Where the program of a plan is found, as the system looks for it when the process starts.

use crate::plan::Plan;
use std::env;
use std::ffi::OsString;
use std::fs;
use std::os::unix::fs::PermissionsExt;
use std::path::{Path, PathBuf};

/// Where programs are looked for when a process has no PATH.
const USUAL: &str = "/bin:/usr/bin";

/// The folders in which the process looks for programs: those of its own PATH.
fn search_path(plan: &Plan) -> OsString {
    let own = plan.env.iter().rev().find(|(name, _)| name == "PATH").map(|(_, value)| OsString::from(value));
    let inherited = || if plan.clear_env { None } else { env::var_os("PATH") };
    own.or_else(inherited).unwrap_or_else(|| OsString::from(USUAL))
}

fn is_program(file: &Path) -> bool {
    fs::metadata(file).is_ok_and(|found| found.is_file() && found.permissions().mode() & 0o111 != 0)
}

/// The file that the plan's program is. One with a `/` is named from the working folder.
pub fn find(plan: &Plan) -> Option<PathBuf> {
    let name = &plan.command[0];
    let folder = plan.folder.clone().unwrap_or_default();
    if name.contains('/') {
        return Some(folder.join(name)).filter(|file| is_program(file));
    }
    env::split_paths(&search_path(plan)).map(|at| folder.join(at).join(name)).find(|file| is_program(file))
}

/// Whether there is such a file.
pub fn can_be_found(plan: &Plan) -> bool {
    find(plan).is_some()
}

#[cfg(test)]
mod tests {
    use super::*;
    use crate::plan::read;

    fn found(lines: &str) -> Option<PathBuf> {
        find(&read("f", &format!("[a]\n{lines}\n")).unwrap()["a"])
    }

    #[test]
    fn a_program_is_found_as_the_system_finds_it() {
        assert!(found("command = ['sh']").is_some());
        assert_eq!(found("command = ['/bin/sh']"), Some("/bin/sh".into()));
        assert_eq!(found("command = ['./sh']\nfolder = '/bin'"), Some("/bin/./sh".into()));
        assert_eq!(found("command = ['sh']\nenv = ['PATH=/nowhere:/bin']"), Some("/bin/sh".into()));
        assert_eq!(found("command = ['sh']\nclear_env = true"), Some("/bin/sh".into()));
        for lines in [
            "command = ['/nowhere/at/all']",
            "command = ['sh']\nenv = ['PATH=/nowhere']",
            "command = ['/etc/passwd']",
            "command = ['/bin']",
        ] {
            assert_eq!(found(lines), None, "{lines}");
        }
    }
}

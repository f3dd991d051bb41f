//! A file that the program's user may not read.

use super::case::Case;
use super::comparison::Comparison;
use super::folder::{FOR_ALL, FOR_NOBODY};
use super::outcome::unread;
use crate::blocks::{cases, BY_REPORT};
use crate::random::Random;
use std::fs::File;
use std::os::unix::process::CommandExt;
use std::path::Path;
use std::process::Command;

/// The user whom every file's permissions bind.
const NOBODY: u32 = 65_534;

const PROGRAM: &str = "program";
const FORBIDDEN: &str = "forbidden";
const ALLOWED: &str = "allowed";

const RECORDS: usize = 100;

pub fn all() -> Vec<String> {
    vec![outcome()]
}

/// The file alone, and between others. The program stands in the folder, where its user finds it.
pub fn put(comparison: &mut Comparison, random: &mut Random) -> Result<(), String> {
    let trace = cases::trace(random, BY_REPORT, RECORDS);
    let folder = comparison.folder();
    let path = folder.path().to_path_buf();
    for name in [FORBIDDEN, ALLOWED] {
        folder.write(name, &trace)?;
    }
    folder.copy(PROGRAM, comparison.program())?;
    folder.allow(PROGRAM, FOR_ALL)?;
    folder.allow(ALLOWED, FOR_ALL)?;
    folder.allow(FORBIDDEN, FOR_NOBODY)?;
    let may_read = |name| shell_opens(&path, name);
    let is_forbidden = may_read(ALLOWED)? && !may_read(FORBIDDEN)?;
    let forbidden = || Case::unread(FORBIDDEN.into()).with([(outcome(), is_forbidden)]);
    let allowed = || Case::named(ALLOWED.into(), trace.clone());
    for cases in [vec![forbidden()], vec![allowed(), forbidden(), allowed()]] {
        let command = bound(&path, path.join(PROGRAM).as_ref());
        comparison.put_by(command, cases, None)?;
    }
    Ok(())
}

/// Whether the shell opens the file, called as the program is.
fn shell_opens(folder: &Path, name: &str) -> Result<bool, String> {
    let mut shell = bound(folder, "/bin/sh".as_ref());
    shell.args(["-c", "exec 2>&- <\"$0\"", name]);
    let status = shell.current_dir(folder).status();
    let status = status.map_err(|error| format!("the shell does not start: {error}"))?;
    Ok(status.success())
}

/// A command by a user whom permissions bind: the one who calls, or nobody.
fn bound(folder: &Path, program: &Path) -> Command {
    let mut command = Command::new(program);
    if File::open(folder.join(FORBIDDEN)).is_ok() {
        command.uid(NOBODY).gid(NOBODY);
    }
    command
}

fn outcome() -> String {
    unread("no permission, so the shell may not open it either")
}

#[cfg(test)]
mod tests {
    use super::*;
    use crate::reports::folder::Folder;

    #[test]
    fn permissions_bind_the_user_who_calls() {
        let folder = Folder::new("compare-forbidden").expect("a folder can be made");
        for (name, mode) in [(FORBIDDEN, FOR_NOBODY), (ALLOWED, FOR_ALL)] {
            folder.write(name, b"12345678").expect("it can be written");
            folder.allow(name, mode).expect("it can be allowed");
        }
        assert_eq!(shell_opens(folder.path(), ALLOWED), Ok(true));
        assert_eq!(shell_opens(folder.path(), FORBIDDEN), Ok(false));
        assert_eq!(shell_opens(folder.path(), "none"), Ok(false));
    }
}

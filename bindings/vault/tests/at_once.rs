//! Commands that run at once on one image and its journal come one after the other: no call is lost.
#![forbid(unsafe_code)]

use std::fs;
use std::path::Path;
use std::process::{Child, Command};

fn vault(folder: &Path, line: &str) -> Command {
    let mut command = Command::new(env!("CARGO_BIN_EXE_vault"));
    command.args(line.split_whitespace()).current_dir(folder);
    command
}

fn answer(folder: &Path, line: &str) -> String {
    let done = vault(folder, line).output().expect("vault runs");
    String::from_utf8(done.stdout).expect("text")
}

#[test]
fn calls_made_at_once_all_count() {
    let folder = Path::new(env!("CARGO_TARGET_TMPDIR")).join(format!("at_once-{}", std::process::id()));
    fs::create_dir_all(&folder).expect("a folder");
    answer(&folder, "new v --token 48 --holding 48:2=2000");
    answer(&folder, "call v initialize --owner 2 --token 48 --limit 1000");
    answer(&folder, "call v begin --journal j");
    let deposit = || vault(&folder, "call v deposit --from 2 --amount 1 --journal j").stdout(std::process::Stdio::null()).spawn();
    let all: Vec<Child> = (0..24).map(|_| deposit().expect("vault runs")).collect();
    for mut child in all {
        assert!(child.wait().expect("an end").success());
    }
    assert_eq!(answer(&folder, "call v balance --journal j"), "done: 24\n");
    assert_eq!(answer(&folder, "call v rollback --journal j"), "done\n");
    assert_eq!(answer(&folder, "call v balance"), "done: 0\n");
    fs::remove_dir_all(&folder).expect("the folder removed");
}

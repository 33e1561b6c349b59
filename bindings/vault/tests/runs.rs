//! Runs the commands of runs/*.run, each file in a fresh folder, and compares what they print with what is stored.
//! With VAULT_RUNS_WRITE=1 what they print is stored.
//!
//! A line `$ vault ...` is a command; the lines up to the next command or comment are its standard output, then its
//! standard error, then `[exit N]` where the exit status is not 0. Lines that begin with # are comments. Beside vault
//! there are: cp FROM TO; cmp FILE FILE, which prints whether they are the same; damage FILE OFFSET BYTE, which changes a
//! byte; truncate FILE LENGTH, which also makes longer, with zeros; write FILE TEXT, in which \n is a line feed; and ls,
//! which prints the names of all files.
#![forbid(unsafe_code)]

use std::fs;
use std::path::{Path, PathBuf};
use std::process::Command;

/// A part of a file of runs.
enum Part {
    /// A comment or a blank line.
    Text(String),
    /// A command with its output.
    Run { command: String, output: Vec<String> },
}

fn parts(text: &str) -> Vec<Part> {
    let mut parts = Vec::new();
    for line in text.lines() {
        match (line.strip_prefix("$ "), parts.last_mut()) {
            (Some(command), _) => parts.push(Part::Run { command: command.to_string(), output: Vec::new() }),
            (None, Some(Part::Run { output, .. })) if !line.starts_with('#') => output.push(line.to_string()),
            _ => parts.push(Part::Text(line.to_string())),
        }
    }
    parts.into_iter().flat_map(without_blank_end).collect()
}

/// Blank lines after an output part it from what follows.
fn without_blank_end(part: Part) -> Vec<Part> {
    match part {
        Part::Run { command, mut output } => {
            let kept = output.iter().rposition(|line| !line.is_empty()).map_or(0, |last| last + 1);
            let blank = output.split_off(kept).into_iter().map(Part::Text);
            [Part::Run { command, output }].into_iter().chain(blank).collect()
        }
        text => vec![text],
    }
}

fn run(folder: &Path, command: &str) -> Vec<String> {
    let words: Vec<&str> = command.split_whitespace().collect();
    let file = |i: usize| folder.join(words[i]);
    let number = |i: usize| words[i].parse::<usize>().expect("a number");
    match words[0] {
        "vault" => return run_vault(folder, &words[1..]),
        "cp" => fs::write(file(2), fs::read(file(1)).expect("a file")).expect("a copy"),
        "cmp" => return vec![compared(&file(1), &file(2)).to_string()],
        "damage" => change(&file(1), |bytes| bytes[number(2)] = number(3) as u8),
        "truncate" => change(&file(1), |bytes| bytes.resize(number(2), 0)),
        "write" => write(&file(1), command.splitn(3, ' ').nth(2).expect("a text")),
        "ls" => return names(folder),
        other => panic!("there is no helper {other}"),
    }
    Vec::new()
}

fn compared(one: &Path, other: &Path) -> &'static str {
    match fs::read(one).expect("a file") == fs::read(other).expect("a file") {
        true => "the same",
        false => "different",
    }
}

fn change(path: &Path, edit: impl FnOnce(&mut Vec<u8>)) {
    let mut bytes = fs::read(path).expect("a file");
    edit(&mut bytes);
    fs::write(path, bytes).expect("the file changed");
}

fn write(path: &Path, text: &str) {
    let lines: String = text.split("\\n").map(|line| format!("{}\n", line.trim())).collect();
    fs::write(path, lines).expect("a file written");
}

fn names(folder: &Path) -> Vec<String> {
    let entries = fs::read_dir(folder).expect("a folder");
    let mut names: Vec<String> = entries.map(|entry| entry.expect("an entry").file_name().into_string().expect("a name")).collect();
    names.sort();
    names
}

fn run_vault(folder: &Path, words: &[&str]) -> Vec<String> {
    let done = Command::new(env!("CARGO_BIN_EXE_vault")).args(words).current_dir(folder).output().expect("vault runs");
    let text = [done.stdout, done.stderr].map(|bytes| String::from_utf8(bytes).expect("text")).concat();
    let mut lines: Vec<String> = text.lines().map(str::to_string).collect();
    match done.status.code() {
        Some(0) => {}
        Some(status) => lines.push(format!("[exit {status}]")),
        None => lines.push("[killed]".to_string()),
    }
    lines
}

fn fresh_folder(name: &str) -> PathBuf {
    let folder = Path::new(env!("CARGO_TARGET_TMPDIR")).join(format!("{name}-{}", std::process::id()));
    let _ = fs::remove_dir_all(&folder);
    fs::create_dir_all(&folder).expect("a folder");
    folder
}

/// The file with the output of its commands as it is now, and what differs from the stored output.
fn rerun(path: &Path) -> (String, Vec<String>) {
    let folder = fresh_folder(&path.file_stem().expect("a name").to_string_lossy());
    let (mut now, mut differences) = (String::new(), Vec::new());
    for part in parts(&fs::read_to_string(path).expect("a file of runs")) {
        match part {
            Part::Text(line) => now.push_str(&format!("{line}\n")),
            Part::Run { command, output } => {
                let printed = run(&folder, &command);
                if printed != output {
                    differences.push(format!("$ {command}\nstored:\n{}\nprinted:\n{}\n", output.join("\n"), printed.join("\n")));
                }
                now.push_str(&format!("$ {command}\n"));
                printed.iter().for_each(|line| now.push_str(&format!("{line}\n")));
            }
        }
    }
    fs::remove_dir_all(&folder).expect("the folder removed");
    (now, differences)
}

#[test]
fn runs_print_what_is_stored() {
    let folder = Path::new(env!("CARGO_MANIFEST_DIR")).join("tests/runs");
    let mut paths: Vec<PathBuf> = fs::read_dir(folder).expect("runs").map(|entry| entry.expect("a run").path()).collect();
    paths.retain(|path| path.extension().is_some_and(|extension| extension == "run"));
    paths.sort();
    assert!(!paths.is_empty());
    let mut differences = Vec::new();
    for path in paths {
        let (now, found) = rerun(&path);
        let name = path.file_name().expect("a name").to_string_lossy().into_owned();
        match std::env::var_os("VAULT_RUNS_WRITE") {
            Some(_) => fs::write(&path, now).expect("the run stored"),
            None => differences.extend(found.iter().map(|difference| format!("{name}: {difference}"))),
        }
    }
    assert!(differences.is_empty(), "{}", differences.join("\n"));
}

#[test]
fn the_stored_vectors_pass() {
    let root = Path::new(env!("CARGO_MANIFEST_DIR")).join("../..");
    let lines = run_vault(&root, &["vectors"]);
    assert!(lines.len() == 1 && lines[0].ends_with(": all as stored"), "{lines:?}");
}

//! `docs/GUIDE.md`, followed word by word.

mod common;

use common::{program, repository, Folder};
use std::fs;
use std::os::unix::fs::symlink;
use std::path::Path;
use std::process::Command;

/// A thing that the guide asks for.
#[derive(Debug)]
enum Step {
    /// A file to write.
    Write { name: String, content: String },
    /// A command to type, and what is then seen.
    Type { command: String, seen: String },
}

/// The steps of the guide: blocks of rules, whose file is the last name in code before them, and
/// blocks of commands.
fn steps(guide: &str) -> Vec<Step> {
    let mut steps = Vec::new();
    let parts: Vec<&str> = guide.split("\n```").collect();
    assert_eq!(parts.len() % 2, 1, "every block is closed");
    for pair in parts.chunks_exact(2) {
        let [before, block] = pair else {
            unreachable!("chunks of two");
        };
        let (kind, content) = block.split_once('\n').expect("a block has lines");
        match kind {
            "rules" => steps.push(Step::Write {
                name: last_code(before),
                content: format!("{content}\n"),
            }),
            "console" => steps.extend(typed(content)),
            _ => panic!("a block of the kind `{kind}`"),
        }
    }
    steps
}

fn last_code(text: &str) -> String {
    let mut pieces = text.rsplit('`');
    pieces.nth(1).expect("a name in code").to_string()
}

fn typed(block: &str) -> Vec<Step> {
    let mut steps = Vec::new();
    for line in block.lines() {
        match (line.strip_prefix("$ "), steps.last_mut()) {
            (Some(command), _) => steps.push(Step::Type {
                command: command.to_string(),
                seen: String::new(),
            }),
            (None, Some(Step::Type { seen, .. })) => *seen += &format!("{line}\n"),
            (None, _) => panic!("a block begins with a command: {line}"),
        }
    }
    steps
}

const MARK: &str = "=== next ===";

/// One shell for all steps, so that a change of the folder stays.
fn script(steps: &[Step]) -> String {
    let line = |step: &Step| match step {
        Step::Write { name, content } => {
            format!("cat >{name} <<'END OF FILE'\n{content}END OF FILE\n")
        }
        Step::Type { command, .. } => format!("{command}\necho '{MARK}'\n"),
    };
    steps.iter().map(line).collect()
}

fn seen(folder: &Path, script: &str) -> Vec<String> {
    let path = std::env::var("PATH").unwrap_or_default();
    let own = program().parent().expect("a folder").display().to_string();
    let output = Command::new("sh")
        .args(["-c", &format!("exec 2>&1\n{script}")])
        .current_dir(folder)
        .env("PATH", format!("{own}:{path}"))
        .output()
        .expect("a shell");
    let all = String::from_utf8_lossy(&output.stdout).into_owned();
    let mark = format!("{MARK}\n");
    all.split(&mark).map(str::to_string).collect()
}

#[test]
fn every_block_is_as_it_says() {
    let folder = Folder::new("guide");
    symlink(repository().join("examples"), folder.path.join("examples")).expect("the examples");
    let guide = fs::read_to_string(repository().join("docs/GUIDE.md")).expect("the guide");
    let steps = steps(&guide);
    let mut seen = seen(&folder.path, &script(&steps)).into_iter();
    let mut commands = 0;
    for step in &steps {
        if let Step::Type {
            command,
            seen: expected,
        } = step
        {
            commands += 1;
            assert_eq!(seen.next().as_ref(), Some(expected), "{command}");
        }
    }
    assert!(commands > 10, "{commands} commands");
}

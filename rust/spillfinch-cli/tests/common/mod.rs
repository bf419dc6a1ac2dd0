//! The command as a person uses it: arguments and files in, both streams and the status out.

#![allow(dead_code)] // Each test file uses a part of this.

use std::fs;
use std::io::Write;
use std::path::{Path, PathBuf};
use std::process::{Command, Output, Stdio};

/// What the command said and how it ended.
#[derive(Debug, PartialEq, Eq)]
pub struct Said {
    pub out: String,
    pub err: String,
    pub status: i32,
}

impl Said {
    pub fn of(output: &Output) -> Said {
        let text = |bytes: &[u8]| String::from_utf8_lossy(bytes).into_owned();
        Said {
            out: text(&output.stdout),
            err: text(&output.stderr),
            status: output.status.code().unwrap_or(-1),
        }
    }

    /// That nothing but this was said, and the status is this.
    #[track_caller]
    pub fn is(&self, status: i32, out: &str, err: &str) {
        assert_eq!(
            self.out, out,
            "standard output; standard error: {}",
            self.err
        );
        assert_eq!(self.err, err, "standard error");
        assert_eq!(self.status, status);
    }
}

pub fn program() -> &'static Path {
    Path::new(env!("CARGO_BIN_EXE_spillfinch"))
}

pub fn repository() -> PathBuf {
    let root = Path::new(env!("CARGO_MANIFEST_DIR")).join("../..");
    fs::canonicalize(root).expect("the repository")
}

/// A folder of its own for a test, emptied before.
pub struct Folder {
    pub path: PathBuf,
}

impl Folder {
    pub fn new(name: &str) -> Folder {
        let path = Path::new(env!("CARGO_TARGET_TMPDIR")).join(name);
        if path.exists() {
            fs::remove_dir_all(&path).expect("the folder of an earlier test");
        }
        fs::create_dir_all(&path).expect("a folder for the test");
        Folder { path }
    }

    pub fn file(&self, name: &str, content: impl AsRef<[u8]>) -> &Folder {
        let path = self.path.join(name);
        fs::create_dir_all(path.parent().expect("a folder")).expect("a folder in it");
        fs::write(path, content).expect("a file of the test");
        self
    }

    pub fn read(&self, name: &str) -> String {
        let bytes = fs::read(self.path.join(name)).expect("a file of the test");
        String::from_utf8_lossy(&bytes).into_owned()
    }

    pub fn has(&self, name: &str) -> bool {
        self.path.join(name).exists()
    }

    /// The names of all entries, sorted.
    pub fn names(&self) -> Vec<String> {
        let entries = fs::read_dir(&self.path).expect("the folder of the test");
        let name = |entry: std::io::Result<fs::DirEntry>| {
            let name = entry.expect("an entry").file_name();
            name.to_string_lossy().into_owned()
        };
        let mut names: Vec<String> = entries.map(name).collect();
        names.sort();
        names
    }

    pub fn run(&self, arguments: &[&str]) -> Said {
        run_in(&self.path, arguments, b"")
    }

    pub fn run_with(&self, arguments: &[&str], input: impl AsRef<[u8]>) -> Said {
        run_in(&self.path, arguments, input.as_ref())
    }
}

/// Runs the command in a folder with this standard input.
pub fn run_in(folder: &Path, arguments: &[&str], input: &[u8]) -> Said {
    let mut child = Command::new(program())
        .args(arguments)
        .current_dir(folder)
        .stdin(Stdio::piped())
        .stdout(Stdio::piped())
        .stderr(Stdio::piped())
        .spawn()
        .expect("the command starts");
    let mut stdin = child.stdin.take().expect("a pipe");
    // The command may end without reading all of it.
    let _ = stdin.write_all(input);
    drop(stdin);
    Said::of(&child.wait_with_output().expect("the command ends"))
}

/// The device of the listing in document 01, with a node.
pub const DEVICE: &str = "action add\nnode 188 0\ndevice /devices/usb1/1-1/1-1:1.0/ttyUSB0\n  \
    subsystem tty\ndevice /devices/usb1/1-1\n  attribute serial=RC-0417\n";

pub const RULES: &str = "KERNEL==\"ttyUSB[0-9]*\", ATTRS{serial}==\"RC-0417\", \
    SYMLINK+=\"rope/trip%n\", MODE=\"0660\", GROUP=\"dialout\"\n";

pub const LISTING: &str =
    "visited 1\ntried 2\npriority 0\nmode 0660\ngroup dialout\nlink rope/trip0\n";

/// A folder with the rules, the device, and the recorded counter.
pub fn run_folder(name: &str) -> Folder {
    let folder = Folder::new(name);
    folder.file("rope.rules", RULES).file("tty.device", DEVICE);
    let recording = repository().join("examples/devices/counter.umockdev");
    fs::copy(recording, folder.path.join("counter.umockdev")).expect("the recording");
    folder
}

/// What is seen on a terminal, with these variables set.
pub fn on_terminal(folder: &Folder, arguments: &str, variables: &[(&str, &str)]) -> String {
    let command = format!("'{}' {arguments}", program().display());
    let shown = Command::new("script")
        .args(["-qec", &command, "/dev/null"])
        .current_dir(&folder.path)
        .env_remove("NO_COLOR")
        .env("TERM", "xterm")
        .envs(variables.iter().copied())
        .output()
        .expect("script, a terminal for the command");
    String::from_utf8_lossy(&shown.stdout).into_owned()
}

//! The program `pack`.

use std::fs;
use std::path::PathBuf;
use std::process::{Command, Output};

const FORM: &str = "device /devices/usb1/ttyUSB0\n  subsystem tty\n";

/// A directory of its own for each test, removed at the end.
struct Directory(PathBuf);

impl Directory {
    fn new(name: &str) -> Directory {
        let name = format!("reference-pack-{name}-{}", std::process::id());
        let directory = std::env::temp_dir().join(name);
        fs::create_dir_all(&directory).expect("the directory is made");
        Directory(directory)
    }

    fn file(&self, name: &str, content: &[u8]) -> String {
        let path = self.0.join(name);
        fs::write(&path, content).expect("the file is written");
        path.to_str().expect("a plain path").to_string()
    }
}

impl Drop for Directory {
    fn drop(&mut self) {
        fs::remove_dir_all(&self.0).expect("the directory is removed");
    }
}

fn pack(arguments: &[&str]) -> Output {
    Command::new(env!("CARGO_BIN_EXE_pack"))
        .args(arguments)
        .output()
        .expect("pack runs")
}

#[test]
fn packs_and_shows() {
    let directory = Directory::new("packs");
    let form = directory.file("form", FORM.as_bytes());
    let packed = pack(&["device", &form]);
    assert!(packed.status.success());
    let record = directory.file("record", &packed.stdout);
    let shown = pack(&["show", "device", &record]);
    assert_eq!(shown.stdout, format!("action add\n{FORM}").into_bytes());

    let out = directory.file("out", b"");
    let form = directory.file("outcome", b"tag seat\n");
    assert!(pack(&["outcome", &form, "-o", &out]).stdout.is_empty());
    let header = [0x20, 0, 0, 0, 0, 0, 0, 0, 0, 0, 0x20, 0, 0];
    let record = [&header, &b"\x04seat"[..]].concat();
    assert_eq!(fs::read(&out).expect("the record is written"), record);
    let shown = pack(&["show", "outcome", &out]);
    assert_eq!(shown.stdout, b"priority 0\ntag seat\n");
}

#[test]
fn packs_and_shows_a_sheet() {
    let directory = Directory::new("sheet");
    let form = "command a\n  success\n  output b\\x0a\ncommand c\n  failure\n";
    let packed = pack(&["sheet", &directory.file("form", form.as_bytes())]);
    assert_eq!(packed.stdout, b"\x02\x80\x20\x10ab\n\x00\x20\x00c");
    let sheet = directory.file("sheet", &packed.stdout);
    let shown = pack(&["show", "sheet", &sheet]);
    assert_eq!(shown.stdout, form.as_bytes());
    let faulty = directory.file("faulty", b"\x02");
    assert_eq!(pack(&["show", "sheet", &faulty]).status.code(), Some(1));
}

#[test]
fn tells_what_is_wrong() {
    let directory = Directory::new("tells");
    let form = directory.file("form", b"device /a\nattribute b\n");
    let output = pack(&["device", &form]);
    assert_eq!(output.status.code(), Some(1));
    let message = String::from_utf8(output.stderr).expect("a readable message");
    assert_eq!(
        message,
        format!("{form}: line 2: `attribute` takes key=value\n")
    );
    let output = pack(&["show", "outcome", &form]);
    assert_eq!(output.status.code(), Some(1));
    assert_eq!(pack(&["show"]).status.code(), Some(2));
    assert_eq!(pack(&["device"]).status.code(), Some(2));
    assert_eq!(pack(&["thing", &form]).status.code(), Some(2));
}

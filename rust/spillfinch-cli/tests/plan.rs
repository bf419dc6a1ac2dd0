//! Links planned for devices, as the command tells it.

mod common;

use common::{repository, run_in, Folder};
use std::fs;

const PATHS: [&str; 2] = [
    "/devices/pci0000:00/0000:00:14.0/usb1/1-2/1-2:1.0/ttyUSB0/tty/ttyUSB0",
    "/devices/pci0000:00/0000:00:14.0/usb1/1-3/1-3:1.0/ttyUSB1/tty/ttyUSB1",
];

const WANTED: &str = "rope/trip0 a.device rope/trip1 b.device";

fn words(line: &str) -> Vec<&str> {
    line.split(' ').collect()
}

/// Two counters, and rules that give them one link and one each.
fn folder(name: &str) -> Folder {
    let folder = Folder::new(name);
    for file in ["counters.rules", "a.device", "b.device"] {
        let example = repository().join("examples/link").join(file);
        folder.file(file, fs::read(example).expect("an example"));
    }
    folder
}

/// A device of that path, alone.
fn device_at(path: &str) -> String {
    format!("action add\ndevice {path}\n")
}

#[test]
fn a_plan_that_is_checked_and_run() {
    let folder = folder("plan");
    let said = folder.run(&words(&format!("plan {WANTED}")));
    assert_eq!((said.status, said.err.as_str()), (0, ""));
    for (line, link) in said.out.lines().zip(["rope/trip0", "rope/trip1"]) {
        assert!(line.ends_with(&format!("SYMLINK=\"{link}\"")), "{line}");
    }
    folder.file("plan.rules", &said.out);
    let check = format!("plan --check plan.rules {WANTED}");
    folder
        .run(&words(&check))
        .is(0, "2 devices: 2 as wanted, 0 not\n", "");
    let check = words("plan --check - rope/trip1 b.device");
    let one = "1 device: 1 as wanted, 0 not\n";
    folder.run_with(&check, &said.out).is(0, one, "");
    let check = words("check --format=short plan.rules");
    folder
        .run(&check)
        .is(0, "1 file: 0 faults, 0 warnings\n", "");
    for (device, link) in [("a", "trip0"), ("b", "trip1")] {
        let run = format!("run plan.rules --device {device}.device");
        let said = folder.run(&words(&run));
        let links: Vec<&str> = said
            .out
            .lines()
            .filter(|line| line.starts_with("link"))
            .collect();
        assert_eq!(links, [format!("link rope/{link}")]);
    }
}

#[test]
fn the_example() {
    let line = "plan rope/trip0 examples/link/a.device rope/trip1 examples/link/b.device";
    let said = run_in(&repository(), &words(line), b"");
    assert_eq!(said.status, 0, "{}", said.err);
    for (line, path) in said.out.lines().zip(PATHS) {
        assert!(line.starts_with(&format!("DEVPATH==\"{path}\"")), "{line}");
    }
    assert_eq!(said.out.lines().count(), 2);
}

#[test]
fn devices_of_a_recording() {
    let recording = "examples/devices/counter.umockdev";
    let usb = "/devices/pci0000:00/0000:00:14.0/usb1/1-2";
    let line = format!("plan counter {recording} bus {recording}:{usb}");
    let said = run_in(&repository(), &words(&line), b"");
    assert_eq!((said.status, said.err.as_str()), (0, ""));
    let check = line.replacen("plan", "plan --check -", 1);
    let said = run_in(&repository(), &words(&check), said.out.as_bytes());
    said.is(0, "2 devices: 2 as wanted, 0 not\n", "");
}

#[test]
fn the_most_devices() {
    let folder = Folder::new("plan_most");
    let mut line = String::from("plan");
    for number in 10..26 {
        let path = format!("/{number}{}", "p".repeat(125));
        folder.file(&format!("{number}"), device_at(&path));
        line += &format!(" {number}{} {number}", "l".repeat(126));
    }
    let said = folder.run(&words(&line));
    assert_eq!((said.status, said.err.as_str()), (0, ""));
    folder.file("plan.rules", &said.out);
    let check = line.replacen("plan", "plan --check plan.rules", 1);
    folder
        .run(&words(&check))
        .is(0, "16 devices: 16 as wanted, 0 not\n", "");
    folder.file("26", device_at("/26"));
    let refused = "refused 7: the set is over its size, or is not laid out as one: \
        a plan has 1 to 16 devices, with links of at most 255 bytes\n";
    folder
        .run(&words(&format!("{line} 26 26")))
        .is(1, "", refused);
    let long = format!("plan {} 26", "l".repeat(256));
    folder.run(&words(&long)).is(1, "", refused);
}

#[test]
fn rules_that_name_otherwise() {
    let folder = folder("plan_check");
    let check = |rules: &str| {
        folder.file("some.rules", rules);
        folder.run(&words(&format!("plan --check some.rules {WANTED}")))
    };
    check("SYMLINK=\"rope/trip1\"\n").is(
        1,
        "a.device: wanted rope/trip0, got rope/trip1\n2 devices: 1 as wanted, 1 not\n",
        "",
    );
    check("SYMLINK=\"rope/trip%n more\"\n").is(
        1,
        "a.device: wanted rope/trip0, got rope/trip0 more\n\
         b.device: wanted rope/trip1, got rope/trip1 more\n2 devices: 0 as wanted, 2 not\n",
        "",
    );
    check("").is(
        1,
        "a.device: wanted rope/trip0, got no link\n\
         b.device: wanted rope/trip1, got no link\n2 devices: 0 as wanted, 2 not\n",
        "",
    );
    check("SYMLINK=\"rope/trip%n\", MODE=\"0660\", RUN+=\"x\"\n").is(
        0,
        "2 devices: 2 as wanted, 0 not\n",
        "",
    );
}

#[test]
fn rules_that_are_refused() {
    let folder = folder("plan_check_refused");
    let check = |rules: &str| {
        folder.file("some.rules", rules);
        folder.run(&words(&format!("plan --check some.rules {WANTED}")))
    };
    let both = |number: u8| {
        format!(
            "a.device: wanted rope/trip0, got refused {number}\n\
             b.device: wanted rope/trip1, got refused {number}\n2 devices: 0 as wanted, 2 not\n"
        )
    };
    check("SYMLINK=\"rope/trip%n\"\nGOTO=\"end\"\n").is(
        1,
        &both(19),
        "some.rules:2: refused 19: GOTO without a later LABEL\n",
    );
    check(&"\n".repeat(32_769)).is(
        1,
        &both(2),
        "some.rules: refused 2: the rules text is longer than 32768 bytes\n",
    );
    check("SYMLINK=\"rope/trip%n\"\nKERNEL==\"ttyUSB1\", PROGRAM==\"id\"\n").is(
        1,
        "b.device: wanted rope/trip1, got refused 35\n2 devices: 1 as wanted, 1 not\n",
        "some.rules:2: refused 35: command that is not on the answer sheet; no sheet is given, \
         for b.device\n",
    );
}

/// A text that names the devices may exist all the same.
#[test]
fn no_plan() {
    let folder = folder("plan_none");
    folder
        .file("long", device_at(&format!("/{}", "p".repeat(128))))
        .file("most", device_at(&format!("/{}", "p".repeat(127))))
        .file("plus", device_at("/a+b"));
    let none = |wanted: &str, grounds: &str| {
        let said = folder.run(&words(&format!("plan {wanted}")));
        let message = format!("there is no plan for these devices and links:\n{grounds}");
        said.is(1, "", &message);
    };
    none(
        "x a.device x b.device",
        "  link x: wanted for a.device and b.device\n",
    );
    none(
        "x a.device y b.device z a.device",
        "  a.device and a.device have the same path\n",
    );
    none(
        "$kernel a.device",
        "  link $kernel: not a clean link name of 1 to 128 bytes\n",
    );
    none(
        "/x a.device",
        "  link /x: not a clean link name of 1 to 128 bytes\n",
    );
    none(
        "x/.. a.device",
        "  link x/..: not a clean link name of 1 to 128 bytes\n",
    );
    let long = "l".repeat(129);
    none(
        &format!("{long} a.device"),
        &format!("  link {long}: not a clean link name of 1 to 128 bytes\n"),
    );
    let path = "its path has more than 128 bytes, or others than A-Z a-z 0-9 / : . _ -";
    none("x long", &format!("  long: {path}\n"));
    none(
        "x plus / long",
        &format!("  plus: {path}\n  link /: not a clean link name of 1 to 128 bytes\n  long: {path}\n"),
    );
    let empty = folder.run(&["plan", "", "a.device"]);
    assert!(
        empty
            .err
            .ends_with("  link : not a clean link name of 1 to 128 bytes\n"),
        "{}",
        empty.err
    );
    assert_eq!(folder.run(&words("plan x most")).status, 0);
    let rules = "SYMLINK=\"x\"\n";
    folder
        .run_with(&words("plan --check - x a.device x b.device"), rules)
        .is(0, "2 devices: 2 as wanted, 0 not\n", "");
}

#[test]
fn refused() {
    let folder = folder("plan_refused");
    folder.file("bad.device", b"\x10\0\0");
    let message = "bad.device: refused 3: the device record is faulty\n";
    folder
        .run(&words("plan x a.device y bad.device z bad.device"))
        .is(1, "", message);
    folder
        .run(&words(
            "plan --check counters.rules x a.device y bad.device",
        ))
        .is(1, "", message);
}

#[test]
fn bad_usage() {
    let folder = folder("plan_usage");
    let run = |line: &str| folder.run(&words(line));
    run("plan x a.device y").is(2, "", "spillfinch: y: no device follows it\n");
    assert_eq!(run("plan").status, 2);
    assert_eq!(run("plan x").status, 2);
    assert_eq!(run("plan --check counters.rules").status, 2);
    run("plan x gone").is(2, "", "spillfinch: gone: No such file or directory\n");
    run("plan --check gone x a.device").is(2, "", "spillfinch: gone: No such file or directory\n");
    run("plan --check - x -").is(2, "", "spillfinch: standard input can be read only once\n");
}

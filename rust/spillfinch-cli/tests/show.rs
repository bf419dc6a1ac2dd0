//! `spillfinch show`.

mod common;

use common::{repository, run_in, Folder, DEVICE};

#[test]
fn keys_ready_to_paste() {
    let folder = Folder::new("show_keys");
    let form = "action change\nnode 4 64\nproperty ID=a\\x20\nproperty Q=\\x22*\\x22\n\
        device /devices/pnp0/tty/ttyS0\n  subsystem tty\n  attribute irq=4\\x0a\n  \
        attribute name=[a]?*\\x5c\"\ndevice /devices/pnp0\n  driver serial\n";
    folder.file("a.device", form);
    let expected = r#"# /devices/pnp0/tty/ttyS0, the device of the event; node 4:64
ACTION=="change"
DEVPATH=="/devices/pnp0/tty/ttyS0"
KERNEL=="ttyS0"
SUBSYSTEM=="tty"
ATTR{irq}=="4"
ATTR{name}=="[[]a][?][*]\\""
ENV{ID}=="a "
ENV{Q}=="\"[*]\""

# /devices/pnp0, a parent
KERNELS=="pnp0"
DRIVERS=="serial"
"#;
    folder.run(&["show", "a.device"]).is(0, expected, "");
    folder.run_with(&["show", "-"], form).is(0, expected, "");
    let said = folder.run_with(&["check", "--allow=E4,E23", "-"], expected);
    said.is(0, "1 file: 0 faults, 0 warnings\n", "");
}

#[test]
fn values_that_no_plain_string_holds() {
    let folder = Folder::new("show_unwritable");
    let long = "*".repeat(86);
    let form = format!(
        "property A=b\\x0a\nproperty B=a|b\nproperty C=d\\x5c\nproperty D={long}\n\
         property E}}=f\nproperty G\\x0a=h\ndevice /a\n  attribute x=1\\x0a2\\x0a\n"
    );
    folder.file("a.device", form);
    let expected =
        "# /a, the device of the event\nACTION==\"add\"\nDEVPATH==\"/a\"\nKERNEL==\"a\"\n\
        ATTR{x}==e\"1\\n2\"\n\
        ENV{A}==e\"b\\n\"\n\
        # ENV{B} cannot be written here: it holds a `|`, which separates alternatives\n\
        ENV{C}==e\"d\\\\\"\n\
        # ENV{D} cannot be written here: it is longer than a value of a rule\n\
        # ENV{E}} cannot be written here: its name holds a `}` or a newline\n\
        # ENV{G\\x0a} cannot be written here: its name holds a `}` or a newline\n";
    folder.run(&["show", "a.device"]).is(0, expected, "");
}

#[test]
fn a_recorded_device() {
    let picked = "examples/devices/counter.umockdev:/devices/pci0000:00/0000:00:14.0/usb1/1-2";
    let said = run_in(&repository(), &["show", picked], b"");
    assert_eq!(said.status, 0);
    assert!(
        said.out.contains("\nATTR{serial}==\"RC-0417\"\n"),
        "{}",
        said.out
    );
    let said = run_in(
        &repository(),
        &["show", "examples/devices/counter.umockdev"],
        b"",
    );
    assert!(
        said.out.contains("\nATTRS{serial}==\"RC-0417\"\n"),
        "{}",
        said.out
    );
}

#[test]
fn devices_at_fault() {
    let folder = Folder::new("show_faults");
    folder
        .file("packed", b"\x10\0\0")
        .file("form", "device a\n");
    let said = folder.run(&["show", "packed"]);
    said.is(1, "", "packed: refused 3: the device record is faulty\n");
    let said = folder.run(&["show", "form"]);
    let message = "spillfinch: form:1: a path starts with `/` and has no empty component\n";
    said.is(2, "", message);
    let said = folder.run(&["show", "none"]);
    said.is(2, "", "spillfinch: none: No such file or directory\n");
    folder.file("tty.device", DEVICE);
    let said = folder.run(&["show", "tty.device:/devices"]);
    said.is(
        2,
        "",
        "spillfinch: tty.device: only a recording holds several devices\n",
    );
}

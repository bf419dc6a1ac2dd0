//! The text form of records.

mod common;

use common::*;
use reference::generate;
use reference::outcome::{Closed, Outcome, RunType, Watch};
use reference::sizes::CHAIN;
use reference::text_form::{parse_device, parse_outcome, show_device, show_outcome};
use reference::Device;

const README: &str = include_str!("../README.md");

/// The block of the README that is marked with the word.
fn example(word: &str) -> &'static str {
    let start = format!("```{word}\n");
    let (_, after) = README.split_once(&start).expect("the block is there");
    after.split_once("```").expect("the block ends").0
}

fn device_error(form: &str) -> String {
    parse_device(form.as_bytes()).expect_err(form).to_string()
}

fn outcome_error(form: &str) -> String {
    parse_outcome(form.as_bytes()).expect_err(form).to_string()
}

#[test]
fn device_of_the_readme() {
    let device = parse_device(example("device").as_bytes()).expect("a sound form");
    let mut expected = tty_usb0();
    expected.chain[1].subsystem.clear();
    expected.chain[1].driver.clear();
    assert_eq!(device, expected);
    let rule = b"KERNEL==\"ttyUSB[0-9]*\", ATTRS{serial}==\"RC-0417\", \
                 SYMLINK+=\"rope/trip%n\", MODE=\"0660\", GROUP=\"dialout\"";
    let listing = reference::listing(rule, &device.encode(), None, None);
    let expected = "visited 1\ntried 2\npriority 0\nmode 0660\ngroup dialout\nlink rope/trip0\n";
    assert_eq!(string(&listing), expected);
    assert_eq!(show_device(&device), example("device"));
}

#[test]
fn outcome_of_the_readme() {
    let outcome = parse_outcome(example("outcome").as_bytes()).expect("a sound form");
    assert_eq!(
        outcome.closed,
        Closed {
            mode: true,
            ..Closed::default()
        }
    );
    assert_eq!((outcome.owner.as_ref(), outcome.priority), (None, -3));
    assert_eq!(outcome.watch, Watch::Watch);
    assert_eq!(outcome.output, b"RC-0417");
    assert_eq!(outcome.properties, [property("ID_SERIAL", "RC-0417 ")]);
    assert_eq!(outcome.runs[0].run_type, RunType::Program);
    assert_eq!(outcome.runs[0].matched, 2);
    assert_eq!(outcome.runs[0].template.written(), b"/bin/trip %k %b");
    assert_eq!(show_outcome(&outcome), example("outcome"));
}

#[test]
fn sound_records_come_back_from_their_form() {
    let mut devices = 0;
    let mut outcomes = 0;
    for seed in 0..3_000 {
        let case = generate::case(seed);
        if let Some(device) = Device::decode(&case.device) {
            devices += 1;
            let form = show_device(&device);
            assert_eq!(parse_device(form.as_bytes()), Ok(device), "{form}");
        }
        if let Some(outcome) = Outcome::decode(&case.outcome, CHAIN) {
            outcomes += 1;
            let form = show_outcome(&outcome);
            assert_eq!(parse_outcome(form.as_bytes()), Ok(outcome), "{form}");
        }
    }
    assert!(devices > 2_000 && outcomes > 2_000);
}

#[test]
fn forms_may_be_written_loosely() {
    let form = "# a comment\n\n  device   /a/b \n\tattribute  x y= 1 \t\r\nsubsystem\n";
    let device = parse_device(form.as_bytes()).expect("a sound form");
    assert_eq!(device.chain[0].path, b"/a/b");
    assert_eq!(device.chain[0].attributes, [property("x y", " 1")]);
    let form = "property A\\x3db=c=d\ndevice /a";
    let device = parse_device(form.as_bytes()).expect("a sound form");
    assert_eq!(device.properties, [property("A=b", "c=d")]);
    assert_eq!(parse_outcome(b""), Ok(Outcome::default()));
}

#[test]
fn errors_of_devices() {
    for (form, expected) in [
        ("device /a\nfoo", "line 2: unknown word `foo`"),
        ("", "line 1: no `device`"),
        ("action hide\ndevice /a", "line 1: no such action"),
        ("action add\naction add", "line 2: a second `action`"),
        (
            "node 1\ndevice /a",
            "line 1: `node` takes a major and a minor number",
        ),
        (
            "node 4096 0\ndevice /a",
            "line 1: `4096` is no number from 0 to 4095",
        ),
        (
            "node 0 1048576\ndevice /a",
            "line 1: `1048576` is no number from 0 to 1048575",
        ),
        (
            "device /a\nproperty A=b",
            "line 2: `property` comes before the first `device`",
        ),
        (
            "attribute a=b",
            "line 1: `attribute` comes after the `device`",
        ),
        ("device", "line 1: the path has 0 bytes; it takes 1 to 256"),
        ("device a/b", "line 1: a path starts with `/`"),
        ("device /a/", "line 1: a path starts with `/`"),
        ("device /a/b\n\ndevice /b", "line 3: a parent's path is"),
        (
            "property A\ndevice /a",
            "line 1: `property` takes key=value",
        ),
        (
            "property =b\ndevice /a",
            "line 1: the key has 0 bytes; it takes 1 to 64",
        ),
        (
            "property A=1\nproperty A=2",
            "line 2: a second `property` with this key",
        ),
        (
            "property A=\\\ndevice /a",
            "line 1: a backslash stands only in `\\xHH`",
        ),
        (
            "property A=\\xg0\ndevice /a",
            "line 1: `\\x` takes two hexadecimal digits",
        ),
        (
            "property A=\\x00\ndevice /a",
            "line 1: a record holds no NUL",
        ),
    ] {
        let error = device_error(form);
        assert!(error.starts_with(expected), "{form}: {error}");
    }
    let long = format!("device /a\nattribute a={}", "v".repeat(257));
    let expected = "line 2: the value has 257 bytes; it takes 0 to 256";
    assert_eq!(device_error(&long), expected);
    let many: String = (0..33).map(|i| format!("property {i}=\n")).collect();
    assert_eq!(device_error(&many), "line 33: at most 32 of `property`");
    let attributes: String = (0..31)
        .map(|i| format!("attribute {i}={}\n", "v".repeat(256)))
        .collect();
    let devices = ["/a/b/c", "/a/b", "/a"].map(|path| format!("device {path}\n{attributes}"));
    let error = device_error(&devices.concat());
    assert!(error.ends_with("bytes; at most 16384"), "{error}");
}

#[test]
fn errors_of_outcomes() {
    for (form, expected) in [
        ("\nlinks a", "line 2: unknown word `links`"),
        ("closed doors", "line 1: `closed` takes links"),
        ("closed\nclosed", "line 2: a second `closed`"),
        ("owner a b", "line 1: `owner` takes 1 to 32 letters"),
        ("group", "line 1: `group` takes 1 to 32 letters"),
        ("mode 888", "line 1: a mode has 1 to 4 octal digits"),
        ("mode 5\nmode 5", "line 2: a second `mode`"),
        (
            "mode 0666",
            "line 1: a mode gives others no write permission",
        ),
        (
            "priority 2147483648",
            "line 1: `2147483648` is no number from -2147483648 to",
        ),
        ("watch 1", "line 1: `watch` stands alone"),
        ("watch\nnowatch", "line 2: a second `watch` or `nowatch`"),
        ("output a\noutput b", "line 2: a second `output`"),
        ("output \\x00", "line 1: a record holds no NUL"),
        ("link /a", "line 1: a link starts with no `/`"),
        ("link a\nlink a", "line 2: the same `link` a second time"),
        ("tag", "line 1: the tag has 0 bytes; it takes 1 to 64"),
        ("tag a\ntag a", "line 2: the same `tag` a second time"),
        ("program x", "line 1: `program` takes a place"),
        ("builtin 17 x", "line 1: `17` is no number from 0 to 16"),
        ("builtin 0 %x", "line 1: the template is not well formed"),
    ] {
        let error = outcome_error(form);
        assert!(error.starts_with(expected), "{form}: {error}");
    }
    let many: String = (0..17).map(|i| format!("link {i}\n")).collect();
    assert_eq!(outcome_error(&many), "line 17: at most 16 of `link`");
    let many = "program 0 x\n".repeat(17);
    assert_eq!(outcome_error(&many), "line 17: at most 16 runs");
}

//! What is said of text forms that describe no record.

use recordings::form::{read_device, read_outcome, read_sheet, FormError};
use recordings::Node;

fn lines(first: &str, line: impl Fn(usize) -> String, count: usize) -> String {
    let lines: String = (0..count).map(|index| line(index) + "\n").collect();
    format!("{first}{lines}")
}

fn message<T: std::fmt::Debug>(read: Result<T, FormError>) -> String {
    read.expect_err("the form is at fault").to_string()
}

#[test]
fn a_form_with_all_its_words() {
    let form = b"# a counter\r\n\n action  change \nnode 188\t3\nproperty A=b=c\\x20\n\
        device /devices/usb1/ttyUSB0\r\n\tsubsystem tty\n  driver\ndevice /devices/usb1\n\
        attribute \\x3d=\\x5c";
    let device = read_device(form).expect("a sound form");
    assert_eq!(device.action.name(), "change");
    let node = Node {
        major: 188,
        minor: 3,
    };
    assert_eq!(device.node, Some(node));
    assert_eq!(device.properties[0].name, b"A");
    assert_eq!(device.properties[0].value, b"b=c ");
    assert_eq!(device.chain[0].name(), b"ttyUSB0");
    assert_eq!(device.chain[0].subsystem, b"tty");
    assert_eq!(device.chain[0].driver, b"");
    assert_eq!(device.chain[1].attributes[0].name, b"=");
    assert_eq!(device.chain[1].attributes[0].value, b"\\");
}

#[test]
fn devices_at_fault() {
    let property = |index| format!("property k{index}=");
    let attribute = |index| format!("attribute k{index}=");
    let child = "/a".repeat(17);
    let parent = |index: usize| format!("device {}", &child[..34 - 2 * index]);
    let long = |index| format!("property k{index}={}", "v".repeat(256));
    let attributes = |index| format!("attribute k{index:02}={}", "v".repeat(256));
    let full = lines(&(lines("", long, 32) + "device /a/b\n"), attributes, 31);
    let table = [
        ("", "line 1: no `device`"),
        ("action add\n", "line 2: no `device`"),
        ("action jump\ndevice /a", "line 1: `action` takes one of add, remove, change, move, online, offline, bind, unbind"),
        ("action add\naction add", "line 2: a second `action`"),
        ("node 1", "line 1: `node` takes a major and a minor number"),
        ("node 1 2 3", "line 1: `node` takes a major and a minor number"),
        ("node 4096 0", "line 1: `4096` is no number from 0 to 4095"),
        ("node 0 1048576", "line 1: `1048576` is no number from 0 to 1048575"),
        ("node 1 2\nnode 1 2", "line 2: a second `node`"),
        ("property A", "line 1: `property` takes name=value"),
        ("property =b", "line 1: the name has 0 bytes; it takes 1 to 64"),
        ("property A=\nproperty A=", "line 2: a second `property` of this name"),
        ("property A=\\n", "line 1: a backslash stands only in `\\xHH`; write it as `\\x5c`"),
        ("property A=\\x4", "line 1: a backslash stands only in `\\xHH`; write it as `\\x5c`"),
        ("property A=\\xg0", "line 1: `\\x` takes two hexadecimal digits"),
        ("property A=\\x00", "line 1: a record holds no NUL byte"),
        ("device a", "line 1: a path starts with `/` and has no empty component"),
        ("device /", "line 1: a path starts with `/` and has no empty component"),
        ("device /a//b", "line 1: a path starts with `/` and has no empty component"),
        ("device", "line 1: the device has 0 bytes; it takes 1 to 256"),
        ("device /a\ndevice /b", "line 2: a parent's path is the path before it, cut before one of its later slashes"),
        ("device /a\nproperty A=", "line 2: `property` comes before the first `device`"),
        ("driver a", "line 1: `driver` comes behind its `device`"),
        ("device /a\nsubsystem a\nsubsystem a", "line 3: a second `subsystem`"),
        ("device /a\ndriver a\ndriver a", "line 3: a second `driver`"),
        ("device /a\nattribute a", "line 2: `attribute` takes name=value"),
        ("drivers a", "line 1: unknown word `drivers`; a device has action, node, property, device, subsystem, driver and attribute"),
        ("\u{e9} a", "line 1: unknown word `\\xc3\\xa9`; a device has action, node, property, device, subsystem, driver and attribute"),
        (&lines("", property, 33), "line 33: more than 32 lines of `property`"),
        (&lines("device /a\n", attribute, 32), "line 33: more than 31 lines of `attribute`"),
        (&lines("", parent, 17), "line 17: more than 16 lines of `device`"),
        (&full, "line 65: the packed record has 16448 bytes; it takes 16384"),
    ];
    for (form, expected) in table {
        assert_eq!(message(read_device(form.as_bytes())), expected);
    }
    let long = format!("device /a\nsubsystem {}", "s".repeat(64));
    let expected = "line 2: the subsystem has 64 bytes; it takes 0 to 63";
    assert_eq!(message(read_device(long.as_bytes())), expected);
}

#[test]
fn outcomes_at_fault() {
    let link = |index| format!("link l{index}");
    let run = |_| String::from("program 0 a");
    let table = [
        ("closed link", "line 1: `closed` takes some of links, tags, runs, owner, group, mode"),
        ("closed\nclosed", "line 2: a second `closed`"),
        ("owner a b", "line 1: `owner` takes 1 to 32 letters, digits, `_`, `-` or `.`"),
        ("group", "line 1: `group` takes 1 to 32 letters, digits, `_`, `-` or `.`"),
        ("owner a\nowner a", "line 2: a second `owner`"),
        ("mode 888", "line 1: `mode` takes 1 to 4 octal digits"),
        ("mode 00660", "line 1: `mode` takes 1 to 4 octal digits"),
        ("mode", "line 1: `mode` takes 1 to 4 octal digits"),
        ("mode 1\nmode 1", "line 2: a second `mode`"),
        ("priority 2147483648", "line 1: `2147483648` is no number from -2147483648 to 2147483647"),
        ("priority 1\npriority 1", "line 2: a second `priority`"),
        ("watch yes", "line 1: `watch` stands alone"),
        ("nowatch no", "line 1: `nowatch` stands alone"),
        ("watch\nwatch", "line 2: a second `watch` or `nowatch`"),
        ("nowatch\nwatch", "line 2: a second `watch` or `nowatch`"),
        ("output \\x00", "line 1: a record holds no NUL byte"),
        ("output a\noutput a", "line 2: a second `output`"),
        ("link /a", "line 1: a link starts with no `/` and has no empty, `.` or `..` component"),
        ("link a/../b", "line 1: a link starts with no `/` and has no empty, `.` or `..` component"),
        ("link a\nlink a", "line 2: the same `link` a second time"),
        ("tag a\ntag a", "line 2: the same `tag` a second time"),
        ("program 0", "line 1: `program` takes a place (0 for none) and a template"),
        ("builtin 17 a", "line 1: `17` is no number from 0 to 16"),
        ("links a", "line 1: unknown word `links`; an outcome has closed, owner, group, mode, priority, watch, nowatch, output, link, property, tag, program and builtin"),
        (&lines("", link, 17), "line 17: more than 16 lines of `link`"),
        (&lines("", run, 17), "line 17: more than 16 runs"),
    ];
    for (form, expected) in table {
        assert_eq!(message(read_outcome(form.as_bytes())), expected);
    }
    let long = format!("output {}", "o".repeat(513));
    let expected = "line 1: the output has 513 bytes; it takes 0 to 512";
    assert_eq!(message(read_outcome(long.as_bytes())), expected);
    let long = format!("tag {}", "t".repeat(65));
    let expected = "line 1: the tag has 65 bytes; it takes 1 to 64";
    assert_eq!(message(read_outcome(long.as_bytes())), expected);
}

#[test]
fn a_sheet_with_all_its_words() {
    let form = b"# asked\r\n\ncommand /bin/id  ttyUSB0 \n\tfailure\noutput\ncommand\\x20x\n";
    let fault = "line 6: unknown word `command\\x5cx20x`; an answer sheet has command, success, \
                 failure and output";
    assert_eq!(message(read_sheet(form)), fault);
    let form =
        b"command /bin/id  ttyUSB0 \n\tfailure\noutput\ncommand \\x20x\noutput a \\x0a\nsuccess";
    let sheet = read_sheet(form).expect("a sound form");
    assert_eq!(sheet.replies[0].command, b"/bin/id  ttyUSB0");
    assert!(!sheet.replies[0].is_success);
    assert_eq!(sheet.replies[0].output, b"");
    assert_eq!(sheet.replies[1].command, b" x");
    assert!(sheet.replies[1].is_success);
    assert_eq!(sheet.replies[1].output, b"a \n");
    assert_eq!(read_sheet(b"").expect("no reply").replies, []);
}

#[test]
fn sheets_at_fault() {
    let command = |index| format!("command c{index}\nsuccess");
    let full = |index| {
        let (command, output) = ("c".repeat(500), "o".repeat(512));
        format!("command {command}{index}\nsuccess\noutput {output}")
    };
    let table = [
        ("success", "line 1: `success` comes behind its `command`"),
        ("output a", "line 1: `output` comes behind its `command`"),
        (
            "command",
            "line 1: the command has 0 bytes; it takes 1 to 512",
        ),
        ("command a", "line 1: no `success` or `failure` for `a`"),
        (
            "command a\ncommand b\nsuccess",
            "line 2: no `success` or `failure` for `a`",
        ),
        (
            "command a\nsuccess\nfailure",
            "line 3: a second `success` or `failure`",
        ),
        ("command a\nsuccess well", "line 2: `success` stands alone"),
        ("command a\nfailure 1", "line 2: `failure` stands alone"),
        (
            "command a\nsuccess\noutput a\noutput a",
            "line 4: a second `output`",
        ),
        (
            "command a\nsuccess\ncommand a",
            "line 3: the same `command` a second time",
        ),
        ("command a\\x00", "line 1: a record holds no NUL byte"),
        (
            "command a\noutput \\x00",
            "line 2: a record holds no NUL byte",
        ),
        (
            &lines("", command, 65),
            "line 129: more than 64 lines of `command`",
        ),
        (
            &lines("", full, 33),
            "line 100: the packed sheet has 33552 bytes; it takes 32768",
        ),
    ];
    for (form, expected) in table {
        assert_eq!(message(read_sheet(form.as_bytes())), expected);
    }
    let long = format!("command a\nsuccess\noutput {}", "o".repeat(513));
    let expected = "line 3: the output has 513 bytes; it takes 0 to 512";
    assert_eq!(message(read_sheet(long.as_bytes())), expected);
}

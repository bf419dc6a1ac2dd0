//! Cases at and just past each limit, and records with a single fault.

use super::contest_edges::CONTEST_EDGES;
use super::each_edges::EACH_EDGES;
use super::edge_cases::*;
use super::file_edges::FILE_EDGES;
use super::plan_edges::PLAN_EDGES;
use super::rng::Rng;
use super::rules_text::broken;
use super::sheet_edges::SHEET_EDGES;
use super::strike_edges::STRIKE_EDGES;
use super::Case;
use crate::outcome::Watch;
use crate::property::Property;

pub struct Edge {
    pub name: &'static str,
    /// The number of the first refusal of fresh, run, the close after it, and what else is asked
    /// for; 0 without one.
    pub number: u32,
    pub build: fn(&mut Rng) -> Case,
}

pub const fn edge(name: &'static str, number: u32, build: fn(&mut Rng) -> Case) -> Edge {
    Edge {
        name,
        number,
        build,
    }
}

pub const TEXT_EDGES: &[Edge] = &[
    edge("line of 1,024", 0, |rng| of_line(long_line(1_024), rng)),
    edge("line of 1,025", 10, |rng| of_line(long_line(1_025), rng)),
    edge("comment of 1,024", 0, |rng| of_line(comment(1_024), rng)),
    edge("comment of 1,025", 10, |rng| of_line(comment(1_025), rng)),
    edge("NUL in a rule", 10, |rng| of_line(b"TAG+=\"\0\"", rng)),
    edge("NUL in a comment", 10, |rng| of_line(b" #\0", rng)),
    edge("value of 256", 0, |rng| {
        of_line(env_line(marks(rng, 256)), rng)
    }),
    edge("value of 257", 14, |rng| {
        of_line(env_line(marks(rng, 257)), rng)
    }),
    edge("escaped value of 256", 0, |rng| {
        of_line(escaped_env_line("\\n", 256), rng)
    }),
    edge("escaped value of 257", 14, |rng| {
        of_line(escaped_env_line("\\n", 257), rng)
    }),
    edge("escaped value longer than a line", 10, |rng| {
        of_line(escaped_env_line("\\x41", 256), rng)
    }),
    edge("escaped backslash at the end", 0, |rng| {
        of_line(b"ENV{A}=e\"a\\\\\", TAG+=\"b\"", rng)
    }),
    edge("label found by its escape", 0, |rng| {
        of_line(b"GOTO=\"a\"\nMODE=\"8\"\nLABEL=e\"\\x61\"", rng)
    }),
    edge("newline and bad escape", 14, |rng| {
        of_line(b"ENV{A}=e\"\\n\\q\"", rng)
    }),
    edge("argument of 64", 0, |rng| of_line(env_argument(64), rng)),
    edge("argument of 65", 12, |rng| of_line(env_argument(65), rng)),
    edge("template argument of 64", 0, |rng| {
        of_line(template_argument(64), rng)
    }),
    edge("template argument of 65", 15, |rng| {
        of_line(template_argument(65), rng)
    }),
    edge("32 pairs", 0, |rng| of_line(pairs(32), rng)),
    edge("33 pairs", 16, |rng| of_line(pairs(33), rng)),
    edge("33rd pair unknown", 11, |rng| {
        of_line([pairs(32), b",NAME=\"x\"".to_vec()].concat(), rng)
    }),
    edge("33rd pair missing", 11, |rng| {
        of_line([pairs(32), b",".to_vec()].concat(), rng)
    }),
    edge("33 pairs and no comma", 16, |rng| {
        of_line([pairs(33), b"x".to_vec()].concat(), rng)
    }),
    edge("512 rules", 0, |rng| of_text(many_rules(512), rng)),
    edge("513 rules", 18, |rng| of_text(many_rules(513), rng)),
    edge("513th rule faulty", 13, |rng| {
        of_text([many_rules(512), b"\nKERNEL=\"x\"".to_vec()].concat(), rng)
    }),
    edge("text of 32,768", 0, |rng| of_text(long_text(32_768), rng)),
    edge("text of 32,769", 2, |rng| of_text(long_text(32_769), rng)),
    edge("tag of 64", 0, |rng| {
        of_line(tag_line(assignment(rng), 64), rng)
    }),
    edge("tag of 65", 15, |rng| {
        of_line(tag_line(assignment(rng), 65), rng)
    }),
    edge("lowest priority", 0, |rng| of_priority("-2147483648", rng)),
    edge("highest priority", 0, |rng| of_priority("2147483647", rng)),
    edge("below lowest priority", 15, |rng| {
        of_priority("-2147483649", rng)
    }),
    edge("above highest priority", 15, |rng| {
        of_priority("2147483648", rng)
    }),
    edge("priority of 10 digits", 0, |rng| {
        of_priority("-0000000009", rng)
    }),
    edge("priority of 11 digits", 15, |rng| {
        of_priority("-00000000009", rng)
    }),
    edge("second label", 16, |rng| {
        of_line(b"LABEL=\"a\",LABEL=\"a\"", rng)
    }),
    edge("second goto", 16, |rng| {
        of_line(b"GOTO=\"a\",GOTO=\"a\"", rng)
    }),
    edge("goto to its own label", 19, |rng| {
        of_line(b"TAG+=\"x\", LABEL=\"a\", GOTO=\"a\"", rng)
    }),
    edge("goto backwards", 19, |rng| {
        of_line(b"LABEL=\"a\"\nTAG+=\"x\", GOTO=\"a\"\nTAG+=\"y\"", rng)
    }),
    edge("goto past its own label", 0, |rng| {
        of_line(
            b"LABEL=\"a\", GOTO=\"a\"\nTAG+=\"skipped\"\nLABEL=\"a\", TAG+=\"x\"",
            rng,
        )
    }),
];

/// Lines that are continued.
pub const JOIN_EDGES: &[Edge] = &[
    edge("joined line of 1,024", 0, |rng| {
        of_line(broken(rng, long_line(1_024)), rng)
    }),
    edge("joined line of 1,025", 10, |rng| {
        of_line(broken(rng, long_line(1_025)), rng)
    }),
    edge("physical line of 1,025", 0, |rng| {
        of_line([long_line(1_024), b"\\\n\n".to_vec()].concat(), rng)
    }),
    edge("comment of 1,024 with a backslash", 0, |rng| {
        of_line([comment(1_023), b"\\".to_vec()].concat(), rng)
    }),
    edge("comment of 1,025 with a backslash", 10, |rng| {
        of_line([comment(1_024), b"\\".to_vec()].concat(), rng)
    }),
    edge("NUL in a joined line", 10, |rng| {
        of_line(b"TAG+=\"a\", \\\n\0 TAG+=\"b\"", rng)
    }),
    edge("backslash at the end", 20, |rng| {
        of_last_line(b"TAG+=\"a\"\\", rng)
    }),
    edge("backslash and newline at the end", 20, |rng| {
        of_last_line(b"TAG+=\"a\"\\\n", rng)
    }),
    edge("nothing but a backslash at the end", 20, |rng| {
        of_last_line(b" \\\n\\", rng)
    }),
    edge("open join of a comment", 20, |rng| {
        of_last_line(b"\\\n# c\\", rng)
    }),
    edge("open join of 1,025", 20, |rng| {
        of_last_line([long_line(1_025), b"\\\n".to_vec()].concat(), rng)
    }),
    edge("open join with NUL and an unknown key", 20, |rng| {
        of_last_line(b"NAME\\\n\0\\", rng)
    }),
    edge("open join after a faulty line", 11, |rng| {
        of_last_line(b"NAME=\"a\"\nTAG+=\"a\"\\", rng)
    }),
    edge("open join after a jump to nowhere", 20, |rng| {
        of_last_line(b"GOTO=\"a\"\nTAG+=\"a\"\\", rng)
    }),
    edge("comment with a backslash at the end", 0, |rng| {
        of_last_line(b" # c\\", rng)
    }),
    edge(
        "comment with a backslash and newline at the end",
        0,
        |rng| of_last_line(b"#\\\n", rng),
    ),
    edge("join that an empty line ends", 0, |rng| {
        of_last_line(b"TAG+=\"a\"\\\n\n", rng)
    }),
    edge("join that blanks end", 0, |rng| {
        of_last_line(b"\\\n \t", rng)
    }),
    edge("comment continues nothing", 34, |rng| {
        of_line(b"# c\\\nMODE=\"8\"", rng)
    }),
    edge("joined comment", 0, |rng| {
        of_line(b"\\\n# c\\\nMODE=\"8\"", rng)
    }),
    edge("comment inside a join", 17, |rng| {
        of_line(b"TAG+=\"a\"\\\n# c", rng)
    }),
    edge("backslash, return and newline", 17, |rng| {
        of_line(b"TAG+=\"a\"\\\r\n", rng)
    }),
    edge("two backslashes before a newline", 34, |rng| {
        of_line(b"ENV{A}=e\"a\\\\\nb\", MODE=\"8\"", rng)
    }),
    edge("33 pairs over lines", 16, |rng| {
        of_line(broken(rng, pairs(33)), rng)
    }),
];

pub const RUN_EDGES: &[Edge] = &[
    edge("link of 128", 0, |rng| of_line(link_line(128), rng)),
    edge("link of 129", 31, |rng| of_line(link_line(129), rng)),
    edge("16 links", 0, |rng| of_line(list_lines("SYMLINK", 16), rng)),
    edge("17 links", 32, |rng| {
        of_line(list_lines("SYMLINK", 17), rng)
    }),
    edge("17th link held", 0, |rng| {
        of_full("SYMLINK+=\"n3 n3\"", rng)
    }),
    edge("17th link unsound", 31, |rng| {
        of_full("SYMLINK+=\"../x\"", rng)
    }),
    edge("17th link before an unsound one", 32, |rng| {
        of_full("SYMLINK+=\"new ../x\"", rng)
    }),
    edge("unsound link before the 17th", 31, |rng| {
        of_full("SYMLINK+=\"n1 ../x new\"", rng)
    }),
    edge("17th link after a removal", 0, |rng| {
        of_full("SYMLINK-=\"n3\", SYMLINK+=\"new\"", rng)
    }),
    edge("unsound link removed", 31, |rng| {
        of_full("SYMLINK-=\"a//b\"", rng)
    }),
    edge("links emptied first", 0, |rng| {
        of_full("SYMLINK=\"new newer\"", rng)
    }),
    edge("17 links at once", 32, |rng| {
        of_line(
            b"SYMLINK=\"1 2 3 4 5 6 7 8 9 10 11 12 13 14 15 16 17\"",
            rng,
        )
    }),
    edge("16 tags", 0, |rng| of_line(list_lines("TAG", 16), rng)),
    edge("17 tags", 32, |rng| of_line(list_lines("TAG", 17), rng)),
    edge("17th tag held", 0, |rng| of_full("TAG+=\"n16\"", rng)),
    edge("17th tag empty", 0, |rng| of_full("TAG+=\"\"", rng)),
    edge("17th tag after a removal", 0, |rng| {
        of_full("TAG-=\"n1\", TAG+=\"new\"", rng)
    }),
    edge("16 runs", 0, |rng| of_line(list_lines("RUN", 16), rng)),
    edge("17 runs", 32, |rng| of_line(list_lines("RUN", 17), rng)),
    edge("17th run held", 32, |rng| of_full("RUN+=\"n3\"", rng)),
    edge("17th run empty", 0, |rng| of_full("RUN+=\"\"", rng)),
    edge("runs emptied first", 0, |rng| {
        of_full("RUN{builtin}=\"new\"", rng)
    }),
    edge("32 properties", 0, |rng| of_bare_line(env_lines(32), rng)),
    edge("33 properties", 32, |rng| of_bare_line(env_lines(33), rng)),
    edge("33rd property held", 0, |rng| {
        of_full("ENV{n3}=\"new\"", rng)
    }),
    edge("33rd property empty", 0, |rng| {
        of_full("ENV{new}=\"\"", rng)
    }),
    edge("33rd property after a removal", 0, |rng| {
        of_full("ENV{n3}=\"\", ENV{new}=\"x\"", rng)
    }),
    edge("substituted links of 512", 0, |rng| of_links(125, rng)),
    edge("substituted links of 513", 30, |rng| of_links(126, rng)),
    edge("split links of 512", 0, |rng| of_split_links(126, rng)),
    edge("split links of 513", 30, |rng| of_split_links(127, rng)),
    edge("whitespace split and kept", 0, |rng| {
        of_whitespace(
            "OPTIONS=\"string_escape=none\", SYMLINK=\"$env{A} x\ty\"",
            rng,
        )
    }),
    edge("whitespace replaced", 0, |rng| {
        of_whitespace("SYMLINK=\"$env{A} x\ty\"", rng)
    }),
    edge("substituted owner of 512", 33, |rng| {
        of_template("OWNER", 0, rng)
    }),
    edge("substituted owner of 513", 30, |rng| {
        of_template("OWNER", 1, rng)
    }),
    edge("substituted group of 512", 33, |rng| {
        of_template("GROUP", 0, rng)
    }),
    edge("substituted group of 513", 30, |rng| {
        of_template("GROUP", 1, rng)
    }),
    edge("substituted mode of 512", 34, |rng| {
        of_template("MODE", 0, rng)
    }),
    edge("substituted mode of 513", 30, |rng| {
        of_template("MODE", 1, rng)
    }),
    edge("substituted run of 512", 0, |rng| {
        of_template("RUN", 0, rng)
    }),
    edge("substituted run of 513", 30, |rng| {
        of_template("RUN", 1, rng)
    }),
    edge("owner of 32", 0, |rng| {
        of_line(owner_line("OWNER", 32), rng)
    }),
    edge("owner of 33", 33, |rng| {
        of_line(owner_line("OWNER", 33), rng)
    }),
    edge("group of 32", 0, |rng| {
        of_line(owner_line("GROUP", 32), rng)
    }),
    edge("group of 33", 33, |rng| {
        of_line(owner_line("GROUP", 33), rng)
    }),
    edge("empty owner", 33, |rng| of_line(b"OWNER=\"\"", rng)),
    edge("mode of 4 digits", 0, |rng| of_line(b"MODE=\"7775\"", rng)),
    edge("mode of 5 digits", 34, |rng| {
        of_line(b"MODE=\"00660\"", rng)
    }),
    edge("mode of an 8", 34, |rng| of_line(b"MODE=\"888\"", rng)),
    edge("empty mode", 34, |rng| of_line(b"MODE=\"\"", rng)),
    edge("world-writable mode", 36, |rng| {
        let mode = rng.pick(&["2", "03", "0666", "7777"]);
        of_line(format!("MODE=\"{mode}\", SYMLINK=\"/\""), rng)
    }),
    edge("world-writable mode after another refusal", 31, |rng| {
        of_line(b"SYMLINK=\"/\", MODE=\"0666\"", rng)
    }),
    edge("world-writable mode of 5 digits", 34, |rng| {
        of_line(b"MODE=\"00002\"", rng)
    }),
    edge("world-writable mode of a closed key", 0, |rng| {
        of_full_and_closed("MODE=\"0666\"", rng)
    }),
    edge(
        "world-writable mode in a rule that does not match",
        0,
        |rng| of_line(b"MODE=\"0666\", KERNEL==\"nothing\"", rng),
    ),
    edge("absent attribute equals nothing", 0, |rng| {
        of_line(b"ATTR{none}==\"*\", MODE=\"8\"", rng)
    }),
    edge("absent attribute differs from everything", 34, |rng| {
        of_line(b"ATTR{none}!=\"*\", MODE=\"8\"", rng)
    }),
    edge("closed keys skip faults", 0, |rng| {
        of_full_and_closed(
            "SYMLINK+=\"/x\", SYMLINK-=\"..\", TAG+=\"new\", TAG-=\"n1\", RUN+=\"x\", \
             OWNER=\"a b\", GROUP=\"\", MODE=\"9\", SYMLINK:=\"$env{n1}$env{n2}xx\"",
            rng,
        )
    }),
];

pub const DEVICE_EDGES: &[Edge] = &[
    edge("device of 16,384", 0, |rng| {
        of_record(padded_device(16_384), rng)
    }),
    edge("device of 16,385", 3, |rng| {
        of_record(padded_device(16_385), rng)
    }),
    edge("chain of 16", 0, |rng| {
        of_device(|device| lengthen(device, 16), rng)
    }),
    edge("31 attributes", 0, |rng| {
        of_device(|device| device.chain[0].attributes = numbered(31), rng)
    }),
    edge("path of 256", 0, |rng| {
        of_device(|device| device.chain[0].path.resize(256, b'7'), rng)
    }),
    edge("path of 257", 3, |rng| {
        of_device(|device| device.chain[0].path.resize(257, b'7'), rng)
    }),
    edge("path without slash", 3, |rng| {
        of_device(
            |device| {
                device.chain.truncate(1);
                device.chain[0].path.remove(0);
            },
            rng,
        )
    }),
    edge("path of a slash", 3, |rng| of_event_path(b"/", rng)),
    edge("empty path", 3, |rng| of_event_path(b"", rng)),
    edge("path with double slash", 3, |rng| {
        of_event_path(b"//a", rng)
    }),
    edge("path with double slash inside", 3, |rng| {
        of_event_path(b"/a//b", rng)
    }),
    edge("path with last slash", 3, |rng| of_event_path(b"/a/", rng)),
    edge("NUL in a path", 3, |rng| of_event_path(b"/a\0", rng)),
    edge("parent elsewhere", 3, |rng| {
        of_device(|device| device.chain[1].path = b"/else/where".to_vec(), rng)
    }),
    edge("parent cut inside a name", 3, |rng| {
        of_device(
            |device| {
                device.chain.truncate(2);
                device.chain[0].path = b"/abc/def".to_vec();
                device.chain[1].path = b"/ab".to_vec();
            },
            rng,
        )
    }),
    edge("parent cut after the slash", 3, |rng| {
        of_device(
            |device| {
                device.chain.truncate(2);
                device.chain[0].path = b"/abc/def".to_vec();
                device.chain[1].path = b"/abc/".to_vec();
            },
            rng,
        )
    }),
    edge("parent cut at the first slash", 3, |rng| {
        of_device(|device| device.chain[1].path.clear(), rng)
    }),
    edge("parent with the same path", 3, |rng| {
        of_device(
            |device| {
                let path = device.chain[0].path.clone();
                device.chain[1].path = path;
            },
            rng,
        )
    }),
    edge("parents in the wrong order", 3, |rng| {
        of_device(|device| device.chain.reverse(), rng)
    }),
    edge("32 device properties", 0, |rng| {
        of_device(|device| device.properties = numbered(32), rng)
    }),
    edge("33 device properties", 3, |rng| {
        of_device(|device| device.properties = numbered(33), rng)
    }),
    edge("property of 64 and 256", 0, |rng| of_property(64, 256, rng)),
    edge("property key of 65", 3, |rng| of_property(65, 0, rng)),
    edge("property value of 257", 3, |rng| of_property(1, 257, rng)),
    edge("property without key", 3, |rng| of_property(0, 3, rng)),
    edge("property without value", 0, |rng| of_property(1, 0, rng)),
    edge("attribute of 64 and 256", 0, |rng| {
        of_attribute(64, 256, rng)
    }),
    edge("attribute name of 65", 3, |rng| of_attribute(65, 0, rng)),
    edge("attribute value of 257", 3, |rng| of_attribute(1, 257, rng)),
    edge("attribute without name", 3, |rng| of_attribute(0, 3, rng)),
    edge("equal property keys", 3, |rng| {
        of_device(
            |device| {
                device.properties = vec![Property::new(b"A", b"1"), Property::new(b"A", b"2")];
            },
            rng,
        )
    }),
    edge("equal attribute names", 3, |rng| {
        of_device(
            |device| {
                device.chain[1].attributes =
                    vec![Property::new(b"x", b"1"), Property::new(b"x", b"")];
            },
            rng,
        )
    }),
    edge("equal attribute names on two devices", 0, |rng| {
        of_device(
            |device| {
                device.chain[0].attributes = vec![Property::new(b"x", b"1")];
                device.chain[1].attributes = vec![Property::new(b"x", b"1")];
            },
            rng,
        )
    }),
    edge("NUL in a property", 3, |rng| {
        of_device(
            |device| device.properties = vec![Property::new(b"A", b"\0")],
            rng,
        )
    }),
    edge("NUL in an attribute name", 3, |rng| {
        of_device(
            |device| device.chain[1].attributes = vec![Property::new(b"\0", b"")],
            rng,
        )
    }),
    edge("NUL in a subsystem", 3, |rng| {
        of_device(|device| device.chain[0].subsystem = b"a\0".to_vec(), rng)
    }),
    edge("NUL in a driver", 3, |rng| {
        of_device(|device| device.chain[1].driver = b"\0".to_vec(), rng)
    }),
    edge("subsystem and driver of 63", 0, |rng| {
        of_device(
            |device| {
                device.chain[0].subsystem = vec![b's'; 63];
                device.chain[0].driver = vec![b'd'; 63];
            },
            rng,
        )
    }),
    edge("subsystem and driver missing", 0, |rng| {
        of_device(
            |device| {
                device.chain[0].subsystem.clear();
                device.chain[0].driver.clear();
            },
            rng,
        )
    }),
    edge("device of edition 2", 3, |rng| {
        of_device_bytes(|record| record[0] ^= 0x30, rng)
    }),
    edge("minor without node", 3, |rng| {
        of_device_bytes(
            |record| {
                record[1] &= 0xe0;
                record[2] = 0;
                record[4] = 1;
            },
            rng,
        )
    }),
    edge("major without node", 3, |rng| {
        of_device_bytes(
            |record| {
                record[1] = record[1] & 0xe0 | 1;
                record[3] = 0;
                record[4] = 0;
                record[5] &= 0x0f;
            },
            rng,
        )
    }),
    edge("unused bit of the device header", 3, |rng| {
        of_device_bytes(|record| record[6] |= 0x20, rng)
    }),
    edge("byte after the device", 3, |rng| {
        of_device_bytes(|record| record.push(0), rng)
    }),
    edge("device without its last byte", 3, |rng| {
        of_device_bytes(
            |record| {
                record.pop();
            },
            rng,
        )
    }),
    edge("no device", 3, |rng| of_device_bytes(Vec::clear, rng)),
];

pub const OUTCOME_EDGES: &[Edge] = &[
    edge("fullest outcome", 0, |rng| {
        of_outcome(|outcome, _| *outcome = fullest(), rng)
    }),
    edge("fullest run list", 0, |rng| {
        of_outcome(|outcome, _| *outcome = longest_runs(), rng)
    }),
    edge("outcome owner of 33", 4, |rng| {
        of_outcome(|outcome, _| outcome.owner = Some(vec![b'o'; 33]), rng)
    }),
    edge("outcome owner faulty", 4, |rng| {
        of_outcome(|outcome, _| outcome.owner = Some(b"a b".to_vec()), rng)
    }),
    edge("outcome group of 33", 4, |rng| {
        of_outcome(|outcome, _| outcome.group = Some(vec![b'g'; 33]), rng)
    }),
    edge("outcome group faulty", 4, |rng| {
        of_outcome(|outcome, _| outcome.group = Some(b"a\0".to_vec()), rng)
    }),
    edge("mode bits without the set bit", 4, |rng| {
        of_outcome_bytes(
            |record| {
                record[2] &= 0xfd;
                record[4] |= 0x40;
            },
            rng,
        )
    }),
    edge("world-writable mode of an outcome", 4, |rng| {
        of_outcome(
            |outcome, _| {
                outcome.mode = Some(0o666);
                outcome.closed.mode = true;
            },
            rng,
        )
    }),
    edge("closed but unset", 0, |rng| {
        of_outcome(
            |outcome, _| {
                outcome.owner = None;
                outcome.closed = all_closed();
            },
            rng,
        )
    }),
    edge("outcome link of 128", 0, |rng| {
        of_outcome_links(&[&[b'l'; 128]], rng)
    }),
    edge("outcome link of 129", 4, |rng| {
        of_outcome_links(&[&[b'l'; 129]], rng)
    }),
    edge("empty link", 4, |rng| of_outcome_links(&[b""], rng)),
    edge("link with first slash", 4, |rng| {
        of_outcome_links(&[b"/a"], rng)
    }),
    edge("link with last slash", 4, |rng| {
        of_outcome_links(&[b"a/"], rng)
    }),
    edge("link with double slash", 4, |rng| {
        of_outcome_links(&[b"a//b"], rng)
    }),
    edge("link with dot", 4, |rng| of_outcome_links(&[b"a/./b"], rng)),
    edge("link with two dots", 4, |rng| {
        of_outcome_links(&[b"a/.."], rng)
    }),
    edge("link with three dots", 0, |rng| {
        of_outcome_links(&[b"..."], rng)
    }),
    edge("link that is not clean", 0, |rng| {
        of_outcome_links(&[b"a b\xff\n"], rng)
    }),
    edge("link with NUL", 4, |rng| of_outcome_links(&[b"a\0"], rng)),
    edge("equal links", 4, |rng| {
        of_outcome_links(&[b"a", b"b", b"a"], rng)
    }),
    edge("17 outcome links", 4, |rng| {
        of_outcome(|outcome, _| outcome.links = names(17), rng)
    }),
    edge("33 outcome properties", 4, |rng| {
        of_outcome(|outcome, _| outcome.properties = numbered(33), rng)
    }),
    edge("equal outcome property keys", 4, |rng| {
        of_outcome(
            |outcome, _| {
                outcome.properties = vec![Property::new(b"A", b""), Property::new(b"A", b"1")];
            },
            rng,
        )
    }),
    edge("outcome property value of 257", 4, |rng| {
        of_outcome(
            |outcome, _| {
                outcome.properties = vec![Property::new(b"A", &[b'v'; 257])];
            },
            rng,
        )
    }),
    edge("outcome property without key", 4, |rng| {
        of_outcome(
            |outcome, _| outcome.properties = vec![Property::new(b"", b"v")],
            rng,
        )
    }),
    edge("other outcome properties than the device's", 0, |rng| {
        of_outcome(
            |outcome, _| outcome.properties = vec![Property::new(b"Z", b"v")],
            rng,
        )
    }),
    edge("outcome tag of 64", 0, |rng| {
        of_outcome_tags(&[&[b't'; 64]], rng)
    }),
    edge("outcome tag of 65", 4, |rng| {
        of_outcome_tags(&[&[b't'; 65]], rng)
    }),
    edge("empty tag", 4, |rng| of_outcome_tags(&[b""], rng)),
    edge("equal tags", 4, |rng| of_outcome_tags(&[b"a", b"a"], rng)),
    edge("17 outcome tags", 4, |rng| {
        of_outcome(|outcome, _| outcome.tags = names(17), rng)
    }),
    edge("17 outcome runs", 4, |rng| {
        of_outcome(|outcome, _| outcome.runs = vec![run(b"x", 0); 17], rng)
    }),
    edge("equal runs", 0, |rng| {
        of_outcome(|outcome, _| outcome.runs = vec![run(b"x", 0); 16], rng)
    }),
    edge("run of 256", 0, |rng| {
        of_outcome(|outcome, _| outcome.runs = vec![run(&[b'r'; 256], 0)], rng)
    }),
    edge("run of 257", 4, |rng| {
        of_outcome(|outcome, _| outcome.runs = vec![run(&[b'r'; 257], 0)], rng)
    }),
    edge("empty run", 4, |rng| {
        of_outcome(|outcome, _| outcome.runs = vec![run(b"", 0)], rng)
    }),
    edge("place of the last device", 0, |rng| {
        of_outcome(
            |outcome, chain| outcome.runs = vec![run(b"%b$driver", chain)],
            rng,
        )
    }),
    edge("place beyond the chain", 4, |rng| {
        of_outcome(
            |outcome, chain| outcome.runs = vec![run(b"%b", chain + 1)],
            rng,
        )
    }),
    edge("template not well formed", 4, |rng| {
        of_last_run(|record| *record.last_mut().expect("a run") = b'x', rng)
    }),
    edge("unused bit of a run", 4, |rng| {
        of_last_run(
            |record| {
                let lengths = record.len() - 3;
                record[lengths] |= 1;
            },
            rng,
        )
    }),
    edge("outcome of edition 0", 4, |rng| {
        of_outcome_bytes(|record| record[0] &= 0x0f, rng)
    }),
    edge("outcome of edition 1", 4, |rng| {
        of_outcome_bytes(
            |record| {
                record[0] = record[0] & 0x0f | 0x10;
                record.drain(11..13);
            },
            rng,
        )
    }),
    edge("outcome of edition 3", 4, |rng| {
        of_outcome_bytes(|record| record[0] |= 0x30, rng)
    }),
    edge("output of 512", 0, |rng| {
        of_outcome(|outcome, _| outcome.output = vec![b'p'; 512], rng)
    }),
    edge("output of 513", 4, |rng| {
        of_outcome(|outcome, _| outcome.output = vec![b'p'; 513], rng)
    }),
    edge("output that ends in a newline", 0, |rng| {
        of_outcome(|outcome, _| outcome.output = b"a\n".to_vec(), rng)
    }),
    edge("output with NUL", 4, |rng| {
        of_outcome(|outcome, _| outcome.output = b"a\0".to_vec(), rng)
    }),
    edge("watch of 3", 4, |rng| {
        of_outcome_bytes(|record| record[12] |= 0x30, rng)
    }),
    edge("unused bit of the outcome header", 4, |rng| {
        of_outcome_bytes(|record| record[12] |= 1, rng)
    }),
    edge("byte after the outcome", 4, |rng| {
        of_outcome_bytes(|record| record.push(0), rng)
    }),
    edge("outcome without its last byte", 4, |rng| {
        of_outcome_bytes(
            |record| {
                record.pop();
            },
            rng,
        )
    }),
    edge("no outcome", 4, |rng| of_outcome_bytes(Vec::clear, rng)),
];

pub const ROOM_EDGES: &[Edge] = &[
    edge("just enough room", 0, |rng| {
        of_rooms(18_125, 18_125, 8_225, rng)
    }),
    edge("more than enough room", 0, |rng| {
        of_rooms(18_200, 20_000, 9_000, rng)
    }),
    edge("fresh with a byte less", 1, |rng| {
        of_rooms(18_124, 18_125, 8_225, rng)
    }),
    edge("run with a byte less", 1, |rng| {
        of_rooms(18_125, 18_124, 8_225, rng)
    }),
    edge("run with the room of edition 1", 1, |rng| {
        of_rooms(18_125, 17_611, 8_225, rng)
    }),
    edge("close with a byte less", 1, |rng| {
        of_rooms(18_125, 18_125, 8_224, rng)
    }),
    edge("no room", 1, |rng| of_rooms(0, 0, 0, rng)),
    edge("room and everything else faulty", 1, |rng| {
        let mut case = of_rooms(18_124, 18_124, 8_224, rng);
        case.text = vec![b'x'; 32_769];
        case.device.clear();
        case.outcome.clear();
        case
    }),
];

pub const CONVERSION_EDGES: &[Edge] = &[
    edge("conversions", 0, |rng| of_conversion(|_, _| {}, rng)),
    edge("conversions of the fullest of edition 1", 0, |rng| {
        of_conversion(
            |outcome, _| {
                *outcome = fullest();
                outcome.output.clear();
                outcome.watch = Watch::Unset;
            },
            rng,
        )
    }),
    edge("conversion of an output", 5, |rng| {
        of_conversion(|outcome, _| outcome.output = b"p".to_vec(), rng)
    }),
    edge("conversion of watch", 5, |rng| {
        of_conversion(|outcome, _| outcome.watch = Watch::Watch, rng)
    }),
    edge("conversion of nowatch", 5, |rng| {
        of_conversion(|outcome, _| outcome.watch = Watch::Nowatch, rng)
    }),
    edge("conversion of a place beyond the chain", 4, |rng| {
        of_conversion(
            |outcome, chain| {
                outcome.watch = Watch::Watch;
                outcome.runs = vec![run(b"%b", chain + 1)];
            },
            rng,
        )
    }),
    edge("conversion of a world-writable mode", 4, |rng| {
        of_conversion(|outcome, _| outcome.mode = Some(0o666), rng)
    }),
    edge("conversion with a byte less", 1, |rng| {
        of_conversion_with_room(|_, _| {}, 18_124, 17_611, rng)
    }),
    edge("conversion back with a byte less", 1, |rng| {
        of_conversion_with_room(|_, _| {}, 18_125, 17_610, rng)
    }),
];

pub const WRITER_EDGES: &[Edge] = &[
    edge("text written back", 0, |rng| {
        let line = b" TAG += \"a\\\"\" ,\tRUN= e\"\\n\\t\\\\\" , RUN{program}=\"x\"";
        of_written([&b"# c\n"[..], line, b"\n\n"].concat(), 32_768, rng)
    }),
    edge("empty text written back", 0, |rng| {
        of_written(*b"", 32_768, rng)
    }),
    edge("tight text of 32,767 written back", 0, |rng| {
        of_written(tight_text(32_767), 32_768, rng)
    }),
    edge("tight text of 32,768 written back", 2, |rng| {
        of_written(tight_text(32_768), 32_768, rng)
    }),
    edge("tight text of 32,768 with its newline", 0, |rng| {
        of_written([tight_text(32_767), b"\n".to_vec()].concat(), 40_000, rng)
    }),
    edge("text written with a byte less", 1, |rng| {
        of_written(tight_text(32_768), 32_767, rng)
    }),
];

pub const EDGES: &[&[Edge]] = &[
    STRIKE_EDGES,
    WRITER_EDGES,
    CONTEST_EDGES,
    CONVERSION_EDGES,
    TEXT_EDGES,
    JOIN_EDGES,
    RUN_EDGES,
    DEVICE_EDGES,
    PLAN_EDGES,
    EACH_EDGES,
    OUTCOME_EDGES,
    FILE_EDGES,
    ROOM_EDGES,
    SHEET_EDGES,
];

//! The examples of document 01.

mod common;

use common::*;
use reference::outcome::Outcome;
use reference::pattern::Pattern;
use reference::property::Property;

fn pattern_matches(pattern: &str, text: &str) -> bool {
    Pattern::read(pattern.as_bytes())
        .expect("a well formed pattern")
        .matches(text.as_bytes())
}

#[test]
fn m1_star_matches_the_empty_value() {
    assert!(pattern_matches("*", ""));
}

#[test]
fn m2_a_set_matches_one_byte() {
    assert!(pattern_matches("tty[SR]", "ttyS"));
    assert!(!pattern_matches("tty[SR]", "ttySR"));
}

#[test]
fn m3_alternatives() {
    assert!(pattern_matches("abc|x*", "x"));
    assert!(!pattern_matches("abc|x*", "ab"));
}

#[test]
fn m4_opposite_set() {
    assert!(pattern_matches("[!0-9]", "a"));
    assert!(!pattern_matches("[!0-9]", "7"));
    assert!(!pattern_matches("[!0-9]", ""));
}

#[test]
fn m5_alternatives_separate_inside_sets_too() {
    assert_eq!(check("KERNEL==\"[a|b]\""), (15, 1));
}

#[test]
fn m6_backslash_in_values() {
    let device = device_at("/a");
    let text = "ENV{A}=\"a\\\"b\", ENV{B}=\"\\t\\n\"";
    assert_eq!(properties_of(text, &device), ["A=a\"b", "B=\\t\\n"]);
}

#[test]
fn m7_number() {
    let of = |path| outcome_of("SYMLINK=\"x%n\"", &device_at(path)).links;
    assert_eq!(of("/block/sda3"), [b"x3"]);
    assert_eq!(of("/block/sda"), [b"x"]);
    assert_eq!(of("/block/ttyS17"), [b"x17"]);
    assert_eq!(of("/block/007"), [b"x007"]);
    assert_eq!(of("/block9/a"), [b"x"]);
}

#[test]
fn m8_goto_to_its_own_label() {
    assert_eq!(check("LABEL=\"a\", GOTO=\"a\""), (19, 1));
    assert_eq!(check("GOTO=\"a\", LABEL=\"a\"\nLABEL=\"a\""), (0, 0));
}

#[test]
fn m9_trailing_whitespace_of_attributes() {
    let mut device = device_at("/a");
    device.chain[0].attributes = vec![property("serial", "RC-0417 ")];
    for key in ["ATTR", "ATTRS"] {
        assert!(matches(&format!("{key}{{serial}}==\"RC-0417\""), &device));
        assert!(matches(&format!("{key}{{serial}}==\"RC-0417 \""), &device));
        assert!(!matches(
            &format!("{key}{{serial}}==\"RC-0417  \""),
            &device
        ));
    }
}

#[test]
fn m10_inserted_and_written_spaces() {
    let device = device_with(&[("A", "a b")]);
    assert_eq!(links_of("SYMLINK+=\"$env{A}\"", &device), ["a_b"]);
    assert_eq!(links_of("SYMLINK+=\"a b\"", &device), ["a", "b"]);
}

#[test]
fn m11_link_upwards() {
    assert_eq!(refusal("SYMLINK+=\"../x\"", &device_at("/a")), (31, 1));
}

#[test]
fn m12_modes() {
    let device = device_at("/a");
    assert_eq!(outcome_of("MODE=\"0660\"", &device).mode, Some(432));
    assert_eq!(refusal("MODE=\"888\"", &device), (34, 1));
    assert_eq!(refusal("MODE=\"00660\"", &device), (34, 1));
}

#[test]
fn seventeenth_link() {
    let lines = |names: std::ops::RangeInclusive<u32>| -> String {
        names
            .map(|name| format!("SYMLINK+=\"l{name}\"\n"))
            .collect()
    };
    let device = device_at("/a");
    assert_eq!(links_of(&lines(1..=16), &device).len(), 16);
    assert_eq!(refusal(&lines(1..=17), &device), (32, 17));
    let held = lines(1..=16) + "SYMLINK+=\"l5\"";
    assert_eq!(links_of(&held, &device).len(), 16);
}

#[test]
fn priorities_at_the_ends() {
    let device = device_at("/a");
    let priority = |number: &str| format!("OPTIONS=\"link_priority={number}\"");
    assert_eq!(
        outcome_of(&priority("-2147483648"), &device).priority,
        i32::MIN
    );
    assert_eq!(
        outcome_of(&priority("2147483647"), &device).priority,
        i32::MAX
    );
    assert_eq!(check(priority("2147483648")), (15, 1));
    assert_eq!(check(priority("-2147483649")), (15, 1));
}

#[test]
fn line_lengths() {
    let line = |length: usize| format!("{:length$}", "KERNEL==\"*\"");
    assert_eq!(check(line(1_024)), (0, 0));
    assert_eq!(check(line(1_025)), (10, 1));
}

const LISTED_RULE: &str = "KERNEL==\"ttyUSB[0-9]*\", ATTRS{serial}==\"RC-0417\", \
     SYMLINK+=\"rope/trip%n\", MODE=\"0660\", GROUP=\"dialout\"";

#[test]
fn listing_example() {
    let listing = reference::listing(LISTED_RULE.as_bytes(), &tty_usb0().encode(), None, None);
    let expected = "visited 1\ntried 2\npriority 0\nmode 0660\ngroup dialout\nlink rope/trip0\n";
    assert_eq!(string(&listing), expected);
}

#[test]
fn listing_of_a_refusal() {
    let text = b"\n# first\n\nGOTO=\"nowhere\"\n";
    let listing = reference::listing(text, &tty_usb0().encode(), None, None);
    assert_eq!(string(&listing), "refused 19 line 4\n");
}

#[test]
fn listing_of_everything() {
    let mut device = tty_usb0();
    device.properties = vec![property("A", "1"), Property::new(b"B", b"\x1f ~\x7f\\\xc3")];
    let text = "OPTIONS=\"link_priority=-5\", OWNER=\"root\", GROUP=\"disk\", MODE=\"5\"\n\
                SYMLINK=\"b a\", TAG=\"t u\", RUN=\"x %k\", RUN{builtin}+=\"$env{B}\"\n\
                KERNEL==\"no\", TAG+=\"v\"\n";
    let listing = reference::listing(text.as_bytes(), &device.encode(), None, None);
    let expected = "visited 3\n\
                    tried 0\n\
                    priority -5\n\
                    mode 0005\n\
                    owner root\n\
                    group disk\n\
                    link b\n\
                    link a\n\
                    env A=1\n\
                    env B=\\x1f ~\\x7f\\x5c\\xc3\n\
                    tag t u\n\
                    program x ttyUSB0\n\
                    builtin \\x1f ~\\x7f\\x5c\\xc3\n";
    assert_eq!(string(&listing), expected);
}

#[test]
fn listing_from_a_given_outcome() {
    let device = tty_usb0();
    let outcome = Outcome {
        mode: Some(0o600),
        tags: vec![b"seat".to_vec()],
        ..Outcome::default()
    };
    let record = outcome.encode();
    let listing = reference::listing(b"TAG+=\"x\"", &device.encode(), Some(&record), None);
    let expected = "visited 1\ntried 0\npriority 0\nmode 0600\ntag seat\ntag x\n";
    assert_eq!(string(&listing), expected);
    let listing = reference::listing(b"", &device.encode(), Some(&record[1..]), None);
    assert_eq!(string(&listing), "refused 4 line 0\n");
}

#[test]
fn mistake_judging_a_match_after_an_assignment_of_its_rule() {
    let device = device_with(&[("A", "old")]);
    let text = "ENV{A}=\"new\", ENV{A}==\"old\", TAG+=\"x\", TAG!=\"x\", SYMLINK+=\"l\", \
                SYMLINK!=\"l\"";
    let outcome = outcome_of(text, &device);
    assert_eq!(outcome.properties, [property("A", "new")]);
    assert_eq!(outcome.tags, [b"x"]);
    assert_eq!(outcome.links, [b"l"]);
    assert!(!matches("ENV{A}=\"new\", ENV{A}==\"new\"", &device));
}

#[test]
fn mistake_letting_two_ancestors_share_the_parent_keys() {
    let mut device = tty_usb0();
    device.chain[1].path = b"/devices/usb1/1-1/1-1:1.0".to_vec();
    device.chain.push(chain_device("/devices/usb1"));
    device.chain[2].driver = b"hub".to_vec();
    assert!(matches("ATTRS{serial}==\"RC-0417\"", &device));
    assert!(matches("DRIVERS==\"hub\"", &device));
    assert!(!matches(
        "ATTRS{serial}==\"RC-0417\", DRIVERS==\"hub\"",
        &device
    ));
    assert!(matches(
        "ATTRS{serial}==\"RC-0417\", DRIVERS==\"usb\"",
        &device
    ));
}

#[test]
fn mistake_reading_unequal_as_no_ancestor_matches() {
    // The event device is no usb, though its parent is.
    let device = tty_usb0();
    assert!(matches("SUBSYSTEMS!=\"usb\"", &device));
    assert!(matches("SUBSYSTEMS!=\"tty\"", &device));
    assert!(!matches("SUBSYSTEMS!=\"usb|tty\"", &device));
}

#[test]
fn mistake_substituting_run_when_its_rule_runs() {
    let device = device_with(&[("A", "old")]);
    let text = "RUN+=\"x $env{A}\"\nENV{A}=\"new\"\n";
    assert_eq!(runs_of(text, &device), ["program x new"]);
}

#[test]
fn mistake_resolving_goto_backwards() {
    assert_eq!(check("LABEL=\"a\"\nGOTO=\"a\""), (19, 2));
    let text = "LABEL=\"a\", TAG+=\"1\"\n\
                GOTO=\"a\"\n\
                TAG+=\"2\"\n\
                LABEL=\"a\", TAG+=\"3\"\n\
                LABEL=\"a\", TAG+=\"4\"\n";
    let (visited, outcome) = run(text, &device_at("/a"));
    assert_eq!(visited, 4);
    assert_eq!(strings(&outcome.tags), ["1", "3", "4"]);
}

#[test]
fn mistake_dropping_a_seventeenth_link() {
    let device = device_at("/a");
    let full = "SYMLINK=\"1 2 3 4 5 6 7 8 9 10 11 12 13 14 15 16\"\n";
    let text = format!("{full}SYMLINK+=\"17\"");
    assert_eq!(refusal(&text, &device), (32, 2));
    let text = format!("{full}SYMLINK+=\"16 17\"");
    assert_eq!(refusal(&text, &device), (32, 2));
}

//! Matching, assigning, substituting and jumping.

mod common;

use common::*;
use reference::device::{Action, Device, Node};
use reference::outcome::{Closed, Outcome};
use reference::pattern::Pattern;

fn pattern_matches(pattern: &str, text: &str) -> bool {
    Pattern::read(pattern.as_bytes())
        .expect("a well formed pattern")
        .matches(text.as_bytes())
}

/// Of these texts, those that the pattern matches.
fn matched<'a>(pattern: &str, texts: &[&'a str]) -> Vec<&'a str> {
    texts
        .iter()
        .copied()
        .filter(|text| pattern_matches(pattern, text))
        .collect()
}

#[test]
fn wildcards() {
    let texts = ["", "a", "ab", "a/b", "b", "abb"];
    assert_eq!(matched("*", &texts), texts);
    assert_eq!(matched("?", &texts), ["a", "b"]);
    assert_eq!(matched("a*", &texts), ["a", "ab", "a/b", "abb"]);
    assert_eq!(matched("*b", &texts), ["ab", "a/b", "b", "abb"]);
    assert_eq!(matched("a*b*", &texts), ["ab", "a/b", "abb"]);
    assert_eq!(matched("a?b", &texts), ["a/b", "abb"]);
    assert_eq!(matched("", &texts), [""]);
    assert_eq!(matched("a|", &texts), ["", "a"]);
    assert_eq!(matched("a||b", &texts), ["", "a", "b"]);
    assert_eq!(matched("**?**", &texts), ["a", "ab", "a/b", "b", "abb"]);
}

#[test]
fn sets() {
    let texts = ["a", "b", "c", "d", "e", "-", "]", "!", "^", "["];
    assert_eq!(matched("[a-c]", &texts), ["a", "b", "c"]);
    assert_eq!(
        matched("[!a-c]", &texts),
        ["d", "e", "-", "]", "!", "^", "["]
    );
    assert_eq!(matched("[]a]", &texts), ["a", "]"]);
    assert_eq!(
        matched("[!]a]", &texts),
        ["b", "c", "d", "e", "-", "!", "^", "["]
    );
    assert_eq!(matched("[a-]", &texts), ["a", "-"]);
    assert_eq!(matched("[-a]", &texts), ["a", "-"]);
    assert_eq!(matched("[a-c-e]", &texts), ["a", "b", "c", "e", "-"]);
    assert_eq!(matched("[a!]", &texts), ["a", "!"]);
    assert_eq!(
        matched("[!!]", &texts),
        ["a", "b", "c", "d", "e", "-", "]", "^", "["]
    );
    assert_eq!(matched("[^a]", &texts), ["a", "^"]);
    assert_eq!(matched("[[]", &texts), ["["]);
    assert_eq!(matched("[]-a]", &texts), ["a", "]", "^"]);
    assert_eq!(matched("[---]", &texts), ["-"]);
    assert_eq!(
        matched("[!-a]", &texts),
        ["b", "c", "d", "e", "]", "!", "^", "["]
    );
    assert!(pattern_matches("[a]]", "a]"));
    assert!(pattern_matches("\\*", "\\x"));
    assert!(!pattern_matches("\\*", "*"));
}

#[test]
fn many_stars_take_no_long_time() {
    let pattern = "a*".repeat(128);
    let text = "a".repeat(255) + "b";
    assert!(!pattern_matches(&(pattern[..255].to_string() + "c"), &text));
}

fn chain() -> Device {
    let mut device = tty_usb0();
    device.action = Action::Change;
    device.properties = vec![property("ID_BUS", "usb"), property("EMPTY", "")];
    device.chain[0].attributes = vec![property("dev", "188:0\n"), property("both", "near")];
    device.chain[1].attributes = vec![property("serial", "RC-0417 "), property("both", "far")];
    device.chain.push(chain_device("/devices"));
    device.chain[2].driver = b"root hub".to_vec();
    device
}

#[test]
fn each_match_key() {
    let device = chain();
    for (key, value) in [
        ("ACTION", "change"),
        ("DEVPATH", "/devices/usb1/1-1/1-1:1.0/ttyUSB0"),
        ("KERNEL", "ttyUSB0"),
        ("KERNELS", "ttyUSB0"),
        ("KERNELS", "1-1"),
        ("KERNELS", "devices"),
        ("SUBSYSTEM", "tty"),
        ("SUBSYSTEMS", "tty"),
        ("SUBSYSTEMS", "usb"),
        ("SUBSYSTEMS", ""),
        ("DRIVERS", "usb"),
        ("DRIVERS", "root hub"),
        ("ATTR{dev}", "188:0"),
        ("ATTR{both}", "near"),
        ("ATTRS{both}", "near"),
        ("ATTRS{both}", "far"),
        ("ATTRS{serial}", "RC-0417"),
        ("ENV{ID_BUS}", "usb"),
        ("ENV{EMPTY}", ""),
        ("ENV{none}", ""),
    ] {
        assert!(
            matches(&format!("{key}==\"{value}\""), &device),
            "{key} {value}"
        );
    }
    for (key, value) in [
        ("ACTION", "add"),
        ("DEVPATH", "ttyUSB0"),
        ("KERNEL", "1-1"),
        ("KERNELS", "usb1"),
        ("SUBSYSTEM", "usb"),
        ("DRIVER", "usb"),
        ("DRIVER", ""),
        ("DRIVERS", ""),
        ("ATTR{both}", "far"),
        ("ATTR{serial}", ""),
        ("ATTRS{both}", ""),
        ("ATTR{serial}", "RC-0417"),
        ("ENV{none}", "?*"),
        ("SYMLINK", "*"),
        ("TAG", "*"),
        ("TAG", ""),
    ] {
        assert!(
            !matches(&format!("{key}==\"{value}\""), &device),
            "{key} {value}"
        );
    }
}

#[test]
fn unequal() {
    let device = chain();
    assert!(matches("KERNEL!=\"sda\"", &device));
    assert!(!matches("KERNEL!=\"tty*\"", &device));
    assert!(matches("ATTR{none}!=\"x\"", &device));
    assert!(matches("ATTR{none}!=\"\"", &device));
    assert!(matches("DRIVER!=\"x\"", &device));
    assert!(matches("SYMLINK!=\"*\", TAG!=\"*\"", &device));
}

#[test]
fn links_and_tags_match_by_any_entry() {
    let device = chain();
    let text = "SYMLINK=\"a b\", TAG=\"s\"\nTAG+=\"t\"\n\
                SYMLINK==\"b\", TAG==\"t\", ENV{1}=\"y\"\n\
                SYMLINK==\"c\", ENV{2}=\"y\"\n\
                SYMLINK!=\"c\", TAG!=\"u\", ENV{3}=\"y\"\n\
                SYMLINK!=\"a\", ENV{4}=\"y\"\n\
                TAG!=\"?\", ENV{5}=\"y\"\n";
    assert_eq!(
        properties_of(text, &device),
        ["ID_BUS=usb", "EMPTY=", "1=y", "3=y"]
    );
}

#[test]
fn parent_keys_select_the_nearest_device() {
    let device = chain();
    let id = |keys: &str| links_of(&format!("{keys}, SYMLINK=\"id-%b-$driver\""), &device);
    assert_eq!(id("KERNEL==\"*\""), ["id--"]);
    assert_eq!(id("KERNELS==\"*\""), ["id-ttyUSB0-"]);
    assert_eq!(id("DRIVERS==\"?*\""), ["id-1-1-usb"]);
    assert_eq!(
        id("DRIVERS==\"?*\", SUBSYSTEMS!=\"usb\""),
        ["id-devices-root_hub"]
    );
    assert_eq!(id("KERNELS!=\"tty*\""), ["id-1-1-usb"]);
    assert_eq!(id("ATTRS{both}!=\"*\""), ["id-devices-root_hub"]);
    assert!(!matches("ATTRS{both}!=\"*\", SUBSYSTEMS==\"usb\"", &device));
}

#[test]
fn trailing_whitespace_is_judged_by_the_whole_match_value() {
    let mut device = device_at("/a");
    device.chain[0].attributes = vec![property("a", "x \t\n\u{b}\u{c}\r")];
    assert!(matches("ATTR{a}==\"x\"", &device));
    assert!(matches("ATTR{a}!=\"x \"", &device));
    assert!(matches("ATTR{a}==\"x*\r\"", &device));
    assert!(matches("ATTR{a}==\"x |x\"", &device));
    assert!(!matches("ATTR{a}==\"x|y \"", &device));
    assert!(!matches("ATTR{a}==\"x?*\"", &device));
    assert!(!matches("ATTR{a}==\"x*[ ]\"", &device));
    device.chain[0].attributes = vec![property("a", " \n")];
    assert!(matches("ATTR{a}==\"\"", &device));
    device.properties = vec![property("P", "x ")];
    assert!(!matches("ENV{P}==\"x\"", &device), "properties keep theirs");
}

#[test]
fn each_substitution() {
    let mut device = chain();
    device.node = Some(Node {
        major: 188,
        minor: 1_048_575,
    });
    let substituted = |template: &str| {
        let runs = runs_of(
            &format!("ATTRS{{serial}}==\"*7\", RUN=\"<{template}>\""),
            &device,
        );
        runs[0]["program ".len()..].to_string()
    };
    for (template, text) in [
        ("$kernel %k", "<ttyUSB0 ttyUSB0>"),
        ("$number%n", "<00>"),
        ("$devpath", "</devices/usb1/1-1/1-1:1.0/ttyUSB0>"),
        ("%p", "</devices/usb1/1-1/1-1:1.0/ttyUSB0>"),
        ("$id %b $idx", "<1-1 1-1 1-1x>"),
        ("$driver", "<usb>"),
        ("$attr{dev}|%s{dev}", "<188:0|188:0>"),
        ("$attr{serial}|", "<RC-0417|>"),
        ("%s{both}", "<near>"),
        ("$attr{none}", "<>"),
        ("$env{ID_BUS}%E{EMPTY}%E{none}", "<usb>"),
        ("$major:$minor %M:%m", "<188:1048575 188:1048575>"),
        ("$$kernel %%k", "<$kernel %k>"),
        ("%b{x}", "<1-1{x}>"),
    ] {
        assert_eq!(substituted(template), text, "{template}");
    }
    device.node = None;
    assert_eq!(runs_of("RUN=\"%M:%m\"", &device), ["program 0:0"]);
}

#[test]
fn attribute_of_the_event_device_comes_first_even_if_empty() {
    let mut device = chain();
    device.chain[0].attributes = vec![property("both", "")];
    let text = "ATTRS{both}==\"far\", SYMLINK=\"x$attr{both}-%b\"";
    assert_eq!(links_of(text, &device), ["x-1-1"]);
    // Without parent keys there is no parent to take it from.
    device.chain[0].attributes.clear();
    assert_eq!(links_of("SYMLINK=\"x$attr{both}\"", &device), ["x"]);
    let text = "KERNELS==\"1-1\", SYMLINK=\"x$attr{both}\"";
    assert_eq!(links_of(text, &device), ["xfar"]);
}

#[test]
fn a_run_keeps_the_matched_device() {
    let device = chain();
    let text = "KERNELS==\"1-1\", RUN=\"%b %s{serial}\"\n\
                KERNELS==\"devices\", RUN+=\"%b $driver\"\n\
                RUN{builtin}+=\"<%b>\"\n";
    assert_eq!(
        runs_of(text, &device),
        [
            "program 1-1 RC-0417",
            "program devices root hub",
            "builtin <>"
        ]
    );
    let outcome = outcome_of(text, &device);
    let places: Vec<usize> = outcome.runs.iter().map(|run| run.matched).collect();
    assert_eq!(places, [2, 3, 0]);
}

#[test]
fn substitution_sees_earlier_assignments_of_its_rule() {
    let device = device_with(&[("A", "old")]);
    let text = "SYMLINK+=\"1-$env{A}\", ENV{A}=\"new\", SYMLINK+=\"2-$env{A}\"";
    assert_eq!(links_of(text, &device), ["1-old", "2-new"]);
}

#[test]
fn lists() {
    let device = device_at("/a");
    let tags = |text: &str| tags_of(text, &device);
    assert_eq!(tags("TAG+=\"a\", TAG+=\"b\", TAG+=\"a\""), ["a", "b"]);
    assert_eq!(tags("TAG+=\"a\", TAG=\"b\", TAG+=\"c\""), ["b", "c"]);
    assert_eq!(
        tags("TAG+=\"a\", TAG+=\"b\", TAG-=\"a\", TAG+=\"a\""),
        ["b", "a"]
    );
    assert_eq!(
        tags("TAG+=\"a\", TAG-=\"none\", TAG-=\"*\", TAG-=\"\""),
        ["a"]
    );
    assert_eq!(tags("TAG+=\"a\", TAG+=\"\""), ["a"]);
    assert_eq!(tags("TAG+=\"a\", TAG=\"\"").len(), 0);
    assert_eq!(tags("TAG=\"a b %k\""), ["a b %k"]);
    let links = |text: &str| links_of(text, &device);
    assert_eq!(
        links("SYMLINK+=\" b  a b \", SYMLINK+=\"c a\""),
        ["b", "a", "c"]
    );
    assert_eq!(links("SYMLINK+=\"a b c\", SYMLINK-=\"c x a\""), ["b"]);
    assert_eq!(links("SYMLINK+=\"a b\", SYMLINK=\"c\""), ["c"]);
    assert_eq!(links("SYMLINK+=\"a b\", SYMLINK=\"\"").len(), 0);
    assert_eq!(
        links("SYMLINK+=\"a b\", SYMLINK+=\"  \", SYMLINK-=\"\""),
        ["a", "b"]
    );
    let runs = |text: &str| runs_of(text, &device);
    assert_eq!(
        runs("RUN+=\"a\", RUN{builtin}+=\"a\", RUN{program}+=\"a\", RUN+=\"\""),
        ["program a", "builtin a", "program a"]
    );
    assert_eq!(runs("RUN+=\"a\", RUN{builtin}=\"b\""), ["builtin b"]);
    assert_eq!(runs("RUN+=\"a\", RUN=\"\"").len(), 0);
}

#[test]
fn freed_places_are_used_again() {
    let device = device_at("/a");
    let full = "SYMLINK=\"1 2 3 4 5 6 7 8 9 10 11 12 13 14 15 16\"";
    let links = links_of(
        &format!("{full}, SYMLINK-=\"3\", SYMLINK+=\"new\""),
        &device,
    );
    assert_eq!(
        (links.len(), links[2].as_str(), links[15].as_str()),
        (16, "4", "new")
    );
    let links = links_of(&format!("{full}\n{full}"), &device);
    assert_eq!(links.len(), 16);
    let text: String = (0..32).map(|i| format!("ENV{{{i}}}=\"v\"\n")).collect();
    let text = text + "ENV{7}=\"\"\nENV{new}=\"v\"\nENV{9}=\"w\"\nENV{none}=\"\"";
    let properties = properties_of(&text, &device);
    assert_eq!((properties.len(), properties[31].as_str()), (32, "new=v"));
    assert_eq!(
        refusal(&format!("{text}\nENV{{7}}=\"v\""), &device),
        (32, 37)
    );
}

#[test]
fn properties() {
    let device = device_with(&[("A", "1"), ("B", "2")]);
    let of = |text: &str| properties_of(text, &device);
    assert_eq!(of("ENV{A}=\"3\", ENV{C}=\"4\""), ["A=3", "B=2", "C=4"]);
    assert_eq!(of("ENV{A}=\"\", ENV{none}=\"\""), ["B=2"]);
    assert_eq!(of("ENV{A}=\"\", ENV{A}=\"5\""), ["B=2", "A=5"]);
    assert_eq!(of("ENV{A}=\"$env{B} %k|*\""), ["A=$env{B} %k|*", "B=2"]);
}

#[test]
fn closed_keys() {
    let device = device_at("/a");
    let text =
        "SYMLINK:=\"a b\", TAG:=\"t\", RUN:=\"x\", OWNER:=\"o\", GROUP:=\"g\", MODE:=\"1\"\n\
                SYMLINK+=\"/\", SYMLINK=\"c\", SYMLINK-=\"a\", SYMLINK:=\"..\"\n\
                TAG+=\"u\", TAG-=\"t\", TAG=\"\"\n\
                RUN+=\"y\", RUN{builtin}=\"z\"\n\
                OWNER=\"\", GROUP:=\"a b\", MODE=\"9\"\n";
    let outcome = outcome_of(text, &device);
    assert_eq!(strings(&outcome.links), ["a", "b"]);
    assert_eq!(strings(&outcome.tags), ["t"]);
    assert_eq!(outcome.runs.len(), 1);
    assert_eq!(outcome.owner, Some(b"o".to_vec()));
    assert_eq!(outcome.group, Some(b"g".to_vec()));
    assert_eq!(outcome.mode, Some(1));
    let all = Closed {
        links: true,
        tags: true,
        runs: true,
        owner: true,
        group: true,
        mode: true,
    };
    assert_eq!(outcome.closed, all);
}

#[test]
fn closing_within_a_rule_and_with_an_empty_value() {
    let device = device_at("/a");
    assert_eq!(tags_of("TAG:=\"a\", TAG+=\"b\"", &device), ["a"]);
    assert_eq!(
        tags_of("TAG+=\"a\", TAG:=\"\", TAG+=\"b\"", &device).len(),
        0
    );
    let outcome = outcome_of(
        "OWNER=\"a\", OWNER=\"b\", OWNER:=\"c\", OWNER=\"d\"",
        &device,
    );
    assert_eq!(outcome.owner, Some(b"c".to_vec()));
    assert!(outcome.closed.owner && !outcome.closed.group);
}

#[test]
fn keys_closed_in_the_starting_record() {
    let device = device_at("/a");
    let outcome = Outcome {
        closed: Closed {
            links: true,
            mode: true,
            ..Closed::default()
        },
        ..Outcome::default()
    };
    let text = "SYMLINK=\"a\", MODE=\"7\", TAG=\"t\", SYMLINK!=\"a\"";
    let (_, outcome) = run_on(text, &device, &outcome);
    assert_eq!((outcome.links.len(), outcome.mode), (0, None));
    assert_eq!(outcome.tags, [b"t"]);
}

#[test]
fn string_escape_of_links() {
    let device = device_with(&[("A", " a\tb\nc "), ("B", "x!y\u{e4}")]);
    let links = |text: &str| links_of(text, &device);
    assert_eq!(links("SYMLINK=\"<$env{A}>$env{B}\""), ["__a_b_c__x_y__"]);
    let replace = "OPTIONS=\"string_escape=replace\"";
    let none = "OPTIONS+=\"string_escape=none\"";
    assert_eq!(
        links(&format!("{replace}, SYMLINK=\"<$env{{A}}>$env{{B}}\"")),
        ["__a_b_c__x_y__"]
    );
    assert_eq!(
        links(&format!("{none}, SYMLINK=\"<$env{{A}}>$env{{B}}\"")),
        ["<", "a\tb\nc", ">x!y\u{e4}"]
    );
    // The latest so far counts.
    assert_eq!(
        links(&format!(
            "SYMLINK+=\"1!\", {none}, SYMLINK+=\"2!\", {replace}, SYMLINK+=\"3!\""
        )),
        ["1_", "2!", "3_"]
    );
    // The setting ends with its rule.
    assert_eq!(links(&format!("{none}\nSYMLINK=\"1!\"")), ["1_"]);
    // Only spaces split; other whitespace that is written becomes `_`.
    assert_eq!(links("SYMLINK=\"a\tb c\""), ["a_b", "c"]);
    assert_eq!(links(&format!("{none}, SYMLINK=\"a\tb c\"")), ["a\tb", "c"]);
    // What is left over is as it was.
    let clean = "azAZ09#+-.:=@_/x";
    assert_eq!(links(&format!("SYMLINK=\"{clean}\"")), [clean]);
}

#[test]
fn removed_links_are_cleaned_too() {
    let device = device_with(&[("A", "a b")]);
    let text = "SYMLINK=\"a_b c_ d\", SYMLINK-=\"$env{A} c!\"";
    assert_eq!(links_of(text, &device), ["d"]);
    let text = "SYMLINK=\"a_b c_ d\", OPTIONS=\"string_escape=none\", SYMLINK-=\"c! d\"";
    assert_eq!(links_of(text, &device), ["a_b", "c_"]);
}

#[test]
fn string_escape_of_properties() {
    let device = device_at("/a");
    let value = "a b/c!\u{e4}";
    let of = |text: &str| properties_of(text, &device);
    assert_eq!(of(&format!("ENV{{A}}=\"{value}\"")), [format!("A={value}")]);
    let text = format!(
        "ENV{{A}}=\"{value}\", OPTIONS=\"string_escape=replace\", ENV{{B}}=\"{value}\", \
         OPTIONS=\"string_escape=none\", ENV{{C}}=\"{value}\"\nENV{{D}}=\"{value}\""
    );
    assert_eq!(
        of(&text),
        [
            format!("A={value}"),
            String::from("B=a_b/c___"),
            format!("C={value}"),
            format!("D={value}")
        ]
    );
}

#[test]
fn other_templates_keep_what_is_inserted() {
    let device = device_with(&[("A", "a b")]);
    assert_eq!(refusal("OWNER=\"$env{A}\"", &device), (33, 1));
    assert_eq!(runs_of("RUN=\"$env{A}!\"", &device), ["program a b!"]);
}

#[test]
fn options_take_either_operator() {
    let device = device_at("/a");
    for operator in ["=", "+="] {
        let text = format!("OPTIONS{operator}\"link_priority=-12\"");
        assert_eq!(outcome_of(&text, &device).priority, -12);
    }
    let text = "OPTIONS=\"link_priority=1\", OPTIONS+=\"link_priority=0000000002\"";
    assert_eq!(outcome_of(text, &device).priority, 2);
}

#[test]
fn jumps() {
    let device = device_at("/a");
    let text = "GOTO=\"end\", TAG+=\"1\"\n\
                TAG+=\"2\"\n\
                KERNEL==\"no\", LABEL=\"end\", TAG+=\"3\"\n\
                KERNEL==\"no\", GOTO=\"far\"\n\
                TAG+=\"5\"\n\
                LABEL=\"far\"\n";
    let (visited, outcome) = run(text, &device);
    assert_eq!(visited, 5);
    assert_eq!(strings(&outcome.tags), ["1", "5"]);
}

#[test]
fn visited_counts() {
    let device = device_at("/a");
    let visited = |text: &str| run(text, &device).0;
    assert_eq!(visited(""), 0);
    assert_eq!(visited("\n# comment\n \t\n"), 0);
    assert_eq!(visited("KERNEL==\"no\"\nKERNEL==\"a\""), 2);
    assert_eq!(
        visited("GOTO=\"a\"\nTAG+=\"x\"\nTAG+=\"y\"\nLABEL=\"a\""),
        2
    );
}

#[test]
fn a_run_without_effect_keeps_the_record() {
    let device = chain();
    let outcome = Outcome {
        priority: -1,
        tags: vec![b"t".to_vec()],
        ..Outcome::fresh(&device)
    };
    let (answer, record) = run_from("KERNEL==\"no\", TAG=\"x\"", &device, &outcome);
    assert_eq!((answer.number, answer.visited), (0, 1));
    assert_eq!(record, outcome.encode());
}

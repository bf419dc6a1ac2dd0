//! A naming plan that is checked: document 02, Item 14.

mod common;

use common::*;
use reference::compare::{first_difference, replies, Engine, Operation, Reference, Reply, Request};
use reference::device::Device;
use reference::generate::{case, Case, Extra};
use reference::request::{AnswerArray, Written};
use reference::sizes::TEXT;
use reference::wanted_set::{Wanted, WantedSet};
use reference::Answer;

fn wanted(device: &Device, link: &str) -> Wanted {
    Wanted {
        device: device.encode(),
        link: link.as_bytes().to_vec(),
    }
}

fn packed(entries: &[Wanted]) -> Vec<u8> {
    let set = WantedSet {
        entries: entries.to_vec(),
    };
    set.encode()
}

/// Two devices with a link for each.
fn two() -> Vec<Wanted> {
    vec![
        wanted(&device_at("/devices/sda"), "first"),
        wanted(&tty_usb0(), "rope/trip0"),
    ]
}

/// What all answers to sets have in common.
fn assert_plain(answer: &Answer) {
    assert_eq!((answer.line, answer.visited, answer.tried), (0, 0, 0));
    assert!(answer.number == 0 || (answer.used, answer.count) == (0, 0));
    assert!(answer.number == 3 || answer.position == 0);
}

/// Number and position, then whether the text is accepted.
fn check_bytes(set: &[u8], text: &[u8]) -> (u32, u32, bool) {
    let answer = reference::plan_check(set, text);
    assert_plain(&answer);
    assert_eq!(answer.used, 0);
    (answer.number, answer.position, answer.count == 1)
}

#[track_caller]
fn accepts(entries: &[Wanted], text: &str) -> bool {
    let (number, _, accepted) = check_bytes(&packed(entries), text.as_bytes());
    assert_eq!(number, 0);
    accepted
}

/// Number and position, then the plan.
fn plan_into(set: &[u8], room: usize) -> (u32, u32, Option<Vec<u8>>) {
    let mut target = vec![0xAA; room];
    let answer = reference::plan(set, &mut target);
    assert_plain(&answer);
    let (text, rest) = target.split_at(answer.used as usize);
    assert!(rest.iter().all(|&byte| byte == 0));
    assert!(answer.count == 1 || text.is_empty());
    let plan = (answer.count == 1).then(|| text.to_vec());
    (answer.number, answer.position, plan)
}

/// Whether there is a plan for the entries; if so, the check accepts it.
#[track_caller]
fn is_planned(entries: &[Wanted]) -> bool {
    let set = packed(entries);
    let (number, _, plan) = plan_into(&set, TEXT);
    assert_eq!(number, 0);
    if let Some(plan) = &plan {
        assert_eq!(check_bytes(&set, plan), (0, 0, true));
    }
    plan.is_some()
}

#[test]
fn the_layout() {
    let device = device_at("/devices/sda").encode();
    let length = (device.len() as u16).to_be_bytes();
    let bytes = [&[1][..], &length, &device, &[5], b"first"].concat();
    assert_eq!(packed(&two()[..1]), bytes);
}

#[test]
fn a_text_is_accepted_if_each_device_ends_with_its_link() {
    let text = "KERNEL==\"sda\", SYMLINK+=\"first\"\nKERNEL==\"tty*\", SYMLINK+=\"rope/trip%n\"";
    assert!(accepts(&two(), text));
    assert!(accepts(
        &two(),
        &format!("SYMLINK=\"x\"\nSYMLINK=\"\"\n{text}")
    ));
    // One device is enough to fail.
    assert!(!accepts(&two(), "KERNEL==\"sda\", SYMLINK+=\"first\""));
    assert!(!accepts(&two(), "SYMLINK+=\"first\""));
    assert!(accepts(&two()[..1], "SYMLINK+=\"first\""));
    assert!(!accepts(&two(), ""));
}

#[test]
fn and_with_no_other_link() {
    let one = &two()[..1];
    assert!(!accepts(one, "SYMLINK+=\"first second\""));
    assert!(!accepts(one, "SYMLINK+=\"second first\""));
    assert!(accepts(
        one,
        "SYMLINK+=\"second first\"\nSYMLINK-=\"second\""
    ));
    assert!(!accepts(one, "SYMLINK+=\"First\""));
    assert!(!accepts(one, "SYMLINK+=\"first_\""));
    // What else the text leaves does not matter.
    assert!(accepts(
        one,
        "SYMLINK:=\"first\", TAG+=\"a\", MODE=\"0600\", RUN+=\"x\""
    ));
    // A run that the close would refuse is not asked for its run list.
    let long = "%p".repeat(100);
    assert!(accepts(one, &format!("SYMLINK=\"first\", RUN+=\"{long}\"")));
}

#[test]
fn a_text_that_is_refused_is_not_accepted() {
    let one = &two()[..1];
    assert!(!accepts(one, "SYMLINK=\"first\"\nNAME"));
    assert!(!accepts(one, "SYMLINK=\"first\"\nGOTO=\"a\""));
    assert!(!accepts(one, "SYMLINK=\"first\"\\"));
    assert!(!accepts(one, "SYMLINK=\"first\", MODE=\"8\""));
    assert!(!accepts(one, "SYMLINK=\"first\", MODE=\"0666\""));
    let fits = |length| {
        let rule = "SYMLINK=\"first\"\n";
        accepts(one, &format!("{rule}{}", "\n".repeat(length - rule.len())))
    };
    assert!(fits(TEXT));
    assert!(!fits(TEXT + 1));
    assert!(!fits(65_535));
}

#[test]
fn the_sheet_is_empty_and_the_records_are_fresh() {
    let one = &two()[..1];
    assert!(!accepts(one, "PROGRAM=\"x\"\nSYMLINK=\"first\""));
    assert!(!accepts(one, "PROGRAM!=\"x\"\nSYMLINK=\"first\""));
    assert!(accepts(
        one,
        "KERNEL==\"no\", PROGRAM=\"x\"\nSYMLINK=\"first\""
    ));
    assert!(accepts(one, "RESULT==\"\", SYMLINK=\"first\""));
    let device = device_with(&[("ID", "first")]);
    assert!(accepts(&[wanted(&device, "first")], "SYMLINK=\"$env{ID}\""));
}

#[test]
fn a_link_that_no_run_makes_is_never_reached() {
    for link in ["", "/a", "a//b", ".."] {
        let set = [wanted(&tty_usb0(), link)];
        assert!(!accepts(&set, &format!("SYMLINK=\"{link}\"")), "{link:?}");
        assert!(!accepts(&set, ""), "{link:?}");
    }
    // One that is not clean can be made, but not by the planner.
    let unclean = [wanted(&tty_usb0(), "a\u{e4}")];
    let text = "OPTIONS=\"string_escape=none\", SYMLINK=\"a\u{e4}\"";
    assert!(accepts(&unclean, text));
    assert!(!is_planned(&unclean));
}

#[test]
fn a_plan_wherever_the_conditions_hold() {
    assert!(is_planned(&two()));
    assert!(is_planned(&two()[..1]));
    let path = "/A-Z/a.z/0_9:1.0/-";
    let link = "AZ/az/09#+-.:=@_/...";
    assert!(is_planned(&[wanted(&device_at(path), link)]));
    let many: Vec<Wanted> = (0..16)
        .map(|n| wanted(&device_at(&format!("/devices/tty{n}")), &format!("{n}")))
        .collect();
    assert!(is_planned(&many));
    // One path may begin another, and names may be alike.
    assert!(is_planned(&[
        wanted(&device_at("/a"), "x"),
        wanted(&device_at("/a/a"), "y"),
        wanted(&device_at("/a/a/a"), "x/y"),
    ]));
    // Only the event path counts: a parent and its record may be as they are.
    let mut odd_parent = tty_usb0();
    odd_parent.chain[1].attributes = vec![property("a b*[", "\u{e4}")];
    odd_parent.properties = vec![property("$", "%")];
    assert!(is_planned(&[wanted(&odd_parent, "x")]));
}

#[test]
fn none_where_a_link_is_not_as_asked() {
    let link = |link: &str| {
        is_planned(&[
            wanted(&device_at("/a"), "other"),
            wanted(&device_at("/b"), link),
        ])
    };
    assert!(link("fine"));
    assert!(!link("other"), "wanted twice");
    for unclean in [
        "a b", "a\tb", "a\u{e4}", "a\\x", "$kernel", "a%", "a\"", "a,b", "a*",
    ] {
        assert!(!link(unclean), "{unclean:?}");
    }
    for unsound in ["", "/a", "a/", "a//b", ".", "..", "a/./b", "a/.."] {
        assert!(!link(unsound), "{unsound:?}");
    }
    assert!(link(&"l".repeat(128)));
    assert!(!link(&"l".repeat(129)));
    assert!(!link(&"l".repeat(255)));
    assert!(link("..."));
}

#[test]
fn none_where_a_path_is_not_as_asked() {
    let path = |path: &str| {
        is_planned(&[
            wanted(&device_at("/other"), "x"),
            wanted(&device_at(path), "y"),
        ])
    };
    assert!(path("/fine"));
    assert!(!path("/other"), "two devices with one path");
    for byte in [
        "+", " ", "*", "?", "[", "|", "\"", "\\", "#", "=", "@", "\u{e4}", "\n",
    ] {
        assert!(!path(&format!("/a{byte}")), "{byte:?}");
    }
    assert!(path(&format!("/{}", "p".repeat(127))));
    assert!(!path(&format!("/{}", "p".repeat(128))));
}

#[test]
fn none_even_where_a_text_would_do() {
    // Devices with one path that differ otherwise.
    let mut removed = device_at("/a");
    removed.action = reference::device::Action::Remove;
    let set = [wanted(&device_at("/a"), "x"), wanted(&removed, "y")];
    let text = "ACTION==\"add\", SYMLINK=\"x\"\nACTION==\"remove\", SYMLINK=\"y\"";
    assert!(accepts(&set, text));
    assert!(!is_planned(&set));
    // One link for two devices.
    let set = [wanted(&device_at("/a"), "x"), wanted(&device_at("/b"), "x")];
    assert!(accepts(&set, "SYMLINK=\"x\""));
    assert!(!is_planned(&set));
}

#[test]
fn a_set_outside_its_size_or_layout_is_7() {
    let number = |set: &[u8]| {
        let (checked, position, _) = check_bytes(set, b"x");
        let (planned, ..) = plan_into(set, TEXT);
        assert_eq!((checked, position), (planned, 0));
        planned
    };
    let set = packed(&two());
    assert_eq!(number(&set), 0);
    for end in 0..set.len() {
        assert_eq!(number(&set[..end]), 7, "{end}");
    }
    assert_eq!(number(&[&set[..], b"\0"].concat()), 7);
    assert_eq!(number(&[0]), 7);
    let count = |count| number(&packed(&vec![two()[0].clone(); count]));
    assert_eq!((count(1), count(16), count(17)), (0, 0, 7));
    let link = |length| number(&packed(&[wanted(&tty_usb0(), &"l".repeat(length))]));
    assert_eq!((link(0), link(255)), (0, 0));
}

#[test]
fn a_faulty_device_is_refused_with_its_position() {
    let refused = |change: fn(&mut Vec<Wanted>)| {
        let mut entries = [two(), two()].concat();
        change(&mut entries);
        let set = packed(&entries);
        let (number, position, accepted) = check_bytes(&set, &[b'x'; 40_000]);
        let (planned, planned_position, plan) = plan_into(&set, TEXT);
        assert_eq!((planned, planned_position), (number, position));
        assert!(!accepted && plan.is_none());
        (number, position)
    };
    assert_eq!(refused(|set| set[0].device.clear()), (3, 1));
    assert_eq!(refused(|set| set[3].device.push(0)), (3, 4));
    assert_eq!(
        refused(|set| {
            set[2].device.clear();
            set[1].device.clear();
        }),
        (3, 2)
    );
    assert_eq!(refused(|set| set[1].device.resize(65_535, 0)), (3, 2));
    // Before the links are looked at.
    assert_eq!(
        refused(|set| {
            set[0].link.clear();
            set[1].device.clear();
        }),
        (3, 2)
    );
}

#[test]
fn the_room_of_a_plan_comes_first() {
    let set = packed(&two());
    assert_eq!(plan_into(&set, TEXT - 1), (1, 0, None));
    assert_eq!(plan_into(b"", TEXT - 1), (1, 0, None));
    assert_eq!(plan_into(b"", 0), (1, 0, None));
    assert_eq!(plan_into(b"", TEXT), (7, 0, None));
    assert!(plan_into(&set, TEXT + 9).2.is_some());
}

fn plan_cases() -> impl Iterator<Item = Case> {
    (0..10_000)
        .map(case)
        .filter(|case| matches!(case.extra, Extra::Plan { .. }))
}

fn of(replies: &[Reply], operation: Operation) -> &Reply {
    let mut replies = replies.iter();
    let reply = replies.find(|reply| reply.operation == operation);
    reply.expect("a reply")
}

#[test]
fn what_is_wanted_of_generated_sets() {
    let (mut plans, mut none, mut accepted, mut not_accepted) = (0, 0, 0, 0);
    for case in plan_cases() {
        let replies = replies(&Reference, &case);
        let plan = of(&replies, Operation::Plan);
        for check in [
            Operation::PlanCheckOwn,
            Operation::PlanCheckReference,
            Operation::PlanCheckByReference,
        ] {
            let check = of(&replies, check);
            assert_eq!(check.count(), plan.count());
        }
        plans += plan.count();
        none += u32::from(plan.number() == 0 && plan.count() == 0);
        let check = of(&replies, Operation::PlanCheck);
        accepted += check.count();
        not_accepted += u32::from(check.number() == 0 && check.count() == 0);
    }
    assert!(plans > 100 && none > 20, "{plans} {none}");
    assert!(
        accepted > 50 && not_accepted > 50,
        "{accepted} {not_accepted}"
    );
}

/// The reference with plans of its own.
struct Planner(fn(&mut AnswerArray, &mut Vec<u8>));

impl Engine for Planner {
    fn answer(&self, request: &Request, written: &mut Written) -> AnswerArray {
        let mut answer = Reference.answer(request, written);
        if let Request::Plan { .. } = request {
            (self.0)(&mut answer, &mut written.target);
        }
        answer
    }
}

/// Whether the comparison finds something in the plans.
fn finds(plan: fn(&mut AnswerArray, &mut Vec<u8>)) -> bool {
    let engine = Planner(plan);
    plan_cases().any(|case| {
        let both = [replies(&Reference, &case), replies(&engine, &case)];
        first_difference(&both[0], &both[1]).is_some()
    })
}

#[test]
fn plans_are_compared_by_their_checks() {
    // Another plan is as good.
    assert!(!finds(|answer, target| if answer[6] == 1 {
        let comment = b"# a plan\n";
        let used = answer[3] as usize;
        target.copy_within(..used, comment.len());
        target[..comment.len()].copy_from_slice(comment);
        answer[3] += comment.len() as u32;
    }));
    // One that names nothing is not, nor is none, nor one with something behind it.
    assert!(finds(|answer, target| if answer[6] == 1 {
        target.fill(0);
        answer[3] = 0;
    }));
    assert!(finds(|answer, target| if answer[6] == 1 {
        target.fill(0);
        answer[3] = 0;
        answer[6] = 0;
    }));
    assert!(finds(|answer, target| if answer[6] == 1 {
        *target.last_mut().expect("room") = 1;
    }));
    assert!(finds(|answer, _| answer[5] = 1));
}

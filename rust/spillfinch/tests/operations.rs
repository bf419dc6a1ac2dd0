//! Each operation once accepted and once refused.

use spillfinch::{
    check, close, contest, fresh, newer, older, plan, plan_check, run, run_files, sizes, strike,
    write, Held, Rank, RecordPair, Refusal, Refused, RefusedFile, RefusedSet, RulesFile, Struck,
    Wanted, EMPTY_SHEET,
};

/// ttyUSB0 with one property and no parents.
const DEVICE: &[u8] = b"\x10\x10\xbc\x00\x00\x00\x40\x10\x07ID_MODELcounter\x0a\x86\x00\x00\
    /devices/usb1/ttyUSB0tty";

const RULES: &[u8] =
    b"KERNEL==\"ttyUSB*\", SYMLINK+=\"counter%n\", RUN+=\"tally $env{ID_MODEL}\"\n";

fn refused<T>(refusal: Refusal, line: u32) -> Result<T, Refused> {
    Err(Refused { refusal, line })
}

#[test]
fn checks() {
    assert_eq!(check(RULES), Ok(()));
    assert_eq!(check(b""), Ok(()));
    assert_eq!(check(b"\nGOTO=\"a\""), refused(Refusal::LabelMissing, 2));
    assert_eq!(check(&[b'#'; 32_769]), refused(Refusal::TextLong, 0));
}

#[test]
fn runs_and_closes() {
    let start = fresh(DEVICE).expect("a sound device");
    assert_eq!(start[13..], *b"\x10\x07ID_MODELcounter");
    let ran = run(RULES, DEVICE, &start, EMPTY_SHEET).expect("an accepted run");
    assert_eq!(ran.visited, 1);
    assert_eq!(ran.record[13..22], *b"\x08counter0");
    let list = close(DEVICE, &ran.record).expect("an accepted close");
    assert_eq!(list, b"\x08\x01\xa0tally counter");
}

#[test]
fn converts() {
    let start = fresh(DEVICE).expect("a sound device");
    let ran = run(RULES, DEVICE, &start, EMPTY_SHEET).expect("an accepted run");
    let old = older(DEVICE, &ran.record).expect("nothing that edition 1 lacks");
    assert_eq!(old[0], ran.record[0] - 16);
    assert_eq!(old[11..], ran.record[13..]);
    assert_eq!(newer(DEVICE, &old).as_ref(), Ok(&ran.record));
    assert_eq!(newer(DEVICE, &ran.record), refused(Refusal::OutcomeBad, 0));
    assert_eq!(older(DEVICE, &old), refused(Refusal::OutcomeBad, 0));
    assert_eq!(close(DEVICE, &old), refused(Refusal::OutcomeBad, 0));
    let watched = run(b"OPTIONS=\"watch\"", DEVICE, &start, EMPTY_SHEET);
    let watched = watched.expect("an accepted run");
    assert_eq!(older(DEVICE, &watched.record), refused(Refusal::TooNew, 0));
}

#[test]
fn contests() {
    let start = fresh(DEVICE).expect("a sound device");
    let ran = |rules: &str| {
        let ran = run(rules.as_bytes(), DEVICE, &start, EMPTY_SHEET).expect("an accepted run");
        ran.record
    };
    let low = ran("SYMLINK+=\"rope a\", OPTIONS=\"link_priority=-1\"");
    let high = ran("SYMLINK+=\"b rope\", OPTIONS=\"link_priority=1\"");
    let claimant = |outcome| RecordPair {
        device: DEVICE,
        outcome,
    };
    let held = |name, holder, others| Held {
        name,
        holder,
        others,
    };
    let list = contest(&[&low, &high, &low].map(|record| claimant(record))).expect("sound records");
    let rows: Vec<Held> = list.into_iter().collect();
    assert_eq!(
        rows,
        [
            held(b"rope", 2, &[1, 3]),
            held(b"a", 1, &[3]),
            held(b"b", 2, &[]),
        ]
    );
    assert_eq!((list.len(), list.is_empty()), (3, false));
    let none = contest(&[]).expect("an empty set");
    assert_eq!((none.names().count(), none.is_empty()), (0, true));

    let refused = |refusal, position| Err(RefusedSet { refusal, position });
    let faulty = RecordPair {
        device: b"",
        outcome: b"",
    };
    assert_eq!(
        contest(&[claimant(&low), claimant(b""), faulty]),
        refused(Refusal::OutcomeBad, 2)
    );
    assert_eq!(contest(&[faulty]), refused(Refusal::DeviceBad, 1));
    assert_eq!(contest(&[claimant(&low); 65]), refused(Refusal::SetBad, 0));
    assert!(contest(&[claimant(&low); 64]).is_ok());
    let long = vec![0; 65_535];
    assert_eq!(contest(&[claimant(&long)]), refused(Refusal::OutcomeBad, 1));
    let longer = vec![0; 65_536];
    assert_eq!(contest(&[claimant(&longer)]), refused(Refusal::SetBad, 0));
    assert_eq!(contest(&[claimant(&low); 256]), refused(Refusal::SetBad, 0));
}

fn file<'a>(rank: Rank, name: &'a str, text: &'a str) -> RulesFile<'a> {
    RulesFile {
        rank,
        name: name.as_bytes(),
        text: text.as_bytes(),
    }
}

#[test]
fn runs_files() {
    let start = fresh(DEVICE).expect("a sound device");
    let all = |files: &[RulesFile]| run_files(files, DEVICE, &start, EMPTY_SHEET);
    let one = |text: &str| run(text.as_bytes(), DEVICE, &start, EMPTY_SHEET);
    let tag = "TAG+=\"a\"\n";
    let link = "TAG==\"a\", SYMLINK+=\"b\"\n";
    let ran = one(&format!("{tag}{link}")).expect("an accepted run");
    // Of one name the highest rank; the texts of the others, and of other names, are not read.
    let files = [
        file(Rank::Lib, "2.rules", link),
        file(Rank::Lib, "1.rules", "x"),
        file(Rank::UsrLocalLib, "1.rules", "x"),
        file(Rank::Run, "1.rules", "x"),
        file(Rank::Etc, "1.rules", tag),
        file(Rank::Etc, "README", "x"),
    ];
    let mut permuted = files;
    permuted.reverse();
    assert_eq!(all(&files).as_ref(), Ok(&ran));
    assert_eq!(all(&permuted).as_ref(), Ok(&ran));
    assert_eq!(all(&[]).expect("no rules").record, start);

    let refused = |refusal, line, position| {
        Err(RefusedFile {
            refused: Refused { refusal, line },
            position,
        })
    };
    let readme = file(Rank::Etc, "README", "");
    assert_eq!(all(&[readme; 2]), refused(Refusal::FileTwice, 0, 0));
    // A fault in the last file comes before the first one runs.
    let (mode, bad) = ("\nMODE=\"8\"", "\n\nGOTO=\"end\"");
    let first = file(Rank::Lib, "1.rules", mode);
    let last = file(Rank::Etc, "2.rules", bad);
    assert_eq!(all(&[last, first]), refused(Refusal::LabelMissing, 3, 1));
    assert_eq!(all(&[readme, first]), refused(Refusal::ModeBad, 2, 2));
    assert_eq!(
        run_files(&[first], b"", b"", b""),
        refused(Refusal::DeviceBad, 0, 0)
    );

    let numbers: Vec<String> = (0..33).map(|number| number.to_string()).collect();
    let many: Vec<RulesFile> = numbers
        .iter()
        .map(|name| file(Rank::Run, name, "x"))
        .collect();
    assert!(all(&many[..32]).is_ok());
    assert_eq!(all(&many), refused(Refusal::SetBad, 0, 0));
    let name = "n".repeat(65);
    assert!(all(&[file(Rank::Run, &name[..64], "")]).is_ok());
    assert_eq!(
        all(&[file(Rank::Run, &name, "")]),
        refused(Refusal::SetBad, 0, 0)
    );
    let text = "\n".repeat(65_536);
    let long = file(Rank::Run, "1.rules", &text[..65_535]);
    assert_eq!(all(&[long]), refused(Refusal::TextLong, 0, 1));
    let longer = file(Rank::Run, "1.rules", &text);
    assert_eq!(all(&[longer]), refused(Refusal::SetBad, 0, 0));
}

/// A device of that path, without anything else.
fn device_at(path: &str) -> Vec<u8> {
    let length = path.len() as u8;
    let head = [0x10, 0, 0, 0, 0, 0, 0, length >> 1, length << 7, 0, 0];
    [&head[..], path.as_bytes()].concat()
}

fn wanted<'a>(device: &'a [u8], link: &'a str) -> Wanted<'a> {
    Wanted {
        device,
        link: link.as_bytes(),
    }
}

/// The links that a text leaves a device, as the record has them behind its header.
#[track_caller]
fn assert_named(text: &[u8], wanted: &Wanted) {
    let start = fresh(wanted.device).expect("a sound device");
    let ran = run(text, wanted.device, &start, EMPTY_SHEET).expect("an accepted run");
    let links = &ran.record[13..];
    assert_eq!(usize::from(links[0]), wanted.link.len());
    assert_eq!(&links[1..], wanted.link);
}

#[test]
fn plans() {
    let devices = ["/a", "/a/a", "/b"].map(device_at);
    let links = ["rope/trip0", "#+-.:=@_/...", "x"];
    let set: Vec<Wanted> = devices
        .iter()
        .zip(links)
        .map(|(device, link)| wanted(device, link))
        .collect();
    let text = plan(&set).expect("sound devices").expect("a plan");
    assert_eq!(plan_check(&set, &text), Ok(true));
    for wanted in &set {
        assert_named(&text, wanted);
    }
    // A plan is for its set, and names nothing beside it.
    assert_eq!(plan_check(&set[1..], &text), Ok(true));
    let other = device_at("/other");
    let set = [&set[..], &[wanted(&other, "y")]].concat();
    assert_eq!(plan_check(&set, &text), Ok(false));
    let more = [&text[..], b"SYMLINK+=\"x\"\n"].concat();
    assert_eq!(plan_check(&set[..3], &more), Ok(false));
    for faulty in [&b"GOTO=\"a\""[..], b"PROGRAM=\"a\"", &[b'#'; 65_536]] {
        assert_eq!(plan_check(&set, faulty), Ok(false));
    }
    assert_eq!(plan_check(&[wanted(&other, "")], b""), Ok(false));
}

#[test]
fn plans_the_most() {
    let paths = names(16, 127).map(|name| format!("/{}", String::from_utf8_lossy(&name)));
    let devices: Vec<Vec<u8>> = paths.map(|path| device_at(&path)).collect();
    let links: Vec<Vec<u8>> = names(16, 128).collect();
    let wanted = |(device, link)| Wanted { device, link };
    let set: Vec<Wanted> = devices
        .iter()
        .map(Vec::as_slice)
        .zip(links.iter().map(Vec::as_slice))
        .map(wanted)
        .collect();
    let text = plan(&set).expect("sound devices").expect("a plan");
    assert_eq!(plan_check(&set, &text), Ok(true));
    for wanted in &set {
        assert_named(&text, wanted);
    }
}

#[test]
fn plans_nothing_else() {
    let (a, b) = (device_at("/a"), device_at("/b"));
    let of = |first: &Wanted, second: &Wanted| plan(&[*first, *second]);
    assert!(matches!(
        of(&wanted(&a, "x"), &wanted(&b, "y")),
        Ok(Some(_))
    ));
    assert_eq!(of(&wanted(&a, "x"), &wanted(&b, "x")), Ok(None));
    assert_eq!(of(&wanted(&a, "x"), &wanted(&a, "y")), Ok(None));
    let long = "l".repeat(255);
    for link in ["", "/x", "x/../y", "x y", "$kernel", &long[..129], &long] {
        assert_eq!(plan(&[wanted(&a, link)]), Ok(None), "{link}");
    }
    let long = format!("/{}", "p".repeat(128));
    for path in [&long[..], "/a*", "/a+", "/a b"] {
        assert_eq!(plan(&[wanted(&device_at(path), "x")]), Ok(None), "{path}");
    }
}

#[test]
fn refuses_sets_of_wanted_links() {
    let a = device_at("/a");
    let refused = |set: &[Wanted], refusal, position| {
        let refused = RefusedSet { refusal, position };
        assert_eq!(plan(set), Err(refused));
        assert_eq!(plan_check(set, &[b'x'; 40_000]), Err(refused));
    };
    refused(&[], Refusal::SetBad, 0);
    refused(&[wanted(&a, "x"); 17], Refusal::SetBad, 0);
    refused(&[wanted(&a, "x"); 256], Refusal::SetBad, 0);
    refused(&[wanted(&a, &"l".repeat(256))], Refusal::SetBad, 0);
    refused(&[wanted(&[0; 65_536], "x")], Refusal::SetBad, 0);
    refused(
        &[wanted(&a, ""), wanted(b"", ""), wanted(b"", "")],
        Refusal::DeviceBad,
        2,
    );
    refused(&[wanted(&[0; 65_535], "x")], Refusal::DeviceBad, 1);
    assert_eq!(plan(&[wanted(&a, "x"); 16]), Ok(None));
}

/// Names of so many bytes that differ in their first one.
fn names(count: u8, length: usize) -> impl Iterator<Item = Vec<u8>> {
    (0..count).map(move |index| {
        let mut name = vec![b'x'; length];
        name[0] = b'A' + index;
        name
    })
}

/// The parts of a record with as much of everything as there may be, behind its output.
fn fullest_parts() -> Vec<u8> {
    let mut parts = vec![b'o'; 64];
    for link in names(16, 128) {
        parts.push(128);
        parts.extend(link);
    }
    for key in names(32, 64) {
        parts.extend([64 << 1 | 1, 0]);
        parts.extend(key);
        parts.extend([b'v'; 256]);
    }
    for tag in names(16, 64) {
        parts.push(64);
        parts.extend(tag);
    }
    for _ in 0..16 {
        parts.extend([0x06, 0x00]);
        parts.extend([b'r'; 256]);
    }
    parts
}

/// Every key closed, owner and group of 32, mode 7775, priority -1, then the counts.
fn fullest_header(edition: u128) -> u128 {
    let fields = [
        (4, edition),
        (6, 63),
        (6, 32),
        (6, 32),
        (1, 1),
        (12, 0o7775),
        (32, 0xffff_ffff),
        (5, 16),
        (6, 32),
        (5, 16),
        (5, 16),
    ];
    fields
        .iter()
        .fold(0, |header, (width, number)| header << width | number)
}

#[test]
fn fullest_records() {
    let parts = fullest_parts();
    let header = (fullest_header(2) << 10 | 512) << 6 | 2 << 4;
    let output = [b'y'; 512];
    let new = [&header.to_be_bytes()[3..], &output, &parts].concat();
    assert_eq!(new.len(), sizes::OUTCOME_ROOM);
    let ran = run(b"", DEVICE, &new, EMPTY_SHEET).expect("the fullest record");
    assert_eq!(ran.record, new);
    assert_eq!(older(DEVICE, &new), refused(Refusal::TooNew, 0));

    let old = [&fullest_header(1).to_be_bytes()[5..], &parts].concat();
    assert_eq!(old.len(), sizes::OLD_OUTCOME_ROOM);
    let newer = newer(DEVICE, &old).expect("the fullest record of edition 1");
    assert_eq!(newer.len(), old.len() + 2);
    assert_eq!(older(DEVICE, &newer).as_ref(), Ok(&old));
    let longer = [&old[..], b"x"].concat();
    assert_eq!(
        spillfinch::newer(DEVICE, &longer),
        refused(Refusal::OutcomeBad, 0)
    );
}

#[test]
fn writes() {
    let text = b"# c\n KERNEL == \"tty*\" ,\tENV{a} = e\"\\x41\\\\\" , \\\n RUN=\"b\"\n\n";
    let written = b"KERNEL==\"tty*\",ENV{a}=e\"A\\\\\",RUN=\"b\"\n";
    assert_eq!(write(text), Ok(written.to_vec()));
    assert_eq!(write(written), Ok(written.to_vec()));
    assert_eq!(write(b"#"), Ok(Vec::new()));
    assert_eq!(write(b"\nGOTO=\"a\""), refused(Refusal::LabelMissing, 2));
    assert_eq!(write(&[b'#'; 32_769]), refused(Refusal::TextLong, 0));
}

/// Written back, a text without a final newline is one byte longer.
#[test]
fn writes_no_text_that_is_too_long() {
    let rule = format!("TAG=\"{}\"\n", "a".repeat(57)).repeat(512);
    let rules = rule.as_bytes();
    assert_eq!(rules.len(), 32_768);
    assert_eq!(write(rules), Ok(rules.to_vec()));
    let mut tight = rules.to_vec();
    tight.pop();
    tight.pop();
    tight.extend(b"a\"");
    assert_eq!(tight.len(), 32_768);
    assert_eq!(check(&tight), Ok(()));
    assert_eq!(write(&tight), refused(Refusal::TextLong, 0));
}

/// A line for its number, and why it is struck.
fn strikes(list: &[(u32, Refusal)]) -> Vec<Refused> {
    let refused = |&(line, refusal)| Refused { refusal, line };
    list.iter().map(refused).collect()
}

#[test]
fn strikes_lines() {
    let text = b"GOTO=\"a\"\nTAG+=\"a\"\nTAG+=\"b\" x\\\n\nLABEL=\"a\",GOTO=\"b\"\n#\nTAG+=\"c\"\\";
    let struck = strike(text).expect("a text that is not too long");
    assert_eq!(struck.text, b"\nTAG+=\"a\"\n\n\n\n#\n");
    let list = [
        (1, Refusal::LabelMissing),
        (3, Refusal::CommaMissing),
        (5, Refusal::LabelMissing),
        (7, Refusal::LineOpen),
    ];
    assert_eq!(struck.strikes, strikes(&list));
    assert_eq!(check(&struck.text), Ok(()));
    let again = Struck {
        text: struck.text.clone(),
        strikes: Vec::new(),
    };
    assert_eq!(strike(&struck.text), Ok(again));
    assert_eq!(strike(&[b'\n'; 32_769]), refused(Refusal::TextLong, 0));
}

/// Lines with faults of reading are no rules, and a rule past the 512th answers nothing.
#[test]
fn strikes_rules_past_the_most() {
    let rules = "TAG+=\"t\"\n".repeat(511);
    let text = format!("bad\n{rules}GOTO=\"l\"\nLABEL=\"l\"\n");
    let struck = strike(text.as_bytes()).expect("a text that is not too long");
    let list = [
        (1, Refusal::KeyBad),
        (513, Refusal::LabelMissing),
        (514, Refusal::RuleExtra),
    ];
    assert_eq!(struck.strikes, strikes(&list));
    assert_eq!(struck.text, format!("\n{rules}\n\n").as_bytes());
}

/// As many strikes as there can be, and the greatest number of a line.
#[test]
fn strikes_the_most() {
    let struck = strike(&b"x\n".repeat(16_384)).expect("a text that is not too long");
    assert_eq!(struck.text, vec![b'\n'; 16_384]);
    assert_eq!(struck.strikes.len(), 16_384);
    assert_eq!(struck.strikes[16_383].line, 16_384);
    let mut text = vec![b'\n'; 32_768];
    text[32_767] = b'x';
    let struck = strike(&text).expect("a text that is not too long");
    assert_eq!(struck.text, vec![b'\n'; 32_767]);
    assert_eq!(struck.strikes, strikes(&[(32_768, Refusal::KeyBad)]));
}

#[test]
fn refuses() {
    assert_eq!(fresh(b""), refused(Refusal::DeviceBad, 0));
    let empty = EMPTY_SHEET;
    assert_eq!(
        run(RULES, DEVICE, b"", empty),
        refused(Refusal::OutcomeBad, 0)
    );
    assert_eq!(close(DEVICE, b""), refused(Refusal::OutcomeBad, 0));
    assert_eq!(newer(b"", b""), refused(Refusal::DeviceBad, 0));
    assert_eq!(newer(DEVICE, b""), refused(Refusal::OutcomeBad, 0));
    assert_eq!(older(b"", b""), refused(Refusal::DeviceBad, 0));
    assert_eq!(older(DEVICE, b""), refused(Refusal::OutcomeBad, 0));
    let start = fresh(DEVICE).expect("a sound device");
    assert_eq!(
        run(b"SYMLINK=\"../x\"", DEVICE, &start, empty),
        refused(Refusal::LinkBad, 1)
    );
}

/// Success of `id ttyUSB0` with RC-7 and a newline, failure of `lamp`.
const SHEET: &[u8] = b"\x02\x81\x40\x28id ttyUSB0RC-7\n\x00\x80\x00lamp";

#[test]
fn asks_a_sheet() {
    let start = fresh(DEVICE).expect("a sound device");
    let ask = |text: &[u8], sheet: &[u8]| run(text, DEVICE, &start, sheet);
    let ran = ask(b"PROGRAM==\"id %k\", SYMLINK=\"a$result\"", SHEET).expect("an accepted run");
    assert_eq!(ran.record[13..17], *b"RC-7");
    assert_eq!(ran.record[17..23], *b"\x05aRC-7");
    let none = b"PROGRAM!=\"lamp\", RESULT==\"\", PROGRAM==\"lamp\", SYMLINK=\"a\"";
    assert_eq!(ask(none, SHEET).expect("an accepted run").record, start);
    let asked = b"\n\nPROGRAM!=\"nothing\"";
    assert_eq!(ask(asked, SHEET), refused(Refusal::CommandMissing, 3));
    assert_eq!(ask(asked, EMPTY_SHEET), refused(Refusal::CommandMissing, 3));
    for sheet in [&b""[..], b"\x41", &SHEET[..20], &[SHEET, b"x"].concat()] {
        assert_eq!(ask(b"", sheet), refused(Refusal::SheetBad, 0), "{sheet:?}");
    }
}

/// A sheet of as many replies, each of so many bytes.
fn sheet(count: u8, length: usize) -> Vec<u8> {
    let mut sheet = vec![count];
    for command in names(count, length) {
        let head = (length << 13) as u32;
        sheet.extend(&head.to_be_bytes()[1..]);
        sheet.extend(command);
    }
    sheet
}

#[test]
fn fullest_sheets() {
    let start = fresh(DEVICE).expect("a sound device");
    let ask = |sheet: &[u8]| run(b"", DEVICE, &start, sheet);
    let mut full = sheet(64, 508);
    assert_eq!(full.len(), 32_705);
    let output = [b'o'; 63];
    full.extend(output);
    full[63 * 511 + 1 + 1] |= (63 >> 5) as u8;
    full[63 * 511 + 1 + 2] |= (63 << 3) as u8;
    assert_eq!(full.len(), sizes::SHEET_MOST);
    assert_eq!(ask(&full).expect("the fullest sheet").record, start);
    let one_more = sheet(64, 509);
    assert_eq!(one_more.len(), sizes::SHEET_MOST + 1);
    assert_eq!(ask(&one_more), refused(Refusal::SheetBad, 0));
    assert_eq!(ask(&sheet(65, 4)), refused(Refusal::SheetBad, 0));
    assert!(ask(&sheet(1, 512)).is_ok());
    assert_eq!(ask(&sheet(1, 513)), refused(Refusal::SheetBad, 0));
}

#[test]
fn says_why() {
    let refused = Refused {
        refusal: Refusal::LabelMissing,
        line: 4,
    };
    assert_eq!(refused.to_string(), "refused 19 line 4");
    assert_eq!(refused.refusal.to_string(), "GOTO without a later LABEL");
    assert_eq!(Refusal::of_number(19), Some(Refusal::LabelMissing));
    assert_eq!(Refusal::of_number(29), None);
}

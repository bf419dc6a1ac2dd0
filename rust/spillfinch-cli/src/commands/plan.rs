//! `spillfinch plan`: rules that give devices the links that are wanted for them.

use std::os::unix::ffi::OsStrExt;
use std::path::Path;
use std::slice;

use clap::{ArgMatches, Command};
use recordings::escape::escape;
use recordings::{Device, Outcome};
use spillfinch::{plan, plan_check, sizes, Refusal, Refused, RefusedSet, EMPTY_SHEET};

use super::{device as device_argument, file, names, path, Done};
use crate::device::{self, Recorded};
use crate::files;
use crate::report::{Failure, Report, Status};
use crate::running::{Beside, Rules};

pub fn command() -> Command {
    Command::new("plan")
        .about("Print rules that give devices the links that are wanted for them")
        .arg(
            device_argument("wanted", "LINK DEV")
                .required(true)
                .num_args(2..)
                .help(
                    "Links, each followed by the device that is to have it and no other link:\n\
                     a packed record, a text form, or a recording; up to 16 of them",
                ),
        )
        .arg(
            file("check", "RULES")
                .long("check")
                .help("Only say whether this rules file gives them so; if not, the status is 1"),
        )
        .after_help(
            "There is a plan if no two devices have one path, paths have at most 128 bytes of\n\
             A-Z a-z 0-9 / : . _ -, no two links are equal, and links have at most 128 bytes of\n\
             A-Z a-z 0-9 # + - . : = @ _ / and are not refused (31). Otherwise the status is 1.\n\n\
             Example:\n  spillfinch plan rope/trip0 examples/link/a.device rope/trip1 \
             examples/link/b.device",
        )
}

/// A device and the link that it is to have.
struct Wanted<'a> {
    link: &'a [u8],
    device: Recorded,
}

impl Wanted<'_> {
    fn lent(&self) -> spillfinch::Wanted<'_> {
        spillfinch::Wanted {
            device: &self.device.record,
            link: self.link,
        }
    }

    fn path(&self) -> Vec<u8> {
        let device = Device::decode(&self.device.record);
        let event = device.and_then(|device| device.chain.into_iter().next());
        event.map_or_else(Vec::new, |event| event.path)
    }
}

pub fn run(matches: &ArgMatches) -> Done {
    let rules = path(matches, "check")
        .map(|path| Rules::read(slice::from_ref(path), Beside::default()))
        .transpose()?;
    let text = rules.as_ref().map_or_else(Vec::new, Rules::text);
    let mut wanted = Vec::new();
    for pair in names(matches, "wanted").chunks(2) {
        let [link, device] = pair else {
            let last = files::shown(Path::new(pair[0]));
            return Err(Failure(format!("{last}: no device follows it")));
        };
        wanted.push(Wanted {
            link: link.as_bytes(),
            device: device::read(device, &text)?,
        });
    }
    let mut report = Report::default();
    for Wanted { device, .. } in &wanted {
        for note in &device.left_out {
            report.message_once(note);
        }
    }
    let lent: Vec<spillfinch::Wanted> = wanted.iter().map(Wanted::lent).collect();
    let judged = match &rules {
        None => plan(&lent).map(|text| tell_plan(text, &wanted, &mut report)),
        Some(rules) => {
            plan_check(&lent, &text).map(|is_plan| tell_check(is_plan, rules, &wanted, &mut report))
        }
    };
    if let Err(refused) = judged {
        report.message(&reason(&wanted, refused));
        report.ends(Status::Refused);
    }
    Ok(report)
}

fn tell_plan(text: Option<Vec<u8>>, wanted: &[Wanted], report: &mut Report) {
    match text {
        Some(text) => report.results.extend(text),
        None => {
            report.message("there is no plan for these devices and links:");
            for ground in grounds(wanted) {
                report.message(&format!("  {ground}"));
            }
            report.ends(Status::Refused);
        }
    }
}

/// What of the conditions for a plan does not hold.
fn grounds(wanted: &[Wanted]) -> Vec<String> {
    let mut grounds = Vec::new();
    for (at, one) in wanted.iter().enumerate() {
        let (link, name) = (escape(one.link), &one.device.name);
        if !is_clean_link(one.link) {
            grounds.push(format!("link {link}: not a clean link name of 1 to 128 bytes"));
        }
        if !is_plain_path(&one.path()) {
            let text = "its path has more than 128 bytes, or others than A-Z a-z 0-9 / : . _ -";
            grounds.push(format!("{name}: {text}"));
        }
        for other in &wanted[at + 1..] {
            let other_name = &other.device.name;
            if one.link == other.link {
                grounds.push(format!("link {link}: wanted for {name} and {other_name}"));
            }
            if one.path() == other.path() {
                grounds.push(format!("{name} and {other_name} have the same path"));
            }
        }
    }
    grounds
}

fn is_of(bytes: &[u8], others: &[u8]) -> bool {
    let is_one = |byte: &u8| byte.is_ascii_alphanumeric() || others.contains(byte);
    bytes.len() <= 128 && bytes.iter().all(is_one)
}

fn is_plain_path(path: &[u8]) -> bool {
    is_of(path, b"/:._-")
}

fn is_clean_link(link: &[u8]) -> bool {
    let mut components = link.split(|&byte| byte == b'/');
    is_of(link, b"#+-.:=@_/") && !components.any(|part| matches!(part, b"" | b"." | b".."))
}

fn tell_check(is_plan: bool, rules: &Rules, wanted: &[Wanted], report: &mut Report) {
    let mut others = 0;
    if !is_plan {
        report.ends(Status::Refused);
        others = wanted
            .iter()
            .filter(|wanted| is_told(rules, wanted, report))
            .count();
    }
    let devices = match wanted.len() {
        1 => String::from("1 device"),
        count => format!("{count} devices"),
    };
    let named = wanted.len() - others;
    report.result(&format!("{devices}: {named} as wanted, {others} not"));
}

/// Says what a device gets, if that is not its wanted link alone.
fn is_told(rules: &Rules, wanted: &Wanted, report: &mut Report) -> bool {
    let Recorded { name, record, .. } = &wanted.device;
    let got = match links(&rules.text(), record) {
        Ok(links) if links == [wanted.link] => return false,
        Ok(links) if links.is_empty() => String::from("no link"),
        Ok(links) => {
            let links: Vec<String> = links.iter().map(|link| escape(link)).collect();
            links.join(" ")
        }
        Err(refused) => {
            report.message_once(&rules.explain(&refused.into(), name));
            format!("refused {}", refused.refusal.number())
        }
    };
    report.result(&format!(
        "{name}: wanted {}, got {got}",
        escape(wanted.link)
    ));
    true
}

/// The links that a text gives a device.
fn links(text: &[u8], device: &[u8]) -> Result<Vec<Vec<u8>>, Refused> {
    let start = spillfinch::fresh(device)?;
    let ran = spillfinch::run(text, device, &start, EMPTY_SHEET)?;
    let outcome = Outcome::decode(&ran.record).expect("the engine writes a record");
    Ok(outcome.links)
}

fn reason(wanted: &[Wanted], refused: RefusedSet) -> String {
    let (number, refusal) = (refused.refusal.number(), refused.refusal);
    let reason = format!("refused {number}: {refusal}");
    match (refused.position as usize).checked_sub(1) {
        Some(index) => format!("{}: {reason}", wanted[index].device.name),
        None if refusal == Refusal::SetBad => format!(
            "{reason}: a plan has 1 to {} devices, with links of at most {} bytes",
            sizes::WANTED_MOST,
            sizes::WANTED_LINK_MOST
        ),
        None => reason,
    }
}

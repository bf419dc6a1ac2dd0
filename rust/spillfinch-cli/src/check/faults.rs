//! Every fault of a text, as the engine strikes its lines.

use spillfinch::{Refusal, Refused, Struck};

use super::{labels, Remark, Subject};
use crate::syntax::{lines, Fault};

/// The text without its faulty lines, and what they were struck for; none of it where the whole
/// text is refused.
pub fn strike(text: &[u8]) -> Struck {
    spillfinch::strike(text).unwrap_or_else(|refused| Struck {
        text: Vec::new(),
        strikes: vec![refused],
    })
}

/// What is said of each struck line.
pub fn remarks(text: &[u8], struck: &Struck) -> Vec<Remark> {
    let all = lines(text);
    let line_of = |number: u32| all.partition_point(|line| line.number < number);
    let remark = |refused: &Refused| {
        let Refused { refusal, line } = *refused;
        let fault = match (refusal, line) {
            (_, 0) => None,
            (Refusal::LabelMissing, _) => labels::fault(&all, line_of(line)),
            (_, line) => agreeing(all[line_of(line)].read().fault, refusal),
        };
        let (span, hint) = match fault {
            Some(fault) => (Some(fault.span), fault.hint),
            None => (None, about_whole(refusal, text)),
        };
        Remark {
            subject: Subject::Fault(refusal),
            line,
            span,
            text: refusal.to_string(),
            hint,
        }
    };
    struck.strikes.iter().map(remark).collect()
}

/// A fault that was found here, if the engine says the same.
fn agreeing(fault: Option<Fault>, refusal: Refusal) -> Option<Fault> {
    fault.filter(|fault| fault.refusal == refusal)
}

fn about_whole(refusal: Refusal, text: &[u8]) -> Option<String> {
    match refusal {
        Refusal::TextLong => Some(format!("it has {} bytes", text.len())),
        _ => None,
    }
}

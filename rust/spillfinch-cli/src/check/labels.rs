//! Why a GOTO finds no label.

use recordings::escape::escape;
use spillfinch::Refusal;

use crate::syntax::{alike, Fault, Key, Line, Pair};

/// The place of the GOTO of a line, and where a label of its name or much like it stands.
pub fn fault(lines: &[Line], place: usize) -> Option<Fault> {
    let own = lines[place].read().pairs;
    let goto = own.iter().find(|pair| pair.key == Key::Goto)?;
    let name = &goto.value.bytes;
    let labels = labels(lines);
    let of_name = |wanted: &dyn Fn(usize) -> bool| {
        let mut found = labels
            .iter()
            .filter(|(at, label)| wanted(*at) && label == name);
        found.next().map(|(at, _)| lines[*at].number)
    };
    let shown = escape(name);
    let hint = if let Some(line) = of_name(&|at| at > place) {
        Some(format!(
            "LABEL=\"{shown}\" stands in line {line}, which is at fault itself"
        ))
    } else if of_name(&|at| at == place).is_some() {
        Some(String::from("a rule does not jump to its own LABEL"))
    } else if let Some(line) = of_name(&|at| at < place) {
        Some(format!(
            "LABEL=\"{shown}\" stands before, in line {line}; jumps go forward"
        ))
    } else {
        let later = labels.iter().filter(|(at, _)| *at > place);
        let later: Vec<String> = later.map(|(_, label)| escape(label)).collect();
        let mut near = alike(&shown, later.iter().map(String::as_str));
        near.dedup();
        (!near.is_empty()).then(|| format!("did you mean {}?", near.join(" or ")))
    };
    Some(Fault {
        refusal: Refusal::LabelMissing,
        span: goto.span.clone(),
        hint,
    })
}

/// All labels that can be read, each with the index of its line.
fn labels(lines: &[Line]) -> Vec<(usize, Vec<u8>)> {
    let label = |(at, line): (usize, &Line)| {
        let pairs = line.read().pairs;
        let label = pairs
            .into_iter()
            .find(|pair: &Pair| pair.key == Key::Label)?;
        Some((at, label.value.bytes))
    };
    lines.iter().enumerate().filter_map(label).collect()
}

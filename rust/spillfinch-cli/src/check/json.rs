//! Remarks as one JSON document.

use super::{column, Checked, Counts, Remark, Subject};
use crate::files::shown;

/// All remarks of some files, with their counts.
pub fn json(files: &[Checked]) -> String {
    let remarks: Vec<String> = files
        .iter()
        .flat_map(|file| file.remarks.iter().map(|remark| object(file, remark)))
        .collect();
    let Counts {
        files,
        faults,
        warnings,
    } = Counts::of(files);
    let list = match remarks.is_empty() {
        true => String::from("[]"),
        false => format!("[\n    {}\n  ]", remarks.join(",\n    ")),
    };
    format!(
        "{{\n  \"files\": {files},\n  \"faults\": {faults},\n  \"warnings\": {warnings},\n  \
         \"remarks\": {list}\n}}\n"
    )
}

fn object(file: &Checked, remark: &Remark) -> String {
    let mut members = vec![
        format!("\"path\": {}", string(&shown(&file.path))),
        format!("\"line\": {}", remark.line),
    ];
    if let (Some(place), true) = (file.place(remark), remark.span.is_some()) {
        members.push(format!("\"column\": {}", column(&place)));
        if place.number != remark.line {
            members.push(format!("\"column_line\": {}", place.number));
        }
    }
    members.push(match remark.subject {
        Subject::Fault(refusal) => format!("\"fault\": {}", refusal.number()),
        Subject::Warning(number) => format!("\"warning\": \"E{number}\""),
    });
    members.push(format!("\"text\": {}", string(&remark.text)));
    if let Some(hint) = &remark.hint {
        members.push(format!("\"hint\": {}", string(hint)));
    }
    format!("{{{}}}", members.join(", "))
}

fn string(text: &str) -> String {
    let mut written = String::from("\"");
    for character in text.chars() {
        match character {
            '"' | '\\' => {
                written.push('\\');
                written.push(character);
            }
            '\0'..='\x1f' => written += &format!("\\u{:04x}", character as u32),
            _ => written.push(character),
        }
    }
    written.push('"');
    written
}

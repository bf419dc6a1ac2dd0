//! The text form of answer sheets; README.md describes it.

use crate::sheet::{Sheet, SheetEntry};
use crate::sizes;
use crate::text_form::{each_line, escape, set_once, text_within, FormError, Parsed};

/// The answer sheet that a text form describes.
pub fn parse_sheet(form: &[u8]) -> Result<Sheet, FormError> {
    let mut form_of_sheet = SheetForm::default();
    let last_line = each_line(form, |word, rest| form_of_sheet.take_line(word, rest))?;
    form_of_sheet.finish().map_err(|message| FormError {
        line: last_line,
        message,
    })
}

#[derive(Default)]
struct SheetForm {
    entries: Vec<SheetEntry>,
    /// The entry whose lines are read.
    open: Option<OpenEntry>,
}

struct OpenEntry {
    command: Vec<u8>,
    success: Option<bool>,
    output: Option<Vec<u8>>,
}

impl SheetForm {
    fn take_line(&mut self, word: &str, rest: &[u8]) -> Parsed<()> {
        match word {
            "command" => {
                self.close_entry()?;
                self.open_entry(text_within(word, rest, 1..=sizes::COMMAND)?)
            }
            "success" | "failure" => {
                if !rest.is_empty() {
                    return Err(format!("`{word}` stands alone"));
                }
                let entry = self.entry(word)?;
                set_once(
                    &mut entry.success,
                    "success` or `failure",
                    word == "success",
                )
            }
            "output" => {
                let output = text_within(word, rest, 0..=sizes::OUTPUT)?;
                set_once(&mut self.entry(word)?.output, word, output)
            }
            _ => Err(format!(
                "unknown word `{word}`; an answer sheet has command, success, failure and output"
            )),
        }
    }

    fn entry(&mut self, word: &str) -> Parsed<&mut OpenEntry> {
        let entry = self.open.as_mut();
        entry.ok_or_else(|| format!("`{word}` comes after the `command` that it belongs to"))
    }

    fn open_entry(&mut self, command: Vec<u8>) -> Parsed<()> {
        if self.entries.iter().any(|entry| entry.command == command) {
            return Err(String::from("the same `command` a second time"));
        }
        if self.entries.len() == sizes::SHEET_ENTRIES {
            return Err(format!("at most {} of `command`", sizes::SHEET_ENTRIES));
        }
        self.open = Some(OpenEntry {
            command,
            success: None,
            output: None,
        });
        Ok(())
    }

    fn close_entry(&mut self) -> Parsed<()> {
        if let Some(entry) = self.open.take() {
            let success = entry.success;
            self.entries.push(SheetEntry {
                command: entry.command,
                success: success.ok_or("the `command` has no `success` or `failure`")?,
                output: entry.output.unwrap_or_default(),
            });
        }
        Ok(())
    }

    fn finish(mut self) -> Parsed<Sheet> {
        self.close_entry()?;
        let sheet = Sheet {
            entries: self.entries,
        };
        let length = sheet.encode().len();
        if length > sizes::SHEET {
            return Err(format!(
                "the sheet has {length} bytes; at most {}",
                sizes::SHEET
            ));
        }
        Ok(sheet)
    }
}

/// The text form of an answer sheet.
pub fn show_sheet(sheet: &Sheet) -> String {
    let mut form = String::new();
    for entry in &sheet.entries {
        let word = if entry.success { "success" } else { "failure" };
        form += &format!("command {}\n  {word}\n", escape(&entry.command));
        if !entry.output.is_empty() {
            form += &format!("  output {}\n", escape(&entry.output));
        }
    }
    form
}

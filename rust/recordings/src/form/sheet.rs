//! The text form of answer sheets.

use super::{each_line, FormError, Line, Taken};
use crate::escape::escape_for_form;
use crate::sheet::{Reply, Sheet};
use crate::sizes;

/// The answer sheet that a text form describes.
pub fn read_sheet(form: &[u8]) -> Result<Sheet, FormError> {
    let mut reading = Reading::default();
    each_line(form, |line| reading.take(line))?;
    reading.finish().map_err(|message| FormError {
        line: form.split(|&byte| byte == b'\n').count(),
        message,
    })
}

/// The text form of an answer sheet.
pub fn write_sheet(sheet: &Sheet) -> String {
    let mut form = String::new();
    for reply in &sheet.replies {
        let word = match reply.is_success {
            true => "success",
            false => "failure",
        };
        form += &format!("command {}\n  {word}\n", escape_for_form(&reply.command));
        if !reply.output.is_empty() {
            form += &format!("  output {}\n", escape_for_form(&reply.output));
        }
    }
    form
}

#[derive(Default)]
struct Reading {
    replies: Vec<Part>,
}

/// A reply, as far as it is read.
#[derive(Default)]
struct Part {
    command: Vec<u8>,
    is_success: Option<bool>,
    output: Option<Vec<u8>>,
}

impl Reading {
    fn take(&mut self, line: &Line) -> Taken<()> {
        match line.word.as_str() {
            "command" => self.take_command(line),
            "success" | "failure" | "output" => self.take_of_command(line),
            word => Err(format!(
                "unknown word `{}`; an answer sheet has command, success, failure and output",
                escape_for_form(word.as_bytes())
            )),
        }
    }

    fn take_command(&mut self, line: &Line) -> Taken<()> {
        if let Some(last) = self.replies.last() {
            last.is_told()?;
        }
        let command = line.bytes(1..=sizes::COMMAND_MOST)?;
        if self.replies.iter().any(|reply| reply.command == command) {
            return Err(String::from("the same `command` a second time"));
        }
        self.replies.push(Part {
            command,
            ..Part::default()
        });
        line.at_most(sizes::REPLIES_MOST, self.replies.len())
    }

    fn take_of_command(&mut self, line: &Line) -> Taken<()> {
        let Some(reply) = self.replies.last_mut() else {
            return Err(format!("`{}` comes behind its `command`", line.word));
        };
        if line.word == "output" {
            let output = line.bytes(0..=sizes::OUTPUT_MOST)?;
            return line.set_once(&mut reply.output, output);
        }
        if !line.text.is_empty() {
            return Err(format!("`{}` stands alone", line.word));
        }
        match reply.is_success.replace(line.word == "success") {
            None => Ok(()),
            Some(_) => Err(String::from("a second `success` or `failure`")),
        }
    }

    fn finish(self) -> Taken<Sheet> {
        let replies = self.replies.into_iter().map(Part::finish);
        let sheet = Sheet {
            replies: replies.collect::<Taken<_>>()?,
        };
        let length = sheet.encode().map_or(0, |packed| packed.len());
        match length <= sizes::SHEET_MOST {
            true => Ok(sheet),
            false => Err(format!(
                "the packed sheet has {length} bytes; it takes {}",
                sizes::SHEET_MOST
            )),
        }
    }
}

impl Part {
    fn is_told(&self) -> Taken<bool> {
        let command = escape_for_form(&self.command);
        self.is_success
            .ok_or_else(|| format!("no `success` or `failure` for `{command}`"))
    }

    fn finish(self) -> Taken<Reply> {
        Ok(Reply {
            is_success: self.is_told()?,
            command: self.command,
            output: self.output.unwrap_or_default(),
        })
    }
}

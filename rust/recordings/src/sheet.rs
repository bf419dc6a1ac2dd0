//! The answer sheet: what programs said, by their commands.

use crate::packed::{Reader, Writer};
use crate::sizes;

/// The number of replies.
const HEAD: [u32; 1] = [8];
/// Success, command, output, unused.
const REPLY: [u32; 4] = [1, 10, 10, 3];

/// What a program said.
#[derive(Clone, Debug, PartialEq, Eq)]
pub struct Reply {
    pub command: Vec<u8>,
    pub is_success: bool,
    pub output: Vec<u8>,
}

#[derive(Clone, Debug, Default, PartialEq, Eq)]
pub struct Sheet {
    pub replies: Vec<Reply>,
}

impl Sheet {
    /// The packed sheet, or `None` if a number or a length does not fit into its field.
    pub fn encode(&self) -> Option<Vec<u8>> {
        let mut writer = Writer::default();
        writer.fields(HEAD, [self.replies.len()]);
        for reply in &self.replies {
            let (command, output) = (&reply.command, &reply.output);
            let is_success = usize::from(reply.is_success);
            writer.fields(REPLY, [is_success, command.len(), output.len(), 0]);
            writer.text(command);
            writer.text(output);
        }
        writer.finish()
    }

    /// What a sheet says, or `None` if it is cut short or laid out otherwise.
    pub fn decode(sheet: &[u8]) -> Option<Sheet> {
        let mut reader = Reader::new(sheet);
        let [count] = reader.fields(HEAD)?;
        if count > sizes::REPLIES_MOST {
            return None;
        }
        let replies = (0..count)
            .map(|_| decode_reply(&mut reader))
            .collect::<Option<_>>()?;
        reader.end()?;
        Some(Sheet { replies })
    }
}

fn decode_reply(reader: &mut Reader) -> Option<Reply> {
    let [success, command, output, unused] = reader.fields(REPLY)?;
    if unused != 0 {
        return None;
    }
    Some(Reply {
        is_success: success == 1,
        command: reader.text(command)?,
        output: reader.text(output)?,
    })
}

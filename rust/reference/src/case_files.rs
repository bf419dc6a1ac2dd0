//! The files of a case, from which it can be replayed.

use std::fs;
use std::io;
use std::path::Path;

use crate::generate::{Case, Extra, Rooms};

/// Writes the inputs of a case to files in the directory.
pub fn write_case(directory: &Path, case: &Case) -> io::Result<()> {
    let Rooms { fresh, run, close } = case.rooms;
    fs::create_dir_all(directory)?;
    fs::write(directory.join("text"), &case.text)?;
    fs::write(directory.join("device"), &case.device)?;
    fs::write(directory.join("outcome"), &case.outcome)?;
    fs::write(directory.join("sheet"), &case.sheet)?;
    let mut rooms = format!("fresh {fresh}\nrun {run}\nclose {close}\n");
    match &case.extra {
        Extra::Nothing => {}
        Extra::Contest { set, room } => {
            fs::write(directory.join("set"), set)?;
            rooms += &format!("contest {room}\n");
        }
        Extra::RunFiles {
            set,
            permuted,
            room,
        } => {
            fs::write(directory.join("set"), set)?;
            fs::write(directory.join("permuted"), permuted)?;
            rooms += &format!("run_files {room}\n");
        }
        Extra::Plan {
            set,
            proposal,
            room,
        } => {
            fs::write(directory.join("set"), set)?;
            fs::write(directory.join("proposal"), proposal)?;
            rooms += &format!("plan {room}\n");
        }
        Extra::RunEach {
            set,
            targets,
            answers,
        } => {
            fs::write(directory.join("set"), set)?;
            rooms += &format!("targets {targets}\nanswers {answers}\n");
        }
        Extra::Convert { old, newer, older } => {
            fs::write(directory.join("old"), old)?;
            rooms += &format!("newer {newer}\nolder {older}\n");
        }
        Extra::Write { room } => rooms += &format!("write {room}\n"),
        Extra::Strike { room, strikes } => {
            rooms += &format!("strike {room}\nstrikes {strikes}\n");
        }
    }
    fs::write(directory.join("rooms"), rooms)
}

/// Reads a case that `write_case` has written.
pub fn read_case(directory: &Path) -> io::Result<Case> {
    let rooms = fs::read_to_string(directory.join("rooms"))?;
    let room = |word: &str| {
        rooms
            .lines()
            .find_map(|line| line.strip_prefix(word)?.trim().parse().ok())
            .ok_or_else(|| io::Error::other(format!("no length for {word} in the file rooms")))
    };
    let extra = if directory.join("old").exists() {
        Extra::Convert {
            old: fs::read(directory.join("old"))?,
            newer: room("newer")?,
            older: room("older")?,
        }
    } else if let Ok(room) = room("contest") {
        Extra::Contest {
            set: fs::read(directory.join("set"))?,
            room,
        }
    } else if let Ok(room) = room("run_files") {
        Extra::RunFiles {
            set: fs::read(directory.join("set"))?,
            permuted: fs::read(directory.join("permuted"))?,
            room,
        }
    } else if let Ok(room) = room("plan") {
        Extra::Plan {
            set: fs::read(directory.join("set"))?,
            proposal: fs::read(directory.join("proposal"))?,
            room,
        }
    } else if let Ok(targets) = room("targets") {
        Extra::RunEach {
            set: fs::read(directory.join("set"))?,
            targets,
            answers: room("answers")?,
        }
    } else if let Ok(room) = room("write") {
        Extra::Write { room }
    } else if let Ok(strikes) = room("strikes") {
        Extra::Strike {
            room: room("strike")?,
            strikes,
        }
    } else {
        Extra::Nothing
    };
    Ok(Case {
        shape: String::from("replayed"),
        text: fs::read(directory.join("text"))?,
        device: fs::read(directory.join("device"))?,
        outcome: fs::read(directory.join("outcome"))?,
        sheet: fs::read(directory.join("sheet"))?,
        rooms: Rooms {
            fresh: room("fresh")?,
            run: room("run")?,
            close: room("close")?,
        },
        extra,
    })
}

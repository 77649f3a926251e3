//! `next`: the least listed station not below each station.

use crate::call::Call;
use crate::commands::Command;
use crate::fault::{End, Fault};
use crate::words::help;
use crate::{reading, refusals, row, writing};

pub const COMMAND: Command = Command {
    name: "next",
    shape: "FILE STATION..",
    options: &[],
    least_words: 2,
    most_words: usize::MAX,
    summary: help::NEXT,
    help: help::NEXT_HELP,
    run,
};

fn run(call: &Call) -> Result<End, Fault> {
    let stations = row::stations(call)?;
    let name = &call.words[0];
    let file = reading::alignment(name, call.language)?;
    let mut out = String::new();
    for station in stations {
        match proved::next_station(&file, station) {
            Ok(Some(next)) => out += &format!("{next}\n"),
            Ok(None) => out += "none\n",
            Err(refusal) => {
                writing::answer(format!("{refusal}\n").as_bytes(), call.language)?;
                writing::say(
                    &refusals::words(name, refusal, call.language),
                    call.language,
                );
                return Ok(End::Refused);
            }
        }
    }
    writing::answer(out.as_bytes(), call.language)?;
    Ok(End::Answered)
}

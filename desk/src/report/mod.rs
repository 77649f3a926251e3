//! `report`: one page with the road's drawings and its list.

mod blade;
mod blade_drawings;
mod bytes;
mod drawing;
mod first;
mod fractions;
mod head;
pub mod html;
mod lines;
mod list;
mod listed;
mod marks;
mod page;
mod picture;
mod pieces;
mod quadratic;
mod reasons;
mod refused;
#[cfg(test)]
mod sample;
mod shown;
mod side;
mod speeds;
mod step;
mod strips;
#[cfg(test)]
mod tests;
mod view;

use crate::agreement::{agreed, Agreed};
use crate::call::{flag, valued, Call};
use crate::commands::Command;
use crate::fault::{End, Fault};
use crate::language::Language;
use crate::marks::verdicts::{self, Marked};
use crate::names;
use crate::words::{common, report as words};
use crate::{reading, refusals, writing};

pub const COMMAND: Command = Command {
    name: "report",
    shape: "FILE [-o PAGE] [--picture]",
    options: &[valued("-o"), flag("--picture")],
    least_words: 1,
    most_words: 1,
    summary: words::SUMMARY,
    help: words::HELP,
    run,
};

/// A page in HTML about one file.
pub struct Page {
    pub html: String,
    pub is_refused: bool,
}

/// The page of a file, under the name that a person reads; words where the two readings differ.
pub fn page(name: &str, file: &[u8], language: Language) -> Result<Page, String> {
    let marked = marked(name, file, language)?;
    let marked = marked.as_deref();
    let page = match agreement(name, file, language)? {
        Agreed::Listed(listed) => Page {
            html: listed::html(name, &listed, marked, language),
            is_refused: false,
        },
        Agreed::Refused(refused) => Page {
            html: refused::html(name, file, &refused, marked, language),
            is_refused: true,
        },
    };
    Ok(page)
}

fn agreement(name: &str, file: &[u8], language: Language) -> Result<Agreed, String> {
    agreed(file, language).map_err(|why| differ(name, why, language))
}

/// What the seven speeds say; none of a file that cannot be read.
fn marked(name: &str, file: &[u8], language: Language) -> Result<Option<Box<Marked>>, String> {
    let agreed = verdicts::agreed(file, language).map_err(|why| differ(name, why, language))?;
    Ok(match agreed {
        verdicts::Agreed::Marked(road) => Some(road),
        verdicts::Agreed::Unread(_) => None,
    })
}

fn differ(name: &str, why: String, language: Language) -> String {
    language.say(common::DISAGREEMENT, &[&name, &why])
}

fn run(call: &Call) -> Result<End, Fault> {
    let language = call.language;
    let file = reading::alignment(&call.words[0], language)?;
    let name = names::shown(&call.words[0], language);
    if call.has("--picture") {
        return picture(call, &name, &file);
    }
    let page = page(&name, &file, language).map_err(Fault::Failed)?;
    write(call, page.html.as_bytes())?;
    if !page.is_refused {
        return Ok(End::Answered);
    }
    say_refusal(call, &file);
    Ok(End::Refused)
}

fn picture(call: &Call, name: &str, file: &[u8]) -> Result<End, Fault> {
    match agreement(name, file, call.language).map_err(Fault::Failed)? {
        Agreed::Listed(listed) => {
            let svg = picture::svg(&listed, call.language);
            write(call, svg.as_bytes())?;
            Ok(End::Answered)
        }
        Agreed::Refused(_) => {
            say_refusal(call, file);
            Ok(End::Refused)
        }
    }
}

fn write(call: &Call, bytes: &[u8]) -> Result<(), Fault> {
    match call.target() {
        None => writing::answer(bytes, call.language),
        Some(path) => writing::whole_file(path, bytes, call.language),
    }
}

fn say_refusal(call: &Call, file: &[u8]) {
    if let Err(refusal) = proved::next_station(file, 0) {
        let words = refusals::words(&call.words[0], refusal, call.language);
        writing::say(&words, call.language);
    }
}

//! The manual page, in the form that `man` reads, from the same words as `--help`.

use crate::commands::COMMANDS;
use crate::language::Language;
use crate::text::table::format;
use crate::words::help;

pub fn page(language: Language) -> String {
    let format = format(language);
    let say = |phrase| text(&language.say(phrase, &[&format]));
    let mut out = format!(
        ".TH VOARDUSK 1 \"\" \"voardusk {}\"\n",
        env!("CARGO_PKG_VERSION")
    );
    out += ".SH NAME\nvoardusk \\- ";
    out += &say(help::NAME);
    out += ".SH SYNOPSIS\n";
    for command in COMMANDS {
        out += &format!(".B voardusk {}\n{}.br\n", command.name, text(command.shape));
    }
    out += ".SH DESCRIPTION\n";
    out += &say(help::ENDING);
    out += ".SH COMMANDS\n";
    for command in COMMANDS {
        out += &format!(".SS {}\n", command.name);
        out += &say(command.summary);
        out += ".PP\n";
        out += &say(command.help);
    }
    out += ".SH EXIT STATUS\n";
    out + &say(help::STATUS)
}

/// Paragraphs are filled; lines that begin with a blank stay as they are.
fn text(words: &str) -> String {
    let mut out = String::new();
    let mut is_kept = false;
    for line in words.split('\n') {
        let keeps = line.starts_with(' ');
        if keeps != is_kept {
            out += if keeps { ".nf\n" } else { ".fi\n" };
            is_kept = keeps;
        }
        out += &match line.is_empty() {
            true => ".PP\n".to_string(),
            false => escaped(line) + "\n",
        };
    }
    if is_kept {
        out += ".fi\n";
    }
    out
}

/// A line that begins with a point or an apostrophe would be a request.
fn escaped(line: &str) -> String {
    let line = line.replace('\\', "\\e").replace('-', "\\-");
    match line.starts_with(['.', '\'']) {
        true => format!("\\&{line}"),
        false => line,
    }
}

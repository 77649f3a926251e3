//! What `--help` and `--version` say.

use crate::commands::{Command, COMMANDS};
use crate::language::Language;
use crate::text;
use crate::words::help;

const WIDTH: usize = 96;

/// The command's version and that of the kit that proved the library.
pub fn version() -> String {
    let kit = option_env!("VOARDUSK_KIT").unwrap_or("proved with a kit that was not told");
    format!("voardusk {}\n{kit}\n", env!("CARGO_PKG_VERSION"))
}

/// All commands, a line each.
pub fn all(language: Language) -> String {
    let widths = COMMANDS.iter().map(|command| called(command).len());
    let width = widths.max().unwrap_or(0) + 2;
    let mut out = wrapped(&language.say(help::BEGINNING, &[])) + "\n\n";
    for command in COMMANDS {
        let summary = language.say(command.summary, &[]);
        out += &format!("  {:<width$}{summary}\n", called(command));
    }
    out + "\n" + &wrapped(&language.say(help::ENDING, &[])) + "\n"
}

/// One command.
pub fn of(command: &Command, language: Language) -> String {
    // {0} in a command's help is the format of the text
    let format = text::table::format(language);
    let parts = [command.summary, command.help, help::STATUS];
    let parts = parts.map(|part| wrapped(&language.say(part, &[&format])));
    format!("voardusk {}\n\n{}\n", called(command), parts.join("\n\n"))
}

fn called(command: &Command) -> String {
    format!("{} {}", command.name, command.shape)
}

/// Paragraphs cut into lines; one that begins with a blank stays as it is.
fn wrapped(text: &str) -> String {
    let lines: Vec<String> = text.split('\n').map(wrapped_line).collect();
    lines.join("\n")
}

fn wrapped_line(line: &str) -> String {
    if line.starts_with(' ') {
        return line.to_string();
    }
    let mut out = String::new();
    let mut column = 0;
    for word in line.split(' ') {
        let length = word.chars().count();
        if column > 0 && column + 1 + length > WIDTH {
            out.push('\n');
            column = 0;
        } else if column > 0 {
            out.push(' ');
            column += 1;
        }
        out += word;
        column += length;
    }
    out
}

//! The speeds at which the road of the alignment file on standard input would pass: the marks as a number, then each
//! speed in km/h; or the refusal. Exit status 0 an answer, 1 refused, 2 a read or write failed.

use std::io::{self, Read, Write};
use std::process::ExitCode;

use voardusk::Marks;

fn main() -> ExitCode {
    match marked() {
        Ok(status) => status,
        Err(fault) => {
            eprintln!("marks: {fault}");
            ExitCode::from(2)
        }
    }
}

fn marked() -> io::Result<ExitCode> {
    let mut file = Vec::new();
    // one byte more than a file may have tells that it is too long
    io::stdin()
        .take(voardusk::FILE_LENGTH as u64 + 1)
        .read_to_end(&mut file)?;
    let (line, status) = match voardusk::marks(&file) {
        Ok(marks) => (told(marks), ExitCode::SUCCESS),
        Err(refusal) => (refusal.to_string(), ExitCode::from(1)),
    };
    writeln!(io::stdout(), "{line}")?;
    Ok(status)
}

fn told(marks: Marks) -> String {
    let speeds = marks.speeds().map(|speed| format!(" {speed}"));
    marks.number().to_string() + &speeds.collect::<String>()
}

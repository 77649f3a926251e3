//! The rows of pegs on the road of the alignment file on standard input, one behind another; or the refusal. The stations
//! of the pegs are the arguments, in whole millimetres, ascending. Exit status 0 an answer, 1 refused, 2 an argument that
//! is no station, or a read or write that failed.

use std::io::{self, Read, Write};
use std::process::ExitCode;

fn main() -> ExitCode {
    match pegged() {
        Ok(status) => status,
        Err(fault) => {
            eprintln!("pegs: {fault}");
            ExitCode::from(2)
        }
    }
}

fn pegged() -> io::Result<ExitCode> {
    let words = std::env::args_os().skip(1);
    let stations = words.map(|word| station(&word.to_string_lossy()));
    let stations: Vec<u64> = stations.collect::<io::Result<_>>()?;
    let mut file = Vec::new();
    // one byte more than a file may have tells that it is too long
    io::stdin()
        .take(voardusk::FILE_LENGTH as u64 + 1)
        .read_to_end(&mut file)?;
    let mut out = io::stdout().lock();
    let mut rows = vec![0; stations.len() * voardusk::LINE_LENGTH];
    let status = match voardusk::pegs(&file, &stations, &mut rows) {
        Ok(rows) => {
            out.write_all(rows)?;
            ExitCode::SUCCESS
        }
        Err(refusal) => {
            writeln!(out, "{refusal}")?;
            ExitCode::from(1)
        }
    };
    out.flush()?;
    Ok(status)
}

fn station(word: &str) -> io::Result<u64> {
    // parse takes a sign too
    let digits = Some(word).filter(|word| !word.starts_with('+'));
    let station = digits.and_then(|word| word.parse().ok());
    station.ok_or_else(|| io::Error::other(format!("{word} is no station")))
}

//! Lists the alignment file on standard input: the list, or the refusal. Exit status 0 listed, 1 refused, 2 a read or write failed.

use std::io::{self, Read, Write};
use std::process::ExitCode;

fn main() -> ExitCode {
    match listed() {
        Ok(status) => status,
        Err(fault) => {
            eprintln!("list: {fault}");
            ExitCode::from(2)
        }
    }
}

fn listed() -> io::Result<ExitCode> {
    let mut file = Vec::new();
    // one byte more than a file may have tells that it is too long
    io::stdin()
        .take(voardusk::FILE_LENGTH as u64 + 1)
        .read_to_end(&mut file)?;
    let mut out = io::stdout().lock();
    let mut rows = [0; 65536];
    let mut station = Some(0);
    while let Some(from) = station {
        match voardusk::list(&file, from, &mut rows) {
            Ok(part) => {
                out.write_all(part.rows)?;
                station = part.next;
            }
            Err(refusal) => {
                writeln!(out, "{refusal}")?;
                return Ok(ExitCode::from(1));
            }
        }
    }
    out.flush()?;
    Ok(ExitCode::SUCCESS)
}

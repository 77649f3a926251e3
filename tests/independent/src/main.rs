//! The library against the papers read a second time, on files made from a seed.

#![forbid(unsafe_code)]

mod blade;
mod compare;
mod generate;
mod halves;
mod hexadecimal;
mod limits_seen;
mod marks;
mod pegs;
mod pegs_seen;
mod run;
mod summary;
mod vectors;

use std::panic::{catch_unwind, AssertUnwindSafe};
use std::path::{Path, PathBuf};
use std::process::ExitCode;
use std::time::{Duration, Instant};

use generate::edges::EDGES;
use generate::random::Random;
use generate::{kind_named, make_file, name_of_kind, FileKind, MadeFile};
use summary::Summary;

const USAGE: &str = "independent [--files N] [--seed S] [--only KIND] [--index I] [--keep DIR]
independent --vectors DIR
independent --marks FILE
independent --pegs FILE
KIND is valid, designed, mixed, limit, broken, flipped, several, absurd or extreme.";

struct Options {
    files: u64,
    seed: u64,
    only: Option<FileKind>,
    index: Option<u64>,
    keep: Option<PathBuf>,
    stored: Option<(PathBuf, CheckStored)>,
}

/// Checks stored answers.
type CheckStored = fn(&Path) -> std::io::Result<vectors::Checked>;

impl Options {
    fn read(mut arguments: impl Iterator<Item = String>) -> Result<Options, String> {
        let mut options = Options {
            files: 10_000,
            seed: 5,
            only: None,
            index: None,
            keep: None,
            stored: None,
        };
        while let Some(name) = arguments.next() {
            let value = arguments.next().ok_or(format!("{name} needs a value"))?;
            let number = || value.parse::<u64>().map_err(|_| format!("{name} {value}"));
            let mut stored = |check| options.stored = Some((PathBuf::from(&value), check));
            match name.as_str() {
                "--files" => options.files = number()?,
                "--seed" => options.seed = number()?,
                "--index" => options.index = Some(number()?),
                "--only" => {
                    options.only = Some(kind_named(&value).ok_or(format!("unknown kind {value}"))?)
                }
                "--keep" => options.keep = Some(PathBuf::from(&value)),
                "--vectors" => stored(vectors::check),
                "--marks" => stored(vectors::check_marks),
                "--pegs" => stored(vectors::check_pegs),
                _ => return Err(format!("unknown option {name}")),
            }
        }
        Ok(options)
    }
}

/// Makes and compares the file of an index.
fn compare_index(options: &Options, index: u64, summary: &mut Summary) -> Result<(), String> {
    let mut random = Random::for_file(options.seed, index);
    let made = make_file(&mut random, options.only);
    let compare = || compare::compare_file(&mut random, &made.bytes, summary);
    let Ok((verdict, compared)) = catch_unwind(AssertUnwindSafe(compare)) else {
        keep(options, index, &made);
        return Err(describe(options, index, &made, "a panic, told above"));
    };
    summary.count_file(&made, &verdict);
    summary.count_limit(&made);
    compared
        .and_then(|()| judge_made(&made))
        .map_err(|difference| {
            keep(options, index, &made);
            describe(options, index, &made, &difference)
        })
}

/// A file must be what it was made for.
fn judge_made(made: &MadeFile) -> Result<(), String> {
    let Some((expected, speed)) = made.expected else {
        return Ok(());
    };
    let refusal = compare::refusal_at(&made.bytes, speed);
    if expected.holds(refusal) {
        return Ok(());
    }
    Err(format!(
        "the file was made for {expected:?} at {speed} km/h, the reference says {refusal:?}"
    ))
}

fn keep(options: &Options, index: u64, made: &MadeFile) {
    if let Some(directory) = &options.keep {
        let path = directory.join(format!("{}-{index}.in", options.seed));
        if let Err(error) = std::fs::write(&path, &made.bytes) {
            eprintln!("{}: {error}", path.display());
        }
    }
}

fn describe(options: &Options, index: u64, made: &MadeFile, difference: &str) -> String {
    let limit = made.edge.map_or(String::new(), |(edge, outside)| {
        let side = if outside { "outside" } else { "inside" };
        format!(", {} ({side})", EDGES[edge].name)
    });
    let only = options.only.map_or(String::new(), |kind| {
        format!(" --only {}", name_of_kind(kind))
    });
    format!(
        "DIFFERENCE\nseed {seed} index {index} kind {kind}{limit}\n\
         again: --seed {seed} --index {index}{only}\nfile: {file}\n{difference}",
        seed = options.seed,
        kind = name_of_kind(made.kind),
        file = hexadecimal::write(&made.bytes)
    )
}

fn compare_all(options: &Options) -> Result<Summary, String> {
    let mut summary = Summary::new();
    if let Some(index) = options.index {
        compare_index(options, index, &mut summary)?;
        return Ok(summary);
    }
    let mut told = Instant::now();
    for index in 0..options.files {
        compare_index(options, index, &mut summary)?;
        if told.elapsed() > Duration::from_secs(5) {
            eprintln!("{} of {} files", index + 1, options.files);
            told = Instant::now();
        }
    }
    Ok(summary)
}

/// Tells how many of the stored answers agree.
fn check_stored(path: &Path, check: CheckStored) -> ExitCode {
    match check(path) {
        Err(error) => {
            eprintln!("{}: {error}", path.display());
            ExitCode::from(2)
        }
        Ok((count, differing)) => {
            for (name, difference) in &differing {
                println!("{name}: {difference}");
            }
            println!("{} of {count} cases agree", count - differing.len());
            ExitCode::from(u8::from(!differing.is_empty() || count == 0))
        }
    }
}

fn main() -> ExitCode {
    let options = match Options::read(std::env::args().skip(1)) {
        Ok(options) => options,
        Err(error) => {
            eprintln!("{error}\n{USAGE}");
            return ExitCode::from(2);
        }
    };
    if let Some((path, check)) = &options.stored {
        return check_stored(path, *check);
    }
    println!("seed {}", options.seed);
    match compare_all(&options) {
        Ok(summary) => {
            println!("{summary}\nno difference");
            ExitCode::SUCCESS
        }
        Err(difference) => {
            println!("{difference}");
            ExitCode::FAILURE
        }
    }
}

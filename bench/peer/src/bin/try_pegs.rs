//! The rows of pegs in one walk beside the rows of the list and of single calls.
//!
//! `try_pegs COUNT SEED FILE ..` changes the given roads at random, COUNT times, asks for the rows of
//! pegs at random on each, some of them bad, and compares answer and buffer. A FILE named `cases` holds
//! one road a line, in hexadecimal.

use std::collections::BTreeMap;
use std::process::exit;

use peer::changed::{changed, file, to_hex, told, Chance};
use peer::judge::judge;
use peer::list::list;
use peer::pegs::{pegs, single, PEGS};
use peer::read::{read, Alignment, File};
use peer::walk::LINE_MAX;
use peer::{refuse, Refusal};

type Rows = BTreeMap<u64, Vec<u8>>;

/// What the buffer holds before a call.
const BEFORE: u8 = 0xa5;

/// The listed rows of an accepted road.
fn listed(file: &File, road: &mut Alignment) -> Result<Rows, Refusal> {
    read(file, road)?;
    let row = judge(road)?;
    let mut text = Vec::new();
    list(road, row, &mut text).expect("memory takes every row");
    let station = |line: &[u8]| {
        let digits = line.iter().take_while(|b| **b != b' ');
        digits.fold(0, |n, b| 10 * n + u64::from(b - b'0'))
    };
    let lines = text.split_inclusive(|b| *b == b'\n');
    Ok(lines.map(|line| (station(line), line.to_vec())).collect())
}

/// Listed stations, their neighbours and any others, up to T, or one beyond; mostly in order.
fn stations(rows: &Rows, chance: &mut Chance) -> Vec<u64> {
    let all: Vec<u64> = rows.keys().copied().collect();
    let total = all[all.len() - 1];
    let few = chance.of(&[0, 1, 2, 5, 40]);
    let count = chance.of(&[few, few, few, few, PEGS - 1, PEGS, PEGS + 1]);
    let mut one = || match chance.below(4) {
        0 => chance.below(total as usize + 1) as u64,
        1 => total.min(chance.of(&all) + chance.below(2) as u64),
        2 => chance.of(&all).saturating_sub(chance.below(2) as u64),
        _ => chance.of(&all),
    };
    let mut pegs: Vec<u64> = (0..count).map(|_| one()).collect();
    pegs.sort_unstable();
    if count > 0 && chance.one_in(4) {
        let place = chance.below(count);
        pegs[place] = chance.of(&[total + 1, u64::MAX, pegs[place].saturating_sub(1)]);
    }
    pegs
}

fn is_bad(stations: &[u64], total: u64, i: usize) -> bool {
    i >= PEGS || stations[i] > total || (i > 0 && stations[i] < stations[i - 1])
}

/// The rows one after another: from the list where it has them, otherwise by the single call.
fn plain(
    file: &File,
    road: &mut Alignment,
    rows: &Rows,
    stations: &[u64],
    room: usize,
) -> Result<Vec<u8>, Refusal> {
    let total = *rows.keys().next_back().expect("no list is empty");
    if room < LINE_MAX * stations.len() {
        return refuse(20, 0);
    }
    if let Some(i) = (0..stations.len()).find(|i| is_bad(stations, total, *i)) {
        return refuse(24, i);
    }
    let mut all = Vec::new();
    for &s in stations {
        let mut line = [0; LINE_MAX];
        let length = single(file, road, s, &mut line)?;
        all.extend(rows.get(&s).map_or(&line[..length], |row| row));
    }
    Ok(all)
}

/// The answer, where it is that of the plain way and the rest of the buffer is as it was.
fn agreed(
    file: &File,
    road: &mut Alignment,
    rows: &Rows,
    stations: &[u64],
    room: usize,
) -> Option<Result<usize, Refusal>> {
    let mut out = vec![BEFORE; room];
    let answer = pegs(file, road, stations, &mut out);
    let wanted = plain(file, road, rows, stations, room);
    let (written, rest) = out.split_at(answer.unwrap_or(0));
    let is_same = match &wanted {
        Ok(rows) => answer.is_ok() && rows == written,
        Err(refusal) => answer == Err(*refusal),
    };
    (is_same && rest.iter().all(|b| *b == BEFORE)).then_some(answer)
}

fn main() {
    let (count, mut chance, roads) = told();
    let mut road = Alignment::new();
    let (mut refused, mut bad, mut asked, mut differ) = (0, 0, 0, 0);
    for _ in 0..count {
        let bytes = changed(&roads[chance.below(roads.len())], &mut chance);
        let file = file(&bytes);
        let rows = match listed(&file, &mut road) {
            Ok(rows) => rows,
            Err(refusal) => {
                refused += 1;
                differ += (pegs(&file, &mut road, &[1, 0], &mut []) != Err(refusal)) as u64;
                continue;
            }
        };
        let stations = stations(&rows, &mut chance);
        let more = chance.of(&[0, 0, 1, 95, 1000]);
        let less = chance.one_in(8) as usize;
        let room = (LINE_MAX * stations.len() + more).saturating_sub(less);
        match agreed(&file, &mut road, &rows, &stations, room) {
            Some(Ok(_)) => asked += stations.len(),
            Some(Err(_)) => bad += 1,
            None => {
                differ += 1;
                println!("{} {stations:?} {room}", to_hex(&bytes));
            }
        }
    }
    println!(
        "{count} files of {} roads, {refused} refused, {bad} lists of pegs refused, {asked} rows, {differ} differ",
        roads.len()
    );
    exit((differ > 0) as i32);
}

//! Lists of peg stations, good and bad, and the buffers lent for their rows.

use super::random::Random;
use super::stations::random_station;
use reference::file::Alignment;
use reference::machine::LEAST_BUFFER;
use reference::pegs::MOST_PEGS;
use reference::stations;

/// Pegs, and the length of the buffer lent for their rows.
pub struct PegList {
    pub pegs: Vec<u64>,
    pub room: usize,
}

/// A list for a road with its joints, or for a file that is turned away.
pub fn peg_list(random: &mut Random, road: Option<&Alignment>, joints: &[i128]) -> PegList {
    let end = joints[joints.len() - 1];
    let count = random_count(random);
    let mut pegs = ascending(random, road, joints, count);
    if random.chance(40) {
        repeat_some(random, &mut pegs);
    }
    // A list that is too long tells the first bad peg where it has another one.
    if random.chance(if count > MOST_PEGS { 70 } else { 35 }) {
        for _ in 0..random.pick(&[1, 1, 1, 2, 3]) {
            spoil(random, &mut pegs, end);
        }
    }
    let as_station = |peg| u64::try_from(peg).expect("a station of 64 bits");
    PegList {
        pegs: pegs.into_iter().map(as_station).collect(),
        room: random_room(random, count),
    }
}

/// Where something begins or ends along a road, from 0 to T, each one time; without a road, some stations.
pub fn joints(road: Option<&Alignment>) -> Vec<i128> {
    let Some(road) = road else {
        return vec![0, 40_000, 100_000];
    };
    let marked = stations::marks(road).into_iter();
    let mut joints: Vec<i128> = marked.map(|(station, _)| station).collect();
    joints.sort();
    joints.dedup();
    joints
}

/// Long lists take their time, so there are few of them.
fn random_count(random: &mut Random) -> usize {
    match random.place(60) {
        0..=3 => 0,
        4..=9 => 1,
        10..=15 => 2,
        16..=53 => random.between(3, 15) as usize,
        54..=58 => random.between(16, 60) as usize,
        _ => long_count(random),
    }
}

fn long_count(random: &mut Random) -> usize {
    match random.place(16) {
        0..=3 => random.between(61, 400) as usize,
        4 => MOST_PEGS - 1,
        5..=6 => MOST_PEGS,
        7..=10 => MOST_PEGS + 1,
        _ => MOST_PEGS + random.between(2, 100) as usize,
    }
}

/// So many stations from 0 to T, ascending.
fn ascending(
    random: &mut Random,
    road: Option<&Alignment>,
    joints: &[i128],
    count: usize,
) -> Vec<i128> {
    let end = joints[joints.len() - 1];
    let mut pegs: Vec<i128> = match random.place(7) {
        0 => (0..count).map(|_| random.between(0, end)).collect(),
        1 if count <= 60 => (0..count).map(|_| asked_alone(random, road)).collect(),
        1..=3 => (0..count).map(|_| beside(random, joints)).collect(),
        4 => dense(random, joints, count),
        5 => one_in_each_stretch(random, joints, count),
        _ => far_apart(random, joints, count),
    };
    pegs.sort();
    if random.chance(25) {
        pegs.first_mut().into_iter().for_each(|first| *first = 0);
    }
    if random.chance(25) {
        pegs.last_mut().into_iter().for_each(|last| *last = end);
    }
    pegs.iter().map(|&peg| peg.clamp(0, end)).collect()
}

/// A station as single calls ask for it.
fn asked_alone(random: &mut Random, road: Option<&Alignment>) -> i128 {
    i128::from(random_station(random, road))
}

/// At a joint, or 1 beside it.
fn beside(random: &mut Random, joints: &[i128]) -> i128 {
    random.pick(joints) + random.pick(&[-1, 0, 0, 1])
}

/// Pegs with little between them, from a little before some joint on.
fn dense(random: &mut Random, joints: &[i128], count: usize) -> Vec<i128> {
    let widest = random.pick(&[1, 2, 50, 3_000]);
    let mut peg = random.pick(joints) - random.between(0, 5 * widest);
    let mut next = || {
        peg += random.between(0, widest);
        peg
    };
    (0..count).map(|_| next()).collect()
}

/// From some joint on, one peg for each stretch up to the next joint.
fn one_in_each_stretch(random: &mut Random, joints: &[i128], count: usize) -> Vec<i128> {
    let first = random.place(joints.len());
    let stretches = joints[first..].windows(2).take(count);
    let mut pegs: Vec<i128> = stretches
        .map(|ends| random.between_or_bound(ends[0], ends[1]))
        .collect();
    pegs.resize(count, joints[joints.len() - 1]);
    pegs
}

/// Near two or three joints, with nothing asked for between them.
fn far_apart(random: &mut Random, joints: &[i128], count: usize) -> Vec<i128> {
    let near: Vec<i128> = (0..random.between(2, 3))
        .map(|_| random.pick(joints))
        .collect();
    (0..count)
        .map(|_| random.pick(&near) + random.between(-3, 3))
        .collect()
}

/// "equal ones allowed": some pegs, or all, stand where the one before them stands.
fn repeat_some(random: &mut Random, pegs: &mut [i128]) {
    let percent = random.pick(&[10, 50, 100]);
    for peg in 1..pegs.len() {
        if random.chance(percent) {
            pegs[peg] = pegs[peg - 1];
        }
    }
}

/// Makes the first peg bad, the last, one just behind peg 2,000 or any: it falls, or it passes T alone or with all pegs
/// after it.
fn spoil(random: &mut Random, pegs: &mut [i128], end: i128) {
    let Some(last) = pegs.len().checked_sub(1) else {
        return;
    };
    let bad = match random.place(7) {
        0 => 0,
        1 => last,
        2..=3 => last.min(MOST_PEGS + 1),
        _ => random.place(pegs.len()),
    };
    match random.place(8) {
        0..=4 if bad > 0 => pegs[bad] = below(random, pegs[bad - 1]),
        5 => pegs[bad] = beyond(random, end),
        6 => pegs[bad..]
            .iter_mut()
            .for_each(|peg| *peg = (end + 1).max(*peg)),
        _ => pegs[bad] = end + 1,
    }
}

/// A station below another, where there is one: most often 1 below.
fn below(random: &mut Random, station: i128) -> i128 {
    let greatest = (station - 1).max(0);
    match random.place(4) {
        0 => random.between(0, greatest),
        _ => greatest,
    }
}

/// A station beyond T, with low bits of one that is not.
fn beyond(random: &mut Random, end: i128) -> i128 {
    match random.place(4) {
        0 => end + random.between_by_size(1, 1 << 40),
        1 => (1 << 64) - 1,
        _ => random.pick(&[1 << 31, 1 << 32, 1 << 63]) + random.between(0, end),
    }
}

/// Just room enough or more, or for 2,000 pegs alone; or a byte, a peg or nearly everything too little.
fn random_room(random: &mut Random, count: usize) -> usize {
    let full = LEAST_BUFFER * count;
    match random.place(20) {
        0..=5 => full,
        6..=10 => full + random.between_by_size(1, 4_000) as usize,
        11 => full + random.between(1, 96) as usize,
        12..=15 => LEAST_BUFFER * count.min(MOST_PEGS),
        16 => full.saturating_sub(1),
        17 => (LEAST_BUFFER - 1) * count,
        18 => full.saturating_sub(LEAST_BUFFER),
        _ => random.pick(&[0, 1, 95]).min(full),
    }
}

//! Crossfall points that keep rules 16 to 19.

use super::divided_up;
use super::plan::total;
use crate::generate::random::Random;
use reference::file::{CrossfallPoint, Element, Kind};
use reference::limits::Limits;

/// Left and right crossfall.
pub type Crossfall = (i128, i128);

fn random_crossfall(random: &mut Random) -> Crossfall {
    let mut side = || {
        let size = random.between_or_bound(25_000, 70_000);
        random.sign() * size
    };
    let crossfall = (side(), side());
    if random.chance(30) {
        (-25_000, -25_000)
    } else {
        crossfall
    }
}

/// "left = -right with the inner side negative"
pub fn superelevation(radius: i128, size: i128) -> Crossfall {
    (radius.signum() * size, -radius.signum() * size)
}

/// A road's ramp limit and its crossfall points, keeping rules 16 to 19.
pub fn crossfalls(
    random: &mut Random,
    limits: &Limits,
    elements: &[Element],
    wanted: usize,
) -> (i128, Vec<CrossfallPoint>) {
    let end = total(elements);
    let arcs = arcs(elements);
    let one_turn = arcs.iter().all(|arc| arc.radius * arcs[0].radius > 0);
    if one_turn && random.chance(25) {
        let crossfall = match arcs.first() {
            Some(arc) => superelevation(arc.radius, random.between_or_bound(25_000, 70_000)),
            None => random_crossfall(random),
        };
        let ramp_limit = random.between_or_bound(1, 20_000);
        let mut points = vec![point(0, crossfall), point(end, crossfall)];
        fill(random, &mut points, wanted);
        return (ramp_limit, points);
    }
    let least = arcs
        .windows(2)
        .filter(|pair| !pair[1].of_egg)
        .map(|pair| divided_up(limits.lane_width * 50_000, pair[1].start - pair[0].end))
        .max()
        .unwrap_or(1);
    let ramp_limit = match random.place(5) {
        0 => least,
        1 => 20_000,
        2 => least.max(5_000),
        _ => random.between(least, 20_000),
    };
    let on_arcs = crossfalls_on_arcs(random, limits, &arcs, ramp_limit);
    let ramps = Ramps {
        lane_width: limits.lane_width,
        ramp_limit,
    };
    let mut points = Vec::new();
    let mut spare = (wanted as i128 - 2 * (arcs.len() as i128 + 1)).max(0) as usize;
    for zone in 0..=arcs.len() {
        let from = if zone == 0 { 0 } else { arcs[zone - 1].end };
        let to = arcs.get(zone).map_or(end, |arc| arc.start);
        let stops = random.place((spare / (arcs.len() + 1 - zone)).min(6) + 1);
        let first = zone.checked_sub(1).map(|arc| on_arcs[arc]);
        let last = on_arcs.get(zone).copied();
        let added = ramps.zone(random, from, to, first, last, stops);
        spare -= stops.min(spare);
        points.extend(added);
    }
    fill(random, &mut points, wanted);
    (ramp_limit, points)
}

#[derive(Clone, Copy)]
pub struct ArcOfPlan {
    pub start: i128,
    pub end: i128,
    pub radius: i128,
    /// An egg leads to it from an arc of the same turn: no crossfall needs to change between the two.
    pub of_egg: bool,
}

pub fn arcs(elements: &[Element]) -> Vec<ArcOfPlan> {
    let mut start = 0;
    let mut arcs = Vec::new();
    for (place, element) in elements.iter().enumerate() {
        let end = start + element.length;
        if element.kind == Kind::Arc {
            let before = place.checked_sub(2).map(|before| elements[before]);
            arcs.push(ArcOfPlan {
                start,
                end,
                radius: element.radius,
                of_egg: before.is_some_and(|before| before.radius * element.radius > 0),
            });
        }
        start = end;
    }
    arcs
}

pub fn point(station: i128, crossfall: Crossfall) -> CrossfallPoint {
    CrossfallPoint {
        station,
        left: crossfall.0,
        right: crossfall.1,
    }
}

/// A crossfall for each arc; any two neighbours can be joined at the ramp limit.
fn crossfalls_on_arcs(
    random: &mut Random,
    limits: &Limits,
    arcs: &[ArcOfPlan],
    ramp_limit: i128,
) -> Vec<Crossfall> {
    let swing = |zone: i128| ramp_limit * zone / limits.lane_width;
    let mut on_arcs: Vec<Crossfall> = Vec::new();
    for (place, arc) in arcs.iter().enumerate() {
        let most = greatest_size(arcs, place, |zone| swing(zone) / 2);
        let (mut low, mut high) = (25_000, most);
        if arc.of_egg {
            // Arcs beside an egg are superelevated: their radii do not reach R'.
            let before = on_arcs[place - 1].0.abs();
            let change = swing(arc.start - arcs[place - 1].end);
            (low, high) = (low.max(before - change), high.min(before + change));
        }
        let size = random.between_or_bound(low, high);
        let may_fall = limits
            .radius_both_falling
            .is_some_and(|least| arc.radius.abs() >= least);
        on_arcs.push(if may_fall && random.chance(60) {
            (-25_000, -25_000)
        } else {
            superelevation(arc.radius, size)
        });
    }
    on_arcs
}

/// The greatest crossfall of an arc: with it half a swing suffices from the arc, and from those that eggs join it
/// to, to any arc beyond.
fn greatest_size(arcs: &[ArcOfPlan], place: usize, half_swing: impl Fn(i128) -> i128) -> i128 {
    let is_first = |place: &usize| !arcs[*place].of_egg;
    let first = (0..=place).rfind(is_first).expect("a first arc");
    let beyond = (place + 1..arcs.len()).find(is_first);
    let last = beyond.unwrap_or(arcs.len()) - 1;
    let mut most = 70_000;
    if first > 0 {
        most = most.min(half_swing(arcs[first].start - arcs[first - 1].end));
    }
    if let Some(beyond) = beyond {
        most = most.min(half_swing(arcs[beyond].start - arcs[last].end));
    }
    most.max(25_000)
}

struct Ramps {
    lane_width: i128,
    ramp_limit: i128,
}

impl Ramps {
    /// The least distance in which one crossfall becomes another, by rule 18.
    fn least_distance(&self, from: Crossfall, to: Crossfall) -> i128 {
        let change = (to.0 - from.0).abs().max((to.1 - from.1).abs());
        divided_up(self.lane_width * change, self.ramp_limit).max(1)
    }

    fn least_distances(&self, values: &[Crossfall]) -> Vec<i128> {
        values
            .windows(2)
            .map(|pair| self.least_distance(pair[0], pair[1]))
            .collect()
    }

    /// Points from one arc to the next, or from an end of the road, with some stops between.
    fn zone(
        &self,
        random: &mut Random,
        from: i128,
        to: i128,
        first: Option<Crossfall>,
        last: Option<Crossfall>,
        stops: usize,
    ) -> Vec<CrossfallPoint> {
        let room = to - from;
        let start = first.unwrap_or_else(|| random_crossfall(random));
        let end = last.unwrap_or_else(|| random_crossfall(random));
        let mut values = vec![start];
        values.extend((0..stops).map(|_| random_crossfall(random)));
        values.push(end);
        // Stops are left out until the rest has room.
        while values.len() > 2 && self.least_distances(&values).iter().sum::<i128>() > room {
            let inner = 1 + random.place(values.len() - 2);
            values.remove(inner);
        }
        if self.least_distance(start, end) > room {
            // An end of the road is free to take the value of the other end.
            assert!(first.is_none() || last.is_none(), "a zone too short");
            let kept = if first.is_none() { end } else { start };
            values = vec![kept, kept];
        }
        self.spread(random, from, to, &values, first.is_none(), last.is_none())
    }

    /// Puts the values at stations, what room is left going anywhere.
    fn spread(
        &self,
        random: &mut Random,
        from: i128,
        to: i128,
        values: &[Crossfall],
        at_start: bool,
        at_end: bool,
    ) -> Vec<CrossfallPoint> {
        let distances = self.least_distances(values);
        let mut slack = to - from - distances.iter().sum::<i128>();
        let mut take = |random: &mut Random| {
            let part = match random.place(3) {
                0 => 0,
                1 => slack,
                _ => random.between(0, slack),
            };
            slack -= part;
            part
        };
        let mut station = from;
        if !at_start {
            station += take(random);
        }
        let mut points = vec![point(station, values[0])];
        for (distance, value) in distances.iter().zip(&values[1..]) {
            station += distance + take(random);
            points.push(point(station, *value));
        }
        if at_end {
            points.last_mut().expect("a point").station = to;
        }
        points
    }
}

/// Adds points where the crossfall does not change, up to a count.
pub fn fill(random: &mut Random, points: &mut Vec<CrossfallPoint>, wanted: usize) {
    for _ in 0..2 * wanted {
        if points.len() >= wanted.min(200) {
            return;
        }
        let place = random.place(points.len() - 1);
        let (here, next) = (points[place], points[place + 1]);
        let even = here.left == next.left && here.right == next.right;
        if even && next.station - here.station >= 2 {
            let station = random.between_or_bound(here.station + 1, next.station - 1);
            points.insert(place + 1, point(station, (here.left, here.right)));
        }
    }
}

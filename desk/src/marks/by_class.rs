//! What the library says of a road at a speed that some class and terrain have.

use reference::file::Refusal;
use reference::limits::speed;

use crate::agreement::as_read;
use crate::text::file::{numbers, Item};
use crate::text::lines::Part;

/// What the library answers of a file that reads, put into a class and a terrain of a speed: a refusal, or none where it
/// is listed. Not at 90 km/h, which no class and terrain have.
pub fn judged_at(file: &[u8], wanted: u32) -> Option<Option<Refusal>> {
    let (class, terrain) = of_speed(wanted)?;
    let entries = numbers(file).entries;
    let at = |part| {
        let entry = entries.iter().find(|e| e.item == Item::Single(part));
        entry.map(|entry| entry.from)
    };
    let (class_at, terrain_at) = (at(Part::Class)?, at(Part::Terrain)?);
    let mut file = file.to_vec();
    // both are written in one byte
    file[class_at] = class;
    file[terrain_at] = terrain;
    Some(proved::next_station(&file, 0).err().map(as_read))
}

fn of_speed(wanted: u32) -> Option<(u8, u8)> {
    let mut pairs = (1..=4).flat_map(|class| (1..=3).map(move |terrain| (class, terrain)));
    pairs.find(|&(class, terrain)| speed(class.into(), terrain.into()) == wanted.into())
}

#[cfg(test)]
mod tests {
    use super::*;

    const DATED: &[u8] = include_bytes!("../../../examples/contract-of-2009.alignment");
    const LONG_STRAIGHT: &[u8] = include_bytes!("../../../examples/long-straight.alignment");

    #[test]
    fn speeds_of_classes() {
        let found: Vec<u32> = (0..200).filter(|&v| of_speed(v).is_some()).collect();
        assert_eq!(found, [40, 50, 60, 70, 80, 100]);
    }

    #[test]
    fn of_a_plain_and_of_a_dated_file() {
        let too_long = Refusal {
            number: 8,
            place: 4,
        };
        assert_eq!(judged_at(LONG_STRAIGHT, 70), Some(Some(too_long)));
        assert_eq!(judged_at(LONG_STRAIGHT, 80), Some(None));
        assert_eq!(judged_at(LONG_STRAIGHT, 90), None);
        assert_eq!(judged_at(DATED, 50), Some(None));
        let tight = judged_at(DATED, 60).flatten();
        assert_eq!(tight.map(|refusal| refusal.number), Some(10));
    }
}

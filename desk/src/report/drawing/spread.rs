//! Places for labels along a line.

/// Labels in a row, each as near as can be to where it belongs.
struct Cluster {
    /// How many labels, and the sum of the places that each would have the first one at.
    count: usize,
    sum: f64,
}

impl Cluster {
    fn first(&self, pitch: f64, low: f64, high: f64) -> f64 {
        let latest = high - (self.count - 1) as f64 * pitch;
        (self.sum / self.count as f64).min(latest).max(low)
    }
}

/// Places at least a pitch apart for labels that belong to ascending places, within two ends where there is room.
pub fn spread(wanted: &[f64], pitch: f64, low: f64, high: f64) -> Vec<f64> {
    let mut clusters: Vec<Cluster> = Vec::new();
    for &place in wanted {
        clusters.push(Cluster {
            count: 1,
            sum: place,
        });
        while let [.., before, after] = clusters.as_slice() {
            let width = before.count as f64 * pitch;
            if before.first(pitch, low, high) + width <= after.first(pitch, low, high) {
                break;
            }
            let joined = Cluster {
                count: before.count + after.count,
                sum: before.sum + after.sum - after.count as f64 * width,
            };
            clusters.truncate(clusters.len() - 2);
            clusters.push(joined);
        }
    }
    let places = clusters.iter().flat_map(|cluster| {
        let first = cluster.first(pitch, low, high);
        (0..cluster.count).map(move |index| first + index as f64 * pitch)
    });
    places.collect()
}

/// Whether every label stands within a distance of where it belongs.
pub fn is_near(wanted: &[f64], places: &[f64], most: f64) -> bool {
    let mut pairs = wanted.iter().zip(places);
    pairs.all(|(wanted, place)| (wanted - place).abs() <= most)
}

#[cfg(test)]
mod tests {
    use super::*;

    #[test]
    fn a_pitch_apart() {
        let wanted = [0.0, 1.0, 2.0, 50.0, 51.0, 99.0, 100.0];
        let places = spread(&wanted, 10.0, 0.0, 100.0);
        assert_eq!(places[..3], [0.0, 10.0, 20.0]);
        assert_eq!(places[5..], [90.0, 100.0]);
        assert!(places.windows(2).all(|pair| pair[1] - pair[0] >= 9.999));
        assert!(is_near(&wanted, &places, 18.0) && !is_near(&wanted, &places, 17.0));
    }

    #[test]
    fn places_with_room_stay() {
        assert_eq!(spread(&[3.0, 20.0], 10.0, 0.0, 30.0), vec![3.0, 20.0]);
    }
}

//! The list of a file, as the library gives it.

/// A row's eight numbers, as printed.
#[derive(Clone, Copy, Debug, PartialEq, Eq)]
pub struct Row {
    pub station: i128,
    pub height: i128,
    pub grade: i128,
    pub left_crossfall: i128,
    pub right_crossfall: i128,
    pub left_edge: i128,
    pub right_edge: i128,
    pub curvature: i128,
}

impl Row {
    /// In the order of a printed row.
    pub fn numbers(&self) -> [i128; 8] {
        [
            self.station,
            self.height,
            self.grade,
            self.left_crossfall,
            self.right_crossfall,
            self.left_edge,
            self.right_edge,
            self.curvature,
        ]
    }
}

/// The bytes that the listing program prints for a file that is not turned away.
pub fn list(file: &[u8]) -> Result<Vec<u8>, proved::Refusal> {
    let mut buffer = vec![0; 1 << 16];
    let mut list = Vec::new();
    let mut station = Some(0);
    while let Some(from) = station {
        let part = proved::list(file, from, &mut buffer)?;
        list.extend_from_slice(part.rows);
        station = part.next;
    }
    Ok(list)
}

/// The rows of a list.
pub fn rows(list: &[u8]) -> Vec<Row> {
    let text = std::str::from_utf8(list).expect("a list has digits, blanks and newlines");
    text.lines().map(row).collect()
}

fn row(line: &str) -> Row {
    let mut numbers = line.split(' ').map(|number| {
        let number: i64 = number.parse().expect("a row has numbers");
        i128::from(number)
    });
    let mut next = || numbers.next().expect("a row has eight numbers");
    Row {
        station: next(),
        height: next(),
        grade: next(),
        left_crossfall: next(),
        right_crossfall: next(),
        left_edge: next(),
        right_edge: next(),
        curvature: next(),
    }
}

/// The names of a row's numbers, with their units.
pub const HEAD: &str = "station_mm,axis_height_mm,grade_ppm,left_crossfall_ppm,right_crossfall_ppm,left_edge_mm,right_edge_mm,curvature_millionths_per_m";

/// A list with commas and a head line.
pub fn with_commas(list: &[u8]) -> Vec<u8> {
    let mut out = HEAD.as_bytes().to_vec();
    out.push(b'\n');
    out.extend(
        list.iter()
            .map(|&byte| if byte == b' ' { b',' } else { byte }),
    );
    out
}

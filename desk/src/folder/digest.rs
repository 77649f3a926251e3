//! A digest of bytes: FNV-1a of 128 bits. It tells changes that happen, and is no guard against malice.

use std::fs::File;
use std::io::{self, Read};
use std::path::Path;

const BASIS: u128 = 0x6c62_272e_07bb_0142_62b8_2175_6295_c58d;
const PRIME: u128 = 0x0000_0000_0100_0000_0000_0000_0000_013b;

#[derive(Clone, Copy)]
pub struct Digest(u128);

impl Digest {
    pub fn new() -> Digest {
        Digest(BASIS)
    }

    pub fn with(self, bytes: &[u8]) -> Digest {
        let step = |digest: u128, byte: &u8| (digest ^ u128::from(*byte)).wrapping_mul(PRIME);
        Digest(bytes.iter().fold(self.0, step))
    }

    pub fn value(self) -> u128 {
        self.0
    }
}

/// The digest of all that is read.
pub fn of_source(mut source: impl Read) -> io::Result<u128> {
    let mut part = vec![0; 1 << 16];
    let mut digest = Digest::new();
    loop {
        match source.read(&mut part) {
            Ok(0) => return Ok(digest.value()),
            Ok(length) => digest = digest.with(&part[..length]),
            Err(fault) if fault.kind() == io::ErrorKind::Interrupted => {}
            Err(fault) => return Err(fault),
        }
    }
}

/// The digest of this program, so that another one makes all pages anew; none where it cannot be read.
pub fn of_program() -> Option<u128> {
    File::open(Path::new("/proc/self/exe"))
        .and_then(of_source)
        .ok()
}

#[cfg(test)]
mod tests {
    use super::*;

    #[test]
    fn published_values() {
        let digest = |bytes: &[u8]| Digest::new().with(bytes).value();
        assert_eq!(digest(b""), BASIS);
        assert_eq!(digest(b"a"), 0xd228_cb69_6f1a_8caf_7891_2b70_4e4a_8964);
        assert_eq!(digest(b"foobar"), 0x343e_1662_793c_64bf_6f0d_3597_ba44_6f18);
    }

    #[test]
    fn part_by_part() {
        let bytes: Vec<u8> = (0..200_000_u32).map(|n| (n % 251) as u8).collect();
        assert_eq!(
            of_source(&bytes[..]).ok(),
            Some(Digest::new().with(&bytes).value())
        );
    }
}

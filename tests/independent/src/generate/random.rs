//! Random numbers from a seed (splitmix64).

pub struct Random {
    state: u64,
    /// Of a wide range only multiples of it are drawn: round numbers, as designers take them, make
    /// exact halves.
    grid: i128,
}

impl Random {
    /// Each file has numbers of its own, so that it can be made again alone.
    pub fn for_file(seed: u64, index: u64) -> Random {
        let mut outer = Random::on_grid(seed, 1);
        let mixed = outer.next() ^ index.wrapping_mul(0xd134_2543_de82_ef95);
        let mut inner = Random::on_grid(mixed, 1);
        let grid = inner.pick(&[1, 1, 1, 1, 25, 500]);
        Random::on_grid(inner.next(), grid)
    }

    fn on_grid(state: u64, grid: i128) -> Random {
        Random { state, grid }
    }

    pub fn next(&mut self) -> u64 {
        self.state = self.state.wrapping_add(0x9e37_79b9_7f4a_7c15);
        let mut mixed = self.state;
        mixed = (mixed ^ (mixed >> 30)).wrapping_mul(0xbf58_476d_1ce4_e5b9);
        mixed = (mixed ^ (mixed >> 27)).wrapping_mul(0x94d0_49bb_1331_11eb);
        mixed ^ (mixed >> 31)
    }

    /// A whole number from low to high, both included.
    pub fn between(&mut self, low: i128, high: i128) -> i128 {
        assert!(low <= high, "no number from {low} to {high}");
        let drawn = low + i128::from(self.next()) % (high - low + 1);
        let round = drawn.div_euclid(self.grid) * self.grid;
        let wide = high - low >= 10 * self.grid;
        if wide && round >= low {
            round
        } else {
            drawn
        }
    }

    /// A place in a list of so many items.
    pub fn place(&mut self, count: usize) -> usize {
        self.between(0, count as i128 - 1) as usize
    }

    /// As `between`, small and great distances from low equally often.
    pub fn between_by_size(&mut self, low: i128, high: i128) -> i128 {
        let bits = 128 - (high - low).leading_zeros();
        let size = self.between(0, i128::from(bits)) as u32;
        let greatest = (1_i128 << size) - 1;
        low + self.between(0, greatest.min(high - low))
    }

    /// As `between`, with both bounds often.
    pub fn between_or_bound(&mut self, low: i128, high: i128) -> i128 {
        match self.place(6) {
            0 => low,
            1 => high,
            2 => self.between_by_size(low, high),
            _ => self.between(low, high),
        }
    }

    pub fn chance(&mut self, percent: i128) -> bool {
        self.between(0, 99) < percent
    }

    pub fn pick<T: Copy>(&mut self, items: &[T]) -> T {
        items[self.place(items.len())]
    }

    /// 1 or -1.
    pub fn sign(&mut self) -> i128 {
        self.pick(&[1, -1])
    }

    pub fn bytes(&mut self, count: usize) -> Vec<u8> {
        (0..count).map(|_| self.next() as u8).collect()
    }
}

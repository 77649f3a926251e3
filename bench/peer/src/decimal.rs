//! Numbers as decimal digits, two at a time from a table.

static PAIRS: [[u8; 2]; 100] = {
    let mut pairs = [[b'0'; 2]; 100];
    let mut i = 0;
    while i < 100 {
        pairs[i] = [b'0' + (i / 10) as u8, b'0' + (i % 10) as u8];
        i += 1;
    }
    pairs
};

/// The most bytes that one number takes, a sign and ten digits.
pub const NUMBER_MAX: usize = 11;

/// A cursor into a buffer; the caller sees to it that there is room.
pub struct Pen(*mut u8);

// Safety of all that writes: `Pen::at`.
#[allow(clippy::missing_safety_doc)]
impl Pen {
    /// # Safety
    /// The bytes written through the pen lie in memory that may be written.
    #[inline(always)]
    pub unsafe fn at(place: *mut u8) -> Self {
        Pen(place)
    }

    #[inline(always)]
    pub fn place(&self) -> *mut u8 {
        self.0
    }

    #[inline(always)]
    pub unsafe fn byte(&mut self, b: u8) {
        *self.0 = b;
        self.0 = self.0.add(1);
    }

    #[inline(always)]
    unsafe fn pair(&mut self, n: u32) {
        let pair = *PAIRS.get_unchecked(n as usize);
        self.0.cast::<[u8; 2]>().write_unaligned(pair);
        self.0 = self.0.add(2);
    }

    /// One or two digits, n below 100.
    #[inline(always)]
    unsafe fn lead(&mut self, n: u32) {
        if n < 10 {
            self.byte(b'0' + n as u8);
        } else {
            self.pair(n);
        }
    }

    /// Four digits, n below 10,000.
    #[inline(always)]
    unsafe fn four(&mut self, n: u32) {
        self.pair(n / 100);
        self.pair(n % 100);
    }

    /// One to four digits, n below 10,000.
    #[inline(always)]
    unsafe fn lead_four(&mut self, n: u32) {
        if n < 100 {
            self.lead(n);
        } else {
            self.lead(n / 100);
            self.pair(n % 100);
        }
    }

    #[inline(always)]
    pub unsafe fn plain(&mut self, n: u32) {
        if n < 10_000 {
            self.lead_four(n);
        } else if n < 100_000_000 {
            self.lead_four(n / 10_000);
            self.four(n % 10_000);
        } else {
            self.lead(n / 100_000_000);
            let rest = n % 100_000_000;
            self.four(rest / 10_000);
            self.four(rest % 10_000);
        }
    }

    #[inline(always)]
    pub unsafe fn signed(&mut self, n: i32) {
        if n < 0 {
            self.byte(b'-');
        }
        self.plain(n.unsigned_abs());
    }
}

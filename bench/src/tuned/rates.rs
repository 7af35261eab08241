//! The currency rates of an account, by currency.

/// What a currency's losses and gains are multiplied by, in hundred-millionths.
#[derive(Clone, Copy, Default)]
pub struct Rate {
    loss: u64,
    gain: u64,
}

/// No rate where both are 0.
#[derive(Default)]
pub struct Rates([Rate; 8]);

impl Rates {
    pub fn add(&mut self, currency: usize, spot: i64, percent: i64) {
        let at = |percent: i64| spot as u64 * percent as u64;
        self.0[currency] = Rate { loss: at(100 + percent), gain: at(100 - percent) };
    }

    /// Whether there is no rate at all.
    pub fn none(&self) -> bool {
        self.0.iter().all(|rate| rate.loss == 0)
    }

    #[inline(always)]
    pub fn of(&self, currency: usize) -> Option<Rate> {
        Some(self.0[currency]).filter(|rate| rate.loss != 0)
    }
}

impl Rate {
    /// A product in hundredths of the margin currency, halves away from zero. The whole hundred-millions are multiplied apart, so
    /// that nothing passes 64 bits.
    #[inline(always)]
    pub fn converted(self, product: i64) -> i64 {
        const ONE: u64 = 100_000_000;
        let (size, rate) =
            (product.unsigned_abs(), if product > 0 { self.loss } else { self.gain });
        let converted = size / ONE * rate + (size % ONE * rate + ONE / 2) / ONE;
        if product < 0 {
            -(converted as i64)
        } else {
            converted as i64
        }
    }
}

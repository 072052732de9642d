//! A seeded generator, and doubles of every kind.

/// SplitMix64.
pub struct Random(pub u64);

impl Random {
    pub fn bits(&mut self) -> u64 {
        self.0 = self.0.wrapping_add(0x9E37_79B9_7F4A_7C15);
        let mut z = self.0;
        z = (z ^ (z >> 30)).wrapping_mul(0xBF58_476D_1CE4_E5B9);
        z = (z ^ (z >> 27)).wrapping_mul(0x94D0_49BB_1331_11EB);
        z ^ (z >> 31)
    }

    pub fn below(&mut self, n: u64) -> u64 {
        self.bits() % n
    }

    /// From 0 up to 1.
    pub fn unit(&mut self) -> f64 {
        (self.bits() >> 11) as f64 * 2f64.powi(-53)
    }

    pub fn between(&mut self, low: f64, high: f64) -> f64 {
        low + self.unit() * (high - low)
    }

    pub fn sign(&mut self, x: f64) -> f64 {
        if self.below(2) == 0 {
            x
        } else {
            -x
        }
    }

    /// x, or a double up to three places beside it.
    pub fn beside(&mut self, x: f64) -> f64 {
        let step = self.below(7) as i64 - 3;
        let moved = f64::from_bits((x.to_bits() as i64).wrapping_add(step) as u64);
        if x == 0.0 || moved.is_sign_negative() != x.is_sign_negative() {
            x
        } else {
            moved
        }
    }

    /// A double with few digits set, whose products and sums tie.
    pub fn sparse(&mut self) -> f64 {
        let mut low = 0u64;
        for _ in 0..self.below(4) {
            low |= 1 << self.below(52);
        }
        let field = 1023 + self.below(121) as i64 - 60;
        let x = f64::from_bits((field as u64) << 52 | low);
        self.sign(x)
    }

    /// One of the values at which rules change.
    pub fn landmark(&mut self) -> f64 {
        const LANDMARKS: [f64; 30] = [
            0.0,
            f64::from_bits(1),
            f64::from_bits(0x000F_FFFF_FFFF_FFFF),
            f64::MIN_POSITIVE,
            f64::MAX,
            f64::INFINITY,
            f64::NAN,
            0.25,
            0.5,
            0.75,
            1.0,
            1.5,
            2.0,
            2.5,
            3.0,
            10.0,
            700.0,
            701.0,
            0.346_573_590_279_972_64,
            0.693_147_180_559_945_3,
            709.782_712_893_384,
            4503599627370495.5,
            4503599627370496.0,
            9007199254740991.0,
            9007199254740992.0,
            9007199254740994.0,
            1e15,
            1e300,
            1e-300,
            1e-310,
        ];
        let x = LANDMARKS[self.below(30) as usize];
        let x = self.sign(x);
        if x.is_finite() {
            self.beside(x)
        } else {
            x
        }
    }

    /// A double of any kind: every exponent, subnormals, ties, whole numbers, landmarks.
    pub fn double(&mut self) -> f64 {
        match self.below(12) {
            0..=3 => f64::from_bits(self.bits()),
            4 => self.landmark(),
            5 => {
                let x = self.between(-800.0, 800.0);
                self.beside(x)
            }
            6 => self.between(-2.0, 2.0),
            7 => {
                let whole = (self.bits() >> (11 + self.below(53))) as f64 + 0.5;
                let x = self.sign(whole);
                self.beside(x)
            }
            8 => {
                let whole = (self.bits() >> (11 + self.below(53))) as f64;
                let x = self.sign(whole);
                self.beside(x)
            }
            9 => {
                let x = f64::from_bits(self.bits() >> (12 + self.below(52)));
                self.sign(x)
            }
            10 => self.sparse(),
            _ => {
                let scale = 2f64.powi(self.below(40) as i32 - 30);
                self.between(-scale, scale)
            }
        }
    }

    /// Three doubles for a × b + c: of any kind, or with c near −a × b, or far from it, or at a tie.
    pub fn triple(&mut self) -> [f64; 3] {
        let (a, b) = if self.below(2) == 0 {
            (self.double(), self.double())
        } else {
            (self.sparse(), self.sparse())
        };
        let c = match self.below(6) {
            0 => self.double(),
            1 => {
                let c = -(a * b);
                self.beside(c)
            }
            2 => {
                // Near the product's size, apart by up to 120 binary places.
                let apart = self.below(241) as i32 - 120;
                let c = a * b * 2f64.powi(apart) * (1.0 + self.unit());
                self.sign(c)
            }
            3 => self.sparse(),
            4 => {
                let x = f64::from_bits(self.bits() >> (12 + self.below(52)));
                self.sign(x)
            }
            _ => {
                let x = a * b * 2f64.powi(self.below(121) as i32 - 60);
                f64::from_bits(x.to_bits() & !0 << self.below(53)) * if self.below(2) == 0 { 1.0 } else { -1.0 }
            }
        };
        [a, b, c]
    }
}

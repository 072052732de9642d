//! The reading's sqrt, round, ceil and mul_add against the hardware's, zero signs as 01 has them.
use reading::exact;

struct Random(u64);

impl Random {
    fn bits(&mut self) -> u64 {
        self.0 = self.0.wrapping_mul(6364136223846793005).wrapping_add(1442695040888963407);
        let x = self.0 ^ (self.0 >> 29);
        x.wrapping_mul(0xBF58_476D_1CE4_E5B9) ^ (x >> 32)
    }

    fn finite(&mut self) -> f64 {
        loop {
            let x = match self.bits() % 3 {
                0 => f64::from_bits(self.bits()),
                1 => f64::from_bits(self.bits() >> (self.bits() % 64)),
                _ => (self.bits() % 4_000_001) as f64 / 64.0 - 31250.0,
            };
            if x.is_finite() {
                return x;
            }
        }
    }
}

fn same(x: f64, y: f64) -> bool {
    x.to_bits() == y.to_bits() || x == 0.0 && y == 0.0
}

#[test]
fn agrees() {
    let mut random = Random(7);
    for _ in 0..300_000 {
        let (a, b, c) = (random.finite(), random.finite(), random.finite());
        assert_eq!(exact::sqrt(a.abs()).to_bits(), a.abs().sqrt().to_bits(), "sqrt of {a:e}");
        assert!(same(exact::round(a), a.round()), "round of {a:e}");
        assert!(same(exact::ceil(a), a.ceil()), "ceil of {a:e}");
        assert!(same(exact::mul_add(a, b, c), a.mul_add(b, c)), "{a:e} * {b:e} + {c:e}");
        let near = -(a * b) * [1.0, 1.0 + f64::EPSILON, 1e-17][(random.bits() % 3) as usize];
        if near.is_finite() {
            assert!(same(exact::mul_add(a, b, near), a.mul_add(b, near)), "{a:e} * {b:e} + {near:e}");
        }
    }
}

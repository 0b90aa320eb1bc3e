//! Document 01, items 2 and 3. The substitutions S3 and S4 call them; they are
//! compiled in every build, so that `oracle --power` can ask for them alone.

use crate::tables::{A, B};

/// Item 2: x^0.852 by two tables.
pub fn power(x: f64) -> f64 {
    if x.is_nan() || x < 0.0 {
        return f64::NAN;
    }
    if x < f64::from_bits((1023 - 64) << 52) {
        return 0.0; // below 2^-64, zero (of either sign) included
    }
    if x >= f64::from_bits((1023 + 64) << 52) {
        return f64::INFINITY; // from 2^64
    }
    // x = m * 2^e, 1 <= m < 2: x is a normal number here
    let bits = x.to_bits();
    let e = (bits >> 52) as i64 - 1023;
    let m = f64::from_bits((bits & ((1 << 52) - 1)) | (1023 << 52));
    let scaled = (m - 1.0) * 1024.0; // exact
    let i = scaled as usize;
    let t = scaled - i as f64; // exact
    let a0 = f64::from_bits(A[i]);
    let a1 = f64::from_bits(A[i + 1]);
    (a0 + t * (a1 - a0)) * f64::from_bits(B[(63 - e) as usize])
}

/// Item 3: by halving the exponent until it is 1.
pub trait WholePower {
    fn powi_by_halving(self, n: i32) -> f64;
}

impl WholePower for f64 {
    fn powi_by_halving(self, n: i32) -> f64 {
        match n {
            ..0 => panic!("a whole power below 0"),
            0 => 1.0,
            1 => self,
            _ => {
                let half = self.powi_by_halving(n / 2);
                let squared = half * half;
                if n % 2 == 1 { squared * self } else { squared }
            }
        }
    }
}

#[cfg(test)]
mod tests {
    use super::*;

    #[test]
    fn corners() {
        assert!(power(f64::NAN).is_nan());
        assert!(power(-1.0).is_nan());
        assert!(power(-f64::from_bits(1)).is_nan());
        assert_eq!(power(-0.0).to_bits(), 0);
        assert_eq!(power(f64::from_bits(((1023 - 64) << 52) - 1)), 0.0);
        assert!(power(f64::from_bits((1023 - 64) << 52)) > 0.0);
        assert_eq!(power(f64::INFINITY), f64::INFINITY);
        assert!(power(f64::from_bits(((1023 + 64) << 52) - 1)).is_finite());
        assert_eq!(power(1.0), 1.0);
    }

    #[test]
    fn near_powf() {
        let mut x = 1.0e-19;
        while x < 1.0e19 {
            let (a, b) = (power(x), x.powf(0.852));
            assert!(((a - b) / b).abs() < 1.0 / 33_554_432.0, "{x}");
            x *= 1.0007;
        }
    }

    #[test]
    fn whole_powers() {
        let d: f64 = 0.7312345;
        assert_eq!(d.powi_by_halving(4), (d * d) * (d * d));
        assert_eq!(d.powi_by_halving(2), d * d);
        assert_eq!(d.powi_by_halving(5), ((d * d) * (d * d)) * d);
        assert_eq!(d.powi_by_halving(0), 1.0);
    }
}

//! Section 1 of document 01, the root being the machine's; and the sine and cosine of document 02's request One.

/// The number with bits 400921fb54442d18.
pub const P: f64 = f64::from_bits(0x4009_21fb_5444_2d18);

/// NaN in, NaN out; every NaN has the same bits here.
pub fn bits(x: f64) -> u64 {
    if x.is_nan() {
        0x7ff8_0000_0000_0000
    } else {
        x.to_bits()
    }
}

pub fn remainder(a: f64, b: f64) -> f64 {
    let r = a % b;
    if r < 0.0 {
        r + b.abs()
    } else {
        r
    }
}

pub fn degrees(a: f64) -> f64 {
    a * (180.0 / P)
}

pub fn radians(a: f64) -> f64 {
    a * (P / 180.0)
}

pub fn arctangent(y: f64, z: f64) -> f64 {
    if !y.is_finite() || !z.is_finite() {
        return f64::NAN;
    }
    let (a, b) = (y.abs(), z.abs());
    let (smaller, larger) = if a < b { (a, b) } else { (b, a) };
    let mut r = 0.0;
    if larger != 0.0 {
        let mut q = smaller / larger;
        for _ in 0..3 {
            q = q / (1.0 + (1.0 + q * q).sqrt());
        }
        let s = q * q;
        let c = |k: u32| {
            let c = 1.0 / (2 * k + 1) as f64;
            if k % 2 == 1 {
                -c
            } else {
                c
            }
        };
        let mut p = c(8);
        for k in (0..8).rev() {
            p = c(k) + s * p;
        }
        r = 8.0 * (q * p);
    }
    if a > b {
        r = P / 2.0 - r;
    }
    if z.is_sign_negative() {
        r = P - r;
    }
    if y.is_sign_negative() {
        r = -r;
    }
    r
}

/// One over the factorial of `first` and of every second number after it, with alternating signs.
const fn coefficients(first: u64) -> [f64; 9] {
    let mut c = [0.0; 9];
    let (mut k, mut n, mut factorial) = (0, first, 1);
    while k < 9 {
        c[k] = if k % 2 == 1 { -1.0 / factorial as f64 } else { 1.0 / factorial as f64 };
        factorial *= (n + 1) * (n + 2);
        (k, n) = (k + 1, n + 2);
    }
    c
}

const SINE: [f64; 9] = coefficients(1);
const COSINE: [f64; 9] = coefficients(0);

/// By Horner's rule, from the highest.
fn horner(c: &[f64; 9], t: f64) -> f64 {
    c[..8].iter().rev().fold(c[8], |p, c| c + t * p)
}

/// Sine and cosine of r radians.
pub fn sin_cos(r: f64) -> (f64, f64) {
    let a = r.abs();
    let q = [P / 4.0, 3.0 * P / 4.0, 5.0 * P / 4.0, 7.0 * P / 4.0].iter().filter(|&&threshold| threshold < a).count();
    let s = a - q as f64 * (P / 2.0);
    let t = s * s;
    let (sin, cos) = (horner(&SINE, t) * s, horner(&COSINE, t));
    let (sine, cosine) = match q {
        0 | 4 => (sin, cos),
        1 => (cos, -sin),
        2 => (-sin, -cos),
        _ => (-cos, sin),
    };
    (if r < 0.0 { -sine } else { sine }, cosine)
}

#[cfg(test)]
mod tests {
    use super::*;

    fn of(r: f64) -> [u64; 2] {
        let (sine, cosine) = sin_cos(r);
        [bits(sine), bits(cosine)]
    }
    fn both(sine: f64, cosine: f64) -> [u64; 2] {
        [bits(sine), bits(cosine)]
    }

    #[test]
    fn coefficients_are_quotients_of_exact_factorials() {
        assert_eq!(SINE[..3], [1.0, -1.0 / 6.0, 1.0 / 120.0]);
        assert_eq!(COSINE[..3], [1.0, -1.0 / 2.0, 1.0 / 24.0]);
        assert_eq!([SINE[8], COSINE[8]], [1.0 / 355_687_428_096_000.0, 1.0 / 20_922_789_888_000.0]);
    }

    fn beside(x: f64, bits: i64) -> f64 {
        f64::from_bits(x.to_bits().wrapping_add_signed(bits))
    }

    #[test]
    fn quarter_turns_are_exact() {
        for (k, sine, cosine) in [(0.0, 0.0, 1.0), (1.0, 1.0, -0.0), (2.0, -0.0, -1.0), (3.0, -1.0, 0.0), (4.0, 0.0, 1.0)] {
            assert_eq!(of(k * (P / 2.0)), both(sine, cosine), "{k} quarter turns");
            assert_eq!(of(-k * (P / 2.0)), both(if k == 0.0 { sine } else { -sine }, cosine), "-{k} quarter turns");
        }
    }

    /// At P/4 itself it is not below |r|, so q is 0; one bit further it is 1. The same at the three others.
    #[test]
    fn a_threshold_belongs_to_the_part_before_it() {
        let (sine, cosine) = (0x3fe6_a09e_667f_3bcc, 0x3fe6_a09e_667f_3bcd);
        let minus = 1 << 63;
        assert_eq!(of(P / 4.0), [sine, cosine]);
        assert_eq!(of(3.0 * P / 4.0), [cosine, sine | minus]);
        assert_eq!(of(5.0 * P / 4.0), [sine | minus, cosine | minus]);
        assert_eq!(of(7.0 * P / 4.0), [cosine | minus, sine]);
        for n in [1.0, 3.0, 5.0, 7.0] {
            let turn = n * P / 4.0;
            assert_eq!(turn * 4.0 / n, P, "exact");
            // Just past it, s is just above -P/4.
            let (sine, cosine) = sin_cos(beside(turn, 1));
            assert!((sine - turn.sin()).abs() < 1e-15 && (cosine - turn.cos()).abs() < 1e-15);
            assert_ne!(of(beside(turn, 1)), of(turn));
        }
    }

    /// Each step rounded once; also where q stays at 4, far beyond a turn.
    #[test]
    fn sines_and_cosines_of_some_angles_have_these_bits() {
        assert_eq!(of(0.1), [0x3fb9_8eae_cb8b_cb2c, 0x3fef_d712_f9a8_17c0]);
        assert_eq!(of(2.0), [0x3fed_18f6_ead1_b446, 0xbfda_a226_5753_7205]);
        assert_eq!(of(100.0), [0x43df_6321_475e_5394, 0x43b6_db18_9127_48a1]);
    }

    #[test]
    fn sines_and_cosines_within_a_turn_are_near_the_c_librarys() {
        for k in -10_000..=10_000 {
            let r = k as f64 * (2.0 * P / 10_000.0);
            let (sine, cosine) = sin_cos(r);
            assert!((sine - r.sin()).abs() < 1e-15 && (cosine - r.cos()).abs() < 1e-15, "{r}");
        }
    }

    #[test]
    fn every_number_has_an_answer() {
        assert_eq!(of(f64::NAN), both(f64::NAN, f64::NAN));
        assert_eq!(of(f64::INFINITY), both(f64::INFINITY, f64::INFINITY));
        assert_eq!(of(f64::NEG_INFINITY), both(f64::NEG_INFINITY, f64::INFINITY));
        // Not by the sign bit: -0 is not below 0.
        assert_eq!(of(-0.0), both(0.0, 1.0));
        assert_eq!(of(-5e-324), both(-5e-324, 1.0));
        assert_eq!(of(f64::MAX), both(f64::INFINITY, f64::INFINITY));
    }

    #[test]
    fn degrees_of_an_eighth_turn_are_its_thresholds() {
        for k in 0..=8 {
            assert_eq!(bits(radians(45.0 * k as f64)), bits(k as f64 * P / 4.0), "{k} times 45 degrees");
        }
        // P / 180 first.
        assert_eq!(bits(radians(3.0)), 0x3faa_cee9_f37b_ebd6);
        // Fewer than 29 of the smallest steps are nothing.
        assert_eq!(bits(radians(f64::from_bits(28))), 0);
        assert_eq!(bits(radians(-f64::from_bits(28))), 1 << 63);
        assert_eq!(bits(radians(f64::from_bits(29))), 1);
    }
}

// Records the roots, arctangents, sines and cosines that the crate `vectors` replays:
//
//     mkdir -p build && rustc -O -o build/vectors tools/vectors.rs && build/vectors > crates/vectors/stdin
//
// The roots are the machine's; the arctangents are section 1's rule of document 01 in plain f64, with the machine's root; the
// sines and cosines are the rule of document 02's request One, in plain f64.
// A line has three words of 16 hexadecimal digits, bit patterns of f64: an operand, dashes and its root; or y, z and the
// arctangent of (y, z); or r, a colon, its sine and its cosine. Every NaN is written 7ff8000000000000.
use std::f64::consts::PI;

const SEED: u64 = 0x5eed_0000_0000_0001;

// The angles' own, so that the lines before them stay.
const SEED_OF_ANGLES: u64 = 0x5eed_0000_0000_0002;

struct Random(u64);

impl Random {
    // splitmix64
    fn next(&mut self) -> u64 {
        self.0 = self.0.wrapping_add(0x9e37_79b9_7f4a_7c15);
        let mut z = self.0;
        z = (z ^ (z >> 30)).wrapping_mul(0xbf58_476d_1ce4_e5b9);
        z = (z ^ (z >> 27)).wrapping_mul(0x94d0_49bb_1331_11eb);
        z ^ (z >> 31)
    }

    fn float(&mut self) -> f64 {
        f64::from_bits(self.next())
    }

    // From -1 to 1.
    fn unit(&mut self) -> f64 {
        (self.next() as i64) as f64 / 9223372036854775808.0
    }
}

// Not inlined: an optimizer that sees where x comes from may keep a NaN's own bits.
#[inline(never)]
fn word(x: f64) -> String {
    let bits = if x.is_nan() { 0x7ff8_0000_0000_0000 } else { x.to_bits() };
    format!("{:016x}", bits)
}

fn arctangent(y: f64, z: f64) -> f64 {
    if !y.is_finite() || !z.is_finite() {
        return f64::NAN;
    }
    let (a, b) = (y.abs(), z.abs());
    let (small, large) = if a > b { (b, a) } else { (a, b) };
    let mut r = 0.0;
    if large != 0.0 {
        let mut q = small / large;
        for _ in 0..3 {
            q = q / (1.0 + (1.0 + q * q).sqrt());
        }
        let s = q * q;
        let c = |k: i32| (if k % 2 == 1 { -1.0 } else { 1.0 }) / f64::from(2 * k + 1);
        let mut p = c(8);
        for k in (0..8).rev() {
            p = c(k) + s * p;
        }
        r = 8.0 * (q * p);
    }
    if a > b {
        r = PI / 2.0 - r;
    }
    if z.is_sign_negative() {
        r = PI - r;
    }
    if y.is_sign_negative() {
        r = -r;
    }
    r
}

fn factorial(n: u64) -> f64 {
    (1..=n).product::<u64>() as f64
}

// The sine and the cosine of r radians.
fn sine_cosine(r: f64) -> (f64, f64) {
    let a = r.abs();
    let q = [1.0, 3.0, 5.0, 7.0].iter().filter(|&n| n * PI / 4.0 < a).count();
    let s = a - q as f64 * (PI / 2.0);
    let t = s * s;
    let series = |lowest: u64| {
        let c = |k: u64| (if k % 2 == 1 { -1.0 } else { 1.0 }) / factorial(2 * k + lowest);
        (0..8).rev().fold(c(8), |p, k| c(k) + t * p)
    };
    let (sin_s, cos_s) = (series(1) * s, series(0));
    let (sine, cosine) = match q {
        0 | 4 => (sin_s, cos_s),
        1 => (cos_s, -sin_s),
        2 => (-sin_s, -cos_s),
        _ => (-cos_s, sin_s),
    };
    (if r < 0.0 { -sine } else { sine }, cosine)
}

// Angles to take the sine and the cosine of, in radians.
fn angles(named: &[f64]) -> Vec<f64> {
    let mut random = Random(SEED_OF_ANGLES);
    let beside = |r: f64| [r.next_down(), r, r.next_up()];
    let mut list = named.to_vec();
    // Eighths of a turn, the same numbers as 45 times k degrees. The odd ones tell one q from the next.
    for k in -8..=8 {
        list.extend(beside(f64::from(k) * PI / 4.0));
    }
    for degrees in (-360..=360).step_by(13) {
        list.push(f64::from(degrees) * (PI / 180.0));
    }
    // Far out, and where the series overflow.
    for r in [1e1, 1e2, 1e5, 1e10, 1e15, 1e16, 1e17, 1e18, 1e19, 1e20, 1e150, 1e160, 1e300] {
        list.extend([r, -3.0 * r]);
    }
    for _ in 0..50 {
        list.push(7.0 * random.unit());
    }
    for _ in 0..40 {
        list.push(random.float());
    }
    list
}

fn main() {
    let mut random = Random(SEED);
    let named = [
        4.0, 2.0, 0.0, -0.0, f64::INFINITY, f64::NEG_INFINITY, f64::NAN, -1.0, 1.0, 0.25, 3.0, 0.5, 1e100, 1e-100,
        f64::MIN_POSITIVE, f64::MAX, f64::MIN, -f64::MIN_POSITIVE, f64::EPSILON, PI,
        f64::from_bits(1), f64::from_bits(2), f64::from_bits(3), f64::from_bits(0x000f_ffff_ffff_ffff),
        f64::from_bits(0x0010_0000_0000_0001), f64::from_bits(0x3fef_ffff_ffff_ffff), f64::from_bits(0x3ff0_0000_0000_0001),
        f64::from_bits(0x400f_ffff_ffff_ffff), f64::from_bits(0x7fef_ffff_ffff_fffe), f64::from_bits(0x8000_0000_0000_0001),
    ];

    let mut roots: Vec<f64> = named.to_vec();
    for _ in 0..90 {
        roots.push(random.float());
    }
    for _ in 0..90 {
        roots.push(random.float().abs());
    }
    for _ in 0..60 {
        // A subnormal of any length.
        let shift = random.next() % 52;
        roots.push(f64::from_bits(random.next() >> 12 >> shift));
    }
    for _ in 0..40 {
        // A square that is exact, and its neighbours.
        let k = (random.next() >> 38) as f64;
        let bits = (k * k).to_bits();
        roots.extend([f64::from_bits(bits - 1), f64::from_bits(bits), f64::from_bits(bits + 1)]);
    }
    for x in roots {
        println!("{} ---------------- {}", word(x), word(x.sqrt()));
    }

    let mut points: Vec<(f64, f64)> = Vec::new();
    let axes = [0.0, -0.0, 1.0, -1.0, f64::MAX, f64::from_bits(1), f64::INFINITY, f64::NAN];
    for y in axes {
        for z in axes {
            points.push((y, z));
        }
    }
    for _ in 0..180 {
        points.push((random.unit(), random.unit()));
    }
    for _ in 0..90 {
        points.push((random.float(), random.float()));
    }
    for _ in 0..60 {
        // Sizes that are near to each other.
        let y = random.unit();
        let z = f64::from_bits(y.to_bits() + random.next() % 4);
        points.push(if random.next() % 2 == 0 { (y, -z) } else { (z, y) });
    }
    for (y, z) in points {
        println!("{} {} {}", word(y), word(z), word(arctangent(y, z)));
    }

    for r in angles(&named) {
        let (sine, cosine) = sine_cosine(r);
        println!("{}:{} {}", word(r), word(sine), word(cosine));
    }
}

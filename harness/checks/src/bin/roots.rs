//! The root against the machine's own, arctangent, sine and cosine against their rules in plain Rust, and the root's time.
//! `roots [FACTOR]` multiplies the number of inputs.
use cases::catalogue::{angle, beside};
use cases::Seeded;
use model::arithmetic::{arctangent, bits, sin_cos, P};
use std::{hint::black_box, process::exit, time::Instant};

#[derive(Default)]
struct Tally {
    compared: u64,
    differ: u64,
    /// The largest distance to the C library's answer; of sine and cosine within a turn.
    gap: f64,
}

impl Tally {
    fn root(&mut self, x: f64) {
        self.compared += 1;
        let (ours, machine) = (wilfnusk::sqrt(x), x.sqrt());
        if bits(ours) != bits(machine) {
            self.say(format!("root of {:016x}: {:016x}, the machine's {:016x}", x.to_bits(), bits(ours), bits(machine)));
        }
    }
    /// The root of x and of its two neighbours.
    fn around(&mut self, x: f64) {
        for step in [-1, 0, 1] {
            self.root(f64::from_bits(x.to_bits().wrapping_add_signed(step)));
        }
    }
    fn angle(&mut self, y: f64, z: f64) {
        self.compared += 1;
        let (ours, rule) = (wilfnusk::atan2(y, z), arctangent(y, z));
        self.gap = self.gap.max((ours - y.atan2(z)).abs());
        if bits(ours) != bits(rule) {
            self.say(format!(
                "arctangent of {:016x} {:016x}: {:016x}, by the rule {:016x}",
                y.to_bits(),
                z.to_bits(),
                bits(ours),
                bits(rule)
            ));
        }
    }
    /// Sine and cosine.
    fn turn(&mut self, r: f64) {
        self.compared += 1;
        let (ours, rule) = ((wilfnusk::sin(r), wilfnusk::cos(r)), sin_cos(r));
        if r.abs() <= 2.0 * P {
            self.gap = self.gap.max((ours.0 - r.sin()).abs()).max((ours.1 - r.cos()).abs());
        }
        let both = |(sine, cosine)| [bits(sine), bits(cosine)];
        if both(ours) != both(rule) {
            self.say(format!("sine and cosine of {:016x}: {:016x?}, by the rule {:016x?}", r.to_bits(), both(ours), both(rule)));
        }
    }
    fn say(&mut self, text: String) {
        self.differ += 1;
        if self.differ <= 10 {
            println!("DIFFERS {text}");
        }
    }
}

const SPECIAL: [u64; 22] = [
    0,
    1,
    2,
    3,
    0x000f_ffff_ffff_ffff,
    0x0010_0000_0000_0000,
    0x0010_0000_0000_0001,
    0x3fef_ffff_ffff_ffff,
    0x3ff0_0000_0000_0000,
    0x3ff0_0000_0000_0001,
    0x4000_0000_0000_0000,
    0x4010_0000_0000_0000,
    0x7fef_ffff_ffff_ffff,
    0x7ff0_0000_0000_0000,
    0x7ff0_0000_0000_0001,
    0x7ff8_0000_0000_0000,
    0x7fff_ffff_ffff_ffff,
    0x4009_21fb_5444_2d18,
    0x3d71_9799_812d_ea11,
    0x54b2_49ad_2594_c37d,
    0x3cb0_0000_0000_0000,
    0x4340_0000_0000_0000,
];

fn special(s: &mut Seeded) -> f64 {
    f64::from_bits(s.one_of(&SPECIAL) | s.below(2) << 63)
}

fn roots(s: &mut Seeded, factor: u64) -> Tally {
    let mut t = Tally::default();
    for b in SPECIAL {
        t.root(f64::from_bits(b));
        t.root(f64::from_bits(b | 1 << 63));
    }
    for _ in 0..2_000_000 * factor {
        t.root(f64::from_bits(s.bits()));
    }
    for _ in 0..1000 * factor {
        for exponent in 0..2047u64 {
            t.root(f64::from_bits(exponent << 52 | s.bits() >> 12));
        }
    }
    for _ in 0..2_000_000 * factor {
        let width = s.within(1, 52);
        t.root(f64::from_bits(s.bits() >> (64 - width)));
    }
    for _ in 0..700_000 * factor {
        // An exact square; one at the edge of rounding; one halfway between two roots; each scaled by a power of four.
        let even = 2.0f64.powi(2 * (s.below(500) as i32 - 250));
        let root = s.below(1 << 26) as f64 + 1.0;
        t.around(root * root * even);
        let root = f64::from_bits(0x3ff0_0000_0000_0000 | s.bits() >> 12);
        t.around(root * root * even);
        let half = (s.bits() >> 11 | 1 << 53) as u128 * 2 + 1;
        t.around((half * half) as f64 * even);
    }
    t
}

fn angles(s: &mut Seeded, factor: u64) -> Tally {
    let mut t = Tally::default();
    for y in SPECIAL {
        for z in SPECIAL {
            for signs in 0..4u64 {
                t.angle(f64::from_bits(y | signs << 63), f64::from_bits(z | signs >> 1 << 63));
            }
        }
    }
    for _ in 0..500_000 * factor {
        t.angle(f64::from_bits(s.bits()), f64::from_bits(s.bits()));
        let (y, z) = (s.between(-1.0, 1.0), s.between(-1.0, 1.0));
        t.angle(y, z);
        t.angle(special(s), z);
        let near = f64::from_bits(y.to_bits().wrapping_add(s.below(5)).wrapping_sub(2));
        t.angle(y, near);
    }
    t
}

fn turns(s: &mut Seeded, factor: u64) -> Tally {
    let mut t = Tally::default();
    for b in SPECIAL {
        t.turn(f64::from_bits(b));
        t.turn(f64::from_bits(b | 1 << 63));
    }
    // Where the rule changes its part, and where it would if it went on.
    for n in 0..=64 {
        for steps in -3..=3 {
            let r = beside(n as f64 * P / 4.0, steps);
            t.turn(r);
            t.turn(-r);
        }
    }
    for _ in 0..1000 * factor {
        for exponent in 0..2047u64 {
            t.turn(f64::from_bits(s.below(2) << 63 | exponent << 52 | s.bits() >> 12));
        }
    }
    for _ in 0..2_000_000 * factor {
        t.turn(angle(s));
    }
    t
}

/// Nanoseconds per call: of blocks of inputs, each timed once, the quickest tenth, so that other work on the machine does not count.
/// `wait`: each call waits for the result of the one before.
fn time(inputs: &[f64], wait: bool, f: impl Fn(f64) -> f64) -> f64 {
    let mask = black_box(if wait { 0 } else { 1 });
    let block = |xs: &[f64]| {
        let mut before = 0;
        let start = Instant::now();
        for &x in xs {
            let root = if wait { f(f64::from_bits(x.to_bits() ^ before & mask)) } else { f(black_box(x)) };
            before = black_box(root).to_bits();
        }
        start.elapsed().as_secs_f64() / xs.len() as f64 * 1e9
    };
    let mut blocks: Vec<f64> = inputs.chunks(4096).map(block).collect();
    blocks.sort_by(f64::total_cmp);
    blocks[blocks.len() / 10]
}

fn main() {
    let factor = std::env::args().nth(1).map_or(1, |a| a.parse().expect("a whole number"));
    let mut s = Seeded::new(1);
    let (r, a) = (roots(&mut s, factor), angles(&mut s, factor));
    let t = turns(&mut Seeded::new(2), factor);
    println!("roots: {} inputs, {} differ from the machine's", r.compared, r.differ);
    println!("arctangents: {} pairs, {} differ from the rule; at most {:e} from the C library's", a.compared, a.differ, a.gap);
    let within = "within a turn at most";
    println!("sines and cosines: {} angles, {} differ from the rule; {within} {:e} from the C library's", t.compared, t.differ, t.gap);
    let positive: Vec<f64> = (0..1 << 22).map(|_| f64::from_bits(s.below(0x7ff0_0000_0000_0000))).collect();
    for (kind, wait) in [("one by one", true), ("independent", false)] {
        let (ours, machine) = (time(&positive, wait, wilfnusk::sqrt), time(&positive, wait, f64::sqrt));
        println!("root of random positive doubles, {kind}: {ours:.1} ns, the machine's {machine:.1} ns, ratio {:.1}", ours / machine);
    }
    // The header says within 1e-15 of the true ones; the C library's are nearer to them than half of that.
    let near = t.gap < 5e-16;
    if r.differ + a.differ + t.differ > 0 || r.compared < 10_000_000 || !near {
        exit(1);
    }
}

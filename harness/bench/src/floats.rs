//! The root against the machine's, the arctangent against the same rule with the machine's root, sine and cosine against the same rule (all three
//! the plain model's), each called, not inlined, on 4,096 random operands. Chained: each call waits for the answer of the one before.
use crate::case::{side, Case, Limit, Side};
use cases::Seeded;
use model::arithmetic::{arctangent, sin_cos, P};
use std::hint::black_box;

const COUNT: usize = 4096;
/// A run goes over the operands so many times.
const PASSES: usize = 8;

#[inline(never)]
fn machine_root(x: f64) -> f64 {
    x.sqrt()
}

#[inline(never)]
fn machine_angle(y: f64, z: f64) -> f64 {
    arctangent(y, z)
}

#[inline(never)]
fn model_sine(r: f64) -> f64 {
    sin_cos(r).0
}

#[inline(never)]
fn model_cosine(r: f64) -> f64 {
    sin_cos(r).1
}

/// Every answer kept.
fn apart(operands: &[(f64, f64)], f: impl Fn(f64, f64) -> f64, out: &mut [f64]) {
    for _ in 0..PASSES {
        for ((y, z), out) in operands.iter().zip(&mut *out) {
            *out = f(*y, *z);
        }
        black_box(&mut *out);
    }
}

fn chained(operands: &[(f64, f64)], f: impl Fn(f64, f64) -> f64, out: &mut [f64]) {
    let mut last = 0.0;
    for _ in 0..PASSES {
        for ((y, z), out) in operands.iter().zip(&mut *out) {
            // `last * 0.0` adds nothing but the wait.
            last = f(*y + last * 0.0, *z);
            *out = last;
        }
    }
}

fn one(operands: &[(f64, f64)], chain: bool, f: impl Fn(f64, f64) -> f64 + 'static) -> Box<dyn Side> {
    let operands = operands.to_vec();
    side(
        vec![0.0; COUNT],
        move |out| if chain { chained(&operands, &f, out) } else { apart(&operands, &f, out) },
        |_| (COUNT * PASSES) as u64,
        |out| out.iter().flat_map(|x: &f64| x.to_le_bytes()).collect(),
    )
}

fn operands(mut one: impl FnMut(&mut Seeded) -> (f64, f64)) -> Vec<(f64, f64)> {
    let mut s = Seeded::new(2);
    (0..COUNT).map(|_| one(&mut s)).collect()
}

fn title(of: &str, chain: bool) -> String {
    format!("{of}{}", if chain { ", chained" } else { "" })
}

/// Positive numbers, every size alike.
pub fn root_case(name: &'static str, chain: bool, limit: Limit) -> Case {
    roots(name, title("root", chain), chain, limit, |s| s.below(0x7fe0_0000_0000_0000))
}

/// Subnormal numbers, every size alike: their roots are worked out digit by digit.
pub fn subnormal_case(name: &'static str, limit: Limit) -> Case {
    roots(name, "root of subnormal numbers".into(), false, limit, |s| {
        let top = 1 << s.below(52);
        top | s.below(top)
    })
}

fn roots(name: &'static str, title: String, chain: bool, limit: Limit, mut pattern: impl FnMut(&mut Seeded) -> u64) -> Case {
    let operands = operands(|s| (f64::from_bits(pattern(s)), 0.0));
    Case {
        name,
        title,
        unit: "call",
        limit,
        mask: false,
        port: one(&operands, chain, |x, _| wilfnusk::sqrt(x)),
        other: Some(one(&operands, chain, |x, _| machine_root(x))),
    }
}

pub fn angle_case(name: &'static str, chain: bool, limit: Limit) -> Case {
    let operands = operands(|s| (s.bits() as i64 as f64, s.bits() as i64 as f64));
    Case {
        name,
        title: title("arctangent", chain),
        unit: "call",
        limit,
        mask: false,
        port: one(&operands, chain, wilfnusk::atan2),
        other: Some(one(&operands, chain, machine_angle)),
    }
}

/// Angles within a turn either way.
pub fn turn_case(name: &'static str, limit: Limit) -> Case {
    let operands = operands(|s| (s.between(-2.0 * P, 2.0 * P), 0.0));
    let (port, other): (fn(f64) -> f64, fn(f64) -> f64) =
        if name == "sine" { (wilfnusk::sin, model_sine) } else { (wilfnusk::cos, model_cosine) };
    Case {
        name,
        title: name.into(),
        unit: "call",
        limit,
        mask: false,
        port: one(&operands, false, move |r, _| port(r)),
        other: Some(one(&operands, false, move |r, _| other(r))),
    }
}

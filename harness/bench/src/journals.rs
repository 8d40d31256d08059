//! Beginning a journal; and reading a whole one, of 1,024 targets and times, 16,384 lines, 540,779 bytes.
use crate::case::{side, Case, Limit, Side};
use crate::inputs;
use crate::sweeps::{empty_journal, sweep};
use cases::Seeded;
use checks::lent;
use model::Plan;
use std::rc::Rc;
use wilfnusk::{HEADER_BYTES, LINE_BYTES};

/// 1 roll is enough to have a right journal; a tolerance of 90 marks half of the cells.
const N: u64 = 1;

fn whole() -> (Rc<Plan>, Vec<u8>) {
    let plan = inputs::plan(1024, 1024, N, 90.0);
    let mut journal = empty_journal(&plan);
    sweep(&plan, &mut journal);
    (Rc::new(plan), journal)
}

fn shuffled(journal: &[u8]) -> Vec<u8> {
    let (header, lines) = journal.split_at(HEADER_BYTES as usize);
    let mut lines: Vec<&[u8]> = lines.chunks(LINE_BYTES as usize).collect();
    let mut s = Seeded::new(3);
    for k in (1..lines.len()).rev() {
        lines.swap(k, s.index(k + 1));
    }
    [header, &lines.concat()].concat()
}

/// `begin` of the most targets, at one time: what a call takes to look at a plan. A unit is a target.
pub fn begin_case(name: &'static str, limit: Limit) -> Case {
    const TARGETS: usize = 65_536;
    let plan = inputs::plan(TARGETS, 1, N, 90.0);
    let run = move |journal: &mut Vec<u8>| assert_eq!(lent(&plan).begin(N, journal, 0), Ok(HEADER_BYTES));
    Case {
        name,
        title: "begin of 65,536 targets".to_string(),
        unit: "target",
        limit,
        mask: false,
        port: side(vec![0; HEADER_BYTES as usize], run, |_| TARGETS as u64, |journal| journal.clone()),
        other: None,
    }
}

/// `recover` looks at the whole journal and writes nothing. A unit is a byte.
pub fn right_check_case(name: &'static str, in_order: bool, limit: Limit) -> Case {
    let (plan, journal) = whole();
    let journal = if in_order { journal } else { shuffled(&journal) };
    let used = journal.len() as u64;
    Case {
        name,
        title: format!("right-check of 16,384 lines{}", if in_order { "" } else { ", in random order" }),
        unit: "byte",
        limit,
        mask: false,
        port: side(0, move |kept| *kept = lent(&plan).recover(N, &journal, used).unwrap(), |&kept| kept, |_| vec![]),
        other: None,
    }
}

/// Each cell's byte from its bit of the chunk's word, one store per byte.
#[inline(never)]
fn write_bytes(words: &[u64], mask: &mut [u8]) {
    for (word, bytes) in words.iter().zip(mask.chunks_exact_mut(64)) {
        for (k, byte) in bytes.iter_mut().enumerate() {
            // Volatile: the compiler may not join stores.
            unsafe { std::ptr::write_volatile(byte, (word >> k & 1) as u8) };
        }
    }
}

/// The same, and the compiler may do it by vectors.
#[inline(never)]
fn write_vectors(words: &[u64], mask: &mut [u8]) {
    for (word, bytes) in words.iter().zip(mask.chunks_exact_mut(64)) {
        for (k, byte) in bytes.iter_mut().enumerate() {
            *byte = (word >> k & 1) as u8;
        }
    }
}

/// `collect`, against writing the mask that it gives from its words.
pub fn collect_case(name: &'static str, vectors: bool, limit: Limit) -> Case {
    let (plan, journal) = whole();
    let cells = plan.cells();
    let digits = |line: &[u8]| u64::from_str_radix(std::str::from_utf8(&line[8..24]).unwrap(), 16).unwrap();
    let words: Vec<u64> = journal[HEADER_BYTES as usize..].chunks(LINE_BYTES as usize).map(digits).collect();
    let mask =
        |run: Box<dyn FnMut(&mut Vec<u8>)>| -> Box<dyn Side> { side(vec![0; cells], run, move |_| cells as u64, |mask| mask.clone()) };
    let write = if vectors { write_vectors } else { write_bytes };
    Case {
        name,
        title: format!("collect, against writing its mask{}", if vectors { " by vectors" } else { " byte by byte" }),
        unit: "cell",
        limit,
        mask: true,
        port: mask(Box::new(move |mask| {
            lent(&plan).collect(N, &journal, journal.len() as u64, mask).unwrap();
        })),
        other: Some(mask(Box::new(move |mask| write(&words, mask)))),
    }
}

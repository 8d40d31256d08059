//! Section 4's ledger: fed names, numbers and lengths, never the bytes of J.
use crate::journal::{Sweep, HEADER, LINE};
use crate::{first, Answer};

#[derive(Clone, Copy, Debug)]
pub enum Entry {
    /// `lent`: the length of the journal's buffer.
    Begin {
        lent: usize,
    },
    Work {
        chunk: u64,
        lent: usize,
    },
    /// Works of from, from + 1, .., up to `to` or the first that is refused: one write.
    WorkRange {
        from: u64,
        to: u64,
        lent: usize,
    },
    /// Only directly after an accepted begin, work or range, and k at most what it wrote.
    Cut {
        k: usize,
    },
    Recover,
    /// `lent`: the length of the mask.
    Collect {
        lent: usize,
    },
}

#[derive(Clone, Copy, PartialEq)]
enum Written {
    Nothing,
    Header,
    /// The last lines, so many of them.
    Lines(usize),
}

pub struct Ledger<'a> {
    sweep: &'a Sweep,
    mark: bool,
    list: Vec<usize>,
    remnant: Vec<u8>,
    /// What the entry before wrote.
    written: Written,
}

/// What an entry answers: only that it is accepted, the chunk at which a range stopped, or collect's mask and sum.
#[derive(Debug, PartialEq)]
pub enum Said<'a> {
    Done,
    Stopped(u64),
    Collected(&'a [u8], u64),
}

impl<'a> Ledger<'a> {
    pub fn new(sweep: &'a Sweep) -> Ledger<'a> {
        Ledger { sweep, mark: false, list: Vec::new(), remnant: Vec::new(), written: Written::Nothing }
    }
    /// J: the header if the mark is on, then the lines of L in order, then the remnant.
    pub fn journal(&self) -> Vec<u8> {
        let mut j = if self.mark { self.sweep.header.clone() } else { Vec::new() };
        for &c in &self.list {
            j.extend(&self.sweep.lines[c]);
        }
        j.extend(&self.remnant);
        j
    }
    pub fn length(&self) -> usize {
        self.mark as usize * HEADER + self.list.len() * LINE + self.remnant.len()
    }
    /// How many bytes the entry before wrote; 0 where a cut may not come next.
    pub fn cuttable(&self) -> usize {
        match self.written {
            Written::Nothing => 0,
            Written::Header => HEADER,
            Written::Lines(n) => n * LINE,
        }
    }
    fn unready(&self) -> (bool, u8) {
        (!self.mark || !self.remnant.is_empty(), 12)
    }
    pub fn enter(&mut self, entry: Entry) -> Answer<Said<'a>> {
        let written = std::mem::replace(&mut self.written, Written::Nothing);
        let sweep = self.sweep;
        match entry {
            Entry::Begin { lent } => {
                first(&[(self.length() != 0, 13), (lent < HEADER, 7)])?;
                self.mark = true;
                self.written = Written::Header;
            }
            Entry::Work { chunk, lent } => {
                first(&[
                    (chunk >= sweep.chunks() as u64, 9),
                    self.unready(),
                    (self.list.iter().any(|&c| c as u64 == chunk), 10),
                    (lent < self.length() + LINE, 7),
                ])?;
                self.list.push(chunk as usize);
                self.written = Written::Lines(1);
            }
            Entry::WorkRange { from, to, lent } => {
                first(&[(from >= to, 9)])?;
                self.enter(Entry::Work { chunk: from, lent })?;
                let mut chunk = from + 1;
                while chunk < to && self.enter(Entry::Work { chunk, lent }).is_ok() {
                    chunk += 1;
                }
                self.written = Written::Lines((chunk - from) as usize);
                return Ok(Said::Stopped(chunk));
            }
            Entry::Cut { k } => {
                if written == Written::Header && k < HEADER {
                    self.mark = false;
                    self.remnant = sweep.header[..k].to_vec();
                }
                if let Written::Lines(n) = written {
                    let lost = self.list.split_off(self.list.len() - n + (k / LINE).min(n));
                    self.remnant = lost.first().map_or(Vec::new(), |&chunk| sweep.lines[chunk][..k % LINE].to_vec());
                }
            }
            Entry::Recover => self.remnant.clear(),
            Entry::Collect { lent } => {
                let lacking = (0..sweep.chunks()).any(|c| !self.list.contains(&c));
                first(&[self.unready(), (lacking, 15), (lent < sweep.mask.len(), 7)])?;
                return Ok(Said::Collected(&sweep.mask, sweep.probes));
            }
        }
        Ok(Said::Done)
    }
}

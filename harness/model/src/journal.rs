//! Section 4's bytes: header, lines, when a journal is right, and the calls on any bytes.
use crate::arithmetic::bits;
use crate::plan::Third;
use crate::{first, Answer, Plan};

pub const HEADER: usize = 107;
pub const LINE: usize = 33;

/// A plan, and section 3's marks and probes of it, worked out once.
pub struct Sweep {
    pub plan: Plan,
    pub header: Vec<u8>,
    /// The line of each chunk.
    pub lines: Vec<Vec<u8>>,
    pub mask: Vec<u8>,
    pub probes: u64,
}

/// What a line holds.
struct Line {
    chunk: u64,
    mask: u64,
    probes: u64,
}

fn number(digits: &[u8]) -> Option<u64> {
    let mut n = 0;
    for d in digits {
        let value = match d {
            b'0'..=b'9' => d - b'0',
            b'a'..=b'f' => d - b'a' + 10,
            _ => return None,
        };
        n = n << 4 | value as u64;
    }
    Some(n)
}

fn line(bytes: &[u8]) -> Option<Line> {
    if bytes.len() != LINE || bytes[32] != b'\n' {
        return None;
    }
    Some(Line { chunk: number(&bytes[..8])?, mask: number(&bytes[8..24])?, probes: number(&bytes[24..32])? })
}

impl Sweep {
    pub fn new(plan: Plan) -> Answer<Sweep> {
        plan.refusal(Third::Sweep, false)?;
        let cells = plan.sweep();
        let mut header = format!("{:08x}{:08x}{:08x}{:016x}", plan.rows(), plan.times(), plan.n(), bits(plan.head_tolerance()));
        header += &match plan.roll_deg {
            Some(roll) => format!("01{:016x}", bits(roll)),
            None => format!("00{:016x}", 0),
        };
        for x in plan.head_panel() {
            header += &format!("{:016x}", bits(x));
        }
        header.push('\n');
        assert_eq!(header.len(), HEADER);
        let lines = cells.chunks(64).enumerate().map(|(c, cells)| {
            let mask = cells.iter().enumerate().map(|(k, cell)| (cell.0 as u64) << k).sum::<u64>();
            let probes = cells.iter().map(|cell| cell.1).sum::<u64>();
            format!("{c:08x}{mask:016x}{probes:08x}\n").into_bytes()
        });
        Ok(Sweep {
            lines: lines.collect(),
            mask: cells.iter().map(|cell| cell.0 as u8).collect(),
            probes: cells.iter().map(|cell| cell.1).sum(),
            header: header.into_bytes(),
            plan,
        })
    }
    pub fn chunks(&self) -> usize {
        self.lines.len()
    }
    fn cells_of(&self, chunk: u64) -> u64 {
        (self.mask.len() as u64 - 64 * chunk).min(64)
    }
    fn whole_lines<'a>(&self, j: &'a [u8]) -> impl Iterator<Item = &'a [u8]> {
        j.get(HEADER..).unwrap_or(&[]).chunks_exact(LINE)
    }
    fn right_line(&self, l: &Line) -> bool {
        if l.chunk >= self.chunks() as u64 {
            return false;
        }
        let cells = self.cells_of(l.chunk);
        let marked = l.mask.count_ones() as u64;
        let spare = cells < 64 && l.mask >> cells != 0;
        let n = self.plan.n();
        !spare && cells - marked + n * marked <= l.probes && l.probes <= n * cells
    }
    /// When the used bytes j are right.
    pub fn right(&self, j: &[u8]) -> bool {
        if j.len() < HEADER {
            return self.header.starts_with(j);
        }
        let mut seen = vec![false; self.chunks()];
        j.starts_with(&self.header)
            && self.whole_lines(j).all(|bytes| match line(bytes) {
                Some(l) if self.right_line(&l) => !std::mem::replace(&mut seen[l.chunk as usize], true),
                _ => false,
            })
    }
    /// Header complete and no tail.
    fn whole(&self, j: &[u8]) -> bool {
        j.len() >= HEADER && (j.len() - HEADER) % LINE == 0
    }
    fn has_line(&self, j: &[u8], chunk: u64) -> bool {
        self.whole_lines(j).any(|bytes| line(bytes).map_or(false, |l| l.chunk == chunk))
    }

    // The calls on a buffer of which the first `used` bytes are J. Each gives what it adds or keeps, never the whole buffer.

    /// The bytes to write from the used length on.
    pub fn begin(&self, lent: usize, used: u64) -> Answer<&[u8]> {
        first(&[(used > lent as u64, 1), (used != 0, 13), (lent < HEADER, 7)])?;
        Ok(&self.header)
    }
    /// The bytes to write from the used length on.
    pub fn work(&self, chunk: u64, buffer: &[u8], used: u64) -> Answer<&[u8]> {
        first(&[(used > buffer.len() as u64, 1), (chunk >= self.chunks() as u64, 9)])?;
        let j = &buffer[..used as usize];
        first(&[(!self.right(j), 11), (!self.whole(j), 12)])?;
        first(&[(self.has_line(j, chunk), 10), (buffer.len() < j.len() + LINE, 7)])?;
        Ok(&self.lines[chunk as usize])
    }
    /// Work of from, from + 1, .., each on what the one before left: the bytes to write from the used length on, and the chunk at which it stopped.
    pub fn work_range(&self, from: u64, to: u64, buffer: &[u8], used: u64) -> Answer<(Vec<u8>, u64)> {
        first(&[(used > buffer.len() as u64, 1), (from >= to, 9)])?;
        self.work(from, buffer, used)?;
        let (mut buffer, mut after, mut chunk) = (buffer.to_vec(), used as usize, from);
        while chunk < to {
            let Ok(line) = self.work(chunk, &buffer, after as u64) else { break };
            buffer[after..][..LINE].copy_from_slice(line);
            after += LINE;
            chunk += 1;
        }
        Ok((buffer[used as usize..after].to_vec(), chunk))
    }
    /// The used length after it.
    pub fn recover(&self, buffer: &[u8], used: u64) -> Answer<u64> {
        first(&[(used > buffer.len() as u64, 1)])?;
        let j = &buffer[..used as usize];
        first(&[(!self.right(j), 11)])?;
        Ok(if j.len() < HEADER { 0 } else { used - (used - HEADER as u64) % LINE as u64 })
    }
    /// The mask that the lines hold, and the sum of their probes.
    pub fn collect(&self, buffer: &[u8], used: u64, lent: usize) -> Answer<(Vec<u8>, u64)> {
        first(&[(used > buffer.len() as u64, 1)])?;
        let j = &buffer[..used as usize];
        first(&[(!self.right(j), 11), (!self.whole(j), 12)])?;
        let lacking = (0..self.chunks() as u64).any(|c| !self.has_line(j, c));
        first(&[(lacking, 15), (lent < self.mask.len(), 7)])?;
        let mut mask = vec![0; self.mask.len()];
        let mut sum = 0;
        for l in self.whole_lines(j).map(|bytes| line(bytes).unwrap()) {
            sum += l.probes;
            for k in 0..self.cells_of(l.chunk) {
                mask[(64 * l.chunk + k) as usize] = (l.mask >> k & 1) as u8;
            }
        }
        Ok((mask, sum))
    }
}

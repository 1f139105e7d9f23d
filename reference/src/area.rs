//! Which bytes of a group's data area are taken by values.
//!
//! "Scratch" is document 01's word for the room lent for this. The usual
//! message has its values packed one after the other, and for it a single
//! position is enough. Only a value that leaves a gap is marked in the
//! scratch, with the level of its group: a nested group's bytes are taken as
//! a whole by the level above, and its own values mark the same bytes with
//! the next level. So nothing has to be cleared between groups.

use crate::wire::first_nonzero;

/// One mark for each byte of the message, cleared when first used.
pub(crate) struct Marks<'s> {
    marks: &'s mut [u8],
    cleared: bool,
}

impl<'s> Marks<'s> {
    pub fn new(scratch: &'s mut [u8]) -> Marks<'s> {
        Marks { marks: scratch, cleared: false }
    }

    fn fill(&mut self, from: usize, to: usize, level: u8) {
        if !self.cleared {
            self.marks.fill(0);
            self.cleared = true;
        }
        self.marks[from..to].fill(level);
    }
}

/// The data area of one dynamic group, in positions of the message.
pub(crate) struct Area {
    pub start: usize,
    pub end: usize,
    level: u8,
    /// All bytes from `start` to here are taken.
    packed: usize,
    /// Whether a value beyond `packed` was marked.
    scattered: bool,
}

impl Area {
    pub fn new(start: usize, end: usize, level: u8) -> Area {
        Area { start, end, level, packed: start, scattered: false }
    }

    /// Takes the bytes `from..to` of the area for a value. False if one of
    /// them was taken before.
    #[inline]
    pub fn take(&mut self, marks: &mut Marks, from: usize, to: usize) -> bool {
        if from < self.packed {
            return false;
        }
        if self.scattered && highest(&marks.marks[from..to]) >= self.level {
            return false;
        }
        if from == self.packed {
            self.packed = to;
        } else {
            marks.fill(from, to, self.level);
            self.scattered = true;
        }
        true
    }

    /// The first byte that belongs to no value and is not zero.
    #[inline]
    pub fn first_bad_pad(&self, marks: &Marks, message: &[u8]) -> Option<usize> {
        let rest = &message[self.packed..self.end];
        let at = if self.scattered {
            first_unmarked(rest, &marks.marks[self.packed..self.end], self.level)?
        } else {
            first_nonzero(rest)?
        };
        Some(self.packed + at)
    }
}

/// The highest mark. No early exit: that makes it vector code.
fn highest(marks: &[u8]) -> u8 {
    marks.iter().fold(0, |highest, &mark| highest.max(mark))
}

/// The index of the first byte that is not zero and whose mark is lower than
/// `level`.
fn first_unmarked(bytes: &[u8], marks: &[u8], level: u8) -> Option<usize> {
    const CHUNK: usize = 32;
    let bad = |(&byte, &mark): (&u8, &u8)| (byte != 0) & (mark < level);
    let (byte_chunks, _) = bytes.as_chunks::<CHUNK>();
    let (mark_chunks, _) = marks.as_chunks::<CHUNK>();
    // Within a chunk there is no early exit either.
    let good = byte_chunks
        .iter()
        .zip(mark_chunks)
        .take_while(|(bytes, marks)| !bytes.iter().zip(*marks).map(bad).fold(false, |a, b| a | b))
        .count()
        * CHUNK;
    let rest = bytes[good..].iter().zip(&marks[good..]).position(bad)?;
    Some(good + rest)
}

#[cfg(all(test, feature = "generate"))]
mod tests {
    use super::*;
    use crate::generate::Random;

    /// Against a plain map of taken bytes, in an area of a level above 1 that
    /// the levels above it have marked or not.
    #[test]
    fn takes_as_a_plain_map_does() {
        let mut random = Random::new(7);
        for _ in 0..3_000 {
            let end = 1 + random.below(120);
            let start = random.below(end);
            let mut scratch = vec![random.number() as u8; end];
            let mut marks = Marks::new(&mut scratch);
            if random.one_in(2) {
                marks.fill(start, end, 2);
            }
            let mut area = Area::new(start, end, 3);
            let mut taken = vec![false; end];
            for _ in 0..random.below(12) {
                let from = start + random.below(end - start);
                let to = (from + 1 + random.below(20)).min(end);
                // Half of the values follow the packed ones.
                let packed = taken[start..].iter().position(|&taken| !taken);
                let from = match packed {
                    Some(packed) if random.one_in(2) && start + packed < to => start + packed,
                    _ => from,
                };
                let free = taken[from..to].iter().all(|&taken| !taken);
                assert_eq!(area.take(&mut marks, from, to), free);
                if !free {
                    break;
                }
                taken[from..to].fill(true);
            }
            let message: Vec<u8> = (0..end).map(|at| u8::from(taken[at] || random.one_in(40))).collect();
            let bad = (start..end).find(|&at| !taken[at] && message[at] != 0);
            assert_eq!(area.first_bad_pad(&marks, &message), bad);
        }
    }
}

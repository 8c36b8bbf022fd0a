//! The input: records are split off where they were read.

use crate::arena::chunk;
use crate::names::two_at;
use std::fs::File;
use std::io::{self, ErrorKind, Read};
use std::mem;

/// The most bytes that one read takes.
const PIECE: usize = 4_096;

/// The length of a record's head, and of the longest body.
pub const HEAD: usize = 4;
const LONGEST_BODY: u16 = 32_832;

/// The input, of which what wasn't played yet is at the front of the chunk, and room for more after it.
pub struct Input {
    source: File,
    chunk: &'static mut [u8],
    filled: usize,
    /// How many bytes the records had that were taken.
    pub taken: u32,
}

/// What is at the front of the input.
pub enum Front {
    /// A record of so many bytes.
    Record(usize),
    /// The beginning of a record, or nothing.
    Short,
    /// No record, whatever comes.
    Bad,
}

/// The fewest and the most bytes of the body of a kind, by the kind.
static LENGTHS: [(u16, u16); 256] = lengths();

const fn lengths() -> [(u16, u16); 256] {
    let mut lengths = [(1, 0); 256];
    let mut kind = 0;
    while kind < 256 {
        lengths[kind] = match kind {
            0x01 => (0, LONGEST_BODY),
            0x02 => (64, LONGEST_BODY),
            0x03 => (6, 6),
            0x04 => (1, 1),
            0x10 | 0x30 => (20, 20),
            0x11 => (23, 23),
            0x12 | 0x1F => (40, 40),
            0x13 | 0x16..=0x19 | 0x1B | 0x1D | 0x1E | 0x32 | 0x33 => (2, 2),
            0x14 | 0x31 => (2, LONGEST_BODY),
            0x15 => (66, 66),
            0x1A => (6, LONGEST_BODY),
            0x1C | 0x20 => (10, 10),
            0x21 => (0, 0),
            _ => (1, 0),
        };
        kind += 1;
    }
    lengths
}

/// Whether a record of this kind can come from this actor.
fn is_sender(kind: u8, actor: u8) -> bool {
    (kind < 0x10) == (actor == 0) && actor <= 16
}

impl Input {
    pub fn new(source: File) -> Input {
        Input {
            source,
            chunk: chunk(),
            filled: 0,
            taken: 0,
        }
    }

    /// What was read and not yet played.
    pub fn unplayed(&self) -> &[u8] {
        &self.chunk[..self.filled]
    }

    /// What is at the front. Of a record only its head and its length are looked at.
    #[inline(always)]
    pub fn front(&self) -> Front {
        let Some(head) = self.unplayed().first_chunk::<HEAD>() else {
            return Front::Short;
        };
        let (least, most) = LENGTHS[usize::from(head[0])];
        let length = two_at(head, 2);
        if length < least || most < length || !is_sender(head[0], head[1]) {
            Front::Bad
        } else if self.filled < HEAD + usize::from(length) {
            Front::Short
        } else {
            Front::Record(HEAD + usize::from(length))
        }
    }

    /// Takes a record of so many bytes from the front.
    #[inline(always)]
    pub fn take(&mut self, length: usize) -> &'static [u8] {
        let (record, rest) = mem::take(&mut self.chunk).split_at_mut(length);
        self.chunk = rest;
        self.filled -= length;
        self.taken += length as u32;
        record
    }

    /// Reads a piece after what wasn't played, and gives how many bytes came.
    pub fn read_more(&mut self) -> io::Result<usize> {
        if self.chunk.len() < self.filled + PIECE {
            let next = chunk();
            next[..self.filled].copy_from_slice(self.unplayed());
            self.chunk = next;
        }
        loop {
            match self.source.read(&mut self.chunk[self.filled..][..PIECE]) {
                Err(error) if error.kind() == ErrorKind::Interrupted => {}
                Err(error) => return Err(error),
                Ok(count) => {
                    self.filled += count;
                    return Ok(count);
                }
            }
        }
    }
}

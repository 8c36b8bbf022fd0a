//! Memory that is kept to the end of the program.

use std::mem;

/// How many bytes are asked of the system at once. No piece is longer.
const CHUNK: usize = 1 << 20;

/// Memory from whose front pieces are taken. None is given back: they are the history.
pub struct Arena {
    free: &'static mut [u8],
}

impl Arena {
    pub fn new() -> Arena {
        Arena { free: chunk() }
    }

    /// A piece of so many bytes, which are zeros.
    #[inline(always)]
    pub fn take(&mut self, size: usize) -> &'static mut [u8] {
        if self.free.len() < size {
            self.free = chunk();
        }
        let (piece, rest) = mem::take(&mut self.free).split_at_mut(size);
        self.free = rest;
        piece
    }
}

/// New memory, whose pages the system gives when they are used.
#[cold]
pub fn chunk() -> &'static mut [u8] {
    Box::leak(vec![0; CHUNK].into_boxed_slice())
}

//! Writes of several pieces by one call of the system.

use std::fs::File;
use std::io::{self, ErrorKind, IoSlice, Write};
use std::os::fd::AsRawFd;
use std::os::unix::fs::FileExt;

extern "C" {
    /// The C library's call. An `IoSlice` is laid out as its `struct iovec`.
    fn pwritev(file: i32, pieces: *const IoSlice, count: i32, place: i64) -> isize;
}

/// Writes all pieces, one after the other.
pub fn write(file: &mut File, pieces: [&[u8]; 3]) -> io::Result<()> {
    let written = match file.write_vectored(&pieces.map(IoSlice::new)) {
        Err(error) if error.kind() == ErrorKind::Interrupted => 0,
        other => other?,
    };
    if written < pieces.iter().map(|piece| piece.len()).sum() {
        return file.write_all(&pieces.concat()[written..]);
    }
    Ok(())
}

/// Writes both pieces at a place of a file, one after the other.
pub fn write_at(file: &File, pieces: [&[u8]; 2], place: u64) -> io::Result<()> {
    let slices = pieces.map(IoSlice::new);
    // SAFETY: both slices are there for the whole call, which only reads them.
    let written = unsafe { pwritev(file.as_raw_fd(), slices.as_ptr(), 2, place as i64) };
    let written = usize::try_from(written).unwrap_or(0);
    if written < pieces[0].len() + pieces[1].len() {
        return file.write_all_at(&pieces.concat()[written..], place + written as u64);
    }
    Ok(())
}

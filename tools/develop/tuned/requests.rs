//! What requests have in them: names, and the packets of commands.

use crate::names::{two_at, Name};
use crate::status::Status;

/// Why a request is refused: a status with its detail.
pub type Refusal = (Status, u32);

/// A record has a name with more than zeros after it, or another value that it can't have.
pub struct BadRecord;

/// Refuses a record whose field has more than zeros after the name.
#[cold]
pub fn check_padding<const N: usize>(field: &[u8; N]) -> Result<(), BadRecord> {
    match Name::<N>::read_padded(field) {
        Some(_) => Ok(()),
        None => Err(BadRecord),
    }
}

/// The field of a name in a command, with zeros after it. The number says which name of the command it is.
#[cold]
pub fn command_name<const N: usize>(field: &[u8; N], number: u32) -> Result<[u8; N], Refusal> {
    let name = Name::<N>::read(field);
    if name.is_name() {
        Ok(*name.field())
    } else {
        Err((Status::BadName, number))
    }
}

/// The number by which the request for housekeeping, which has no function code, is among the commands.
pub const HOUSEKEEPING: u8 = 10;

/// The number of bytes of a payload, by the function code.
const PAYLOADS: [usize; 10] = [0, 0, 64, 106, 42, 40, 64, 40, 40, 40];

/// Whether all bytes of a packet together have the check byte's sum.
#[inline(always)]
fn is_summed(head: &[u8; 8], payload: &[u8]) -> bool {
    let (words, rest) = payload.as_chunks();
    let mut sum = u64::from_le_bytes(*head);
    for word in words {
        sum ^= u64::from_le_bytes(*word);
    }
    sum ^= sum >> 32;
    sum ^= sum >> 16;
    sum ^= sum >> 8;
    rest.iter().fold(sum as u8, |sum, byte| sum ^ byte) == 0xFF
}

/// Reads the packet of a command: its function code, and its payload, which has the length of the code.
#[inline(always)]
pub fn read_packet(packet: &[u8]) -> Result<(u8, &[u8]), Refusal> {
    let Some((head, payload)) = packet.split_first_chunk::<8>() else {
        return Err((Status::BadPacket, 1));
    };
    if usize::from(two_at(head, 4)) + 7 != packet.len() {
        return Err((Status::BadPacket, 2));
    }
    if !is_summed(head, payload) {
        return Err((Status::BadPacket, 3));
    }
    let code = head[6] & 0x7F;
    let (code, length) = match two_at(head, 0) {
        0x1804 => match PAYLOADS.get(usize::from(code)) {
            Some(length) => (code, *length),
            None => return Err((Status::BadCode, u32::from(code))),
        },
        0x180C => (HOUSEKEEPING, 0),
        id => return Err((Status::BadMessageId, u32::from(id))),
    };
    if payload.len() != length {
        return Err((Status::BadLength, payload.len() as u32));
    }
    Ok((code, payload))
}

//! The check word of images, CRC-16/ARC: what is left of an image by the polynomial x^16 + x^15 + x^2 + 1.
//!
//! Its power of 128 is x^2048 + x^1920 + x^256 + 1, since over two elements the square of a sum is the sum of the squares. So a
//! block of 128 bits can be added to the blocks 1, 14 and 16 places after it instead, and what is left of the image is the same.
//! Done from the front, that leaves the last 16 blocks, whose check word is made by the tables of the plain program.

use crate::table_check_word;

/// How many words a block has, and how many the last 16 blocks.
const BLOCK: usize = 2;
const LEFT: usize = 16 * BLOCK;

/// How many bytes the last 16 blocks have.
const LEFT_BYTES: usize = LEFT * size_of::<u64>();

type Bytes = [[u8; size_of::<u64>()]; LEFT];

/// The last 16 blocks, and room for those after them.
type Words = [u64; 2 * LEFT];

/// What the words before a place add to the word there.
fn added(words: &Words, place: usize) -> u64 {
    words[place] ^ words[place + 2 * BLOCK] ^ words[place + 15 * BLOCK]
}

/// Puts the next 16 blocks of an image, with what is added to them, in the place of those before.
fn fold(words: &mut Words, next: &Bytes) {
    for place in (0..LEFT).step_by(BLOCK) {
        let block = [place, place + 1].map(|it| u64::from_le_bytes(next[it]) ^ added(words, it));
        words[place + LEFT..][..BLOCK].copy_from_slice(&block);
    }
    words.copy_within(LEFT.., 0);
}

/// The end of an image, with what the blocks before it add. The end itself adds nothing.
fn ended(words: &mut Words, end: &Bytes) -> Bytes {
    words[LEFT..].fill(0);
    std::array::from_fn(|it| (u64::from_le_bytes(end[it]) ^ added(words, it)).to_le_bytes())
}

/// The check word of an image. Zeros before an image don't change it.
pub fn check_word(image: &[u8]) -> u16 {
    let (first, rest) = image.split_at(image.len() % LEFT_BYTES);
    let (words, _) = rest.as_chunks();
    let (all, _): (&[Bytes], _) = words.as_chunks();
    let [between @ .., end] = all else {
        return table_check_word::check_word(image);
    };
    let mut front: Bytes = [[0; size_of::<u64>()]; LEFT];
    front.as_flattened_mut()[LEFT_BYTES - first.len()..].copy_from_slice(first);
    let mut words = [0; 2 * LEFT];
    fold(&mut words, &front);
    between.iter().for_each(|next| fold(&mut words, next));
    table_check_word::check_word(ended(&mut words, end).as_flattened())
}

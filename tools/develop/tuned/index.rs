//! Names that are known, each with its number, found by the bytes of their fields.

/// In the place of a number: there is none.
const NONE: u8 = u8::MAX;

/// Fewer than 128 names in fields of `N` bytes, a multiple of 8.
pub struct Index<const N: usize> {
    names: Vec<[u8; N]>,
    /// The number of a name at the place of its hash, or at the next one that was free.
    numbers: [u8; 256],
    /// The number that was found last.
    last: u8,
}

/// Where the number of a name is looked for.
fn hash(field: &[u8]) -> u8 {
    let (words, _) = field.as_chunks();
    let added = |sum: u64, word: &[u8; 8]| {
        (sum.rotate_left(5) ^ u64::from_le_bytes(*word)).wrapping_mul(0x517C_C1B7_2722_0A95)
    };
    (words.iter().fold(0, added) >> 56) as u8
}

impl<const N: usize> Index<N> {
    pub fn new() -> Index<N> {
        Index {
            names: Vec::new(),
            numbers: [NONE; 256],
            last: 0,
        }
    }

    /// The number of a name.
    #[inline(always)]
    pub fn find(&mut self, field: &[u8; N]) -> Option<u8> {
        if self.names.get(usize::from(self.last)) == Some(field) {
            return Some(self.last);
        }
        let mut place = hash(field);
        loop {
            let number = self.numbers[usize::from(place)];
            if self.names.get(usize::from(number))? == field {
                self.last = number;
                return Some(number);
            }
            place = place.wrapping_add(1);
        }
    }

    /// Adds a name that isn't known, with the next number.
    pub fn add(&mut self, field: &[u8; N]) {
        let mut place = hash(field);
        while self.numbers[usize::from(place)] != NONE {
            place = place.wrapping_add(1);
        }
        self.numbers[usize::from(place)] = self.names.len() as u8;
        self.names.push(*field);
    }
}

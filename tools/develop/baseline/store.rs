//! The file of the Critical Data Store: its boot, and the blocks of critical tables.

use crate::check_word::check_word;
use crate::names::{four_at, Name};
use std::fs::{File, OpenOptions};
use std::io;
use std::os::unix::fs::FileExt;

/// How many bytes the store has, and how many of them stand before the first places of blocks and up to their end.
const BANK: u64 = 262_144;
const PLACES_END: u64 = 131_072;
const DIRECTORY_END: usize = 8_208;

/// Where the directory begins, and how long an entry of it is.
const DIRECTORY: usize = 16;
const ENTRY: usize = 64;

/// How long the head of a place is, and how far the second place of a block is from the first.
const HEAD: usize = 8;
const BETWEEN_PLACES: u64 = 131_072;

/// Where in an entry its turn bytes stand, and their values for an open place. Any other is a closed one.
const TURNS: u64 = 52;
const TURN_BYTES: [u8; 3] = [0xA0, 0xA1, 0xA2];

/// The first byte of an entry whose block is open.
const OPEN: u8 = 0xA5;

/// The kind of a table's block.
const TABLE: u8 = 1;

/// An open block: where it begins, how many bytes its image has, its kind and its full name.
pub struct Block {
    offset: u32,
    size: u32,
    kind: u8,
    name: Name<40>,
}

impl Block {
    /// The block that an entry tells, where it tells one.
    fn read(entry: &[u8]) -> Option<Block> {
        let block = Block {
            offset: four_at(entry, 4),
            size: four_at(entry, 8),
            kind: entry[1],
            name: Name::read_padded(&entry[12..52])?,
        };
        let fits = (1..=2).contains(&block.kind)
            && (1..=16_384).contains(&block.size)
            && DIRECTORY_END as u32 <= block.offset
            && block.end() <= PLACES_END
            && block.name.is_name();
        fits.then_some(block)
    }

    /// Its entry after the gate.
    fn entry(&self) -> [u8; ENTRY - 1] {
        let mut entry = [0; ENTRY - 1];
        entry[0] = self.kind;
        entry[3..7].copy_from_slice(&self.offset.to_be_bytes());
        entry[7..11].copy_from_slice(&self.size.to_be_bytes());
        entry[11..51].copy_from_slice(self.name.field());
        entry
    }

    fn end(&self) -> u64 {
        u64::from(self.offset) + HEAD as u64 + u64::from(self.size)
    }

    /// Whether they have no byte in common.
    fn is_apart(&self, other: &Block) -> bool {
        self.end() <= u64::from(other.offset) || other.end() <= u64::from(self.offset)
    }

    /// Whether both can be there together.
    fn agrees(&self, other: &Block) -> bool {
        self.is_apart(other) && (self.kind != other.kind || self.name != other.name)
    }
}

/// The place of a slot's entry.
fn entry_place(slot: usize) -> u64 {
    (DIRECTORY + ENTRY * slot) as u64
}

/// Which place doesn't show by these turn bytes, and the turn with which it is opened.
fn hidden(turns: [u8; 2]) -> (u64, usize) {
    let after = |turn| (turn + 1) % 3;
    let [first, second] = turns.map(|byte| TURN_BYTES.iter().position(|it| *it == byte));
    let is_second = second.is_some() && (first.is_none() || second == first.map(after));
    let shown = if is_second { second } else { first };
    (
        u64::from(!is_second && first.is_some()),
        shown.map_or(0, after),
    )
}

/// Opens the store's file, and makes it as long as the store is.
pub fn open() -> io::Result<File> {
    let file = OpenOptions::new()
        .read(true)
        .write(true)
        .create(true)
        .truncate(false)
        .open("cds.store")?;
    let mut length = file.metadata()?.len();
    while length < BANK {
        let piece = (BANK - length).min(512);
        file.write_all_at(&[0; 512][..piece as usize], length)?;
        length += piece;
    }
    Ok(file)
}

/// Writes an empty directory, and then the byte that makes it count.
fn clear(file: &File, front: &[u8]) -> io::Result<()> {
    if front[0] == b'C' {
        file.write_all_at(&[0], 0)?;
    }
    file.write_all_at(b"DS2\0\0\0\0\0\0\0\0\0\0\0\0", 1)?;
    file.write_all_at(&[0; DIRECTORY_END - DIRECTORY], DIRECTORY as u64)?;
    file.write_all_at(b"C", 0)
}

/// A copy of an image into a block: the head before the image, the place of both, and the turn that makes it show.
pub struct BlockCopy {
    pub head: [u8; HEAD],
    pub place: u64,
    turn: u8,
    turn_place: u64,
}

/// The store after its boot: its file, and the open blocks by their slots.
pub struct Store {
    pub file: File,
    blocks: Vec<Option<Block>>,
}

impl Store {
    /// Reads the directory, and closes the entries that don't count. A store of version 1 isn't carried over.
    pub fn boot(file: File) -> io::Result<Store> {
        let mut front = [0; DIRECTORY_END];
        file.read_exact_at(&mut front, 0)?;
        let is_live = front.starts_with(b"CDS");
        if !is_live {
            clear(&file, &front)?;
        }
        let mut blocks: Vec<Option<Block>> = Vec::new();
        for (slot, entry) in front[DIRECTORY..].chunks_exact(ENTRY).enumerate() {
            let is_open = is_live && entry[0] == OPEN;
            let stated = if is_open { Block::read(entry) } else { None };
            let counted =
                stated.filter(|block| blocks.iter().flatten().all(|other| block.agrees(other)));
            if is_open && counted.is_none() {
                file.write_all_at(&[0], entry_place(slot))?;
            }
            blocks.push(counted);
        }
        Ok(Store { file, blocks })
    }

    /// Whether an open block of a table has this full name.
    pub fn has_table(&self, name: &Name<40>) -> bool {
        let mut blocks = self.blocks.iter().flatten();
        blocks.any(|block| block.kind == TABLE && block.name == *name)
    }

    /// A block for a table at the least place where it has no byte in common with another one, if there is such a place.
    fn placed(&self, name: &Name<40>, size: u32) -> Option<Block> {
        let ends = self.blocks.iter().flatten().map(Block::end);
        let mut places: Vec<u64> = ends.chain([DIRECTORY_END as u64]).collect();
        places.sort_unstable();
        let at = |place| Block {
            offset: place as u32,
            size,
            kind: TABLE,
            name: *name,
        };
        let fits = |block: &Block| {
            let mut others = self.blocks.iter().flatten();
            block.end() <= PLACES_END && others.all(|other| block.is_apart(other))
        };
        places.into_iter().map(at).find(fits)
    }

    /// Makes a block for a table, and gives its slot; none where there is no room.
    pub fn reserve_table(&mut self, name: &Name<40>, size: u32) -> io::Result<Option<usize>> {
        let free = self.blocks.iter().position(Option::is_none);
        let (Some(slot), Some(block)) = (free, self.placed(name, size)) else {
            return Ok(None);
        };
        let place = entry_place(slot);
        self.file.write_all_at(&block.entry(), place + 1)?;
        self.file.write_all_at(&[OPEN], place)?;
        self.blocks[slot] = Some(block);
        Ok(Some(slot))
    }

    /// Copies an image into the block of a slot.
    pub fn copy(&self, slot: usize, image: &[u8]) -> io::Result<()> {
        let copy = self.begin_copy(slot, check_word(image))?;
        let mut written = Vec::with_capacity(HEAD + image.len());
        written.extend(copy.head);
        written.extend(image);
        self.file.write_all_at(&written, copy.place)?;
        self.end_copy(&copy)
    }

    /// Reads which place of a slot's block doesn't show, into which the image of a check word is to be copied.
    pub fn begin_copy(&self, slot: usize, check: u16) -> io::Result<BlockCopy> {
        let block = self.blocks[slot].as_ref().expect("the block is open");
        let turns_place = entry_place(slot) + TURNS;
        let mut turns = [0; 2];
        self.file.read_exact_at(&mut turns, turns_place)?;
        let (hidden, turn) = hidden(turns);
        let mut head = [0; HEAD];
        head[..4].copy_from_slice(&block.size.to_be_bytes());
        head[4..6].copy_from_slice(&check.to_be_bytes());
        Ok(BlockCopy {
            head,
            place: u64::from(block.offset) + BETWEEN_PLACES * hidden,
            turn: TURN_BYTES[turn],
            turn_place: turns_place + hidden,
        })
    }

    /// Makes the place of a copy show, whose head and image were written there.
    pub fn end_copy(&self, copy: &BlockCopy) -> io::Result<()> {
        self.file.write_all_at(&[copy.turn], copy.turn_place)
    }
}

//! What housekeeping shows next to the state of tables.

use crate::drawer::FileName;
use crate::entries::{header, Clock, HOUSEKEEPING};
use crate::tables::{TableName, Tables};

/// Where the names begin in a housekeeping packet, and each name among them.
const NAMES: usize = 42;
const VALIDATED_TABLE: usize = 0;
const UPDATED_TABLE: usize = 40;
const LOADED_FILE: usize = 80;
const DUMPED_FILE: usize = 144;
const LOADED_TABLE: usize = 208;

pub struct Counters {
    pub accepted: u8,
    pub refused: u8,
    validated: u16,
    good: u8,
    validates: u8,
    housekeepings: u16,
    registries: u16,
    check: u16,
    is_active: bool,
    updated: Clock,
    /// The names as a packet has them.
    names: [u8; HOUSEKEEPING - NAMES],
}

impl Counters {
    pub fn new() -> Counters {
        Counters {
            accepted: 0,
            refused: 0,
            validated: 0,
            good: 0,
            validates: 0,
            housekeepings: 0,
            registries: 0,
            check: 0,
            is_active: false,
            updated: Clock::default(),
            names: [0; HOUSEKEEPING - NAMES],
        }
    }

    fn put_name(&mut self, place: usize, name: &[u8]) {
        self.names[place..][..name.len()].copy_from_slice(name);
    }

    /// An image of a table was validated at once by VALIDATE, with verdict 0.
    pub fn count_validation(&mut self, table: &TableName, check: u16, is_active: bool) {
        self.validated = self.validated.wrapping_add(1);
        self.good = self.good.wrapping_add(1);
        self.validates = self.validates.wrapping_add(1);
        self.check = check;
        self.is_active = is_active;
        self.put_name(VALIDATED_TABLE, table);
    }

    /// An image of a table went active.
    pub fn note_update(&mut self, table: &TableName, clock: Clock) {
        self.updated = clock;
        self.put_name(UPDATED_TABLE, table);
    }

    pub fn note_loaded_file(&mut self, file: &FileName) {
        self.put_name(LOADED_FILE, file);
    }

    pub fn note_dumped_file(&mut self, file: &FileName) {
        self.put_name(DUMPED_FILE, file);
    }

    pub fn note_loaded_table(&mut self, table: &TableName) {
        self.put_name(LOADED_TABLE, table);
    }

    /// The sequence count of the next registry packet, which is counted.
    pub fn next_registry(&mut self) -> u16 {
        let count = self.registries;
        self.registries = (count + 1) % 16_384;
        count
    }

    /// Writes a housekeeping packet.
    #[inline(always)]
    pub fn put_housekeeping(&mut self, packet: &mut [u8], tables: &Tables, clock: Clock) {
        let count = self.housekeepings;
        packet[..12].copy_from_slice(&header(0x0804, count, HOUSEKEEPING, clock));
        packet[12..14].copy_from_slice(&[self.accepted, self.refused]);
        packet[14..16].copy_from_slice(&(tables.rows.len() as u16).to_be_bytes());
        packet[16..18].copy_from_slice(&tables.loads.to_be_bytes());
        packet[18..20].copy_from_slice(&self.validated.to_be_bytes());
        packet[20..24].copy_from_slice(&u32::from(self.check).to_be_bytes());
        packet[28] = u8::from(self.is_active);
        packet[29] = self.good;
        packet[31] = self.validates;
        packet[32] = tables.free_buffers();
        packet[36..40].copy_from_slice(&self.updated.seconds.to_be_bytes());
        packet[40..NAMES].copy_from_slice(&self.updated.sub.to_be_bytes());
        packet[NAMES..HOUSEKEEPING].copy_from_slice(&self.names);
        self.housekeepings = (self.housekeepings + 1) % 16_384;
    }
}

//! Packets and files: commands and table files are read, and telemetry is written.

use crate::names::{four_at, two_at, Name};
use crate::status::Status;

/// A command of the ground.
#[expect(dead_code, reason = "what commands that are left out tell is read")]
pub enum Command {
    Housekeeping,
    Noop,
    ResetCounters,
    Load {
        file: Name<64>,
    },
    Dump {
        select: u16,
        table: Name<40>,
        file: Name<64>,
    },
    Validate {
        select: u16,
        table: Name<40>,
    },
    Activate {
        table: Name<40>,
    },
    DumpRegistry {
        file: Name<64>,
    },
    SendRegistry {
        table: Name<40>,
    },
    DeleteCds {
        table: Name<40>,
    },
    AbortLoad {
        table: Name<40>,
    },
}

/// Why bytes are no command: a status with its detail.
pub type Refusal = (Status, u32);

/// The name of a table in a payload.
fn table_at(payload: &[u8], at: usize) -> Result<Name<40>, Refusal> {
    let name = Name::read(&payload[at..at + 40]);
    if name.is_name() {
        Ok(name)
    } else {
        Err((Status::BadName, 1))
    }
}

/// The name of a file in a payload.
fn file_at(payload: &[u8], at: usize) -> Result<Name<64>, Refusal> {
    let name = Name::read(&payload[at..at + 64]);
    if name.is_name() {
        Ok(name)
    } else {
        Err((Status::BadName, 2))
    }
}

/// The command of a function code, which is 9 at most, with the payload of the right length.
fn command(code: u8, payload: &[u8]) -> Result<Command, Refusal> {
    Ok(match code {
        0 => Command::Noop,
        1 => Command::ResetCounters,
        2 => Command::Load {
            file: file_at(payload, 0)?,
        },
        3 => Command::Dump {
            select: two_at(payload, 0),
            table: table_at(payload, 2)?,
            file: file_at(payload, 42)?,
        },
        4 => Command::Validate {
            select: two_at(payload, 0),
            table: table_at(payload, 2)?,
        },
        5 => Command::Activate {
            table: table_at(payload, 0)?,
        },
        6 => Command::DumpRegistry {
            file: file_at(payload, 0)?,
        },
        7 => Command::SendRegistry {
            table: table_at(payload, 0)?,
        },
        8 => Command::DeleteCds {
            table: table_at(payload, 0)?,
        },
        _ => Command::AbortLoad {
            table: table_at(payload, 0)?,
        },
    })
}

/// The number of bytes of a payload, by the function code.
const PAYLOADS: [usize; 10] = [0, 0, 64, 106, 42, 40, 64, 40, 40, 40];

/// Reads the packet of a command.
pub fn read_command(packet: &[u8]) -> Result<Command, Refusal> {
    if packet.len() < 8 {
        return Err((Status::BadPacket, 1));
    }
    if usize::from(two_at(packet, 4)) + 7 != packet.len() {
        return Err((Status::BadPacket, 2));
    }
    if packet.iter().fold(0xFF, |check, byte| check ^ byte) != 0 {
        return Err((Status::BadPacket, 3));
    }
    let (id, code, payload) = (two_at(packet, 0), packet[6] & 0x7F, &packet[8..]);
    let length = match id {
        0x180C => 0,
        0x1804 => *PAYLOADS
            .get(usize::from(code))
            .ok_or((Status::BadCode, u32::from(code)))?,
        _ => return Err((Status::BadMessageId, u32::from(id))),
    };
    if payload.len() != length {
        return Err((Status::BadLength, payload.len() as u32));
    }
    if id == 0x180C {
        Ok(Command::Housekeeping)
    } else {
        command(code, payload)
    }
}

/// What a table file tells.
pub struct TableFile<'a> {
    pub offset: u32,
    pub table: Name<40>,
    pub image: &'a [u8],
}

/// Reads a table file.
pub fn read_table_file(bytes: &[u8]) -> Result<TableFile<'_>, Status> {
    if bytes.len() < 64 {
        return Err(Status::NoStdHeader);
    }
    if !bytes.starts_with(b"cFE1") {
        return Err(Status::BadContentId);
    }
    if four_at(bytes, 4) != TABLE_FILE {
        return Err(Status::BadSubtypeId);
    }
    if bytes.len() < 116 {
        return Err(Status::NoTblHeader);
    }
    let (stated, image) = (four_at(bytes, 72) as usize, &bytes[116..]);
    if image.len() < stated {
        return Err(Status::LoadIncomplete);
    }
    if stated < image.len() {
        return Err(Status::FileTooLarge);
    }
    Ok(TableFile {
        offset: four_at(bytes, 68),
        table: Name::read(&bytes[76..116]),
        image,
    })
}

/// The service's time.
#[derive(Clone, Copy, Default)]
pub struct Clock {
    pub seconds: u32,
    pub sub: u16,
}

/// The subtypes of files.
const TABLE_FILE: u32 = 8;
const REGISTRY_FILE: u32 = 9;

/// A file's header with its description, which begins a file of so many bytes.
fn file_of(length: usize, subtype: u32, clock: Clock, description: &[u8]) -> Vec<u8> {
    let mut file = Vec::with_capacity(length);
    file.extend_from_slice(b"cFE1");
    for field in [
        subtype,
        64,
        66,
        1,
        0,
        clock.seconds,
        u32::from(clock.sub) << 16,
    ] {
        file.extend_from_slice(&field.to_be_bytes());
    }
    file.extend_from_slice(description);
    file.resize(64, 0);
    file
}

/// The file of a table's dump.
pub fn table_file(table: &Name<40>, image: &[u8], clock: Clock) -> Vec<u8> {
    let mut file = file_of(116 + image.len(), TABLE_FILE, clock, b"Table image");
    file.extend_from_slice(&[0; 8]);
    file.extend_from_slice(&(image.len() as u32).to_be_bytes());
    file.extend_from_slice(table.field());
    file.extend_from_slice(image);
    file
}

/// The file of the registry's dump, of the records of all tables.
pub fn registry_file(records: &[u8], clock: Clock) -> Vec<u8> {
    let mut file = file_of(64 + records.len(), REGISTRY_FILE, clock, b"Table registry");
    file.extend_from_slice(records);
    file
}

/// Both headers of a telemetry packet of so many bytes.
fn head(id: u16, count: u16, length: u16, clock: Clock) -> [u8; 12] {
    let mut head = [0; 12];
    head[..2].copy_from_slice(&id.to_be_bytes());
    head[2..4].copy_from_slice(&(0xC000 | count).to_be_bytes());
    head[4..6].copy_from_slice(&(length - 7).to_be_bytes());
    head[6..10].copy_from_slice(&clock.seconds.to_be_bytes());
    head[10..].copy_from_slice(&clock.sub.to_be_bytes());
    head
}

/// What an event packet tells.
pub struct Event {
    pub number: u16,
    pub status: Status,
    pub row: Option<u8>,
    pub detail: u32,
}

/// An event packet.
pub fn event_packet(count: u16, clock: Clock, event: &Event) -> [u8; 24] {
    let mut packet = [0; 24];
    packet[..12].copy_from_slice(&head(0x0808, count, 24, clock));
    packet[12..14].copy_from_slice(&event.number.to_be_bytes());
    packet[14..18].copy_from_slice(&(event.status as u32).to_be_bytes());
    packet[18..20].copy_from_slice(&event.row.map_or(0xFFFF, u16::from).to_be_bytes());
    packet[20..].copy_from_slice(&event.detail.to_be_bytes());
    packet
}

/// What housekeeping tells beside the state of tables.
pub struct Counters {
    pub accepted: u8,
    pub refused: u8,
    pub validated: u16,
    pub good: u8,
    pub validates: u8,
    pub events: u16,
    pub housekeepings: u16,
    pub registries: u16,
    pub check: u16,
    pub is_active: bool,
    pub validated_table: Name<40>,
    pub updated: Clock,
    pub updated_table: Name<40>,
    pub loaded_file: Name<64>,
    pub dumped_file: Name<64>,
    pub loaded_table: Name<40>,
}

impl Counters {
    pub fn new() -> Counters {
        Counters {
            accepted: 0,
            refused: 0,
            validated: 0,
            good: 0,
            validates: 0,
            events: 0,
            housekeepings: 0,
            registries: 0,
            check: 0,
            is_active: false,
            validated_table: Name::NONE,
            updated: Clock::default(),
            updated_table: Name::NONE,
            loaded_file: Name::NONE,
            dumped_file: Name::NONE,
            loaded_table: Name::NONE,
        }
    }
}

/// Appends a housekeeping packet. Every verdict is 0.
pub fn put_housekeeping(
    out: &mut Vec<u8>,
    counters: &Counters,
    tables: u16,
    loads: u16,
    free: u8,
    clock: Clock,
) {
    out.reserve(290);
    out.extend_from_slice(&head(0x0804, counters.housekeepings, 290, clock));
    out.extend_from_slice(&[counters.accepted, counters.refused]);
    out.extend_from_slice(&tables.to_be_bytes());
    out.extend_from_slice(&loads.to_be_bytes());
    out.extend_from_slice(&counters.validated.to_be_bytes());
    out.extend_from_slice(&u32::from(counters.check).to_be_bytes());
    out.extend_from_slice(&0_u32.to_be_bytes());
    out.extend_from_slice(&[
        u8::from(counters.is_active),
        counters.good,
        0,
        counters.validates,
    ]);
    out.extend_from_slice(&[free, 0, 0, 0]);
    out.extend_from_slice(&counters.updated.seconds.to_be_bytes());
    out.extend_from_slice(&counters.updated.sub.to_be_bytes());
    out.extend_from_slice(counters.validated_table.field());
    out.extend_from_slice(counters.updated_table.field());
    out.extend_from_slice(counters.loaded_file.field());
    out.extend_from_slice(counters.dumped_file.field());
    out.extend_from_slice(counters.loaded_table.field());
}

/// Appends a registry packet with the record of a table.
pub fn put_registry(out: &mut Vec<u8>, counters: &Counters, record: &[u8], clock: Clock) {
    out.extend_from_slice(&head(0x080C, counters.registries, 156, clock));
    out.extend_from_slice(record);
}

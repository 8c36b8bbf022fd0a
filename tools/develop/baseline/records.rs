//! The records of a session.

use crate::names::{four_at, two_at, Name};

/// The length of a record's head.
const HEAD: usize = 4;

/// The most bytes of a record's body.
const LONGEST_BODY: usize = 32_832;

/// Who makes a request.
#[derive(Clone, Copy)]
pub enum Actor {
    Ground,
    /// An application, from 1 to 16.
    App(u8),
}

impl Actor {
    /// Its byte in records and entries.
    pub fn number(self) -> u8 {
        match self {
            Actor::Ground => 0,
            Actor::App(number) => number,
        }
    }
}

/// How the service was reset.
pub enum ResetKind {
    Processor,
    PowerOn,
}

/// A request with all that its record tells.
#[expect(
    dead_code,
    reason = "what requests that are left out tell is read, and kept in the history"
)]
pub enum Request {
    Command {
        packet: Vec<u8>,
    },
    File {
        name: Name<64>,
        contents: Vec<u8>,
    },
    Time {
        seconds: u32,
        sub: u16,
    },
    Reset {
        kind: ResetKind,
    },
    Start {
        name: Name<20>,
    },
    Register {
        name: Name<16>,
        size: u32,
        options: u16,
        validator: Option<u8>,
    },
    Share {
        table: Name<40>,
    },
    Unregister {
        handle: u16,
    },
    LoadImage {
        handle: u16,
        image: Vec<u8>,
    },
    LoadFile {
        handle: u16,
        file: Name<64>,
    },
    Update {
        handle: u16,
    },
    Validate {
        handle: u16,
    },
    Manage {
        handle: u16,
    },
    DumpToBuffer {
        handle: u16,
    },
    Edit {
        handle: u16,
        offset: u32,
        bytes: Vec<u8>,
    },
    Get {
        handle: u16,
    },
    Read {
        handle: u16,
        offset: u32,
        length: u32,
    },
    Release {
        handle: u16,
    },
    GetStatus {
        handle: u16,
    },
    GetInfo {
        table: Name<40>,
    },
    Notify {
        handle: u16,
        message: u16,
        code: u16,
        parameter: u32,
    },
    Exit,
    CdsRegister {
        name: Name<16>,
        size: u32,
    },
    CdsCopy {
        slot: u16,
        image: Vec<u8>,
    },
    CdsRestore {
        slot: u16,
    },
    CdsDelete {
        slot: u16,
    },
}

/// What stands at the front of bytes.
pub enum Front {
    /// A record of so many bytes.
    Record(Actor, Request, usize),
    /// The beginning of a record, or nothing.
    Short,
    /// No record, whatever comes.
    Bad,
}

/// The fewest and the most bytes of the body of a kind.
fn lengths(kind: u8) -> Option<(usize, usize)> {
    Some(match kind {
        0x01 => (0, LONGEST_BODY),
        0x02 => (64, LONGEST_BODY),
        0x03 => (6, 6),
        0x04 => (1, 1),
        0x10 => (20, 20),
        0x11 => (23, 23),
        0x12 | 0x1F => (40, 40),
        0x13 | 0x16..=0x19 | 0x1B | 0x1D | 0x1E | 0x32 | 0x33 => (2, 2),
        0x14 | 0x31 => (2, LONGEST_BODY),
        0x15 => (66, 66),
        0x1A => (6, LONGEST_BODY),
        0x1C | 0x20 => (10, 10),
        0x21 => (0, 0),
        0x30 => (20, 20),
        _ => return None,
    })
}

/// The sender, where a record of this kind can come from it.
fn sender(kind: u8, actor: u8) -> Option<Actor> {
    match (kind, actor) {
        (0x00..=0x0F, 0) => Some(Actor::Ground),
        (0x10.., 1..=16) => Some(Actor::App(actor)),
        _ => None,
    }
}

/// The request that a whole body tells; none where it isn't of the right form.
fn request(kind: u8, body: &[u8]) -> Option<Request> {
    if kind < 0x10 {
        ground_request(kind, body)
    } else if kind < 0x30 {
        table_request(kind, body)
    } else {
        block_request(kind, body)
    }
}

fn ground_request(kind: u8, body: &[u8]) -> Option<Request> {
    Some(match kind {
        0x01 => Request::Command {
            packet: body.to_vec(),
        },
        0x02 => Request::File {
            name: Name::read_padded(&body[..64])?,
            contents: body[64..].to_vec(),
        },
        0x03 => Request::Time {
            seconds: four_at(body, 0),
            sub: two_at(body, 4),
        },
        0x04 if body[0] == 1 => Request::Reset {
            kind: ResetKind::Processor,
        },
        0x04 if body[0] == 2 => Request::Reset {
            kind: ResetKind::PowerOn,
        },
        _ => return None,
    })
}

fn table_request(kind: u8, body: &[u8]) -> Option<Request> {
    Some(match kind {
        0x10 => Request::Start {
            name: Name::read_padded(body)?,
        },
        0x11 => Request::Register {
            name: Name::read_padded(&body[..16])?,
            size: four_at(body, 16),
            options: two_at(body, 20),
            validator: (body[22] != 0xFF).then_some(body[22]),
        },
        0x12 => Request::Share {
            table: Name::read_padded(body)?,
        },
        0x1F => Request::GetInfo {
            table: Name::read_padded(body)?,
        },
        0x21 => Request::Exit,
        _ => return handle_request(kind, two_at(body, 0), &body[2..]),
    })
}

/// A request about a handle, with what stands after that.
fn handle_request(kind: u8, handle: u16, body: &[u8]) -> Option<Request> {
    Some(match kind {
        0x13 => Request::Unregister { handle },
        0x14 => Request::LoadImage {
            handle,
            image: body.to_vec(),
        },
        0x15 => Request::LoadFile {
            handle,
            file: Name::read_padded(body)?,
        },
        0x16 => Request::Update { handle },
        0x17 => Request::Validate { handle },
        0x18 => Request::Manage { handle },
        0x19 => Request::DumpToBuffer { handle },
        0x1A => Request::Edit {
            handle,
            offset: four_at(body, 0),
            bytes: body[4..].to_vec(),
        },
        0x1B => Request::Get { handle },
        0x1C => Request::Read {
            handle,
            offset: four_at(body, 0),
            length: four_at(body, 4),
        },
        0x1D => Request::Release { handle },
        0x1E => Request::GetStatus { handle },
        0x20 => Request::Notify {
            handle,
            message: two_at(body, 0),
            code: two_at(body, 2),
            parameter: four_at(body, 4),
        },
        _ => return None,
    })
}

fn block_request(kind: u8, body: &[u8]) -> Option<Request> {
    Some(match kind {
        0x30 => Request::CdsRegister {
            name: Name::read_padded(&body[..16])?,
            size: four_at(body, 16),
        },
        0x31 => Request::CdsCopy {
            slot: two_at(body, 0),
            image: body[2..].to_vec(),
        },
        0x32 => Request::CdsRestore {
            slot: two_at(body, 0),
        },
        0x33 => Request::CdsDelete {
            slot: two_at(body, 0),
        },
        _ => return None,
    })
}

/// Reads what stands at the front of the bytes.
pub fn front(bytes: &[u8]) -> Front {
    let Some(head) = bytes.first_chunk::<HEAD>() else {
        return Front::Short;
    };
    let length = usize::from(two_at(head, 2));
    let (Some(actor), Some((least, most))) = (sender(head[0], head[1]), lengths(head[0])) else {
        return Front::Bad;
    };
    if length < least || most < length {
        return Front::Bad;
    }
    let Some(body) = bytes.get(HEAD..HEAD + length) else {
        return Front::Short;
    };
    match request(head[0], body) {
        Some(request) => Front::Record(actor, request, HEAD + length),
        None => Front::Bad,
    }
}

//! Entries of the transcript, and the packets in them.

use crate::arena::Arena;
use crate::status::Status;
use crate::vectored;
use std::fs::File;
use std::io::{self, Write};

/// How many bytes an entry has before the reply's bytes: its place, the actor, the status, the detail and the reply's length.
pub const HEAD: usize = 17;

/// The bytes of a length.
pub const LENGTH: usize = 4;

/// How many bytes the packet of an event has, and one of housekeeping.
pub const EVENT: usize = 24;
pub const HOUSEKEEPING: usize = 290;

/// How many bytes both headers of a telemetry packet have.
pub const FRONT: usize = 12;

/// The row in an event that is about none.
pub const NO_ROW: u16 = 0xFFFF;

/// From so many bytes on those of a reply are shared.
const LONG: usize = 1_024;

/// An entry as it is kept. A long reply shares the bytes of an image, and the entry goes on after them.
pub struct Entry {
    front: &'static [u8],
    shared: Option<&'static Shared>,
}

/// The bytes of an image that an entry shares, and what is after them.
struct Shared {
    image: &'static [u8],
    back: &'static [u8],
}

impl From<&'static mut [u8]> for Entry {
    #[inline(always)]
    fn from(front: &'static mut [u8]) -> Entry {
        Entry {
            front,
            shared: None,
        }
    }
}

impl Entry {
    /// Writes it by one call.
    #[inline(always)]
    pub fn write_to(&self, sink: &mut File) -> io::Result<()> {
        match self.shared {
            None => sink.write_all(self.front),
            Some(shared) => vectored::write(sink, [self.front, shared.image, shared.back]),
        }
    }
}

/// The end record.
pub fn end(status: u8, entries: u32, taken: u32) -> [u8; 13] {
    let mut end = [0xFF; 13];
    end[4] = status;
    end[5..9].copy_from_slice(&entries.to_be_bytes());
    end[9..].copy_from_slice(&taken.to_be_bytes());
    end
}

/// What an entry begins with.
#[derive(Clone, Copy)]
pub struct Answer {
    pub actor: u8,
    pub status: Status,
    pub detail: u32,
}

impl Answer {
    pub fn good(actor: u8) -> Answer {
        Answer {
            actor,
            status: Status::Success,
            detail: 0,
        }
    }
}

/// The service's time.
#[derive(Clone, Copy, Default)]
pub struct Clock {
    pub seconds: u32,
    pub sub: u16,
}

/// Both headers of a telemetry packet of so many bytes.
#[inline(always)]
pub fn header(id: u16, count: u16, length: usize, clock: Clock) -> [u8; 12] {
    let mut header = [0; 12];
    header[..2].copy_from_slice(&id.to_be_bytes());
    header[2..4].copy_from_slice(&(0xC000 | count).to_be_bytes());
    header[4..6].copy_from_slice(&(length as u16 - 7).to_be_bytes());
    header[6..10].copy_from_slice(&clock.seconds.to_be_bytes());
    header[10..].copy_from_slice(&clock.sub.to_be_bytes());
    header
}

/// What an event is about.
pub struct Event {
    pub number: u16,
    pub status: Status,
    pub row: u16,
    pub detail: u32,
}

/// The entries, in memory of their own.
pub struct Entries {
    arena: Arena,
    count: u32,
    /// The sequence count of the next event.
    events: u16,
}

impl Entries {
    pub fn new() -> Entries {
        Entries {
            arena: Arena::new(),
            count: 0,
            events: 0,
        }
    }

    /// Memory that is kept.
    pub fn room(&mut self, size: usize) -> &'static mut [u8] {
        self.arena.take(size)
    }

    /// An entry with its head and its lengths, whose reply and packets have so many bytes, which are zeros.
    #[inline(always)]
    pub fn open(&mut self, answer: Answer, reply: usize, packets: usize) -> &'static mut [u8] {
        let entry = self.arena.take(HEAD + reply + LENGTH + packets);
        self.put_head(entry, answer, reply);
        entry[HEAD + reply..][..LENGTH].copy_from_slice(&(packets as u32).to_be_bytes());
        entry
    }

    #[inline(always)]
    fn put_head(&mut self, entry: &mut [u8], answer: Answer, reply: usize) {
        entry[..4].copy_from_slice(&self.count.to_be_bytes());
        entry[4] = answer.actor;
        entry[5..9].copy_from_slice(&(answer.status as u32).to_be_bytes());
        entry[9..13].copy_from_slice(&answer.detail.to_be_bytes());
        entry[13..HEAD].copy_from_slice(&(reply as u32).to_be_bytes());
        self.count += 1;
    }

    /// An entry without packets.
    #[inline(always)]
    pub fn plain(&mut self, answer: Answer) -> Entry {
        self.open(answer, 0, 0).into()
    }

    /// An entry without packets whose reply has these bytes.
    #[inline(always)]
    pub fn with_reply(&mut self, answer: Answer, reply: &[u8]) -> Entry {
        let entry = self.open(answer, reply.len(), 0);
        entry[HEAD..][..reply.len()].copy_from_slice(reply);
        entry.into()
    }

    /// An entry whose reply has a front and then bytes of an image.
    #[inline(always)]
    pub fn with_image<const FRONT: usize, const COUNT: usize>(
        &mut self,
        answer: Answer,
        (front, image): (&[u8; FRONT], &'static [u8]),
        clock: Clock,
        events: &[Event; COUNT],
    ) -> Entry {
        let reply = FRONT + image.len();
        if image.len() < LONG {
            let entry = self.open(answer, reply, COUNT * EVENT);
            entry[HEAD..][..FRONT].copy_from_slice(front);
            entry[HEAD + FRONT..][..image.len()].copy_from_slice(image);
            self.put_events(&mut entry[HEAD + reply + LENGTH..], clock, events);
            return entry.into();
        }
        let entry = self.arena.take(HEAD + FRONT);
        self.put_head(entry, answer, reply);
        entry[HEAD..].copy_from_slice(front);
        let back = self.arena.take(LENGTH + COUNT * EVENT);
        back[..LENGTH].copy_from_slice(&((COUNT * EVENT) as u32).to_be_bytes());
        self.put_events(&mut back[LENGTH..], clock, events);
        let shared = Box::leak(Box::new(Shared { image, back }));
        Entry {
            front: entry,
            shared: Some(shared),
        }
    }

    /// Writes the packet of an event.
    #[inline(always)]
    fn put_event(&mut self, packet: &mut [u8; EVENT], clock: Clock, event: &Event) {
        packet[..12].copy_from_slice(&header(0x0808, self.events, EVENT, clock));
        packet[12..14].copy_from_slice(&event.number.to_be_bytes());
        packet[14..18].copy_from_slice(&(event.status as u32).to_be_bytes());
        packet[18..20].copy_from_slice(&event.row.to_be_bytes());
        packet[20..].copy_from_slice(&event.detail.to_be_bytes());
        self.events = (self.events + 1) % 16_384;
    }

    /// Writes the packets of events.
    #[inline(always)]
    fn put_events(&mut self, packets: &mut [u8], clock: Clock, events: &[Event]) {
        let (packets, _) = packets.as_chunks_mut();
        for (packet, event) in packets.iter_mut().zip(events) {
            self.put_event(packet, clock, event);
        }
    }

    /// An entry with an event, after which it has room for a packet of so many bytes.
    #[inline(always)]
    pub fn with_room(
        &mut self,
        answer: Answer,
        clock: Clock,
        event: &Event,
        size: usize,
    ) -> &'static mut [u8] {
        let entry = self.open(answer, 0, EVENT + size);
        let (packet, _) = entry[HEAD + LENGTH..].split_at_mut(EVENT);
        self.put_events(packet, clock, std::slice::from_ref(event));
        entry
    }

    /// An entry with these events.
    #[inline(always)]
    pub fn with_events<const COUNT: usize>(
        &mut self,
        answer: Answer,
        reply: &[u8],
        clock: Clock,
        events: &[Event; COUNT],
    ) -> Entry {
        let entry = self.open(answer, reply.len(), COUNT * EVENT);
        entry[HEAD..][..reply.len()].copy_from_slice(reply);
        self.put_events(&mut entry[HEAD + reply.len() + LENGTH..], clock, events);
        entry.into()
    }
}

//! A plain Rust program beside which `tools/develop/bench` puts the figures of `cfetbl play` and `cfetbl crew`. Nothing of it is part of the
//! product, and nothing of it is proved.
//!
//! It does what `play` and `crew` do for the requests of the sessions of `tools/develop/bench`, as somebody writes it in Rust who
//! needs no proof: it makes the same system calls to read and write, writes the same transcript byte for byte, and keeps its
//! whole history to the end. Every kind of request and of command is read. Where one comes that is left out, the program says
//! so on standard error and ends with 2. Left out are validation functions, dumps of dump-only tables and what owners do with
//! these, notices, applications' blocks in the Critical Data Store, faults of the store, critical tables whose block is there
//! when they are registered, resets, and the words `--help` and `--version`.

mod check_word;
mod crew;
mod names;
mod packets;
mod records;
mod service;
mod status;
mod store;
mod tables;

use crew::{play_beside, Scripts};
use records::{front, Actor, Front, Request};
use service::{Entry, Service};
use std::env;
use std::fs::File;
use std::io::{self, ErrorKind, Read, Write};
use std::os::fd::AsFd;
use std::process::{self, ExitCode};
use store::Store;

/// The most bytes that one read takes.
const PIECE: usize = 4_096;

/// The most bytes of a record: its head and the longest body.
const LONGEST_RECORD: usize = 4 + 32_832;

/// The most records of a session.
const RECORD_LIMIT: usize = 32_768;

/// Ends the program at a request that it leaves out.
fn left_out(what: &str) -> ! {
    eprintln!("baseline: {what} is left out");
    process::exit(2)
}

/// A standard stream without a buffer, so that a call of it is a call of the system.
fn unbuffered(stream: &impl AsFd) -> io::Result<File> {
    Ok(File::from(stream.as_fd().try_clone_to_owned()?))
}

/// The input, of which what wasn't played yet is held.
struct Input {
    source: File,
    buffer: Vec<u8>,
    start: usize,
    end: usize,
    /// How many bytes the records had that were taken.
    taken: u32,
}

impl Input {
    fn new(source: File) -> Input {
        Input {
            source,
            buffer: vec![0; LONGEST_RECORD + PIECE],
            start: 0,
            end: 0,
            taken: 0,
        }
    }

    /// What was read and not yet played.
    fn rest(&self) -> &[u8] {
        &self.buffer[self.start..self.end]
    }

    /// Reads a piece after the rest, and tells how many bytes came.
    fn read_more(&mut self) -> io::Result<usize> {
        self.buffer.copy_within(self.start..self.end, 0);
        self.end -= self.start;
        self.start = 0;
        loop {
            match self
                .source
                .read(&mut self.buffer[self.end..self.end + PIECE])
            {
                Err(error) if error.kind() == ErrorKind::Interrupted => {}
                Err(error) => return Err(error),
                Ok(count) => {
                    self.end += count;
                    return Ok(count);
                }
            }
        }
    }

    /// Hands on each record, in order, and gives the status of a run that ends after the last one. An `Err` is one of `take`.
    fn each_record(
        &mut self,
        mut take: impl FnMut(Actor, Request) -> io::Result<()>,
    ) -> io::Result<u8> {
        let mut count = 0;
        loop {
            if count == RECORD_LIMIT && !self.rest().is_empty() {
                return Ok(6);
            }
            match front(self.rest()) {
                Front::Record(actor, request, length) => {
                    self.start += length;
                    self.taken += length as u32;
                    count += 1;
                    take(actor, request)?;
                }
                Front::Bad => return Ok(5),
                Front::Short => match self.read_more() {
                    Ok(0) if self.rest().is_empty() => return Ok(0),
                    Ok(0) => return Ok(5),
                    Ok(_) => {}
                    Err(_) => return Ok(3),
                },
            }
        }
    }
}

/// Spells an entry into a buffer that is used again. It is inlined, so that `play` takes no longer for having `crew` beside it.
#[inline(always)]
fn spell(out: &mut Vec<u8>, place: usize, entry: &Entry) {
    let reply = &entry.reply;
    out.clear();
    out.extend_from_slice(&(place as u32).to_be_bytes());
    out.push(entry.actor.number());
    out.extend_from_slice(&(reply.status as u32).to_be_bytes());
    out.extend_from_slice(&reply.detail.to_be_bytes());
    out.extend_from_slice(&(reply.bytes.len() as u32).to_be_bytes());
    out.extend_from_slice(&reply.bytes);
    out.extend_from_slice(&(reply.packets.len() as u32).to_be_bytes());
    out.extend_from_slice(&reply.packets);
}

/// Spells the end record.
fn spell_end(out: &mut Vec<u8>, status: u8, entries: usize, taken: u32) {
    out.clear();
    out.extend_from_slice(&u32::MAX.to_be_bytes());
    out.push(status);
    out.extend_from_slice(&(entries as u32).to_be_bytes());
    out.extend_from_slice(&taken.to_be_bytes());
}

/// Plays the input in order, writes each entry as soon as it is there, and gives the status of the run.
fn play(mut service: Service, input: &mut Input, sink: &mut File) -> io::Result<u8> {
    let mut out = Vec::new();
    let status = input.each_record(|actor, request| {
        let place = service.history.len();
        spell(&mut out, place, service.play(actor, request));
        sink.write_all(&out)
    })?;
    spell_end(&mut out, status, service.history.len(), input.taken);
    sink.write_all(&out)?;
    Ok(status)
}

/// Reads all records, plays them with a thread for each actor, writes the entries, and gives the status of the run.
fn crew(service: Service, input: &mut Input, sink: &mut File) -> io::Result<u8> {
    let mut scripts = Scripts::default();
    let status = input.each_record(|actor, request| {
        scripts[usize::from(actor.number())].push((actor, request));
        Ok(())
    })?;
    let service = play_beside(service, scripts);
    let mut out = Vec::new();
    for (place, entry) in service.history.iter().enumerate() {
        spell(&mut out, place, entry);
        sink.write_all(&out)?;
    }
    spell_end(&mut out, status, service.history.len(), input.taken);
    sink.write_all(&out)?;
    Ok(status)
}

/// A way to play a session.
type Way = fn(Service, &mut Input, &mut File) -> io::Result<u8>;

/// The way that the program's words name.
fn given_way() -> Option<Way> {
    let mut words = env::args_os().skip(1);
    let way: Way = match words.next()?.to_str()? {
        "play" => play,
        "crew" => crew,
        _ => return None,
    };
    words.next().is_none().then_some(way)
}

/// Plays the session on standard input, and writes its transcript to standard output.
fn run() -> Result<u8, u8> {
    let file = store::open().map_err(|_| 7)?;
    let way = given_way().ok_or(2)?;
    let store = Store::boot(file).map_err(|_| 7)?;
    let mut input = Input::new(unbuffered(&io::stdin()).map_err(|_| 3)?);
    let mut sink = unbuffered(&io::stdout()).map_err(|_| 4)?;
    way(Service::new(store), &mut input, &mut sink).map_err(|_| 4)
}

fn main() -> ExitCode {
    ExitCode::from(run().unwrap_or_else(|status| status))
}

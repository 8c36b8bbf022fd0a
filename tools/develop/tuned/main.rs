//! A plain Rust program beside which `tools/develop/bench` shows how much of what `cfetbl play` takes is left to save. Nothing of it is part
//! of the product, and nothing of it is proved.
//!
//! It plays a session with the same reads, one write an entry, the same calls of the store and the same transcript, and keeps each
//! record and each entry to the end, as the program of `tools/develop/baseline` does. That one is what somebody writes who needs no proof;
//! this one is tuned. A record is played where it was read, and an entry is written where it is kept. Images, files and long
//! replies are parts of these, so that they are never copied. A name that is known is found by the bytes of its field, and is
//! looked at closely only if it isn't known. An image keeps its check word once that was made.
//!
//! It plays the requests of the works of `tools/develop/bench`. At any other one it says on standard error what is left out, and ends with 2.

mod arena;
mod check_word;
mod counters;
mod drawer;
mod entries;
mod index;
mod input;
#[path = "../baseline/names.rs"]
#[allow(dead_code)]
mod names;
mod requests;
mod service;
#[path = "../baseline/status.rs"]
#[allow(dead_code)]
mod status;
#[path = "../baseline/store.rs"]
#[allow(dead_code)]
mod store;
#[path = "../baseline/check_word.rs"]
mod table_check_word;
mod tables;
mod vectored;

use entries::Entry;
use input::{Front, Input};
use service::Service;
use std::env;
use std::fs::File;
use std::io::{self, Write};
use std::os::fd::AsFd;
use std::process::{self, ExitCode};
use store::Store;

/// The most records of a session.
const RECORD_LIMIT: usize = 32_768;

/// Ends the program at a request that it leaves out.
#[cold]
fn left_out(what: &str) -> ! {
    eprintln!("tuned: {what} is left out");
    process::exit(2)
}

/// A standard stream without a buffer, so that a call of it is a call of the system.
fn unbuffered(stream: &impl AsFd) -> io::Result<File> {
    Ok(File::from(stream.as_fd().try_clone_to_owned()?))
}

/// A record with its entry.
struct Kept {
    _record: &'static [u8],
    _entry: Entry,
}

/// Plays the input in order, writes each entry as soon as it is there, and gives the status of the run. An `Err` is one of the sink.
fn play(service: &mut Service, input: &mut Input, sink: &mut File) -> io::Result<u8> {
    let mut history = Vec::with_capacity(RECORD_LIMIT);
    let status = loop {
        if history.len() == RECORD_LIMIT && !input.unplayed().is_empty() {
            break 6;
        }
        match input.front() {
            Front::Record(length) => {
                let record = input.take(length);
                let Ok(entry) = service.play(record) else {
                    input.taken -= length as u32;
                    break 5;
                };
                entry.write_to(sink)?;
                history.push(Kept {
                    _record: record,
                    _entry: entry,
                });
            }
            Front::Bad => break 5,
            Front::Short => match input.read_more() {
                Ok(0) if input.unplayed().is_empty() => break 0,
                Ok(0) => break 5,
                Ok(_) => {}
                Err(_) => break 3,
            },
        }
    };
    sink.write_all(&entries::end(status, history.len() as u32, input.taken))?;
    Ok(status)
}

/// Plays the session on standard input, and writes its transcript to standard output.
fn run() -> Result<u8, u8> {
    let file = store::open().map_err(|_| 7)?;
    if !env::args_os().skip(1).eq(["play"]) {
        return Err(2);
    }
    let store = Store::boot(file).map_err(|_| 7)?;
    let mut input = Input::new(unbuffered(&io::stdin()).map_err(|_| 3)?);
    let mut sink = unbuffered(&io::stdout()).map_err(|_| 4)?;
    play(&mut Service::new(store), &mut input, &mut sink).map_err(|_| 4)
}

fn main() -> ExitCode {
    ExitCode::from(run().unwrap_or_else(|status| status))
}

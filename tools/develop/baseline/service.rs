//! The service: its state, its history, and what each request does.

use crate::left_out;
use crate::names::{full_name, Name};
use crate::packets::{
    event_packet, put_housekeeping, put_registry, read_command, read_table_file, registry_file,
    table_file, Clock, Command, Counters, Event,
};
use crate::records::{Actor, Request};
use crate::status::Status;
use crate::store::Store;
use crate::tables::{Plan, Tables};
use std::io;

/// What a request is answered before its packets are told.
pub struct Answer {
    pub status: Status,
    pub detail: u32,
    pub bytes: Vec<u8>,
}

impl From<(Status, u32)> for Answer {
    fn from((status, detail): (Status, u32)) -> Answer {
        Answer {
            status,
            detail,
            bytes: Vec::new(),
        }
    }
}

impl From<Status> for Answer {
    fn from(status: Status) -> Answer {
        (status, 0).into()
    }
}

/// What a request is answered.
pub struct Reply {
    pub status: Status,
    pub detail: u32,
    pub bytes: Vec<u8>,
    pub packets: Vec<u8>,
}

impl From<Answer> for Reply {
    fn from(answer: Answer) -> Reply {
        let Answer {
            status,
            detail,
            bytes,
        } = answer;
        Reply {
            status,
            detail,
            bytes,
            packets: Vec::new(),
        }
    }
}

/// What a request did to the store: how many calls were done, and the image that a restore gave.
#[expect(dead_code, reason = "the history keeps all that came of a request")]
pub struct Note {
    done: u8,
    restored: Option<Vec<u8>>,
}

/// An entry of the history.
#[expect(dead_code, reason = "the history keeps all that came of a request")]
pub struct Entry {
    pub actor: Actor,
    pub request: Request,
    pub reply: Reply,
    pub note: Option<Box<Note>>,
    pub verdicts: [Option<i32>; 2],
}

/// How many tables can be critical.
const MOST_CRITICAL: usize = 32;

/// The most files of the drawer.
const FILES: usize = 64;

/// A file of the drawer.
struct Stored {
    name: Name<64>,
    contents: Vec<u8>,
}

pub struct Service {
    apps: [Option<Name<20>>; 16],
    tables: Tables,
    drawer: Vec<Stored>,
    clock: Clock,
    counters: Counters,
    pub history: Vec<Entry>,
    store: Store,
    /// How many calls of the store the request has made.
    calls: u8,
}

impl Service {
    /// A service over a store.
    pub fn new(store: Store) -> Service {
        Service {
            apps: [None; 16],
            tables: Tables::new(),
            drawer: Vec::with_capacity(FILES),
            clock: Clock::default(),
            counters: Counters::new(),
            history: Vec::new(),
            store,
            calls: 0,
        }
    }

    /// Plays a request, and gives its entry, which stands in the history.
    pub fn play(&mut self, actor: Actor, request: Request) -> &Entry {
        self.calls = 0;
        let reply = match actor {
            Actor::Ground => self.ground(&request),
            Actor::App(app) => self.application(app, &request),
        };
        let note = (self.calls != 0).then(|| {
            Box::new(Note {
                done: self.calls,
                restored: None,
            })
        });
        let place = self.history.len();
        self.history.push(Entry {
            actor,
            request,
            reply,
            note,
            verdicts: [None; 2],
        });
        &self.history[place]
    }

    /// Appends an event packet.
    fn tell(&mut self, packets: &mut Vec<u8>, event: &Event) {
        packets.extend_from_slice(&event_packet(self.counters.events, self.clock, event));
        self.counters.events = (self.counters.events + 1) % 16_384;
    }

    // ---- the ground

    fn ground(&mut self, request: &Request) -> Reply {
        match request {
            Request::Command { packet } => self.command(packet),
            Request::File { name, contents } => Answer::from(self.file(name, contents)).into(),
            Request::Time { seconds, sub } => {
                self.clock = Clock {
                    seconds: *seconds,
                    sub: *sub,
                };
                Answer::from(Status::Success).into()
            }
            _ => left_out("a Reset"),
        }
    }

    /// Puts a file that was uplinked into the drawer.
    fn file(&mut self, name: &Name<64>, contents: &[u8]) -> Status {
        if !name.is_name() {
            return Status::BadName;
        }
        self.put_file(name, contents)
    }

    /// Puts a file into the drawer, where there is room for its name.
    fn put_file(&mut self, name: &Name<64>, contents: &[u8]) -> Status {
        if let Some(file) = self.drawer.iter_mut().find(|file| file.name == *name) {
            file.contents.clear();
            file.contents.extend_from_slice(contents);
            return Status::Success;
        }
        if self.drawer.len() == FILES {
            return Status::DrawerFull;
        }
        self.drawer.push(Stored {
            name: *name,
            contents: contents.to_vec(),
        });
        Status::Success
    }

    fn command(&mut self, packet: &[u8]) -> Reply {
        match read_command(packet) {
            Err(refusal) => self.answered(0, None, refusal.into()),
            Ok(Command::Noop) => self.answered(0, None, Status::Success.into()),
            Ok(Command::ResetCounters) => self.reset_counters(),
            Ok(Command::Housekeeping) => self.housekeeping(),
            Ok(Command::Load { file }) => {
                let (row, answer) = self.load(&file);
                self.answered(2, row, answer)
            }
            Ok(Command::Dump {
                select,
                table,
                file,
            }) => self.dump(&table, select, &file),
            Ok(Command::DumpRegistry { file }) => self.dump_registry(&file),
            Ok(Command::DeleteCds { .. }) => left_out("DELETE_CDS"),
            Ok(Command::Validate { select, table }) => self.validate(&table, select),
            Ok(Command::Activate { table }) => self.about(5, &table, Tables::activate),
            Ok(Command::AbortLoad { table }) => self.about(9, &table, Tables::abort_load),
            Ok(Command::SendRegistry { table }) => self.send_registry(&table),
        }
    }

    /// Tells and counts how the command of a function code was answered that is about a row.
    fn answered(&mut self, code: u8, row: Option<u8>, answer: Answer) -> Reply {
        let mut reply = Reply::from(answer);
        let (number, detail) = if reply.status == Status::Success {
            self.counters.accepted = self.counters.accepted.wrapping_add(1);
            (1, u32::from(code))
        } else {
            self.counters.refused = self.counters.refused.wrapping_add(1);
            (2, reply.detail)
        };
        let event = Event {
            number,
            status: reply.status,
            row,
            detail,
        };
        self.tell(&mut reply.packets, &event);
        reply
    }

    fn reset_counters(&mut self) -> Reply {
        let reply = self.answered(1, None, Status::Success.into());
        self.counters.accepted = 0;
        self.counters.refused = 0;
        self.counters.validated = 0;
        self.counters.good = 0;
        self.counters.validates = 0;
        reply
    }

    fn housekeeping(&mut self) -> Reply {
        let (tables, loads, free) = self.tables.counts();
        let mut reply = Reply::from(Answer::from(Status::Success));
        put_housekeeping(
            &mut reply.packets,
            &self.counters,
            tables,
            loads,
            free,
            self.clock,
        );
        self.counters.housekeepings = (self.counters.housekeepings + 1) % 16_384;
        reply
    }

    /// Puts a table file into the load of the table that it names, and tells the row of that.
    fn load(&mut self, name: &Name<64>) -> (Option<u8>, Answer) {
        let Some(file) = self.drawer.iter().find(|file| file.name == *name) else {
            return (None, Status::FileNotFound.into());
        };
        let parsed = match read_table_file(&file.contents) {
            Ok(parsed) => parsed,
            Err(status) => return (None, status.into()),
        };
        let Some(row) = self.tables.find(&parsed.table) else {
            return (None, Status::NoSuchTable.into());
        };
        let answer = self.tables.load_file(row, name, &parsed);
        if answer.status == Status::Success {
            self.counters.loaded_file = *name;
            self.counters.loaded_table = parsed.table;
        }
        (Some(row), answer)
    }

    /// Answers a command that names a table, by what the tables do.
    fn about(&mut self, code: u8, name: &Name<40>, does: fn(&mut Tables, u8) -> Status) -> Reply {
        match self.tables.find(name) {
            Some(row) => {
                let status = does(&mut self.tables, row);
                self.answered(code, Some(row), status.into())
            }
            None => self.answered(code, None, Status::NoSuchTable.into()),
        }
    }

    /// A validation of a table that has no function is finished at once.
    fn validate(&mut self, name: &Name<40>, select: u16) -> Reply {
        let Some(row) = self.tables.find(name) else {
            return self.answered(4, None, Status::NoSuchTable.into());
        };
        let (check, is_active) = match self.tables.validate(row, select) {
            Ok(told) => told,
            Err(status) => return self.answered(4, Some(row), status.into()),
        };
        let mut reply = self.answered(4, Some(row), Status::Success.into());
        let event = Event {
            number: 3,
            status: Status::Success,
            row: Some(row),
            detail: 0,
        };
        self.tell(&mut reply.packets, &event);
        let counters = &mut self.counters;
        counters.validated = counters.validated.wrapping_add(1);
        counters.good = counters.good.wrapping_add(1);
        counters.validates = counters.validates.wrapping_add(1);
        counters.check = check;
        counters.is_active = is_active;
        counters.validated_table = *name;
        reply
    }

    /// Writes the dump of an image of a table, which isn't dump-only.
    fn dump(&mut self, name: &Name<40>, select: u16, file: &Name<64>) -> Reply {
        let Some(row) = self.tables.find(name) else {
            return self.answered(3, None, Status::NoSuchTable.into());
        };
        match self.tables.dumped(row, select) {
            Ok(image) => {
                let contents = table_file(name, image, self.clock);
                self.write_dump(3, Some(row), file, contents)
            }
            Err(status) => self.answered(3, Some(row), status.into()),
        }
    }

    fn dump_registry(&mut self, file: &Name<64>) -> Reply {
        let contents = registry_file(&self.tables.records(), self.clock);
        self.write_dump(6, None, file, contents)
    }

    /// Puts the file of a dump into the drawer, and answers with it.
    fn write_dump(&mut self, code: u8, row: Option<u8>, name: &Name<64>, file: Vec<u8>) -> Reply {
        let status = self.put_file(name, &file);
        let mut reply = self.answered(code, row, status.into());
        if status == Status::Success {
            let event = Event {
                number: 7,
                status,
                row,
                detail: file.len() as u32,
            };
            self.tell(&mut reply.packets, &event);
            self.counters.dumped_file = *name;
            reply.bytes = file;
        }
        reply
    }

    fn send_registry(&mut self, name: &Name<40>) -> Reply {
        let mut reply = self.about(7, name, |_, _| Status::Success);
        if let Some(row) = self.tables.find(name) {
            let record = self.tables.table(row).record();
            put_registry(&mut reply.packets, &self.counters, &record, self.clock);
            self.counters.registries = (self.counters.registries + 1) % 16_384;
        }
        reply
    }

    // ---- applications

    fn application(&mut self, app: u8, request: &Request) -> Reply {
        let place = usize::from(app) - 1;
        if let Request::Start { name } = request {
            return Answer::from(self.start(place, name)).into();
        }
        let Some(own) = self.apps[place] else {
            return Answer::from(Status::BadApp).into();
        };
        match request {
            Request::LoadImage { handle, image } => self.load_image(app, *handle, image),
            Request::Register {
                name,
                size,
                options,
                validator,
            } => self
                .register(app, &own, name, *size, *options, *validator)
                .into(),
            Request::Read {
                handle,
                offset,
                length,
            } => self.read(app, *handle, *offset, *length).into(),
            Request::Get { handle } => either(self.tables.get(app, *handle)).into(),
            Request::Release { handle } => either(self.tables.release(app, *handle)).into(),
            Request::LoadFile { handle, file } => self.load_own_file(app, *handle, file),
            Request::Update { handle } => self.update(app, *handle, false),
            Request::Manage { handle } => self.update(app, *handle, true),
            _ => self.other(app, request).into(),
        }
    }

    fn start(&mut self, place: usize, name: &Name<20>) -> Status {
        if self.apps[place].is_some() {
            return Status::AppRunning;
        }
        if !name.is_name() || name.text().contains(&b'.') {
            return Status::InvalidName;
        }
        self.apps[place] = Some(*name);
        Status::Success
    }

    fn register(
        &mut self,
        owner: u8,
        owner_name: &Name<20>,
        short: &Name<16>,
        size: u32,
        options: u16,
        validator: Option<u8>,
    ) -> Answer {
        if !short.is_name() {
            return Status::InvalidName.into();
        }
        if !(1..=16_384).contains(&size) {
            return Status::InvalidSize.into();
        }
        let (is_double, is_dump_only, is_critical) = match options {
            0x0000 => (false, false, false),
            0x0001 => (true, false, false),
            0x0002 => (false, true, false),
            0x0008 => (false, false, true),
            0x0009 => (true, false, true),
            _ => return Status::InvalidOptions.into(),
        };
        if validator.is_some() {
            left_out("a validation function");
        }
        let name = full_name(owner_name, short);
        let plan = Plan {
            name,
            owner,
            owner_name: *owner_name,
            size,
            is_double,
            is_dump_only,
        };
        let (status, handle) = self.tables.register(plan);
        let status = if is_critical && status == Status::Success {
            self.make_critical(&name, size)
        } else {
            status
        };
        (status, handle).into()
    }

    /// Makes a block for a table that was registered just now, so that it is critical.
    fn make_critical(&mut self, name: &Name<40>, size: u32) -> Status {
        if MOST_CRITICAL <= self.tables.critical_count() {
            return Status::NotCritical;
        }
        if self.store.has_table(name) {
            left_out("a table whose block is there");
        }
        let slot = done(self.store.reserve_table(name, size));
        match (slot, self.tables.find(name)) {
            (Some(slot), Some(row)) => {
                self.calls += 1;
                self.tables.keep(row, slot);
                Status::Success
            }
            _ => Status::NotCritical,
        }
    }

    /// The owner of a table loads an image of it.
    fn load_image(&mut self, app: u8, handle: u16, image: &[u8]) -> Reply {
        let row = match self.tables.owned(app, handle) {
            Ok(row) => row,
            Err(status) => return Answer::from(status).into(),
        };
        let answer = self.tables.load_image(row, image, self.clock);
        if answer.status != Status::Success {
            return answer.into();
        }
        self.counters.loaded_table = self.tables.table(row).name;
        self.activated(row, answer)
    }

    /// The owner of a table loads an image of it from a file.
    fn load_own_file(&mut self, app: u8, handle: u16, name: &Name<64>) -> Reply {
        let row = match self.tables.owned(app, handle) {
            Ok(row) => row,
            Err(status) => return Answer::from(status).into(),
        };
        let stored = self.drawer.iter().find(|file| file.name == *name);
        let stored = stored.map(|file| (&file.name, file.contents.as_slice()));
        let answer = self.tables.load_own_file(row, stored, self.clock);
        if answer.status != Status::Success {
            return answer.into();
        }
        self.counters.loaded_file = *name;
        self.counters.loaded_table = self.tables.table(row).name;
        self.activated(row, answer)
    }

    /// The owner of a table has its load go active, by Update or by Manage.
    fn update(&mut self, app: u8, handle: u16, is_manage: bool) -> Reply {
        let row = match self.tables.owned(app, handle) {
            Ok(row) => row,
            Err(status) => return Answer::from(status).into(),
        };
        let (status, detail) = self.tables.update(row, self.clock);
        let is_done = status == Status::Success;
        let status = match status {
            Status::Success if is_manage => Status::Updated,
            Status::NoUpdatePending if is_manage => Status::Success,
            _ => status,
        };
        let bytes = if is_manage {
            vec![u8::from(is_done) << 2]
        } else {
            Vec::new()
        };
        let answer = Answer {
            status,
            detail,
            bytes,
        };
        if is_done {
            self.activated(row, answer)
        } else {
            answer.into()
        }
    }

    /// Tells and counts that the last image of the table in a row went active, and copies that of a critical table.
    fn activated(&mut self, row: u8, answer: Answer) -> Reply {
        let mut reply = Reply::from(answer);
        let table = self.tables.table(row);
        let event = Event {
            number: 5,
            status: Status::Success,
            row: Some(row),
            detail: table.count,
        };
        self.counters.updated = self.clock;
        self.counters.updated_table = table.name;
        self.tell(&mut reply.packets, &event);
        if let Some((slot, image)) = self.tables.kept(row) {
            done(self.store.copy(slot, image));
            self.calls += 1;
        }
        reply
    }

    fn read(&mut self, app: u8, handle: u16, offset: u32, length: u32) -> Answer {
        match self.tables.read(app, handle, offset, length) {
            Ok(bytes) => Answer {
                status: Status::Success,
                detail: 0,
                bytes: bytes.to_vec(),
            },
            Err(status) => status.into(),
        }
    }

    /// The requests that come seldom.
    fn other(&mut self, app: u8, request: &Request) -> Answer {
        match request {
            Request::Share { table } => self.tables.share(app, table).into(),
            Request::Unregister { handle } => self.tables.unregister(app, *handle).into(),
            Request::GetInfo { table } => match self.tables.find(table) {
                Some(row) => {
                    let bytes = self.tables.table(row).record();
                    Answer {
                        status: Status::Success,
                        detail: 0,
                        bytes,
                    }
                }
                None => Status::InvalidName.into(),
            },
            Request::Exit => {
                self.tables.unregister_all(app);
                self.apps[usize::from(app) - 1] = None;
                Status::Success.into()
            }
            Request::GetStatus { handle } => either(self.tables.status(app, *handle)),
            Request::Validate { handle } => either(
                self.tables
                    .owned(app, *handle)
                    .map(|_| Status::NoValidationPending),
            ),
            Request::DumpToBuffer { .. } | Request::Edit { .. } => {
                left_out("what owners do with dumps")
            }
            Request::Notify { .. } => left_out("a notice"),
            _ => left_out("a request about a block"),
        }
    }
}

/// The answer of a call that has no detail and gives no bytes.
fn either(status: Result<Status, Status>) -> Answer {
    status.unwrap_or_else(|refusal| refusal).into()
}

/// What a call of the store gave that was done.
fn done<T>(outcome: io::Result<T>) -> T {
    outcome.unwrap_or_else(|_| left_out("a fault of the store"))
}

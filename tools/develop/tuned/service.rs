//! The service: its state, and what each request does.

use crate::counters::Counters;
use crate::drawer::{Drawer, FileName, Stored, FILE_HEAD};
use crate::entries::{
    header, Answer, Clock, Entries, Entry, Event, EVENT, FRONT, HEAD, HOUSEKEEPING, LENGTH, NO_ROW,
};
use crate::left_out;
use crate::names::{four_at, full_name, two_at, Name};
use crate::requests::{self, check_padding, command_name, read_packet, BadRecord, Refusal};
use crate::status::Status;
use crate::store::Store;
use crate::tables::{Plan, TableName, Tables, RECORD};
use crate::vectored;
use std::io;

/// The kinds of files, and how many bytes the registry's has before the records.
const TABLE_FILE: u32 = 8;
const REGISTRY_FILE: u32 = 9;
const REGISTRY_HEAD: usize = 64;

/// How many tables can be critical.
const MOST_CRITICAL: usize = 32;

/// Why a command is refused that is about a row.
struct Refused {
    row: u16,
    refusal: Refusal,
}

impl From<Refusal> for Refused {
    fn from(refusal: Refusal) -> Refused {
        Refused {
            row: NO_ROW,
            refusal,
        }
    }
}

/// Puts the row to why a command is refused.
fn about(row: u8) -> impl Fn(Refusal) -> Refused {
    move |refusal| Refused {
        row: u16::from(row),
        refusal,
    }
}

/// The same of a status that has no detail.
fn plainly(row: u8) -> impl Fn(Status) -> Refused {
    move |status| about(row)((status, 0))
}

/// An application that runs: its name, and the full name of a table of it up to the short name.
struct Application {
    name: Name<20>,
    front: TableName,
    front_length: usize,
}

impl Application {
    fn new(name: Name<20>) -> Application {
        Application {
            name,
            front: *full_name(&name, &Name::NONE).field(),
            front_length: name.text().len() + 1,
        }
    }

    /// The full name of its table of a short name.
    #[inline(always)]
    fn full_name(&self, short: &[u8; 16]) -> TableName {
        let mut name = self.front;
        name[self.front_length..][..16].copy_from_slice(short);
        name
    }
}

pub struct Service {
    applications: [Option<Application>; 16],
    tables: Tables,
    drawer: Drawer,
    clock: Clock,
    counters: Counters,
    entries: Entries,
    store: Store,
}

impl Service {
    /// A service over a store.
    pub fn new(store: Store) -> Service {
        Service {
            applications: [const { None }; 16],
            tables: Tables::new(),
            drawer: Drawer::new(),
            clock: Clock::default(),
            counters: Counters::new(),
            entries: Entries::new(),
            store,
        }
    }

    /// Plays a record, whose body has a length that its kind can have, and gives its entry.
    #[inline(always)]
    pub fn play(&mut self, record: &'static [u8]) -> Result<Entry, BadRecord> {
        let (head, body) = piece(record);
        let [kind, actor, ..]: [u8; 4] = *head;
        match kind {
            0x01 => Ok(self.command(body)),
            0x02 => self.file(body),
            0x03 => Ok(self.time(body)),
            0x04 => left_out("a Reset"),
            0x10 => self.start(actor, body),
            0x11 => self.register(actor, body),
            0x12 => self.share(actor, body),
            0x1F => self.get_info(actor, body),
            0x20.. => left_out("this request of an application"),
            _ => self.by_handle(kind, actor, body),
        }
    }

    // ---- the ground

    fn time(&mut self, body: &[u8]) -> Entry {
        self.clock = Clock {
            seconds: four_at(body, 0),
            sub: two_at(body, 4),
        };
        self.entries.plain(Answer::good(0))
    }

    /// Puts a file that was uplinked.
    #[inline(always)]
    fn file(&mut self, body: &'static [u8]) -> Result<Entry, BadRecord> {
        let (name, contents) = piece(body);
        let status = self.drawer.put(name, Stored::of(contents));
        if status != Status::Success {
            check_padding(name)?;
        }
        Ok(self.answer(0, status, 0))
    }

    #[inline(always)]
    fn command(&mut self, packet: &'static [u8]) -> Entry {
        match self.done(packet) {
            Ok(entry) => entry,
            Err(refused) => self.refuse(refused),
        }
    }

    /// Does what a command says.
    #[inline(always)]
    fn done(&mut self, packet: &'static [u8]) -> Result<Entry, Refused> {
        let (code, payload) = read_packet(packet)?;
        match code {
            0 => Ok(self.accept(0, NO_ROW)),
            2 => self.load(piece(payload).0),
            3 => self.dump(payload),
            4 => self.validate(payload),
            5 => self.activate(piece(payload).0),
            6 => self.dump_registry(piece(payload).0),
            7 => self.send_registry(piece(payload).0),
            requests::HOUSEKEEPING => Ok(self.housekeeping()),
            _ => left_out("this command"),
        }
    }

    /// The event of a command that was accepted, which is counted.
    fn accepted(&mut self, code: u8, row: u16) -> Event {
        self.counters.accepted = self.counters.accepted.wrapping_add(1);
        Event {
            number: 1,
            status: Status::Success,
            row,
            detail: u32::from(code),
        }
    }

    #[inline(always)]
    fn accept(&mut self, code: u8, row: u16) -> Entry {
        let events = [self.accepted(code, row)];
        self.entries
            .with_events(Answer::good(0), &[], self.clock, &events)
    }

    #[cold]
    fn refuse(&mut self, refused: Refused) -> Entry {
        self.counters.refused = self.counters.refused.wrapping_add(1);
        let (status, detail) = refused.refusal;
        let event = Event {
            number: 2,
            status,
            row: refused.row,
            detail,
        };
        let answer = Answer {
            actor: 0,
            status,
            detail,
        };
        let reply = self.buffers_in_use(status);
        self.entries
            .with_events(answer, &reply, self.clock, &[event])
    }

    /// The rows that have a shared working buffer, if a request is refused since none is free.
    fn buffers_in_use(&self, status: Status) -> Vec<u8> {
        let mut users = Vec::new();
        if status == Status::NoBufferAvail {
            users.clone_from(&self.tables.users);
            users.sort_unstable();
        }
        users
    }

    #[inline(always)]
    fn housekeeping(&mut self) -> Entry {
        let entry = self.entries.open(Answer::good(0), 0, HOUSEKEEPING);
        let packet = &mut entry[HEAD + LENGTH..];
        self.counters
            .put_housekeeping(packet, &self.tables, self.clock);
        entry.into()
    }

    /// The row of the table of a command. Its name is looked at closely only if there is no such table.
    #[inline(always)]
    fn row_of(&mut self, name: &TableName) -> Result<u8, Refusal> {
        match self.tables.find(name) {
            Some(row) => Ok(row),
            None => {
                let name = command_name(name, 1)?;
                self.tables.find(&name).ok_or((Status::NoSuchTable, 0))
            }
        }
    }

    /// The field of the file of a command, with zeros after the name. It is looked at closely only if there is no such file.
    #[inline(always)]
    fn file_name(&mut self, name: &FileName) -> Result<FileName, Refusal> {
        match self.drawer.find(name) {
            Some(_) => Ok(*name),
            None => command_name(name, 2),
        }
    }

    /// Puts a table file into the load of the table that it names.
    #[inline(always)]
    fn load(&mut self, name: &FileName) -> Result<Entry, Refused> {
        let name = self.file_name(name)?;
        let file = self.drawer.find(&name).ok_or((Status::FileNotFound, 0))?;
        let part = file.read().map_err(|status| (status, 0))?;
        let row = self.tables.find_of(&part).map_err(|status| (status, 0))?;
        let loaded = self.tables.load_file(row, &name, &part, &mut self.entries);
        loaded.map_err(about(row))?;
        self.counters.note_loaded_file(&name);
        let table = &self.tables.table(row).name;
        self.counters.note_loaded_table(table);
        Ok(self.accept(2, u16::from(row)))
    }

    /// A validation of a table that has no function is finished at once.
    #[inline(always)]
    fn validate(&mut self, payload: &[u8]) -> Result<Entry, Refused> {
        let (select, name) = piece(payload);
        let row = self.row_of(piece(name).0)?;
        let validated = self.tables.validate(row, u16::from_be_bytes(*select));
        let (check, is_active) = validated.map_err(plainly(row))?;
        let finished = Event {
            number: 3,
            status: Status::Success,
            row: u16::from(row),
            detail: 0,
        };
        let events = [self.accepted(4, u16::from(row)), finished];
        let table = &self.tables.table(row).name;
        self.counters.count_validation(table, check, is_active);
        Ok(self
            .entries
            .with_events(Answer::good(0), &[], self.clock, &events))
    }

    #[inline(always)]
    fn activate(&mut self, name: &TableName) -> Result<Entry, Refused> {
        let row = self.row_of(name)?;
        self.tables.activate(row).map_err(plainly(row))?;
        Ok(self.accept(5, u16::from(row)))
    }

    /// Puts the dump of an image of a table into a file, and gives it.
    #[inline(always)]
    fn dump(&mut self, payload: &'static [u8]) -> Result<Entry, Refused> {
        let (select, names) = piece(payload);
        let (table, names) = piece(names);
        let row = self.row_of(table);
        if let Err(refusal @ (Status::BadName, _)) = row {
            return Err(refusal.into());
        }
        let name = self.file_name(piece(names).0)?;
        let row = row?;
        let image = self.tables.dumped(row, u16::from_be_bytes(*select));
        let image = image.map_err(plainly(row))?;
        let head = self.file_head(row, image.len());
        let status = self.drawer.put(&name, Stored::of_image(head, image));
        if status != Status::Success {
            return Err(plainly(row)(status));
        }
        self.counters.note_dumped_file(&name);
        Ok(self.dumped(row, head, image))
    }

    /// The entry of a dump.
    #[inline(always)]
    fn dumped(&mut self, row: u8, head: &[u8; FILE_HEAD], image: &'static [u8]) -> Entry {
        let written = Event {
            number: 7,
            status: Status::Success,
            row: u16::from(row),
            detail: (FILE_HEAD + image.len()) as u32,
        };
        let events = [self.accepted(3, u16::from(row)), written];
        self.entries
            .with_image(Answer::good(0), (head, image), self.clock, &events)
    }

    /// Writes the file header of a file of this kind, with a text.
    #[inline(always)]
    fn put_file_head(&self, file: &mut [u8], kind: u32, text: &[u8]) {
        file[..4].copy_from_slice(b"cFE1");
        for (place, field) in [(4, kind), (8, 64), (12, 66), (16, 1)] {
            file[place..][..4].copy_from_slice(&field.to_be_bytes());
        }
        file[24..28].copy_from_slice(&self.clock.seconds.to_be_bytes());
        file[28..30].copy_from_slice(&self.clock.sub.to_be_bytes());
        file[32..][..text.len()].copy_from_slice(text);
    }

    /// What a table file of an image has before it.
    #[inline(always)]
    fn file_head(&mut self, row: u8, length: usize) -> &'static [u8; FILE_HEAD] {
        let (head, _) = piece_mut(self.entries.room(FILE_HEAD));
        self.put_file_head(head, TABLE_FILE, b"Table image");
        head[72..76].copy_from_slice(&(length as u32).to_be_bytes());
        head[76..].copy_from_slice(&self.tables.table(row).name);
        head
    }

    /// Writes the records of all tables as a file, which is the reply too.
    fn dump_registry(&mut self, name: &FileName) -> Result<Entry, Refused> {
        let name = self.file_name(name)?;
        let file = self.registry_file();
        let status = self.drawer.put(&name, Stored::of(file));
        if status != Status::Success {
            return Err((status, 0).into());
        }
        self.counters.note_dumped_file(&name);
        let written = Event {
            number: 7,
            status: Status::Success,
            row: NO_ROW,
            detail: file.len() as u32,
        };
        let events = [self.accepted(6, NO_ROW), written];
        Ok(self
            .entries
            .with_image(Answer::good(0), (&[], file), self.clock, &events))
    }

    /// The file of the registry.
    fn registry_file(&mut self) -> &'static [u8] {
        let count = self.tables.rows.len();
        let file = self.entries.room(REGISTRY_HEAD + RECORD * count);
        self.put_file_head(file, REGISTRY_FILE, b"Table registry");
        let (records, _) = file[REGISTRY_HEAD..].as_chunks_mut();
        for (record, table) in records.iter_mut().zip(&mut self.tables.rows) {
            table.put_record(record);
        }
        file
    }

    /// The registry packet of a table comes after the event.
    fn send_registry(&mut self, name: &TableName) -> Result<Entry, Refused> {
        let row = self.row_of(name)?;
        let event = self.accepted(7, u16::from(row));
        let size = FRONT + RECORD;
        let front = header(0x080C, self.counters.next_registry(), size, self.clock);
        let entry = self
            .entries
            .with_room(Answer::good(0), self.clock, &event, size);
        let packet = &mut entry[HEAD + LENGTH + EVENT..];
        packet[..FRONT].copy_from_slice(&front);
        let (record, _) = piece_mut(&mut packet[FRONT..]);
        self.tables.table(row).put_record(record);
        Ok(entry.into())
    }

    // ---- applications

    #[inline(always)]
    fn answer(&mut self, actor: u8, status: Status, detail: u32) -> Entry {
        self.entries.plain(Answer {
            actor,
            status,
            detail,
        })
    }

    /// Answers an application's request that was refused.
    #[cold]
    fn refuse_to(&mut self, app: u8, (status, detail): Refusal) -> Entry {
        let answer = Answer {
            actor: app,
            status: match status {
                Status::InvalidHandle | Status::NoAccess if self.is_unknown(app) => Status::BadApp,
                _ => status,
            },
            detail,
        };
        let reply = self.buffers_in_use(status);
        self.entries.with_reply(answer, &reply)
    }

    fn is_unknown(&self, app: u8) -> bool {
        self.applications[usize::from(app) - 1].is_none()
    }

    fn start(&mut self, app: u8, body: &[u8]) -> Result<Entry, BadRecord> {
        let name = Name::<20>::read_padded(body).ok_or(BadRecord)?;
        let status = if !self.is_unknown(app) {
            Status::AppRunning
        } else if !name.is_name() || name.text().contains(&b'.') {
            Status::InvalidName
        } else {
            self.applications[usize::from(app) - 1] = Some(Application::new(name));
            Status::Success
        };
        Ok(self.answer(app, status, 0))
    }

    #[inline(always)]
    fn register(&mut self, app: u8, body: &[u8]) -> Result<Entry, BadRecord> {
        let (short, rest) = piece(body);
        let (size, options) = (four_at(rest, 0), two_at(rest, 4));
        let Some(application) = &self.applications[usize::from(app) - 1] else {
            check_padding(short)?;
            return Ok(self.answer(app, Status::BadApp, 0));
        };
        let name = application.full_name(short);
        let found = self.tables.find(&name);
        if found.is_none() {
            check_padding(short)?;
            if !Name::<16>::read(short).is_name() {
                return Ok(self.answer(app, Status::InvalidName, 0));
            }
        }
        if !(1..=16_384).contains(&size) {
            return Ok(self.answer(app, Status::InvalidSize, 0));
        }
        if !matches!(options, 0x0000..=0x0002 | 0x0008 | 0x0009) {
            return Ok(self.answer(app, Status::InvalidOptions, 0));
        }
        if options == 0x0002 || rest[6] != 0xFF {
            left_out("a dump-only table or a validation function");
        }
        let (status, handle) = match found {
            Some(row) => self.tables.register_again(row, app, size),
            None => self.register_new(app, name, size, options),
        };
        Ok(self.answer(app, status, handle))
    }

    /// Registers a table that isn't there, and gives the status and the handle.
    fn register_new(
        &mut self,
        owner: u8,
        name: TableName,
        size: u32,
        options: u16,
    ) -> (Status, u32) {
        let application = self.applications[usize::from(owner) - 1].as_ref();
        let plan = Plan {
            name,
            owner,
            owner_name: application.map_or([0; 20], |it| *it.name.field()),
            size,
            is_double: options & 1 != 0,
        };
        match self.tables.register(&plan) {
            Ok(handle) if options & 8 != 0 => (self.make_critical(&name, size), handle.into()),
            Ok(handle) => (Status::Success, handle.into()),
            Err(status) => (status, 0),
        }
    }

    /// Makes a block for the table that was registered just now, so that it is critical.
    fn make_critical(&mut self, name: &TableName, size: u32) -> Status {
        let name = Name::read(name);
        if MOST_CRITICAL <= self.tables.critical_count() {
            return Status::NotCritical;
        }
        if self.store.has_table(&name) {
            left_out("a table whose block is there");
        }
        let slot = good(self.store.reserve_table(&name, size));
        if let Some(table) = self.tables.rows.last_mut() {
            table.slot = slot;
        }
        slot.map_or(Status::NotCritical, |_| Status::Success)
    }

    fn share(&mut self, app: u8, body: &[u8]) -> Result<Entry, BadRecord> {
        let name = piece(body).0;
        check_padding(name)?;
        if self.is_unknown(app) {
            return Ok(self.answer(app, Status::BadApp, 0));
        }
        Ok(match self.tables.share(app, name) {
            Ok(handle) => self.answer(app, Status::Success, handle.into()),
            Err(status) => self.answer(app, status, 0),
        })
    }

    #[inline(always)]
    fn get_info(&mut self, app: u8, body: &[u8]) -> Result<Entry, BadRecord> {
        let name = piece(body).0;
        let found = self.tables.find(name);
        if found.is_none() {
            check_padding(name)?;
        }
        if self.is_unknown(app) {
            return Ok(self.answer(app, Status::BadApp, 0));
        }
        let Some(row) = found else {
            return Ok(self.answer(app, Status::InvalidName, 0));
        };
        let entry = self.entries.open(Answer::good(app), RECORD, 0);
        let (record, _) = piece_mut(&mut entry[HEAD..]);
        self.tables.table(row).put_record(record);
        Ok(entry.into())
    }

    /// Plays a request about a handle.
    #[inline(always)]
    fn by_handle(&mut self, kind: u8, app: u8, body: &'static [u8]) -> Result<Entry, BadRecord> {
        let (number, body) = piece(body);
        let number = u16::from_be_bytes(*number);
        let played = match kind {
            0x14 => self.load_image(app, number, body),
            0x15 => self.load_own_file(app, number, piece(body).0)?,
            0x16 => self.update(app, number, false),
            0x18 => self.update(app, number, true),
            0x1B => self
                .tables
                .get(app, number)
                .map(|it| self.answer(app, it, 0))
                .map_err(plain),
            0x1C => self.read(app, number, body),
            0x1D => {
                let released = self.tables.release(app, number);
                released.map(|it| self.answer(app, it, 0)).map_err(plain)
            }
            _ => left_out("this request of an application"),
        };
        Ok(match played {
            Ok(entry) => entry,
            Err(refusal) => self.refuse_to(app, refusal),
        })
    }

    /// The owner of a table loads an image of it.
    #[inline(always)]
    fn load_image(&mut self, app: u8, number: u16, image: &'static [u8]) -> Result<Entry, Refusal> {
        let row = self.tables.owned(app, number).map_err(plain)?;
        self.tables.load_image(row, image, self.clock)?;
        let table = &self.tables.table(row).name;
        self.counters.note_loaded_table(table);
        Ok(self.activated(row, Answer::good(app), &[]))
    }

    /// The owner of a table loads an image of it from a file.
    #[inline(always)]
    fn load_own_file(
        &mut self,
        app: u8,
        number: u16,
        name: &FileName,
    ) -> Result<Result<Entry, Refusal>, BadRecord> {
        let found = self.drawer.find(name);
        if found.is_none() {
            check_padding(name)?;
        }
        let file = found.ok_or(Status::FileNotFound);
        let file = file.and_then(|stored| stored.read());
        let loaded = self
            .tables
            .owned(app, number)
            .map_err(plain)
            .and_then(|row| {
                let (tables, entries) = (&mut self.tables, &mut self.entries);
                tables.load_own_file(row, name, file, self.clock, entries)?;
                Ok(row)
            });
        Ok(loaded.map(|row| {
            self.counters.note_loaded_file(name);
            let table = &self.tables.table(row).name;
            self.counters.note_loaded_table(table);
            self.activated(row, Answer::good(app), &[])
        }))
    }

    /// The owner of a table has its load go active, by Update or by Manage.
    #[inline(always)]
    fn update(&mut self, app: u8, number: u16, is_manage: bool) -> Result<Entry, Refusal> {
        let row = self.tables.owned(app, number).map_err(plain)?;
        let mut answer = Answer::good(app);
        match self.tables.update(row, self.clock) {
            Ok(()) if is_manage => {
                answer.status = Status::Updated;
                Ok(self.activated(row, answer, &[4]))
            }
            Ok(()) => Ok(self.activated(row, answer, &[])),
            Err((Status::NoUpdatePending, _)) if is_manage => {
                Ok(self.entries.with_reply(answer, &[0]))
            }
            Err((status, detail)) if is_manage => {
                answer.status = status;
                answer.detail = detail;
                Ok(self.entries.with_reply(answer, &[0]))
            }
            Err(refusal) => Err(refusal),
        }
    }

    /// Counts that the last image of the table in a row went active, copies that of a critical table, and answers.
    #[inline(always)]
    fn activated(&mut self, row: u8, answer: Answer, reply: &[u8]) -> Entry {
        let table = self.tables.table(row);
        self.counters.note_update(&table.name, self.clock);
        let event = Event {
            number: 5,
            status: Status::Success,
            row: u16::from(row),
            detail: table.count,
        };
        if let (Some(slot), Some(image)) = (table.slot, &mut table.image) {
            let copy = good(self.store.begin_copy(slot, image.check_word()));
            let pieces = [&copy.head, image.bytes];
            good(vectored::write_at(&self.store.file, pieces, copy.place));
            good(self.store.end_copy(&copy));
        }
        self.entries
            .with_events(answer, reply, self.clock, &[event])
    }

    #[inline(always)]
    fn read(&mut self, app: u8, number: u16, body: &[u8]) -> Result<Entry, Refusal> {
        let (offset, length) = (four_at(body, 0), four_at(body, 4));
        let bytes = self.tables.read(app, number, offset, length);
        let bytes = bytes.map_err(plain)?;
        let answer = Answer::good(app);
        Ok(self
            .entries
            .with_image(answer, (&[], bytes), self.clock, &[]))
    }
}

/// A status that has no detail.
fn plain(status: Status) -> Refusal {
    (status, 0)
}

/// The first bytes, of which there are enough, and the others.
#[inline(always)]
fn piece<const N: usize>(bytes: &[u8]) -> (&[u8; N], &[u8]) {
    bytes
        .split_first_chunk()
        .expect("the length was looked at before")
}

/// The same of bytes that are written.
#[inline(always)]
fn piece_mut<const N: usize>(bytes: &mut [u8]) -> (&mut [u8; N], &mut [u8]) {
    bytes
        .split_first_chunk_mut()
        .expect("the length was looked at before")
}

/// What a call of the store gave that was done.
fn good<T>(outcome: io::Result<T>) -> T {
    outcome.unwrap_or_else(|_| left_out("a fault of the store"))
}

//! The registry of tables, and the handles of applications.

use crate::check_word::check_word;
use crate::left_out;
use crate::names::Name;
use crate::packets::{read_table_file, Clock, TableFile};
use crate::service::Answer;
use crate::status::Status;
use std::sync::Arc;

const TABLES: usize = 128;
const HANDLES: usize = 256;

/// How many shared working buffers there are.
const BUFFERS: usize = 4;

/// A load that isn't active yet.
struct Load {
    image: Vec<u8>,
    is_validated: bool,
    /// Whether its activation is asked.
    is_asked: bool,
}

/// A registered table.
pub struct Table {
    pub name: Name<40>,
    owner: u8,
    owner_name: Name<20>,
    pub size: u32,
    is_double: bool,
    is_dump_only: bool,
    /// The slot of its block in the Critical Data Store, where it is critical.
    slot: Option<usize>,
    /// The handle that its registration gave.
    handle: u16,
    /// How many images it has had, and the last one. An image doesn't change once it is active.
    pub count: u32,
    image: Option<Arc<[u8]>>,
    load: Option<Load>,
    /// How many handles pin an image of it.
    pins: u16,
    updated: Clock,
    file: Name<64>,
}

/// An image that a handle pins: the how manieth it is of its table, and its bytes.
struct Pin {
    number: u32,
    image: Arc<[u8]>,
}

/// A handle: whose it is, which row it leads to, how many images it was told of, and what it pins.
struct Handle {
    app: u8,
    row: Option<u8>,
    told: u32,
    pin: Option<Pin>,
}

/// All tables, all handles, and the rows that use a shared working buffer.
pub struct Tables {
    rows: [Option<Table>; TABLES],
    handles: [Option<Handle>; HANDLES],
    users: Vec<u8>,
}

/// What a registration asks for.
pub struct Plan {
    pub name: Name<40>,
    pub owner: u8,
    pub owner_name: Name<20>,
    pub size: u32,
    pub is_double: bool,
    pub is_dump_only: bool,
}

impl Table {
    fn new(plan: Plan, handle: u16) -> Table {
        let first = plan
            .is_dump_only
            .then(|| Arc::from(vec![0; plan.size as usize]));
        Table {
            name: plan.name,
            owner: plan.owner,
            owner_name: plan.owner_name,
            size: plan.size,
            is_double: plan.is_double,
            is_dump_only: plan.is_dump_only,
            slot: None,
            handle,
            count: u32::from(plan.is_dump_only),
            image: first,
            load: None,
            pins: 0,
            updated: Clock::default(),
            file: Name::NONE,
        }
    }

    /// Whether an image that a handle pins is in the way of a new one.
    fn is_locked_by(&self, pin: &Pin) -> bool {
        !self.is_double || pin.number != self.count
    }

    /// Whether the activation of its load is asked.
    pub fn is_asked(&self) -> bool {
        self.load.as_ref().is_some_and(|load| load.is_asked)
    }

    /// Why a part of an image can't go into the table, whatever is pinned.
    fn part_refusal(&self, part: &TableFile) -> Option<Status> {
        let end = u64::from(part.offset) + part.image.len() as u64;
        if part.image.is_empty() {
            Some(Status::ZeroLoad)
        } else if u64::from(self.size) < end {
            Some(Status::PastEnd)
        } else if self.image.is_none() && part.image.len() < self.size as usize {
            Some(Status::PartialLoad)
        } else {
            None
        }
    }

    /// A copy of the last image, or zeros where there is none.
    fn copied_image(&self) -> Vec<u8> {
        self.image
            .as_ref()
            .map_or_else(|| vec![0; self.size as usize], |image| image.to_vec())
    }

    /// Makes an image the last one.
    fn put(&mut self, image: Arc<[u8]>, clock: Clock) {
        self.image = Some(image);
        self.count += 1;
        self.updated = clock;
    }

    /// The registry record.
    pub fn record(&self) -> Vec<u8> {
        let state = u8::from(self.image.is_some())
            | u8::from(self.is_asked()) << 1
            | u8::from(self.is_dump_only) << 2
            | u8::from(self.is_double) << 3
            | u8::from(self.slot.is_some()) << 4
            | u8::from(self.load.is_some()) << 5;
        let check = self.image.as_deref().map_or(0, check_word);
        let mut out = Vec::with_capacity(144);
        out.extend_from_slice(&self.size.to_be_bytes());
        out.extend_from_slice(&u32::from(check).to_be_bytes());
        out.extend_from_slice(&self.count.to_be_bytes());
        out.extend_from_slice(&self.updated.seconds.to_be_bytes());
        out.extend_from_slice(&self.updated.sub.to_be_bytes());
        out.extend_from_slice(&[state, 0xFF]);
        out.extend_from_slice(self.name.field());
        out.extend_from_slice(self.owner_name.field());
        out.extend_from_slice(self.file.field());
        out
    }
}

impl Tables {
    pub fn new() -> Tables {
        Tables {
            rows: [const { None }; TABLES],
            handles: [const { None }; HANDLES],
            users: Vec::with_capacity(BUFFERS),
        }
    }

    /// How many tables are registered, how many loads are open, and how many working buffers are free.
    pub fn counts(&self) -> (u16, u16, u8) {
        let tables = self.rows.iter().flatten();
        let loads = tables.clone().filter(|table| table.load.is_some());
        (
            tables.count() as u16,
            loads.count() as u16,
            (BUFFERS - self.users.len()) as u8,
        )
    }

    /// How many tables are critical.
    pub fn critical_count(&self) -> usize {
        let slots = self.rows.iter().flatten().filter_map(|table| table.slot);
        slots.count()
    }

    /// The records of all tables, in order of their rows.
    pub fn records(&self) -> Vec<u8> {
        let records: Vec<_> = self.rows.iter().flatten().map(Table::record).collect();
        records.concat()
    }

    /// The row of the table of this full name.
    pub fn find(&self, name: &Name<40>) -> Option<u8> {
        let is_it = |row: &Option<Table>| row.as_ref().is_some_and(|table| table.name == *name);
        self.rows.iter().position(is_it).map(|row| row as u8)
    }

    /// The table of a row that has one.
    pub fn table(&self, row: u8) -> &Table {
        self.rows[usize::from(row)]
            .as_ref()
            .expect("the row has a table")
    }

    fn table_mut(&mut self, row: u8) -> &mut Table {
        self.rows[usize::from(row)]
            .as_mut()
            .expect("the row has a table")
    }

    /// Whether the application may use a handle.
    fn check_handle(&self, app: u8, number: u16) -> Result<(), Status> {
        match self.handles.get(usize::from(number)) {
            Some(Some(handle)) if handle.app == app => Ok(()),
            Some(Some(_)) => Err(Status::NoAccess),
            _ => Err(Status::InvalidHandle),
        }
    }

    /// The table of a handle, with the handle.
    fn reached(&mut self, app: u8, number: u16) -> Result<(&mut Handle, &mut Table), Status> {
        match self.handles.get_mut(usize::from(number)) {
            Some(Some(handle)) if handle.app == app => {
                let row = handle.row.ok_or(Status::Unregistered)?;
                let table = self.rows[usize::from(row)]
                    .as_mut()
                    .ok_or(Status::Unregistered)?;
                Ok((handle, table))
            }
            Some(Some(_)) => Err(Status::NoAccess),
            _ => Err(Status::InvalidHandle),
        }
    }

    /// The row of a handle's table, where the application is the table's owner.
    pub fn owned(&mut self, app: u8, number: u16) -> Result<u8, Status> {
        let (handle, table) = self.reached(app, number)?;
        match handle.row {
            Some(row) if table.owner == app => Ok(row),
            _ => Err(Status::NoAccess),
        }
    }

    // ---- registrations

    /// The number of a new handle on a row.
    fn add_handle(&mut self, app: u8, row: u8) -> Option<u16> {
        let number = self.handles.iter().position(Option::is_none)?;
        self.handles[number] = Some(Handle {
            app,
            row: Some(row),
            told: 0,
            pin: None,
        });
        Some(number as u16)
    }

    /// Registers a table, and gives the status with the handle.
    pub fn register(&mut self, plan: Plan) -> (Status, u32) {
        if let Some(row) = self.find(&plan.name) {
            let table = self.table(row);
            return if table.owner != plan.owner {
                (Status::DuplicateNotOwned, 0)
            } else if table.size != plan.size {
                (Status::DuplicateDiffSize, 0)
            } else {
                (Status::Duplicate, u32::from(table.handle))
            };
        }
        let Some(row) = self.rows.iter().position(Option::is_none) else {
            return (Status::RegistryFull, 0);
        };
        let Some(handle) = self.add_handle(plan.owner, row as u8) else {
            return (Status::HandlesFull, 0);
        };
        self.rows[row] = Some(Table::new(plan, handle));
        (Status::Success, u32::from(handle))
    }

    /// Makes the table in a row critical, with its block in a slot.
    pub fn keep(&mut self, row: u8, slot: usize) {
        self.table_mut(row).slot = Some(slot);
    }

    /// The last image of the table in a row, and the slot that it goes into, where the table is critical.
    pub fn kept(&self, row: u8) -> Option<(usize, &[u8])> {
        let table = self.table(row);
        Some((table.slot?, table.image.as_deref()?))
    }

    /// Gives a further handle on the table of a full name.
    pub fn share(&mut self, app: u8, name: &Name<40>) -> (Status, u32) {
        let Some(row) = self.find(name) else {
            return (Status::InvalidName, 0);
        };
        match self.add_handle(app, row) {
            Some(handle) => (Status::Success, u32::from(handle)),
            None => (Status::HandlesFull, 0),
        }
    }

    /// Takes a handle back, and with that of its registration a table too.
    pub fn unregister(&mut self, app: u8, number: u16) -> Status {
        if let Err(status) = self.check_handle(app, number) {
            return status;
        }
        let Some(Handle {
            row: Some(row),
            pin,
            ..
        }) = self.handles[usize::from(number)].take()
        else {
            return Status::Success;
        };
        let table = self.table_mut(row);
        table.pins -= u16::from(pin.is_some());
        if table.handle == number {
            self.rows[usize::from(row)] = None;
            self.users.retain(|user| *user != row);
            for handle in self
                .handles
                .iter_mut()
                .flatten()
                .filter(|handle| handle.row == Some(row))
            {
                handle.row = None;
                handle.pin = None;
            }
        }
        Status::Success
    }

    /// What is pending for the table of a handle.
    pub fn status(&mut self, app: u8, number: u16) -> Result<Status, Status> {
        let (_, table) = self.reached(app, number)?;
        Ok(if table.is_asked() {
            Status::UpdatePendingInfo
        } else {
            Status::Success
        })
    }

    /// Takes all handles of an application back.
    pub fn unregister_all(&mut self, app: u8) {
        for number in 0..HANDLES as u16 {
            self.unregister(app, number);
        }
    }

    // ---- loads

    /// The least handle that is in the way of a new image of the table in a row.
    fn lock(&self, row: u8) -> Option<u32> {
        let table = self.table(row);
        if table.pins == 0 {
            return None;
        }
        let locks = |handle: &Handle| {
            handle.row == Some(row)
                && handle
                    .pin
                    .as_ref()
                    .is_some_and(|pin| table.is_locked_by(pin))
        };
        let is_in_the_way = |handle: &Option<Handle>| handle.as_ref().is_some_and(locks);
        self.handles
            .iter()
            .position(is_in_the_way)
            .map(|number| number as u32)
    }

    /// Why the table in a row takes no load, as far as the shared working buffers go.
    fn buffer_refusal(&self, row: u8) -> Option<Answer> {
        if !self.table(row).is_double && self.users.len() == BUFFERS {
            let mut bytes = self.users.clone();
            bytes.sort_unstable();
            return Some(Answer {
                status: Status::NoBufferAvail,
                detail: 0,
                bytes,
            });
        }
        None
    }

    /// Why the owner can't load the table in a row, before the image is looked at.
    fn closed_refusal(&self, row: u8) -> Option<Status> {
        let table = self.table(row);
        if table.is_dump_only {
            Some(Status::DumpOnly)
        } else if table.load.is_some() {
            Some(Status::LoadInProgress)
        } else {
            None
        }
    }

    /// Why the owner's image can't go active at once.
    fn pinned_refusal(&self, row: u8) -> Option<Answer> {
        match self.lock(row) {
            Some(handle) => Some((Status::TableLocked, handle).into()),
            None => self.buffer_refusal(row),
        }
    }

    /// The owner makes an image the last one of the table in a row.
    pub fn load_image(&mut self, row: u8, image: &[u8], clock: Clock) -> Answer {
        if let Some(status) = self.closed_refusal(row) {
            return status.into();
        }
        if image.len() != self.table(row).size as usize {
            return Status::ImageSize.into();
        }
        if let Some(refusal) = self.pinned_refusal(row) {
            return refusal;
        }
        self.table_mut(row).put(Arc::from(image), clock);
        Status::Success.into()
    }

    /// The owner makes an image from a file the last one of the table in a row.
    pub fn load_own_file(
        &mut self,
        row: u8,
        stored: Option<(&Name<64>, &[u8])>,
        clock: Clock,
    ) -> Answer {
        if let Some(status) = self.closed_refusal(row) {
            return status.into();
        }
        let Some((name, contents)) = stored else {
            return Status::FileNotFound.into();
        };
        let parsed = match read_table_file(contents) {
            Ok(parsed) => parsed,
            Err(status) => return status.into(),
        };
        let table = self.table(row);
        if parsed.table != table.name {
            return Status::FileForWrongTable.into();
        }
        if let Some(status) = table.part_refusal(&parsed) {
            return status.into();
        }
        if let Some(refusal) = self.pinned_refusal(row) {
            return refusal;
        }
        let table = self.table_mut(row);
        let mut image = table.copied_image();
        image[parsed.offset as usize..][..parsed.image.len()].copy_from_slice(parsed.image);
        table.put(Arc::from(image), clock);
        table.file = *name;
        Status::Success.into()
    }

    /// The ground puts the bytes of a table file into the load of the table in a row.
    pub fn load_file(&mut self, row: u8, file: &Name<64>, parsed: &TableFile) -> Answer {
        let table = self.table(row);
        if table.is_dump_only {
            return Status::DumpOnly.into();
        }
        if table.is_asked() {
            return Status::UpdatePending.into();
        }
        if let Some(status) = table.part_refusal(parsed) {
            return status.into();
        }
        if let Some(refusal) = self.open_load(row) {
            return refusal;
        }
        let table = self.table_mut(row);
        if let Some(load) = &mut table.load {
            load.image[parsed.offset as usize..][..parsed.image.len()]
                .copy_from_slice(parsed.image);
            load.is_validated = false;
        }
        table.file = *file;
        Status::Success.into()
    }

    /// Opens a load with the table's last image where none is open, or tells why not.
    fn open_load(&mut self, row: u8) -> Option<Answer> {
        let table = self.table(row);
        if table.load.is_some() {
            return None;
        }
        if table.is_double {
            if let Some(handle) = self.lock(row) {
                return Some((Status::TableLocked, handle).into());
            }
        }
        if let Some(refusal) = self.buffer_refusal(row) {
            return Some(refusal);
        }
        if !table.is_double {
            self.users.push(row);
        }
        let table = self.table_mut(row);
        let image = table.copied_image();
        table.load = Some(Load {
            image,
            is_validated: false,
            is_asked: false,
        });
        None
    }

    /// Closes the load of the table in a row.
    fn close_load(&mut self, row: u8) -> Option<Load> {
        self.users.retain(|user| *user != row);
        self.table_mut(row).load.take()
    }

    /// Drops the load of the table in a row.
    pub fn abort_load(&mut self, row: u8) -> Status {
        if self.close_load(row).is_some() {
            Status::Success
        } else {
            Status::NoLoad
        }
    }

    /// Validates an image of the table in a row, which has no validation function, so that it is a good one. Gives its check
    /// word, and whether it is the last image.
    pub fn validate(&mut self, row: u8, select: u16) -> Result<(u16, bool), Status> {
        let table = self.table_mut(row);
        if 1 < select {
            return Err(Status::BadSelect);
        }
        if select == 1 || table.is_dump_only {
            let image = table.image.as_deref().ok_or(Status::NeverLoaded)?;
            return Ok((check_word(image), true));
        }
        let load = table.load.as_mut().ok_or(Status::NoLoad)?;
        if load.is_asked {
            return Err(Status::UpdatePending);
        }
        load.is_validated = true;
        Ok((check_word(&load.image), false))
    }

    /// The image of the table in a row that a dump writes at once.
    pub fn dumped(&self, row: u8, select: u16) -> Result<&[u8], Status> {
        let table = self.table(row);
        if 1 < select {
            return Err(Status::BadSelect);
        }
        if table.is_dump_only {
            left_out("the dump of a dump-only table");
        }
        if select == 1 {
            table.image.as_deref().ok_or(Status::NeverLoaded)
        } else {
            let load = table.load.as_ref().ok_or(Status::NoLoad)?;
            Ok(&load.image)
        }
    }

    /// Asks that the load of the table in a row goes active.
    pub fn activate(&mut self, row: u8) -> Status {
        let table = self.table_mut(row);
        if table.is_dump_only {
            return Status::DumpOnly;
        }
        match &mut table.load {
            None => Status::NoLoad,
            Some(load) if load.is_asked => Status::UpdatePending,
            Some(load) if !load.is_validated => Status::NotValidated,
            Some(load) => {
                load.is_asked = true;
                Status::Success
            }
        }
    }

    /// Makes the load of the table in a row active, where that is asked.
    pub fn update(&mut self, row: u8, clock: Clock) -> (Status, u32) {
        if !self.table(row).is_asked() {
            return (Status::NoUpdatePending, 0);
        }
        if let Some(handle) = self.lock(row) {
            return (Status::TableLocked, handle);
        }
        if let Some(load) = self.close_load(row) {
            self.table_mut(row).put(Arc::from(load.image), clock);
        }
        (Status::Success, 0)
    }

    // ---- addresses

    /// Pins the last image for a handle.
    pub fn get(&mut self, app: u8, number: u16) -> Result<Status, Status> {
        let (handle, table) = self.reached(app, number)?;
        if handle.pin.is_some() {
            return Err(Status::AlreadyPinned);
        }
        let image = table.image.clone().ok_or(Status::NeverLoaded)?;
        handle.pin = Some(Pin {
            number: table.count,
            image,
        });
        table.pins += 1;
        let is_new = handle.told < table.count;
        handle.told = table.count;
        Ok(if is_new {
            Status::Updated
        } else {
            Status::Success
        })
    }

    /// Bytes of the image that a handle pins.
    pub fn read(
        &mut self,
        app: u8,
        number: u16,
        offset: u32,
        length: u32,
    ) -> Result<&[u8], Status> {
        let (handle, _) = self.reached(app, number)?;
        let pin = handle.pin.as_ref().ok_or(Status::NotPinned)?;
        let (from, length) = (offset as usize, length as usize);
        pin.image.get(from..from + length).ok_or(Status::OutOfRange)
    }

    /// Ends the pin of a handle.
    pub fn release(&mut self, app: u8, number: u16) -> Result<Status, Status> {
        let (handle, table) = self.reached(app, number)?;
        handle.pin.take().ok_or(Status::NotPinned)?;
        table.pins -= 1;
        Ok(if handle.told < table.count {
            Status::Updated
        } else {
            Status::Success
        })
    }
}

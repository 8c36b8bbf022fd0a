//! The registry of tables, and the handles of applications. No table and no handle is given back.

use crate::check_word::check_word;
use crate::drawer::{FileName, TableFile};
use crate::entries::{Clock, Entries};
use crate::index::Index;
use crate::names::Name;
use crate::requests::Refusal;
use crate::status::Status;

const TABLES: usize = 128;
const HANDLES: usize = 256;

/// How many shared working buffers there are.
const BUFFERS: usize = 4;

/// The length of a registry record, and where its names begin: the full name, the owner's and that of the last file.
pub const RECORD: usize = 144;
const NAMES: usize = 20;
const FILE: usize = 60;

/// The field of a table's full name.
pub type TableName = [u8; 40];

/// An image, which doesn't change, with its check word once that was made.
pub struct Image {
    pub bytes: &'static [u8],
    check: Option<u16>,
}

impl Image {
    pub fn of(bytes: &'static [u8]) -> Image {
        Image { bytes, check: None }
    }

    pub fn check_word(&mut self) -> u16 {
        *self.check.get_or_insert_with(|| check_word(self.bytes))
    }
}

/// A load that isn't active yet.
struct Load {
    image: Image,
    is_validated: bool,
    /// Whether its activation is asked.
    is_asked: bool,
}

/// A registered table.
pub struct Table {
    pub name: TableName,
    /// The names of its registry record.
    names: [u8; RECORD - NAMES],
    owner: u8,
    size: u32,
    is_double: bool,
    /// The slot of its block in the Critical Data Store, if it is critical.
    pub slot: Option<usize>,
    /// The handle that its registration gave.
    handle: u16,
    /// How many images it has had, and the last one.
    pub count: u32,
    pub image: Option<Image>,
    load: Option<Load>,
    /// How many handles pin an image of it.
    pins: u16,
    updated: Clock,
}

/// An image that a handle pins: the how manieth it is of its table, and its bytes.
struct Pin {
    number: u32,
    image: &'static [u8],
}

/// A handle: whose it is, which row it leads to, how many images it was told of, and what it pins.
pub struct Handle {
    app: u8,
    row: u8,
    told: u32,
    pin: Option<Pin>,
}

/// What a registration asks for.
pub struct Plan {
    pub name: TableName,
    pub owner: u8,
    pub owner_name: [u8; 20],
    pub size: u32,
    pub is_double: bool,
}

impl Table {
    fn new(plan: &Plan, handle: u16) -> Table {
        let mut names = [0; RECORD - NAMES];
        names[..40].copy_from_slice(&plan.name);
        names[40..FILE].copy_from_slice(&plan.owner_name);
        Table {
            name: plan.name,
            names,
            owner: plan.owner,
            size: plan.size,
            is_double: plan.is_double,
            slot: None,
            handle,
            count: 0,
            image: None,
            load: None,
            pins: 0,
            updated: Clock::default(),
        }
    }

    fn is_asked(&self) -> bool {
        self.load.as_ref().is_some_and(|load| load.is_asked)
    }

    /// Why a part of an image can't go into the table, whatever is pinned.
    #[inline(always)]
    fn part_refusal(&self, part: &TableFile) -> Option<Status> {
        let end = u64::from(part.offset) + part.image.len() as u64;
        if part.image.is_empty() {
            Some(Status::ZeroLoad)
        } else if u64::from(self.size) < end {
            Some(Status::PastEnd)
        } else if self.image.is_none() && part.image.len() < self.size as usize {
            Some(Status::PartialLoad)
        } else {
            None
        }
    }

    /// The image that a part makes of its load, or of its last image if there is none. A whole one is shared.
    #[inline(always)]
    fn with_part(&self, part: &TableFile, entries: &mut Entries) -> Image {
        if part.image.len() == self.size as usize {
            return Image::of(part.image);
        }
        let load = self.load.as_ref().map(|load| &load.image);
        let whole = entries.room(self.size as usize);
        if let Some(before) = load.or(self.image.as_ref()) {
            whole.copy_from_slice(before.bytes);
        }
        whole[part.offset as usize..][..part.image.len()].copy_from_slice(part.image);
        Image::of(whole)
    }

    /// Makes an image the last one.
    fn put(&mut self, image: Image, clock: Clock) {
        self.image = Some(image);
        self.count += 1;
        self.updated = clock;
    }

    fn put_file(&mut self, file: &FileName) {
        self.names[FILE..].copy_from_slice(file);
    }

    /// Writes the registry record.
    #[inline(always)]
    pub fn put_record(&mut self, record: &mut [u8; RECORD]) {
        let state = u8::from(self.image.is_some())
            | u8::from(self.is_asked()) << 1
            | u8::from(self.is_double) << 3
            | u8::from(self.slot.is_some()) << 4
            | u8::from(self.load.is_some()) << 5;
        let check = self.image.as_mut().map_or(0, Image::check_word);
        record[..4].copy_from_slice(&self.size.to_be_bytes());
        record[4..8].copy_from_slice(&u32::from(check).to_be_bytes());
        record[8..12].copy_from_slice(&self.count.to_be_bytes());
        record[12..16].copy_from_slice(&self.updated.seconds.to_be_bytes());
        record[16..18].copy_from_slice(&self.updated.sub.to_be_bytes());
        record[18..NAMES].copy_from_slice(&[state, 0xFF]);
        record[NAMES..].copy_from_slice(&self.names);
    }
}

/// All tables, all handles, and the rows that use a shared working buffer.
pub struct Tables {
    names: Index<40>,
    pub rows: Vec<Table>,
    handles: Vec<Handle>,
    pub users: Vec<u8>,
    /// How many loads are open.
    pub loads: u16,
}

impl Tables {
    pub fn new() -> Tables {
        Tables {
            names: Index::new(),
            rows: Vec::with_capacity(TABLES),
            handles: Vec::with_capacity(HANDLES),
            users: Vec::with_capacity(BUFFERS),
            loads: 0,
        }
    }

    pub fn free_buffers(&self) -> u8 {
        (BUFFERS - self.users.len()) as u8
    }

    /// How many tables are critical.
    pub fn critical_count(&self) -> usize {
        let slots = self.rows.iter().filter_map(|table| table.slot);
        slots.count()
    }

    /// The row of the table of a full name.
    #[inline(always)]
    pub fn find(&mut self, name: &TableName) -> Option<u8> {
        self.names.find(name)
    }

    /// The same, if there may be anything after the first zero byte of the field.
    #[inline(always)]
    fn find_unpadded(&mut self, name: &TableName) -> Option<u8> {
        let found = self.find(name);
        found.or_else(|| self.find(Name::<40>::read(name).field()))
    }

    /// The row of the table of a file.
    #[inline(always)]
    pub fn find_of(&mut self, file: &TableFile) -> Result<u8, Status> {
        self.find_unpadded(file.table).ok_or(Status::NoSuchTable)
    }

    pub fn table(&mut self, row: u8) -> &mut Table {
        &mut self.rows[usize::from(row)]
    }

    /// The table of a handle, with the handle.
    #[inline(always)]
    fn reached(&mut self, app: u8, number: u16) -> Result<(&mut Handle, &mut Table), Status> {
        match self.handles.get_mut(usize::from(number)) {
            Some(handle) if handle.app == app => {
                let row = usize::from(handle.row);
                Ok((handle, &mut self.rows[row]))
            }
            Some(_) => Err(Status::NoAccess),
            None => Err(Status::InvalidHandle),
        }
    }

    /// The row of a handle's table, if the application is the table's owner.
    #[inline(always)]
    pub fn owned(&mut self, app: u8, number: u16) -> Result<u8, Status> {
        let (handle, table) = self.reached(app, number)?;
        if table.owner == app {
            Ok(handle.row)
        } else {
            Err(Status::NoAccess)
        }
    }

    // ---- registrations

    /// The number of a new handle on a row.
    fn add_handle(&mut self, app: u8, row: u8) -> Result<u16, Status> {
        if self.handles.len() == HANDLES {
            return Err(Status::HandlesFull);
        }
        self.handles.push(Handle {
            app,
            row,
            told: 0,
            pin: None,
        });
        Ok(self.handles.len() as u16 - 1)
    }

    /// Answers the registration of a table that is there, with its handle if it is the same.
    #[inline(always)]
    pub fn register_again(&self, row: u8, owner: u8, size: u32) -> (Status, u32) {
        let table = &self.rows[usize::from(row)];
        if table.owner != owner {
            (Status::DuplicateNotOwned, 0)
        } else if table.size != size {
            (Status::DuplicateDiffSize, 0)
        } else {
            (Status::Duplicate, u32::from(table.handle))
        }
    }

    /// Registers a table that isn't there, and gives the handle.
    pub fn register(&mut self, plan: &Plan) -> Result<u16, Status> {
        if self.rows.len() == TABLES {
            return Err(Status::RegistryFull);
        }
        let handle = self.add_handle(plan.owner, self.rows.len() as u8)?;
        self.names.add(&plan.name);
        self.rows.push(Table::new(plan, handle));
        Ok(handle)
    }

    /// Gives a further handle on the table of a full name.
    pub fn share(&mut self, app: u8, name: &TableName) -> Result<u16, Status> {
        let row = self.find(name).ok_or(Status::InvalidName)?;
        self.add_handle(app, row)
    }

    // ---- loads

    /// Refuses a new image of the table in a row, if a handle is in the way.
    #[inline(always)]
    fn check_lock(&self, row: u8) -> Result<(), Refusal> {
        let table = &self.rows[usize::from(row)];
        if table.pins == 0 {
            return Ok(());
        }
        let locks = |pin: &Pin| !table.is_double || pin.number != table.count;
        let is_in_the_way =
            |handle: &Handle| handle.row == row && handle.pin.as_ref().is_some_and(locks);
        match self.handles.iter().position(is_in_the_way) {
            Some(number) => Err((Status::TableLocked, number as u32)),
            None => Ok(()),
        }
    }

    /// Refuses a load of the table in a row, if it needs a shared working buffer and none is free.
    #[inline(always)]
    fn check_buffer(&self, row: u8) -> Result<(), Refusal> {
        if !self.rows[usize::from(row)].is_double && self.users.len() == BUFFERS {
            return Err((Status::NoBufferAvail, 0));
        }
        Ok(())
    }

    /// The owner makes an image the last one of the table in a row.
    #[inline(always)]
    pub fn load_image(
        &mut self,
        row: u8,
        image: &'static [u8],
        clock: Clock,
    ) -> Result<(), Refusal> {
        let table = &self.rows[usize::from(row)];
        if table.load.is_some() {
            return Err((Status::LoadInProgress, 0));
        }
        if image.len() != table.size as usize {
            return Err((Status::ImageSize, 0));
        }
        self.check_lock(row)?;
        self.check_buffer(row)?;
        self.table(row).put(Image::of(image), clock);
        Ok(())
    }

    /// The owner makes an image from a file the last one of the table in a row.
    pub fn load_own_file(
        &mut self,
        row: u8,
        name: &FileName,
        file: Result<TableFile, Status>,
        clock: Clock,
        entries: &mut Entries,
    ) -> Result<(), Refusal> {
        if self.table(row).load.is_some() {
            return Err((Status::LoadInProgress, 0));
        }
        let part = file.map_err(|status| (status, 0))?;
        if self.find_unpadded(part.table) != Some(row) {
            return Err((Status::FileForWrongTable, 0));
        }
        if let Some(status) = self.table(row).part_refusal(&part) {
            return Err((status, 0));
        }
        self.check_lock(row)?;
        self.check_buffer(row)?;
        let table = self.table(row);
        let image = table.with_part(&part, entries);
        table.put(image, clock);
        table.put_file(name);
        Ok(())
    }

    /// The ground puts the bytes of a table file into the load of the table in a row.
    #[inline(always)]
    pub fn load_file(
        &mut self,
        row: u8,
        name: &FileName,
        part: &TableFile,
        entries: &mut Entries,
    ) -> Result<(), Refusal> {
        let table = self.table(row);
        if table.is_asked() {
            return Err((Status::UpdatePending, 0));
        }
        if let Some(status) = table.part_refusal(part) {
            return Err((status, 0));
        }
        if table.load.is_none() {
            self.open_load(row)?;
        }
        let table = self.table(row);
        let image = table.with_part(part, entries);
        table.load = Some(Load {
            image,
            is_validated: false,
            is_asked: false,
        });
        table.put_file(name);
        Ok(())
    }

    /// Takes what a load of the table in a row needs.
    fn open_load(&mut self, row: u8) -> Result<(), Refusal> {
        if self.table(row).is_double {
            self.check_lock(row)?;
        } else {
            self.check_buffer(row)?;
            self.users.push(row);
        }
        self.loads += 1;
        Ok(())
    }

    /// Validates an image of the table in a row, which has no validation function, so that it is a good one. Gives its check
    /// word, and whether it is the last image.
    #[inline(always)]
    pub fn validate(&mut self, row: u8, select: u16) -> Result<(u16, bool), Status> {
        let table = self.table(row);
        match select {
            0 => {
                let load = table.load.as_mut().ok_or(Status::NoLoad)?;
                if load.is_asked {
                    return Err(Status::UpdatePending);
                }
                load.is_validated = true;
                Ok((load.image.check_word(), false))
            }
            1 => {
                let image = table.image.as_mut().ok_or(Status::NeverLoaded)?;
                Ok((image.check_word(), true))
            }
            _ => Err(Status::BadSelect),
        }
    }

    /// The image of the table in a row that a dump writes.
    #[inline(always)]
    pub fn dumped(&mut self, row: u8, select: u16) -> Result<&'static [u8], Status> {
        let table = self.table(row);
        match select {
            0 => table
                .load
                .as_ref()
                .map(|load| load.image.bytes)
                .ok_or(Status::NoLoad),
            1 => table
                .image
                .as_ref()
                .map(|image| image.bytes)
                .ok_or(Status::NeverLoaded),
            _ => Err(Status::BadSelect),
        }
    }

    /// Asks that the load of the table in a row goes active.
    #[inline(always)]
    pub fn activate(&mut self, row: u8) -> Result<(), Status> {
        let load = self.table(row).load.as_mut().ok_or(Status::NoLoad)?;
        if load.is_asked {
            Err(Status::UpdatePending)
        } else if !load.is_validated {
            Err(Status::NotValidated)
        } else {
            load.is_asked = true;
            Ok(())
        }
    }

    /// Makes the load of the table in a row active, if that is asked.
    #[inline(always)]
    pub fn update(&mut self, row: u8, clock: Clock) -> Result<(), Refusal> {
        if !self.table(row).is_asked() {
            return Err((Status::NoUpdatePending, 0));
        }
        self.check_lock(row)?;
        if let Some(place) = self.users.iter().position(|user| *user == row) {
            self.users.swap_remove(place);
        }
        self.loads -= 1;
        let table = self.table(row);
        if let Some(load) = table.load.take() {
            table.put(load.image, clock);
        }
        Ok(())
    }

    // ---- addresses

    /// Pins the last image for a handle.
    #[inline(always)]
    pub fn get(&mut self, app: u8, number: u16) -> Result<Status, Status> {
        let (handle, table) = self.reached(app, number)?;
        if handle.pin.is_some() {
            return Err(Status::AlreadyPinned);
        }
        let image = table.image.as_ref().ok_or(Status::NeverLoaded)?;
        handle.pin = Some(Pin {
            number: table.count,
            image: image.bytes,
        });
        table.pins += 1;
        let is_new = handle.told < table.count;
        handle.told = table.count;
        Ok(updated(is_new))
    }

    /// Bytes of the image that a handle pins.
    #[inline(always)]
    pub fn read(
        &mut self,
        app: u8,
        number: u16,
        offset: u32,
        length: u32,
    ) -> Result<&'static [u8], Status> {
        let (handle, _) = self.reached(app, number)?;
        let pin = handle.pin.as_ref().ok_or(Status::NotPinned)?;
        let (from, length) = (offset as usize, length as usize);
        pin.image.get(from..from + length).ok_or(Status::OutOfRange)
    }

    /// Ends the pin of a handle.
    #[inline(always)]
    pub fn release(&mut self, app: u8, number: u16) -> Result<Status, Status> {
        let (handle, table) = self.reached(app, number)?;
        handle.pin.take().ok_or(Status::NotPinned)?;
        table.pins -= 1;
        Ok(updated(handle.told < table.count))
    }
}

/// The status that says whether there is a new image.
fn updated(is_new: bool) -> Status {
    if is_new {
        Status::Updated
    } else {
        Status::Success
    }
}

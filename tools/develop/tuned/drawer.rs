//! The files, each of which is a part of the record or of the entry that it came with.

use crate::index::Index;
use crate::names::{four_at, Name};
use crate::status::Status;

/// The most files.
const FILES: usize = 64;

/// How many bytes a table file has before its image: the file's header and the table's.
pub const FILE_HEAD: usize = 116;

/// The field of a file's name.
pub type FileName = [u8; 64];

/// A file: what is before the image of a table file, and the image. Another file, which is shorter, is all head.
#[derive(Clone, Copy)]
pub struct Stored {
    head: &'static [u8],
    image: &'static [u8],
}

/// What a table file has.
pub struct TableFile {
    pub offset: u32,
    pub table: &'static [u8; 40],
    pub image: &'static [u8],
}

impl Stored {
    /// A file of these contents.
    pub fn of(contents: &'static [u8]) -> Stored {
        let (head, image) = contents.split_at(FILE_HEAD.min(contents.len()));
        Stored { head, image }
    }

    /// A table file whose image is elsewhere.
    pub fn of_image(head: &'static [u8; FILE_HEAD], image: &'static [u8]) -> Stored {
        Stored { head, image }
    }

    /// Reads it as a table file.
    #[inline(always)]
    pub fn read(&self) -> Result<TableFile, Status> {
        if self.head.len() < 64 {
            return Err(Status::NoStdHeader);
        }
        if self.head[..4] != *b"cFE1" {
            return Err(Status::BadContentId);
        }
        if self.head[4..8] != 8_u32.to_be_bytes() {
            return Err(Status::BadSubtypeId);
        }
        let Some(head) = self.head.first_chunk::<FILE_HEAD>() else {
            return Err(Status::NoTblHeader);
        };
        let Some((_, table)) = head.split_last_chunk() else {
            return Err(Status::NoTblHeader);
        };
        let stated = four_at(head, 72) as usize;
        if self.image.len() < stated {
            return Err(Status::LoadIncomplete);
        }
        if stated < self.image.len() {
            return Err(Status::FileTooLarge);
        }
        Ok(TableFile {
            offset: four_at(head, 68),
            table,
            image: self.image,
        })
    }
}

/// All files, by their names.
pub struct Drawer {
    names: Index<64>,
    files: Vec<Stored>,
}

impl Drawer {
    pub fn new() -> Drawer {
        Drawer {
            names: Index::new(),
            files: Vec::with_capacity(FILES),
        }
    }

    /// The file of a name, in whatever field that is.
    #[inline(always)]
    pub fn find(&mut self, name: &FileName) -> Option<Stored> {
        self.names
            .find(name)
            .map(|number| self.files[usize::from(number)])
    }

    /// Puts a file, if there is one of its name or if that is a name and has room.
    #[inline(always)]
    pub fn put(&mut self, name: &FileName, file: Stored) -> Status {
        match self.names.find(name) {
            Some(number) => self.files[usize::from(number)] = file,
            None if !Name::<64>::read(name).is_name() => return Status::BadName,
            None if self.files.len() == FILES => return Status::DrawerFull,
            None => {
                self.names.add(name);
                self.files.push(file);
            }
        }
        Status::Success
    }
}

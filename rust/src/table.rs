use std::fmt;
use std::sync::{Mutex, OnceLock, PoisonError};

use crate::error::{Error, ErrorKind, Result};
use crate::file::Pdb;
use crate::handle::Handle;
use crate::names::Name;
use crate::row::Row;
use crate::sys;
use crate::types::{Field, Fields};

/// The indexes below this one are those of primitive types, which have no record.
const FIRST_RECORD: u32 = 0x1000;

/// How many records a walk takes from the library at a time.
const BATCH: usize = 64;

/// A table of types or of ids, and its stream, from which records and names are borrowed.
pub(crate) struct Table {
    pub handle: Handle,
    pub range: sys::IndexRange,
    stream: Vec<u8>,
    number: u32,
    /// The index of the record that the walk of the handle gives next.
    walked: Mutex<u32>,
    /// What a whole walk gave, and how it ended, once two walks went beside one another.
    all: OnceLock<(Vec<sys::Type>, sys::Fault)>,
}

impl fmt::Debug for Table {
    fn fmt(&self, f: &mut fmt::Formatter<'_>) -> fmt::Result {
        let bytes = self.stream.len();
        f.debug_struct("Table").field("stream", &self.number).field("bytes", &bytes).finish_non_exhaustive()
    }
}

/// Whether errors tell the same stream, which is all that matters where records are compared.
impl PartialEq for Table {
    fn eq(&self, other: &Table) -> bool {
        self.number == other.number
    }
}

impl Eq for Table {}

// SAFETY, in all of this file: slices are as long as they say, and places that the library writes stay in one call.

impl Table {
    /// Opens the table in the stream of a number.
    pub fn open(pdb: &Pdb<'_>, number: u32) -> Result<Table> {
        let stream = pdb.stream(number)?;
        let handle = pdb.file.table(|file, table| unsafe { sys::pdb_types_open(file, number, table) });
        let handle = handle.map_err(|error| error.at(Some(number), None))?;
        let range = handle.value(|table, range| unsafe { sys::pdb_types_range(table, range) })?.unwrap_or_default();
        Ok(Table { handle, range, stream, number, walked: Mutex::new(range.first), all: OnceLock::new() })
    }

    /// What a call about the table gives, whose error is in its stream.
    pub fn located<T>(&self, result: Result<T>) -> Result<T> {
        result.map_err(|error| error.at(Some(self.number), None))
    }

    /// The record at a position.
    pub fn record(&self, position: &sys::Record) -> Record<'_> {
        let bytes = &self.stream[position.offset as usize..][..position.length as usize];
        Record { table: self, index: position.index, bytes, offset: position.offset }
    }

    /// The record of an index. A primitive type has an empty one.
    pub fn find(&self, index: u32) -> Result<Record<'_>> {
        let mut found = sys::FoundRecord::default();
        let fault = self.handle.call(|table| unsafe { sys::pdb_types_find(table, &index, 1, &mut found, 1, &mut 0) });
        let fault = if fault.status == sys::PDB_OK { found.fault } else { fault };
        self.located(match fault.status {
            sys::PDB_NONE if index >= FIRST_RECORD => Err(ErrorKind::TypeNotFound { index }.into()),
            sys::PDB_OK | sys::PDB_NONE => Ok(self.record(&sys::Record { index, ..found.position })),
            _ => Err(Error::of(&fault)),
        })
    }

    /// The fields of the list of an index, and if it is whole those of the lists in which it continues.
    pub fn fields(&self, list: u32, is_whole: bool) -> Result<Fields> {
        let found = self.handle.named_items(|table, to, size, count, names, room, length| unsafe {
            sys::pdb_type_fields(table, list, is_whole.into(), to, size, count, names, room, length)
        });
        let (rows, names) = self.located(found)?.unwrap_or_default();
        Ok(Fields { rows, names })
    }

    /// A walk along the table, from its first record on.
    pub fn walk(&self) -> Walk<'_> {
        let (first, batch) = (self.range.first, Box::new([sys::Type::default(); BATCH]));
        Walk { table: self, batch, at: 0, filled: 0, index: first, next: first, has_ended: false, stop: None }
    }

    /// Reads the records from an index on: how many there are, and how that ended. The index is the first one, or follows
    /// those that were read.
    fn read(&self, from: u32, rows: &mut [sys::Type; BATCH]) -> (usize, sys::Fault) {
        let mut walked = self.walked.lock().unwrap_or_else(PoisonError::into_inner);
        if from == self.range.first {
            *walked = self.rewind();
        }
        if from == *walked {
            let (count, fault) = self.read_on(rows);
            *walked = from.wrapping_add(count as u32);
            return (count, fault);
        }
        // Another walk has moved the handle's.
        let (all, end) = self.all.get_or_init(|| {
            *walked = self.rewind();
            let (mut all, mut end) = (Vec::new(), sys::Fault::default());
            while end.status == sys::PDB_OK {
                let (count, fault) = self.read_on(rows);
                all.extend_from_slice(&rows[..count]);
                *walked = walked.wrapping_add(count as u32);
                end = fault;
            }
            (all, end)
        });
        let rest = &all[from.wrapping_sub(self.range.first) as usize..];
        let count = rest.len().min(BATCH);
        rows[..count].copy_from_slice(&rest[..count]);
        (count, if count < BATCH { *end } else { sys::Fault::default() })
    }

    /// Moves the walk of the handle back, to the index that it returns.
    fn rewind(&self) -> u32 {
        self.handle.call(|table| unsafe { sys::pdb_types_rewind(table) });
        self.range.first
    }

    /// The next records of the walk of the handle.
    fn read_on(&self, rows: &mut [sys::Type; BATCH]) -> (usize, sys::Fault) {
        let (to, mut count) = (rows.as_mut_ptr(), 0);
        let fault = self.handle.call(|table| unsafe { sys::pdb_types_read(table, to, BATCH, &mut count) });
        (count, fault)
    }
}

/// A walk along a table. A record that can't be read is an error, and the walk goes on; after an error of the table
/// itself it ends.
#[derive(Debug, Clone)]
pub(crate) struct Walk<'t> {
    table: &'t Table,
    batch: Box<[sys::Type; BATCH]>,
    at: usize,
    filled: usize,
    /// The index of the record that was met last.
    pub index: u32,
    /// The index behind the batch.
    next: u32,
    has_ended: bool,
    /// The error of the table, at which the walk ends.
    pub stop: Option<Error>,
}

impl<'t> Walk<'t> {
    /// The next record, also one that can't be read.
    #[inline]
    pub fn step(&mut self) -> Option<&sys::Type> {
        if self.at == self.filled && !self.fill() {
            return None;
        }
        let it = &self.batch[self.at];
        self.at += 1;
        self.index = it.position.index;
        Some(it)
    }

    /// Takes the next records from the library, and says whether there are any.
    #[inline(never)]
    fn fill(&mut self) -> bool {
        if self.has_ended {
            return false;
        }
        let (count, fault) = self.table.read(self.next, &mut self.batch);
        (self.at, self.filled, self.next) = (0, count, self.next.wrapping_add(count as u32));
        self.has_ended = fault.status != sys::PDB_OK;
        if self.has_ended && fault.status != sys::PDB_END {
            self.stop = self.table.located::<()>(Err(Error::of(&fault))).err();
        }
        count > 0
    }
}

impl<'t> Iterator for Walk<'t> {
    type Item = Result<(Record<'t>, Row)>;

    #[inline]
    fn next(&mut self) -> Option<Self::Item> {
        let table = self.table;
        match self.step() {
            Some(it) if it.fault.status == sys::PDB_OK => Some(Ok((table.record(&it.position), Row(it.info)))),
            Some(it) => Some(Err(failed(&it.fault, table.number, it.position.offset))),
            None => self.stop.take().map(Err),
        }
    }
}

/// The error of a record, out of the way of the others.
#[cold]
#[inline(never)]
fn failed(fault: &sys::Fault, stream: u32, offset: u32) -> Error {
    Error::of(fault).at(Some(stream), Some(offset))
}

/// A call that copies items of the record of an index.
type Copies<T> = unsafe extern "C" fn(*mut sys::Handle, u32, *mut T, usize, *mut usize) -> u32;

/// A record of a table, or the empty one of a primitive type.
#[derive(Debug, Clone, Copy, PartialEq, Eq)]
pub(crate) struct Record<'t> {
    pub table: &'t Table,
    pub index: u32,
    pub bytes: &'t [u8],
    offset: u32,
}

impl<'t> Record<'t> {
    /// What a call about the record gives, whose error is in it.
    fn located<T>(&self, result: Result<T>) -> Result<T> {
        result.map_err(|error| error.at(Some(self.table.number), Some(self.offset)))
    }

    /// The kind of the record, None for a primitive type.
    pub fn kind(&self) -> Option<u16> {
        self.bytes.first_chunk().map(|kind| u16::from_le_bytes(*kind))
    }

    /// The numbers in it.
    pub fn parse(&self) -> Result<Row> {
        let row = self.table.handle.value(|table, row| unsafe { sys::pdb_type_parse(table, self.index, row) });
        Ok(Row(self.located(row)?.unwrap_or_default()))
    }

    /// The name in it, if it has one.
    pub fn name(&self) -> Result<Option<Name<'t>>> {
        Ok(self.items(1, sys::pdb_type_name)?.map(|it| borrowed(self.bytes, &it)))
    }

    /// The unique name in it, if it has one.
    pub fn unique_name(&self) -> Result<Option<Name<'t>>> {
        Ok(self.items(1, sys::pdb_type_unique_name)?.map(|it| borrowed(self.bytes, &it)))
    }

    /// The numbers that it lists, if it lists some.
    pub fn numbers(&self) -> Result<Option<Vec<u32>>> {
        self.items(4, sys::pdb_type_numbers)
    }

    /// The methods that it lists, if it is a list of them.
    pub fn methods(&self) -> Result<Option<Vec<Row>>> {
        Ok(self.items(8, sys::pdb_type_methods)?.map(|rows| rows.into_iter().map(Row).collect()))
    }

    /// What a call copies of it: items that take at least so many of its bytes each.
    fn items<T: Clone + Default>(&self, each: usize, call: Copies<T>) -> Result<Option<Vec<T>>> {
        let most = self.bytes.len() / each;
        let copy = |table, to, size, count: *mut _| unsafe { call(table, self.index, to, size, count) };
        self.located(self.table.handle.items(most, copy))
    }

    /// The fields in it, if it is a list of them, without those of the list in which it continues.
    pub fn own_fields(&self) -> Result<Vec<(Row, Name<'t>)>> {
        let fields = self.table.fields(self.index, false)?;
        let mut rest = self.bytes;
        let field = |it: Field<'_>| {
            let name = borrowed(rest, it.name.unwrap_or_default().as_bytes());
            // Names stand in the record in their order.
            rest = &rest[name.as_bytes().as_ptr_range().end as usize - rest.as_ptr() as usize..];
            (it.row, name)
        };
        Ok(fields.iter().map(field).collect())
    }
}

/// The bytes of a record that are those of a name, which was copied out of it.
fn borrowed<'t>(record: &'t [u8], name: &[u8]) -> Name<'t> {
    let place = if name.is_empty() { None } else { record.windows(name.len()).position(|it| it == name) };
    Name::new(place.map_or(&record[..0], |at| &record[at..][..name.len()]))
}

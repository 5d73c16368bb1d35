use std::fmt;
use std::sync::Arc;

use crate::error::{Error, ErrorKind, Result};
use crate::file::Pdb;
use crate::names::Name;
use crate::row::Row;
use crate::shapes::IdShape;
use crate::sys;
use crate::table::{Record, Table, Walk};

/// A table of ids: the stream that has it, and the places of its records there.
#[derive(Clone)]
pub struct Ids {
    table: Arc<Table>,
    places: Vec<sys::Record>,
    stop: Option<Error>,
}

impl fmt::Debug for Ids {
    fn fmt(&self, f: &mut fmt::Formatter<'_>) -> fmt::Result {
        f.debug_struct("Ids").field("table", &self.table).field("ids", &self.places.len()).finish_non_exhaustive()
    }
}

impl Ids {
    /// Finds the places of the records in the stream of a number, which may have types, too.
    pub(crate) fn open(pdb: &Pdb<'_>, number: u32) -> Result<Ids> {
        let table = Table::open(pdb, number)?;
        let (mut places, mut walk) = (Vec::new(), table.walk());
        while let Some(it) = walk.step() {
            places.push(it.position);
        }
        let stop = walk.stop;
        Ok(Ids { table: Arc::new(table), places, stop })
    }

    /// The index of the first id.
    pub fn first_index(&self) -> u32 {
        self.table.range.first
    }

    /// How many ids the table has, up to its end or to where it is damaged.
    pub fn len(&self) -> usize {
        self.places.len()
    }

    /// Whether the table has no id.
    pub fn is_empty(&self) -> bool {
        self.places.is_empty()
    }

    /// The id of an index.
    pub fn get(&self, index: u32) -> Result<Id<'_>> {
        let found = index.checked_sub(self.first_index()).and_then(|at| self.nth(at as usize));
        let found = self.table.located(found.ok_or(ErrorKind::TypeNotFound { index }.into()))?;
        Ok(Id::of(found, found.parse()?))
    }

    /// Each id of the table, from the first on.
    pub fn iter(&self) -> IdIter<'_> {
        IdIter(self.table.walk())
    }

    /// The record that stands at a position.
    pub(crate) fn nth(&self, at: usize) -> Option<Record<'_>> {
        self.places.get(at).map(|place| self.table.record(place))
    }

    /// The empty record of an index below the first one.
    pub(crate) fn below(&self, index: u32) -> Record<'_> {
        self.table.record(&sys::Record { index, ..sys::Record::default() })
    }

    /// Why the table ends before its end, if it does.
    pub(crate) fn stop(&self) -> Option<Error> {
        self.stop.clone()
    }
}

impl<'t> IntoIterator for &'t Ids {
    type Item = Result<Id<'t>>;
    type IntoIter = IdIter<'t>;

    fn into_iter(self) -> IdIter<'t> {
        self.iter()
    }
}

/// Each id of a table. A record that can't be read is an error, and the iterator goes on; after an error of the
/// table itself it ends.
#[derive(Debug, Clone)]
pub struct IdIter<'t>(Walk<'t>);

impl<'t> Iterator for IdIter<'t> {
    type Item = Result<Id<'t>>;

    fn next(&mut self) -> Option<Result<Id<'t>>> {
        Some(self.0.next()?.map(|(at, row)| Id::of(at, row)))
    }
}

impl std::iter::FusedIterator for IdIter<'_> {}

/// An id: its index, and the numbers in its record.
#[derive(Debug, Clone, Copy, PartialEq, Eq)]
pub struct Id<'t> {
    /// Its index.
    pub index: u32,
    /// The bytes of its record.
    pub record: &'t [u8],
    /// The numbers in its record.
    pub row: Row,
    at: Record<'t>,
}

impl<'t> Id<'t> {
    fn of(at: Record<'t>, row: Row) -> Id<'t> {
        Id { index: at.index, record: at.bytes, row, at }
    }

    /// What shape it has.
    pub fn shape(&self) -> IdShape {
        IdShape::of(self.row.0.shape)
    }

    /// The name of a function or a method, or a text; None for any other id.
    pub fn name(&self) -> Result<Option<Name<'t>>> {
        self.at.name()
    }

    /// The ids in the build information of a module, or of the parts of a text; None for any other id.
    pub fn list(&self) -> Result<Option<Vec<u32>>> {
        self.at.numbers()
    }
}

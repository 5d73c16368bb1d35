use std::fmt;
use std::marker::PhantomData;

use super::types::{IdData, TypeData};
use super::{FallibleIterator, Result};
use crate::Ids;
use crate::table::Record;

/// The indexes of a table: [`TypeIndex`] or [`IdIndex`].
pub trait ItemIndex: Copy + Default + fmt::Debug + fmt::Display + Ord + From<u32> + Into<u32> {
    /// What a record of the table says.
    type Data<'t>;

    /// Reads the record of an item.
    fn read<'t>(item: &Item<'t, Self>) -> Result<Self::Data<'t>>;

    /// Whether the item is in another module.
    fn is_cross_module(self) -> bool {
        self.into() & 1 << 31 != 0
    }
}

numbers! {
    /// The index of a type. Those below 0x1000 are of primitive types, which have no record.
    TypeIndex
    /// The index of an id.
    IdIndex
}

impl ItemIndex for TypeIndex {
    type Data<'t> = TypeData<'t>;

    fn read<'t>(item: &Item<'t, TypeIndex>) -> Result<TypeData<'t>> {
        TypeData::read(&item.record)
    }
}

impl ItemIndex for IdIndex {
    type Data<'t> = IdData<'t>;

    fn read<'t>(item: &Item<'t, IdIndex>) -> Result<IdData<'t>> {
        IdData::read(&item.record)
    }
}

/// A table of types or of ids.
#[derive(Debug)]
pub struct ItemInformation<'s, I> {
    items: Ids,
    file: PhantomData<(&'s (), I)>,
}

/// The table of types.
pub type TypeInformation<'s> = ItemInformation<'s, TypeIndex>;
/// The table of ids.
pub type IdInformation<'s> = ItemInformation<'s, IdIndex>;

impl<I: ItemIndex> ItemInformation<'_, I> {
    pub(super) fn of(items: Ids) -> Self {
        ItemInformation { items, file: PhantomData }
    }

    /// Each item, from the first on.
    pub fn iter(&self) -> ItemIter<'_, I> {
        ItemIter { items: &self.items, at: 0, has_failed: false, index: PhantomData }
    }

    /// How many items there are, up to the end or to where the table is damaged.
    pub fn len(&self) -> usize {
        self.items.len()
    }

    /// Whether there is no item.
    pub fn is_empty(&self) -> bool {
        self.items.is_empty()
    }

    /// Finds items by their indexes.
    pub fn finder(&self) -> ItemFinder<'_, I> {
        ItemFinder { items: &self.items, index: PhantomData }
    }
}

/// An item of a table, whose record is not yet read.
#[derive(Debug, Clone, Copy, PartialEq, Eq)]
pub struct Item<'t, I> {
    record: Record<'t>,
    index: PhantomData<I>,
}

/// An item of the table of types.
pub type Type<'t> = Item<'t, TypeIndex>;
/// An item of the table of ids.
pub type Id<'t> = Item<'t, IdIndex>;

impl<'t, I: ItemIndex> Item<'t, I> {
    fn of(record: Record<'t>) -> Item<'t, I> {
        Item { record, index: PhantomData }
    }

    /// Its index.
    pub fn index(&self) -> I {
        self.record.index.into()
    }

    /// The kind of its record, 0xffff for a primitive type.
    pub fn raw_kind(&self) -> u16 {
        self.record.kind().unwrap_or(0xffff)
    }

    /// What its record says.
    pub fn parse(&self) -> Result<I::Data<'t>> {
        I::read(self)
    }
}

/// The items of a table, one after another.
#[derive(Debug, Clone)]
pub struct ItemIter<'t, I> {
    items: &'t Ids,
    at: usize,
    has_failed: bool,
    index: PhantomData<I>,
}

/// The types of a table, one after another.
pub type TypeIter<'t> = ItemIter<'t, TypeIndex>;
/// The ids of a table, one after another.
pub type IdIter<'t> = ItemIter<'t, IdIndex>;

impl<'t, I: ItemIndex> FallibleIterator for ItemIter<'t, I> {
    type Item = Item<'t, I>;
    type Error = super::Error;

    fn next(&mut self) -> Result<Option<Item<'t, I>>> {
        match self.items.nth(self.at) {
            Some(record) => {
                self.at += 1;
                Ok(Some(Item::of(record)))
            }
            None => match self.items.stop() {
                Some(error) if !std::mem::replace(&mut self.has_failed, true) => Err(error.into()),
                _ => Ok(None),
            },
        }
    }
}

/// Finds the items of a table by their indexes.
#[derive(Debug, Clone)]
pub struct ItemFinder<'t, I> {
    items: &'t Ids,
    index: PhantomData<I>,
}

/// Finds types by their indexes.
pub type TypeFinder<'t> = ItemFinder<'t, TypeIndex>;
/// Finds ids by their indexes.
pub type IdFinder<'t> = ItemFinder<'t, IdIndex>;

impl<'t, I: ItemIndex> ItemFinder<'t, I> {
    /// The largest index that is found, 0 if the table is empty.
    pub fn max_index(&self) -> I {
        self.items.len().checked_sub(1).map_or(0, |last| self.items.first_index() + last as u32).into()
    }

    /// Does nothing: each item is found without it.
    pub fn update(&mut self, _iterator: &ItemIter<'t, I>) {}

    /// The item of an index.
    pub fn find(&self, index: I) -> Result<Item<'t, I>> {
        let number: u32 = index.into();
        let record = match number.checked_sub(self.items.first_index()) {
            Some(at) => self.items.nth(at as usize),
            None => Some(self.items.below(number)),
        };
        record.map(Item::of).ok_or(super::Error::TypeNotFound(number))
    }
}

//! An accepted schema table, made ready for many messages.
//!
//! "Table" is document 01's word for a schema in records of 16 bytes. A
//! `Schema` borrows the table and holds in fixed arrays what a walk asks for
//! again and again, so that preparing one allocates nothing.

use crate::wire::{i32_at, u16_at};

pub(crate) const MAX_ENUMERATIONS: usize = 64;
pub(crate) const MAX_GROUPS: usize = 64;

pub(crate) type Record = [u8; 16];

/// The value types, with document 01's numbers.
#[derive(Clone, Copy, Debug, PartialEq, Eq)]
#[repr(u8)]
pub enum Type {
    U8 = 1,
    I8,
    U16,
    I16,
    U32,
    I32,
    U64,
    I64,
    F64,
    Decimal,
    Bool,
    Date,
    Millitime,
    Nanotime,
    TimeOfDayMilli,
    TimeOfDayNano,
    String,
    Binary,
    Fixed,
    Enumeration,
    StaticGroup,
    DynamicGroup,
    AnyGroup,
}

impl Type {
    /// All types; the type with number n stands at n - 1.
    pub const ALL: [Type; 23] = [
        Type::U8,
        Type::I8,
        Type::U16,
        Type::I16,
        Type::U32,
        Type::I32,
        Type::U64,
        Type::I64,
        Type::F64,
        Type::Decimal,
        Type::Bool,
        Type::Date,
        Type::Millitime,
        Type::Nanotime,
        Type::TimeOfDayMilli,
        Type::TimeOfDayNano,
        Type::String,
        Type::Binary,
        Type::Fixed,
        Type::Enumeration,
        Type::StaticGroup,
        Type::DynamicGroup,
        Type::AnyGroup,
    ];

    #[inline]
    pub fn from_number(number: u8) -> Option<Type> {
        Type::ALL.get(usize::from(number).wrapping_sub(1)).copied()
    }

    /// The width where neither size nor reference decides it; that of the
    /// offset for values of the data area.
    #[inline]
    fn plain_width(self) -> u8 {
        match self {
            Type::U8 | Type::I8 | Type::Bool => 1,
            Type::U16 | Type::I16 => 2,
            Type::U32 | Type::I32 | Type::Date | Type::TimeOfDayMilli | Type::Enumeration => 4,
            Type::U64 | Type::I64 | Type::F64 => 8,
            Type::Millitime | Type::Nanotime | Type::TimeOfDayNano => 8,
            Type::Decimal => 9,
            Type::String | Type::Binary | Type::DynamicGroup | Type::AnyGroup => 4,
            Type::Fixed | Type::StaticGroup => 0,
        }
    }

    /// Whether some bytes are no value of this type.
    #[inline]
    fn is_judged(self) -> bool {
        !matches!(
            self,
            Type::U8
                | Type::I8
                | Type::U16
                | Type::I16
                | Type::U32
                | Type::I32
                | Type::U64
                | Type::I64
                | Type::F64
                | Type::Decimal
                | Type::Date
                | Type::Millitime
                | Type::Nanotime
                | Type::Fixed
        )
    }
}

/// What an `FD` record says. An item of a sequence has the same type, size
/// and reference as its field.
#[derive(Clone, Copy, Debug)]
pub(crate) struct Field {
    pub ty: Type,
    pub optional: bool,
    pub sequence: bool,
    /// Inline capacity, or the width of a fixed; 0 for an indirect text.
    pub size: usize,
    /// The number of an enumeration or a group.
    pub reference: usize,
}

impl Field {
    /// The field of an accepted `FD` record.
    #[inline]
    pub fn of(record: &Record) -> Field {
        Field {
            ty: Type::from_number(record[2]).expect("the table check tested the type"),
            optional: record[3] == 1,
            sequence: record[4] == 1,
            size: usize::from(record[5]),
            reference: usize::from(u16_at(record, 6)),
        }
    }

    #[inline]
    pub fn is_indirect_text(self) -> bool {
        matches!(self.ty, Type::String | Type::Binary) && self.size == 0
    }
}

/// A group of an accepted table.
#[derive(Clone, Copy)]
pub(crate) struct Group {
    /// Index of the first `FD` record.
    pub first_field: u16,
    pub field_count: u8,
    pub static_depth: u8,
    /// Whether some bytes of the group's width are no value of it.
    pub judged: bool,
    /// Bytes of all fields.
    pub width: u16,
    /// The group itself and its chain of supers, one bit for each number.
    pub line: u64,
}

impl Group {
    pub const EMPTY: Group =
        Group { first_field: 0, field_count: 0, static_depth: 0, judged: false, width: 0, line: 0 };

    /// Index of the group's own record, `GR` or `GW`.
    #[inline]
    pub fn head(&self) -> usize {
        usize::from(self.first_field) - 1
    }
}

/// An enumeration: where its `SY` records stand.
#[derive(Clone, Copy)]
pub(crate) struct Symbols {
    pub first: u16,
    pub count: u16,
}

/// The type ids, apart from the groups so that a search reads few bytes.
/// Groups without an id are not among them.
#[derive(Clone, Copy)]
pub(crate) struct Ids {
    ids: [u64; MAX_GROUPS],
    groups: [u8; MAX_GROUPS],
    count: usize,
}

impl Ids {
    pub const NONE: Ids = Ids { ids: [0; MAX_GROUPS], groups: [0; MAX_GROUPS], count: 0 };

    pub fn add(&mut self, id: u64, group: usize) {
        self.ids[self.count] = id;
        self.groups[self.count] = group as u8;
        self.count += 1;
    }

    #[inline]
    pub fn find(&self, id: u64) -> Option<usize> {
        let at = self.ids[..self.count].iter().position(|&known| known == id)?;
        Some(usize::from(self.groups[at]))
    }

    pub fn is_empty(&self) -> bool {
        self.count == 0
    }
}

/// An accepted table, prepared by [`check_table`](crate::check_table).
pub struct Schema<'t> {
    pub(crate) records: &'t [Record],
    pub(crate) enumerations: [Symbols; MAX_ENUMERATIONS],
    pub(crate) enumeration_count: usize,
    pub(crate) groups: [Group; MAX_GROUPS],
    pub(crate) group_count: usize,
    /// Whether the groups are `GW` records, with their widths.
    pub(crate) stored_widths: bool,
    pub(crate) ids: Ids,
}

impl<'t> Schema<'t> {
    /// The schema of no records, for the table check to fill in.
    pub(crate) const EMPTY: Schema<'t> = Schema {
        records: &[],
        enumerations: [Symbols { first: 0, count: 0 }; MAX_ENUMERATIONS],
        enumeration_count: 0,
        groups: [Group::EMPTY; MAX_GROUPS],
        group_count: 0,
        stored_widths: false,
        ids: Ids::NONE,
    };

    /// The group with this type id.
    #[inline]
    pub(crate) fn find_group(&self, id: u64) -> Option<&Group> {
        self.ids.find(id).map(|number| &self.groups[number])
    }

    #[inline]
    pub(crate) fn field_records(&self, group: &Group) -> &'t [Record] {
        let first = usize::from(group.first_field);
        &self.records[first..first + usize::from(group.field_count)]
    }

    #[inline]
    pub(crate) fn fields(&self, group: &Group) -> impl Iterator<Item = Field> + use<'t> {
        self.field_records(group).iter().map(Field::of)
    }

    /// Whether `value` is a symbol of the enumeration. Symbols rise, so the
    /// search can halve.
    #[inline]
    pub(crate) fn has_symbol(&self, enumeration: usize, value: i32) -> bool {
        let Symbols { first, count } = self.enumerations[enumeration];
        let first = usize::from(first);
        self.records[first..first + usize::from(count)]
            .binary_search_by_key(&value, |record| i32_at(record, 2))
            .is_ok()
    }

    /// The bytes that one item of this type has in the fields or in a
    /// sequence's body.
    #[inline]
    pub(crate) fn item_width(&self, field: Field) -> usize {
        match field.ty {
            Type::String | Type::Binary if field.size > 0 => field.size + 1,
            Type::Fixed => field.size,
            Type::StaticGroup => usize::from(self.groups[field.reference].width),
            ty => usize::from(ty.plain_width()),
        }
    }

    /// The bytes of the field's value, without the flag.
    #[inline]
    pub(crate) fn value_width(&self, field: Field) -> usize {
        if field.sequence {
            4
        } else {
            self.item_width(field)
        }
    }

    /// The bytes of the field, with its flag.
    #[inline]
    pub(crate) fn field_width(&self, field: Field) -> usize {
        self.value_width(field) + usize::from(field.optional)
    }

    /// Whether some bytes of the item's width are no value of this type, so
    /// that a check has to look at them.
    #[inline]
    pub(crate) fn is_judged(&self, field: Field) -> bool {
        match field.ty {
            Type::StaticGroup => self.groups[field.reference].judged,
            ty => ty.is_judged(),
        }
    }
}

//! The table check: faults 30 to 35 in document 01's order, then document
//! 02's faults 36 and 37.

use crate::fault::{require, Fault, FaultNumber};
use crate::schema::{Field, Group, Record, Schema, Symbols, Type, MAX_ENUMERATIONS, MAX_GROUPS};
use crate::wire::{i32_at, u16_at, u64_at};

const MAX_TABLE: usize = 65_536;
const RECORD: usize = size_of::<Record>();
const MAX_SYMBOLS: usize = 256;
const MAX_FIELDS: usize = 64;
const MAX_WIDTH: usize = 4_096;
const MAX_STATIC_DEPTH: u8 = 4;

/// Checks a schema table and prepares it for use.
pub fn check_table(table: &[u8]) -> Result<Schema<'_>, Fault> {
    let mut schema = Schema::EMPTY;
    schema.load(table)?;
    Ok(schema)
}

/// The passes of the check. Each fills in what it has found.
impl<'t> Schema<'t> {
    /// Checks the table and makes this empty schema the one of it. Filled in
    /// where it stands, a schema is not moved about.
    pub(crate) fn load(&mut self, table: &'t [u8]) -> Result<(), Fault> {
        self.split(table)?;
        self.find_parts()?;
        self.check_records()?;
        let some_id = !self.ids.is_empty();
        require(some_id, FaultNumber::TableOrder, table.len())?;
        self.measure_groups()?;
        self.check_inheritance()?;
        if self.stored_widths {
            self.check_stored_widths()?;
        }
        Ok(())
    }

    /// Fault 30, and the table as records.
    fn split(&mut self, table: &'t [u8]) -> Result<(), Fault> {
        let (records, rest) = table.as_chunks::<RECORD>();
        let whole = rest.is_empty() && !records.is_empty();
        require(whole && table.len() <= MAX_TABLE, FaultNumber::TableLength, 0)?;
        self.records = records;
        Ok(())
    }

    /// Fault 31 over all records: marks, counts, and how many of each kind.
    /// All groups have the mark of the first.
    fn find_parts(&mut self) -> Result<(), Fault> {
        let mut next = 0;
        while let Some(record) = self.records.get(next) {
            let stored_width = record[1] == b'W';
            next = match &record[..2] {
                b"EN" if self.group_count == 0 => self.find_symbols(next)?,
                b"GR" | b"GW" if self.group_count == 0 || self.stored_widths == stored_width => {
                    self.stored_widths = stored_width;
                    self.find_fields(next)?
                }
                _ => return Err(Fault::at(FaultNumber::TableShape, next * RECORD)),
            };
        }
        Ok(())
    }

    /// The `EN` record at `head` and its symbols; gives the record after them.
    fn find_symbols(&mut self, head: usize) -> Result<usize, Fault> {
        let count = usize::from(u16_at(&self.records[head], 2));
        let fits = self.enumeration_count < MAX_ENUMERATIONS && (1..=MAX_SYMBOLS).contains(&count);
        require(fits, FaultNumber::TableShape, head * RECORD)?;
        self.expect_marks(b"SY", head + 1, count)?;
        self.enumerations[self.enumeration_count] = Symbols { first: (head + 1) as u16, count: count as u16 };
        self.enumeration_count += 1;
        Ok(head + 1 + count)
    }

    /// The group's record at `head` and its fields; gives the record after
    /// them.
    fn find_fields(&mut self, head: usize) -> Result<usize, Fault> {
        let count = self.records[head][13];
        let fits = self.group_count < MAX_GROUPS && usize::from(count) <= MAX_FIELDS;
        require(fits, FaultNumber::TableShape, head * RECORD)?;
        self.expect_marks(b"FD", head + 1, usize::from(count))?;
        self.groups[self.group_count] =
            Group { first_field: (head + 1) as u16, field_count: count, ..Group::EMPTY };
        self.group_count += 1;
        Ok(head + 1 + usize::from(count))
    }

    /// `count` records with this mark, from record `first` on. A missing
    /// record stands at the table's length.
    fn expect_marks(&self, mark: &[u8; 2], first: usize, count: usize) -> Result<(), Fault> {
        for index in first..first + count {
            let due = self.records.get(index).is_some_and(|r| r[..2] == *mark);
            require(due, FaultNumber::TableShape, index * RECORD)?;
        }
        Ok(())
    }

    /// Faults 32, 33 and 34, all three on one record before the next.
    fn check_records(&mut self) -> Result<(), Fault> {
        for symbols in &self.enumerations[..self.enumeration_count] {
            self.check_enumeration(symbols)?;
        }
        for number in 0..self.group_count {
            self.check_group(number)?;
            for (index, record) in self.fields_of(number) {
                self.check_field(number, index, record)?;
            }
        }
        Ok(())
    }

    fn check_enumeration(&self, symbols: &Symbols) -> Result<(), Fault> {
        let first = usize::from(symbols.first);
        let head = first - 1;
        zero_from(&self.records[head], 4, head)?;
        let mut last = None;
        for (index, record) in (first..).zip(&self.records[first..][..usize::from(symbols.count)]) {
            zero_from(record, 6, index)?;
            let value = i32_at(record, 2);
            let rises = last.is_none_or(|last| last < value);
            require(rises, FaultNumber::TableOrder, index * RECORD)?;
            last = Some(value);
        }
        Ok(())
    }

    fn check_group(&mut self, number: usize) -> Result<(), Fault> {
        let head = self.groups[number].head();
        let record = &self.records[head];
        let id = u64_at(record, 2);
        let id_flag = match record[10] {
            0 => id == 0,
            flag => flag == 1,
        };
        require(id_flag, FaultNumber::TableNotZero, head * RECORD)?;
        if !self.stored_widths {
            zero_from(record, 14, head)?;
        }

        // The super's number plus 1, so `super_plus_1 <= number` says that
        // the super is lower.
        let super_plus_1 = usize::from(u16_at(record, 11));
        let lower = super_plus_1 <= number;
        require(lower, FaultNumber::TableOutOfRange, head * RECORD)?;
        let above = match super_plus_1 {
            0 => 0,
            _ => self.groups[super_plus_1 - 1].line,
        };
        self.groups[number].line = above | 1 << number;

        if record[10] == 1 {
            let new = self.ids.find(id).is_none();
            require(new, FaultNumber::TableOrder, head * RECORD)?;
            self.ids.add(id, number);
        }
        Ok(())
    }

    fn check_field(&self, group: usize, index: usize, record: &Record) -> Result<(), Fault> {
        let flags = record[3] <= 1 && record[4] <= 1;
        require(flags, FaultNumber::TableNotZero, index * RECORD)?;
        zero_from(record, 8, index)?;
        let in_range = Type::from_number(record[2]).is_some_and(|ty| {
            let size_fits = match ty {
                Type::String | Type::Binary => true,
                Type::Fixed => record[5] > 0,
                _ => record[5] == 0,
            };
            let reference = usize::from(u16_at(record, 6));
            let reference_fits = match ty {
                Type::Enumeration => reference < self.enumeration_count,
                Type::StaticGroup => reference < group,
                Type::DynamicGroup => reference < self.group_count,
                _ => reference == 0,
            };
            size_fits && reference_fits
        });
        require(in_range, FaultNumber::TableOutOfRange, index * RECORD)
    }

    /// Fault 35, group by group, whatever widths are stored. A static field
    /// names a lower group, so its width and depth are known by then and
    /// within bounds: each group is looked at once, however the groups name
    /// each other.
    fn measure_groups(&mut self) -> Result<(), Fault> {
        for number in 0..self.group_count {
            let mut width = 0;
            let mut depth = 0;
            let mut judged = false;
            let mut holds_empty = false;
            for (_, record) in self.fields_of(number) {
                let field = Field::of(record);
                width += self.field_width(field);
                judged |= field.optional || field.sequence || self.is_judged(field);
                if field.ty == Type::StaticGroup {
                    let named = &self.groups[field.reference];
                    depth = depth.max(named.static_depth + 1);
                    holds_empty |= named.width == 0;
                }
            }
            let group = &mut self.groups[number];
            require(
                width <= MAX_WIDTH && depth <= MAX_STATIC_DEPTH && !holds_empty,
                FaultNumber::TableWidthOrDepth,
                group.head() * RECORD,
            )?;
            group.width = width as u16;
            group.static_depth = depth;
            group.judged = judged;
        }
        Ok(())
    }

    /// Fault 36, group by group: a field list begins with the super's records.
    /// The super's own list is held against its super in turn, so a group is
    /// compared with its direct super alone.
    fn check_inheritance(&self) -> Result<(), Fault> {
        for group in &self.groups[..self.group_count] {
            let head = group.head();
            let super_plus_1 = usize::from(u16_at(&self.records[head], 11));
            if let Some(above) = super_plus_1.checked_sub(1) {
                let inherited = self.field_records(&self.groups[above]);
                let kept = self.field_records(group).starts_with(inherited);
                require(kept, FaultNumber::TableInheritance, head * RECORD)?;
            }
        }
        Ok(())
    }

    /// Fault 37, group by group: each `GW` record holds its group's width, so
    /// that `Group::width` is the stored number from here on.
    fn check_stored_widths(&self) -> Result<(), Fault> {
        for group in &self.groups[..self.group_count] {
            let stored = u16_at(&self.records[group.head()], 14);
            require(stored == group.width, FaultNumber::TableStoredWidth, group.head() * RECORD)?;
        }
        Ok(())
    }

    /// The `FD` records of a group, each with its index in the table.
    fn fields_of(&self, number: usize) -> impl Iterator<Item = (usize, &'t Record)> + use<'t> {
        let Group { first_field, field_count, .. } = self.groups[number];
        let first = usize::from(first_field);
        (first..).zip(&self.records[first..first + usize::from(field_count)])
    }
}

/// Fault 32 unless the record's bytes from `from` on are zero.
#[inline]
fn zero_from(record: &Record, from: usize, index: usize) -> Result<(), Fault> {
    let union = record[from..].iter().fold(0, |union, byte| union | byte);
    require(union == 0, FaultNumber::TableNotZero, index * RECORD)
}

//! Sheet to message, in document 01's writing order.
//!
//! Two passes over the sheet: the first tests every record and adds up the
//! message's length, so that it is known before a byte is written (a short
//! sheet can ask for a message of a billion bytes). The second one writes.

use crate::check::{check_plain, Role, EXTENSION_OFFSET, HEADER, MAX_LEVEL, MAX_MESSAGE, MIN_SIZE, WORD};
use crate::fault::{require, Fault, FaultNumber};
use crate::schema::{Field, Group, Schema, Type};
use crate::settings::Settings;
use crate::sheet::mark::{self, Mark};
use crate::utf8::is_utf8;
use crate::wire::{array_at, u32_at, u64_at, word_at};

const MAX_SHEET: usize = 1_048_576;

impl Schema<'_> {
    /// Writes the message that a sheet means and gives its length. On a
    /// refusal the output is untouched.
    pub fn sheet_to_message(&self, sheet: &[u8], output: &mut [u8]) -> Result<usize, Fault> {
        require(sheet.len() <= MAX_SHEET, FaultNumber::SheetTooLong, 0)?;
        let length = SheetCheck::message_length(self, sheet)?;
        let room = output.len().min(MAX_MESSAGE);
        require(length <= room as u64, FaultNumber::OutputTooShort, 0)?;
        let length = length as usize;
        Writer::write(self, sheet, &mut output[..length]);
        Ok(length)
    }

    /// Message to sheet to message. The sheet room is untouched when the
    /// refusal is 46 or comes before it; after 47 it holds the sheet.
    pub fn rewrite(
        &self,
        settings: Settings<'_>,
        message: &[u8],
        scratch: &mut [u8],
        sheet: &mut [u8],
        output: &mut [u8],
    ) -> Result<usize, Fault> {
        let length = self.message_to_sheet(settings, message, scratch, sheet)?;
        self.sheet_to_message(&sheet[..length], output)
    }
}

/// The mark of an item of this type.
fn item_mark(ty: Type) -> Mark {
    match ty {
        Type::String | Type::Binary => mark::TEXT,
        Type::StaticGroup => mark::STATIC_GROUP,
        Type::DynamicGroup | Type::AnyGroup => mark::GROUP,
        _ => mark::VALUE,
    }
}

/// The mark of a field that is not absent.
fn field_mark(field: Field) -> Mark {
    if field.sequence {
        mark::SEQUENCE
    } else {
        item_mark(field.ty)
    }
}

/// The first pass. All sheet faults stand at the start of their record.
struct SheetCheck<'a> {
    schema: &'a Schema<'a>,
    sheet: &'a [u8],
    at: usize,
    /// Where the record that is being read starts.
    record: usize,
    /// Bytes of the message so far.
    length: u64,
}

impl<'a> SheetCheck<'a> {
    fn message_length(schema: &'a Schema<'a>, sheet: &'a [u8]) -> Result<u64, Fault> {
        let mut check = SheetCheck { schema, sheet, at: 0, record: 0, length: 0 };
        check.open(&[mark::GROUP])?;
        check.group(1, Role::Message)?;
        require(check.at == sheet.len(), FaultNumber::BytesAfterSheet, check.at)?;
        Ok(check.length)
    }

    fn require(&self, met: bool, number: FaultNumber) -> Result<(), Fault> {
        require(met, number, self.record)
    }

    /// Reads the next record's mark, which must be one of those due.
    fn open(&mut self, due: &[Mark]) -> Result<Mark, Fault> {
        self.record = self.at;
        let mark = array_at(self.take(2)?, 0);
        self.require(due.contains(&mark), FaultNumber::MarkNotDue)?;
        Ok(mark)
    }

    /// The next bytes of the record, or fault 40.
    fn take(&mut self, count: u64) -> Result<&'a [u8], Fault> {
        let rest = &self.sheet[self.at..];
        self.require(count <= rest.len() as u64, FaultNumber::SheetEnds)?;
        self.at += count as usize;
        Ok(&rest[..count as usize])
    }

    fn word(&mut self) -> Result<u64, Fault> {
        Ok(word_at(self.take(WORD as u64)?, 0))
    }

    /// A group from its type id to its `GE`.
    fn group(&mut self, level: u8, role: Role) -> Result<(), Fault> {
        let id = u64_at(self.take(8)?, 0);
        let Some(group) = self.schema.find_group(id) else {
            return Err(Fault::at(FaultNumber::UnknownType, self.record));
        };
        self.require(role.allows(group), FaultNumber::GroupNotAllowed)?;
        self.require(level <= MAX_LEVEL, FaultNumber::TooDeep)?;
        self.length += HEADER as u64 + u64::from(group.width);
        self.fields(group, level)?;
        if self.open(&[mark::EXTENSION, mark::GROUP_END])? == mark::EXTENSION {
            self.extension(level)?;
            self.open(&[mark::GROUP_END])?;
        }
        Ok(())
    }

    fn fields(&mut self, group: &Group, level: u8) -> Result<(), Fault> {
        for field in self.schema.fields(group) {
            let due = [field_mark(field), mark::ABSENT];
            let due = if field.optional { &due[..] } else { &due[..1] };
            match self.open(due)? {
                mark::ABSENT => {}
                mark::SEQUENCE => self.sequence(field, level)?,
                _ => self.item(field, level)?,
            }
        }
        Ok(())
    }

    /// An item's record, behind its mark, and all that belongs to it.
    fn item(&mut self, field: Field, level: u8) -> Result<(), Fault> {
        match field.ty {
            Type::String | Type::Binary => self.text(field),
            Type::StaticGroup => self.fields(&self.schema.groups[field.reference], level),
            Type::DynamicGroup | Type::AnyGroup => self.group(level + 1, Role::of_field(field)),
            _ => {
                let bytes = self.take(self.schema.item_width(field) as u64)?;
                match check_plain(self.schema, field, bytes) {
                    Some(number) => Err(Fault::at(number, self.record)),
                    None => Ok(()),
                }
            }
        }
    }

    fn text(&mut self, field: Field) -> Result<(), Fault> {
        let count = self.word()?;
        let text = self.take(count)?;
        if field.is_indirect_text() {
            self.length += WORD as u64 + count;
        } else {
            let fits = count <= field.size as u64;
            self.require(fits, FaultNumber::InlineCountOverCapacity)?;
        }
        let valid = field.ty == Type::Binary || is_utf8(text);
        self.require(valid, FaultNumber::NotUtf8)
    }

    fn sequence(&mut self, field: Field, level: u8) -> Result<(), Fault> {
        let count = self.word()?;
        self.length += WORD as u64 + count * self.schema.item_width(field) as u64;
        for _ in 0..count {
            self.open(&[item_mark(field.ty)])?;
            self.item(field, level)?;
        }
        Ok(())
    }

    fn extension(&mut self, level: u8) -> Result<(), Fault> {
        let count = self.word()?;
        self.require(count > 0, FaultNumber::ExtensionOfNone)?;
        self.length += WORD as u64 + count * WORD as u64;
        for _ in 0..count {
            if self.open(&[mark::GROUP, mark::UNKNOWN_GROUP])? == mark::GROUP {
                self.group(level + 1, Role::Extension)?;
            } else {
                self.unknown_group()?;
            }
        }
        Ok(())
    }

    fn unknown_group(&mut self) -> Result<(), Fault> {
        let size = self.word()?;
        let bytes = self.take(size)?;
        self.require(size >= MIN_SIZE, FaultNumber::SizeUnder12)?;
        let known = self.schema.find_group(u64_at(bytes, 0)).is_some();
        self.require(!known, FaultNumber::KnownTypeUnopened)?;
        self.length += WORD as u64 + size;
        Ok(())
    }
}

/// The second pass, over a sheet without a fault and into an output of just
/// the message's length.
struct Writer<'a> {
    schema: &'a Schema<'a>,
    sheet: &'a [u8],
    at: usize,
    output: &'a mut [u8],
    /// The end of all that was written: where the next value goes.
    free: usize,
}

impl<'a> Writer<'a> {
    fn write(schema: &'a Schema<'a>, sheet: &'a [u8], output: &'a mut [u8]) {
        // Absent fields, unused inline bytes and missing extensions stay
        // zero.
        output.fill(0);
        let mut writer = Writer { schema, sheet, at: 0, output, free: 0 };
        writer.mark();
        writer.group();
    }

    fn take(&mut self, count: usize) -> &'a [u8] {
        let bytes = &self.sheet[self.at..self.at + count];
        self.at += count;
        bytes
    }

    fn mark(&mut self) -> Mark {
        array_at(self.take(2), 0)
    }

    fn word(&mut self) -> usize {
        u32_at(self.take(WORD), 0) as usize
    }

    fn put(&mut self, at: usize, bytes: &[u8]) {
        self.output[at..at + bytes.len()].copy_from_slice(bytes);
    }

    fn put_word(&mut self, at: usize, number: usize) {
        self.put(at, &(number as u32).to_le_bytes());
    }

    /// Room for a value, straight after all that was written before it.
    fn allot(&mut self, length: usize) -> usize {
        let at = self.free;
        self.free += length;
        at
    }

    /// The next value goes where `free` is; says so in the offset at `at`.
    fn put_offset(&mut self, at: usize) {
        self.put_word(at, self.free - at);
    }

    /// A group from its type id to its `GE`.
    fn group(&mut self) {
        let id = self.take(8);
        let group = self.schema.find_group(u64_at(id, 0)).expect("the first pass found the type");
        let start = self.allot(HEADER + usize::from(group.width));
        self.put(start + WORD, id);
        self.fields(group, start + HEADER);
        if self.mark() == mark::EXTENSION {
            self.put_offset(start + EXTENSION_OFFSET);
            self.extension();
            self.mark();
        }
        self.put_word(start, self.free - start - WORD);
    }

    fn fields(&mut self, group: &Group, mut at: usize) {
        for field in self.schema.fields(group) {
            let value = at + usize::from(field.optional);
            let mark = self.mark();
            if mark != mark::ABSENT {
                if field.optional {
                    self.output[at] = 1;
                }
                if mark == mark::SEQUENCE {
                    self.sequence(field, value);
                } else {
                    self.item(field, value);
                }
            }
            at += self.schema.field_width(field);
        }
    }

    fn item(&mut self, field: Field, at: usize) {
        match field.ty {
            Type::String | Type::Binary => self.text(field, at),
            Type::StaticGroup => self.fields(&self.schema.groups[field.reference], at),
            Type::DynamicGroup | Type::AnyGroup => {
                self.put_offset(at);
                self.group();
            }
            _ => {
                let bytes = self.take(self.schema.item_width(field));
                self.put(at, bytes);
            }
        }
    }

    fn text(&mut self, field: Field, at: usize) {
        let count = self.word();
        let text = self.take(count);
        if field.is_indirect_text() {
            self.put_offset(at);
            let location = self.allot(WORD + count);
            self.put_word(location, count);
            self.put(location + WORD, text);
        } else {
            self.output[at] = count as u8;
            self.put(at + 1, text);
        }
    }

    /// The body first; what hangs on the items follows it, in item order.
    fn sequence(&mut self, field: Field, at: usize) {
        let count = self.word();
        let width = self.schema.item_width(field);
        self.put_offset(at);
        let location = self.allot(WORD + count * width);
        self.put_word(location, count);
        for index in 0..count {
            self.mark();
            self.item(field, location + WORD + index * width);
        }
    }

    fn extension(&mut self) {
        let count = self.word();
        let location = self.allot(WORD + count * WORD);
        self.put_word(location, count);
        for index in 0..count {
            self.put_offset(location + WORD + index * WORD);
            if self.mark() == mark::GROUP {
                self.group();
            } else {
                let size = self.word();
                let bytes = self.take(size);
                let start = self.allot(WORD + size);
                self.put_word(start, size);
                self.put(start + WORD, bytes);
            }
        }
    }
}

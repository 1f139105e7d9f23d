//! Message to sheet.
//!
//! A "sheet" is document 01's word for a message's meaning: its values as
//! records in field order, whatever the layout of the data areas was.

use crate::check::{EXTENSION_OFFSET, HEADER, WORD};
use crate::fault::{require, Fault, FaultNumber};
use crate::schema::{Field, Group, Schema, Type};
use crate::settings::Settings;
use crate::wire::{u32_at, u64_at, word_at};

/// The marks of the sheet's records.
pub(crate) mod mark {
    pub type Mark = [u8; 2];

    pub const GROUP: Mark = *b"GB";
    pub const GROUP_END: Mark = *b"GE";
    pub const VALUE: Mark = *b"VA";
    pub const TEXT: Mark = *b"ST";
    pub const SEQUENCE: Mark = *b"SQ";
    pub const STATIC_GROUP: Mark = *b"SG";
    pub const ABSENT: Mark = *b"NO";
    pub const EXTENSION: Mark = *b"XT";
    pub const UNKNOWN_GROUP: Mark = *b"XU";
}

impl Schema<'_> {
    /// Writes an accepted message's sheet and gives its length. On a refusal
    /// the sheet room is untouched.
    pub fn message_to_sheet(
        &self,
        settings: Settings<'_>,
        message: &[u8],
        scratch: &mut [u8],
        sheet: &mut [u8],
    ) -> Result<usize, Fault> {
        self.check_message(settings, message, scratch)?;
        let mut length = Length(0);
        Lister::new(self, message, &mut length).group(0);
        let fits = length.0 <= sheet.len();
        require(fits, FaultNumber::SheetRoomTooShort, 0)?;
        Lister::new(self, message, &mut Room { bytes: sheet, at: 0 }).group(0);
        Ok(length.0)
    }
}

/// Where records go.
trait Sink {
    fn put(&mut self, bytes: &[u8]);
}

/// Counts the bytes.
struct Length(usize);

impl Sink for Length {
    #[inline]
    fn put(&mut self, bytes: &[u8]) {
        self.0 += bytes.len();
    }
}

/// Writes the bytes to room that is known to be long enough.
struct Room<'s> {
    bytes: &'s mut [u8],
    at: usize,
}

impl Sink for Room<'_> {
    #[inline]
    fn put(&mut self, bytes: &[u8]) {
        let end = self.at + bytes.len();
        self.bytes[self.at..end].copy_from_slice(bytes);
        self.at = end;
    }
}

/// Lists the values of a message that was accepted, so nothing is tested.
struct Lister<'a, S> {
    schema: &'a Schema<'a>,
    message: &'a [u8],
    sink: &'a mut S,
}

impl<'a, S: Sink> Lister<'a, S> {
    fn new(schema: &'a Schema<'a>, message: &'a [u8], sink: &'a mut S) -> Self {
        Lister { schema, message, sink }
    }

    fn record(&mut self, mark: mark::Mark, from: usize, length: usize) {
        self.sink.put(&mark);
        self.sink.put(&self.message[from..from + length]);
    }

    /// Where the offset at `at` leads.
    fn target(&self, at: usize) -> usize {
        at + u32_at(self.message, at) as usize
    }

    fn group(&mut self, start: usize) {
        let group = self
            .schema
            .find_group(u64_at(self.message, start + WORD))
            .expect("an accepted group's type is known");
        self.record(mark::GROUP, start + WORD, 8);
        self.fields(group, start + HEADER);
        self.extension(start + EXTENSION_OFFSET);
        self.sink.put(&mark::GROUP_END);
    }

    fn fields(&mut self, group: &Group, mut at: usize) {
        for field in self.schema.fields(group) {
            let next = at + self.schema.field_width(field);
            if field.optional && self.message[at] == 0 {
                self.sink.put(&mark::ABSENT);
            } else {
                let value = at + usize::from(field.optional);
                if field.sequence {
                    self.sequence(field, value);
                } else {
                    self.item(field, value);
                }
            }
            at = next;
        }
    }

    fn item(&mut self, field: Field, at: usize) {
        match field.ty {
            Type::String | Type::Binary if field.size > 0 => {
                let count = self.message[at];
                self.sink.put(&mark::TEXT);
                self.sink.put(&u32::from(count).to_le_bytes());
                self.sink.put(&self.message[at + 1..at + 1 + usize::from(count)]);
            }
            Type::String | Type::Binary => {
                let location = self.target(at);
                let count = u32_at(self.message, location) as usize;
                self.record(mark::TEXT, location, WORD + count);
            }
            Type::StaticGroup => {
                self.sink.put(&mark::STATIC_GROUP);
                self.fields(&self.schema.groups[field.reference], at);
            }
            Type::DynamicGroup | Type::AnyGroup => self.group(self.target(at)),
            _ => self.record(mark::VALUE, at, self.schema.item_width(field)),
        }
    }

    fn sequence(&mut self, field: Field, at: usize) {
        let location = self.target(at);
        let count = u32_at(self.message, location) as usize;
        let width = self.schema.item_width(field);
        self.record(mark::SEQUENCE, location, WORD);
        for index in 0..count {
            self.item(field, location + WORD + index * width);
        }
    }

    /// The extension whose offset stands at `at`. One of no groups means the
    /// same as none and leaves no record.
    fn extension(&mut self, at: usize) {
        if u32_at(self.message, at) == 0 {
            return;
        }
        let location = self.target(at);
        let count = u32_at(self.message, location) as usize;
        if count == 0 {
            return;
        }
        self.record(mark::EXTENSION, location, WORD);
        for index in 0..count {
            let start = self.target(location + WORD + index * WORD);
            let id = u64_at(self.message, start + WORD);
            if self.schema.find_group(id).is_some() {
                self.group(start);
            } else {
                let size = word_at(self.message, start) as usize;
                self.record(mark::UNKNOWN_GROUP, start, WORD + size);
            }
        }
    }
}

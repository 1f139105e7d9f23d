//! The message check: document 01's walk, first fault wins.
//!
//! All positions are positions in the whole message, so a place never has to
//! be translated. Sums of offsets, counts and widths are made in 64 bits.

use crate::area::{Area, Marks};
use crate::fault::{require, Fault, FaultNumber};
use crate::schema::{Field, Group, Schema, Type};
use crate::settings::{Ignored, Settings};
use crate::utf8::is_utf8;
use crate::wire::{first_nonzero, i32_at, u32_at, u64_at, word_at};

/// The most bytes a message may have.
pub(crate) const MAX_MESSAGE: usize = 65_536;
/// The last level; the message itself is level 1.
pub(crate) const MAX_LEVEL: u8 = 8;
/// Type id and extension offset: the least size of a group.
pub(crate) const MIN_SIZE: u64 = 12;
/// Size word, type id and extension offset stand before the fields.
pub(crate) const HEADER: usize = 16;
/// Where in a group the extension offset stands.
pub(crate) const EXTENSION_OFFSET: usize = 12;
/// The width of an offset, a count or a size.
pub(crate) const WORD: usize = 4;

const DAY_MILLIS: u32 = 86_400_000;
const DAY_NANOS: u64 = 86_400_000_000_000;

/// Where a dynamic group stands, which decides what it may be.
#[derive(Clone, Copy)]
pub(crate) enum Role {
    /// The message itself.
    Message,
    /// The value of a field, or an item, of type 23.
    Any,
    /// The value of a field, or an item, of type 22: the named group or one
    /// below it.
    Below(usize),
    /// A group of an extension.
    Extension,
}

impl Role {
    /// The role of the groups that a field of type 22 or 23 holds.
    #[inline]
    pub fn of_field(field: Field) -> Role {
        match field.ty {
            Type::DynamicGroup => Role::Below(field.reference),
            _ => Role::Any,
        }
    }

    /// Fault 25's test.
    #[inline]
    pub fn allows(self, group: &Group) -> bool {
        match self {
            Role::Below(named) => group.line >> named & 1 == 1,
            Role::Message | Role::Any | Role::Extension => true,
        }
    }
}

impl Schema<'_> {
    /// Checks one message. The scratch must be as long as the message.
    pub fn check_message(
        &self,
        settings: Settings<'_>,
        message: &[u8],
        scratch: &mut [u8],
    ) -> Result<(), Fault> {
        require(message.len() <= MAX_MESSAGE, FaultNumber::MessageTooLong, 0)?;
        let Some(scratch) = scratch.get_mut(..message.len()) else {
            return Err(Fault::at(FaultNumber::ScratchTooShort, 0));
        };
        let ignored = settings.ignored()?;
        let verdict = self.check_bytes(message, Marks::new(scratch), ignored);
        scratch.fill(0);
        verdict
    }

    /// Fault 22, then the walk.
    fn check_bytes(&self, message: &[u8], marks: Marks, ignored: Ignored) -> Result<(), Fault> {
        let framed = message.len() >= WORD && message.len() as u64 == WORD as u64 + word_at(message, 0);
        require(framed, FaultNumber::LengthNotSize, 0)?;
        let mut walk = Walk { schema: self, message, marks, ignored };
        walk.group(0, message.len(), 1, Role::Message)
    }
}

/// Faults 10, 11 and 12 of a value of fixed width, if it has one.
#[inline]
pub(crate) fn check_plain(schema: &Schema, field: Field, bytes: &[u8]) -> Option<FaultNumber> {
    let (met, number) = match field.ty {
        Type::Bool => (bytes[0] <= 1, FaultNumber::NotZeroOrOne),
        Type::TimeOfDayMilli => (u32_at(bytes, 0) < DAY_MILLIS, FaultNumber::TimeOfDayOver24Hours),
        Type::TimeOfDayNano => (u64_at(bytes, 0) < DAY_NANOS, FaultNumber::TimeOfDayOver24Hours),
        Type::Enumeration => {
            (schema.has_symbol(field.reference, i32_at(bytes, 0)), FaultNumber::NoSuchSymbol)
        }
        _ => return None,
    };
    (!met).then_some(number)
}

struct Walk<'a> {
    schema: &'a Schema<'a>,
    message: &'a [u8],
    marks: Marks<'a>,
    ignored: Ignored,
}

impl Walk<'_> {
    /// The dynamic group in `start..end`, which is 4 + size bytes.
    fn group(&mut self, start: usize, end: usize, level: u8, role: Role) -> Result<(), Fault> {
        let size = word_at(self.message, start);
        require(size >= MIN_SIZE, FaultNumber::SizeUnder12, start)?;
        let id = u64_at(self.message, start + WORD);
        let Some(group) = self.schema.find_group(id) else {
            // An extension group of unknown type is kept as bytes: no fault,
            // at no level, and its contents are not judged.
            let kept = matches!(role, Role::Extension);
            return require(kept, FaultNumber::UnknownType, start);
        };
        require(role.allows(group), FaultNumber::GroupNotAllowed, start)?;
        require(level <= MAX_LEVEL, FaultNumber::TooDeep, start)?;
        let width = usize::from(group.width);
        let fits = size - MIN_SIZE >= width as u64;
        require(fits, FaultNumber::SizeBelowWidth, start)?;

        let fields = start + HEADER;
        let mut area = Area::new(fields + width, end, level);
        let extension = self.extension_location(start, &area)?;
        self.fields(group, fields, &mut area, level)?;
        if let Some(location) = extension {
            self.extension(location, &mut area, level)?;
        }
        if self.ignored.pads {
            return Ok(());
        }
        match area.first_bad_pad(&self.marks, self.message) {
            Some(place) => Err(Fault::at(FaultNumber::PadNotZero, place)),
            None => Ok(()),
        }
    }

    /// Fault 3. A zero offset says that there is no extension.
    fn extension_location(&self, start: usize, area: &Area) -> Result<Option<usize>, Fault> {
        let at = start + EXTENSION_OFFSET;
        match u32_at(self.message, at) {
            0 => Ok(None),
            _ => self.location(at, area, FaultNumber::ExtensionOutsideArea).map(Some),
        }
    }

    /// Where the offset at `at` leads: a byte of the data area, or `number`.
    #[inline]
    fn location(&self, at: usize, area: &Area, number: FaultNumber) -> Result<usize, Fault> {
        let location = at as u64 + word_at(self.message, at);
        let inside = area.start as u64 <= location && location < area.end as u64;
        require(inside, number, at)?;
        Ok(location as usize)
    }

    /// All fields of a dynamic or static group, the first one at `at`.
    fn fields(&mut self, group: &Group, mut at: usize, area: &mut Area, level: u8) -> Result<(), Fault> {
        if !group.judged {
            return Ok(());
        }
        for field in self.schema.fields(group) {
            let width = self.schema.value_width(field);
            if field.optional {
                let flag = self.message[at];
                require(flag <= 1, FaultNumber::NotZeroOrOne, at)?;
                at += 1;
                if flag == 0 {
                    self.absent(at, width)?;
                    at += width;
                    continue;
                }
            }
            if field.sequence {
                self.sequence(field, at, area, level)?;
            } else if self.schema.is_judged(field) {
                self.item(field, at, area, level)?;
            }
            at += width;
        }
        Ok(())
    }

    /// Fault 4: an absent field's bytes are zero.
    fn absent(&self, at: usize, width: usize) -> Result<(), Fault> {
        if self.ignored.absent {
            return Ok(());
        }
        match first_nonzero(&self.message[at..at + width]) {
            Some(index) => Err(Fault::at(FaultNumber::AbsentNotZero, at + index)),
            None => Ok(()),
        }
    }

    /// A value that is no sequence: a field's, or an item's.
    #[inline]
    fn item(&mut self, field: Field, at: usize, area: &mut Area, level: u8) -> Result<(), Fault> {
        match field.ty {
            Type::String | Type::Binary if field.size > 0 => self.inline_text(field, at),
            Type::String | Type::Binary => self.indirect_text(field, at, area),
            Type::StaticGroup => {
                let group = &self.schema.groups[field.reference];
                self.fields(group, at, area, level)
            }
            Type::DynamicGroup | Type::AnyGroup => self.dynamic_group(at, area, level, Role::of_field(field)),
            _ => match check_plain(self.schema, field, &self.message[at..]) {
                Some(number) => Err(Fault::at(number, at)),
                None => Ok(()),
            },
        }
    }

    fn inline_text(&self, field: Field, at: usize) -> Result<(), Fault> {
        let count = usize::from(self.message[at]);
        let fits = count <= field.size;
        require(fits, FaultNumber::InlineCountOverCapacity, at)?;
        let (text, unused) = self.message[at + 1..at + 1 + field.size].split_at(count);
        let unused = if self.ignored.unused { &[] } else { unused };
        if let Some(index) = first_nonzero(unused) {
            let place = at + 1 + count + index;
            return Err(Fault::at(FaultNumber::UnusedInlineNotZero, place));
        }
        let valid = field.ty == Type::Binary || is_utf8(text);
        require(valid, FaultNumber::NotUtf8, at + 1)
    }

    fn indirect_text(&mut self, field: Field, at: usize, area: &mut Area) -> Result<(), Fault> {
        let location = self.location(at, area, FaultNumber::OffsetOutsideArea)?;
        let end = self.take(location, 1, FaultNumber::ValuePastArea, area)?;
        let text = location + WORD;
        let valid = field.ty == Type::Binary || is_utf8(&self.message[text..end]);
        require(valid, FaultNumber::NotUtf8, text)
    }

    fn dynamic_group(&mut self, at: usize, area: &mut Area, level: u8, role: Role) -> Result<(), Fault> {
        let location = self.location(at, area, FaultNumber::OffsetOutsideArea)?;
        let end = self.take(location, 1, FaultNumber::ValuePastArea, area)?;
        self.group(location, end, level + 1, role)
    }

    fn sequence(&mut self, field: Field, at: usize, area: &mut Area, level: u8) -> Result<(), Fault> {
        let location = self.location(at, area, FaultNumber::OffsetOutsideArea)?;
        let width = self.schema.item_width(field);
        let end = self.take(location, width, FaultNumber::ItemsPastArea, area)?;
        if !self.schema.is_judged(field) {
            return Ok(());
        }
        for item in (location + WORD..end).step_by(width) {
            self.item(field, item, area, level)?;
        }
        Ok(())
    }

    /// A sequence of any groups; fault 3 was tested before the fields.
    fn extension(&mut self, location: usize, area: &mut Area, level: u8) -> Result<(), Fault> {
        let end = self.take(location, WORD, FaultNumber::ItemsPastArea, area)?;
        for item in (location + WORD..end).step_by(WORD) {
            self.dynamic_group(item, area, level, Role::Extension)?;
        }
        Ok(())
    }

    /// Takes a value of the data area: a count or size word and that many
    /// units of `width` bytes. Fault 26 for the word, `rest` for the units,
    /// then 27. Gives the value's end.
    #[inline]
    fn take(
        &mut self,
        location: usize,
        width: usize,
        rest: FaultNumber,
        area: &mut Area,
    ) -> Result<usize, Fault> {
        let body = location + WORD;
        require(body <= area.end, FaultNumber::ValuePastArea, location)?;
        let end = body as u64 + word_at(self.message, location) * width as u64;
        require(end <= area.end as u64, rest, location)?;
        let end = end as usize;
        let free = area.take(&mut self.marks, location, end);
        require(free, FaultNumber::ByteTaken, location)?;
        Ok(end)
    }
}

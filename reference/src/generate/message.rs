//! Messages as trees of values, made at random, and their bytes: the sheet,
//! the canonical message, and messages in other layouts.
//!
//! Nothing here uses the library, so a tree's bytes are a second opinion on
//! what the library answers.

use super::random::Random;
use super::table::{random_id, FieldPlan, TablePlan};
use super::text::random_text;
use crate::Type;

#[derive(Clone, Debug)]
pub enum Value {
    Absent,
    /// Wire bytes of types 1..16, 19 and 20.
    Plain(Vec<u8>),
    Text(Vec<u8>),
    Sequence(Vec<Value>),
    Static(Vec<Value>),
    Group(GroupValue),
}

#[derive(Clone, Debug)]
pub struct GroupValue {
    /// The group's number in the table.
    pub number: usize,
    pub values: Vec<Value>,
    /// None, or a list that may be empty.
    pub extension: Option<Vec<ExtensionGroup>>,
}

#[derive(Clone, Debug)]
pub enum ExtensionGroup {
    Known(GroupValue),
    /// The bytes after the size word.
    Unknown(Vec<u8>),
}

/// What stands at a place of a message, so that it can be damaged to effect.
#[derive(Clone, Copy, Debug, PartialEq, Eq)]
pub enum Spot {
    GroupSize,
    TypeId,
    ExtensionOffset,
    Offset,
    TextCount,
    ItemCount,
    Flag,
    Bool,
    MilliOfDay,
    NanoOfDay,
    Symbol,
    /// Of this capacity.
    InlineCount(u8),
    /// The last of this many bytes.
    UnusedInline(usize),
    /// The last of this many bytes.
    AbsentByte(usize),
    /// This many bytes.
    Pad(usize),
    /// Text of this length that must be UTF-8.
    Text(usize),
}

/// A message and what stands where in it.
#[derive(Clone, Debug, Default)]
pub struct Layout {
    pub bytes: Vec<u8>,
    pub spots: Vec<(Spot, usize)>,
}

/// Draws a message tree, or nothing if no group of the table can be filled.
pub fn random_message(random: &mut Random, plan: &TablePlan) -> Option<GroupValue> {
    let number = random.pick(&plan.groups_with_id());
    random_message_of(random, plan, number)
}

/// The same of the group with this number, which has an id.
pub fn random_message_of(random: &mut Random, plan: &TablePlan, number: usize) -> Option<GroupValue> {
    Draw { random, plan, budget: 24 }.group(number, 1)
}

struct Draw<'a> {
    random: &'a mut Random,
    plan: &'a TablePlan,
    /// How many more values may be drawn where none has to be.
    budget: usize,
}

impl Draw<'_> {
    fn group(&mut self, number: usize, level: usize) -> Option<GroupValue> {
        if level > 8 || self.budget == 0 {
            return None;
        }
        self.budget -= 1;
        let values = self.values(number, level)?;
        let extension = match self.random.below(6) {
            0 => Some(self.extension(level)),
            1 if self.random.one_in(3) => Some(Vec::new()),
            _ => None,
        };
        Some(GroupValue { number, values, extension })
    }

    fn values(&mut self, number: usize, level: usize) -> Option<Vec<Value>> {
        let fields = &self.plan.groups[number].fields;
        fields.iter().map(|&field| self.field(field, level)).collect()
    }

    fn field(&mut self, field: FieldPlan, level: usize) -> Option<Value> {
        if field.optional && (self.budget == 0 || self.random.one_in(3)) {
            return Some(Value::Absent);
        }
        let value = if field.sequence {
            let count = self.random.below(4).min(self.budget);
            let items = (0..count).map_while(|_| self.item(field, level));
            Some(Value::Sequence(items.collect()))
        } else {
            self.item(field, level)
        };
        match value {
            None if field.optional => Some(Value::Absent),
            value => value,
        }
    }

    fn item(&mut self, field: FieldPlan, level: usize) -> Option<Value> {
        self.budget = self.budget.saturating_sub(1);
        let named = usize::from(field.reference);
        match field.ty {
            Type::String | Type::Binary => {
                let longest = match field.size {
                    0 => 9,
                    size => usize::from(size),
                };
                let length = self.random.below(longest + 1);
                Some(Value::Text(if field.ty == Type::String {
                    random_text(self.random, length)
                } else {
                    self.random.bytes(length)
                }))
            }
            Type::StaticGroup => self.values(named, level).map(Value::Static),
            Type::DynamicGroup | Type::AnyGroup => {
                let allowed = match field.ty {
                    Type::DynamicGroup => self.plan.groups_below(named),
                    _ => self.plan.groups_with_id(),
                };
                if allowed.is_empty() {
                    return None;
                }
                let number = self.random.pick(&allowed);
                self.group(number, level + 1).map(Value::Group)
            }
            _ => Some(Value::Plain(self.plain(field))),
        }
    }

    fn plain(&mut self, field: FieldPlan) -> Vec<u8> {
        let width = self.plan.item_width(field);
        match field.ty {
            Type::Bool => vec![self.random.below(2) as u8],
            Type::TimeOfDayMilli => {
                let some = self.random.below(86_400_000) as u32;
                self.random.pick(&[0, some, 86_399_999]).to_le_bytes().to_vec()
            }
            Type::TimeOfDayNano => {
                let some = self.random.below(86_400_000_000_000) as u64;
                let value = self.random.pick(&[0, some, 86_399_999_999_999]);
                value.to_le_bytes().to_vec()
            }
            Type::Enumeration => {
                let symbols = &self.plan.enumerations[usize::from(field.reference)];
                self.random.pick(symbols).to_le_bytes().to_vec()
            }
            Type::F64 => {
                let some = self.random.number();
                let bits = self.random.pick(&FLOATS);
                self.random.pick(&[some, bits]).to_le_bytes().to_vec()
            }
            _ => match self.random.below(6) {
                0 => vec![0; width],
                1 => vec![0xff; width],
                2 => [vec![0; width - 1], vec![0x80]].concat(),
                3 => [vec![0xff; width - 1], vec![0x7f]].concat(),
                _ => self.random.bytes(width),
            },
        }
    }

    /// One to three groups, known and unknown.
    fn extension(&mut self, level: usize) -> Vec<ExtensionGroup> {
        let count = 1 + self.random.below(3);
        (0..count)
            .map(|_| {
                let known = match self.random.one_in(2) {
                    true => {
                        let number = self.random.pick(&self.plan.groups_with_id());
                        self.group(number, level + 1)
                    }
                    false => None,
                };
                match known {
                    Some(group) => ExtensionGroup::Known(group),
                    None => ExtensionGroup::Unknown(self.unknown_group()),
                }
            })
            .collect()
    }

    fn unknown_group(&mut self) -> Vec<u8> {
        let length = 4 + self.random.below(8);
        let mut bytes = random_id(self.random, self.plan).to_le_bytes().to_vec();
        bytes.extend(self.random.bytes(length));
        bytes
    }
}

/// Both zeros, infinity, a subnormal, the largest number, quiet and
/// signalling NaN.
pub const FLOATS: [u64; 8] = [
    0,
    1 << 63,
    0x7ff0_0000_0000_0000,
    0xfff0_0000_0000_0000,
    1,
    0x7fef_ffff_ffff_ffff,
    0x7ff8_0000_0000_0001,
    0xfff0_0000_0000_0001,
];

/// The sheet of a tree, and where its records start.
pub fn sheet(plan: &TablePlan, message: &GroupValue) -> (Vec<u8>, Vec<usize>) {
    let mut list = List { plan, bytes: Vec::new(), records: Vec::new() };
    list.group(message);
    (list.bytes, list.records)
}

struct List<'a> {
    plan: &'a TablePlan,
    bytes: Vec<u8>,
    records: Vec<usize>,
}

impl List<'_> {
    fn record(&mut self, mark: &[u8; 2], rest: &[u8]) {
        self.records.push(self.bytes.len());
        self.bytes.extend(mark);
        self.bytes.extend(rest);
    }

    fn group(&mut self, group: &GroupValue) {
        let id = self.plan.groups[group.number].id.expect("drawn by id");
        self.record(b"GB", &id.to_le_bytes());
        group.values.iter().for_each(|value| self.value(value));
        let extension = group.extension.as_deref().unwrap_or(&[]);
        if !extension.is_empty() {
            self.record(b"XT", &word(extension.len()));
        }
        for group in extension {
            match group {
                ExtensionGroup::Known(group) => self.group(group),
                ExtensionGroup::Unknown(bytes) => {
                    self.record(b"XU", &[&word(bytes.len())[..], bytes].concat());
                }
            }
        }
        self.record(b"GE", &[]);
    }

    fn value(&mut self, value: &Value) {
        match value {
            Value::Absent => self.record(b"NO", &[]),
            Value::Plain(bytes) => self.record(b"VA", bytes),
            Value::Text(text) => self.record(b"ST", &[&word(text.len())[..], text].concat()),
            Value::Sequence(items) => {
                self.record(b"SQ", &word(items.len()));
                items.iter().for_each(|item| self.value(item));
            }
            Value::Static(values) => {
                self.record(b"SG", &[]);
                values.iter().for_each(|value| self.value(value));
            }
            Value::Group(group) => self.group(group),
        }
    }
}

fn word(number: usize) -> [u8; 4] {
    (number as u32).to_le_bytes()
}

/// The message in document 01's writing order. An extension of no groups is
/// left out.
pub fn canonical(plan: &TablePlan, message: &GroupValue) -> Layout {
    Chunks::group(plan, message, &mut None)
}

/// The message with its values in some other order, and pads between them.
pub fn scattered(plan: &TablePlan, message: &GroupValue, random: &mut Random) -> Layout {
    Chunks::group(plan, message, &mut Some(random))
}

/// A piece of a group: the header with the fields, or a value of the data
/// area. Links are offsets in it, to other pieces that must come after it.
#[derive(Default)]
struct Chunk {
    layout: Layout,
    links: Vec<(usize, usize)>,
}

/// The pieces of one group, in document 01's writing order.
struct Chunks<'a, 'r> {
    plan: &'a TablePlan,
    random: &'a mut Option<&'r mut Random>,
    chunks: Vec<Chunk>,
}

impl<'a, 'r> Chunks<'a, 'r> {
    fn group(plan: &'a TablePlan, group: &GroupValue, random: &'a mut Option<&'r mut Random>) -> Layout {
        let mut chunks = Chunks { plan, random, chunks: vec![Chunk::default()] };
        let id = plan.groups[group.number].id.expect("drawn by id");
        chunks.spot(0, Spot::GroupSize);
        chunks.put(0, &word(0));
        chunks.spot(0, Spot::TypeId);
        chunks.put(0, &id.to_le_bytes());
        chunks.spot(0, Spot::ExtensionOffset);
        chunks.put(0, &word(0));
        let start = chunks.reserve(0, plan.width(group.number));
        chunks.values(group.number, &group.values, 0, start);
        match &group.extension {
            Some(groups) if !groups.is_empty() || chunks.random.is_some() => {
                chunks.extension(groups);
            }
            _ => {}
        }
        chunks.join()
    }

    fn spot(&mut self, chunk: usize, spot: Spot) {
        let at = self.chunks[chunk].layout.bytes.len();
        self.chunks[chunk].layout.spots.push((spot, at));
    }

    fn spot_at(&mut self, chunk: usize, spot: Spot, at: usize) {
        self.chunks[chunk].layout.spots.push((spot, at));
    }

    fn put(&mut self, chunk: usize, bytes: &[u8]) {
        self.chunks[chunk].layout.bytes.extend(bytes);
    }

    fn put_at(&mut self, chunk: usize, at: usize, bytes: &[u8]) {
        self.chunks[chunk].layout.bytes[at..at + bytes.len()].copy_from_slice(bytes);
    }

    /// Zeros at the end of a chunk, to be filled in; gives their start.
    fn reserve(&mut self, chunk: usize, length: usize) -> usize {
        let bytes = &mut self.chunks[chunk].layout.bytes;
        let start = bytes.len();
        bytes.resize(start + length, 0);
        start
    }

    /// A new chunk, which the offset at `at` of `chunk` leads to.
    fn link(&mut self, chunk: usize, at: usize) -> usize {
        let target = self.chunks.len();
        self.chunks.push(Chunk::default());
        self.chunks[chunk].links.push((at, target));
        target
    }

    fn values(&mut self, number: usize, values: &[Value], chunk: usize, mut at: usize) {
        let fields = &self.plan.groups[number].fields;
        for (&field, value) in fields.iter().zip(values) {
            let width = match field.sequence {
                true => 4,
                false => self.plan.item_width(field),
            };
            if field.optional {
                self.spot_at(chunk, Spot::Flag, at);
                let present = !matches!(value, Value::Absent);
                self.put_at(chunk, at, &[present.into()]);
                at += 1;
            }
            self.value(field, value, chunk, at, width);
            at += width;
        }
    }

    fn value(&mut self, field: FieldPlan, value: &Value, chunk: usize, at: usize, width: usize) {
        match value {
            Value::Absent => self.spot_at(chunk, Spot::AbsentByte(width), at + width - 1),
            Value::Plain(bytes) => {
                let spot = match field.ty {
                    Type::Bool => Some(Spot::Bool),
                    Type::TimeOfDayMilli => Some(Spot::MilliOfDay),
                    Type::TimeOfDayNano => Some(Spot::NanoOfDay),
                    Type::Enumeration => Some(Spot::Symbol),
                    _ => None,
                };
                if let Some(spot) = spot {
                    self.spot_at(chunk, spot, at);
                }
                self.put_at(chunk, at, bytes);
            }
            Value::Text(text) if field.size > 0 => {
                self.spot_at(chunk, Spot::InlineCount(field.size), at);
                self.put_at(chunk, at, &[text.len() as u8]);
                self.text_spot(field, text, chunk, at + 1);
                let unused = usize::from(field.size) - text.len();
                if unused > 0 {
                    self.spot_at(chunk, Spot::UnusedInline(unused), at + width - 1);
                }
                self.put_at(chunk, at + 1, text);
            }
            Value::Text(text) => {
                self.spot_at(chunk, Spot::Offset, at);
                let target = self.link(chunk, at);
                self.spot(target, Spot::TextCount);
                self.text_spot(field, text, target, 4);
                self.put(target, &word(text.len()));
                self.put(target, text);
            }
            Value::Sequence(items) => {
                self.spot_at(chunk, Spot::Offset, at);
                let body = self.link(chunk, at);
                let width = self.plan.item_width(field);
                self.spot(body, Spot::ItemCount);
                self.put(body, &word(items.len()));
                self.reserve(body, items.len() * width);
                for (index, item) in items.iter().enumerate() {
                    self.value(field, item, body, 4 + index * width, width);
                }
            }
            Value::Static(values) => self.values(field.reference.into(), values, chunk, at),
            Value::Group(group) => {
                self.spot_at(chunk, Spot::Offset, at);
                let target = self.link(chunk, at);
                let layout = Chunks::group(self.plan, group, self.random);
                self.chunks[target].layout = layout;
            }
        }
    }

    fn text_spot(&mut self, field: FieldPlan, text: &[u8], chunk: usize, at: usize) {
        if field.ty == Type::String && !text.is_empty() {
            self.spot_at(chunk, Spot::Text(text.len()), at);
        }
    }

    fn extension(&mut self, groups: &[ExtensionGroup]) {
        let body = self.link(0, 12);
        self.spot(body, Spot::ItemCount);
        self.put(body, &word(groups.len()));
        self.reserve(body, groups.len() * 4);
        for (index, group) in groups.iter().enumerate() {
            let at = 4 + index * 4;
            self.spot_at(body, Spot::Offset, at);
            let target = self.link(body, at);
            match group {
                ExtensionGroup::Known(group) => {
                    let layout = Chunks::group(self.plan, group, self.random);
                    self.chunks[target].layout = layout;
                }
                ExtensionGroup::Unknown(bytes) => {
                    self.spot(target, Spot::GroupSize);
                    self.put(target, &word(bytes.len()));
                    self.spot(target, Spot::TypeId);
                    self.put(target, bytes);
                }
            }
        }
    }

    /// The chunks in a row, in their order or in another one.
    fn join(mut self) -> Layout {
        let mut joined = Layout::default();
        let mut starts = vec![0; self.chunks.len()];
        for index in self.order() {
            if index > 0 {
                self.pad(&mut joined);
            }
            starts[index] = joined.bytes.len();
            let layout = &self.chunks[index].layout;
            let spots = layout.spots.iter();
            joined.spots.extend(spots.map(|&(spot, at)| (spot, starts[index] + at)));
            joined.bytes.extend(&layout.bytes);
        }
        self.pad(&mut joined);
        for (index, chunk) in self.chunks.iter().enumerate() {
            for &(at, target) in &chunk.links {
                let at = starts[index] + at;
                joined.bytes[at..at + 4].copy_from_slice(&word(starts[target] - at));
            }
        }
        let size = joined.bytes.len() - 4;
        joined.bytes[..4].copy_from_slice(&word(size));
        joined
    }

    /// An order in which every offset leads forward.
    fn order(&mut self) -> Vec<usize> {
        let Some(random) = self.random else {
            return (0..self.chunks.len()).collect();
        };
        let mut order = Vec::new();
        let mut ready = vec![0];
        while !ready.is_empty() {
            let next = ready.swap_remove(random.below(ready.len()));
            ready.extend(self.chunks[next].links.iter().map(|&(_, target)| target));
            order.push(next);
        }
        order
    }

    fn pad(&mut self, joined: &mut Layout) {
        let Some(random) = self.random else {
            return;
        };
        if random.one_in(3) {
            let length = 1 + random.below(5);
            joined.spots.push((Spot::Pad(length), joined.bytes.len()));
            joined.bytes.resize(joined.bytes.len() + length, 0);
        }
    }
}

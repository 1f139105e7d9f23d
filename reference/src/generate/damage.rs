//! Bytes that are wrong in one place or two, at the places that matter.

use super::message::{Layout, Spot};
use super::random::Random;
use super::table::{field, random_id, GroupPlan, TablePlan};
use super::text::random_broken_text;
use crate::Type;

fn word_at(bytes: &[u8], at: usize) -> u32 {
    u32::from_le_bytes(bytes[at..at + 4].try_into().expect("four bytes"))
}

/// Overwrites bytes, as far as there are any.
fn set(bytes: &mut [u8], at: usize, new: &[u8]) {
    for (byte, new) in bytes.iter_mut().skip(at).zip(new) {
        *byte = *new;
    }
}

fn flip(random: &mut Random, bytes: &mut [u8]) {
    if !bytes.is_empty() {
        let at = random.below(bytes.len());
        bytes[at] ^= 1 << random.below(8);
    }
}

/// A number near `old`, or one that a sum or product in 32 bits would take
/// for a small one.
fn other_count(random: &mut Random, old: u32) -> u32 {
    random.pick(&[
        0,
        old.wrapping_sub(1),
        old.wrapping_add(1),
        old.wrapping_add(4),
        old.wrapping_add(1 << 30),
        1 << 30,
        1 << 29,
        u32::MAX - 3,
        u32::MAX,
    ])
}

/// A message with something wrong in it (by chance, nothing).
pub fn damage_message(random: &mut Random, plan: &TablePlan, layout: &Layout) -> Vec<u8> {
    let mut bytes = layout.bytes.clone();
    for _ in 0..1 + random.below(5) / 4 {
        match random.below(16) {
            0 => flip(random, &mut bytes),
            1 => resize(random, &mut bytes),
            _ => damage_spot(random, plan, layout, &mut bytes),
        }
    }
    bytes
}

/// Another length, with or without the size word that fits it.
fn resize(random: &mut Random, bytes: &mut Vec<u8>) {
    let length = match random.below(12) {
        0 => 65_537,
        1 => random.below(17),
        2..=6 => bytes.len() + 1 + random.below(3),
        _ => bytes.len().saturating_sub(1),
    };
    bytes.resize(length, 0);
    if random.one_in(3) {
        flip(random, bytes);
    }
    if length >= 4 && !random.one_in(3) {
        set(bytes, 0, &(length as u32 - 4).to_le_bytes());
    }
}

fn damage_spot(random: &mut Random, plan: &TablePlan, layout: &Layout, bytes: &mut [u8]) {
    // Each kind of spot is as likely as the others, however many there are.
    let mut kinds: Vec<_> = layout.spots.iter().map(|(spot, _)| kind(*spot)).collect();
    kinds.sort();
    kinds.dedup();
    let wanted = random.pick(&kinds);
    let spots: Vec<(Spot, usize)> = layout
        .spots
        .iter()
        .copied()
        .filter(|(spot, at)| kind(*spot) == wanted && at + 8 <= bytes.len())
        .collect();
    if spots.is_empty() {
        return flip(random, bytes);
    }
    let (spot, at) = random.pick(&spots);
    let new: Vec<u8> = match spot {
        Spot::GroupSize => {
            let old = word_at(bytes, at);
            let near = other_count(random, old);
            let size = random.pick(&[11, 12, near, near]);
            size.to_le_bytes().to_vec()
        }
        Spot::TypeId => other_id(random, plan).to_le_bytes().to_vec(),
        Spot::ExtensionOffset | Spot::Offset => {
            other_offset(random, layout, bytes, at).to_le_bytes().to_vec()
        }
        Spot::TextCount | Spot::ItemCount => {
            let old = word_at(bytes, at);
            other_count(random, old).to_le_bytes().to_vec()
        }
        Spot::Flag => vec![random.pick(&[2, 255, 1 - bytes[at].min(1)])],
        Spot::Bool => vec![random.pick(&[2, 255])],
        Spot::MilliOfDay => 86_400_000_u32.to_le_bytes().to_vec(),
        Spot::NanoOfDay => 86_400_000_000_000_u64.to_le_bytes().to_vec(),
        Spot::Symbol => {
            let near = word_at(bytes, at).wrapping_add(random.pick(&[1, u32::MAX]));
            near.to_le_bytes().to_vec()
        }
        Spot::InlineCount(capacity) => {
            let near = bytes[at].wrapping_add(random.pick(&[1, 255]));
            vec![random.pick(&[capacity.wrapping_add(1), 255, near])]
        }
        Spot::UnusedInline(_) | Spot::AbsentByte(_) => vec![1 + random.below(255) as u8],
        Spot::Pad(length) => {
            let mut pad = vec![0; length];
            pad[random.below(length)] = 1 + random.below(255) as u8;
            pad
        }
        Spot::Text(length) => random_broken_text(random, length),
    };
    set(bytes, at, &new);
}

/// The message with rubbish in bytes that mean nothing: of absent fields,
/// unused inline bytes and pads, as the flags say.
pub fn litter(random: &mut Random, layout: &Layout, flags: [bool; 3]) -> Layout {
    let mut bytes = layout.bytes.clone();
    let [absent, pads, unused] = flags;
    for &(spot, at) in &layout.spots {
        let (from, to, wanted) = match spot {
            Spot::AbsentByte(width) => (at + 1 - width, at + 1, absent),
            Spot::Pad(length) => (at, at + length, pads),
            Spot::UnusedInline(length) => (at + 1 - length, at + 1, unused),
            _ => continue,
        };
        if wanted && !random.one_in(4) {
            if random.one_in(3) {
                bytes[from..to].copy_from_slice(&random.bytes(to - from));
            }
            bytes[from + random.below(to - from)] = 1 + random.below(255) as u8;
        }
    }
    Layout { bytes, spots: layout.spots.clone() }
}

/// The kind of a spot as a number, whatever its length or capacity.
fn kind(spot: Spot) -> u8 {
    match spot {
        Spot::GroupSize => 0,
        Spot::TypeId => 1,
        Spot::ExtensionOffset => 2,
        Spot::Offset => 3,
        Spot::TextCount => 4,
        Spot::ItemCount => 5,
        Spot::Flag => 6,
        Spot::Bool => 7,
        Spot::MilliOfDay => 8,
        Spot::NanoOfDay => 9,
        Spot::Symbol => 10,
        Spot::InlineCount(_) => 11,
        Spot::UnusedInline(_) => 12,
        Spot::AbsentByte(_) => 13,
        Spot::Pad(_) => 14,
        Spot::Text(_) => 15,
    }
}

/// The id of some group of the table, or of none.
fn other_id(random: &mut Random, plan: &TablePlan) -> u64 {
    let known = random.pick(&plan.groups_with_id());
    match plan.groups[known].id {
        Some(id) if !random.one_in(3) => id,
        _ => random_id(random, plan),
    }
}

/// An offset to just inside or outside the message, to another value, or to
/// where only a sum in 32 bits would lead.
fn other_offset(random: &mut Random, layout: &Layout, bytes: &[u8], at: usize) -> u32 {
    let old = word_at(bytes, at);
    let end = (bytes.len() - at) as u32;
    let back = (1 + random.below(at)) as u32;
    let others: Vec<usize> = layout
        .spots
        .iter()
        .filter(|(spot, at)| *spot == Spot::Offset && at + 4 <= bytes.len())
        .map(|&(_, other)| other + word_at(bytes, other) as usize)
        .filter(|target| *target > at)
        .map(|target| target - at)
        .chain([4])
        .collect();
    let other = random.pick(&others) as u32;
    random.pick(&[
        0,
        4,
        old.wrapping_add(1),
        old.wrapping_sub(1),
        old.wrapping_sub(4),
        end,
        end - 1,
        end - 4,
        end + 1,
        other,
        other,
        other.wrapping_add(1),
        other.wrapping_sub(1),
        0_u32.wrapping_sub(back),
        u32::MAX,
    ])
}

/// A sheet with something wrong in it (by chance, nothing).
pub fn damage_sheet(random: &mut Random, plan: &TablePlan, sheet: &[u8], records: &[usize]) -> Vec<u8> {
    let mut bytes = sheet.to_vec();
    // Each mark is as likely as the others.
    let mut marks: Vec<&[u8]> = records.iter().map(|&at| &sheet[at..at + 2]).collect();
    marks.sort();
    marks.dedup();
    let mark = random.pick(&marks);
    let same: Vec<usize> = records.iter().copied().filter(|&at| &sheet[at..at + 2] == mark).collect();
    let at = random.pick(&same);
    let next = records.iter().copied().find(|&next| next > at);
    let next = next.unwrap_or(sheet.len());
    match random.below(12) {
        0 => bytes.truncate(at + random.below(3)),
        1 => bytes.truncate(random.below(sheet.len())),
        2 => flip(random, &mut bytes),
        3 => set(&mut bytes, at, random.pick(&MARKS)),
        4 => bytes.extend(random.pick(&[&b"\0"[..], b"GE", b"GB"])),
        5 => drop(bytes.drain(at..next)),
        6 => {
            let record = sheet[at..next].to_vec();
            bytes.splice(at..at, record);
        }
        7 if random.one_in(8) => bytes.resize(1_048_577, 0),
        7 => {
            let known = other_id(random, plan).to_le_bytes();
            let size = 8 + random.below(6);
            let mut group = [b"XU", &(size as u32).to_le_bytes()[..], &known].concat();
            group.resize(6 + size, 0);
            bytes.splice(at..at, group);
        }
        _ => damage_record(random, plan, mark, &mut bytes, at, next),
    }
    bytes
}

const MARKS: [&[u8]; 9] = [b"GB", b"GE", b"VA", b"ST", b"SQ", b"SG", b"NO", b"XT", b"XU"];

/// Something wrong behind the mark of the record `at..next`.
fn damage_record(
    random: &mut Random,
    plan: &TablePlan,
    mark: &[u8],
    bytes: &mut [u8],
    at: usize,
    next: usize,
) {
    match mark {
        b"GB" => set(bytes, at + 2, &other_id(random, plan).to_le_bytes()),
        b"XU" if random.one_in(2) => {
            set(bytes, at + 6, &other_id(random, plan).to_le_bytes());
        }
        b"XT" if random.one_in(2) => set(bytes, at + 2, &[0; 4]),
        b"ST" if next > at + 6 && random.one_in(2) => {
            let text = random_broken_text(random, next - at - 6);
            set(bytes, at + 6, &text);
        }
        b"ST" | b"SQ" | b"XT" | b"XU" => {
            let count = other_count(random, word_at(bytes, at + 2));
            set(bytes, at + 2, &count.to_le_bytes());
        }
        b"VA" if next == at + 3 => set(bytes, at + 2, &[2]),
        b"VA" if random.one_in(2) => {
            let value = random.pick(&[86_400_000, 86_400_000_000_000, u64::MAX]);
            let width = next - at - 2;
            set(bytes, at + 2, &value.to_le_bytes()[..width.min(8)]);
        }
        b"VA" => flip(random, &mut bytes[at + 2..next]),
        _ => flip(random, bytes),
    }
}

/// A table with something wrong in it (by chance, nothing).
pub fn damage_table(random: &mut Random, plan: &TablePlan) -> Vec<u8> {
    match random.below(5) {
        0 => damage_plan(random, plan),
        1 => resize_table(random, plan.encode()),
        2 => {
            let table = if random.one_in(2) { plan.encode() } else { damage_plan(random, plan) };
            damage_widths(random, table)
        }
        _ => damage_table_record(random, plan.encode()),
    }
}

fn resize_table(random: &mut Random, mut table: Vec<u8>) -> Vec<u8> {
    let record = random.below(table.len() / 16) * 16;
    match random.below(6) {
        0 => table.truncate(table.len() - 1 - random.below(15)),
        1 => table.truncate(record),
        2 => table.resize(table.len() + 16, 0),
        3 => table.resize(65_536 + 16 * random.below(2), 0),
        4 => drop(table.drain(record..record + 16)),
        _ => {
            let copy = table[record..record + 16].to_vec();
            table.splice(record..record, copy);
        }
    }
    table
}

fn damage_table_record(random: &mut Random, mut table: Vec<u8>) -> Vec<u8> {
    let record = random.below(table.len() / 16) * 16;
    let at = record + random.below(16);
    table[at] = random.pick(&[0, 1, 2, 5, 17, 19, 21, 22, 24, 255]);
    table
}

/// The mark of a group or its bytes 14-15: a mix (31), a width in a `GR` (32)
/// or a wrong one in a `GW` (37); by chance, nothing.
pub fn damage_widths(random: &mut Random, mut table: Vec<u8>) -> Vec<u8> {
    let groups: Vec<usize> =
        (0..table.len()).step_by(16).filter(|&at| matches!(&table[at..at + 2], b"GR" | b"GW")).collect();
    let at = random.pick(&groups);
    if random.one_in(4) {
        table[at + 1] ^= b'R' ^ b'W';
        return table;
    }
    let stored = |at| u16::from_le_bytes([table[at + 14], table[at + 15]]);
    let old = stored(at);
    let other = stored(random.pick(&groups));
    let new = random.pick(&[0, old.wrapping_sub(1), old.wrapping_add(1), old ^ 256, old.swap_bytes(), other]);
    set(&mut table, at + 14, &new.to_le_bytes());
    table
}

/// Faults that take more than a byte: 34, 35 and 36.
fn damage_plan(random: &mut Random, plan: &TablePlan) -> Vec<u8> {
    let mut plan = plan.clone();
    let number = random.below(plan.groups.len());
    match random.below(7) {
        0 => plan.groups.iter_mut().for_each(|group| group.id = None),
        1 => plan.groups.push(GroupPlan { id: plan.groups[number].id, ..GroupPlan::default() }),
        2 if !plan.enumerations.is_empty() => plan.enumerations[0].push(i32::MIN),
        2 | 3 => {
            let wide = field(Type::Fixed).size(255);
            plan.groups[number].fields.extend([wide; 17]);
        }
        4 => {
            plan.groups.push(GroupPlan::default());
            let empty = field(Type::StaticGroup).of(plan.groups.len() as u16 - 1);
            plan.groups.push(GroupPlan { fields: vec![empty.optional()], ..GroupPlan::default() });
        }
        5 => {
            plan.groups.push(GroupPlan { fields: vec![field(Type::U8)], ..GroupPlan::default() });
            for _ in 0..4 + random.below(2) {
                let below = field(Type::StaticGroup).of(plan.groups.len() as u16 - 1);
                plan.groups.push(GroupPlan { fields: vec![below], ..GroupPlan::default() });
            }
        }
        _ => forget_super(random, &mut plan),
    }
    plan.encode()
}

/// Fault 36: some group does not begin with its super's fields any more (by
/// chance, it still does). If there are no inherited fields, a group with
/// some is added.
pub fn forget_super(random: &mut Random, plan: &mut TablePlan) {
    let mut children: Vec<(usize, u16)> = (0..plan.groups.len())
        .filter_map(|number| plan.groups[number].above.map(|above| (number, above)))
        .filter(|&(_, above)| !plan.inherited(Some(above)).is_empty())
        .collect();
    if children.is_empty() {
        let above = random.below(plan.groups.len()) as u16;
        let fields = plan.inherited(Some(above)).to_vec();
        if fields.is_empty() {
            return;
        }
        children.push((plan.groups.len(), above));
        plan.groups.push(GroupPlan { id: None, above: Some(above), fields });
    }
    let (child, above) = random.pick(&children);
    let count = plan.inherited(Some(above)).len();
    let at = random.below(count);
    let fields = &mut plan.groups[child].fields;
    match random.below(8) {
        0 => fields.truncate(at),
        1 => drop(fields.remove(at)),
        2 => fields.insert(at, field(Type::U8)),
        3 => fields.rotate_left(1),
        4 => fields[..count].reverse(),
        5 => fields[at].sequence ^= true,
        6 => fields[count - 1].optional ^= true,
        _ => plan.groups[usize::from(above)].fields.push(field(Type::U8)),
    }
}

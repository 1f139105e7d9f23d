//! Schema tables as plans: written by hand for the edges, made at random for
//! the rest.

use super::random::Random;
use crate::Type;

#[derive(Clone, Copy, Debug, PartialEq, Eq)]
pub struct FieldPlan {
    pub ty: Type,
    pub optional: bool,
    pub sequence: bool,
    pub size: u8,
    pub reference: u16,
}

/// A field of this type, of size and reference 0.
pub fn field(ty: Type) -> FieldPlan {
    FieldPlan { ty, optional: false, sequence: false, size: 0, reference: 0 }
}

impl FieldPlan {
    pub fn optional(self) -> FieldPlan {
        FieldPlan { optional: true, ..self }
    }

    pub fn sequence(self) -> FieldPlan {
        FieldPlan { sequence: true, ..self }
    }

    pub fn size(self, size: u8) -> FieldPlan {
        FieldPlan { size, ..self }
    }

    pub fn of(self, reference: u16) -> FieldPlan {
        FieldPlan { reference, ..self }
    }

    fn encode(self) -> Vec<u8> {
        let mut record = b"FD".to_vec();
        record.push(self.ty as u8);
        record.push(self.optional.into());
        record.push(self.sequence.into());
        record.push(self.size);
        record.extend(self.reference.to_le_bytes());
        record.resize(16, 0);
        record
    }
}

#[derive(Clone, Debug, Default)]
pub struct GroupPlan {
    pub id: Option<u64>,
    pub above: Option<u16>,
    pub fields: Vec<FieldPlan>,
}

impl GroupPlan {
    /// A `GR` record, or a `GW` with this width, and the fields.
    fn encode(&self, width: Option<usize>) -> Vec<u8> {
        let mut record = if width.is_some() { b"GW" } else { b"GR" }.to_vec();
        record.extend(self.id.unwrap_or(0).to_le_bytes());
        record.push(self.id.is_some().into());
        record.extend(self.above.map_or(0, |above| above + 1).to_le_bytes());
        record.push(self.fields.len() as u8);
        // Of a width that no record can hold, the low bytes: it is refused.
        record.extend((width.unwrap_or(0) as u16).to_le_bytes());
        record.extend(self.fields.iter().flat_map(|field| field.encode()));
        record
    }
}

#[derive(Clone, Debug, Default)]
pub struct TablePlan {
    pub enumerations: Vec<Vec<i32>>,
    pub groups: Vec<GroupPlan>,
    /// Whether the groups are `GW` records, with their widths.
    pub stored_widths: bool,
}

impl TablePlan {
    pub fn new() -> TablePlan {
        TablePlan::default()
    }

    pub fn enumeration(mut self, symbols: &[i32]) -> TablePlan {
        self.enumerations.push(symbols.to_vec());
        self
    }

    /// Adds a group with an id.
    pub fn group(self, id: u64, fields: &[FieldPlan]) -> TablePlan {
        self.add(Some(id), None, fields)
    }

    /// Adds a group without an id.
    pub fn plain(self, fields: &[FieldPlan]) -> TablePlan {
        self.add(None, None, fields)
    }

    /// Adds a group with an id below another one. It has just these fields,
    /// whatever its super has.
    pub fn below(self, above: u16, id: u64, fields: &[FieldPlan]) -> TablePlan {
        self.add(Some(id), Some(above), fields)
    }

    /// Adds a group with an id below another one: that one's fields, then
    /// its own.
    pub fn child(self, above: u16, id: u64, own: &[FieldPlan]) -> TablePlan {
        let fields = [self.inherited(Some(above)), own].concat();
        self.below(above, id, &fields)
    }

    fn add(mut self, id: Option<u64>, above: Option<u16>, fields: &[FieldPlan]) -> TablePlan {
        self.groups.push(GroupPlan { id, above, fields: fields.to_vec() });
        self
    }

    pub fn encode(&self) -> Vec<u8> {
        let mut table = Vec::new();
        for symbols in &self.enumerations {
            table.extend(b"EN");
            table.extend((symbols.len() as u16).to_le_bytes());
            table.extend([0; 12]);
            for symbol in symbols {
                table.extend(b"SY");
                table.extend(symbol.to_le_bytes());
                table.extend([0; 10]);
            }
        }
        for (number, group) in self.groups.iter().enumerate() {
            let width = self.stored_widths.then(|| self.width(number));
            table.extend(group.encode(width));
        }
        table
    }

    /// The table of the other form, alike but for marks and widths.
    pub fn twin(&self) -> TablePlan {
        TablePlan { stored_widths: !self.stored_widths, ..self.clone() }
    }

    /// The fields that a group with this super has to begin with.
    pub fn inherited(&self, above: Option<u16>) -> &[FieldPlan] {
        above.map_or(&[], |above| &self.groups[usize::from(above)].fields)
    }

    /// Where each group's record starts.
    pub fn group_places(&self) -> Vec<usize> {
        let symbols: usize = self.enumerations.iter().map(|symbols| 1 + symbols.len()).sum();
        let mut at = symbols * 16;
        let mut places = Vec::new();
        for group in &self.groups {
            places.push(at);
            at += (1 + group.fields.len()) * 16;
        }
        places
    }

    pub fn item_width(&self, field: FieldPlan) -> usize {
        match field.ty as u8 {
            1 | 2 | 11 => 1,
            3 | 4 => 2,
            5 | 6 | 12 | 15 | 20 | 22 | 23 => 4,
            7 | 8 | 9 | 13 | 14 | 16 => 8,
            10 => 9,
            17 | 18 if field.size == 0 => 4,
            17 | 18 => 1 + usize::from(field.size),
            19 => field.size.into(),
            21 => self.width(field.reference.into()),
            _ => unreachable!("there are 23 types"),
        }
    }

    pub fn width(&self, group: usize) -> usize {
        let fields = self.groups[group].fields.iter();
        fields
            .map(|&field| {
                let value = if field.sequence { 4 } else { self.item_width(field) };
                value + usize::from(field.optional)
            })
            .sum()
    }

    fn static_depth(&self, group: usize) -> usize {
        let fields = self.groups[group].fields.iter();
        fields
            .filter(|field| field.ty == Type::StaticGroup)
            .map(|field| 1 + self.static_depth(field.reference.into()))
            .max()
            .unwrap_or(0)
    }

    /// The groups with an id that may stand for a type 22 field.
    pub fn groups_below(&self, named: usize) -> Vec<usize> {
        (0..self.groups.len())
            .filter(|&group| self.groups[group].id.is_some() && self.is_below(group, named))
            .collect()
    }

    fn is_below(&self, group: usize, named: usize) -> bool {
        group == named || self.groups[group].above.is_some_and(|above| self.is_below(above.into(), named))
    }

    pub fn groups_with_id(&self) -> Vec<usize> {
        (0..self.groups.len()).filter(|&group| self.groups[group].id.is_some()).collect()
    }
}

/// A table that the check accepts, of either form.
pub fn random_table(random: &mut Random) -> TablePlan {
    let mut plan = TablePlan { stored_widths: random.one_in(2), ..TablePlan::new() };
    for _ in 0..random.below(3) {
        plan.enumerations.push(random_symbols(random));
    }
    let groups = 1 + random.below(6);
    for number in 0..groups {
        let last = number + 1 == groups && plan.groups_with_id().is_empty();
        let id = (last || !random.one_in(4)).then(|| random_id(random, &plan));
        let above = (number > 0 && random.one_in(2)).then(|| random.below(number) as u16);
        let mut group = GroupPlan { id, above, fields: plan.inherited(above).to_vec() };
        for _ in 0..random.below(6) {
            group.fields.push(random_field(random, &plan, groups));
        }
        plan.groups.push(group);
    }
    plan
}

/// Few symbols, near 0 or at the ends; one list in sixteen may have as many
/// as there can be, close together or far apart.
fn random_symbols(random: &mut Random) -> Vec<i32> {
    let mut symbols: Vec<i32> = if random.one_in(16) {
        let shift = random.below(24);
        (0..1 + random.below(256)).map(|_| random.number() as i32 >> shift).collect()
    } else {
        (0..1 + random.below(6))
            .map(|_| match random.below(8) {
                0 => i32::MIN,
                1 => i32::MAX,
                _ => random.below(30) as i32 - 10,
            })
            .collect()
    };
    symbols.sort();
    symbols.dedup();
    symbols
}

/// An id that the table does not have yet.
pub fn random_id(random: &mut Random, plan: &TablePlan) -> u64 {
    loop {
        let id = match random.below(6) {
            0 => u64::MAX - random.below(4) as u64,
            1 => random.number(),
            _ => random.below(40) as u64,
        };
        if plan.groups.iter().all(|group| group.id != Some(id)) {
            return id;
        }
    }
}

/// A field for the group that comes next in the plan. Of `groups` groups in
/// all, a dynamic field may name any.
fn random_field(random: &mut Random, plan: &TablePlan, groups: usize) -> FieldPlan {
    // A static group has some width, and one level of depth is left above it.
    // With inherited fields a group has thirty at most, which stay within a
    // group's width if no static group is wider than this.
    let statics: Vec<usize> = (0..plan.groups.len())
        .filter(|&group| (1..=130).contains(&plan.width(group)) && plan.static_depth(group) < 4)
        .collect();
    let ty = random.pick(&Type::ALL);
    // Static groups are made more frequent, so that they nest.
    let ty = if random.one_in(5) && !statics.is_empty() { Type::StaticGroup } else { ty };
    let mut plan_field = match ty {
        Type::String | Type::Binary if random.one_in(2) => {
            let size = random.pick(&[1, 2, 3, 7, 12]);
            field(ty).size(size)
        }
        Type::Fixed => field(ty).size(1 + random.below(9) as u8),
        Type::Enumeration if plan.enumerations.is_empty() => field(Type::Bool),
        Type::Enumeration => field(ty).of(random.below(plan.enumerations.len()) as u16),
        Type::StaticGroup if statics.is_empty() => field(Type::AnyGroup),
        Type::StaticGroup => field(ty).of(random.pick(&statics) as u16),
        Type::DynamicGroup => field(ty).of(random.below(groups) as u16),
        _ => field(ty),
    };
    plan_field.optional = random.one_in(3);
    plan_field.sequence = random.one_in(4);
    plan_field
}

//! The message check against a walk without any thought of speed: a map of
//! taken bytes for each data area, every value looked at, and the generator's
//! plan in place of the table.

use blink_reference::generate::damage::{damage_message, litter};
use blink_reference::generate::message::{canonical, random_message, scattered};
use blink_reference::generate::store::{setting, store, COMBINATIONS};
use blink_reference::generate::table::{random_table, FieldPlan, TablePlan};
use blink_reference::generate::Random;
use blink_reference::question::pattern;
use blink_reference::{check_table, Settings, Type};

/// Number and place of the first fault.
type Verdict = Result<(), (u8, usize)>;

fn test(met: bool, number: u8, place: usize) -> Verdict {
    if met {
        Ok(())
    } else {
        Err((number, place))
    }
}

#[derive(Clone, Copy, PartialEq)]
enum Role {
    Message,
    Any,
    Below(usize),
    Extension,
}

struct Walk<'a> {
    plan: &'a TablePlan,
    message: &'a [u8],
    /// The faults that are not made.
    ignored: &'a [u8],
}

/// A data area and which of the message's bytes its values have taken.
struct Area {
    start: u64,
    end: u64,
    taken: Vec<bool>,
    level: usize,
}

impl Walk<'_> {
    fn word(&self, at: usize) -> u64 {
        let bytes = &self.message[at..at + 4];
        bytes.iter().rev().fold(0, |number, &byte| number << 8 | u64::from(byte))
    }

    /// A test that settings may ignore.
    fn test_zero(&self, met: bool, number: u8, place: usize) -> Verdict {
        test(met || self.ignored.contains(&number), number, place)
    }

    fn whole(&self) -> Verdict {
        let length = self.message.len();
        test(length >= 4 && length as u64 == 4 + self.word(0), 22, 0)?;
        self.group(0, length, 1, Role::Message)
    }

    fn group(&self, start: usize, end: usize, level: usize, role: Role) -> Verdict {
        test(end - start >= 16, 1, start)?;
        let id = self.word(start + 8) << 32 | self.word(start + 4);
        let known = self.plan.groups.iter().position(|group| group.id == Some(id));
        let Some(number) = known else {
            return test(role == Role::Extension, 2, start);
        };
        if let Role::Below(named) = role {
            test(self.plan.groups_below(named).contains(&number), 25, start)?;
        }
        test(level <= 8, 24, start)?;
        let width = self.plan.width(number);
        test(end - start - 16 >= width, 14, start)?;
        let mut area = Area {
            start: (start + 16 + width) as u64,
            end: end as u64,
            taken: vec![false; self.message.len()],
            level,
        };
        let extension = self.word(start + 12);
        let location = (start + 12) as u64 + extension;
        test(extension == 0 || (area.start..area.end).contains(&location), 3, start + 12)?;
        self.fields(number, start + 16, &mut area)?;
        if extension != 0 {
            let location = location as usize;
            self.take(location, 4, 13, &mut area)?;
            for item in 0..self.word(location) as usize {
                self.inner_group(location + 4 + 4 * item, &mut area, Role::Extension)?;
            }
        }
        for at in area.start as usize..end {
            self.test_zero(area.taken[at] || self.message[at] == 0, 6, at)?;
        }
        Ok(())
    }

    fn fields(&self, number: usize, mut at: usize, area: &mut Area) -> Verdict {
        for &field in &self.plan.groups[number].fields {
            let width = if field.sequence { 4 } else { self.plan.item_width(field) };
            let mut present = true;
            if field.optional {
                test(self.message[at] <= 1, 11, at)?;
                present = self.message[at] == 1;
                at += 1;
            }
            if !present {
                for absent in at..at + width {
                    self.test_zero(self.message[absent] == 0, 4, absent)?;
                }
            } else if field.sequence {
                let width = self.plan.item_width(field);
                let location = self.location(at, area)?;
                self.take(location, width, 13, area)?;
                for item in 0..self.word(location) as usize {
                    self.item(field, location + 4 + item * width, area)?;
                }
            } else {
                self.item(field, at, area)?;
            }
            at += width;
        }
        Ok(())
    }

    fn item(&self, field: FieldPlan, at: usize, area: &mut Area) -> Verdict {
        let reference = usize::from(field.reference);
        match field.ty {
            Type::Bool => test(self.message[at] <= 1, 11, at),
            Type::TimeOfDayMilli => test(self.word(at) <= 86_399_999, 12, at),
            Type::TimeOfDayNano => {
                let nanos = self.word(at + 4) << 32 | self.word(at);
                test(nanos <= 86_399_999_999_999, 12, at)
            }
            Type::Enumeration => {
                let value = self.word(at) as u32 as i32;
                test(self.plan.enumerations[reference].contains(&value), 10, at)
            }
            Type::StaticGroup => self.fields(reference, at, area),
            Type::DynamicGroup => self.inner_group(at, area, Role::Below(reference)),
            Type::AnyGroup => self.inner_group(at, area, Role::Any),
            Type::String | Type::Binary if field.size > 0 => {
                let count = usize::from(self.message[at]);
                test(count <= field.size.into(), 7, at)?;
                for unused in at + 1 + count..at + 1 + usize::from(field.size) {
                    self.test_zero(self.message[unused] == 0, 8, unused)?;
                }
                self.text(field, at + 1, count)
            }
            Type::String | Type::Binary => {
                let location = self.location(at, area)?;
                self.take(location, 1, 26, area)?;
                self.text(field, location + 4, self.word(location) as usize)
            }
            _ => Ok(()),
        }
    }

    fn inner_group(&self, at: usize, area: &mut Area, role: Role) -> Verdict {
        let location = self.location(at, area)?;
        self.take(location, 1, 26, area)?;
        let end = location + 4 + self.word(location) as usize;
        self.group(location, end, area.level + 1, role)
    }

    fn location(&self, at: usize, area: &Area) -> Result<usize, (u8, usize)> {
        let location = at as u64 + self.word(at);
        test((area.start..area.end).contains(&location), 5, at)?;
        Ok(location as usize)
    }

    fn take(&self, location: usize, width: usize, rest: u8, area: &mut Area) -> Verdict {
        test(location as u64 + 4 <= area.end, 26, location)?;
        let end = location as u64 + 4 + self.word(location) * width as u64;
        test(end <= area.end, rest, location)?;
        for at in location..end as usize {
            test(!area.taken[at], 27, location)?;
            area.taken[at] = true;
        }
        Ok(())
    }

    fn text(&self, field: FieldPlan, at: usize, count: usize) -> Verdict {
        let text = &self.message[at..at + count];
        test(field.ty == Type::Binary || is_text(text), 9, at)
    }
}

/// UTF-8 with the surrogates that document 01's table lets through.
fn is_text(text: &[u8]) -> bool {
    let mut text = text.to_vec();
    for at in 0..text.len().saturating_sub(2) {
        if let [0xed, 0xa0..=0xbf, 0x80..=0xbf] = text[at..at + 3] {
            text[at..at + 3].fill(b'a');
        }
    }
    std::str::from_utf8(&text).is_ok()
}

#[test]
fn the_check_agrees_with_a_plain_walk() {
    let mut random = Random::new(2);
    let mut refused = 0;
    let mut accepted_rubbish = 0;
    for _ in 0..24_000 {
        let plan = random_table(&mut random);
        let Some(tree) = random_message(&mut random, &plan) else {
            continue;
        };
        let table = plan.encode();
        let schema = check_table(&table).unwrap();
        let layouts = [canonical(&plan, &tree), scattered(&plan, &tree, &mut random)];
        for layout in layouts {
            for turn in 0..8 {
                // Half of them with rubbish, under some settings.
                let flags = if turn < 4 { [0; 3] } else { random.pick(&COMBINATIONS) };
                let settings = store(&[setting(1, 1, flags)], 0);
                let ignored: Vec<u8> =
                    [4, 6, 8].into_iter().zip(flags).filter(|ignored| ignored.1 == 1).map(|i| i.0).collect();
                let layout = if turn < 4 { layout.clone() } else { litter(&mut random, &layout, [true; 3]) };
                let message = match turn {
                    7 => layout.bytes.clone(),
                    _ => damage_message(&mut random, &plan, &layout),
                };
                if message.len() > 65_536 {
                    continue;
                }
                let mut scratch = pattern(message.len());
                let verdict = schema
                    .check_message(Settings::of(&settings, 1), &message, &mut scratch)
                    .map_err(|fault| (fault.number as u8, fault.place));
                let plain = Walk { plan: &plan, message: &message, ignored: &ignored }.whole();
                assert_eq!(verdict, plain, "{table:02x?} {message:02x?}");
                refused += usize::from(plain.is_err());
                accepted_rubbish += usize::from(turn == 7 && flags != [0; 3] && plain.is_ok());
            }
        }
    }
    assert!(refused > 100_000, "only {refused} messages were refused");
    assert!(accepted_rubbish > 10_000, "only {accepted_rubbish} messages were let through");
}

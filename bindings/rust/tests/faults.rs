//! The faults' words come from the library, and are those of include/faults.txt.
use blink_native::Fault;
use std::collections::BTreeMap;

#[test]
fn every_number_has_its_words() {
    let lines = include_str!("../../../include/faults.txt").lines();
    let due: BTreeMap<u8, &str> = lines.map(|line| (line[..2].trim().parse().unwrap(), &line[3..])).collect();
    for number in 0..=255 {
        let fault = Fault { number, place: 7 };
        assert_eq!(fault.meaning(), due.get(&number).copied().unwrap_or_default());
        assert_eq!(fault.is_absent(), number == 29);
    }
}

#[test]
fn a_place_is_said_where_there_is_one() {
    assert_eq!(Fault { number: 29, place: 0 }.to_string(), "fault 29: the field is absent");
    let fault = Fault { number: 1, place: 12 };
    let words = "a group's size is under 12: too short for its type id and its extension offset";
    assert_eq!(fault.to_string(), format!("fault 1 at byte 12: {words}"));
}

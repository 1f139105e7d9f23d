//! Settings come through the boundary whole: what they ignore, whom they govern, and every refusal.
use blink_native::{
    add_settings, check_message, check_store, message_to_sheet, read_settings, Fault, Ignored, Number,
    Settings,
};

/// One group, type id 1: an optional u32, and an inline string of up to 4 bytes.
const TABLE: &[u8] = b"GR\x01\0\0\0\0\0\0\0\x01\0\0\x02\0\0\
                       FD\x05\x01\0\0\0\0\0\0\0\0\0\0\0\0\
                       FD\x11\0\0\x04\0\0\0\0\0\0\0\0\0\0";

/// No number, "ab", and two bytes that belong to no value.
const CLEAN: &[u8; 28] = b"\x18\0\0\0\x01\0\0\0\0\0\0\0\0\0\0\0\0\0\0\0\0\x02ab\0\0\0\0";

/// Rubbish in the absent number, in the inline string and behind the fields, with the faults that come of it.
const RUBBISH: [(usize, u8); 3] = [(17, 4), (26, 6), (24, 8)];

fn littered() -> [u8; 28] {
    let mut message = *CLEAN;
    RUBBISH.iter().for_each(|&(place, _)| message[place] = b'?');
    message
}

fn fault(number: u8, place: usize) -> Fault {
    Fault { number, place }
}

fn each_combination() -> impl Iterator<Item = Ignored> {
    (0..8).map(|bits| Ignored { absent: bits & 1 != 0, pads: bits & 2 != 0, unused: bits & 4 != 0 })
}

fn store_of(ignored: Ignored) -> [u8; 30] {
    let mut store = [0; 30];
    add_settings(&mut store, 513, 7, ignored).unwrap();
    store
}

#[test]
fn each_flag_ignores_its_own_fault() {
    for ignored in each_combination() {
        let flags: [u8; 3] = ignored.into();
        let store = store_of(ignored);
        assert_eq!(store[..9], [&b"CS\x01\x02\x07\0"[..], &flags].concat());
        assert_eq!(read_settings(&store, 513, 7), Ok(ignored));
        let settings = Settings::of(&store, 513);
        for ((place, number), flag) in RUBBISH.into_iter().zip(flags) {
            let mut message = *CLEAN;
            message[place] = 9;
            let due = if flag == 1 { Ok(()) } else { Err(fault(number, place)) };
            assert_eq!(settings.check_message(TABLE, &message, &mut [0; 28]), due);
            // Another customer has no settings.
            let refused = Err(fault(number, place));
            assert_eq!(Settings::of(&store, 2).check_message(TABLE, &message, &mut [0; 28]), refused);
            assert_eq!(check_message(TABLE, &message, &mut [0; 28]), refused);
        }
    }
}

#[test]
fn every_question_under_settings() {
    let store = store_of(Ignored { absent: true, pads: true, unused: true });
    let settings = Settings::of(&store, 513);
    let message = littered();
    let (mut scratch, mut room, mut output) = ([1; 40], [1; 400], [1; 40]);
    assert_eq!(settings.check_message(TABLE, &message, &mut scratch), Ok(()));
    assert_eq!(scratch, [[0; 28].as_slice(), &[1; 12]].concat()[..]);

    let due = message_to_sheet(TABLE, CLEAN, &mut scratch, &mut room).unwrap().to_vec();
    let sheet = settings.message_to_sheet(TABLE, &message, &mut scratch, &mut room);
    assert_eq!(sheet.as_deref(), Ok(&due[..]));

    let rewritten = settings.rewrite(TABLE, &message, &mut scratch, &mut room, &mut output).unwrap().to_vec();
    assert_eq!(rewritten, [b"\x16", &CLEAN[1..26]].concat());
    assert_eq!(check_message(TABLE, &rewritten, &mut scratch), Ok(()));

    // Rubbish does not make the number present.
    assert_eq!(settings.read_number(TABLE, &message, &mut scratch, 0, 0), Err(fault(29, 0)));
    assert_eq!(settings.read_bytes(TABLE, &message, &mut scratch, 1, 0), Ok(&b"ab"[..]));
    let mut present = message;
    present[16] = 1;
    let number = settings.read_number(TABLE, &present, &mut scratch, 0, 0);
    assert_eq!(number, Ok(Number::Unsigned(u64::from(b'?'))));
}

#[test]
fn a_refused_store() {
    let mut store = store_of(Ignored::default());
    store[29] = 1;
    let due = fault(50, 9);
    assert_eq!(check_store(&store), Err(due));
    assert_eq!(read_settings(&store, 513, 8), Err(due));
    let before = store;
    assert_eq!(add_settings(&mut store, 513, 8, Ignored::default()), Err(due));
    assert_eq!(store, before);

    let settings = Settings::of(&store, 0);
    let (mut scratch, mut room, mut output) = ([1; 30], [1; 300], [1; 30]);
    assert_eq!(settings.check_message(TABLE, CLEAN, &mut scratch), Err(due));
    assert_eq!(settings.message_to_sheet(TABLE, CLEAN, &mut scratch, &mut room), Err(due));
    assert_eq!(settings.rewrite(TABLE, CLEAN, &mut scratch, &mut room, &mut output), Err(due));
    assert_eq!(settings.read_number(TABLE, CLEAN, &mut scratch, 0, 0), Err(due));
    assert_eq!(settings.read_bytes(TABLE, CLEAN, &mut scratch, 0, 0), Err(due));
    assert_eq!((scratch, room, output), ([1; 30], [1; 300], [1; 30]));
    // 50 comes right after 21.
    assert_eq!(settings.check_message(TABLE, CLEAN, &mut scratch[..27]), Err(fault(21, 0)));
    assert_eq!(settings.check_message(&TABLE[1..], CLEAN, &mut scratch), Err(fault(20, 0)));
    assert_eq!(settings.check_message(TABLE, &CLEAN[1..], &mut scratch), Err(due));
}

#[test]
fn versions() {
    let mut store = [0; 22];
    let pads = Ignored { pads: true, ..Ignored::default() };
    add_settings(&mut store, 65_535, 0, pads).unwrap();
    for version in [0, 65_535] {
        let mut message = *CLEAN;
        message[27] = 1;
        let settings = Settings::of(&store, 65_535);
        assert_eq!(settings.check_message(TABLE, &message, &mut [0; 28]).is_ok(), version == 0);
        if version == 0 {
            assert_eq!(add_settings(&mut store, 65_535, 0, pads), Err(fault(50, 9)));
            add_settings(&mut store, 65_535, 65_535, Ignored::default()).unwrap();
        }
    }
    // The older ones can still be read.
    assert_eq!(read_settings(&store, 65_535, 0), Ok(pads));
    assert_eq!(read_settings(&store, 65_535, 65_535), Ok(Ignored::default()));
    assert_eq!(read_settings(&store, 65_535, 1), Err(fault(59, 0)));
    // The store is full; 50 comes before 51.
    assert_eq!(add_settings(&mut store, 0, 0, pads), Err(fault(51, 0)));
    assert_eq!(add_settings(&mut store, 0, 0, [0, 2, 0]), Err(fault(50, 18)));
    assert_eq!(add_settings(&mut store, 65_535, 9, pads), Err(fault(50, 18)));
}

#[test]
fn no_settings() {
    assert_eq!(Settings::default(), Settings::NONE);
    assert_eq!(check_store(&[]), Ok(()));
    assert_eq!(add_settings(&mut [], 0, 0, Ignored::default()), Err(fault(51, 0)));
    for store in [&[][..], &[0; 5], &[0; 90]] {
        let settings = Settings::of(store, 0);
        assert_eq!(settings.check_message(TABLE, CLEAN, &mut [0; 28]), Ok(()));
        assert_eq!(settings.check_message(TABLE, &littered(), &mut [0; 28]), Err(fault(4, 17)));
    }
}

//! A number of each kind, and a refusal, come through the boundary whole.
use blink_native::{check_message, check_table, read_bytes, read_number, Fault, Number};

/// A schema table of one group, type id 1, with a field for each type.
fn table(types: &[u8]) -> Vec<u8> {
    let mut table = b"GR\x01\0\0\0\0\0\0\0\x01\0\0".to_vec();
    table.extend([types.len() as u8, 0, 0]);
    for &kind in types {
        table.extend(b"FD");
        table.push(kind);
        table.extend([0; 13]);
    }
    table
}

/// A message of that group.
fn message(fields: &[&[u8]]) -> Vec<u8> {
    let fields = fields.concat();
    let size = 12 + fields.len() as u32;
    [&size.to_le_bytes()[..], &1u64.to_le_bytes(), &[0; 4], &fields].concat()
}

fn read(kind: u8, value: &[u8]) -> Result<Number, Fault> {
    let message = message(&[value]);
    read_number(&table(&[kind]), &message, &mut vec![0; message.len()], 0, 0)
}

#[test]
fn signed_numbers() {
    for x in [i64::MIN, i64::MIN + 1, -256, -1, 0, 1, i64::MAX] {
        assert_eq!(read(8, &x.to_le_bytes()), Ok(Number::Signed(x)));
    }
    assert_eq!(read(2, &[0x80]), Ok(Number::Signed(-128)));
    assert_eq!(read(12, &[0xff; 4]), Ok(Number::Signed(-1)));
}

#[test]
fn unsigned_numbers_and_bools() {
    assert_eq!(read(7, &[0xff; 8]), Ok(Number::Unsigned(u64::MAX)));
    assert_eq!(read(1, &[0x80]), Ok(Number::Unsigned(128)));
    assert_eq!(read(11, &[0]), Ok(Number::Bool(false)));
    assert_eq!(read(11, &[1]), Ok(Number::Bool(true)));
}

#[test]
fn decimals() {
    for (exponent, mantissa) in [(0, 0), (1, 1), (-128, i64::MIN), (127, -1), (-2, 12345)] {
        let value = [&[exponent as u8][..], &mantissa.to_le_bytes()].concat();
        assert_eq!(read(10, &value), Ok(Number::Decimal { exponent, mantissa }));
    }
}

#[test]
fn floats_keep_their_bits() {
    let patterns = [
        0.0f64.to_bits(),
        (-0.0f64).to_bits(),
        1.5f64.to_bits(),
        1,
        f64::INFINITY.to_bits(),
        f64::NEG_INFINITY.to_bits(),
        0x7ff8_0000_0000_0000,
        0xfff8_0000_0000_1234,
        u64::MAX,
    ];
    for bits in patterns {
        match read(9, &bits.to_le_bytes()) {
            Ok(Number::Float(x)) => assert_eq!(x.to_bits(), bits),
            other => panic!("{bits:x} gives {other:?}"),
        }
    }
}

#[test]
fn refusals() {
    assert_eq!(read(11, &[2]), Err(Fault { number: 11, place: 16 }));
    assert_eq!(read(15, &86_400_000u32.to_le_bytes()), Err(Fault { number: 12, place: 16 }));
    let (table, message) = (table(&[5]), message(&[&[0; 4]]));
    assert_eq!(read_bytes(&table, &message, &mut [0; 20], 0, 0), Err(Fault { number: 48, place: 0 }));
    assert_eq!(
        read_number(&table, &message, &mut [0; 20], 0, usize::MAX),
        Err(Fault { number: 28, place: 0 })
    );
    assert_eq!(check_message(&table, &message, &mut [0; 19]), Err(Fault { number: 21, place: 0 }));
    assert_eq!(check_message(&[], &[], &mut []), Err(Fault { number: 20, place: 0 }));
    assert_eq!(check_table(&table[..16]), Err(Fault { number: 31, place: 16 }));
}

/// A table of samples/: a group that lacks a field of its super.
#[test]
fn a_table_whose_group_forgets_its_super() {
    let table = include_bytes!("../../../samples/forgetful.table");
    let fault = check_table(table).unwrap_err();
    assert_eq!(fault, Fault { number: 36, place: 176 });
    assert_eq!(
        fault.to_string(),
        "fault 36 at byte 176: a group's fields do not begin with those of its super group"
    );
    let message = include_bytes!("../../../samples/good.message");
    assert_eq!(check_message(table, message, &mut [0; 81]), Err(Fault { number: 20, place: 0 }));
}

/// Tables of samples/: stored widths change no answer, and a stale one is refused.
#[test]
fn a_table_that_stores_its_widths() {
    let plain = include_bytes!("../../../samples/blank.table");
    let stored = include_bytes!("../../../samples/widths.table");
    for message in [
        &include_bytes!("../../../samples/good.message")[..],
        include_bytes!("../../../samples/padded.message"),
        include_bytes!("../../../samples/dusty.message"),
    ] {
        let scratch = &mut [0; 88];
        assert_eq!(check_message(stored, message, scratch), check_message(plain, message, scratch));
        for field in 0..6 {
            let number = read_number(plain, message, scratch, field, 0);
            assert_eq!(read_number(stored, message, scratch, field, 0), number);
            let bytes = read_bytes(plain, message, scratch, field, 0);
            assert_eq!(read_bytes(stored, message, scratch, field, 0), bytes);
        }
    }
    let fault = check_table(include_bytes!("../../../samples/stale.table")).unwrap_err();
    assert_eq!(fault, Fault { number: 37, place: 80 });
    assert_eq!(fault.to_string(), "fault 37 at byte 80: the width that a group stores is not its own");
}

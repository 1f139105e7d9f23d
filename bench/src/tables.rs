//! Schema tables to time: what a line uses, and what a hostile sender would make.

/// `EN` and its symbols, rising from 0.
pub fn enumeration(symbols: u16) -> Vec<u8> {
    let mut table = record(b"EN", &symbols.to_le_bytes());
    for value in 0..u32::from(symbols) {
        table.extend(record(b"SY", &value.to_le_bytes()));
    }
    table
}

/// `GR`: an id, or none; the super group's number plus 1, or 0; and its fields.
pub fn group(id: Option<u64>, above: u16, fields: &[Vec<u8>]) -> Vec<u8> {
    let mut contents = id.unwrap_or(0).to_le_bytes().to_vec();
    contents.push(u8::from(id.is_some()));
    contents.extend(above.to_le_bytes());
    contents.push(fields.len() as u8);
    let mut table = record(b"GR", &contents);
    for field in fields {
        table.extend(field);
    }
    table
}

/// `FD`: document 01's type, optional, sequence, size, reference.
pub fn field(number: u8, optional: bool, sequence: bool, size: u8, reference: u16) -> Vec<u8> {
    let [low, high] = reference.to_le_bytes();
    record(b"FD", &[number, u8::from(optional), u8::from(sequence), size, low, high])
}

fn record(mark: &[u8; 2], contents: &[u8]) -> Vec<u8> {
    let mut record = mark.to_vec();
    record.extend(contents);
    record.resize(16, 0);
    record
}

/// The table with `GW` records, which store these widths.
pub fn stored(mut table: Vec<u8>, widths: &[u16]) -> Vec<u8> {
    let groups = table.chunks_mut(16).filter(|record| record.starts_with(b"GR"));
    for (record, width) in groups.zip(widths) {
        record[1] = b'W';
        record[14..].copy_from_slice(&width.to_le_bytes());
    }
    table
}

/// A station's table: barcode, density, sound speed, grade, optional note.
pub fn blank() -> Vec<u8> {
    let mut table = enumeration(5);
    table.extend(group(
        Some(1),
        0,
        &[
            field(17, false, false, 0, 0),
            field(5, false, false, 0, 0),
            field(5, false, false, 0, 0),
            field(20, false, false, 0, 0),
            field(17, true, false, 0, 0),
        ],
    ));
    table
}

/// Five groups of 64 fields, each naming the group before: a billion paths, if they are followed.
pub fn tower(sequence: bool) -> Vec<u8> {
    let mut table = group(Some(1), 0, &[field(1, false, false, 0, 0)]);
    for number in 1..6u16 {
        let fields: Vec<_> = (0..64).map(|_| field(21, false, sequence, 0, number - 1)).collect();
        table.extend(group(None, 0, &fields));
    }
    table
}

/// As many bytes of enumerations as a table may have, and one group.
pub fn enumerations() -> Vec<u8> {
    let mut table = Vec::new();
    for _ in 0..15 {
        table.extend(enumeration(256));
    }
    let left = (65_536 - table.len()) / 16 - 2;
    table.extend(enumeration(left as u16));
    table.extend(group(Some(1), 0, &[]));
    table
}

/// Groups with ids, each below the one before and with the same fields. 63 groups of 64 fields are as long as a table may be.
pub fn chain(groups: u16, fields: usize) -> Vec<u8> {
    let fields = vec![field(5, false, false, 0, 0); fields];
    (0..groups).flat_map(|number| group(Some(u64::from(number) + 1), number, &fields)).collect()
}

/// So many groups, each with the one before as a static group: five nest too deep.
pub fn stairs(groups: u16) -> Vec<u8> {
    let mut table = group(Some(1), 0, &[field(1, false, false, 0, 0)]);
    for number in 1..groups {
        table.extend(group(None, 0, &[field(21, false, false, 0, number - 1)]));
    }
    table
}

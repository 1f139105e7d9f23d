//! Texts that are UTF-8 by document 01's table, and texts that just miss it.

use super::random::Random;

/// The rows of the table: the range of each byte of a form.
pub const ROWS: [&[(u8, u8)]; 7] = [
    &[(0x00, 0x7f)],
    &[(0xc2, 0xdf), CONT],
    &[(0xe0, 0xe0), (0xa0, 0xbf), CONT],
    &[(0xe1, 0xef), CONT, CONT],
    &[(0xf0, 0xf0), (0x90, 0xbf), CONT, CONT],
    &[(0xf1, 0xf3), CONT, CONT, CONT],
    &[(0xf4, 0xf4), (0x80, 0x8f), CONT, CONT],
];

const CONT: (u8, u8) = (0x80, 0xbf);

/// The lowest and the highest form of each row, and a surrogate, which RFC
/// 3629 forbids and the table allows.
pub fn forms() -> Vec<Vec<u8>> {
    let mut forms = vec![b"\xed\xa0\x80".to_vec(), b"\xed\xbf\xbf".to_vec()];
    for row in ROWS {
        forms.push(row.iter().map(|range| range.0).collect());
        forms.push(row.iter().map(|range| range.1).collect());
    }
    forms
}

/// Texts that are none: each range of each row missed by one on either side,
/// each form broken off, and first bytes that start no form.
pub fn broken() -> Vec<Vec<u8>> {
    let no_starts: [&[u8]; 7] =
        [b"\x80", b"\xbf", b"\xc0\x80", b"\xc1\xbf", b"\xf5\x80\x80\x80", b"\xf8\x80\x80\x80", b"\xff"];
    let mut broken: Vec<Vec<u8>> = no_starts.map(<[u8]>::to_vec).to_vec();
    for form in forms().iter().filter(|form| form.len() > 1) {
        broken.extend((1..form.len()).map(|cut| form[..cut].to_vec()));
    }
    for row in ROWS {
        let low: Vec<u8> = row.iter().map(|range| range.0).collect();
        for at in 1..row.len() {
            for miss in [row[at].0 - 1, row[at].1 + 1] {
                let mut text = low.clone();
                text[at] = miss;
                broken.push(text);
            }
        }
    }
    broken
}

/// UTF-8 of just this many bytes.
pub fn random_text(random: &mut Random, length: usize) -> Vec<u8> {
    let forms = forms();
    let mut text = Vec::new();
    while text.len() < length {
        let form = &forms[random.below(forms.len())];
        if random.one_in(2) || text.len() + form.len() > length {
            text.push(b'a' + random.below(26) as u8);
        } else {
            text.extend(form);
        }
    }
    text
}

/// Bytes of this length that are not UTF-8, but by chance.
pub fn random_broken_text(random: &mut Random, length: usize) -> Vec<u8> {
    let broken = broken();
    let mut text = vec![b'a'; random.below(length)];
    text.extend(&broken[random.below(broken.len())]);
    text.resize(length, b'a');
    text
}

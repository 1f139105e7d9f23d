//! The text test of faults 9, in the form of document 01's table.
//!
//! The table is wider than RFC 3629: it lets ED A0..BF through (surrogates).
//! Document 01 says that its table decides, so `std::str::from_utf8` cannot
//! be used for more than it.

/// Whether `text` is a row of the forms of document 01's table.
#[inline]
pub(crate) fn is_utf8(text: &[u8]) -> bool {
    text.is_ascii() || is_row_of_forms(text)
}

fn is_row_of_forms(text: &[u8]) -> bool {
    let mut rest = text;
    loop {
        rest = skip_ascii(rest);
        match form_length(rest) {
            Some(0) => return true,
            Some(length) => rest = &rest[length..],
            None => return false,
        }
    }
}

/// Whole words of bytes 00..7F at once; what is left starts near the first
/// byte that is none.
#[inline]
fn skip_ascii(text: &[u8]) -> &[u8] {
    let (words, _) = text.as_chunks::<8>();
    let ascii =
        words.iter().take_while(|word| u64::from_ne_bytes(**word) & 0x8080_8080_8080_8080 == 0).count();
    &text[ascii * 8..]
}

/// The length of the form that starts `text`, 0 for the empty text, nothing
/// if no form does.
#[inline]
fn form_length(text: &[u8]) -> Option<usize> {
    match *text {
        [] => Some(0),
        [0x00..=0x7f, ..] => Some(1),
        [0xc2..=0xdf, 0x80..=0xbf, ..] => Some(2),
        [0xe0, 0xa0..=0xbf, 0x80..=0xbf, ..] => Some(3),
        [0xe1..=0xef, 0x80..=0xbf, 0x80..=0xbf, ..] => Some(3),
        [0xf0, 0x90..=0xbf, 0x80..=0xbf, 0x80..=0xbf, ..] => Some(4),
        [0xf1..=0xf3, 0x80..=0xbf, 0x80..=0xbf, 0x80..=0xbf, ..] => Some(4),
        [0xf4, 0x80..=0x8f, 0x80..=0xbf, 0x80..=0xbf, ..] => Some(4),
        _ => None,
    }
}

#[cfg(all(test, feature = "generate"))]
mod tests {
    use super::is_utf8;
    use crate::generate::text::{broken, forms};

    #[test]
    fn every_row_at_its_edges() {
        for form in forms() {
            assert!(is_utf8(&form), "{form:x?}");
            assert!(is_utf8(&[&form[..], b"plain ascii text", &form[..]].concat()), "{form:x?}");
        }
        for text in broken() {
            assert!(!is_utf8(&text), "{text:x?}");
            assert!(!is_utf8(&[b"plain ascii text", &text[..]].concat()), "{text:x?}");
        }
    }

    #[test]
    fn first_bytes_that_start_no_form() {
        for first in (0x80..=0xc1).chain(0xf5..=0xff) {
            assert!(!is_utf8(&[first, 0x80, 0x80, 0x80]), "{first:x}");
        }
    }

    #[test]
    fn a_bad_byte_behind_any_run_of_ascii() {
        for run in 0..40 {
            let mut text = vec![b'a'; run];
            assert!(is_utf8(&text));
            text.push(0x80);
            assert!(!is_utf8(&text));
            text.extend([b'a'; 20]);
            assert!(!is_utf8(&text));
        }
    }
}

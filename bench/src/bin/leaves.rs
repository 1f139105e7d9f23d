//! The leaves of crate `wire` beside the same loops in Rust and beside Rust's own functions, 64 KiB each, buffers written once before.
use blink_bench::{compare, heading};
use std::hint::black_box;

extern "C" {
    fn wire_is_utf8(text: *const u8, length: usize) -> bool;
    fn wire_all_zero(s: *const u8, length: usize) -> bool;
    fn wire_count_zeros(s: *const u8, length: usize) -> usize;
    fn wire_fill(out: *mut u8, length: usize, value: u8);
    fn wire_copy(out: *mut u8, out_length: usize, s: *const u8, length: usize);
}

fn is_utf8(s: &[u8]) -> bool {
    unsafe { wire_is_utf8(s.as_ptr(), s.len()) }
}

fn all_zero(s: &[u8]) -> bool {
    unsafe { wire_all_zero(s.as_ptr(), s.len()) }
}

fn count_zeros(s: &[u8]) -> usize {
    unsafe { wire_count_zeros(s.as_ptr(), s.len()) }
}

fn fill(out: &mut [u8], value: u8) {
    unsafe { wire_fill(out.as_mut_ptr(), out.len(), value) }
}

fn copy(out: &mut [u8], s: &[u8]) {
    unsafe { wire_copy(out.as_mut_ptr(), out.len(), s.as_ptr(), s.len()) }
}

#[inline(never)]
fn loop_all_zero(s: &[u8]) -> bool {
    let mut zero = true;
    let mut i = 0;
    while i < s.len() {
        zero &= s[i] == 0;
        i += 1;
    }
    zero
}

#[inline(never)]
fn loop_count_zeros(s: &[u8]) -> usize {
    let mut i = 0;
    while i < s.len() && s[i] == 0 {
        i += 1;
    }
    i
}

#[inline(never)]
fn loop_fill(out: &mut [u8], value: u8) {
    let mut i = 0;
    while i < out.len() {
        out[i] = value;
        i += 1;
    }
}

#[inline(never)]
fn loop_copy(out: &mut [u8], s: &[u8]) {
    let mut i = 0;
    while i < s.len() {
        out[i] = s[i];
        i += 1;
    }
}

/// The same scan, form by form, with 32 or eight bytes of ASCII at a time.
#[inline(never)]
fn loop_is_utf8(s: &[u8]) -> bool {
    let mut i = 0;
    while i < s.len() {
        let n = form_width(s, i);
        if n == 0 {
            return false;
        }
        i += n;
    }
    true
}

fn form_width(s: &[u8], at: usize) -> usize {
    let b = s[at];
    if b < 0x80 {
        let eight = |at: usize| {
            u64::from_le_bytes(s[at..at + 8].try_into().expect("eight bytes")) & 0x8080_8080_8080_8080 == 0
        };
        if s.len() - at < 8 || !eight(at) {
            return 1;
        }
        if s.len() - at >= 32 && eight(at + 8) & eight(at + 16) & eight(at + 24) {
            return 32;
        }
        return 8;
    }
    if !(0xc2..=0xf4).contains(&b) {
        return 0;
    }
    let (low, high) = match b {
        0xe0 => (0xa0, 0xbf),
        0xf0 => (0x90, 0xbf),
        0xf4 => (0x80, 0x8f),
        _ => (0x80, 0xbf),
    };
    let continues = |at: usize, low: u8, high: u8| at < s.len() && low <= s[at] && s[at] <= high;
    if !continues(at + 1, low, high) {
        return 0;
    }
    if b < 0xe0 {
        return 2;
    }
    if !continues(at + 2, 0x80, 0xbf) {
        return 0;
    }
    if b < 0xf0 {
        return 3;
    }
    if !continues(at + 3, 0x80, 0xbf) {
        return 0;
    }
    4
}

fn main() {
    let n = 1 << 16;
    let zeros = vec![0u8; n];
    let ascii: Vec<u8> = (0..n).map(|i| (i % 95) as u8 + 32).collect();
    let mixed: Vec<u8> = "aé漢😀 bridge ".bytes().cycle().take(n / 18 * 18).collect();
    let short = b"BC-0042-19-A";
    let mut out = vec![0u8; n];

    for text in [&ascii[..], &mixed[..], &short[..], &[0xff], &[0xe0, 0x80, 0x80], &[]] {
        let valid = std::str::from_utf8(text).is_ok();
        assert_eq!((is_utf8(text), loop_is_utf8(text)), (valid, valid));
    }

    heading("proved", "same loop");
    compare("UTF-8, ASCII", &mut || _ = black_box(is_utf8(black_box(&ascii))), &mut || _ = black_box(loop_is_utf8(black_box(&ascii))));
    compare("UTF-8, mixed", &mut || _ = black_box(is_utf8(black_box(&mixed))), &mut || _ = black_box(loop_is_utf8(black_box(&mixed))));
    compare("UTF-8, 12 bytes", &mut || _ = black_box(is_utf8(black_box(short))), &mut || _ = black_box(loop_is_utf8(black_box(short))));
    compare("all zero", &mut || _ = black_box(all_zero(black_box(&zeros))), &mut || _ = black_box(loop_all_zero(black_box(&zeros))));
    compare("count zeros", &mut || _ = black_box(count_zeros(black_box(&zeros))), &mut || _ = black_box(loop_count_zeros(black_box(&zeros))));
    let mut other = vec![0u8; n];
    compare("fill", &mut || fill(black_box(&mut out), 7), &mut || loop_fill(black_box(&mut other), 7));
    compare("copy", &mut || copy(black_box(&mut out), black_box(&ascii)), &mut || loop_copy(black_box(&mut other), black_box(&ascii)));

    println!();
    heading("proved", "Rust std");
    compare("UTF-8, ASCII (from_utf8)", &mut || _ = black_box(is_utf8(black_box(&ascii))), &mut || _ = black_box(std::str::from_utf8(black_box(&ascii)).is_ok()));
    compare("UTF-8, mixed (from_utf8)", &mut || _ = black_box(is_utf8(black_box(&mixed))), &mut || _ = black_box(std::str::from_utf8(black_box(&mixed)).is_ok()));
    compare("UTF-8, 12 bytes (from_utf8)", &mut || _ = black_box(is_utf8(black_box(short))), &mut || _ = black_box(std::str::from_utf8(black_box(short)).is_ok()));
    compare("fill (slice::fill)", &mut || fill(black_box(&mut out), 7), &mut || black_box(&mut other[..]).fill(7));
    compare("copy (copy_from_slice)", &mut || copy(black_box(&mut out), black_box(&ascii)), &mut || black_box(&mut other[..]).copy_from_slice(black_box(&ascii)));
}

//! The C functions of the archive as safe Rust: an answer is the value, or the number of the refusal.
#![allow(dead_code)]

mod c {
    unsafe extern "C" {
        pub fn hypuz_parse_notation(text: *const u8, text_size: usize, features: u32, tree: *mut u8, tree_size: usize) -> u64;
        pub fn hypuz_count_steps(text: *const u8, text_size: usize, tree: *const u8, tree_size: usize) -> u64;
        pub fn hypuz_seek_step(t: *const u8, tn: usize, r: *const u8, rn: usize, place: u64, out: *mut u8, size: usize) -> u64;
        pub fn hypuz_inv(t: *const u8, tn: usize, r: *const u8, rn: usize, out: *mut u8, size: usize) -> u64;
        pub fn hypuz_inv_deep(t: *const u8, tn: usize, r: *const u8, rn: usize, out: *mut u8, size: usize) -> u64;
        pub fn hypuz_display(t: *const u8, tn: usize, r: *const u8, rn: usize, out: *mut u8, size: usize) -> u64;
        pub fn hypuz_flatten(t: *const u8, tn: usize, r: *const u8, rn: usize, out: *mut u8, size: usize) -> u64;
        pub fn hypuz_simplify(t: *const u8, tn: usize, r: *const u8, rn: usize, record: u64, max_layer: u32, negatives: u32, out: *mut u8, size: usize) -> u64;
        pub fn hypuz_family(t: *const u8, tn: usize, r: *const u8, rn: usize, record: u64) -> u64;
    }
}

/// Bytes of a record, as the archive's header has them: build.rs hands them over.
pub const RECORD: usize = number(env!("HYPUZ_RECORD"));
pub const MAXIMAL: u32 = 127;
/// U+2019 and U+2032 as apostrophes, which the Rust does not know.
pub const CURLY_PRIMES: u32 = 128;
/// Bits of an offset or a length in a text; the longest text has as many bytes as they hold.
const PLACE: u32 = 24;
pub const MOST_TEXT: usize = (1 << PLACE) - 1;

const fn number(digits: &str) -> usize {
    let (digits, mut n, mut i) = (digits.as_bytes(), 0, 0);
    while i < digits.len() {
        n = 10 * n + (digits[i] - b'0') as usize;
        i += 1;
    }
    n
}

pub type Answer = Result<u64, u8>;

fn split(a: u64) -> Answer {
    match (a >> 56) as u8 {
        0 => Ok(a),
        refusal => Err(refusal),
    }
}

pub fn parse(text: &[u8], features: u32, tree: &mut [u8]) -> Answer {
    split(unsafe { c::hypuz_parse_notation(text.as_ptr(), text.len(), features, tree.as_mut_ptr(), tree.len()) })
}

pub fn count_steps(text: &[u8], tree: &[u8]) -> Answer {
    split(unsafe { c::hypuz_count_steps(text.as_ptr(), text.len(), tree.as_ptr(), tree.len()) })
}

pub fn seek_step(text: &[u8], tree: &[u8], place: u64, out: &mut [u8]) -> Answer {
    split(unsafe { c::hypuz_seek_step(text.as_ptr(), text.len(), tree.as_ptr(), tree.len(), place, out.as_mut_ptr(), out.len()) })
}

pub fn inv(text: &[u8], tree: &[u8], out: &mut [u8]) -> Answer {
    split(unsafe { c::hypuz_inv(text.as_ptr(), text.len(), tree.as_ptr(), tree.len(), out.as_mut_ptr(), out.len()) })
}

pub fn inv_deep(text: &[u8], tree: &[u8], out: &mut [u8]) -> Answer {
    split(unsafe { c::hypuz_inv_deep(text.as_ptr(), text.len(), tree.as_ptr(), tree.len(), out.as_mut_ptr(), out.len()) })
}

pub fn display(text: &[u8], tree: &[u8], out: &mut [u8]) -> Answer {
    split(unsafe { c::hypuz_display(text.as_ptr(), text.len(), tree.as_ptr(), tree.len(), out.as_mut_ptr(), out.len()) })
}

pub fn flatten(text: &[u8], tree: &[u8], out: &mut [u8]) -> Answer {
    split(unsafe { c::hypuz_flatten(text.as_ptr(), text.len(), tree.as_ptr(), tree.len(), out.as_mut_ptr(), out.len()) })
}

pub fn simplify(text: &[u8], tree: &[u8], record: u64, max_layer: u32, negatives: bool, out: &mut [u8]) -> Answer {
    split(unsafe {
        c::hypuz_simplify(text.as_ptr(), text.len(), tree.as_ptr(), tree.len(), record, max_layer, negatives.into(), out.as_mut_ptr(), out.len())
    })
}

/// Offset and length of a family.
pub fn family(text: &[u8], tree: &[u8], record: u64) -> Result<(usize, usize), u8> {
    let answer = split(unsafe { c::hypuz_family(text.as_ptr(), text.len(), tree.as_ptr(), tree.len(), record) })?;
    Ok(((answer >> PLACE) as usize, answer as usize & MOST_TEXT))
}

//! Every code point through the crate `charsets` and through the Rust; prints how many of each kind there are and each that differs.
mod charsets;
use charsets::CharSet;

unsafe extern "C" {
    safe fn class_of(c: u32) -> u32;
    safe fn family_char(c: u32) -> u32;
    safe fn prime(c: u32) -> u32;
    safe fn white_space(c: u32) -> u32;
}

/// The apostrophe and the two signs that word processors write for it: document 02, request 6. The Rust has no such class, and none of its own holds them.
const PRIMES: [char; 3] = ['\'', '\u{2019}', '\u{2032}'];
const PRIME: u32 = 7;

fn number(class: Option<CharSet>) -> u32 {
    match class {
        None => 0,
        Some(CharSet::LowercaseLatin) => 1,
        Some(CharSet::UppercaseLatin) => 2,
        Some(CharSet::UppercaseGreek) => 3,
        Some(CharSet::TallLowercaseGreek) => 4,
        Some(CharSet::ShortLowercaseGreek) => 5,
        Some(CharSet::Underscore) => 6,
    }
}

fn main() {
    let (mut all, mut family, mut primes, mut white, mut differ) = (0, 0, 0, 0, 0);
    for c in '\0'..=char::MAX {
        let ours = (class_of(c as u32), family_char(c as u32) == 1, prime(c as u32) == 1, white_space(c as u32) == 1);
        let class = match charsets::classify(c) {
            None if PRIMES.contains(&c) => PRIME,
            class => number(class),
        };
        let theirs = (class, charsets::is_family_char(c), PRIMES.contains(&c), c.is_whitespace());
        all += 1;
        family += theirs.1 as u32;
        primes += theirs.2 as u32;
        white += theirs.3 as u32;
        if ours != theirs {
            differ += 1;
            println!("differs: U+{:04X}, ours {ours:?}, the Rust {theirs:?}", c as u32);
        }
    }
    println!("{all} code points, {family} of family names, {primes} primes, {white} white space, {differ} differ");
    std::process::exit((differ > 0) as i32);
}

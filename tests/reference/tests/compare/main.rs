//! Every export of libsisa.a against the reference.
//!
//! SISA_SEED gives another seed; SISA_CASE plays one case of the lists alone,
//! as a failure names it.

mod assembly;
mod boards;
mod call;
mod divisors;
mod extension;
mod ffi;
mod journals;
mod lines;
mod lists;
mod locked;
mod make;
mod masks;
mod pages;
#[path = "../shared/random.rs"]
mod random;
#[path = "../shared/registers.rs"]
mod registers;
mod saves;
mod selves;
mod sheets;
mod steps;
mod tally;
mod texts;
mod twins;
mod windows;
mod words;
mod world;

use random::Random;

fn number_from(variable: &str) -> Option<u64> {
    let text = std::env::var(variable).ok()?;
    match text.parse() {
        Ok(number) => Some(number),
        Err(_) => panic!("{variable} must be a number of 64 bits, not {text}"),
    }
}

fn seed() -> u64 {
    number_from("SISA_SEED").unwrap_or(1)
}

fn case_to_replay() -> Option<u64> {
    number_from("SISA_CASE")
}

/// The generator of one case (splitmix64 of both numbers).
fn random_of(seed: u64, case: u64) -> Random {
    let mut x = seed
        .wrapping_mul(0xD134_2543_DE82_EF95)
        .wrapping_add(case)
        .wrapping_mul(0x9E37_79B9_7F4A_7C15);
    x = (x ^ (x >> 30)).wrapping_mul(0xBF58_476D_1CE4_E5B9);
    x = (x ^ (x >> 27)).wrapping_mul(0x94D0_49BB_1331_11EB);
    Random::new((x ^ (x >> 31)).max(1))
}

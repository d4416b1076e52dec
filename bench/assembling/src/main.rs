//! How long libsisa.a takes to assemble: with names and without, by size, on hard texts, and beside the reference's assembler. Times are
//! medians over rounds; a ratio is of two times of one round.

mod texts;

use std::process::exit;
use std::time::Instant;

const PROGRAM_BYTES: usize = 65_536;
const TEXT_BYTES: usize = 65_536;
const ROUNDS: usize = 21;

#[repr(C)]
struct SisaAssembly {
    refusal: u8,
    line: u32,
    words: u32,
}

#[link(name = "sisa", kind = "static")]
extern "C" {
    fn sisa_assemble(text: *const u8, text_len: usize, program: *mut u8, program_len: usize) -> SisaAssembly;
}

/// What assembling a text came to: its words, or line and number.
type Reply = Result<u32, (u32, u8)>;

fn library(text: &[u8], program: &mut [u8]) -> Reply {
    // The pointers are to as many bytes as is said, and the two slices don't overlap.
    let reply = unsafe { sisa_assemble(text.as_ptr(), text.len(), program.as_mut_ptr(), program.len()) };
    match reply.refusal {
        0 => Ok(reply.words),
        number => Err((reply.line, number)),
    }
}

fn reference(text: &[u8], program: &mut [u8]) -> Reply {
    reference::assemble::assemble(text, program).map_err(|refused| (refused.line, refused.number))
}

/// Seconds for one call, over as many calls as make some 65,536 bytes.
fn seconds(assemble: fn(&[u8], &mut [u8]) -> Reply, text: &[u8], program: &mut [u8]) -> f64 {
    let calls = (TEXT_BYTES / text.len()).max(1);
    let before = Instant::now();
    for _ in 0..calls {
        if let Err((line, number)) = assemble(text, program) {
            eprintln!("line {line}: refused {number}");
            exit(1);
        }
    }
    before.elapsed().as_secs_f64() / calls as f64
}

fn median(mut numbers: Vec<f64>) -> f64 {
    numbers.sort_by(f64::total_cmp);
    numbers[numbers.len() / 2]
}

/// The library's seconds for a text, and its time as a ratio of what `other` takes.
fn measured(text: &[u8], other: impl Fn(&mut [u8]) -> f64) -> (f64, f64) {
    let mut program = vec![0; PROGRAM_BYTES];
    let rounds: Vec<(f64, f64)> = (0..ROUNDS)
        .map(|_| {
            let own = seconds(library, text, &mut program);
            (own, own / other(&mut program))
        })
        .collect();
    (median(rounds.iter().map(|r| r.0).collect()), median(rounds.iter().map(|r| r.1).collect()))
}

fn check_same_words(named: &[u8], bare: &[u8]) {
    let (mut one, mut two) = (vec![0; PROGRAM_BYTES], vec![0; PROGRAM_BYTES]);
    if library(named, &mut one) != library(bare, &mut two) || one != two {
        eprintln!("the text without names has other words");
        exit(1);
    }
}

fn print_growth() {
    println!("microseconds by bytes: no name, 1 name, 64 names, one of 64 names on every line");
    for size in (10..=16).map(|k| 1 << k) {
        let times = [texts::plain(size), texts::given(size, 1), texts::given(size, 64), texts::used(size)]
            .map(|text| measured(&text, |_| 1.0).0 * 1e6);
        println!("{size}: {:.1} {:.1} {:.1} {:.1}", times[0], times[1], times[2], times[3]);
    }
}

fn main() {
    let (named, bare) = texts::last_names(TEXT_BYTES);
    check_same_words(&named, &bare);
    let (_, ratio) = measured(&named, |program| seconds(library, &bare, program));
    println!("64 names on the last lines, to the same without names: {ratio:.2}");
    print_growth();
    let plain = texts::plain(TEXT_BYTES);
    println!("at {TEXT_BYTES} bytes: microseconds, to plain lines, to the reference's assembler");
    let mut all = vec![("plain lines", plain.clone()), ("64 names on the last lines", named)];
    all.extend(texts::hard(TEXT_BYTES));
    for (what, text) in all {
        let (time, to_plain) = measured(&text, |program| seconds(library, &plain, program));
        let (_, to_reference) = measured(&text, |program| seconds(reference, &text, program));
        println!("{what}: {:.0} {to_plain:.2} {to_reference:.2}", time * 1e6);
    }
    if ratio > 4.0 {
        exit(1);
    }
}

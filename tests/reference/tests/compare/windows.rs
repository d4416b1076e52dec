//! Windows on memories of any length.

use crate::call::{header_state, header_window};
use crate::ffi;
use crate::make::{one_of, window_number, with_any_range};
use crate::{random_of, seed};
use reference::machine::State;

#[test]
fn windows_on_memories_of_any_length() {
    let seed = seed();
    let mut random = random_of(seed, 2 << 32);
    let program: Vec<u8> = (0..70_000).map(|at| at as u8).collect();
    let memory: Vec<u8> = (0..70_000).map(|at| at as u8 ^ 0x55).collect();
    let (mut parts, mut beyond_usize) = (0, 0);
    for _ in 0..200_000 {
        let mut length = || match random.below(3) {
            0 => 65_536,
            1 => random.below(70_001) as usize,
            _ => random.below(9) as usize,
        };
        let (p, d) = (&program[..length()], &memory[..length()]);
        let start = window_number(&mut random, p.len(), d.len());
        let count = window_number(&mut random, p.len(), d.len());
        let of_data = one_of(&mut random, &[0, 0, 1, 2, 128, 255]);
        let state = with_any_range(&mut random, State::reset());
        let expected = header_window(&state, p, d, of_data, start, count);
        assert_eq!(
            expected,
            ffi::window(header_state(state), p, d, of_data, start, count),
            "reference, library: SISA_SEED={seed}, window on program of {}, data of {}, \
             of_data {of_data}, start {start}, count {count}, {state:?}",
            p.len(),
            d.len()
        );
        parts += u64::from(expected.count > 0);
        beyond_usize += u64::from(start.checked_add(count).is_none());
    }
    println!("seed {seed}: 200000 windows, {parts} not empty, {beyond_usize} beyond usize");
    assert!(parts > 20_000 && beyond_usize > 5_000);
}

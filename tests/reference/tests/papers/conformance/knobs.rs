//! The cases of `conformance` with lines, and the tables from 160 on.

use super::count;
use reference::conformance::{knob_file, lines, number, table, table_file, table_lines};
use reference::instruction::{read, Kind};

#[test]
fn words_of_the_cases_with_lines() {
    let mut kinds = [0; 34];
    for c in 89..97 {
        let file = knob_file(c);
        assert_eq!(file.len() as u64, 16 + 2 * 136 + number(c, 1) % 300);
        let program: Vec<u16> = file[16..]
            .chunks(2)
            .take(136)
            .map(|x| u16::from_le_bytes([x[0], x[1]]))
            .collect();
        assert_eq!(
            [program[30], program[31], program[135]],
            [0x80E1, 0x81E0, 0xC002]
        );
        for (j, &w) in (0..).zip(&program) {
            let of = number(c, 1_000 + j);
            if number(c, 4_000 + j) & 3 == 0 && ![30, 31, 135].contains(&j) {
                let x = read(w).expect("an instruction");
                let kind = [Kind::Ei, Kind::Ei, Kind::Di, Kind::Getiid][of as usize >> 3 & 3];
                assert_eq!(x.kind, kind);
                let d = if kind == Kind::Getiid { of & 7 } else { 0 };
                assert_eq!(x.d as u64, d);
                kinds[usize::from(kind.number())] += 1;
            }
        }
    }
    assert!([30, 31, 33].iter().all(|&k| kinds[k] > 20), "{kinds:?}");
}

/// ENABLED PENDING LINE RETURN
fn numbers(line: &str) -> [u64; 4] {
    let words: Vec<&str> = line.split(' ').collect();
    assert_eq!((words.len(), words[0]), (7, "lines"), "{line}");
    [3, 4, 5, 6].map(|k| words[k].parse().unwrap())
}

#[test]
fn raises_and_takings() {
    let lines = lines();
    let first = lines.iter().position(|line| line.starts_with("load 89 "));
    let mut kept = [0; 4];
    // Raises accepted and refused, lines taken by runs, given back, refused with an
    // odd return address.
    let (mut raised, mut refused, mut taken, mut back, mut odd) = (0, 0, 0, 0, 0);
    let last = lines.iter().position(|line| line.starts_with("page "));
    for at in first.unwrap()..last.unwrap() {
        let pair = &lines[at..];
        let call: Vec<&str> = pair[0].split(' ').collect();
        let fed = usize::from(call[0] == "journal");
        match call[0] {
            "load" => kept = [0; 4],
            "raise" => {
                let after = numbers(&pair[1]);
                let [c, j] = [1, 2].map(|k| call[k].parse::<u64>().unwrap());
                let line = number(c, 7_001 + 16 * j) % 10;
                let bit = if line < 8 { 1 << line } else { 0 };
                assert_eq!(call[3], if line < 8 { "0" } else { "16" });
                assert_eq!(after, [kept[0], kept[1] | bit, kept[2], kept[3]]);
                raised += u32::from(line < 8);
                refused += u32::from(line > 7);
                kept = after;
            }
            "journal" | "back" => {
                let after = numbers(&pair[1 + fed]);
                let refusal = call[3 + fed];
                if refusal != "0" {
                    assert_eq!(after[..3], kept[..3]);
                    odd += after[3] % 2;
                } else {
                    let ones = |x: u64| x.count_ones();
                    taken += ones(kept[1]).saturating_sub(ones(after[1]));
                    back += ones(after[1]).saturating_sub(ones(kept[1]));
                    kept = after;
                }
            }
            _ => {}
        }
    }
    assert!(raised > 20 && refused > 5 && taken > 10 && back > 1 && odd > 3);
    assert_eq!(count(&lines, "raise") as u32, raised + refused);
}

#[test]
fn tables_with_lines() {
    let lines = table_lines();
    let first = lines
        .iter()
        .position(|line| line.starts_with("run control 160 "));
    let mut taken = 0;
    let of_lines = &lines[first.unwrap()..][..2 * 4 * 16];
    for (at, run) in of_lines.chunks(2).enumerate() {
        let (t, i) = (160 + at as u64 / 4, at as u64 % 4);
        let c = 1_000 + t;
        assert!(run[0].starts_with(&format!("run control {t} {i} ")));
        let [_, pending, ..] = numbers(&run[1]);
        let before = number(c, 71) % 256;
        assert_eq!(pending & !before, 0);
        taken += u32::from(i == 3) * (before.count_ones() - pending.count_ones());
        if t % 4 == 2 && i == 0 {
            for (j, word) in (0..).zip(table(t)) {
                let mask = if number(c, 140 + j).is_multiple_of(4) {
                    0xFFFF
                } else {
                    0x7FFF
                };
                assert_eq!(word, (number(c, 100 + j) as u16 | 0x4000) & mask);
            }
        }
        assert_eq!(
            table_file(t)[..2],
            ((1 + number(c, 0) % 200) as u16).to_le_bytes()
        );
    }
    assert!(taken > 5, "{taken}");
}

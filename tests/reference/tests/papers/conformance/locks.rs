//! The cases of `conformance` with locked bytes, and the tables from 176 on.

use super::{count, occur};
use crate::refusals::answer_for;
use reference::conformance::{lines, locked_file, number, range, table_lines};
use reference::instruction::{read, Kind};
use reference::machine::Memories;

#[test]
fn words_and_ranges() {
    let mut kinds = [0; 4];
    for c in 103..109 {
        let (first, last) = (range(c).first, range(c).last);
        assert_eq!(u64::from(first), number(c, 8) % 32);
        assert_eq!(u64::from(last - first), number(c, 9) % 3);
        let file = locked_file(c);
        assert_eq!(file.len() as u64, 16 + 64 + number(c, 1) % 300);
        assert!(answer_for(Memories::Single, &file).is_ok());
        for (j, bytes) in (0..30).zip(file[16..].chunks(2)) {
            let of = number(c, 1_000 + j);
            if number(c, 4_000 + j) & 1 == 0 {
                let x = read(u16::from_le_bytes([bytes[0], bytes[1]])).expect("an instruction");
                let kind = [Kind::Ld, Kind::St, Kind::Ldb, Kind::Stb][of as usize & 3];
                assert_eq!((x.kind, x.a, (x.b + x.d) as u64), (kind, 0, of >> 2 & 7));
                let n6 = u64::from(first) + 60 + (of >> 5 & 7);
                assert_eq!(x.n as u16 & 63, n6 as u16 & 63);
                kinds[of as usize & 3] += 1;
            }
        }
    }
    assert!(kinds.iter().all(|&x| x > 10), "{kinds:?}");
}

#[test]
fn stops_and_ranges_of_replies() {
    let lines = lines();
    for c in 103..109 {
        let (first, last) = (range(c).first, range(c).last);
        let line = format!("locked {c} {} 1 {first} {last}", c % 2);
        assert_eq!(count(&lines, &line), 6);
    }
    for expected in ["load 109 15", "load 110 18", "load 111 0"] {
        assert_eq!(count(&lines, expected), 1);
    }
    occur(
        &lines,
        "locked",
        &["109 0 0 0 0", "110 0 0 0 0", "111 1 1 8 8"],
    );
    for start in [
        "run rules",
        "run table",
        "run host",
        "journal rules",
        "journal table",
    ] {
        occur(&lines, &format!("{start} * *"), &["0 4"]);
    }
}

/// Of a window's line, START and COUNT by hand, and whether it holds a locked byte.
fn window(c: u64, i: u64) -> ((u64, u64), bool) {
    let q = 5_000 + 16 * i;
    let (first, last) = (u64::from(range(c).first), u64::from(range(c).last));
    let start = (first + 65_532 + number(c, q + 2) % 8) % 65_536;
    let asked = match number(c, q + 4) % 8 {
        0 => 65_536 - start,
        1 => 65_537 - start,
        2 => 0,
        _ => number(c, q + 3) % 8,
    };
    let of_data = number(c, q + 1) % 2 == 1;
    let locked = of_data && start <= last && start + asked > first && asked > 0;
    let shown = !locked && asked > 0 && start + asked <= 65_536;
    (if shown { (start, asked) } else { (0, 0) }, locked)
}

#[test]
fn windows_near_a_range() {
    let lines = lines();
    let mut seen = [0, 0];
    for line in lines.iter().filter(|line| line.starts_with("window ")) {
        let x: Vec<u64> = line
            .split(' ')
            .skip(1)
            .map(|x| x.parse().unwrap())
            .collect();
        if x[0] >= 103 {
            let (expected, locked) = window(x[0], x[1]);
            assert_eq!((x[2], x[3]), expected, "{line}");
            seen[usize::from(locked)] += 1;
        }
    }
    assert!(seen.iter().all(|&x| x > 2), "{seen:?}");
}

#[test]
fn tables_with_ranges() {
    let lines = table_lines();
    let first = lines
        .iter()
        .position(|line| line.starts_with("run control 176 "));
    let of_ranges = &lines[first.unwrap()..];
    assert_eq!(of_ranges.len(), 2 * 4 * 16);
    assert!(count(of_ranges, "run control * * 0 4") > 3);
}

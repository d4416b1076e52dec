//! The pages of `conformance`.

use super::{count, occur};
use reference::conformance::{lines, number, trim_file, trims};
use reference::instruction::{read, Kind};

#[test]
fn words_of_the_trims() {
    let mut kinds = [0; 2];
    for (c, i) in (97..103).flat_map(|c| (0..trims(c)).map(move |i| (c, i))) {
        let f = 200 + 3 * (c - 97) + i as u64;
        let file = trim_file(c, i);
        assert_eq!(file.len() as u64, 16 + 64 + number(f, 1) % 300);
        for (j, bytes) in (0..30).zip(file[16..].chunks(2)) {
            let x = read(u16::from_le_bytes([bytes[0], bytes[1]]));
            let of = number(f, 1_000 + j);
            match number(f, 4_000 + j) % 8 {
                0 => {}
                1 => {
                    let x = x.expect("an OUT");
                    assert_eq!((x.kind, x.a as u64), (Kind::Out, of & 7));
                    assert_eq!(x.n as u64, of >> 3 & 255);
                    kinds[0] += 1;
                }
                _ => {
                    let x = x.expect("an ADDI");
                    assert_eq!((x.kind, x.a as u64), (Kind::Addi, of >> 9 & 7));
                    kinds[1] += 1;
                }
            }
        }
    }
    assert!(kinds.iter().all(|&x| x > 20), "{kinds:?}");
}

#[test]
fn pages_of_every_sort() {
    let lines = lines();
    assert_eq!(count(&lines, "page"), 60);
    for engine in ["rules", "table"] {
        occur(&lines, &format!("page {engine} * *"), &["0", "1"]);
    }
    occur(&lines, "page * * *", &["5", "6", "17"]);
    occur(&lines, "trim * * *", &["0", "1", "2"]);
    let total: usize = (97..103).map(|c| 10 * trims(c)).sum();
    assert_eq!(count(&lines, "trim"), total);
    // A refused page's trims have no steps, and their counts of journal entries.
    for (at, line) in lines.iter().enumerate() {
        let words: Vec<&str> = line.split(' ').collect();
        if words[0] == "page" && words[4] != "0" {
            let trims = trims(words[2].parse().unwrap());
            for trim in &lines[at + 1..=at + trims] {
                assert!(trim.split(' ').skip(4).take(4).all(|x| x == "0"), "{trim}");
            }
        }
    }
}

/// Steps sum to at most the budget, and to all of it where a trim ends with stop 0.
#[test]
fn totals() {
    let lines = lines();
    let mut accepted = 0;
    for (at, line) in lines.iter().enumerate() {
        let words: Vec<&str> = line.split(' ').collect();
        if words[0] != "page" || words[4] != "0" {
            continue;
        }
        let [c, j] = [2, 3].map(|k| words[k].parse::<u64>().unwrap());
        let q = 7_000 + 16 * j;
        let budget = number(c, q + 2) % [6, 60, 1_000, 1_000][number(c, q + 1) as usize % 4];
        let trims: Vec<Vec<u64>> = lines[at + 1..=at + trims(c)]
            .iter()
            .map(|x| x.split(' ').skip(4).map(|x| x.parse().unwrap()).collect())
            .collect();
        let total: u64 = trims.iter().map(|x| x[1]).sum();
        let none = trims.iter().all(|x| x[0] != 0);
        assert!(total <= budget, "{line}");
        assert_eq!(total < budget, none, "{line}");
        accepted += 1;
    }
    assert!(accepted > 15, "{accepted}");
}

//! The files of the cases with keys, and of the tables from 128 on.

use reference::assemble::assemble;
use reference::conformance::{key_file, number, table, table_file};
use reference::instruction::{read, Kind};

/// The words of a file whose program part is so long.
fn words(file: &[u8], count: usize) -> Vec<u16> {
    let program = file[16..].chunks(2).take(count);
    program.map(|x| u16::from_le_bytes([x[0], x[1]])).collect()
}

#[test]
fn words_of_the_cases_with_keys() {
    let mut program = [0; 65_536];
    let text = format!("{}BZ R0, 0\nBNZ R0, 0", ".word 0\n".repeat(30));
    assert_eq!(assemble(text.as_bytes(), &mut program), Ok(32));
    let ends: Vec<u16> = [60, 62]
        .map(|at| u16::from_le_bytes([program[at], program[at + 1]]))
        .to_vec();
    let mut by_port = [0; 4];
    for c in 64..80 {
        let file = key_file(c);
        assert_eq!(file.len() as u64, 16 + 64 + number(c, 1) % 300);
        assert_eq!(file[..4], [32, 0, 0, 0]);
        let words = words(&file, 32);
        assert_eq!(words[30..], ends);
        for (j, &w) in (0..30).zip(&words) {
            if number(c, 4_000 + j).is_multiple_of(2) {
                let x = read(w).expect("an instruction");
                let of = number(c, 1_000 + j);
                assert_eq!((x.kind, x.d as u64), (Kind::In, of & 7));
                assert_eq!(x.n as u64, of >> 3 & 3);
                by_port[x.n as usize] += 1;
            }
        }
    }
    assert!(by_port.iter().all(|&count| count > 40), "{by_port:?}");
}

#[test]
fn tables_from_128_on_read_ports_often() {
    for t in 128..160 {
        let c = 1_000 + t;
        let count = 1 + number(c, 0) as usize % 200;
        for (j, w) in (0..).zip(words(&table_file(t), count)) {
            assert_eq!(u64::from(w & 255), number(c, 4_000 + j) % 4);
        }
        if t % 4 == 2 {
            for (j, word) in (0..).zip(table(t)) {
                let other = number(c, 100 + j) as u16 ^ word;
                assert_eq!((word >> 14 & 1, word >> 2 & 7), (1, 4));
                assert_eq!(other & 0xBFE3, 0, "{t} {j}");
            }
        }
    }
}

//! The counts and feedings of `conformance`.

use super::count;
use reference::conformance::{lines, number, Digest};

/// "The digest of counts", count k in its order being `count(k)`.
fn digest(count: impl Fn(u64) -> u64) -> u64 {
    let mut digest = Digest::default();
    for k in 0..51 {
        digest.take(count(k) % (1 << 32));
        digest.take(count(k) >> 32);
    }
    digest.value()
}

#[test]
fn first_runs_by_hand() {
    // Places of counts in the digest's order.
    const READ: u64 = 35;
    const WRITE: u64 = 43;
    let lines = lines();
    for (at, numbers, counted, runs) in [
        // ADD R4,R6,R2
        (
            "53 1",
            "0 0 1 0 3",
            &[4, READ + 6, READ + 2, WRITE + 4][..],
            1,
        ),
        // BNZ R4,-94
        ("20 0", "0 0 1 0 3", &[20, READ + 4], 1),
        // STB -26(R4),R1
        ("50 0", "0 0 1 0 4", &[17, READ + 4, READ + 1], 65_531),
        // LD R3,-18(R6)
        ("6 2", "0 0 1 0 4", &[14, READ + 6, WRITE + 3], 1),
        // MULH R5,R6,R6
        ("7 0", "0 0 1 0 3", &[26, READ + 6, WRITE + 5], 1),
        // DIVU R3,R5,R2 by zero
        ("38 1", "0 3 0 0 0", &[], 1),
        // Refused
        ("12 0", "6 0 0 0 0", &[], 65_530),
        ("5 0", "6 0 0 0 0", &[], 0),
    ] {
        let c = at.split(' ').next().unwrap().parse().unwrap();
        let first = |k| match number(c, 5) % 4 {
            1 => u64::MAX - number(c, 600 + k),
            _ => 0,
        };
        let usage = |k| u64::from(counted.contains(&k));
        let run = format!(" {at} {numbers} {} ", digest(usage));
        let counts = digest(|k| first(k).wrapping_add(usage(k)));
        let fed = format!("fed {at} 0 {runs} {counts}");
        let found = lines.windows(2).any(|x| x[0].contains(&run) && x[1] == fed);
        assert!(found, "no {run}, {fed}");
    }
}

#[test]
fn every_run_is_fed() {
    let lines = lines();
    let (mut case, mut runs) = ("", 0);
    // Accepted runs refused with 13, and refused runs that aren't.
    let mut at_65_535 = [0, 0];
    let fed = lines.windows(2).filter(|pair| pair[1].starts_with("fed "));
    for pair in fed.filter(|pair| pair[0].starts_with("run ")) {
        let run: Vec<&str> = pair[0].split(' ').collect();
        if run[2] != case {
            case = run[2];
            runs = match number(case.parse().unwrap(), 5) % 4 {
                0 => 65_530,
                _ => 0,
            };
        }
        let refusal = match (run[4] == "0", runs) {
            (true, 65_535) => 13,
            _ => 0,
        };
        at_65_535[0] += u32::from(refusal == 13);
        at_65_535[1] += u32::from(run[4] != "0" && runs == 65_535);
        runs += u16::from(run[4] == "0" && refusal == 0);
        let expected = format!("fed {case} {} {refusal} {runs} ", run[3]);
        assert!(pair[1].starts_with(&expected), "{pair:?}");
    }
    assert!(at_65_535.iter().all(|&count| count > 5), "{at_65_535:?}");
    let of_runs = ["run rules", "run table", "run host"].map(|start| count(&lines, start));
    // Those with a journal are fed in the cases of knobs.
    let of_knobs = (89..97).map(|c| count(&lines, &format!("journal * {c}")));
    let all = of_runs.iter().sum::<usize>() + of_knobs.sum::<usize>();
    assert_eq!(count(&lines, "fed"), all);
}

//! A trim file for `panellist` to list.

use crate::conformance::number;
use crate::save::header;

/// The words of the kinds with three registers, NOT among them, these at 0.
const THREE_REGISTERS: [u16; 18] = [
    0x0000, 0x0001, 0x0002, 0x0003, 0x0004, 0x0005, 0x0006, 0x0007, // AND to SHL
    0x1000, 0x1001, 0x1003, 0x1004, 0x1005, // CMPLT to CMPLEU
    0xB000, 0xB001, 0xB002, 0xB004, 0xB005, // MUL to DIVU
];

/// ADDI, LD, ST, LDB, STB, JALR
const TWO_REGISTERS: [u16; 6] = [0x2000, 0x3000, 0x4000, 0x5000, 0x6000, 0x7000];

/// BZ, BNZ, MOVI, MOVHI, IN, OUT
const ONE_REGISTER: [u16; 6] = [0x8000, 0x8100, 0x9000, 0x9100, 0xA000, 0xA100];

/// EI, DI, RETI, GETIID, with every bit set that they ignore but for those of
/// GETIID's register, and without.
const OF_LINES: [u16; 8] = [
    0xC000, 0xC001, 0xC002, 0xC003, 0xCFF8, 0xCFF9, 0xCFFA, 0xCFC3,
];

/// -32, -31, -2, -1, 0, 1, 30, 31
const N6: [u16; 8] = [0x20, 0x21, 0x3E, 0x3F, 0, 1, 0x1E, 0x1F];

/// -128, -127, -2, -1, 0, 1, 126, 127; unsigned also 128, 129, 254, 255
const N8: [u16; 8] = [0x80, 0x81, 0xFE, 0xFF, 0, 1, 0x7E, 0x7F];

/// Opcode 1 with f = 2, 6, 7; opcode 11 with f = 3, 6, 7; opcode 12 with f = 4, 5,
/// 6, 7; opcodes 13 to 15.
const UNASSIGNED: [u16; 13] = [
    0x1002, 0x129E, 0x1FFF, 0xB003, 0xB29E, 0xBFFF, 0xC004, 0xC125, 0xC00E, 0xCFFF, 0xD000, 0xE9AB,
    0xF000,
];

/// Each kind's word with these registers, in the order of their bits, and edge
/// k of its number. So NOT's b and JALR's bits 5..0 are set too.
fn every_kind(registers: [usize; 3], k: usize) -> Vec<u16> {
    let [first, second, third] = registers.map(|r| (r % 8) as u16);
    let three = THREE_REGISTERS.map(|w| w + 512 * first + 64 * second + 8 * third);
    let two = TWO_REGISTERS.map(|w| w + 512 * first + 64 * second + N6[k]);
    let one = ONE_REGISTER.map(|w| w + 512 * first + N8[k]);
    [&three[..], &two, &one].concat()
}

fn words() -> Vec<u16> {
    let mut words = Vec::new();
    // The first branches go back from so low an address that they wrap.
    words.extend((0..8).flat_map(|k| every_kind([k, k + 3, k + 5], k)));
    // One register in all places.
    words.extend((0..8).flat_map(|k| every_kind([k, k, k], k)));
    words.extend(OF_LINES);
    words.extend((1..8).map(|k| 0xC003 + 8 * k));
    words.extend(UNASSIGNED);
    words.extend((0..100).map(|k| number(2_000, k) as u16));
    // Zero words are listed too.
    words.extend([0, 0]);
    words
}

/// The file: the data before the program, a gap between them, and bytes after
/// the program that are in no part.
pub fn sample() -> Vec<u8> {
    let program: Vec<u8> = words().iter().flat_map(|w| w.to_le_bytes()).collect();
    let data: Vec<u8> = (0xF0..0xFF).collect();
    let gap = [0xEE; 2];
    let offset = 16 + data.len() + gap.len();
    let header = header([program.len() / 2, offset, data.len(), 16]);
    [&header[..], &data, &gap, &program, &[0xEE; 3]].concat()
}

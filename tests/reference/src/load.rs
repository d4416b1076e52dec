//! Loading a trim file.

use crate::machine::{Memories, State, MEMORY, PORTS};

/// "four 32-bit little-endian numbers: W program words, their offset, C data
/// bytes, their offset"
struct Header {
    w: u64,
    program_offset: u64,
    c: u64,
    data_offset: u64,
}

/// One 32-bit little-endian number.
fn number_at(header: &[u8; 16], at: usize) -> u64 {
    u64::from(header[at])
        + 256 * u64::from(header[at + 1])
        + 65_536 * u64::from(header[at + 2])
        + 16_777_216 * u64::from(header[at + 3])
}

/// The header, or None for a "file under 16 bytes".
fn header(file: &[u8]) -> Option<Header> {
    let first: &[u8; 16] = file.get(..16)?.try_into().ok()?;
    Some(Header {
        w: number_at(first, 0),
        program_offset: number_at(first, 4),
        c: number_at(first, 8),
        data_offset: number_at(first, 12),
    })
}

/// "Each offset is at least 16, and offset plus part length (2W bytes, C
/// bytes) is at most the file length, also for an empty part."
/// Gives the part, or None if it breaks this.
fn part(file: &[u8], offset: u64, length: u64) -> Option<&[u8]> {
    if offset < 16 || offset + length > file.len() as u64 {
        return None;
    }
    file.get(offset as usize..(offset + length) as usize)
}

/// The program part and the data part, or the refusal's number, 2 to 4.
pub fn parts(file: &[u8]) -> Result<(&[u8], &[u8]), u8> {
    // "2 | file under 16 bytes"
    let header = header(file).ok_or(2)?;
    // "3 | W or C over its limit": "W is at most 32,768, C at most 65,536."
    if header.w > 32_768 || header.c > 65_536 {
        return Err(3);
    }
    // "4 | an offset or part end outside its bounds"
    let program = part(file, header.program_offset, 2 * header.w).ok_or(4)?;
    let data = part(file, header.data_offset, header.c).ok_or(4)?;
    Ok((program, data))
}

/// What the memories hold from address 0 on, P's part first.
fn contents(board: Memories, program: &[u8], data: &[u8]) -> Result<[Vec<u8>; 2], u8> {
    match board {
        // "Loading copies them to P[0..] and D[0..]"
        Memories::Two => Ok([program.to_vec(), data.to_vec()]),
        // L11: "15, new board and 2W plus C over 65,536, after 4"
        Memories::Single if program.len() + data.len() > 65_536 => Err(15),
        // L11: "On the new one the program part goes to address 0, the data part to
        // address 2W, the lent program memory is zeroed"
        Memories::Single => Ok([Vec::new(), [program, data].concat()]),
    }
}

/// A range of data memory, its first and its last byte.
#[derive(Clone, Copy, Debug, PartialEq, Eq)]
pub struct Range {
    pub first: u16,
    pub last: u16,
}

/// The state of a load: of this board, with this range locked.
fn loaded(board: Memories, locked: Option<Range>) -> State {
    let reset = State {
        board: board.number(),
        ..State::reset()
    };
    match locked {
        None => reset,
        Some(Range { first, last }) => State {
            locked: 1,
            first_locked: first,
            last_locked: last,
            ..reset
        },
    }
}

/// The content, and "zeroes all other memory": here one memory.
fn fill(memory: &mut [u8], content: &[u8]) {
    for (at, place) in memory.iter_mut().enumerate() {
        *place = content.get(at).copied().unwrap_or(0);
    }
}

/// Loads a file for a board, with a range locked or none, and "returns a reset
/// machine", or the refusal's number. "Order is by number: load 1 to 4", then 15 and
/// 18. "Nothing lent changes" on a refusal.
pub fn load(
    file: &[u8],
    board: Memories,
    locked: Option<Range>,
    p: &mut [u8],
    d: &mut [u8],
    i: &mut [u16],
    o: &mut [u16],
) -> Result<State, u8> {
    // "1 | P or D not 65,536 bytes, or I or O not 256 words"
    if p.len() != MEMORY || d.len() != MEMORY || i.len() != PORTS || o.len() != PORTS {
        return Err(1);
    }
    let (program, data) = parts(file)?;
    let [of_p, of_d] = contents(board, program, data)?;
    // L14: "18, first over last, after 15"
    if locked.is_some_and(|range| range.first > range.last) {
        return Err(18);
    }
    fill(p, &of_p);
    fill(d, &of_d);
    i.fill(0);
    o.fill(0);
    Ok(loaded(board, locked))
}

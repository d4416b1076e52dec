//! Setting an input.

use crate::machine::PORTS;

/// "Set (p, v), p of 8 bits and v of 16: I[p] becomes v. Nothing else
/// changes." Or the refusal's number, 1: "set looks at I only".
pub fn set(i: &mut [u16], p: u8, v: u16) -> Result<(), u8> {
    if i.len() != PORTS {
        return Err(1);
    }
    i[usize::from(p)] = v;
    Ok(())
}

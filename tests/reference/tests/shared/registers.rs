//! Registers chosen by a mask, shared by the test programs.

/// The registers of `inside` that the mask has, the others of `outside`.
pub fn merged(mask: u8, inside: [u16; 8], outside: [u16; 8]) -> [u16; 8] {
    std::array::from_fn(|k| match mask >> k & 1 {
        1 => inside[k],
        _ => outside[k],
    })
}

//! Plain arithmetic: fields, sign extension, 16 bits.

/// "Arithmetic on 16 bits is modulo 65,536."
pub fn modulo16(x: i64) -> u16 {
    x.rem_euclid(65_536) as u16
}

/// The field from bit `high` down to bit `low`. "Bit 0 is the lowest."
pub fn bits(w: u16, high: u32, low: u32) -> i64 {
    let from_low = i64::from(w) / 2_i64.pow(low);
    from_low % 2_i64.pow(high - low + 1)
}

/// A field of `width` bits read as a two's complement number.
pub fn sign_extend(field: i64, width: u32) -> i64 {
    if field >= 2_i64.pow(width - 1) {
        field - 2_i64.pow(width)
    } else {
        field
    }
}

/// A register read as signed.
pub fn signed(x: u16) -> i64 {
    sign_extend(i64::from(x), 16)
}

/// A register read as unsigned.
pub fn unsigned(x: u16) -> i64 {
    i64::from(x)
}

/// "with bit 0 cleared"
pub fn bit_0_cleared(x: u16) -> u16 {
    x - x % 2
}

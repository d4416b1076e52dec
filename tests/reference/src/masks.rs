//! Which registers an instruction touches, as document 02's request L4 says.
//!
//! Sentences in quotation marks are that request's.

use crate::instruction::{read, Instruction, Kind};

/// "two 8-bit masks, bit k for Rk: exactly the registers whose value its rule
/// uses, and exactly the one it writes, if any"
#[derive(Clone, Copy, Debug, PartialEq, Eq)]
pub struct Masks {
    pub reads: u8,
    pub writes: u8,
}

/// The masks of a word; "unassigned words give 0 and 0".
pub fn masks(w: u16) -> Masks {
    let (reads, writes) = read(w).map_or((0, 0), touched);
    Masks { reads, writes }
}

/// What the rule in the sheet's column "Operation" uses of Ra, Rb and Rd, and
/// Rd where it writes it.
fn touched(x: Instruction) -> (u8, u8) {
    let [a, b, d] = [x.a, x.b, x.d].map(|k| 2_u8.pow(k as u32));
    match x.kind {
        // Rd=Ra&Rb and so on; SHA and SHL: Rd=Ra*2**Rb<4..0>
        Kind::And | Kind::Or | Kind::Xor | Kind::Add | Kind::Sub => (a | b, d),
        Kind::Sha | Kind::Shl => (a | b, d),
        // Rd=~Ra
        Kind::Not => (a, d),
        // if(Ra<Rb)Rd=1 else Rd=0 and so on
        Kind::Cmplt | Kind::Cmple | Kind::Cmpeq => (a | b, d),
        Kind::Cmpltu | Kind::Cmpleu => (a | b, d),
        // Rd=Ra+SE(N6)
        Kind::Addi => (a, d),
        // Rd=Mem[Ra+SE(N6)]
        Kind::Ld | Kind::Ldb => (a, d),
        // Mem[Ra+SE(N6)]=Rb
        Kind::St | Kind::Stb => (a | b, 0),
        // tmp=Ra&(~1); Rd=PC; PC=tmp
        Kind::Jalr => (a, d),
        // if(Ra==0)PC=PC+SE(N8)*2, and if(Ra!=0)
        Kind::Bz | Kind::Bnz => (a, 0),
        // Rd=SE(N8)
        Kind::Movi => (0, d),
        // Rd<15..8>=N8, the other bits staying Rd's: "MOVHI reads the register
        // it writes"
        Kind::Movhi => (d, d),
        // Rd=Input[N8]
        Kind::In => (0, d),
        // Output[N8]=Ra
        Kind::Out => (a, 0),
        // Document 000: "Rd Ra FUNC Rb"
        Kind::Mul | Kind::Mulh | Kind::Mulhu | Kind::Div | Kind::Divu => (a | b, d),
        // L12: "GETIID reads the number", into Rd
        Kind::Ei | Kind::Di | Kind::Reti => (0, 0),
        Kind::Getiid => (0, d),
    }
}

/// The numbers of a mask's registers, ascending.
pub fn registers(mask: u8) -> impl Iterator<Item = usize> {
    (0..8).filter(move |k| mask >> k & 1 == 1)
}

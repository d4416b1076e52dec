//! What texts are made of.

/// Each statement: the mnemonic, then its parts. r is a register, s a signed
/// N6, t a branch's target, m MOVI's N8, u an unsigned N8, w a word.
pub const SHAPES: [(&str, &str); 35] = [
    ("AND", "r,r,r"),
    ("OR", "r,r,r"),
    ("XOR", "r,r,r"),
    ("NOT", "r,r"),
    ("ADD", "r,r,r"),
    ("SUB", "r,r,r"),
    ("SHA", "r,r,r"),
    ("SHL", "r,r,r"),
    ("CMPLT", "r,r,r"),
    ("CMPLE", "r,r,r"),
    ("CMPEQ", "r,r,r"),
    ("CMPLTU", "r,r,r"),
    ("CMPLEU", "r,r,r"),
    ("ADDI", "r,r,s"),
    ("LD", "r,s(r)"),
    ("ST", "s(r),r"),
    ("LDB", "r,s(r)"),
    ("STB", "s(r),r"),
    ("JALR", "r,r"),
    ("BZ", "r,t"),
    ("BNZ", "r,t"),
    ("MOVI", "r,m"),
    ("MOVHI", "r,u"),
    ("IN", "r,u"),
    ("OUT", "u,r"),
    ("MUL", "r,r,r"),
    ("MULH", "r,r,r"),
    ("MULHU", "r,r,r"),
    ("DIV", "r,r,r"),
    ("DIVU", "r,r,r"),
    ("EI", ""),
    ("DI", ""),
    ("RETI", ""),
    ("GETIID", "r"),
    (".word", "w"),
];

/// Binary operators.
pub const OPERATORS: [&str; 6] = ["*", "+", "-", "<<", "&", "|"];

/// The tokens of a statement with these registers, in its order, and this
/// operand.
pub fn tokens((mnemonic, parts): (&str, &str), registers: [u64; 3], operand: &str) -> Vec<String> {
    let mut registers = registers.into_iter();
    let mut tokens = vec![mnemonic.to_string()];
    for part in parts.chars() {
        tokens.push(match part {
            'r' => format!("R{}", registers.next().unwrap_or(0)),
            's' | 't' | 'm' | 'u' | 'w' => operand.to_string(),
            mark => mark.to_string(),
        });
    }
    tokens
}

/// The statement as 004 writes it.
pub fn statement(shape: (&str, &str), registers: [u64; 3], operand: &str) -> String {
    let tokens = tokens(shape, registers, operand);
    let parts = tokens[1..].concat().replace(',', ", ");
    format!("{} {parts}", tokens[0]).trim_end().to_string()
}

/// So many lines of one word.
pub fn filler(lines: usize) -> String {
    ".word 7\n".repeat(lines)
}

/// The operand in so many parentheses.
pub fn nested(operand: &str, depth: usize) -> String {
    format!("{}{operand}{}", "(".repeat(depth), ")".repeat(depth))
}

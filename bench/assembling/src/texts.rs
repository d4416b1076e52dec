//! The texts that are assembled. Each has exactly the bytes asked for: whole lines, then spaces.

/// Lines of the common forms.
const LINES: [&str; 8] = [
    "MOVI R1, 12\n",
    "ADDI R2, R1, (3 + 4) * 2 - 1\n",
    "LD R3, 4(R2)\n",
    "ADD R4, R3, R1\n",
    "ST 6(R2), R4\n",
    "CMPLTU R5, R4, R3\n",
    "OUT 3, R4\n",
    ".word 0x1234 & 0xFF | 1 << 8\n",
];

/// So many bytes: `first`, lines over and over, `last`, with spaces before `last`.
fn filled(size: usize, first: &str, lines: &[String], last: &str) -> Vec<u8> {
    let mut text = first.as_bytes().to_vec();
    let room = size - last.len();
    for line in lines.iter().cycle() {
        if text.len() + line.len() > room {
            break;
        }
        text.extend_from_slice(line.as_bytes());
    }
    text.resize(room, b' ');
    text.extend_from_slice(last.as_bytes());
    text
}

fn common() -> Vec<String> {
    LINES.iter().map(|line| line.to_string()).collect()
}

pub fn plain(size: usize) -> Vec<u8> {
    filled(size, "", &common(), "\n")
}

/// The name of a number, of six letters and digits.
fn name(k: usize) -> String {
    format!("name{k:02}")
}

/// Lines without names, then 64 that use a name each, and last 64 that give them. Beside it the same text with each label and its colon
/// as spaces, and each name that is used as a decimal number of as many digits, the address that it has.
pub fn last_names(size: usize) -> (Vec<u8>, Vec<u8>) {
    let uses = |shown: &dyn Fn(usize) -> String| (0..64).map(|k| format!(".word {}\n", shown(k))).collect::<String>();
    let gives = |label: &dyn Fn(usize) -> String| (0..64).map(|k| format!("{} .word {k:02}\n", label(k))).collect::<String>();
    let named = uses(&name) + &gives(&|k| name(k) + ":");
    let before = filled(size - named.len(), "", &common(), "\n");
    let words = before.iter().filter(|&&b| b == b'\n').count() - 1;
    let bare = uses(&|k| format!("{:06}", 2 * (words + 64 + k))) + &gives(&|_| " ".repeat(7));
    let with = |end: &str| [&before, end.as_bytes()].concat();
    (with(&named), with(&bare))
}

/// So many names, given first; then lines without names.
pub fn given(size: usize, names: usize) -> Vec<u8> {
    let first: String = (0..names).map(|k| name(k) + ":\n").collect();
    filled(size, &first, &common(), "\n")
}

/// 64 names, given first; then one of them on every line.
pub fn used(size: usize) -> Vec<u8> {
    let lines: Vec<String> = (0..64).map(|k| format!("MOVI R1, {} + 1\n", name(k))).collect();
    filled(size, &labels(name), &lines, "\n")
}

/// The names of `names`, a line each.
fn labels(names: impl Fn(usize) -> String) -> String {
    (0..64).map(|k| names(k) + ":\n").collect()
}

/// The name of a number, the last 52 of one letter.
fn short_name(k: usize) -> String {
    match k {
        0..=11 => format!("a{k}"),
        12..=37 => ((b'A' + (k - 12) as u8) as char).to_string(),
        _ => ((b'a' + (k - 38) as u8) as char).to_string(),
    }
}

/// The name of a number; all are alike but for their last two letters.
fn alike_name(k: usize) -> String {
    format!("aaaaaaaaaaaaaa{}{}", (b'a' + (k / 8) as u8) as char, (b'a' + (k % 8) as u8) as char)
}

/// Texts that are hard in one way each.
pub fn hard(size: usize) -> Vec<(&'static str, Vec<u8>)> {
    let nested = |operand: &str| format!(".word {}{operand}{}\n", "(".repeat(16), ")".repeat(16));
    let text = |first: &str, line: &str, last: &str| filled(size, first, &[line.to_string()], last);
    let short = labels(short_name);
    vec![
        ("brackets to depth 16", text("", &nested("1"), "\n")),
        ("a name of one letter in brackets to depth 16", text(&short, &nested("z"), "\n")),
        ("one line of sums of a name of one letter", text(&(short + ".word z"), "+z", "\n")),
        ("the last of 64 names alike but for their end", text(&labels(alike_name), &format!(".word {}\n", alike_name(63)), "\n")),
        ("one line of sums", text(".word 1", "+1", "\n")),
        ("one line of shifts and masks", text(".word 1", "|1&1<<1", "\n")),
        ("one line of minus signs", text(".word ", "-", "1\n")),
        ("one literal", text(".word 0", "7", "\n")),
        ("short lines", text("", "IN R1,1\n", "\n")),
        ("lines of the table's last mnemonic", text("", ".word 1\n", "\n")),
        ("empty lines", text("", "\n", "\n")),
    ]
}

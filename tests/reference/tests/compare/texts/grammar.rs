//! Texts from the grammar.

use super::vocabulary::{literal, name, SHAPES};
use crate::make::one_of;
use crate::random::Random;

/// A text of up to so many lines. It is accepted where `flaws` is 0; otherwise
/// about one in `flaws` names is unknown or given before and one in `flaws`
/// values is any.
pub fn from_grammar(random: &mut Random, lines: u64, flaws: u64) -> Vec<u8> {
    let mut writer = Writer::new(random, flaws);
    let lines = writer.random.below(lines + 1);
    for _ in 0..lines {
        writer.line();
        writer.text.push(b'\n');
    }
    while writer.given < writer.names.len() {
        writer.label();
        writer.text.push(b'\n');
    }
    // The last line may lack its newline.
    if writer.random.below(2) == 0 {
        writer.text.pop();
    }
    writer.text
}

/// A text of 65,536 bytes and a little more, by the same rules.
pub fn long_from_grammar(random: &mut Random, flaws: u64) -> Vec<u8> {
    let mut writer = Writer::new(random, flaws);
    writer.long = true;
    while writer.text.len() < 65_536 {
        writer.line();
        writer.text.push(b'\n');
    }
    writer.text
}

/// An operand whose parentheses nest to this depth, without names.
pub fn nested_operand(random: &mut Random, depth: u32) -> Vec<u8> {
    let mut writer = Writer::new(random, 0);
    writer.names.clear();
    writer.nested(depth);
    writer.text
}

struct Writer<'r> {
    random: &'r mut Random,
    flaws: u64,
    text: Vec<u8>,
    /// How freely spaces are set.
    spaces: u64,
    /// The names of the text, and how many of them are given.
    names: Vec<String>,
    given: usize,
    /// Words so far.
    words: u64,
    /// Names may be too far for a branch.
    long: bool,
}

impl<'r> Writer<'r> {
    fn new(random: &'r mut Random, flaws: u64) -> Writer<'r> {
        let limit = one_of(random, &[1, 4, 4, 8, 65]);
        let count = random.below(limit);
        let mut names: Vec<String> = Vec::new();
        for _ in 0..count {
            let name = name(random);
            if !names.contains(&name) {
                names.push(name);
            }
        }
        let spaces = random.below(3);
        Writer {
            random,
            flaws,
            text: Vec::new(),
            spaces,
            names,
            given: 0,
            words: 0,
            long: false,
        }
    }

    fn one_in(&mut self, many: u64) -> bool {
        many > 0 && self.random.below(many) == 0
    }

    /// A token, with a space before it where it must be parted, and others.
    fn token(&mut self, token: &str) {
        let in_row = |byte: Option<&u8>| byte.is_some_and(u8::is_ascii_alphanumeric);
        let parted = in_row(self.text.last()) && in_row(token.as_bytes().first());
        let free = match self.spaces {
            0 => 0,
            1 => self.random.below(2),
            _ => one_of(self.random, &[0, 0, 1, 1, 1, 2, 5]),
        };
        let count = free.max(u64::from(parted)) as usize;
        self.text.extend(vec![b' '; count]);
        self.text.extend(token.as_bytes());
    }

    fn line(&mut self) {
        if self.given < self.names.len() && self.one_in(3) || self.given > 0 && self.flaw() {
            self.label();
        }
        if !self.one_in(8) {
            self.statement();
        }
        if self.one_in(4) {
            self.token("");
        }
    }

    fn flaw(&mut self) -> bool {
        self.one_in(self.flaws)
    }

    /// The next name, or one given before where none is left.
    fn label(&mut self) {
        let name = match self.names.get(self.given) {
            Some(name) => name.clone(),
            None => one_of_strings(self.random, &self.names),
        };
        self.given += 1;
        self.token(&name);
        self.token(":");
    }

    fn statement(&mut self) {
        let any = one_of(self.random, &SHAPES);
        let (mnemonic, parts) =
            one_of(self.random, &[any, any, any, (".word", "w"), ("BZ", "r,t")]);
        self.token(mnemonic);
        for part in parts.bytes() {
            match part {
                b'r' => {
                    let register = format!("R{}", self.random.below(8));
                    self.token(&register);
                }
                b's' | b't' | b'm' | b'u' | b'w' => self.field(part),
                mark => self.token(&char::from(mark).to_string()),
            }
        }
        self.words += 1;
    }

    /// An operand for a field; it fits, but for flaws.
    fn field(&mut self, field: u8) {
        if self.flaw() {
            return self.operand(3, 16);
        }
        match field {
            b's' => self.within(63, 32),
            b'm' if self.one_in(2) => self.within(255, 128),
            b'm' | b'u' => self.within(255, 0),
            b't' => self.target(),
            _ => self.operand(5, 16),
        }
    }

    /// An operand from -less to greatest - less: `((..)&greatest)-less`, or a
    /// literal, often at the edge.
    fn within(&mut self, greatest: i64, less: i64) {
        if self.one_in(2) {
            let any = self.random.below(greatest as u64 + 1) as i64;
            let value = one_of(self.random, &[0, greatest, any, any]) - less;
            return self.number(value);
        }
        self.token("(");
        self.token("(");
        self.operand(3, 14);
        self.token(")");
        self.token("&");
        self.token(&greatest.to_string());
        self.token(")");
        if less > 0 {
            self.token("-");
            self.token(&less.to_string());
        }
    }

    /// A number, a negative one with a minus or modulo 65,536.
    fn number(&mut self, value: i64) {
        if value < 0 && self.one_in(2) {
            self.token("-");
            return self.token(&(-value).to_string());
        }
        let value = value.rem_euclid(65_536);
        match self.random.below(2) {
            0 => self.token(&value.to_string()),
            _ => self.token(&format!("0x{value:x}")),
        }
    }

    /// A target that a branch here reaches.
    fn target(&mut self) {
        if !self.long && !self.names.is_empty() && self.one_in(2) {
            return self.name();
        }
        let any = self.random.below(256) as i64 - 128;
        let n = one_of(self.random, &[-128, -1, 0, 127, any, any]);
        self.number(2 * self.words as i64 + 2 + 2 * n);
    }

    fn name(&mut self) {
        let name = match self.names.is_empty() || self.flaw() {
            true => name(self.random),
            false => one_of_strings(self.random, &self.names),
        };
        self.token(&name);
    }

    /// Up to so many terms, with operators of any rank between.
    fn operand(&mut self, terms: u64, depth: u32) {
        let count = 1 + self.random.below(terms);
        for k in 0..count {
            if k > 0 {
                self.operator();
            }
            self.minuses();
            if depth > 0 && terms > 1 && self.one_in(3) {
                self.token("(");
                self.operand(terms - 1, depth - 1);
                self.token(")");
            } else {
                self.atom();
            }
        }
    }

    /// Parentheses of just this depth, with operators before and behind.
    fn nested(&mut self, depth: u32) {
        if self.one_in(3) {
            self.atom();
            self.operator();
        }
        self.minuses();
        if depth == 0 {
            self.atom();
        } else {
            self.token("(");
            self.nested(depth - 1);
            self.token(")");
        }
        if self.one_in(3) {
            self.operator();
            self.operand(2, depth.min(2));
        }
    }

    fn operator(&mut self) {
        let operator = one_of(self.random, &["*", "+", "-", "<<", "&", "|"]);
        self.token(operator);
    }

    fn minuses(&mut self) {
        while self.one_in(5) {
            self.token("-");
        }
    }

    fn atom(&mut self) {
        if !self.names.is_empty() && self.one_in(3) {
            return self.name();
        }
        let literal = literal(self.random);
        self.token(&literal);
    }
}

fn one_of_strings(random: &mut Random, strings: &[String]) -> String {
    strings[random.below(strings.len() as u64) as usize].clone()
}

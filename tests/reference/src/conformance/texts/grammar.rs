//! Texts from the grammar, made from the page's numbers, and such texts damaged
//! by one byte.

use super::super::number;
use super::vocabulary::{tokens, OPERATORS, SHAPES};
use super::{sort, Sort};

pub fn sorts() -> Vec<Sort> {
    vec![
        sort(0, "from the grammar", (2_000..2_018).map(|c| good(c, 12))),
        sort(0, "long from the grammar", [good(2_100, 150)]),
        Sort {
            what: "good texts damaged by one byte",
            refusal: None,
            texts: (2_200..2_238).map(damaged).collect(),
        },
    ]
}

/// The numbers of a case in order.
struct Numbers {
    c: u64,
    k: u64,
}

impl Numbers {
    fn below(&mut self, limit: u64) -> u64 {
        self.k += 1;
        number(self.c, self.k) % limit
    }

    fn one_of<T: Copy>(&mut self, all: &[T]) -> T {
        all[self.below(all.len() as u64) as usize]
    }

    fn one_in(&mut self, many: u64) -> bool {
        self.below(many) == 0
    }
}

/// Names, some of which mean something elsewhere.
const NAMES: &str =
    "a A b7 ADD word R8 r0 loop Loop xFF FF MOVI R x abcdefghijklmnop Z23456789012345a";

const LITERALS: &str = "0 1 2 7 15 16 31 255 0x1F 0xfF 0x8000 32767 65535 65537 007 4294967295";

/// The accepted text of case c, of up to so many lines and those that give the
/// names left.
fn good(c: u64, most: u64) -> Vec<u8> {
    let mut writer = Writer::new(c);
    // Farther on, a branch might not reach a name.
    writer.near = most < 100;
    let lines = most / 2 + writer.numbers.below(most / 2 + 1);
    for _ in 0..lines {
        writer.line();
        writer.text.push('\n');
    }
    while writer.given < writer.names.len() {
        writer.label();
        writer.text.push('\n');
    }
    // "the last may lack it"
    if writer.numbers.one_in(2) {
        writer.text.pop();
    }
    writer.text.into_bytes()
}

struct Writer {
    numbers: Numbers,
    text: String,
    /// How freely spaces are set.
    spaces: u64,
    /// The names of the text, and how many of them are given.
    names: Vec<&'static str>,
    given: usize,
    /// Words so far.
    words: i64,
    near: bool,
}

impl Writer {
    fn new(c: u64) -> Writer {
        let mut numbers = Numbers { c, k: 0 };
        let (from, count) = (numbers.below(16) as usize, numbers.below(6) as usize);
        let names = NAMES.split(' ').cycle().skip(from).take(count);
        let spaces = numbers.below(3);
        Writer {
            numbers,
            text: String::new(),
            spaces,
            names: names.collect(),
            given: 0,
            words: 0,
            near: true,
        }
    }

    /// A token, with a space before it where it must be parted, and others.
    fn token(&mut self, token: &str) {
        let in_row = |byte: Option<&u8>| byte.is_some_and(u8::is_ascii_alphanumeric);
        let last = self.text.as_bytes().last();
        let parted = in_row(last) && in_row(token.as_bytes().first());
        let free = self.numbers.below(self.spaces + 1);
        let count = free.max(u64::from(parted)) as usize;
        self.text += &" ".repeat(count);
        self.text += token;
    }

    fn line(&mut self) {
        if self.given < self.names.len() && self.numbers.one_in(3) {
            self.label();
        }
        if !self.numbers.one_in(8) {
            self.statement();
        }
    }

    fn label(&mut self) {
        let name = self.names[self.given];
        self.given += 1;
        self.token(name);
        self.token(":");
    }

    fn statement(&mut self) {
        let shape = self.numbers.one_of(&SHAPES);
        let registers = [0; 3].map(|_| self.numbers.below(8));
        // The operand has a place of its own among the tokens.
        for token in tokens(shape, registers, "?") {
            match &token[..] {
                "?" => self.field(shape.1),
                token => self.token(token),
            }
        }
        self.words += 1;
    }

    /// An operand that fits.
    fn field(&mut self, parts: &str) {
        match parts {
            "r,t" => self.target(),
            "r,m" | "r,u" | "u,r" => self.masked(&[")", "&", "255", ")"]),
            "w" => self.operand(4, 4),
            _ => self.masked(&[")", "&", "63", ")", "-", "32"]),
        }
    }

    /// `((..)&255)`, or `((..)&63)-32`.
    fn masked(&mut self, rest: &[&str]) {
        self.token("(");
        self.token("(");
        self.operand(2, 2);
        rest.iter().for_each(|token| self.token(token));
    }

    /// A name, or what is in a branch's reach from here.
    fn target(&mut self) {
        if self.near && !self.names.is_empty() && self.numbers.one_in(2) {
            let name = self.numbers.one_of(&self.names);
            return self.token(name);
        }
        let n = self.numbers.below(256) as i64 - 128;
        let target = (2 * self.words + 2 + 2 * n).rem_euclid(65_536);
        self.token(&target.to_string());
    }

    /// Up to so many terms, and parentheses up to this depth.
    fn operand(&mut self, terms: u64, depth: u64) {
        for k in 0..=self.numbers.below(terms) {
            if k > 0 {
                let operator = self.numbers.one_of(&OPERATORS);
                self.token(operator);
            }
            while self.numbers.one_in(5) {
                self.token("-");
            }
            if depth > 0 && self.numbers.one_in(3) {
                self.token("(");
                self.operand(terms, depth - 1);
                self.token(")");
            } else {
                self.atom();
            }
        }
    }

    fn atom(&mut self) {
        let literals: Vec<&str> = LITERALS.split(' ').collect();
        let token = match !self.names.is_empty() && self.numbers.one_in(3) {
            true => self.numbers.one_of(&self.names),
            false => self.numbers.one_of(&literals),
        };
        self.token(token);
    }
}

/// Bytes that mean something, or nearly so.
const BYTES: &[u8] = b"\n\n  ,()+-*<&|::.xR0789aAfF_\t#\x80\xff";

/// A good text with a byte changed, put in or taken out.
fn damaged(c: u64) -> Vec<u8> {
    let mut text = good(c, 5);
    // Numbers that the text did not take.
    let mut numbers = Numbers { c, k: 60_000 };
    let byte = numbers.one_of(BYTES);
    let at = numbers.below(text.len().max(1) as u64) as usize;
    match (numbers.below(3), text.get(at).copied()) {
        (0, Some(_)) => drop(text.remove(at)),
        (1, Some(other)) if other != byte => text[at] = byte,
        _ => text.insert(at, byte),
    }
    text
}

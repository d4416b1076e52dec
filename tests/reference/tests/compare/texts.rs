//! Random texts: from the grammar, damaged, and of any bytes.

mod damage;
mod grammar;
mod vocabulary;

pub use damage::{bytes, damaged, fragments, operand_fragments, rearranged};
pub use grammar::{from_grammar, long_from_grammar, nested_operand};
pub use vocabulary::{literal, SHAPES};

use crate::random::Random;

/// A short text of any sort, from the grammar more often than not.
pub fn any(random: &mut Random) -> Vec<u8> {
    match random.below(8) {
        0 => damaged(random),
        1 => rearranged(random),
        2 => fragments(random),
        3 => from_grammar(random, 24, 30),
        _ => from_grammar(random, 24, 0),
    }
}

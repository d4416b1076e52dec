//! The names that a text gives.

/// "at most 64 are given"
const MOST: usize = 64;

/// Each name with its address, the address of the next word after it.
#[derive(Default)]
pub struct Names<'a>(Vec<(&'a [u8], u16)>);

#[derive(Clone, Copy, Debug, PartialEq, Eq)]
pub enum Given {
    First,
    /// "given on an earlier line, which then counts"
    Again,
    /// It would be the 65th.
    TooMany,
}

impl<'a> Names<'a> {
    pub fn address(&self, name: &[u8]) -> Option<u16> {
        let found = self.0.iter().find(|(given, _)| *given == name);
        found.map(|(_, address)| *address)
    }

    pub fn give(&mut self, name: &'a [u8], address: u16) -> Given {
        if self.address(name).is_some() {
            return Given::Again;
        }
        if self.0.len() == MOST {
            return Given::TooMany;
        }
        self.0.push((name, address));
        Given::First
    }
}

//! "Saves"

use super::host::Host;
use super::Digest;
use crate::machine::MEMORY;
use crate::save::save;

/// "a buffer of 131,088 bytes"
const BUFFER: usize = 131_088;

/// "four times"
const SAVES: usize = 4;

impl Host {
    /// The saves of case c, and the load of the file of s = 1, with its refusal
    /// where it is made.
    pub fn saves(&mut self, c: u64) -> (Vec<String>, Option<u8>) {
        let mut lines = Vec::new();
        let mut again = None;
        // "what the save of s = 0 replied"
        let mut length = 0;
        for s in 0..SAVES {
            let (lent, memory) = match s {
                0 => (BUFFER, MEMORY),
                1 => (length, MEMORY),
                2 => (length - 1, MEMORY),
                _ => (BUFFER, 65_535),
            };
            // "made anew before each save"
            let mut buffer: Vec<u8> = (0..BUFFER).map(|j| ((j + s) % 253) as u8).collect();
            let (program, memory) = (&self.program, &self.memory[..memory]);
            let saved = save(&self.kept, program, memory, &mut buffer[..lent]);
            let (refusal, replied) = (saved.err().unwrap_or(0), saved.unwrap_or(0));
            let mut digest = Digest::default();
            digest.take_all(&buffer);
            lines.push(format!(
                "save {c} {s} {refusal} {replied} {}",
                digest.value()
            ));
            lines.extend(self.board_line(c));
            lines.extend(self.locked_line(c));
            if s == 0 {
                length = replied;
            }
            // "its file, the destination lent, is loaded"
            if s == 1 {
                let refusal = self.load(&buffer[..lent], MEMORY);
                lines.push(format!("again {c} {refusal} {}", self.digest(self.kept)));
                lines.extend(self.board_line(c));
                lines.extend(self.locked_line(c));
                again = Some(refusal);
            }
        }
        (lines, again)
    }
}

//! The count that a comparison ends in.

use std::process::ExitCode;

/// As many differences are told.
const TOLD: u64 = 10;

#[derive(Default)]
pub struct Tally {
    pub same: u64,
    pub differ: u64,
}

impl Tally {
    pub fn note(&mut self, same: bool, difference: impl FnOnce() -> String) {
        if same {
            self.same += 1;
            return;
        }
        self.differ += 1;
        if self.differ <= TOLD {
            println!("differs: {}", difference());
        }
    }

    /// The last line. It fails where something differs, and where nothing was compared.
    pub fn end(&self) -> ExitCode {
        println!("{} same, {} differ", self.same, self.differ);
        ExitCode::from(u8::from(self.differ > 0 || self.same == 0))
    }
}

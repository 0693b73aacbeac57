//! The tally of a run on its way.
use super::step::Call;
use crate::answer::Tally;

#[derive(Default)]
pub struct Running {
    moves: u32,
    begun: u32,
    committed: u32,
    aborted: u32,
}

impl Running {
    /// One accepted move more, which removed so many member marks.
    pub fn add(&mut self, call: Call, ended: u32) {
        self.moves += 1;
        match call {
            Call::React(rule) => self.begun += u32::from(rule.begins),
            Call::Commit(_) => self.committed += ended,
            Call::Abort(_) => self.aborted += ended,
        }
    }

    pub fn words(self) -> Tally {
        [self.moves, self.begun, self.committed, self.aborted]
    }
}

//! Document 02's tape: messages stored end to end.
//!
//! A message is as long as 4 + its size word says, whatever the size and
//! whatever the message check says of it, so a refused message is passed over
//! and the next one is found.

use crate::check::WORD;
use crate::fault::{Fault, FaultNumber};
use crate::schema::Schema;
use crate::settings::Settings;
use crate::wire::word_at;

/// A tape, and the place on it where the next message starts. The tape has
/// ended where no bytes are left: at its length, or anywhere behind it.
#[derive(Clone, Debug, PartialEq, Eq)]
pub struct TapeReader<'t> {
    pub tape: &'t [u8],
    pub place: usize,
}

/// A message of a tape: its own bytes, the empty part if it is refused, and
/// the answer of its check. Places count from the message's start, but for
/// that of the 22 of a cut tail, which is where the tail starts on the tape.
#[derive(Clone, Copy, Debug, PartialEq, Eq)]
pub struct TapeMessage<'t> {
    pub bytes: &'t [u8],
    pub answer: Result<(), Fault>,
}

impl<'t> TapeReader<'t> {
    /// A reader at the tape's start.
    pub fn new(tape: &'t [u8]) -> TapeReader<'t> {
        TapeReader { tape, place: 0 }
    }

    /// Whether no bytes are left.
    pub fn has_ended(&self) -> bool {
        self.place >= self.tape.len()
    }

    /// Takes the next message off the tape, or nothing where fewer bytes are
    /// left than it has.
    #[inline]
    fn take(&mut self) -> Option<&'t [u8]> {
        let left = &self.tape[self.place..];
        if left.len() < WORD {
            return None;
        }
        let length = usize::try_from(WORD as u64 + word_at(left, 0)).ok()?;
        let message = left.get(..length)?;
        self.place += length;
        Some(message)
    }

    /// Ends the tape with a refusal.
    pub(crate) fn end(&mut self, fault: Fault) -> TapeMessage<'t> {
        self.place = self.tape.len();
        TapeMessage { bytes: &[], answer: Err(fault) }
    }
}

impl Schema<'_> {
    /// Hands out the next message of a tape, or nothing where the tape has
    /// ended. The scratch must be as long as the message; a cut tail leaves it
    /// untouched, and ends the tape.
    pub fn next_message<'t>(
        &self,
        settings: Settings<'_>,
        reader: &mut TapeReader<'t>,
        scratch: &mut [u8],
    ) -> Option<TapeMessage<'t>> {
        if reader.has_ended() {
            return None;
        }
        let Some(message) = reader.take() else {
            let fault = Fault::at(FaultNumber::LengthNotSize, reader.place);
            return Some(reader.end(fault));
        };
        let answer = self.check_message(settings, message, scratch);
        let bytes = if answer.is_ok() { message } else { &[] };
        Some(TapeMessage { bytes, answer })
    }
}

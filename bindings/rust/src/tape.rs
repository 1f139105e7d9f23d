use crate::{verdict, Fault, Settings, MESSAGE_LIMIT};
use std::fmt;
use std::iter::FusedIterator;

/// Reads a tape, a station's messages end to end: it holds the tape and the place on it that it has come to.
/// [`Table::tape`](crate::Table::tape) and [`tape()`](crate::tape()) make it.
///
/// An accepted message is handed out as a part of the tape, of a refused one its first fault. Its size word leads past it
/// either way, and what is said of it depends on its own bytes alone: a bad message spoils no other.
///
/// Two faults end the tape. 20, the table is refused, comes before all others. 22 says that the last message is cut: 1 to 3
/// bytes are left, or its size passes the tape's end. Its place is where that message starts on the tape; other places count
/// from the message's start. 21 does not come: the reader has scratch enough for every message.
///
/// ```
/// # let bytes = b"GR\x02\0\0\0\0\0\0\0\x01\0\0\x02\0\0\
/// #               FD\x05\0\0\0\0\0\0\0\0\0\0\0\0\0\
/// #               FD\x05\x01\0\0\0\0\0\0\0\0\0\0\0\0";
/// # let message = b"\x15\0\0\0\x02\0\0\0\0\0\0\0\0\0\0\0\xe8\x03\0\0\x01\x64\0\0\0";
/// use blink_native::Table;
/// let table = Table::new(bytes)?;
/// // Three bills; the second one's tip has a wrong flag, and the third one's last byte was not stored.
/// let mut tape = message.repeat(3);
/// tape[45] = 2;
/// tape.pop();
///
/// let mut reader = table.tape(&tape);
/// assert_eq!(reader.next(), Some(Ok(&message[..])));
/// let start = reader.place();
/// let fault = reader.next().unwrap().unwrap_err();
/// assert_eq!((start, fault.number, fault.place), (25, 11, 20));
/// let fault = reader.next().unwrap().unwrap_err();
/// assert_eq!((fault.number, fault.place), (22, 50));
/// assert_eq!(reader.next(), None);
///
/// assert_eq!(table.tape(&tape).flatten().count(), 1);
/// # Ok::<(), blink_native::Fault>(())
/// ```
#[derive(Clone)]
pub struct TapeReader<'a, 't> {
    settings: Settings<'a>,
    table: &'a [u8],
    tape: &'t [u8],
    place: usize,
    scratch: Vec<u8>,
}

impl<'a, 't> TapeReader<'a, 't> {
    pub(crate) fn new(settings: Settings<'a>, table: &'a [u8], tape: &'t [u8]) -> TapeReader<'a, 't> {
        // No message is longer than the tape, and a message over the limit is fault 23 before it can be 21.
        let scratch = vec![0; tape.len().min(MESSAGE_LIMIT)];
        TapeReader { settings, table, tape, place: 0, scratch }
    }

    /// Where on the tape the next message starts; the tape's length once it has ended.
    pub const fn place(&self) -> usize {
        self.place
    }
}

impl<'t> Iterator for TapeReader<'_, 't> {
    type Item = Result<&'t [u8], Fault>;

    fn next(&mut self) -> Option<Self::Item> {
        let step = self.settings.next_message(self.table, self.tape, self.place, &mut self.scratch);
        self.place = step.next as usize;
        if step.ended != 0 {
            return None;
        }
        let message = &self.tape[step.offset as usize..][..step.length as usize];
        Some(verdict(step.number, step.place).map(|()| message))
    }

    /// A message takes 4 bytes or more, a cut one 1 or more.
    fn size_hint(&self) -> (usize, Option<usize>) {
        let left = self.tape.len() - self.place;
        (left.min(1), Some(left.div_ceil(4)))
    }
}

impl FusedIterator for TapeReader<'_, '_> {}

impl fmt::Debug for TapeReader<'_, '_> {
    fn fmt(&self, f: &mut fmt::Formatter<'_>) -> fmt::Result {
        f.debug_struct("TapeReader")
            .field("place", &self.place)
            .field("length", &self.tape.len())
            .finish_non_exhaustive()
    }
}

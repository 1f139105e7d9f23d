use crate::boundary;
use std::fmt;

/// Why a question is refused: the first fault, in the fixed order of tests.
///
/// ```
/// let fault = blink_native::Fault { number: 9, place: 45 };
/// assert_eq!(fault.to_string(), "fault 9 at byte 45: a string is not valid UTF-8");
/// ```
#[derive(Clone, Copy, Debug, PartialEq, Eq, Hash)]
pub struct Fault {
    /// Which fault it is: 1 to 14, 20 to 37, 40 to 48, 50, 51, 54 to 56 or 59.
    pub number: u8,
    /// Its byte, counted from 0 at the start of the message, table, sheet or settings store; 0 where the fault has no
    /// place. A [tape](crate::TapeReader)'s 22 has its place on the tape.
    pub place: usize,
}

impl Fault {
    /// What the number means, in the library's words; empty where no fault has it.
    ///
    /// ```
    /// assert_eq!(blink_native::Fault { number: 29, place: 0 }.meaning(), "the field is absent");
    /// ```
    pub fn meaning(&self) -> String {
        let mut room = [0; 256];
        // SAFETY: pointer and length are the room's own.
        let length =
            unsafe { boundary::blink_fault_words(u32::from(self.number), room.as_mut_ptr(), room.len()) };
        String::from_utf8_lossy(&room[..length.min(room.len())]).into_owned()
    }

    /// Whether it says that a field is absent, fault 29: in a good message too, where an optional field is left out.
    ///
    /// ```
    /// # let table = b"GR\x02\0\0\0\0\0\0\0\x01\0\0\x02\0\0\
    /// #               FD\x05\0\0\0\0\0\0\0\0\0\0\0\0\0\
    /// #               FD\x05\x01\0\0\0\0\0\0\0\0\0\0\0\0";
    /// // A bill without a tip.
    /// let message = b"\x15\0\0\0\x02\0\0\0\0\0\0\0\0\0\0\0\xe8\x03\0\0\0\0\0\0\0";
    /// let tip = match blink_native::read_number(table, message, &mut [0; 25], 1, 0) {
    ///     Ok(number) => Some(number),
    ///     Err(fault) if fault.is_absent() => None,
    ///     Err(fault) => return Err(fault),
    /// };
    /// assert_eq!(tip, None);
    /// # Ok::<(), blink_native::Fault>(())
    /// ```
    pub const fn is_absent(&self) -> bool {
        self.number == 29
    }

    /// Of 22 only a cut tape's has one.
    fn has_place(&self) -> bool {
        match self.number {
            22 => self.place != 0,
            number => !matches!(number, 20 | 21 | 23 | 28..=30 | 42 | 46..=48 | 51 | 54..=56 | 59),
        }
    }
}

impl fmt::Display for Fault {
    fn fmt(&self, f: &mut fmt::Formatter<'_>) -> fmt::Result {
        write!(f, "fault {}", self.number)?;
        if self.has_place() {
            write!(f, " at byte {}", self.place)?;
        }
        write!(f, ": {}", self.meaning())
    }
}

impl std::error::Error for Fault {}

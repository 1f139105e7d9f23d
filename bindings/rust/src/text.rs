use crate::Fault;
use std::fmt;
use std::str::Utf8Error;

/// Why a field is not read as a `str`.
#[derive(Clone, Copy, Debug, PartialEq, Eq)]
pub enum TextError {
    /// The question is refused.
    Refused(Fault),
    /// The field's bytes are there, and are no `str`: they are of a binary, a fixed field or a group, or of a string that
    /// holds half of a surrogate pair (ED A0 80 to ED BF BF), which the format's own table lets pass.
    /// [`read_bytes`](crate::read_bytes) hands them out.
    NotStr(Utf8Error),
}

impl TextError {
    /// The fault, where the question is refused.
    pub const fn fault(&self) -> Option<Fault> {
        match *self {
            TextError::Refused(fault) => Some(fault),
            TextError::NotStr(_) => None,
        }
    }

    /// Whether the field is absent, as [`Fault::is_absent`].
    pub const fn is_absent(&self) -> bool {
        matches!(self, TextError::Refused(fault) if fault.is_absent())
    }
}

impl From<Fault> for TextError {
    fn from(fault: Fault) -> TextError {
        TextError::Refused(fault)
    }
}

impl fmt::Display for TextError {
    fn fmt(&self, f: &mut fmt::Formatter<'_>) -> fmt::Result {
        match self {
            TextError::Refused(fault) => fault.fmt(f),
            TextError::NotStr(error) => write!(f, "the field is no str: {error}"),
        }
    }
}

impl std::error::Error for TextError {
    fn source(&self) -> Option<&(dyn std::error::Error + 'static)> {
        match self {
            TextError::Refused(fault) => Some(fault),
            TextError::NotStr(error) => Some(error),
        }
    }
}

/// The bytes of an answer as a `str`.
pub(crate) fn text(answer: Result<&[u8], Fault>) -> Result<&str, TextError> {
    std::str::from_utf8(answer?).map_err(TextError::NotStr)
}

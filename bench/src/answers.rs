//! Answers of both sides in one form, so that they can be compared.

/// A fault's number and place, or the answer.
pub type Answer<T> = Result<T, (u8, usize)>;

pub fn ours<T>(answer: Result<T, blink_native::Fault>) -> Answer<T> {
    answer.map_err(|fault| (fault.number, fault.place))
}

pub fn theirs<T>(answer: Result<T, blink_reference::Fault>) -> Answer<T> {
    answer.map_err(|fault| (fault.number as u8, fault.place))
}

/// The flags of settings that are read.
pub fn our_flags(ignored: blink_native::Ignored) -> [bool; 3] {
    [ignored.absent, ignored.pads, ignored.unused]
}

pub fn their_flags(ignored: blink_reference::Ignored) -> [bool; 3] {
    [ignored.absent, ignored.pads, ignored.unused]
}

/// Of a number that is written: a float by its bits, since NaNs do not equal themselves.
pub fn our_number(number: blink_native::Number) -> String {
    use blink_native::Number::*;
    match number {
        Float(x) => format!("float {:016x}", x.to_bits()),
        Signed(x) => format!("signed {x}"),
        Unsigned(x) => format!("unsigned {x}"),
        Bool(x) => format!("bool {x}"),
        Decimal { exponent, mantissa } => format!("decimal {exponent} {mantissa}"),
    }
}

pub fn their_number(number: blink_reference::Number) -> String {
    use blink_reference::Number::*;
    match number {
        Float(x) => format!("float {:016x}", x.to_bits()),
        Signed(x) => format!("signed {x}"),
        Unsigned(x) => format!("unsigned {x}"),
        Bool(x) => format!("bool {x}"),
        Decimal { exponent, mantissa } => format!("decimal {exponent} {mantissa}"),
    }
}

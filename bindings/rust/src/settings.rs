use crate::text::{text, TextError};
use crate::{boundary, verdict, written, Fault, Ledger, Number, TapeReader, Verdict};

/// Which bytes may hold anything: none of them means anything, and none reaches a sheet or a rewritten message.
#[derive(Clone, Copy, Debug, Default, PartialEq, Eq, Hash)]
pub struct Ignored {
    /// The bytes of absent fields: fault 4 is not made.
    pub absent: bool,
    /// The bytes of a data area that belong to no value: fault 6 is not made.
    pub pads: bool,
    /// The unused bytes of inline strings and binaries: fault 8 is not made.
    pub unused: bool,
}

/// The flag bytes of a settings record.
impl From<Ignored> for [u8; 3] {
    fn from(ignored: Ignored) -> [u8; 3] {
        [ignored.absent, ignored.pads, ignored.unused].map(u8::from)
    }
}

/// Under what a message is asked about: a settings store, and the number of the customer whose newest settings in it govern.
/// A customer without settings ignores nothing.
///
/// They answer the questions about a message, each as the function of the same name, which asks under [`Settings::NONE`].
/// Fault 50 says that the store is refused, and at which of its bytes; it comes right after 21.
///
/// ```
/// # let table = b"GR\x02\0\0\0\0\0\0\0\x01\0\0\x02\0\0\
/// #               FD\x05\0\0\0\0\0\0\0\0\0\0\0\0\0\
/// #               FD\x05\x01\0\0\0\0\0\0\0\0\0\0\0\0";
/// use blink_native::{add_settings, check_message, Ignored, Settings};
///
/// // A bill without a tip, whose bytes 21 to 24 should be zero.
/// let message = b"\x15\0\0\0\x02\0\0\0\0\0\0\0\0\0\0\0\xe8\x03\0\0\0\x64\0\0\0";
/// let mut scratch = vec![0; message.len()];
/// let fault = check_message(table, message, &mut scratch).unwrap_err();
/// assert_eq!(fault.to_string(), "fault 4 at byte 21: a byte of an absent field is not zero");
///
/// // Customer 7's stations may leave them as they are.
/// let mut store = [0; 900];
/// add_settings(&mut store, 7, 1, Ignored { absent: true, ..Ignored::default() })?;
/// let settings = Settings::of(&store, 7);
/// settings.check_message(table, message, &mut scratch)?;
///
/// let mut room = vec![0; blink_native::SHEET_FACTOR * message.len()];
/// let sheet = settings.message_to_sheet(table, message, &mut scratch, &mut room)?;
/// assert_eq!(sheet, b"GB\x02\0\0\0\0\0\0\0VA\xe8\x03\0\0NOGE");
/// # Ok::<(), blink_native::Fault>(())
/// ```
#[derive(Clone, Copy, Debug, Default, PartialEq, Eq, Hash)]
pub struct Settings<'a> {
    store: &'a [u8],
    customer: u16,
}

impl<'a> Settings<'a> {
    /// The empty store: nothing is ignored.
    pub const NONE: Settings<'static> = Settings { store: &[], customer: 0 };

    /// A customer's settings in a store, which is checked with every question.
    pub const fn of(store: &'a [u8], customer: u16) -> Settings<'a> {
        Settings { store, customer }
    }

    /// As [`check_message`](crate::check_message), under these settings.
    pub fn check_message(self, table: &[u8], message: &[u8], scratch: &mut [u8]) -> Verdict {
        // SAFETY: pointers and lengths are slices' own, and no slice shares a byte with the scratch.
        let answer = unsafe {
            boundary::blink_check_message(
                table.as_ptr(),
                table.len(),
                self.store.as_ptr(),
                self.store.len(),
                self.customer,
                message.as_ptr(),
                message.len(),
                scratch.as_mut_ptr(),
                scratch.len(),
            )
        };
        verdict(answer.number, answer.place)
    }

    /// As [`tape`](crate::tape()), under these settings. Fault 50 is said of each message, and does not end the tape.
    pub fn tape<'t>(self, table: &'a [u8], tape: &'t [u8]) -> TapeReader<'a, 't> {
        TapeReader::new(self, table, tape)
    }

    /// The step along a tape from a place on.
    pub(crate) fn next_message(
        self,
        table: &[u8],
        tape: &[u8],
        place: usize,
        scratch: &mut [u8],
    ) -> boundary::BlinkStep {
        // SAFETY: pointers and lengths are slices' own, and no slice shares a byte with the scratch.
        unsafe {
            boundary::blink_next_message(
                table.as_ptr(),
                table.len(),
                self.store.as_ptr(),
                self.store.len(),
                self.customer,
                tape.as_ptr(),
                tape.len(),
                place as u64,
                scratch.as_mut_ptr(),
                scratch.len(),
            )
        }
    }

    /// As [`message_to_sheet`](crate::message_to_sheet), under these settings.
    pub fn message_to_sheet<'r>(
        self,
        table: &[u8],
        message: &[u8],
        scratch: &mut [u8],
        sheet: &'r mut [u8],
    ) -> Result<&'r mut [u8], Fault> {
        // SAFETY: pointers and lengths are slices' own, and no slice shares a byte with the scratch or the sheet room.
        let answer = unsafe {
            boundary::blink_message_to_sheet(
                table.as_ptr(),
                table.len(),
                self.store.as_ptr(),
                self.store.len(),
                self.customer,
                message.as_ptr(),
                message.len(),
                scratch.as_mut_ptr(),
                scratch.len(),
                sheet.as_mut_ptr(),
                sheet.len(),
            )
        };
        written(answer, sheet)
    }

    /// As [`rewrite`](crate::rewrite), under these settings. The rewritten message needs none.
    pub fn rewrite<'r>(
        self,
        table: &[u8],
        message: &[u8],
        scratch: &mut [u8],
        sheet: &mut [u8],
        output: &'r mut [u8],
    ) -> Result<&'r mut [u8], Fault> {
        // SAFETY: pointers and lengths are slices' own, and no slice shares a byte with the scratch, the sheet room or the output.
        let answer = unsafe {
            boundary::blink_rewrite(
                table.as_ptr(),
                table.len(),
                self.store.as_ptr(),
                self.store.len(),
                self.customer,
                message.as_ptr(),
                message.len(),
                scratch.as_mut_ptr(),
                scratch.len(),
                sheet.as_mut_ptr(),
                sheet.len(),
                output.as_mut_ptr(),
                output.len(),
            )
        };
        written(answer, output)
    }

    /// As [`read_number`](crate::read_number), under these settings.
    pub fn read_number(
        self,
        table: &[u8],
        message: &[u8],
        scratch: &mut [u8],
        field: usize,
        item: usize,
    ) -> Result<Number, Fault> {
        // SAFETY: pointers and lengths are slices' own, and no slice shares a byte with the scratch.
        let answer = unsafe {
            boundary::blink_read_number(
                table.as_ptr(),
                table.len(),
                self.store.as_ptr(),
                self.store.len(),
                self.customer,
                message.as_ptr(),
                message.len(),
                scratch.as_mut_ptr(),
                scratch.len(),
                field as u64,
                item as u64,
            )
        };
        verdict(answer.number, answer.place)?;
        let bits = answer.bits;
        Ok(match answer.kind {
            1 => Number::Signed(bits as i64),
            2 => Number::Unsigned(bits),
            3 => Number::Bool(bits != 0),
            4 => Number::Decimal { exponent: answer.exponent as i8, mantissa: bits as i64 },
            5 | 6 => Number::Float(f64::from_bits(bits)),
            kind => unreachable!("a number of kind {kind}"),
        })
    }

    /// As [`read_bytes`](crate::read_bytes), under these settings.
    pub fn read_bytes<'m>(
        self,
        table: &[u8],
        message: &'m [u8],
        scratch: &mut [u8],
        field: usize,
        item: usize,
    ) -> Result<&'m [u8], Fault> {
        // SAFETY: pointers and lengths are slices' own, and no slice shares a byte with the scratch.
        let answer = unsafe {
            boundary::blink_read_bytes(
                table.as_ptr(),
                table.len(),
                self.store.as_ptr(),
                self.store.len(),
                self.customer,
                message.as_ptr(),
                message.len(),
                scratch.as_mut_ptr(),
                scratch.len(),
                field as u64,
                item as u64,
            )
        };
        verdict(answer.number, answer.place)?;
        Ok(&message[answer.offset as usize..][..answer.length as usize])
    }

    /// As [`read_str`](crate::read_str), under these settings.
    pub fn read_str<'m>(
        self,
        table: &[u8],
        message: &'m [u8],
        scratch: &mut [u8],
        field: usize,
        item: usize,
    ) -> Result<&'m str, TextError> {
        text(self.read_bytes(table, message, scratch, field, item))
    }

    /// As [`add_line`](crate::add_line), under these settings.
    pub fn add_line(
        self,
        table: &[u8],
        message: &[u8],
        scratch: &mut [u8],
        type_id: u64,
        ledger: &mut Ledger,
    ) -> Verdict {
        let Ledger { bytes, fill } = ledger;
        // SAFETY: pointers and lengths are slices' own, and no slice shares a byte with the scratch or the ledger.
        let answer = unsafe {
            boundary::blink_add_line(
                table.as_ptr(),
                table.len(),
                self.store.as_ptr(),
                self.store.len(),
                self.customer,
                message.as_ptr(),
                message.len(),
                scratch.as_mut_ptr(),
                scratch.len(),
                type_id,
                bytes.as_mut_ptr(),
                bytes.len(),
                *fill as u64,
            )
        };
        verdict(answer.number, answer.place)?;
        *fill = answer.length as usize;
        Ok(())
    }
}

/// Is the settings store accepted? Fault 50 at the first record, or the rest, that is wrong.
///
/// A store is records of 9 bytes from the start (`CS`, customer, version, and the flags to ignore faults 4, 6 and 8), then
/// zeros. A customer's versions rise.
///
/// ```
/// let mut store = *b"CS\x07\0\x01\0\x01\0\0CS\x07\0\x02\0\0\0\0\0\0\0";
/// assert_eq!(blink_native::check_store(&store), Ok(()));
///
/// store[13] = 1;
/// assert_eq!(blink_native::check_store(&store), Err(blink_native::Fault { number: 50, place: 9 }));
/// ```
pub fn check_store(store: &[u8]) -> Verdict {
    // SAFETY: pointer and length are a slice's own.
    let answer = unsafe { boundary::blink_check_store(store.as_ptr(), store.len()) };
    verdict(answer.number, answer.place)
}

/// What the settings of a customer and a version ignore, the newest or older ones. Fault 50, or 59 if they are not there.
///
/// ```
/// use blink_native::{read_settings, Ignored};
/// let store = b"CS\x07\0\x01\0\x01\0\0CS\x07\0\x02\0\0\0\0\0\0\0";
/// assert_eq!(read_settings(store, 7, 1)?, Ignored { absent: true, ..Ignored::default() });
/// assert_eq!(read_settings(store, 7, 3).unwrap_err().number, 59);
/// # Ok::<(), blink_native::Fault>(())
/// ```
pub fn read_settings(store: &[u8], customer: u16, version: u16) -> Result<Ignored, Fault> {
    // SAFETY: pointer and length are a slice's own.
    let answer = unsafe { boundary::blink_read_settings(store.as_ptr(), store.len(), customer, version) };
    verdict(answer.number, answer.place)?;
    Ok(Ignored { absent: answer.absent != 0, pads: answer.pads != 0, unused: answer.unused != 0 })
}

/// Adds settings behind the last record of the store, whose newest they are then. On a refusal the store is untouched.
///
/// Fault 50 says that the store is refused, or would be with these settings: their version is not above the customer's
/// newest, or a flag, where bytes are given, is neither 0 nor 1. Fault 51 says that fewer than 9 bytes are left.
///
/// ```
/// use blink_native::{add_settings, Ignored};
/// let mut store = [0; 20];
/// add_settings(&mut store, 7, 1, Ignored { pads: true, ..Ignored::default() })?;
/// assert_eq!(store[..9], *b"CS\x07\0\x01\0\0\x01\0");
/// assert_eq!(add_settings(&mut store, 7, 1, Ignored::default()).unwrap_err().place, 9);
/// add_settings(&mut store, 7, 2, Ignored::default())?;
/// assert_eq!(add_settings(&mut store, 8, 1, [0, 0, 1]).unwrap_err().number, 51);
/// # Ok::<(), blink_native::Fault>(())
/// ```
pub fn add_settings(store: &mut [u8], customer: u16, version: u16, flags: impl Into<[u8; 3]>) -> Verdict {
    let [absent, pads, unused] = flags.into();
    // SAFETY: pointer and length are a slice's own.
    let answer = unsafe {
        boundary::blink_add_settings(store.as_mut_ptr(), store.len(), customer, version, absent, pads, unused)
    };
    verdict(answer.number, answer.place)
}

use crate::{check_table, Fault, FieldShape, Ledger, Number, Settings, TapeReader, TextError, Verdict};

/// A schema table that is accepted. It keeps its bytes, and the questions about messages and sheets are its methods, each as
/// the function of the same name: none of them gives fault 20.
///
/// ```
/// # let bytes = b"GR\x02\0\0\0\0\0\0\0\x01\0\0\x02\0\0\
/// #               FD\x05\0\0\0\0\0\0\0\0\0\0\0\0\0\
/// #               FD\x05\x01\0\0\0\0\0\0\0\0\0\0\0\0";
/// # let message = b"\x15\0\0\0\x02\0\0\0\0\0\0\0\0\0\0\0\xe8\x03\0\0\x01\x64\0\0\0";
/// use blink_native::{Number, Table};
/// let table = Table::new(bytes)?;
/// let mut scratch = vec![0; message.len()];
/// table.check_message(message, &mut scratch)?;
/// assert_eq!(table.read_number(message, &mut scratch, 0, 0)?, Number::Unsigned(1000));
///
/// assert_eq!(Table::new(&bytes[16..]).unwrap_err().number, 31);
/// # Ok::<(), blink_native::Fault>(())
/// ```
#[derive(Clone, Debug, PartialEq, Eq, Hash)]
pub struct Table {
    bytes: Vec<u8>,
}

impl Table {
    /// Checks the bytes, and keeps them where they are accepted. Faults 30 to 37.
    pub fn new(bytes: impl Into<Vec<u8>>) -> Result<Table, Fault> {
        let bytes = bytes.into();
        check_table(&bytes)?;
        Ok(Table { bytes })
    }

    /// The table's bytes.
    pub fn bytes(&self) -> &[u8] {
        &self.bytes
    }

    /// The same table, with settings: what they ignore is no fault of a message.
    ///
    /// ```
    /// # let bytes = b"GR\x02\0\0\0\0\0\0\0\x01\0\0\x02\0\0\
    /// #               FD\x05\0\0\0\0\0\0\0\0\0\0\0\0\0\
    /// #               FD\x05\x01\0\0\0\0\0\0\0\0\0\0\0\0";
    /// use blink_native::{Settings, Table};
    /// let table = Table::new(bytes)?;
    /// // A bill without a tip, whose bytes 21 to 24 should be zero; customer 7's stations may leave them as they are.
    /// let message = b"\x15\0\0\0\x02\0\0\0\0\0\0\0\0\0\0\0\xe8\x03\0\0\0\x64\0\0\0";
    /// let store = b"CS\x07\0\x01\0\x01\0\0";
    /// assert_eq!(table.check_message(message, &mut [0; 25]).unwrap_err().number, 4);
    /// assert_eq!(table.under(Settings::of(store, 7)).check_message(message, &mut [0; 25]), Ok(()));
    /// # Ok::<(), blink_native::Fault>(())
    /// ```
    pub fn under<'a>(&'a self, settings: Settings<'a>) -> Under<'a> {
        Under { table: &self.bytes, settings }
    }

    fn strict(&self) -> Under<'_> {
        self.under(Settings::NONE)
    }

    /// As [`check_message`](crate::check_message).
    pub fn check_message(&self, message: &[u8], scratch: &mut [u8]) -> Verdict {
        self.strict().check_message(message, scratch)
    }

    /// As [`tape`](crate::tape()).
    pub fn tape<'t>(&self, tape: &'t [u8]) -> TapeReader<'_, 't> {
        self.strict().tape(tape)
    }

    /// As [`message_to_sheet`](crate::message_to_sheet).
    pub fn message_to_sheet<'r>(
        &self,
        message: &[u8],
        scratch: &mut [u8],
        sheet: &'r mut [u8],
    ) -> Result<&'r mut [u8], Fault> {
        self.strict().message_to_sheet(message, scratch, sheet)
    }

    /// As [`sheet_to_message`](crate::sheet_to_message).
    pub fn sheet_to_message<'r>(&self, sheet: &[u8], output: &'r mut [u8]) -> Result<&'r mut [u8], Fault> {
        crate::sheet_to_message(&self.bytes, sheet, output)
    }

    /// As [`rewrite`](crate::rewrite).
    pub fn rewrite<'r>(
        &self,
        message: &[u8],
        scratch: &mut [u8],
        sheet: &mut [u8],
        output: &'r mut [u8],
    ) -> Result<&'r mut [u8], Fault> {
        self.strict().rewrite(message, scratch, sheet, output)
    }

    /// As [`read_number`](crate::read_number).
    pub fn read_number(
        &self,
        message: &[u8],
        scratch: &mut [u8],
        field: usize,
        item: usize,
    ) -> Result<Number, Fault> {
        self.strict().read_number(message, scratch, field, item)
    }

    /// As [`read_bytes`](crate::read_bytes).
    pub fn read_bytes<'m>(
        &self,
        message: &'m [u8],
        scratch: &mut [u8],
        field: usize,
        item: usize,
    ) -> Result<&'m [u8], Fault> {
        self.strict().read_bytes(message, scratch, field, item)
    }

    /// As [`read_str`](crate::read_str).
    pub fn read_str<'m>(
        &self,
        message: &'m [u8],
        scratch: &mut [u8],
        field: usize,
        item: usize,
    ) -> Result<&'m str, TextError> {
        self.strict().read_str(message, scratch, field, item)
    }

    /// As [`add_line`](crate::add_line).
    pub fn add_line(&self, message: &[u8], scratch: &mut [u8], type_id: u64, ledger: &mut Ledger) -> Verdict {
        self.strict().add_line(message, scratch, type_id, ledger)
    }

    /// As [`field_shape`](crate::field_shape).
    pub fn field_shape(&self, type_id: u64, field: usize) -> Result<FieldShape, Fault> {
        crate::field_shape(&self.bytes, type_id, field)
    }
}

/// A [`Table`] under [`Settings`]: [`Table::under`] makes it.
#[derive(Clone, Copy, Debug, PartialEq, Eq, Hash)]
pub struct Under<'a> {
    table: &'a [u8],
    settings: Settings<'a>,
}

impl<'a> Under<'a> {
    /// As [`Settings::check_message`].
    pub fn check_message(self, message: &[u8], scratch: &mut [u8]) -> Verdict {
        self.settings.check_message(self.table, message, scratch)
    }

    /// As [`Settings::tape`].
    pub fn tape<'t>(self, tape: &'t [u8]) -> TapeReader<'a, 't> {
        self.settings.tape(self.table, tape)
    }

    /// As [`Settings::message_to_sheet`].
    pub fn message_to_sheet<'r>(
        self,
        message: &[u8],
        scratch: &mut [u8],
        sheet: &'r mut [u8],
    ) -> Result<&'r mut [u8], Fault> {
        self.settings.message_to_sheet(self.table, message, scratch, sheet)
    }

    /// As [`Settings::rewrite`].
    pub fn rewrite<'r>(
        self,
        message: &[u8],
        scratch: &mut [u8],
        sheet: &mut [u8],
        output: &'r mut [u8],
    ) -> Result<&'r mut [u8], Fault> {
        self.settings.rewrite(self.table, message, scratch, sheet, output)
    }

    /// As [`Settings::read_number`].
    pub fn read_number(
        self,
        message: &[u8],
        scratch: &mut [u8],
        field: usize,
        item: usize,
    ) -> Result<Number, Fault> {
        self.settings.read_number(self.table, message, scratch, field, item)
    }

    /// As [`Settings::read_bytes`].
    pub fn read_bytes<'m>(
        self,
        message: &'m [u8],
        scratch: &mut [u8],
        field: usize,
        item: usize,
    ) -> Result<&'m [u8], Fault> {
        self.settings.read_bytes(self.table, message, scratch, field, item)
    }

    /// As [`Settings::read_str`].
    pub fn read_str<'m>(
        self,
        message: &'m [u8],
        scratch: &mut [u8],
        field: usize,
        item: usize,
    ) -> Result<&'m str, TextError> {
        self.settings.read_str(self.table, message, scratch, field, item)
    }

    /// As [`Settings::add_line`].
    pub fn add_line(self, message: &[u8], scratch: &mut [u8], type_id: u64, ledger: &mut Ledger) -> Verdict {
        self.settings.add_line(self.table, message, scratch, type_id, ledger)
    }
}

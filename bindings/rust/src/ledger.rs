use crate::{Settings, Verdict, LINE_LENGTH};
use std::fmt;

/// A ledger of blanks: lines of [`LINE_LENGTH`] bytes, one behind the other in a lent buffer, and how far it is filled.
/// [`Table::add_line`](crate::Table::add_line) and [`add_line`] enter a line.
///
/// Every line stands for a message that was accepted when it was entered. A message that is refused leaves each byte of the
/// buffer as it was.
///
/// ```
/// # let samples = concat!(env!("CARGO_MANIFEST_DIR"), "/../../samples");
/// # let load = |name| std::fs::read(format!("{samples}/{name}")).unwrap();
/// use blink_native::{Fault, Ledger, Table, LINE_LENGTH};
/// let table = Table::new(load("blank.table"))?;
/// let (good, dusty) = (load("good.message"), load("dusty.message"));
/// let mut scratch = [0; blink_native::MESSAGE_LIMIT];
///
/// // Room for two lines. The blanks' group has type id 1.
/// let mut room = [0; 2 * LINE_LENGTH];
/// let mut ledger = Ledger::new(&mut room);
/// table.add_line(&good, &mut scratch, 1, &mut ledger)?;
/// assert_eq!(table.add_line(&dusty, &mut scratch, 1, &mut ledger), Err(Fault { number: 9, place: 41 }));
/// assert_eq!(ledger.fill(), 64);
///
/// for line in ledger.lines() {
///     let count = usize::from(line[2]);
///     assert_eq!((&line[..2], &line[3..][..count]), (&b"LB"[..], &b"QZ-2026-11-0417"[..]));
/// }
/// # Ok::<(), Fault>(())
/// ```
pub struct Ledger<'a> {
    pub(crate) bytes: &'a mut [u8],
    pub(crate) fill: usize,
}

impl<'a> Ledger<'a> {
    /// A ledger with no lines, which has room for as many as fit into the buffer.
    pub fn new(bytes: &'a mut [u8]) -> Ledger<'a> {
        Ledger { bytes, fill: 0 }
    }

    /// A ledger that goes on: the first `fill` bytes of the buffer are its lines, and are taken as they stand. None where
    /// they are no whole lines, or more than the buffer has.
    ///
    /// ```
    /// use blink_native::Ledger;
    /// let mut room = [0; 200];
    /// assert_eq!(Ledger::with_fill(&mut room, 128).unwrap().lines().len(), 2);
    /// assert!(Ledger::with_fill(&mut room, 100).is_none());
    /// assert!(Ledger::with_fill(&mut room, 256).is_none());
    /// ```
    pub fn with_fill(bytes: &'a mut [u8], fill: usize) -> Option<Ledger<'a>> {
        (fill.is_multiple_of(LINE_LENGTH) && fill <= bytes.len()).then_some(Ledger { bytes, fill })
    }

    /// How many bytes of the buffer are lines.
    pub const fn fill(&self) -> usize {
        self.fill
    }

    /// The lines, in the order in which they were entered: the mark `LB`, how many bytes the barcode has, the barcode (3 to
    /// 42, the rest of it zeros), density (43 to 46), sound speed (47 to 50) and grade (51 to 54), little-endian, and zeros.
    pub fn lines(&self) -> &[[u8; LINE_LENGTH]] {
        let (lines, _) = self.bytes().as_chunks();
        lines
    }

    /// The same, end to end.
    pub fn bytes(&self) -> &[u8] {
        &self.bytes[..self.fill]
    }
}

impl fmt::Debug for Ledger<'_> {
    fn fmt(&self, f: &mut fmt::Formatter<'_>) -> fmt::Result {
        f.debug_struct("Ledger")
            .field("fill", &self.fill)
            .field("length", &self.bytes.len())
            .finish_non_exhaustive()
    }
}

/// Enters one blank's line into a ledger, behind its last. `type_id` is that of the blanks' group.
///
/// After the message's own faults: 54 the message is of another type than this very id, or the group's fields are not a
/// string (the barcode), two u32 (density and sound speed), an enumeration (the grade) and an optional string (the note); 55
/// the barcode has no bytes, or more than 40; and last 56, the ledger has no room for a line. Strings may be inline. On a
/// refusal the ledger is as it was.
///
/// ```
/// # let samples = concat!(env!("CARGO_MANIFEST_DIR"), "/../../samples");
/// # let load = |name| std::fs::read(format!("{samples}/{name}")).unwrap();
/// # let (table, message) = (load("blank.table"), load("good.message"));
/// # let mut scratch = vec![0; message.len()];
/// use blink_native::{add_line, Ledger};
/// let mut room = [0; 100];
/// let mut ledger = Ledger::new(&mut room);
/// add_line(&table, &message, &mut scratch, 1, &mut ledger)?;
///
/// let fault = add_line(&table, &message, &mut scratch, 1, &mut ledger).unwrap_err();
/// assert_eq!(fault.number, 56);
/// assert_eq!(ledger.lines().len(), 1);
/// # Ok::<(), blink_native::Fault>(())
/// ```
pub fn add_line(
    table: &[u8],
    message: &[u8],
    scratch: &mut [u8],
    type_id: u64,
    ledger: &mut Ledger,
) -> Verdict {
    Settings::NONE.add_line(table, message, scratch, type_id, ledger)
}

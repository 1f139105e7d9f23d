//! How many bytes of stack the questions take, at most, over deep tables and messages, long stores and random cases:
//! `stack [BATCHES]`. Each question is asked on a stack of its own that was painted before; what is no longer paint was used.
use blink_bench::{messages, stores, tables};
use blink_native::{Ledger, Settings};
use blink_reference::generate::settings_batch;
use std::alloc::Layout;
use std::collections::BTreeMap;
use std::ffi::{c_int, c_void};
use std::hint::black_box;
use std::ptr::null_mut;

const ROOM: usize = 1 << 20;
const PAINT: u8 = 0xa5;

#[repr(C, align(8))]
struct Attributes([u8; 64]);

extern "C" {
    fn pthread_attr_init(attributes: *mut Attributes) -> c_int;
    fn pthread_attr_setstack(attributes: *mut Attributes, stack: *mut c_void, size: usize) -> c_int;
    fn pthread_create(
        thread: *mut usize,
        attributes: *const Attributes,
        start: extern "C" fn(*mut c_void) -> *mut c_void,
        argument: *mut c_void,
    ) -> c_int;
    fn pthread_join(thread: usize, result: *mut *mut c_void) -> c_int;
}

struct Call<'a> {
    question: &'a mut dyn FnMut(),
    top: usize,
}

extern "C" fn ask(call: *mut c_void) -> *mut c_void {
    // SAFETY: it is the one that `used` passed, which waits for this thread.
    let call = unsafe { &mut *call.cast::<Call>() };
    let here = black_box(0u8);
    call.top = black_box(&here) as *const u8 as usize;
    (call.question)();
    null_mut()
}

/// The stack that questions are asked on.
struct Stack(*mut u8);

impl Stack {
    fn new() -> Stack {
        // SAFETY: the layout is of some size.
        Stack(unsafe { std::alloc::alloc(Layout::from_size_align(ROOM, 4096).expect("a power of two")) })
    }

    /// How far below the caller's frame a question reaches.
    fn used(&mut self, question: &mut dyn FnMut()) -> usize {
        let mut call = Call { question, top: 0 };
        let mut thread = 0;
        // SAFETY: the stack is this one's own, of so many bytes, and no thread runs on it before and after.
        let untouched = unsafe {
            self.0.write_bytes(PAINT, ROOM);
            let mut attributes = Attributes([0; 64]);
            let argument = (&mut call as *mut Call).cast();
            assert_eq!(pthread_attr_init(&mut attributes), 0);
            assert_eq!(pthread_attr_setstack(&mut attributes, self.0.cast(), ROOM), 0);
            assert_eq!(pthread_create(&mut thread, &attributes, ask, argument), 0);
            assert_eq!(pthread_join(thread, null_mut()), 0);
            std::slice::from_raw_parts(self.0, ROOM).iter().take_while(|&&byte| byte == PAINT).count()
        };
        call.top - (self.0 as usize + untouched)
    }
}

/// Takes an answer, so that no question is left out.
fn answered<T>(answer: T) {
    black_box(answer);
}

/// The most that a question took, and where.
#[derive(Default)]
struct Most(BTreeMap<&'static str, (usize, String)>);

impl Most {
    fn keep(&mut self, question: &'static str, bytes: usize, case: &str) {
        let most = self.0.entry(question).or_default();
        if most.0 < bytes {
            *most = (bytes, case.to_string());
        }
    }

    fn print(&self, title: &str) {
        println!("{title}");
        for (question, (bytes, case)) in &self.0 {
            println!("{bytes:>8}  {question:<18} {case}");
        }
    }
}

struct Asker {
    stack: Stack,
    scratch: Vec<u8>,
    sheet: Vec<u8>,
    output: Vec<u8>,
}

impl Asker {
    fn new() -> Asker {
        let room = |bytes| vec![0; bytes];
        Asker { stack: Stack::new(), scratch: room(65_536), sheet: room(11 * 65_536), output: room(65_536) }
    }

    fn about_table(&mut self, most: &mut Most, case: &str, table: &[u8]) {
        most.keep("check_table", self.stack.used(&mut || answered(blink_native::check_table(table))), case);
        most.keep("field_shape", self.stack.used(&mut || answered(blink_native::field_shape(table, 1, 0))), case);
    }

    fn about_store(&mut self, most: &mut Most, case: &str, store: &[u8]) {
        let mut lent = store.to_vec();
        most.keep("check_store", self.stack.used(&mut || answered(blink_native::check_store(store))), case);
        most.keep("read_settings", self.stack.used(&mut || answered(blink_native::read_settings(store, 7, 1))), case);
        let mut add = || answered(blink_native::add_settings(&mut lent, 7, 65_535, [0, 0, 1]));
        most.keep("add_settings", self.stack.used(&mut add), case);
    }

    fn about_message(&mut self, most: &mut Most, case: &str, table: &[u8], under: Settings, message: &[u8]) {
        let Asker { stack, scratch, sheet, output } = self;
        most.keep("check_message", stack.used(&mut || answered(under.check_message(table, message, scratch))), case);
        let mut tape = under.tape(table, message);
        most.keep("next_message", stack.used(&mut || answered(tape.next())), case);
        let mut to_sheet = || answered(under.message_to_sheet(table, message, scratch, sheet));
        most.keep("message_to_sheet", stack.used(&mut to_sheet), case);
        if let Ok(written) = under.message_to_sheet(table, message, scratch, sheet) {
            let mut to_message = || answered(blink_native::sheet_to_message(table, written, output));
            most.keep("sheet_to_message", stack.used(&mut to_message), case);
        }
        let mut rewrite = || answered(under.rewrite(table, message, scratch, sheet, output));
        most.keep("rewrite", stack.used(&mut rewrite), case);
        let mut number = || answered(under.read_number(table, message, scratch, 0, 0));
        most.keep("read_number", stack.used(&mut number), case);
        let mut bytes = || answered(under.read_bytes(table, message, scratch, 0, 0));
        most.keep("read_bytes", stack.used(&mut bytes), case);
        let mut line = || answered(under.add_line(table, message, scratch, 1, &mut Ledger::new(output)));
        most.keep("add_line", stack.used(&mut line), case);
    }
}

/// The deep cases are what their names say: accepted to level 8, refused by 24 at level 9.
fn test_cases() {
    let mut room = vec![0; 65_536];
    for case in messages::deep_cases() {
        let answer = blink_native::check_message(&case.table, &case.message, &mut room);
        let due = if case.name.contains("level 9") { Some(24) } else { None };
        assert_eq!(answer.err().map(|fault| fault.number), due, "{}", case.name);
    }
    let case = &messages::deep_cases()[2];
    let message = blink_native::sheet_to_message(&case.table, &messages::deep_sheet(8), &mut room);
    assert_eq!(message.as_deref(), Ok(&case.message[..]));
    let answer = blink_native::sheet_to_message(&case.table, &messages::deep_sheet(9), &mut room);
    assert_eq!(answer.unwrap_err().number, 24);
}

fn main() {
    test_cases();
    let batches: u64 = std::env::args().nth(1).map_or(200, |word| word.parse().expect("a number"));
    let mut asker = Asker::new();

    let mut tables = Most::default();
    for groups in 1..=64 {
        asker.about_table(&mut tables, &format!("{groups} groups, each in the next"), &tables::stairs(groups));
    }
    asker.about_table(&mut tables, "a tower of static groups", &tables::tower(false));
    asker.about_table(&mut tables, "63 groups, each below the one before", &tables::chain(63, 64));
    asker.about_table(&mut tables, "as many enumerations as there can be", &tables::enumerations());

    let mut few = Most::default();
    let small = stores::customers(256);
    for case in messages::cases().iter().chain(&messages::deep_cases()) {
        asker.about_message(&mut few, case.name, &case.table, Settings::NONE, &case.message);
        let name = format!("{}, 256 records", case.name);
        asker.about_message(&mut few, &name, &case.table, Settings::of(&small, 7), &case.message);
    }
    for case in messages::deep_cases() {
        for levels in [8, 9] {
            let (sheet, name) = (messages::deep_sheet(levels), format!("a sheet of level {levels}"));
            let mut to_message = || answered(blink_native::sheet_to_message(&case.table, &sheet, &mut asker.output));
            few.keep("sheet_to_message", asker.stack.used(&mut to_message), &name);
        }
    }
    let stairs = tables::stairs(64);
    asker.about_message(&mut few, "64 static groups", &stairs, Settings::NONE, &[0; 16]);
    for seed in 0..batches {
        let random = settings_batch(seed);
        for asked in &random.asked {
            let settings = asked.settings();
            let under = Settings::of(settings.store, settings.customer);
            asker.about_message(&mut few, &format!("random, {seed}"), &random.table, under, &asked.question.input);
        }
    }
    for records in [1, 16, 17, 256] {
        asker.about_store(&mut few, &format!("{records} records"), &stores::customers(records));
    }

    let mut many = Most::default();
    for (name, store) in [("257 records", stores::customers(257)), ("7,281 records", stores::customers(7281)), ("116,508 records", stores::hostile())] {
        asker.about_store(&mut many, name, &store);
        for case in messages::deep_cases() {
            let name = format!("{}, {name}", case.name);
            asker.about_message(&mut many, &name, &case.table, Settings::of(&store, 7), &case.message);
        }
    }
    tables.print("bytes of stack, most of all cases: a table alone");
    few.print("with a store of at most 256 records");
    many.print("with a longer one");
}

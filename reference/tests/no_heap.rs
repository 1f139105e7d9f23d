//! No question takes memory from the heap.

use std::alloc::{GlobalAlloc, Layout, System};
use std::sync::atomic::{AtomicUsize, Ordering};

use blink_reference::generate::edges;
use blink_reference::question::{Kind, Question};
use blink_reference::{
    add_line, add_settings, check_message, check_store, check_table, field_shape, message_to_sheet,
    next_message, read_bytes, read_number, read_settings, rewrite, sheet_to_message, Settings, TapeReader,
};

/// The system's heap, with a count of how often it was asked.
struct Counting;

static ALLOCATIONS: AtomicUsize = AtomicUsize::new(0);

// Sound as the system's own allocator is: every call is passed on to it.
unsafe impl GlobalAlloc for Counting {
    unsafe fn alloc(&self, layout: Layout) -> *mut u8 {
        ALLOCATIONS.fetch_add(1, Ordering::Relaxed);
        System.alloc(layout)
    }

    unsafe fn dealloc(&self, pointer: *mut u8, layout: Layout) {
        System.dealloc(pointer, layout)
    }
}

#[global_allocator]
static HEAP: Counting = Counting;

/// Rooms that are long enough for every question.
struct Rooms {
    scratch: Vec<u8>,
    sheet: Vec<u8>,
    output: Vec<u8>,
}

fn ask(table: &[u8], settings: Settings, question: &mut Question, rooms: &mut Rooms) -> bool {
    let Settings { store, customer } = settings;
    let Rooms { scratch, sheet, output } = rooms;
    let input = &mut question.input[..];
    let (field, item) = (question.field, question.item);
    match question.kind {
        Kind::CheckTable => check_table(input).is_ok(),
        Kind::CheckMessage => check_message(table, store, customer, input, scratch).is_ok(),
        Kind::MessageToSheet => message_to_sheet(table, store, customer, input, scratch, sheet).is_ok(),
        Kind::SheetToMessage => sheet_to_message(table, input, output).is_ok(),
        Kind::Rewrite => rewrite(table, store, customer, input, scratch, sheet, output).is_ok(),
        Kind::ReadNumber => read_number(table, store, customer, input, scratch, field, item).is_ok(),
        Kind::ReadBytes => read_bytes(table, store, customer, input, scratch, field, item).is_ok(),
        Kind::CheckStore => check_store(input).is_ok(),
        Kind::ReadSettings => read_settings(input, field as u16, item as u16).is_ok(),
        Kind::AddSettings => add_settings(input, field as u16, item as u16, 1, 0, 1).is_ok(),
        Kind::ReadTape => {
            let mut reader = TapeReader::new(input);
            while next_message(table, store, customer, &mut reader, scratch).is_some() {}
            reader.has_ended()
        }
        // A run's first call.
        Kind::AddLine | Kind::AddLines => {
            add_line(table, store, customer, input, scratch, field, output, item as usize).is_ok()
        }
        Kind::FieldShape => field_shape(table, field, item).is_ok(),
    }
}

#[test]
fn no_question_allocates() {
    let mut rooms = Rooms { scratch: vec![0; 65_536], sheet: vec![0; 786_432], output: vec![0; 65_536] };
    for edge in edges() {
        let mut question = edge.question.clone();
        let before = ALLOCATIONS.load(Ordering::Relaxed);
        ask(&edge.table, edge.settings(), &mut question, &mut rooms);
        let after = ALLOCATIONS.load(Ordering::Relaxed);
        assert_eq!(before, after, "{}", edge.name);
    }
}

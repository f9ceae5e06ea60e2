//! The three proved functions on lists that the caller owns.
//!
//! Each is safe whatever the lists hold: every number may be damaged and every list may be short. The answer is then
//! refusal 2 (1 at opening), and nothing is written. The layout of head, command and answer is in docs/LAYOUT.md of the
//! repository.

/// How many numbers a head has.
pub const HEAD: usize = 9;
/// How many numbers a command has.
pub const COMMAND: usize = 5;
/// How many numbers an answer has.
pub const ANSWER: usize = 8;

mod raw {
    // A slice is a pointer and a length; an empty one has a pointer that is aligned and not null.
    unsafe extern "C" {
        pub fn weavestall_open(
            kind: u32,
            capacity: u64,
            slots: u32,
            head: *mut u64,
            head_len: usize,
            codes: *mut u64,
            codes_len: usize,
            stamps: *mut u32,
            stamps_len: usize,
            values: *mut u64,
            values_len: usize,
            weights: *mut u64,
            weights_len: usize,
            next: *mut u32,
            next_len: usize,
            prev: *mut u32,
            prev_len: usize,
            stack: *mut u32,
            stack_len: usize,
            cells: *mut u32,
            cells_len: usize,
        ) -> u32;

        pub fn weavestall_read(
            head: *const u64,
            head_len: usize,
            codes: *const u64,
            codes_len: usize,
            stamps: *const u32,
            stamps_len: usize,
            values: *const u64,
            values_len: usize,
            weights: *const u64,
            weights_len: usize,
            next: *const u32,
            next_len: usize,
            prev: *const u32,
            prev_len: usize,
            stack: *const u32,
            stack_len: usize,
            cells: *const u32,
            cells_len: usize,
            row_codes: *mut u64,
            row_codes_len: usize,
            row_stamps: *mut u32,
            row_stamps_len: usize,
            row_values: *mut u64,
            row_values_len: usize,
            row_weights: *mut u64,
            row_weights_len: usize,
            command: *const u64,
            command_len: usize,
            answer: *mut u64,
            answer_len: usize,
        ) -> u32;

        pub fn weavestall_call(
            head: *mut u64,
            head_len: usize,
            codes: *mut u64,
            codes_len: usize,
            stamps: *mut u32,
            stamps_len: usize,
            values: *mut u64,
            values_len: usize,
            weights: *mut u64,
            weights_len: usize,
            next: *mut u32,
            next_len: usize,
            prev: *mut u32,
            prev_len: usize,
            stack: *mut u32,
            stack_len: usize,
            cells: *mut u32,
            cells_len: usize,
            row_codes: *mut u64,
            row_codes_len: usize,
            row_stamps: *mut u32,
            row_stamps_len: usize,
            row_values: *mut u64,
            row_values_len: usize,
            row_weights: *mut u64,
            row_weights_len: usize,
            command: *const u64,
            command_len: usize,
            answer: *mut u64,
            answer_len: usize,
        ) -> u32;
    }
}

/// The numbers of a cache: its head and eight lists. N slots need N numbers in each, 2N in `cells`.
#[derive(Clone, Debug, Default, PartialEq, Eq)]
pub struct Lists {
    /// Kind, capacity, slots, live, weight, front, back, top, depth.
    pub head: Vec<u64>,
    /// The code in each slot.
    pub codes: Vec<u64>,
    /// The stamp in each slot.
    pub stamps: Vec<u32>,
    /// The value in each slot.
    pub values: Vec<u64>,
    /// The weight in each slot.
    pub weights: Vec<u64>,
    /// The slot behind each in the recency list.
    pub next: Vec<u32>,
    /// The slot before each in the recency list; for an unused slot its place on the stack.
    pub prev: Vec<u32>,
    /// The slots that wait to be used again.
    pub stack: Vec<u32>,
    /// The lookup table: slot numbers by the hash of their codes.
    pub cells: Vec<u32>,
}

/// Lists for rows that are handed out, one a field: as many rows as the shortest holds.
#[derive(Clone, Debug, Default, PartialEq, Eq)]
pub struct RowLists {
    /// The codes of the rows.
    pub codes: Vec<u64>,
    /// The stamps of the rows.
    pub stamps: Vec<u32>,
    /// The values of the rows.
    pub values: Vec<u64>,
    /// The weights of the rows.
    pub weights: Vec<u64>,
}

impl Lists {
    /// Lists that are long enough for so many slots, all zero.
    pub fn for_slots(slots: u32) -> Self {
        let n = slots as usize;
        Lists {
            head: vec![0; HEAD],
            codes: vec![0; n],
            stamps: vec![0; n],
            values: vec![0; n],
            weights: vec![0; n],
            next: vec![0; n],
            prev: vec![0; n],
            stack: vec![0; n],
            cells: vec![0; 2 * n],
        }
    }
}

impl RowLists {
    /// Room for so many rows.
    pub fn for_rows(rows: usize) -> Self {
        RowLists {
            codes: vec![0; rows],
            stamps: vec![0; rows],
            values: vec![0; rows],
            weights: vec![0; rows],
        }
    }
}

/// Opens a cache in the lists: 0, or 1 with nothing written.
pub fn open(kind: u32, capacity: u64, slots: u32, lists: &mut Lists) -> u32 {
    // SAFETY: each pointer and length are those of a `Vec` that is borrowed for the call, and no two overlap. The
    // function is proved to stay within them for every content and length.
    unsafe {
        raw::weavestall_open(
            kind,
            capacity,
            slots,
            lists.head.as_mut_ptr(),
            lists.head.len(),
            lists.codes.as_mut_ptr(),
            lists.codes.len(),
            lists.stamps.as_mut_ptr(),
            lists.stamps.len(),
            lists.values.as_mut_ptr(),
            lists.values.len(),
            lists.weights.as_mut_ptr(),
            lists.weights.len(),
            lists.next.as_mut_ptr(),
            lists.next.len(),
            lists.prev.as_mut_ptr(),
            lists.prev.len(),
            lists.stack.as_mut_ptr(),
            lists.stack.len(),
            lists.cells.as_mut_ptr(),
            lists.cells.len(),
        )
    }
}

/// A call that reads (command numbers 1 to 11): 0 or the number of the refusal.
pub fn read(lists: &Lists, rows: &mut RowLists, command: &[u64], answer: &mut [u64]) -> u32 {
    // SAFETY: as at `open`; what is shared is only read.
    unsafe {
        raw::weavestall_read(
            lists.head.as_ptr(),
            lists.head.len(),
            lists.codes.as_ptr(),
            lists.codes.len(),
            lists.stamps.as_ptr(),
            lists.stamps.len(),
            lists.values.as_ptr(),
            lists.values.len(),
            lists.weights.as_ptr(),
            lists.weights.len(),
            lists.next.as_ptr(),
            lists.next.len(),
            lists.prev.as_ptr(),
            lists.prev.len(),
            lists.stack.as_ptr(),
            lists.stack.len(),
            lists.cells.as_ptr(),
            lists.cells.len(),
            rows.codes.as_mut_ptr(),
            rows.codes.len(),
            rows.stamps.as_mut_ptr(),
            rows.stamps.len(),
            rows.values.as_mut_ptr(),
            rows.values.len(),
            rows.weights.as_mut_ptr(),
            rows.weights.len(),
            command.as_ptr(),
            command.len(),
            answer.as_mut_ptr(),
            answer.len(),
        )
    }
}

/// Any call: 0 or the number of the refusal.
pub fn call(lists: &mut Lists, rows: &mut RowLists, command: &[u64], answer: &mut [u64]) -> u32 {
    // SAFETY: as at `open`; the command is only read.
    unsafe {
        raw::weavestall_call(
            lists.head.as_mut_ptr(),
            lists.head.len(),
            lists.codes.as_mut_ptr(),
            lists.codes.len(),
            lists.stamps.as_mut_ptr(),
            lists.stamps.len(),
            lists.values.as_mut_ptr(),
            lists.values.len(),
            lists.weights.as_mut_ptr(),
            lists.weights.len(),
            lists.next.as_mut_ptr(),
            lists.next.len(),
            lists.prev.as_mut_ptr(),
            lists.prev.len(),
            lists.stack.as_mut_ptr(),
            lists.stack.len(),
            lists.cells.as_mut_ptr(),
            lists.cells.len(),
            rows.codes.as_mut_ptr(),
            rows.codes.len(),
            rows.stamps.as_mut_ptr(),
            rows.stamps.len(),
            rows.values.as_mut_ptr(),
            rows.values.len(),
            rows.weights.as_mut_ptr(),
            rows.weights.len(),
            command.as_ptr(),
            command.len(),
            answer.as_mut_ptr(),
            answer.len(),
        )
    }
}

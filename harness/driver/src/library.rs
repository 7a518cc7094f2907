//! The six calls of the static library, on slices. The declarations are those of include/zuzgravel.h.

extern "C" {
    fn zuzgravel_figures(
        board: *const u32, board_words: usize, records: *mut u32, record_words: usize, answer: *mut u64,
    ) -> u32;
    fn zuzgravel_overhead(board: *const u32, board_words: usize, i: usize, j: usize, answer: *mut u64) -> u32;
    fn zuzgravel_weigh(
        board: *const u32, board_words: usize, times: *const u32, times_words: usize, i: usize, answer: *mut u64,
    ) -> u32;
    fn zuzgravel_analyse(
        board: *const u32, board_words: usize, times: *mut u32, times_words: usize, scratch: *mut u32, scratch_words: usize,
        records: *mut u32, record_words: usize, answer: *mut u64,
    ) -> u32;
    fn zuzgravel_analyse_in_order(
        board: *const u32, board_words: usize, times: *mut u32, times_words: usize, scratch: *mut u32, scratch_words: usize,
        records: *mut u32, record_words: usize, order: *const u32, order_words: usize, answer: *mut u64,
    ) -> u32;
    fn zuzgravel_make_up(
        board: *const u32, board_words: usize, times: *mut u32, times_words: usize, scratch: *mut u32, scratch_words: usize,
        records: *mut u32, record_words: usize, task: usize, parts: *mut u64, answer: *mut u64,
    ) -> u32;
}

/// Words of one record of the figures table: five, and eight for each of the two ECBs.
pub const RECORD: usize = 21;

/// A call's code, the two words of its answer, and the words on both sides of them.
#[derive(Clone, Copy, Debug, PartialEq, Eq)]
pub struct Reply {
    pub code: u32,
    pub answer: [u64; 2],
    pub around: [u64; 2],
}

/// The six numbers that a time is made up of, and the words on both sides of them.
#[derive(Clone, Copy, Debug, PartialEq, Eq)]
pub struct Parts {
    pub numbers: [u64; 6],
    pub around: [u64; 2],
}

/// What the words of an answer and of the six numbers, and those around them, are before the call.
const BEFORE: u64 = 0x5a5a_5a5a_5a5a_5a5a;

impl Reply {
    /// As a call should leave it: the words around are as they were.
    pub fn new(code: u32, answer: [u64; 2]) -> Reply {
        Reply { code, answer, around: [BEFORE; 2] }
    }
}

impl Parts {
    /// As a call should leave them: the words around are as they were.
    pub fn new(numbers: [u64; 6]) -> Parts {
        Parts { numbers, around: [BEFORE; 2] }
    }
    /// As they are before a call.
    pub fn untouched() -> Parts {
        Parts::new([BEFORE; 6])
    }
}

pub const VALUE: u32 = 0;
pub const LATE: u32 = 1;
pub const SPENT: u32 = 2;
pub const REFUSED: u32 = 3;

fn reply(call: impl FnOnce(*mut u64) -> u32) -> Reply {
    let mut words = [BEFORE; 4];
    let code = call(words.as_mut_ptr().wrapping_add(1));
    Reply { code, answer: [words[1], words[2]], around: [words[0], words[3]] }
}

pub fn figures(board: &[u32], records: &mut [u32]) -> Reply {
    // every pointer comes with the length of its own slice, but for that of the two words; the library refuses what it cannot use
    reply(|at| unsafe { zuzgravel_figures(board.as_ptr(), board.len(), records.as_mut_ptr(), records.len(), at) })
}

pub fn overhead(board: &[u32], i: usize, j: usize) -> Reply {
    reply(|at| unsafe { zuzgravel_overhead(board.as_ptr(), board.len(), i, j, at) })
}

pub fn weigh(board: &[u32], times: &[u32], i: usize) -> Reply {
    reply(|at| unsafe { zuzgravel_weigh(board.as_ptr(), board.len(), times.as_ptr(), times.len(), i, at) })
}

pub fn analyse(board: &[u32], times: &mut [u32], scratch: &mut [u32], records: &mut [u32]) -> Reply {
    reply(|at| unsafe {
        zuzgravel_analyse(
            board.as_ptr(), board.len(), times.as_mut_ptr(), times.len(), scratch.as_mut_ptr(), scratch.len(),
            records.as_mut_ptr(), records.len(), at,
        )
    })
}

pub fn analyse_in_order(board: &[u32], times: &mut [u32], scratch: &mut [u32], records: &mut [u32], order: &[u32]) -> Reply {
    reply(|at| unsafe {
        zuzgravel_analyse_in_order(
            board.as_ptr(), board.len(), times.as_mut_ptr(), times.len(), scratch.as_mut_ptr(), scratch.len(),
            records.as_mut_ptr(), records.len(), order.as_ptr(), order.len(), at,
        )
    })
}

pub fn make_up(board: &[u32], times: &mut [u32], scratch: &mut [u32], records: &mut [u32], task: usize) -> (Reply, Parts) {
    let mut words = [BEFORE; 8];
    let parts = words.as_mut_ptr().wrapping_add(1);
    let reply = reply(|at| unsafe {
        zuzgravel_make_up(
            board.as_ptr(), board.len(), times.as_mut_ptr(), times.len(), scratch.as_mut_ptr(), scratch.len(),
            records.as_mut_ptr(), records.len(), task, parts, at,
        )
    });
    let [before, numbers @ .., after] = words;
    (reply, Parts { numbers, around: [before, after] })
}

//! Tapsquirrel for Rust: safe calls into target/staticlib/libtap.a, for x86-64. include/tapsquirrel.h says what each call does.
//! A program takes this file as a module, and links with `-L target/staticlib`.

mod c {
    #[link(name = "tap", kind = "static")]
    extern "C" {
        pub fn tap_read(file: *const u8, file_len: usize, out: *mut u8, out_len: usize) -> u64;
        pub fn tap_write(rule: *const u8, rule_len: usize, out: *mut u8, out_len: usize) -> u64;
        pub fn tap_compile(file: *const u8, file_len: usize, out: *mut u8, out_len: usize) -> u64;
        pub fn tap_columns(plan: *const u8, plan_len: usize) -> u64;
        pub fn tap_run(
            plan: *const u8, plan_len: usize, rows: u32, values: *const i32, values_len: usize, budget: u32,
            quota: u32, out: *mut i32, out_len: usize, work: *mut i32, work_len: usize,
        ) -> u64;
        pub fn tap_run_each(
            plan: *const u8, plan_len: usize, rows: u32, values: *const i32, values_len: usize, budgets: *const u32,
            budgets_len: usize, quota: u32, out: *mut i32, out_len: usize, work: *mut i32, work_len: usize,
        ) -> u64;
        pub fn tap_find(
            result: *const i32, result_len: usize, work: *const i32, work_len: usize, rows: u32, quota: u32,
            columns: u32, row: u32,
        ) -> u64;
    }

    // the buffers' numbers in the answer of tap_find
    pub const IN_RESULT: u32 = 1;
    pub const IN_WORK: u32 = 2;
}

/// Buffers that are always long enough, in bytes.
pub const RULE_BYTES: usize = 4064;
pub const FILE_BYTES: usize = 4096;
pub const PLAN_BYTES: usize = 4642;

/// Where a record has its status and, after rounds and number of labels, the fault's place.
pub const STATUS: usize = 0;
pub const FAULT_PLACE: usize = 3;

/// The words of a record before its labels.
pub const RECORD_HEAD: usize = FAULT_PLACE + 1;

/// The words of a line before its columns: row, next block, rounds.
pub const LINE_HEAD: usize = 3;

/// The words of a row's record.
pub const fn record_words(quota: u32) -> usize {
    RECORD_HEAD + quota as usize
}

/// The words of an unfinished row's line, under a plan with so many [`columns`].
pub const fn line_words(columns: u32) -> usize {
    LINE_HEAD + columns as usize
}

/// Why a call changed nothing: docs/USING.md says what each number means.
#[derive(Clone, Copy, Debug, PartialEq, Eq)]
pub struct Refusal {
    pub number: u32,
    pub place: u32,
}

impl std::fmt::Display for Refusal {
    fn fmt(&self, f: &mut std::fmt::Formatter) -> std::fmt::Result {
        write!(f, "refused {} {}", self.number, self.place)
    }
}

impl std::error::Error for Refusal {}

fn halves(answer: u64) -> (u32, u32) {
    ((answer >> 32) as u32, answer as u32)
}

fn reply(answer: u64) -> Result<u32, Refusal> {
    match halves(answer) {
        (0, value) => Ok(value),
        (number, place) => Err(Refusal { number, place }),
    }
}

fn size(answer: u64) -> Result<usize, Refusal> {
    reply(answer).map(|bytes| bytes as usize)
}

// SAFETY, of every call: each pointer comes with its own slice's length, and a slice that is written is lent to nobody else.

/// A file's rule into `out`, and its size.
pub fn read(file: &[u8], out: &mut [u8]) -> Result<usize, Refusal> {
    size(unsafe { c::tap_read(file.as_ptr(), file.len(), out.as_mut_ptr(), out.len()) })
}

/// A rule's file into `out`, and its size.
pub fn write(rule: &[u8], out: &mut [u8]) -> Result<usize, Refusal> {
    size(unsafe { c::tap_write(rule.as_ptr(), rule.len(), out.as_mut_ptr(), out.len()) })
}

/// The plan of a file's rule into `out`, and its size.
pub fn compile(file: &[u8], out: &mut [u8]) -> Result<usize, Refusal> {
    size(unsafe { c::tap_compile(file.as_ptr(), file.len(), out.as_mut_ptr(), out.len()) })
}

/// How many columns the plan's lines have.
pub fn columns(plan: &[u8]) -> Result<u32, Refusal> {
    reply(unsafe { c::tap_columns(plan.as_ptr(), plan.len()) })
}

/// A batch's records into `out` and its table into `work`, and the most rounds of any row.
pub fn run(
    plan: &[u8], rows: u32, values: &[i32], budget: u32, quota: u32, out: &mut [i32], work: &mut [i32],
) -> Result<u32, Refusal> {
    reply(unsafe {
        c::tap_run(
            plan.as_ptr(), plan.len(), rows, values.as_ptr(), values.len(), budget, quota, out.as_mut_ptr(),
            out.len(), work.as_mut_ptr(), work.len(),
        )
    })
}

/// As [`run`], with a budget for each row.
pub fn run_each(
    plan: &[u8], rows: u32, values: &[i32], budgets: &[u32], quota: u32, out: &mut [i32], work: &mut [i32],
) -> Result<u32, Refusal> {
    reply(unsafe {
        c::tap_run_each(
            plan.as_ptr(), plan.len(), rows, values.as_ptr(), values.len(), budgets.as_ptr(), budgets.len(), quota,
            out.as_mut_ptr(), out.len(), work.as_mut_ptr(), work.len(),
        )
    })
}

/// A row's own words in the caller's buffers.
#[derive(Clone, Copy, Debug, PartialEq, Eq)]
pub enum Found<'a> {
    Record(&'a [i32]),
    /// the row is unfinished
    Line(&'a [i32]),
    Nowhere,
}

/// Where a row of a batch lies in the buffers of [`run`] or [`run_each`].
pub fn find<'a>(result: &'a [i32], work: &'a [i32], rows: u32, quota: u32, columns: u32, row: u32) -> Found<'a> {
    let answer = unsafe {
        c::tap_find(result.as_ptr(), result.len(), work.as_ptr(), work.len(), rows, quota, columns, row)
    };
    let (buffer, at) = halves(answer);
    match buffer {
        c::IN_RESULT => Found::Record(&result[at as usize..][..record_words(quota)]),
        c::IN_WORK => Found::Line(&work[at as usize..][..line_words(columns)]),
        _ => Found::Nowhere,
    }
}

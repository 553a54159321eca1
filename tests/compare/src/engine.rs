//! The engine's C interface as safe functions over slices.
//!
//! Nothing is tested before a call: slices of any length and any budget are
//! handed over, as a host may hand them over.

/// What `pi_check` and `pi_check_bytes` return, the header's `PiCheckReply`. Refusal 0:
/// the image passes, the value is the root's code or [`COMMAND`], and the place is 0.
/// Otherwise the paper's number and place, and the value is 0.
#[repr(C)]
#[derive(Clone, Copy, Debug, PartialEq, Eq)]
pub struct CheckReply {
    pub refusal: u64,
    pub value: u64,
    pub place: u64,
}

/// The value of a root that is a command.
pub const COMMAND: u64 = 8;

/// What `pi_run` and `pi_run_bytes` return, the header's `PiRunReply`. Refusal 0: the
/// run ended normally, the outcome is one of [`NONE`], [`NUMBER`], [`TRUTH`] and
/// [`CELL`], the value is the number as a two's complement word, 0 or 1, the cell's
/// number, or 0 for none, and the place is 0. Otherwise the paper's number and place,
/// and outcome and value are 0. Then the steps made, and the high marks: the most cells,
/// bindings, value entries and control entries over all states reached; steps and marks
/// are 0 for 1 to 22.
#[repr(C)]
#[derive(Clone, Copy, Debug, Default, PartialEq, Eq)]
pub struct RunReply {
    pub refusal: u64,
    pub outcome: u64,
    pub value: u64,
    pub place: u64,
    pub steps: u64,
    pub cells: u64,
    pub bindings: u64,
    pub values: u64,
    pub control: u64,
}

impl RunReply {
    /// The high marks in the order of the program's line, `most C B V K`.
    pub fn marks(&self) -> [u64; 4] {
        [self.cells, self.bindings, self.values, self.control]
    }
}

/// The outcomes of a run that ended normally.
pub const NONE: u64 = 0;
pub const NUMBER: u64 = 1;
pub const TRUTH: u64 = 2;
pub const CELL: u64 = 3;

/// What `pi_needs` returns, the header's `PiNeedsReply`. Refusal 0: the most control
/// entries, value entries, cells and bindings, and the most steps with open 0; where a Loop
/// is in the tree the steps are 0 and open is 1. Otherwise the paper's number and place, and
/// all others are 0.
#[repr(C)]
#[derive(Clone, Copy, Debug, Default, PartialEq, Eq)]
pub struct NeedsReply {
    pub refusal: u64,
    pub place: u64,
    pub control: u64,
    pub values: u64,
    pub cells: u64,
    pub bindings: u64,
    pub steps: u64,
    pub open: u64,
}

/// What `pi_page` returns, the header's `PiPageReply`. Refusal 0: the lines stand in the lent
/// page, and the place is 0. Otherwise the paper's number and place.
#[repr(C)]
#[derive(Clone, Copy, Debug, PartialEq, Eq)]
pub struct PageReply {
    pub refusal: u64,
    pub place: u64,
}

/// What `pi_ranges` returns, the header's `PiRangesReply`. Refusal 0: the ends stand in both
/// lists, and the place is 0. Otherwise the paper's number and place.
#[repr(C)]
#[derive(Clone, Copy, Debug, PartialEq, Eq)]
pub struct RangesReply {
    pub refusal: u64,
    pub place: u64,
}

extern "C" {
    fn pi_check(image: *const u32, image_len: usize, work: *mut u64, work_len: usize)
        -> CheckReply;

    fn pi_run(
        image: *const u32,
        image_len: usize,
        registers: *mut u64,
        registers_len: usize,
        budget: u64,
        work: *mut u64,
        work_len: usize,
    ) -> RunReply;

    fn pi_needs(image: *const u32, image_len: usize, work: *mut u64, work_len: usize)
        -> NeedsReply;

    fn pi_page(
        image: *const u32,
        image_len: usize,
        page: *mut u8,
        page_len: usize,
        work: *mut u64,
        work_len: usize,
    ) -> PageReply;

    fn pi_ranges(
        image: *const u32,
        image_len: usize,
        lowest: *mut i64,
        lowest_len: usize,
        highest: *mut i64,
        highest_len: usize,
        work: *mut u64,
        work_len: usize,
    ) -> RangesReply;

    fn pi_check_bytes(
        image: *const u8,
        image_len: usize,
        work: *mut u64,
        work_len: usize,
    ) -> CheckReply;

    fn pi_run_bytes(
        image: *const u8,
        image_len: usize,
        registers: *mut u8,
        registers_len: usize,
        budget: u64,
        work: *mut u64,
        work_len: usize,
    ) -> RunReply;
}

/// The engine's answer to an image.
pub fn check(image: &[u32], work: &mut [u64]) -> CheckReply {
    // Each pointer is its slice's own, and each length its slice's length.
    unsafe { pi_check(image.as_ptr(), image.len(), work.as_mut_ptr(), work.len()) }
}

/// The engine's run of an image over registers, each a two's complement word.
pub fn run(image: &[u32], registers: &mut [u64], budget: u64, work: &mut [u64]) -> RunReply {
    // Each pointer is its slice's own, and each length its slice's length.
    unsafe {
        pi_run(
            image.as_ptr(),
            image.len(),
            registers.as_mut_ptr(),
            registers.len(),
            budget,
            work.as_mut_ptr(),
            work.len(),
        )
    }
}

/// The engine's needs of an image.
pub fn needs(image: &[u32], work: &mut [u64]) -> NeedsReply {
    // Each pointer is its slice's own, and each length its slice's length.
    unsafe { pi_needs(image.as_ptr(), image.len(), work.as_mut_ptr(), work.len()) }
}

/// The engine's page of an image, in the lent bytes.
pub fn page(image: &[u32], page: &mut [u8], work: &mut [u64]) -> PageReply {
    // Each pointer is its slice's own, and each length its slice's length.
    unsafe {
        pi_page(
            image.as_ptr(),
            image.len(),
            page.as_mut_ptr(),
            page.len(),
            work.as_mut_ptr(),
            work.len(),
        )
    }
}

/// The engine's ranges of an image, in both lists.
pub fn ranges(
    image: &[u32],
    lowest: &mut [i64],
    highest: &mut [i64],
    work: &mut [u64],
) -> RangesReply {
    // Each pointer is its slice's own, and each length its slice's length.
    unsafe {
        pi_ranges(
            image.as_ptr(),
            image.len(),
            lowest.as_mut_ptr(),
            lowest.len(),
            highest.as_mut_ptr(),
            highest.len(),
            work.as_mut_ptr(),
            work.len(),
        )
    }
}

/// The engine's answer to an image of bytes.
pub fn check_bytes(image: &[u8], work: &mut [u64]) -> CheckReply {
    // Each pointer is its slice's own, and each length its slice's length.
    unsafe { pi_check_bytes(image.as_ptr(), image.len(), work.as_mut_ptr(), work.len()) }
}

/// The engine's run of an image of bytes over registers of 8 bytes each.
pub fn run_bytes(image: &[u8], registers: &mut [u8], budget: u64, work: &mut [u64]) -> RunReply {
    // Each pointer is its slice's own, and each length its slice's length.
    unsafe {
        pi_run_bytes(
            image.as_ptr(),
            image.len(),
            registers.as_mut_ptr(),
            registers.len(),
            budget,
            work.as_mut_ptr(),
            work.len(),
        )
    }
}

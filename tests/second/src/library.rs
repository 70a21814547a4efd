//! The library under test.

use crate::memory::Lent;
use crate::run::Input;

#[cfg(library)]
extern "C" {
    fn klumavec_run(
        sheet: *const u8,
        sheet_len: usize,
        arguments: *const u8,
        arguments_len: usize,
        input: *const u8,
        input_len: usize,
        loop_limit: u64,
        stack_limit: u64,
        budget: u64,
        result: *mut u8,
        result_len: usize,
        work: *mut u8,
        work_len: usize,
    ) -> u64;

    fn klumavec_graph(
        sheet: *const u8,
        sheet_len: usize,
        arguments: *const u8,
        arguments_len: usize,
        input: *const u8,
        input_len: usize,
        loop_limit: u64,
        stack_limit: u64,
        budget: u64,
        result: *mut u8,
        result_len: usize,
        work: *mut u8,
        work_len: usize,
        file: *mut u8,
        file_len: usize,
    ) -> u64;
}

/// Whether the library is linked in.
pub const LINKED: bool = cfg!(library);

/// The number the library returns for a run without a file. The memories are those of `lent`, the
/// limits those of `input`.
#[cfg(library)]
pub fn run(input: &Input, lent: &mut Lent) -> u64 {
    let (result_len, work_len) = (lent.result.inside().len(), lent.work.inside().len());
    // Sound as long as the library keeps to the lengths it is told: every pointer is to a memory of
    // that length which outlives the call, and the two that are written to are borrowed mutably.
    unsafe {
        klumavec_run(
            lent.sheet.inside().as_ptr(),
            lent.sheet.inside().len(),
            lent.arguments.inside().as_ptr(),
            lent.arguments.inside().len(),
            lent.input.inside().as_ptr(),
            lent.input.inside().len(),
            input.loop_limit,
            input.stack_limit,
            input.budget,
            lent.result.inside_mut().as_mut_ptr(),
            result_len,
            lent.work.inside_mut().as_mut_ptr(),
            work_len,
        )
    }
}

/// The same for a run with a file.
#[cfg(library)]
pub fn graph(input: &Input, lent: &mut Lent) -> u64 {
    let (result_len, work_len) = (lent.result.inside().len(), lent.work.inside().len());
    let file_len = lent.file.inside().len();
    // Sound for the same reason, with three memories that are written to.
    unsafe {
        klumavec_graph(
            lent.sheet.inside().as_ptr(),
            lent.sheet.inside().len(),
            lent.arguments.inside().as_ptr(),
            lent.arguments.inside().len(),
            lent.input.inside().as_ptr(),
            lent.input.inside().len(),
            input.loop_limit,
            input.stack_limit,
            input.budget,
            lent.result.inside_mut().as_mut_ptr(),
            result_len,
            lent.work.inside_mut().as_mut_ptr(),
            work_len,
            lent.file.inside_mut().as_mut_ptr(),
            file_len,
        )
    }
}

#[cfg(not(library))]
pub fn run(_: &Input, _: &mut Lent) -> u64 {
    unreachable!("nothing is compared without the library")
}

#[cfg(not(library))]
pub fn graph(_: &Input, _: &mut Lent) -> u64 {
    unreachable!("nothing is compared without the library")
}

//! The library under test, through its C function.

extern "C" {
    fn klumavec_run(
        sheet: *const u8,
        sheet_len: usize,
        arguments: *const u8,
        arguments_len: usize,
        input: *const u8,
        input_len: usize,
        loop_limit: u64,
        stack_limit: u64,
        budget: u64,
        result: *mut u8,
        result_len: usize,
        work: *mut u8,
        work_len: usize,
    ) -> u64;
}

pub struct Memories {
    result: Vec<u8>,
    work: Vec<u8>,
}

impl Memories {
    pub fn new() -> Memories {
        Memories { result: vec![0; 4096], work: vec![0; 65536] }
    }

    /// The result sheet, or a refusal's number and place.
    pub fn run(&mut self, sheet: &[u8], arguments: &[u8], input: &[u8], limits: (u64, u64, u64)) -> Result<&[u8], (u32, u32)> {
        let (s, a, i, r, w) = (sheet, arguments, input, &mut self.result, &mut self.work);
        let (loops, stack, budget) = limits;
        // Every pointer comes with the length of its own slice, and none of them overlap.
        let told = unsafe {
            klumavec_run(
                s.as_ptr(), s.len(), a.as_ptr(), a.len(), i.as_ptr(), i.len(),
                loops, stack, budget, r.as_mut_ptr(), r.len(), w.as_mut_ptr(), w.len(),
            )
        };
        match told >> 32 {
            0 => Ok(&self.result[..told as usize]),
            number => Err((number as u32, told as u32)),
        }
    }
}

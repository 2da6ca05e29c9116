//! The proved library.

/// Room for every answer.
pub const ROOM: usize = 16_384;

/// What any other task than those below returns.
pub const NO_TASK: usize = usize::MAX;

/// The first number that is no task; so are all after it.
pub const FIRST_UNKNOWN: u8 = 5;

#[derive(Clone, Copy, Debug, PartialEq, Eq)]
#[repr(u8)]
pub enum Task {
    Settle = 0,
    /// The sheet of a text's verdict, or the line of its refusal.
    Certify = 1,
    Check = 2,
    /// How long what `Certify` gives is.
    Length = 3,
    /// The line of a text's screening.
    Screen = 4,
}

extern "C" {
    fn zestanchor(task: u8, input: *const u8, input_len: usize, output: *mut u8, output_len: usize) -> usize;
}

/// What the library writes for an input.
pub fn call(task: Task, input: &[u8]) -> Vec<u8> {
    let mut output = vec![0; ROOM];
    let length = call_into(task as u8, input, &mut output);
    output.truncate(length);
    output
}

/// The same into given bytes: what the function returns.
pub fn call_into(task: u8, input: &[u8], output: &mut [u8]) -> usize {
    // SAFETY: the library reads `input` and writes `output` within the lengths given with them.
    unsafe { zestanchor(task, input.as_ptr(), input.len(), output.as_mut_ptr(), output.len()) }
}

//! Work of the proved code that is measured, from its static library.

extern "C" {
    fn measures_copy(bytes: *const u8, length: usize, houses: u8) -> u64;
    fn measures_call(
        lines: *const u8,
        lines_length: usize,
        ends: *const u32,
        ends_length: usize,
        again: *const u8,
        again_length: usize,
        times: u32,
        refused: &mut u64,
    ) -> u64;
    fn measures_hear(
        lines: *const u8,
        lines_length: usize,
        ends: *const u32,
        ends_length: usize,
        message: *const u8,
        message_length: usize,
        times: u32,
        refused: &mut u64,
    ) -> u64;
}

/// Lines for a house one after the other, and where each ends.
pub struct Told {
    text: Vec<u8>,
    ends: Vec<u32>,
}

impl Told {
    pub fn new(lines: &[String]) -> Told {
        let mut told = Told { text: Vec::new(), ends: Vec::new() };
        for line in lines {
            told.text.extend(line.as_bytes());
            told.ends.push(told.text.len() as u32);
        }
        told
    }
}

/// What came of lines and of what was done then.
#[derive(Clone, Copy, Debug, PartialEq, Eq)]
pub struct Done {
    /// How many of the lines were refused.
    pub refused: u64,
    /// The objects in the end, or the messages refused.
    pub left: u64,
}

/// A house is told lines, and then one more so many times.
pub fn call(told: &Told, again: &str, times: u32) -> Done {
    let mut refused = 0;
    let (text, ends) = (&told.text, &told.ends);
    // the library reads the three slices, and writes the count
    let left = unsafe {
        measures_call(
            text.as_ptr(),
            text.len(),
            ends.as_ptr(),
            ends.len(),
            again.as_ptr(),
            again.len(),
            times,
            &mut refused,
        )
    };
    Done { refused, left }
}

/// A house is told lines, and this message comes so many times.
pub fn hear(told: &Told, message: &[u8], times: u32) -> Done {
    let mut refused = 0;
    let (text, ends) = (&told.text, &told.ends);
    // the library reads the three slices, and writes the count
    let left = unsafe {
        measures_hear(
            text.as_ptr(),
            text.len(),
            ends.as_ptr(),
            ends.len(),
            message.as_ptr(),
            message.len(),
            times,
            &mut refused,
        )
    };
    Done { refused, left }
}

/// Reads a message and writes it anew; how many bytes it has.
pub fn copy(bytes: &[u8], houses: u8) -> u64 {
    // the library reads the slice
    unsafe { measures_copy(bytes.as_ptr(), bytes.len(), houses) }
}

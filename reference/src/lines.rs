//! Lines of an input of any length, without holding more than one line of the readable size.

use std::io::{BufRead, Result};

/// The length of the longest readable line, without its newline.
pub const LONGEST: usize = 65_536;

pub struct Lines<R> {
    input: R,
    /// Of the line that was read last; the first is 1.
    pub number: u64,
}

impl<R: BufRead> Lines<R> {
    pub fn new(input: R) -> Lines<R> {
        Lines { input, number: 0 }
    }

    /// The next line without its newline, or nothing at the end. Of a line longer than `LONGEST`
    /// only the first `LONGEST + 1` bytes are kept, so that its length still tells.
    pub fn next(&mut self, line: &mut Vec<u8>) -> Result<bool> {
        line.clear();
        let mut any = false;
        loop {
            let chunk = self.input.fill_buf()?;
            if chunk.is_empty() {
                return Ok(any);
            }
            self.number += u64::from(!any);
            any = true;
            let newline = chunk.iter().position(|&b| b == b'\n');
            let end = newline.unwrap_or(chunk.len());
            let kept = end.min(LONGEST + 1 - line.len());
            line.extend_from_slice(&chunk[..kept]);
            self.input.consume(newline.map_or(end, |at| at + 1));
            if newline.is_some() {
                return Ok(true);
            }
        }
    }
}

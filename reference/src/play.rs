//! Playing a trace, line by line.

use std::io::{BufRead, Result, Write};

use crate::events::{ask, step};
use crate::lines::Lines;
use crate::print;
use crate::state::Module;
use crate::trace::{read, Line};

pub fn play(input: impl BufRead, mut output: impl Write) -> Result<()> {
    let mut lines = Lines::new(input);
    let mut line = Vec::new();
    let mut module = Module::refused();
    while lines.next(&mut line)? {
        match read(&line) {
            Line::PassedOver => {}
            Line::Unreadable => writeln!(output, "error line {}", lines.number)?,
            Line::Ask(vcpu) => writeln!(output, "{}", print::asked(ask(&module, vcpu)))?,
            Line::State => output.write_all(print::state(&module).as_bytes())?,
            Line::Event(mut event) => {
                let answer = step(&mut module, &mut event);
                writeln!(output, "{}", print::answer(&event, &answer))?;
            }
        }
    }
    output.flush()
}

/// Plays a trace held in memory.
pub fn play_text(trace: &[u8]) -> String {
    let mut output = Vec::new();
    play(trace, &mut output).expect("memory does not fail");
    String::from_utf8(output).expect("the output is ASCII")
}

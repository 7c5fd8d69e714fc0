use std::io::{stderr, stdin, stdout, BufWriter, Error, ErrorKind, Result, Write};
use std::process::ExitCode;

use reference::coverage::Coverage;
use reference::demand3;
use reference::events::step;
use reference::generate::generate;
use reference::merging::Merging;
use reference::play::play;
use reference::sums_print;

const USAGE: &str = "usage: reference play < TRACE > OUTPUT
       reference generate SEED COUNT > TRACE
       reference check SEED COUNT
       reference coverage < OUTPUT
       reference merging < TRACE
       reference sums < TRACE";

fn main() -> ExitCode {
    let arguments: Vec<String> = std::env::args().skip(1).collect();
    match run(&arguments) {
        Ok(true) => ExitCode::SUCCESS,
        Ok(false) => ExitCode::from(1),
        Err(error) => {
            match error.raw_os_error() {
                Some(_) => say(&format!("reference: cannot read or write: {error}")),
                None => say(&error.to_string()),
            }
            ExitCode::from(2)
        }
    }
}

fn run(arguments: &[String]) -> Result<bool> {
    let words: Vec<&str> = arguments.iter().map(|word| word.as_str()).collect();
    match words.as_slice() {
        ["play"] => {
            let output = BufWriter::new(stdout().lock());
            as_far_as_read(play(stdin().lock(), output)).map(|()| true)
        }
        ["generate", seed, count] => {
            let (seed, count) = (number(seed)?, number(count)?);
            let mut output = BufWriter::new(stdout().lock());
            as_far_as_read(generate(seed, count as usize, &mut output)).map(|()| true)
        }
        ["check", seed, count] => check(number(seed)?, number(count)?),
        ["coverage"] => {
            let coverage = Coverage::of(stdin().lock())?;
            print(&coverage.report())?;
            Ok(coverage.complete())
        }
        ["merging"] => {
            let merging = Merging::of(stdin().lock())?;
            print(&merging.report())?;
            Ok(merging.missing().is_empty())
        }
        ["sums"] => sums(),
        _ => Err(Error::new(ErrorKind::InvalidInput, USAGE)),
    }
}

fn check(seed: u64, count: u64) -> Result<bool> {
    let checked = demand3::check(seed, count as usize, step);
    let holds = checked.is_ok();
    let verdict = checked.unwrap_or_else(|failed| failed);
    print(&format!("{verdict}\n"))?;
    Ok(holds)
}

/// The report names unreadable lines, and may go to a file: so standard error has them too.
fn sums() -> Result<bool> {
    let report = sums_print::report(stdin().lock(), step)?;
    print(&report.text)?;
    if report.unreadable.any() {
        let lines = report.unreadable.told();
        say(&format!(
            "reference: {lines}: these sums are not to be trusted"
        ));
    }
    Ok(report.can_be_trusted())
}

fn print(text: &str) -> Result<()> {
    let mut output = stdout().lock();
    as_far_as_read(
        output
            .write_all(text.as_bytes())
            .and_then(|()| output.flush()),
    )
}

/// Whoever reads the output may stop before its end, as `head` does: that is no failure.
fn as_far_as_read(written: Result<()>) -> Result<()> {
    match written {
        Err(error) if error.kind() == ErrorKind::BrokenPipe => Ok(()),
        written => written,
    }
}

/// On standard error; where that fails too nothing is left to be done.
fn say(text: &str) {
    let _ = writeln!(stderr(), "{text}");
}

fn number(word: &str) -> Result<u64> {
    word.parse()
        .map_err(|_| Error::new(ErrorKind::InvalidInput, USAGE))
}

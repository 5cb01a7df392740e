//! The reference, where it does not need too long. Its time for a rule with
//! three calls may be the product of the facts called, and so may its memory;
//! such inputs are first tried in a process of their own, which can be stopped.

use crate::input::Input;
use crate::lent::Sizes;
use reference::api::{self, Outcome};
use reference::domain::Domain;
use reference::{fixpoint, formats};
use std::io::{self, Read, Write};
use std::process::{Command, Stdio};
use std::thread::sleep;
use std::time::{Duration, Instant};

/// With no more facts than this, rules with so many calls are no matter.
const HARMLESS_FACTS: [usize; 4] = [usize::MAX, usize::MAX, 2_048, 128];

const LONGEST: Duration = Duration::from_secs(2);

/// The option by which this program is the process.
pub const OPTION: &str = "--try";

/// The reference's outcome, or nothing if it needs too long.
pub fn outcome(input: &Input, sizes: Sizes) -> Option<Outcome> {
    let ends = || ends_in_time(input, sizes).expect("this program can be run again");
    if doubtful(input, sizes) && !ends() {
        return None;
    }
    Some(decide(input, sizes))
}

fn decide(input: &Input, sizes: Sizes) -> Outcome {
    let [book, snapshot, question] = input.sections();
    api::decide(book, snapshot, question, sizes.lines, sizes.words)
}

fn doubtful(input: &Input, sizes: Sizes) -> bool {
    let Ok(problem) = formats::read(&input.book, &input.snapshot, &input.question) else {
        return false;
    };
    let calls = problem.rules.rules.iter().map(|rule| rule.calls.len());
    let harmless = HARMLESS_FACTS[calls.max().unwrap_or(0)];
    sizes == Sizes::of(sizes.lines)
        && sizes.lines > harmless
        && fixpoint::facts(&problem, &Domain::of(&problem), harmless).is_none()
}

fn ends_in_time(input: &Input, sizes: Sizes) -> io::Result<bool> {
    let mut child = Command::new(std::env::current_exe()?)
        .args([OPTION, &sizes.lines.to_string()])
        .stdin(Stdio::piped())
        .spawn()?;
    let mut pipe = child.stdin.take().expect("it was asked for");
    pipe.write_all(&input.bench_bytes())?;
    drop(pipe);
    let start = Instant::now();
    while child.try_wait()?.is_none() {
        if start.elapsed() > LONGEST {
            child.kill()?;
            child.wait()?;
            return Ok(false);
        }
        sleep(Duration::from_millis(1));
    }
    Ok(true)
}

/// The process, for a table of so many lines.
pub fn attempt(lines: &str) -> Option<()> {
    let mut bytes = Vec::new();
    io::stdin().read_to_end(&mut bytes).ok()?;
    decide(&Input::from_bench(&bytes), Sizes::of(lines.parse().ok()?));
    Some(())
}

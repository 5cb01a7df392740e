//! How long the proved program needs for an input. A call cannot be stopped from
//! within, so they are made in a process of their own, which can be: it is asked
//! one input after the other, and is ended and started anew after one that needs
//! too long.

use crate::input::Input;
use crate::interrupt;
use crate::lent::{self, About, Sizes};
use std::io::{self, BufRead, BufReader, Read, Write};
use std::process::{Child, ChildStdin, ChildStdout, Command, Stdio};
use std::sync::mpsc::{self, Receiver, RecvTimeoutError};
use std::thread;
use std::time::{Duration, Instant};

/// The option by which this program is the process.
pub const OPTION: &str = "--stopwatch";

/// What is called.
#[derive(Clone, Copy, Debug, PartialEq, Eq)]
pub enum Entry {
    Whole,
    SomePart,
    Walk,
}

impl Entry {
    pub const ALL: [Entry; 3] = [Entry::Whole, Entry::SomePart, Entry::Walk];

    pub fn name(self) -> &'static str {
        match self {
            Entry::Whole => About::Whole.entry(),
            Entry::SomePart => About::SomePart.entry(),
            Entry::Walk => "shapes_walk",
        }
    }
}

#[derive(Clone, Copy, Debug, Default)]
pub struct Timed {
    pub time: Duration,
    /// Refusal, verdict, facts and rounds; none if it was stopped, and then the
    /// time is what it was given.
    pub reply: Option<[u64; 4]>,
}

pub struct Stopwatch {
    lines: usize,
    patience: Duration,
    process: Option<Process>,
}

struct Process {
    child: Child,
    pipe: ChildStdin,
    answers: Receiver<Timed>,
}

impl Stopwatch {
    /// For a table of so many lines, and calls of no more than this time.
    pub fn new(lines: usize, patience: Duration) -> Stopwatch {
        Stopwatch {
            lines,
            patience,
            process: None,
        }
    }

    pub fn time(&mut self, entry: Entry, input: &Input) -> io::Result<Timed> {
        let mut process = match self.process.take() {
            Some(process) => process,
            None => Process::start(self.lines)?,
        };
        process.pipe.write_all(&[entry as u8])?;
        process.pipe.write_all(&input.bench_bytes())?;
        let answer = process.answer(self.patience, input)?;
        match answer {
            Some(_) => self.process = Some(process),
            None => process.end()?,
        }
        Ok(match answer {
            Some(timed) => timed,
            // It was stopped before its time.
            None if interrupt::came() => Timed::default(),
            None => Timed {
                time: self.patience,
                reply: None,
            },
        })
    }
}

impl Drop for Stopwatch {
    /// Without more to read, the process comes to its end.
    fn drop(&mut self) {
        if let Some(process) = self.process.take() {
            let Process {
                mut child, pipe, ..
            } = process;
            drop(pipe);
            let _ = child.wait();
        }
    }
}

/// How often a wish to end is looked for.
const LOOK: Duration = Duration::from_millis(100);

impl Process {
    fn start(lines: usize) -> io::Result<Process> {
        let mut child = Command::new(std::env::current_exe()?)
            .args([OPTION, &lines.to_string()])
            .stdin(Stdio::piped())
            .stdout(Stdio::piped())
            .spawn()?;
        let pipe = child.stdin.take().expect("it was asked for");
        let answers = listen(child.stdout.take().expect("it was asked for"));
        Ok(Process {
            child,
            pipe,
            answers,
        })
    }

    /// Nothing if it needs too long.
    fn answer(&self, patience: Duration, input: &Input) -> io::Result<Option<Timed>> {
        let start = Instant::now();
        while start.elapsed() < patience && !interrupt::came() {
            let left = patience.saturating_sub(start.elapsed());
            match self.answers.recv_timeout(LOOK.min(left)) {
                Ok(timed) => return Ok(Some(timed)),
                Err(RecvTimeoutError::Timeout) => {}
                Err(RecvTimeoutError::Disconnected) => {
                    return Err(io::Error::other(format!("no answer to {input:?}")))
                }
            }
        }
        Ok(None)
    }

    fn end(mut self) -> io::Result<()> {
        self.child.kill()?;
        self.child.wait().map(drop)
    }
}

/// A thread that reads the answers, so that they can be waited for.
fn listen(pipe: ChildStdout) -> Receiver<Timed> {
    let (sender, answers) = mpsc::channel();
    thread::spawn(move || {
        let lines = BufReader::new(pipe).lines();
        for timed in lines.map_while(|line| answer_of(&line.ok()?)) {
            if sender.send(timed).is_err() {
                return;
            }
        }
    });
    answers
}

fn answer_of(line: &str) -> Option<Timed> {
    let numbers: Result<Vec<u64>, _> = line.split_whitespace().map(str::parse).collect();
    let [nanos, reply @ ..] = &numbers.ok()?[..] else {
        return None;
    };
    Some(Timed {
        time: Duration::from_nanos(*nanos),
        reply: Some(reply.try_into().ok()?),
    })
}

/// The process, for a table of so many lines.
pub fn serve(lines: &str) -> Option<()> {
    interrupt::ignore();
    let sizes = Sizes::of(lines.parse().ok()?);
    let (mut table, mut space) = (vec![0; sizes.lines], vec![0; sizes.words]);
    let mut asked = io::stdin().lock();
    while let Some((entry, input)) = request(&mut asked) {
        let (time, [refusal, verdict, facts, rounds]) =
            measured(|| call(entry, &input, &mut table, &mut space));
        let nanos = time.as_nanos();
        println!("{nanos} {refusal} {verdict} {facts} {rounds}");
    }
    Some(())
}

fn request(from: &mut impl Read) -> Option<(Entry, Input)> {
    let mut entry = [0];
    from.read_exact(&mut entry).ok()?;
    let mut input = Input::default();
    for section in input.sections_mut() {
        let mut length = [0; 2];
        from.read_exact(&mut length).ok()?;
        section.resize(u16::from_le_bytes(length) as usize, 0);
        from.read_exact(section).ok()?;
    }
    Some((*Entry::ALL.get(entry[0] as usize)?, input))
}

/// One call is enough if it takes longer; else the fastest of three counts.
const SHORT: Duration = Duration::from_millis(10);

fn measured(mut call: impl FnMut() -> [u64; 4]) -> (Duration, [u64; 4]) {
    let (mut fastest, reply) = once(&mut call);
    for _ in 0..2 {
        if fastest < SHORT {
            fastest = fastest.min(once(&mut call).0);
        }
    }
    (fastest, reply)
}

fn once(call: &mut impl FnMut() -> [u64; 4]) -> (Duration, [u64; 4]) {
    let start = processor_time();
    let reply = std::hint::black_box(call());
    (processor_time() - start, reply)
}

/// Refusal, verdict, facts and rounds, of which the walk has but two.
fn call(entry: Entry, input: &Input, table: &mut [u64], space: &mut [u64]) -> [u64; 4] {
    let mut numbers = [0; 4];
    let about = match entry {
        Entry::Whole => About::Whole,
        Entry::SomePart => About::SomePart,
        Entry::Walk => {
            let refusal = lent::walk_on(input, &mut numbers[0]);
            return [refusal, numbers[0], 0, 0];
        }
    };
    let refusal = lent::decide_on(about, input, table, space, numbers.each_mut(), &mut 0);
    let [verdict, facts, rounds, _] = numbers;
    [refusal, verdict, facts, rounds]
}

#[repr(C)]
struct Clock {
    seconds: i64,
    nanos: i64,
}

/// The clock of this thread alone.
const THREAD: i32 = 3;

extern "C" {
    fn clock_gettime(which: i32, into: *mut Clock) -> i32;
}

/// The time that this thread was run: what else the machine does is not in it.
fn processor_time() -> Duration {
    let mut clock = Clock {
        seconds: 0,
        nanos: 0,
    };
    // The clock is as the call wants it, and stays until it is back.
    unsafe { clock_gettime(THREAD, &mut clock) };
    Duration::new(clock.seconds as u64, clock.nanos as u32)
}

//! Compares the proved program with the reference on many inputs.

mod again;
mod bench;
mod books;
mod chains;
mod changes;
mod climb;
mod climb_test;
mod climbed;
mod climber;
mod compare;
mod constant_books;
mod constant_use;
mod constants;
mod constants_test;
mod costly;
mod damage;
mod desk;
mod differences;
mod generate;
mod grow;
mod hostile;
mod input;
mod interrupt;
mod judge;
mod lent;
mod links;
mod long;
mod mutate;
mod nearly;
mod nil;
mod nil_tally;
mod nil_test;
mod parts;
mod patience;
mod plain;
mod plain_tally;
mod plain_test;
mod plainness;
mod pools;
mod random;
mod readback;
mod selftest;
mod shapes;
mod sizes;
mod small;
mod spellings;
mod split;
mod starts;
mod steps;
mod stopwatch;
mod strangers;
mod tally;
mod trying;
mod twins;
mod unfoldings;
mod walk;
mod walk_bench;
mod walk_test;

use compare::{Comparer, Limit};
use input::Input;
use std::path::{Path, PathBuf};
use std::process::ExitCode;
use std::time::{Duration, SystemTime, UNIX_EPOCH};

const USAGE: &str = "usage: compare [--seed N] [--long [COUNT | SECONDSs]] [--thin N]
               [--pool NAME] [--program PATH | --no-program] [--exact]
       compare --bench [POOL...]
       compare --names [walk]
       compare --once POOL proved|lent|part|reference|walk|reference_walk
       compare --input [--lent LINES WORDS] [--dirt N] [--part N]
               BOOK SNAPSHOT QUESTION [UNFOLDING]   (in hex, - for none)
       compare --climb SECONDS [--seed N] [--lines N] [--above MILLISECONDS] [--out FOLDER]
       compare --self-test
       compare --write-hostile";

/// The gate's seed: any number will do, as long as it stays.
const FIXED_SEED: u64 = 1;

const LONG_COUNT: u64 = 1_000_000;

struct Options {
    seed: Option<u64>,
    long: Option<Limit>,
    thin: u64,
    /// How the names of the pools to be run begin.
    pool: String,
    program: Option<PathBuf>,
    /// Words around the lent memory.
    around: usize,
}

fn main() -> ExitCode {
    let words: Vec<String> = std::env::args().skip(1).collect();
    let words: Vec<&str> = words.iter().map(String::as_str).collect();
    let done = match words.split_first() {
        Some((&"--bench", names)) => bench::run(names).is_ok(),
        Some((&"--names", [])) => names(&bench::pools()),
        Some((&"--names", ["walk"])) => names(&walk_bench::pools()),
        Some((&"--once", [name, which])) => bench::once(name, which).is_some(),
        Some((&"--input", words)) => again::run(words).is_some(),
        Some((&"--self-test", [])) => return ExitCode::from(!selftest::run() as u8),
        Some((&"--write-hostile", [])) => hostile::write().is_ok(),
        Some((&"--climb", words)) => climb::run(words, seed_of_the_hour()).is_some(),
        Some((&patience::OPTION, [lines])) => patience::attempt(lines).is_some(),
        Some((&stopwatch::OPTION, [lines])) => stopwatch::serve(lines).is_some(),
        _ => match options(&words) {
            Some(options) => return compare_all(options),
            None => false,
        },
    };
    if done {
        ExitCode::SUCCESS
    } else {
        eprintln!("{USAGE}");
        ExitCode::from(2)
    }
}

fn names(pools: &[(String, Input)]) -> bool {
    pools.iter().for_each(|(name, _)| println!("{name}"));
    true
}

fn options(words: &[&str]) -> Option<Options> {
    let mut options = Options {
        seed: None,
        long: None,
        thin: 1,
        pool: String::new(),
        program: Some(Path::new(env!("CARGO_MANIFEST_DIR")).join("../crates/bench/out/bench")),
        around: lent::AROUND,
    };
    let mut words = words.iter().peekable();
    while let Some(&word) = words.next() {
        match word {
            "--seed" => options.seed = Some(words.next()?.parse().ok()?),
            "--long" => {
                let amount = words.next_if(|word| !word.starts_with("--"));
                options.long =
                    Some(amount.map_or(Some(Limit::Inputs(LONG_COUNT)), |word| limit(word))?);
            }
            "--thin" => options.thin = words.next()?.parse().ok().filter(|&thin| thin > 0)?,
            "--pool" => options.pool = words.next()?.to_string(),
            "--program" => options.program = Some(PathBuf::from(words.next()?)),
            "--no-program" => options.program = None,
            "--exact" => options.around = 0,
            _ => return None,
        }
    }
    Some(options)
}

/// A count of inputs, or seconds with an s behind.
fn limit(word: &str) -> Option<Limit> {
    match word.strip_suffix('s') {
        Some(seconds) => Some(Limit::Time(Duration::from_secs(seconds.parse().ok()?))),
        None => Some(Limit::Inputs(word.parse().ok()?)),
    }
}

fn compare_all(options: Options) -> ExitCode {
    let mut comparer = Comparer::new(options.program, options.thin, options.around);
    match options.long {
        None => {
            let seed = options.seed.unwrap_or(FIXED_SEED);
            pools::once(&mut comparer, seed, &options.pool);
        }
        Some(limit) => {
            let seed = options.seed.unwrap_or_else(seed_of_the_hour);
            println!("seed {seed}");
            pools::long(&mut comparer, seed, limit);
        }
    }
    comparer.tally.print();
    // Of some pools alone, no kind is asked for.
    let missing = match options.pool.as_str() {
        "" => comparer.missing(),
        _ => Vec::new(),
    };
    for kind in &missing {
        println!("too few inputs: {kind}");
    }
    println!("{}", comparer.summary());
    ExitCode::from((comparer.differences > 0 || !missing.is_empty()) as u8)
}

/// A seed that nobody chose.
fn seed_of_the_hour() -> u64 {
    let now = SystemTime::now().duration_since(UNIX_EPOCH);
    now.map_or(FIXED_SEED, |time| time.as_secs())
}

//! Inputs made to cost time, as they are kept: files, each as the bench program
//! reads it, with what the reference said to them.

use crate::costly;
use crate::input::Input;
use crate::judge::fingerprint;
use crate::lent::{Sizes, MOST_LINES};
use crate::long;
use reference::api::{self, Reply};
use std::fs;
use std::io;
use std::path::{Path, PathBuf};

/// A kept input, with what the reference said.
pub struct Hostile {
    pub name: String,
    pub input: Input,
    pub reply: Reply,
    /// The fingerprint of the table's facts.
    pub print: u64,
}

fn folder() -> PathBuf {
    Path::new(env!("CARGO_MANIFEST_DIR")).join("hostile")
}

/// Those that are asked in the longest table alone.
fn long_folder() -> PathBuf {
    folder().join("long")
}

/// A line for each file: name, refusal, verdict, facts, rounds, and the
/// fingerprint of the facts.
const REPLIES: &str = "replies.txt";

/// All that are kept, with the replies for the desk's table.
pub fn kept() -> io::Result<Vec<Hostile>> {
    kept_in(&folder())
}

/// All that are kept with the replies for the longest table.
pub fn kept_long() -> io::Result<Vec<Hostile>> {
    kept_in(&long_folder())
}

fn kept_in(folder: &Path) -> io::Result<Vec<Hostile>> {
    let replies = fs::read_to_string(folder.join(REPLIES))?;
    let one = |line| kept_one(folder, line);
    replies.lines().map(one).collect()
}

fn kept_one(folder: &Path, line: &str) -> io::Result<Hostile> {
    let mut words = line.split_whitespace();
    let name = words.next().unwrap_or_default().to_string();
    let numbers: Result<Vec<u64>, _> = words.map(str::parse).collect();
    let Ok(&[refusal, verdict, facts, rounds, print]) = numbers.as_deref() else {
        return Err(io::Error::other(format!("{REPLIES}: {line}")));
    };
    let bytes = fs::read(folder.join(&name).with_extension("bin"))?;
    Ok(Hostile {
        name,
        input: Input::from_bench(&bytes),
        reply: Reply {
            refusal: refusal as u32,
            verdict: verdict as u32,
            facts: facts as usize,
            rounds: rounds as usize,
            lines: 0,
        },
        print,
    })
}

/// Writes the files anew, with the reference's replies to those that changed.
pub fn write() -> io::Result<()> {
    write_in(&folder(), costly::made(), Sizes::OWN)?;
    write_in(&long_folder(), long::made(), Sizes::of(MOST_LINES))?;
    for (name, input) in long::without_reply() {
        write_one(&long_folder(), name, &input)?;
    }
    Ok(())
}

fn write_one(folder: &Path, name: &str, input: &Input) -> io::Result<()> {
    let file = folder.join(name).with_extension("bin");
    fs::write(file, input.bench_bytes())
}

fn write_in(folder: &Path, made: Vec<(&'static str, Input)>, sizes: Sizes) -> io::Result<()> {
    fs::create_dir_all(folder)?;
    let kept = kept_in(folder).unwrap_or_default();
    let mut replies = String::new();
    for (name, input) in made {
        let same = kept
            .iter()
            .find(|kept| kept.name == name && kept.input == input);
        let (reply, print) =
            same.map_or_else(|| asked(&input, sizes), |kept| (kept.reply, kept.print));
        let Reply {
            refusal,
            verdict,
            facts,
            rounds,
            ..
        } = reply;
        write_one(folder, name, &input)?;
        replies.push_str(&format!(
            "{name} {refusal} {verdict} {facts} {rounds} {print}\n"
        ));
    }
    fs::write(folder.join(REPLIES), replies)
}

/// What the reference says, however long it needs.
fn asked(input: &Input, sizes: Sizes) -> (Reply, u64) {
    let [book, snapshot, question] = input.sections();
    let outcome = api::decide(book, snapshot, question, sizes.lines, sizes.words);
    let table = outcome.memory.map_or_else(Vec::new, |memory| memory.table);
    (outcome.reply, fingerprint(&table[..outcome.reply.facts]))
}

//! One input, asked again as a difference prints it.

use crate::compare::number_line;
use crate::desk;
use crate::input::{from_hex, Input};
use crate::judge::{self, Expected, Table};
use crate::lent::{self, Manner, Sizes, AROUND};
use crate::nil;
use crate::parts;
use crate::trying;
use crate::twins::{Asked, Replies};
use crate::unfoldings::words_of;
use crate::walk;
use reference::api;
use std::str::FromStr;

/// Says what both programs say.
pub fn run(words: &[&str]) -> Option<()> {
    let (sizes, words) = sizes(words)?;
    let (dirt, words) = number("--dirt", words)?;
    let (part, words) = number("--part", words)?;
    let bytes = |word: &&str| from_hex(if *word == "-" { "" } else { word });
    let sections: Option<Vec<Vec<u8>>> = words.iter().map(bytes).collect();
    let mut sections = sections?.into_iter();
    let input = Input {
        book: sections.next()?,
        snapshot: sections.next()?,
        question: sections.next()?,
    };
    let manner = Manner {
        around: AROUND,
        dirt: dirt.unwrap_or(u64::MAX),
    };
    let unfolding = sections.next();
    match &unfolding {
        None => decide(&input, sizes, manner),
        Some(unfolding) => check(&input, part, unfolding, manner),
    }
    let asked = Asked {
        sizes,
        manner,
        words: words_of(&unfolding.unwrap_or_default()),
        part: part.unwrap_or(0),
    };
    spellings(&input, &asked);
    Some(())
}

/// The proved program with every nil as 0, and as it is written here.
fn spellings(input: &Input, asked: &Asked) {
    let zeros = Replies::of(&nil::spelt(input, 0), asked);
    println!("both spellings of nil");
    match zeros.same(&Replies::of(input, asked)) {
        Ok(()) => println!("  proved    the same as with 0"),
        Err(wrong) => println!("  wrong     {wrong}"),
    }
}

fn sizes<'a, 'b>(words: &'a [&'b str]) -> Option<(Sizes, &'a [&'b str])> {
    let ["--lent", lines, words, rest @ ..] = words else {
        return Some((Sizes::OWN, words));
    };
    let (lines, words) = (lines.parse().ok()?, words.parse().ok()?);
    Some((Sizes { lines, words }, rest))
}

/// The number after this word, if the words begin so.
fn number<'a, 'b, T: FromStr>(
    name: &str,
    words: &'a [&'b str],
) -> Option<(Option<T>, &'a [&'b str])> {
    match words {
        [word, number, rest @ ..] if *word == name => Some((Some(number.parse().ok()?), rest)),
        _ => Some((None, words)),
    }
}

fn decide(input: &Input, sizes: Sizes, manner: Manner) {
    let [book, snapshot, question] = input.sections();
    let expected = api::desk_engine(book, snapshot, question) as u64;
    print(
        "desk_decide",
        expected,
        desk::decide(book, snapshot, question),
    );
    let outcome = api::decide(book, snapshot, question, sizes.lines, sizes.words);
    let (reply, table) = (outcome.reply, Table::of(&outcome));
    let parts = parts::fitting(input, table.facts(reply));
    lend(input, sizes, manner, Expected::whole(reply, table));
    lend(
        input,
        sizes,
        manner,
        Expected::some_part(reply, table, &parts),
    );
    walk(input, &walk::Expected::of(input, reply), manner);
}

fn walk(input: &Input, expected: &walk::Expected, manner: Manner) {
    let walked = lent::walk(input, manner);
    println!("shapes_walk");
    println!(
        "  reference refusal {} verdict {}, engine {:?}",
        expected.reply.refusal, expected.reply.verdict, expected.engine
    );
    println!(
        "  plain     against it {:?}, by trying {:?}",
        expected.faults,
        trying::faults(&input.book)
    );
    match walk::judged(input, expected, &walked) {
        Ok(yes) => println!("  proved    right, with verdict {}", yes as u32),
        Err(wrong) => println!("  wrong     {wrong}"),
    }
}

fn lend(input: &Input, sizes: Sizes, manner: Manner, expected: Expected) {
    let answer = lent::decide(expected.about(), input, sizes, manner);
    println!("{}", expected.about().entry());
    print!("  reference {}", api::bench_line(expected.reply));
    if let Some(parts) = expected.parts {
        println!("  parts     {parts:?}");
    }
    match judge::decided(input, &expected, &answer) {
        Ok(lines) => println!("  proved    the same, with {} lines", lines.len()),
        Err(wrong) => println!("  wrong     {wrong}"),
    }
}

fn check(input: &Input, part: Option<u16>, unfolding: &[u8], manner: Manner) {
    let [book, snapshot, question] = input.sections();
    let expected = api::desk_check(book, snapshot, question, unfolding) as u64;
    let answer = desk::check(book, snapshot, question, unfolding);
    print("desk_check", expected, answer);
    let words = words_of(unfolding);
    check_words(None, input, &words, manner);
    if part.is_some() {
        check_words(part, input, &words, manner);
    }
}

fn check_words(part: Option<u16>, input: &Input, words: &[u64], manner: Manner) {
    let expected = judge::reference_check(part, input, words);
    println!("{}", lent::check_entry(part));
    println!("  reference refusal {} taken {}", expected.0, expected.1);
    match judge::checked(expected, words, &lent::check(part, input, words, manner)) {
        Ok(()) => println!("  proved    the same"),
        Err(wrong) => println!("  wrong     {wrong}"),
    }
}

fn print(name: &str, expected: u64, answer: u64) {
    println!("{name}");
    println!("  reference {}", number_line(expected));
    println!("  proved    {}", number_line(answer));
}

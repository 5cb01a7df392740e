//! The bench program: its input, its line, and the program itself.

mod common;

use common::*;
use reference::api::{bench, bench_parts, HOUSE};
use reference::formats;
use std::io::Write;
use std::process::{Command, Stdio};

fn input(parts: [&[u8]; 3]) -> Vec<u8> {
    let mut bytes = Vec::new();
    for part in parts {
        bytes.extend((part.len() as u16).to_le_bytes());
        bytes.extend(part);
    }
    bytes
}

fn ring_of_two() -> (Vec<u8>, Vec<u8>) {
    (
        snapshot(&[(10, &[20]), (20, &[10])]),
        question(0, &[10, 10]),
    )
}

#[test]
fn the_line_for_case_6() {
    let (snapshot, question) = ring_of_two();
    let bytes = input([&book_l(), &snapshot, &question]);
    assert_eq!(
        bench(&bytes),
        "refusal 0 verdict 1 facts 10 rounds 3 lines 3\n"
    );
}

#[test]
fn an_empty_book_part_is_the_house_book() {
    assert!(formats::read_rule_set(&HOUSE).is_ok());
    let (snapshot, question) = (snapshot(&[(10, &[0])]), question(2, &[10, 0]));
    let line = "refusal 0 verdict 1 facts 9 rounds 3 lines 3\n";
    assert_eq!(bench(&input([&[], &snapshot, &question])), line);
    assert_eq!(bench(&input([&HOUSE, &snapshot, &question])), line);
    // Elsewhere an empty book is simply too short.
    assert_eq!(reference::api::desk_engine(&[], &snapshot, &question), 2);
}

#[test]
fn missing_bytes() {
    let nothing: [&[u8]; 3] = [&[]; 3];
    assert_eq!(bench_parts(&[]), nothing);
    assert_eq!(bench_parts(&[5]), nothing);
    assert_eq!(bench_parts(&[5, 0]), nothing);
    assert_eq!(bench_parts(&[0, 0, 9]), nothing);
    // The house book, and then a snapshot without its first byte.
    let five = "refusal 5 verdict 0 facts 0 rounds 0 lines 0\n";
    assert_eq!(bench(&[]), five);
    assert_eq!(bench(&[7]), five);
    assert_eq!(
        bench(&[0, 0, 1, 0, 0]),
        "refusal 9 verdict 0 facts 0 rounds 0 lines 0\n"
    );
}

#[test]
fn lengths_beyond_the_input() {
    let parts: [&[u8]; 3] = [&[7, 8], &[], &[]];
    assert_eq!(bench_parts(&[3, 0, 7, 8]), parts);
    assert_eq!(bench_parts(&[255, 255, 7, 8]), parts);
    let parts: [&[u8]; 3] = [&[7], &[8, 9], &[]];
    assert_eq!(bench_parts(&[1, 0, 7, 200, 0, 8, 9]), parts);
    // The last part may be announced too long: it is still whole.
    let (snapshot, question) = ring_of_two();
    let mut bytes = input([&book_l(), &snapshot, &question]);
    let place = bytes.len() - question.len() - 1;
    bytes[place] = 0xff;
    assert_eq!(
        bench(&bytes),
        "refusal 0 verdict 1 facts 10 rounds 3 lines 3\n"
    );
}

#[test]
fn the_high_byte_counts() {
    let mut bytes = vec![0x2c, 0x01];
    bytes.extend([1; 300]);
    bytes.extend([1, 0, 2]);
    let [book, snapshot, question] = bench_parts(&bytes);
    assert_eq!((book.len(), snapshot, question.len()), (300, &[2][..], 0));
}

#[test]
fn later_bytes_are_ignored() {
    let (snapshot, question) = ring_of_two();
    let mut bytes = input([&book_l(), &snapshot, &question]);
    bytes.extend([0xee; 9000]);
    assert_eq!(
        bench(&bytes),
        "refusal 0 verdict 1 facts 10 rounds 3 lines 3\n"
    );
}

#[test]
fn no_more_than_4096_bytes() {
    let mut bytes = vec![0xff, 0xff];
    bytes.extend([1; 9000]);
    let [book, snapshot, question] = bench_parts(&bytes);
    assert_eq!((book.len(), snapshot.len(), question.len()), (4094, 0, 0));
    // The next length falls just at the end of what is read.
    let mut bytes = vec![0xfd, 0x0f];
    bytes.extend([1; 4093]);
    bytes.extend([2, 0, 5, 5]);
    let [book, snapshot, question] = bench_parts(&bytes);
    assert_eq!((book.len(), snapshot.len(), question.len()), (4093, 0, 0));
}

#[test]
fn the_table_of_the_bench_has_1024_lines() {
    // P(a,b) for any values over 32 kept ones, then over 33.
    let book = [1, 2, 0, 1, 0, 0, 0, 0, 0];
    for (values, line) in [
        (27, "refusal 0 verdict 0 facts 1024 rounds 1 lines 0\n"),
        (28, "refusal 11 verdict 0 facts 0 rounds 0 lines 0\n"),
    ] {
        // Kept: 0, two spares, the query's 100, and the rest in the pool.
        let numbers: Vec<u32> = (0..values).map(|value| 200 + value).collect();
        let mut records: Vec<(u32, &[u32])> = vec![(199, &numbers[..1])];
        for (index, four) in numbers[1..].chunks(4).enumerate() {
            let address = 200 + index as u32;
            records.push((address, four));
        }
        let bytes = input([&book, &snapshot(&records), &question(0, &[100, 100])]);
        assert_eq!(bench(&bytes), line);
    }
}

#[test]
fn the_program_itself() {
    let run = |input: &[u8]| {
        let mut child = Command::new(env!("CARGO_BIN_EXE_reference"))
            .stdin(Stdio::piped())
            .stdout(Stdio::piped())
            .spawn()
            .unwrap();
        child.stdin.take().unwrap().write_all(input).unwrap();
        child.wait_with_output().unwrap().stdout
    };
    let (snapshot, question) = ring_of_two();
    let bytes = input([&book_l(), &snapshot, &question]);
    assert_eq!(
        run(&bytes),
        b"refusal 0 verdict 1 facts 10 rounds 3 lines 3\n"
    );
    assert_eq!(run(&[]), b"refusal 5 verdict 0 facts 0 rounds 0 lines 0\n");
    let long = [bytes, vec![0; 5000]].concat();
    assert_eq!(
        run(&long),
        b"refusal 0 verdict 1 facts 10 rounds 3 lines 3\n"
    );
}

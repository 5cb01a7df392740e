//! Further records about a pool that fits, so that it is only a part.

use crate::input::{Heap, Record};
use crate::nil::END_MARK;
use crate::random::Dice;

/// The pool with so many more records, which point at anything, and the part
/// that it is then. They have as many fields as the weights say.
pub fn add(dice: &mut Dice, heap: &Heap, more: usize, field_weights: &[usize; 5]) -> (Heap, u16) {
    let own: Vec<u32> = heap.records.iter().map(|record| record.address).collect();
    let mut taken = own.clone();
    let mut values = heap.values();
    let mut records = heap.records.clone();
    while taken.len() < own.len() + more {
        let address = address(dice, &values);
        if address == 0 || address == END_MARK || taken.contains(&address) {
            continue;
        }
        taken.push(address);
        values.push(address);
        let fields = dice.weighted(field_weights);
        let fields = (0..fields).map(|_| dice.pick(&values)).collect();
        records.push(Record { address, fields });
    }
    records.sort();
    let bit = |record: &Record| own.contains(&record.address) as u16;
    let part = records
        .iter()
        .rev()
        .fold(0, |part, record| part << 1 | bit(record));
    (Heap { records }, part)
}

/// One that the pool's fields name already, one near by, or any.
fn address(dice: &mut Dice, values: &[u32]) -> u32 {
    match dice.below(3) {
        0 => dice.pick(values),
        1 => dice.pick(values).wrapping_add(dice.below(9) as u32),
        _ => dice.value(),
    }
}

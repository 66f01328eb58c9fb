//! Pads may hold anything, on generated tables of either byte order and through
//! the library's calls alone: with other pads a table has the same answers and
//! leaves the same memory, and of a join only these pads differ.

use second::calls;
use second::cases::{self, Numbers, Regions, Section};
use second::reference::ByteOrder;

/// Generated cases of each law.
const CASES: u64 = 60_000;

/// A well-formed table with its sections, and the same table with other pads.
struct Pair {
    sections: Vec<Section>,
    table: Vec<u8>,
    other: Vec<u8>,
}

impl Pair {
    /// A pair that differs in some pad byte, or `None` where no pad changed.
    fn made(numbers: &mut Numbers, regions: &Regions, order: ByteOrder) -> Option<Pair> {
        let sections = cases::sections(numbers, regions);
        let entry = cases::entry(numbers, regions);
        let table = cases::table_of(entry, &sections, order);
        let mut other = table.clone();
        cases::change_pads(numbers, &mut other, &sections);
        (other != table).then_some(Pair {
            sections,
            table,
            other,
        })
    }
}

/// Judges and loads both tables of a pair, whose answers and memory must be
/// equal, and answers the number and the place, and whether memory changed.
fn same(
    numbers: &mut Numbers,
    regions: &Regions,
    table: &[u8],
    other: &[u8],
    order: ByteOrder,
) -> (u64, u64, bool) {
    let before = numbers.bytes(regions.memory_size() as usize);
    let mut memory = before.clone();
    let mut other_memory = before.clone();
    let answer = calls::load(&regions.map, table, order, &mut memory);
    let other_answer = calls::load(&regions.map, other, order, &mut other_memory);
    assert_eq!(answer, other_answer, "{table:02x?} and {other:02x?}");
    assert_eq!(memory, other_memory, "{table:02x?} and {other:02x?}");
    assert_eq!(calls::judge(&regions.map, table, order), answer);
    assert_eq!(calls::judge(&regions.map, other, order), answer);
    if answer.number != 0 {
        assert_eq!(memory, before, "memory after a refusal");
    }
    (answer.number, answer.place, memory != before)
}

#[test]
fn other_pads_change_no_answer_and_no_memory() {
    let mut numbers = Numbers::new(cases::seed(), 50);
    let (mut pairs, mut stored, mut not_open, mut repeated) = (0, 0, 0, 0);
    for _ in 0..CASES {
        let regions = cases::lendable_map(&mut numbers);
        let order = numbers.order();
        let Some(pair) = Pair::made(&mut numbers, &regions, order) else {
            continue;
        };
        let (number, _, changed) = same(&mut numbers, &regions, &pair.table, &pair.other, order);
        // The form is right, so a section is not open, an address of kind 3 is
        // stored twice, or nothing is refused.
        assert!(matches!(number, 0 | 9 | 29), "number {number}");
        pairs += 1;
        stored += u64::from(changed);
        not_open += u64::from(number == 9);
        repeated += u64::from(number == 29);
    }
    // Some pad changed; memory changed; an address was not open, or repeated.
    println!("other pads: {pairs} pairs, {stored} stored, {not_open} and {repeated} refused");
    assert!(pairs >= CASES / 2);
    assert!(stored >= CASES / 10 && not_open >= CASES / 10);
    assert!(repeated >= CASES / 50);
}

#[test]
fn other_pads_change_no_fault_behind_them() {
    let mut numbers = Numbers::new(cases::seed(), 51);
    let mut hits = [0; 9];
    for _ in 0..CASES {
        let regions = cases::lendable_map(&mut numbers);
        let order = numbers.order();
        let Some(pair) = Pair::made(&mut numbers, &regions, order) else {
            continue;
        };
        let sections_end = pair.table.len() - 4;
        let (bytes, number, place) = cases::fault(&mut numbers, order);
        let table = [&pair.table[..sections_end], &bytes].concat();
        let other = [&pair.other[..sections_end], &bytes].concat();
        let (found, at, _) = same(&mut numbers, &regions, &table, &other, order);
        assert_eq!((found, at), (number, sections_end as u64 + place));
        hits[number as usize] += 1;
    }
    println!("other pads before a fault: {hits:?}");
    for number in [5, 7, 8] {
        assert!(hits[number] >= CASES / 20, "{hits:?}");
    }
}

#[test]
fn other_pads_stand_in_the_join_and_nothing_else_changes() {
    let mut numbers = Numbers::new(cases::seed(), 52);
    let mut pairs = 0;
    for _ in 0..CASES {
        let regions = cases::lendable_map(&mut numbers);
        let order = numbers.order();
        let first = Pair::made(&mut numbers, &regions, order);
        let second = Pair::made(&mut numbers, &regions, order);
        let (Some(first), Some(second)) = (first, second) else {
            continue;
        };
        let length = first.table.len() + second.table.len() - 8;
        let room = length + numbers.pick(&[0, 1, 4, 33]);
        let mut output = numbers.bytes(room);
        let mut other = output.clone();
        let answer = calls::join(&first.table, &second.table, order, &mut output);
        assert_eq!((answer.number, answer.length), (0, length as u64));
        assert_eq!(
            calls::join(&first.other, &second.other, order, &mut other),
            answer
        );
        // The first's sections keep their offsets; the second's stand behind
        // them, the first's length less 8 further on.
        for at in cases::pad_offsets(&first.sections) {
            output[at] = first.other[at];
        }
        for at in cases::pad_offsets(&second.sections) {
            output[first.table.len() - 8 + at] = second.other[at];
        }
        assert_eq!(other, output);
        pairs += 1;
    }
    println!("other pads in a join: {pairs} pairs");
    assert!(pairs >= CASES / 4);
}

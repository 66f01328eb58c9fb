//! The laws of demand 3 on generated tables, through the library's calls
//! alone: joining means loading in turn, the join of three tables, and the
//! swap of two sections. Which addresses of kind 3 two tables both store is read
//! from their sections by the reference. All tables of a case have one byte
//! order, high first in about half of the cases and low first in the others.

use second::calls;
use second::cases::{self, Numbers, Regions, Section};
use second::reference::{self, ByteOrder, LoadAnswer, Record};
use std::collections::HashSet;

/// Generated cases of each law.
const CASES: u64 = 60_000;

/// A sound map whose memory can be lent.
fn regions(numbers: &mut Numbers) -> Regions {
    let regions = cases::lendable_map(numbers);
    assert_eq!(calls::map(&regions.map).bytes, regions.memory_size());
    regions
}

/// Whether any pad of the sections is not zero.
fn has_nonzero_pads(sections: &[Section]) -> bool {
    sections
        .iter()
        .any(|section| section.pads.iter().any(|pad| *pad != 0))
}

/// A well-formed table, its entry and its sections.
struct Table {
    entry: u32,
    sections: Vec<Section>,
    bytes: Vec<u8>,
}

impl Table {
    /// A table of sections with a generated entry.
    fn of(
        numbers: &mut Numbers,
        regions: &Regions,
        order: ByteOrder,
        sections: Vec<Section>,
    ) -> Table {
        let entry = cases::entry(numbers, regions);
        let bytes = cases::table_of(entry, &sections, order);
        Table {
            entry,
            sections,
            bytes,
        }
    }
}

fn made(numbers: &mut Numbers, regions: &Regions, order: ByteOrder) -> Table {
    let sections = cases::sections(numbers, regions);
    Table::of(numbers, regions, order, sections)
}

/// Two tables. Under a map with kind 3 half of the pairs share out the sections
/// of one table, so that few addresses are stored by both.
fn two_tables(numbers: &mut Numbers, regions: &Regions, order: ByteOrder) -> [Table; 2] {
    if regions.once.is_empty() || numbers.once_in(2) {
        return [(); 2].map(|()| made(numbers, regions, order));
    }
    let mut parts = [Vec::new(), Vec::new()];
    for section in cases::sections(numbers, regions) {
        parts[numbers.index(2)].push(section);
    }
    parts.map(|sections| Table::of(numbers, regions, order, sections))
}

/// The addresses of a section that are of kind 3, or those that are not.
fn stored(records: &[Record], section: &reference::Section, kind_3: bool) -> HashSet<u64> {
    let end = section.address + section.data.len() as u64;
    (section.address..end)
        .filter(|address| reference::takes_one_write(records, *address) == kind_3)
        .collect()
}

/// The addresses, of kind 3 or not, that a table stores.
fn all_stored(records: &[Record], table: &reference::Table, kind_3: bool) -> HashSet<u64> {
    let sections = table.sections.iter();
    sections
        .flat_map(|section| stored(records, section, kind_3))
        .collect()
}

/// The join of two well-formed tables in an output with room; the output's
/// bytes past the result must keep what they held.
fn join(numbers: &mut Numbers, first: &[u8], second: &[u8], order: ByteOrder) -> (Vec<u8>, u64) {
    let length = first.len() + second.len() - 8;
    let room = length + numbers.pick(&[0, 0, 1, 4, 33]);
    let before = numbers.bytes(room);
    let mut output = before.clone();
    let answer = calls::join(first, second, order, &mut output);
    assert_eq!((answer.number, answer.place, answer.table), (0, 0, 0));
    assert_eq!(answer.length, length as u64);
    assert_eq!(output[length..], before[length..]);
    output.truncate(length);
    (output, answer.sections)
}

/// How often each case of the first law happened.
#[derive(Debug, Default)]
struct Seen {
    /// Accepted joins that change memory, of each order.
    accepted: [u64; 2],
    /// Accepted joins of two tables that both store addresses of kind 3, of each
    /// order; and those of which an address that is not of kind 3 is stored by
    /// both.
    once: [u64; 2],
    outside: u64,
    /// Both tables are accepted and an address of kind 3 is stored by both, of
    /// each order.
    by_both: [u64; 2],
    /// The first table is refused; only the second is.
    refused: [u64; 2],
    /// Of the joins with a refused table: an address of kind 3 is stored by both;
    /// none is.
    besides: [u64; 2],
    /// The first table repeats an address by itself, the second does.
    repeats: [u64; 2],
    /// Both had pads that were not zero.
    padded: u64,
}

#[test]
fn joining_means_loading_in_turn() {
    let mut numbers = Numbers::new(cases::seed(), 30);
    let mut seen = Seen::default();
    for _ in 0..CASES {
        let regions = regions(&mut numbers);
        let order = numbers.order();
        let [a, b] = two_tables(&mut numbers, &regions, order);

        // The join's bytes, pads as they stood, its length and its count.
        let (join, sections) = join(&mut numbers, &a.bytes, &b.bytes, order);
        let all = [&a.sections[..], &b.sections].concat();
        assert_eq!(join, cases::table_of(b.entry, &all, order));
        assert_eq!(sections, all.len() as u64);
        seen.padded += u64::from(has_nonzero_pads(&a.sections) && has_nonzero_pads(&b.sections));

        // Loading the join and loading A start from the same memory; loading B
        // gets the memory that loading A left.
        let before = numbers.bytes(regions.memory_size() as usize);
        let mut at_once = before.clone();
        let mut in_turn = before.clone();
        let whole = calls::load(&regions.map, &join, order, &mut at_once);
        let one = calls::load(&regions.map, &a.bytes, order, &mut in_turn);
        let two = calls::load(&regions.map, &b.bytes, order, &mut in_turn);

        // The first section of B that stores an address of kind 3 which A stores.
        let records = reference::read_map(&regions.map).expect("a sound map");
        let [read_a, read_b] = [&a, &b]
            .map(|table| reference::read_table(&table.bytes, order).expect("a well-formed table"));
        let of_a = all_stored(&records, &read_a, true);
        let shared = read_b
            .sections
            .iter()
            .find(|section| !stored(&records, section, true).is_disjoint(&of_a));

        // Accepted exactly when both are and no address of kind 3 is stored by
        // both.
        let both = one.number == 0 && two.number == 0;
        assert_eq!(
            whole.number == 0,
            both && shared.is_none(),
            "{one:?} {two:?} {whole:?} {regions:02x?} {join:02x?}"
        );
        match (both, shared) {
            (true, None) => {
                assert_eq!(at_once, in_turn);
                assert_eq!(whole.entry, two.entry);
                assert_eq!(whole.entry, u64::from(b.entry));
                assert_eq!(whole.entry_open, two.entry_open);
                assert_eq!(whole.sections, one.sections + two.sections);
                assert_eq!(whole.bytes, one.bytes + two.bytes);
                seen.accepted[order as usize] += u64::from(at_once != before);
                let of_b = all_stored(&records, &read_b, true);
                if !of_a.is_empty() && !of_b.is_empty() {
                    seen.once[order as usize] += 1;
                    let [a, b] = [&read_a, &read_b].map(|read| all_stored(&records, read, false));
                    seen.outside += u64::from(!a.is_disjoint(&b));
                }
            }
            (true, Some(section)) => {
                // B's sections stand behind those of A, and neither table repeats
                // an address by itself.
                let expected = LoadAnswer {
                    number: 29,
                    place: (a.bytes.len() - 8 + section.offset) as u64,
                    ..Default::default()
                };
                assert_eq!(whole, expected);
                assert_eq!(at_once, before);
                seen.by_both[order as usize] += 1;
            }
            (false, shared) => {
                assert_eq!(at_once, before);
                seen.refused[usize::from(one.number == 0)] += 1;
                seen.besides[usize::from(shared.is_none())] += 1;
                seen.repeats[0] += u64::from(one.number == 29);
                seen.repeats[1] += u64::from(two.number == 29);
            }
        }
    }
    println!("in turn: {seen:?}");
    assert!(seen.accepted.iter().all(|times| *times >= CASES / 20));
    assert!(seen.refused.iter().all(|times| *times >= CASES / 100));
    for times in [seen.once, seen.by_both, seen.besides, seen.repeats] {
        assert!(times.iter().all(|times| *times >= CASES / 200), "{seen:?}");
    }
    assert!(seen.outside >= CASES / 1000);
    assert!(seen.padded >= CASES / 2);
}

#[test]
fn the_join_of_three_tables() {
    let mut numbers = Numbers::new(cases::seed(), 31);
    let mut padded = 0;
    for _ in 0..CASES {
        let regions = regions(&mut numbers);
        let order = numbers.order();
        let a = made(&mut numbers, &regions, order);
        let b = made(&mut numbers, &regions, order);
        let c = made(&mut numbers, &regions, order);
        let (left, _) = join(&mut numbers, &a.bytes, &b.bytes, order);
        let (left, left_sections) = join(&mut numbers, &left, &c.bytes, order);
        let (right, _) = join(&mut numbers, &b.bytes, &c.bytes, order);
        let (right, right_sections) = join(&mut numbers, &a.bytes, &right, order);
        assert_eq!(left, right);
        assert_eq!(left_sections, right_sections);
        let all = [&a.sections[..], &b.sections, &c.sections].concat();
        assert_eq!(left, cases::table_of(c.entry, &all, order));
        assert_eq!(left_sections, all.len() as u64);
        let three = [&a, &b, &c].map(|table| has_nonzero_pads(&table.sections));
        padded += u64::from(three == [true; 3]);
    }
    // All three had pads that were not zero.
    println!("three: {padded} with pads");
    assert!(padded >= CASES / 2);
}

/// The addresses that both sections carry, and whether their bytes are equal
/// at all of them.
fn shared(one: &Section, two: &Section) -> (usize, bool) {
    let mut count = 0;
    let mut agree = true;
    for (i, byte) in one.data.iter().enumerate() {
        for (j, other) in two.data.iter().enumerate() {
            let here = u64::from(one.address) + i as u64;
            if here == u64::from(two.address) + j as u64 {
                count += 1;
                agree &= byte == other;
            }
        }
    }
    (count, agree)
}

/// Two sections; at times the second carries the first's bytes where they
/// share an address, or all but one of them.
fn two_sections(numbers: &mut Numbers, regions: &Regions) -> Option<[Section; 2]> {
    let one = cases::inside(numbers, regions)?;
    let mut two = cases::inside(numbers, regions)?;
    if numbers.once_in(3) {
        // Touching or near.
        let end = u64::from(one.address) + one.data.len() as u64;
        let near = end + numbers.below(4);
        if near + two.data.len() as u64 <= 0x1_0000_0000 {
            two.address = near as u32;
        }
    }
    let agree = numbers.once_in(2);
    let but_one = numbers.once_in(2);
    if agree {
        let mut spots = Vec::new();
        for j in 0..two.data.len() {
            let address = u64::from(two.address) + j as u64;
            if let Some(i) = address.checked_sub(u64::from(one.address)) {
                if let Some(byte) = one.data.get(i as usize) {
                    two.data[j] = *byte;
                    spots.push(j);
                }
            }
        }
        if but_one && !spots.is_empty() {
            let spot = numbers.pick(&spots);
            two.data[spot] ^= 1 << numbers.below(8);
        }
    }
    Some([one, two])
}

#[test]
fn the_swap_of_two_sections() {
    let mut numbers = Numbers::new(cases::seed(), 32);
    // Apart; sharing and agreeing; sharing and differing; of each order.
    let mut seen = [[0; 3]; 2];
    // Under a map with kind 3: apart; sharing addresses of kind 1; refused, since
    // they share one of kind 3; of each order.
    let mut once = [[0; 3]; 2];
    // Both sections had pads, and not the same.
    let mut other_pads = 0;
    for _ in 0..CASES {
        let regions = regions(&mut numbers);
        let order = numbers.order();
        let Some([one, two]) = two_sections(&mut numbers, &regions) else {
            continue;
        };
        let entry = cases::entry(&mut numbers, &regions);
        let (count, agree) = shared(&one, &two);
        let padded = !one.pads.is_empty() && !two.pads.is_empty();
        let pads_differ = padded && one.pads != two.pads;
        let behind_two = 12 + two.data.len() + two.pads.len();
        // The sections change places whole, pads included.
        let table = cases::table_of(entry, &[one.clone(), two.clone()], order);
        let swapped = cases::table_of(entry, &[two, one], order);
        let before = numbers.bytes(regions.memory_size() as usize);
        let mut memory = before.clone();
        let mut other = before.clone();
        let answer = calls::load(&regions.map, &table, order, &mut memory);
        let swapped = calls::load(&regions.map, &swapped, order, &mut other);
        if answer.number == 29 {
            // Whichever section is the second stores an address again.
            let expected = LoadAnswer {
                number: 29,
                place: behind_two as u64,
                ..Default::default()
            };
            assert_eq!(swapped, expected);
            assert_eq!(other, before);
            assert!(count > 0);
            once[order as usize][2] += 1;
        }
        if answer.number != 0 {
            continue;
        }
        assert_eq!(answer, swapped);
        assert_eq!(memory == other, agree);
        if !regions.once.is_empty() {
            once[order as usize][usize::from(count > 0)] += 1;
        }
        seen[order as usize][match (count, agree) {
            (0, _) => 0,
            (_, true) => 1,
            (_, false) => 2,
        }] += 1;
        other_pads += u64::from(pads_differ);
    }
    println!("swap: {seen:?}, under kind 3 {once:?}, {other_pads} with other pads");
    for times in seen.as_flattened() {
        assert!(*times >= CASES / 100, "{seen:?}");
    }
    for times in once.as_flattened() {
        assert!(*times >= CASES / 1000, "{once:?}");
    }
    assert!(other_pads >= CASES / 4);
}

#[test]
fn a_join_that_just_fits_is_loaded_in_turn() {
    // Two large tables whose join has exactly the most bytes.
    let half = 8_388_608 - 12;
    let mut numbers = Numbers::new(cases::seed(), 33);
    let one = numbers.bytes(half);
    let two = numbers.bytes(half);
    let map = cases::map(&[(1, 0x1000_0000, 16_777_216)]);
    for order in ByteOrder::BOTH {
        let a = cases::table(1, &[(0x1000_0000, &one)], order);
        let b = cases::table(2, &[(0x1000_0000 + half as u32 / 2, &two)], order);
        let (join, sections) = join(&mut numbers, &a, &b, order);
        assert_eq!((join.len(), sections), (16_777_216, 2));
        let mut at_once = vec![0x55; 16_777_216];
        let mut in_turn = at_once.clone();
        let whole = calls::load(&map, &join, order, &mut at_once);
        let first = calls::load(&map, &a, order, &mut in_turn);
        let second = calls::load(&map, &b, order, &mut in_turn);
        assert_eq!([whole.number, first.number, second.number], [0; 3]);
        assert_eq!(whole.bytes, first.bytes + second.bytes);
        assert_eq!((whole.entry, whole.sections), (2, 2));
        assert!(at_once == in_turn);
        assert!(at_once[half / 2..half / 2 + half] == two[..]);
    }
}

#[test]
fn a_join_that_just_fits_and_takes_one_write() {
    // The same under kind 3: with an address in common, and with none, where the
    // second section begins at the end of the first.
    let half = 8_388_608 - 12;
    let mut numbers = Numbers::new(cases::seed(), 34);
    let one = numbers.bytes(half);
    let two = numbers.bytes(half);
    let map = cases::map(&[(3, 0x1000_0000, 16_777_216)]);
    for order in ByteOrder::BOTH {
        let a = cases::table(1, &[(0x1000_0000, &one)], order);
        for (start, number, place) in [(half - 1, 29, 12 + half), (half, 0, 0)] {
            let b = cases::table(2, &[(0x1000_0000 + start as u32, &two)], order);
            let (join, _) = join(&mut numbers, &a, &b, order);
            assert_eq!(join.len(), 16_777_216);
            let before = vec![0x55; 16_777_216];
            let mut at_once = before.clone();
            let mut in_turn = before.clone();
            let whole = calls::load(&map, &join, order, &mut at_once);
            let first = calls::load(&map, &a, order, &mut in_turn);
            let second = calls::load(&map, &b, order, &mut in_turn);
            assert_eq!([first.number, second.number], [0; 2]);
            assert_eq!((whole.number, whole.place), (number, place as u64));
            assert!(in_turn[..start] == one[..start]);
            assert!(in_turn[start..start + half] == two[..]);
            let after = if number == 0 { &in_turn } else { &before };
            assert!(at_once == *after);
        }
    }
}

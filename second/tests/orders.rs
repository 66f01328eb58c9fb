//! The same sections written in the two byte orders, on generated tables, one
//! call of the library held against another: the answers are the same and so is
//! memory, and joins differ in their header words only. A table of small
//! sections read in the wrong order is refused.

use second::calls;
use second::cases::{self, Numbers, Regions, Section};
use second::reference::{self, ByteOrder, JoinAnswer, LoadAnswer};

/// Generated cases of each law.
const CASES: u64 = 60_000;

/// The same sections in a table of each order.
struct Pair {
    entry: u32,
    sections: Vec<Section>,
    tables: [Vec<u8>; 2],
}

impl Pair {
    fn made(numbers: &mut Numbers, regions: &Regions) -> Pair {
        let sections = cases::sections(numbers, regions);
        let entry = cases::entry(numbers, regions);
        let tables = ByteOrder::BOTH.map(|order| cases::table_of(entry, &sections, order));
        Pair {
            entry,
            sections,
            tables,
        }
    }

    fn table(&self, order: ByteOrder) -> &[u8] {
        &self.tables[order as usize]
    }

    /// Cuts both tables at one length, or puts one fault behind the sections
    /// of both.
    fn damage(&mut self, numbers: &mut Numbers) {
        let length = self.tables[0].len();
        if numbers.once_in(2) {
            let kept = numbers.index(length);
            for table in &mut self.tables {
                table.truncate(kept);
            }
            return;
        }
        let start = numbers.clone();
        for order in ByteOrder::BOTH {
            // The same numbers, and so the same fault.
            *numbers = start.clone();
            let (bytes, _, _) = cases::fault(numbers, order);
            let table = &mut self.tables[order as usize];
            table.truncate(length - 4);
            table.extend(bytes);
        }
    }
}

/// Judges and loads a table in an order; both must answer the same.
fn loaded(regions: &Regions, table: &[u8], order: ByteOrder, memory: &mut [u8]) -> LoadAnswer {
    let answer = calls::load(&regions.map, table, order, memory);
    assert_eq!(calls::judge(&regions.map, table, order), answer);
    answer
}

#[test]
fn the_same_answer_and_memory() {
    let mut numbers = Numbers::new(cases::seed(), 60);
    let (mut differ, mut stored) = (0, 0);
    let mut hits = [0; 30];
    for _ in 0..CASES {
        let regions = cases::lendable_map(&mut numbers);
        let mut pair = Pair::made(&mut numbers, &regions);
        if numbers.once_in(2) {
            pair.damage(&mut numbers);
        }
        let before = numbers.bytes(regions.memory_size() as usize);
        let [high, low] = ByteOrder::BOTH.map(|order| {
            let mut memory = before.clone();
            let answer = loaded(&regions, pair.table(order), order, &mut memory);
            (answer, memory)
        });
        assert_eq!(high, low, "{:02x?}", pair.tables);
        differ += u64::from(pair.tables[0] != pair.tables[1]);
        stored += u64::from(high.1 != before);
        hits[high.0.number as usize] += 1;
    }
    // The tables' bytes differed; memory changed; how often each number was
    // answered.
    println!("two orders: {differ} differ, {stored} stored, {hits:?}");
    assert!(differ >= CASES / 2 && stored >= CASES / 10);
    for number in [0, 5, 7, 8, 9, 29] {
        assert!(hits[number] >= CASES / 50, "{hits:?}");
    }
}

#[test]
fn the_same_join_but_for_its_header_words() {
    let mut numbers = Numbers::new(cases::seed(), 61);
    let mut hits = [0; 12];
    for _ in 0..CASES {
        let regions = cases::lendable_map(&mut numbers);
        let mut first = Pair::made(&mut numbers, &regions);
        let mut second = Pair::made(&mut numbers, &regions);
        match numbers.below(8) {
            0 => first.damage(&mut numbers),
            1 => second.damage(&mut numbers),
            _ => {}
        }
        let result = (first.tables[0].len() + second.tables[0].len()).saturating_sub(8);
        let room = (result + numbers.pick(&[0, 0, 1, 33])).saturating_sub(numbers.index(2));
        let before = numbers.bytes(room);
        let [high, low] = ByteOrder::BOTH.map(|order| {
            let mut output = before.clone();
            let (one, two) = (first.table(order), second.table(order));
            (calls::join(one, two, order, &mut output), output)
        });
        assert_eq!(
            high.0, low.0,
            "{:02x?} {:02x?}",
            first.tables, second.tables
        );
        hits[high.0.number as usize] += 1;
        if high.0.number != 0 {
            assert!(
                high.1 == before && low.1 == before,
                "output after a refusal"
            );
            continue;
        }
        let all = [&first.sections[..], &second.sections].concat();
        for (order, mut output) in ByteOrder::BOTH.into_iter().zip([high.1, low.1]) {
            assert_eq!(output.split_off(result), before[result..]);
            assert_eq!(output, cases::table_of(second.entry, &all, order));
        }
    }
    // How often each number was answered.
    println!("joins in two orders: {hits:?}");
    assert!(hits[0] >= CASES / 4);
    for number in [5, 7, 8, 11] {
        assert!(hits[number] >= CASES / 100, "{hits:?}");
    }
}

#[test]
fn small_sections_in_the_wrong_order_are_cut_short() {
    let mut numbers = Numbers::new(cases::seed(), 62);
    let mut refused = 0;
    for _ in 0..CASES {
        let regions = cases::lendable_map(&mut numbers);
        let pair = Pair::made(&mut numbers, &regions);
        let right = numbers.order();
        let wrong = right.other();
        let table = pair.table(right);
        let mut memory = numbers.bytes(regions.memory_size() as usize);
        let before = memory.clone();
        let answer = loaded(&regions, table, wrong, &mut memory);
        assert_eq!(memory, before);
        if pair.sections.is_empty() {
            // Only the entry is read otherwise.
            let entry = u64::from(pair.entry.swap_bytes());
            let records = reference::read_map(&regions.map).expect("a sound map");
            let expected = LoadAnswer {
                entry,
                entry_open: u64::from(reference::is_open(&records, entry)),
                ..Default::default()
            };
            assert_eq!(answer, expected);
            continue;
        }
        // A size below 256 is read as one of 16,777,216 bytes or more.
        let expected = LoadAnswer {
            number: 5,
            place: 4,
            ..Default::default()
        };
        assert_eq!(answer, expected, "{table:02x?}");
        let none = cases::table(0, &[], wrong);
        for (first, second, side) in [(table, &none[..], 1), (&none, table, 2), (table, table, 1)] {
            let expected = JoinAnswer {
                number: 5,
                place: 4,
                table: side,
                ..Default::default()
            };
            let mut output = [0x3E; 8];
            assert_eq!(calls::join(first, second, wrong, &mut output), expected);
            assert_eq!(output, [0x3E; 8]);
        }
        refused += 1;
    }
    println!("in the wrong order: {refused} refused");
    assert!(refused >= CASES / 2);
}

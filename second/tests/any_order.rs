//! Any order, if nothing touches: the law on generated tables of either byte order and
//! through the library's calls. A table whose sections share no address with one another
//! is accepted in every rearrangement of them or in none, with one answer and one memory,
//! and two tables that share no address may be joined either way round, even if sections of
//! one table share some. Sections that touch without sharing are as good as those with
//! addresses between them; where some share an address the order can matter to memory,
//! though not to the number, and this is shown as well.
//!
//! Loads and joins are also held against the reference, and it says which addresses are
//! open. But the joins that just fit and the sections that touch have answers made by hand;
//! a load under a map that is refused has the reference's answer for the map alone, and one
//! with memory of another length has 3.

use second::calls;
use second::cases::{self, Made, Numbers, Regions, Section};
use second::reference::{self, ByteOrder, JoinAnswer, Kind, LoadAnswer, Record, TABLE_LIMIT, TOP};
use std::collections::HashSet;
use std::ops::Range;

/// Generated cases of each law.
const CASES: u64 = 60_000;
/// Of tables with no more sections every rearrangement is tried.
const FEW: usize = 5;
/// Most sections of a table.
const MANY: usize = 100;

// Maps and memory.

/// A sound map, its records as the reference reads them, and what memory starts with.
struct Board {
    regions: Regions,
    records: Vec<Record>,
    before: Vec<u8>,
}

/// What loading a table answers, and the memory it leaves.
#[derive(Clone, Debug, PartialEq, Eq)]
struct Loaded {
    answer: LoadAnswer,
    memory: Vec<u8>,
}

/// A sound map with up to four permitted records of up to so many bytes: they touch or
/// not, lie at the lowest addresses, up to the top or anywhere, and stand in any order. At
/// least a third of the maps have kind 1 alone, at least a third kind 3 alone, and half of
/// all have one or two reserved records.
fn wide_map(numbers: &mut Numbers, longest: u64) -> Regions {
    let mut runs: Vec<(u64, u64)> = Vec::new();
    let mut end = 0;
    for _ in 0..numbers.from_to(1, 4) {
        let first = end + numbers.pick(&[0, 0, 1, 3, 50]);
        let length = numbers.from_to(1, longest);
        runs.push((first, length));
        end = first + length;
    }
    let below_top = TOP - end;
    let random = u64::from(numbers.word()).min(below_top);
    let up = numbers.pick(&[0, below_top, 0x0080_0000, random]);
    for run in &mut runs {
        run.0 += up;
    }
    // At both ends: the first from address 0 on, and the last up to the top.
    if runs.len() > 1 && numbers.once_in(3) {
        let last = runs.len() - 1;
        runs[0].0 = 0;
        runs[last].0 = TOP - runs[last].1;
    }
    numbers.shuffle(&mut runs);
    let kinds: &[u8] = numbers.pick(&[&[1][..], &[3], &[1, 3]]);
    let mut records = Vec::new();
    let mut once = Vec::new();
    for (first, length) in &runs {
        let kind = numbers.pick(kinds);
        records.push((kind, *first as u32, *length as u32));
        if kind == 3 {
            once.push((*first, *length));
        }
    }
    for _ in 0..numbers.pick(&[0, 0, 1, 2]) {
        let run = numbers.pick(&runs);
        let first = run.0 + numbers.below(run.1);
        let length = numbers.from_to(1, 4).min(TOP - first);
        let at = numbers.index(records.len() + 1);
        records.insert(at, (2, first as u32, length as u32));
    }
    Regions {
        map: cases::map(&records),
        runs,
        once,
    }
}

impl Board {
    fn of(numbers: &mut Numbers, regions: Regions) -> Board {
        let records = reference::read_map(&regions.map).expect("a sound map");
        assert_eq!(calls::map(&regions.map).bytes, regions.memory_size());
        let before = numbers.bytes(regions.memory_size() as usize);
        Board {
            regions,
            records,
            before,
        }
    }

    /// A generated map: a third of them as the other tests have them.
    fn made(numbers: &mut Numbers, longest: u64) -> Board {
        let regions = match numbers.below(3) {
            0 => cases::lendable_map(numbers),
            _ => wide_map(numbers, longest),
        };
        Board::of(numbers, regions)
    }

    /// Loads a table from the bytes that memory starts with. The reference must say the
    /// same of it, judging must answer alike, and a refusal must leave memory as it was.
    fn loaded(&self, table: &[u8], order: ByteOrder) -> Loaded {
        let mut memory = self.before.clone();
        let answer = calls::load(&self.regions.map, table, order, &mut memory);
        let mut expected = self.before.clone();
        let by_reference = reference::load(&self.regions.map, table, order, &mut expected);
        assert_eq!(answer, by_reference, "{order:?}, {table:02x?}");
        assert_eq!(memory, expected, "{order:?}, {table:02x?}");
        let judged = calls::judge(&self.regions.map, table, order);
        assert_eq!(judged, answer, "{order:?}, {table:02x?}");
        if answer.number != 0 {
            assert_eq!(memory, self.before, "{order:?}, {table:02x?}");
        }
        Loaded { answer, memory }
    }

    fn is_open(&self, address: u64) -> bool {
        reference::is_open(&self.records, address)
    }

    /// Whether every address of every section of a table is open.
    fn opens(&self, made: &Made) -> bool {
        let mut all = made.list.iter().flat_map(addresses);
        all.all(|address| self.is_open(address))
    }

    /// The place in memory of an address that is open.
    fn place_of(&self, address: u64) -> usize {
        reference::place_of(&self.records, address).expect("an open address") as usize
    }

    /// Whether a section stores an address of kind 3.
    fn stores_once(&self, section: &Section) -> bool {
        addresses(section).any(|address| reference::takes_one_write(&self.records, address))
    }

    /// Whether two sections store one address of kind 3 that is open.
    fn stores_again<'a>(&self, list: impl IntoIterator<Item = &'a Section>) -> bool {
        let mut all = HashSet::new();
        list.into_iter()
            .flat_map(addresses)
            .filter(|address| reference::takes_one_write(&self.records, *address))
            .any(|address| self.is_open(address) && !all.insert(address))
    }

    /// The permitted record that holds an address.
    fn record_of(&self, address: u64) -> Option<usize> {
        self.records.iter().position(|record| {
            let holds = record.first <= address && address - record.first < record.length;
            holds && record.kind != Kind::Reserved
        })
    }

    /// The longest stretches of open addresses, or of permitted ones, in rising order:
    /// first and end.
    fn stretches(&self, open: bool) -> Vec<(u64, u64)> {
        let runs = self.regions.runs.iter();
        let addresses = runs
            .flat_map(|(first, length)| *first..first + length)
            .filter(|address| !open || self.is_open(*address));
        stretches(addresses.collect())
    }
}

// Sections that share no address.

/// The longest stretches of some addresses in rising order: first and end.
fn stretches(mut addresses: Vec<u64>) -> Vec<(u64, u64)> {
    addresses.sort_unstable();
    addresses.dedup();
    let mut list: Vec<(u64, u64)> = Vec::new();
    for address in addresses {
        match list.last_mut() {
            Some((_, end)) if *end == address => *end += 1,
            _ => list.push((address, address + 1)),
        }
    }
    list
}

/// The addresses of a section.
fn addresses(section: &Section) -> Range<u64> {
    let first = u64::from(section.address);
    first..first + section.data.len() as u64
}

/// Whether no address is of two sections.
fn share_none(list: &[Section]) -> bool {
    let mut all = HashSet::new();
    list.iter()
        .flat_map(addresses)
        .all(|address| all.insert(address))
}

/// How often a section of one list ends where one of another begins.
fn touching(list: &[Section], others: &[Section]) -> usize {
    let starts: HashSet<u64> = others.iter().map(|other| addresses(other).start).collect();
    let ends = list.iter().map(|section| addresses(section).end);
    ends.filter(|end| starts.contains(end)).count()
}

/// A section of some addresses, with data and pads of any contents.
fn section(numbers: &mut Numbers, (first, end): (u64, u64)) -> Section {
    Section::of_size(numbers, first as u32, (end - first) as usize)
}

/// Stretches cut into pieces that touch or lie near each other, in rising order. A stretch
/// is cut from its first address on, or from its last one down.
fn pieces(numbers: &mut Numbers, stretches: &[(u64, u64)], longest: u64) -> Vec<(u64, u64)> {
    let mut list = Vec::new();
    for (first, end) in stretches {
        let from_end = numbers.once_in(2);
        let mut at = numbers.pick(&[0, 0, 0, 1, 3]);
        while at < end - first {
            let size = numbers.from_to(1, longest.min(end - first - at));
            let start = match from_end {
                true => end - at - size,
                false => first + at,
            };
            list.push((start, start + size));
            at += size + numbers.pick(&[0, 0, 0, 0, 1, 2, 9]);
        }
    }
    list.sort_unstable();
    list
}

/// Addresses that are mostly not all open: across the end of a stretch or its start, in a
/// record of any kind and past it, or anywhere.
fn stray(numbers: &mut Numbers, board: &Board, stretches: &[(u64, u64)]) -> (u64, u64) {
    let size = numbers.from_to(1, 13);
    let random = u64::from(numbers.word());
    let first = match numbers.below(5) {
        0 | 1 if !stretches.is_empty() => {
            let (_, end) = numbers.pick(stretches);
            end.saturating_sub(numbers.below(size))
        }
        2 if !stretches.is_empty() => {
            let (first, _) = numbers.pick(stretches);
            first.saturating_sub(numbers.from_to(1, size))
        }
        3 if !board.records.is_empty() => numbers.pick(&board.records).first,
        _ => numbers.pick(&[0, TOP - size, random]),
    };
    let first = first.min(TOP - size);
    (first, first + size)
}

/// Up to so many sections that share no address, in rising, falling or mixed order: pieces
/// of the stretches, and up to so many strays among them.
fn without_sharing(
    numbers: &mut Numbers,
    board: &Board,
    wanted: usize,
    strays: usize,
) -> Vec<Section> {
    let open = strays == 0 || !numbers.once_in(4);
    let stretches = board.stretches(open);
    let longest = match wanted {
        ..20 => numbers.pick(&[1, 4, 13, 40]),
        _ => numbers.pick(&[1, 4, 4, 13]),
    };
    let mut list = pieces(numbers, &stretches, longest);
    let mut runs: Vec<(u64, u64)> = Vec::new();
    for _ in 0..strays.min(wanted) {
        let (first, end) = stray(numbers, board, &stretches);
        let shares = |run: &(u64, u64)| run.0 < end && first < run.1;
        if !runs.iter().any(shares) {
            runs.push((first, end));
            list.retain(|run| !shares(run));
        }
    }
    // Neighbours, so that sections touch, at the first stretch, at the last one or anywhere;
    // or the first and the last ones; or any.
    let kept = list.len().min(wanted - runs.len());
    let most = list.len() - kept;
    match numbers.below(6) {
        0 => numbers.shuffle(&mut list),
        1 | 2 => list.rotate_right(kept / 2),
        _ => {
            let anywhere = numbers.index(most + 1);
            list.drain(..numbers.pick(&[0, most, anywhere]));
        }
    }
    runs.extend(&list[..kept]);
    runs.sort_unstable();
    match numbers.below(4) {
        0 => {}
        1 => runs.reverse(),
        _ => numbers.shuffle(&mut runs),
    }
    let list: Vec<Section> = runs.iter().map(|run| section(numbers, *run)).collect();
    assert!(share_none(&list), "{list:02x?}");
    list
}

// Tables and their rearrangements.

/// A table of sections with a generated entry.
fn with_entry(numbers: &mut Numbers, board: &Board, list: Vec<Section>, order: ByteOrder) -> Made {
    let entry = cases::entry(numbers, &board.regions);
    Made::of(entry, list, order)
}

/// The table with its sections in another arrangement. They are moved whole, as they stand
/// in it; the entry word stays.
fn rearranged(made: &Made, arrangement: &[usize]) -> Vec<u8> {
    let places = made.places();
    let mut bytes = made.table[..4].to_vec();
    for index in arrangement {
        let (start, end) = places[*index];
        bytes.extend(&made.table[start..end]);
    }
    bytes.extend([0; 4]);
    assert_eq!(bytes.len(), made.table.len());
    bytes
}

/// The sum of the section sizes.
fn bytes(made: &Made) -> usize {
    made.list.iter().map(|section| section.data.len()).sum()
}

/// The answer for the sections of some tables in one table that is accepted, with the entry
/// of the last.
fn accepted(board: &Board, tables: &[&Made]) -> LoadAnswer {
    let entry = tables[tables.len() - 1].entry;
    LoadAnswer {
        entry: entry.into(),
        entry_open: u64::from(board.is_open(entry.into())),
        sections: tables.iter().map(|made| made.list.len() as u64).sum(),
        bytes: tables.iter().map(|made| bytes(made) as u64).sum(),
        ..Default::default()
    }
}

/// Every arrangement of so many sections.
fn arrangements(count: usize) -> Vec<Vec<usize>> {
    let mut all = vec![Vec::new()];
    for next in 0..count {
        let shorter = all.iter();
        all = shorter
            .flat_map(|arrangement| {
                (0..=next).map(move |at| {
                    let mut longer = arrangement.clone();
                    longer.insert(at, next);
                    longer
                })
            })
            .collect();
    }
    all
}

/// Some arrangements of a list: rising and falling addresses, the list backwards, the first
/// one last, and four of no order.
fn some_arrangements(numbers: &mut Numbers, list: &[Section]) -> Vec<Vec<usize>> {
    let as_made: Vec<usize> = (0..list.len()).collect();
    let mut rising = as_made.clone();
    rising.sort_unstable_by_key(|index| list[*index].address);
    let mut backwards = as_made.clone();
    backwards.reverse();
    let mut turned = as_made.clone();
    turned.rotate_left(1);
    let mut falling = rising.clone();
    falling.reverse();
    let mut all = vec![rising, falling, backwards, turned];
    for _ in 0..4 {
        let mut mixed = as_made.clone();
        numbers.shuffle(&mut mixed);
        all.push(mixed);
    }
    all
}

/// How often each case of the law happened in one byte order.
#[derive(Debug, Default)]
struct Seen {
    /// Accepted tables of two sections or more, where these change memory.
    accepted: u64,
    /// Of these: two sections touch; two or more store addresses of kind 3; some pad is not
    /// zero; a section begins at address 0; one ends at the top; both; a section runs across
    /// two permitted records; two sections begin in two of them; there are a hundred.
    touching: u64,
    once: u64,
    padded: u64,
    lowest: u64,
    highest: u64,
    both_ends: u64,
    across: u64,
    two_records: u64,
    hundred: u64,
    /// Accepted tables with an entry that is not open, and with one that is.
    entries: [u64; 2],
    /// Refused with 9, and of these: a rearrangement has another place, or another address;
    /// the address is in a permitted record and a reserved one closes it, or it is in no
    /// permitted record; some address of that section is open.
    refused: u64,
    places: u64,
    others: u64,
    reserved: u64,
    outside: u64,
    partly: u64,
}

impl Seen {
    /// The cases that happen least, but for a hundred sections.
    fn rare(&self) -> [u64; 9] {
        [
            self.lowest,
            self.highest,
            self.both_ends,
            self.across,
            self.two_records,
            self.others,
            self.reserved,
            self.outside,
            self.partly,
        ]
    }

    /// Counts an accepted table.
    fn accept(&mut self, board: &Board, made: &Made, loaded: &Loaded) {
        let list = &made.list;
        self.entries[loaded.answer.entry_open as usize] += 1;
        if list.len() < 2 || loaded.memory == board.before {
            return;
        }
        let any = |has: &dyn Fn(&Section) -> bool| u64::from(list.iter().any(has));
        let first = |section: &Section| board.record_of(addresses(section).start);
        let lowest = any(&|section| section.address == 0);
        let highest = any(&|section| addresses(section).end == TOP);
        let once = list.iter().filter(|section| board.stores_once(section));
        self.accepted += 1;
        self.touching += u64::from(touching(list, list) > 0);
        self.once += u64::from(once.count() >= 2);
        self.padded += any(&|section| section.pads.iter().any(|pad| *pad != 0));
        self.lowest += lowest;
        self.highest += highest;
        self.both_ends += lowest * highest;
        self.across +=
            any(&|section| first(section) != board.record_of(addresses(section).end - 1));
        self.two_records += any(&|section| first(section) != first(&list[0]));
        self.hundred += u64::from(list.len() == MANY);
    }

    /// Counts a table that is refused with 9, with its answer and those of its
    /// rearrangements.
    fn refuse(&mut self, board: &Board, made: &Made, answer: LoadAnswer, others: &[LoadAnswer]) {
        let read = reference::read_table(&made.table, made.order).expect("a well-formed table");
        let mut sections = read.sections.iter().zip(&made.list);
        let (_, section) = sections
            .find(|(read, _)| read.offset as u64 == answer.place)
            .expect("the place of a section");
        let permitted = board.record_of(answer.address).is_some();
        self.refused += 1;
        self.places += u64::from(others.iter().any(|other| other.place != answer.place));
        self.others += u64::from(others.iter().any(|other| other.address != answer.address));
        self.reserved += u64::from(permitted);
        self.outside += u64::from(!permitted);
        self.partly += u64::from(addresses(section).any(|address| board.is_open(address)));
    }
}

/// The law: a table and its rearrangements are all accepted or all refused. Where they are
/// accepted the whole answer and every byte of memory are the same; where they are refused,
/// for a section that is not open, the number is, and place and address are those that the
/// reference says. Sections that share no address repeat none.
fn any_order(board: &Board, made: &Made, arrangements: &[Vec<usize>], seen: &mut Seen) {
    let loaded = board.loaded(&made.table, made.order);
    let open = board.opens(made);
    assert_eq!(loaded.answer.number, if open { 0 } else { 9 });
    let mut others = Vec::new();
    for arrangement in arrangements {
        let table = rearranged(made, arrangement);
        let other = board.loaded(&table, made.order);
        if open {
            assert_eq!(other, loaded, "{:02x?} and {table:02x?}", made.table);
        } else {
            assert_eq!(other.answer.number, 9, "{table:02x?}");
        }
        others.push(other.answer);
    }
    if open {
        assert_eq!(loaded.answer, accepted(board, &[made]));
        seen.accept(board, made, &loaded);
    } else {
        seen.refuse(board, made, loaded.answer, &others);
    }
}

#[test]
fn every_rearrangement_of_up_to_five_sections() {
    let all: Vec<Vec<Vec<usize>>> = (0..=FEW).map(arrangements).collect();
    // They are as many as there can be, and no two are equal.
    for (list, count) in all.iter().zip([1, 1, 2, 6, 24, 120]) {
        let different: HashSet<&Vec<usize>> = list.iter().collect();
        assert_eq!((list.len(), different.len()), (count, count));
    }
    let mut numbers = Numbers::new(cases::seed(), 130);
    let mut seen: [Seen; 2] = Default::default();
    // Tables of each count of sections, of each order.
    let mut counts = [[0; FEW + 1]; 2];
    for _ in 0..CASES {
        let board = Board::made(&mut numbers, 60);
        let order = numbers.order();
        let wanted = numbers.pick(&[0, 1, 2, 3, 3, 4, 4, 5, 5]);
        let strays = numbers.pick(&[0, 0, 0, 0, 1, 2]);
        let list = without_sharing(&mut numbers, &board, wanted, strays);
        let made = with_entry(&mut numbers, &board, list, order);
        let count = made.list.len();
        any_order(&board, &made, &all[count], &mut seen[order as usize]);
        counts[order as usize][count] += 1;
    }
    println!("every rearrangement: {counts:?}, {seen:?}");
    let mut times = counts.as_flattened().iter();
    assert!(times.all(|times| *times >= CASES / 60));
    for seen in seen {
        assert!(seen.accepted >= CASES / 8 && seen.refused >= CASES / 20);
        assert!(seen.touching >= CASES / 20 && seen.once >= CASES / 20);
        assert!(seen.padded >= CASES / 20 && seen.places >= CASES / 40);
        assert!(seen.entries.iter().all(|times| *times >= CASES / 20));
        assert!(seen.rare().iter().all(|times| *times >= CASES / 300));
    }
}

#[test]
fn random_rearrangements_of_up_to_a_hundred_sections() {
    let mut numbers = Numbers::new(cases::seed(), 131);
    let mut seen: [Seen; 2] = Default::default();
    for _ in 0..CASES / 5 {
        let board = Board::made(&mut numbers, 300);
        let order = numbers.order();
        let wanted = match numbers.below(4) {
            0 => MANY,
            _ => numbers.from_to(FEW as u64 + 1, MANY as u64) as usize,
        };
        let strays = numbers.pick(&[0, 0, 0, 1, 2, 3]);
        let list = without_sharing(&mut numbers, &board, wanted, strays);
        if list.len() <= FEW {
            continue;
        }
        let some = some_arrangements(&mut numbers, &list);
        let made = with_entry(&mut numbers, &board, list, order);
        any_order(&board, &made, &some, &mut seen[order as usize]);
    }
    println!("up to a hundred sections: {seen:?}");
    for seen in seen {
        assert!(seen.accepted >= CASES / 50 && seen.refused >= CASES / 50);
        assert!(seen.touching >= CASES / 50 && seen.once >= CASES / 50);
        assert!(seen.padded >= CASES / 50 && seen.places >= CASES / 50);
        assert!(seen.entries.iter().all(|times| *times >= CASES / 100));
        assert!(seen.hundred >= CASES / 500);
        assert!(seen.rare().iter().all(|times| *times >= CASES / 1000));
    }
}

#[test]
fn thousands_of_sections() {
    // Sections of one to three bytes side by side, under each kind.
    let mut numbers = Numbers::new(cases::seed(), 132);
    for kind in [1, 3] {
        for order in ByteOrder::BOTH {
            let mut list = Vec::new();
            let mut at = 0x0080_0000;
            for _ in 0..3_000 {
                let end = at + numbers.from_to(1, 3);
                list.push(section(&mut numbers, (at, end)));
                at = end;
            }
            let length = at - 0x0080_0000;
            let runs = vec![(0x0080_0000, length)];
            let regions = Regions {
                map: cases::map(&[(kind, 0x0080_0000, length as u32)]),
                once: if kind == 3 { runs.clone() } else { Vec::new() },
                runs,
            };
            let board = Board::of(&mut numbers, regions);
            // Side by side, they fill memory.
            let data: Vec<u8> = list
                .iter()
                .flat_map(|section| section.data.clone())
                .collect();
            let made = Made::of(0x0080_0000, list, order);
            let expected = LoadAnswer {
                entry: 0x0080_0000,
                entry_open: 1,
                sections: 3_000,
                bytes: length,
                ..Default::default()
            };
            for arrangement in some_arrangements(&mut numbers, &made.list) {
                let loaded = board.loaded(&rearranged(&made, &arrangement), order);
                assert_eq!(loaded.answer, expected);
                assert!(loaded.memory == data);
            }
        }
    }
}

/// A map with a fault: the length, or one record that breaks a rule.
fn damaged(numbers: &mut Numbers, regions: &Regions) -> Vec<u8> {
    let mut map = regions.map.clone();
    let count = map.len() / 12;
    let manner = if count == 0 { 6 } else { numbers.below(8) };
    let at = 12 * numbers.index(count.max(1));
    match manner {
        0 => map[at + numbers.index(2)] ^= 1 << numbers.below(8),
        1 => map[at + 2] = numbers.pick(&[0, 4, 255]),
        2 => map[at + 3] = numbers.pick(&[1, 128]),
        3 => map[at + 8..at + 12].fill(0),
        // Two addresses from the highest on.
        4 => map[at + 4..at + 12].copy_from_slice(&[255, 255, 255, 255, 0, 0, 0, 2]),
        // A permitted record that shares addresses with another.
        5 if count < 64 && !regions.runs.is_empty() => {
            let (first, length) = numbers.pick(&regions.runs);
            map.extend(cases::record(1, first as u32, length as u32));
        }
        6 => map.push(numbers.byte()),
        _ => map.resize(780, 0),
    }
    map
}

#[test]
fn under_refused_maps_and_memory_of_another_length() {
    let mut numbers = Numbers::new(cases::seed(), 133);
    // Refused with 1, 2 and 3, of each order; and those with 2 or 3 of which a section is not
    // open under the map that is sound.
    let (mut seen, mut besides) = ([[0; 3]; 2], [0; 2]);
    for _ in 0..CASES / 4 {
        let board = Board::made(&mut numbers, 60);
        let order = numbers.order();
        let wanted = numbers.from_to(2, 12) as usize;
        let strays = numbers.pick(&[0, 1]);
        let list = without_sharing(&mut numbers, &board, wanted, strays);
        if list.len() < 2 {
            continue;
        }
        let some = some_arrangements(&mut numbers, &list);
        let made = with_entry(&mut numbers, &board, list, order);
        let sound = board.loaded(&made.table, order);

        // A map with a fault, or memory of another length.
        let mut map = board.regions.map.clone();
        let mut before = board.before.clone();
        let wrong_map = numbers.once_in(2);
        if wrong_map {
            map = damaged(&mut numbers, &board.regions);
        }
        if !wrong_map || numbers.once_in(8) {
            let length = before.len();
            let other = numbers.pick(&[0, length.saturating_sub(1), length * 2, length + 4]);
            before.resize(if other == length { length + 1 } else { other }, 0x5A);
        }
        let expected = match reference::map(&map) {
            answer if wrong_map => LoadAnswer {
                number: answer.number,
                place: answer.place,
                ..Default::default()
            },
            _ => LoadAnswer {
                number: 3,
                ..Default::default()
            },
        };
        assert!(matches!(
            (wrong_map, expected.number),
            (true, 1 | 2) | (false, 3)
        ));
        let as_made: Vec<usize> = (0..made.list.len()).collect();
        for arrangement in [&[as_made][..], &some].concat() {
            let table = rearranged(&made, &arrangement);
            let mut memory = before.clone();
            let answer = calls::load(&map, &table, order, &mut memory);
            assert_eq!(answer, expected, "{map:02x?}, {table:02x?}");
            assert_eq!(memory, before, "{map:02x?}, {table:02x?}");
            // Judging has no memory, and answers for the table where the map is sound.
            let judged = calls::judge(&map, &table, order);
            if wrong_map {
                assert_eq!(judged, expected, "{map:02x?}, {table:02x?}");
            } else {
                assert_eq!(judged.number, sound.answer.number);
                assert_eq!(judged, reference::judge(&map, &table, order));
            }
        }
        seen[order as usize][expected.number as usize - 1] += 1;
        besides[order as usize] += u64::from(expected.number > 1 && sound.answer.number == 9);
    }
    println!("refused maps and memory: {seen:?}, with sections not open: {besides:?}");
    let mut times = seen.as_flattened().iter().chain(&besides);
    assert!(times.all(|times| *times >= CASES / 100));
}

// Judging alone: no memory of that size is lent.
#[test]
fn judged_under_maps_whose_memory_is_too_large_to_lend() {
    let all: Vec<Vec<Vec<usize>>> = (0..=FEW).map(arrangements).collect();
    let mut numbers = Numbers::new(cases::seed(), 138);
    // Accepted under kind 1 alone, accepted with kind 3, and refused with 9, of each order.
    let mut seen = [[0; 3]; 2];
    for _ in 0..CASES / 10 {
        // Two records permit every address; at times a reserved one closes some.
        let random = numbers.from_to(1, 0xFFFF_FFFF);
        let split = numbers.pick(&[1, 0x8000_0000, 0xFFFF_FFFF, random]);
        let kinds = numbers.pick(&[[1, 1], [1, 3], [3, 1], [3, 3]]);
        let mut records = vec![
            (kinds[0], 0, split as u32),
            (kinds[1], split as u32, (TOP - split) as u32),
        ];
        // Addresses at the two ends, in the middle, and on both sides of the split.
        let near = split.saturating_sub(20)..(split + 20).min(TOP);
        let ends = (0..20).chain(TOP - 20..TOP);
        let middle = 0x7FFF_FFF0..0x8000_0010;
        let addresses = stretches(ends.chain(middle).chain(near).collect());
        if numbers.once_in(2) {
            let (first, end) = numbers.pick(&addresses);
            let closed = numbers.from_to(first, end - 1);
            let length = numbers.from_to(1, 8).min(TOP - closed);
            records.push((2, closed as u32, length as u32));
        }
        numbers.shuffle(&mut records);
        let map = cases::map(&records);

        let longest = numbers.pick(&[4, 13, 40]);
        let mut runs = pieces(&mut numbers, &addresses, longest);
        numbers.shuffle(&mut runs);
        runs.truncate(numbers.from_to(2, 5) as usize);
        let list: Vec<Section> = runs.iter().map(|run| section(&mut numbers, *run)).collect();
        assert!(share_none(&list), "{list:02x?}");
        let order = numbers.order();
        let made = Made::of(numbers.word(), list, order);
        let judged = calls::judge(&map, &made.table, order);
        assert_eq!(judged, reference::judge(&map, &made.table, order));
        for arrangement in &all[made.list.len()] {
            let table = rearranged(&made, arrangement);
            let other = calls::judge(&map, &table, order);
            if judged.number == 0 {
                assert_eq!(other, judged, "{map:02x?}, {table:02x?}");
            } else {
                assert_eq!(other.number, 9, "{map:02x?}, {table:02x?}");
                assert_eq!(other, reference::judge(&map, &table, order));
            }
        }
        let manner = match (judged.number, kinds) {
            (0, [1, 1]) => 0,
            (0, _) => 1,
            _ => 2,
        };
        seen[order as usize][manner] += 1;
    }
    println!("every address permitted: {seen:?}");
    let mut times = seen.as_flattened().iter();
    assert!(times.all(|times| *times >= CASES / 200));
}

// Joins.

/// The join of two well-formed tables in an output with room, the reference's join at every
/// byte of the output; and its count of sections.
fn join(numbers: &mut Numbers, first: &Made, second: &Made) -> (Vec<u8>, u64) {
    let order = first.order;
    let length = first.table.len() + second.table.len() - 8;
    let room = length + numbers.pick(&[0, 0, 1, 4, 33]);
    let mut output = numbers.bytes(room);
    let mut expected = output.clone();
    let answer = calls::join(&first.table, &second.table, order, &mut output);
    let by_reference = reference::join(&first.table, &second.table, order, &mut expected);
    assert_eq!(answer, by_reference);
    assert_eq!(output, expected);
    assert_eq!((answer.number, answer.length), (0, length as u64));
    output.truncate(length);
    (output, answer.sections)
}

/// The law of joins, on two tables that share no address: the joins have one length and one
/// count, and loaded from the same memory both are answered with one number, which is given.
/// Where they are accepted every byte of memory is the same, and each has its second table's
/// entry and yes or no, and the summed counts.
fn both_ways(numbers: &mut Numbers, board: &Board, [a, b]: [&Made; 2], number: u64) -> [Loaded; 2] {
    let sections = (a.list.len() + b.list.len()) as u64;
    let (one, count) = join(numbers, a, b);
    let (other, other_count) = join(numbers, b, a);
    assert_eq!(one.len(), other.len());
    assert_eq!((count, other_count), (sections, sections));

    let loads = [one, other].map(|table| board.loaded(&table, a.order));
    let [one, other] = &loads;
    let both = (one.answer.number, other.answer.number);
    assert_eq!(both, (number, number), "{one:02x?} {other:02x?}");
    if number == 0 {
        assert_eq!(one.memory, other.memory, "{one:02x?} {other:02x?}");
        assert_eq!(one.answer, accepted(board, &[a, b]));
        assert_eq!(other.answer, accepted(board, &[b, a]));
    }
    loads
}

/// How often each case of the joins happened in one byte order.
#[derive(Debug, Default)]
struct Joined {
    /// Both joins are accepted, both tables have sections, and these change memory.
    accepted: u64,
    /// Of these: each table stores addresses of kind 3; a section of one table touches one
    /// of the other; one of the entries is open and the other is not; pads of both tables
    /// are not zero; there are more than twenty sections.
    once: u64,
    touching: u64,
    entries: u64,
    padded: u64,
    long: u64,
    /// One of the tables has no section, and the other has some.
    without: u64,
    /// Both are refused, and of these: one table alone would be accepted; the joins have
    /// other places; under a map with kind 3.
    refused: u64,
    by_one: u64,
    places: u64,
    refused_once: u64,
}

#[test]
fn joins_the_other_way_round() {
    let mut numbers = Numbers::new(cases::seed(), 134);
    let mut seen: [Joined; 2] = Default::default();
    for _ in 0..CASES {
        let board = Board::made(&mut numbers, 100);
        let order = numbers.order();
        let wanted = match numbers.below(10) {
            0 => numbers.from_to(20, 60),
            _ => numbers.below(9),
        };
        let strays = numbers.pick(&[0, 0, 0, 1, 2]);
        // The sections are dealt out: to either table, or all of them to one.
        let mut parts = [Vec::new(), Vec::new()];
        let to_one = numbers.once_in(8);
        for section in without_sharing(&mut numbers, &board, wanted as usize, strays) {
            let part = if to_one { 0 } else { numbers.index(2) };
            parts[part].push(section);
        }
        numbers.shuffle(&mut parts);
        let tables = parts.map(|list| with_entry(&mut numbers, &board, list, order));
        let [a, b] = &tables;
        let [open_a, open_b] = [a, b].map(|table| board.opens(table));
        let number = if open_a && open_b { 0 } else { 9 };
        let [one, other] = both_ways(&mut numbers, &board, [a, b], number);
        let seen = &mut seen[order as usize];
        let both_have = !a.list.is_empty() && !b.list.is_empty();
        if number != 0 {
            seen.refused += 1;
            seen.by_one += u64::from(both_have && open_a != open_b);
            seen.places += u64::from(one.answer.place != other.answer.place);
            seen.refused_once += u64::from(!board.regions.once.is_empty());
            continue;
        }
        seen.without += u64::from(a.list.is_empty() != b.list.is_empty());
        if both_have && one.memory != board.before {
            let once = |table: &Made| table.list.iter().any(|section| board.stores_once(section));
            let pads = |table: &Made| {
                let mut all = table.list.iter().flat_map(|section| &section.pads);
                all.any(|pad| *pad != 0)
            };
            let touch = touching(&a.list, &b.list) + touching(&b.list, &a.list);
            seen.accepted += 1;
            seen.once += u64::from(once(a) && once(b));
            seen.touching += u64::from(touch > 0);
            seen.entries += u64::from(one.answer.entry_open != other.answer.entry_open);
            seen.padded += u64::from(pads(a) && pads(b));
            seen.long += u64::from(a.list.len() + b.list.len() > 20);
        }
    }
    println!("joins: {seen:?}");
    for seen in seen {
        assert!(seen.accepted >= CASES / 10 && seen.refused >= CASES / 20);
        for times in [
            seen.once,
            seen.touching,
            seen.entries,
            seen.padded,
            seen.by_one,
            seen.places,
            seen.refused_once,
        ] {
            assert!(times >= CASES / 50, "{seen:?}");
        }
        assert!(seen.long >= CASES / 200 && seen.without >= CASES / 50);
    }
}

#[test]
fn joins_that_just_fit_the_other_way_round() {
    // The two tables fill memory, and their join has the most bytes that there may be. With a
    // byte more of data, and so four bytes more, neither join fits.
    let mut numbers = Numbers::new(cases::seed(), 135);
    let (low, high) = (5_000_000, TABLE_LIMIT - 24 - 5_000_000);
    let data = numbers.bytes(low + high + 1);
    for (kind, order) in [1, 3]
        .into_iter()
        .flat_map(|kind| ByteOrder::BOTH.map(|order| (kind, order)))
    {
        let map = cases::map(&[(kind, 0x1000_0000, (low + high) as u32)]);
        let a = cases::table(1, &[(0x1000_0000, &data[..low])], order);
        let second = 0x1000_0000 + low as u32;
        let b = cases::table(2, &[(second, &data[low..low + high])], order);
        let longer = cases::table(2, &[(second, &data[low..])], order);
        for (first, second, last_entry) in [(&a, &b, 2), (&b, &a, 1)] {
            let mut output = vec![0; TABLE_LIMIT];
            let answer = calls::join(first, second, order, &mut output);
            let expected = JoinAnswer {
                length: TABLE_LIMIT as u64,
                sections: 2,
                ..Default::default()
            };
            assert_eq!(answer, expected);
            let mut memory = vec![0x55; low + high];
            let answer = calls::load(&map, &output, order, &mut memory);
            let expected = LoadAnswer {
                entry: last_entry,
                sections: 2,
                bytes: (low + high) as u64,
                ..Default::default()
            };
            assert_eq!(answer, expected);
            assert!(memory == data[..low + high]);
        }
        for (first, second) in [(&a, &longer), (&longer, &a)] {
            let mut output = vec![0x55; TABLE_LIMIT + 4];
            let answer = calls::join(first, second, order, &mut output);
            let expected = JoinAnswer {
                number: 10,
                ..Default::default()
            };
            assert_eq!(answer, expected);
            assert!(output.iter().all(|byte| *byte == 0x55));
        }
    }
}

// What the law does not say.

/// Makes two sections of a list share addresses, which no other two do, and answers their
/// indices. One has a part of the other's addresses, or runs on into one that it touched.
/// Their bytes agree there, agree but for one, or are any.
fn with_sharing(numbers: &mut Numbers, list: &mut Vec<Section>) -> Option<[usize; 2]> {
    if list.is_empty() {
        return None;
    }
    let one = numbers.index(list.len());
    let Range { start, end } = addresses(&list[one]);
    let next = list.iter().position(|other| addresses(other).start == end);
    let (two, run) = match next {
        Some(next) if list.len() == FEW || numbers.once_in(2) => {
            let more = numbers.from_to(1, list[next].data.len() as u64);
            (next, (start, end + more))
        }
        _ if list.len() == FEW => return None,
        _ => {
            let first = numbers.from_to(start, end - 1);
            let last = numbers.from_to(first, end - 1);
            list.push(list[one].clone());
            (list.len() - 1, (first, last + 1))
        }
    };
    list[one] = section(numbers, run);
    let both = shared(&list[one], &list[two]);
    let manner = numbers.below(3);
    if manner < 2 {
        for (i, j) in &both {
            list[one].data[*i] = list[two].data[*j];
        }
    }
    if manner == 1 {
        let (i, _) = numbers.pick(&both);
        list[one].data[i] ^= 1 << numbers.below(8);
    }
    Some([one, two])
}

/// Where in the data of each of two sections the bytes stand for the addresses that they
/// share.
fn shared(one: &Section, two: &Section) -> Vec<(usize, usize)> {
    let mut list = Vec::new();
    for (i, address) in addresses(one).enumerate() {
        for (j, other) in addresses(two).enumerate() {
            if address == other {
                list.push((i, j));
            }
        }
    }
    list
}

/// How often each case of two sections that share an address happened in one byte order.
#[derive(Debug, Default)]
struct Shared {
    /// Memory depends on the order of the two: there are no other sections; there are some.
    differ: [u64; 2],
    /// It does not, since their bytes agree at all the addresses: with none, with some.
    agree: [u64; 2],
    /// Refused, since they share an address of kind 3: with none, with some.
    refused: [u64; 2],
    /// Accepted under a map with kind 3.
    outside: u64,
}

#[test]
fn where_sections_share_an_address() {
    let all: Vec<Vec<Vec<usize>>> = (0..=FEW).map(arrangements).collect();
    let mut numbers = Numbers::new(cases::seed(), 136);
    let mut seen: [Shared; 2] = Default::default();
    for _ in 0..CASES {
        let board = Board::made(&mut numbers, 60);
        let order = numbers.order();
        let wanted = numbers.pick(&[1, 1, 2, 2, 3, 4, 5]);
        let mut list = without_sharing(&mut numbers, &board, wanted, 0);
        let Some([one, two]) = with_sharing(&mut numbers, &mut list) else {
            continue;
        };
        assert!(!share_none(&list));
        // The addresses of the two, those where their bytes differ, and those of kind 3.
        let first = addresses(&list[one]).start;
        let both = shared(&list[one], &list[two]);
        let differ: Vec<u64> = both
            .iter()
            .filter(|(i, j)| list[one].data[*i] != list[two].data[*j])
            .map(|(i, _)| first + *i as u64)
            .collect();
        let once = both
            .iter()
            .any(|(i, _)| reference::takes_one_write(&board.records, first + *i as u64));

        let made = with_entry(&mut numbers, &board, list, order);
        let loaded = board.loaded(&made.table, order);
        let count = made.list.len();
        for arrangement in &all[count] {
            let table = rearranged(&made, arrangement);
            let other = board.loaded(&table, order);
            let [at_one, at_two] =
                [one, two].map(|index| arrangement.iter().position(|place| *place == index));
            if once {
                // Whichever of the two stands behind the other stores an address again.
                let later = at_one.max(at_two).expect("both are there");
                let before = arrangement[..later].iter().map(|index| &made.list[*index]);
                let whole = before.map(|section| 8 + section.data.len() + section.pads.len());
                let expected = LoadAnswer {
                    number: 29,
                    place: 4 + whole.sum::<usize>() as u64,
                    ..Default::default()
                };
                assert_eq!(other.answer, expected, "{table:02x?}");
                continue;
            }
            // The answer is the same. Memory is too if the two have not changed places, and
            // otherwise differs exactly where their bytes do.
            assert_eq!(other.answer, loaded.answer, "{table:02x?}");
            assert_eq!(other.answer.number, 0, "{table:02x?}");
            let mut expected = vec![false; loaded.memory.len()];
            if (at_one < at_two) != (one < two) {
                for address in &differ {
                    expected[board.place_of(*address)] = true;
                }
            }
            let pairs = loaded.memory.iter().zip(&other.memory);
            let found: Vec<bool> = pairs.map(|(byte, other)| byte != other).collect();
            assert_eq!(found, expected, "{:02x?} and {table:02x?}", made.table);
        }
        let seen = &mut seen[order as usize];
        let among = usize::from(count > 2);
        match (once, differ.is_empty()) {
            (true, _) => seen.refused[among] += 1,
            (false, false) => seen.differ[among] += 1,
            (false, true) => seen.agree[among] += 1,
        }
        seen.outside += u64::from(!once && !board.regions.once.is_empty());
    }
    println!("sharing: {seen:?}");
    for seen in seen {
        for times in [seen.differ, seen.agree, seen.refused].as_flattened() {
            assert!(*times >= CASES / 50, "{seen:?}");
        }
        assert!(seen.outside >= CASES / 100);
    }
}

#[test]
fn touching_is_not_sharing() {
    // Four, three and nine bytes fill sixteen, in the middle, from address 0 on or up to the
    // top. Then the second begins one address lower, at the last one of the first.
    let data: [&[u8]; 3] = [
        &[0xA0, 0xA1, 0xA2, 0xA3],
        &[0xB0, 0xB1, 0xB2],
        &[0xC0, 0xC1, 0xC2, 0xC3, 0xC4, 0xC5, 0xC6, 0xC7, 0xC8],
    ];
    for order in ByteOrder::BOTH {
        for (kind, first) in [1, 3]
            .into_iter()
            .flat_map(|kind| [0x0080_0000, 0, 0xFFFF_FFF0].map(|first| (kind, first)))
        {
            let map = cases::map(&[(kind, first, 16)]);
            for arrangement in arrangements(3) {
                let load = |second: u32| {
                    let list = [0, second, 7].map(|skip| first + skip);
                    let sections: Vec<(u32, &[u8])> = arrangement
                        .iter()
                        .map(|index| (list[*index], data[*index]))
                        .collect();
                    let table = cases::table(first, &sections, order);
                    let mut memory = vec![0x55; 16];
                    let answer = calls::load(&map, &table, order, &mut memory);
                    (answer, memory)
                };
                let accepted = LoadAnswer {
                    entry: first.into(),
                    entry_open: 1,
                    sections: 3,
                    bytes: 16,
                    ..Default::default()
                };
                // Touching alone: any order.
                assert_eq!(load(4), (accepted, data.concat()));

                // An address is shared: the later one wins there, or is refused.
                let at = [0, 1].map(|index| arrangement.iter().position(|place| *place == index));
                let (answer, memory) = load(3);
                if kind == 3 {
                    let later = at[0].max(at[1]).expect("both are there");
                    let whole = arrangement[..later]
                        .iter()
                        .map(|index| [12, 12, 20][*index]);
                    let expected = LoadAnswer {
                        number: 29,
                        place: 4 + whole.sum::<u64>(),
                        ..Default::default()
                    };
                    assert_eq!((answer, memory), (expected, vec![0x55; 16]));
                    continue;
                }
                let mut expected = data.concat();
                let winner = if at[0] < at[1] { 0xB0 } else { 0xA3 };
                expected[3..7].copy_from_slice(&[winner, 0xB1, 0xB2, 0x55]);
                assert_eq!((answer, memory), (accepted, expected));
            }
        }
    }
}

/// How often each case of what is no rearrangement happened in one byte order.
#[derive(Debug, Default)]
struct ToldApart {
    /// A section is left out.
    left_out: u64,
    /// One stands twice, and the table is accepted; it is refused with 29.
    twice: [u64; 2],
    /// One stands in the place of another of other size, or of the same size.
    in_place: [u64; 2],
    /// Two of one size have each other's data.
    exchanged: u64,
}

#[test]
fn what_is_no_rearrangement_is_told_apart() {
    let mut numbers = Numbers::new(cases::seed(), 137);
    let mut seen: [ToldApart; 2] = Default::default();
    for _ in 0..CASES / 5 {
        let mut board = Board::made(&mut numbers, 60);
        let order = numbers.order();
        let wanted = numbers.from_to(2, 8) as usize;
        let list = without_sharing(&mut numbers, &board, wanted, 0);
        if list.len() < 2 {
            continue;
        }
        let made = with_entry(&mut numbers, &board, list, order);
        // Memory starts with other bytes at every place.
        let after = board.loaded(&made.table, order).memory;
        board.before = after.iter().map(|byte| !byte).collect();
        let loaded = board.loaded(&made.table, order);
        let LoadAnswer {
            number,
            sections,
            bytes,
            ..
        } = loaded.answer;
        assert_eq!(number, 0);
        // The places where another table of this entry leaves another byte, and its answer.
        let against = |list: &[Section]| {
            let table = cases::table_of(made.entry, list, order);
            let other = board.loaded(&table, order);
            let pairs = loaded.memory.iter().zip(&other.memory).enumerate();
            let places: HashSet<usize> = pairs
                .filter(|(_, (byte, other))| byte != other)
                .map(|(place, _)| place)
                .collect();
            (other.answer, places)
        };
        let places_of = |section: &Section| -> HashSet<usize> {
            addresses(section)
                .map(|address| board.place_of(address))
                .collect()
        };
        let seen = &mut seen[order as usize];

        // The same sections with another entry.
        let entry = made.entry ^ (1 << numbers.below(32));
        let other = board.loaded(&cases::table_of(entry, &made.list, order), order);
        assert_ne!(other.answer.entry, loaded.answer.entry);
        assert_eq!(other.memory, loaded.memory);

        let i = numbers.index(made.list.len());
        let one = &made.list[i];
        let size = one.data.len() as u64;
        // A section is left out: fewer sections, fewer bytes, and its places keep theirs.
        let mut list = made.list.clone();
        list.remove(i);
        let (answer, places) = against(&list);
        assert_eq!(
            (answer.sections, answer.bytes),
            (sections - 1, bytes - size)
        );
        assert_eq!(places, places_of(one));
        seen.left_out += 1;

        // It stands twice: more sections and more bytes, and memory is the same; or an address
        // of kind 3 is stored again.
        let mut list = made.list.clone();
        list.insert(numbers.index(list.len() + 1), one.clone());
        let (answer, places) = against(&list);
        if board.stores_once(one) {
            assert_eq!(answer.number, 29);
        } else {
            assert_eq!(
                (answer.sections, answer.bytes),
                (sections + 1, bytes + size)
            );
            assert!(places.is_empty());
        }
        seen.twice[usize::from(answer.number == 29)] += 1;

        // It stands in the place of another: as many sections, and of one size the same answer;
        // but the other's places keep their bytes.
        let j = (i + 1 + numbers.index(made.list.len() - 1)) % made.list.len();
        let two = &made.list[j];
        let same_size = two.data.len() as u64 == size;
        let mut list = made.list.clone();
        list[j] = one.clone();
        let (answer, places) = against(&list);
        if board.stores_once(one) {
            assert_eq!(answer.number, 29);
        } else {
            assert_eq!(answer.sections, sections);
            assert_eq!(answer == loaded.answer, same_size);
            assert_eq!(places, places_of(two));
            seen.in_place[usize::from(same_size)] += 1;
        }

        // A byte of its data is another: the same answer, and one place has another byte.
        let mut list = made.list.clone();
        let spot = numbers.index(one.data.len());
        list[i].data[spot] ^= 1 << numbers.below(8);
        let (answer, places) = against(&list);
        let place = board.place_of(addresses(one).start + spot as u64);
        assert_eq!((answer, places), (loaded.answer, HashSet::from([place])));

        // Two of one size have each other's data: the same answer, and memory differs exactly if
        // their data do.
        if same_size {
            let mut list = made.list.clone();
            list[i].data.clone_from(&two.data);
            list[j].data.clone_from(&one.data);
            let (answer, places) = against(&list);
            assert_eq!(answer, loaded.answer);
            assert_eq!(places.is_empty(), one.data == two.data);
            seen.exchanged += u64::from(!places.is_empty());
        }
    }
    println!("told apart: {seen:?}");
    for seen in seen {
        assert!(seen.left_out >= CASES / 50);
        for times in [seen.twice, seen.in_place].as_flattened() {
            assert!(*times >= CASES / 200, "{seen:?}");
        }
        assert!(seen.exchanged >= CASES / 200);
    }
}

// Sections that share addresses at random.

/// So many sections, each of some addresses in a row that a list has. Where one before it has
/// an address too, the bytes agree; or one byte of the section is then changed, at an address
/// that it shares or not; or they are any.
fn sharing(numbers: &mut Numbers, list: &[Section], count: usize) -> Vec<Section> {
    let stretches = stretches(list.iter().flat_map(addresses).collect());
    let mut made: Vec<Section> = Vec::new();
    while made.len() < count && !stretches.is_empty() {
        let (start, end) = numbers.pick(&stretches);
        let first = numbers.from_to(start, end - 1);
        let last = numbers.from_to(first, end - 1);
        let mut next = section(numbers, (first, last + 1));
        let manner = numbers.below(3);
        if manner < 2 {
            for before in &made {
                for (i, j) in shared(&next, before) {
                    next.data[i] = before.data[j];
                }
            }
        }
        if manner == 1 {
            let spot = numbers.index(next.data.len());
            next.data[spot] ^= 1 << numbers.below(8);
        }
        made.push(next);
    }
    made
}

/// The number for a table, in whatever order its sections stand: whether they are all open,
/// and whether two store one address of kind 3, say it.
fn expected_number(open: bool, twice: bool) -> u64 {
    match (open, twice) {
        (false, _) => 9,
        (true, true) => 29,
        (true, false) => 0,
    }
}

/// How often each case of sections that share at random happened in one byte order.
#[derive(Debug, Default)]
struct AtRandom {
    /// Accepted, and all rearrangements leave one memory; some leave another.
    accepted: [u64; 2],
    /// Refused with 29, and all rearrangements have one place; some have another.
    again: [u64; 2],
    /// Refused with 9: no address of kind 3 is stored twice besides, or one is.
    closed: [u64; 2],
    /// Of the latter: in some rearrangement it is, before the first section that is not open.
    before: u64,
}

#[test]
fn rearrangements_where_sections_share_at_random() {
    let all: Vec<Vec<Vec<usize>>> = (0..=FEW).map(arrangements).collect();
    let mut numbers = Numbers::new(cases::seed(), 139);
    let mut seen: [AtRandom; 2] = Default::default();
    for _ in 0..CASES / 3 {
        let board = Board::made(&mut numbers, 60);
        let order = numbers.order();
        let wanted = numbers.from_to(1, 3) as usize;
        let strays = numbers.pick(&[0, 1]);
        let list = without_sharing(&mut numbers, &board, wanted, strays);
        let count = numbers.pick(&[2, 3, 4, 4, 5]);
        let list = sharing(&mut numbers, &list, count);
        if share_none(&list) {
            continue;
        }
        let made = with_entry(&mut numbers, &board, list, order);
        let twice = board.stores_again(&made.list);
        let number = expected_number(board.opens(&made), twice);
        let loaded = board.loaded(&made.table, order);
        let (mut memory, mut places, mut before) = (false, false, false);
        for arrangement in &all[count] {
            // The number is the same, and of an accepted table the whole answer. What memory
            // holds then, and a refusal's place and address, the reference says.
            let table = rearranged(&made, arrangement);
            let other = board.loaded(&table, order);
            assert_eq!(other.answer.number, number, "{table:02x?}");
            if number == 0 {
                assert_eq!(other.answer, accepted(&board, &[&made]), "{table:02x?}");
            }
            memory |= other.memory != loaded.memory;
            places |= other.answer.place != loaded.answer.place;
            if number == 9 && twice {
                let sections = arrangement.iter().map(|index| &made.list[*index]);
                let open = |section: &&Section| addresses(section).all(|at| board.is_open(at));
                before |= board.stores_again(sections.take_while(open));
            }
        }
        let seen = &mut seen[order as usize];
        match number {
            0 => seen.accepted[usize::from(memory)] += 1,
            29 => seen.again[usize::from(places)] += 1,
            _ => seen.closed[usize::from(twice)] += 1,
        }
        seen.before += u64::from(before);
    }
    println!("sharing at random: {seen:?}");
    for seen in seen {
        for times in [seen.accepted, seen.again, seen.closed].as_flattened() {
            assert!(*times >= CASES / 200, "{seen:?}");
        }
        assert!(seen.before >= CASES / 300);
    }
}

/// How often each case of joins of such tables happened in one byte order.
#[derive(Debug, Default)]
struct JoinedAtRandom {
    /// Accepted: no table alone leaves other memory with its sections backwards, one does,
    /// or each does.
    accepted: [u64; 3],
    /// Accepted under a map with kind 3.
    outside: u64,
    /// Refused with 29: one table stores an address of kind 3 twice, or each does.
    again: [u64; 2],
    /// Refused with 9: no address of kind 3 is stored twice besides, or one is.
    closed: [u64; 2],
    /// Of the latter: it is in one table, and the sections not open are in the other.
    in_two: u64,
}

#[test]
fn joins_of_tables_whose_own_sections_share() {
    let mut numbers = Numbers::new(cases::seed(), 140);
    let mut seen: [JoinedAtRandom; 2] = Default::default();
    for _ in 0..CASES {
        let board = Board::made(&mut numbers, 60);
        let order = numbers.order();
        let wanted = numbers.from_to(2, 5) as usize;
        let strays = numbers.pick(&[0, 0, 1]);
        // Sections that share no address are dealt out, and each table has sections of any
        // addresses of its own.
        let mut parts = [Vec::new(), Vec::new()];
        for section in without_sharing(&mut numbers, &board, wanted, strays) {
            parts[numbers.index(2)].push(section);
        }
        let tables = parts.map(|part| {
            let count = numbers.pick(&[1, 2, 3, 3, 4]);
            let list = sharing(&mut numbers, &part, count);
            with_entry(&mut numbers, &board, list, order)
        });
        let [a, b] = &tables;
        let one_empty = a.list.is_empty() || b.list.is_empty();
        if one_empty || share_none(&a.list) && share_none(&b.list) {
            continue;
        }
        let [of_a, of_b] = [a, b].map(|table| -> HashSet<u64> {
            let all = table.list.iter().flat_map(addresses);
            all.collect()
        });
        assert!(of_a.is_disjoint(&of_b));

        let open = [a, b].map(|table| board.opens(table));
        let twice = [a, b].map(|table| board.stores_again(&table.list));
        let any_twice = twice != [false; 2];
        let number = expected_number(open == [true; 2], any_twice);
        both_ways(&mut numbers, &board, [a, b], number);

        let seen = &mut seen[order as usize];
        match number {
            0 => {
                let matters = |table: &&Made| {
                    let backwards: Vec<usize> = (0..table.list.len()).rev().collect();
                    let other = board.loaded(&rearranged(table, &backwards), order);
                    other.memory != board.loaded(&table.table, order).memory
                };
                seen.accepted[[a, b].into_iter().filter(matters).count()] += 1;
                seen.outside += u64::from(!board.regions.once.is_empty());
            }
            29 => seen.again[usize::from(twice == [true; 2])] += 1,
            _ => {
                seen.closed[usize::from(any_twice)] += 1;
                // One table stores an address twice and is open, the other does not and is not.
                seen.in_two += u64::from(any_twice && open == twice);
            }
        }
    }
    println!("joins of tables that share at random: {seen:?}");
    for seen in seen {
        let refused = [seen.again, seen.closed];
        for times in seen.accepted.iter().chain(refused.as_flattened()) {
            assert!(*times >= CASES / 200, "{seen:?}");
        }
        assert!(seen.in_two >= CASES / 200 && seen.outside >= CASES / 200);
    }
}

//! The library and the reference on generated cases: every field of every
//! answer and every byte of every buffer. Each refusal of each call must be hit
//! at least a hundred times: those of judging, loading, the join, the writer, what
//! stands at an address and the rescue in each byte order, and the refusals of one
//! of two tables for the first and for the second. A table written in the other
//! order must be refused as often, and the same is asked of each outcome of a load
//! under a map with kind 3, of each kind of list that the writer is given, of each
//! kind of address that is asked for and of the tables it is asked of, and of each
//! kind of table that is rescued and of output that is lent for it. 6 is withdrawn
//! and must never be answered.

use second::cases::{
    self, ConfigCase, FindCase, JoinCase, LoadCase, Numbers, RescueCase, WriteCase,
};
use second::reference::{
    ByteOrder, FindAnswer, JoinAnswer, Kind, ListSection, RescueAnswer, WriteAnswer, CONFIG_LIMIT,
    TABLE_LIMIT, TOP,
};
use second::{calls, reference};
use std::collections::HashMap;
use std::fmt::Debug;

/// Each refusal must be hit at least so often.
const FLOOR: u64 = 100;
/// The refusal that is withdrawn: no call answers it.
const WITHDRAWN: u64 = 6;
/// The refusals of judging, those of loading, those of the join that name no
/// table, and those that name one, which are also all that there are for an
/// address.
const OF_JUDGING: &[usize] = &[1, 2, 4, 5, 7, 8, 9, 29];
const OF_LOADS: &[usize] = &[1, 2, 3, 4, 5, 7, 8, 9, 29];
const OF_JOINS: &[usize] = &[10, 11];
const OF_JOINED: &[usize] = &[4, 5, 7, 8];
/// The refusals of the writer.
const OF_WRITES: &[usize] = &[8, 10, 11, 20, 21];
/// The refusals of the rescue.
const OF_RESCUES: &[usize] = &[4, 5, 10, 11];
/// The refusals of the calls that read no boot table.
const OF_OTHERS: &[usize] = &[12, 13, 14, 15, 16, 17, 18, 19];
/// A run with fewer cases is a quick look, of which so many are not asked for.
const FEWEST: u64 = 300_000;
/// Bytes before and after a lent buffer that no call may touch.
const GUARD: usize = 16;

/// How often each number was answered; 0 is acceptance, and 29 is the highest.
#[derive(Default)]
struct Hits([u64; 30]);

impl Hits {
    fn add(&mut self, number: u64) {
        assert_ne!(number, WITHDRAWN, "a refusal that is withdrawn");
        self.0[number as usize] += 1;
    }

    /// Prints the counts, and asks for enough of each of these refusals in a
    /// full run, and for no other.
    fn close(&self, name: &str, refusals: &[usize], full: bool) {
        println!("{name}: {:?}", self.0);
        for (number, times) in self.0.iter().enumerate().skip(1) {
            let right = match refusals.contains(&number) {
                true => *times >= FLOOR || !full,
                false => *times == 0,
            };
            assert!(right, "{name}: refusal {number} was hit {times} times");
        }
    }
}

/// Loads under maps with kind 3, of tables that store an address of kind 3.
#[derive(Debug, Default)]
struct OnceHits {
    /// Accepted, with two sections or more that store such addresses.
    accepted: u64,
    /// Accepted, with an address of kind 1 that is stored twice.
    shared: u64,
    /// Accepted, with two sections that touch in kind 3.
    touching: u64,
    /// Accepted, with a section that has addresses of kinds 3 and 1.
    across: u64,
    /// Refused with 29.
    repeated: u64,
    /// Refused with 29, for no address of the section right before.
    behind: u64,
    /// Refused with 9, with an address of kind 3 that is stored twice.
    closed: u64,
}

impl OnceHits {
    fn add(&mut self, case: &LoadCase, number: u64, place: u64) {
        let Ok(records) = reference::read_map(&case.map) else {
            return;
        };
        if records.iter().all(|record| record.kind != Kind::OneWrite) {
            return;
        }
        let Ok(table) = reference::read_table(&case.table, case.order) else {
            return;
        };
        // How often each address is stored.
        let mut times: HashMap<u64, u64> = HashMap::new();
        for section in &table.sections {
            for i in 0..section.data.len() as u64 {
                *times.entry(section.address + i).or_default() += 1;
            }
        }
        let once = |address: &u64| reference::takes_one_write(&records, *address);
        let twice = |kind_3: bool| {
            let mut all = times.iter();
            all.any(|(address, times)| *times > 1 && once(address) == kind_3)
        };
        if !times.keys().any(once) {
            return;
        }
        // The addresses of each section, and of these the ones of kind 3.
        let addresses = |section: &reference::Section| {
            let first = section.address;
            first..first + section.data.len() as u64
        };
        let kind_3 = |section: &reference::Section| -> Vec<u64> {
            addresses(section).filter(|address| once(address)).collect()
        };
        let sections = &table.sections;
        if number == 0 {
            let storing = sections
                .iter()
                .filter(|section| !kind_3(section).is_empty());
            self.accepted += u64::from(storing.count() > 1);
            self.shared += u64::from(twice(false));
            let ends = sections.iter().map(|section| addresses(section).end);
            self.touching += u64::from(ends.into_iter().any(|end| {
                once(&end) && once(&(end - 1)) && sections.iter().any(|next| next.address == end)
            }));
            self.across += u64::from(sections.iter().any(|section| {
                let of_kind_3 = kind_3(section).len();
                of_kind_3 > 0 && of_kind_3 < section.data.len()
            }));
        }
        if number == 29 {
            self.repeated += 1;
            let at = sections
                .iter()
                .position(|section| section.offset as u64 == place)
                .expect("a section stands at the place");
            let before = kind_3(&sections[at - 1]);
            let here = kind_3(&sections[at]);
            self.behind += u64::from(!here.iter().any(|address| before.contains(address)));
        }
        self.closed += u64::from(number == 9 && twice(true));
    }

    fn close(&self, name: &str, full: bool) {
        println!("{name}, loads under kind 3: {self:?}");
        for times in [
            self.accepted,
            self.shared,
            self.touching,
            self.across,
            self.repeated,
            self.behind,
            self.closed,
        ] {
            assert!(times >= FLOOR || !full, "{name}: too few under kind 3");
        }
    }
}

/// Lists that the writer was given.
#[derive(Debug, Default)]
struct ListHits {
    /// Accepted, with a section that has none, one, two and three pads.
    pads: [u64; 4],
    /// Accepted, with no section.
    empty: u64,
    /// Accepted, with a section that shares data with the one before.
    shared: u64,
    /// Accepted, with a section that goes on where the one before ends, in
    /// address and in data.
    touching: u64,
    /// Accepted, with a section one to three addresses past the one before.
    near: u64,
    /// Accepted, with a section below the one before.
    falling: u64,
    /// Accepted, with a section that ends at the top, and at the data's end.
    at_top: u64,
    at_data_end: u64,
    /// Accepted, with an output longer than the table.
    longer: u64,
    /// Refused with 21, where the start is at the data's end, and past it.
    zero_at_end: u64,
    zero_past: u64,
    /// Refused with 20, where the start is at the data's end, and where the
    /// section runs past the top too.
    past_at_end: u64,
    past_both: u64,
    /// Refused with 20, where start plus size is no longer past the data if
    /// taken in 32 bits.
    wraps: u64,
    /// Refused at a section that is not the first.
    later: u64,
    /// Refused, with a later section that has another fault.
    several: u64,
    /// Refused for a section, where the others alone are over the limit.
    long: u64,
}

impl ListHits {
    fn add(&mut self, case: &WriteCase, answer: &WriteAnswer) {
        let data_length = case.data.len() as u64;
        let numbers = |section: &ListSection| {
            let ListSection {
                address,
                start,
                size,
            } = *section;
            [address, start, size].map(u64::from)
        };
        // The first fault of a section, or 0.
        let fault = |section: &ListSection| match numbers(section) {
            [_, _, 0] => 21,
            [_, start, size] if start + size > data_length => 20,
            [address, _, size] if address + size > TOP => 8,
            _ => 0,
        };
        let any = |test: &dyn Fn([u64; 3]) -> bool| {
            let mut list = case.list.iter();
            u64::from(list.any(|section| test(numbers(section))))
        };
        // Of two sections that follow each other.
        let pair = |test: &dyn Fn([u64; 3], [u64; 3]) -> bool| {
            let mut pairs = case.list.windows(2);
            u64::from(pairs.any(|pair| test(numbers(&pair[0]), numbers(&pair[1]))))
        };
        if answer.number == 0 {
            for (count, times) in self.pads.iter_mut().enumerate() {
                *times += any(&|[_, _, size]| (size + count as u64).is_multiple_of(4));
            }
            self.empty += u64::from(case.list.is_empty());
            self.shared +=
                pair(&|[_, one, size], [_, two, other]| one < two + other && two < one + size);
            self.touching += pair(&|[address, start, size], [next, goes_on, _]| {
                next == address + size && goes_on == start + size
            });
            self.near += pair(&|[address, _, size], [next, _, _]| {
                (1..=3).any(|gap| next == address + size + gap)
            });
            self.falling += pair(&|[address, _, _], [next, _, _]| next < address);
            self.at_top += any(&|[address, _, size]| address + size == TOP);
            self.at_data_end += any(&|[_, start, size]| start + size == data_length);
            self.longer += u64::from(case.output.len() as u64 > answer.length);
        }
        if !matches!(answer.number, 8 | 20 | 21) {
            return;
        }
        let (before, rest) = case.list.split_at(answer.place as usize);
        let [address, start, size] = numbers(&rest[0]);
        let refused = |number: u64, also: bool| u64::from(answer.number == number && also);
        self.zero_at_end += refused(21, start == data_length);
        self.zero_past += refused(21, start > data_length);
        self.past_at_end += refused(20, start == data_length);
        self.past_both += refused(20, address + size > TOP);
        self.wraps += refused(20, (start + size) % TOP <= data_length);
        self.later += u64::from(!before.is_empty());
        let mut others = rest[1..].iter().map(fault);
        let another = others.any(|other| other != 0 && other != answer.number);
        self.several += u64::from(another);
        let good = case.list.iter().filter(|section| fault(section) == 0);
        let length: u64 = good.map(|section| u64::from(section.size)).sum();
        self.long += u64::from(length > TABLE_LIMIT as u64);
    }

    fn close(&self, name: &str, full: bool) {
        println!("{name}, lists: {self:?}");
        let mut all = vec![
            self.empty,
            self.shared,
            self.touching,
            self.near,
            self.falling,
            self.at_top,
            self.at_data_end,
            self.longer,
            self.zero_at_end,
            self.zero_past,
            self.past_at_end,
            self.past_both,
            self.wraps,
            self.later,
            self.several,
            self.long,
        ];
        all.extend(self.pads);
        for times in all {
            assert!(times >= FLOOR || !full, "{name}: too few lists of a kind");
        }
    }
}

/// What stood at the addresses that were asked for. Of a pair of counts the first
/// is the older table's and the second the newer's.
#[derive(Debug, Default)]
struct FindHits {
    /// The address is covered by two sections or more of the table that decides.
    several: [u64; 2],
    /// The section that decides is not the last of its table.
    not_last: [u64; 2],
    /// The newer table decides, and the older covers the address too; only the
    /// newer covers it.
    both: u64,
    newer_only: u64,
    /// The older table decides, and a section of the newer ends right before the
    /// address; one begins right past it.
    newer_before: u64,
    newer_past: u64,
    /// The address is the first, the last or another of a section with more than
    /// one, and the only one of a section.
    first: u64,
    last: u64,
    between: u64,
    only: u64,
    /// The section that decides has none, one, two and three pads.
    pads: [u64; 4],
    /// A table covers the address, which is the lowest of all, and the highest.
    lowest: u64,
    highest: u64,
    /// The address is another one of a section that ends at the top.
    to_top: u64,
    /// Neither table covers the address, which is one before a section, one past
    /// it, and so little past it that a pad stands there.
    before: u64,
    past: u64,
    on_pads: u64,
    /// Neither table covers the address, which is the lowest while a section ends at
    /// the top, and the highest while a section begins at the lowest.
    past_top: u64,
    before_lowest: u64,
    /// Only the older table has no section, only the newer, both.
    empty: [u64; 3],
    /// The table is refused, and the other has no fault and covers the address.
    other_covers: [u64; 2],
    /// The table is refused, and a section before the fault covers the address.
    behind: [u64; 2],
    /// Both tables have a fault.
    both_refused: u64,
    /// The table is refused with 5 and was written in the other order; both were.
    turned: [u64; 2],
    both_turned: u64,
}

impl FindHits {
    fn add(&mut self, case: &FindCase, answer: &FindAnswer) {
        let address = u64::from(case.address);
        let tables = [&case.older, &case.newer];
        let read = tables.map(|table| reference::read_table(table, case.order));
        let end = |section: &reference::Section| section.address + section.data.len() as u64;
        let covers =
            |section: &&reference::Section| section.address <= address && address < end(section);
        let covered = |table: &reference::Table| table.sections.iter().any(|one| covers(&one));
        let [Ok(older), Ok(newer)] = &read else {
            let refused = answer.table as usize - 1;
            let other = &read[1 - refused];
            self.other_covers[refused] += u64::from(other.as_ref().is_ok_and(covered));
            // The sections before the fault are a table with a zero word of its own.
            // Before 7 it has that word already.
            let mut before = match answer.number {
                4 => Vec::new(),
                _ => tables[refused][..answer.place as usize].to_vec(),
            };
            if answer.number != 7 {
                before.extend([0; 4]);
            }
            let before = reference::read_table(&before, case.order);
            self.behind[refused] += u64::from(before.is_ok_and(|table| covered(&table)));
            self.both_refused += u64::from(read.iter().all(Result::is_err));
            let turned = tables.map(|table| turned(table, case.order));
            self.turned[refused] += u64::from(answer.number == 5 && turned[refused]);
            self.both_turned += u64::from(answer.number == 5 && turned == [true; 2]);
            return;
        };
        match [older, newer].map(|table| table.sections.is_empty()) {
            [true, false] => self.empty[0] += 1,
            [false, true] => self.empty[1] += 1,
            [true, true] => self.empty[2] += 1,
            [false, false] => {}
        }
        if answer.table == 0 {
            let any = |test: &dyn Fn(&reference::Section) -> bool| {
                let mut all = older.sections.iter().chain(&newer.sections);
                u64::from(all.any(test))
            };
            self.before += any(&|section| address + 1 == section.address);
            self.past += any(&|section| address == end(section));
            self.on_pads += any(&|section| {
                let past = end(section);
                past <= address && address < past + section.pads.len() as u64
            });
            self.past_top += any(&|section| address == 0 && end(section) == TOP);
            self.before_lowest += any(&|section| address == TOP - 1 && section.address == 0);
            return;
        }
        let decides = answer.table as usize - 1;
        let sections = &[older, newer][decides].sections;
        let covering: Vec<_> = sections.iter().filter(covers).collect();
        let section = covering[covering.len() - 1];
        self.several[decides] += u64::from(covering.len() > 1);
        let last = &sections[sections.len() - 1];
        self.not_last[decides] += u64::from(section.offset != last.offset);
        self.both += u64::from(decides == 1 && covered(older));
        self.newer_only += u64::from(decides == 1 && !covered(older));
        let newer_has = |test: &dyn Fn(&reference::Section) -> bool| {
            u64::from(decides == 0 && newer.sections.iter().any(test))
        };
        self.newer_before += newer_has(&|other| end(other) == address);
        self.newer_past += newer_has(&|other| address + 1 == other.address);
        let is_first = address == section.address;
        let is_last = address + 1 == end(section);
        *match (is_first, is_last) {
            (true, false) => &mut self.first,
            (false, true) => &mut self.last,
            (false, false) => &mut self.between,
            (true, true) => &mut self.only,
        } += 1;
        self.pads[section.pads.len()] += 1;
        self.lowest += u64::from(address == 0);
        self.highest += u64::from(address == TOP - 1);
        self.to_top += u64::from(end(section) == TOP && !is_last);
    }

    fn close(&self, name: &str, full: bool) {
        println!("{name}, addresses: {self:?}");
        for (kind, counts) in [
            ("several", &self.several[..]),
            ("not_last", &self.not_last),
            ("both", &[self.both]),
            ("newer_only", &[self.newer_only]),
            ("newer_before", &[self.newer_before]),
            ("newer_past", &[self.newer_past]),
            ("first", &[self.first]),
            ("last", &[self.last]),
            ("between", &[self.between]),
            ("only", &[self.only]),
            ("pads", &self.pads),
            ("lowest", &[self.lowest]),
            ("highest", &[self.highest]),
            ("to_top", &[self.to_top]),
            ("before", &[self.before]),
            ("past", &[self.past]),
            ("on_pads", &[self.on_pads]),
            ("past_top", &[self.past_top]),
            ("before_lowest", &[self.before_lowest]),
            ("empty", &self.empty),
            ("other_covers", &self.other_covers),
            ("behind", &self.behind),
            ("both_refused", &[self.both_refused]),
            ("turned", &self.turned),
            ("both_turned", &[self.both_turned]),
        ] {
            let enough = counts.iter().all(|times| *times >= FLOOR);
            assert!(enough || !full, "{name}: too few, {kind} {counts:?}");
        }
    }
}

/// Tables that were to be rescued, and the outputs for them.
#[derive(Debug, Default)]
struct RescueHits {
    /// Refused with 5, with none, one, two and three bytes.
    entry: [u64; 4],
    /// Refused with 11: the output is one byte short, has no byte, and is as long as
    /// the table.
    short: u64,
    no_output: u64,
    as_table: u64,
    /// Accepted, with an output of the result's length, a longer one, and one shorter
    /// than the table. All counts that follow are of tables that were accepted.
    exact: u64,
    longer: u64,
    below_table: u64,
    /// Well-formed, without sections and with some.
    whole: [u64; 2],
    /// Up to three bytes stand after the zero word, four or more, and such as begin
    /// with a whole section.
    after: [u64; 3],
    /// Cut right behind the entry, right behind a section, in a size word or the zero
    /// word, right behind a size word, in an address word, right behind one, in data,
    /// and in pads.
    cut: [u64; 8],
    /// Cut with one, two and three zero bytes behind the sections.
    zeros: [u64; 3],
    /// Cut by one byte.
    by_one: u64,
    /// Cut, where the size rounded up to a multiple of four is 2^32, and where it is
    /// less but comes to as much with the two words.
    wraps: [u64; 2],
    /// Stopped at a section past the top by one byte, by more, and at one that is cut
    /// and past the top.
    past_top: [u64; 3],
    /// A section is kept that ends at the top.
    at_top: u64,
    /// A section is kept that has one, two and three pads which are not all zero.
    pads: [u64; 3],
    /// Stopped at a section, with none before it, and with one or more.
    stopped: [u64; 2],
    /// Stopped at a section past the top, with a whole one behind it.
    behind: u64,
    /// More than twenty sections are kept.
    many: u64,
    /// Written in the other order, with no section kept.
    turned: u64,
}

impl RescueHits {
    fn add(&mut self, case: &RescueCase, answer: &RescueAnswer) {
        let RescueCase {
            table,
            order,
            output,
        } = case;
        let (order, room, length) = (*order, output.len() as u64, table.len() as u64);
        match answer.number {
            5 => self.entry[table.len()] += 1,
            11 => {
                // The same with room says how long the result is.
                let result = reference::rescue(table, order, &mut vec![0; table.len() + 4]);
                self.short += u64::from(room + 1 == result.length);
                self.no_output += u64::from(room == 0);
                self.as_table += u64::from(room == length);
            }
            _ => {}
        }
        if answer.number != 0 {
            return;
        }
        self.exact += u64::from(room == answer.length);
        self.longer += u64::from(room > answer.length);
        self.below_table += u64::from(room < length);
        self.turned += u64::from(answer.sections == 0 && turned(table, order));

        // Whether bytes at an offset begin with a whole section: with a zero word
        // behind it that is a table.
        let section_at = |at: usize| {
            let part = &table[at..];
            (12..=part.len()).step_by(4).any(|end| {
                let one = [&[0; 4], &part[..end], &[0; 4]].concat();
                reference::read_table(&one, order).is_ok()
            })
        };
        let fault = reference::read_table(table, order);
        // The sections before the fault, and where they end.
        let at = cases::whole_sections_end(table, order);
        let front = [&table[..at], &[0; 4]].concat();
        let kept = reference::read_table(&front, order).expect("whole sections");
        let kept = kept.sections;
        let any = |test: &dyn Fn(&reference::Section) -> bool| u64::from(kept.iter().any(test));
        let end = |section: &reference::Section| section.address + section.data.len() as u64;
        self.at_top += any(&|section| end(section) == TOP);
        self.many += u64::from(kept.len() > 20);
        for (count, times) in (1..).zip(&mut self.pads) {
            *times += any(&|section| {
                section.pads.len() == count && section.pads.iter().any(|pad| *pad != 0)
            });
        }
        let left = &table[at..];
        let Err(refusal) = fault else {
            self.whole[usize::from(!kept.is_empty())] += 1;
            return;
        };
        if refusal.number == 7 {
            let after = left.len() - 4;
            self.after[usize::from(after > 3)] += 1;
            self.after[2] += u64::from(section_at(at + 4));
            return;
        }
        if left.len() < 4 {
            *match (left.len(), kept.is_empty()) {
                (0, true) => &mut self.cut[0],
                (0, false) => &mut self.cut[1],
                _ => &mut self.cut[2],
            } += 1;
            if !left.is_empty() && left.iter().all(|byte| *byte == 0) {
                self.zeros[left.len() - 1] += 1;
            }
            return;
        }
        self.stopped[usize::from(!kept.is_empty())] += 1;
        let word = |at: usize| {
            let bytes = left.get(at..at + 4)?.try_into().expect("four bytes");
            Some(match order {
                ByteOrder::HighFirst => u64::from(u32::from_be_bytes(bytes)),
                ByteOrder::LowFirst => u64::from(u32::from_le_bytes(bytes)),
            })
        };
        let size = word(0).expect("a size word");
        let padded = size.next_multiple_of(4);
        let over = word(4).map_or(0, |address| (address + size).saturating_sub(TOP));
        if refusal.number == 8 {
            self.past_top[usize::from(over > 1)] += 1;
            self.behind += u64::from(section_at(at + 8 + padded as usize));
            return;
        }
        self.past_top[2] += u64::from(over > 0);
        let left = left.len() as u64;
        self.by_one += u64::from(left + 1 == 8 + padded);
        if 8 + padded >= TOP {
            self.wraps[usize::from(padded < TOP)] += 1;
        }
        self.cut[match left {
            4 => 3,
            5..=7 => 4,
            8 => 5,
            _ if left < 8 + size => 6,
            _ => 7,
        }] += 1;
    }

    fn close(&self, name: &str, full: bool) {
        println!("{name}, rescues: {self:?}");
        for (kind, counts) in [
            ("entry", &self.entry[..]),
            ("short", &[self.short]),
            ("no_output", &[self.no_output]),
            ("as_table", &[self.as_table]),
            ("exact", &[self.exact]),
            ("longer", &[self.longer]),
            ("below_table", &[self.below_table]),
            ("whole", &self.whole),
            ("after", &self.after),
            ("cut", &self.cut),
            ("zeros", &self.zeros),
            ("by_one", &[self.by_one]),
            ("wraps", &self.wraps),
            ("past_top", &self.past_top),
            ("at_top", &[self.at_top]),
            ("pads", &self.pads),
            ("stopped", &self.stopped),
            ("behind", &[self.behind]),
            ("many", &[self.many]),
            ("turned", &[self.turned]),
        ] {
            let enough = counts.iter().all(|times| *times >= FLOOR);
            assert!(enough || !full, "{name}: too few, {kind} {counts:?}");
        }
    }
}

/// The counts of the calls over boot tables of one order.
#[derive(Default)]
struct TableHits {
    judge: Hits,
    load: Hits,
    once: OnceHits,
    write: Hits,
    lists: ListHits,
    /// By the table that the answer names: none, the first, the second.
    join: [Hits; 3],
    /// By the table that the answer names: none, the older, the newer.
    find: [Hits; 3],
    finds: FindHits,
    rescue: Hits,
    rescues: RescueHits,
    /// Loads refused with 5 of tables that were written in the other order.
    turned: u64,
}

impl TableHits {
    fn add_join(&mut self, answer: &JoinAnswer) {
        self.join[answer.table as usize].add(answer.number);
    }

    fn add_find(&mut self, answer: &FindAnswer) {
        self.find[answer.table as usize].add(answer.number);
    }

    fn close(&self, name: &str, full: bool) {
        let [none, first, second] = &self.join;
        self.judge
            .close(&format!("{name}, judge"), OF_JUDGING, full);
        self.load.close(&format!("{name}, load"), OF_LOADS, full);
        self.once.close(name, full);
        self.write.close(&format!("{name}, write"), OF_WRITES, full);
        self.lists.close(name, full);
        none.close(&format!("{name}, join"), OF_JOINS, full);
        for (table, hits) in [(1, first), (2, second)] {
            let name = format!("{name}, join, table {table}");
            hits.close(&name, OF_JOINED, full);
            assert_eq!(hits.0[0], 0, "{name}: an acceptance names no table");
        }
        for (table, hits) in self.find.iter().enumerate() {
            let name = format!("{name}, find, table {table}");
            // A refusal names a table.
            let refusals = if table == 0 { &[] } else { OF_JOINED };
            hits.close(&name, refusals, full);
            assert!(hits.0[0] >= FLOOR || !full, "{name}: too few accepted");
        }
        self.finds.close(name, full);
        let named = format!("{name}, rescue");
        self.rescue.close(&named, OF_RESCUES, full);
        self.rescues.close(name, full);
        println!("{name}, written in the other order: {}", self.turned);
        assert!(
            self.turned >= FLOOR || !full,
            "{name}: too few in the other order"
        );
    }
}

/// Whether a table was written in the other order: read in it the table is
/// well-formed, with more than one section, since one size word alone may have been
/// turned.
fn turned(table: &[u8], order: ByteOrder) -> bool {
    let other = reference::read_table(table, order.other());
    other.is_ok_and(|table| table.sections.len() > 1)
}

/// A buffer between guard bytes.
fn guarded<T: Copy>(buffer: &[T], guard: T) -> Vec<T> {
    let mut whole = vec![guard; GUARD];
    whole.extend(buffer);
    whole.extend([guard; GUARD]);
    whole
}

/// A guarded output has the bytes that it had, but for a result of so many at its
/// front; after a refusal the length is 0.
fn assert_outside(lent: &[u8], before: &[u8], length: u64, case: &impl Debug) {
    let result = GUARD..GUARD + length as usize;
    assert_eq!(
        lent[..result.start],
        before[..result.start],
        "before the output of {case:?}"
    );
    assert_eq!(
        lent[result.end..],
        before[result.end..],
        "past the result of {case:?}"
    );
}

fn compare_load(case: &LoadCase, hits: &mut [TableHits; 2]) {
    let LoadCase {
        map,
        table,
        order,
        memory,
    } = case;
    let order = *order;
    let lent_map = map.clone();
    let lent_table = table.clone();

    assert_eq!(
        calls::map(&lent_map),
        reference::map(map),
        "map of {case:?}"
    );
    let judged = calls::judge(&lent_map, &lent_table, order);
    let expected = reference::judge(map, table, order);
    assert_eq!(judged, expected, "judging {case:?}");

    let before = guarded(memory, 0xC9);
    let mut lent = before.clone();
    let mut other = before.clone();
    let range = GUARD..GUARD + memory.len();
    let answer = calls::load(&lent_map, &lent_table, order, &mut lent[range.clone()]);
    let expected = reference::load(map, table, order, &mut other[range]);
    assert_eq!(answer, expected, "loading {case:?}");
    assert_eq!(lent, other, "memory after loading {case:?}");
    if answer.number != 0 {
        assert_eq!(lent, before, "memory after the refusal of {case:?}");
    }
    assert_eq!(&lent_map, map, "the map is only read");
    assert_eq!(&lent_table, table, "the table is only read");

    let hits = &mut hits[order as usize];
    hits.judge.add(judged.number);
    hits.load.add(answer.number);
    hits.once.add(case, answer.number, answer.place);
    hits.turned += u64::from(answer.number == 5 && turned(table, order));
}

fn compare_join(case: &JoinCase, hits: &mut [TableHits; 2]) {
    let JoinCase {
        first,
        second,
        order,
        output,
    } = case;
    let order = *order;
    let lent_first = first.clone();
    let lent_second = second.clone();
    let before = guarded(output, 0x9C);
    let mut lent = before.clone();
    let mut other = before.clone();
    let range = GUARD..GUARD + output.len();
    let answer = calls::join(&lent_first, &lent_second, order, &mut lent[range.clone()]);
    let expected = reference::join(first, second, order, &mut other[range]);
    assert_eq!(answer, expected, "joining {case:?}");
    assert_eq!(lent, other, "output after joining {case:?}");
    assert_outside(&lent, &before, answer.length, case);
    assert_eq!(&lent_first, first, "the first table is only read");
    assert_eq!(&lent_second, second, "the second table is only read");
    hits[order as usize].add_join(&answer);
}

fn compare_write(case: &WriteCase, hits: &mut [TableHits; 2]) {
    let WriteCase {
        entry,
        list,
        data,
        order,
        output,
    } = case;
    let (entry, order) = (*entry, *order);
    let lent_list = list.clone();
    let lent_data = data.clone();
    let before = guarded(output, 0x9C);
    let mut lent = before.clone();
    let mut other = before.clone();
    let range = GUARD..GUARD + output.len();
    let answer = calls::write(
        entry,
        &lent_list,
        &lent_data,
        order,
        &mut lent[range.clone()],
    );
    let expected = reference::write(entry, list, data, order, &mut other[range]);
    assert_eq!(answer, expected, "writing {case:?}");
    assert_eq!(lent, other, "output after writing {case:?}");
    assert_outside(&lent, &before, answer.length, case);
    assert_eq!(&lent_list, list, "the list is only read");
    assert_eq!(&lent_data, data, "the data is only read");
    let hits = &mut hits[order as usize];
    hits.write.add(answer.number);
    hits.lists.add(case, &answer);
}

fn compare_find(case: &FindCase, hits: &mut [TableHits; 2]) {
    let FindCase {
        older,
        newer,
        order,
        address,
    } = case;
    let (order, address) = (*order, *address);
    let lent_older = older.clone();
    let lent_newer = newer.clone();
    let answer = calls::find(&lent_older, &lent_newer, order, address);
    let expected = reference::find(older, newer, order, address);
    assert_eq!(answer, expected, "what stands at the address of {case:?}");
    // What the wrapper cuts by the answer is the reference's part of the same table.
    let part = calls::part(&lent_older, &lent_newer, order, address);
    let expected = reference::part(&lent_older, &lent_newer, order, address);
    assert_eq!(
        part.as_ptr_range(),
        expected.as_ptr_range(),
        "where the part of {case:?} stands"
    );
    assert_eq!(&lent_older, older, "the older table is only read");
    assert_eq!(&lent_newer, newer, "the newer table is only read");
    let hits = &mut hits[order as usize];
    hits.add_find(&answer);
    hits.finds.add(case, &answer);
}

fn compare_rescue(case: &RescueCase, hits: &mut [TableHits; 2]) {
    let RescueCase {
        table,
        order,
        output,
    } = case;
    let order = *order;
    let lent_table = table.clone();
    let before = guarded(output, 0x9C);
    let mut lent = before.clone();
    let mut other = before.clone();
    let range = GUARD..GUARD + output.len();
    let answer = calls::rescue(&lent_table, order, &mut lent[range.clone()]);
    let expected = reference::rescue(table, order, &mut other[range]);
    assert_eq!(answer, expected, "rescuing {case:?}");
    assert_eq!(lent, other, "output after rescuing {case:?}");
    assert_outside(&lent, &before, answer.length, case);
    assert_eq!(&lent_table, table, "the table is only read");
    let hits = &mut hits[order as usize];
    hits.rescue.add(answer.number);
    hits.rescues.add(case, &answer);
}

fn compare_config(case: &ConfigCase, hits: &mut Hits) {
    let ConfigCase {
        table,
        addresses,
        values,
    } = case;
    let lent_table = table.clone();
    let lent_addresses = addresses.clone();
    let before = guarded(values, 0x9C9C_9C9C);
    let mut lent = before.clone();
    let mut other = before.clone();
    let range = GUARD..GUARD + values.len();
    let answer = calls::configure(&lent_table, &lent_addresses, &mut lent[range.clone()]);
    let expected = reference::configure(table, addresses, &mut other[range]);
    assert_eq!(answer, expected, "configuring {case:?}");
    assert_eq!(lent, other, "values after {case:?}");
    if answer.number != 0 {
        assert_eq!(lent, before, "values after the refusal of {case:?}");
    }
    assert_eq!(&lent_table, table, "the table is only read");
    assert_eq!(&lent_addresses, addresses, "the addresses are only read");
    hits.add(answer.number);
}

fn compare_strap(value: u32, other: u32, strict: bool, hits: &mut Hits) {
    let answer = calls::strap(value, strict);
    assert_eq!(answer, reference::strap(value, strict), "strap {value}");
    assert_eq!(
        calls::strap_short(value),
        reference::strap_short(value),
        "short entry, strap {value}"
    );
    assert_eq!(
        calls::strap_label(value),
        reference::strap_label(value),
        "label of strap {value}"
    );
    assert_eq!(
        calls::strap_same(value, other),
        reference::strap_same(value, other),
        "straps {value} and {other}"
    );
    hits.add(answer.number);
}

/// Rescues a large table with both, and answers what they answer. The output is not
/// printed.
fn rescued(table: &[u8], order: ByteOrder, output: &mut [u8]) -> RescueAnswer {
    let mut other = output.to_vec();
    let answer = calls::rescue(table, order, output);
    assert_eq!(answer, reference::rescue(table, order, &mut other));
    assert!(output == other, "output after rescuing a large table");
    answer
}

/// Rescues at the limit, of a table of one section with its zero word in the last four
/// bytes, of what is left when these are cut, and of tables whose sections take these
/// too. The large buffer is left as it came.
fn compare_large_rescues(
    numbers: &mut Numbers,
    large: &mut [u8],
    order: ByteOrder,
    hits: &mut TableHits,
) {
    let whole = large.to_vec();
    let mut accept = |table: &[u8], room: usize, unused: u64, added: u64| {
        let mut output = vec![0x9C; room];
        let answer = rescued(table, order, &mut output);
        let expected = RescueAnswer {
            length: TABLE_LIMIT as u64,
            sections: 1,
            unused,
            added,
            ..Default::default()
        };
        assert_eq!(answer, expected);
        assert!(output[..TABLE_LIMIT] == whole, "the table without a fault");
        hits.rescue.add(answer.number);
    };
    // The zero word stands there, is missing or cut, or a size stands in its place. Each
    // result just fits the limit.
    accept(large, TABLE_LIMIT, 0, 0);
    for left in 0..4 {
        let cut = &large[..TABLE_LIMIT - 4 + left];
        accept(cut, TABLE_LIMIT + left, left as u64, 1);
    }
    large[TABLE_LIMIT - 1] = 1;
    accept(large, TABLE_LIMIT + 4, 4, 1);
    large[TABLE_LIMIT - 1] = 0;
    // 11 by one byte.
    let short = rescued(large, order, &mut vec![0x9C; TABLE_LIMIT - 1]);
    assert_eq!(short.number, 11);
    hits.rescue.add(short.number);

    // 10: sections fill the table to its last byte, with pads or without, and the
    // output is short or has room.
    let word = |value: usize| cases::header_word(value as u32, order);
    for turn in 0..120 {
        let size = 4 * numbers.from_to(1, TABLE_LIMIT as u64 / 4 - 8) as usize;
        let next = 12 + size;
        let last = TABLE_LIMIT - next - 8 - numbers.index(4);
        let covered = large[next..next + 8].to_vec();
        large[4..8].copy_from_slice(&word(size));
        large[next..next + 8].copy_from_slice(&[word(last), word(0x2000_0000)].concat());
        let room = match turn {
            0 => TABLE_LIMIT + 4,
            _ => numbers.index(41),
        };
        let before = vec![0x9C; room];
        let mut output = before.clone();
        let answer = rescued(large, order, &mut output);
        assert_eq!(answer.number, 10);
        assert!(output == before, "output after 10");
        hits.rescue.add(answer.number);
        large[next..next + 8].copy_from_slice(&covered);
    }
    large.copy_from_slice(&whole);
}

/// Tables at and over the boot table's limit, which no case of `load_case`,
/// `join_case`, `find_case` and `rescue_case` reaches. One large buffer serves all of
/// them, and the buffers that are lent stay short, but for a few that take a rescued
/// table.
fn compare_large(numbers: &mut Numbers, order: ByteOrder, hits: &mut TableHits) {
    let map = cases::map(&[(1, 0x0080_0000, 16)]);
    let data = vec![0x5A; TABLE_LIMIT - 16];
    // One section: 16 bytes of words and the data fill the limit.
    let mut large = cases::table(0x0080_0000, &[(0x1000_0000, &data)], order);
    assert_eq!(large.len(), TABLE_LIMIT);
    let pads = cases::pads(numbers, 3);
    let small = cases::padded_table(0x0080_0004, &[(0x0080_0004, &[0xB7], &pads)], order);

    // 10: the join is at least one section over the limit.
    for _ in 0..120 {
        let before = numbers.bytes(40);
        let mut lent = before.clone();
        let mut other = before.clone();
        let mut pair = [&large[..], &small[..]];
        if numbers.once_in(2) {
            pair.reverse();
        }
        let length = numbers.index(41);
        let answer = calls::join(pair[0], pair[1], order, &mut lent[..length]);
        let expected = reference::join(pair[0], pair[1], order, &mut other[..length]);
        assert_eq!(answer, expected);
        assert_eq!(answer.number, 10);
        assert_eq!(lent, before);
        assert_eq!(other, before);
        hits.add_join(&answer);
    }

    // A section as long as the limit allows, of which no address is open.
    let mut memory = numbers.bytes(16);
    let before = memory.clone();
    let judged = calls::judge(&map, &large, order);
    assert_eq!(judged, reference::judge(&map, &large, order));
    hits.judge.add(judged.number);
    let answer = calls::load(&map, &large, order, &mut memory);
    assert_eq!(
        answer,
        reference::load(&map, &large, order, &mut before.clone())
    );
    assert_eq!(answer.number, 9);
    assert_eq!(memory, before);
    hits.load.add(answer.number);

    // Addresses at the edges of that section and in it.
    let any = numbers.below(TABLE_LIMIT as u64 - 16) as u32;
    for skipped in [0, 1, any, TABLE_LIMIT as u32 - 17, TABLE_LIMIT as u32 - 16] {
        let address = 0x1000_0000 + skipped;
        for (older, newer) in [(&large, &small), (&small, &large)] {
            let answer = calls::find(older, newer, order, address);
            assert_eq!(answer, reference::find(older, newer, order, address));
            assert_eq!((answer.number, answer.read), (0, 24));
            let part = calls::part(older, newer, order, address);
            let expected = reference::part(older, newer, order, address);
            assert_eq!(part.as_ptr_range(), expected.as_ptr_range());
            hits.add_find(&answer);
        }
    }

    compare_large_rescues(numbers, &mut large, order, hits);

    // 4: over the limit by 1 to 64 bytes, whatever the bytes are.
    large.extend([0; 64]);
    for _ in 0..120 {
        let over = &large[..TABLE_LIMIT + numbers.from_to(1, 64) as usize];
        let mut lent = before.clone();
        let answer = rescued(over, order, &mut lent);
        assert_eq!(lent, before);
        assert_eq!(answer.number, 4);
        hits.rescue.add(answer.number);
        let judged = calls::judge(&map, over, order);
        assert_eq!(judged, reference::judge(&map, over, order));
        hits.judge.add(judged.number);
        let mut lent = before.clone();
        let answer = calls::load(&map, over, order, &mut lent);
        assert_eq!(
            answer,
            reference::load(&map, over, order, &mut before.clone())
        );
        assert_eq!(lent, before);
        assert_eq!(answer.number, 4);
        hits.load.add(answer.number);
        for (pair, table) in [([over, &small], 1), ([&small, over], 2), ([over, over], 1)] {
            let mut lent = before.clone();
            let answer = calls::join(pair[0], pair[1], order, &mut lent);
            let expected = reference::join(pair[0], pair[1], order, &mut before.clone());
            assert_eq!(answer, expected);
            assert_eq!(lent, before);
            assert_eq!((answer.number, answer.table), (4, table));
            hits.add_join(&answer);
            let answer = calls::find(pair[0], pair[1], order, 0x0080_0004);
            let expected = reference::find(pair[0], pair[1], order, 0x0080_0004);
            assert_eq!(answer, expected);
            assert_eq!((answer.number, answer.table), (4, table));
            hits.add_find(&answer);
        }
    }
}

/// Configuration tables at and over their limit.
fn compare_large_config(numbers: &mut Numbers, hits: &mut Hits) {
    for _ in 0..120 {
        let length = CONFIG_LIMIT + numbers.index(30);
        let mut table = cases::entries(&[(4, 1, 0)]).repeat(length / 12);
        table.resize(length, 0);
        // At the limit the last entry is made the end entry.
        let end = CONFIG_LIMIT - 12;
        if numbers.once_in(2) {
            table[end..CONFIG_LIMIT].fill(0);
        }
        let case = ConfigCase {
            table,
            addresses: vec![4],
            values: vec![numbers.word()],
        };
        compare_config(&case, hits);
    }
}

#[test]
fn generated_cases() {
    let seed = cases::seed();
    let count = cases::count();
    let full = count >= FEWEST;
    let mut tables = <[TableHits; 2]>::default();
    let mut others = Hits::default();

    // Of the cases a third are loads, and joins, lists to write, addresses and tables
    // to rescue are an eighth each; the rest is shared.
    let eighth = count / 8;
    let [loads, configs] = [count / 3, count / 10];
    let shares = [
        loads,
        eighth,
        eighth,
        eighth,
        eighth,
        configs,
        count - loads - 4 * eighth - configs,
    ];
    let mut numbers = Numbers::new(seed, 1);
    for _ in 0..shares[0] {
        compare_load(&cases::load_case(&mut numbers), &mut tables);
    }
    let mut numbers = Numbers::new(seed, 2);
    for _ in 0..shares[1] {
        compare_join(&cases::join_case(&mut numbers), &mut tables);
    }
    let mut numbers = Numbers::new(seed, 6);
    for _ in 0..shares[2] {
        compare_write(&cases::write_case(&mut numbers), &mut tables);
    }
    let mut numbers = Numbers::new(seed, 7);
    for _ in 0..shares[3] {
        compare_find(&cases::find_case(&mut numbers), &mut tables);
    }
    let mut numbers = Numbers::new(seed, 8);
    for _ in 0..shares[4] {
        compare_rescue(&cases::rescue_case(&mut numbers), &mut tables);
    }
    let mut numbers = Numbers::new(seed, 3);
    for _ in 0..shares[5] {
        compare_config(&cases::config_case(&mut numbers), &mut others);
    }
    let configures = others.0[0];
    let mut numbers = Numbers::new(seed, 4);
    for _ in 0..shares[6] {
        let value = cases::strap_value(&mut numbers);
        // At times the other value differs in one bit only.
        let other = match numbers.below(2) {
            0 => value ^ (1 << numbers.below(14)),
            _ => cases::strap_value(&mut numbers),
        };
        compare_strap(value, other, numbers.once_in(2), &mut others);
    }
    let straps = others.0[0] - configures;

    let mut numbers = Numbers::new(seed, 5);
    for order in ByteOrder::BOTH {
        compare_large(&mut numbers, order, &mut tables[order as usize]);
    }
    compare_large_config(&mut numbers, &mut others);

    let loads = tables.each_ref().map(|hits| hits.load.0[0]);
    let joins = tables.each_ref().map(|hits| hits.join[0].0[0]);
    let writes = tables.each_ref().map(|hits| hits.write.0[0]);
    let finds = tables
        .each_ref()
        .map(|hits| hits.find.iter().map(|hits| hits.0[0]).sum());
    let rescues = tables.each_ref().map(|hits| hits.rescue.0[0]);
    println!("seed {seed}, {count} cases; accepted, boot tables in each order:");
    println!("load {loads:?}, join {joins:?}, write {writes:?}, find {finds:?}");
    println!("rescue {rescues:?}, configure {configures}, strap {straps}");
    println!("how often each number was answered, from 0 on:");
    for order in ByteOrder::BOTH {
        tables[order as usize].close(&format!("{order:?}"), full);
    }
    others.close("others", OF_OTHERS, full);
    if full {
        // A tenth of each share, and of a share in two orders a tenth of its half.
        for (times, share) in [
            (loads[0], shares[0] / 2),
            (loads[1], shares[0] / 2),
            (joins[0], shares[1] / 2),
            (joins[1], shares[1] / 2),
            (writes[0], shares[2] / 2),
            (writes[1], shares[2] / 2),
            (finds[0], shares[3] / 2),
            (finds[1], shares[3] / 2),
            (rescues[0], shares[4] / 2),
            (rescues[1], shares[4] / 2),
            (configures, shares[5]),
            (straps, shares[6]),
        ] {
            assert!(times >= share / 10, "{times} of {share} were accepted");
        }
    }
}

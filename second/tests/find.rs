//! The laws of what stands at an address, on generated tables of either byte order
//! and through the calls of the archive: where the part lies and what its first byte
//! is after loading older and then newer, which table is named, the count of bytes
//! read, that no other words and bytes matter, the same over the join of both
//! tables and in the other order, and that a table is refused as in the join. The
//! part is cut by the offset and length that the library's find answers, since the
//! library's own part is not in the archive. Which section decides is read from the
//! generated sections, and an address's place in memory from the map by the
//! reference.

use second::calls;
use second::cases::{self, Numbers, Regions, Section};
use second::reference::{self, ByteOrder, FindAnswer};

/// Generated cases of each law.
const CASES: u64 = 60_000;

/// Whether a section covers an address.
fn covers(section: &Section, address: u32) -> bool {
    let first = u64::from(section.address);
    (first..first + section.data.len() as u64).contains(&u64::from(address))
}

/// The data from an address on, to its end, of the last section of a list that
/// covers it.
fn standing(list: &[Section], address: u32) -> Option<&[u8]> {
    let section = list.iter().rfind(|section| covers(section, address))?;
    Some(&section.data[(address - section.address) as usize..])
}

/// Two well-formed tables, the older first, with their sections, and an address.
struct Asked {
    lists: [Vec<Section>; 2],
    tables: [Vec<u8>; 2],
    order: ByteOrder,
    address: u32,
}

impl Asked {
    fn made(numbers: &mut Numbers, regions: &Regions) -> Asked {
        let order = numbers.order();
        let lists = [(); 2].map(|()| cases::sections(numbers, regions));
        let address = cases::asked(numbers, lists.each_ref().map(|list| &list[..]));
        let entries = [(); 2].map(|()| cases::entry(numbers, regions));
        Asked {
            tables: [0, 1].map(|i| cases::table_of(entries[i], &lists[i], order)),
            lists,
            order,
            address,
        }
    }

    fn find(&self) -> FindAnswer {
        let [older, newer] = &self.tables;
        calls::find(older, newer, self.order, self.address)
    }

    fn part(&self) -> &[u8] {
        let [older, newer] = &self.tables;
        calls::part(older, newer, self.order, self.address)
    }

    /// What stands at the address in the older and in the newer table.
    fn standing(&self) -> [Option<&[u8]>; 2] {
        self.lists
            .each_ref()
            .map(|list| standing(list, self.address))
    }

    /// The sections of both tables.
    fn sections(&self) -> u64 {
        self.lists.iter().map(|list| list.len() as u64).sum()
    }
}

#[test]
fn the_first_byte_is_what_older_and_then_newer_leave() {
    let mut numbers = Numbers::new(cases::seed(), 100);
    // By order and by the table that is named: the byte is compared. It is another
    // than memory held before; than loading newer and then older leaves; than the
    // first section of the table that covers the address has.
    let mut compared = [[0; 2]; 2];
    let (mut stored, mut by_table, mut by_section) = (0, 0, 0);
    for _ in 0..CASES {
        let regions = cases::lendable_map(&mut numbers);
        let asked = Asked::made(&mut numbers, &regions);
        let Asked {
            lists,
            tables,
            order,
            address,
        } = &asked;
        let answer = asked.find();
        assert_eq!((answer.number, answer.place), (0, 0));
        if answer.table == 0 {
            continue;
        }
        // The part lies in the table that is named, before its end word.
        let named = answer.table as usize - 1;
        let table = &tables[named];
        let end = answer.offset + answer.length;
        assert!(answer.length > 0 && end <= table.len() as u64 - 4);
        let part = asked.part();

        let before = numbers.bytes(regions.memory_size() as usize);
        let mut memory = before.clone();
        let accepted = |turns: [usize; 2], memory: &mut [u8]| {
            turns.iter().all(|turn| {
                let answer = calls::load(&regions.map, &tables[*turn], *order, memory);
                answer.number == 0
            })
        };
        if !accepted([0, 1], &mut memory) {
            continue;
        }
        let records = reference::read_map(&regions.map).expect("a sound map");
        let place = reference::place_of(&records, u64::from(*address)).expect("a loaded address");
        let place = place as usize;
        assert_eq!(part[0], memory[place], "{address:08x} in {tables:02x?}");
        compared[*order as usize][named] += 1;
        stored += u64::from(part[0] != before[place]);
        let mut turned = before;
        assert!(accepted([1, 0], &mut turned));
        by_table += u64::from(part[0] != turned[place]);
        let mut list = lists[named].iter();
        let first = list.find(|section| covers(section, *address));
        let first = first.expect("a section that covers the address");
        by_section += u64::from(part[0] != first.data[(address - first.address) as usize]);
    }
    println!("compared with memory: {compared:?}");
    println!("{stored} stored, {by_table} by table, {by_section} by section");
    let compared = compared.as_flattened();
    assert!(compared.iter().all(|times| *times >= CASES / 50));
    assert!(stored >= CASES / 10);
    assert!(by_table >= CASES / 50 && by_section >= CASES / 50);
}

#[test]
fn the_table_is_named_whose_section_decides() {
    let mut numbers = Numbers::new(cases::seed(), 101);
    // By the table that is named; both cover the address.
    let (mut named, mut both) = ([0; 3], 0);
    for _ in 0..CASES {
        let regions = cases::sound_map(&mut numbers);
        let asked = Asked::made(&mut numbers, &regions);
        let answer = asked.find();
        let (table, expected) = match asked.standing() {
            [_, Some(data)] => (2, data),
            [Some(data), None] => (1, data),
            [None, None] => (0, &[][..]),
        };
        assert_eq!((answer.number, answer.place), (0, 0));
        assert_eq!(answer.table, table, "{:02x?}", asked.tables);
        // To the end of the section's data, and no pads.
        assert_eq!(answer.length, expected.len() as u64);
        assert_eq!(asked.part(), expected);
        if table == 0 {
            assert_eq!(answer.offset, 0);
        }
        named[table as usize] += 1;
        both += u64::from(asked.standing().iter().all(Option::is_some));
    }
    println!("the table that is named: {named:?}, {both} in both");
    assert!(named.iter().all(|times| *times >= CASES / 20));
    assert!(both >= CASES / 20);
}

#[test]
fn eight_bytes_are_read_of_each_section_and_four_of_each_end_word() {
    let mut numbers = Numbers::new(cases::seed(), 102);
    // By the table that is named; more than 20 sections; none in one table, in both.
    let mut named = [0; 3];
    let (mut many, mut one_empty, mut both_empty) = (0, 0, 0);
    for _ in 0..CASES {
        let regions = cases::sound_map(&mut numbers);
        let asked = Asked::made(&mut numbers, &regions);
        let answer = asked.find();
        assert_eq!(answer.read, 8 * asked.sections() + 8);
        // Whatever the address is.
        let [older, newer] = &asked.tables;
        let other = calls::find(older, newer, asked.order, numbers.word());
        assert_eq!(other.read, answer.read);
        named[answer.table as usize] += 1;
        many += u64::from(asked.sections() > 20);
        match asked.lists.each_ref().map(|list| list.is_empty()) {
            [true, true] => both_empty += 1,
            [false, false] => {}
            _ => one_empty += 1,
        }
    }
    println!("bytes read: {named:?}, {many} with many sections");
    println!("{one_empty} with one table without sections, {both_empty} with two");
    assert!(named.iter().all(|times| *times >= CASES / 20));
    assert!(many >= CASES / 100 && one_empty >= CASES / 50 && both_empty >= CASES / 500);
}

#[test]
fn only_size_and_address_words_matter() {
    let mut numbers = Numbers::new(cases::seed(), 103);
    // By number and, where nothing is refused, by the table that is named.
    let (mut hits, mut named) = ([0; 9], [0; 3]);
    for _ in 0..CASES {
        let regions = cases::sound_map(&mut numbers);
        let Asked {
            mut lists,
            mut tables,
            order,
            address,
        } = Asked::made(&mut numbers, &regions);
        // The same sizes and addresses, with another entry, data and pads.
        for section in lists.iter_mut().flatten() {
            section.data = numbers.bytes(section.data.len());
            section.pads = cases::pads(&mut numbers, section.pads.len());
        }
        let mut others = lists.map(|list| cases::table_of(numbers.word(), &list, order));
        // At times one fault behind the sections of both.
        if numbers.once_in(3) {
            let (bytes, _, _) = cases::fault(&mut numbers, order);
            let damaged = numbers.index(2);
            for table in [&mut tables[damaged], &mut others[damaged]] {
                table.truncate(table.len() - 4);
                table.extend(&bytes);
            }
        }
        let answer = calls::find(&tables[0], &tables[1], order, address);
        let other = calls::find(&others[0], &others[1], order, address);
        assert_eq!(answer, other, "{tables:02x?} and {others:02x?}");
        hits[answer.number as usize] += 1;
        if answer.number == 0 {
            named[answer.table as usize] += 1;
        }
    }
    println!("other entries, data and pads: {hits:?}, {named:?}");
    assert!(named.iter().all(|times| *times >= CASES / 50));
    for number in [5, 7, 8] {
        assert!(hits[number] >= CASES / 50, "{hits:?}");
    }
}

#[test]
fn the_same_part_stands_in_the_join() {
    let mut numbers = Numbers::new(cases::seed(), 104);
    // By order and by the table that is named.
    let mut named = [[0; 3]; 2];
    for _ in 0..CASES {
        let regions = cases::sound_map(&mut numbers);
        let asked = Asked::made(&mut numbers, &regions);
        let (order, address) = (asked.order, asked.address);
        let [older, newer] = &asked.tables;
        let mut join = numbers.bytes(older.len() + newer.len() - 8);
        let joined = calls::join(older, newer, order, &mut join);
        assert_eq!(joined.number, 0);
        let none = cases::table(numbers.word(), &[], order);
        let answer = asked.find();
        // Sections of the newer stand the older's length less 8 further on.
        let further = match answer.table {
            2 => older.len() as u64 - 8,
            _ => 0,
        };
        // The join as the older table and as the newer, beside one without sections.
        for (first, second, table) in [(&join, &none, 1), (&none, &join, 2)] {
            let expected = FindAnswer {
                table: if answer.table == 0 { 0 } else { table },
                offset: answer.offset + further,
                ..answer
            };
            assert_eq!(calls::find(first, second, order, address), expected);
            let part = calls::part(first, second, order, address);
            assert_eq!(part, asked.part());
        }
        named[order as usize][answer.table as usize] += 1;
    }
    println!("in the join: {named:?}");
    let mut named = named.as_flattened().iter();
    assert!(named.all(|times| *times >= CASES / 50));
}

#[test]
fn the_same_answer_in_each_order() {
    let mut numbers = Numbers::new(cases::seed(), 105);
    // By number and, where nothing is refused, by the table that is named.
    let (mut hits, mut named, mut differ) = ([0; 9], [0; 3], 0);
    for _ in 0..CASES {
        let regions = cases::sound_map(&mut numbers);
        let asked = Asked::made(&mut numbers, &regions);
        let entries = [(); 2].map(|()| cases::entry(&mut numbers, &regions));
        // One table is cut or has a fault behind its sections, in both orders.
        let damaged = numbers.index(6);
        let cut = numbers.once_in(2);
        let start = numbers.clone();
        let [high, low] = ByteOrder::BOTH.map(|order| {
            numbers = start.clone();
            let mut tables = [0, 1].map(|i| cases::table_of(entries[i], &asked.lists[i], order));
            if let Some(table) = tables.get_mut(damaged) {
                if cut {
                    table.truncate(numbers.index(table.len()));
                } else {
                    let (bytes, _, _) = cases::fault(&mut numbers, order);
                    table.truncate(table.len() - 4);
                    table.extend(bytes);
                }
            }
            let [older, newer] = &tables;
            let answer = calls::find(older, newer, order, asked.address);
            let part = calls::part(older, newer, order, asked.address).to_vec();
            (answer, part, tables)
        });
        assert_eq!(high.0, low.0, "{:02x?}", high.2);
        assert_eq!(high.1, low.1, "{:02x?}", high.2);
        differ += u64::from(high.2 != low.2);
        hits[high.0.number as usize] += 1;
        if high.0.number == 0 {
            named[high.0.table as usize] += 1;
        }
    }
    println!("two orders: {differ} differ, {hits:?}, {named:?}");
    assert!(differ >= CASES / 2);
    assert!(named.iter().all(|times| *times >= CASES / 50));
    for number in [5, 7, 8] {
        assert!(hits[number] >= CASES / 100, "{hits:?}");
    }
}

#[test]
fn a_table_is_refused_as_in_the_join() {
    let mut numbers = Numbers::new(cases::seed(), 106);
    // By the table that is refused; none is.
    let (mut hits, mut accepted) = ([[0; 9]; 2], 0);
    for _ in 0..CASES {
        let case = cases::find_case(&mut numbers);
        let mut output = vec![0; case.older.len() + case.newer.len()];
        let joined = calls::join(&case.older, &case.newer, case.order, &mut output);
        let answer = calls::find(&case.older, &case.newer, case.order, case.address);
        assert_eq!(
            (answer.number, answer.place),
            (joined.number, joined.place),
            "{case:?}"
        );
        if answer.number == 0 {
            // The join has as many sections.
            assert_eq!(answer.read, 8 * joined.sections + 8);
            accepted += 1;
            continue;
        }
        let expected = FindAnswer {
            number: joined.number,
            place: joined.place,
            table: joined.table,
            ..Default::default()
        };
        assert_eq!(answer, expected, "{case:?}");
        hits[answer.table as usize - 1][answer.number as usize] += 1;
    }
    println!("refused as in the join: {hits:?}, {accepted} accepted");
    assert!(accepted >= CASES / 4);
    for hits in &hits {
        for number in [5, 7, 8] {
            assert!(hits[number] >= CASES / 200, "{hits:?}");
        }
    }
}

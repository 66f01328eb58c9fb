//! The laws of the writer on generated lists and tables, in either byte order and
//! through the library's calls: reading a written table gives the list back, a
//! table is what is written from its own sections, loading a written table stores
//! the listed data in the list's order, and the join of two written tables is
//! what is written from both lists. Tables are taken apart by the reference, and
//! what memory must hold is stored here from the list itself.

use second::calls;
use second::cases::{self, turn_word, Numbers, Regions, Section, WriteCase};
use second::reference::{self, ByteOrder, JoinAnswer, ListSection, LoadAnswer, WriteAnswer};
use std::collections::HashSet;

/// Generated cases of each law.
const CASES: u64 = 60_000;

/// The bytes of the data that a section has.
fn part<'a>(section: &ListSection, data: &'a [u8]) -> &'a [u8] {
    &data[section.start as usize..][..section.size as usize]
}

/// Writes a list without faults into an output with room, whose bytes past the
/// table must be kept, and answers the table.
fn write(
    numbers: &mut Numbers,
    entry: u32,
    list: &[ListSection],
    data: &[u8],
    order: ByteOrder,
) -> Vec<u8> {
    let sizes = list.iter().map(|section| section.size as usize);
    let length = 8 + sizes
        .map(|size| 8 + size.next_multiple_of(4))
        .sum::<usize>();
    let room = length + numbers.pick(&[0, 0, 1, 4, 33]);
    let before = numbers.bytes(room);
    let mut output = before.clone();
    let expected = WriteAnswer {
        length: length as u64,
        sections: list.len() as u64,
        ..Default::default()
    };
    let answer = calls::write(entry, list, data, order, &mut output);
    assert_eq!(answer, expected, "{list:?} over {} bytes", data.len());
    assert_eq!(output.split_off(length), before[length..]);
    output
}

/// A list for sections, over data that they share: where each one's data starts
/// is any place.
fn over_shared_data(numbers: &mut Numbers, sections: &[Section]) -> (Vec<ListSection>, Vec<u8>) {
    let longest = sections.iter().map(|section| section.data.len()).max();
    let length = longest.unwrap_or(0) + numbers.index(40);
    let data = numbers.bytes(length);
    let list = sections.iter().map(|section| {
        let size = section.data.len();
        ListSection {
            address: section.address,
            start: numbers.index(length - size + 1) as u32,
            size: size as u32,
        }
    });
    (list.collect(), data)
}

#[test]
fn reading_back_gives_the_list() {
    let mut numbers = Numbers::new(cases::seed(), 90);
    // All addresses are open.
    let all = cases::map(&[(1, 0, 0xFFFF_FFFF), (1, 0xFFFF_FFFF, 1)]);
    let mut read_back = [0; 2];
    for _ in 0..CASES {
        let case = cases::write_case(&mut numbers);
        let WriteCase {
            entry,
            list,
            data,
            order,
            mut output,
        } = case;
        let answer = calls::write(entry, &list, &data, order, &mut output);
        if answer.number != 0 {
            continue;
        }
        let table = &output[..answer.length as usize];
        let read = reference::read_table(table, order).expect("a well-formed table");
        assert_eq!(read.entry, u64::from(entry));
        assert_eq!(read.sections.len(), list.len());
        for (read, listed) in read.sections.iter().zip(&list) {
            assert_eq!(read.address, u64::from(listed.address));
            assert_eq!(read.data, part(listed, &data));
            assert!(read.pads.iter().all(|pad| *pad == 0), "{table:02x?}");
        }
        // The library reads as many sections and bytes.
        let expected = LoadAnswer {
            entry: entry.into(),
            entry_open: 1,
            sections: list.len() as u64,
            bytes: list.iter().map(|section| u64::from(section.size)).sum(),
            ..Default::default()
        };
        assert_eq!(calls::judge(&all, table, order), expected);
        read_back[order as usize] += u64::from(!list.is_empty());
    }
    println!("read back: {read_back:?}");
    assert!(read_back.iter().all(|times| *times >= CASES / 10));
}

#[test]
fn a_table_is_written_from_its_own_sections() {
    let mut numbers = Numbers::new(cases::seed(), 91);
    // Tables with zero pads, by order; and tables with pads that are not zero.
    let (mut zero, mut other) = ([0; 2], 0);
    for _ in 0..CASES {
        let regions = cases::sound_map(&mut numbers);
        let order = numbers.order();
        let entry = cases::entry(&mut numbers, &regions);
        let mut sections = cases::sections(&mut numbers, &regions);
        let any_pads = cases::table_of(entry, &sections, order);
        for section in &mut sections {
            section.pads.fill(0);
        }
        let zero_pads = cases::table_of(entry, &sections, order);

        // The table itself is the data; any pads are then written as zero.
        for table in [&zero_pads, &any_pads] {
            let read = reference::read_table(table, order).expect("a well-formed table");
            let own: Vec<ListSection> = read
                .sections
                .iter()
                .map(|section| ListSection {
                    address: section.address as u32,
                    start: section.offset as u32 + 8,
                    size: section.data.len() as u32,
                })
                .collect();
            let written = write(&mut numbers, read.entry as u32, &own, table, order);
            assert_eq!(written, zero_pads);
        }

        // The data of the sections is one run, in the table's order or in another.
        let mut places: Vec<usize> = (0..sections.len()).collect();
        if numbers.once_in(2) {
            numbers.shuffle(&mut places);
        }
        let mut run = Vec::new();
        let mut starts = vec![0; sections.len()];
        for place in places {
            starts[place] = run.len() as u32;
            run.extend(&sections[place].data);
        }
        let own: Vec<ListSection> = sections
            .iter()
            .zip(starts)
            .map(|(section, start)| ListSection {
                address: section.address,
                start,
                size: section.data.len() as u32,
            })
            .collect();
        let written = write(&mut numbers, entry, &own, &run, order);
        assert_eq!(written, zero_pads);

        zero[order as usize] += u64::from(!sections.is_empty());
        other += u64::from(any_pads != zero_pads);
    }
    println!("from its own sections: {zero:?}, {other} with other pads");
    assert!(zero.iter().all(|times| *times >= CASES / 4));
    assert!(other >= CASES / 2);
}

/// What a load of the listed data must answer, and leave in memory: each byte is
/// stored at its address, section after section. Nothing is stored where an
/// address is not open or one of kind 3 comes twice; the answer is then none.
fn stored(
    regions: &Regions,
    entry: u32,
    list: &[ListSection],
    data: &[u8],
    memory: &mut [u8],
) -> Option<LoadAnswer> {
    let records = reference::read_map(&regions.map).expect("a sound map");
    let mut bytes = Vec::new();
    for section in list {
        let addresses = u64::from(section.address)..;
        bytes.extend(addresses.zip(part(section, data)));
    }
    let mut once = HashSet::new();
    for (address, _) in &bytes {
        if !reference::is_open(&records, *address)
            || (reference::takes_one_write(&records, *address) && !once.insert(*address))
        {
            return None;
        }
    }
    for (address, byte) in &bytes {
        let place = reference::place_of(&records, *address).expect("an open address");
        memory[place as usize] = **byte;
    }
    Some(LoadAnswer {
        entry: entry.into(),
        entry_open: u64::from(reference::is_open(&records, entry.into())),
        sections: list.len() as u64,
        bytes: bytes.len() as u64,
        ..Default::default()
    })
}

#[test]
fn loading_stores_the_listed_data_in_the_lists_order() {
    let mut numbers = Numbers::new(cases::seed(), 92);
    // Accepted, with memory changed; accepted, where the list turned round leaves
    // other memory; refused.
    let (mut accepted, mut ordered, mut refused) = ([0; 2], 0, 0);
    for _ in 0..CASES {
        let regions = cases::lendable_map(&mut numbers);
        let order = numbers.order();
        let entry = cases::entry(&mut numbers, &regions);
        let sections = cases::sections(&mut numbers, &regions);
        let (list, data) = over_shared_data(&mut numbers, &sections);
        let table = write(&mut numbers, entry, &list, &data, order);

        let before = numbers.bytes(regions.memory_size() as usize);
        let mut memory = before.clone();
        let mut model = before.clone();
        let answer = calls::load(&regions.map, &table, order, &mut memory);
        let expected = stored(&regions, entry, &list, &data, &mut model);
        assert_eq!(memory, model, "{list:?}");
        match expected {
            Some(expected) => {
                assert_eq!(answer, expected, "{list:?}");
                accepted[order as usize] += u64::from(memory != before);
                let mut turned = before;
                let list: Vec<ListSection> = list.into_iter().rev().collect();
                stored(&regions, entry, &list, &data, &mut turned);
                ordered += u64::from(turned != memory);
            }
            None => {
                assert!(matches!(answer.number, 9 | 29), "{answer:?}");
                refused += 1;
            }
        }
    }
    println!("loaded: {accepted:?}, {ordered} by order, {refused} refused");
    assert!(accepted.iter().all(|times| *times >= CASES / 10));
    assert!(ordered >= CASES / 50 && refused >= CASES / 10);
}

#[test]
fn the_join_of_two_written_tables_is_written_from_both_lists() {
    let mut numbers = Numbers::new(cases::seed(), 93);
    let mut joined = [0; 2];
    for _ in 0..CASES {
        let regions = cases::sound_map(&mut numbers);
        let order = numbers.order();
        let [first, second] = [(); 2].map(|()| cases::sections(&mut numbers, &regions));
        let entry = cases::entry(&mut numbers, &regions);
        let all = [&first[..], &second].concat();
        let (list, data) = over_shared_data(&mut numbers, &all);
        let (one, two) = list.split_at(first.len());
        let other = cases::entry(&mut numbers, &regions);
        let one = write(&mut numbers, other, one, &data, order);
        let two = write(&mut numbers, entry, two, &data, order);
        let whole = write(&mut numbers, entry, &list, &data, order);
        let mut output = numbers.bytes(whole.len());
        let expected = JoinAnswer {
            length: whole.len() as u64,
            sections: list.len() as u64,
            ..Default::default()
        };
        assert_eq!(calls::join(&one, &two, order, &mut output), expected);
        assert_eq!(output, whole);
        joined[order as usize] += u64::from(!first.is_empty() && !second.is_empty());
    }
    println!("joined: {joined:?}");
    assert!(joined.iter().all(|times| *times >= CASES / 4));
}

#[test]
fn the_same_list_in_two_orders_differs_in_its_header_words() {
    let mut numbers = Numbers::new(cases::seed(), 94);
    let mut hits = [0; 22];
    for _ in 0..CASES {
        let case = cases::write_case(&mut numbers);
        let [high, low] = ByteOrder::BOTH.map(|order| {
            let mut output = case.output.clone();
            let answer = calls::write(case.entry, &case.list, &case.data, order, &mut output);
            (answer, output)
        });
        assert_eq!(high.0, low.0, "{case:?}");
        hits[high.0.number as usize] += 1;
        if high.0.number != 0 {
            assert!(
                high.1 == case.output && low.1 == case.output,
                "output after a refusal"
            );
            continue;
        }
        let mut turned = high.1;
        let length = high.0.length as usize;
        let read = reference::read_table(&low.1[..length], ByteOrder::LowFirst)
            .expect("a well-formed table");
        turn_word(&mut turned, 0);
        for section in &read.sections {
            turn_word(&mut turned, section.offset);
            turn_word(&mut turned, section.offset + 4);
        }
        assert_eq!(turned, low.1);
    }
    // How often each number was answered.
    println!("lists in two orders: {hits:?}");
    assert!(hits[0] >= CASES / 4);
    for number in [8, 10, 11, 20, 21] {
        assert!(hits[number] >= CASES / 200, "{hits:?}");
    }
}

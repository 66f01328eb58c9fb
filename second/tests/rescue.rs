//! The laws of rescuing a cut table, on tables made by hand and generated ones, in
//! either byte order and through the library's calls: a well-formed table comes back,
//! one that is cut gives its sections before the cut, and a fault in a section those
//! before it; the result is well-formed, a second rescue changes nothing more, no
//! longer run of whole sections begins the table, and every byte is counted. What must
//! be kept is read from the sections that a table was made of, or, of tables that were
//! not made of any, from what the library's judge says of each of their fronts.

use second::calls;
use second::cases::{self, header_word, turn_word, Made, Numbers, Section};
use second::reference::{self, ByteOrder, RescueAnswer, TOP};

/// Generated cases of each law.
const CASES: u64 = 60_000;

/// Lists made by hand: no section; P's, and P's and Q's; each count of pads; sections
/// that end at the top; data and pads that look like header words and zero words; more
/// than 256 bytes; one section many times.
fn by_hand() -> Vec<Vec<Section>> {
    let section = |address: u32, data: &[u8], pads: &[u8]| Section {
        address,
        data: data.to_vec(),
        pads: pads.to_vec(),
    };
    let p = section(0x0080_0002, &[0xA1, 0xA2, 0xA3], &[0]);
    let q = section(0x0080_0004, &[0xB7], &[0, 0, 0]);
    let padded = [
        section(0x10, &[1], &[0xFF; 3]),
        section(0x20, &[1, 2], &[0xFF; 2]),
        section(0x30, &[1, 2, 3], &[0xFF]),
        section(0x40, &[1, 2, 3, 4], &[]),
        section(0x50, &[1, 2, 3, 4, 5], &[0, 0, 1]),
    ];
    let at_top = [
        section(0xFFFF_FFFF, &[9], &[1, 2, 3]),
        section(0xFFFF_FFFB, &[9; 5], &[0; 3]),
        section(0, &[7; 8], &[]),
    ];
    let like_words = [
        section(0, &[0; 12], &[]),
        section(0, &[0, 0, 0, 4, 0, 0, 0, 0, 1, 2, 3, 4, 0, 0, 0, 0], &[]),
        section(0, &[4, 0, 0, 0, 0, 0, 0, 0, 1, 2, 3, 4, 0, 0, 0, 0], &[]),
        section(0, &[0], &[0; 3]),
        section(0x0101_0101, &[0xFF; 9], &[0xFF; 3]),
    ];
    vec![
        vec![],
        vec![p.clone()],
        vec![p.clone(), q],
        padded.to_vec(),
        at_top.to_vec(),
        like_words.to_vec(),
        vec![section(0x0100, &[0xC4; 257], &[0, 0xFF, 0])],
        vec![p; 40],
    ]
}

/// The tables made by hand, in each order, and so many generated ones.
fn tables(numbers: &mut Numbers, count: u64, mut law: impl FnMut(&mut Numbers, Made)) {
    for order in ByteOrder::BOTH {
        for list in by_hand() {
            law(numbers, Made::of(0x0080_0000, list, order));
        }
    }
    for _ in 0..count {
        let regions = cases::sound_map(numbers);
        let list = cases::sections(numbers, &regions);
        let entry = cases::entry(numbers, &regions);
        let order = numbers.order();
        law(numbers, Made::of(entry, list, order));
    }
}

/// Rescues a table into an output with room, and answers the result as well. The bytes
/// past it must be kept, and all of them after a refusal.
fn rescue(numbers: &mut Numbers, table: &[u8], order: ByteOrder) -> (RescueAnswer, Vec<u8>) {
    let room = table.len() + 4 + numbers.pick(&[0, 0, 1, 33]);
    let before = numbers.bytes(room);
    let mut output = before.clone();
    let answer = calls::rescue(table, order, &mut output);
    let length = answer.length as usize;
    assert!(length <= room, "{answer:?} of {table:02x?}");
    assert_eq!(output.split_off(length), before[length..], "{table:02x?}");
    (answer, output)
}

/// A table must give this result with so many sections, leave so many bytes unused, and
/// have the zero word added or not.
#[track_caller]
fn gives(
    numbers: &mut Numbers,
    (table, order): (&[u8], ByteOrder),
    (result, sections): (&[u8], usize),
    unused: usize,
    added: bool,
) {
    let expected = RescueAnswer {
        number: 0,
        place: 0,
        length: result.len() as u64,
        sections: sections as u64,
        unused: unused as u64,
        added: u64::from(added),
    };
    let (answer, output) = rescue(numbers, table, order);
    assert_eq!(answer, expected, "{order:?}, {table:02x?}");
    assert_eq!(output, result, "{order:?}, {table:02x?}");
}

/// A table of a generated case, which may have any damage, and what its rescue answers
/// and writes; none where the entry word is cut.
fn rescued_case(numbers: &mut Numbers) -> Option<(Vec<u8>, ByteOrder, RescueAnswer, Vec<u8>)> {
    let case = cases::rescue_case(numbers);
    let (answer, result) = rescue(numbers, &case.table, case.order);
    if case.table.len() < 4 {
        assert_eq!((answer.number, answer.length), (5, 0));
        return None;
    }
    assert_eq!(answer.number, 0, "{case:?}");
    Some((case.table, case.order, answer, result))
}

/// Under this map all addresses are open, and a table is accepted exactly when it is
/// well-formed.
fn all_open() -> Vec<u8> {
    cases::map(&[(1, 0, 0xFFFF_FFFF), (1, 0xFFFF_FFFF, 1)])
}

#[test]
fn a_well_formed_table_comes_back() {
    let mut numbers = Numbers::new(cases::seed(), 110);
    // With no section, and with some.
    let mut seen = [[0; 2]; 2];
    tables(&mut numbers, CASES, |numbers, made| {
        let Made {
            list, order, table, ..
        } = &made;
        let whole = (&table[..], list.len());
        gives(numbers, (table, *order), whole, 0, false);
        seen[*order as usize][usize::from(!list.is_empty())] += 1;
    });
    println!("came back: {seen:?}");
    for [none, some] in seen {
        assert!(none >= CASES / 100 && some >= CASES / 4);
    }
}

#[test]
fn a_table_cut_anywhere_gives_its_sections_before_the_cut() {
    let mut numbers = Numbers::new(cases::seed(), 111);
    // Cut right behind a section, and elsewhere; nothing is kept, all sections are.
    let (mut behind, mut inside, mut nothing, mut all) = (0, 0, 0, 0);
    tables(&mut numbers, CASES / 20, |numbers, made| {
        let places = made.places();
        let length = made.table.len();
        for cut in 4..=length {
            let before: Vec<usize> = places
                .iter()
                .map(|(_, end)| *end)
                .filter(|end| *end <= cut)
                .collect();
            let result = made.front(before.len());
            // What is kept ends here. Only the whole table has its zero word.
            let end = *before.last().unwrap_or(&4);
            let whole = cut == length;
            let unused = if whole { 0 } else { cut - end };
            let front = &made.table[..cut];
            let kept = (&result[..], before.len());
            gives(numbers, (front, made.order), kept, unused, !whole);
            if end == cut {
                behind += 1;
            } else {
                inside += 1;
            }
            nothing += u64::from(before.is_empty());
            all += u64::from(before.len() == places.len());
        }
    });
    println!("cut: {behind} right behind, {inside} elsewhere, {nothing} and {all}");
    assert!(behind >= CASES / 10 && inside >= CASES);
    assert!(nothing >= CASES / 10 && all >= CASES / 10);
}

#[test]
fn a_fault_in_a_section_keeps_those_before_it() {
    let mut numbers = Numbers::new(cases::seed(), 112);
    // By whether others stand before it, and whether others stand behind it.
    let mut seen = [[0; 2]; 2];
    tables(&mut numbers, CASES / 20, |numbers, made| {
        let order = made.order;
        let places = made.places();
        for (index, (at, end)) in places.iter().copied().enumerate() {
            let Section { address, data, .. } = &made.list[index];
            let result = made.front(index);
            let kept = (&result[..], index);
            let left = made.table.len() - at;
            // The table with another size and another address.
            let with = |size: u32, address: u32| {
                let mut table = made.table.clone();
                table[at..at + 4].copy_from_slice(&header_word(size, order));
                table[at + 4..at + 8].copy_from_slice(&header_word(address, order));
                table
            };

            // A zero word in place of the size: it is used, and none is added.
            let table = with(0, *address);
            gives(numbers, (&table, order), kept, left - 4, false);

            // A size over what is left, by one byte or so much that sums in 32 bits come
            // round, with a sign or without; past the top too, and not.
            let room = (left - 8) as u32;
            for size in [
                room + 1,
                room + 4,
                0x7FFF_FFFF,
                0xFFFF_FFF4,
                0xFFFF_FFF8,
                0xFFFF_FFFC,
                0xFFFF_FFFD,
                0xFFFF_FFFF,
            ] {
                for address in [0, 0xFFFF_FFFF] {
                    let table = with(size, address);
                    gives(numbers, (&table, order), kept, left, true);
                }
            }
            // Up to the last byte there is no fault: all that is left is its data.
            let table = with(room, 0);
            let filled = [&table[..], &[0; 4]].concat();
            gives(numbers, (&table, order), (&filled, index + 1), 0, true);

            // Past the top by one byte, and by as many as can be. One data byte cannot run
            // past it, and is made two with a pad.
            let size = data.len().max(2) as u32;
            let to_top = (TOP - u64::from(size)) as u32;
            for address in [to_top + 1, 0xFFFF_FFFF] {
                let table = with(size, address);
                gives(numbers, (&table, order), kept, left, true);
            }
            // Up to the top there is no fault.
            let table = with(size, to_top);
            let whole = (&table[..], places.len());
            gives(numbers, (&table, order), whole, 0, false);

            // Cut in the section.
            let cut = numbers.from_to(at as u64 + 1, end as u64 - 1) as usize;
            let front = (&made.table[..cut], order);
            gives(numbers, front, kept, cut - at, true);

            let [before, behind] = [index > 0, index + 1 < places.len()].map(usize::from);
            seen[before][behind] += 1;
        }
    });
    println!("faults in sections: {seen:?}");
    for times in seen.as_flattened() {
        assert!(*times >= CASES / 200, "{seen:?}");
    }
}

#[test]
fn no_longer_run_of_whole_sections_begins_the_table() {
    let mut numbers = Numbers::new(cases::seed(), 113);
    let map = all_open();
    // By order: nothing is kept; some sections, and not all of the table.
    let mut seen = [[0; 2]; 2];
    for _ in 0..CASES / 4 {
        let Some((table, order, answer, result)) = rescued_case(&mut numbers) else {
            continue;
        };
        // A front of the table is an entry and a run of whole sections exactly when it is
        // well-formed with a zero word behind it. The longest such front is kept.
        let mut longest = None;
        for end in 4..=table.len() {
            let front = [&table[..end], &[0; 4]].concat();
            let judged = calls::judge(&map, &front, order);
            if judged.number == 0 {
                longest = Some((front, judged.sections));
            }
        }
        let (front, sections) = longest.expect("the entry alone is such a front");
        assert_eq!(result, front, "{order:?}, {table:02x?}");
        assert_eq!(answer.sections, sections, "{order:?}, {table:02x?}");
        let some = usize::from(sections > 0);
        seen[order as usize][some] += u64::from(result != table);
    }
    println!("the longest runs: {seen:?}");
    for times in seen.as_flattened() {
        assert!(*times >= CASES / 50, "{seen:?}");
    }
}

#[test]
fn the_result_is_well_formed() {
    let mut numbers = Numbers::new(cases::seed(), 114);
    let map = all_open();
    // By order: the table was well-formed, and was not.
    let mut seen = [[0; 2]; 2];
    for _ in 0..CASES {
        let Some((table, order, answer, result)) = rescued_case(&mut numbers) else {
            continue;
        };
        // The library takes it, and the reference reads it.
        let judged = calls::judge(&map, &result, order);
        assert_eq!(judged.number, 0, "{order:?}, {table:02x?}");
        assert_eq!(judged.sections, answer.sections, "{order:?}, {table:02x?}");
        let none = [0; 8];
        let mut output = vec![0; result.len()];
        let joined = calls::join(&result, &none, order, &mut output);
        assert_eq!(joined.number, 0, "{order:?}, {table:02x?}");
        assert_eq!(joined.sections, answer.sections, "{order:?}, {table:02x?}");
        let read = reference::read_table(&result, order).expect("a well-formed table");
        // Its entry is the table's, and its data bytes are as many as are judged.
        assert_eq!(result[..4], table[..4]);
        assert_eq!(judged.entry, read.entry);
        let sizes = read.sections.iter().map(|section| section.data.len());
        assert_eq!(judged.bytes, sizes.sum::<usize>() as u64);
        let damaged = calls::judge(&map, &table, order).number != 0;
        seen[order as usize][usize::from(damaged)] += 1;
    }
    println!("well-formed before and not: {seen:?}");
    for [before, not] in seen {
        assert!(before >= CASES / 20 && not >= CASES / 5);
    }
}

#[test]
fn a_second_rescue_changes_nothing_more() {
    let mut numbers = Numbers::new(cases::seed(), 115);
    // By order, where the first rescue changed the table.
    let mut changed = [0; 2];
    for _ in 0..CASES {
        let Some((table, order, answer, result)) = rescued_case(&mut numbers) else {
            continue;
        };
        let again = (&result[..], answer.sections as usize);
        gives(&mut numbers, (&result, order), again, 0, false);
        changed[order as usize] += u64::from(result != table);
    }
    println!("rescued twice: {changed:?}");
    assert!(changed.iter().all(|times| *times >= CASES / 5));
}

#[test]
fn every_byte_is_counted() {
    let mut numbers = Numbers::new(cases::seed(), 116);
    // By order: the zero word stood, and was added; bytes are not used in each case.
    let (mut stood, mut unused) = ([[0; 2]; 2], [0; 2]);
    for _ in 0..CASES {
        let Some((table, order, answer, result)) = rescued_case(&mut numbers) else {
            continue;
        };
        assert!(answer.added <= 1);
        assert_eq!(
            answer.length + answer.unused,
            table.len() as u64 + 4 * answer.added,
            "{order:?}, {table:02x?}"
        );
        let read = reference::read_table(&result, order).expect("a well-formed table");
        let whole = read
            .sections
            .iter()
            .map(|section| 8 + section.data.len() + section.pads.len());
        let end = 4 + whole.sum::<usize>();
        assert_eq!(answer.length, end as u64 + 4, "{order:?}, {table:02x?}");
        assert_eq!(answer.sections, read.sections.len() as u64);
        // The zero word is added exactly where the table has none there.
        let word = table.get(end..end + 4);
        assert_eq!(answer.added == 0, word == Some(&[0; 4]));
        let added = answer.added as usize;
        stood[order as usize][added] += 1;
        unused[added] += u64::from(answer.unused > 0);
    }
    println!("the zero word stood or was added: {stood:?}, with bytes not used: {unused:?}");
    let mut times = stood.as_flattened().iter().chain(&unused);
    assert!(times.all(|times| *times >= CASES / 20));
}

#[test]
fn what_stands_after_the_zero_word_does_not_matter() {
    let mut numbers = Numbers::new(cases::seed(), 117);
    // Zeros, any bytes, and a whole table again.
    let mut seen = [[0; 3]; 2];
    tables(&mut numbers, CASES, |numbers, made| {
        let Made {
            list, order, table, ..
        } = &made;
        let manner = numbers.index(3);
        let more = numbers.from_to(1, 30) as usize;
        let tail = match manner {
            0 => vec![0; more],
            1 => numbers.bytes(more),
            _ => table.clone(),
        };
        let longer = [&table[..], &tail].concat();
        let kept = (&table[..], list.len());
        gives(numbers, (&longer, *order), kept, tail.len(), false);
        seen[*order as usize][manner] += 1;
    });
    println!("after the zero word: {seen:?}");
    assert!(seen.as_flattened().iter().all(|times| *times >= CASES / 10));
}

/// What must be written of a table, by the first fault of its form: all that stands
/// before it, and a zero word; none where the entry word is cut.
fn up_to_the_fault(table: &[u8], order: ByteOrder) -> Option<Vec<u8>> {
    let end = cases::whole_sections_end(table, order);
    (end > 0).then(|| [&table[..end], &[0; 4]].concat())
}

#[test]
fn the_output_needs_room_for_the_result_and_no_more() {
    let mut numbers = Numbers::new(cases::seed(), 118);
    // There was room, and the output was shorter than the table; it was not.
    let mut seen = [0; 2];
    for _ in 0..CASES / 20 {
        let case = cases::rescue_case(&mut numbers);
        let Some(result) = up_to_the_fault(&case.table, case.order) else {
            continue;
        };
        let length = result.len();
        for room in [0, 1, 4, 8, length - 4, length - 1, length, length + 1] {
            let before = numbers.bytes(room);
            let mut output = before.clone();
            let answer = calls::rescue(&case.table, case.order, &mut output);
            if room < length {
                let expected = RescueAnswer {
                    number: 11,
                    ..Default::default()
                };
                assert_eq!(answer, expected, "{room} bytes for {case:?}");
                assert_eq!(output, before, "{room} bytes for {case:?}");
                continue;
            }
            assert_eq!(answer.number, 0, "{room} bytes for {case:?}");
            assert_eq!(answer.length, length as u64, "{room} bytes for {case:?}");
            assert_eq!(output[..length], result, "{room} bytes for {case:?}");
            assert_eq!(output[length..], before[length..]);
            seen[usize::from(room >= case.table.len())] += 1;
        }
    }
    println!("outputs with room: {seen:?}");
    assert!(seen.iter().all(|times| *times >= CASES / 50));
}

#[test]
fn the_same_in_each_order_but_for_the_header_words() {
    let mut numbers = Numbers::new(cases::seed(), 119);
    // The results differ; sections are kept, and the zero word is added or stood.
    let (mut differ, mut kept) = (0, [0; 2]);
    for _ in 0..CASES {
        let regions = cases::sound_map(&mut numbers);
        let list = cases::sections(&mut numbers, &regions);
        let entry = cases::entry(&mut numbers, &regions);
        let damage = numbers.below(3);
        let start = numbers.clone();
        let [high, low] = ByteOrder::BOTH.map(|order| {
            // The same numbers, and so the same cut or fault.
            numbers = start.clone();
            let mut table = cases::table_of(entry, &list, order);
            match damage {
                0 => table.truncate(numbers.from_to(4, table.len() as u64) as usize),
                1 => {
                    let (bytes, _, _) = cases::fault(&mut numbers, order);
                    table.truncate(table.len() - 4);
                    table.extend(bytes);
                }
                _ => {}
            }
            let (answer, result) = rescue(&mut numbers, &table, order);
            (answer, result, table)
        });
        assert_eq!(high.0, low.0, "{:02x?}", high.2);
        assert_eq!(high.0.number, 0);
        differ += u64::from(high.1 != low.1);
        kept[high.0.added as usize] += u64::from(high.0.sections > 0);
        let mut turned = high.1;
        let read = reference::read_table(&low.1, ByteOrder::LowFirst).expect("a table");
        turn_word(&mut turned, 0);
        for section in &read.sections {
            turn_word(&mut turned, section.offset);
            turn_word(&mut turned, section.offset + 4);
        }
        assert_eq!(turned, low.1, "{:02x?}", high.2);
    }
    println!("rescues in two orders: {differ} differ, {kept:?}");
    assert!(differ >= CASES / 2);
    assert!(kept.iter().all(|times| *times >= CASES / 10));
}

#[test]
fn small_sections_in_the_wrong_order_are_not_kept() {
    let mut numbers = Numbers::new(cases::seed(), 120);
    let mut lost = [0; 2];
    for _ in 0..CASES {
        let regions = cases::sound_map(&mut numbers);
        let list = cases::sections(&mut numbers, &regions);
        let entry = cases::entry(&mut numbers, &regions);
        let right = numbers.order();
        let table = cases::table_of(entry, &list, right);
        // A size below 256 is read as one of 16,777,216 bytes or more. Without sections
        // only the entry is read otherwise, and it is kept as it stands.
        let none = [&table[..4], &[0; 4]].concat();
        let (unused, added) = match list.is_empty() {
            true => (0, false),
            false => (table.len() - 4, true),
        };
        let wrong = (&table[..], right.other());
        gives(&mut numbers, wrong, (&none, 0), unused, added);
        lost[right as usize] += u64::from(added);
    }
    println!("in the wrong order: {lost:?}");
    assert!(lost.iter().all(|times| *times >= CASES / 4));
}

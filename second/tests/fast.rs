//! The benchmark's peer and the reference on generated cases: every field of
//! every answer and every byte of every buffer, so that the peer is right.

use second::cases::{self, FindCase, LoadCase, Numbers, RescueCase, WriteCase};
use second::reference::{ByteOrder, ListSection, STRAP_LIMIT, TABLE_LIMIT, TOP};
use second::{calls, fast, reference};

/// The generated cases of each call.
const CASES: u64 = 20_000;

/// How often each number was answered; 29 is the highest.
type Hits = [u64; 30];

/// Each of these numbers must have been answered, and 6, which is withdrawn,
/// never.
fn all_hit(hits: &Hits, numbers: &[usize]) {
    for number in numbers {
        assert!(hits[*number] > 0, "number {number} was never answered");
    }
    assert_eq!(hits[6], 0, "number 6 was answered");
}

/// Compares map, judging and loading, and counts the number of loading in the
/// case's order.
fn compare_load(case: &LoadCase, hits: &mut [Hits; 2]) {
    assert_eq!(
        fast::map(&case.map),
        reference::map(&case.map),
        "map of {case:?}"
    );
    assert_eq!(
        fast::judge(&case.map, &case.table, case.order),
        reference::judge(&case.map, &case.table, case.order),
        "judging {case:?}"
    );
    let mut memory = case.memory.clone();
    let mut expected = case.memory.clone();
    let answer = fast::load(&case.map, &case.table, case.order, &mut memory);
    assert_eq!(
        answer,
        reference::load(&case.map, &case.table, case.order, &mut expected),
        "loading {case:?}"
    );
    assert_eq!(memory, expected, "memory after loading {case:?}");
    hits[case.order as usize][answer.number as usize] += 1;
}

#[test]
fn judging_and_loading() {
    let mut numbers = Numbers::new(cases::seed(), 71);
    let mut hits = [[0; 30]; 2];
    for _ in 0..CASES {
        compare_load(&cases::load_case(&mut numbers), &mut hits);
    }
    for hits in &hits {
        all_hit(hits, &[0, 1, 2, 3, 5, 7, 8, 9, 29]);
    }
}

/// The first address of a new run: the wanted one, or past the runs that it
/// would share an address with. At times it shares one.
fn free_from(numbers: &mut Numbers, runs: &[(u64, u64)], wanted: u64, length: u64) -> u64 {
    let mut first = wanted;
    loop {
        let shared = runs
            .iter()
            .map(|run| (run.0, run.0 + run.1))
            .find(|(other, end)| *other < first + length && first < *end);
        match shared {
            Some((_, end)) if end + length <= TOP && !numbers.once_in(200) => first = end,
            _ => return first,
        }
    }
}

/// A map of up to 64 records in no order, reserved ones and ones of kind 3 among
/// them. They lie close to each other, so that they touch, and share addresses at
/// times.
fn crowded_map(numbers: &mut Numbers) -> cases::Regions {
    let room = numbers.pick(&[60, 600, 60_000]);
    let base = numbers.pick(&[0, 0x0080_0000, TOP - room]);
    let reserved = numbers.pick(&[2, 4, 1000]);
    let kinds = numbers.pick(&[[1, 1], [1, 3], [3, 3]]);
    let mut records = Vec::new();
    let mut runs = Vec::new();
    let mut once = Vec::new();
    for _ in 0..numbers.from_to(1, 64) {
        let wanted = base + numbers.below(room);
        let length = numbers.from_to(1, (TOP - wanted).min(8));
        if numbers.once_in(reserved) {
            records.push((2, wanted as u32, length as u32));
        } else {
            let first = free_from(numbers, &runs, wanted, length);
            let kind = numbers.pick(&kinds);
            records.push((kind, first as u32, length as u32));
            runs.push((first, length));
            if kind == 3 {
                once.push((first, length));
            }
        }
    }
    // A record that is wrong in itself, before or after one that shares.
    if numbers.once_in(20) {
        let at = numbers.index(records.len());
        records[at] = numbers.pick(&[
            (0, 1, 1),
            (4, 1, 1),
            (255, 1, 1),
            (1, 1, 0),
            (3, 1, 0),
            (2, 0xFFFF_FFFF, 2),
            (3, 0xFFFF_FFFF, 2),
        ]);
    }
    cases::Regions {
        map: cases::map(&records),
        runs,
        once,
    }
}

#[test]
fn crowded_maps() {
    let mut numbers = Numbers::new(cases::seed(), 74);
    let mut hits = [[0; 30]; 2];
    for _ in 0..CASES {
        let regions = crowded_map(&mut numbers);
        let order = numbers.order();
        let table = cases::boot_table(&mut numbers, &regions, 20, order);
        let memory = numbers.bytes(reference::map(&regions.map).bytes as usize);
        let case = LoadCase {
            map: regions.map,
            table,
            order,
            memory,
        };
        compare_load(&case, &mut hits);
    }
    for hits in &hits {
        all_hit(hits, &[0, 2, 9, 29]);
        // Often sound, often not.
        assert!(hits[0] > CASES / 20 && hits[2] > CASES / 20, "{hits:?}");
    }
}

/// Up to 64 records of kinds 1 and 3 that touch or have gaps between them, in no
/// order, with the lowest of their addresses and one past the highest.
fn wide_map(numbers: &mut Numbers) -> (Vec<(u8, u32, u32)>, u32, u32) {
    let start = numbers.pick(&[0, 0x0080_0000, 0xFFFF_E000]);
    let mut at = start;
    let mut records = Vec::new();
    for _ in 0..numbers.from_to(1, 64) {
        let length = numbers.from_to(1, 100) as u32;
        records.push((numbers.pick(&[1, 3]), at, length));
        at += length + numbers.pick(&[0, 0, 0, 5]);
    }
    // The gap after the last record is left out.
    let (_, first, length) = records[records.len() - 1];
    numbers.shuffle(&mut records);
    (records, start, first + length)
}

/// Tables of many sections under records of kinds 1 and 3, in rising, falling and
/// mixed order. Each address is stored once, but for up to 30 that one-byte
/// sections store again, at any places in the table.
#[test]
fn many_sections() {
    let mut numbers = Numbers::new(cases::seed(), 76);
    let mut hits = [[0; 30]; 2];
    // By order of the sections: rising, falling, mixed; accepted and 29.
    let mut seen = [[0; 2]; 3];
    for _ in 0..CASES / 10 {
        let (records, start, end) = wide_map(&mut numbers);
        let map = cases::map(&records);
        let read = reference::read_map(&map).expect("a sound map");
        // Pieces of up to `longest` addresses, all open.
        let longest = numbers.pick(&[1, 3, 40]);
        let mut list = Vec::new();
        let mut at = start;
        while at < end {
            let wanted = numbers.from_to(1, longest) as u32;
            let open = |address: &u32| reference::is_open(&read, u64::from(*address));
            let size = (at..end.min(at + wanted)).take_while(open).count();
            if size > 0 {
                list.push((at, numbers.bytes(size)));
            }
            at += (size as u32).max(1);
        }
        let manner = numbers.index(3);
        match manner {
            0 => {}
            1 => list.reverse(),
            _ => numbers.shuffle(&mut list),
        }
        // Bytes that are stored again.
        for _ in 0..numbers.pick(&[0, 0, 1, 2, 30]) {
            let again = numbers.from_to(u64::from(start), u64::from(end) - 1) as u32;
            if reference::is_open(&read, u64::from(again)) {
                let spot = numbers.index(list.len() + 1);
                list.insert(spot, (again, vec![numbers.byte()]));
            }
        }
        let sections: Vec<(u32, &[u8])> = list.iter().map(|(at, data)| (*at, &data[..])).collect();
        let order = numbers.order();
        let case = LoadCase {
            table: cases::table(start, &sections, order),
            order,
            memory: numbers.bytes(reference::map(&map).bytes as usize),
            map,
        };
        let before = hits[order as usize];
        compare_load(&case, &mut hits);
        // The library too, since no other test has so many sections in no order.
        let judged = calls::judge(&case.map, &case.table, order);
        assert_eq!(judged, reference::judge(&case.map, &case.table, order));
        let hits = &hits[order as usize];
        seen[manner][0] += hits[0] - before[0];
        seen[manner][1] += hits[29] - before[29];
    }
    println!("many sections: {seen:?}");
    for hits in &hits {
        all_hit(hits, &[0, 29]);
    }
    for times in seen.as_flattened() {
        assert!(*times > CASES / 200, "{seen:?}");
    }
}

#[test]
fn joining() {
    let mut numbers = Numbers::new(cases::seed(), 72);
    let mut hits = [[0; 30]; 2];
    for _ in 0..CASES {
        let case = cases::join_case(&mut numbers);
        let mut output = case.output.clone();
        let mut expected = case.output.clone();
        let answer = fast::join(&case.first, &case.second, case.order, &mut output);
        assert_eq!(
            answer,
            reference::join(&case.first, &case.second, case.order, &mut expected),
            "joining {case:?}"
        );
        assert_eq!(output, expected, "output after joining {case:?}");
        hits[case.order as usize][answer.number as usize] += 1;
    }
    for hits in &hits {
        all_hit(hits, &[0, 5, 7, 8, 11]);
    }
}

/// Compares the writer, and counts its number in the case's order.
fn compare_write(case: &WriteCase, hits: &mut [Hits; 2]) {
    let WriteCase {
        entry,
        list,
        data,
        order,
        output,
    } = case;
    let mut written = output.clone();
    let mut expected = output.clone();
    let answer = fast::write(*entry, list, data, *order, &mut written);
    assert_eq!(
        answer,
        reference::write(*entry, list, data, *order, &mut expected),
        "writing {case:?}"
    );
    assert_eq!(written, expected, "output after writing {case:?}");
    hits[*order as usize][answer.number as usize] += 1;
}

#[test]
fn writing() {
    let mut numbers = Numbers::new(cases::seed(), 78);
    let mut hits = [[0; 30]; 2];
    for _ in 0..CASES {
        compare_write(&cases::write_case(&mut numbers), &mut hits);
    }
    for hits in &hits {
        all_hit(hits, &[0, 8, 10, 11, 20, 21]);
    }
}

/// Sections of every size from 1 to 200, each with none to 20 data bytes behind
/// it, alone and before another section.
#[test]
fn writing_every_small_size() {
    let mut numbers = Numbers::new(cases::seed(), 79);
    let mut hits = [[0; 30]; 2];
    for size in 1..=200 {
        let data = numbers.bytes(1 + size + 20);
        for behind in 0..=20 {
            let section = ListSection {
                address: numbers.word() >> 1,
                start: numbers.below(2) as u32,
                size: size as u32,
            };
            let data = data[..section.start as usize + size + behind].to_vec();
            for count in 1..=2 {
                for order in ByteOrder::BOTH {
                    let list = vec![section; count];
                    let length = 8 + count * (8 + size.next_multiple_of(4));
                    let case = WriteCase {
                        entry: numbers.word(),
                        list,
                        data: data.clone(),
                        order,
                        output: vec![0xFF; length + 5],
                    };
                    compare_write(&case, &mut hits);
                }
            }
        }
    }
    for hits in &hits {
        assert_eq!(hits[0], 200 * 21 * 2, "{hits:?}");
    }
}

/// Compares what stands at an address, and counts its number in the case's order.
fn compare_find(case: &FindCase, hits: &mut [Hits; 2]) {
    let FindCase {
        older,
        newer,
        order,
        address,
    } = case;
    let answer = reference::find(older, newer, *order, *address);
    for find in [fast::find, fast::find_in_turns] {
        assert_eq!(
            find(older, newer, *order, *address),
            answer,
            "what stands at the address of {case:?}"
        );
    }
    hits[*order as usize][answer.number as usize] += 1;
}

#[test]
fn finding() {
    let mut numbers = Numbers::new(cases::seed(), 84);
    let mut hits = [[0; 30]; 2];
    for _ in 0..CASES {
        compare_find(&cases::find_case(&mut numbers), &mut hits);
    }
    for hits in &hits {
        all_hit(hits, &[0, 5, 7, 8]);
    }
}

/// Two tables of different and of equal counts of sections, from none to 40, which
/// cover the address or begin right past it; at times a fault stands behind them.
#[test]
fn finding_among_different_counts() {
    let mut numbers = Numbers::new(cases::seed(), 85);
    let mut hits = [[0; 30]; 2];
    for counts in 0..41 * 41 {
        for order in ByteOrder::BOTH {
            let address = numbers.pick(&[1, 0x0080_0000, 0xFFFF_FFFE]);
            let [mut older, mut newer] = [counts / 41, counts % 41].map(|count| {
                let list: Vec<(u32, &[u8])> = (0..count)
                    .map(|_| address - 1 + numbers.below(3) as u32)
                    .map(|first| (first.min(0xFFFF_FFFE), &[7, 8][..]))
                    .collect();
                cases::table(numbers.word(), &list, order)
            });
            for table in [&mut older, &mut newer] {
                if numbers.once_in(6) {
                    let (bytes, _, _) = cases::fault(&mut numbers, order);
                    table.truncate(table.len() - 4);
                    table.extend(bytes);
                }
            }
            let case = FindCase {
                older,
                newer,
                order,
                address,
            };
            compare_find(&case, &mut hits);
        }
    }
    for hits in &hits {
        all_hit(hits, &[0, 5, 7, 8]);
    }
}

/// Compares the rescue, and counts its number in the case's order.
fn compare_rescue(case: &RescueCase, hits: &mut [Hits; 2]) {
    let RescueCase {
        table,
        order,
        output,
    } = case;
    let mut written = output.clone();
    let mut expected = output.clone();
    let answer = fast::rescue(table, *order, &mut written);
    assert_eq!(
        answer,
        reference::rescue(table, *order, &mut expected),
        "rescuing {case:?}"
    );
    assert_eq!(written, expected, "output after rescuing {case:?}");
    hits[*order as usize][answer.number as usize] += 1;
}

#[test]
fn rescuing() {
    let mut numbers = Numbers::new(cases::seed(), 86);
    let mut hits = [[0; 30]; 2];
    for _ in 0..CASES {
        compare_rescue(&cases::rescue_case(&mut numbers), &mut hits);
    }
    for hits in &hits {
        all_hit(hits, &[0, 5, 11]);
    }
}

#[test]
fn configuring() {
    let mut numbers = Numbers::new(cases::seed(), 73);
    let mut hits = [0; 30];
    for _ in 0..CASES {
        let case = cases::config_case(&mut numbers);
        let mut values = case.values.clone();
        let mut expected = case.values.clone();
        let answer = fast::configure(&case.table, &case.addresses, &mut values);
        assert_eq!(
            answer,
            reference::configure(&case.table, &case.addresses, &mut expected),
            "configuring {case:?}"
        );
        assert_eq!(values, expected, "values after configuring {case:?}");
        hits[answer.number as usize] += 1;
    }
    all_hit(&hits, &[0, 12, 13, 14, 15, 16, 17]);
}

/// Compares the strap calls on a value and on a pair of values.
fn compare_strap(value: u32, other: u32, hits: &mut Hits) {
    for strict in [false, true] {
        let answer = fast::strap(value, strict);
        assert_eq!(answer, reference::strap(value, strict), "strap {value}");
        hits[answer.number as usize] += 1;
    }
    assert_eq!(
        fast::strap_short(value),
        reference::strap_short(value),
        "short entry, strap {value}"
    );
    assert_eq!(
        fast::strap_label(value),
        reference::strap_label(value),
        "label of strap {value}"
    );
    assert_eq!(
        fast::strap_same(value, other),
        reference::strap_same(value, other),
        "straps {value} and {other}"
    );
}

/// All strap values, each with those that differ in one bit, and generated
/// pairs.
#[test]
fn straps() {
    let mut numbers = Numbers::new(cases::seed(), 75);
    let mut hits = [0; 30];
    for value in 0..=STRAP_LIMIT {
        compare_strap(value, value, &mut hits);
        for bit in 0..14 {
            compare_strap(value, value ^ (1 << bit), &mut hits);
        }
    }
    for _ in 0..CASES {
        let value = cases::strap_value(&mut numbers);
        let other = cases::strap_value(&mut numbers);
        compare_strap(value, other, &mut hits);
    }
    all_hit(&hits, &[0, 18, 19]);
}

/// Tables and joins at the limit and over it, and what stands in such tables; no
/// generated case is so long.
#[test]
fn at_the_limit() {
    let map = cases::map(&[(1, 0, 16)]);
    for order in ByteOrder::BOTH {
        for size in [TABLE_LIMIT - 16, TABLE_LIMIT - 15, TABLE_LIMIT - 12] {
            let table = cases::table(0, &[(0, &vec![7; size])], order);
            assert_eq!(
                fast::judge(&map, &table, order),
                reference::judge(&map, &table, order),
                "judging {size} data bytes"
            );
            let mut memory = [1; 16];
            let mut expected = memory;
            assert_eq!(
                fast::load(&map, &table, order, &mut memory),
                reference::load(&map, &table, order, &mut expected),
                "loading {size} data bytes"
            );
            assert_eq!(memory, expected, "memory with {size} data bytes");
            let small = cases::table(0, &[(1, &[9])], order);
            let number = if size > TABLE_LIMIT - 16 { 4 } else { 0 };
            for address in [0, 1, size as u32 - 1, size as u32] {
                for (older, newer) in [(&table, &small), (&small, &table), (&table, &table)] {
                    for find in [fast::find, fast::find_in_turns] {
                        let answer = find(older, newer, order, address);
                        assert_eq!(
                            answer,
                            reference::find(older, newer, order, address),
                            "address {address} in {size} data bytes"
                        );
                        assert_eq!(answer.number, number, "{size} data bytes");
                    }
                }
            }
        }
        let first = cases::table(1, &[(0, &vec![8; TABLE_LIMIT / 2])], order);
        for less in [8, 12, 24, 28] {
            let second = cases::table(2, &[(0, &vec![9; TABLE_LIMIT / 2 - less])], order);
            let mut output = vec![3; TABLE_LIMIT + 4];
            let mut expected = output.clone();
            let answer = fast::join(&first, &second, order, &mut output);
            assert_eq!(
                answer,
                reference::join(&first, &second, order, &mut expected),
                "joining, {less} less"
            );
            assert!(output == expected, "output, {less} less");
            assert_eq!(answer.number, if less < 24 { 10 } else { 0 });
        }
    }
}

/// Written tables at the limit and over it, of one section, of many, and of so
/// many that the length is over 2^32.
#[test]
fn writing_at_the_limit() {
    let data = vec![7; TABLE_LIMIT];
    let most = (TABLE_LIMIT - 8) / 12;
    for order in ByteOrder::BOTH {
        for (count, size, number) in [
            (1, TABLE_LIMIT - 16, 0),
            (1, TABLE_LIMIT - 19, 0),
            (1, TABLE_LIMIT - 15, 10),
            (2, TABLE_LIMIT / 2 - 12, 0),
            (2, TABLE_LIMIT / 2 - 11, 10),
            (most, 1, 0),
            (most + 1, 1, 10),
            (65_536, 65_528, 10),
        ] {
            let section = ListSection {
                address: 0x0080_0000,
                start: 0,
                size: size as u32,
            };
            let list = vec![section; count];
            let mut output = vec![3; TABLE_LIMIT + 4];
            let mut expected = output.clone();
            let answer = fast::write(5, &list, &data, order, &mut output);
            assert_eq!(
                answer,
                reference::write(5, &list, &data, order, &mut expected),
                "{count} sections of {size} bytes"
            );
            assert!(output == expected, "{count} sections of {size} bytes");
            assert_eq!(answer.number, number, "{count} sections of {size} bytes");
        }
    }
}

/// Tables to rescue at the limit and over it: of one section that reaches to the last
/// bytes or is cut there, and of as many sections as the limit takes.
#[test]
fn rescuing_at_the_limit() {
    for order in ByteOrder::BOTH {
        let rescues = |table: &[u8], number: u64| {
            let mut output = vec![3; TABLE_LIMIT + 4];
            let mut expected = output.clone();
            let answer = fast::rescue(table, order, &mut output);
            assert_eq!(answer, reference::rescue(table, order, &mut expected));
            assert!(output == expected, "output, {} bytes", table.len());
            assert_eq!(answer.number, number, "{} bytes", table.len());
        };
        for (size, number) in [
            (TABLE_LIMIT - 16, 0),
            (TABLE_LIMIT - 15, 10),
            (TABLE_LIMIT - 12, 10),
            (TABLE_LIMIT - 11, 0),
        ] {
            let table = cases::table(1, &[(0, &vec![7; size])], order);
            rescues(&table[..TABLE_LIMIT], number);
            rescues(&table[..TABLE_LIMIT - 1], 0);
        }
        let over = cases::table(1, &[(0, &vec![7; TABLE_LIMIT - 15])], order);
        rescues(&over[..TABLE_LIMIT + 1], 4);
        rescues(&over, 4);
        let count = (TABLE_LIMIT - 8) / 12;
        let sections = vec![(9, &[8][..]); count];
        let table = cases::table(1, &sections, order);
        rescues(&table, 0);
        rescues(&table[..table.len() - 5], 0);
    }
}

/// As many sections of one byte as the limit takes, in no order, under kind 3;
/// then the last one has the address of the first.
#[test]
fn one_write_at_the_limit() {
    let count = (TABLE_LIMIT - 8) / 12;
    let map = cases::map(&[(3, 0x0080_0000, count as u32)]);
    let mut numbers = Numbers::new(cases::seed(), 77);
    let mut addresses: Vec<u32> = (0..count as u32).map(|i| 0x0080_0000 + i).collect();
    numbers.shuffle(&mut addresses);
    for (last, number, place) in [
        (addresses[count - 1], 0, 0),
        (addresses[0], 29, 4 + 12 * (count as u64 - 1)),
    ] {
        addresses[count - 1] = last;
        let order = numbers.order();
        let sections: Vec<(u32, &[u8])> = addresses.iter().map(|at| (*at, &[7][..])).collect();
        let table = cases::table(0, &sections, order);
        let answer = fast::judge(&map, &table, order);
        assert_eq!(answer, reference::judge(&map, &table, order));
        assert_eq!((answer.number, answer.place), (number, place));
    }
}

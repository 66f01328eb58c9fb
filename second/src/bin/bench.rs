//! The benchmark: the proved library, the fast peer and memcpy on the same
//! bytes. docs/BENCHMARK.md says what is measured and how.

use second::cases::{self, Numbers};
use second::reference::{
    ByteOrder, FindAnswer, ListSection, CONFIG_LIMIT, REGISTER_LIMIT, STRAP_LIMIT, TABLE_LIMIT,
};
use second::{calls, fast};
use std::fmt::Debug;
use std::hint::black_box;
use std::time::{Duration, Instant};

/// The best of so many repeats is printed.
const REPEATS: usize = 9;
/// A slow case has fewer repeats, but at least so many.
const FEWEST: usize = 3;
/// A case whose repeats have taken so much time is slow.
const SLOW: Duration = Duration::from_secs(1);
/// A repeat runs the call again until so much time has passed.
const SPAN: Duration = Duration::from_millis(5);
/// The first address of the sections.
const BASE: u32 = 0x0080_0000;
/// The addresses between two rows of sections that do not touch.
const GAP: usize = 16;
/// Half of the largest join.
const HALF: usize = TABLE_LIMIT / 2;

// Timing.

/// One of the timed pieces of work, over the buffers `B`.
type Work<'a, B> = Box<dyn Fn(&mut B) + 'a>;

/// Works that need the buffers in one state.
struct Group<'a, B> {
    /// Brings the buffers into that state; not timed.
    before: Work<'a, B>,
    works: Vec<Work<'a, B>>,
}

/// The time of one run of the work in nanoseconds, over `turns` runs.
fn timed<B>(work: &Work<B>, buffers: &mut B, turns: u32) -> f64 {
    let start = Instant::now();
    for _ in 0..turns {
        work(black_box(buffers));
    }
    start.elapsed().as_nanos() as f64 / f64::from(turns)
}

/// How many runs of the work fill a repeat.
fn turns<B>(work: &Work<B>, buffers: &mut B) -> u32 {
    let mut turns = 1;
    loop {
        let took = timed(work, buffers, turns) * f64::from(turns);
        if took >= SPAN.as_nanos() as f64 || turns >= 1 << 20 {
            return turns;
        }
        turns *= 2;
    }
}

/// The best time of each work of each group, in nanoseconds. They take turns,
/// so that a slow moment of the machine falls on all. The groups have the same
/// works, of which a later group may have fewer, and run them equally often.
fn measure<B, const N: usize>(buffers: &mut B, groups: [Group<B>; N]) -> [Vec<f64>; N] {
    (groups[0].before)(buffers);
    let works = groups[0].works.iter();
    let counts: Vec<u32> = works.map(|work| turns(work, buffers)).collect();
    let mut best = groups
        .each_ref()
        .map(|group| vec![f64::INFINITY; group.works.len()]);
    let start = Instant::now();
    for repeat in 0..REPEATS {
        if repeat >= FEWEST && start.elapsed() > SLOW {
            break;
        }
        for (group, best) in groups.iter().zip(&mut best) {
            (group.before)(buffers);
            for ((work, count), best) in group.works.iter().zip(&counts).zip(best) {
                *best = best.min(timed(work, buffers, *count));
            }
        }
    }
    best
}

/// The best time of each work where the buffers have one state.
fn measure_works<B>(buffers: &mut B, works: Vec<Work<B>>) -> Vec<f64> {
    let before = Box::new(|_: &mut B| ());
    let [times] = measure(buffers, [Group { before, works }]);
    times
}

// The printed lines.

/// What a line says of its case; a count that the call does not have is none.
#[derive(Clone, Copy, Default)]
struct Line<'a> {
    call: &'a str,
    case: &'a str,
    sections: Option<usize>,
    records: Option<usize>,
    bytes: Option<usize>,
}

fn print_header() {
    println!("Times in microseconds (us) for one call, for straps for {VALUES} calls: the best");
    println!("of {REPEATS} repeats, in slow cases of fewer, but at least of {FEWEST}.");
    println!("Buffers are touched once before timing: tables, lists, data, memory, output,");
    println!("values.");
    println!("case: the order of the sections (load, judge, join, write, find, rescue), of the");
    println!("records (map), of the entries (configure). Under a table the records touch and");
    println!("stand in falling order; apart: they do not touch; reserved: half of them are");
    println!("reserved; once: half of the sections lie in kind 3, or all of them where there is");
    println!("one record. find: one section of the older table covers the address; all cover:");
    println!("each section of both tables does; in turns: rising, and fast walks both tables in");
    println!("turns. cut: the table ends in a further section, and that of one section ends in");
    println!("its zero word.");
    println!("sections, bytes: of the table, for join and find of both tables, for write and");
    println!("rescue of the table that is written; bytes are data bytes, for configure those of");
    println!("the entries, for rescue all that are kept of the table.");
    println!("records: map records.");
    println!("memcpy: copy_from_slice of as many bytes; none where the call copies nothing.");
    println!("lib/fast, lib/memcpy: the library's time over the other's.");
    println!("Tables are high first; low: the same sections, low first; l/h: the low-first time");
    println!("of the library and of fast divided by the high-first one. The memcpy column of a");
    println!("low line repeats that of the line above.");
    println!();
    println!(
        "{:<11} {:<13} {:>8} {:>7} {:>9} {:>11} {:>11} {:>10} {:>8} {:>10}",
        "call",
        "case",
        "sections",
        "records",
        "bytes",
        "library us",
        "fast us",
        "memcpy us",
        "lib/fast",
        "lib/memcpy"
    );
}

/// A value as text, or a dash where there is none.
fn or_dash<T>(value: Option<T>, text: impl Fn(T) -> String) -> String {
    value.map_or("-".to_string(), text)
}

/// Prints a line: what it says of its case, and the columns after that.
fn print_columns(line: Line, columns: [String; 5]) {
    let Line { call, case, .. } = line;
    let count = |value: Option<usize>| or_dash(value, |count| count.to_string());
    let [sections, records, bytes] = [line.sections, line.records, line.bytes].map(count);
    let [library, fast, memcpy, of_fast, of_memcpy] = columns;
    println!(
        "{call:<11} {case:<13} {sections:>8} {records:>7} {bytes:>9} {library:>11} {fast:>11} {memcpy:>10} {of_fast:>8} {of_memcpy:>10}"
    );
}

/// A time in microseconds, of a call that takes less than one with more digits.
fn micros(time: f64) -> String {
    let digits = if time < 1000.0 { 5 } else { 3 };
    format!("{:.digits$}", time / 1000.0)
}

/// A time over another.
fn over(time: f64, other: f64) -> String {
    format!("{:.2}", time / other)
}

/// Prints a line with the times of library, fast and, where there is one,
/// memcpy.
fn print_line(line: Line, times: &[f64]) {
    let (library, fast) = (times[0], times[1]);
    let memcpy = times.get(2).copied();
    print_columns(
        line,
        [
            micros(library),
            micros(fast),
            or_dash(memcpy, micros),
            over(library, fast),
            or_dash(memcpy, |time| over(library, time)),
        ],
    );
}

/// Prints the lines of a call over tables: high first, low first, and the
/// second over the first.
fn print_orders(line: Line, times: [Vec<f64>; 2]) {
    let [high, mut low] = times;
    // Memcpy copies as many bytes as the data has, and is not measured again for
    // low first.
    low.extend(&high[2..]);
    let named = |suffix: &str| format!("{} {suffix}", line.call);
    print_line(line, &high);
    let call = &named("low");
    print_line(Line { call, ..line }, &low);
    let call = &named("l/h");
    let [library, fast] = [0, 1].map(|work| over(low[work], high[work]));
    let none = || "-".to_string();
    let columns = [library, fast, none(), none(), none()];
    print_columns(Line { call, ..line }, columns);
}

// Maps and tables.

/// Kind, first address and length of a map record.
type Record = (u8, u32, u32);

/// Permitted records that touch, together of a length, in rising order.
fn touching(count: usize, length: usize) -> Vec<Record> {
    let each = length.div_ceil(count);
    (0..count)
        .map(|i| (i * each, each.min(length - i * each)))
        .map(|(first, size)| (1, BASE + first as u32, size as u32))
        .collect()
}

/// The map of rising records, in falling order.
fn falling(mut records: Vec<Record>) -> Vec<u8> {
    records.reverse();
    cases::map(&records)
}

/// Sections of one size in rows. In a row they lie one after the other, and
/// between two rows there is a gap.
struct Rows {
    /// All sections; the last row may have fewer than the others.
    sections: usize,
    size: usize,
    rows: usize,
    gap: usize,
}

impl Rows {
    /// The sections in a row.
    fn each(&self) -> usize {
        self.sections.div_ceil(self.rows)
    }

    /// The addresses of the sections, rising.
    fn addresses(&self) -> Vec<u32> {
        (0..self.sections)
            .map(|i| i * self.size + i / self.each() * self.gap)
            .map(|offset| BASE + offset as u32)
            .collect()
    }

    /// The first address and the length of each row.
    fn spans(&self) -> impl Iterator<Item = (u32, u32)> + '_ {
        let whole = self.each() * self.size;
        (0..self.rows).map(move |i| {
            let length = whole.min(self.sections * self.size - i * whole);
            (BASE + (i * (whole + self.gap)) as u32, length as u32)
        })
    }

    /// A permitted record for each row; they do not touch.
    fn apart(&self) -> Vec<Record> {
        self.spans().map(|(first, size)| (1, first, size)).collect()
    }

    /// A permitted record for each row and the gap after it, and a reserved
    /// record for each gap. The permitted records touch.
    fn reserved(&self) -> Vec<Record> {
        let gap = self.gap as u32;
        self.spans()
            .flat_map(|(first, size)| [(1, first, size + gap), (2, first + size, gap)])
            .collect()
    }
}

/// A table that is written in one order, and then in the other.
struct Table {
    bytes: Vec<u8>,
    order: ByteOrder,
}

impl Table {
    /// A table that was built high first.
    fn new(bytes: Vec<u8>) -> Self {
        let order = ByteOrder::HighFirst;
        Table { bytes, order }
    }

    /// Writes the header words in an order.
    fn write_in(&mut self, order: ByteOrder) {
        if self.order == order {
            return;
        }
        cases::turn_word(&mut self.bytes, 0);
        let mut at = 4;
        while at + 4 < self.bytes.len() {
            let size = self.size(at);
            cases::turn_word(&mut self.bytes, at);
            cases::turn_word(&mut self.bytes, at + 4);
            at += 8 + size.next_multiple_of(4);
        }
        self.order = order;
    }

    /// The bytes, of which the compiler knows nothing.
    fn read(&self) -> &[u8] {
        black_box(&self.bytes)
    }

    /// The size word at an offset.
    fn size(&self, at: usize) -> usize {
        let bytes = self.bytes[at..at + 4].try_into().expect("four bytes");
        match self.order {
            ByteOrder::HighFirst => u32::from_be_bytes(bytes) as usize,
            ByteOrder::LowFirst => u32::from_le_bytes(bytes) as usize,
        }
    }
}

/// A table of sections of one size, one at each address, with any pads.
fn even_table(numbers: &mut Numbers, addresses: &[u32], size: usize) -> Table {
    let padded = size.next_multiple_of(4);
    let bytes = numbers.bytes(addresses.len() * padded);
    let sections: Vec<(u32, &[u8], &[u8])> = addresses
        .iter()
        .zip(bytes.chunks_exact(padded))
        .map(|(address, bytes)| (*address, &bytes[..size], &bytes[size..]))
        .collect();
    Table::new(cases::padded_table(BASE, &sections, ByteOrder::HighFirst))
}

/// A table of a length; its sections have one size, and the last one takes
/// what is left.
fn long_table(numbers: &mut Numbers, count: usize, length: usize) -> Table {
    let data = numbers.bytes(length - 8 - 8 * count);
    let size = data.len() / count / 4 * 4;
    let mut sections = Vec::with_capacity(count);
    let mut rest = &data[..];
    for i in 0..count {
        let (part, later) = rest.split_at(if i + 1 < count { size } else { rest.len() });
        sections.push((BASE + (i * size) as u32, part));
        rest = later;
    }
    Table::new(cases::table(BASE, &sections, ByteOrder::HighFirst))
}

/// The most sections of a size that the limit takes.
fn most(size: usize) -> usize {
    (TABLE_LIMIT - 8) / (8 + size.next_multiple_of(4))
}

// Judging and loading.

/// Loads and judges a table in each order with the library and the peer, whose
/// answers and memory must be equal. Answers the sections, the data bytes and
/// the memory.
fn agreed(map: &[u8], table: &mut Table) -> (usize, usize, Vec<u8>) {
    let size = calls::map(map).bytes as usize;
    let [high, low] = ByteOrder::BOTH.map(|order| {
        table.write_in(order);
        let table = &table.bytes;
        assert!(table.len() <= TABLE_LIMIT);
        let mut memory = vec![0x5A; size];
        let mut other = memory.clone();
        let answer = calls::load(map, table, order, &mut memory);
        assert_eq!(answer, fast::load(map, table, order, &mut other));
        assert!(memory == other, "the same memory");
        assert_eq!(answer, calls::judge(map, table, order));
        assert_eq!(answer, fast::judge(map, table, order));
        (answer, memory)
    });
    assert!(high == low, "the same in each order");
    let (answer, memory) = high;
    assert_eq!(answer.number, 0);
    (answer.sections as usize, answer.bytes as usize, memory)
}

/// The lines of a table under a map.
fn load_and_judge(case: &str, map: &[u8], table: &mut Table) {
    let (sections, bytes, memory) = agreed(map, table);
    let line = |call| Line {
        call,
        case,
        sections: Some(sections),
        records: Some(map.len() / 12),
        bytes: Some(bytes),
    };
    type Loaded<'a> = (&'a mut Table, Vec<u8>);
    let [mut high, low] = ByteOrder::BOTH.map(|order| Group {
        before: Box::new(move |(table, _): &mut Loaded| table.write_in(order)),
        works: vec![
            Box::new(move |(table, memory)| {
                black_box(calls::load(black_box(map), table.read(), order, memory));
            }),
            Box::new(move |(table, memory)| {
                black_box(fast::load(black_box(map), table.read(), order, memory));
            }),
        ],
    });
    high.works.push(Box::new(|(table, memory)| {
        memory[..bytes].copy_from_slice(&table.bytes[..bytes])
    }));
    let mut buffers = (&mut *table, memory);
    print_orders(line("load"), measure(&mut buffers, [high, low]));
    drop(buffers);
    let groups = ByteOrder::BOTH.map(|order| Group {
        before: Box::new(move |table: &mut Table| table.write_in(order)),
        works: vec![
            Box::new(move |table| {
                black_box(calls::judge(black_box(map), table.read(), order));
            }),
            Box::new(move |table| {
                black_box(fast::judge(black_box(map), table.read(), order));
            }),
        ],
    });
    print_orders(line("judge"), measure(table, groups));
}

/// Sections one after the other, under 1 record and under 64 that touch.
fn rising(numbers: &mut Numbers, sections: usize, size: usize) {
    let rows = Rows {
        sections,
        size,
        rows: 1,
        gap: 0,
    };
    let mut table = even_table(numbers, &rows.addresses(), size);
    for records in [1, 64] {
        let map = falling(touching(records, sections * size));
        load_and_judge("rising", &map, &mut table);
    }
}

/// The most sections of one byte, each address once and in no order, under 64
/// records that touch and under 64 that do not.
fn random(numbers: &mut Numbers) {
    for (case, gap) in [("random", 0), ("random, apart", GAP)] {
        let rows = Rows {
            sections: most(1),
            size: 1,
            rows: 64,
            gap,
        };
        let mut addresses = rows.addresses();
        numbers.shuffle(&mut addresses);
        let mut table = even_table(numbers, &addresses, 1);
        load_and_judge(case, &falling(rows.apart()), &mut table);
    }
}

/// Sections in 32 rows under 32 permitted records. Each of these ends in a
/// hole, which is a reserved record and stands beside it in the map.
fn reserved(numbers: &mut Numbers, sections: usize, size: usize) {
    let rows = Rows {
        sections,
        size,
        rows: 32,
        gap: GAP,
    };
    let mut table = even_table(numbers, &rows.addresses(), size);
    load_and_judge("reserved", &falling(rows.reserved()), &mut table);
}

/// Sections of 64 bytes in rising, falling and random order, under two records
/// that touch, of which the lower is of kind 3 and holds half of the sections.
fn one_write(numbers: &mut Numbers, sections: usize) {
    let rows = Rows {
        sections,
        size: 64,
        rows: 1,
        gap: 0,
    };
    let mut records = touching(2, sections * rows.size);
    records[0].0 = 3;
    let map = falling(records);
    let mut addresses = rows.addresses();
    let line = |case, numbers: &mut Numbers, addresses: &[u32]| {
        let mut table = even_table(numbers, addresses, rows.size);
        load_and_judge(case, &map, &mut table);
    };
    line("rising, once", numbers, &addresses);
    addresses.reverse();
    line("falling, once", numbers, &addresses);
    numbers.shuffle(&mut addresses);
    line("random, once", numbers, &addresses);
}

/// The most sections of one byte, one after the other, all of them in kind 3.
fn most_once(numbers: &mut Numbers) {
    let rows = Rows {
        sections: most(1),
        size: 1,
        rows: 1,
        gap: 0,
    };
    let mut table = even_table(numbers, &rows.addresses(), 1);
    let map = cases::map(&[(3, BASE, rows.sections as u32)]);
    load_and_judge("rising, once", &map, &mut table);
}

// The other calls.

/// A map alone.
fn map(case: &str, records: &[Record]) {
    let map = cases::map(records);
    let answer = calls::map(&map);
    assert_eq!(answer, fast::map(&map));
    assert_eq!(answer.number, 0);
    let times = measure_works(
        &mut (),
        vec![
            Box::new(|_| {
                black_box(calls::map(black_box(&map)));
            }),
            Box::new(|_| {
                black_box(fast::map(black_box(&map)));
            }),
        ],
    );
    let line = Line {
        call: "map",
        case,
        records: Some(records.len()),
        ..Default::default()
    };
    print_line(line, &times);
}

/// One record, and 64 in three orders.
fn maps(numbers: &mut Numbers) {
    let bytes = 64 * 16 * 1024;
    map("rising", &touching(1, bytes));
    let mut records = touching(64, bytes);
    map("rising", &records);
    records.reverse();
    map("falling", &records);
    numbers.shuffle(&mut records);
    map("random", &records);
}

fn join(numbers: &mut Numbers, count: usize) {
    let mut tables = [(); 2].map(|()| long_table(numbers, count, HALF));
    // The data bytes of one table.
    let bytes = HALF - 8 - 8 * count;
    let mut output = vec![0x5A; 2 * HALF - 8];

    for order in ByteOrder::BOTH {
        let [first, second] = tables.each_mut().map(|table| {
            table.write_in(order);
            table.read()
        });
        let answer = calls::join(first, second, order, &mut output);
        let mut other = vec![0xA5; output.len()];
        assert_eq!(answer, fast::join(first, second, order, &mut other));
        assert!(output == other, "the same output");
        assert_eq!((answer.number, answer.sections), (0, 2 * count as u64));
    }

    type Joined = ([Table; 2], Vec<u8>);
    let [mut high, low] = ByteOrder::BOTH.map(|order| Group {
        before: Box::new(move |(tables, _): &mut Joined| {
            for table in tables {
                table.write_in(order);
            }
        }),
        works: vec![
            Box::new(move |([first, second], output)| {
                black_box(calls::join(first.read(), second.read(), order, output));
            }),
            Box::new(move |([first, second], output)| {
                black_box(fast::join(first.read(), second.read(), order, output));
            }),
        ],
    });
    high.works.push(Box::new(|([first, second], output)| {
        let (left, right) = output[..2 * bytes].split_at_mut(bytes);
        left.copy_from_slice(&first.bytes[..bytes]);
        right.copy_from_slice(&second.bytes[..bytes]);
    }));
    let line = Line {
        call: "join",
        case: "rising",
        sections: Some(2 * count),
        bytes: Some(2 * bytes),
        ..Default::default()
    };
    print_orders(line, measure(&mut (tables, output), [high, low]));
}

/// A list of sections of one size, which lie one after the other and whose data
/// does. The output has the table's length.
fn write(numbers: &mut Numbers, count: usize, size: usize) {
    let data = numbers.bytes(count * size);
    let list: Vec<ListSection> = (0..count)
        .map(|i| (i * size) as u32)
        .map(|start| ListSection {
            address: BASE + start,
            start,
            size: size as u32,
        })
        .collect();
    let mut output = vec![0x5A; 8 + count * (8 + size.next_multiple_of(4))];

    for order in ByteOrder::BOTH {
        output.fill(0x5A);
        let answer = calls::write(BASE, &list, &data, order, &mut output);
        let mut other = vec![0xA5; output.len()];
        let expected = fast::write(BASE, &list, &data, order, &mut other);
        assert_eq!(answer, expected);
        assert!(output == other, "the same output");
        assert_eq!((answer.number, answer.sections), (0, count as u64));
    }

    // What the compiler knows nothing of.
    let lent = || black_box((BASE, &list[..], &data[..]));
    let [mut high, low] = ByteOrder::BOTH.map(|order| Group {
        before: Box::new(|_: &mut Vec<u8>| ()),
        works: vec![
            Box::new(move |output| {
                let (entry, list, data) = lent();
                black_box(calls::write(entry, list, data, order, output));
            }),
            Box::new(move |output| {
                let (entry, list, data) = lent();
                black_box(fast::write(entry, list, data, order, output));
            }),
        ],
    });
    let bytes = data.len();
    high.works.push(Box::new(|output| {
        output[..bytes].copy_from_slice(&data);
    }));
    let line = Line {
        call: "write",
        case: "rising",
        sections: Some(count),
        bytes: Some(bytes),
        ..Default::default()
    };
    print_orders(line, measure(&mut output, [high, low]));
}

/// The same sizes as for loading, but a round million of four bytes.
fn writes(numbers: &mut Numbers) {
    write(numbers, 1, TABLE_LIMIT - 16);
    write(numbers, 1000, 16 * 1024);
    write(numbers, most(64), 64);
    write(numbers, 1_000_000, 4);
    write(numbers, most(1), 1);
}

/// A peer that finds what stands at an address.
type Find = fn(&[u8], &[u8], ByteOrder, u32) -> FindAnswer;

/// What stands at an address in two tables of sections of one size, one at each
/// address of a list for each.
fn find(
    numbers: &mut Numbers,
    case: &str,
    lists: &[Vec<u32>; 2],
    size: usize,
    address: u32,
    peer: Find,
) {
    let mut tables = lists
        .each_ref()
        .map(|addresses| even_table(numbers, addresses, size));
    let sections = lists[0].len() + lists[1].len();

    let [high, low] = ByteOrder::BOTH.map(|order| {
        let [older, newer] = tables.each_mut().map(|table| {
            table.write_in(order);
            assert!(table.bytes.len() <= TABLE_LIMIT);
            table.read()
        });
        let answer = calls::find(older, newer, order, address);
        assert_eq!(answer, peer(older, newer, order, address));
        answer
    });
    assert_eq!(high, low, "the same in each order");
    assert_eq!((high.number, high.read), (0, 8 * sections as u64 + 8));
    assert_ne!(high.table, 0);

    let groups = ByteOrder::BOTH.map(|order| Group {
        before: Box::new(move |tables: &mut [Table; 2]| {
            for table in tables {
                table.write_in(order);
            }
        }),
        works: vec![
            Box::new(move |[older, newer]: &mut [Table; 2]| {
                let address = black_box(address);
                black_box(calls::find(older.read(), newer.read(), order, address));
            }),
            Box::new(move |[older, newer]: &mut [Table; 2]| {
                let address = black_box(address);
                black_box(peer(older.read(), newer.read(), order, address));
            }),
        ],
    });
    let line = Line {
        call: "find",
        case,
        sections: Some(sections),
        bytes: Some(sections * size),
        ..Default::default()
    };
    print_orders(line, measure(&mut tables, groups));
}

/// Two tables of so many sections each, of one size, one after the other and the
/// newer's past the older's, and the address of a byte in the middle of the older's.
/// Answers the addresses of the sections.
fn find_rising(numbers: &mut Numbers, count: usize, size: usize) -> [Vec<u32>; 2] {
    let rows = Rows {
        sections: 2 * count,
        size,
        rows: 1,
        gap: 0,
    };
    let mut older = rows.addresses();
    let newer = older.split_off(count);
    let lists = [older, newer];
    find(
        numbers,
        "rising",
        &lists,
        size,
        middle(count, size),
        fast::find,
    );
    lists
}

/// An address in the middle of so many sections of one size.
fn middle(count: usize, size: usize) -> u32 {
    BASE + (count * size / 2) as u32 + 1
}

/// One section of each table, the largest that the limit takes; 1,000 of 16 KiB; and
/// a round million of four bytes, rising, against both peers, in no order, and all at
/// one address.
fn finds(numbers: &mut Numbers) {
    find_rising(numbers, 1, TABLE_LIMIT - 16);
    find_rising(numbers, 1000, 16 * 1024);
    let (count, size) = (1_000_000, 4);
    let address = middle(count, size);
    let mut lists = find_rising(numbers, count, size);
    find(
        numbers,
        "in turns",
        &lists,
        size,
        address,
        fast::find_in_turns,
    );
    for list in &mut lists {
        numbers.shuffle(list);
    }
    find(numbers, "random", &lists, size, address, fast::find);
    let lists = [(); 2].map(|()| vec![BASE; count]);
    find(numbers, "all cover", &lists, size, BASE + 1, fast::find);
}

/// A table of sections of one size, one after the other, of which so many last bytes are
/// cut off: some of the zero word, or all of it and some of the last section. So many
/// sections are then kept. The output has the result's length.
fn rescue(numbers: &mut Numbers, sections: usize, size: usize, off: usize, kept: usize) {
    let rows = Rows {
        sections,
        size,
        rows: 1,
        gap: 0,
    };
    let mut table = even_table(numbers, &rows.addresses(), size);
    table.bytes.truncate(table.bytes.len() - off);
    let mut output = vec![0x5A; 8 + kept * (8 + size.next_multiple_of(4))];

    for order in ByteOrder::BOTH {
        table.write_in(order);
        assert!(table.bytes.len() <= TABLE_LIMIT);
        output.fill(0x5A);
        let answer = calls::rescue(table.read(), order, &mut output);
        let mut other = vec![0xA5; output.len()];
        assert_eq!(answer, fast::rescue(table.read(), order, &mut other));
        assert!(output == other, "the same output");
        let answered = (answer.number, answer.sections, answer.added);
        assert_eq!(answered, (0, kept as u64, 1));
    }

    type Rescued = (Table, Vec<u8>);
    let [mut high, low] = ByteOrder::BOTH.map(|order| Group {
        before: Box::new(move |(table, _): &mut Rescued| table.write_in(order)),
        works: vec![
            Box::new(move |(table, output)| {
                black_box(calls::rescue(table.read(), order, output));
            }),
            Box::new(move |(table, output)| {
                black_box(fast::rescue(table.read(), order, output));
            }),
        ],
    });
    // All but the zero word.
    let bytes = output.len() - 4;
    high.works.push(Box::new(move |(table, output)| {
        output[..bytes].copy_from_slice(&table.bytes[..bytes]);
    }));
    let line = Line {
        call: "rescue",
        case: "rising, cut",
        sections: Some(kept),
        bytes: Some(bytes),
        ..Default::default()
    };
    print_orders(line, measure(&mut (table, output), [high, low]));
}

/// The largest section that the limit takes, with two bytes of its zero word; 20,000
/// sections that nearly fill the limit, and a round million of one byte, each with a
/// further section that is cut by two bytes.
fn rescues(numbers: &mut Numbers) {
    rescue(numbers, 1, TABLE_LIMIT - 16, 2, 1);
    rescue(numbers, 20_001, 828, 6, 20_000);
    rescue(numbers, 1_000_001, 1, 6, 1_000_000);
}

fn configure(numbers: &mut Numbers) {
    let addresses: Vec<u32> = (0..REGISTER_LIMIT as u32)
        .map(|i| 0x0262_0000 + 4 * i)
        .collect();
    let mut values: Vec<u32> = addresses.iter().map(|_| numbers.word()).collect();
    // Registers in no order, no mask zero.
    let list: Vec<(u32, u32, u32)> = (0..CONFIG_LIMIT / 12 - 1)
        .map(|_| {
            let address = numbers.pick(&addresses);
            (address, numbers.word() | 1, numbers.word() | 2)
        })
        .collect();
    let table = cases::config(&list);
    let bytes = table.len() - 12;

    let mut other = values.clone();
    let answer = calls::configure(&table, &addresses, &mut values);
    assert_eq!(answer, fast::configure(&table, &addresses, &mut other));
    assert_eq!(values, other);
    assert_eq!((answer.number, answer.entries), (0, list.len() as u64));

    // The work is the same whatever the values are.
    let copied = vec![0x5A; bytes];
    let times = measure_works(
        &mut (values, copied),
        vec![
            Box::new(|(values, _)| {
                black_box(calls::configure(black_box(&table), &addresses, values));
            }),
            Box::new(|(values, _)| {
                black_box(fast::configure(black_box(&table), &addresses, values));
            }),
            Box::new(|(_, copied)| copied.copy_from_slice(&table[..bytes])),
        ],
    );
    let line = Line {
        call: "configure",
        case: "random",
        bytes: Some(bytes),
        ..Default::default()
    };
    print_line(line, &times);
}

/// How many strap values there are; a run of a strap call takes so many.
const VALUES: usize = STRAP_LIMIT as usize + 1;

/// The line of a strap call, over all inputs in one run.
fn strap<I: Copy, A: Debug + PartialEq>(
    call: &str,
    case: &str,
    inputs: &[I],
    library: impl Fn(I) -> A,
    peer: impl Fn(I) -> A,
) {
    for input in inputs {
        assert_eq!(library(*input), peer(*input));
    }
    let times = measure_works(
        &mut (),
        vec![
            Box::new(|_| {
                for input in inputs {
                    black_box(library(black_box(*input)));
                }
            }),
            Box::new(|_| {
                for input in inputs {
                    black_box(peer(black_box(*input)));
                }
            }),
        ],
    );
    let line = Line {
        call,
        case,
        ..Default::default()
    };
    print_line(line, &times);
}

/// All strap values in no order. For the comparison each is paired with
/// itself or with a value that differs in one bit.
fn straps(numbers: &mut Numbers) {
    let mut values: Vec<u32> = (0..=STRAP_LIMIT).collect();
    numbers.shuffle(&mut values);
    let pairs: Vec<(u32, u32)> = values
        .iter()
        .map(|value| (*value, value ^ (numbers.word() & 1) << numbers.below(13)))
        .collect();
    strap(
        "strap",
        "strict",
        &values,
        |value| calls::strap(value, true),
        |value| fast::strap(value, true),
    );
    strap(
        "strap",
        "lenient",
        &values,
        |value| calls::strap(value, false),
        |value| fast::strap(value, false),
    );
    strap(
        "strap_short",
        "strict",
        &values,
        calls::strap_short,
        fast::strap_short,
    );
    strap(
        "strap_same",
        "pairs",
        &pairs,
        |(one, two)| calls::strap_same(one, two),
        |(one, two)| fast::strap_same(one, two),
    );
    strap(
        "strap_label",
        "lenient",
        &values,
        calls::strap_label,
        fast::strap_label,
    );
}

fn main() {
    let mut numbers = Numbers::new(cases::SEED, 80);
    print_header();
    // The largest section, 1,000 sections of 16 KiB, and the most sections of
    // 64, 4 and 1 bytes that the limit takes.
    rising(&mut numbers, 1, TABLE_LIMIT - 16);
    rising(&mut numbers, 1000, 16 * 1024);
    for size in [64, 4, 1] {
        rising(&mut numbers, most(size), size);
    }
    reserved(&mut numbers, 1000, 16 * 1024);
    reserved(&mut numbers, most(1), 1);
    random(&mut numbers);
    // Memory that takes one write.
    for sections in [1000, 10_000] {
        one_write(&mut numbers, sections);
    }
    most_once(&mut numbers);
    maps(&mut numbers);
    for count in [1, 100, 10_000] {
        join(&mut numbers, count);
    }
    writes(&mut Numbers::new(cases::SEED, 81));
    finds(&mut Numbers::new(cases::SEED, 82));
    rescues(&mut Numbers::new(cases::SEED, 83));
    configure(&mut numbers);
    straps(&mut numbers);
}

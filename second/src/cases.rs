//! Builders for maps, tables and lists, and the generated cases. All cases follow
//! from one seed. The variable TUNEHARBOR_SEED changes the seed and
//! TUNEHARBOR_CASES the count of generated cases.

use crate::reference::{self, ByteOrder, ListSection, CONFIG_LIMIT, TABLE_LIMIT, TOP};

/// The seed where TUNEHARBOR_SEED names no other.
pub const SEED: u64 = 20_261_115;
/// The count of generated cases where TUNEHARBOR_CASES names no other.
pub const CASES: u64 = 1_000_000;

fn variable(name: &str, otherwise: u64) -> u64 {
    match std::env::var(name) {
        Ok(text) => text
            .parse()
            .unwrap_or_else(|_| panic!("{name} must be a decimal number, not {text:?}")),
        Err(_) => otherwise,
    }
}

/// The seed of this run.
pub fn seed() -> u64 {
    variable("TUNEHARBOR_SEED", SEED)
}

/// The count of generated cases of this run.
pub fn count() -> u64 {
    variable("TUNEHARBOR_CASES", CASES)
}

/// A splitmix generator of 64-bit numbers.
#[derive(Clone)]
pub struct Numbers(u64);

impl Numbers {
    /// A generator for one use of the run's seed.
    pub fn new(seed: u64, part: u64) -> Self {
        let mut numbers = Numbers(seed);
        let start = numbers.next() ^ part.wrapping_mul(0x9E37_79B9_7F4A_7C15);
        Numbers(start)
    }

    fn next(&mut self) -> u64 {
        self.0 = self.0.wrapping_add(0x9E37_79B9_7F4A_7C15);
        let mut z = self.0;
        z = (z ^ (z >> 30)).wrapping_mul(0xBF58_476D_1CE4_E5B9);
        z = (z ^ (z >> 27)).wrapping_mul(0x94D0_49BB_1331_11EB);
        z ^ (z >> 31)
    }

    /// A number below a limit that is not zero.
    pub fn below(&mut self, limit: u64) -> u64 {
        self.next() % limit
    }

    /// An index below a length that is not zero.
    pub fn index(&mut self, length: usize) -> usize {
        self.below(length as u64) as usize
    }

    /// A number from `low` to `high`, both included.
    pub fn from_to(&mut self, low: u64, high: u64) -> u64 {
        low + self.below(high - low + 1)
    }

    /// Yes, once in so many times.
    pub fn once_in(&mut self, times: u64) -> bool {
        self.below(times) == 0
    }

    pub fn pick<T: Copy>(&mut self, from: &[T]) -> T {
        from[self.index(from.len())]
    }

    pub fn word(&mut self) -> u32 {
        self.next() as u32
    }

    pub fn byte(&mut self) -> u8 {
        self.next() as u8
    }

    pub fn bytes(&mut self, length: usize) -> Vec<u8> {
        (0..length).map(|_| self.byte()).collect()
    }

    /// Either byte order.
    pub fn order(&mut self) -> ByteOrder {
        self.pick(&ByteOrder::BOTH)
    }

    /// Puts a list in no order.
    pub fn shuffle<T>(&mut self, list: &mut [T]) {
        for i in (1..list.len()).rev() {
            list.swap(i, self.index(i + 1));
        }
    }
}

/// Table P of document 01.
pub const P: [u8; 20] = [
    0, 0x80, 0, 0, 0, 0, 0, 3, 0, 0x80, 0, 2, 0xA1, 0xA2, 0xA3, 0, 0, 0, 0, 0,
];
/// P low first.
pub const P_LOW: [u8; 20] = [
    0, 0, 0x80, 0, 3, 0, 0, 0, 2, 0, 0x80, 0, 0xA1, 0xA2, 0xA3, 0, 0, 0, 0, 0,
];

/// P in an order.
pub fn p(order: ByteOrder) -> &'static [u8; 20] {
    [&P, &P_LOW][order as usize]
}

// Builders.

/// A map record.
pub fn record(kind: u8, first: u32, length: u32) -> Vec<u8> {
    let mut bytes = vec![0x52, 0x47, kind, 0];
    bytes.extend(first.to_be_bytes());
    bytes.extend(length.to_be_bytes());
    bytes
}

/// A map from kind, first address and length of each record.
pub fn map(records: &[(u8, u32, u32)]) -> Vec<u8> {
    let mut bytes = Vec::new();
    for (kind, first, length) in records {
        bytes.extend(record(*kind, *first, *length));
    }
    bytes
}

/// The bytes of a header word.
pub fn header_word(value: u32, order: ByteOrder) -> [u8; 4] {
    match order {
        ByteOrder::HighFirst => value.to_be_bytes(),
        ByteOrder::LowFirst => value.to_le_bytes(),
    }
}

/// Writes a header word in the other order.
pub fn turn_word(bytes: &mut [u8], at: usize) {
    bytes[at..at + 4].reverse();
}

/// How many pads stand after data of a size.
fn pads_after(size: usize) -> usize {
    size.next_multiple_of(4) - size
}

/// Zero pads for data of a size.
fn zero_pads(size: usize) -> &'static [u8] {
    &[0; 3][..pads_after(size)]
}

/// A section: size word, address word, data, zero pads.
pub fn section(address: u32, data: &[u8], order: ByteOrder) -> Vec<u8> {
    padded_section(address, data, zero_pads(data.len()), order)
}

/// A section: size word, address word, data, and pads of any contents.
pub fn padded_section(address: u32, data: &[u8], pads: &[u8], order: ByteOrder) -> Vec<u8> {
    assert_eq!(pads.len(), pads_after(data.len()), "the count of pads");
    let mut bytes = Vec::with_capacity(8 + data.len() + pads.len());
    bytes.extend(header_word(data.len() as u32, order));
    bytes.extend(header_word(address, order));
    bytes.extend(data);
    bytes.extend(pads);
    bytes
}

/// A boot table from its entry and the address and data of each section, with
/// zero pads.
pub fn table(entry: u32, sections: &[(u32, &[u8])], order: ByteOrder) -> Vec<u8> {
    let list: Vec<(u32, &[u8], &[u8])> = sections
        .iter()
        .map(|(address, data)| (*address, *data, zero_pads(data.len())))
        .collect();
    padded_table(entry, &list, order)
}

/// A boot table from its entry and the address, data and pads of each section.
pub fn padded_table(entry: u32, sections: &[(u32, &[u8], &[u8])], order: ByteOrder) -> Vec<u8> {
    let mut bytes = header_word(entry, order).to_vec();
    for (address, data, pads) in sections {
        bytes.extend(padded_section(*address, data, pads, order));
    }
    bytes.extend([0; 4]);
    bytes
}

/// A list for the writer from address, start and size of each section.
pub fn list(sections: &[(u32, u32, u32)]) -> Vec<ListSection> {
    sections
        .iter()
        .map(|&(address, start, size)| ListSection {
            address,
            start,
            size,
        })
        .collect()
}

/// Configuration entries from address, bits to set and bits to clear, with no
/// end entry.
pub fn entries(list: &[(u32, u32, u32)]) -> Vec<u8> {
    let mut bytes = Vec::new();
    for (address, set, clear) in list {
        for word in [address, set, clear] {
            bytes.extend(word.to_be_bytes());
        }
    }
    bytes
}

/// A configuration table: entries and the end entry.
pub fn config(list: &[(u32, u32, u32)]) -> Vec<u8> {
    let mut bytes = entries(list);
    bytes.extend([0; 12]);
    bytes
}

fn set_header_word(bytes: &mut [u8], at: usize, value: u32, order: ByteOrder) {
    bytes[at..at + 4].copy_from_slice(&header_word(value, order));
}

/// Sets a word of a map or a configuration table.
fn set_word(bytes: &mut [u8], at: usize, value: u32) {
    set_header_word(bytes, at, value, ByteOrder::HighFirst);
}

// Maps.

/// A generated map and the runs of its permitted records in map order.
#[derive(Clone, Debug)]
pub struct Regions {
    pub map: Vec<u8>,
    /// First address and length of each permitted record, kind 1 or 3.
    pub runs: Vec<(u64, u64)>,
    /// Those of kind 3.
    pub once: Vec<(u64, u64)>,
}

impl Regions {
    /// All permitted lengths together.
    pub fn memory_size(&self) -> u64 {
        self.runs.iter().map(|run| run.1).sum()
    }

    /// The runs of kind 1.
    fn not_once(&self) -> Vec<(u64, u64)> {
        let mut runs = self.runs.clone();
        runs.retain(|run| !self.once.contains(run));
        runs
    }

    /// The longest stretches of permitted addresses in rising order, first and
    /// end. A stretch has one record, or more that touch (or, in a map that is
    /// not sound, share addresses).
    fn stretches(&self) -> Vec<(u64, u64)> {
        let mut runs = self.runs.clone();
        runs.sort_unstable();
        let mut list: Vec<(u64, u64)> = Vec::new();
        for (first, length) in runs {
            match list.last_mut() {
                Some(stretch) if first <= stretch.1 => {
                    stretch.1 = stretch.1.max(first + length);
                }
                _ => list.push((first, first + length)),
            }
        }
        list
    }
}

/// The kinds of so many permitted records: in a third of the maps kind 3 for all
/// of them or for some, and kind 1 otherwise.
fn permitted_kinds(numbers: &mut Numbers, count: usize) -> Vec<u8> {
    let mut kinds = vec![1; count];
    match numbers.below(9) {
        _ if count == 0 => {}
        0 => kinds.fill(3),
        1 | 2 => {
            for kind in &mut kinds {
                *kind = numbers.pick(&[1, 3]);
            }
            kinds[numbers.index(count)] = 3;
        }
        _ => {}
    }
    kinds
}

/// A sound map: short permitted records that touch or lie near each other, in
/// rising, falling or mixed order, with reserved records as holes in them. In a
/// third of the maps permitted records are of kind 3.
pub fn sound_map(numbers: &mut Numbers) -> Regions {
    let everything = numbers.once_in(40);
    let full = numbers.once_in(30);
    let wanted = match numbers.below(20) {
        _ if full => numbers.from_to(40, 64),
        0 => 0,
        1..=6 => 1,
        _ => numbers.from_to(2, 5),
    };
    let mut runs = Vec::new();
    if numbers.once_in(60) {
        // Nearly all addresses permitted: such memory is never lent.
        runs.push((numbers.below(2), 0xFFFF_FFFF));
    } else {
        let random = u64::from(numbers.word());
        let mut at = numbers.pick(&[
            0,
            1,
            0x0080_0000,
            0x7FFF_FFF0,
            TOP - 40,
            TOP - 80,
            TOP - 1,
            random,
        ]);
        for _ in 0..wanted {
            at += numbers.pick(&[0, 0, 0, 1, 2, 3, 15, 16]);
            let mut length = numbers.from_to(1, 24);
            if at >= TOP {
                break;
            }
            if at + length > TOP {
                length = TOP - at;
            }
            runs.push((at, length));
            at += length;
        }
    }
    match numbers.below(4) {
        0 => runs.reverse(),
        1 => numbers.shuffle(&mut runs),
        _ => {}
    }
    let kinds = permitted_kinds(numbers, runs.len());
    let mut records = Vec::new();
    let mut once = Vec::new();
    for (kind, (first, length)) in kinds.into_iter().zip(&runs) {
        records.push(record(kind, *first as u32, *length as u32));
        if kind == 3 {
            once.push((*first, *length));
        }
    }
    let holes = if full {
        64 - records.len() as u64
    } else if numbers.once_in(3) {
        numbers.from_to(1, 3)
    } else {
        0
    };
    for _ in 0..holes {
        let (first, length) = if runs.is_empty() || numbers.once_in(6) || full {
            (u64::from(numbers.word()), numbers.from_to(1, 8))
        } else {
            let run = numbers.pick(&runs);
            let first = run.0 + numbers.below(run.1.min(40) + 1);
            (first, numbers.from_to(1, 4))
        };
        let first = first.min(TOP - 1);
        let length = length.min(TOP - first);
        let at = numbers.index(records.len() + 1);
        records.insert(at, record(2, first as u32, length as u32));
    }
    if everything && records.len() <= 62 {
        let at = numbers.index(records.len() + 1);
        records.insert(at, record(2, 0, 0xFFFF_FFFF));
        if numbers.once_in(2) {
            records.insert(at, record(2, 0xFFFF_FFFF, 1));
        }
    }
    Regions {
        map: records.concat(),
        runs,
        once,
    }
}

/// A sound map whose memory can be lent.
pub fn lendable_map(numbers: &mut Numbers) -> Regions {
    loop {
        let regions = sound_map(numbers);
        if regions.memory_size() < 1 << 16 {
            return regions;
        }
    }
}

/// One damage to a map.
fn damage_map(numbers: &mut Numbers, regions: &mut Regions) {
    let map = &mut regions.map;
    let count = map.len() / 12;
    if count > 0 && !numbers.once_in(4) {
        let at = numbers.index(count) * 12;
        let first = u32::from_be_bytes([map[at + 4], map[at + 5], map[at + 6], map[at + 7]]);
        let length = u32::from_be_bytes([map[at + 8], map[at + 9], map[at + 10], map[at + 11]]);
        match numbers.below(12) {
            0 => map[at] = numbers.byte(),
            1 => map[at + 1] ^= 1 << numbers.below(8),
            2 => map[at + 2] = numbers.pick(&[0, 3, 4, 255]),
            3 => map[at + 3] = numbers.pick(&[1, 128, 255]),
            4 => set_word(map, at + 8, 0),
            5 => {
                let edge = 0u32.wrapping_sub(first);
                let value = numbers.pick(&[0xFFFF_FFFF, edge, edge.wrapping_add(1)]);
                set_word(map, at + 8, value);
            }
            6 => {
                let edge = 0u32.wrapping_sub(length);
                let value = numbers.pick(&[0xFFFF_FFFF, edge, edge.wrapping_add(1)]);
                set_word(map, at + 4, value);
            }
            7 => {
                // A record equal to another.
                let copy = map[at..at + 12].to_vec();
                map.extend(copy);
            }
            8 => {
                // A permitted record that touches another, or overlaps its last
                // or its first address.
                let end = first.wrapping_add(length);
                let start = numbers.pick(&[end, end.wrapping_sub(1), first.wrapping_sub(1)]);
                let size = numbers.pick(&[1, 2, 5]);
                map.extend(record(numbers.pick(&[1, 3]), start, size));
            }
            9 => {
                // A permitted record around another.
                map.extend(record(numbers.pick(&[1, 3]), first.saturating_sub(2), 40));
            }
            10 => {
                let spot = numbers.index(map.len());
                map[spot] = numbers.byte();
            }
            _ => {
                let spot = numbers.index(map.len());
                map[spot] ^= 1 << numbers.below(8);
            }
        }
    } else {
        match numbers.below(4) {
            0 => {
                let kept = map.len().saturating_sub(numbers.from_to(1, 13) as usize);
                map.truncate(kept);
            }
            1 => {
                let more = numbers.from_to(1, 13) as usize;
                let tail = numbers.bytes(more);
                map.extend(tail);
            }
            2 => {
                // 65 records, or 64 and some bytes.
                while map.len() < 768 {
                    map.extend(record(2, 0, 1));
                }
                let more = numbers.from_to(1, 12) as usize;
                map.extend(&record(2, 0, 1)[..more]);
            }
            _ => {
                let length = numbers.index(60);
                *map = numbers.bytes(length);
            }
        }
    }
}

// Boot tables.

/// One section of a generated table.
#[derive(Clone, Debug, PartialEq, Eq)]
pub struct Section {
    pub address: u32,
    pub data: Vec<u8>,
    pub pads: Vec<u8>,
}

impl Section {
    /// A section with data and pads of any contents.
    pub fn of_size(numbers: &mut Numbers, address: u32, size: usize) -> Self {
        Section {
            address,
            data: numbers.bytes(size),
            pads: pads(numbers, pads_after(size)),
        }
    }
}

/// Pads: mostly any bytes, at times all zero, all 0xFF, or zero but for one.
pub fn pads(numbers: &mut Numbers, count: usize) -> Vec<u8> {
    match numbers.below(8) {
        0 => vec![0; count],
        1 => vec![0xFF; count],
        2 if count > 0 => {
            let mut pads = vec![0; count];
            pads[numbers.index(count)] = numbers.from_to(1, 255) as u8;
            pads
        }
        _ => numbers.bytes(count),
    }
}

/// The bytes of a table of sections.
pub fn table_of(entry: u32, sections: &[Section], order: ByteOrder) -> Vec<u8> {
    let list: Vec<(u32, &[u8], &[u8])> = sections
        .iter()
        .map(|section| (section.address, &section.data[..], &section.pads[..]))
        .collect();
    padded_table(entry, &list, order)
}

/// A well-formed table and what it was made of.
pub struct Made {
    pub entry: u32,
    pub list: Vec<Section>,
    pub order: ByteOrder,
    pub table: Vec<u8>,
}

impl Made {
    pub fn of(entry: u32, list: Vec<Section>, order: ByteOrder) -> Made {
        let table = table_of(entry, &list, order);
        Made {
            entry,
            list,
            order,
            table,
        }
    }

    /// The table of the first sections alone.
    pub fn front(&self, sections: usize) -> Vec<u8> {
        table_of(self.entry, &self.list[..sections], self.order)
    }

    /// The offset of each section and the offset past it, as the reference reads them.
    pub fn places(&self) -> Vec<(usize, usize)> {
        let read = reference::read_table(&self.table, self.order).expect("a well-formed table");
        let sections = read.sections.iter();
        sections
            .map(|section| {
                let whole = 8 + section.data.len() + section.pads.len();
                (section.offset, section.offset + whole)
            })
            .collect()
    }
}

/// The offset of each size word in a table of sections.
fn offsets(sections: &[Section]) -> Vec<usize> {
    let mut list = Vec::new();
    let mut at = 4;
    for section in sections {
        list.push(at);
        at += 8 + section.data.len() + section.pads.len();
    }
    list
}

/// The offset of each header word in a table of sections: the entry, and the
/// size and the address of each section.
fn header_offsets(sections: &[Section]) -> Vec<usize> {
    let mut list = vec![0];
    list.extend(offsets(sections).into_iter().flat_map(|at| [at, at + 4]));
    list
}

/// The offset of each pad byte in a table of sections.
pub fn pad_offsets(sections: &[Section]) -> Vec<usize> {
    let mut list = Vec::new();
    for (at, section) in offsets(sections).into_iter().zip(sections) {
        let data_end = at + 8 + section.data.len();
        list.extend(data_end..data_end + section.pads.len());
    }
    list
}

/// Gives pads of a table of sections other contents, and changes no other byte:
/// one pad, or all of them to zero, to 0xFF or to any bytes.
pub fn change_pads(numbers: &mut Numbers, table: &mut [u8], sections: &[Section]) {
    let offsets = pad_offsets(sections);
    if offsets.is_empty() {
        return;
    }
    let manner = numbers.below(4);
    if manner == 0 {
        table[numbers.pick(&offsets)] ^= numbers.from_to(1, 255) as u8;
        return;
    }
    for at in offsets {
        table[at] = match manner {
            1 => 0,
            2 => 0xFF,
            _ => numbers.byte(),
        };
    }
}

/// A section whose addresses are in one permitted record, or `None` where the
/// map has none.
pub fn inside(numbers: &mut Numbers, regions: &Regions) -> Option<Section> {
    inside_of(numbers, &regions.runs)
}

/// A section whose addresses are in one of the runs, or `None` where there are
/// none.
fn inside_of(numbers: &mut Numbers, runs: &[(u64, u64)]) -> Option<Section> {
    if runs.is_empty() {
        return None;
    }
    let (first, length) = numbers.pick(runs);
    let skip = numbers.below(length.min(64));
    let size = numbers.from_to(1, (length - skip).min(24));
    let address = (first + skip) as u32;
    Some(Section::of_size(numbers, address, size as usize))
}

/// A section that may lie anywhere but does not run past the top.
fn anywhere(numbers: &mut Numbers, regions: &Regions, before: Option<&Section>) -> Section {
    let mut size = numbers.from_to(1, 13);
    let random = u64::from(numbers.word());
    let address = match (numbers.below(5), before) {
        // Near or touching the section before.
        (0, Some(section)) => {
            let end = u64::from(section.address) + section.data.len() as u64;
            end + numbers.pick(&[0, 0, 1, 3, 15, 16])
        }
        // Overlapping the section before.
        (1, Some(section)) => u64::from(section.address) + numbers.below(section.data.len() as u64),
        // Across the end of a permitted record.
        (2 | 3, _) if !regions.runs.is_empty() => {
            let (first, length) = numbers.pick(&regions.runs);
            let end = first + length;
            size += 1;
            end.saturating_sub(numbers.from_to(1, size))
        }
        _ => numbers.pick(&[0, 1, TOP - 1, TOP - size, TOP - size - 1, random]),
    };
    let address = address.min(TOP - 1);
    let size = size.min(TOP - address);
    Section::of_size(numbers, address as u32, size as usize)
}

/// Sections that share no address: the stretches of a map with permitted records,
/// cut into pieces that touch or lie near each other, in rising, falling or mixed
/// order.
fn apart(numbers: &mut Numbers, regions: &Regions) -> Vec<Section> {
    let longest = numbers.pick(&[1, 4, 24]);
    let mut list = Vec::new();
    for (first, end) in regions.stretches() {
        // Of nearly all addresses the first are enough.
        let end = end.min(first + 2000);
        let mut at = first + numbers.pick(&[0, 0, 1, 3]);
        while at < end {
            let size = numbers.from_to(1, longest.min(end - at));
            list.push(Section::of_size(numbers, at as u32, size as usize));
            at += size + numbers.pick(&[0, 0, 0, 1, 2, 9]);
        }
    }
    // Neighbours stay, so that sections touch.
    let wanted = match numbers.below(20) {
        0 => numbers.from_to(20, 120),
        _ => numbers.from_to(1, 6),
    };
    let kept = list.len().min(wanted as usize);
    list.drain(..numbers.index(list.len() - kept + 1));
    list.truncate(kept);
    match numbers.below(4) {
        0 => {}
        1 => list.reverse(),
        _ => numbers.shuffle(&mut list),
    }
    list
}

/// A section that shares addresses with one of a list: its first address is the
/// other's last, its last address is the other's first, it has one address of the
/// other alone, all of them, or more around one. It lies in one stretch.
fn sharing(numbers: &mut Numbers, regions: &Regions, list: &[Section]) -> Option<Section> {
    if list.is_empty() {
        return None;
    }
    let other = &list[numbers.index(list.len())];
    let first = u64::from(other.address);
    let last = first + other.data.len() as u64 - 1;
    let spot = numbers.from_to(first, last);
    let more = numbers.below(6);
    let (low, high) = match numbers.below(6) {
        0 | 1 => (spot, spot),
        2 => (last, last + more),
        3 => (first.saturating_sub(more), first),
        4 => (first, last),
        _ => (spot.saturating_sub(more), spot + more),
    };
    let stretches = regions.stretches();
    let (start, end) = stretches
        .into_iter()
        .find(|(start, end)| *start <= spot && spot < *end)?;
    let low = low.max(start);
    let size = high.min(end - 1) - low + 1;
    Some(Section::of_size(numbers, low as u32, size as usize))
}

/// The sections of a well-formed table for a map with kind 3: they share no
/// address, but for a few more at times, which share addresses of any kind or of
/// kind 1 alone. Now and then one lies anywhere.
fn mostly_apart(numbers: &mut Numbers, regions: &Regions) -> Vec<Section> {
    let mut list = apart(numbers, regions);
    let manner = numbers.below(8);
    let mut more = Vec::new();
    if matches!(manner, 0..=2) {
        more.extend(sharing(numbers, regions, &list));
    }
    if matches!(manner, 2..=4) {
        more.extend(inside_of(numbers, &regions.not_once()));
        more.extend(inside_of(numbers, &regions.not_once()));
    }
    if numbers.once_in(12) {
        more.push(anywhere(numbers, regions, list.last()));
    }
    for section in more {
        list.insert(numbers.index(list.len() + 1), section);
    }
    list
}

/// The sections of a well-formed table: most lie in the map, some lie anywhere.
/// Under a map with kind 3 most tables have sections that mostly share no
/// address.
pub fn sections(numbers: &mut Numbers, regions: &Regions) -> Vec<Section> {
    if !regions.once.is_empty() && !numbers.once_in(3) {
        return mostly_apart(numbers, regions);
    }
    let wanted = match numbers.below(60) {
        0 => numbers.from_to(20, 120),
        1..=5 => 0,
        _ => numbers.from_to(1, 6),
    };
    let wild = numbers.pick(&[4, 12, 1000]);
    let mut list: Vec<Section> = Vec::new();
    for _ in 0..wanted {
        let section = match inside(numbers, regions) {
            Some(section) if !numbers.once_in(wild) => section,
            _ => anywhere(numbers, regions, list.last()),
        };
        list.push(section);
    }
    list
}

/// An entry word: in the map, at an edge, or anywhere.
pub fn entry(numbers: &mut Numbers, regions: &Regions) -> u32 {
    if !regions.runs.is_empty() && numbers.once_in(2) {
        let (first, length) = numbers.pick(&regions.runs);
        return (first + numbers.below(length.min(64) + 1)) as u32;
    }
    let random = numbers.word();
    numbers.pick(&[0, 1, 0xFFFF_FFFF, 0x8000_0000, random])
}

/// What may stand in the place of a table's zero word so that a fault stands
/// behind the sections: the bytes, the fault's number, and its place behind
/// the sections.
pub fn fault(numbers: &mut Numbers, order: ByteOrder) -> (Vec<u8>, u64, u64) {
    let pads = numbers.bytes(3);
    match numbers.below(5) {
        // The zero word is missing or cut.
        0 => (vec![0; numbers.index(4)], 5, 0),
        // A section of one byte is cut where its pads should stand.
        1 => {
            let section = padded_section(numbers.word(), &[7], &pads, order);
            (section[..9 + numbers.index(3)].to_vec(), 5, 0)
        }
        // All three pads are there, and the zero word behind them is missing.
        2 => (padded_section(0, &[7], &pads, order), 5, 12),
        // Bytes after the zero word.
        3 => (vec![0; 5 + numbers.index(4)], 7, 4),
        // A section past the top.
        _ => {
            let mut bytes = padded_section(0xFFFF_FFFF, &[7, 8], &pads[..2], order);
            bytes.extend([0; 4]);
            (bytes, 8, 0)
        }
    }
}

/// Writes header words of a table of sections in the wrong order: all of them,
/// or the entry, one size or one address alone.
fn turn_words(numbers: &mut Numbers, bytes: &mut [u8], sections: &[Section]) {
    let offsets = header_offsets(sections);
    if numbers.once_in(2) {
        turn_word(bytes, numbers.pick(&offsets));
        return;
    }
    for at in offsets {
        turn_word(bytes, at);
    }
}

/// One damage to a boot table made of sections.
fn damage_table(
    numbers: &mut Numbers,
    bytes: &mut Vec<u8>,
    sections: &[Section],
    order: ByteOrder,
) {
    if numbers.once_in(8) {
        turn_words(numbers, bytes, sections);
        return;
    }
    if !sections.is_empty() && numbers.once_in(2) {
        let index = numbers.index(sections.len());
        let at = offsets(sections)[index];
        let size = sections[index].data.len() as u32;
        let data_end = at + 8 + size as usize;
        let end = data_end + sections[index].pads.len();
        match numbers.below(5) {
            0 => {
                let value = numbers.pick(&[
                    0,
                    1,
                    size - 1,
                    size + 1,
                    size + 4,
                    0x7FFF_FFFF,
                    0xFFFF_FFF8,
                    0xFFFF_FFFC,
                    0xFFFF_FFFD,
                    0xFFFF_FFFF,
                ]);
                set_header_word(bytes, at, value, order);
            }
            1 => {
                let edge = 0u32.wrapping_sub(size);
                let value = numbers.pick(&[0, 0xFFFF_FFFF, edge, edge.wrapping_add(1)]);
                set_header_word(bytes, at + 4, value, order);
            }
            // A pad byte is changed, which alone is no damage; at times the
            // address is the highest as well, so that two or more data bytes
            // run past the top.
            2 if data_end < end => {
                let spot = data_end + numbers.index(end - data_end);
                bytes[spot] = numbers.pick(&[0, 1, 2, 128, 255]);
                if numbers.once_in(2) {
                    set_header_word(bytes, at + 4, 0xFFFF_FFFF, order);
                }
            }
            // The data is whole, and the table is cut where pads should stand.
            3 if data_end < end => {
                let kept = data_end + numbers.index(end - data_end);
                bytes.truncate(kept);
            }
            _ => {
                let kept = numbers.from_to(at as u64, end as u64) as usize;
                bytes.truncate(kept);
            }
        }
        return;
    }
    match numbers.below(7) {
        0 => {
            let kept = numbers.index(bytes.len());
            bytes.truncate(kept);
        }
        1 => {
            let kept = bytes.len() - numbers.from_to(1, 8) as usize;
            bytes.truncate(kept);
        }
        2 => {
            let more = numbers.from_to(1, 9) as usize;
            bytes.extend(vec![0; more]);
        }
        3 => {
            let more = numbers.from_to(1, 9) as usize;
            let tail = numbers.bytes(more);
            bytes.extend(tail);
        }
        4 => {
            let spot = numbers.index(bytes.len());
            bytes[spot] = numbers.byte();
        }
        5 => {
            let spot = numbers.index(bytes.len());
            bytes[spot] ^= 1 << numbers.below(8);
        }
        _ => {
            let at = numbers.index(bytes.len() / 4) * 4;
            let value = numbers.pick(&[0, 1, 3, 0x8000_0000, 0xFFFF_FFFF]);
            set_header_word(bytes, at, value, order);
        }
    }
}

/// A boot table of sections to be read in an order, with a generated entry,
/// damaged once in so many times.
fn damaged_at_times(
    numbers: &mut Numbers,
    regions: &Regions,
    list: &[Section],
    times: u64,
    order: ByteOrder,
) -> Vec<u8> {
    let first_word = entry(numbers, regions);
    let mut bytes = table_of(first_word, list, order);
    if numbers.once_in(times) {
        damage_table(numbers, &mut bytes, list, order);
    }
    bytes
}

/// A boot table to be read in an order, damaged once in so many times.
pub fn boot_table(
    numbers: &mut Numbers,
    regions: &Regions,
    times: u64,
    order: ByteOrder,
) -> Vec<u8> {
    let list = sections(numbers, regions);
    damaged_at_times(numbers, regions, &list, times, order)
}

/// A case for the map, judging and loading.
#[derive(Clone, Debug)]
pub struct LoadCase {
    pub map: Vec<u8>,
    pub table: Vec<u8>,
    pub order: ByteOrder,
    pub memory: Vec<u8>,
}

pub fn load_case(numbers: &mut Numbers) -> LoadCase {
    let mut regions = sound_map(numbers);
    let order = numbers.order();
    let table = boot_table(numbers, &regions, 3, order);
    if numbers.once_in(8) {
        damage_map(numbers, &mut regions);
    }
    // A damaged map may be sound still, with another sum.
    let answer = reference::map(&regions.map);
    let sum = match answer.number {
        0 => answer.bytes,
        _ => regions.memory_size(),
    };
    let size = match sum {
        size if size > 1 << 20 => numbers.below(64),
        size if numbers.once_in(12) => {
            let other = numbers.below(80);
            numbers.pick(&[0, size + 1, size.saturating_sub(1), size * 2, other])
        }
        size => size,
    };
    LoadCase {
        map: regions.map,
        table,
        order,
        memory: numbers.bytes(size as usize),
    }
}

/// A case for the join.
#[derive(Clone, Debug)]
pub struct JoinCase {
    pub first: Vec<u8>,
    pub second: Vec<u8>,
    pub order: ByteOrder,
    pub output: Vec<u8>,
}

pub fn join_case(numbers: &mut Numbers) -> JoinCase {
    let regions = sound_map(numbers);
    let order = numbers.order();
    let first = boot_table(numbers, &regions, 5, order);
    let second = boot_table(numbers, &regions, 5, order);
    let result = (first.len() + second.len()).saturating_sub(8) as u64;
    let size = match numbers.below(10) {
        0 => result.saturating_sub(1),
        1 => numbers.pick(&[0, 4, result / 2, result.saturating_sub(4)]),
        2..=5 => result + numbers.from_to(1, 40),
        _ => result,
    };
    JoinCase {
        first,
        second,
        order,
        output: numbers.bytes(size as usize),
    }
}

// Addresses to ask for.

/// A case for what stands at an address.
#[derive(Clone, Debug)]
pub struct FindCase {
    pub older: Vec<u8>,
    pub newer: Vec<u8>,
    pub order: ByteOrder,
    pub address: u32,
}

/// An address to ask for: mostly one of a section, often its first or its last, or
/// one before it or past it; else the lowest, the highest or any.
pub fn asked(numbers: &mut Numbers, lists: [&[Section]; 2]) -> u32 {
    let random = numbers.word();
    let anywhere = numbers.pick(&[0, 0xFFFF_FFFF, random]);
    let all = lists.concat();
    if all.is_empty() {
        return anywhere;
    }
    let section = &all[numbers.index(all.len())];
    let size = section.data.len() as u32;
    let first = section.address;
    let last = first + (size - 1);
    match numbers.below(10) {
        0 | 1 => first,
        2 | 3 => last,
        4 => first.wrapping_sub(1),
        5 => last.wrapping_add(1),
        6 => anywhere,
        _ => first + numbers.below(size.into()) as u32,
    }
}

/// A section that covers an address, as its first, its last or any, or that ends
/// right before it or begins right past it. Right before the lowest address is the
/// highest, and right past the highest the lowest. No section goes on past either:
/// it is shorter instead.
fn around(numbers: &mut Numbers, address: u32) -> Section {
    let size = numbers.from_to(1, 13);
    // An address of the section, and how many it has below that.
    let (at, below) = match numbers.below(8) {
        0 | 1 => (address, 0),
        2 | 3 => (address, size - 1),
        4 => (address.wrapping_sub(1), size - 1),
        5 => (address.wrapping_add(1), 0),
        _ => (address, numbers.below(size)),
    };
    let at = u64::from(at);
    let from_there = (size - below).min(TOP - at);
    let below = below.min(at);
    Section::of_size(numbers, (at - below) as u32, (below + from_there) as usize)
}

/// A case for what stands at an address: one list in twelve is made empty, one
/// address in sixteen is the lowest or the highest with a section at the other end,
/// in a third of the tables up to three more sections stand around the address, one
/// table in five is damaged, and one pair in twenty is written in the other order.
pub fn find_case(numbers: &mut Numbers) -> FindCase {
    let regions = sound_map(numbers);
    let order = numbers.order();
    let mut lists = [(); 2].map(|()| match numbers.below(12) {
        0 => Vec::new(),
        _ => sections(numbers, &regions),
    });
    let mut address = asked(numbers, lists.each_ref().map(|list| &list[..]));
    if numbers.once_in(16) {
        let size = numbers.from_to(1, 13);
        let (end, other) = numbers.pick(&[(0, TOP - size), (TOP - 1, 0)]);
        address = end as u32;
        let section = Section::of_size(numbers, other as u32, size as usize);
        let list = &mut lists[numbers.index(2)];
        list.insert(numbers.index(list.len() + 1), section);
    }
    for list in &mut lists {
        for _ in 0..numbers.pick(&[0, 0, 0, 0, 0, 0, 1, 2, 3]) {
            let section = around(numbers, address);
            list.insert(numbers.index(list.len() + 1), section);
        }
    }
    let written = match numbers.once_in(20) {
        true => order.other(),
        false => order,
    };
    let [older, newer] = lists.map(|list| damaged_at_times(numbers, &regions, &list, 5, written));
    FindCase {
        older,
        newer,
        order,
        address,
    }
}

// Tables to rescue.

/// A case for the rescue of a cut table.
#[derive(Clone, Debug)]
pub struct RescueCase {
    pub table: Vec<u8>,
    pub order: ByteOrder,
    pub output: Vec<u8>,
}

/// How many bytes are left of a table of sections that is cut: in its entry word,
/// right behind that, right before its zero word or in it; or at a section, right
/// before its size word, in it, right behind it, in its address word, right behind
/// that, in its data, in its pads or right behind them.
fn cut_at(numbers: &mut Numbers, length: usize, sections: &[Section]) -> usize {
    let end = length - 4;
    if sections.is_empty() || numbers.once_in(3) {
        return numbers.pick(&[0, 1, 2, 3, 4, end, end + 1, end + 2, end + 3]);
    }
    let index = numbers.index(sections.len());
    let at = offsets(sections)[index];
    let data = at + 8;
    let data_end = data + sections[index].data.len();
    let next = data_end + sections[index].pads.len();
    let (low, high) = numbers.pick(&[
        (at, at),
        (at + 1, at + 3),
        (at + 4, at + 4),
        (at + 5, at + 7),
        (data, data),
        (data, data_end - 1),
        (data_end, next),
    ]);
    numbers.from_to(low as u64, high as u64) as usize
}

/// Where the whole sections of a table end, by the first fault of its form: 0 where the
/// entry word is cut.
pub fn whole_sections_end(table: &[u8], order: ByteOrder) -> usize {
    match reference::read_table(table, order) {
        Ok(_) => table.len() - 4,
        Err(refusal) if refusal.number == 7 => refusal.place as usize - 4,
        Err(refusal) => refusal.place as usize,
    }
}

/// Puts a fault in one section of a table, or what is next to one: a zero word in
/// place of its size; a size up to the table's end, past it, or so large that a sum
/// taken in 32 bits comes round, with a sign or without; an address from which it runs
/// to the top, or past it by one byte or by more.
fn fault_in_section(
    numbers: &mut Numbers,
    bytes: &mut [u8],
    sections: &[Section],
    order: ByteOrder,
) {
    if sections.is_empty() {
        return;
    }
    let index = numbers.index(sections.len());
    let at = offsets(sections)[index];
    let room = (bytes.len() - at - 8) as u32;
    // One byte cannot run past the top; with a pad as data they are two.
    let size = (sections[index].data.len() as u32).max(2);
    let to_top = 0u32.wrapping_sub(size);
    let address = sections[index].address;
    let (size, address) = match numbers.below(8) {
        0 => (0, address),
        1 => (room, address),
        2 => (room + numbers.pick(&[1, 1, 4, 5]), address),
        3 => {
            let sizes = [0x7FFF_FFFF, 0xFFFF_FFF5, 0xFFFF_FFF8, 0xFFFF_FFFC];
            (numbers.pick(&sizes), numbers.pick(&[0, address]))
        }
        4 => {
            let sizes = [0xFFFF_FFFD, 0xFFFF_FFFE, 0xFFFF_FFFF];
            (numbers.pick(&sizes), numbers.pick(&[0, address]))
        }
        5 => (size, to_top),
        6 => (size, to_top + 1),
        _ => (size, 0xFFFF_FFFF),
    };
    set_header_word(bytes, at, size, order);
    set_header_word(bytes, at + 4, address, order);
}

/// Bytes to stand after a table's zero word: zeros, any bytes, or another table with
/// its entry or without it.
fn bytes_after(numbers: &mut Numbers, regions: &Regions, order: ByteOrder) -> Vec<u8> {
    let more = numbers.from_to(1, 9) as usize;
    match numbers.below(5) {
        0 => vec![0; more],
        1 | 2 => numbers.bytes(more),
        _ => {
            let list = sections(numbers, regions);
            let first_word = entry(numbers, regions);
            let table = table_of(first_word, &list, order);
            table[numbers.pick(&[0, 4])..].to_vec()
        }
    }
}

/// Bytes that are no table, or words of few values, which begin with whole sections
/// at times.
fn no_table(numbers: &mut Numbers, order: ByteOrder) -> Vec<u8> {
    let length = numbers.index(60);
    let mut bytes = numbers.bytes(length);
    if numbers.once_in(2) {
        for at in (0..length.saturating_sub(3)).step_by(4) {
            let value = numbers.pick(&[0, 1, 2, 3, 4, 5, 8, 0xFFFF_FFFD, 0xFFFF_FFFF]);
            set_header_word(&mut bytes, at, value, order);
        }
    }
    bytes
}

/// A case for the rescue: of sixteen tables two are as they were made, five are cut,
/// two have bytes after the zero word, four have a fault in a section or what is next
/// to one, one is damaged as for the other calls, one is no table, and one is written
/// in the other order. One short list in forty stands twenty times in its table.
pub fn rescue_case(numbers: &mut Numbers) -> RescueCase {
    let regions = sound_map(numbers);
    let order = numbers.order();
    let mut list = sections(numbers, &regions);
    if list.len() < 20 && numbers.once_in(40) {
        list = vec![list; 20].concat();
    }
    let first_word = entry(numbers, &regions);
    let mut table = table_of(first_word, &list, order);
    match numbers.below(16) {
        0 | 1 => {}
        2..=6 => table.truncate(cut_at(numbers, table.len(), &list)),
        7 | 8 => table.extend(bytes_after(numbers, &regions, order)),
        9..=12 => fault_in_section(numbers, &mut table, &list, order),
        13 => damage_table(numbers, &mut table, &list, order),
        14 => table = no_table(numbers, order),
        _ => table = table_of(first_word, &list, order.other()),
    }
    // The result's length; 0 where there is none.
    let mut room = vec![0; table.len() + 4];
    let result = reference::rescue(&table, order, &mut room).length;
    let size = match numbers.below(12) {
        0 => result.saturating_sub(1),
        1 => numbers.pick(&[0, 4, result / 2, result.saturating_sub(4)]),
        2 => table.len() as u64,
        3..=6 => result + numbers.from_to(1, 40),
        _ => result,
    };
    RescueCase {
        table,
        order,
        output: numbers.bytes(size as usize),
    }
}

// Lists of sections.

/// A case for the writer.
#[derive(Clone, Debug)]
pub struct WriteCase {
    pub entry: u32,
    pub list: Vec<ListSection>,
    pub data: Vec<u8>,
    pub order: ByteOrder,
    pub output: Vec<u8>,
}

/// How many bytes a section of a size takes in a table.
fn section_length(size: u32) -> u64 {
    8 + u64::from(size).next_multiple_of(4)
}

/// A section of a list over so many data bytes, at least one, without a fault.
/// Its data goes on where that of the section before ends, shares bytes with it
/// or stands anywhere. Its addresses touch those of the section before, lie near
/// them, overlap them, end at the top or lie anywhere.
fn listed(
    numbers: &mut Numbers,
    length: u64,
    longest: u64,
    before: Option<&ListSection>,
) -> ListSection {
    let before =
        before.map(|section| [section.address, section.start, section.size].map(u64::from));
    let start = match (numbers.below(6), before) {
        (0 | 1, Some([_, start, size])) => start + size,
        (2, Some([_, start, _])) => start,
        (3, Some([_, start, size])) => start + numbers.below(size),
        _ => numbers.below(length),
    };
    let start = start.min(length - 1);
    let left = length - start;
    let size = match numbers.below(8) {
        // To the data's end.
        0 => left,
        _ => numbers.from_to(1, longest.min(left)),
    };
    let random = u64::from(numbers.word());
    let address = match (numbers.below(6), before) {
        (0 | 1, Some([address, _, size])) => {
            address + size + numbers.pick(&[0, 0, 0, 1, 2, 3, 15, 16])
        }
        (2, Some([address, _, size])) => address + numbers.below(size),
        (3, _) => numbers.pick(&[0, 1, 0x0080_0000, TOP - size, TOP - size - 1]),
        _ => random,
    };
    ListSection {
        address: address.min(TOP - size) as u32,
        start: start as u32,
        size: size as u32,
    }
}

/// Gives a section of a list over so many data bytes a fault or two, mostly at an
/// edge. A section of size zero cannot run past the top.
fn spoil(numbers: &mut Numbers, section: &mut ListSection, length: u32) {
    // Starts past the data, the last two so that the sum wraps in 32 bits.
    let past_data = |size: u32| {
        [
            (length + 1).saturating_sub(size),
            length + 1,
            0u32.wrapping_sub(size),
            0xFFFF_FFFF,
        ]
    };
    match numbers.below(8) {
        0 => section.size = 0,
        // Size zero at the data's end, and past it.
        1 => (section.start, section.size) = (length, 0),
        2 => {
            section.size = 0;
            section.start = numbers.pick(&[length + 1, 0xFFFF_FFFF]);
            section.address = numbers.pick(&[section.address, 0xFFFF_FFFF]);
        }
        // Not size zero at the data's end.
        3 => section.start = length,
        4 => section.start = numbers.pick(&past_data(section.size)),
        // A size past the data, and mostly past the top.
        5 => {
            let edge = (length + 1).saturating_sub(section.start);
            let top = 0u32.wrapping_sub(section.start);
            section.size = numbers.pick(&[edge, edge, top, top.wrapping_add(1), 0xFFFF_FFFF]);
        }
        // Past the top alone, if the data has two bytes; and past the data too.
        6 => {
            section.start = section.start.min(length.saturating_sub(2));
            section.size = section.size.max(2);
            section.address = numbers.pick(&[0xFFFF_FFFF, 1u32.wrapping_sub(section.size)]);
        }
        _ => {
            section.size = section.size.max(2);
            section.start = numbers.pick(&past_data(section.size));
            section.address = numbers.pick(&[0xFFFF_FFFF, 1u32.wrapping_sub(section.size)]);
        }
    }
}

/// A list whose table has the most bytes that the limit takes, or more, over
/// 65,536 data bytes.
fn long_list(numbers: &mut Numbers) -> Vec<ListSection> {
    let over = numbers.pick(&[0, 4, 500_000, 500_000]);
    let mut left = TABLE_LIMIT as u64 + over - 8;
    let mut list = Vec::new();
    while left > 0 {
        let size = match left {
            // The last section takes what is left, with any count of pads.
            ..=65_544 => left - 8 - numbers.below(4),
            _ => numbers.from_to(60_000, 65_000),
        } as u32;
        let start = numbers.below(65_537 - u64::from(size)) as u32;
        list.push(ListSection {
            address: numbers.word() >> 1,
            start,
            size,
        });
        left -= section_length(size);
    }
    numbers.shuffle(&mut list);
    list
}

/// A case for the writer: in half of the cases the list has no fault, in the
/// others one bad section or a few. One case in thirty has a long list.
pub fn write_case(numbers: &mut Numbers) -> WriteCase {
    let long = numbers.once_in(30);
    let data = match numbers.below(20) {
        _ if long => numbers.bytes(256).repeat(256),
        0 => Vec::new(),
        1..=3 => {
            let length = numbers.from_to(1, 4) as usize;
            numbers.bytes(length)
        }
        _ => {
            let length = numbers.from_to(5, 80) as usize;
            numbers.bytes(length)
        }
    };
    let length = data.len() as u64;
    let wanted = match numbers.below(40) {
        0 => numbers.from_to(20, 120),
        1 | 2 => 0,
        _ => numbers.from_to(1, 6),
    };
    let longest = numbers.pick(&[1, 4, 9, 24]);
    let mut list: Vec<ListSection> = Vec::new();
    if long {
        list = long_list(numbers);
    } else if length > 0 {
        for _ in 0..wanted {
            list.push(listed(numbers, length, longest, list.last()));
        }
    } else if numbers.once_in(2) {
        // No data, and so no section without a fault.
        list.push(ListSection {
            address: numbers.word(),
            start: 0,
            size: numbers.below(4) as u32,
        });
    }
    let result: u64 = 8 + list
        .iter()
        .map(|section| section_length(section.size))
        .sum::<u64>();
    if !list.is_empty() && numbers.once_in(2) {
        for _ in 0..numbers.pick(&[1, 1, 2, 3]) {
            let index = numbers.index(list.len());
            spoil(numbers, &mut list[index], length as u32);
        }
    }
    let size = match numbers.below(10) {
        // A long list's output is too short.
        _ if long => numbers.below(100),
        0 => result - 1,
        1 => numbers.pick(&[0, 4, result / 2, result - 4]),
        2..=5 => result + numbers.from_to(1, 40),
        _ => result,
    };
    let random = numbers.word();
    WriteCase {
        entry: numbers.pick(&[0, 1, 0x0080_0000, 0xFFFF_FFFF, random, random]),
        list,
        data,
        order: numbers.order(),
        output: numbers.bytes(size as usize),
    }
}

// Configuration tables.

/// A case for the configuration table.
#[derive(Clone, Debug)]
pub struct ConfigCase {
    pub table: Vec<u8>,
    pub addresses: Vec<u32>,
    pub values: Vec<u32>,
}

fn mask(numbers: &mut Numbers) -> u32 {
    let random = numbers.word();
    numbers.pick(&[0, 1, 0x8000_0000, 0xFFFF_FFFF, 0x0000_FF00, random, random])
}

pub fn config_case(numbers: &mut Numbers) -> ConfigCase {
    // Registers: rising addresses, from zero or to the top at times.
    let wanted = match numbers.below(100) {
        0 => numbers.from_to(1000, 1026),
        1..=6 => 0,
        _ => numbers.from_to(1, 9),
    };
    let mut addresses = Vec::new();
    let mut at = numbers.pick(&[0, 0x0262_0000, 0xFFFF_FF00, 4]);
    for _ in 0..wanted {
        if at >= TOP {
            break;
        }
        addresses.push(at as u32);
        at += numbers.pick(&[1, 4, 4, 4, 255]);
    }
    let mut values: Vec<u32> = addresses.iter().map(|_| numbers.word()).collect();
    if numbers.once_in(12) {
        match numbers.below(4) {
            0 => values.push(numbers.word()),
            1 => {
                values.pop();
            }
            2 if addresses.len() >= 2 => {
                let i = numbers.index(addresses.len() - 1);
                addresses[i + 1] = addresses[i];
            }
            _ if addresses.len() >= 2 => {
                let i = numbers.index(addresses.len() - 1);
                addresses.swap(i, i + 1);
            }
            _ => addresses.push(0),
        }
    }
    // Entries: known registers for the most part, a branch or an unknown
    // register at times.
    let count = match numbers.below(40) {
        0 => numbers.from_to(20, 60),
        1..=5 => 0,
        _ => numbers.from_to(1, 8),
    };
    let wild = numbers.pick(&[5, 20, 1000]);
    let mut list = Vec::new();
    for _ in 0..count {
        let address = if addresses.is_empty() || numbers.once_in(wild) {
            let random = numbers.word();
            let near = addresses.first().map_or(1, |a| a.wrapping_add(2));
            numbers.pick(&[0, 0xFFFF_FFFF, near, random])
        } else {
            numbers.pick(&addresses)
        };
        let (set, clear) = (mask(numbers), mask(numbers));
        // Both masks zero would ask for a branch or end the table.
        let set = if set == 0 && clear == 0 && !numbers.once_in(3) {
            1
        } else {
            set
        };
        list.push((address, set, clear));
    }
    if !list.is_empty() && numbers.once_in(25) {
        // An end entry in the middle.
        let i = numbers.index(list.len());
        list[i] = (0, 0, 0);
    }
    let mut table = config(&list);
    if numbers.once_in(5) {
        match numbers.below(7) {
            0 => {
                let kept = numbers.index(table.len());
                table.truncate(kept);
            }
            1 => {
                let kept = table.len() - numbers.from_to(1, 12) as usize;
                table.truncate(kept);
            }
            2 => {
                let more = numbers.from_to(1, 13) as usize;
                table.extend(vec![0; more]);
            }
            3 => {
                let more = numbers.from_to(1, 13) as usize;
                let tail = numbers.bytes(more);
                table.extend(tail);
            }
            4 => {
                let spot = numbers.index(table.len());
                table[spot] ^= 1 << numbers.below(8);
            }
            5 => {
                let at = numbers.index(table.len() / 4) * 4;
                let value = numbers.pick(&[0, 1, 0xFFFF_FFFF]);
                set_word(&mut table, at, value);
            }
            _ => {
                let spot = numbers.index(table.len());
                table[spot] = numbers.byte();
            }
        }
    }
    if numbers.once_in(100) {
        // At the limit and over it.
        let length = CONFIG_LIMIT + numbers.pick(&[0, 1, 12, 500]);
        table.resize(length, 0);
    }
    ConfigCase {
        table,
        addresses,
        values,
    }
}

// Strap values.

/// A strap value: mostly of 13 bits, at times one bit or more above.
pub fn strap_value(numbers: &mut Numbers) -> u32 {
    let random = numbers.word();
    match numbers.below(8) {
        0 => numbers.pick(&[0, 8191, 8192, 8193, 0x8000_0000, 0xFFFF_FFFF, random]),
        1 => (random & 0x1FFF) | (1 << numbers.from_to(13, 31)),
        _ => random & 0x1FFF,
    }
}

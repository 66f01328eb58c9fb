//! All calls, written to be quick: the peer that the benchmark measures the
//! proved library against. The map is read once into spans of open addresses,
//! the form and the map rule are judged in one walk, bytes are copied in whole
//! runs, and strap values are taken apart with shifts and masks. Where the map
//! has records of kind 3, that walk also sees whether the sections rise or fall;
//! if they do neither, their parts of kind 3 are sorted. The writer goes through
//! its list twice, to judge it and to write, and writes up to four data bytes
//! with their pads as one word. What stands at an address is found in one walk
//! over each table, which judges the form as it goes; a second peer lets the two
//! walks take turns. A cut table is rescued by one walk and one copy of all that
//! stands before the fault.

use crate::reference::{
    ByteOrder, ConfigAnswer, FindAnswer, JoinAnswer, LabelAnswer, ListSection, LoadAnswer,
    MapAnswer, Refusal, RescueAnswer, SameAnswer, StrapAnswer, WriteAnswer, CONFIG_LIMIT,
    MAP_LIMIT, REGISTER_LIMIT, STRAP_LIMIT, TABLE_LIMIT, TOP,
};
use std::borrow::Cow;
use std::cell::OnceCell;
use std::cmp::Reverse;
use std::collections::BinaryHeap;

fn refuse<T>(number: u64, place: usize) -> Result<T, Refusal> {
    Err(Refusal {
        number,
        place: place as u64,
    })
}

/// The four bytes at an offset.
fn four(bytes: &[u8], at: usize) -> [u8; 4] {
    bytes[at..at + 4].try_into().expect("four bytes")
}

/// The word at an offset of a map or a configuration table.
fn word(bytes: &[u8], at: usize) -> u32 {
    u32::from_be_bytes(four(bytes, at))
}

// The region map.

/// Mark, kind and zero byte of a permitted record, of a reserved one, and of a
/// permitted one whose addresses take one write.
const PERMITTED: u32 = 0x5247_0100;
const RESERVED: u32 = 0x5247_0200;
const ONE_WRITE: u32 = 0x5247_0300;
/// Most records in a map, and so most spans.
const RECORD_LIMIT: usize = MAP_LIMIT / 12;

/// A run of addresses whose bytes stand one after the other in memory.
#[derive(Clone, Copy, Default)]
struct Span {
    first: u64,
    length: u64,
    /// The place in memory of the first address.
    place: u64,
}

impl Span {
    /// One past the last address.
    fn end(&self) -> u64 {
        self.first + self.length
    }

    /// Where an address stands in the span: below its length exactly for an
    /// address inside, so that one comparison tells.
    fn offset(&self, address: u64) -> u64 {
        address.wrapping_sub(self.first)
    }
}

/// The records of a sound map.
struct Records {
    /// The records of kinds 1 and 3 in rising order.
    permitted: Vec<Span>,
    /// The records of kind 3 in rising order.
    once: Vec<Span>,
    /// First address and end of the reserved records, in map order.
    reserved: Vec<(u64, u64)>,
    /// All permitted lengths together.
    sum: u64,
}

impl Records {
    /// The records of a map, or its first fault.
    #[inline(always)]
    fn read(map: &[u8]) -> Result<Records, Refusal> {
        if !map.len().is_multiple_of(12) || map.len() > MAP_LIMIT {
            return refuse(1, 0);
        }
        let mut permitted = Vec::with_capacity(map.len() / 12);
        let mut once = Vec::new();
        let mut reserved = Vec::new();
        let mut place = 0;
        let mut fault = None;
        for (index, record) in map.chunks_exact(12).enumerate() {
            let span = Span {
                first: word(record, 4).into(),
                length: word(record, 8).into(),
                place,
            };
            let fits = span.length > 0 && span.end() <= TOP;
            match word(record, 0) {
                PERMITTED if fits => {
                    permitted.push(span);
                    place += span.length;
                }
                RESERVED if fits => reserved.push((span.first, span.end())),
                ONE_WRITE if fits => {
                    permitted.push(span);
                    once.push(span);
                    place += span.length;
                }
                _ => {
                    fault = Some(index);
                    break;
                }
            }
        }
        permitted.sort_unstable_by_key(|span| span.first);
        once.sort_unstable_by_key(|span| span.first);
        // Where rising records share an address, two neighbours do.
        if !permitted.is_sorted_by(|one, next| one.end() <= next.first) {
            fault = first_shared(map);
        }
        match fault {
            Some(index) => refuse(2, index),
            None => Ok(Records {
                permitted,
                once,
                reserved,
                sum: place,
            }),
        }
    }

    /// The spans of open addresses and those of kind 3, both in rising order.
    #[inline(always)]
    fn open(mut self) -> (Vec<Span>, Vec<Span>) {
        if self.reserved.is_empty() {
            return (self.permitted, self.once);
        }
        self.reserved.sort_unstable();
        (without(&self.permitted, &self.reserved), self.once)
    }
}

/// The index of the first permitted record that shares an address with an
/// earlier one.
#[cold]
fn first_shared(map: &[u8]) -> Option<usize> {
    let mut earlier: Vec<(u64, u64)> = Vec::new();
    map.chunks_exact(12).position(|record| {
        if !matches!(word(record, 0), PERMITTED | ONE_WRITE) {
            return false;
        }
        let first = u64::from(word(record, 4));
        let end = first + u64::from(word(record, 8));
        let shares = earlier.iter().any(|one| one.0 < end && first < one.1);
        earlier.push((first, end));
        shares
    })
}

/// The spans without the reserved addresses; both lists rise.
#[inline(never)]
fn without(spans: &[Span], reserved: &[(u64, u64)]) -> Vec<Span> {
    let mut left = Vec::with_capacity(spans.len() + reserved.len());
    let mut holes = reserved.iter().peekable();
    // One past the last address of the holes so far.
    let mut past = 0;
    for span in spans {
        let mut keep = |from: u64, end: u64| {
            let first = from.max(span.first);
            if first < end {
                left.push(Span {
                    first,
                    length: end - first,
                    place: span.place + span.offset(first),
                });
            }
        };
        while let Some((first, end)) = holes.next_if(|hole| hole.0 < span.end()) {
            keep(past, *first);
            past = past.max(*end);
        }
        keep(past, span.end());
    }
    left
}

/// The spans with those that touch made one, whatever their places are.
fn joined(spans: &[Span]) -> Cow<'_, [Span]> {
    if spans.is_sorted_by(|one, next| one.end() < next.first) {
        return spans.into();
    }
    let mut list = spans.to_vec();
    list.dedup_by(|next, span| {
        let touches = span.end() == next.first;
        if touches {
            span.length += next.length;
        }
        touches
    });
    list.into()
}

/// Looks up addresses in rising spans.
struct Lookup<'a> {
    spans: &'a [Span],
    /// The last address of each span, and then the highest address; made when
    /// the first address is looked up.
    lasts: OnceCell<[u32; RECORD_LIMIT]>,
}

impl Lookup<'_> {
    fn new(spans: &[Span]) -> Lookup<'_> {
        Lookup {
            spans,
            lasts: OnceCell::new(),
        }
    }

    /// The array to search.
    #[cold]
    fn lasts(&self) -> [u32; RECORD_LIMIT] {
        let mut lasts = [u32::MAX; RECORD_LIMIT];
        for (last, span) in lasts.iter_mut().zip(self.spans) {
            *last = (span.end() - 1) as u32;
        }
        lasts
    }

    /// The index of the first span that ends past an address. A span that
    /// holds the address is this one.
    fn index(&self, address: u64) -> usize {
        let address = address as u32;
        let lasts = self.lasts.get_or_init(|| self.lasts());
        lasts.partition_point(|last| *last < address)
    }

    /// The span that holds an address. The search stays out of the walk's
    /// loop, which then runs in registers.
    #[inline(never)]
    fn holding(&self, address: u64) -> Option<&Span> {
        let span = self.spans.get(self.index(address))?;
        (span.first <= address).then_some(span)
    }
}

pub fn map(map: &[u8]) -> MapAnswer {
    match Records::read(map) {
        Err(refusal) => MapAnswer {
            number: refusal.number,
            place: refusal.place,
            ..Default::default()
        },
        Ok(records) => MapAnswer {
            bytes: records.sum,
            ..Default::default()
        },
    }
}

// The boot table. What reads header words is compiled once for each order, so
// that the loops do not test the order.

/// The header word at an offset.
fn header_word<const LOW_FIRST: bool>(table: &[u8], at: usize) -> u32 {
    let bytes = four(table, at);
    if LOW_FIRST {
        u32::from_le_bytes(bytes)
    } else {
        u32::from_be_bytes(bytes)
    }
}

/// The offset past a section that begins at `at`, a multiple of four: past its
/// two words and its size, rounded up to the next multiple.
fn next_section(at: usize, size: u32) -> usize {
    (at + size as usize + 11) & !3
}

/// Walks a table, tells offset, address and size of each section, and answers
/// their count or the first fault of the form. Of a section its two words are
/// read and nothing else.
#[inline(always)]
fn walk<const LOW_FIRST: bool>(
    table: &[u8],
    mut tell: impl FnMut(usize, u64, u64),
) -> Result<u64, Refusal> {
    if table.len() > TABLE_LIMIT {
        return refuse(4, 0);
    }
    if table.len() < 4 {
        return refuse(5, 0);
    }
    let mut sections = 0;
    let mut at = 4;
    loop {
        if table.len() - at < 4 {
            return refuse(5, at);
        }
        let size = header_word::<LOW_FIRST>(table, at);
        if size == 0 {
            if table.len() > at + 4 {
                return refuse(7, at + 4);
            }
            return Ok(sections);
        }
        let next = next_section(at, size);
        if next > table.len() {
            return refuse(5, at);
        }
        let address = u64::from(header_word::<LOW_FIRST>(table, at + 4));
        if address + u64::from(size) > TOP {
            return refuse(8, at);
        }
        tell(at, address, u64::from(size));
        sections += 1;
        at = next;
    }
}

// Judging and loading.

fn load_refused(refusal: Refusal) -> LoadAnswer {
    LoadAnswer {
        number: refusal.number,
        place: refusal.place,
        ..Default::default()
    }
}

/// Sections that rise or fall share no address: each begins at or past the end
/// of all before it, or ends at or before the start of all of them.
struct Extent {
    lowest: u64,
    past: u64,
    /// No section so far lies between those before it.
    ordered: bool,
}

impl Extent {
    fn new() -> Extent {
        Extent {
            lowest: TOP,
            past: 0,
            ordered: true,
        }
    }

    fn add(&mut self, first: u64, end: u64) {
        if first >= self.past {
            self.past = end;
            self.lowest = self.lowest.min(first);
        } else if end <= self.lowest {
            self.lowest = first;
        } else {
            self.ordered = false;
        }
    }
}

/// Tells the first and the last address of each part of a section that lies in
/// one of the spans.
#[inline(always)]
fn parts(lookup: &Lookup, address: u64, size: u64, mut tell: impl FnMut(u64, u64)) {
    let end = address + size;
    for span in &lookup.spans[lookup.index(address)..] {
        if span.first >= end {
            break;
        }
        tell(span.first.max(address), span.end().min(end) - 1);
    }
}

/// The offset of the first section of a well-formed table that stores again an
/// address of these spans.
#[inline(never)]
fn repeated<const LOW_FIRST: bool>(once: &[Span], table: &[u8]) -> Option<usize> {
    let lookup = Lookup::new(once);
    // The first and the last address of a part in one number, which is quick to
    // sort by the first.
    let mut list: Vec<u64> = Vec::new();
    let _ = walk::<LOW_FIRST>(table, |_, address, size| {
        parts(&lookup, address, size, |first, last| {
            list.push(first << 32 | last)
        });
    });
    list.sort_unstable();
    // Where rising parts share an address, two neighbours do.
    if list.is_sorted_by(|one, next| (one & 0xFFFF_FFFF) < next >> 32) {
        return None;
    }
    first_repeat::<LOW_FIRST>(&lookup, table)
}

/// The same where there is such a section: of the two sections of each pair that
/// shares an address the later one, and of these the first.
#[cold]
fn first_repeat<const LOW_FIRST: bool>(lookup: &Lookup, table: &[u8]) -> Option<usize> {
    let mut list = Vec::new();
    let _ = walk::<LOW_FIRST>(table, |place, address, size| {
        parts(lookup, address, size, |first, last| {
            list.push((first, last, place))
        });
    });
    list.sort_unstable();
    // Parts that began at or before this one, the earliest section on top. One
    // that has ended goes when it comes to the top.
    let mut begun: BinaryHeap<Reverse<(usize, u64)>> = BinaryHeap::new();
    let mut found = None;
    for (first, last, place) in list {
        while begun.peek().is_some_and(|part| part.0 .1 < first) {
            begun.pop();
        }
        if let Some(Reverse((earliest, _))) = begun.peek() {
            let later = place.max(*earliest);
            found = Some(found.map_or(later, |place: usize| place.min(later)));
        }
        begun.push(Reverse((place, last)));
    }
    found
}

/// The form, then the map rule, in one walk; and, where spans take one write,
/// that none of their addresses is stored again. Compiled apart for maps without
/// such spans.
fn judge_table<const LOW_FIRST: bool, const ONCE: bool>(
    open: &[Span],
    once: &[Span],
    table: &[u8],
) -> LoadAnswer {
    let open = joined(open);
    let lookup = Lookup::new(&open);
    let mut bytes = 0;
    let mut closed = None;
    let mut extent = Extent::new();
    // The span of the section before.
    let mut known = open.first().copied().unwrap_or_default();
    let walked = walk::<LOW_FIRST>(table, |place, address, size| {
        bytes += size;
        if ONCE {
            extent.add(address, address + size);
        }
        let offset = known.offset(address);
        if offset < known.length && size <= known.length - offset {
            return;
        }
        let lowest = match lookup.holding(address) {
            Some(span) => {
                known = *span;
                span.end()
            }
            None => address,
        };
        if lowest < address + size && closed.is_none() {
            closed = Some((place, lowest));
        }
    });
    let sections = match walked {
        Err(refusal) => return load_refused(refusal),
        Ok(sections) => sections,
    };
    if let Some((place, address)) = closed {
        return LoadAnswer {
            number: 9,
            place: place as u64,
            address,
            ..Default::default()
        };
    }
    if ONCE && !extent.ordered {
        if let Some(place) = repeated::<LOW_FIRST>(once, table) {
            return load_refused(Refusal {
                number: 29,
                place: place as u64,
            });
        }
    }
    let entry = u64::from(header_word::<LOW_FIRST>(table, 0));
    let entry_open = known.offset(entry) < known.length || lookup.holding(entry).is_some();
    LoadAnswer {
        entry,
        entry_open: entry_open.into(),
        sections,
        bytes,
        ..Default::default()
    }
}

/// Judges a table under the open spans and those that take one write.
#[inline(always)]
fn judge_under<const LOW_FIRST: bool>(open: &[Span], once: &[Span], table: &[u8]) -> LoadAnswer {
    match once.is_empty() {
        true => judge_table::<LOW_FIRST, false>(open, once, table),
        false => judge_table::<LOW_FIRST, true>(open, once, table),
    }
}

pub fn judge(map: &[u8], table: &[u8], order: ByteOrder) -> LoadAnswer {
    match order {
        ByteOrder::HighFirst => judge_in::<false>(map, table),
        ByteOrder::LowFirst => judge_in::<true>(map, table),
    }
}

fn judge_in<const LOW_FIRST: bool>(map: &[u8], table: &[u8]) -> LoadAnswer {
    match Records::read(map) {
        Err(refusal) => load_refused(refusal),
        Ok(records) => {
            let (open, once) = records.open();
            judge_under::<LOW_FIRST>(&open, &once, table)
        }
    }
}

pub fn load(map: &[u8], table: &[u8], order: ByteOrder, memory: &mut [u8]) -> LoadAnswer {
    match order {
        ByteOrder::HighFirst => load_in::<false>(map, table, memory),
        ByteOrder::LowFirst => load_in::<true>(map, table, memory),
    }
}

fn load_in<const LOW_FIRST: bool>(map: &[u8], table: &[u8], memory: &mut [u8]) -> LoadAnswer {
    let records = match Records::read(map) {
        Err(refusal) => return load_refused(refusal),
        Ok(records) => records,
    };
    if memory.len() as u64 != records.sum {
        return load_refused(Refusal {
            number: 3,
            place: 0,
        });
    }
    let (open, once) = records.open();
    let answer = judge_under::<LOW_FIRST>(&open, &once, table);
    if answer.number == 0 {
        store::<LOW_FIRST>(&open, table, memory);
    }
    answer
}

/// Stores the sections of an accepted table. Not inlined, so that the loops of
/// both orders are compiled alike.
#[inline(never)]
fn store<const LOW_FIRST: bool>(spans: &[Span], table: &[u8], memory: &mut [u8]) {
    let lookup = Lookup::new(spans);
    let mut at = 4;
    let mut index = 0;
    loop {
        let size = header_word::<LOW_FIRST>(table, at);
        if size == 0 {
            return;
        }
        let address = u64::from(header_word::<LOW_FIRST>(table, at + 4));
        let mut data = &table[at + 8..][..size as usize];
        at = next_section(at, size);
        // Mostly the span of the section before.
        let mut offset = spans[index].offset(address);
        if offset >= spans[index].length {
            index = lookup.index(address);
            offset = spans[index].offset(address);
        }
        loop {
            let span = &spans[index];
            let place = (span.place + offset) as usize;
            let room = (span.length - offset) as usize;
            if data.len() <= room {
                copy(&mut memory[place..][..data.len()], data);
                break;
            }
            let (part, rest) = data.split_at(room);
            memory[place..][..room].copy_from_slice(part);
            data = rest;
            offset = 0;
            index += 1;
        }
    }
}

/// Copies data into memory of its length, a few bytes without a call.
#[inline(always)]
fn copy(memory: &mut [u8], data: &[u8]) {
    match (&mut *memory, data) {
        ([a], [x]) => *a = *x,
        ([a, b], [x, y]) => (*a, *b) = (*x, *y),
        ([a, b, c], [x, y, z]) => (*a, *b, *c) = (*x, *y, *z),
        ([a, b, c, d], [w, x, y, z]) => (*a, *b, *c, *d) = (*w, *x, *y, *z),
        _ => memory.copy_from_slice(data),
    }
}

// The join.

pub fn join(first: &[u8], second: &[u8], order: ByteOrder, output: &mut [u8]) -> JoinAnswer {
    match order {
        ByteOrder::HighFirst => join_in::<false>(first, second, output),
        ByteOrder::LowFirst => join_in::<true>(first, second, output),
    }
}

fn join_in<const LOW_FIRST: bool>(first: &[u8], second: &[u8], output: &mut [u8]) -> JoinAnswer {
    let mut sections = 0;
    for (table, bytes) in [(1, first), (2, second)] {
        match walk::<LOW_FIRST>(bytes, |_, _, _| ()) {
            Ok(count) => sections += count,
            Err(refusal) => {
                return JoinAnswer {
                    number: refusal.number,
                    place: refusal.place,
                    table,
                    ..Default::default()
                }
            }
        }
    }
    let length = first.len() + second.len() - 8;
    if length > TABLE_LIMIT || length > output.len() {
        return JoinAnswer {
            number: if length > TABLE_LIMIT { 10 } else { 11 },
            ..Default::default()
        };
    }
    // The second's entry, the first's sections, and the second's sections
    // with its zero word.
    let (entry, rest) = output[..length].split_at_mut(4);
    let (left, right) = rest.split_at_mut(first.len() - 8);
    entry.copy_from_slice(&second[..4]);
    left.copy_from_slice(&first[4..first.len() - 4]);
    right.copy_from_slice(&second[4..]);
    JoinAnswer {
        length: length as u64,
        sections,
        ..Default::default()
    }
}

// The writer.

/// The bytes of a header word.
fn header_bytes<const LOW_FIRST: bool>(value: u32) -> [u8; 4] {
    if LOW_FIRST {
        value.to_le_bytes()
    } else {
        value.to_be_bytes()
    }
}

/// The length of the table of a list, or the first fault of its first bad
/// section.
fn judge_list(list: &[ListSection], data: &[u8]) -> Result<u64, Refusal> {
    let mut length: u64 = 8;
    for (index, section) in list.iter().enumerate() {
        let size = u64::from(section.size);
        if size == 0 {
            return refuse(21, index);
        }
        if u64::from(section.start) + size > data.len() as u64 {
            return refuse(20, index);
        }
        if u64::from(section.address) + size > TOP {
            return refuse(8, index);
        }
        length = length.saturating_add(next_section(0, section.size) as u64);
    }
    Ok(length)
}

pub fn write(
    entry: u32,
    list: &[ListSection],
    data: &[u8],
    order: ByteOrder,
    output: &mut [u8],
) -> WriteAnswer {
    let refused = |refusal: Refusal| WriteAnswer {
        number: refusal.number,
        place: refusal.place,
        ..Default::default()
    };
    let length = match judge_list(list, data) {
        Err(refusal) => return refused(refusal),
        Ok(length) => length,
    };
    if length > TABLE_LIMIT as u64 || length > output.len() as u64 {
        return refused(Refusal {
            number: if length > TABLE_LIMIT as u64 { 10 } else { 11 },
            place: 0,
        });
    }
    let result = &mut output[..length as usize];
    match order {
        ByteOrder::HighFirst => put::<false>(entry, list, data, result),
        ByteOrder::LowFirst => put::<true>(entry, list, data, result),
    }
    WriteAnswer {
        length,
        sections: list.len() as u64,
        ..Default::default()
    }
}

/// Writes the table of a list without faults into bytes of its length. Not
/// inlined, so that the loops of both orders are compiled alike.
#[inline(never)]
fn put<const LOW_FIRST: bool>(entry: u32, list: &[ListSection], data: &[u8], result: &mut [u8]) {
    let (first, mut rest) = result.split_at_mut(4);
    first.copy_from_slice(&header_bytes::<LOW_FIRST>(entry));
    for section in list {
        let (start, size) = (section.start as usize, section.size as usize);
        let length = next_section(0, section.size);
        let (bytes, later) = rest.split_at_mut(length);
        bytes[..4].copy_from_slice(&header_bytes::<LOW_FIRST>(section.size));
        bytes[4..8].copy_from_slice(&header_bytes::<LOW_FIRST>(section.address));
        match data.get(start..start + 4) {
            // The bytes behind the section's data become its pads.
            Some(run) if size <= 4 => {
                let word = u32::from_le_bytes(run.try_into().expect("four bytes"));
                let kept = u32::MAX >> (32 - 8 * size);
                bytes[8..12].copy_from_slice(&(word & kept).to_le_bytes());
            }
            // The last word has the pads.
            _ => {
                bytes[length - 4..].copy_from_slice(&[0; 4]);
                copy_blocks(&mut bytes[8..][..size], &data[start..][..size]);
            }
        }
        rest = later;
    }
    rest.copy_from_slice(&[0; 4]);
}

/// Copies data into bytes of its length, up to eight blocks of 16 bytes without a
/// call.
#[inline(always)]
fn copy_blocks(bytes: &mut [u8], data: &[u8]) {
    if !(16..=128).contains(&data.len()) {
        bytes.copy_from_slice(data);
        return;
    }
    let (to, rest) = bytes.as_chunks_mut::<16>();
    let (blocks, left) = data.as_chunks();
    for (to, block) in to.iter_mut().zip(blocks) {
        *to = *block;
    }
    if !left.is_empty() {
        rest.copy_from_slice(left);
    }
}

// What stands at an address.

/// A walk over a table that looks for an address. It stands at a section, at the
/// end word or at what is cut there.
struct Search<'a, const LOW_FIRST: bool> {
    table: &'a [u8],
    at: usize,
    /// The offset of the last section so far that covers the address, or 0.
    covering: usize,
    /// The bytes read of the sections so far.
    read: u64,
}

impl<const LOW_FIRST: bool> Search<'_, LOW_FIRST> {
    /// A walk that stands behind the entry word.
    #[inline(always)]
    fn new(table: &[u8]) -> Result<Search<'_, LOW_FIRST>, Refusal> {
        if table.len() > TABLE_LIMIT {
            return refuse(4, 0);
        }
        if table.len() < 4 {
            return refuse(5, 0);
        }
        Ok(Search {
            table,
            at: 4,
            covering: 0,
            read: 0,
        })
    }

    /// Goes past a section without a fault, and answers no where none stands.
    #[inline(always)]
    fn step(&mut self, address: u32) -> bool {
        let Search { table, at, .. } = *self;
        if table.len() - at < 4 {
            return false;
        }
        let size = header_word::<LOW_FIRST>(table, at);
        let next = next_section(at, size);
        if size == 0 || next > table.len() {
            return false;
        }
        let first = header_word::<LOW_FIRST>(table, at + 4);
        if u64::from(first) + u64::from(size) > TOP {
            return false;
        }
        // Below the size exactly for an address that is covered, so that one
        // comparison tells.
        if address.wrapping_sub(first) < size {
            self.covering = at;
        }
        self.read += 8;
        self.at = next;
        true
    }

    /// Goes to the end word, or to the first fault.
    #[inline(always)]
    fn end(mut self, address: u32) -> Result<Self, Refusal> {
        while self.step(address) {}
        let Search { table, at, .. } = self;
        if table.len() - at < 4 {
            return refuse(5, at);
        }
        let size = header_word::<LOW_FIRST>(table, at);
        if size > 0 {
            let cut = next_section(at, size) > table.len();
            return refuse(if cut { 5 } else { 8 }, at);
        }
        if table.len() > at + 4 {
            return refuse(7, at + 4);
        }
        self.read += 4;
        Ok(self)
    }
}

/// One walk over the older table, and then one over the newer.
pub fn find(older: &[u8], newer: &[u8], order: ByteOrder, address: u32) -> FindAnswer {
    match order {
        ByteOrder::HighFirst => find_in::<false, false>(older, newer, address),
        ByteOrder::LowFirst => find_in::<true, false>(older, newer, address),
    }
}

/// The two walks take turns while both have sections: a walk mostly waits for a
/// size, which says where the next one stands.
pub fn find_in_turns(older: &[u8], newer: &[u8], order: ByteOrder, address: u32) -> FindAnswer {
    match order {
        ByteOrder::HighFirst => find_in::<false, true>(older, newer, address),
        ByteOrder::LowFirst => find_in::<true, true>(older, newer, address),
    }
}

/// Not inlined, so that the loops of both orders are compiled alike.
#[inline(never)]
fn find_in<const LOW_FIRST: bool, const IN_TURNS: bool>(
    older: &[u8],
    newer: &[u8],
    address: u32,
) -> FindAnswer {
    let mut searches = [older, newer].map(Search::<LOW_FIRST>::new);
    if let (true, [Ok(one), Ok(two)]) = (IN_TURNS, &mut searches) {
        while one.step(address) && two.step(address) {}
    }
    let mut answer = FindAnswer::default();
    for (table, search) in [1, 2].into_iter().zip(searches) {
        match search.and_then(|search| search.end(address)) {
            Err(refusal) => {
                return FindAnswer {
                    number: refusal.number,
                    place: refusal.place,
                    table,
                    ..Default::default()
                }
            }
            Ok(search) => {
                answer.read += search.read;
                let at = search.covering;
                if at > 0 {
                    let size = header_word::<LOW_FIRST>(search.table, at);
                    let skipped = address - header_word::<LOW_FIRST>(search.table, at + 4);
                    answer.table = table;
                    answer.offset = at as u64 + 8 + u64::from(skipped);
                    answer.length = u64::from(size - skipped);
                }
            }
        }
    }
    answer
}

// The rescue of a cut table.

pub fn rescue(table: &[u8], order: ByteOrder, output: &mut [u8]) -> RescueAnswer {
    match order {
        ByteOrder::HighFirst => rescue_in::<false>(table, output),
        ByteOrder::LowFirst => rescue_in::<true>(table, output),
    }
}

/// Not inlined, so that the loops of both orders are compiled alike.
#[inline(never)]
fn rescue_in<const LOW_FIRST: bool>(table: &[u8], output: &mut [u8]) -> RescueAnswer {
    let refused = |number| RescueAnswer {
        number,
        ..Default::default()
    };
    if table.len() > TABLE_LIMIT {
        return refused(4);
    }
    if table.len() < 4 {
        return refused(5);
    }
    let mut sections = 0;
    // Where the whole sections so far end. The next one has two words at least.
    let mut end = 4;
    while table.len() - end >= 8 {
        let size = header_word::<LOW_FIRST>(table, end);
        let address = header_word::<LOW_FIRST>(table, end + 4);
        let next = next_section(end, size);
        let past_top = u64::from(address) + u64::from(size) > TOP;
        if size == 0 || next > table.len() || past_top {
            break;
        }
        sections += 1;
        end = next;
    }
    let added = !table[end..].starts_with(&[0; 4]);
    let length = end + 4;
    if length > TABLE_LIMIT || length > output.len() {
        return refused(if length > TABLE_LIMIT { 10 } else { 11 });
    }
    let (kept, rest) = output.split_at_mut(end);
    kept.copy_from_slice(&table[..end]);
    rest[..4].copy_from_slice(&[0; 4]);
    RescueAnswer {
        length: length as u64,
        sections,
        unused: (table.len() - if added { end } else { length }) as u64,
        added: added.into(),
        ..Default::default()
    }
}

// The configuration table.

/// Applies a table to a copy of the values and answers the count of entries.
fn run_config(table: &[u8], addresses: &[u32], after: &mut [u32]) -> Result<u64, Refusal> {
    for (index, entry) in table.chunks_exact(12).enumerate() {
        let at = index * 12;
        let (address, set, clear) = (word(entry, 0), word(entry, 4), word(entry, 8));
        if set | clear == 0 {
            if address != 0 {
                return refuse(17, at);
            }
            if table.len() > at + 12 {
                return refuse(15, at + 12);
            }
            return Ok(index as u64);
        }
        let Ok(register) = addresses.binary_search(&address) else {
            return refuse(16, at);
        };
        after[register] = (after[register] & !clear) | set;
    }
    refuse(14, table.len() / 12 * 12)
}

pub fn configure(table: &[u8], addresses: &[u32], values: &mut [u32]) -> ConfigAnswer {
    let refused = |refusal: Refusal| ConfigAnswer {
        number: refusal.number,
        place: refusal.place,
        ..Default::default()
    };
    if addresses.len() != values.len()
        || addresses.len() > REGISTER_LIMIT
        || !addresses.is_sorted_by(|one, next| one < next)
    {
        return refused(Refusal {
            number: 12,
            place: 0,
        });
    }
    if table.len() > CONFIG_LIMIT {
        return refused(Refusal {
            number: 13,
            place: 0,
        });
    }
    let mut scratch = [0; REGISTER_LIMIT];
    let after = &mut scratch[..values.len()];
    after.copy_from_slice(values);
    match run_config(table, addresses, after) {
        Err(refusal) => refused(refusal),
        Ok(entries) => {
            let bits = values
                .iter()
                .zip(&*after)
                .map(|(old, new)| u64::from((old ^ new).count_ones()))
                .sum();
            values.copy_from_slice(after);
            ConfigAnswer {
                entries,
                bits,
                ..Default::default()
            }
        }
    }
}

// The strap value.

/// A strap value taken apart.
#[derive(Clone, Copy, PartialEq, Eq)]
enum Strap {
    Sleep {
        sr: u8,
        wait: bool,
        clock: u8,
    },
    Emif16 {
        sr: u8,
        wait: bool,
        clock: u8,
    },
    Link {
        device: u8,
        config: u8,
        clock: u8,
    },
    Ethernet {
        device: u8,
        multiplier: u8,
        connection: u8,
        id: u8,
        clock: u8,
    },
    Pcie {
        bar: u8,
        sr: u8,
        clock: u8,
    },
    I2cMaster {
        config: u16,
    },
    I2cPassive {
        address: u8,
    },
    Spi {
        mode: u8,
        five_pin: bool,
        wide: bool,
        select: u8,
        table: u8,
        sr: u8,
    },
}

impl Strap {
    /// The strap of a value, or the refusal's number.
    #[inline(always)]
    fn read(value: u32, strict: bool) -> Result<Strap, u64> {
        if value > STRAP_LIMIT {
            return Err(18);
        }
        let bits = |low: u32, count: u32| (value >> low & ((1 << count) - 1)) as u8;
        let one = |at: u32| value >> at & 1 == 1;
        let reserved = |mask: u32, right: u32| strict && value & mask != right;
        let (device, clock, sr) = (bits(0, 3), bits(10, 3), bits(3, 2));
        let wait = one(7);
        Ok(match device {
            0 if reserved(0x300, 0) => return Err(19),
            0 => match bits(5, 2) {
                0 => Strap::Sleep { sr, wait, clock },
                1 => Strap::Emif16 { sr, wait, clock },
                _ => return Err(19),
            },
            1 | 7 => Strap::Link {
                device,
                config: bits(3, 7),
                clock,
            },
            2 | 3 => Strap::Ethernet {
                device,
                multiplier: bits(8, 2),
                connection: bits(6, 2),
                id: bits(3, 3),
                clock,
            },
            4 if reserved(0x200, 0) => return Err(19),
            4 => Strap::Pcie {
                bar: bits(5, 4),
                sr,
                clock,
            },
            5 if !one(8) => Strap::I2cMaster {
                config: (value >> 3) as u16,
            },
            5 if reserved(0x218, 0x200) => return Err(19),
            5 => Strap::I2cPassive {
                address: bits(5, 3),
            },
            _ => Strap::Spi {
                mode: bits(11, 2),
                five_pin: one(10),
                wide: one(9),
                select: bits(7, 2),
                table: bits(5, 2),
                sr,
            },
        })
    }

    /// The kind's place in the document's table.
    fn kind(self) -> u64 {
        match self {
            Strap::Sleep { .. } => 0,
            Strap::Emif16 { .. } => 1,
            Strap::Link { .. } => 2,
            Strap::Ethernet { .. } => 3,
            Strap::Pcie { .. } => 4,
            Strap::I2cMaster { .. } => 5,
            Strap::I2cPassive { .. } => 6,
            Strap::Spi { .. } => 7,
        }
    }

    /// The fields in the document's order, zero after the last.
    fn fields(self) -> [u64; 6] {
        match self {
            Strap::Sleep { sr, wait, clock } | Strap::Emif16 { sr, wait, clock } => {
                [sr.into(), wait.into(), clock.into(), 0, 0, 0]
            }
            Strap::Link {
                device,
                config,
                clock,
            } => [device.into(), config.into(), clock.into(), 0, 0, 0],
            Strap::Ethernet {
                device,
                multiplier,
                connection,
                id,
                clock,
            } => [
                device.into(),
                multiplier.into(),
                connection.into(),
                id.into(),
                clock.into(),
                0,
            ],
            Strap::Pcie { bar, sr, clock } => [bar.into(), sr.into(), clock.into(), 0, 0, 0],
            Strap::I2cMaster { config } => [config.into(), 0, 0, 0, 0, 0],
            Strap::I2cPassive { address } => [address.into(), 0, 0, 0, 0, 0],
            Strap::Spi {
                mode,
                five_pin,
                wide,
                select,
                table,
                sr,
            } => [
                mode.into(),
                five_pin.into(),
                wide.into(),
                select.into(),
                table.into(),
                sr.into(),
            ],
        }
    }
}

pub fn strap(value: u32, strict: bool) -> StrapAnswer {
    match Strap::read(value, strict) {
        Err(number) => StrapAnswer {
            number,
            ..Default::default()
        },
        Ok(strap) => StrapAnswer {
            kind: strap.kind(),
            fields: strap.fields(),
            ..Default::default()
        },
    }
}

pub fn strap_short(value: u32) -> StrapAnswer {
    strap(value, true)
}

pub fn strap_same(first: u32, second: u32) -> SameAnswer {
    let both =
        Strap::read(first, false).and_then(|one| Strap::read(second, false).map(|two| one == two));
    match both {
        Err(number) => SameAnswer {
            number,
            ..Default::default()
        },
        Ok(same) => SameAnswer {
            same: same.into(),
            ..Default::default()
        },
    }
}

pub fn strap_label(value: u32) -> LabelAnswer {
    match Strap::read(value, false) {
        Err(number) => LabelAnswer {
            number,
            ..Default::default()
        },
        Ok(strap) => LabelAnswer {
            label: strap.kind(),
            ..Default::default()
        },
    }
}

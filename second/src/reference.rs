//! Document 01, as requests 2, 7, 8 and 10 of document 02 mend it, and requests 1,
//! 4 and 12 read once more in plain Rust: the map, the boot table, judging, loading,
//! the join, the writer, what stands at an address, the rescue of a cut table, the
//! configuration table, the strap value and the listers' text. Addresses are looked
//! at one by one and bytes are copied one by one; nothing here is quick.

use std::collections::HashSet;

/// Most bytes in a map: 64 records of 12.
pub const MAP_LIMIT: usize = 768;
/// Most bytes in a boot table, also in one that is joined, written or rescued.
pub const TABLE_LIMIT: usize = 16_777_216;
/// Most registers in a list.
pub const REGISTER_LIMIT: usize = 1024;
/// Most bytes in a configuration table.
pub const CONFIG_LIMIT: usize = 49_152;
/// Greatest strap value.
pub const STRAP_LIMIT: u32 = 8191;
/// Most bytes that a lister reads.
pub const LISTER_LIMIT: usize = 65_536;
/// One past the highest address.
pub const TOP: u64 = 0x1_0000_0000;

/// The byte order of a boot table's header words (entry, size, address), which
/// the caller gives: high byte first, or low byte first. Data bytes and pads
/// have none, and the words of maps and configuration tables are always high
/// first.
#[derive(Clone, Copy, Debug, PartialEq, Eq)]
pub enum ByteOrder {
    HighFirst,
    LowFirst,
}

impl ByteOrder {
    /// The two orders.
    pub const BOTH: [ByteOrder; 2] = [ByteOrder::HighFirst, ByteOrder::LowFirst];

    /// The other order.
    pub fn other(self) -> ByteOrder {
        match self {
            ByteOrder::HighFirst => ByteOrder::LowFirst,
            ByteOrder::LowFirst => ByteOrder::HighFirst,
        }
    }
}

/// What a map alone is answered with. The number is 0 where nothing is refused.
#[derive(Clone, Copy, Debug, Default, PartialEq, Eq)]
pub struct MapAnswer {
    pub number: u64,
    pub place: u64,
    pub bytes: u64,
}

/// What judging and loading answer.
#[derive(Clone, Copy, Debug, Default, PartialEq, Eq)]
pub struct LoadAnswer {
    pub number: u64,
    pub place: u64,
    pub address: u64,
    pub entry: u64,
    pub entry_open: u64,
    pub sections: u64,
    pub bytes: u64,
}

/// What the join answers.
#[derive(Clone, Copy, Debug, Default, PartialEq, Eq)]
pub struct JoinAnswer {
    pub number: u64,
    pub place: u64,
    pub table: u64,
    pub length: u64,
    pub sections: u64,
}

/// One section of a list that the writer takes, laid out as in C: its address,
/// and the start and the size of its data in the lent run.
#[repr(C)]
#[derive(Clone, Copy, Debug, PartialEq, Eq)]
pub struct ListSection {
    pub address: u32,
    pub start: u32,
    pub size: u32,
}

/// What the writer answers.
#[derive(Clone, Copy, Debug, Default, PartialEq, Eq)]
pub struct WriteAnswer {
    pub number: u64,
    pub place: u64,
    pub length: u64,
    pub sections: u64,
}

/// What is answered for an address: the table, 1 older, 2 newer or 0 neither,
/// offset and length of the part of it, and the bytes read of both tables. After a
/// refusal the table is the one that is refused.
#[derive(Clone, Copy, Debug, Default, PartialEq, Eq)]
pub struct FindAnswer {
    pub number: u64,
    pub place: u64,
    pub table: u64,
    pub offset: u64,
    pub length: u64,
    pub read: u64,
}

/// What a rescue answers: the bytes written, the sections kept, the input bytes not
/// used, and 1 where the zero word had to be added.
#[derive(Clone, Copy, Debug, Default, PartialEq, Eq)]
pub struct RescueAnswer {
    pub number: u64,
    pub place: u64,
    pub length: u64,
    pub sections: u64,
    pub unused: u64,
    pub added: u64,
}

/// What the configuration table is answered with.
#[derive(Clone, Copy, Debug, Default, PartialEq, Eq)]
pub struct ConfigAnswer {
    pub number: u64,
    pub place: u64,
    pub entries: u64,
    pub bits: u64,
}

/// What a strap value is answered with: the kind, 0 for sleep to 7 for SPI,
/// and its fields in the document's order, zero after the last.
#[derive(Clone, Copy, Debug, Default, PartialEq, Eq)]
pub struct StrapAnswer {
    pub number: u64,
    pub place: u64,
    pub kind: u64,
    pub fields: [u64; 6],
}

/// Whether two strap values have one kind and equal fields.
#[derive(Clone, Copy, Debug, Default, PartialEq, Eq)]
pub struct SameAnswer {
    pub number: u64,
    pub place: u64,
    pub same: u64,
}

/// The board label's number.
#[derive(Clone, Copy, Debug, Default, PartialEq, Eq)]
pub struct LabelAnswer {
    pub number: u64,
    pub place: u64,
    pub label: u64,
}

/// A refusal's number and place.
#[derive(Clone, Copy, Debug, PartialEq, Eq)]
pub struct Refusal {
    pub number: u64,
    pub place: u64,
}

fn refuse<T>(number: u64, place: usize) -> Result<T, Refusal> {
    Err(Refusal {
        number,
        place: place as u64,
    })
}

/// The word at an offset, most significant byte first.
fn word(bytes: &[u8], at: usize) -> u64 {
    let mut value = 0;
    for byte in &bytes[at..at + 4] {
        value = value * 256 + u64::from(*byte);
    }
    value
}

// The region map.

/// What a record says of its addresses: kind 1, kind 2 and kind 3.
#[derive(Clone, Copy, Debug, PartialEq, Eq)]
pub enum Kind {
    Permitted,
    Reserved,
    /// Permitted, and a load stores each address at most once.
    OneWrite,
}

/// One record of a sound map.
#[derive(Clone, Copy, Debug, PartialEq, Eq)]
pub struct Record {
    pub kind: Kind,
    pub first: u64,
    pub length: u64,
}

impl Record {
    /// Kinds 1 and 3.
    fn permitted(&self) -> bool {
        self.kind == Kind::Permitted || self.kind == Kind::OneWrite
    }

    fn holds(&self, address: u64) -> bool {
        self.first <= address && address < self.first + self.length
    }
}

/// The records of a map, or its first fault.
pub fn read_map(map: &[u8]) -> Result<Vec<Record>, Refusal> {
    // 1: the length is not a multiple of 12, or over 768.
    let rest = map.len() % 12;
    if rest != 0 || map.len() > MAP_LIMIT {
        return refuse(1, 0);
    }
    let mut records: Vec<Record> = Vec::new();
    for (index, bytes) in map.chunks(12).enumerate() {
        let kind = match bytes[2] {
            1 => Some(Kind::Permitted),
            2 => Some(Kind::Reserved),
            3 => Some(Kind::OneWrite),
            _ => None,
        };
        let first = word(bytes, 4);
        let length = word(bytes, 8);
        // 2: mark, kind, the zero byte, a length of at least 1, the top.
        let mark_wrong = bytes[0] != 0x52 || bytes[1] != 0x47;
        let zero_wrong = bytes[3] != 0;
        let Some(kind) = kind else {
            return refuse(2, index);
        };
        if mark_wrong || zero_wrong || length == 0 || first + length > TOP {
            return refuse(2, index);
        }
        let record = Record {
            kind,
            first,
            length,
        };
        // 2: a permitted record shares no address with an earlier permitted one.
        for earlier in &records {
            let both = record.permitted() && earlier.permitted();
            // Two runs share an address exactly when one holds the other's first.
            if both && (earlier.holds(record.first) || record.holds(earlier.first)) {
                return refuse(2, index);
            }
        }
        records.push(record);
    }
    Ok(records)
}

/// All permitted lengths together: the bytes of memory that the map asks for.
pub fn permitted_sum(records: &[Record]) -> u64 {
    let mut sum = 0;
    for record in records {
        if record.permitted() {
            sum += record.length;
        }
    }
    sum
}

/// Open: a permitted record holds the address and no reserved record does.
pub fn is_open(records: &[Record], address: u64) -> bool {
    let mut permitted = false;
    for record in records {
        if record.holds(address) {
            if !record.permitted() {
                return false;
            }
            permitted = true;
        }
    }
    permitted
}

/// The place in memory of an address: the permitted lengths before its record,
/// plus the address less the record's first address.
pub fn place_of(records: &[Record], address: u64) -> Option<u64> {
    let mut before = 0;
    for record in records {
        if record.permitted() {
            if record.holds(address) {
                return Some(before + address - record.first);
            }
            before += record.length;
        }
    }
    None
}

/// Whether an address takes one write: a record of kind 3 holds it.
pub fn takes_one_write(records: &[Record], address: u64) -> bool {
    for record in records {
        if record.kind == Kind::OneWrite && record.holds(address) {
            return true;
        }
    }
    false
}

/// The answer for a map alone.
pub fn map(map: &[u8]) -> MapAnswer {
    match read_map(map) {
        Err(refusal) => MapAnswer {
            number: refusal.number,
            place: refusal.place,
            ..Default::default()
        },
        Ok(records) => MapAnswer {
            bytes: permitted_sum(&records),
            ..Default::default()
        },
    }
}

// The boot table.

/// One section: the offset of its size word, its address, its data and its
/// pads. The pads may hold anything; only the join has a use for them.
#[derive(Clone, Copy, Debug, PartialEq, Eq)]
pub struct Section<'a> {
    pub offset: usize,
    pub address: u64,
    pub data: &'a [u8],
    pub pads: &'a [u8],
}

/// A well-formed table.
#[derive(Clone, Debug, PartialEq, Eq)]
pub struct Table<'a> {
    pub entry: u64,
    pub sections: Vec<Section<'a>>,
}

impl Table<'_> {
    /// The sum of the section sizes.
    fn data_bytes(&self) -> u64 {
        let mut sum = 0;
        for section in &self.sections {
            sum += section.data.len() as u64;
        }
        sum
    }
}

/// The header word at an offset of a boot table.
fn header_word(table: &[u8], at: usize, order: ByteOrder) -> u64 {
    let mut bytes = [0, 1, 2, 3].map(|i| table[at + i]);
    if order == ByteOrder::LowFirst {
        bytes.reverse();
    }
    word(&bytes, 0)
}

/// The count of pad bytes after data of a size.
fn pad_count(size: u64) -> u64 {
    match size % 4 {
        0 => 0,
        rest => 4 - rest,
    }
}

/// A table's entry and sections, or the first fault of its form.
pub fn read_table(table: &[u8], order: ByteOrder) -> Result<Table<'_>, Refusal> {
    // 4: over the limit.
    if table.len() > TABLE_LIMIT {
        return refuse(4, 0);
    }
    // 5: the entry word is cut.
    if table.len() < 4 {
        return refuse(5, 0);
    }
    let entry = header_word(table, 0, order);
    let mut sections = Vec::new();
    let mut at = 4;
    loop {
        let left = table.len() - at;
        // 5: the size word or the end word is cut.
        if left < 4 {
            return refuse(5, at);
        }
        let size = header_word(table, at, order);
        if size == 0 {
            // 7: bytes after the zero word.
            if left > 4 {
                return refuse(7, at + 4);
            }
            return Ok(Table { entry, sections });
        }
        // 5: the section is cut, its pad bytes counted.
        let whole = 8 + size + pad_count(size);
        if (left as u64) < whole {
            return refuse(5, at);
        }
        // 8: address plus size over 2^32.
        let address = header_word(table, at + 4, order);
        if address + size > TOP {
            return refuse(8, at);
        }
        // What the pads hold is not judged.
        let data_end = at + 8 + size as usize;
        let end = at + whole as usize;
        sections.push(Section {
            offset: at,
            address,
            data: &table[at + 8..data_end],
            pads: &table[data_end..end],
        });
        at = end;
    }
}

// Judging and loading.

fn load_refused(refusal: Refusal) -> LoadAnswer {
    LoadAnswer {
        number: refusal.number,
        place: refusal.place,
        ..Default::default()
    }
}

/// The first section in table order that stores an address of kind 3 which an
/// earlier section has stored.
fn first_repeat<'a>(records: &[Record], table: &'a Table) -> Option<&'a Section<'a>> {
    let mut stored = HashSet::new();
    for section in &table.sections {
        for i in 0..section.data.len() as u64 {
            let address = section.address + i;
            // The section has each address once, so that one which is in the
            // set already is an earlier section's.
            if takes_one_write(records, address) && !stored.insert(address) {
                return Some(section);
            }
        }
    }
    None
}

/// The map rule, then the rule of one write, and the answer for a table whose
/// form is right.
fn allowed(records: &[Record], table: &Table) -> LoadAnswer {
    // 9: the first section with an address that is not open, and its lowest.
    for section in &table.sections {
        for i in 0..section.data.len() as u64 {
            let address = section.address + i;
            if !is_open(records, address) {
                return LoadAnswer {
                    number: 9,
                    place: section.offset as u64,
                    address,
                    ..Default::default()
                };
            }
        }
    }
    // 29: an address of kind 3 is stored again.
    if let Some(section) = first_repeat(records, table) {
        return LoadAnswer {
            number: 29,
            place: section.offset as u64,
            ..Default::default()
        };
    }
    LoadAnswer {
        entry: table.entry,
        entry_open: u64::from(is_open(records, table.entry)),
        sections: table.sections.len() as u64,
        bytes: table.data_bytes(),
        ..Default::default()
    }
}

/// Judging: 1, 2, 4, the form, then 9, then 29.
pub fn judge(map: &[u8], table: &[u8], order: ByteOrder) -> LoadAnswer {
    let records = match read_map(map) {
        Err(refusal) => return load_refused(refusal),
        Ok(records) => records,
    };
    match read_table(table, order) {
        Err(refusal) => load_refused(refusal),
        Ok(read) => allowed(&records, &read),
    }
}

/// Loading: as judging, with 3 after the map. An accepted table's sections are
/// stored in table order, so the later one wins at a shared address.
pub fn load(map: &[u8], table: &[u8], order: ByteOrder, memory: &mut [u8]) -> LoadAnswer {
    let records = match read_map(map) {
        Err(refusal) => return load_refused(refusal),
        Ok(records) => records,
    };
    // 3: memory does not have the permitted sum's length.
    if memory.len() as u64 != permitted_sum(&records) {
        return load_refused(Refusal {
            number: 3,
            place: 0,
        });
    }
    let read = match read_table(table, order) {
        Err(refusal) => return load_refused(refusal),
        Ok(read) => read,
    };
    let answer = allowed(&records, &read);
    if answer.number != 0 {
        return answer;
    }
    for section in &read.sections {
        for (i, byte) in section.data.iter().enumerate() {
            let address = section.address + i as u64;
            let place = place_of(&records, address).expect("an open address has a place");
            memory[place as usize] = *byte;
        }
    }
    answer
}

// The join.

fn put_header_word(bytes: &mut Vec<u8>, value: u64, order: ByteOrder) {
    let shifts = match order {
        ByteOrder::HighFirst => [24, 16, 8, 0],
        ByteOrder::LowFirst => [0, 8, 16, 24],
    };
    for shift in shifts {
        bytes.push((value >> shift) as u8);
    }
}

/// The join: first table, second table, 10, 11. The result is the second's
/// entry, the first's sections, the second's sections and the zero word, in the
/// order of the two tables. A section keeps its pads as they stand.
pub fn join(first: &[u8], second: &[u8], order: ByteOrder, output: &mut [u8]) -> JoinAnswer {
    let table_refused = |refusal: Refusal, table: u64| JoinAnswer {
        number: refusal.number,
        place: refusal.place,
        table,
        ..Default::default()
    };
    let one = match read_table(first, order) {
        Err(refusal) => return table_refused(refusal, 1),
        Ok(read) => read,
    };
    let two = match read_table(second, order) {
        Err(refusal) => return table_refused(refusal, 2),
        Ok(read) => read,
    };
    let length = first.len() + second.len() - 8;
    // 10: over the limit. 11: output shorter than the result.
    for (number, most) in [(10, TABLE_LIMIT), (11, output.len())] {
        if length > most {
            return JoinAnswer {
                number,
                ..Default::default()
            };
        }
    }
    let mut result = Vec::new();
    put_header_word(&mut result, two.entry, order);
    for section in one.sections.iter().chain(&two.sections) {
        put_header_word(&mut result, section.data.len() as u64, order);
        put_header_word(&mut result, section.address, order);
        result.extend(section.data);
        result.extend(section.pads);
    }
    put_header_word(&mut result, 0, order);
    // Output bytes past the result are not touched.
    for (i, byte) in result.iter().enumerate() {
        output[i] = *byte;
    }
    JoinAnswer {
        length: length as u64,
        sections: (one.sections.len() + two.sections.len()) as u64,
        ..Default::default()
    }
}

// The writer.

/// The length of the table of a list, or the first fault of its first bad
/// section, whose index is the place.
fn written_length(list: &[ListSection], data: &[u8]) -> Result<u128, Refusal> {
    // The entry word and the zero word.
    let mut length = 8;
    for (index, section) in list.iter().enumerate() {
        let [address, start, size] = [section.address, section.start, section.size].map(u64::from);
        // 21: size zero.
        if size == 0 {
            return refuse(21, index);
        }
        // 20: start plus size past the data.
        if start + size > data.len() as u64 {
            return refuse(20, index);
        }
        // 8: address plus size over 2^32.
        if address + size > TOP {
            return refuse(8, index);
        }
        length += u128::from(8 + size + pad_count(size));
    }
    Ok(length)
}

/// The writer: the first bad section, 10, 11. The result is the entry, the
/// sections of the list in its order, each with its data and zero pads, and the
/// zero word.
pub fn write(
    entry: u32,
    list: &[ListSection],
    data: &[u8],
    order: ByteOrder,
    output: &mut [u8],
) -> WriteAnswer {
    let length = match written_length(list, data) {
        Err(refusal) => {
            return WriteAnswer {
                number: refusal.number,
                place: refusal.place,
                ..Default::default()
            }
        }
        Ok(length) => length,
    };
    // 10: over the limit. 11: output shorter than the result.
    for (number, most) in [(10, TABLE_LIMIT), (11, output.len())] {
        if length > most as u128 {
            return WriteAnswer {
                number,
                ..Default::default()
            };
        }
    }
    let mut result = Vec::new();
    put_header_word(&mut result, entry.into(), order);
    for section in list {
        put_header_word(&mut result, section.size.into(), order);
        put_header_word(&mut result, section.address.into(), order);
        for i in 0..section.size {
            result.push(data[section.start as usize + i as usize]);
        }
        result.extend(vec![0; pad_count(section.size.into()) as usize]);
    }
    put_header_word(&mut result, 0, order);
    // Output bytes past the result are not touched.
    for (i, byte) in result.iter().enumerate() {
        output[i] = *byte;
    }
    WriteAnswer {
        length: length as u64,
        sections: list.len() as u64,
        ..Default::default()
    }
}

// What stands at an address.

/// The last section of a table that covers an address.
fn last_covering<'a>(table: &Table<'a>, address: u64) -> Option<Section<'a>> {
    let mut last = None;
    for section in &table.sections {
        for i in 0..section.data.len() as u64 {
            if section.address + i == address {
                last = Some(*section);
            }
        }
    }
    last
}

/// What stands at an address: older table, newer table, and no other refusals.
/// The newer goes before the older. The part begins at the address's byte and
/// ends with its section's data.
pub fn find(older: &[u8], newer: &[u8], order: ByteOrder, address: u32) -> FindAnswer {
    let address = u64::from(address);
    let table_refused = |refusal: Refusal, table: u64| FindAnswer {
        number: refusal.number,
        place: refusal.place,
        table,
        ..Default::default()
    };
    let one = match read_table(older, order) {
        Err(refusal) => return table_refused(refusal, 1),
        Ok(read) => read,
    };
    let two = match read_table(newer, order) {
        Err(refusal) => return table_refused(refusal, 2),
        Ok(read) => read,
    };
    // The size and the address of each section, and the two end words.
    let sections = one.sections.len() + two.sections.len();
    let read = 8 * sections as u64 + 4 + 4;
    for (number, table) in [(2, &two), (1, &one)] {
        if let Some(section) = last_covering(table, address) {
            let skipped = address - section.address;
            return FindAnswer {
                table: number,
                offset: section.offset as u64 + 8 + skipped,
                length: section.data.len() as u64 - skipped,
                read,
                ..Default::default()
            };
        }
    }
    FindAnswer {
        read,
        ..Default::default()
    }
}

/// That part itself, or the empty part at the older's start where neither table
/// covers the address or one of them is refused.
pub fn part<'a>(older: &'a [u8], newer: &'a [u8], order: ByteOrder, address: u32) -> &'a [u8] {
    let address = u64::from(address);
    if let (Ok(one), Ok(two)) = (read_table(older, order), read_table(newer, order)) {
        for table in [two, one] {
            if let Some(section) = last_covering(&table, address) {
                return &section.data[(address - section.address) as usize..];
            }
        }
    }
    &older[..0]
}

// The rescue of a cut table.

/// The bytes of the section that a part of a table begins with, pads included, if it
/// begins with a whole one: the size is not zero, nothing is cut short, and address
/// plus size is at most 2^32.
fn whole_section(part: &[u8], order: ByteOrder) -> Option<Vec<u8>> {
    // The two words are cut, or one of them is missing.
    if part.len() < 8 {
        return None;
    }
    let size = header_word(part, 0, order);
    let address = header_word(part, 4, order);
    let whole = 8 + size + pad_count(size);
    if size == 0 || whole > part.len() as u64 || address + size > TOP {
        return None;
    }
    Some(part[..whole as usize].to_vec())
}

/// The rescue: 4, 5 for the entry word alone, 10, 11. The result is the entry, the
/// whole sections that stand behind it up to the first fault, as they stand, and a
/// zero word.
pub fn rescue(table: &[u8], order: ByteOrder, output: &mut [u8]) -> RescueAnswer {
    let refused = |number: u64| RescueAnswer {
        number,
        ..Default::default()
    };
    // 4: over the limit.
    if table.len() > TABLE_LIMIT {
        return refused(4);
    }
    // 5: the entry word is missing or cut.
    if table.len() < 4 {
        return refused(5);
    }
    let (entry, mut rest) = table.split_at(4);
    let mut kept = Vec::new();
    while let Some(section) = whole_section(rest, order) {
        rest = &rest[section.len()..];
        kept.push(section);
    }
    let mut result = entry.to_vec();
    let mut used = entry.len();
    for section in &kept {
        result.extend(section);
        used += section.len();
    }
    // The table's own zero word is used where it has one there.
    let added = !rest.starts_with(&[0; 4]);
    result.extend([0; 4]);
    if !added {
        used += 4;
    }
    // 10: over the limit. 11: output shorter than the result.
    for (number, most) in [(10, TABLE_LIMIT), (11, output.len())] {
        if result.len() > most {
            return refused(number);
        }
    }
    // Output bytes past the result are not touched.
    for (i, byte) in result.iter().enumerate() {
        output[i] = *byte;
    }
    RescueAnswer {
        length: result.len() as u64,
        sections: kept.len() as u64,
        unused: (table.len() - used) as u64,
        added: u64::from(added),
        ..Default::default()
    }
}

// The configuration table.

/// The register values after a whole table and the count of its entries, or
/// the table's first fault.
fn run_config(table: &[u8], addresses: &[u32], values: &[u32]) -> Result<(Vec<u32>, u64), Refusal> {
    // 12: different lengths, more than 1,024, or addresses not strictly rising.
    let rising = addresses.windows(2).all(|pair| pair[0] < pair[1]);
    if addresses.len() != values.len() || addresses.len() > REGISTER_LIMIT || !rising {
        return refuse(12, 0);
    }
    // 13: over the limit.
    if table.len() > CONFIG_LIMIT {
        return refuse(13, 0);
    }
    let mut after = values.to_vec();
    let mut entries = 0;
    let mut at = 0;
    loop {
        // 14: the entry is missing or cut.
        if table.len() - at < 12 {
            return refuse(14, at);
        }
        let address = word(table, at) as u32;
        let set = word(table, at + 4) as u32;
        let clear = word(table, at + 8) as u32;
        if set == 0 && clear == 0 {
            if address != 0 {
                // 17: a branch is asked for.
                return refuse(17, at);
            }
            // 15: bytes after the end entry.
            if table.len() > at + 12 {
                return refuse(15, at + 12);
            }
            return Ok((after, entries));
        }
        // 16: the register is not in the list.
        let Some(index) = addresses.iter().position(|a| *a == address) else {
            return refuse(16, at);
        };
        // The clear bits are removed, then the set bits put in.
        after[index] = (after[index] & !clear) | set;
        entries += 1;
        at += 12;
    }
}

/// The configuration table: 12, 13, the first fault in order, 15 last.
pub fn configure(table: &[u8], addresses: &[u32], values: &mut [u32]) -> ConfigAnswer {
    match run_config(table, addresses, values) {
        Err(refusal) => ConfigAnswer {
            number: refusal.number,
            place: refusal.place,
            ..Default::default()
        },
        Ok((after, entries)) => {
            // The bits that differ between before and after the whole table.
            let mut bits = 0;
            for (before, now) in values.iter().zip(&after) {
                for bit in 0..32 {
                    if (before >> bit) & 1 != (now >> bit) & 1 {
                        bits += 1;
                    }
                }
            }
            values.copy_from_slice(&after);
            ConfigAnswer {
                entries,
                bits,
                ..Default::default()
            }
        }
    }
}

// The strap value.

/// Bits `high` to `low` as a number.
fn bits(value: u32, high: u32, low: u32) -> u64 {
    let mut number = 0;
    for bit in (low..=high).rev() {
        number = number * 2 + u64::from((value >> bit) & 1);
    }
    number
}

/// A strap value in the strict or the lenient manner: 18, then 19.
pub fn strap(value: u32, strict: bool) -> StrapAnswer {
    // 18: over 8,191.
    if value > STRAP_LIMIT {
        return StrapAnswer {
            number: 18,
            ..Default::default()
        };
    }
    let device = bits(value, 2, 0);
    let clock = bits(value, 12, 10);
    let sub_mode = bits(value, 6, 5);
    let passive = bits(value, 8, 8) == 1;
    // 19: sub-mode 2 or 3 in either manner, reserved bits in the strict one.
    let reserved_wrong = match device {
        0 => bits(value, 9, 8) != 0,
        4 => bits(value, 9, 9) != 0,
        5 if passive => bits(value, 9, 9) != 1 || bits(value, 4, 3) != 0,
        _ => false,
    };
    if (device == 0 && sub_mode >= 2) || (strict && reserved_wrong) {
        return StrapAnswer {
            number: 19,
            ..Default::default()
        };
    }
    let (kind, listed): (u64, Vec<u64>) = match device {
        // Sleep and EMIF16: SR index, wait, clock select.
        0 => (sub_mode, vec![bits(value, 4, 3), bits(value, 7, 7), clock]),
        // Undecoded link: device, bits 9:3, clock select.
        1 | 7 => (2, vec![device, bits(value, 9, 3), clock]),
        // Ethernet: device, clock multiplier, connection, device ID, clock select.
        2 | 3 => (
            3,
            vec![
                device,
                bits(value, 9, 8),
                bits(value, 7, 6),
                bits(value, 5, 3),
                clock,
            ],
        ),
        // PCIe: BAR, SR, clock select.
        4 => (4, vec![bits(value, 8, 5), bits(value, 4, 3), clock]),
        // I2C master: bits 12:3. I2C passive: address.
        5 if !passive => (5, vec![bits(value, 12, 3)]),
        5 => (6, vec![bits(value, 7, 5)]),
        // SPI: mode, five-pin, 24-bit address, chip select, table, SR.
        _ => (
            7,
            vec![
                bits(value, 12, 11),
                bits(value, 10, 10),
                bits(value, 9, 9),
                bits(value, 8, 7),
                bits(value, 6, 5),
                bits(value, 4, 3),
            ],
        ),
    };
    let mut fields = [0; 6];
    fields[..listed.len()].copy_from_slice(&listed);
    StrapAnswer {
        kind,
        fields,
        ..Default::default()
    }
}

/// The entry that names no manner is strict.
pub fn strap_short(value: u32) -> StrapAnswer {
    strap(value, true)
}

/// Whether two strap values have one kind and equal fields, in the lenient
/// manner; the first value's refusal comes before the second's.
pub fn strap_same(first: u32, second: u32) -> SameAnswer {
    let one = strap(first, false);
    let two = strap(second, false);
    for answer in [one, two] {
        if answer.number != 0 {
            return SameAnswer {
                number: answer.number,
                ..Default::default()
            };
        }
    }
    SameAnswer {
        same: u64::from(one.kind == two.kind && one.fields == two.fields),
        ..Default::default()
    }
}

/// The board label's number, in the lenient manner: the kind's place in the
/// document's table.
pub fn strap_label(value: u32) -> LabelAnswer {
    let answer = strap(value, false);
    LabelAnswer {
        number: answer.number,
        place: answer.place,
        label: answer.kind,
    }
}

// The listers.

/// The text that the lister of an order prints for its whole input.
pub fn listing(input: &[u8], order: ByteOrder) -> String {
    if input.len() > LISTER_LIMIT {
        return "too long\n".to_string();
    }
    match read_table(input, order) {
        Err(refusal) => format!("refused {} at {}\n", refusal.number, refusal.place),
        Ok(table) => {
            let mut text = format!("entry {:08x}\n", table.entry);
            for section in &table.sections {
                let size = section.data.len();
                text += &format!("section {:08x} {}\n", section.address, size);
            }
            text += &format!("end {} {}\n", table.sections.len(), table.data_bytes());
            text
        }
    }
}

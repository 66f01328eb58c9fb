//! Cases by name: the bench cards, what students write first, and bad inputs
//! one by one. Expected values are written by hand from document 01 as requests
//! 2, 7, 8 and 10 of document 02 mend it and from requests 1, 4 and 12, and both the
//! library and the reference must give them. Cases over boot tables are run in both
//! byte orders: cards 1 to 3 high first, with `p_and_q_low_first` and
//! `p_and_q_joined_low_first` as their counterparts low first.

use second::cases::{
    self, config, entries, header_word, list, map, p, padded_section, padded_table, record, table,
    turn_word, Numbers, P, P_LOW,
};
use second::reference::ByteOrder::{self, HighFirst, LowFirst};
use second::reference::{
    ConfigAnswer, FindAnswer, JoinAnswer, LabelAnswer, ListSection, LoadAnswer, MapAnswer,
    RescueAnswer, SameAnswer, StrapAnswer, WriteAnswer, TABLE_LIMIT,
};
use second::{calls, reference};

// Map M and table Q of the bench cards.
const M: [u8; 12] = [0x52, 0x47, 1, 0, 0, 0x80, 0, 0, 0, 0, 0, 0x10];
/// M with kind 3.
const M_3: [u8; 12] = [0x52, 0x47, 3, 0, 0, 0x80, 0, 0, 0, 0, 0, 0x10];
const Q: [u8; 20] = [
    0, 0x80, 0, 4, 0, 0, 0, 1, 0, 0x80, 0, 4, 0xB7, 0, 0, 0, 0, 0, 0, 0,
];
/// P with its pad byte 01.
const P_01: [u8; 20] = [
    0, 0x80, 0, 0, 0, 0, 0, 3, 0, 0x80, 0, 2, 0xA1, 0xA2, 0xA3, 1, 0, 0, 0, 0,
];
/// Q and P with its pad byte 01, low first.
const Q_LOW: [u8; 20] = [
    4, 0, 0x80, 0, 1, 0, 0, 0, 4, 0, 0x80, 0, 0xB7, 0, 0, 0, 0, 0, 0, 0,
];
const P_01_LOW: [u8; 20] = [
    0, 0, 0x80, 0, 3, 0, 0, 0, 2, 0, 0x80, 0, 0xA1, 0xA2, 0xA3, 1, 0, 0, 0, 0,
];
/// Memory for M: place i holds 0x60 plus i.
const MEMORY: [u8; 16] = [
    0x60, 0x61, 0x62, 0x63, 0x64, 0x65, 0x66, 0x67, 0x68, 0x69, 0x6A, 0x6B, 0x6C, 0x6D, 0x6E, 0x6F,
];

fn q(order: ByteOrder) -> &'static [u8; 20] {
    [&Q, &Q_LOW][order as usize]
}

fn p_01(order: ByteOrder) -> &'static [u8; 20] {
    [&P_01, &P_01_LOW][order as usize]
}

/// A table written out high first, in an order; `words` are the offsets of its
/// header words.
fn written<const N: usize>(mut high: [u8; N], words: &[usize], order: ByteOrder) -> [u8; N] {
    if order == LowFirst {
        for at in words {
            turn_word(&mut high, *at);
        }
    }
    high
}

type Judge = fn(&[u8], &[u8], ByteOrder) -> LoadAnswer;
type Load = fn(&[u8], &[u8], ByteOrder, &mut [u8]) -> LoadAnswer;
type Join = fn(&[u8], &[u8], ByteOrder, &mut [u8]) -> JoinAnswer;
type Write = fn(u32, &[ListSection], &[u8], ByteOrder, &mut [u8]) -> WriteAnswer;
type Find = fn(&[u8], &[u8], ByteOrder, u32) -> FindAnswer;
type Part = for<'a> fn(&'a [u8], &'a [u8], ByteOrder, u32) -> &'a [u8];
type Rescue = fn(&[u8], ByteOrder, &mut [u8]) -> RescueAnswer;
type Configure = fn(&[u8], &[u32], &mut [u32]) -> ConfigAnswer;

const LOADS: [(&str, Judge, Load); 2] = [
    ("library", calls::judge, calls::load),
    ("reference", reference::judge, reference::load),
];
const JOINS: [(&str, Join); 2] = [("library", calls::join), ("reference", reference::join)];
const WRITES: [(&str, Write); 2] = [("library", calls::write), ("reference", reference::write)];
const FINDS: [(&str, Find); 2] = [("library", calls::find), ("reference", reference::find)];
/// The library's own part is not in the archive: the wrapper cuts one by the answer of
/// the library's find, and only its choice of table can be wrong where that is right.
const PARTS: [(&str, Part); 2] = [("wrapper", calls::part), ("reference", reference::part)];
const RESCUES: [(&str, Rescue); 2] = [("library", calls::rescue), ("reference", reference::rescue)];
const CONFIGURES: [(&str, Configure); 2] = [
    ("library", calls::configure),
    ("reference", reference::configure),
];

fn accepted(entry: u64, entry_open: u64, sections: u64, bytes: u64) -> LoadAnswer {
    LoadAnswer {
        number: 0,
        place: 0,
        address: 0,
        entry,
        entry_open,
        sections,
        bytes,
    }
}

fn refused(number: u64, place: u64) -> LoadAnswer {
    not_open(number, place, 0)
}

fn not_open(number: u64, place: u64, address: u64) -> LoadAnswer {
    LoadAnswer {
        number,
        place,
        address,
        entry: 0,
        entry_open: 0,
        sections: 0,
        bytes: 0,
    }
}

fn map_gives(map: &[u8], number: u64, place: u64, bytes: u64) {
    let expected = MapAnswer {
        number,
        place,
        bytes,
    };
    assert_eq!(calls::map(map), expected, "library, map {map:02x?}");
    assert_eq!(reference::map(map), expected, "reference, map {map:02x?}");
}

/// Loads and judges; memory must go from `before` to `after`. Judging knows no
/// memory, so refusal 3 is loading's alone.
fn load_gives(
    map: &[u8],
    table: &[u8],
    order: ByteOrder,
    before: &[u8],
    expected: LoadAnswer,
    after: &[u8],
) {
    for (name, judge, load) in LOADS {
        let mut memory = before.to_vec();
        let answer = load(map, table, order, &mut memory);
        assert_eq!(answer, expected, "{name}, loading, {order:?}");
        assert_eq!(memory, after, "{name}, memory, {order:?}");
        if expected.number != 3 {
            let answer = judge(map, table, order);
            assert_eq!(answer, expected, "{name}, judging, {order:?}");
        }
    }
}

/// A refusal: memory stays as it was.
fn load_refuses(map: &[u8], table: &[u8], order: ByteOrder, memory: &[u8], expected: LoadAnswer) {
    load_gives(map, table, order, memory, expected, memory);
}

/// `MEMORY` with some places changed.
fn with(changes: &[(usize, u8)]) -> Vec<u8> {
    let mut memory = MEMORY.to_vec();
    for (place, byte) in changes {
        memory[*place] = *byte;
    }
    memory
}

fn joined(length: u64, sections: u64) -> JoinAnswer {
    JoinAnswer {
        number: 0,
        place: 0,
        table: 0,
        length,
        sections,
    }
}

fn join_refused(number: u64, place: u64, table: u64) -> JoinAnswer {
    JoinAnswer {
        number,
        place,
        table,
        length: 0,
        sections: 0,
    }
}

fn join_gives(
    first: &[u8],
    second: &[u8],
    order: ByteOrder,
    before: &[u8],
    expected: JoinAnswer,
    after: &[u8],
) {
    for (name, join) in JOINS {
        let mut output = before.to_vec();
        let answer = join(first, second, order, &mut output);
        assert_eq!(answer, expected, "{name}, join, {order:?}");
        assert!(output == after, "{name}, output, {order:?}");
    }
}

/// A refusal of the join: output stays as it was.
fn join_refuses(
    first: &[u8],
    second: &[u8],
    order: ByteOrder,
    output: &[u8],
    expected: JoinAnswer,
) {
    join_gives(first, second, order, output, expected, output);
}

/// A refusal of a table's form: in judging and loading, and on both sides of
/// the join.
fn form_refused(table: &[u8], order: ByteOrder, number: u64, place: u64) {
    load_refuses(&M, table, order, &MEMORY, refused(number, place));
    let output = [0xEE; 64];
    let answer = |side| join_refused(number, place, side);
    join_refuses(table, q(order), order, &output, answer(1));
    join_refuses(q(order), table, order, &output, answer(2));
}

fn write_accepted(length: u64, sections: u64) -> WriteAnswer {
    WriteAnswer {
        number: 0,
        place: 0,
        length,
        sections,
    }
}

fn write_refused(number: u64, place: u64) -> WriteAnswer {
    WriteAnswer {
        number,
        place,
        length: 0,
        sections: 0,
    }
}

#[track_caller]
fn write_gives(
    entry: u32,
    (list, data): (&[ListSection], &[u8]),
    order: ByteOrder,
    before: &[u8],
    expected: WriteAnswer,
    after: &[u8],
) {
    for (name, write) in WRITES {
        let mut output = before.to_vec();
        let answer = write(entry, list, data, order, &mut output);
        assert_eq!(answer, expected, "{name}, write, {order:?}");
        assert!(output == after, "{name}, output, {order:?}");
    }
}

/// A list is written over 0xEE, into an output of the table's length.
#[track_caller]
fn writes(
    entry: u32,
    (list, data): (&[ListSection], &[u8]),
    order: ByteOrder,
    sections: u64,
    after: &[u8],
) {
    let before = vec![0xEE; after.len()];
    let answer = write_accepted(after.len() as u64, sections);
    write_gives(entry, (list, data), order, &before, answer, after);
}

/// A refusal of a list, in both byte orders: output stays as it was.
#[track_caller]
fn write_refuses((list, data): (&[ListSection], &[u8]), output: &[u8], number: u64, place: u64) {
    for order in ByteOrder::BOTH {
        let expected = write_refused(number, place);
        write_gives(7, (list, data), order, output, expected, output);
    }
}

/// What is found at an address: the answer, and the very slice that the part must be.
#[track_caller]
fn find_gives(
    (older, newer): (&[u8], &[u8]),
    order: ByteOrder,
    address: u32,
    expected: FindAnswer,
    part: &[u8],
) {
    for (name, find) in FINDS {
        let answer = find(older, newer, order, address);
        assert_eq!(answer, expected, "{name}, {address:08x}, {order:?}");
    }
    for (name, find_part) in PARTS {
        let found = find_part(older, newer, order, address);
        assert_eq!(
            found.as_ptr_range(),
            part.as_ptr_range(),
            "{name}, part, {address:08x}, {order:?}"
        );
    }
}

/// These bytes stand at an address, in table 1 or 2 at an offset.
#[track_caller]
fn stands(
    (older, newer): (&[u8], &[u8]),
    order: ByteOrder,
    address: u32,
    (table, offset, bytes): (u64, u64, &[u8]),
    read: u64,
) {
    let expected = FindAnswer {
        number: 0,
        place: 0,
        table,
        offset,
        length: bytes.len() as u64,
        read,
    };
    let named = if table == 1 { older } else { newer };
    let part = &named[offset as usize..][..bytes.len()];
    assert!(part == bytes, "the bytes of the case, {address:08x}");
    find_gives((older, newer), order, address, expected, part);
}

/// Neither table covers an address.
#[track_caller]
fn nothing_stands((older, newer): (&[u8], &[u8]), order: ByteOrder, addresses: &[u32], read: u64) {
    let expected = FindAnswer {
        number: 0,
        place: 0,
        table: 0,
        offset: 0,
        length: 0,
        read,
    };
    for address in addresses {
        find_gives((older, newer), order, *address, expected, &older[..0]);
    }
}

/// A refusal of table 1 or 2, whatever the address is.
#[track_caller]
fn find_refuses(
    (older, newer): (&[u8], &[u8]),
    order: ByteOrder,
    number: u64,
    place: u64,
    table: u64,
) {
    let expected = FindAnswer {
        number,
        place,
        table,
        offset: 0,
        length: 0,
        read: 0,
    };
    for address in [0x0080_0002, 0x0080_0004, 0x0070_0000, 0, 0xFFFF_FFFF] {
        find_gives((older, newer), order, address, expected, &older[..0]);
    }
}

#[track_caller]
fn rescue_gives(
    table: &[u8],
    order: ByteOrder,
    before: &[u8],
    expected: RescueAnswer,
    after: &[u8],
) {
    for (name, rescue) in RESCUES {
        let mut output = before.to_vec();
        let answer = rescue(table, order, &mut output);
        assert_eq!(answer, expected, "{name}, rescue, {order:?}");
        assert!(output == after, "{name}, output, {order:?}");
    }
}

/// A table is rescued over 0xEE, into an output of the result's length: so many
/// sections are kept and so many bytes not used, and the zero word is added or not.
#[track_caller]
fn rescues(
    table: &[u8],
    order: ByteOrder,
    after: &[u8],
    (sections, unused, added): (u64, usize, bool),
) {
    let before = vec![0xEE; after.len()];
    let expected = RescueAnswer {
        number: 0,
        place: 0,
        length: after.len() as u64,
        sections,
        unused: unused as u64,
        added: u64::from(added),
    };
    rescue_gives(table, order, &before, expected, after);
}

/// A refusal of the rescue: output stays as it was.
#[track_caller]
fn rescue_refuses(table: &[u8], order: ByteOrder, output: &[u8], number: u64) {
    let expected = RescueAnswer {
        number,
        place: 0,
        length: 0,
        sections: 0,
        unused: 0,
        added: 0,
    };
    rescue_gives(table, order, output, expected, output);
}

fn configured(entries: u64, bits: u64) -> ConfigAnswer {
    ConfigAnswer {
        number: 0,
        place: 0,
        entries,
        bits,
    }
}

fn config_refused(number: u64, place: u64) -> ConfigAnswer {
    ConfigAnswer {
        number,
        place,
        entries: 0,
        bits: 0,
    }
}

fn config_gives(
    table: &[u8],
    addresses: &[u32],
    before: &[u32],
    expected: ConfigAnswer,
    after: &[u32],
) {
    for (name, configure) in CONFIGURES {
        let mut values = before.to_vec();
        assert_eq!(
            configure(table, addresses, &mut values),
            expected,
            "{name}, configure"
        );
        assert_eq!(values, after, "{name}, values");
    }
}

fn config_refuses(table: &[u8], addresses: &[u32], values: &[u32], number: u64, place: u64) {
    let expected = config_refused(number, place);
    config_gives(table, addresses, values, expected, values);
}

fn kind(kind: u64, fields: [u64; 6]) -> StrapAnswer {
    StrapAnswer {
        number: 0,
        place: 0,
        kind,
        fields,
    }
}

fn strap_refused(number: u64) -> StrapAnswer {
    StrapAnswer {
        number,
        place: 0,
        kind: 0,
        fields: [0; 6],
    }
}

/// What every strap call gives for a value, from its answers in the two manners.
/// The entry that names no manner is strict; the comparison, here of the value
/// with itself, and the label are lenient.
fn strap_gives(value: u32, strict: StrapAnswer, lenient: StrapAnswer) {
    let label = LabelAnswer {
        number: lenient.number,
        place: 0,
        label: lenient.kind,
    };
    assert_eq!(calls::strap(value, true), strict, "strict, {value}");
    assert_eq!(calls::strap(value, false), lenient, "lenient, {value}");
    assert_eq!(calls::strap_short(value), strict, "short, {value}");
    assert_eq!(calls::strap_label(value), label, "label, {value}");
    let named = format!("reference, {value}");
    assert_eq!(reference::strap(value, true), strict, "strict, {named}");
    assert_eq!(reference::strap(value, false), lenient, "lenient, {named}");
    assert_eq!(reference::strap_short(value), strict, "short, {named}");
    assert_eq!(reference::strap_label(value), label, "label, {named}");
    let decoded = u64::from(lenient.number == 0);
    same_gives(value, value, lenient.number, decoded);
}

/// The same for a value that both manners answer alike.
fn strap_gives_either(value: u32, expected: StrapAnswer) {
    strap_gives(value, expected, expected);
}

fn same_gives(first: u32, second: u32, number: u64, same: u64) {
    let expected = SameAnswer {
        number,
        place: 0,
        same,
    };
    assert_eq!(
        calls::strap_same(first, second),
        expected,
        "library, {first} and {second}"
    );
    assert_eq!(
        reference::strap_same(first, second),
        expected,
        "reference, {first} and {second}"
    );
}

// The bench cards.

#[test]
fn card_1_table_p_under_map_m() {
    let after = with(&[(2, 0xA1), (3, 0xA2), (4, 0xA3)]);
    load_gives(
        &M,
        &P,
        HighFirst,
        &MEMORY,
        accepted(0x0080_0000, 1, 1, 3),
        &after,
    );
}

#[test]
fn card_2_p_joined_with_q() {
    let result = [
        0, 0x80, 0, 4, 0, 0, 0, 3, 0, 0x80, 0, 2, 0xA1, 0xA2, 0xA3, 0, 0, 0, 0, 1, 0, 0x80, 0, 4,
        0xB7, 0, 0, 0, 0, 0, 0, 0,
    ];
    join_gives(&P, &Q, HighFirst, &[0xEE; 32], joined(32, 2), &result);
    let after = with(&[(2, 0xA1), (3, 0xA2), (4, 0xB7)]);
    let answer = accepted(0x0080_0004, 1, 2, 4);
    load_gives(&M, &result, HighFirst, &MEMORY, answer, &after);
}

#[test]
fn card_3_q_joined_with_p() {
    let result = [
        0, 0x80, 0, 0, 0, 0, 0, 1, 0, 0x80, 0, 4, 0xB7, 0, 0, 0, 0, 0, 0, 3, 0, 0x80, 0, 2, 0xA1,
        0xA2, 0xA3, 0, 0, 0, 0, 0,
    ];
    join_gives(&Q, &P, HighFirst, &[0xEE; 32], joined(32, 2), &result);
    let after = with(&[(2, 0xA1), (3, 0xA2), (4, 0xA3)]);
    let answer = accepted(0x0080_0000, 1, 2, 4);
    load_gives(&M, &result, HighFirst, &MEMORY, answer, &after);
}

#[test]
fn card_4_an_entry_word_and_a_zero_word() {
    for order in ByteOrder::BOTH {
        let open = written([0, 0x80, 0, 0x0F, 0, 0, 0, 0], &[0], order);
        let closed = written([0, 0x80, 0, 0x10, 0, 0, 0, 0], &[0], order);
        load_gives(
            &M,
            &open,
            order,
            &MEMORY,
            accepted(0x0080_000F, 1, 0, 0),
            &MEMORY,
        );
        load_gives(
            &M,
            &closed,
            order,
            &MEMORY,
            accepted(0x0080_0010, 0, 0, 0),
            &MEMORY,
        );
    }
}

#[test]
fn card_5_cut_and_lengthened() {
    for order in ByteOrder::BOTH {
        load_refuses(&M, &[], order, &MEMORY, refused(5, 0));
        load_refuses(&M, &p(order)[..19], order, &MEMORY, refused(5, 16));
        for more in [0, 1, 0xFF] {
            let longer = [&p(order)[..], &[more]].concat();
            load_refuses(&M, &longer, order, &MEMORY, refused(7, 20));
        }
    }
}

#[test]
fn card_6_p_with_its_pad_byte_01() {
    for order in ByteOrder::BOTH {
        // P's answer and P's memory.
        let after = with(&[(2, 0xA1), (3, 0xA2), (4, 0xA3)]);
        load_gives(
            &M,
            p_01(order),
            order,
            &MEMORY,
            accepted(0x0080_0000, 1, 1, 3),
            &after,
        );
    }
}

#[test]
fn card_6_joined_with_q_both_ways() {
    for order in ByteOrder::BOTH {
        // The byte 01 stands after A3, first at 15 and then at 27.
        let result = written(
            [
                0, 0x80, 0, 4, 0, 0, 0, 3, 0, 0x80, 0, 2, 0xA1, 0xA2, 0xA3, 1, 0, 0, 0, 1, 0, 0x80,
                0, 4, 0xB7, 0, 0, 0, 0, 0, 0, 0,
            ],
            &[0, 4, 8, 16, 20],
            order,
        );
        join_gives(
            p_01(order),
            q(order),
            order,
            &[0xEE; 32],
            joined(32, 2),
            &result,
        );
        let after = with(&[(2, 0xA1), (3, 0xA2), (4, 0xB7)]);
        let answer = accepted(0x0080_0004, 1, 2, 4);
        load_gives(&M, &result, order, &MEMORY, answer, &after);
        let result = written(
            [
                0, 0x80, 0, 0, 0, 0, 0, 1, 0, 0x80, 0, 4, 0xB7, 0, 0, 0, 0, 0, 0, 3, 0, 0x80, 0, 2,
                0xA1, 0xA2, 0xA3, 1, 0, 0, 0, 0,
            ],
            &[0, 4, 8, 16, 20],
            order,
        );
        join_gives(
            q(order),
            p_01(order),
            order,
            &[0xEE; 32],
            joined(32, 2),
            &result,
        );
        let after = with(&[(2, 0xA1), (3, 0xA2), (4, 0xA3)]);
        let answer = accepted(0x0080_0000, 1, 2, 4);
        load_gives(&M, &result, order, &MEMORY, answer, &after);
    }
}

#[test]
fn card_7_the_last_address_of_the_map() {
    for order in ByteOrder::BOTH {
        let one = table(0, &[(0x0080_000F, &[0xC1])], order);
        let two = table(0, &[(0x0080_000F, &[0xC1, 0xC2])], order);
        let after = with(&[(15, 0xC1)]);
        load_gives(&M, &one, order, &MEMORY, accepted(0, 0, 1, 1), &after);
        load_refuses(&M, &two, order, &MEMORY, not_open(9, 4, 0x0080_0010));
    }
}

#[test]
fn card_8_the_top_address() {
    for order in ByteOrder::BOTH {
        let one = table(0, &[(0xFFFF_FFFF, &[0xC1])], order);
        let two = table(0, &[(0xFFFF_FFFF, &[0xC1, 0xC2])], order);
        load_refuses(&M, &one, order, &MEMORY, not_open(9, 4, 0xFFFF_FFFF));
        load_refuses(&M, &two, order, &MEMORY, refused(8, 4));
        // A map that holds the top address takes size 1.
        let top = map(&[(1, 0xFFFF_FFF0, 16)]);
        let after = with(&[(15, 0xC1)]);
        load_gives(&top, &one, order, &MEMORY, accepted(0, 0, 1, 1), &after);
        load_refuses(&top, &two, order, &MEMORY, refused(8, 4));
    }
}

#[test]
fn card_9_set_and_clear() {
    let table = config(&[(0x0262_0000, 0x30, 0x03)]);
    config_gives(&table, &[0x0262_0000], &[0x0F], configured(1, 4), &[0x3C]);
}

#[test]
fn card_10_a_bit_in_both_masks() {
    let table = config(&[(0x0262_0000, 1, 1)]);
    config_gives(&table, &[0x0262_0000], &[0x0F], configured(1, 0), &[0x0F]);
}

#[test]
fn card_11_strap_7878() {
    strap_gives_either(7878, kind(7, [3, 1, 1, 1, 2, 0]));
}

#[test]
fn card_12_straps_160_416_64_8192() {
    let waiting = kind(1, [0, 1, 0, 0, 0, 0]);
    strap_gives_either(160, waiting);
    // Refused unless lenient is named; the comparison and the label name it.
    strap_gives(416, strap_refused(19), waiting);
    strap_gives_either(64, strap_refused(19));
    strap_gives_either(8192, strap_refused(18));
    for (value, number, same) in [(160, 0, 1), (416, 0, 1), (64, 19, 0), (8192, 18, 0)] {
        same_gives(160, value, number, same);
        same_gives(value, 160, number, same);
    }
}

// What students write first.

#[test]
fn near_sections_are_not_filled_between() {
    for order in ByteOrder::BOTH {
        // Three bytes apart: 2 to 4, then 8 and 9. Places 5 to 7 keep their bytes.
        let after = with(&[(2, 0xA1), (3, 0xA2), (4, 0xA3), (8, 0xD1), (9, 0xD2)]);
        let near = table(0x0080_0000, &[(0x0080_0008, &[0xD1, 0xD2])], order);
        let result = table(
            0x0080_0000,
            &[
                (0x0080_0002, &[0xA1, 0xA2, 0xA3]),
                (0x0080_0008, &[0xD1, 0xD2]),
            ],
            order,
        );
        join_gives(p(order), &near, order, &[0xEE; 32], joined(32, 2), &result);
        let answer = accepted(0x0080_0000, 1, 2, 5);
        load_gives(&M, &result, order, &MEMORY, answer, &after);
    }
}

#[test]
fn touching_sections_are_not_merged() {
    for order in ByteOrder::BOTH {
        let touching = table(0, &[(0x0080_0005, &[0xD1])], order);
        let result = table(
            0,
            &[(0x0080_0002, &[0xA1, 0xA2, 0xA3]), (0x0080_0005, &[0xD1])],
            order,
        );
        join_gives(
            p(order),
            &touching,
            order,
            &[0xEE; 32],
            joined(32, 2),
            &result,
        );
    }
}

#[test]
fn pads_are_not_stored() {
    for order in ByteOrder::BOTH {
        // P rounded up to four would put its pad at place 5: 00, or 01.
        for (name, _, load) in LOADS {
            for bytes in [p(order), p_01(order)] {
                let mut memory = MEMORY;
                assert_eq!(load(&M, bytes, order, &mut memory).bytes, 3, "{name}");
                assert_eq!(memory[5], 0x65, "{name}");
            }
        }
        // Sizes 1, 2 and 3 that end at the map's last address leave no room for a pad.
        for size in 1..=3 {
            let data = &[0xA1, 0xA2, 0xA3][..size];
            for pad in [0, 0xFF] {
                let pads = vec![pad; 4 - size];
                let last = padded_table(0, &[(0x0080_0010 - size as u32, data, &pads)], order);
                let mut after = MEMORY;
                after[16 - size..].copy_from_slice(data);
                let answer = accepted(0, 0, 1, size as u64);
                load_gives(&M, &last, order, &MEMORY, answer, &after);
            }
        }
    }
}

#[test]
fn an_address_does_not_come_round_at_zero() {
    for order in ByteOrder::BOTH {
        // In 32 bits 0xFFFFFFFF with size 2 would end at 1, and both bytes are open.
        let ends = map(&[(1, 0xFFFF_FFFF, 1), (1, 0, 4)]);
        let two = table(0, &[(0xFFFF_FFFF, &[0xC1, 0xC2])], order);
        load_refuses(&ends, &two, order, &MEMORY[..5], refused(8, 4));
        let one = table(0, &[(0xFFFF_FFFF, &[0xC1])], order);
        let after = [0xC1, 0x61, 0x62, 0x63, 0x64];
        load_gives(
            &ends,
            &one,
            order,
            &MEMORY[..5],
            accepted(0, 1, 1, 1),
            &after,
        );
    }
}

#[test]
fn a_fault_in_the_last_section_leaves_the_first_unstored() {
    for order in ByteOrder::BOTH {
        let first: (u32, &[u8]) = (0x0080_0002, &[0xA1, 0xA2, 0xA3]);
        let closed = table(0, &[first, (0x0080_0010, &[1])], order);
        load_refuses(&M, &closed, order, &MEMORY, not_open(9, 16, 0x0080_0010));
        let over = table(0, &[first, (0xFFFF_FFFF, &[1, 2])], order);
        load_refuses(&M, &over, order, &MEMORY, refused(8, 16));
        let cut = &table(0, &[first, (0x0080_0004, &[1])], order)[..27];
        load_refuses(&M, cut, order, &MEMORY, refused(5, 16));
        let longer = [&p(order)[..], &[0]].concat();
        load_refuses(&M, &longer, order, &MEMORY, refused(7, 20));
        // A pad that is not zero is no fault: both are stored.
        let mut pad = table(0, &[first, (0x0080_0004, &[1])], order);
        pad[27] = 1;
        let after = with(&[(2, 0xA1), (3, 0xA2), (4, 1)]);
        load_gives(&M, &pad, order, &MEMORY, accepted(0, 0, 2, 4), &after);
    }
}

#[test]
fn a_reserved_hole_in_the_middle_is_found() {
    for order in ByteOrder::BOTH {
        let hole = map(&[(1, 0x0080_0000, 16), (2, 0x0080_0003, 1)]);
        load_refuses(&hole, p(order), order, &MEMORY, not_open(9, 4, 0x0080_0003));
        // The reserved record may come before the permitted one.
        let before = map(&[(2, 0x0080_0003, 1), (1, 0x0080_0000, 16)]);
        load_refuses(
            &before,
            p(order),
            order,
            &MEMORY,
            not_open(9, 4, 0x0080_0003),
        );
        // A gap between two permitted records is one too.
        let gap = map(&[(1, 0x0080_0000, 3), (1, 0x0080_0004, 13)]);
        load_refuses(&gap, p(order), order, &MEMORY, not_open(9, 4, 0x0080_0003));
    }
}

#[test]
fn clear_comes_before_set() {
    for (name, configure) in CONFIGURES {
        let mut values = [0x0000_000F];
        configure(&config(&[(8, 1, 1)]), &[8], &mut values);
        assert_ne!(values, [0x0000_000E], "{name}");
        assert_eq!(values, [0x0000_000F], "{name}");
    }
}

// Maps.

#[test]
fn an_empty_map() {
    map_gives(&[], 0, 0, 0);
    for order in ByteOrder::BOTH {
        let none = written([0, 0x80, 0, 0, 0, 0, 0, 0], &[0], order);
        load_gives(&[], &none, order, &[], accepted(0x0080_0000, 0, 0, 0), &[]);
        load_refuses(&[], p(order), order, &[], not_open(9, 4, 0x0080_0002));
        load_refuses(&[], p(order), order, &[7], refused(3, 0));
    }
}

#[test]
fn an_empty_table_and_an_empty_memory() {
    for order in ByteOrder::BOTH {
        load_refuses(&M, &[], order, &MEMORY, refused(5, 0));
        load_refuses(&[], &[], order, &[], refused(5, 0));
        load_refuses(&M, p(order), order, &[], refused(3, 0));
        // 3 comes before the table's faults.
        load_refuses(&M, &[], order, &[], refused(3, 0));
    }
}

#[test]
fn maps_of_64_records_and_more() {
    let ones: Vec<(u8, u32, u32)> = (0..65).map(|i| (1, 0x1000 + 2 * i, 1)).collect();
    map_gives(&map(&ones[..64]), 0, 0, 64);
    map_gives(&map(&ones), 1, 0, 0);
    let mut longer = map(&ones[..64]);
    assert_eq!(longer.len(), 768);
    longer.push(0x52);
    map_gives(&longer, 1, 0, 0);
    map_gives(&longer[..767], 1, 0, 0);
    // A fault in the last record.
    let mut wrong = ones[..64].to_vec();
    wrong[63].2 = 0;
    map_gives(&map(&wrong), 2, 63, 0);
    for order in ByteOrder::BOTH {
        load_refuses(&longer, p(order), order, &MEMORY, refused(1, 0));
        // The last record's byte stands at place 63.
        let last = table(0, &[(0x1000 + 2 * 63, &[0xC1])], order);
        let before = [0x77; 64];
        let mut after = before;
        after[63] = 0xC1;
        let answer = accepted(0, 0, 1, 1);
        load_gives(&map(&ones[..64]), &last, order, &before, answer, &after);
    }
}

#[test]
fn a_map_cut_at_every_length() {
    let whole = map(&[(1, 0, 5), (2, 0, 2), (1, 5, 6)]);
    for length in 0..whole.len() {
        match length {
            0 => map_gives(&whole[..length], 0, 0, 0),
            12 | 24 => map_gives(&whole[..length], 0, 0, 5),
            _ => map_gives(&whole[..length], 1, 0, 0),
        }
    }
    map_gives(&whole, 0, 0, 11);
}

#[test]
fn records_with_one_field_wrong() {
    for kind in [1, 2, 3] {
        let sum = if kind == 2 { 16 } else { 20 };
        let around = |middle: &[u8]| [&M[..], middle, &record(1, 0x100, 0)].concat();
        let right = record(kind, 0x0090_0000, 4);
        map_gives(&[&M[..], &right].concat(), 0, 0, sum);
        // The third record is at fault too; the first fault is answered.
        map_gives(&around(&right), 2, 2, 0);
        for (at, allowed) in [
            (0, vec![0x52]),
            (1, vec![0x47]),
            (2, vec![1, 2, 3]),
            (3, vec![0]),
        ] {
            for byte in 0..=255 {
                let mut middle = right.clone();
                middle[at] = byte;
                let place = if allowed.contains(&byte) { 2 } else { 1 };
                let regions = around(&middle);
                map_gives(&regions, 2, place, 0);
                for order in ByteOrder::BOTH {
                    load_refuses(&regions, p(order), order, &MEMORY, refused(2, place));
                }
            }
        }
        map_gives(&around(&record(kind, 0x0090_0000, 0)), 2, 1, 0);
        map_gives(&around(&record(kind, 0, 0)), 2, 1, 0);
        map_gives(&around(&record(kind, 0xFFFF_FFFF, 2)), 2, 1, 0);
        map_gives(&around(&record(kind, 0xFFFF_FFFF, 0xFFFF_FFFF)), 2, 1, 0);
        map_gives(&record(kind, 2, 0xFFFF_FFFF), 2, 0, 0);
        map_gives(&record(kind, 0x8000_0000, 0x8000_0001), 2, 0, 0);
    }
}

#[test]
fn permitted_records_touching_overlapping_equal() {
    map_gives(&map(&[(1, 100, 10), (1, 110, 5)]), 0, 0, 15);
    map_gives(&map(&[(1, 110, 5), (1, 100, 10)]), 0, 0, 15);
    map_gives(&map(&[(1, 100, 10), (1, 109, 5)]), 2, 1, 0);
    map_gives(&map(&[(1, 109, 5), (1, 100, 10)]), 2, 1, 0);
    map_gives(&map(&[(1, 100, 10), (1, 100, 10)]), 2, 1, 0);
    map_gives(&map(&[(1, 100, 10), (1, 104, 1)]), 2, 1, 0);
    map_gives(&map(&[(1, 104, 1), (1, 100, 10)]), 2, 1, 0);
    // Not the neighbour but the first of three.
    map_gives(&map(&[(1, 100, 10), (1, 200, 10), (1, 95, 6)]), 2, 2, 0);
    map_gives(&map(&[(1, 100, 10), (1, 200, 10), (1, 95, 5)]), 0, 0, 25);
    // A reserved record between them takes no part in this.
    map_gives(&map(&[(1, 100, 10), (2, 100, 10), (1, 110, 1)]), 0, 0, 11);
}

#[test]
fn permitted_records_that_end_at_the_top() {
    map_gives(&map(&[(1, 0xFFFF_FFFF, 1)]), 0, 0, 1);
    map_gives(&map(&[(1, 1, 0xFFFF_FFFF)]), 0, 0, 0xFFFF_FFFF);
    map_gives(&map(&[(1, 1, 0xFFFF_FFFF), (1, 0, 2)]), 2, 1, 0);
    // All addresses: the sum is 2^32.
    let all = map(&[(1, 1, 0xFFFF_FFFF), (1, 0, 1)]);
    map_gives(&all, 0, 0, 0x1_0000_0000);
    for order in ByteOrder::BOTH {
        load_refuses(&all, p(order), order, &MEMORY, refused(3, 0));
        for (name, judge, _) in LOADS {
            assert_eq!(
                judge(&all, p(order), order),
                accepted(0x0080_0000, 1, 1, 3),
                "{name}"
            );
        }
    }
}

#[test]
fn reserved_records_over_everything() {
    // Reserved records alone ask for no memory.
    map_gives(&map(&[(2, 0, 0xFFFF_FFFF), (2, 5, 5)]), 0, 0, 0);
    let over = map(&[
        (2, 0, 0xFFFF_FFFF),
        (1, 0x0080_0000, 16),
        (2, 0xFFFF_FFFF, 1),
        (2, 0, 0xFFFF_FFFF),
    ]);
    map_gives(&over, 0, 0, 16);
    for order in ByteOrder::BOTH {
        load_refuses(&over, p(order), order, &MEMORY, not_open(9, 4, 0x0080_0002));
        let none = table(0x0080_0000, &[], order);
        load_gives(
            &over,
            &none,
            order,
            &MEMORY,
            accepted(0x0080_0000, 0, 0, 0),
            &MEMORY,
        );
    }
}

// Boot tables.

#[test]
fn a_table_cut_at_every_length() {
    for order in ByteOrder::BOTH {
        for length in 0..20 {
            let place = match length {
                0..=3 => 0,
                4..=15 => 4,
                _ => 16,
            };
            load_refuses(&M, &p(order)[..length], order, &MEMORY, refused(5, place));
        }
        let two = table(
            0,
            &[(0x0080_0002, &[0xA1, 0xA2, 0xA3]), (0x0080_0004, &[0xB7])],
            order,
        );
        assert_eq!(two.len(), 32);
        for length in 0..32 {
            let place = match length {
                0..=3 => 0,
                4..=15 => 4,
                16..=27 => 16,
                _ => 28,
            };
            load_refuses(&M, &two[..length], order, &MEMORY, refused(5, place));
        }
    }
}

#[test]
fn a_size_word_larger_than_the_table() {
    for order in ByteOrder::BOTH {
        for size in [
            4u32,
            5,
            8,
            0x7FFF_FFFF,
            0xFFFF_FFF8,
            0xFFFF_FFFD,
            0xFFFF_FFFF,
        ] {
            let mut bytes = *p(order);
            bytes[4..8].copy_from_slice(&header_word(size, order));
            // Size 4 takes the pad byte as data. With 5 to 8 the section takes the
            // end word too, and the end word at 20 is missing.
            let expected = match size {
                4 => accepted(0x0080_0000, 1, 1, 4),
                5 | 8 => refused(5, 20),
                _ => refused(5, 4),
            };
            let after = match size {
                4 => with(&[(2, 0xA1), (3, 0xA2), (4, 0xA3), (5, 0)]),
                _ => MEMORY.to_vec(),
            };
            load_gives(&M, &bytes, order, &MEMORY, expected, &after);
        }
        // In one section 5 comes before 8: the address would run past the top.
        let mut bytes = *p(order);
        bytes[4..12].fill(0xFF);
        load_refuses(&M, &bytes, order, &MEMORY, refused(5, 4));
    }
}

#[test]
fn a_size_one_off_at_the_top() {
    for order in ByteOrder::BOTH {
        // The largest size that the top allows, and one more.
        for (address, size, fits) in [
            (0xFFFF_FFFF, 1, true),
            (0xFFFF_FFFF, 2, false),
            (0xFFFF_FFFC, 4, true),
            (0xFFFF_FFFC, 5, false),
        ] {
            let bytes = table(0, &[(address, &vec![0x3C; size])], order);
            let expected = match fits {
                true => not_open(9, 4, u64::from(address)),
                false => refused(8, 4),
            };
            load_refuses(&M, &bytes, order, &MEMORY, expected);
        }
    }
}

#[test]
fn form_comes_before_the_map_rule() {
    for order in ByteOrder::BOTH {
        // The first section is not open; behind it the form has a fault.
        let mut bytes = table(0, &[(0x0070_0000, &[1]), (0x0080_0000, &[2])], order);
        load_refuses(&M, &bytes, order, &MEMORY, not_open(9, 4, 0x0070_0000));
        // A pad that is not zero is none.
        bytes[27] = 1;
        load_refuses(&M, &bytes, order, &MEMORY, not_open(9, 4, 0x0070_0000));
        load_refuses(&M, &bytes[..27], order, &MEMORY, refused(5, 16));
        load_refuses(&M, &bytes[..31], order, &MEMORY, refused(5, 28));
        let longer = [&bytes[..], &[1]].concat();
        load_refuses(&M, &longer, order, &MEMORY, refused(7, 32));
        let over = table(0, &[(0x0070_0000, &[1]), (0xFFFF_FFFF, &[2, 3])], order);
        load_refuses(&M, &over, order, &MEMORY, refused(8, 16));
        // The first fault in table order: 8 in the first, 5 in the second.
        let both = table(0, &[(0xFFFF_FFFF, &[2, 3]), (0x0080_0000, &[1])], order);
        load_refuses(&M, &both[..27], order, &MEMORY, refused(8, 4));
    }
}

// Pads.

#[test]
fn each_pad_byte_may_hold_anything() {
    for order in ByteOrder::BOTH {
        for size in 1..=4 {
            let data = &[0xC1, 0xC2, 0xC3, 0xC4][..size];
            let zero = table(0, &[(0x0080_0000, data)], order);
            let mut after = MEMORY;
            after[..size].copy_from_slice(data);
            let answer = accepted(0, 0, 1, size as u64);
            load_gives(&M, &zero, order, &MEMORY, answer, &after);
            // One byte that is not zero, in each of the three, two or one places.
            for at in 12 + size..16 {
                for byte in 1..=255 {
                    let mut bytes = zero.clone();
                    bytes[at] = byte;
                    load_gives(&M, &bytes, order, &MEMORY, answer, &after);
                }
            }
        }
    }
}

#[test]
fn pads_of_ff() {
    for order in ByteOrder::BOTH {
        // Sizes 1 to 4 with three, two, one and no pads.
        let bytes = written(
            [
                0, 0x80, 0, 0, 0, 0, 0, 1, 0, 0x80, 0, 0, 0xA1, 0xFF, 0xFF, 0xFF, 0, 0, 0, 2, 0,
                0x80, 0, 4, 0xB1, 0xB2, 0xFF, 0xFF, 0, 0, 0, 3, 0, 0x80, 0, 8, 0xC1, 0xC2, 0xC3,
                0xFF, 0, 0, 0, 4, 0, 0x80, 0, 0x0B, 0xD1, 0xD2, 0xD3, 0xD4, 0, 0, 0, 0,
            ],
            &[0, 4, 8, 16, 20, 28, 32, 40, 44],
            order,
        );
        let zero = table(
            0x0080_0000,
            &[
                (0x0080_0000, &[0xA1]),
                (0x0080_0004, &[0xB1, 0xB2]),
                (0x0080_0008, &[0xC1, 0xC2, 0xC3]),
                (0x0080_000B, &[0xD1, 0xD2, 0xD3, 0xD4]),
            ],
            order,
        );
        let after = [
            0xA1, 0x61, 0x62, 0x63, 0xB1, 0xB2, 0x66, 0x67, 0xC1, 0xC2, 0xC3, 0xD1, 0xD2, 0xD3,
            0xD4, 0x6F,
        ];
        let answer = accepted(0x0080_0000, 1, 4, 10);
        load_gives(&M, &bytes, order, &MEMORY, answer, &after);
        load_gives(&M, &zero, order, &MEMORY, answer, &after);
    }
}

#[test]
fn pads_cut_after_0_1_and_2_of_3_bytes() {
    for order in ByteOrder::BOTH {
        // Size 1 asks for three pads; the data byte stands at 12 and at 24.
        for pads in [[0, 0, 0], [0xFF, 0xFF, 0xFF], [0, 1, 0]] {
            let first = padded_table(0x0080_0000, &[(0x0080_0002, &[0xA1], &pads)], order);
            let second = [&p_01(order)[..16], &first[4..]].concat();
            for there in 0..3 {
                form_refused(&first[..13 + there], order, 5, 4);
                form_refused(&second[..25 + there], order, 5, 16);
            }
            let after = with(&[(2, 0xA1)]);
            let answer = accepted(0x0080_0000, 1, 1, 1);
            load_gives(&M, &first, order, &MEMORY, answer, &after);
        }
    }
}

#[test]
fn pads_cut_after_data_of_every_size() {
    for order in ByteOrder::BOTH {
        // Sizes 1 to 8, each cut after none to all but one of its pads.
        for size in 1..=8 {
            let data = &[0xC5; 8][..size];
            let pads = &[0xFF; 3][..(8 - size) % 4];
            let bytes = padded_table(0, &[(0x0080_0000, data, pads)], order);
            for there in 0..pads.len() {
                form_refused(&bytes[..12 + size + there], order, 5, 4);
            }
            // With all pads only the zero word is missing.
            let end = 12 + size + pads.len();
            form_refused(&bytes[..end], order, 5, end as u64);
        }
    }
}

#[test]
fn pads_as_the_last_bytes_of_a_table() {
    for order in ByteOrder::BOTH {
        // The zero word should stand at 16; zero pads do not stand for it.
        for pads in [[0, 0, 0], [0xFF, 0xFF, 0xFF], [1, 0, 0]] {
            let bytes = padded_table(0x0080_0000, &[(0x0080_0002, &[0xA1], &pads)], order);
            for there in 0..4 {
                form_refused(&bytes[..16 + there], order, 5, 16);
            }
        }
        form_refused(&p(order)[..16], order, 5, 16);
        form_refused(&p_01(order)[..16], order, 5, 16);
    }
}

#[test]
fn a_size_that_needs_no_pads() {
    for order in ByteOrder::BOTH {
        // Sizes 4 and 8: the word after the data is the next header.
        let bytes = written(
            [
                0, 0x80, 0, 0, 0, 0, 0, 4, 0, 0x80, 0, 0, 0xC1, 0xC2, 0xC3, 0xC4, 0, 0, 0, 8, 0,
                0x80, 0, 8, 0xD1, 0xD2, 0xD3, 0xD4, 0xD5, 0xD6, 0xD7, 0xD8, 0, 0, 0, 1, 0, 0x80, 0,
                6, 0xE1, 0xFF, 0xFF, 0xFF, 0, 0, 0, 0,
            ],
            &[0, 4, 8, 16, 20, 32, 36],
            order,
        );
        let after = [
            0xC1, 0xC2, 0xC3, 0xC4, 0x64, 0x65, 0xE1, 0x67, 0xD1, 0xD2, 0xD3, 0xD4, 0xD5, 0xD6,
            0xD7, 0xD8,
        ];
        let answer = accepted(0x0080_0000, 1, 3, 13);
        load_gives(&M, &bytes, order, &MEMORY, answer, &after);
        // Four bytes 0xFF there are no pads but a size word, and its section is cut.
        form_refused(&[&bytes[..16], &[0xFF; 4], &[0; 4]].concat(), order, 5, 16);
        // Four zero bytes there are no pads but the zero word.
        form_refused(&[&bytes[..16], &[0; 4], &[0; 4]].concat(), order, 7, 20);
    }
}

#[test]
fn an_address_over_the_top_or_not_open_whatever_the_pads_hold() {
    for order in ByteOrder::BOTH {
        for pad in [0, 1, 9, 0xFF] {
            let over = padded_table(0, &[(0xFFFF_FFFE, &[1, 2, 3], &[pad])], order);
            form_refused(&over, order, 8, 4);
            let top = padded_table(0, &[(0xFFFF_FFFD, &[1, 2, 3], &[pad])], order);
            load_refuses(&M, &top, order, &MEMORY, not_open(9, 4, 0xFFFF_FFFD));
            let last = padded_table(0, &[(0x0080_000F, &[1, 2], &[pad, pad])], order);
            load_refuses(&M, &last, order, &MEMORY, not_open(9, 4, 0x0080_0010));
            // A cut section is 5 before it is 8.
            form_refused(&over[..15], order, 5, 4);
        }
    }
}

#[test]
fn a_fault_behind_pads_that_are_not_zero() {
    for order in ByteOrder::BOTH {
        let first: (u32, &[u8], &[u8]) = (0x0080_0002, &[0xA1], &[0xFF, 0, 1]);
        let bytes = padded_table(0, &[first, (0x0080_0004, &[1, 2], &[3, 4])], order);
        assert_eq!(bytes.len(), 32);
        let after = with(&[(2, 0xA1), (4, 1), (5, 2)]);
        load_gives(&M, &bytes, order, &MEMORY, accepted(0, 0, 2, 3), &after);
        // 5 in the second section and in the zero word, 7 behind it.
        for length in 16..28 {
            form_refused(&bytes[..length], order, 5, 16);
        }
        for length in 28..32 {
            form_refused(&bytes[..length], order, 5, 28);
        }
        form_refused(&[&bytes[..], &[0]].concat(), order, 7, 32);
        // 8 and 9 in the second section.
        let over = padded_table(0, &[first, (0xFFFF_FFFF, &[1, 2], &[3, 4])], order);
        form_refused(&over, order, 8, 16);
        let closed = padded_table(0, &[first, (0x0080_000F, &[1, 2], &[3, 4])], order);
        load_refuses(&M, &closed, order, &MEMORY, not_open(9, 16, 0x0080_0010));
        // The first section is not open, and the second is past the top.
        let both = padded_table(
            0,
            &[
                (0x0070_0000, &[1], &[0xFF; 3]),
                (0xFFFF_FFFF, &[1, 2], &[3, 4]),
            ],
            order,
        );
        load_refuses(&M, &both, order, &MEMORY, refused(8, 16));
    }
}

#[test]
fn two_sections_with_different_pads_swapped() {
    for order in ByteOrder::BOTH {
        // The sections share no address: the same answer and the same memory.
        let bytes = written(
            [
                0, 0x80, 0, 0, 0, 0, 0, 3, 0, 0x80, 0, 2, 0xA1, 0xA2, 0xA3, 1, 0, 0, 0, 1, 0, 0x80,
                0, 8, 0xB7, 0xFF, 2, 3, 0, 0, 0, 0,
            ],
            &[0, 4, 8, 16, 20],
            order,
        );
        let swapped = written(
            [
                0, 0x80, 0, 0, 0, 0, 0, 1, 0, 0x80, 0, 8, 0xB7, 0xFF, 2, 3, 0, 0, 0, 3, 0, 0x80, 0,
                2, 0xA1, 0xA2, 0xA3, 1, 0, 0, 0, 0,
            ],
            &[0, 4, 8, 16, 20],
            order,
        );
        let after = with(&[(2, 0xA1), (3, 0xA2), (4, 0xA3), (8, 0xB7)]);
        let answer = accepted(0x0080_0000, 1, 2, 4);
        load_gives(&M, &bytes, order, &MEMORY, answer, &after);
        load_gives(&M, &swapped, order, &MEMORY, answer, &after);
        // Each is the join of two tables with one section, pads as they stand.
        let other = written(
            [
                0, 0x80, 0, 0, 0, 0, 0, 1, 0, 0x80, 0, 8, 0xB7, 0xFF, 2, 3, 0, 0, 0, 0,
            ],
            &[0, 4, 8],
            order,
        );
        join_gives(
            p_01(order),
            &other,
            order,
            &[0xEE; 32],
            joined(32, 2),
            &bytes,
        );
        join_gives(
            &other,
            p_01(order),
            order,
            &[0xEE; 32],
            joined(32, 2),
            &swapped,
        );
        // They share 0x00800004 and agree there.
        let shared: [(u32, &[u8], &[u8]); 2] = [
            (0x0080_0002, &[0xA1, 0xA2, 0xA3], &[0xFF]),
            (0x0080_0004, &[0xA3], &[7, 8, 9]),
        ];
        let after = with(&[(2, 0xA1), (3, 0xA2), (4, 0xA3)]);
        let answer = accepted(0, 0, 2, 4);
        load_gives(
            &M,
            &padded_table(0, &shared, order),
            order,
            &MEMORY,
            answer,
            &after,
        );
        let exchanged = [shared[1], shared[0]];
        load_gives(
            &M,
            &padded_table(0, &exchanged, order),
            order,
            &MEMORY,
            answer,
            &after,
        );
    }
}

#[test]
fn the_map_comes_before_memory_and_table() {
    for order in ByteOrder::BOTH {
        let wrong = map(&[(1, 0x0080_0000, 0)]);
        load_refuses(&wrong, &[], order, &[], refused(2, 0));
        load_refuses(&wrong, p(order), order, &MEMORY, refused(2, 0));
        load_refuses(&M[..11], &[], order, &[], refused(1, 0));
    }
}

#[test]
fn memory_one_byte_short_and_one_long() {
    for order in ByteOrder::BOTH {
        load_refuses(&M, p(order), order, &MEMORY[..15], refused(3, 0));
        let long = [&MEMORY[..], &[0x70]].concat();
        load_refuses(&M, p(order), order, &long, refused(3, 0));
    }
}

#[test]
fn a_section_across_two_touching_records() {
    for order in ByteOrder::BOTH {
        // The higher record comes first in the map, so its bytes come first in memory.
        let falling = map(&[(1, 0x0080_0008, 8), (1, 0x0080_0000, 8)]);
        let across = table(
            0x0080_0007,
            &[(0x0080_0006, &[0xD0, 0xD1, 0xD2, 0xD3])],
            order,
        );
        let after = with(&[(14, 0xD0), (15, 0xD1), (0, 0xD2), (1, 0xD3)]);
        let answer = accepted(0x0080_0007, 1, 1, 4);
        load_gives(&falling, &across, order, &MEMORY, answer, &after);
        // Over all of both.
        let data: Vec<u8> = (0x80..0x90).collect();
        let whole = table(0, &[(0x0080_0000, &data)], order);
        let after = [&data[8..], &data[..8]].concat();
        load_gives(
            &falling,
            &whole,
            order,
            &MEMORY,
            accepted(0, 0, 1, 16),
            &after,
        );
        // A reserved record between the permitted ones takes no place in memory.
        let between = map(&[(1, 0x0080_0008, 8), (2, 0, 9), (1, 0x0080_0000, 8)]);
        load_gives(
            &between,
            &whole,
            order,
            &MEMORY,
            accepted(0, 0, 1, 16),
            &after,
        );
    }
}

#[test]
fn the_later_section_wins() {
    for order in ByteOrder::BOTH {
        let shared = table(
            0,
            &[
                (0x0080_0004, &[1, 1, 1, 1]),
                (0x0080_0002, &[2, 2, 2]),
                (0x0080_0006, &[3]),
                (0x0080_0004, &[4]),
            ],
            order,
        );
        let after = with(&[(2, 2), (3, 2), (4, 4), (5, 1), (6, 3), (7, 1)]);
        load_gives(&M, &shared, order, &MEMORY, accepted(0, 0, 4, 9), &after);
    }
}

#[test]
fn boot_tables_at_and_over_the_limit() {
    for order in ByteOrder::BOTH {
        let data = vec![0xC4; TABLE_LIMIT - 16];
        let mut large = table(0, &[(0x2000_0000, &data)], order);
        assert_eq!(large.len(), TABLE_LIMIT);
        let wide = map(&[(1, 0x2000_0000, TABLE_LIMIT as u32 - 16)]);
        for (name, judge, load) in LOADS {
            let answer = accepted(0, 0, 1, TABLE_LIMIT as u64 - 16);
            assert_eq!(judge(&wide, &large, order), answer, "{name}");
            let mut memory = vec![0x11; TABLE_LIMIT - 16];
            assert_eq!(load(&wide, &large, order, &mut memory), answer, "{name}");
            assert!(memory == data, "{name}");
        }
        large.push(0);
        load_refuses(&M, &large, order, &MEMORY, refused(4, 0));
        // As many sections of one byte as the limit takes.
        let count = (TABLE_LIMIT - 8) / 12;
        let mut many = vec![0; 4];
        for i in 0..count {
            let address = 0x0080_0000 + (i % 16) as u32;
            let pads = [0xFF, (i % 7) as u8, 1];
            many.extend(padded_section(address, &[(i % 251) as u8], &pads, order));
        }
        many.extend([0; 4]);
        let mut after = [0; 16];
        for i in count - 16..count {
            after[i % 16] = (i % 251) as u8;
        }
        let answer = accepted(0, 0, count as u64, count as u64);
        load_gives(&M, &many, order, &MEMORY, answer, &after);
    }
}

// The join.

#[test]
fn join_outputs_exact_short_empty_and_longer() {
    for order in ByteOrder::BOTH {
        let result = [&q(order)[..4], &p(order)[4..16], &q(order)[4..20]].concat();
        join_gives(
            p(order),
            q(order),
            order,
            &[0xEE; 32],
            joined(32, 2),
            &result,
        );
        for length in 0..32 {
            let output = vec![0xEE; length];
            join_refuses(p(order), q(order), order, &output, join_refused(11, 0, 0));
        }
        for more in [1, 2, 3, 4, 100] {
            let after = [&result[..], &vec![0xEE; more]].concat();
            join_gives(
                p(order),
                q(order),
                order,
                &vec![0xEE; 32 + more],
                joined(32, 2),
                &after,
            );
        }
    }
}

#[test]
fn joins_with_a_table_without_sections() {
    for order in ByteOrder::BOTH {
        let none = table(0x0090_0000, &[], order);
        join_gives(&none, p(order), order, &[0xEE; 20], joined(20, 1), p(order));
        let mut entry_changed = *p(order);
        entry_changed[..4].copy_from_slice(&header_word(0x0090_0000, order));
        join_gives(
            p(order),
            &none,
            order,
            &[0xEE; 20],
            joined(20, 1),
            &entry_changed,
        );
        join_gives(
            &table(1, &[], order),
            &none,
            order,
            &[0xEE; 8],
            joined(8, 0),
            &none,
        );
        // The pad byte 01 stays.
        join_gives(
            &none,
            p_01(order),
            order,
            &[0xEE; 20],
            joined(20, 1),
            p_01(order),
        );
        entry_changed[15] = 1;
        join_gives(
            p_01(order),
            &none,
            order,
            &[0xEE; 20],
            joined(20, 1),
            &entry_changed,
        );
    }
}

#[test]
fn joins_keep_pads_as_they_stand() {
    for order in ByteOrder::BOTH {
        let first = written(
            [
                0, 0, 0, 1, 0, 0, 0, 1, 0, 0, 0, 0x10, 0xA1, 0xF1, 0xF2, 0xF3, 0, 0, 0, 2, 0, 0, 0,
                0x20, 0xA2, 0xA3, 0xF4, 0, 0, 0, 0, 0,
            ],
            &[0, 4, 8, 16, 20],
            order,
        );
        let second = written(
            [
                0, 0, 0, 2, 0, 0, 0, 3, 0, 0, 0, 0x30, 0xB1, 0xB2, 0xB3, 0xFF, 0, 0, 0, 4, 0, 0, 0,
                0x40, 0xB4, 0xB5, 0xB6, 0xB7, 0, 0, 0, 1, 0, 0, 0, 0x50, 0xB8, 0, 0, 1, 0, 0, 0, 0,
            ],
            &[0, 4, 8, 16, 20, 28, 32],
            order,
        );
        let result = written(
            [
                0, 0, 0, 2, 0, 0, 0, 1, 0, 0, 0, 0x10, 0xA1, 0xF1, 0xF2, 0xF3, 0, 0, 0, 2, 0, 0, 0,
                0x20, 0xA2, 0xA3, 0xF4, 0, 0, 0, 0, 3, 0, 0, 0, 0x30, 0xB1, 0xB2, 0xB3, 0xFF, 0, 0,
                0, 4, 0, 0, 0, 0x40, 0xB4, 0xB5, 0xB6, 0xB7, 0, 0, 0, 1, 0, 0, 0, 0x50, 0xB8, 0, 0,
                1, 0, 0, 0, 0,
            ],
            &[0, 4, 8, 16, 20, 28, 32, 40, 44, 52, 56],
            order,
        );
        join_gives(&first, &second, order, &[0xEE; 68], joined(68, 5), &result);
        let result = written(
            [
                0, 0, 0, 1, 0, 0, 0, 3, 0, 0, 0, 0x30, 0xB1, 0xB2, 0xB3, 0xFF, 0, 0, 0, 4, 0, 0, 0,
                0x40, 0xB4, 0xB5, 0xB6, 0xB7, 0, 0, 0, 1, 0, 0, 0, 0x50, 0xB8, 0, 0, 1, 0, 0, 0, 1,
                0, 0, 0, 0x10, 0xA1, 0xF1, 0xF2, 0xF3, 0, 0, 0, 2, 0, 0, 0, 0x20, 0xA2, 0xA3, 0xF4,
                0, 0, 0, 0, 0,
            ],
            &[0, 4, 8, 16, 20, 28, 32, 40, 44, 52, 56],
            order,
        );
        join_gives(&second, &first, order, &[0xEE; 68], joined(68, 5), &result);
        // Three pads: each of them alone not zero, and all 0xFF.
        for [x, y, z] in [[1, 0, 0], [0, 1, 0], [0, 0, 1], [0xFF; 3]] {
            let padded = written(
                [
                    0, 0, 0, 3, 0, 0, 0, 1, 0, 0, 0, 0x60, 0xC1, x, y, z, 0, 0, 0, 0,
                ],
                &[0, 4, 8],
                order,
            );
            let before_q = written(
                [
                    0, 0x80, 0, 4, 0, 0, 0, 1, 0, 0, 0, 0x60, 0xC1, x, y, z, 0, 0, 0, 1, 0, 0x80,
                    0, 4, 0xB7, 0, 0, 0, 0, 0, 0, 0,
                ],
                &[0, 4, 8, 16, 20],
                order,
            );
            let after_q = written(
                [
                    0, 0, 0, 3, 0, 0, 0, 1, 0, 0x80, 0, 4, 0xB7, 0, 0, 0, 0, 0, 0, 1, 0, 0, 0,
                    0x60, 0xC1, x, y, z, 0, 0, 0, 0,
                ],
                &[0, 4, 8, 16, 20],
                order,
            );
            join_gives(
                &padded,
                q(order),
                order,
                &[0xEE; 32],
                joined(32, 2),
                &before_q,
            );
            join_gives(
                q(order),
                &padded,
                order,
                &[0xEE; 32],
                joined(32, 2),
                &after_q,
            );
        }
    }
}

#[test]
fn joins_of_damaged_tables() {
    for order in ByteOrder::BOTH {
        let over = padded_table(0, &[(0xFFFF_FFFF, &[1, 2], &[7, 0xFF])], order);
        let longer = [&p_01(order)[..], &[0, 0]].concat();
        let faults: [(&[u8], u64, u64); 6] = [
            (&[], 5, 0),
            (&p(order)[..19], 5, 16),
            (&p(order)[..7], 5, 4),
            (&p(order)[..15], 5, 4),
            (&longer, 7, 20),
            (&over, 8, 4),
        ];
        let output = [0xEE; 64];
        for (one, number, place) in faults {
            join_refuses(
                one,
                q(order),
                order,
                &output,
                join_refused(number, place, 1),
            );
            join_refuses(
                q(order),
                one,
                order,
                &output,
                join_refused(number, place, 2),
            );
            // The tables' faults come before 11.
            join_refuses(q(order), one, order, &[], join_refused(number, place, 2));
            // Both damaged: the first's fault is answered.
            for (two, _, _) in faults {
                join_refuses(one, two, order, &output, join_refused(number, place, 1));
            }
        }
    }
}

#[test]
fn joins_at_the_limit_and_over() {
    for order in ByteOrder::BOTH {
        let data = vec![0xC4; TABLE_LIMIT - 16 - 12];
        let first = table(1, &[(0x2000_0000, &data)], order);
        assert_eq!(first.len(), TABLE_LIMIT - 12);
        let one = table(2, &[(0x3000_0000, &[0xD1])], order);
        let two = table(3, &[(0x3000_0000, &[0xD1]), (0x3000_0001, &[0xD2])], order);
        // At the limit, both ways.
        let result = table(2, &[(0x2000_0000, &data), (0x3000_0000, &[0xD1])], order);
        assert_eq!(result.len(), TABLE_LIMIT);
        let answer = joined(TABLE_LIMIT as u64, 2);
        let output = vec![0xEE; TABLE_LIMIT];
        join_gives(&first, &one, order, &output, answer, &result);
        let result = table(1, &[(0x3000_0000, &[0xD1]), (0x2000_0000, &data)], order);
        join_gives(&one, &first, order, &output, answer, &result);
        // One byte too short for it.
        let short = &output[1..];
        join_refuses(&first, &one, order, short, join_refused(11, 0, 0));
        // One section over, with an output that would hold it, and with none: 10
        // comes before 11.
        let output = vec![0xEE; TABLE_LIMIT + 12];
        join_refuses(&first, &two, order, &output, join_refused(10, 0, 0));
        join_refuses(&two, &first, order, &output, join_refused(10, 0, 0));
        join_refuses(&first, &two, order, &[], join_refused(10, 0, 0));
        // Over the limit alone: 4, in the table that is.
        let mut large = table(1, &[(0x2000_0000, &vec![0; TABLE_LIMIT - 16])], order);
        large.push(0);
        join_refuses(&large, &one, order, &[], join_refused(4, 0, 1));
        join_refuses(&one, &large, order, &[], join_refused(4, 0, 2));
        join_refuses(&p(order)[..3], &large, order, &[], join_refused(5, 0, 1));
    }
}

// The writer.

/// Four data bytes: those of P and that of Q.
const DATA: [u8; 4] = [0xA1, 0xA2, 0xA3, 0xB7];

#[test]
fn p_and_q_written_from_lists() {
    let [of_p, of_q] = [(0x0080_0002, 0, 3), (0x0080_0004, 3, 1)];
    for order in ByteOrder::BOTH {
        let one = list(&[of_p]);
        writes(0x0080_0000, (&one, &DATA), order, 1, p(order));
        let one = list(&[of_q]);
        writes(0x0080_0004, (&one, &DATA), order, 1, q(order));
    }
    // Both sections in one list, with Q's entry: the join of the two.
    let both = list(&[of_p, of_q]);
    let high = [
        0, 0x80, 0, 4, 0, 0, 0, 3, 0, 0x80, 0, 2, 0xA1, 0xA2, 0xA3, 0, 0, 0, 0, 1, 0, 0x80, 0, 4,
        0xB7, 0, 0, 0, 0, 0, 0, 0,
    ];
    let low = [
        4, 0, 0x80, 0, 3, 0, 0, 0, 2, 0, 0x80, 0, 0xA1, 0xA2, 0xA3, 0, 1, 0, 0, 0, 4, 0, 0x80, 0,
        0xB7, 0, 0, 0, 0, 0, 0, 0,
    ];
    writes(0x0080_0004, (&both, &DATA), HighFirst, 2, &high);
    writes(0x0080_0004, (&both, &DATA), LowFirst, 2, &low);
}

#[test]
fn an_empty_list() {
    for data in [&[][..], &DATA] {
        let high = [0x12, 0x34, 0x56, 0x78, 0, 0, 0, 0];
        writes(0x1234_5678, (&[], data), HighFirst, 0, &high);
        let low = [0x78, 0x56, 0x34, 0x12, 0, 0, 0, 0];
        writes(0x1234_5678, (&[], data), LowFirst, 0, &low);
        write_refuses((&[], data), &[0xEE; 7], 11, 0);
        write_refuses((&[], data), &[], 11, 0);
    }
}

#[test]
fn any_entry_is_written() {
    for (entry, high) in [
        (0, [0, 0, 0, 0]),
        (1, [0, 0, 0, 1]),
        (0x8000_0000, [0x80, 0, 0, 0]),
        (0xFFFF_FFFF, [0xFF, 0xFF, 0xFF, 0xFF]),
        (0x0102_0304, [1, 2, 3, 4]),
    ] {
        for order in ByteOrder::BOTH {
            let first = written(high, &[0], order);
            let after = [&first[..], &p(order)[4..]].concat();
            let one = list(&[(0x0080_0002, 0, 3)]);
            writes(entry, (&one, &DATA), order, 1, &after);
        }
    }
}

#[test]
fn written_header_words_of_different_bytes() {
    // The size is 0x0102, which is 258: two pads.
    let mut data: Vec<u8> = (0..=255).collect();
    data.extend([0xD1, 0xD2]);
    let one = list(&[(0x1122_3344, 0, 258)]);
    let high = [
        0x81, 0x82, 0x83, 0x84, 0, 0, 1, 2, 0x11, 0x22, 0x33, 0x44, 0, 1, 2, 3,
    ];
    let low = [
        0x84, 0x83, 0x82, 0x81, 2, 1, 0, 0, 0x44, 0x33, 0x22, 0x11, 0, 1, 2, 3,
    ];
    for (order, start) in [(HighFirst, high), (LowFirst, low)] {
        let after = [&start[..], &data[4..], &[0; 2], &[0; 4]].concat();
        writes(0x8182_8384, (&one, &data), order, 1, &after);
    }
}

#[test]
fn written_sections_that_touch_are_not_merged() {
    // The second goes on where the first ends, in address and in data.
    let data = [0xD1, 0xD2, 0xD3, 0xD4, 0xD5, 0xD6, 0xD7, 0xD8];
    for order in ByteOrder::BOTH {
        let touching = list(&[(0x0080_0002, 0, 3), (0x0080_0005, 3, 2)]);
        let after = written(
            [
                0, 0, 0, 9, 0, 0, 0, 3, 0, 0x80, 0, 2, 0xD1, 0xD2, 0xD3, 0, 0, 0, 0, 2, 0, 0x80, 0,
                5, 0xD4, 0xD5, 0, 0, 0, 0, 0, 0,
            ],
            &[0, 4, 8, 16, 20],
            order,
        );
        writes(9, (&touching, &data), order, 2, &after);
        // Without pads between them.
        let touching = list(&[(0x0080_0000, 0, 4), (0x0080_0004, 4, 4)]);
        let after = written(
            [
                0, 0, 0, 9, 0, 0, 0, 4, 0, 0x80, 0, 0, 0xD1, 0xD2, 0xD3, 0xD4, 0, 0, 0, 4, 0, 0x80,
                0, 4, 0xD5, 0xD6, 0xD7, 0xD8, 0, 0, 0, 0,
            ],
            &[0, 4, 8, 16, 20],
            order,
        );
        writes(9, (&touching, &data), order, 2, &after);
    }
}

#[test]
fn written_sections_near_each_other_are_not_filled_between() {
    let data = [0xD1, 0xD2, 0xD3, 0xD4, 0xD5, 0xD6];
    for order in ByteOrder::BOTH {
        // Three addresses apart, and so are their data.
        let near = list(&[(0x0080_0002, 0, 1), (0x0080_0006, 4, 2)]);
        let after = written(
            [
                0, 0, 0, 9, 0, 0, 0, 1, 0, 0x80, 0, 2, 0xD1, 0, 0, 0, 0, 0, 0, 2, 0, 0x80, 0, 6,
                0xD5, 0xD6, 0, 0, 0, 0, 0, 0,
            ],
            &[0, 4, 8, 16, 20],
            order,
        );
        writes(9, (&near, &data), order, 2, &after);
        let places = with(&[(2, 0xD1), (6, 0xD5), (7, 0xD6)]);
        let answer = accepted(9, 0, 2, 3);
        load_gives(&M, &after, order, &MEMORY, answer, &places);
    }
}

#[test]
fn sections_are_written_in_the_lists_order() {
    let data = [0xD0, 0xD1, 0xD2, 0xD3, 0xD4, 0xD5];
    for order in ByteOrder::BOTH {
        // Addresses and starts fall and rise, and one section is there twice.
        let mixed = list(&[(0x30, 5, 1), (0x10, 0, 2), (0x30, 5, 1), (0x20, 1, 4)]);
        let after = written(
            [
                0, 0, 0, 9, 0, 0, 0, 1, 0, 0, 0, 0x30, 0xD5, 0, 0, 0, 0, 0, 0, 2, 0, 0, 0, 0x10,
                0xD0, 0xD1, 0, 0, 0, 0, 0, 1, 0, 0, 0, 0x30, 0xD5, 0, 0, 0, 0, 0, 0, 4, 0, 0, 0,
                0x20, 0xD1, 0xD2, 0xD3, 0xD4, 0, 0, 0, 0,
            ],
            &[0, 4, 8, 16, 20, 28, 32, 40, 44],
            order,
        );
        writes(9, (&mixed, &data), order, 4, &after);
    }
}

#[test]
fn listed_sections_may_share_data_and_addresses() {
    let data = [0xD0, 0xD1, 0xD2, 0xD3];
    for order in ByteOrder::BOTH {
        let sharing = list(&[
            (0x0080_0004, 0, 3),
            (0x0080_0005, 1, 3),
            (0x0080_0004, 0, 4),
        ]);
        let after = written(
            [
                0, 0, 0, 9, 0, 0, 0, 3, 0, 0x80, 0, 4, 0xD0, 0xD1, 0xD2, 0, 0, 0, 0, 3, 0, 0x80, 0,
                5, 0xD1, 0xD2, 0xD3, 0, 0, 0, 0, 4, 0, 0x80, 0, 4, 0xD0, 0xD1, 0xD2, 0xD3, 0, 0, 0,
                0,
            ],
            &[0, 4, 8, 16, 20, 28, 32],
            order,
        );
        writes(9, (&sharing, &data), order, 3, &after);
    }
}

#[test]
fn written_pads_are_zero() {
    for order in ByteOrder::BOTH {
        // The output held 0xFF, and more data follows in the run, or none.
        for behind in [0, 1, 2, 3, 4, 40] {
            for size in 1..=9 {
                let data = vec![0xE1; 5 + size + behind];
                let one = list(&[(0x0080_0000, 5, size as u32)]);
                let mut after = header_word(9, order).to_vec();
                after.extend(header_word(size as u32, order));
                after.extend(header_word(0x0080_0000, order));
                after.extend(vec![0xE1; size]);
                after.extend(vec![0; [0, 3, 2, 1][size % 4]]);
                after.extend([0; 4]);
                let before = vec![0xFF; after.len()];
                let answer = write_accepted(after.len() as u64, 1);
                write_gives(9, (&one, &data), order, &before, answer, &after);
            }
        }
        // One, two and three pads, and none, in one table.
        let all = list(&[(0x30, 0, 3), (0x20, 0, 2), (0x10, 0, 1), (0x40, 0, 4)]);
        let data = [0xE1, 0xE2, 0xE3, 0xE4, 0xE5, 0xE6];
        let after = written(
            [
                0, 0, 0, 9, 0, 0, 0, 3, 0, 0, 0, 0x30, 0xE1, 0xE2, 0xE3, 0, 0, 0, 0, 2, 0, 0, 0,
                0x20, 0xE1, 0xE2, 0, 0, 0, 0, 0, 1, 0, 0, 0, 0x10, 0xE1, 0, 0, 0, 0, 0, 0, 4, 0, 0,
                0, 0x40, 0xE1, 0xE2, 0xE3, 0xE4, 0, 0, 0, 0,
            ],
            &[0, 4, 8, 16, 20, 28, 32, 40, 44],
            order,
        );
        let answer = write_accepted(56, 4);
        write_gives(9, (&all, &data), order, &[0xFF; 56], answer, &after);
    }
}

#[test]
fn a_written_size_is_not_rounded_up() {
    for order in ByteOrder::BOTH {
        for (name, write) in WRITES {
            // Sections that end at the map's last address: a size rounded up would
            // not be open.
            for size in 1..=4 {
                let one = list(&[(0x0080_0010 - size, 0, size)]);
                let mut output = [0xEE; 20];
                let answer = write(0, &one, &DATA, order, &mut output);
                assert_eq!(answer, write_accepted(20, 1), "{name}");
                assert_eq!(output[4..8], header_word(size, order), "{name}");
                let mut after = MEMORY;
                after[16 - size as usize..].copy_from_slice(&DATA[..size as usize]);
                let answer = accepted(0, 0, 1, u64::from(size));
                load_gives(&M, &output, order, &MEMORY, answer, &after);
            }
        }
    }
}

#[test]
fn data_is_written_as_it_stands_in_both_orders() {
    let data = [1, 2, 3, 4, 5, 6, 7, 8, 9];
    let one = list(&[(0, 1, 8)]);
    for order in ByteOrder::BOTH {
        let after = written(
            [
                0, 0, 0, 9, 0, 0, 0, 8, 0, 0, 0, 0, 2, 3, 4, 5, 6, 7, 8, 9, 0, 0, 0, 0,
            ],
            &[0, 4, 8],
            order,
        );
        writes(9, (&one, &data), order, 1, &after);
    }
}

#[test]
fn outputs_of_the_writer_exact_short_empty_and_longer() {
    let both = list(&[(0x0080_0002, 0, 3), (0x0080_0004, 3, 1)]);
    for order in ByteOrder::BOTH {
        let table = [&q(order)[..4], &p(order)[4..16], &q(order)[4..20]].concat();
        writes(0x0080_0004, (&both, &DATA), order, 2, &table);
        // What stands past the table is kept, whatever it is.
        for more in [1, 2, 3, 4, 5, 100] {
            let past: Vec<u8> = (0x31..).take(more).collect();
            let before = [&[0xEE; 32][..], &past].concat();
            let after = [&table[..], &past].concat();
            let answer = write_accepted(32, 2);
            write_gives(0x0080_0004, (&both, &DATA), order, &before, answer, &after);
        }
    }
    for length in 0..32 {
        write_refuses((&both, &DATA), &vec![0xEE; length], 11, 0);
    }
}

#[test]
fn a_listed_size_of_zero() {
    let good = (0x0080_0002, 0, 3);
    // At any start: in the data, at its end, and past it, where 20 holds too.
    for start in [0, 3, 4, 5, 0xFFFF_FFFF] {
        for address in [0, 0x0080_0002, 0xFFFF_FFFF] {
            let zero = (address, start, 0);
            let output = [0xEE; 64];
            write_refuses((&list(&[zero]), &DATA), &output, 21, 0);
            write_refuses((&list(&[good, zero]), &DATA), &output, 21, 1);
            write_refuses((&list(&[good, good, zero, good]), &DATA), &output, 21, 2);
            write_refuses((&list(&[zero]), &[]), &output, 21, 0);
        }
    }
}

#[test]
fn a_listed_start_plus_size_past_the_data() {
    let good = (0x0080_0002, 0, 3);
    let output = [0xEE; 64];
    // Up to the data's end.
    for (start, size) in [(0, 4), (1, 3), (2, 2), (3, 1), (0, 1)] {
        for order in ByteOrder::BOTH {
            let mut after = header_word(9, order).to_vec();
            after.extend(header_word(size, order));
            after.extend([0; 4]);
            after.extend(&DATA[start as usize..][..size as usize]);
            after.resize(20, 0);
            writes(9, (&list(&[(0, start, size)]), &DATA), order, 1, &after);
        }
    }
    // One past it, or more.
    for (start, size) in [(0, 5), (1, 4), (2, 3), (3, 2), (4, 1), (5, 1), (0, 400)] {
        let past = (0, start, size);
        write_refuses((&list(&[past]), &DATA), &output, 20, 0);
        write_refuses((&list(&[good, past, good]), &DATA), &output, 20, 1);
        // No byte of data.
        write_refuses((&list(&[past]), &[]), &output, 20, 0);
    }
}

#[test]
fn a_listed_start_plus_size_is_taken_in_64_bits() {
    let good = (0x0080_0002, 0, 3);
    let output = [0xEE; 64];
    // In 32 bits these sums would be 0 to 4, and within the data.
    for (start, size) in [
        (0xFFFF_FFFF, 1),
        (0xFFFF_FFFF, 2),
        (0xFFFF_FFFF, 5),
        (0xFFFF_FFFC, 4),
        (0xFFFF_FFFE, 6),
        (1, 0xFFFF_FFFF),
        (2, 0xFFFF_FFFF),
        (4, 0xFFFF_FFFC),
        (0x8000_0000, 0x8000_0000),
        (0x8000_0002, 0x8000_0001),
    ] {
        let past = (0, start, size);
        write_refuses((&list(&[past]), &DATA), &output, 20, 0);
        write_refuses((&list(&[good, good, past]), &DATA), &output, 20, 2);
    }
}

#[test]
fn a_listed_address_plus_size_at_the_top_and_over() {
    let good = (0x0080_0002, 0, 3);
    for order in ByteOrder::BOTH {
        // 2^32 exactly.
        let last = list(&[(0xFFFF_FFFF, 0, 1)]);
        let after = written(
            [
                0, 0, 0, 9, 0, 0, 0, 1, 0xFF, 0xFF, 0xFF, 0xFF, 0xA1, 0, 0, 0, 0, 0, 0, 0,
            ],
            &[0, 4, 8],
            order,
        );
        writes(9, (&last, &DATA), order, 1, &after);
        let four = list(&[(0xFFFF_FFFC, 0, 4)]);
        let after = written(
            [
                0, 0, 0, 9, 0, 0, 0, 4, 0xFF, 0xFF, 0xFF, 0xFC, 0xA1, 0xA2, 0xA3, 0xB7, 0, 0, 0, 0,
            ],
            &[0, 4, 8],
            order,
        );
        writes(9, (&four, &DATA), order, 1, &after);
    }
    // One over, and more.
    for (address, size) in [
        (0xFFFF_FFFF, 2),
        (0xFFFF_FFFE, 3),
        (0xFFFF_FFFD, 4),
        (0xFFFF_FFFF, 4),
    ] {
        let over = (address, 0, size);
        let output = [0xEE; 64];
        write_refuses((&list(&[over]), &DATA), &output, 8, 0);
        write_refuses((&list(&[good, over]), &DATA), &output, 8, 1);
        write_refuses((&list(&[good, over, good]), &DATA), &output, 8, 1);
    }
}

#[test]
fn the_faults_of_one_listed_section_in_order() {
    let output = [0xEE; 64];
    let refuses = |section, number| write_refuses((&list(&[section]), &DATA), &output, number, 0);
    // All that can be wrong, and then one after the other is mended. Size zero
    // cannot run past the top.
    refuses((0xFFFF_FFFF, 5, 0), 21);
    refuses((0xFFFF_FFFF, 5, 2), 20);
    refuses((0xFFFF_FFFF, 2, 2), 8);
    for order in ByteOrder::BOTH {
        let after = written(
            [
                0, 0, 0, 9, 0, 0, 0, 2, 0xFF, 0xFF, 0xFF, 0xFE, 0xA3, 0xB7, 0, 0, 0, 0, 0, 0,
            ],
            &[0, 4, 8],
            order,
        );
        let good = list(&[(0xFFFF_FFFE, 2, 2)]);
        writes(9, (&good, &DATA), order, 1, &after);
    }
    // 21 beside 20, 20 beside 8.
    refuses((0, 5, 0), 21);
    refuses((0, 0xFFFF_FFFF, 0), 21);
    refuses((0xFFFF_FFFF, 3, 2), 20);
    refuses((0xFFFF_FFFF, 0xFFFF_FFFF, 0xFFFF_FFFF), 20);
    refuses((1, 0, 0xFFFF_FFFF), 20);
    refuses((2, 0, 0xFFFF_FFFF), 20);
}

#[test]
fn the_first_bad_section_of_several() {
    let good = (0x0080_0002, 0, 3);
    let bad = [
        ((0, 0, 0), 21),
        ((0, 1, 4), 20),
        ((0xFFFF_FFFF, 0, 2), 8),
        ((0xFFFF_FFFF, 3, 2), 20),
        ((0xFFFF_FFFF, 9, 0), 21),
    ];
    let output = [0xEE; 128];
    for (one, number) in bad {
        for (two, _) in bad {
            write_refuses((&list(&[one, two]), &DATA), &output, number, 0);
            write_refuses((&list(&[good, one, two]), &DATA), &output, number, 1);
            write_refuses(
                (&list(&[good, good, one, good, two]), &DATA),
                &output,
                number,
                2,
            );
        }
        // 11 would hold as well.
        write_refuses((&list(&[good, one]), &DATA), &[], number, 1);
        // An index of more than 16 bits.
        let mut long = list(&vec![good; 70_000]);
        long.extend(list(&[one]));
        write_refuses((&long, &DATA), &output, number, 70_000);
    }
}

#[test]
fn written_tables_at_the_limit_and_over() {
    // 16 bytes of words and the data fill the limit; with up to three bytes less
    // there are pads. The data does not repeat at a power of two.
    let data: Vec<u8> = (0..TABLE_LIMIT).map(|i| (i % 251) as u8).collect();
    for order in ByteOrder::BOTH {
        for less in 0..4 {
            let size = TABLE_LIMIT - 16 - less;
            let one = list(&[(0x2000_0000, 0, size as u32)]);
            let after = table(9, &[(0x2000_0000, &data[..size])], order);
            assert_eq!(after.len(), TABLE_LIMIT);
            writes(9, (&one, &data), order, 1, &after);
        }
    }
    // Starts that fit neither 16 nor 23 bits, for short data and for long.
    for start in [0x1_0001, 0x8A_5A5B] {
        let two = list(&[(0x2000_0000, start, 3), (0x3000_0000, start + 1, 70_001)]);
        let [short, long] =
            [(start, 3), (start + 1, 70_001)].map(|(at, size)| &data[at as usize..][..size]);
        let after = table(
            9,
            &[(0x2000_0000, short), (0x3000_0000, long)],
            ByteOrder::HighFirst,
        );
        writes(9, (&two, &data), ByteOrder::HighFirst, 2, &after);
    }
    let most = (0x2000_0000, 0, TABLE_LIMIT as u32 - 16);
    let large = vec![0xEE; TABLE_LIMIT + 12];
    // One byte too short.
    let short = &large[..TABLE_LIMIT - 1];
    write_refuses((&list(&[most]), &data), short, 11, 0);
    // A byte more, and a section more: with an output that would hold it, and
    // with none, since 10 comes before 11.
    let longer = (0x2000_0000, 0, TABLE_LIMIT as u32 - 15);
    let small = (0x3000_0000, 0, 1);
    for over in [&[longer][..], &[most, small], &[small, most]] {
        write_refuses((&list(over), &data), &large, 10, 0);
        write_refuses((&list(over), &data), &[], 10, 0);
    }
    // A bad section comes before 10.
    write_refuses((&list(&[most, small, (0, 0, 0)]), &data), &large, 21, 2);
    let past = (0, TABLE_LIMIT as u32, 1);
    write_refuses((&list(&[most, small, past]), &data), &[], 20, 2);
    let top = (0xFFFF_FFFF, 0, 2);
    write_refuses((&list(&[most, small, top]), &data), &[], 8, 2);
}

#[test]
fn as_many_listed_sections_as_the_limit_takes() {
    let count = (TABLE_LIMIT - 8) / 12;
    let mut many: Vec<ListSection> = (0..count as u32)
        .map(|i| ListSection {
            address: i * 3,
            start: i % 4,
            size: 1,
        })
        .collect();
    for order in ByteOrder::BOTH {
        let mut after = header_word(9, order).to_vec();
        for i in 0..count {
            after.extend(header_word(1, order));
            after.extend(header_word(i as u32 * 3, order));
            after.extend([DATA[i % 4], 0, 0, 0]);
        }
        after.extend([0; 4]);
        assert_eq!(after.len(), 16_777_208);
        writes(9, (&many, &DATA), order, count as u64, &after);
    }
    // One more is over the limit.
    many.push(many[0]);
    write_refuses((&many, &DATA), &vec![0xEE; TABLE_LIMIT + 4], 10, 0);
    write_refuses((&many, &DATA), &[], 10, 0);
    // And it is refused where it is bad.
    many[count].size = 0;
    write_refuses((&many, &DATA), &[], 21, count as u64);
}

#[test]
fn lists_whose_tables_are_over_2_32_bytes() {
    // Each section takes 65,536 bytes, so that the length is 8 more than 2^32, than
    // 2^33 and than 2^34: in 32 bits it would be 8.
    let data = vec![0xC4; 65_528];
    let section = (0x2000_0000, 0, 65_528);
    for count in [65_536, 131_072, 262_144] {
        let mut long = list(&vec![section; count]);
        write_refuses((&long, &data), &[0xEE; 64], 10, 0);
        // With 12 bytes more it would be 20 in 32 bits.
        long.extend(list(&[(0, 0, 1)]));
        write_refuses((&long, &data), &[0xEE; 64], 10, 0);
        // A bad section behind it all.
        long.extend(list(&[(0, 65_528, 1)]));
        write_refuses((&long, &data), &[0xEE; 64], 20, count as u64 + 1);
    }
}

// What stands at an address.

#[test]
fn what_stands_in_p_and_then_q() {
    for order in ByteOrder::BOTH {
        let pair = (&p(order)[..], &q(order)[..]);
        stands(pair, order, 0x0080_0002, (1, 12, &[0xA1, 0xA2, 0xA3]), 24);
        stands(pair, order, 0x0080_0003, (1, 13, &[0xA2, 0xA3]), 24);
        // P covers this one too.
        stands(pair, order, 0x0080_0004, (2, 12, &[0xB7]), 24);
        let others = [0x0080_0000, 0x0080_0001, 0x0080_0005, 0x0080_0006];
        nothing_stands(pair, order, &others, 24);
        nothing_stands(pair, order, &[0, 0x0000_8002, 0xFFFF_FFFF], 24);
    }
}

#[test]
fn what_stands_in_q_and_then_p() {
    for order in ByteOrder::BOTH {
        let pair = (&q(order)[..], &p(order)[..]);
        stands(pair, order, 0x0080_0002, (2, 12, &[0xA1, 0xA2, 0xA3]), 24);
        stands(pair, order, 0x0080_0003, (2, 13, &[0xA2, 0xA3]), 24);
        stands(pair, order, 0x0080_0004, (2, 14, &[0xA3]), 24);
        nothing_stands(pair, order, &[0x0080_0001, 0x0080_0005], 24);
    }
}

#[test]
fn one_table_as_older_and_newer() {
    for order in ByteOrder::BOTH {
        let pair = (&p(order)[..], &p(order)[..]);
        stands(pair, order, 0x0080_0003, (2, 13, &[0xA2, 0xA3]), 24);
        nothing_stands(pair, order, &[0x0080_0001, 0x0080_0005], 24);
    }
}

#[test]
fn what_stands_in_a_join() {
    for order in ByteOrder::BOTH {
        let none = table(0x0080_0002, &[], order);
        // The data stands at 12 and at 24.
        let p_q = [&q(order)[..4], &p(order)[4..16], &q(order)[4..]].concat();
        let q_p = [&p(order)[..4], &q(order)[4..16], &p(order)[4..]].concat();
        for (older, newer, named) in [(&p_q, &none, 1), (&none, &p_q, 2)] {
            let pair = (&older[..], &newer[..]);
            stands(pair, order, 0x0080_0003, (named, 13, &[0xA2, 0xA3]), 24);
            stands(pair, order, 0x0080_0004, (named, 24, &[0xB7]), 24);
            nothing_stands(pair, order, &[0x0080_0001, 0x0080_0005], 24);
        }
        for (older, newer, named) in [(&q_p, &none, 1), (&none, &q_p, 2)] {
            let pair = (&older[..], &newer[..]);
            stands(pair, order, 0x0080_0003, (named, 25, &[0xA2, 0xA3]), 24);
            stands(pair, order, 0x0080_0004, (named, 26, &[0xA3]), 24);
            nothing_stands(pair, order, &[0x0080_0001, 0x0080_0005], 24);
        }
    }
}

#[test]
fn the_last_section_that_covers_an_address() {
    for order in ByteOrder::BOTH {
        let shared = table(
            0,
            &[
                (0x0080_0004, &[0x11, 0x12, 0x13, 0x14]),
                (0x0080_0002, &[0x21, 0x22, 0x23]),
                (0x0080_0006, &[0x31]),
                (0x0080_0004, &[0x41]),
            ],
            order,
        );
        let none = table(0, &[], order);
        // Q covers 0x00800004, and is the older where it stands beside the table.
        for (older, newer, named, read) in [
            (&shared[..], &none[..], 1, 40),
            (&none, &shared, 2, 40),
            (q(order), &shared, 2, 48),
        ] {
            let pair = (older, newer);
            stands(
                pair,
                order,
                0x0080_0002,
                (named, 24, &[0x21, 0x22, 0x23]),
                read,
            );
            stands(pair, order, 0x0080_0003, (named, 25, &[0x22, 0x23]), read);
            stands(pair, order, 0x0080_0004, (named, 48, &[0x41]), read);
            stands(
                pair,
                order,
                0x0080_0005,
                (named, 13, &[0x12, 0x13, 0x14]),
                read,
            );
            stands(pair, order, 0x0080_0006, (named, 36, &[0x31]), read);
            stands(pair, order, 0x0080_0007, (named, 15, &[0x14]), read);
            nothing_stands(pair, order, &[0x0080_0001, 0x0080_0008], read);
        }
        // Three equal sections.
        let equal = [(0x0080_0004, &[0x51, 0x52][..]); 3];
        let equal = table(0, &equal, order);
        stands((&equal, &none), order, 0x0080_0005, (1, 37, &[0x52]), 32);
    }
}

#[test]
fn the_newer_table_goes_before_the_older() {
    for order in ByteOrder::BOTH {
        let data: Vec<u8> = (0x50..0x60).collect();
        let older = table(0, &[(0x0070_0000, &[1]), (0x0080_0000, &data)], order);
        // What covers comes first in the newer, and last in the older.
        let newer = table(
            0,
            &[
                (0x0080_0008, &[0x81, 0x82, 0x83]),
                (0x0080_0004, &[0xB7]),
                (0x0070_0001, &[2]),
            ],
            order,
        );
        let pair = (&older[..], &newer[..]);
        for i in 0..16 {
            let address = 0x0080_0000 + i;
            let expected: (u64, u64, &[u8]) = match i {
                4 => (2, 24, &[0xB7]),
                8 => (2, 12, &[0x81, 0x82, 0x83]),
                9 => (2, 13, &[0x82, 0x83]),
                10 => (2, 14, &[0x83]),
                // To the section's end, also over addresses that the newer covers.
                _ => (1, 24 + u64::from(i), &data[i as usize..]),
            };
            stands(pair, order, address, expected, 48);
        }
        stands(pair, order, 0x0070_0000, (1, 12, &[1]), 48);
        stands(pair, order, 0x0070_0001, (2, 36, &[2]), 48);
        nothing_stands(pair, order, &[0x0070_0002, 0x0080_0010], 48);
    }
}

#[test]
fn a_part_ends_with_its_sections_data() {
    for order in ByteOrder::BOTH {
        let none = table(0, &[], order);
        // Sections that touch, in addresses and in the table.
        let touching = table(
            0,
            &[
                (0x0080_0000, &[1, 2, 3, 4]),
                (0x0080_0004, &[5, 6, 7, 8]),
                (0x007F_FFFC, &[9, 10, 11, 12]),
            ],
            order,
        );
        let pair = (&touching[..], &none[..]);
        stands(pair, order, 0x0080_0002, (1, 14, &[3, 4]), 32);
        stands(pair, order, 0x0080_0003, (1, 15, &[4]), 32);
        stands(pair, order, 0x0080_0004, (1, 24, &[5, 6, 7, 8]), 32);
        stands(pair, order, 0x007F_FFFF, (1, 39, &[12]), 32);
        // A later section over the middle of an earlier one: the part of the earlier
        // goes on under it.
        let under = table(
            0,
            &[
                (0x0080_0000, &[1, 2, 3, 4, 5, 6, 7, 8]),
                (0x0080_0003, &[9, 10]),
            ],
            order,
        );
        let pair = (&none[..], &under[..]);
        let all: &[u8] = &[1, 2, 3, 4, 5, 6, 7, 8];
        stands(pair, order, 0x0080_0000, (2, 12, all), 24);
        stands(pair, order, 0x0080_0002, (2, 14, &all[2..]), 24);
        stands(pair, order, 0x0080_0003, (2, 28, &[9, 10]), 24);
        stands(pair, order, 0x0080_0004, (2, 29, &[10]), 24);
        stands(pair, order, 0x0080_0005, (2, 17, &all[5..]), 24);
    }
}

#[test]
fn pads_are_not_in_the_part() {
    for order in ByteOrder::BOTH {
        let none = table(0, &[], order);
        for size in 1..=9u32 {
            let data: Vec<u8> = (1..=size as u8).collect();
            let pads = &[0xFF; 3][..(size.next_multiple_of(4) - size) as usize];
            let padded = padded_table(0, &[(0x0080_0000, &data, pads)], order);
            for (older, newer, named) in [(&padded, &none, 1), (&none, &padded, 2)] {
                let pair = (&older[..], &newer[..]);
                for i in 0..size {
                    let expected = (named, 12 + u64::from(i), &data[i as usize..]);
                    stands(pair, order, 0x0080_0000 + i, expected, 16);
                }
                // No pad stands at an address.
                let past = [0, 1, 2, 3].map(|i| 0x0080_0000 + size + i);
                nothing_stands(pair, order, &past, 16);
            }
        }
    }
}

#[test]
fn the_lowest_and_the_highest_address() {
    for order in ByteOrder::BOTH {
        let lowest = table(5, &[(0, &[0xA0])], order);
        let highest = table(5, &[(0xFFFF_FFFF, &[0xAF])], order);
        for (older, newer, low, high) in [(&lowest, &highest, 1, 2), (&highest, &lowest, 2, 1)] {
            let pair = (&older[..], &newer[..]);
            stands(pair, order, 0, (low, 12, &[0xA0]), 24);
            stands(pair, order, 0xFFFF_FFFF, (high, 12, &[0xAF]), 24);
            nothing_stands(pair, order, &[1, 0x8000_0000, 0xFFFF_FFFE], 24);
        }
        // Four bytes from the lowest, and three up to the highest.
        let both = table(5, &[(0, &[1, 2, 3, 4]), (0xFFFF_FFFD, &[5, 6, 7])], order);
        let none = table(0, &[], order);
        for (older, newer, named) in [(&both, &none, 1), (&none, &both, 2)] {
            let pair = (&older[..], &newer[..]);
            stands(pair, order, 0, (named, 12, &[1, 2, 3, 4]), 24);
            stands(pair, order, 3, (named, 15, &[4]), 24);
            stands(pair, order, 0xFFFF_FFFD, (named, 24, &[5, 6, 7]), 24);
            stands(pair, order, 0xFFFF_FFFE, (named, 25, &[6, 7]), 24);
            stands(pair, order, 0xFFFF_FFFF, (named, 26, &[7]), 24);
            nothing_stands(pair, order, &[4, 5, 0x7FFF_FFFF, 0xFFFF_FFFC], 24);
        }
    }
}

#[test]
fn what_stands_in_tables_without_sections() {
    for order in ByteOrder::BOTH {
        // An entry covers nothing.
        let none = table(0x0080_0002, &[], order);
        let other = table(0xFFFF_FFFF, &[], order);
        let addresses = [0, 0x0080_0002, 0x0080_0004, 0xFFFF_FFFF];
        nothing_stands((&none, &other), order, &addresses, 8);
        nothing_stands((&none, &none), order, &addresses, 8);
        let beside = [0, 0x0080_0001, 0x0080_0005, 0xFFFF_FFFF];
        for none in [&none, &other] {
            let part: &[u8] = &[0xA1, 0xA2, 0xA3];
            stands((p(order), none), order, 0x0080_0002, (1, 12, part), 16);
            stands((none, p(order)), order, 0x0080_0002, (2, 12, part), 16);
            nothing_stands((p(order), none), order, &beside, 16);
            nothing_stands((none, p(order)), order, &beside, 16);
        }
    }
}

#[test]
fn no_entry_no_data_and_no_pad_decides() {
    for order in ByteOrder::BOTH {
        // P's words with every other byte 0xFF, and with every other byte zero.
        for byte in [0xFF, 0] {
            let mut other = *p(order);
            other[..4].fill(byte);
            other[12..16].fill(byte);
            let pair = (&other[..], &q(order)[..]);
            stands(pair, order, 0x0080_0002, (1, 12, &[byte; 3]), 24);
            stands(pair, order, 0x0080_0003, (1, 13, &[byte; 2]), 24);
            stands(pair, order, 0x0080_0004, (2, 12, &[0xB7]), 24);
            nothing_stands(pair, order, &[0x0080_0001, 0x0080_0005, 0, 0xFFFF_FFFF], 24);
        }
        // Data that would itself be a section for the address.
        let data = [
            header_word(4, order),
            header_word(0x0080_0004, order),
            [7; 4],
        ]
        .concat();
        let nested = table(0x0080_0004, &[(0x0070_0000, &data)], order);
        let pair = (&nested[..], &nested[..]);
        nothing_stands(pair, order, &[0x0080_0004], 24);
        stands(pair, order, 0x0070_0008, (2, 20, &[7; 4]), 24);
    }
}

#[test]
fn a_fault_in_the_older_or_the_newer_table() {
    for order in ByteOrder::BOTH {
        let top = padded_table(0, &[(0xFFFF_FFFF, &[1, 2], &[7, 0xFF])], order);
        let longer = [&p_01(order)[..], &[0, 0]].concat();
        let one_more = [&p(order)[..], &[1]].concat();
        // In one section 5 comes before 8.
        let mut cut_at_top = *p(order);
        cut_at_top[4..12].fill(0xFF);
        // The sections before the fault cover the addresses that are asked for.
        let covering: (u32, &[u8]) = (0x0080_0000, &[1, 2, 3, 4, 5, 6, 7, 8]);
        let behind = table(0, &[covering, (0xFFFF_FFFF, &[2, 3])], order);
        let cut_behind = table(0, &[covering, (0x0080_0000, &[2, 3])], order);
        let before = table(0, &[(0xFFFF_FFFF, &[2, 3]), covering], order);
        let stopped = table(0, &[covering], order);
        let faults: [(&[u8], u64, u64); 17] = [
            (&[], 5, 0),
            (&p(order)[..3], 5, 0),
            (&p(order)[..4], 5, 4),
            (&p(order)[..7], 5, 4),
            (&p(order)[..8], 5, 4),
            (&p(order)[..15], 5, 4),
            (&p(order)[..16], 5, 16),
            (&p(order)[..19], 5, 16),
            (&longer, 7, 20),
            (&one_more, 7, 20),
            (&cut_at_top, 5, 4),
            (&top, 8, 4),
            (&behind, 8, 20),
            (&cut_behind[..31], 5, 20),
            (&cut_behind[..35], 5, 32),
            // The first fault in table order, with a cut section behind it.
            (&before[..27], 8, 4),
            (&stopped[..20], 5, 20),
        ];
        for (one, number, place) in faults {
            find_refuses((one, q(order)), order, number, place, 1);
            find_refuses((one, p(order)), order, number, place, 1);
            // Also where the older has no fault and covers the address.
            find_refuses((q(order), one), order, number, place, 2);
            find_refuses((p(order), one), order, number, place, 2);
            find_refuses((&table(0, &[], order), one), order, number, place, 2);
            // Both damaged: the older's fault is answered.
            for (two, _, _) in faults {
                find_refuses((one, two), order, number, place, 1);
            }
        }
    }
}

#[test]
fn a_size_up_to_the_highest_address_and_one_more() {
    for order in ByteOrder::BOTH {
        for (address, size, fits) in [
            (0xFFFF_FFFF, 1, true),
            (0xFFFF_FFFF, 2, false),
            (0xFFFF_FFFC, 4, true),
            (0xFFFF_FFFC, 5, false),
        ] {
            let data = vec![0x3C; size];
            let bytes = table(0, &[(address, &data)], order);
            if fits {
                stands((&bytes, q(order)), order, address, (1, 12, &data), 24);
                stands((q(order), &bytes), order, address, (2, 12, &data), 24);
                nothing_stands((&bytes, q(order)), order, &[0, address - 1], 24);
            } else {
                find_refuses((&bytes, q(order)), order, 8, 4, 1);
                find_refuses((q(order), &bytes), order, 8, 4, 2);
            }
        }
    }
}

#[test]
fn what_stands_in_tables_at_the_limit_and_over() {
    for order in ByteOrder::BOTH {
        let size = TABLE_LIMIT as u32 - 16;
        let data: Vec<u8> = (0..size).map(|i| (i % 251) as u8).collect();
        let mut large = table(0, &[(0x2000_0000, &data)], order);
        assert_eq!(large.len(), TABLE_LIMIT);
        // Two of them, whose join would be over the limit.
        for (older, newer, named) in [
            (&large[..], &q(order)[..], 1),
            (q(order), &large, 2),
            (&large, &large, 2),
        ] {
            let pair = (older, newer);
            for skipped in [0, 1, size / 2, size - 1] {
                let part = &data[skipped as usize..];
                let expected = (named, 12 + u64::from(skipped), part);
                stands(pair, order, 0x2000_0000 + skipped, expected, 24);
            }
            nothing_stands(pair, order, &[0x1FFF_FFFF, 0x2000_0000 + size], 24);
        }
        // Over the limit: 4, in the table that is, and before its form.
        large.push(0);
        find_refuses((&large, q(order)), order, 4, 0, 1);
        find_refuses((q(order), &large), order, 4, 0, 2);
        find_refuses((&large, &large), order, 4, 0, 1);
        // The older is judged whole before the newer.
        find_refuses((&large, &p(order)[..3]), order, 4, 0, 1);
        find_refuses((&p(order)[..3], &large), order, 5, 0, 1);
        find_refuses((&p(order)[..19], &large), order, 5, 16, 1);
        find_refuses((&[&p(order)[..], &[0]].concat(), &large), order, 7, 20, 1);
    }
}

#[test]
fn what_stands_among_as_many_sections_as_the_limit_takes() {
    let count = (TABLE_LIMIT - 8) / 12;
    assert_eq!(count, 1_398_100);
    for order in ByteOrder::BOTH {
        // Each of 16 addresses is covered again and again.
        let mut many = vec![0; 4];
        for i in 0..count {
            let address = 0x0080_0000 + (i % 16) as u32;
            let pads = [0xFF, (i % 7) as u8, 1];
            many.extend(padded_section(address, &[(i % 251) as u8], &pads, order));
        }
        many.extend([0; 4]);
        // The last three sections cover 0x00800001, 0x00800002 and 0x00800003.
        let (one, two) = (8 * 1_398_101 + 8, 8 * 2_796_200 + 8);
        let end = many.len() as u64 - 4;
        let last = [(1_398_099 % 251) as u8];
        stands(
            (&many, q(order)),
            order,
            0x0080_0003,
            (1, end - 4, &last),
            one,
        );
        stands((&many, q(order)), order, 0x0080_0004, (2, 12, &[0xB7]), one);
        let before = [(1_398_098 % 251) as u8];
        stands(
            (q(order), &many),
            order,
            0x0080_0002,
            (2, end - 16, &before),
            one,
        );
        // 0x00800004 is covered 15 sections before the last.
        let earlier = [(1_398_084 % 251) as u8];
        let expected = (2, end - 4 - 12 * 15, &earlier[..]);
        stands((&many, &many), order, 0x0080_0004, expected, two);
        nothing_stands((&many, &many), order, &[0x0080_0010], two);
        // The last section cut, and past the top.
        let place = end - 12;
        find_refuses((q(order), &many[..many.len() - 5]), order, 5, place, 2);
        let at = place as usize;
        many[at..at + 8].copy_from_slice(&[header_word(2, order), [0xFF; 4]].concat());
        find_refuses((&many, q(order)), order, 8, place, 1);
    }
}

#[test]
fn what_stands_in_tables_read_in_the_wrong_order() {
    for order in ByteOrder::BOTH {
        let (right, wrong) = (order, order.other());
        // The sizes 3 and 1 are read as 0x03000000 and 0x01000000.
        for bytes in [p(wrong), q(wrong)] {
            find_refuses((bytes, q(right)), right, 5, 4, 1);
            find_refuses((p(right), bytes), right, 5, 4, 2);
            find_refuses((bytes, bytes), right, 5, 4, 1);
        }
        // Without sections only the entry is read otherwise, and it decides nothing.
        let none = table(0x0080_0004, &[], wrong);
        nothing_stands((&none, &none), right, &[0x0080_0004, 0x0400_8000], 8);
        // The address alone is turned: P's is read as 0x02008000.
        let mut turned = *p(right);
        turn_word(&mut turned, 8);
        let pair = (&turned[..], &q(right)[..]);
        stands(pair, right, 0x0200_8000, (1, 12, &[0xA1, 0xA2, 0xA3]), 24);
        nothing_stands(pair, right, &[0x0080_0002], 24);
        // The entry alone, which changes nothing.
        let mut turned = *p(right);
        turn_word(&mut turned, 0);
        let pair = (&turned[..], &q(right)[..]);
        stands(pair, right, 0x0080_0003, (1, 13, &[0xA2, 0xA3]), 24);
    }
}

#[test]
fn what_stands_under_header_words_of_different_bytes() {
    let data: Vec<u8> = (0..0x1_0203).map(|i| (i % 251) as u8).collect();
    let high = [0x12, 0x34, 0x56, 0x79, 0, 1, 2, 3, 0x12, 0x34, 0x56, 0x78];
    let low = [0x79, 0x56, 0x34, 0x12, 3, 2, 1, 0, 0x78, 0x56, 0x34, 0x12];
    for (header, order) in [(high, HighFirst), (low, LowFirst)] {
        // One pad and the zero word.
        let bytes = [&header[..], &data, &[0xFF], &[0; 4]].concat();
        for (older, newer, named) in [(&bytes[..], &q(order)[..], 1), (q(order), &bytes, 2)] {
            let pair = (older, newer);
            stands(pair, order, 0x1234_5678, (named, 12, &data), 24);
            stands(
                pair,
                order,
                0x1235_0000,
                (named, 12 + 0xA988, &data[0xA988..]),
                24,
            );
            stands(
                pair,
                order,
                0x1235_587A,
                (named, 12 + 0x1_0202, &data[0x1_0202..]),
                24,
            );
            nothing_stands(pair, order, &[0x1234_5677, 0x1235_587B, 0x7856_3412], 24);
        }
        // The size is read as 0x03020100.
        find_refuses((&bytes, q(order.other())), order.other(), 5, 4, 1);
        find_refuses((q(order.other()), &bytes), order.other(), 5, 4, 2);
    }
}

#[test]
fn what_stands_in_a_table_that_is_well_formed_in_both_orders() {
    // High first the sizes are 0x100 and 0xFEF8; low first the only size is
    // 0x10000, and the second section is data of the first.
    let bytes = [
        &[0, 0x20, 0, 0, 0, 0, 1, 0, 0, 0x20, 0, 0][..],
        &[0x11; 0x100],
        &[0, 0, 0xFE, 0xF8, 0, 0x30, 0, 0],
        &[0x22; 0xFEF8],
        &[0; 4],
    ]
    .concat();
    let none = [0; 8];
    for (older, newer, named) in [(&bytes[..], &none[..], 1), (&none, &bytes, 2)] {
        let pair = (older, newer);
        let part = |offset: usize, end: usize| (named, offset as u64, &bytes[offset..end]);
        let (first_end, second, end) = (12 + 0x100, 12 + 0x108, 12 + 0x1_0000);
        stands(pair, HighFirst, 0x0020_0000, part(12, first_end), 24);
        stands(pair, HighFirst, 0x0020_00FF, part(12 + 0xFF, first_end), 24);
        stands(pair, HighFirst, 0x0030_0000, part(second, end), 24);
        stands(pair, HighFirst, 0x0030_FEF7, part(end - 1, end), 24);
        nothing_stands(pair, HighFirst, &[0x0020_0100, 0x0000_2000], 24);
        stands(pair, LowFirst, 0x0000_2000, part(12, end), 16);
        stands(pair, LowFirst, 0x0000_20FF, part(12 + 0xFF, end), 16);
        stands(pair, LowFirst, 0x0000_2108, part(second, end), 16);
        stands(pair, LowFirst, 0x0001_1FFF, part(end - 1, end), 16);
        nothing_stands(pair, LowFirst, &[0x0001_2000, 0x0020_0000], 16);
    }
}

// The rescue of a cut table.

/// P's entry and a zero word.
fn p_entry(order: ByteOrder) -> &'static [u8; 8] {
    match order {
        HighFirst => &[0, 0x80, 0, 0, 0, 0, 0, 0],
        LowFirst => &[0, 0, 0x80, 0, 0, 0, 0, 0],
    }
}

/// P with Q's section behind its own: the sections end at 16 and 28.
fn p_then_q(order: ByteOrder) -> [u8; 32] {
    written(
        [
            0, 0x80, 0, 0, 0, 0, 0, 3, 0, 0x80, 0, 2, 0xA1, 0xA2, 0xA3, 0, 0, 0, 0, 1, 0, 0x80, 0,
            4, 0xB7, 0, 0, 0, 0, 0, 0, 0,
        ],
        &[0, 4, 8, 16, 20],
        order,
    )
}

#[test]
fn whole_tables_are_rescued_as_they_stand() {
    for order in ByteOrder::BOTH {
        rescues(p(order), order, p(order), (1, 0, false));
        rescues(q(order), order, q(order), (1, 0, false));
        rescues(p_01(order), order, p_01(order), (1, 0, false));
        rescues(p_entry(order), order, p_entry(order), (0, 0, false));
        let both = p_then_q(order);
        rescues(&both, order, &both, (2, 0, false));
    }
}

#[test]
fn p_without_its_last_bytes() {
    for order in ByteOrder::BOTH {
        // Of the zero word three bytes are left, two, one and none.
        for (length, unused) in [(19, 3), (18, 2), (17, 1), (16, 0)] {
            rescues(&p(order)[..length], order, p(order), (1, unused, true));
        }
    }
}

#[test]
fn p_cut_in_its_section() {
    for order in ByteOrder::BOTH {
        // In its size, address and data, and where its pad should stand.
        for (length, unused) in [
            (5, 1),
            (6, 2),
            (7, 3),
            (8, 4),
            (9, 5),
            (10, 6),
            (11, 7),
            (12, 8),
            (13, 9),
            (14, 10),
            (15, 11),
        ] {
            let cut = &p(order)[..length];
            rescues(cut, order, p_entry(order), (0, unused, true));
        }
    }
}

#[test]
fn p_with_bytes_after_its_zero_word() {
    for order in ByteOrder::BOTH {
        for more in [&[0][..], &[1], &[0xFF; 3], &[0; 4], &[0; 5], &[7; 40]] {
            let longer = [&p(order)[..], more].concat();
            rescues(&longer, order, p(order), (1, more.len(), false));
        }
        // Q behind it, with its entry and without.
        let longer = [&p(order)[..], q(order)].concat();
        rescues(&longer, order, p(order), (1, 20, false));
        let longer = [&p(order)[..], &q(order)[4..]].concat();
        rescues(&longer, order, p(order), (1, 16, false));
        let longer = [&p_entry(order)[..], &q(order)[4..]].concat();
        rescues(&longer, order, p_entry(order), (0, 16, false));
    }
}

#[test]
fn an_entry_word_alone_and_with_a_cut_zero_word() {
    for order in ByteOrder::BOTH {
        for entry in [[0; 4], [0xFF; 4], [0x12, 0x34, 0x56, 0x78]] {
            let result = [entry, [0; 4]].concat();
            rescues(&result[..4], order, &result, (0, 0, true));
            rescues(&result[..5], order, &result, (0, 1, true));
            rescues(&result[..7], order, &result, (0, 3, true));
            rescues(&result, order, &result, (0, 0, false));
        }
    }
}

#[test]
fn an_entry_word_that_is_missing_or_cut() {
    for order in ByteOrder::BOTH {
        for length in 0..4 {
            for bytes in [p(order), &[0; 20], &[0xFF; 20]] {
                rescue_refuses(&bytes[..length], order, &[0xEE; 40], 5);
                // 5 comes before 11.
                rescue_refuses(&bytes[..length], order, &[0xEE; 7], 5);
                rescue_refuses(&bytes[..length], order, &[], 5);
            }
        }
    }
}

#[test]
fn the_second_of_two_sections_is_cut() {
    for order in ByteOrder::BOTH {
        let both = p_then_q(order);
        for length in 16..28 {
            rescues(&both[..length], order, p(order), (1, length - 16, true));
        }
        for length in 28..32 {
            rescues(&both[..length], order, &both, (2, length - 28, true));
        }
        // A size by which the data goes on past the table, by 1 byte and by more.
        for size in [9, 12, 0x100, 0x7FFF_FFFF] {
            let mut bytes = both;
            bytes[16..20].copy_from_slice(&header_word(size, order));
            rescues(&bytes, order, p(order), (1, 16, true));
        }
        // With 4 the pads are data, and with 8 the zero word too.
        let mut bytes = both;
        bytes[16..20].copy_from_slice(&header_word(4, order));
        rescues(&bytes, order, &bytes, (2, 0, false));
        bytes[16..20].copy_from_slice(&header_word(8, order));
        let result = [&bytes[..], &[0; 4]].concat();
        rescues(&bytes, order, &result, (2, 0, true));
    }
}

#[test]
fn a_rescued_size_does_not_come_round_at_zero() {
    for order in ByteOrder::BOTH {
        // Rounded up, with its two words and its offset, such a size is 2^32 or more.
        for size in [
            0xFFFF_FFF4,
            0xFFFF_FFF5,
            0xFFFF_FFF8,
            0xFFFF_FFFC,
            0xFFFF_FFFD,
            0xFFFF_FFFE,
            0xFFFF_FFFF,
        ] {
            // With P's address, at 0, and at the highest address.
            for address in [0x0080_0002, 0, 0xFFFF_FFFF] {
                let words = [header_word(size, order), header_word(address, order)].concat();
                let mut bytes = *p(order);
                bytes[4..12].copy_from_slice(&words);
                rescues(&bytes, order, p_entry(order), (0, 16, true));
                let mut bytes = p_then_q(order);
                bytes[16..24].copy_from_slice(&words);
                rescues(&bytes, order, p(order), (1, 16, true));
                // Nothing stands behind the two words.
                rescues(&bytes[..24], order, p(order), (1, 8, true));
            }
        }
    }
}

#[test]
fn a_rescued_section_up_to_the_top_and_past_it() {
    for order in ByteOrder::BOTH {
        for (address, size, kept) in [
            (0xFFFF_FFFF, 1, true),
            (0xFFFF_FFFF, 2, false),
            (0xFFFF_FFFF, 8, false),
            (0xFFFF_FFFC, 4, true),
            (0xFFFF_FFFC, 5, false),
            (0xFFFF_FFFC, 8, false),
        ] {
            let data = vec![0x3C; size];
            let alone = table(0x0080_0000, &[(address, &data)], order);
            let unused = alone.len() - 4;
            match kept {
                true => rescues(&alone, order, &alone, (1, 0, false)),
                false => rescues(&alone, order, p_entry(order), (0, unused, true)),
            }
            // Between P's section and Q's, which is not kept then either.
            let between = [&p(order)[..16], &alone[4..unused], &q(order)[4..]].concat();
            let unused = between.len() - 16;
            match kept {
                true => rescues(&between, order, &between, (3, 0, false)),
                false => rescues(&between, order, p(order), (1, unused, true)),
            }
        }
    }
}

#[test]
fn nothing_is_rescued_behind_the_first_fault() {
    for order in ByteOrder::BOTH {
        let behind = &p_then_q(order)[4..];
        // The first section is past the top, and two whole ones stand behind it.
        let bad = [header_word(2, order), [0xFF; 4], [1, 2, 0, 0]].concat();
        let bytes = [&p_entry(order)[..4], &bad, behind].concat();
        rescues(&bytes, order, p_entry(order), (0, 40, true));
        // A size that is too large, and the same behind it.
        let bad = [header_word(100, order), [0; 4], [1, 2, 0, 0]].concat();
        let bytes = [&p_entry(order)[..4], &bad, behind].concat();
        rescues(&bytes, order, p_entry(order), (0, 40, true));
        // A zero word before them.
        let bytes = [&p_entry(order)[..], behind].concat();
        rescues(&bytes, order, p_entry(order), (0, 28, false));
        // And in place of Q's size.
        let mut bytes = p_then_q(order);
        bytes[16..20].fill(0);
        rescues(&bytes, order, p(order), (1, 12, false));
    }
}

#[test]
fn pads_are_rescued_as_they_stand() {
    for order in ByteOrder::BOTH {
        let bytes = written(
            [
                0, 0, 0, 1, 0, 0, 0, 1, 0, 0, 0, 0x10, 0xA1, 0xFF, 0xFF, 0xFF, 0, 0, 0, 2, 0, 0, 0,
                0x20, 0xA2, 0xA3, 0xFF, 0xFF, 0, 0, 0, 3, 0, 0, 0, 0x30, 0xA4, 0xA5, 0xA6, 0xFF, 0,
                0, 0, 0,
            ],
            &[0, 4, 8, 16, 20, 28, 32],
            order,
        );
        rescues(&bytes, order, &bytes, (3, 0, false));
        rescues(&bytes[..41], order, &bytes, (3, 1, true));
        rescues(&bytes[..40], order, &bytes, (3, 0, true));
        // The last section without its pad, and the one before without its last.
        let two = [&bytes[..28], &[0; 4]].concat();
        rescues(&bytes[..39], order, &two, (2, 11, true));
        rescues(&bytes[..28], order, &two, (2, 0, true));
        let one = [&bytes[..16], &[0; 4]].concat();
        rescues(&bytes[..27], order, &one, (1, 11, true));
        rescues(&bytes[..26], order, &one, (1, 10, true));
        // The first with none of its three pads, one and two.
        for length in 13..16 {
            let none = [&bytes[..4], &[0; 4]].concat();
            rescues(&bytes[..length], order, &none, (0, length - 4, true));
        }
    }
}

#[test]
fn rescue_outputs_exact_short_empty_and_longer() {
    for order in ByteOrder::BOTH {
        let longer = [&p(order)[..], &[7; 100]].concat();
        // Whole, cut, and with more bytes than the output has.
        for (bytes, unused, added) in [
            (&p(order)[..], 0, false),
            (&p(order)[..19], 3, true),
            (&p(order)[..16], 0, true),
            (&longer, 100, false),
        ] {
            rescues(bytes, order, p(order), (1, unused, added));
            for length in 0..20 {
                rescue_refuses(bytes, order, &vec![0xEE; length], 11);
            }
            let answer = RescueAnswer {
                number: 0,
                place: 0,
                length: 20,
                sections: 1,
                unused: unused as u64,
                added: u64::from(added),
            };
            for more in [1, 2, 3, 4, 100] {
                let before = vec![0xEE; 20 + more];
                let after = [&p(order)[..], &vec![0xEE; more]].concat();
                rescue_gives(bytes, order, &before, answer, &after);
            }
        }
        // The entry and the zero word alone.
        for length in 0..8 {
            rescue_refuses(&p(order)[..15], order, &vec![0xEE; length], 11);
        }
    }
}

#[test]
fn words_in_data_are_not_rescued_apart() {
    for order in ByteOrder::BOTH {
        // The data has a zero word, and then P's section and a zero word.
        let data = [&[0; 4], &p(order)[4..]].concat();
        let bytes = table(0x0080_0000, &[(0x0070_0000, &data)], order);
        assert_eq!(bytes.len(), 36);
        rescues(&bytes, order, &bytes, (1, 0, false));
        rescues(&bytes[..32], order, &bytes, (1, 0, true));
        // Cut by one byte nothing is kept, not even what its data seems to have.
        rescues(&bytes[..31], order, p_entry(order), (0, 27, true));
    }
}

#[test]
fn tables_rescued_in_the_wrong_order() {
    for order in ByteOrder::BOTH {
        let (right, wrong) = (order, order.other());
        // The size 3 is read as 0x03000000. The entry is kept as it stands.
        rescues(p(right), wrong, p_entry(right), (0, 16, true));
        let both = p_then_q(right);
        rescues(&both, wrong, p_entry(right), (0, 28, true));
        // Without sections there is nothing to read but the zero word.
        rescues(p_entry(right), wrong, p_entry(right), (0, 0, false));
        // One size alone in the other order: P's section is kept, Q's is not.
        let mut turned = both;
        turn_word(&mut turned, 16);
        rescues(&turned, right, p(right), (1, 16, true));
        // An address of 0xFF alone is read as 0xFF000000, and kept as it stands.
        let mut turned = both;
        turned[20..24].copy_from_slice(&header_word(0xFF, wrong));
        rescues(&turned, right, &turned, (2, 0, false));
        // At 0xFFFFFF01 there is room for 255 bytes, and not for 256, which there is if
        // the address is read as 0x01FFFFFF.
        let fits = table(0x0080_0000, &[(0xFFFF_FF01, &[0x3C; 255])], right);
        rescues(&fits, right, &fits, (1, 0, false));
        let mut over = table(0x0080_0000, &[(0xFFFF_FF01, &[0x3C; 256])], right);
        rescues(&over, right, p_entry(right), (0, 268, true));
        turn_word(&mut over, 8);
        rescues(&over, right, &over, (1, 0, false));
    }
}

#[test]
fn rescues_under_header_words_of_different_bytes() {
    let data: Vec<u8> = (0..0x1_0203).map(|i| (i % 251) as u8).collect();
    let high = [0x12, 0x34, 0x56, 0x79, 0, 1, 2, 3, 0x12, 0x34, 0x56, 0x78];
    let low = [0x79, 0x56, 0x34, 0x12, 3, 2, 1, 0, 0x78, 0x56, 0x34, 0x12];
    for (header, order) in [(high, HighFirst), (low, LowFirst)] {
        // One pad and the zero word.
        let bytes = [&header[..], &data, &[0xFF], &[0; 4]].concat();
        let end = 12 + 0x1_0204;
        let none = [&header[..4], &[0; 4]].concat();
        rescues(&bytes, order, &bytes, (1, 0, false));
        rescues(&bytes[..end + 3], order, &bytes, (1, 3, true));
        rescues(&bytes[..end], order, &bytes, (1, 0, true));
        rescues(&bytes[..end - 1], order, &none, (0, end - 5, true));
        // The size is read as 0x03020100.
        rescues(&bytes, order.other(), &none, (0, end, true));
    }
}

#[test]
fn a_rescued_table_that_is_well_formed_in_both_orders() {
    // High first the sizes are 0x100 and 0xFEF8; low first the only size is
    // 0x10000, and the second section is data of the first.
    let bytes = [
        &[0, 0x20, 0, 0, 0, 0, 1, 0, 0, 0x20, 0, 0][..],
        &[0x11; 0x100],
        &[0, 0, 0xFE, 0xF8, 0, 0x30, 0, 0],
        &[0x22; 0xFEF8],
        &[0; 4],
    ]
    .concat();
    let end = 12 + 0x1_0000;
    rescues(&bytes, HighFirst, &bytes, (2, 0, false));
    rescues(&bytes, LowFirst, &bytes, (1, 0, false));
    rescues(&bytes[..end], HighFirst, &bytes, (2, 0, true));
    rescues(&bytes[..end], LowFirst, &bytes, (1, 0, true));
    // Cut by one byte more.
    let first = [&bytes[..12 + 0x100], &[0; 4]].concat();
    rescues(&bytes[..end - 1], HighFirst, &first, (1, 0xFEFF, true));
    let none = [&bytes[..4], &[0; 4]].concat();
    rescues(&bytes[..end - 1], LowFirst, &none, (0, 0x1_0007, true));
}

#[test]
fn rescues_at_the_limit_and_over() {
    for order in ByteOrder::BOTH {
        let limit = TABLE_LIMIT;
        assert_eq!(limit, 16_777_216);
        // One section, and the zero word in the last four bytes.
        let data = vec![0xC4; limit - 16];
        let mut bytes = table(0x0080_0000, &[(0x2000_0000, &data)], order);
        assert_eq!(bytes.len(), limit);
        let whole = bytes.clone();
        rescues(&bytes, order, &whole, (1, 0, false));
        // The zero word is cut, and the result has as many bytes as the limit allows.
        rescues(&bytes[..limit - 1], order, &whole, (1, 3, true));
        rescues(&bytes[..limit - 4], order, &whole, (1, 0, true));
        let short = vec![0xEE; limit - 1];
        rescue_refuses(&bytes, order, &short, 11);
        rescue_refuses(&bytes[..limit - 4], order, &short, 11);
        // Another word stands there.
        bytes[limit - 2] = 1;
        rescues(&bytes, order, &whole, (1, 4, true));
        // Sections that reach to the last byte, one or two of them: 10, which comes before
        // 11.
        for size in [limit - 12, limit - 13, limit - 15] {
            bytes[4..8].copy_from_slice(&header_word(size as u32, order));
            rescue_refuses(&bytes, order, &vec![0xEE; limit + 4], 10);
            rescue_refuses(&bytes, order, &short, 10);
            rescue_refuses(&bytes, order, &[], 10);
            // One byte less, and the section is cut.
            rescues(
                &bytes[..limit - 1],
                order,
                p_entry(order),
                (0, limit - 5, true),
            );
        }
        bytes[4..8].copy_from_slice(&header_word(limit as u32 - 24, order));
        let words = [header_word(1, order), header_word(7, order)].concat();
        bytes[limit - 12..limit - 4].copy_from_slice(&words);
        rescue_refuses(&bytes, order, &vec![0xEE; limit + 4], 10);
        // A section that goes on past the limit is cut.
        bytes[4..8].copy_from_slice(&header_word(limit as u32 - 11, order));
        rescues(&bytes, order, p_entry(order), (0, limit - 4, true));
        // Over the limit: 4, whatever the bytes are, and before 11.
        for first in [&whole[..], &bytes, &vec![0; limit]] {
            let over = [first, &[0]].concat();
            rescue_refuses(&over, order, &[0xEE; 40], 4);
            rescue_refuses(&over, order, &[], 4);
        }
    }
}

#[test]
fn as_many_rescued_sections_as_the_limit_takes() {
    let count = (TABLE_LIMIT - 8) / 12;
    assert_eq!(count, 1_398_100);
    for order in ByteOrder::BOTH {
        let mut many = vec![0; 4];
        for i in 0..count {
            let address = 0x0080_0000 + (i % 16) as u32;
            let pads = [0xFF, (i % 7) as u8, 1];
            many.extend(padded_section(address, &[(i % 251) as u8], &pads, order));
        }
        many.extend([0; 4]);
        let end = many.len() - 4;
        rescues(&many, order, &many, (1_398_100, 0, false));
        // Cut right behind the last section, and in it.
        rescues(&many[..end], order, &many, (1_398_100, 0, true));
        let less = [&many[..end - 12], &[0; 4]].concat();
        rescues(&many[..end - 1], order, &less, (1_398_099, 11, true));
        // The last section past the top, and then one in the middle.
        let bad = [header_word(2, order), [0xFF; 4]].concat();
        many[end - 12..end - 4].copy_from_slice(&bad);
        rescues(&many, order, &less, (1_398_099, 16, true));
        let middle = 4 + 12 * 700_000;
        many[middle..middle + 8].copy_from_slice(&bad);
        let half = [&many[..middle], &[0; 4]].concat();
        let unused = many.len() - middle;
        rescues(&many, order, &half, (700_000, unused, true));
    }
}

// Byte orders.

#[test]
fn p_and_q_low_first() {
    let after = with(&[(2, 0xA1), (3, 0xA2), (4, 0xA3)]);
    let answer = accepted(0x0080_0000, 1, 1, 3);
    load_gives(&M, &P_LOW, LowFirst, &MEMORY, answer, &after);
    let after = with(&[(4, 0xB7)]);
    let answer = accepted(0x0080_0004, 1, 1, 1);
    load_gives(&M, &Q_LOW, LowFirst, &MEMORY, answer, &after);
}

#[test]
fn p_and_q_joined_low_first() {
    let result = [
        4, 0, 0x80, 0, 3, 0, 0, 0, 2, 0, 0x80, 0, 0xA1, 0xA2, 0xA3, 0, 1, 0, 0, 0, 4, 0, 0x80, 0,
        0xB7, 0, 0, 0, 0, 0, 0, 0,
    ];
    join_gives(
        &P_LOW,
        &Q_LOW,
        LowFirst,
        &[0xEE; 32],
        joined(32, 2),
        &result,
    );
    let after = with(&[(2, 0xA1), (3, 0xA2), (4, 0xB7)]);
    let answer = accepted(0x0080_0004, 1, 2, 4);
    load_gives(&M, &result, LowFirst, &MEMORY, answer, &after);
    let result = [
        0, 0, 0x80, 0, 1, 0, 0, 0, 4, 0, 0x80, 0, 0xB7, 0, 0, 0, 3, 0, 0, 0, 2, 0, 0x80, 0, 0xA1,
        0xA2, 0xA3, 0, 0, 0, 0, 0,
    ];
    join_gives(
        &Q_LOW,
        &P_LOW,
        LowFirst,
        &[0xEE; 32],
        joined(32, 2),
        &result,
    );
    let after = with(&[(2, 0xA1), (3, 0xA2), (4, 0xA3)]);
    let answer = accepted(0x0080_0000, 1, 2, 4);
    load_gives(&M, &result, LowFirst, &MEMORY, answer, &after);
}

#[test]
fn tables_read_in_the_wrong_order() {
    // The sizes 3 and 1 are read as 0x03000000 and 0x01000000.
    for (bytes, order) in [
        (&P, LowFirst),
        (&Q, LowFirst),
        (&P_LOW, HighFirst),
        (&Q_LOW, HighFirst),
    ] {
        form_refused(bytes, order, 5, 4);
        // Both in the wrong order: the first's fault is answered.
        for other in [p(order.other()), q(order.other())] {
            let answer = join_refused(5, 4, 1);
            join_refuses(bytes, other, order, &[0xEE; 32], answer);
        }
    }
    // The joins of P and Q, both ways.
    for order in ByteOrder::BOTH {
        for (first, second) in [(p(order), q(order)), (q(order), p(order))] {
            let result = [&second[..4], &first[4..16], &second[4..]].concat();
            form_refused(&result, order.other(), 5, 4);
        }
    }
}

#[test]
fn one_header_word_in_the_wrong_order() {
    for order in ByteOrder::BOTH {
        let turned = |at| {
            let mut bytes = *p(order);
            turn_word(&mut bytes, at);
            bytes
        };
        // The entry is read as 0x00008000, which is not open.
        let after = with(&[(2, 0xA1), (3, 0xA2), (4, 0xA3)]);
        let answer = accepted(0x0000_8000, 0, 1, 3);
        load_gives(&M, &turned(0), order, &MEMORY, answer, &after);
        // The join takes the second's entry as it stands.
        let result = [&turned(0)[..4], &q(order)[4..16], &p(order)[4..]].concat();
        let answer = joined(32, 2);
        join_gives(q(order), &turned(0), order, &[0xEE; 32], answer, &result);
        form_refused(&turned(4), order, 5, 4);
        // The address is read as 0x02008000.
        let answer = not_open(9, 4, 0x0200_8000);
        load_refuses(&M, &turned(8), order, &MEMORY, answer);
    }
}

#[test]
fn header_words_of_different_bytes() {
    let data: Vec<u8> = (0..0x1_0203).map(|i| (i % 251) as u8).collect();
    let regions = map(&[(1, 0x1234_5678, 0x1_0203)]);
    let before = vec![0x77; data.len()];
    let answer = accepted(0x1234_5679, 1, 1, 0x1_0203);
    let high = [0x12, 0x34, 0x56, 0x79, 0, 1, 2, 3, 0x12, 0x34, 0x56, 0x78];
    let low = [0x79, 0x56, 0x34, 0x12, 3, 2, 1, 0, 0x78, 0x56, 0x34, 0x12];
    for (header, order) in [(high, HighFirst), (low, LowFirst)] {
        // One pad and the zero word.
        let bytes = [&header[..], &data, &[0xFF], &[0; 4]].concat();
        load_gives(&regions, &bytes, order, &before, answer, &data);
        // The size is read as 0x03020100.
        load_refuses(&regions, &bytes, order.other(), &before, refused(5, 4));
    }
}

#[test]
fn header_words_that_read_the_same_both_ways() {
    // Entry 0x00808000, size 0x00010100, address 0x80000080.
    let header = [0, 0x80, 0x80, 0, 0, 1, 1, 0, 0x80, 0, 0, 0x80];
    let data: Vec<u8> = (0..0x1_0100).map(|i| (i % 251) as u8).collect();
    let bytes = [&header[..], &data, &[0; 4]].concat();
    let regions = map(&[(1, 0x0080_8000, 1), (1, 0x8000_0080, 0x1_0100)]);
    let before = vec![0x77; data.len() + 1];
    let after = [&[0x77], &data[..]].concat();
    let twice = [&bytes[..data.len() + 12], &bytes[4..]].concat();
    let length = twice.len();
    for order in ByteOrder::BOTH {
        let answer = accepted(0x0080_8000, 1, 1, 0x1_0100);
        load_gives(&regions, &bytes, order, &before, answer, &after);
        let output = vec![0xEE; length];
        let answer = joined(length as u64, 2);
        join_gives(&bytes, &bytes, order, &output, answer, &twice);
    }
}

#[test]
fn a_table_that_is_well_formed_in_both_orders() {
    // High first the sizes are 0x100 and 0xFEF8; low first the only size is
    // 0x10000, and the second section is data of the first.
    let bytes = [
        &[0, 0x20, 0, 0, 0, 0, 1, 0, 0, 0x20, 0, 0][..],
        &[0x11; 0x100],
        &[0, 0, 0xFE, 0xF8, 0, 0x30, 0, 0],
        &[0x22; 0xFEF8],
        &[0; 4],
    ]
    .concat();
    let length = bytes.len();
    assert_eq!(length, 12 + 0x1_0000 + 4);
    let high = map(&[(1, 0x0020_0000, 0x100), (1, 0x0030_0000, 0xFEF8)]);
    let after = [&[0x11; 0x100][..], &[0x22; 0xFEF8]].concat();
    let answer = accepted(0x0020_0000, 1, 2, 0xFFF8);
    load_gives(&high, &bytes, HighFirst, &[0x77; 0xFFF8], answer, &after);
    let answer = not_open(9, 4, 0x0000_2000);
    load_refuses(&high, &bytes, LowFirst, &[0x77; 0xFFF8], answer);
    let low = map(&[(1, 0x0000_2000, 0x1_0000)]);
    let after = &bytes[12..length - 4];
    let answer = accepted(0x0000_2000, 1, 1, 0x1_0000);
    load_gives(&low, &bytes, LowFirst, &[0x77; 0x1_0000], answer, after);
    let answer = not_open(9, 4, 0x0020_0000);
    load_refuses(&low, &bytes, HighFirst, &[0x77; 0x1_0000], answer);
    // The join has the same bytes, and another count of sections.
    let twice = [&bytes[..length - 4], &bytes[4..]].concat();
    let output = vec![0xEE; twice.len()];
    for (order, sections) in [(HighFirst, 4), (LowFirst, 2)] {
        let answer = joined(twice.len() as u64, sections);
        join_gives(&bytes, &bytes, order, &output, answer, &twice);
    }
}

#[test]
fn entries_in_each_order() {
    for (entry, high, low) in [
        ([0, 0, 0, 0], (0, 0), (0, 0)),
        ([0xFF; 4], (0xFFFF_FFFF, 0), (0xFFFF_FFFF, 0)),
        ([0, 0x80, 0x80, 0], (0x0080_8000, 0), (0x0080_8000, 0)),
        ([0, 0x80, 0, 0], (0x0080_0000, 1), (0x0000_8000, 0)),
        ([0, 0, 0x80, 0], (0x0000_8000, 0), (0x0080_0000, 1)),
        ([0, 0x80, 0, 0x0F], (0x0080_000F, 1), (0x0F00_8000, 0)),
        ([0x0F, 0, 0x80, 0], (0x0F00_8000, 0), (0x0080_000F, 1)),
        ([0x10, 0, 0x80, 0], (0x1000_8000, 0), (0x0080_0010, 0)),
        ([0, 0, 0, 1], (1, 0), (0x0100_0000, 0)),
        ([1, 0, 0, 0], (0x0100_0000, 0), (1, 0)),
        ([1, 2, 3, 4], (0x0102_0304, 0), (0x0403_0201, 0)),
    ] {
        let bytes = [entry, [0; 4]].concat();
        for (order, (value, open)) in [(HighFirst, high), (LowFirst, low)] {
            let answer = accepted(value, open, 0, 0);
            load_gives(&M, &bytes, order, &MEMORY, answer, &MEMORY);
            // As the second table of a join it gives its entry as it stands.
            let result = [&entry, &p(order)[4..]].concat();
            join_gives(p(order), &bytes, order, &[0xEE; 20], joined(20, 1), &result);
        }
    }
}

#[test]
fn a_zero_word_has_four_zero_bytes() {
    for order in ByteOrder::BOTH {
        // One byte that is not zero makes it a size, and the section is cut.
        for at in 4..8 {
            for byte in [1, 0x80, 0xFF] {
                let mut bytes = [0; 8];
                bytes[at] = byte;
                form_refused(&bytes, order, 5, 4);
            }
        }
        // The same behind a section.
        for at in 16..20 {
            let mut bytes = *p(order);
            bytes[at] = 1;
            form_refused(&bytes, order, 5, 16);
        }
        // A size of 1 in the other order behind the zero word is not read.
        let longer = [&p(order)[..], &header_word(1, order.other())].concat();
        form_refused(&longer, order, 7, 20);
    }
}

#[test]
fn maps_are_high_first_in_both_orders() {
    // First address 0x00010000, length 0x100. Low first it would be the other
    // way round: 0x100 and 0x00010000.
    let regions = [0x52, 0x47, 1, 0, 0, 1, 0, 0, 0, 0, 1, 0];
    map_gives(&regions, 0, 0, 0x100);
    let before = [0x77; 0x100];
    // Over the top, which low first it would not be.
    let over = [0x52, 0x47, 1, 0, 0xFF, 0xFF, 0xFF, 1, 0, 0, 1, 0];
    for order in ByteOrder::BOTH {
        let inside = table(0x0000_0200, &[(0x0001_0004, &[0xC1, 0xC2])], order);
        let mut after = before;
        after[4..6].copy_from_slice(&[0xC1, 0xC2]);
        let answer = accepted(0x0000_0200, 0, 1, 2);
        load_gives(&regions, &inside, order, &before, answer, &after);
        load_refuses(&regions, &inside, order, &[0x77; 64], refused(3, 0));
        let outside = table(0, &[(0x0000_8000, &[0xC1])], order);
        let answer = not_open(9, 4, 0x0000_8000);
        load_refuses(&regions, &outside, order, &before, answer);
        load_refuses(&over, &inside, order, &before, refused(2, 0));
    }
}

#[test]
fn data_and_pads_are_never_reordered() {
    let data: Vec<u8> = (1..=14).collect();
    let sections: [(u32, &[u8], &[u8]); 3] = [
        (0x0080_0000, &data[..4], &[]),
        (0x0080_0004, &data[4..12], &[]),
        (0x0080_000C, &data[12..], &[0xF1, 0xF2]),
    ];
    let after = [&data[..], &MEMORY[14..]].concat();
    for order in ByteOrder::BOTH {
        let bytes = padded_table(0x0080_0000, &sections, order);
        let answer = accepted(0x0080_0000, 1, 3, 14);
        load_gives(&M, &bytes, order, &MEMORY, answer, &after);
        assert_eq!(bytes.len(), 48);
        let result = [&q(order)[..4], &bytes[4..44], &q(order)[4..]].concat();
        join_gives(&bytes, q(order), order, &[0xEE; 60], joined(60, 4), &result);
        assert_eq!(result[12..16], [1, 2, 3, 4]);
        assert_eq!(result[24..32], [5, 6, 7, 8, 9, 10, 11, 12]);
        assert_eq!(result[40..44], [13, 14, 0xF1, 0xF2]);
    }
}

// Memory that takes one write.

/// Address and data of a section.
type Section<'a> = (u32, &'a [u8]);
/// The sections of a table.
type Sections<'a> = &'a [Section<'a>];

/// A table is accepted in both orders, with entry 0, which is not open, and
/// `MEMORY` changes at these places.
fn stores(map: &[u8], sections: Sections, bytes: u64, changes: &[(usize, u8)]) {
    let answer = accepted(0, 0, sections.len() as u64, bytes);
    for order in ByteOrder::BOTH {
        let bytes = table(0, sections, order);
        load_gives(map, &bytes, order, &MEMORY, answer, &with(changes));
    }
}

/// A table is refused in both orders.
fn refuses(map: &[u8], sections: Sections, answer: LoadAnswer) {
    for order in ByteOrder::BOTH {
        let bytes = table(0, sections, order);
        load_refuses(map, &bytes, order, &MEMORY, answer);
    }
}

/// A table is refused with 29 in both orders, at this place.
fn repeats(map: &[u8], sections: Sections, place: u64) {
    refuses(map, sections, refused(29, place));
}

#[test]
fn one_write_p_and_q() {
    for order in ByteOrder::BOTH {
        let after_p = with(&[(2, 0xA1), (3, 0xA2), (4, 0xA3)]);
        let answer = accepted(0x0080_0000, 1, 1, 3);
        load_gives(&M_3, p(order), order, &MEMORY, answer, &after_p);
        load_gives(&M_3, p_01(order), order, &MEMORY, answer, &after_p);
        let after_q = with(&[(4, 0xB7)]);
        let answer = accepted(0x0080_0004, 1, 1, 1);
        load_gives(&M_3, q(order), order, &MEMORY, answer, &after_q);
    }
}

#[test]
fn one_write_p_joined_with_q_both_ways() {
    for order in ByteOrder::BOTH {
        // The join needs no map and succeeds; Q's section stands at 16.
        let result = written(
            [
                0, 0x80, 0, 4, 0, 0, 0, 3, 0, 0x80, 0, 2, 0xA1, 0xA2, 0xA3, 0, 0, 0, 0, 1, 0, 0x80,
                0, 4, 0xB7, 0, 0, 0, 0, 0, 0, 0,
            ],
            &[0, 4, 8, 16, 20],
            order,
        );
        let answer = joined(32, 2);
        join_gives(p(order), q(order), order, &[0xEE; 32], answer, &result);
        load_refuses(&M_3, &result, order, &MEMORY, refused(29, 16));
        // P's section stands at 16.
        let result = written(
            [
                0, 0x80, 0, 0, 0, 0, 0, 1, 0, 0x80, 0, 4, 0xB7, 0, 0, 0, 0, 0, 0, 3, 0, 0x80, 0, 2,
                0xA1, 0xA2, 0xA3, 0, 0, 0, 0, 0,
            ],
            &[0, 4, 8, 16, 20],
            order,
        );
        join_gives(q(order), p(order), order, &[0xEE; 32], answer, &result);
        load_refuses(&M_3, &result, order, &MEMORY, refused(29, 16));
        // A table joined with itself.
        let twice = [&p(order)[..16], &p(order)[4..]].concat();
        join_gives(p(order), p(order), order, &[0xEE; 32], answer, &twice);
        load_refuses(&M_3, &twice, order, &MEMORY, refused(29, 16));
    }
}

#[test]
fn separate_loads_start_afresh() {
    for order in ByteOrder::BOTH {
        for (name, _, load) in LOADS {
            let mut memory = MEMORY;
            for (bytes, answer, changes) in [
                (p(order), accepted(0x0080_0000, 1, 1, 3), [0xA1, 0xA2, 0xA3]),
                (q(order), accepted(0x0080_0004, 1, 1, 1), [0xA1, 0xA2, 0xB7]),
                (q(order), accepted(0x0080_0004, 1, 1, 1), [0xA1, 0xA2, 0xB7]),
                (p(order), accepted(0x0080_0000, 1, 1, 3), [0xA1, 0xA2, 0xA3]),
            ] {
                assert_eq!(load(&M_3, bytes, order, &mut memory), answer, "{name}");
                let mut after = MEMORY;
                after[2..5].copy_from_slice(&changes);
                assert_eq!(memory, after, "{name}");
            }
        }
    }
}

#[test]
fn kind_3_beside_kinds_that_are_none() {
    for kind in (0..=255).filter(|kind| ![1, 2, 3].contains(kind)) {
        let regions = map(&[(3, 0x0080_0000, 16), (kind, 0x0090_0000, 1)]);
        map_gives(&regions, 2, 1, 0);
        for order in ByteOrder::BOTH {
            load_refuses(&regions, p(order), order, &MEMORY, refused(2, 1));
        }
        map_gives(&map(&[(kind, 5, 1), (3, 0x0080_0000, 16)]), 2, 0, 0);
    }
    // A kind 3 record has no other freedom: mark, zero byte, length, top.
    map_gives(&[0x52, 0x46, 3, 0, 0, 0, 0, 1, 0, 0, 0, 1], 2, 0, 0);
    map_gives(&[0x52, 0x47, 3, 3, 0, 0, 0, 1, 0, 0, 0, 1], 2, 0, 0);
    map_gives(&map(&[(3, 1, 0)]), 2, 0, 0);
    map_gives(&map(&[(3, 0xFFFF_FFFF, 2)]), 2, 0, 0);
}

#[test]
fn kinds_1_and_3_touching_overlapping_equal() {
    for (one, two) in [(3, 3), (3, 1), (1, 3)] {
        map_gives(&map(&[(one, 100, 10), (two, 110, 5)]), 0, 0, 15);
        map_gives(&map(&[(one, 110, 5), (two, 100, 10)]), 0, 0, 15);
        map_gives(&map(&[(one, 100, 10), (two, 109, 5)]), 2, 1, 0);
        map_gives(&map(&[(one, 109, 5), (two, 100, 10)]), 2, 1, 0);
        map_gives(&map(&[(one, 100, 10), (two, 100, 10)]), 2, 1, 0);
        map_gives(&map(&[(one, 100, 10), (two, 104, 1)]), 2, 1, 0);
        map_gives(&map(&[(one, 104, 1), (two, 100, 10)]), 2, 1, 0);
        // Not the neighbour but the first of three; then none.
        for middle in [1, 3] {
            let shared = map(&[(one, 100, 10), (middle, 200, 10), (two, 95, 6)]);
            map_gives(&shared, 2, 2, 0);
            let apart = map(&[(one, 100, 10), (middle, 200, 10), (two, 95, 5)]);
            map_gives(&apart, 0, 0, 25);
        }
        // A reserved record between them takes no part in this.
        let between = map(&[(one, 100, 10), (2, 95, 30), (two, 110, 1)]);
        map_gives(&between, 0, 0, 11);
        map_gives(&map(&[(one, 100, 10), (2, 95, 30), (two, 109, 1)]), 2, 2, 0);
    }
    for order in ByteOrder::BOTH {
        let shared = map(&[(1, 0x0080_0000, 8), (3, 0x0080_0007, 8)]);
        load_refuses(&shared, p(order), order, &MEMORY, refused(2, 1));
    }
}

#[test]
fn reserved_records_over_kind_3() {
    // Before and behind it, over a part, all of it and more.
    for reserved in [(2, 100, 1), (2, 109, 1), (2, 90, 50), (2, 100, 10)] {
        map_gives(&map(&[(3, 100, 10), reserved]), 0, 0, 10);
        map_gives(&map(&[reserved, (3, 100, 10)]), 0, 0, 10);
    }
    let hole = map(&[(3, 0x0080_0000, 16), (2, 0x0080_0003, 1)]);
    let first = map(&[(2, 0x0080_0003, 1), (3, 0x0080_0000, 16)]);
    for regions in [hole, first] {
        for order in ByteOrder::BOTH {
            let closed = not_open(9, 4, 0x0080_0003);
            load_refuses(&regions, p(order), order, &MEMORY, closed);
            // The entry is not open where the reserved record lies.
            let none = table(0x0080_0003, &[], order);
            let answer = accepted(0x0080_0003, 0, 0, 0);
            load_gives(&regions, &none, order, &MEMORY, answer, &MEMORY);
        }
        // A repeated address beside the hole, and the hole in the third section,
        // in the first, and in both that share an address.
        let (five, again): (Section, Section) = ((0x0080_0005, &[1]), (0x0080_0005, &[2]));
        let over: Section = (0x0080_0002, &[3, 4, 5]);
        repeats(&regions, &[five, again], 16);
        refuses(&regions, &[five, again, over], not_open(9, 28, 0x0080_0003));
        refuses(&regions, &[over, five, again], not_open(9, 4, 0x0080_0003));
        refuses(&regions, &[over, over], not_open(9, 4, 0x0080_0003));
        refuses(&regions, &[five, over, again], not_open(9, 16, 0x0080_0003));
    }
}

#[test]
fn the_permitted_sum_of_kinds_1_and_3() {
    let regions = map(&[
        (3, 0x0080_0000, 4),
        (2, 0x0080_0002, 9),
        (1, 0x0080_0010, 5),
        (3, 0x0080_0020, 7),
    ]);
    map_gives(&regions, 0, 0, 16);
    let long = [&MEMORY[..], &[0x70]].concat();
    for order in ByteOrder::BOTH {
        let none = table(0x0080_0026, &[], order);
        let answer = accepted(0x0080_0026, 1, 0, 0);
        load_gives(&regions, &none, order, &MEMORY, answer, &MEMORY);
        for memory in [&[], &MEMORY[..5], &MEMORY[..11], &MEMORY[..15], &long] {
            load_refuses(&regions, &none, order, memory, refused(3, 0));
        }
    }
    map_gives(&map(&[(3, 0xFFFF_FFFF, 1)]), 0, 0, 1);
    map_gives(&map(&[(3, 1, 0xFFFF_FFFF)]), 0, 0, 0xFFFF_FFFF);
    map_gives(&map(&[(3, 1, 0xFFFF_FFFF), (1, 0, 2)]), 2, 1, 0);
    for (one, two) in [(3, 3), (3, 1), (1, 3)] {
        let all = map(&[(one, 1, 0xFFFF_FFFF), (two, 0, 1)]);
        map_gives(&all, 0, 0, 0x1_0000_0000);
    }
    let ones: Vec<(u8, u32, u32)> = (0..65)
        .map(|i| (if i % 2 == 0 { 3 } else { 1 }, 0x1000 + 2 * i, 1))
        .collect();
    map_gives(&map(&ones[..64]), 0, 0, 64);
    map_gives(&map(&ones), 1, 0, 0);
}

#[test]
fn places_in_memory_under_kinds_1_and_3() {
    // The records touch; whatever their kinds are, 8 to 11 come first in memory,
    // then 0 to 3, 12 to 15, and 4 to 7.
    let data: Vec<u8> = (0x80..0x90).collect();
    let after = [&data[8..12], &data[..4], &data[12..], &data[4..8]].concat();
    for kinds in 0..16 {
        let kind = |bit: u32| if kinds >> bit & 1 == 1 { 3 } else { 1 };
        let regions = map(&[
            (kind(0), 0x0080_0008, 4),
            (kind(1), 0x0080_0000, 4),
            (2, 0x0070_0000, 0x0010_0000),
            (kind(2), 0x0080_000C, 4),
            (kind(3), 0x0080_0004, 4),
        ]);
        map_gives(&regions, 0, 0, 16);
        for order in ByteOrder::BOTH {
            // One section over all records; it repeats nothing by itself.
            let whole = table(0x0080_000F, &[(0x0080_0000, &data)], order);
            let answer = accepted(0x0080_000F, 1, 1, 16);
            load_gives(&regions, &whole, order, &MEMORY, answer, &after);
        }
        // Two bytes on each side of an edge, and one byte elsewhere.
        stores(
            &regions,
            &[(0x0080_0006, &[1, 2, 3, 4]), (0x0080_000F, &[5])],
            5,
            &[(14, 1), (15, 2), (0, 3), (1, 4), (11, 5)],
        );
    }
}

#[test]
fn a_repeated_address_first_last_and_alone() {
    // The first section stores 4 to 7.
    let first: Section = (0x0080_0004, &[1, 2, 3, 4]);
    let seconds: [Section; 10] = [
        // Its first address is repeated, its last one is.
        (0x0080_0007, &[5, 6, 7]),
        (0x0080_0002, &[5, 6, 7]),
        // Each address alone; an equal byte is a repeat too.
        (0x0080_0004, &[1]),
        (0x0080_0005, &[5]),
        (0x0080_0006, &[5]),
        (0x0080_0007, &[5]),
        // The same addresses, some inside, and all with more around them.
        (0x0080_0004, &[1, 2, 3, 4]),
        (0x0080_0005, &[5, 6]),
        (0x0080_0003, &[5, 6, 7, 8, 9, 10]),
        (0x0080_0000, &[5; 16]),
    ];
    for second in seconds {
        repeats(&M_3, &[first, second], 16);
        let place = 12 + second.1.len().next_multiple_of(4) as u64;
        repeats(&M_3, &[second, first], place);
        // The second alone is accepted, and both are under M, without kind 3.
        for order in ByteOrder::BOTH {
            for (name, judge, _) in LOADS {
                let alone = table(0, &[second], order);
                let answer = accepted(0, 0, 1, second.1.len() as u64);
                assert_eq!(judge(&M_3, &alone, order), answer, "{name}");
                let both = table(0, &[first, second], order);
                let answer = accepted(0, 0, 2, 4 + second.1.len() as u64);
                assert_eq!(judge(&M, &both, order), answer, "{name}");
            }
        }
    }
}

#[test]
fn sections_that_touch_repeat_nothing() {
    let first: Section = (0x0080_0004, &[1, 2, 3, 4]);
    let stored = [(4, 1), (5, 2), (6, 3), (7, 4)];
    let ends: [(Section, &[(usize, u8)]); 4] = [
        ((0x0080_0008, &[5]), &[(8, 5)]),
        ((0x0080_0008, &[5, 6]), &[(8, 5), (9, 6)]),
        ((0x0080_0003, &[5]), &[(3, 5)]),
        ((0x0080_0002, &[5, 6]), &[(2, 5), (3, 6)]),
    ];
    for (second, changes) in ends {
        let bytes = 4 + second.1.len() as u64;
        let after = [&stored[..], changes].concat();
        stores(&M_3, &[first, second], bytes, &after);
        stores(&M_3, &[second, first], bytes, &after);
    }
    // One that fits between two others, stored last.
    let parts: [Section; 3] = [
        (0x0080_0002, &[5, 6]),
        (0x0080_0008, &[7]),
        (0x0080_0004, &[1, 2, 3, 4]),
    ];
    let after = [&stored[..], &[(2, 5), (3, 6), (8, 7)]].concat();
    stores(&M_3, &parts, 7, &after);
    // Pads are no addresses of a section: size 1 at 4 does not reach 5 to 7.
    for order in ByteOrder::BOTH {
        let sections: [(u32, &[u8], &[u8]); 2] = [
            (0x0080_0004, &[1], &[9, 9, 9]),
            (0x0080_0005, &[2, 3, 4], &[9]),
        ];
        for sections in [sections, [sections[1], sections[0]]] {
            let bytes = padded_table(0, &sections, order);
            let answer = accepted(0, 0, 2, 4);
            load_gives(&M_3, &bytes, order, &MEMORY, answer, &with(&stored));
        }
    }
    // The entry is no stored address.
    for order in ByteOrder::BOTH {
        let bytes = table(0x0080_0004, &[first], order);
        let answer = accepted(0x0080_0004, 1, 1, 4);
        load_gives(&M_3, &bytes, order, &MEMORY, answer, &with(&stored));
    }
}

#[test]
fn the_first_section_that_repeats() {
    let a: Section = (0x0080_0000, &[1, 2]);
    let b: Section = (0x0080_0004, &[3, 4]);
    let c: Section = (0x0080_0008, &[5, 6]);
    let d: Section = (0x0080_000C, &[7, 8]);
    // Each section takes 12 bytes: they stand at 4, 16, 28, 40 and 52.
    let repeats_at = |list: Sections, place| repeats(&M_3, list, place);
    // The third repeats the first.
    repeats_at(&[a, b, a], 28);
    repeats_at(&[b, a, b], 28);
    repeats_at(&[a, c, b, a], 40);
    // An address that is stored three times and more.
    repeats_at(&[a, a, a], 16);
    repeats_at(&[a, a, a, a], 16);
    repeats_at(&[a, b, b, b], 28);
    // Two repeats, of which the first in table order is answered, whichever of
    // the addresses is lower.
    repeats_at(&[a, b, a, b], 28);
    repeats_at(&[a, b, b, a], 28);
    repeats_at(&[b, a, b, a], 28);
    repeats_at(&[b, a, a, b], 28);
    repeats_at(&[a, b, c, c, a], 40);
    repeats_at(&[c, b, a, c, a], 40);
    // Rising, falling and mixed, the last repeats.
    for last in [a, b, c, d] {
        repeats_at(&[a, b, c, d, last], 52);
        repeats_at(&[d, c, b, a, last], 52);
        repeats_at(&[b, d, a, c, last], 52);
    }
    // Without it all are stored.
    let all = [
        (0, 1),
        (1, 2),
        (4, 3),
        (5, 4),
        (8, 5),
        (9, 6),
        (12, 7),
        (13, 8),
    ];
    for list in [[a, b, c, d], [d, c, b, a], [b, d, a, c]] {
        stores(&M_3, &list, 8, &all);
    }
    // One section that repeats addresses of two earlier ones.
    let over: Section = (0x0080_0001, &[9, 9, 9, 9]);
    repeats(&M_3, &[a, b, over], 28);
    repeats(&M_3, &[a, over, b], 16);
    repeats(&M_3, &[over, a, b], 16);
    // One that lies between two others and repeats neither.
    let between: Section = (0x0080_0002, &[9, 9]);
    let after = [(0, 1), (1, 2), (4, 3), (5, 4), (2, 9), (3, 9)];
    stores(&M_3, &[a, b, between], 6, &after);
    stores(&M_3, &[b, between, a], 6, &after);
}

#[test]
fn a_section_over_kinds_3_and_1_that_touch() {
    // 0 to 7 take one write, 8 to 15 are of kind 1.
    let (low, high) = ((3, 0x0080_0000, 8), (1, 0x0080_0008, 8));
    // Places in memory where the records rise in the map, and where they fall.
    for (regions, at) in [(map(&[low, high]), [0, 8]), (map(&[high, low]), [8, 0])] {
        let place = |address: usize| at[address / 8] + address % 8;
        let over: Section = (0x0080_0006, &[1, 2, 3, 4]);
        let stored = [(place(6), 1), (place(7), 2), (place(8), 3), (place(9), 4)];
        stores(&regions, &[over], 4, &stored);
        // They share addresses of kind 1 alone: the later one wins.
        let nine: Section = (0x0080_0009, &[5, 6]);
        let won = [&stored[..3], &[(place(9), 5), (place(10), 6)]].concat();
        stores(&regions, &[over, nine], 6, &won);
        let kept = [&stored[..], &[(place(10), 6)]].concat();
        stores(&regions, &[nine, over], 6, &kept);
        let eight: Section = (0x0080_0008, &[5, 6]);
        let won = [&stored[..2], &[(place(8), 5), (place(9), 6)]].concat();
        stores(&regions, &[over, eight], 6, &won);
        stores(&regions, &[eight, over], 6, &stored);
        // Thrice, and beside a section that touches the first in kind 3.
        let five: Section = (0x0080_0005, &[7]);
        let won = [&won[..], &[(place(5), 7)]].concat();
        stores(&regions, &[over, eight, five, eight], 9, &won);
        // They share an address of kind 3 alone, and of both kinds.
        repeats(&regions, &[over, (0x0080_0007, &[5])], 16);
        repeats(&regions, &[over, (0x0080_0005, &[5, 6])], 16);
        repeats(&regions, &[over, (0x0080_0007, &[5, 6])], 16);
        repeats(&regions, &[over, over], 16);
        // The first repeat is of kind 1 and is none.
        repeats(&regions, &[over, nine, (0x0080_0006, &[5]), over], 28);
    }
}

#[test]
fn a_section_over_kinds_1_and_3_that_touch() {
    // 0 to 7 are of kind 1, 8 to 15 take one write.
    let regions = map(&[(1, 0x0080_0000, 8), (3, 0x0080_0008, 8)]);
    let over: Section = (0x0080_0006, &[1, 2, 3, 4]);
    let won = [(4, 5), (5, 6), (6, 7), (7, 8), (8, 3), (9, 4)];
    stores(&regions, &[over, (0x0080_0004, &[5, 6, 7, 8])], 8, &won);
    repeats(&regions, &[over, (0x0080_0004, &[5, 6, 7, 8, 9])], 16);
    repeats(&regions, &[over, (0x0080_0008, &[5])], 16);
    repeats(&regions, &[over, (0x0080_0009, &[5, 6, 7])], 16);
    let after = [(6, 1), (7, 2), (8, 3), (9, 4), (10, 5)];
    stores(&regions, &[over, (0x0080_000A, &[5])], 5, &after);
    // A record of kind 1 in the middle of two of kind 3, all of them touching.
    let middle = map(&[
        (3, 0x0080_0000, 4),
        (1, 0x0080_0004, 4),
        (3, 0x0080_0008, 8),
    ]);
    let whole: Section = (0x0080_0002, &[1, 2, 3, 4, 5, 6, 7, 8]);
    let after = [
        (2, 1),
        (3, 2),
        (4, 9),
        (5, 9),
        (6, 9),
        (7, 9),
        (8, 7),
        (9, 8),
    ];
    stores(&middle, &[whole, (0x0080_0004, &[9; 4])], 12, &after);
    repeats(&middle, &[whole, (0x0080_0003, &[9; 5])], 20);
    repeats(&middle, &[whole, (0x0080_0004, &[9; 5])], 20);
    // Two records of kind 3 that touch.
    let both = map(&[(3, 0x0080_0008, 8), (3, 0x0080_0000, 8)]);
    stores(&both, &[over], 4, &[(14, 1), (15, 2), (0, 3), (1, 4)]);
    repeats(&both, &[over, (0x0080_0007, &[5])], 16);
    repeats(&both, &[over, (0x0080_0008, &[5])], 16);
}

#[test]
fn an_overlap_outside_kind_3_is_no_repeat() {
    // Kind 3 is above the record of kind 1; below, it is on both sides of it in
    // the map.
    let regions = map(&[(1, 0x0080_0000, 12), (3, 0x0080_0010, 4)]);
    let shared: [Section; 4] = [
        (0x0080_0004, &[1, 1, 1, 1]),
        (0x0080_0002, &[2, 2, 2]),
        (0x0080_0006, &[3]),
        (0x0080_0004, &[4]),
    ];
    let after = [(2, 2), (3, 2), (4, 4), (5, 1), (6, 3), (7, 1)];
    stores(&regions, &shared, 9, &after);
    let before = map(&[(3, 0x0070_0000, 2), (1, 0x0080_0000, 12), (3, 0, 2)]);
    let further: Vec<(usize, u8)> = after.iter().map(|(at, byte)| (at + 2, *byte)).collect();
    for order in ByteOrder::BOTH {
        let bytes = table(0x0080_0000, &shared, order);
        let answer = accepted(0x0080_0000, 1, 4, 9);
        load_gives(&before, &bytes, order, &MEMORY, answer, &with(&further));
    }
    // The same with one section in kind 3, with two, and with one that repeats.
    let first: Section = (0x0080_0010, &[5, 6]);
    let list = [&[first], &shared[..]].concat();
    let stored = [&after[..], &[(12, 5), (13, 6)]].concat();
    stores(&regions, &list, 11, &stored);
    let list = [&list[..], &[(0x0080_0012, &[7])]].concat();
    let stored = [&stored[..], &[(14, 7)]].concat();
    stores(&regions, &list, 12, &stored);
    repeats(&regions, &[&list[..], &[(0x0080_0011, &[8])]].concat(), 76);
}

#[test]
fn a_repeat_comes_after_the_map_memory_form_and_map_rule() {
    let twice: [Section; 2] = [(0x0080_0002, &[1]), (0x0080_0002, &[2])];
    repeats(&M_3, &twice, 16);
    // 9 in a later section, in an earlier one, and in the one that repeats.
    let closed: Section = (0x0080_0010, &[3]);
    let [one, two] = twice;
    refuses(&M_3, &[one, two, closed], not_open(9, 28, 0x0080_0010));
    refuses(&M_3, &[closed, one, two], not_open(9, 4, 0x0080_0010));
    let across: Section = (0x0080_000E, &[4, 5, 6]);
    let last: Section = (0x0080_000F, &[4]);
    refuses(&M_3, &[last, across], not_open(9, 16, 0x0080_0010));
    refuses(&M_3, &[one, two, one, closed], not_open(9, 40, 0x0080_0010));
    // Two closed ones: the first of them.
    refuses(
        &M_3,
        &[one, two, across, closed],
        not_open(9, 28, 0x0080_0010),
    );
    // 8 in a later section.
    refuses(&M_3, &[one, two, (0xFFFF_FFFF, &[3, 4])], refused(8, 28));
    for order in ByteOrder::BOTH {
        let bytes = table(0, &twice, order);
        assert_eq!(bytes.len(), 32);
        // 5 where the repeating section is cut, and where the zero word is.
        for length in 16..32 {
            let place = if length < 28 { 16 } else { 28 };
            load_refuses(&M_3, &bytes[..length], order, &MEMORY, refused(5, place));
        }
        // 7 behind the zero word.
        for more in [0, 1, 0xFF] {
            let longer = [&bytes[..], &[more]].concat();
            load_refuses(&M_3, &longer, order, &MEMORY, refused(7, 32));
        }
        // 4, 3, 2 and 1.
        let mut large = bytes.clone();
        large.resize(TABLE_LIMIT + 1, 0);
        load_refuses(&M_3, &large, order, &MEMORY, refused(4, 0));
        load_refuses(&M_3, &bytes, order, &MEMORY[..15], refused(3, 0));
        load_refuses(&M_3, &bytes, order, &[], refused(3, 0));
        let unsound = map(&[(3, 0x0080_0000, 16), (3, 0x0080_000F, 1)]);
        load_refuses(&unsound, &bytes, order, &MEMORY, refused(2, 1));
        load_refuses(&M_3[..11], &bytes, order, &MEMORY, refused(1, 0));
        // The join has no such refusal.
        let result = [&q(order)[..4], &bytes[4..28], &q(order)[4..]].concat();
        join_gives(&bytes, q(order), order, &[0xEE; 44], joined(44, 3), &result);
    }
}

#[test]
fn one_write_at_the_top_and_at_zero() {
    let top = map(&[(3, 0xFFFF_FFF0, 16)]);
    stores(&top, &[(0xFFFF_FFFF, &[1])], 1, &[(15, 1)]);
    repeats(&top, &[(0xFFFF_FFFF, &[1]), (0xFFFF_FFFF, &[2])], 16);
    repeats(
        &top,
        &[(0xFFFF_FFFC, &[1, 2, 3, 4]), (0xFFFF_FFFF, &[2])],
        16,
    );
    repeats(
        &top,
        &[(0xFFFF_FFFF, &[2]), (0xFFFF_FFFC, &[1, 2, 3, 4])],
        16,
    );
    refuses(
        &top,
        &[(0xFFFF_FFFF, &[1]), (0xFFFF_FFFF, &[2, 3])],
        refused(8, 16),
    );
    let touching: [Section; 2] = [(0xFFFF_FFFF, &[2]), (0xFFFF_FFFD, &[3, 4])];
    stores(&top, &touching, 3, &[(13, 3), (14, 4), (15, 2)]);
    // The whole record, and then its first and its last address.
    repeats(&top, &[(0xFFFF_FFF0, &[1; 16]), (0xFFFF_FFF0, &[2])], 28);
    repeats(&top, &[(0xFFFF_FFF0, &[1; 16]), (0xFFFF_FFFF, &[2])], 28);
    for order in ByteOrder::BOTH {
        // Zero and the top are no neighbours. The entry, 0, is open.
        let ends = map(&[(3, 0xFFFF_FFFF, 1), (3, 0, 4)]);
        let bytes = table(0, &[(0xFFFF_FFFF, &[1]), (0, &[2]), (1, &[3])], order);
        let after = [1, 2, 3, 0x63, 0x64];
        let answer = accepted(0, 1, 3, 3);
        load_gives(&ends, &bytes, order, &MEMORY[..5], answer, &after);
        let again = table(0, &[(0xFFFF_FFFF, &[1]), (0, &[2]), (0, &[3])], order);
        load_refuses(&ends, &again, order, &MEMORY[..5], refused(29, 28));
        // All addresses take one write: such memory is only judged.
        let all = map(&[(3, 1, 0xFFFF_FFFF), (3, 0, 1)]);
        for (name, judge, _) in LOADS {
            let answer = judge(&all, &bytes, order);
            assert_eq!(answer, accepted(0, 1, 3, 3), "{name}");
            assert_eq!(judge(&all, &again, order), refused(29, 28), "{name}");
        }
    }
}

#[test]
fn one_write_without_sections() {
    for order in ByteOrder::BOTH {
        let none = table(0x0080_000F, &[], order);
        let answer = accepted(0x0080_000F, 1, 0, 0);
        load_gives(&M_3, &none, order, &MEMORY, answer, &MEMORY);
        // Joined with P on either side it stores nothing more.
        let after = with(&[(2, 0xA1), (3, 0xA2), (4, 0xA3)]);
        let output = [0xEE; 20];
        join_gives(&none, p(order), order, &output, joined(20, 1), p(order));
        let answer = accepted(0x0080_0000, 1, 1, 3);
        load_gives(&M_3, p(order), order, &MEMORY, answer, &after);
        let mut result = *p(order);
        result[..4].copy_from_slice(&header_word(0x0080_000F, order));
        join_gives(p(order), &none, order, &output, joined(20, 1), &result);
        let answer = accepted(0x0080_000F, 1, 1, 3);
        load_gives(&M_3, &result, order, &MEMORY, answer, &after);
    }
}

#[test]
fn one_write_and_as_many_sections_as_the_limit_takes() {
    let count = (TABLE_LIMIT - 8) / 12;
    let regions = map(&[(3, 0x2000_0000, count as u32)]);
    let place = 4 + 12 * (count as u64 - 1);
    for order in ByteOrder::BOTH {
        let many = |address_of: &dyn Fn(usize) -> usize| {
            let mut bytes = vec![0; 4];
            for i in 0..count {
                let address = 0x2000_0000 + address_of(i) as u32;
                let data = [(i % 251) as u8];
                bytes.extend(padded_section(address, &data, &[0xFF; 3], order));
            }
            bytes.extend([0; 4]);
            bytes
        };
        let data: Vec<u8> = (0..count).map(|i| (i % 251) as u8).collect();
        let turned: Vec<u8> = data.iter().rev().copied().collect();
        let rising = many(&|i| i);
        let falling = many(&|i| count - 1 - i);
        for (name, _, load) in LOADS {
            for (bytes, after) in [(&rising, &data), (&falling, &turned)] {
                let mut memory = vec![0x11; count];
                let answer = load(&regions, bytes, order, &mut memory);
                let expected = accepted(0, 0, count as u64, count as u64);
                assert_eq!(answer, expected, "{name}");
                assert!(memory == *after, "{name}");
            }
        }
        // The last section stores the first one's address again.
        let bytes = many(&|i| if i + 1 < count { i } else { 0 });
        for (name, _, load) in LOADS {
            let mut memory = vec![0x11; count];
            let answer = load(&regions, &bytes, order, &mut memory);
            assert_eq!(answer, refused(29, place), "{name}");
            assert!(memory.iter().all(|byte| *byte == 0x11), "{name}");
        }
    }
}

// Configuration tables.

#[test]
fn register_lists_of_different_lengths() {
    let end = config(&[]);
    config_refuses(&end, &[1, 2], &[7], 12, 0);
    config_refuses(&end, &[1], &[7, 8], 12, 0);
    config_refuses(&end, &[], &[7], 12, 0);
    config_refuses(&end, &[1], &[], 12, 0);
    // 12 comes before the table's faults.
    config_refuses(&[], &[1], &[], 12, 0);
    config_refuses(&vec![0; 49_153], &[1], &[], 12, 0);
}

#[test]
fn register_lists_of_1024_and_1025() {
    let addresses: Vec<u32> = (0..1025).map(|i| 4 * i).collect();
    let values: Vec<u32> = (0..1025).map(|i| i << 8).collect();
    let table = config(&[(4 * 1023, 1, 0), (0, 2, 0)]);
    let mut after = values[..1024].to_vec();
    after[1023] |= 1;
    after[0] |= 2;
    config_gives(
        &table,
        &addresses[..1024],
        &values[..1024],
        configured(2, 2),
        &after,
    );
    config_refuses(&table, &addresses, &values, 12, 0);
}

#[test]
fn register_addresses_must_rise() {
    let end = config(&[]);
    let values = [7, 8, 9];
    config_refuses(&end, &[4, 4, 8], &values, 12, 0);
    config_refuses(&end, &[4, 8, 8], &values, 12, 0);
    config_refuses(&end, &[8, 4, 12], &values, 12, 0);
    config_refuses(&end, &[4, 12, 8], &values, 12, 0);
    config_refuses(&end, &[0xFFFF_FFFF, 0, 1], &values, 12, 0);
    config_gives(
        &end,
        &[0, 1, 0xFFFF_FFFF],
        &values,
        configured(0, 0),
        &values,
    );
}

#[test]
fn empty_register_lists() {
    config_refuses(&[], &[], &[], 14, 0);
    config_gives(&config(&[]), &[], &[], configured(0, 0), &[]);
    config_refuses(&config(&[(4, 1, 0)]), &[], &[], 16, 0);
    config_refuses(&config(&[(0, 1, 0)]), &[], &[], 16, 0);
    config_refuses(&config(&[(4, 0, 0)]), &[], &[], 17, 0);
}

#[test]
fn configuration_tables_cut_at_every_length() {
    let table = config(&[(4, 1, 0), (8, 0, 1)]);
    assert_eq!(table.len(), 36);
    for length in 0..36 {
        let place = length as u64 / 12 * 12;
        config_refuses(&table[..length], &[4, 8], &[0, 1], 14, place);
    }
    config_gives(&table, &[4, 8], &[0, 1], configured(2, 2), &[1, 0]);
}

#[test]
fn configuration_tables_at_and_over_the_limit() {
    let mut table = entries(&[(4, 1, 0)]).repeat(4095);
    table.extend([0; 12]);
    assert_eq!(table.len(), 49_152);
    config_gives(&table, &[4], &[0], configured(4095, 1), &[1]);
    table.push(0);
    config_refuses(&table, &[4], &[0], 13, 0);
    // At the limit with no end entry.
    let table = entries(&[(4, 1, 0)]).repeat(4096);
    config_refuses(&table, &[4], &[0], 14, 49_152);
    // 13 comes before the faults of entries.
    let table = entries(&[(5, 1, 0)]).repeat(4097);
    config_refuses(&table, &[4], &[0], 13, 0);
}

#[test]
fn the_end_entry_missing_in_the_middle_and_twice() {
    let one = (4, 1, 0);
    config_refuses(&entries(&[one]), &[4], &[0], 14, 12);
    config_refuses(&entries(&[one, (0, 0, 0), one]), &[4], &[0], 15, 24);
    config_refuses(&config(&[one, (0, 0, 0), one]), &[4], &[0], 15, 24);
    config_refuses(&config(&[(0, 0, 0)]), &[4], &[0], 15, 12);
    for more in 1..=12 {
        let mut longer = config(&[one]);
        longer.extend(vec![0; more]);
        config_refuses(&longer, &[4], &[0], 15, 24);
    }
    // What stands after the end entry is not read as entries.
    config_refuses(
        &config(&[(0, 0, 0), (9, 1, 0), (4, 0, 0)]),
        &[4],
        &[0],
        15,
        12,
    );
}

#[test]
fn a_branch_before_and_after_an_unknown_register() {
    let (branch, unknown, known) = ((4, 0, 0), (5, 1, 0), (4, 1, 0));
    config_refuses(&config(&[known, branch, unknown]), &[4], &[0], 17, 12);
    config_refuses(&config(&[known, unknown, branch]), &[4], &[0], 16, 12);
    // One entry that is both: the branch is answered.
    config_refuses(&config(&[known, (5, 0, 0)]), &[4], &[0], 17, 12);
    // A fault before a cut entry.
    config_refuses(&entries(&[unknown, known])[..23], &[4], &[0], 16, 0);
    config_refuses(&entries(&[branch, known])[..23], &[4], &[0], 17, 0);
    config_refuses(&entries(&[known, unknown])[..23], &[4], &[0], 14, 12);
}

#[test]
fn address_zero_with_a_mask_is_an_entry() {
    config_gives(&config(&[(0, 6, 0)]), &[0], &[1], configured(1, 2), &[7]);
    config_gives(&config(&[(0, 0, 1)]), &[0], &[1], configured(1, 1), &[0]);
    config_refuses(&config(&[(0, 6, 0)]), &[4], &[1], 16, 0);
}

#[test]
fn bits_are_counted_between_before_and_after_the_whole_table() {
    // Set and taken back: four entries, no bit differs.
    let back = [(4, 0xFF, 0), (4, 0, 0xFF), (8, 0, 1), (8, 1, 0)];
    config_gives(&config(&back), &[4, 8], &[0, 1], configured(4, 0), &[0, 1]);
    // All bits of three registers.
    let all = [
        (4, 0xFFFF_FFFF, 0),
        (8, 0, 0xFFFF_FFFF),
        (12, 0xFFFF_0000, 0x0000_FFFF),
    ];
    config_gives(
        &config(&all),
        &[4, 8, 12],
        &[0, 0xFFFF_FFFF, 0x0000_FFFF],
        configured(3, 96),
        &[0xFFFF_FFFF, 0, 0xFFFF_0000],
    );
}

// Strap values.

#[test]
fn each_kind_with_its_fields() {
    strap_gives_either(0, kind(0, [0; 6]));
    // SR 3, wait, clock select 5.
    strap_gives_either(0b1_0100_1001_1000, kind(0, [3, 1, 5, 0, 0, 0]));
    strap_gives_either(0b1_0100_0011_0000, kind(1, [2, 0, 5, 0, 0, 0]));
    // Device, bits 9:3, clock select.
    strap_gives_either(0b0_1110_1000_1001, kind(2, [1, 0b101_0001, 3, 0, 0, 0]));
    strap_gives_either(8191, kind(2, [7, 127, 7, 0, 0, 0]));
    // Device, multiplier 2, connection 1, device ID 5, clock select 6.
    strap_gives_either(0b1_1010_0110_1010, kind(3, [2, 2, 1, 5, 6, 0]));
    strap_gives_either(0b1_1010_0110_1011, kind(3, [3, 2, 1, 5, 6, 0]));
    // BAR 9, SR 1, clock select 4.
    strap_gives_either(0b1_0001_0010_1100, kind(4, [9, 1, 4, 0, 0, 0]));
    // Bits 12:3 as a number.
    strap_gives_either(0b1_0110_1001_1101, kind(5, [0b10_1101_0011, 0, 0, 0, 0, 0]));
    // Passive, address 5.
    strap_gives_either(0b0_0011_1010_0101, kind(6, [5, 0, 0, 0, 0, 0]));
    // Mode 1, four-pin, 24-bit, chip select 2, table 1, SR 3.
    strap_gives_either(0b0_1011_0011_1110, kind(7, [1, 0, 1, 2, 1, 3]));
}

#[test]
fn reserved_bits_in_both_manners() {
    let refused = strap_refused(19);
    // Device 0, bits 9:8.
    for bits in 1..=3 {
        strap_gives(bits << 8, refused, kind(0, [0; 6]));
    }
    // PCIe, bit 9.
    strap_gives(4 | 1 << 9, refused, kind(4, [0; 6]));
    // Passive I2C, bit 9 one and bits 4:3 zero.
    let passive = 5 | 1 << 8;
    strap_gives(passive, refused, kind(6, [0; 6]));
    strap_gives_either(passive | 1 << 9, kind(6, [0; 6]));
    for low in 1..=3 {
        strap_gives(passive | 1 << 9 | low << 3, refused, kind(6, [0; 6]));
        strap_gives(passive | low << 3, refused, kind(6, [0; 6]));
    }
    // Sub-modes 2 and 3 in either manner.
    strap_gives_either(2 << 5, refused);
    strap_gives_either(3 << 5, refused);
}

#[test]
fn all_strap_values() {
    // Of each kind so many, and so many refused; counted from the bits.
    let mut strict = [0; 9];
    let mut short = [0; 9];
    let mut lenient = [0; 9];
    let mut label = [0; 9];
    for value in 0..8192 {
        strap_gives(
            value,
            reference::strap(value, true),
            reference::strap(value, false),
        );
        let answers = [
            (&mut strict, calls::strap(value, true)),
            (&mut short, calls::strap_short(value)),
            (&mut lenient, calls::strap(value, false)),
        ];
        for (counts, answer) in answers {
            let column = if answer.number == 0 { answer.kind } else { 8 };
            counts[column as usize] += 1;
        }
        let answer = calls::strap_label(value);
        let column = if answer.number == 0 { answer.label } else { 8 };
        label[column as usize] += 1;
    }
    assert_eq!(strict, [64, 64, 2048, 2048, 512, 512, 64, 1024, 1856]);
    assert_eq!(short, strict);
    assert_eq!(lenient, [256, 256, 2048, 2048, 1024, 512, 512, 1024, 512]);
    assert_eq!(label, lenient);
    for value in [8192, 8193, 16_384, 0x8000_0000, 0xFFFF_E000, 0xFFFF_FFFF] {
        strap_gives_either(value, strap_refused(18));
    }
}

/// The short entry takes one setting of a value's reserved bits, and gives 19
/// for every other; the comparison and the label take them all alike.
#[test]
fn one_setting_of_the_reserved_bits_unless_lenient_is_named() {
    let mut refused = 0;
    for value in 0..8192_u32 {
        let (kind, reserved, setting) = match value % 8 {
            0 if value >> 5 & 3 == 0 => (0, 3 << 8, 0),
            0 if value >> 5 & 3 == 1 => (1, 3 << 8, 0),
            4 => (4, 1 << 9, 0),
            5 if value >> 8 & 1 == 1 => (6, 1 << 9 | 3 << 3, 1 << 9),
            _ => continue,
        };
        let proper = value & !reserved | setting;
        let decoded = calls::strap_short(proper);
        assert_eq!((decoded.number, decoded.kind), (0, kind), "{proper}");
        same_gives(value, proper, 0, 1);
        same_gives(proper, value, 0, 1);
        let answer = calls::strap_label(value);
        assert_eq!((answer.number, answer.label), (0, kind), "{value}");
        if value != proper {
            assert_eq!(calls::strap_short(value), strap_refused(19), "{value}");
            refused += 1;
        }
    }
    // Of device 0 three of four, of PCIe half, of passive I2C seven of eight.
    assert_eq!(refused, 512 * 3 / 4 + 1024 / 2 + 512 * 7 / 8);
}

#[test]
fn same_straps() {
    same_gives(160, 160, 0, 1);
    // Bits that the lenient manner ignores.
    same_gives(160, 416, 0, 1);
    same_gives(4, 4 | 1 << 9, 0, 1);
    same_gives(5 | 1 << 8, 5 | 1 << 8 | 1 << 9 | 3 << 3 | 7 << 10, 0, 1);
    // One kind, other fields; other kinds with equal fields.
    same_gives(160, 32, 0, 0);
    same_gives(2, 3, 0, 0);
    same_gives(1, 7, 0, 0);
    same_gives(0, 32, 0, 0);
    same_gives(0, 4, 0, 0);
    same_gives(5, 5 | 1 << 8, 0, 0);
    // The first value's refusal comes before the second's.
    same_gives(8192, 64, 18, 0);
    same_gives(64, 8192, 19, 0);
    same_gives(160, 64, 19, 0);
    same_gives(160, 8192, 18, 0);
    same_gives(64, 160, 19, 0);
    same_gives(0xFFFF_FFFF, 0xFFFF_FFFF, 18, 0);
}

#[test]
fn same_straps_on_many_pairs() {
    let mut numbers = Numbers::new(cases::seed(), 20);
    let mut equal = 0;
    for first in 0..8200 {
        for round in 0..40 {
            let second = match round {
                0 => first,
                1..=14 => first ^ (1 << (round - 1)),
                _ => cases::strap_value(&mut numbers),
            };
            let answer = calls::strap_same(first, second);
            assert_eq!(
                answer,
                reference::strap_same(first, second),
                "{first} and {second}"
            );
            equal += answer.same;
        }
    }
    // At least each accepted value with itself.
    assert!(equal >= 8192 - 512, "{equal} equal pairs");
}

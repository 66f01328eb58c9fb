//! Safe calls into the proved library. They return the reference's types, so
//! that a test compares the two with ==. An answer array is filled with a
//! value that is no answer before each call, so that a field that was not
//! written shows, and has two more elements that must stay as they were.

use crate::reference::{
    ByteOrder, ConfigAnswer, FindAnswer, JoinAnswer, LabelAnswer, ListSection, LoadAnswer,
    MapAnswer, RescueAnswer, SameAnswer, StrapAnswer, WriteAnswer,
};

extern "C" {
    fn tuneharbor_map(map: *const u8, map_len: usize, answer: *mut u64);
    fn tuneharbor_judge(
        map: *const u8,
        map_len: usize,
        table: *const u8,
        table_len: usize,
        low_first: bool,
        answer: *mut u64,
    );
    fn tuneharbor_load(
        map: *const u8,
        map_len: usize,
        table: *const u8,
        table_len: usize,
        low_first: bool,
        memory: *mut u8,
        memory_len: usize,
        answer: *mut u64,
    );
    fn tuneharbor_join(
        first: *const u8,
        first_len: usize,
        second: *const u8,
        second_len: usize,
        low_first: bool,
        output: *mut u8,
        output_len: usize,
        answer: *mut u64,
    );
    fn tuneharbor_write(
        entry: u32,
        sections: *const ListSection,
        sections_len: usize,
        data: *const u8,
        data_len: usize,
        low_first: bool,
        output: *mut u8,
        output_len: usize,
        answer: *mut u64,
    );
    fn tuneharbor_find(
        older: *const u8,
        older_len: usize,
        newer: *const u8,
        newer_len: usize,
        low_first: bool,
        address: u32,
        answer: *mut u64,
    );
    fn tuneharbor_rescue(
        table: *const u8,
        table_len: usize,
        low_first: bool,
        output: *mut u8,
        output_len: usize,
        answer: *mut u64,
    );
    fn tuneharbor_configure(
        table: *const u8,
        table_len: usize,
        addresses: *const u32,
        addresses_len: usize,
        values: *mut u32,
        values_len: usize,
        answer: *mut u64,
    );
    fn tuneharbor_strap(value: u32, strict: bool, answer: *mut u64);
    fn tuneharbor_strap_short(value: u32, answer: *mut u64);
    fn tuneharbor_strap_same(first: u32, second: u32, answer: *mut u64);
    fn tuneharbor_strap_label(value: u32, answer: *mut u64);
}

/// No field of any answer is as large as this.
const UNWRITTEN: u64 = 0xA5C3_96E1_5A3C_691E;

/// An answer array and the two elements after it.
#[repr(C)]
struct Lent<const N: usize> {
    answer: [u64; N],
    after: [u64; 2],
}

/// Lends a prefilled answer array of `N` elements to a call and takes it back.
fn answered<const N: usize>(call: impl FnOnce(*mut u64)) -> [u64; N] {
    let mut lent = Lent {
        answer: [UNWRITTEN; N],
        after: [UNWRITTEN; 2],
    };
    call((&raw mut lent).cast());
    assert_eq!(
        lent.after, [UNWRITTEN; 2],
        "the call wrote past its answer array"
    );
    lent.answer
}

pub fn map(map: &[u8]) -> MapAnswer {
    // Safety: the slice lives through the call; the answer has 3 elements.
    let [number, place, bytes] =
        answered(|answer| unsafe { tuneharbor_map(map.as_ptr(), map.len(), answer) });
    MapAnswer {
        number,
        place,
        bytes,
    }
}

fn load_answer(array: [u64; 7]) -> LoadAnswer {
    let [number, place, address, entry, entry_open, sections, bytes] = array;
    LoadAnswer {
        number,
        place,
        address,
        entry,
        entry_open,
        sections,
        bytes,
    }
}

/// What a call over tables takes for an order.
fn low_first(order: ByteOrder) -> bool {
    order == ByteOrder::LowFirst
}

pub fn judge(map: &[u8], table: &[u8], order: ByteOrder) -> LoadAnswer {
    // Safety: the slices live through the call; the answer has 7 elements.
    load_answer(answered(|answer| unsafe {
        tuneharbor_judge(
            map.as_ptr(),
            map.len(),
            table.as_ptr(),
            table.len(),
            low_first(order),
            answer,
        )
    }))
}

pub fn load(map: &[u8], table: &[u8], order: ByteOrder, memory: &mut [u8]) -> LoadAnswer {
    // Safety: the slices live through the call, memory is lent to it alone;
    // the answer has 7 elements.
    load_answer(answered(|answer| unsafe {
        tuneharbor_load(
            map.as_ptr(),
            map.len(),
            table.as_ptr(),
            table.len(),
            low_first(order),
            memory.as_mut_ptr(),
            memory.len(),
            answer,
        )
    }))
}

pub fn join(first: &[u8], second: &[u8], order: ByteOrder, output: &mut [u8]) -> JoinAnswer {
    // Safety: the slices live through the call, output is lent to it alone;
    // the answer has 5 elements.
    let [number, place, table, length, sections] = answered(|answer| unsafe {
        tuneharbor_join(
            first.as_ptr(),
            first.len(),
            second.as_ptr(),
            second.len(),
            low_first(order),
            output.as_mut_ptr(),
            output.len(),
            answer,
        )
    });
    JoinAnswer {
        number,
        place,
        table,
        length,
        sections,
    }
}

pub fn write(
    entry: u32,
    list: &[ListSection],
    data: &[u8],
    order: ByteOrder,
    output: &mut [u8],
) -> WriteAnswer {
    // Safety: the slices live through the call, output is lent to it alone;
    // a section is laid out as in C; the answer has 4 elements.
    let [number, place, length, sections] = answered(|answer| unsafe {
        tuneharbor_write(
            entry,
            list.as_ptr(),
            list.len(),
            data.as_ptr(),
            data.len(),
            low_first(order),
            output.as_mut_ptr(),
            output.len(),
            answer,
        )
    });
    WriteAnswer {
        number,
        place,
        length,
        sections,
    }
}

pub fn find(older: &[u8], newer: &[u8], order: ByteOrder, address: u32) -> FindAnswer {
    // Safety: the slices live through the call; the answer has 6 elements.
    let [number, place, table, offset, length, read] = answered(|answer| unsafe {
        tuneharbor_find(
            older.as_ptr(),
            older.len(),
            newer.as_ptr(),
            newer.len(),
            low_first(order),
            address,
            answer,
        )
    });
    FindAnswer {
        number,
        place,
        table,
        offset,
        length,
        read,
    }
}

/// The part at an address. The wrapper cuts the part by the offset and length that
/// `find` answers; the library's own `query::part` hands back a slice and is not in
/// the C interface. Where no table covers the address, and after a refusal, both are
/// 0, and the wrapper takes the older table.
pub fn part<'a>(older: &'a [u8], newer: &'a [u8], order: ByteOrder, address: u32) -> &'a [u8] {
    let answer = find(older, newer, order, address);
    let table = match (answer.number, answer.table) {
        (0, 2) => newer,
        _ => older,
    };
    &table[answer.offset as usize..][..answer.length as usize]
}

pub fn rescue(table: &[u8], order: ByteOrder, output: &mut [u8]) -> RescueAnswer {
    // Safety: the slices live through the call, output is lent to it alone;
    // the answer has 6 elements.
    let [number, place, length, sections, unused, added] = answered(|answer| unsafe {
        tuneharbor_rescue(
            table.as_ptr(),
            table.len(),
            low_first(order),
            output.as_mut_ptr(),
            output.len(),
            answer,
        )
    });
    RescueAnswer {
        number,
        place,
        length,
        sections,
        unused,
        added,
    }
}

pub fn configure(table: &[u8], addresses: &[u32], values: &mut [u32]) -> ConfigAnswer {
    // Safety: the slices live through the call, values is lent to it alone;
    // the answer has 4 elements.
    let [number, place, entries, bits] = answered(|answer| unsafe {
        tuneharbor_configure(
            table.as_ptr(),
            table.len(),
            addresses.as_ptr(),
            addresses.len(),
            values.as_mut_ptr(),
            values.len(),
            answer,
        )
    });
    ConfigAnswer {
        number,
        place,
        entries,
        bits,
    }
}

fn strap_answer(array: [u64; 9]) -> StrapAnswer {
    let [number, place, kind, fields @ ..] = array;
    StrapAnswer {
        number,
        place,
        kind,
        fields,
    }
}

pub fn strap(value: u32, strict: bool) -> StrapAnswer {
    // Safety: the answer has 9 elements.
    strap_answer(answered(|answer| unsafe {
        tuneharbor_strap(value, strict, answer)
    }))
}

pub fn strap_short(value: u32) -> StrapAnswer {
    // Safety: the answer has 9 elements.
    strap_answer(answered(|answer| unsafe {
        tuneharbor_strap_short(value, answer)
    }))
}

pub fn strap_same(first: u32, second: u32) -> SameAnswer {
    // Safety: the answer has 3 elements.
    let [number, place, same] =
        answered(|answer| unsafe { tuneharbor_strap_same(first, second, answer) });
    SameAnswer {
        number,
        place,
        same,
    }
}

pub fn strap_label(value: u32) -> LabelAnswer {
    // Safety: the answer has 3 elements.
    let [number, place, label] =
        answered(|answer| unsafe { tuneharbor_strap_label(value, answer) });
    LabelAnswer {
        number,
        place,
        label,
    }
}

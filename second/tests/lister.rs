//! The two listers run as programs, each on tables of its byte order and on
//! tables of the other, their whole output compared with text written by hand
//! or with the reference's text.

use second::cases::{
    self, header_word, p, padded_section, padded_table, section, table, turn_word, Numbers, P,
    P_LOW,
};
use second::reference::{self, ByteOrder};
use std::io::{ErrorKind, Read, Write};
use std::process::{Command, Stdio};
use std::time::Duration;

/// The folder of the crates, each with its program in its `out/`.
const CRATES: &str = concat!(env!("CARGO_MANIFEST_DIR"), "/../crates");

/// Runs the lister of an order; its input comes in pieces with a pause after
/// each.
fn run_in_pieces(pieces: &[&[u8]], order: ByteOrder, pause: Duration) -> Vec<u8> {
    let name = match order {
        ByteOrder::HighFirst => "lister",
        ByteOrder::LowFirst => "lister_low",
    };
    let mut child = Command::new(format!("{CRATES}/{name}/out/{name}"))
        .stdin(Stdio::piped())
        .stdout(Stdio::piped())
        .spawn()
        .unwrap_or_else(|error| {
            panic!("{name} does not run ({error}); `rt run` in crates/{name} makes it")
        });
    let mut input = child.stdin.take().expect("standard input is piped");
    let mut output = child.stdout.take().expect("standard output is piped");
    let text = std::thread::scope(|scope| {
        // Output is read while input is written, so that neither waits for ever.
        let reader = scope.spawn(move || {
            let mut text = Vec::new();
            output.read_to_end(&mut text).expect("output can be read");
            text
        });
        for piece in pieces {
            let written = input.write_all(piece).and_then(|()| input.flush());
            match written {
                Ok(()) => {}
                // Input that is too long need not be read to its end.
                Err(error) if error.kind() == ErrorKind::BrokenPipe => break,
                Err(error) => panic!("input cannot be written: {error}"),
            }
            std::thread::sleep(pause);
        }
        drop(input);
        reader.join().expect("the reader ends")
    });
    let status = child.wait().expect("the program ends");
    assert!(status.code().is_some(), "{name} ended by a signal");
    text
}

fn run(input: &[u8], order: ByteOrder) -> Vec<u8> {
    run_in_pieces(&[input], order, Duration::ZERO)
}

/// The output must be this text, and so must the reference's.
#[track_caller]
fn prints(input: &[u8], order: ByteOrder, expected: &str) {
    let text = run(input, order);
    assert_eq!(String::from_utf8_lossy(&text), expected, "{order:?}");
    let text = reference::listing(input, order);
    assert_eq!(text, expected, "reference, {order:?}");
}

/// The output must be the reference's text.
#[track_caller]
fn prints_as_reference(input: &[u8], order: ByteOrder) {
    let text = run(input, order);
    let expected = reference::listing(input, order);
    assert!(
        text == expected.as_bytes(),
        "{order:?}, input of {} bytes: {:?}, expected {:?}",
        input.len(),
        String::from_utf8_lossy(&text[..text.len().min(200)]),
        &expected[..expected.len().min(200)]
    );
}

/// The text of table P.
const P_TEXT: &str = "entry 00800000\nsection 00800002 3\nend 1 3\n";

#[test]
fn table_p() {
    for order in ByteOrder::BOTH {
        prints(p(order), order, P_TEXT);
    }
}

#[test]
fn table_p_with_its_pad_byte_01() {
    for order in ByteOrder::BOTH {
        let mut bytes = *p(order);
        bytes[15] = 1;
        prints(&bytes, order, P_TEXT);
    }
}

#[test]
fn tables_read_in_the_wrong_order() {
    // The size 3 is read as 0x03000000.
    prints(&P, ByteOrder::LowFirst, "refused 5 at 4\n");
    prints(&P_LOW, ByteOrder::HighFirst, "refused 5 at 4\n");
    for order in ByteOrder::BOTH {
        // Nothing but an entry to misread.
        let none = table(0x0080_0002, &[], order);
        let text = "entry 02008000\nend 0 0\n";
        prints(&none, order.other(), text);
        // The size is 0x100, in the other order 0x10000.
        let size = table(0, &[(0, &[7; 0x100])], order);
        let text = "entry 00000000\nsection 00000000 256\nend 1 256\n";
        prints(&size, order, text);
        prints(&size, order.other(), "refused 5 at 4\n");
        // One header word of P alone.
        for (at, text) in [
            (0, "entry 00008000\nsection 00800002 3\nend 1 3\n"),
            (4, "refused 5 at 4\n"),
            (8, "entry 00800000\nsection 02008000 3\nend 1 3\n"),
        ] {
            let mut bytes = *p(order);
            turn_word(&mut bytes, at);
            prints(&bytes, order, text);
        }
        // An address that is past the top in one order alone.
        let top = table(0, &[(0xFFFF_FFFE, &[1, 2, 3])], order);
        prints(&top, order, "refused 8 at 4\n");
        let mut bytes = top;
        turn_word(&mut bytes, 8);
        let text = "entry 00000000\nsection feffffff 3\nend 1 3\n";
        prints(&bytes, order, text);
    }
}

#[test]
fn pads_are_not_printed() {
    for order in ByteOrder::BOTH {
        let text = "entry 00000007\nsection 00000010 1\nsection 00000020 2\n\
                    section 00000030 3\nsection 00000040 4\nend 4 10\n";
        for pads in [
            [0; 3],
            [0xFF; 3],
            *b"\n0\n",
            [1, 0, 0],
            [0, 1, 0],
            [0, 0, 1],
        ] {
            let input = padded_table(
                7,
                &[
                    (0x10, &[1], &pads),
                    (0x20, &[1, 2], &pads[1..]),
                    (0x30, &[1, 2, 3], &pads[2..]),
                    (0x40, &[1, 2, 3, 4], &[]),
                ],
                order,
            );
            prints(&input, order, text);
        }
    }
}

#[test]
fn pads_cut_short() {
    for order in ByteOrder::BOTH {
        // Size 1 asks for three pads, which stand at 13 to 15.
        for pads in [[0; 3], [0xFF; 3]] {
            let input = padded_table(7, &[(0x10, &[1], &pads)], order);
            for there in 0..3 {
                prints(&input[..13 + there], order, "refused 5 at 4\n");
            }
            // All pads are there, and the zero word is missing or cut.
            for there in 0..4 {
                prints(&input[..16 + there], order, "refused 5 at 16\n");
            }
        }
    }
}

#[test]
fn no_section() {
    for order in ByteOrder::BOTH {
        prints(&[0; 8], order, "entry 00000000\nend 0 0\n");
        prints(
            &table(0xFFFF_FFFF, &[], order),
            order,
            "entry ffffffff\nend 0 0\n",
        );
        prints(
            &table(0x0012_ABCD, &[], order),
            order,
            "entry 0012abcd\nend 0 0\n",
        );
    }
}

#[test]
fn one_section_at_the_lowest_and_the_highest_address() {
    for order in ByteOrder::BOTH {
        let lowest = table(0, &[(0, &[1])], order);
        prints(
            &lowest,
            order,
            "entry 00000000\nsection 00000000 1\nend 1 1\n",
        );
        let highest = table(0xFFFF_FFFF, &[(0xFFFF_FFFF, &[1])], order);
        prints(
            &highest,
            order,
            "entry ffffffff\nsection ffffffff 1\nend 1 1\n",
        );
        let letters = table(0xABCD_EF09, &[(0x9876_FEDC, &[1, 2])], order);
        prints(
            &letters,
            order,
            "entry abcdef09\nsection 9876fedc 2\nend 1 2\n",
        );
    }
}

#[test]
fn sizes_of_one_to_five_digits() {
    for order in ByteOrder::BOTH {
        for size in [
            1, 4, 9, 10, 11, 99, 100, 101, 999, 1000, 1001, 9999, 10_000, 10_001, 60_000, 65_520,
        ] {
            let input = table(0x0080_0000, &[(0x0C00_0000, &vec![0xEE; size])], order);
            let text = format!("entry 00800000\nsection 0c000000 {size}\nend 1 {size}\n");
            prints(&input, order, &text);
        }
        let several = table(
            1,
            &[
                (0x10, &[7; 9]),
                (0x20, &[7; 10]),
                (0x20, &[7; 100]),
                (0x1000, &[7; 12_345]),
            ],
            order,
        );
        prints(
            &several,
            order,
            "entry 00000001\nsection 00000010 9\nsection 00000020 10\n\
             section 00000020 100\nsection 00001000 12345\nend 4 12464\n",
        );
    }
}

#[test]
fn five_thousand_sections() {
    for order in ByteOrder::BOTH {
        let mut input = header_word(1, order).to_vec();
        let mut text = String::from("entry 00000001\n");
        for i in 0..5000u32 {
            input.extend(section(i * 0x1_0001, &[i as u8], order));
            text += &format!("section {:08x} 1\n", i * 0x1_0001);
        }
        input.extend([0; 4]);
        text += "end 5000 5000\n";
        prints(&input, order, &text);
        // As many as the limit takes.
        let mut input = vec![0; 4];
        let mut text = String::from("entry 00000000\n");
        for i in 0..5460u32 {
            input.extend(section(i, &[1, 2, 3, 4], order));
            text += &format!("section {i:08x} 4\n");
        }
        input.extend([0; 4]);
        text += "end 5460 21840\n";
        assert_eq!(input.len(), 65_528);
        prints(&input, order, &text);
    }
}

#[test]
fn an_empty_input() {
    for order in ByteOrder::BOTH {
        prints(&[], order, "refused 5 at 0\n");
    }
}

#[test]
fn each_refusal_of_form() {
    for order in ByteOrder::BOTH {
        for length in 0..20 {
            let place = match length {
                0..=3 => 0,
                4..=15 => 4,
                _ => 16,
            };
            prints(
                &p(order)[..length],
                order,
                &format!("refused 5 at {place}\n"),
            );
        }
        prints(&[&p(order)[..], &[0]].concat(), order, "refused 7 at 20\n");
        prints(
            &[&p(order)[..], &p(order)[..]].concat(),
            order,
            "refused 7 at 20\n",
        );
        let over = table(0, &[(0xFFFF_FFFF, &[1, 2])], order);
        prints(&over, order, "refused 8 at 4\n");
        let over = padded_table(0, &[(0xFFFF_FFFF, &[1, 2], &[0xFF, 1])], order);
        prints(&over, order, "refused 8 at 4\n");
        let mut size = *p(order);
        size[4..8].fill(0xFF);
        prints(&size, order, "refused 5 at 4\n");
        // A refusal is the only line, however many sections stand before it and
        // whatever their pads hold.
        let mut late = vec![0; 4];
        for i in 0..5000u32 {
            late.extend(padded_section(i, &[1], &[0xFF, i as u8, 0], order));
        }
        prints(&late, order, "refused 5 at 60004\n");
        late.extend([0; 5]);
        prints(&late, order, "refused 7 at 60008\n");
    }
}

#[test]
fn inputs_at_and_over_the_limit() {
    for order in ByteOrder::BOTH {
        // One section that fills the limit.
        let whole = table(2, &[(0x0080_0000, &vec![0x41; 65_520])], order);
        assert_eq!(whole.len(), 65_536);
        prints(
            &whole,
            order,
            "entry 00000002\nsection 00800000 65520\nend 1 65520\n",
        );
        let longer = [&whole[..], &[0]].concat();
        assert_eq!(longer.len(), 65_537);
        prints(&longer, order, "too long\n");
        // One data byte less, and a pad in its place.
        let padded = padded_table(2, &[(0x0080_0000, &vec![0x41; 65_519], &[0xFF])], order);
        assert_eq!(padded.len(), 65_536);
        prints(
            &padded,
            order,
            "entry 00000002\nsection 00800000 65519\nend 1 65519\n",
        );
        prints(&[0; 65_536], order, "refused 7 at 8\n");
        prints(&[0; 65_537], order, "too long\n");
        prints(&vec![0xFF; 65_536], order, "refused 5 at 4\n");
        prints(&vec![0xFF; 65_537], order, "too long\n");
        prints(&vec![0; 200_000], order, "too long\n");
    }
}

#[test]
fn input_in_pieces() {
    for order in ByteOrder::BOTH {
        let pause = Duration::from_millis(3);
        for size in [1, 3, 4, 7, 19] {
            let pieces: Vec<&[u8]> = p(order).chunks(size).collect();
            let text = run_in_pieces(&pieces, order, pause);
            assert_eq!(String::from_utf8_lossy(&text), P_TEXT, "pieces of {size}");
        }
        // The limit counts all pieces together.
        let whole = table(2, &[(0x0080_0000, &vec![0x41; 65_520])], order);
        let longer = [&whole[..], &[0]].concat();
        let whole_text = "entry 00000002\nsection 00800000 65520\nend 1 65520\n";
        for size in [4096, 10_000, 32_768, 65_535, 65_536] {
            for (input, expected) in [(&whole, whole_text), (&longer, "too long\n")] {
                let pieces: Vec<&[u8]> = input.chunks(size).collect();
                let text = run_in_pieces(&pieces, order, pause);
                assert_eq!(
                    String::from_utf8_lossy(&text),
                    expected,
                    "{} bytes in pieces of {size}",
                    input.len()
                );
            }
        }
        // Cut tables in pieces.
        let text = run_in_pieces(&[&p(order)[..7], &p(order)[7..18]], order, pause);
        assert_eq!(text, b"refused 5 at 16\n");
    }
}

#[test]
fn generated_tables() {
    let mut numbers = Numbers::new(cases::seed(), 40);
    for order in ByteOrder::BOTH {
        for _ in 0..600 {
            let regions = cases::sound_map(&mut numbers);
            let input = cases::boot_table(&mut numbers, &regions, 2, order);
            prints_as_reference(&input, order);
        }
    }
}

#[test]
fn generated_tables_in_the_wrong_order() {
    let mut numbers = Numbers::new(cases::seed(), 42);
    for order in ByteOrder::BOTH {
        for _ in 0..100 {
            let regions = cases::sound_map(&mut numbers);
            let input = cases::boot_table(&mut numbers, &regions, 2, order);
            prints_as_reference(&input, order.other());
        }
    }
}

/// The text of the lister of an order, which must be that of a table with so
/// many sections.
fn listed(input: &[u8], order: ByteOrder, sections: usize) -> String {
    let text = String::from_utf8(run(input, order)).expect("the text is ASCII");
    assert_eq!(text.lines().count(), sections + 2, "{text}");
    text
}

#[test]
fn other_pads_change_no_text() {
    let mut numbers = Numbers::new(cases::seed(), 41);
    let mut pairs = 0;
    for _ in 0..300 {
        let regions = cases::sound_map(&mut numbers);
        let order = numbers.order();
        let sections = cases::sections(&mut numbers, &regions);
        let entry = cases::entry(&mut numbers, &regions);
        let input = cases::table_of(entry, &sections, order);
        let mut other = input.clone();
        cases::change_pads(&mut numbers, &mut other, &sections);
        if other == input {
            continue;
        }
        // The form is right, so the table is listed.
        let text = listed(&input, order, sections.len());
        assert_eq!(String::from_utf8_lossy(&run(&other, order)), text);
        pairs += 1;
    }
    println!("other pads: {pairs} pairs");
    assert!(pairs >= 150, "{pairs} pairs");
}

#[test]
fn the_same_sections_in_two_orders_have_one_text() {
    let mut numbers = Numbers::new(cases::seed(), 43);
    let mut pairs = 0;
    for _ in 0..300 {
        let regions = cases::sound_map(&mut numbers);
        let sections = cases::sections(&mut numbers, &regions);
        let entry = cases::entry(&mut numbers, &regions);
        let [high, low] = ByteOrder::BOTH.map(|order| {
            let input = cases::table_of(entry, &sections, order);
            (listed(&input, order, sections.len()), input)
        });
        assert_eq!(high.0, low.0);
        pairs += u64::from(high.1 != low.1);
    }
    // The bytes differ.
    println!("two orders: {pairs} pairs");
    assert!(pairs >= 250, "{pairs} pairs");
}

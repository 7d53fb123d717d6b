//! The readers and the writers.

mod common;

use common::hex;
use plain::generate::{self, fields, Rng};
use plain::*;

/// Every code, function and value that matters: what is written is accepted by the board, what is refused is not.
#[test]
fn command_writer() {
    let mut rng = Rng::new(28);
    for code in 0..=255u8 {
        for function in (0..=8).chain([0x81, 255]) {
            for turn in 0..24 {
                let value = if turn < 12 { turn } else { generate::value(&mut rng, code) };
                let size = value_size(code).unwrap_or(0);
                let payload = match (code, function) {
                    (0x02, _) => Some(vec![0x02, 0]),
                    (0x01 | 0x07 | 0x08, 1) if usable(code, value) => {
                        Some([&[code, 1 + size as u8, 1], &value.to_be_bytes()[4 - size..]].concat())
                    }
                    (0x01 | 0x07 | 0x08, 2..=5) => Some(vec![code, 1, function]),
                    _ => None,
                };
                let length = rng.below(20);
                let mut room = vec![0x33; length];
                let answer = write_command(code, function, value, &mut room);
                let mut expected_room = vec![0x33; length];
                match payload {
                    None => assert_eq!(answer, (28, 0)),
                    Some(payload) => {
                        let written = message(if code == 0x02 { 0x01 } else { 0x02 }, &payload);
                        assert_eq!(handle(Profile::Full, 0, &written, FACTORY, Values::default()).rows[0].error, 0);
                        if length < written.len() {
                            assert_eq!(answer, (18, 0));
                        } else {
                            assert_eq!(answer, (0, written.len()));
                            expected_room[..written.len()].copy_from_slice(&written);
                        }
                    }
                }
                assert_eq!(room, expected_room);
            }
        }
    }
    // A range over 255 is none of the usable ones, and 28 comes before 18.
    assert_eq!(write_command(0x08, 1, 0x103, &mut []), (28, 0));
    assert_eq!(write_command(0x08, 1, 0x003, &mut []), (18, 0));
}

/// A field is written behind what stands in the room, or refused: 28 exactly where a message with it alone is not
/// accepted, then 18.
#[test]
fn field_writer() {
    let mut rng = Rng::new(27);
    for kind in [0, 1, 2, 3, 0x7C, 0xA5, 255] {
        for code in 0..=255u8 {
            for function in (0..=6).chain([0x81, 255]) {
                let value = generate::value(&mut rng, code);
                let size = value_size(code).unwrap_or(0);
                let field = match (kind, code, function) {
                    (1, 0x02, _) => Some(vec![0x02, 0]),
                    (2, 0x01 | 0x07 | 0x08, 1) if usable(code, value) => {
                        Some([&[code, 1 + size as u8, 1], &value.to_be_bytes()[4 - size..]].concat())
                    }
                    (2, 0x01 | 0x07 | 0x08, 2..=5) => Some(vec![code, 1, function]),
                    _ => None,
                };
                let (length, room_length) = (rng.below(12), rng.below(20));
                let mut room = vec![0x33; room_length];
                let answer = append_field(kind, code, function, value, length, &mut room);
                let mut expected_room = vec![0x33; room_length];
                match field {
                    None => assert_eq!(answer, (28, 0)),
                    Some(field) if room_length < length + field.len() => assert_eq!(answer, (18, 0), "{field:?}"),
                    Some(field) => {
                        let end = length + field.len();
                        assert_eq!(answer, (0, end));
                        expected_room[length..end].copy_from_slice(&field);
                        assert_eq!(
                            handle(Profile::Full, 0, &message(kind, &field), FACTORY, Values::default()).rows[0].error,
                            0
                        );
                    }
                }
                assert_eq!(room, expected_room);
            }
        }
    }
}

/// A payload made of fields is a command of that many, which the board accepts; a length over the room is 18.
#[test]
fn payload_of_written_fields() {
    let mut payload = [0; 15];
    let mut length = 0;
    for (code, value) in [(0x01, 921600), (0x07, 4), (0x08, 5)] {
        let answer = append_field(0x02, code, 1, value, length, &mut payload);
        assert_eq!(answer.0, 0);
        length = answer.1;
    }
    assert_eq!(payload[..length], hex("010501000E1000 07020104 08020105"));
    assert_eq!(append_field(0x02, 0x08, 2, 0, length, &mut payload), (18, 0));
    for length in [15, 16, 300, usize::MAX - 2, usize::MAX] {
        assert_eq!(append_field(0x01, 0x02, 0, 0, length, &mut payload), (18, 0));
        assert_eq!(append_field(0x02, 0x02, 0, 0, length, &mut payload), (28, 0));
    }
    let mut room = [0; 261];
    assert_eq!(write_message(0x02, &payload, &mut room), (0, 21));
    let handled = handle(Profile::Full, 0, &room[..21], FACTORY, Values::default());
    assert_eq!(handled.settings, Settings { baud: 921600, accelerometer: 4, gyroscope: 5 });
    assert_eq!(handled.rows.len(), 3);
    // A range over 255 is none of the usable ones.
    assert_eq!(append_field(0x02, 0x08, 1, 0x103, 0, &mut payload), (28, 0));
}

#[test]
fn plain_writer() {
    let mut rng = Rng::new(26);
    for length in 0..=300 {
        let payload = rng.bytes(length);
        let kind = rng.byte();
        for room_length in [0, length, length + 5, length + 6, length + 7] {
            let mut room = vec![0x44; room_length];
            let answer = write_message(kind, &payload, &mut room);
            if length > 255 {
                assert_eq!(answer, (26, 0));
            } else if room_length < length + 6 {
                assert_eq!(answer, (18, 0));
            } else {
                assert_eq!(answer, (0, length + 6));
                assert_eq!(check_message(&room[..length + 6]), 0);
                assert_eq!(room[2], kind);
                assert_eq!(room[4..4 + length], payload);
            }
            assert!(room[answer.1..].iter().all(|&byte| byte == 0x44));
        }
    }
}

#[test]
fn whole_messages() {
    let ping = hex(common::P1);
    assert_eq!(check_message(&ping), 0);
    for end in 0..8 {
        assert_eq!(check_message(&ping[..end]), 21);
    }
    assert_eq!(check_message(&[&ping[..], &[0]].concat()), 21);
    for (at, expected) in [(0, 21), (1, 21), (2, 22), (3, 21), (4, 22), (5, 22), (6, 22), (7, 22)] {
        let mut other = ping.clone();
        other[at] ^= 0x10;
        assert_eq!(check_message(&other), expected);
    }
}

/// "the reply reader accepts exactly" what is the writing of a reply.
#[test]
fn reply_reader() {
    let nothing = |number| Reply { number, kind: 0, echo: 0, error: 0, value: None };
    let reply = |kind, echo, error, value| Reply { number: 0, kind, echo, error, value };

    assert_eq!(read_reply(&hex(common::P1_REPLY), 0), reply(1, 2, 0, None));
    assert_eq!(read_reply(&hex("A5A5020780020800080103E9A4"), 0), reply(2, 8, 0, Some(3)));
    assert_eq!(read_reply(&hex("A5A5A5048002020178A8"), 0), reply(0xA5, 2, 1, None));
    assert_eq!(read_reply(&[], 0), nothing(21));
    assert_eq!(read_reply(&hex("A5A5A5048002020178A9"), 0), nothing(22));

    for error in 0..=255 {
        let expected = if error <= 7 { reply(0x63, 9, error, None) } else { nothing(23) };
        assert_eq!(read_reply(&message(0x63, &[0x80, 2, 9, error]), 0), expected);
    }
    assert_eq!(read_reply(&message(2, &hex("80020100 0104 0001C200")), 0), reply(2, 1, 0, Some(115200)));
}

/// Nothing else is a reply.
#[test]
fn no_replies() {
    let nothing = Reply { number: 23, kind: 0, echo: 0, error: 0, value: None };
    for (kind, text) in [
        (1, ""),
        (1, "80"),
        (1, "8002"),
        (1, "800202"),
        (1, "80010200"),
        (1, "81020200"),
        (1, "8002020000"),
        (2, "80020100 0104 0000E100"), // not readable
        (1, "80020100 0104 0001C200"), // type 01
        (3, "80020100 0104 0001C200"), // type 03
        (2, "80020104 0104 0001C200"), // error 4
        (2, "80020100 0101 02"),       // not its value size
        (2, "80020700 0801 02"),       // not the echo
        (2, "80020700 0701 05"),       // not readable
        (2, "80020800 0801 00"),       // not readable
        (2, "80020800 0801 08"),       // not readable
        (2, "80020806 0801 06"),       // error 6
        (2, "80020700 0701 0202"),     // something after it
        (2, "80020700 0702 0202"),     // not its value size
        (2, "80020700 0701"),          // cut off
        (2, "80020700 07"),            // cut off
        (2, "80020200 0200"),          // Ping has no value
        (2, "80020200 0201 02"),       // Ping has no value
        (2, "80020100 0104 0001C200 00"),
        (2, "80020700 0701 02 0701 02"),
    ] {
        assert_eq!(read_reply(&message(kind, &hex(text)), 0), nothing, "{kind:02X} {text}");
    }
}

/// "1 to 16 of these rows by number (27 for none), several only in types 01 and 02", and since 02-03.6 in 7C.
#[test]
fn reply_rows() {
    let nothing = |number| Reply { number, kind: 0, echo: 0, error: 0, value: None };
    let row = |kind, echo, error, value| Reply { number: 0, kind, echo, error, value };
    let three = message(2, &hex("80020100 0104000E1000 80026303 80020800 080107"));
    let expected = [row(2, 1, 0, Some(921600)), row(2, 0x63, 3, None), row(2, 8, 0, Some(7))];
    for (place, row) in expected.into_iter().enumerate() {
        assert_eq!(read_reply(&three, place), row);
    }
    for place in [3, 4, 16, usize::MAX] {
        assert_eq!(read_reply(&three, place), nothing(27));
    }
    assert_eq!(read_reply(&three[1..], 3), nothing(21));
    let mut damaged = three;
    damaged[8] ^= 1;
    assert_eq!(read_reply(&damaged, 3), nothing(22));

    // One row in any type, 2 to 16 in types 01, 02 and 7C, none and 17 in none.
    for kind in 0..=255 {
        for count in 0..=18 {
            let reply = message(kind, &hex("80020904").repeat(count));
            let most = if [0x01, 0x02, 0x7C].contains(&kind) { 16 } else { 1 };
            for place in [0, 1, 15, 16, 17] {
                let expected = match (1..=most).contains(&count) {
                    false => nothing(23),
                    true if place < count => row(kind, 9, 4, None),
                    true => nothing(27),
                };
                assert_eq!(read_reply(&reply, place), expected);
            }
        }
    }
    let full = message(2, &hex("80020100 0104 0001C200").repeat(16));
    assert_eq!(read_reply(&full, 15), row(2, 1, 0, Some(115200)));
    // An echo of 80 is no value's code: a field 80 behind it opens the next row.
    assert_eq!(read_reply(&message(2, &hex("80028000 80020200")), 1), row(2, 2, 0, None));
}

/// One wrong row is enough, whichever is asked for.
#[test]
fn wrong_rows() {
    for (kind, text) in [
        (1, "80020700 070102"),        // a value in type 01
        (3, "80020700 070102"),        // a value in type 03
        (2, "80020701 070102"),        // a value after an error
        (2, "80020700 080102"),        // of another code
        (2, "80020700 070102 070102"), // two values
        (2, "80020700 070102 080102"), // two values
        (2, "80020200 020102"),        // of a code without a value
        (2, "80020700 0700"),          // of another size
        (2, "80020700 070105"),        // not readable
        (2, "80020800 080108"),        // not readable
        (2, "8003070000"),             // 80 of size 3
        (2, "800107"),                 // 80 of size 1
        (2, "8000"),                   // 80 of size 0
        (2, "80020708"),               // no error of the table
        (2, "80020705 070102"),        // a value after error 5
        (2, "80020806 080106"),        // a value after error 6
        (2, "070102"),                 // a value without a row
        (2, "80020700 07"),            // not filled
        (2, "80020700 80"),            // not filled
    ] {
        for (before, after) in [("", ""), ("80020200", ""), ("", "80020200"), ("80020204", "80020204")] {
            let reply = message(kind, &[hex(before), hex(text), hex(after)].concat());
            for place in 0..4 {
                assert_eq!(read_reply(&reply, place).number, 23, "{kind:02X} {before} {text} {after}");
            }
        }
    }
}

/// What the board replies is read: as many rows as handling gives, each as it is.
#[test]
fn replies_are_read() {
    let mut rng = Rng::new(80);
    for turn in 0..40_000 {
        let received = if turn % 2 == 0 { generate::any_good(&mut rng) } else { fields::several(&mut rng) };
        let settings = generate::usable_settings(&mut rng);
        let handled = handle(Profile::Full, 0, &received, settings, generate::values(&mut rng));
        for (place, &Row { echo, error, value }) in handled.rows.iter().enumerate() {
            let expected = Reply { number: 0, kind: received[2], echo, error, value };
            assert_eq!(read_reply(&handled.reply, place), expected);
        }
        assert_eq!(read_reply(&handled.reply, handled.rows.len()).number, 27);
    }
}

#[test]
fn data_reader() {
    let refused = Field::Unknown { code: 0, place: 0 };
    let table_63 = hex("A5A5A21C810C37A7C5AC377BA8823F800065820C37A7C5AC377BA8823749539C0C23");
    let acceleration = [0x37A7C5AC, 0x377BA882, 0x3F800065];
    let rate = [0x37A7C5AC, 0x377BA882, 0x3749539C];
    assert_eq!(read_field(&table_63, 0), (0, Field::Acceleration(acceleration)));
    assert_eq!(read_field(&table_63, 1), (0, Field::Rate(rate)));
    assert_eq!(read_field(&table_63, 2), (27, refused));
    assert_eq!(read_field(&table_63, usize::MAX), (27, refused));
    assert_eq!((field_place(&table_63, 0), field_place(&table_63, 1)), ((0, 6, 12), (0, 20, 12)));
    assert_eq!(field_data(&table_63, 0), &table_63[6..18]);
    assert_eq!(field_data(&table_63, 1), &table_63[20..32]);
    assert!(std::ptr::eq(field_data(&table_63, 1).as_ptr(), &table_63[20]));
    assert_eq!(field_data(&table_63, 2), []);
    let mut room = [0x11; 40];
    assert_eq!(write_data(acceleration, rate, &mut room), (0, 34));
    assert_eq!(room[..34], table_63);
    assert_eq!(room[34..], [0x11; 6]);
    let mut room = [0x11; 33];
    assert_eq!(write_data(acceleration, rate, &mut room), (18, 0));
    assert_eq!(room, [0x11; 33]);

    // A temperature of 003 is an unknown field here.
    let table_69 = hex("A5A5A2068604000003FD7CB4");
    assert_eq!(read_field(&table_69, 0), (0, Field::Unknown { code: 0x86, place: 6 }));
    assert_eq!(field_data(&table_69, 0), hex("000003FD"));
    assert_eq!(field_place(&table_69, 0), (0, 6, 4));

    let data = |text: &str| message(0xA2, &hex(text));
    for (bytes, k, expected) in [
        (vec![], 0, 21),
        (table_63[..33].to_vec(), 0, 21),
        (hex("A5A5A20E880C410944c000000000072F00081A32"), 0, 22),
        (message(0xA1, &[]), 0, 23),
        (message(0x02, &[0x81, 1]), 0, 23),
        (data(""), 0, 27),
        (data("81"), 0, 24),
        (data("8101"), 0, 24),
        (data("8100"), 0, 25),
        (data("8000"), 1, 27),
        (data("8000 81"), 0, 24),
        (data("8100 80"), 0, 24), // 24 of the whole payload before 25 of any field
        (data("8000 820B 0000000000000000000000"), 0, 25), // also where another field is asked for
        (data("8000 820B 0000000000000000000000"), 9, 25), // and before 27
        (data("820D 00000000000000000000000000"), 0, 25),
    ] {
        assert_eq!(read_field(&bytes, k), (expected, refused), "{bytes:02X?}");
        assert_eq!(field_data(&bytes, k), []);
        assert_eq!(field_place(&bytes, k), (expected, 0, 0));
    }
    let two = data("8000 8303 010203");
    assert_eq!(read_field(&two, 0), (0, Field::Unknown { code: 0x80, place: 6 }));
    assert_eq!(read_field(&two, 1), (0, Field::Unknown { code: 0x83, place: 8 }));
    assert_eq!(field_data(&two, 0), []);
    assert_eq!(field_data(&two, 1), [1, 2, 3]);
    assert_eq!((field_place(&two, 0), field_place(&two, 1)), ((0, 6, 0), (0, 8, 3)));
}

/// "what it writes is read back, and a message that reads as exactly these two fields is written back to the same
/// bytes"
#[test]
fn data_round() {
    let mut rng = Rng::new(0xA2);
    let mut two_fields = 0;
    let mut numbers = [0; 32];
    for _ in 0..100_000 {
        let acceleration = [0; 3].map(|_| generate::bits(&mut rng));
        let rate = [0; 3].map(|_| generate::bits(&mut rng));
        let mut room = [0; 34];
        assert_eq!(write_data(acceleration, rate, &mut room), (0, 34));
        assert_eq!(read_field(&room, 0), (0, Field::Acceleration(acceleration)));
        assert_eq!(read_field(&room, 1), (0, Field::Rate(rate)));
        assert_eq!(read_field(&room, 2).0, 27);

        let other = generate::data(&mut rng);
        let (number, place, size) = field_place(&other, 1);
        assert_eq!((number, &other[place..place + size]), (read_field(&other, 1).0, field_data(&other, 1)));
        numbers[usize::from(number)] += 1;
        let fields = [read_field(&other, 0).1, read_field(&other, 1).1];
        if let [Field::Acceleration(acceleration), Field::Rate(rate)] = fields {
            if read_field(&other, 2).0 == 27 {
                let mut room = [0; 34];
                write_data(acceleration, rate, &mut room);
                assert_eq!(room[..], other[..]);
                two_fields += 1;
            }
        }
    }
    assert!(two_fields > 100, "{two_fields}");
    assert!([0, 23, 24, 25, 27].iter().all(|&number| numbers[number] > 100), "{numbers:?}");
}

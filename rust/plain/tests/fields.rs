//! Request 02 (02-02.1 to 02-02.8): several fields in one command, on the feed and on the plain reckoning at once. What
//! is expected is worked out from the papers by hand.

mod common;

use common::{fed, hex, page_of, rows, uncounted, Both};
use plain::generate::{self, fields, Rng};
use plain::*;

/// The rows of the reply to a payload of type 02, on a fresh board with a blank page.
fn rows_of(payload: &str) -> Vec<(u8, u8)> {
    rows(&fed(&mut Both::blank(), 0, &message(0x02, &hex(payload))).reply)
}

/// 02-02.1: "the controller wants to send three settings at a time". Set, saved, and loaded after a restart.
#[test]
fn three_settings() {
    let set = hex("A5A5020F 0105 01000E1000 0702 0104 0802 0105 9E14");
    let save = hex("A5A50209 010103 070103 080103 710B");
    let done = hex("A5A5020C 80020100 80020700 80020800 EE21");
    let mut both = Both::blank();
    let answer = fed(&mut both, 0, &set);
    assert_eq!((&answer.reply, answer.saved), (&done, false));
    let three = Settings { baud: 921600, accelerometer: 4, gyroscope: 5 };
    assert_eq!(both.board.settings, three);
    assert_eq!(both.page, [0xFF; 64]);

    let answer = fed(&mut both, 0, &save);
    assert_eq!((&answer.reply, answer.saved), (&done, true));
    assert_eq!(both.page, page_of("03 010A04 070E01 080F01 000E1000 04 05"));

    // Starting loads them, and so does function 4 after others were set.
    let mut both = Both::new(&both.page);
    assert_eq!(both.board.settings, three);
    fed(&mut both, 0, &hex("A5A5020F 0105 0100002580 0702 0101 0802 0101 1EB9"));
    assert_eq!(both.board.settings, Settings { baud: 9600, accelerometer: 1, gyroscope: 1 });
    let answer = fed(&mut both, 0, &hex("A5A50209 010104 070104 080104 7417"));
    assert_eq!((&answer.reply, answer.saved), (&done, false));
    assert_eq!(both.board.settings, three);

    let answer = fed(&mut both, 0, &hex("A5A50209 010102 070102 080102 6EFF"));
    assert_eq!(answer.reply, hex("A5A50218 80020100 0104000E1000 80020700 070104 80020800 080105 3741"));
}

/// "1 to 16 fields": 17 and more get one row. Each count of Pings that L leaves room for, filled and with a byte more.
#[test]
fn counts() {
    for count in 0..=127 {
        let payload = [0x02, 0x00].repeat(count);
        let expected = match count {
            0 => message(0x01, &hex("80020003")),
            1..=16 => message(0x01, &hex("80020200").repeat(count)),
            _ => message(0x01, &hex("80020204")),
        };
        assert_eq!(fed(&mut Both::blank(), 0, &message(0x01, &payload)).reply, expected);
        let more = fed(&mut Both::blank(), 0, &message(0x01, &[&payload[..], &[0x02]].concat()));
        assert_eq!(more.reply, message(0x01, &hex("80020204")));
    }
    assert_eq!(fed(&mut Both::blank(), 0, &hex("A5A5010402000200 53D1")).reply, hex("A5A50108 80020200 80020200 5B49"));
}

/// 17 fields change nothing, and neither the first nor the last of them saves.
#[test]
fn seventeen_fields() {
    let used = hex("07020101");
    let mut both = Both::blank();
    let answer = fed(&mut both, 0, &message(0x02, &[used.repeat(15), hex("070103")].concat()));
    assert_eq!((rows(&answer.reply), answer.saved), (vec![(7, 0); 16], true));
    assert_eq!(both.board.settings.accelerometer, 1);

    let save = hex("080103");
    for payload in [[save.clone(), used.repeat(16)], [used.repeat(16), save]] {
        let mut both = Both::blank();
        let answer = fed(&mut both, 0, &message(0x02, &payload.concat()));
        assert_eq!((rows(&answer.reply), answer.saved), (vec![(payload.concat()[0], 4)], false));
        assert_eq!((both.board.settings, &both.page[..]), (FACTORY, &[0xFF; 64][..]));
    }
}

/// "a payload that fields do not fill exactly [..] gets one field with error 4, tested after L = 0 and before any
/// code", and nothing of it is done.
#[test]
fn unfilled() {
    for payload in [
        "01",                         // L = 1
        "63",                         // L = 1 with an unknown code
        "0701",                       // a size past the end
        "07020102 08",                // a code alone
        "07020102 63",                // an unknown code alone
        "07020102 0802 01",           // a size past the end by one
        "07020102 08FF 0107",         // and by more
        "6301",                       // an unknown code with a size past the end
        "6300 63",                    // an unknown code, and a code alone
        "070103 070201",              // a save before it
        "07020102 02000200 0802",     // unknown codes before it
        "010501000E1000 07020104 00", // a code alone, behind two settings
    ] {
        let bytes = hex(payload);
        for kind in [0x01, 0x02] {
            let mut both = Both::blank();
            let answer = fed(&mut both, 0, &message(kind, &bytes));
            assert_eq!(answer.reply, message(kind, &[0x80, 2, bytes[0], 4]), "{payload}");
            assert!(!answer.saved);
            assert_eq!((both.board.settings, &both.page[..]), (FACTORY, &[0xFF; 64][..]));
        }
        // The type is tested before, and the sums before it.
        assert_eq!(rows(&fed(&mut Both::blank(), 0, &message(0x03, &bytes)).reply), [(bytes[0], 2)]);
        let mut damaged = message(0x02, &bytes);
        *damaged.last_mut().unwrap() ^= 1;
        assert_eq!(rows(&Both::blank().feed(0, &damaged).reply), [(bytes[0], 1)]);
    }
}

/// A message that is damaged, or of another type, has one row, however many fields fill it.
#[test]
fn fields_not_reached() {
    let payload = hex("07020101 080103 010102");
    let mut bytes = message(0x02, &payload);
    let end = bytes.len() - 1;
    bytes[end] ^= 1;
    let mut both = Both::blank();
    let answer = both.feed(0, &bytes);
    assert_eq!((answer.number, answer.taken, answer.skipped, answer.saved), (0, bytes.len(), 1, false));
    assert_eq!(answer.reply, message(0x02, &hex("80020701")));
    assert_eq!(both.board.settings, FACTORY);
    for kind in [0x00, 0x03, 0x7B, 0x80, 0xA2, 0xFF] {
        let answer = fed(&mut Both::blank(), 0, &message(kind, &payload));
        assert_eq!((answer.reply, answer.saved), (message(kind, &hex("80020702")), false));
    }
}

/// A field's error does not stop those after it. An unknown code among fields that fill the payload is that field's 3.
#[test]
fn errors_in_the_middle() {
    let mut both = Both::blank();
    let answer = fed(&mut both, 0, &message(0x02, &hex("07020103 0802 0108 6300 0200 0101 06 08020101 0700 010103")));
    let expected = [(7, 0), (8, 4), (0x63, 3), (2, 3), (1, 4), (8, 0), (7, 4), (1, 0)];
    assert_eq!((&rows(&answer.reply)[..], answer.saved), (&expected[..], true));
    assert_eq!(both.board.settings, Settings { baud: 115200, accelerometer: 3, gyroscope: 1 });
    assert_eq!(both.page, page_of("01 010404 0001C200"));

    let reported = fed(&mut Both::blank(), 0, &hex("A5A50209 07020102 6300 070102 CEF7"));
    assert_eq!(reported.reply, hex("A5A5020F 80020700 80026303 80020700 070102 5FD1"));

    // In type 01 a setting's code is unknown, in type 02 the Ping's.
    let answer = fed(&mut Both::blank(), 0, &message(0x01, &hex("0200 07020102 0201 00 0200")));
    assert_eq!(rows(&answer.reply), [(2, 0), (7, 3), (2, 4), (2, 0)]);
    assert_eq!(rows_of("0200"), [(2, 3)]);
}

/// Every function with every size of value, behind and before a field that is accepted.
#[test]
fn functions_and_sizes() {
    for (code, size) in [(0x01, 4), (0x07, 1), (0x08, 1)] {
        for function in (0..=6).chain([255]) {
            for more in 0..7 {
                // Zeros are no usable value, and are not looked at where the function is not 1.
                let field = [vec![code, 1 + more as u8, function], vec![0; more]].concat();
                let right = (2..=5).contains(&function) && (more == 0 || more == size);
                let row = (code, if right { 0 } else { 4 });
                let other = hex("07020101");
                let payload = [&other[..], &field, &other, &field].concat();
                let answer = fed(&mut Both::blank(), 0, &message(0x02, &payload));
                assert_eq!(rows(&answer.reply), [(7, 0), row, (7, 0), row]);
                assert_eq!(answer.saved, right && function == 3);
            }
        }
    }
}

/// A load sees the save before it, a save the value before it, a report what is then in use.
#[test]
fn later_fields_see_earlier_ones() {
    let mut both = Both::blank();
    let answer = fed(&mut both, 0, &hex("A5A50211 07020103 070103 07020101 070104 070102 96DC"));
    assert_eq!(answer.reply, hex("A5A50217 80020700 80020700 80020700 80020700 80020700070103 1B70"));
    assert!(answer.saved);
    assert_eq!(both.board.settings.accelerometer, 3);
    assert_eq!(both.page, page_of("01 070401 03"));

    // The other way round the load finds no entry, and takes the factory's.
    let mut both = Both::blank();
    let answer = fed(&mut both, 0, &message(0x02, &hex("07020103 070104 070103 070102")));
    assert_eq!(answer.reply, message(0x02, &hex("80020700 80020700 80020700 80020700070102")));
    assert_eq!(both.page, page_of("01 070401 02"));

    // Two reports of one setting differ where it was set between them.
    let answer = fed(&mut Both::blank(), 0, &message(0x02, &hex("080102 08020105 080102 080105 080102")));
    let expected = "80020800080103 80020800 80020800080105 80020800 80020800080103";
    assert_eq!(answer.reply, message(0x02, &hex(expected)));
}

/// The mark is that of any field: the first, one in the middle, the last; not that of a save that is refused.
#[test]
fn save_marks() {
    for (payload, saved) in [
        ("070103 080102 010102", true),
        ("080102 070103 010102", true),
        ("080102 010102 070103", true),
        ("070103 07020105", true),
        ("0703 030000 080102", false), // two value bytes: 4
        ("020103 080102", false),      // an unknown code
        ("070104 080105 010102", false),
    ] {
        let mut both = Both::blank();
        let answer = fed(&mut both, 0, &message(0x02, &hex(payload)));
        assert_eq!(answer.saved, saved, "{payload}");
        assert_eq!(both.page != [0xFF; 64], saved, "{payload}");
    }
    // Also where the page has the value already.
    let mut both = Both::new(&factory_page());
    assert!(fed(&mut both, 0, &message(0x02, &hex("080103 080102"))).saved);
    assert_eq!(both.page, factory_page());
}

/// "The feed's room grows to 166": sixteen reports of the baud rate take it all.
#[test]
fn longest_reply() {
    let mut both = Both::blank();
    let bytes = message(0x02, &hex("010102").repeat(16));
    for room in [16, 165] {
        assert_eq!(both.try_feed(0, &bytes, room).unwrap().number, 18);
    }
    let answer = fed(&mut both, 0, &bytes);
    assert_eq!(answer.reply, message(0x02, &hex("80020100 0104 0001C200").repeat(16)));
    assert_eq!((answer.reply.len(), Port::LONGEST_REPLY), (166, 166));

    let mut rng = Rng::new(166);
    for _ in 0..50_000 {
        let received = if rng.chance(1, 2) { fields::several(&mut rng) } else { generate::piece(&mut rng) };
        if check_message(&received) == 0 {
            let handled =
                handle(Profile::Full, 0, &received, generate::usable_settings(&mut rng), generate::values(&mut rng));
            assert!((1..=16).contains(&handled.rows.len()) && handled.reply.len() <= 166);
        }
    }
}

/// Cuts a payload that fields fill into its fields, by their size bytes.
fn cut_into_fields(payload: &[u8]) -> Vec<&[u8]> {
    let mut fields = Vec::new();
    let mut rest = payload;
    while !rest.is_empty() {
        let (field, after) = rest.split_at(2 + usize::from(rest[1]));
        fields.push(field);
        rest = after;
    }
    fields
}

/// "It leaves the settings and page that separate messages of the same type, one for each field in order, would leave.
/// The reply carries the separate replies' fields in that order."
#[test]
fn separate_messages() {
    let mut rng = Rng::new(0x0202);
    let mut changed = 0;
    for _ in 0..20_000 {
        let kind = rng.pick(&[0x01, 0x02, 0x02, 0x02]);
        let count = rng.between(1, 16);
        let payload = fields::row(&mut rng, kind, count);
        let page = generate::sound_page(&mut rng);
        let (mut one, mut many) = (Both::new(&page), Both::new(&page));
        let answer = fed(&mut one, 0, &message(kind, &payload));

        let (mut replied, mut saved) = (Vec::new(), false);
        for field in cut_into_fields(&payload) {
            let separate = fed(&mut many, 0, &message(kind, field));
            let end = separate.reply.len() - 2;
            replied.extend_from_slice(&separate.reply[4..end]);
            saved |= separate.saved;
        }
        assert_eq!(answer.reply, message(kind, &replied), "{payload:02X?}");
        assert_eq!(answer.saved, saved);
        assert_eq!((uncounted(&one.board), &one.page), (uncounted(&many.board), &many.page));
        changed += usize::from(one.page != page);
    }
    assert!(changed > 2000, "{changed}");
}

/// "Demand 3 handles such a message as one": cut at every place, it is reported once, whole.
#[test]
fn cut_at_every_place() {
    let mut rng = Rng::new(0xC2);
    for _ in 0..200 {
        let bytes = fields::several(&mut rng);
        let whole = Both::blank().feed(1, &bytes);
        for cut in 0..bytes.len() {
            let mut both = Both::blank();
            let begun = both.feed(1, &bytes[..cut]);
            assert_eq!((begun.number, begun.taken), (1, cut));
            let ended = both.feed(1, &bytes[cut..]);
            assert_eq!(begun.skipped + ended.skipped, whole.skipped);
            assert_eq!((ended.number, &ended.reply, ended.saved), (whole.number, &whole.reply, whole.saved));
        }
    }
}

/// 02-02.7: "the listing prints a line for each echo", each with the feed's mark.
#[test]
fn listings() {
    let several = message(0x02, &hex("07020103 6300 070103 070102"));
    let pings = hex("A5A5010402000200 53D1");
    let unfilled = message(0x01, &hex("0200 02"));
    let expected = "type code error page\n\
        02 07 0 saved\n02 63 3 saved\n02 07 0 saved\n02 07 0 saved\n\
        01 02 0 same\n01 02 0 same\n\
        01 02 4 same\n\
        taken 37 skipped 0 held 0\n";
    assert_eq!(listing(&[several, pings, unfilled].concat()), expected);
}

//! Request 03 (02-03.1 to 02-03.11): numbered commands that outlive a restart, on the feed and on the plain reckoning at
//! once. What is expected is worked out from the papers by hand.

mod common;

use common::{fed, hex, page_of, rows, uncounted, Both};
use plain::generate::numbered::{self, numbered};
use plain::generate::{self, Rng, Step};
use plain::*;

/// A board on a page that keeps this number and nothing else.
fn keeping(number: u32) -> Both {
    Both::new(&write_page(&Values { last_number: Some(number), ..Values::default() }))
}

/// The number that the page keeps.
fn kept(both: &Both) -> Option<u32> {
    values(&both.page).unwrap().last_number
}

/// 02-03.1, 02-03.4, 02-03.5: a numbered command, byte by byte: number 1 sets the accelerometer's range to 3, number 2 saves
/// it, number 3 asks for it.
#[test]
fn whole_messages() {
    for port in [0, 1] {
        let mut both = Both::blank();
        let answer = fed(&mut both, port, &hex("A5A57C09 00000001 02 07020103 DF02"));
        assert_eq!((answer.reply, answer.saved), (hex("A5A57C04 80020700 53BB"), true));
        assert_eq!(both.board.settings, Settings { accelerometer: 3, ..FACTORY });
        assert_eq!(both.page, page_of("01 700404 00000001"));

        let answer = fed(&mut both, port, &hex("A5A57C08 00000002 02 070103 DD1F"));
        assert_eq!((answer.reply, answer.saved), (hex("A5A57C04 80020700 53BB"), true));
        assert_eq!(both.page, page_of("02 070701 700804 03 00000002"));

        let answer = fed(&mut both, port, &hex("A5A57C08 00000003 02 070102 DD23"));
        assert_eq!((answer.reply, answer.saved), (hex("A5A57C07 80020700 070103 61E6"), true));
        assert_eq!(both.page, page_of("02 070701 700804 03 00000003"));

        // The same bytes again: stale, and nothing changes.
        let answer = fed(&mut both, port, &hex("A5A57C09 00000001 02 07020103 DF02"));
        assert_eq!((answer.reply, answer.saved), (hex("A5A57C04 80020705 58C0"), false));
        assert_eq!(both.page, page_of("02 070701 700804 03 00000003"));
    }
}

/// Payloads of type 7C for a page that keeps 00000100, and the echo and the error of the one row.
const REFUSED: [(&str, (u8, u8)); 28] = [
    ("", (0, 4)),
    ("00", (0, 4)),
    ("000001", (0, 4)),
    ("00000101", (0, 4)), // a fresh number, and no type
    ("FFFFFFFF", (0, 4)),
    ("00000100 02", (0, 5)), // stale before anything inside
    ("00000100 03", (0, 5)),
    ("00000100 03 07020103", (7, 5)),
    ("00000100 02 07", (7, 5)),
    ("00000100 02 6300", (0x63, 5)),
    ("000000FF 02 07020103", (7, 5)),
    ("00000101 03", (0, 2)), // the type before what it has
    ("00000101 03 07", (7, 2)),
    ("00000101 7C 00000102020701 03", (0, 2)), // no number inside a number
    ("00000101 00 07020103", (7, 2)),
    ("00000101 01", (0, 3)), // no field
    ("00000101 02", (0, 3)),
    ("00000101 02 07", (7, 4)), // not filled
    ("00000101 02 63", (0x63, 4)),
    ("00000101 02 6301", (0x63, 4)),
    ("00000101 02 07020103 08", (7, 4)),
    ("00000101 01 0200020002000200020002000200020002000200020002000200020002000200 0200", (2, 4)), // 17
    ("00000101 02 6300", (0x63, 3)),                                                               // the field's own
    ("00000101 02 0200", (2, 3)),
    ("00000101 01 07020103", (7, 3)),
    ("00000101 02 07020105", (7, 4)),
    ("00000101 02 0700", (7, 4)),
    ("00000101 02 070106", (7, 4)),
];

/// 02-03.11: "in type 7C, L under 5 is error 4, then a stale number error 5, then the inner type (2), then the rest".
/// Only a fresh number is written, and only it sets the mark.
#[test]
fn errors_in_order() {
    for (payload, row) in REFUSED {
        let bytes = message(0x7C, &hex(payload));
        let spent = payload.starts_with("00000101 ");
        for port in [0, 1] {
            let mut both = keeping(0x100);
            let answer = fed(&mut both, port, &bytes);
            assert_eq!((rows(&answer.reply), answer.saved), (vec![row], spent), "{payload}");
            assert_eq!(answer.reply, message(0x7C, &[0x80, 2, row.0, row.1]), "{payload}");
            assert_eq!(both.board.settings, FACTORY, "{payload}");
            let number = if spent { "00000101" } else { "00000100" };
            assert_eq!(both.page, page_of(&format!("01 700404 {number}")), "{payload}");
        }
    }
}

/// "sums wrong" comes first, whatever stands inside, and "a damaged message keeps document 01's echo": its first payload
/// byte. It spends nothing, and the number can be used afterwards.
#[test]
fn damaged() {
    for (payload, echo) in
        [("", 0), ("12", 0x12), ("12345678", 0x12), ("12345678 02 07020103", 0x12), ("00000000 03 07", 0)]
    {
        let mut bytes = message(0x7C, &hex(payload));
        let end = bytes.len();
        bytes[end - 1] ^= 1;
        for mut both in [Both::blank(), keeping(0x100)] {
            let before = both.page.clone();
            let answer = both.feed(0, &bytes);
            assert_eq!((answer.number, answer.taken, answer.skipped, answer.saved), (0, end, 1, false));
            assert_eq!(answer.reply, message(0x7C, &[0x80, 2, echo, 1]), "{payload}");
            assert_eq!((both.board.settings, &both.page), (FACTORY, &before));
        }
    }
    let mut both = Both::blank();
    let mut bytes = hex("A5A57C09 00000001 02 07020103 DF02");
    bytes[14] ^= 0x80;
    both.feed(1, &bytes);
    assert_eq!((kept(&both), both.board.settings), (None, FACTORY));
    assert_eq!(rows(&fed(&mut both, 0, &hex("A5A57C09 00000001 02 07020103 DF02")).reply), [(7, 0)]);
    assert_eq!(kept(&both), Some(1));
}

/// 02-03.3: "A number is fresh if it is larger than the kept one; with no entry, every number is." All four bytes are
/// compared, the first of them first.
#[test]
fn freshness() {
    let error = |mut both: Both, number: u32| {
        let before = kept(&both);
        let answer = fed(&mut both, 0, &numbered(number, 0x01, &[0x02, 0]));
        let [(2, error)] = rows(&answer.reply)[..] else { panic!("one row with echo 02") };
        assert_eq!(answer.saved, error == 0);
        assert_eq!(kept(&both), if error == 0 { Some(number) } else { before });
        error
    };
    for number in numbered::ENDS {
        assert_eq!(error(Both::blank(), number), 0);
        assert_eq!(error(Both::new(&factory_page()), number), 0);
        for last in numbered::ENDS {
            assert_eq!(
                error(keeping(last), number),
                if number > last { 0 } else { 5 },
                "{last:08X}, then {number:08X}"
            );
        }
    }
    let mut rng = Rng::new(0x7C);
    for _ in 0..20_000 {
        let last = numbered::kept(&mut rng);
        let number = numbered::number(&mut rng, Some(last));
        let larger = number.to_be_bytes() > last.to_be_bytes();
        assert_eq!(error(keeping(last), number), if larger { 0 } else { 5 }, "{last:08X}, then {number:08X}");
    }
}

/// 02-03.7: "After 4294967295 nothing is fresh until the page is erased."
#[test]
fn last_number() {
    let mut both = Both::blank();
    assert_eq!(rows(&fed(&mut both, 0, &numbered(4294967295, 0x01, &[0x02, 0])).reply), [(2, 0)]);
    assert_eq!(both.page, page_of("01 700404 FFFFFFFF"));
    for turn in 0..200u32 {
        for number in [turn, 4294967295 - turn, turn.wrapping_mul(0x9E37_79B9)] {
            let answer = fed(&mut both, 1, &numbered(number, 0x02, &hex("07020103")));
            assert_eq!((rows(&answer.reply), answer.saved), (vec![(7, 5)], false));
        }
        both.restart();
    }
    assert_eq!((both.board.settings, &both.page), (FACTORY, &page_of("01 700404 FFFFFFFF")));
    // Erased: the page is blank, and the board starts on it.
    let mut both = Both::blank();
    assert_eq!(rows(&fed(&mut both, 0, &numbered(0, 0x01, &[0x02, 0])).reply), [(2, 0)]);
    assert_eq!(both.page, page_of("01 700404 00000000"));
}

/// 02-03.4: "the number is spent either way". After each command that fails inside, its number is stale, and so is each
/// smaller one.
#[test]
fn spent_on_failure() {
    let mut both = Both::blank();
    let failing = ["03 07020103", "02", "02 07", "02 6300", "02 07020105", "01 07020103", "7C 00000009010200"];
    for (number, inner) in (1..).zip(failing) {
        let bytes = message(0x7C, &hex(&format!("{number:08X} {inner}")));
        let answer = fed(&mut both, 0, &bytes);
        assert!(answer.saved && rows(&answer.reply)[0].1 != 0, "{inner}");
        assert_eq!(both.page, page_of(&format!("01 700404 {number:08X}")));
        for again in [number, number - 1] {
            let answer = fed(&mut both, 1, &numbered(again, 0x02, &hex("07020103")));
            assert_eq!((rows(&answer.reply), answer.saved), (vec![(7, 5)], false));
        }
    }
    assert_eq!(both.board.settings, FACTORY);
}

/// A save keeps entry 70, numbered or not, and a number keeps the saved values. The codes ascend.
#[test]
fn saves_keep_the_number() {
    let mut both = Both::blank();
    for (number, code, page) in [
        (7, 0x08, "02 080701 700804 03 00000007"),
        (8, 0x07, "03 070A01 080B01 700C04 02 03 00000008"),
        (9, 0x01, "04 010D04 071101 081201 701304 0001C200 02 03 00000009"),
    ] {
        assert!(fed(&mut both, 0, &numbered(number, 0x02, &[code, 1, 3])).saved);
        assert_eq!(both.page, page_of(page));
    }
    let mut both = keeping(0x01020304);
    for (code, page) in [
        (0x08, "02 080701 700804 03 01020304"),
        (0x01, "03 010A04 080E01 700F04 0001C200 03 01020304"),
        (0x07, "04 010D04 071101 081201 701304 0001C200 02 03 01020304"),
    ] {
        assert!(fed(&mut both, 1, &message(0x02, &[code, 1, 3])).saved);
        assert_eq!(both.page, page_of(page));
    }
    // Another number touches no other entry.
    fed(&mut both, 0, &numbered(0xFFEEDDCC, 0x01, &[0x02, 0]));
    assert_eq!(both.page, page_of("04 010D04 071101 081201 701304 0001C200 02 03 FFEEDDCC"));
}

/// 02-03.6: "a fresh number sets the feed's mark of a save", whatever the command does; a stale one does not.
#[test]
fn marks() {
    for inner in ["01 0200", "02 070102", "02 07020103", "02 070103", "02 070104", "02 070105", "02 07", "03", "02"] {
        for (number, saved) in [("00000101", true), ("00000100", false), ("00000000", false)] {
            let mut both = keeping(0x100);
            let answer = fed(&mut both, 0, &message(0x7C, &hex(&format!("{number} {inner}"))));
            assert_eq!(answer.saved, saved, "{number} {inner}");
        }
    }
}

/// A restart takes the settings from the page, and the number stays: what was stale is stale.
#[test]
fn restarts() {
    let mut both = Both::blank();
    fed(&mut both, 0, &numbered(5, 0x02, &hex("07020104 070103 08020101")));
    assert_eq!(both.board.settings, Settings { accelerometer: 4, gyroscope: 1, ..FACTORY });
    let page = page_of("02 070701 700804 04 00000005");
    assert_eq!(both.page, page);
    for _ in 0..3 {
        both.restart();
        assert_eq!((both.board.settings, &both.page), (Settings { accelerometer: 4, ..FACTORY }, &page));
        for number in [0, 4, 5] {
            let answer = fed(&mut both, 0, &numbered(number, 0x02, &hex("08020105")));
            assert_eq!((rows(&answer.reply), answer.saved), (vec![(8, 5)], false));
        }
    }
    assert_eq!(rows(&fed(&mut both, 0, &numbered(6, 0x02, &hex("08020105"))).reply), [(8, 0)]);
    assert_eq!(kept(&both), Some(6));
}

/// What a port held is lost in a restart: a numbered command cut by it spends nothing, and its end is no message.
#[test]
fn cut_by_a_restart() {
    let bytes = hex("A5A57C09 00000001 02 07020103 DF02");
    for cut in 1..bytes.len() {
        let mut both = Both::blank();
        assert_eq!(both.feed(0, &bytes[..cut]).number, 1);
        both.restart();
        let answer = both.feed(0, &bytes[cut..]);
        assert_eq!((answer.number, answer.taken), (1, bytes.len() - cut));
        assert_eq!((kept(&both), both.board.settings), (None, FACTORY));
        // What is left of it opens no message, and the command sent whole is taken.
        assert_eq!(rows(&both.feed(0, &bytes).reply), [(7, 0)]);
        assert_eq!(kept(&both), Some(1));
    }
}

/// 02-03.8, 02-03.11: without a number, on port 0, of a page that has the entry: 5 for functions 1, 3, 4 and 5 of any size,
/// after 3 and before the field's own 4. Size 0, the other functions, function 2 and Ping are as before.
#[test]
fn unnumbered() {
    for (code, size) in [(0x01, 4), (0x07, 1), (0x08, 1)] {
        for function in 0..=255u8 {
            for more in 0..7 {
                // Zeros are no usable value.
                let field = [vec![code, 1 + more as u8, function], vec![0; more]].concat();
                let own = if (2..=5).contains(&function) && (more == 0 || more == size) { 0 } else { 4 };
                let refused = [1, 3, 4, 5].contains(&function);
                for (mut both, port, error) in [
                    (keeping(0), 0, if refused { 5 } else { own }),
                    (keeping(0), 1, own),
                    (Both::blank(), 0, own),
                    (Both::new(&factory_page()), 0, own),
                ] {
                    let answer = fed(&mut both, port, &message(0x02, &field));
                    assert_eq!(rows(&answer.reply), [(code, error)], "port {port}, {field:02X?}");
                    assert_eq!(answer.saved, error == 0 && function == 3);
                }
            }
        }
    }
    for (kind, payload, row) in [
        (0x02, "0700", (7, 4)),        // size 0: there is no function
        (0x02, "630101", (0x63, 3)),   // 3 comes before 5
        (0x02, "020101", (2, 3)),      // Ping's code in type 02
        (0x02, "700101", (0x70, 3)),   // the entry's code is no setting's
        (0x01, "07020103", (7, 3)),    // a setting's in type 01
        (0x01, "0200", (2, 0)),        // Ping
        (0x01, "020101", (2, 4)),      // Ping with a byte that is no function
        (0x01, "", (0, 3)),            // L = 0
        (0x02, "07020103 08", (7, 4)), // not filled
        (0x03, "07020103", (7, 2)),    // another type
    ] {
        for port in [0, 1] {
            let answer = fed(&mut keeping(0), port, &message(kind, &hex(payload)));
            assert_eq!((rows(&answer.reply), answer.saved), (vec![row], false), "{payload}");
        }
    }
}

/// What is refused with 5 changes nothing; what is not refused goes on, in one message too.
#[test]
fn unnumbered_fields() {
    let payload = hex("07020104 080102 070103 6300 010104 0700 080105 080106 070102");
    let page = page_of("03 070A01 080B01 700C04 03 04 00000009");
    let mut both = Both::new(&page);
    let before = both.board.settings;
    assert_eq!(before, Settings { baud: 115200, accelerometer: 3, gyroscope: 4 });
    let answer = fed(&mut both, 0, &message(0x02, &payload));
    let reply = "80020705 80020800080104 80020705 80026303 80020105 80020704 80020805 80020804 80020700070103";
    assert_eq!((answer.reply, answer.saved), (message(0x02, &hex(reply)), false));
    assert_eq!((both.board.settings, &both.page), (before, &page));

    // On port 1 all of it is done, and the number stays.
    let answer = fed(&mut both, 1, &message(0x02, &payload));
    let reply = "80020700 80020800080104 80020700 80026303 80020100 80020704 80020800 80020804 80020700070104";
    assert_eq!((answer.reply, answer.saved), (message(0x02, &hex(reply)), true));
    assert_eq!(both.board.settings, Settings { baud: 115200, accelerometer: 4, gyroscope: 3 });
    assert_eq!(both.page, page_of("03 070A01 080B01 700C04 04 04 00000009"));

    // With a number port 0 does it, too.
    let mut both = Both::new(&page);
    let answer = fed(&mut both, 0, &numbered(10, 0x02, &payload));
    assert_eq!((answer.reply, answer.saved), (message(0x7C, &hex(reply)), true));
    assert_eq!(both.page, page_of("03 070A01 080B01 700C04 04 04 0000000A"));
}

/// The entry decides, not the number and not who wrote it: the first number, on either port, ends what port 0 takes
/// without one.
#[test]
fn first_number_ends_unnumbered_commands() {
    for port in [0, 1] {
        let mut both = Both::blank();
        assert_eq!(rows(&fed(&mut both, 0, &message(0x02, &hex("07020103 070103"))).reply), [(7, 0), (7, 0)]);
        // The command inside fails, and the page has the entry all the same.
        fed(&mut both, port, &numbered(0, 0x55, &[]));
        assert_eq!(rows(&fed(&mut both, 0, &message(0x02, &hex("07020101 070103"))).reply), [(7, 5), (7, 5)]);
        both.restart();
        assert_eq!(rows(&fed(&mut both, 0, &message(0x02, &hex("07020101 070103"))).reply), [(7, 5), (7, 5)]);
        assert_eq!(both.board.settings.accelerometer, 3);
        assert_eq!(rows(&fed(&mut both, 1, &message(0x02, &hex("07020101 070103"))).reply), [(7, 0), (7, 0)]);
        assert_eq!(both.page, page_of("02 070701 700804 01 00000000"));
    }
}

/// The command inside is handled as a message of its type would be on port 1, on the page with the number in it: the same
/// rows, settings and saves.
#[test]
fn inside_as_outside() {
    let mut rng = Rng::new(0x0307);
    let mut longest = 0;
    for _ in 0..20_000 {
        let kind = numbered::inner_kind(&mut rng);
        let fields = numbered::inner_fields(&mut rng, kind);
        let page = generate::sound_page(&mut rng);
        let number = numbered::kept(&mut rng);
        let mut inside = Both::new(&page);
        let port = rng.below(2) as u8;
        let answer = fed(&mut inside, port, &numbered(number, kind, &fields));
        assert!(answer.saved);
        longest = longest.max(answer.reply.len());

        let with_number = Values { last_number: Some(number), ..values(&page).unwrap() };
        let mut outside = Both::new(&write_page(&with_number));
        assert_eq!(outside.board.settings, start(Profile::Full, &page).1.settings);
        // A message of type A5 is not found, and one of type 7C would be numbered itself: both have error 2 inside.
        let other = if kind == 0xA5 || kind == 0x7C { 0x03 } else { kind };
        let separate = fed(&mut outside, 1, &message(other, &fields));
        let end = separate.reply.len() - 2;
        assert_eq!(answer.reply, message(0x7C, &separate.reply[4..end]));
        assert_eq!((uncounted(&inside.board), &inside.page), (uncounted(&outside.board), &outside.page));
    }
    assert!(longest > 90, "{longest}");
    // The longest there is: sixteen reports of the baud rate.
    let answer = fed(&mut Both::blank(), 0, &numbered(1, 0x02, &hex("010102").repeat(16)));
    assert_eq!(answer.reply, message(0x7C, &hex("80020100 0104 0001C200").repeat(16)));
    assert_eq!(answer.reply.len(), 166);
}

/// A numbered command inside a damaged message still is read, and one inside a good message is no command (01-018).
#[test]
fn within_other_messages() {
    let command = hex("A5A57C09 00000001 02 07020103 DF02");
    let mut outer = message(0x63, &command);
    let mut both = Both::blank();
    assert_eq!(rows(&both.feed(0, &outer).reply), [(0xA5, 2)]);
    assert_eq!(kept(&both), None);
    let end = outer.len() - 1;
    outer[end] ^= 1;
    assert_eq!(rows(&both.feed(0, &outer).reply), [(0xA5, 1)]);
    assert_eq!((rows(&both.feed(0, &[]).reply), kept(&both)), (vec![(7, 0)], Some(1)));
}

/// One day's commands, each with its number, by hand and by the writer: used, saved, three at a time, some that fail.
fn day(first: u32) -> Vec<Vec<u8>> {
    let written = |number, code, function, value| {
        let mut room = [0; 32];
        let (answered, length) = write_numbered(number, code, function, value, &mut room);
        assert_eq!(answered, 0);
        room[..length].to_vec()
    };
    vec![
        written(first, 0x07, 1, 4),
        written(first + 1, 0x07, 3, 0),
        numbered(first + 2, 0x02, &hex("010501000E1000 08020105 080103")),
        numbered(first + 3, 0x02, &hex("07020105")), // a range that is not usable
        numbered(first + 4, 0x55, &hex("07020101")), // no such type
        numbered(first + 5, 0x02, &[]),              // no field
        written(first + 6, 0x08, 4, 0),
        written(first + 7, 0x07, 5, 0),
        written(first + 8, 0x01, 2, 0),
        written(first + 9, 0x02, 0, 0),
    ]
}

/// The same commands without their numbers.
fn without_numbers(day: &[Vec<u8>]) -> Vec<Vec<u8>> {
    day.iter().map(|bytes| message(bytes[8], &bytes[9..bytes.len() - 2])).collect()
}

/// The request's purpose: yesterday's commands, sent again after a power cut, are not taken as new.
#[test]
fn replay_after_a_power_cut() {
    let mut both = Both::blank();
    let yesterday = day(1000);
    let errors: Vec<u8> = yesterday.iter().map(|bytes| rows(&fed(&mut both, 0, bytes).reply)[0].1).collect();
    assert_eq!(errors, [0, 0, 0, 4, 2, 3, 0, 0, 0, 0]);
    assert_eq!(both.board.settings, Settings { baud: 921600, accelerometer: 2, gyroscope: 5 });
    let page = page_of("03 070A01 080B01 700C04 04 05 000003F1");
    assert_eq!(both.page, page);

    both.restart();
    let settings = Settings { baud: 115200, accelerometer: 4, gyroscope: 5 };
    assert_eq!((both.board.settings, &both.page), (settings, &page));
    for port in [0, 1] {
        for bytes in &yesterday {
            let answer = fed(&mut both, port, bytes);
            let echo = if bytes.len() > 11 { bytes[9] } else { 0 };
            assert_eq!((rows(&answer.reply), answer.saved), (vec![(echo, 5)], false));
        }
        assert_eq!((both.board.settings, &both.page), (settings, &page));
    }
    assert_eq!(rows(&fed(&mut both, 0, &numbered(1010, 0x02, &hex("07020101"))).reply), [(7, 0)]);
    assert_eq!(both.board.settings, Settings { accelerometer: 1, ..settings });
}

/// The same day without numbers: on port 0 what would change something is refused, on port 1 it is done.
#[test]
fn replay_without_numbers() {
    let mut both = Both::blank();
    day(1000).iter().for_each(|bytes| drop(fed(&mut both, 0, bytes)));
    both.restart();
    let page = page_of("03 070A01 080B01 700C04 04 05 000003F1");
    let settings = Settings { baud: 115200, accelerometer: 4, gyroscope: 5 };
    let errors = |both: &mut Both, port| -> Vec<Vec<u8>> {
        let rows = |bytes: &Vec<u8>| rows(&fed(both, port, bytes).reply).iter().map(|row| row.1).collect();
        without_numbers(&day(1000)).iter().map(rows).collect()
    };
    let refused: [&[u8]; 10] = [&[5], &[5], &[5, 5, 5], &[5], &[2], &[3], &[5], &[5], &[0], &[0]];
    assert_eq!(errors(&mut both, 0), refused);
    assert_eq!((both.board.settings, &both.page), (settings, &page));
    let taken: [&[u8]; 10] = [&[0], &[0], &[0, 0, 0], &[4], &[2], &[3], &[0], &[0], &[0], &[0]];
    assert_eq!(errors(&mut both, 1), taken);
    assert_eq!((both.board.settings, &both.page), (Settings { baud: 921600, accelerometer: 2, ..settings }, &page));
}

/// What a list of feeds and restarts has come to: each feed's answer is compared with the reckoning, and the numbers
/// accepted are told by the messages and the replies alone.
fn run(profile: Profile, page: &[u8], list: &[Step]) -> Result<Vec<u32>, String> {
    let mut both = Both::start(profile, page);
    let mut accepted = Vec::new();
    for step in list {
        let unread = common::unread(&both.board, step);
        let before = both.page.clone();
        let Some(answer) = both.try_step(step)? else {
            continue;
        };
        if !answer.saved {
            common::same("page without the mark", &both.page, &before)?;
        }
        accepted.extend(common::number_accepted(&unread, step, &answer.reply));
    }
    both.compare_state()?;
    Ok(accepted)
}

/// 02-03.10: "No number is accepted twice in any history of feeds and restarts over one page that begins blank or sound,
/// is not erased and that nobody else writes." The accepted numbers grow, from the one that the page keeps at first.
#[test]
fn no_number_twice() {
    let mut rng = Rng::new(0x0310);
    let (mut taken, mut steps, mut restarts) = (0, 0, 0);
    for place in 0..3000 {
        let page = if rng.chance(1, 3) { [0xFF; 64] } else { numbered::sound_page(&mut rng) };
        let pieces = rng.between(1, 12);
        let profile = generate::profile(&mut rng);
        let list = numbered::history(&mut rng, profile, &page, pieces);
        let grows = |list: &[Step]| {
            let kept = values(&page).unwrap().last_number.into_iter();
            run(profile, &page, list).map(|accepted| kept.chain(accepted).is_sorted_by(|one, next| one < next))
        };
        if grows(&list) != Ok(true) {
            let short = generate::shrink(&list, |list| grows(list) != Ok(true));
            let why = run(profile, &page, &short);
            panic!("list {place}: {profile:?}, page {page:02X?}\nshortest {short:02X?}\n{why:02X?}");
        }
        taken += run(profile, &page, &list).unwrap().len();
        steps += list.len();
        restarts += list.iter().filter(|step| matches!(step, Step::Restart(_))).count();
    }
    assert!(taken > 3000 && restarts > 2000, "{taken} numbers, {steps} steps, {restarts} restarts");
}

/// The writer of numbered commands: the number, then the type and the field that the command writer writes; 28, then 18.
#[test]
fn numbered_writer() {
    let mut rng = Rng::new(0x2818);
    for code in 0..=255u8 {
        for function in (0..=6).chain([0x81, 255]) {
            let value = generate::value(&mut rng, code);
            let number = numbered::kept(&mut rng);
            let length = rng.below(24);
            let mut room = vec![0x33; length];
            let answer = write_numbered(number, code, function, value, &mut room);
            let mut command = [0; 16];
            let mut expected_room = vec![0x33; length];
            let expected = match write_command(code, function, value, &mut command) {
                (0, end) => {
                    let bytes = numbered(number, command[2], &command[4..end - 2]);
                    if length < bytes.len() {
                        (18, 0)
                    } else {
                        expected_room[..bytes.len()].copy_from_slice(&bytes);
                        (0, bytes.len())
                    }
                }
                refused => refused,
            };
            assert_eq!((answer, room), (expected, expected_room), "{code:02X} {function}");
        }
    }
    let mut room = [0; 15];
    assert_eq!(write_numbered(1, 0x07, 1, 3, &mut room), (0, 15));
    assert_eq!(room[..], hex("A5A57C09 00000001 02 07020103 DF02"));
    assert_eq!(write_numbered(1, 0x07, 1, 5, &mut []), (28, 0));
    assert_eq!(write_numbered(1, 0x07, 1, 3, &mut room[..14]), (18, 0));
}

/// What the writer writes, with a fresh number, has its command's effect and spends the number. It is accepted, but for
/// function 4 on a page with a range that is no longer taken.
#[test]
fn written_is_handled() {
    let mut rng = Rng::new(0x0301);
    for _ in 0..5000 {
        let code = rng.pick(&[0x01, 0x02, 0x07, 0x08]);
        let (function, value) = (rng.between(1, 5) as u8, generate::usable_value(&mut rng, code));
        let values = numbered::values(&mut rng);
        let Some(number) = values.last_number.map_or(Some(0), |last| last.checked_add(1)) else { continue };
        let (mut with, mut without) = ([0; 32], [0; 32]);
        let (_, length) = write_numbered(number, code, function, value, &mut with);
        let (_, other) = write_command(code, function, value, &mut without);
        let settings = generate::usable_settings(&mut rng);
        let spent = Values { last_number: Some(number), ..values };
        let handled = handle(Profile::Full, rng.below(2) as u8, &with[..length], settings, values);
        let expected = handle(Profile::Full, 1, &without[..other], settings, spent);
        assert_eq!(handled.rows, expected.rows);
        let held = values.gyroscope.filter(|_| code == 0x08 && function == 4);
        assert_eq!(handled.rows[0].error, if matches!(held, Some(6 | 7)) { 6 } else { 0 });
        assert!(handled.saved);
        assert_eq!((handled.settings, handled.values), (expected.settings, expected.values));
        assert_eq!(handled.values.last_number, Some(number));
    }
}

/// 02-03.6: "The reply reader takes 7C rows as type 02's, and error 5".
#[test]
fn replies() {
    let row = |kind, echo, error, value| Reply { number: 0, kind, echo, error, value };
    let reply = message(0x7C, &hex("80020100 0104000E1000 80026303 80020200 80020800 080107"));
    let expected = [(1, 0, Some(921600)), (0x63, 3, None), (2, 0, None), (8, 0, Some(7))];
    for (place, (echo, error, value)) in expected.into_iter().enumerate() {
        assert_eq!(read_reply(&reply, place), row(0x7C, echo, error, value));
    }
    assert_eq!(read_reply(&reply, 4).number, 27);
    for kind in [0x00, 0x01, 0x02, 0x7C, 0xFF] {
        assert_eq!(read_reply(&message(kind, &hex("80020705")), 0), row(kind, 7, 5, None));
        assert_eq!(read_reply(&message(kind, &hex("80020706")), 0), row(kind, 7, 6, None));
        assert_eq!(read_reply(&message(kind, &hex("80020707")), 0), row(kind, 7, 7, None));
        assert_eq!(read_reply(&message(kind, &hex("80020708")), 0).number, 23);
        // A value stands in types 02 and 7C alone.
        let number = if kind == 0x02 || kind == 0x7C { 0 } else { 23 };
        assert_eq!(read_reply(&message(kind, &hex("80020700 070103")), 0).number, number);
        assert_eq!(read_reply(&message(kind, &hex("80020705 070103")), 0).number, 23);
    }
    for text in ["80020700 080102", "80020700 070105", "80020700 7004 00000001", "80027000 7004 00000001", ""] {
        assert_eq!(read_reply(&message(0x7C, &hex(text)), 0).number, 23, "{text}");
    }
    assert_eq!(read_reply(&message(0x7C, &hex("80020705").repeat(16)), 15), row(0x7C, 7, 5, None));
    assert_eq!(read_reply(&message(0x7C, &hex("80020705").repeat(17)), 0).number, 23);
    let mut rng = Rng::new(0x7C80);
    for _ in 0..20_000 {
        let values = numbered::values(&mut rng);
        let received = numbered::command(&mut rng, values.last_number);
        let handled = handle(Profile::Full, 0, &received, generate::usable_settings(&mut rng), values);
        for (place, &Row { echo, error, value }) in handled.rows.iter().enumerate() {
            assert_eq!(read_reply(&handled.reply, place), row(0x7C, echo, error, value));
        }
        assert_eq!(read_reply(&handled.reply, handled.rows.len()).number, 27);
    }
}

/// The listing is of port 0: from the first number on, unnumbered commands are refused.
#[test]
fn listings() {
    let input = [
        message(0x02, &hex("070103")),
        numbered(1, 0x02, &hex("07020103 080102 6300")),
        numbered(1, 0x02, &hex("07020103")),
        numbered(2, 0x03, &hex("07020103")),
        message(0x02, &hex("070103 070102")),
        hex(common::P1),
    ];
    let expected = "type code error page\n\
        02 07 0 saved\n\
        7C 07 0 saved\n7C 08 0 saved\n7C 63 3 saved\n\
        7C 07 5 same\n\
        7C 07 2 saved\n\
        02 07 5 same\n02 07 0 same\n\
        01 02 0 same\n\
        taken 79 skipped 0 held 0\n";
    assert_eq!(listing(&input.concat()), expected);
}

//! The sample lines P1 to P12 (01-100 to 01-111; P7 as 02-01.4 has it) and what is "Run and compared" (01-113, with the
//! room of 02-02.5), on the feed and on the plain reckoning at once.

mod common;

use common::{hex, page_of, uncounted, Both, P1, P1_REPLY, P2};
use plain::*;

/// One message in on a fresh board with a blank page, port 0; the reply out.
fn replies(input: &str, output: &str) -> Both {
    let mut both = Both::blank();
    let input = hex(input);
    let answer = both.feed(0, &input);
    assert_eq!(answer.number, 0);
    assert_eq!(answer.taken, input.len());
    assert_eq!(answer.reply, hex(output));
    both
}

/// The error of the reply to a good message, on a fresh board with a blank page.
fn error(kind: u8, payload: &[u8]) -> u8 {
    let mut both = Both::blank();
    let bytes = message(kind, payload);
    let answer = both.feed(0, &bytes);
    assert_eq!((answer.number, answer.taken, answer.skipped), (0, bytes.len(), 0));
    assert_eq!(answer.reply[..2], [0xA5, 0xA5]);
    assert_eq!(answer.reply[2], kind);
    assert_eq!(answer.reply[4..6], [0x80, 2]);
    assert_eq!(answer.reply[6], payload.first().copied().unwrap_or(0));
    answer.reply[7]
}

#[test]
fn p1() {
    let both = replies(P1, P1_REPLY);
    assert_eq!(both.held(0), 0);
    assert_eq!(both.board.settings, FACTORY);
}

#[test]
fn p2() {
    replies(P2, "A5A5020480020700D9DF");
}

#[test]
fn p3() {
    replies("A5A5020701050100 01C2001D84", "A5A5020480020100D3D3");
}

#[test]
fn p4() {
    replies("A5A502030801025A93", "A5A5020780020800080103E9A4");
}

#[test]
fn p5() {
    replies("A5A501004B85", "A5A5010480020003D4CE");
}

#[test]
fn p6() {
    let mut both = replies("A5A5010202004F24", "A5A5010480020201D4D0");
    assert_eq!(both.held(0), 7);
    let answer = both.feed(0, &[]);
    assert_eq!((answer.number, answer.taken, answer.skipped), (1, 0, 7));
    assert_eq!(both.held(0), 0);
}

/// 02-01.4: "P7 then gives only the Ping's reply."
#[test]
fn p7() {
    let mut both = Both::blank();
    let answer = both.feed(0, &[vec![0xA5], hex(P1)].concat());
    assert_eq!((answer.number, answer.taken, answer.skipped), (0, 9, 1));
    assert_eq!(answer.reply, hex(P1_REPLY));
    assert_eq!(both.held(0), 0);
    let answer = both.feed(0, &[]);
    assert_eq!((answer.number, answer.taken, answer.skipped), (1, 0, 0));
}

#[test]
fn p8() {
    let mut both = Both::blank();
    let answer = both.feed(0, &hex("A5A50203010103 547F"));
    assert_eq!(answer.number, 0);
    assert!(answer.saved);
    assert_eq!(answer.reply[7], 0);
    let page = page_of("01 010404 0001C200");
    assert_eq!(page.iter().rev().take_while(|&&byte| byte == 0xFF).count(), 56);
    assert_eq!(both.page, page);
}

#[test]
fn p9() {
    replies("A5A502040802010863FB", "A5A5020480020804DEE5");
}

#[test]
fn p10() {
    replies("A5A503020200512D", "A5A5030480020202D7DD");
}

#[test]
fn p11() {
    let answer = Both::blank().feed(0, &[]);
    assert_eq!((answer.number, answer.taken, answer.skipped), (1, 0, 0));
    assert!(!answer.saved && answer.reply.is_empty());
}

#[test]
fn p12() {
    let mut both = Both::blank();
    for code in [0x08, 0x07, 0x01] {
        let mut room = [0; 16];
        let (number, length) = write_command(code, 3, 0, &mut room);
        assert_eq!(number, 0);
        assert!(both.feed(0, &room[..length]).saved);
    }
    let page = page_of("03 010A04 070E01 080F01 0001C200 02 03");
    assert_eq!(page.iter().rev().take_while(|&&byte| byte == 0xFF).count(), 48);
    assert_eq!(both.page, page);
    assert_eq!(both.page, factory_page());
}

/// "lengths 0, 1, 255"; for a type A5, which the scan does not find, see stray.rs.
#[test]
fn lengths() {
    for kind in [0x00, 0x01, 0x02, 0x03, 0xA2, 0xA4, 0xA6, 0xFF] {
        let known = kind == 0x01 || kind == 0x02;
        assert_eq!(error(kind, &[]), if known { 3 } else { 2 });
        for code in 0..=255 {
            let of_this_kind = match kind {
                0x01 => code == 0x02,
                0x02 => [0x01, 0x07, 0x08].contains(&code),
                _ => false,
            };
            let expected = match (known, of_this_kind) {
                (false, _) => 2,
                (true, false) => 3,
                (true, true) => 4,
            };
            // L = 1: the code alone. "there L = 1 and unknown codes become 4" (02-02.8).
            assert_eq!(error(kind, &[code]), if known { 4 } else { 2 });
            // L = 255: no command is so long.
            let mut payload = vec![code, 253];
            payload.resize(255, 0x01);
            assert_eq!(error(kind, &payload), expected);
        }
    }
    let mut room = [0; 261];
    assert_eq!(write_message(0x63, &[7; 255], &mut room), (0, 261));
    assert_eq!(check_message(&room), 0);
    assert_eq!(write_message(0x63, &[7; 256], &mut room), (26, 0));
    assert_eq!(write_message(0x63, &[7; 256], &mut []), (26, 0));
    assert_eq!(write_message(0x63, &[], &mut room), (0, 6));
    assert_eq!(write_message(0x63, &[9], &mut room), (0, 7));
}

/// "held 260 and 261"
#[test]
fn held() {
    let page = [0xFF; 64];
    let longest = message(0x01, &[0x11; 255]);
    assert_eq!(longest.len(), Port::LONGEST_MESSAGE);

    let mut board = start(Profile::Full, &page).1;
    board.ports[0].bytes.copy_from_slice(&longest[..260]);
    board.ports[0].held = 260;
    let mut room = [0; Port::LONGEST_REPLY];
    let fed = feed(0, &board, &[], &mut room, &mut page.clone());
    assert_eq!((fed.number, fed.taken, fed.skipped), (1, 0, 0));
    assert_eq!(fed.board, board);
    let fed = feed(0, &board, &longest[260..], &mut room, &mut page.clone());
    assert_eq!((fed.number, fed.taken, fed.skipped), (0, 1, 0));
    assert_eq!(uncounted(&fed.board), start(Profile::Full, &page).1);
    // Fields of 19 bytes do not fill it.
    assert_eq!(room[6..8], [0x11, 4]);

    // The last sum is wrong: 260 are held afterwards.
    let fed = feed(0, &board, &[longest[260] ^ 1], &mut room, &mut page.clone());
    assert_eq!((fed.number, fed.taken, fed.skipped), (0, 1, 1));
    assert_eq!(fed.board.ports[0].held, 260);
    assert_eq!(room[6..8], [0x11, 1]);

    for port in 0..2 {
        for held in [261, 300, usize::MAX] {
            let mut board = start(Profile::Full, &page).1;
            board.ports[port].held = held;
            for fed_port in 0..2 {
                let mut room = [7; 166];
                let fed = feed(fed_port, &board, &hex(P1), &mut room, &mut page.clone());
                let given = Fed { number: 17, taken: 0, skipped: 0, error: 0, saved: false, board };
                assert_eq!(fed, given);
                assert_eq!(room, [7; 166]);
            }
            assert_eq!(feed(2, &board, &[], &mut [], &mut []).number, 16);
            assert_eq!(feed(1, &board, &[], &mut [], &mut []).number, 17);
        }
    }
}

/// "gyro 0, 1, 7, 8", and the other ranges; since 02-05.7 06 and 07 are "not on this board".
#[test]
fn ranges() {
    for (value, expected) in [(0, 4), (1, 0), (5, 0), (6, 6), (7, 6), (8, 4), (255, 4)] {
        assert_eq!(error(0x02, &[0x08, 2, 1, value]), expected);
    }
    for (value, expected) in [(0, 4), (1, 0), (4, 0), (5, 4), (255, 4)] {
        assert_eq!(error(0x02, &[0x07, 2, 1, value]), expected);
    }
    let mut both = Both::blank();
    both.feed(0, &message(0x02, &[0x08, 2, 1, 5]));
    both.feed(1, &message(0x02, &[0x07, 2, 1, 4]));
    assert_eq!(both.board.settings, Settings { baud: 115200, accelerometer: 4, gyroscope: 5 });
}

/// "function 0, 5, 6"
#[test]
fn functions() {
    for code in [0x01, 0x07, 0x08] {
        for (function, expected) in [(0, 4), (1, 4), (2, 0), (3, 0), (4, 0), (5, 0), (6, 4), (255, 4)] {
            assert_eq!(error(0x02, &[code, 1, function]), expected);
        }
        let size = value_size(code).unwrap();
        for function in 0..=255u8 {
            for more in 0..7 {
                let mut payload = vec![code, 1 + more as u8, function];
                // A value that is not usable, and is not looked at where the function is not 1.
                payload.resize(3 + more, 0x00);
                let expected = if (2..=5).contains(&function) && (more == 0 || more == size) { 0 } else { 4 };
                assert_eq!(error(0x02, &payload), expected);
            }
        }
        // No function at all.
        assert_eq!(error(0x02, &[code, 0]), 4);
    }

    // Function 5 takes the factory value, function 4 the page's, function 3 saves the working value and not the one
    // sent.
    let mut both = Both::blank();
    both.feed(0, &message(0x02, &[0x08, 2, 1, 4]));
    assert!(both.feed(0, &message(0x02, &[0x08, 2, 3, 1])).saved);
    assert_eq!(both.page, page_of("01 080401 04"));
    assert!(!both.feed(0, &message(0x02, &[0x08, 2, 5, 0])).saved);
    assert_eq!(both.board.settings, FACTORY);
    both.feed(0, &message(0x02, &[0x08, 1, 4]));
    assert_eq!(both.board.settings.gyroscope, 4);
    both.feed(0, &message(0x02, &[0x07, 2, 1, 1]));
    assert_eq!(both.board.settings.accelerometer, 1);
    // The page has no entry 07: from the factory page.
    both.feed(0, &message(0x02, &[0x07, 1, 4]));
    assert_eq!(both.board.settings.accelerometer, 2);
    // Saved although the page has the value already.
    assert!(both.feed(0, &message(0x02, &[0x08, 1, 3])).saved);
    let report = both.feed(0, &message(0x02, &[0x01, 1, 2]));
    assert_eq!(report.reply, message(0x02, &hex("80020100 0104 0001C200")));
    assert_eq!(report.reply.len(), 16);
    assert!(!report.saved);
}

/// "baud 57600", and the six that are usable
#[test]
fn bauds() {
    let command = |baud: u32| [vec![0x01, 5, 1], baud.to_be_bytes().to_vec()].concat();
    assert_eq!(error(0x02, &command(57600)), 4);
    for baud in [9600, 19200, 115200, 230400, 460800, 921600] {
        assert_eq!(error(0x02, &command(baud)), 0);
        assert_eq!(error(0x02, &command(baud + 1)), 4);
        assert_eq!(error(0x02, &command(baud.swap_bytes())), 4);
        let mut both = Both::blank();
        both.feed(0, &message(0x02, &command(baud)));
        assert_eq!(both.board.settings.baud, baud);
    }
}

/// "room 15 and 16", which 02-02.5 makes 165 and 166
#[test]
fn rooms() {
    let mut both = Both::blank();
    for room in [0, 10, 15, 16, 165] {
        let answer = both.try_feed(0, &hex(P1), room).unwrap();
        assert_eq!((answer.number, answer.taken), (18, 0));
        // 16 comes first.
        assert_eq!(both.try_feed(2, &hex(P1), room).unwrap().number, 16);
    }
    for room in [166, 167, 300] {
        let answer = both.try_feed(0, &hex(P1), room).unwrap();
        assert_eq!((answer.number, answer.taken), (0, 8));
    }
    both.compare_state().unwrap();
    for length in 0..20 {
        let mut room = vec![3; length];
        let (number, written) = write_command(0x01, 1, 921600, &mut room);
        assert_eq!((number, written), if length < 13 { (18, 0) } else { (0, 13) });
        assert!(room[written..].iter().all(|&byte| byte == 3));
    }
}

/// "pages of 63 and 65 bytes"
#[test]
fn pages() {
    let tallies = [Tally::default(); 2];
    let fresh = Board { ports: [Port::fresh(); 2], settings: FACTORY, profile: Profile::Full, tallies };
    for (length, expected) in [(0, 19), (63, 19), (64, 0), (65, 19), (128, 19)] {
        let mut page = vec![0xFF; length];
        assert_eq!(check_page(&page), expected);
        assert_eq!(start(Profile::Full, &page), (expected, fresh));
        let mut room = [9; 166];
        let fed = feed(0, &fresh, &hex(P1), &mut room, &mut page);
        assert_eq!(fed.number, expected);
        assert_eq!(fed.taken, if expected == 0 { 8 } else { 0 });
        if expected != 0 {
            assert_eq!(room, [9; 166]);
            assert_eq!(fed.board, fresh);
        }
        // 18 comes before 19.
        assert_eq!(feed(0, &fresh, &[], &mut [0; 165], &mut page).number, 18);
    }
    for (text, expected) in [
        ("01 010404 0001C200", 0),
        ("01 010404 0000E100", 20), // 57600
        ("00", 20),
        ("01 020401 02", 20),
        ("01 070401 02", 0),
        ("01 070501 FF 02", 20),
        ("02 080701 070801 03 02", 20),
        ("02 070701 080801 02 03", 0),
        ("02 070801 080701 03 02", 20),
        ("02 070701 070801 02 02", 20),
        ("01 070401 02 00", 20),
        ("03 010A04 070E01 080F01 0001C200 02 03", 0),
        ("03 010A04 070E01 080F01 0001C200 05 03", 20),
        ("FF 010404 0001C200", 20),
    ] {
        let page = page_of(text);
        assert_eq!(check_page(&page), expected, "{text}");
        assert_eq!(start(Profile::Full, &page).0, expected, "{text}");
        let mut fed_page = page.clone();
        let fed = feed(0, &fresh, &hex("A5A50203010103 547F"), &mut [0; 166], &mut fed_page);
        assert_eq!(fed.number, expected);
        if expected != 0 {
            assert_eq!(fed_page, page);
        }
    }
    let (_, board) = start(Profile::Full, &page_of("02 010704 080B01 000E1000 05"));
    assert_eq!(board.settings, Settings { baud: 921600, accelerometer: 2, gyroscope: 5 });
}

/// "comparing the size byte before the code (L = 4 with code 63 and wrong size is 3)": where the fields fill the
/// payload this stands. Where they do not, 02-02.8 turns it over: "there L = 1 and unknown codes become 4".
#[test]
fn code_before_size() {
    // A size that is wrong for every setting.
    assert_eq!(error(0x02, &[0x63, 3, 1, 1, 1]), 3);
    assert_eq!(error(0x02, &[0x02, 0]), 3);
    assert_eq!(error(0x01, &[0x01, 1, 2]), 3);
    assert_eq!(error(0x01, &[0x02, 1, 0]), 4);
    // Not filled.
    assert_eq!(error(0x02, &[0x63, 9, 1, 1]), 4);
    assert_eq!(error(0x01, &[0x02, 1]), 4);
    assert_eq!(error(0x01, &[0x02, 0, 0]), 4);
    assert_eq!(error(0x02, &[0x07, 1, 1, 2]), 4);
    assert_eq!(error(0x02, &[0x07, 3, 1, 2]), 4);
}

/// "A command inside the payload of a good message is therefore no command; one inside a damaged message still is
/// read."
#[test]
fn inside() {
    let mut outer = message(0x63, &hex(P2));
    let mut both = Both::blank();
    let answer = both.feed(0, &outer);
    assert_eq!((answer.number, answer.taken, answer.skipped), (0, 16, 0));
    assert_eq!(both.held(0), 0);

    outer[15] ^= 1;
    let first = both.feed(0, &outer);
    assert_eq!((first.number, first.taken, first.skipped), (0, 16, 1));
    assert_eq!(first.reply[6..8], [0xA5, 1]);
    assert_eq!(both.held(0), 15);
    let second = both.feed(0, &[]);
    assert_eq!((second.number, second.taken, second.skipped), (0, 0, 3));
    assert_eq!(second.reply, hex("A5A5020480020700D9DF"));
    let third = both.feed(0, &[]);
    assert_eq!((third.number, third.skipped), (1, 2));
}

#[test]
fn listings() {
    let input = [vec![0x00], hex(P1), hex(P2)].concat();
    assert_eq!(input.len(), 19);
    let expected = "type code error page\n01 02 0 same\n02 07 0 same\ntaken 19 skipped 1 held 0\n";
    assert_eq!(listing(&input), expected);
    assert_eq!(listing(&[]), "type code error page\ntaken 0 skipped 0 held 0\n");
    let saved = [hex("A5A50203010103547F"), vec![0xA5]].concat();
    assert_eq!(listing(&saved), "type code error page\n02 01 0 saved\ntaken 10 skipped 0 held 1\n");
    let stray = [vec![0xA5], hex(P1), vec![0xA5; 4]].concat();
    assert_eq!(listing(&stray), "type code error page\n01 02 0 same\ntaken 13 skipped 3 held 2\n");
}

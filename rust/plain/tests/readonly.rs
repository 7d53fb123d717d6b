//! Request 12 (02-12.1 to 02-12.7): a board on which port 1 may use Ping and function 2 only, on the feed and on the plain
//! reckoning at once. What is expected is worked out from the papers by hand.

mod common;

use common::{fed, hex, page_of, rows, Both, P1, P1_REPLY, P2};
use plain::generate::numbered::numbered;
use plain::generate::readonly::{self, Run};
use plain::generate::{self, Rng, Step};
use plain::*;

/// The three settings, their value sizes, and a value that is not the factory's.
const SETTINGS: [(u8, usize, u32); 3] = [(0x01, 4, 921600), (0x07, 1, 4), (0x08, 1, 5)];

/// A read-only board on a blank page.
fn blank() -> Both {
    Both::start(Profile::ReadOnly, &[0xFF; 64])
}

/// A read-only board on a page that keeps this number and nothing else.
fn keeping(number: u32) -> Both {
    Both::start(Profile::ReadOnly, &write_page(&Values { last_number: Some(number), ..Values::default() }))
}

/// Feeds one good message to port 1. Nothing but the reply comes of it, and what is counted for port 1.
fn refused_or_read(both: &mut Both, bytes: &[u8]) -> Vec<u8> {
    let (before, page) = (both.board, both.page.clone());
    let answer = fed(both, 1, bytes);
    assert!(!answer.saved, "{bytes:02X?}");
    let expected = Board { tallies: [before.tallies[0], both.board.tallies[1]], ..before };
    assert_eq!((both.board, &both.page), (expected, &page), "{bytes:02X?}");
    answer.reply
}

/// The field of a setting with a function and its value.
fn field(code: u8, size: usize, function: u8, value: u32) -> Vec<u8> {
    [vec![code, 1 + size as u8, function], value.to_be_bytes()[4 - size..].to_vec()].concat()
}

/// 02-12.2, byte by byte: what is printed in document 01, on port 1 of such a board and on port 0 of it.
#[test]
fn whole_messages() {
    let lines = [
        (P1, P1_REPLY, P1_REPLY),
        (P2, "A5A5020480020707E0E6", "A5A5020480020700D9DF"),
        ("A5A5020701050100 01C2001D84", "A5A5020480020107DADA", "A5A5020480020100D3D3"),
        ("A5A502030801025A93", "A5A5020780020800080103E9A4", "A5A5020780020800080103E9A4"),
        ("A5A502030101 03 547F", "A5A5020480020107DADA", "A5A5020480020100D3D3"),
        ("A5A502040802010863FB", "A5A5020480020807E1E8", "A5A5020480020804DEE5"),
        ("A5A503020200512D", "A5A5030480020202D7DD", "A5A5030480020202D7DD"),
        ("A5A57C09 00000001 02 07020103 DF02", "A5A57C04 80020707 5AC2", "A5A57C04 80020700 53BB"),
    ];
    for (given, port_1, port_0) in lines {
        assert_eq!(refused_or_read(&mut blank(), &hex(given)), hex(port_1), "{given}");
        assert_eq!(fed(&mut blank(), 0, &hex(given)).reply, hex(port_0), "{given}");
        assert_eq!(fed(&mut Both::blank(), 1, &hex(given)).reply, hex(port_0), "{given}");
    }
}

/// 02-12.7: "error 7 [..] for functions 1, 3, 4 and 5, after 3 and before a field's own 4 to 6": of each setting, whatever its
/// size and value are. Function 2 is answered, or has its own 4; functions 0 and 6 to 255 are 4.
#[test]
fn functions() {
    for (code, size, _) in SETTINGS {
        for function in 0..=255u8 {
            for more in 0..7 {
                // Zeros are no usable value.
                let field = [vec![code, 1 + more as u8, function], vec![0; more]].concat();
                let own = if function == 2 && (more == 0 || more == size) { 0 } else { 4 };
                let error = if [1, 3, 4, 5].contains(&function) { 7 } else { own };
                for mut both in [blank(), keeping(0), keeping(u32::MAX)] {
                    let reply = refused_or_read(&mut both, &message(0x02, &field));
                    assert_eq!(rows(&reply), [(code, error)], "{field:02X?}");
                    assert_eq!(read_reply(&reply, 0).value.is_some(), error == 0);
                }
            }
        }
    }
}

/// Before the field's own errors: a value that is usable, one that is not (4), one that is not on this board (6), and a load of
/// such a one from the page (6). On port 0 they are as ever.
#[test]
fn before_4_and_6() {
    let old_page = page_of("01 080401 06");
    for (payload, own) in [("08020105", 0), ("08020108", 4), ("08020107", 6), ("0803010505", 4), ("080104", 6)] {
        let bytes = message(0x02, &hex(payload));
        let reply = refused_or_read(&mut Both::start(Profile::ReadOnly, &old_page), &bytes);
        assert_eq!(rows(&reply), [(8, 7)], "{payload}");
        let reply = fed(&mut Both::start(Profile::ReadOnly, &old_page), 0, &bytes).reply;
        assert_eq!(rows(&reply), [(8, own)], "{payload}");
    }
}

/// What stands before error 7, in types 01 and 02, and what it is not for.
#[test]
fn other_errors() {
    let seventeen = "070103".repeat(17);
    for (kind, payload, row) in [
        (0x02, "0700", (7, 4)),        // size 0: there is no function
        (0x02, "070100", (7, 4)),      // functions that are none
        (0x02, "070106", (7, 4)),      //
        (0x02, "630101", (0x63, 3)),   // 3 comes before 7
        (0x02, "020103", (2, 3)),      // Ping's code in type 02
        (0x02, "700103", (0x70, 3)),   // the entry's code is no setting's
        (0x01, "07020103", (7, 3)),    // a setting's code in type 01
        (0x01, "0200", (2, 0)),        // Ping
        (0x01, "020103", (2, 4)),      // Ping with a byte that is no function
        (0x01, "", (0, 3)),            // L = 0
        (0x02, "", (0, 3)),            //
        (0x02, "07", (7, 4)),          // not filled
        (0x02, "07020103 08", (7, 4)), //
        (0x02, &seventeen, (7, 4)),    // more than 16 fields
        (0x03, "07020103", (7, 2)),    // another type
        (0x7D, "00000001 02 070103", (0, 2)),
    ] {
        for mut both in [blank(), keeping(0)] {
            assert_eq!(rows(&refused_or_read(&mut both, &message(kind, &hex(payload)))), [row], "{payload}");
        }
    }
}

/// A damaged message is error 1 as ever, whatever stands in it, with its first payload byte as the echo; what stands inside it
/// is then read, and has error 7.
#[test]
fn damaged() {
    for (kind, payload, echo) in [(0x02, "070103", 7), (0x7C, "12345678 02 070103", 0x12), (0x7C, "", 0)] {
        let mut bytes = message(kind, &hex(payload));
        let end = bytes.len();
        bytes[end - 1] ^= 1;
        let mut both = blank();
        let answer = both.feed(1, &bytes);
        assert_eq!((answer.number, answer.taken, answer.skipped, answer.saved), (0, end, 1, false));
        assert_eq!(answer.reply, message(kind, &[0x80, 2, echo, 1]), "{payload}");
        assert_eq!((both.board.settings, &both.page), (FACTORY, &vec![0xFF; 64]));
    }
    let mut both = blank();
    let mut outer = message(0x02, &hex(P2));
    let end = outer.len();
    outer[end - 1] ^= 1;
    assert_eq!(rows(&both.feed(1, &outer).reply), [(0xA5, 1)]);
    assert_eq!(rows(&both.feed(1, &[]).reply), [(7, 7)]);
    assert_eq!((both.board.settings, &both.page), (FACTORY, &vec![0xFF; 64]));
}

/// Fields of one command are refused one by one, and those that are not go on.
#[test]
fn several_fields() {
    let mut both = Both::start(Profile::ReadOnly, &factory_page());
    let payload = "08020105 080102 6300 070103 0700 010101 070102 080105 080104 080100";
    let reply = refused_or_read(&mut both, &message(0x02, &hex(payload)));
    let expected = [(8, 7), (8, 0), (0x63, 3), (7, 7), (7, 4), (1, 7), (7, 0), (8, 7), (8, 7), (8, 4)];
    assert_eq!(rows(&reply), expected);
    assert_eq!((read_reply(&reply, 1).value, read_reply(&reply, 6).value), (Some(3), Some(2)));
    // Sixteen saves, and sixteen reports in the longest reply.
    assert_eq!(rows(&refused_or_read(&mut both, &message(0x02, &hex(&"010103".repeat(16))))), [(1, 7); 16]);
    assert_eq!(refused_or_read(&mut both, &message(0x02, &hex(&"010102".repeat(16)))).len(), 166);
    assert_eq!(rows(&refused_or_read(&mut both, &message(0x01, &hex(&"0200".repeat(16))))), [(2, 0); 16]);
}

/// 02-12.7: "any 7C with right sums gets it at once, its number unspent": fresh or stale, too short for a number, of an inner
/// type that is none, with a Ping or a report inside. The echo is payload byte 5, or 0.
#[test]
fn numbered_commands() {
    for (payload, echo) in [
        ("", 0),
        ("00", 0),
        ("00000101", 0),
        ("00000101 02", 0),
        ("00000100 02", 0),
        ("00000101 02 07", 7),
        ("00000101 02 07020103", 7),
        ("00000100 02 07020103", 7), // stale
        ("000000FF 02 08020103", 8),
        ("FFFFFFFF 02 080103", 8),
        ("00000101 02 080102", 8), // a report
        ("00000101 01 0200", 2),   // a Ping
        ("00000100 01 0200", 2),
        ("00000101 03 0200", 2), // inner types that are none
        ("00000101 7C 00000102 02 070103", 0),
        ("00000101 02 6300", 0x63),          // an unknown code
        ("00000101 02 07020103 08", 7),      // not filled
        ("00000101 02 08020107", 8),         // not on this board
        ("00000101 02 080102 070103 63", 8), // several fields, and not filled
    ] {
        for mut both in [blank(), keeping(0x100)] {
            let reply = refused_or_read(&mut both, &message(0x7C, &hex(payload)));
            assert_eq!(reply, message(0x7C, &[0x80, 2, echo, 7]), "{payload}");
        }
    }
    // The number is unspent: port 0 takes it afterwards, once.
    let mut both = keeping(0x100);
    let command = numbered(0x101, 0x02, &hex("07020103"));
    assert_eq!(rows(&refused_or_read(&mut both, &command)), [(7, 7)]);
    let answer = fed(&mut both, 0, &command);
    assert_eq!((rows(&answer.reply), answer.saved), (vec![(7, 0)], true));
    assert_eq!(rows(&refused_or_read(&mut both, &command)), [(7, 7)]);
    assert_eq!(rows(&fed(&mut both, 0, &command).reply), [(7, 5)]);
}

/// The longest of them: 250 bytes of fields.
#[test]
fn longest_numbered_command() {
    let command = numbered(1, 0x02, &[0x08, 248, 1].into_iter().chain([0; 247]).collect::<Vec<u8>>());
    assert_eq!(command.len(), 261);
    assert_eq!(refused_or_read(&mut blank(), &command), message(0x7C, &[0x80, 2, 8, 7]));
}

/// Port 0 is as in the full profile: each function, with error 5 where the page keeps a number, and numbered commands. What it
/// sets, saves and loads, port 1 is told.
#[test]
fn port_0() {
    for (code, size, value) in SETTINGS {
        let mut both = blank();
        let report = |both: &mut Both| {
            let reply = refused_or_read(both, &message(0x02, &[code, 1, 2]));
            read_reply(&reply, 0).value
        };
        let factory = FACTORY.value(code);
        assert_eq!(report(&mut both), Some(factory));
        assert_eq!(rows(&fed(&mut both, 0, &message(0x02, &field(code, size, 1, value))).reply), [(code, 0)]);
        assert_eq!(report(&mut both), Some(value));
        assert!(fed(&mut both, 0, &message(0x02, &[code, 1, 3])).saved);
        assert_eq!(values(&both.page).unwrap().value(code), Some(value));
        fed(&mut both, 0, &message(0x02, &[code, 1, 5]));
        assert_eq!(report(&mut both), Some(factory));
        fed(&mut both, 0, &message(0x02, &[code, 1, 4]));
        assert_eq!(report(&mut both), Some(value));
        assert_eq!(rows(&fed(&mut both, 0, &numbered(7, 0x02, &[code, 1, 3])).reply), [(code, 0)]);
        for function in [1, 3, 4, 5] {
            assert_eq!(rows(&fed(&mut both, 0, &message(0x02, &[code, 1, function])).reply), [(code, 5)]);
            assert_eq!(rows(&refused_or_read(&mut both, &message(0x02, &[code, 1, function]))), [(code, 7)]);
        }
        assert_eq!(rows(&fed(&mut both, 0, &numbered(7, 0x02, &[code, 1, 3])).reply), [(code, 5)]);
    }
}

/// Every message on port 0, and in the full profile on port 1, is handled as on a board of the other profile.
#[test]
fn other_ports_are_alike() {
    let mut rng = Rng::new(0x1202);
    let mut sevens = 0;
    for _ in 0..100_000 {
        let (values, settings) = (generate::numbered::values(&mut rng), generate::usable_settings(&mut rng));
        let received = readonly::piece(&mut rng, values.last_number);
        let length = received.get(3).map(|&l| usize::from(l) + 6);
        if Some(received.len()) != length {
            continue;
        }
        let on = |profile, port| handle(profile, port, &received, settings, values);
        assert_eq!(on(Profile::ReadOnly, 0), on(Profile::Full, 0));
        let (full, read_only) = (on(Profile::Full, 1), on(Profile::ReadOnly, 1));
        assert!(full.rows.iter().all(|row| row.error != 7));
        assert_eq!((read_only.saved, read_only.settings, read_only.values), (false, settings, values));
        sevens += usize::from(read_only.rows.iter().any(|row| row.error == 7));
    }
    assert!(sevens > 50_000, "{sevens}");
}

/// 02-12.5: "A refused start keeps the profile asked for." And each call leaves it: feeds and silences of either port, accepted
/// and refused.
#[test]
fn profiles_are_kept() {
    for profile in Profile::ALL {
        for (page, number) in [(vec![0xFF; 64], 0), (vec![0xFF; 63], 19), (vec![0; 64], 20), (Vec::new(), 19)] {
            let (answered, board) = start(profile, &page);
            assert_eq!((answered, board.profile), (number, profile));
            let (mut first, mut second) = ([1; 260], [2; 260]);
            let started = start_in_place(profile, &mut first, &mut second, &page);
            assert_eq!((started.number, started.profile), (number, profile));
            assert_eq!(start_in_place(profile, &mut first[1..], &mut second, &page).profile, profile);
        }
        let (_, mut board) = start(profile, &[0; 64]);
        let mut page = [0xFF; 64];
        for (port, chunk, room) in [(0, P2, 166), (1, P2, 166), (0, "A5A501FF", 166), (1, "A5", 165), (2, P1, 166)] {
            board = feed(port, &board, &hex(chunk), &mut vec![0; room], &mut page).board;
            assert_eq!(board.profile, profile);
            board = silence(port, &board, &mut vec![0; room], &mut page).board;
            assert_eq!(board.profile, profile);
        }
        let error = if profile == Profile::Full { 0 } else { 7 };
        let mut room = [0; 166];
        feed(1, &board, &hex(P2), &mut room, &mut page);
        assert_eq!(room[7], error);
    }
}

/// A restart is told its profile anew, whatever the board was before.
#[test]
fn restarts() {
    let mut both = blank();
    for (profile, error) in [(Profile::Full, 0), (Profile::ReadOnly, 7), (Profile::ReadOnly, 7), (Profile::Full, 0)] {
        both.restart_in(profile);
        assert_eq!(rows(&fed(&mut both, 1, &hex(P2)).reply), [(7, error)]);
        assert_eq!(both.board.settings.accelerometer, 2);
    }
}

/// A silence on port 1 reports a command from behind a false header, and refuses it; the next goes on.
#[test]
fn silences_on_port_1() {
    let mut both = blank();
    let save = message(0x02, &hex("080103"));
    let held = [hex("A5A502FF"), hex(P2), save, numbered(1, 0x02, &hex("080103")), hex(P1)].concat();
    assert_eq!(both.feed(1, &held).number, 1);
    let answers = both.drain(1);
    let told: Vec<_> = answers.iter().map(|answer| (rows(&answer.reply), answer.skipped, answer.saved)).collect();
    let row = |echo, error, skipped| (vec![(echo, error)], skipped, false);
    assert_eq!(told, [row(7, 7, 4), row(8, 7, 0), row(8, 7, 0), row(2, 0, 0), (vec![], 0, false)]);
    assert_eq!((both.board.settings, &both.page), (FACTORY, &vec![0xFF; 64]));
}

/// What port 0 sees after a call of its own.
#[derive(Clone, Debug, PartialEq, Eq)]
struct Seen {
    answer: (u8, usize, usize, u8, bool),
    room: Vec<u8>,
    port: Port,
    tally: Tally,
    settings: Settings,
    page: Vec<u8>,
}

/// What port 0 sees after each of its calls, from a start in a profile; and how often port 1 was answered with error 7.
fn seen_by_port_0(profile: Profile, page: &[u8], list: &[Step]) -> (Vec<Seen>, usize) {
    let (mut board, mut page) = (start(profile, page).1, page.to_vec());
    let (mut seen, mut sevens) = (Vec::new(), 0);
    for step in list {
        let (port, room) = step.port_and_room().expect("no restart");
        let mut room = vec![0x5C; room];
        let fed = step.answer(&board, &mut room, &mut page).expect("a call is answered");
        board = fed.board;
        match port {
            0 => seen.push(Seen {
                answer: (fed.number, fed.taken, fed.skipped, fed.error, fed.saved),
                room,
                port: board.ports[0],
                tally: board.tallies[0],
                settings: board.settings,
                page: page.clone(),
            }),
            _ => sevens += usize::from(fed.number == 0 && room[7] == 7),
        }
    }
    (seen, sevens)
}

/// 02-12.3, 02-12.4, by hand: on port 1 a save, a load, a numbered command and a silence, or nothing.
#[test]
fn two_runs_by_hand() {
    let feed = |port, chunk: Vec<u8>| Step::Feed(generate::Call { port, chunk, room: 166 });
    let silence = |port| Step::Silence { port, room: 166 };
    let zero = [
        feed(0, message(0x02, &hex("08020105"))),
        feed(0, hex("A5A502FF")),
        feed(0, numbered(2, 0x02, &hex("080103"))),
        silence(0),
        feed(0, message(0x02, &hex("080104 070102"))),
    ];
    let one = [
        feed(1, message(0x02, &hex("08020101 080103 070105"))),
        feed(1, numbered(9, 0x02, &hex("07020104"))),
        feed(1, hex("A5A501FF")),
        silence(1),
        feed(1, message(0x02, &hex("010501000E1000 010103"))),
    ];
    let mixed: Vec<Step> = one.into_iter().zip(zero.clone()).flat_map(|(one, zero)| [one, zero]).collect();
    let (alone, none) = seen_by_port_0(Profile::ReadOnly, &[0xFF; 64], &zero);
    let (beside, sevens) = seen_by_port_0(Profile::ReadOnly, &[0xFF; 64], &mixed);
    assert_eq!((&alone, none, sevens), (&beside, 0, 3));
    let last = &alone[4];
    assert_eq!(
        (last.settings, &last.page),
        (Settings { gyroscope: 5, ..FACTORY }, &page_of("02 080701 700804 05 00000002"))
    );
    // A board of the full profile lets port 1 be seen.
    assert_ne!(seen_by_port_0(Profile::Full, &[0xFF; 64], &mixed).0, alone);
}

/// The same of generated runs.
#[test]
fn two_runs() {
    let mut rng = Rng::new(0x1203);
    let (mut zero, mut sevens, mut otherwise) = (0, 0, 0);
    for place in 0..4000 {
        let page = generate::silences::page(&mut rng);
        let pieces = rng.between(1, 6);
        let turns = readonly::two_runs(&mut rng, &page, pieces);
        let runs = |profile, turns: &[readonly::Turn]| {
            [Run::First, Run::Second].map(|run| seen_by_port_0(profile, &page, &readonly::calls_of(turns, run)))
        };
        let [first, second] = runs(Profile::ReadOnly, &turns);
        if first.0 != second.0 {
            let short = generate::shrink(&turns, |turns| {
                let [first, second] = runs(Profile::ReadOnly, turns);
                first.0 != second.0
            });
            panic!("{place}: page {page:02X?}\nshortest {short:02X?}");
        }
        zero += first.0.len();
        sevens += first.1 + second.1;
        let [first, second] = runs(Profile::Full, &turns);
        otherwise += usize::from(first.0 != second.0);
    }
    assert!(zero > 50_000 && sevens > 5000 && otherwise > 1500, "{zero} {sevens} {otherwise}");
}

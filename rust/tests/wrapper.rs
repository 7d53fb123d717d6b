//! The paper's sample lines through the wrapper, starts in place, every refusal, numbered commands over a power cut, the
//! gyroscope's ranges of older boards, silences, read-only boards, and the totals of each port.

use ketphiroj::{
    append_field, check_message, check_page, code, copy_body, factory_page, ffi, field_data, field_range, function,
    read_field, read_reply, read_rows, write_command, write_data, write_message, write_numbered, Board, Field, Outcome,
    Port, Profile, Refusal, Reply, ReplyError, Settings, Tally, Values, NUMBERED, PAGE,
};

const BLANK: [u8; PAGE] = [0xFF; PAGE];

/// The bytes of a text; "blanks are only for the eye".
fn hex(text: &str) -> Vec<u8> {
    let digits: Vec<u32> = text.chars().filter_map(|digit| digit.to_digit(16)).collect();
    digits.chunks(2).map(|pair| (pair[0] * 16 + pair[1]) as u8).collect()
}

/// The number of an error, 0 where there is none.
fn number(error: Option<ReplyError>) -> u8 {
    error.map_or(0, ReplyError::number)
}

/// The totals of one message with this error.
fn one(error: usize) -> [u64; 8] {
    let mut errors = [0; 8];
    errors[error] = 1;
    errors
}

/// A board on a blank page, and the page.
fn fresh() -> (Board, [u8; PAGE]) {
    (Board::start(Profile::Full, &BLANK).unwrap(), BLANK)
}

/// Feeds a chunk to port 0 until it is used up. Gives the replies.
fn replies(board: &mut Board, mut chunk: &[u8], page: &mut [u8]) -> Vec<Vec<u8>> {
    let mut replies = Vec::new();
    loop {
        let mut room = [0; Board::REPLY];
        let outcome = board.feed(0, chunk, &mut room, page).unwrap();
        chunk = &chunk[outcome.taken()..];
        match outcome {
            Outcome::Reported { reply, .. } => replies.push(room[..reply].to_vec()),
            Outcome::UsedUp { .. } => return replies,
        }
    }
}

#[test]
fn sample_lines() {
    let lines = [
        ("A5A5010202004F25", vec!["A5A5010480020200D3CF"]),
        ("A5A50204070201025CF1", vec!["A5A5020480020700D9DF"]),
        ("A5A5020701050100 01C2001D84", vec!["A5A5020480020100D3D3"]),
        ("A5A502030801025A93", vec!["A5A5020780020800080103E9A4"]),
        ("A5A501004B85", vec!["A5A5010480020003D4CE"]),
        ("A5A5010202004F24", vec!["A5A5010480020201D4D0"]),
        ("A5 A5A5010202004F25", vec!["A5A5010480020200D3CF"]),
        ("A5A502040802010863FB", vec!["A5A5020480020804DEE5"]),
        ("A5A503020200512D", vec!["A5A5030480020202D7DD"]),
        ("", vec![]),
    ];
    for (given, expected) in lines {
        let (mut board, mut page) = fresh();
        let expected: Vec<Vec<u8>> = expected.into_iter().map(hex).collect();
        assert_eq!(replies(&mut board, &hex(given), &mut page), expected, "{given}");
        assert_eq!(page, BLANK, "{given}");
    }
}

/// P6: a damaged Ping leaves seven bytes held, which an empty feed skips.
#[test]
fn damaged_ping() {
    let (mut board, mut page) = fresh();
    let mut room = [0x77; Board::REPLY];
    let outcome = board.feed(0, &hex("A5A5010202004F24"), &mut room, &mut page);
    let error = Some(ReplyError::Checksum);
    assert_eq!(outcome, Ok(Outcome::Reported { taken: 8, skipped: 1, saved: false, error, reply: 10 }));
    assert_eq!(room[10..], [0x77; Board::REPLY - 10]);
    assert_eq!(board.first.held, 7);
    assert_eq!(board.feed(0, &[], &mut room, &mut page), Ok(Outcome::UsedUp { taken: 0, skipped: 7 }));
    let tally0 = Tally { taken: 8, skipped: 8, good: 0, errors: one(1) };
    assert_eq!(board, Board { tally0, ..fresh().0 });
}

/// P7: a stray A5 is skipped, and so is a run of them; A5 A5 alone is held.
#[test]
fn stray_bytes() {
    let ping = hex("A5A5010202004F25");
    for run in 1..=300 {
        let (mut board, mut page) = fresh();
        let mut room = [0; Board::REPLY];
        let outcome = board.feed(0, &[vec![0xA5; run], ping.clone()].concat(), &mut room, &mut page);
        let reported = Outcome::Reported { taken: run + 8, skipped: run, saved: false, error: None, reply: 10 };
        assert_eq!(outcome, Ok(reported));
        assert_eq!(room[..10], hex("A5A5010480020200D3CF"));
        let tally0 = Tally { taken: run as u64 + 8, skipped: run as u64, good: 8, errors: one(0) };
        assert_eq!(board, Board { tally0, ..fresh().0 });

        let outcome = board.feed(1, &vec![0xA5; run], &mut room, &mut page);
        assert_eq!(outcome, Ok(Outcome::UsedUp { taken: run, skipped: run.saturating_sub(2) }));
        assert_eq!(board.second.held, run.min(2));
    }
}

/// A message of type A5 is written and checked, but a board does not find it. Here it finds what begins at the second
/// A5, a good message of type 03.
#[test]
fn type_a5() {
    let mut message = [0; 9];
    assert_eq!(write_message(0xA5, &[0x00, 0x4D, 0x89], &mut message), Ok(9));
    assert_eq!(check_message(&message), Ok(()));
    let (mut board, mut page) = fresh();
    assert_eq!(replies(&mut board, &message, &mut page), [hex("A5A5030480020002D5D9")]);
}

/// P8 and P12: saves.
#[test]
fn saves() {
    let (mut board, mut page) = fresh();
    let mut room = [0; Board::REPLY];
    let saved = board.feed(0, &hex("A5A50203010103 547F"), &mut room, &mut page);
    assert_eq!(saved, Ok(Outcome::Reported { taken: 9, skipped: 0, saved: true, error: None, reply: 10 }));
    assert_eq!(page[..8], hex("01 010404 0001C200"));
    assert_eq!(page[8..], [0xFF; 56]);

    let (mut board, mut page) = fresh();
    for code in [code::GYROSCOPE, code::ACCELEROMETER, code::BAUD] {
        let mut command = [0; 16];
        let length = write_command(code, function::SAVE, 0, &mut command).unwrap();
        assert_eq!(replies(&mut board, &command[..length], &mut page).len(), 1);
    }
    assert_eq!(page[..16], hex("03 010A04 070E01 080F01 0001C200 02 03"));
    assert_eq!(page, factory_page());
    let factory = Values { baud: Some(115200), accelerometer: Some(2), gyroscope: Some(3), last_number: None };
    assert_eq!(Values::read(&page), Ok(factory));
}

/// The command of these settings, each with one function.
fn command(function: u8, settings: &[(u8, u32)]) -> Vec<u8> {
    let (mut payload, mut length) = ([0; 255], 0);
    for &(code, value) in settings {
        length = append_field(0x02, code, function, value, length, &mut payload).unwrap();
    }
    let mut message = [0; 261];
    let length = write_message(0x02, &payload[..length], &mut message).unwrap();
    message[..length].to_vec()
}

/// Three settings set in one command, saved in another, and loaded after a restart.
#[test]
fn three_settings() {
    let three = [(code::BAUD, 921600), (code::ACCELEROMETER, 4), (code::GYROSCOPE, 5)];
    let settings = Settings { baud: 921600, accelerometer: 4, gyroscope: 5 };
    let (mut board, mut page) = fresh();
    let set = command(function::USE, &three);
    assert_eq!(set, hex("A5A5020F 010501000E1000 07020104 08020105 9E14"));
    let done = hex("A5A5020C 80020100 80020700 80020800 EE21");
    assert_eq!(replies(&mut board, &set, &mut page), std::slice::from_ref(&done));
    assert_eq!((board.settings, page), (settings, BLANK));

    let save = command(function::SAVE, &three);
    let mut room = [0; Board::REPLY];
    let saved = board.feed(0, &save, &mut room, &mut page);
    assert_eq!(saved, Ok(Outcome::Reported { taken: 15, skipped: 0, saved: true, error: None, reply: 18 }));
    assert_eq!(room[..18], done);
    assert_eq!(page[..16], hex("03 010A04 070E01 080F01 000E1000 04 05"));

    // Starting takes them from the page, and so does a load after others were set.
    let mut board = Board::start(Profile::Full, &page).unwrap();
    assert_eq!(board.settings, settings);
    let others = command(function::USE, &[(code::GYROSCOPE, 1), (code::BAUD, 9600), (code::ACCELEROMETER, 1)]);
    replies(&mut board, &others, &mut page);
    assert_eq!(board.settings, Settings { baud: 9600, accelerometer: 1, gyroscope: 1 });
    assert_eq!(replies(&mut board, &command(function::LOAD, &three), &mut page), [done]);
    assert_eq!(board.settings, settings);

    let reported = &replies(&mut board, &command(function::REPORT, &three), &mut page)[0];
    let rows: Vec<Reply> = read_rows(reported).unwrap().collect();
    let row = |(echo, value)| Reply { kind: 0x02, echo, error: None, value: Some(value) };
    assert_eq!(rows, three.map(row));
    assert_eq!(read_reply(reported, 2), Ok(rows[2]));
    assert_eq!(read_reply(reported, 3), Err(Refusal::NoField));
}

/// An error does not stop the fields after it, but 17 fields, or a payload that they do not fill, are refused whole.
#[test]
fn errors_among_fields() {
    let reply = |kind, payload: &str| {
        let (mut board, mut page) = fresh();
        let mut message = [0; 261];
        let length = write_message(kind, &hex(payload), &mut message).unwrap();
        let replies = replies(&mut board, &message[..length], &mut page);
        let rows: Vec<(u8, u8)> = read_rows(&replies[0]).unwrap().map(|row| (row.echo, number(row.error))).collect();
        (rows, board.settings.gyroscope, page != BLANK)
    };
    assert_eq!(reply(0x02, "08020108 6300 08020105 080103"), (vec![(8, 4), (0x63, 3), (8, 0), (8, 0)], 5, true));
    assert_eq!(reply(0x02, "08020107 08020105 080103"), (vec![(8, 6), (8, 0), (8, 0)], 5, true));
    assert_eq!(reply(0x02, "08020105 080103 08"), (vec![(8, 4)], 3, false));
    assert_eq!(reply(0x02, "63"), (vec![(0x63, 4)], 3, false));
    assert_eq!(reply(0x01, &"0200".repeat(16)), (vec![(2, 0); 16], 3, false));
    assert_eq!(reply(0x01, &"0200".repeat(17)), (vec![(2, 4)], 3, false));
    assert_eq!(reply(0x01, ""), (vec![(0, 3)], 3, false));
}

/// Sixteen reports of the baud rate fill the room.
#[test]
fn longest_reply() {
    let (mut board, mut page) = fresh();
    let reports = command(function::REPORT, &[(code::BAUD, 0); 16]);
    let reply = &replies(&mut board, &reports, &mut page)[0];
    assert_eq!(reply.len(), Board::REPLY);
    assert!(read_rows(reply).unwrap().all(|row| row.value == Some(115200)));
    assert_eq!(read_rows(reply).unwrap().count(), 16);
}

/// A board, and the page that its driver stores before it sends a reply.
struct Driver {
    board: Board,
    page: [u8; PAGE],
    stored: [u8; PAGE],
}

impl Driver {
    fn start(stored: [u8; PAGE]) -> Driver {
        Driver::start_in(Profile::Full, stored)
    }

    fn start_in(profile: Profile, stored: [u8; PAGE]) -> Driver {
        Driver { board: Board::start(profile, &stored).unwrap(), page: stored, stored }
    }

    /// Cuts the power: what is left is the stored page, and the profile that the driver knows.
    fn cut(self) -> Driver {
        Driver::start_in(self.board.profile(), self.stored)
    }

    /// Feeds one whole message, stores the page where it was written, and gives the errors of the reply's rows by number.
    fn errors(&mut self, port: u8, message: &[u8]) -> Vec<u8> {
        let before = self.page;
        let mut room = [0; Board::REPLY];
        let outcome = self.board.feed(port, message, &mut room, &mut self.page).unwrap();
        let Outcome::Reported { taken, skipped: 0, saved, error, reply } = outcome else { panic!("{outcome:?}") };
        assert_eq!(taken, message.len());
        if saved {
            self.stored = self.page;
        } else {
            assert_eq!(self.page, before);
        }
        let errors: Vec<u8> = read_rows(&room[..reply]).unwrap().map(|row| number(row.error)).collect();
        assert_eq!(number(error), errors[0]);
        errors
    }

    fn last_number(&self) -> Option<u32> {
        Values::read(&self.page).unwrap().last_number
    }
}

/// A message of this type and payload.
fn message(kind: u8, payload: &[u8]) -> Vec<u8> {
    let mut room = [0; 261];
    let length = write_message(kind, payload, &mut room).unwrap();
    room[..length].to_vec()
}

/// A command with this number.
fn numbered(number: u32, code: u8, function: u8, value: u32) -> Vec<u8> {
    let mut room = [0; 32];
    let length = write_numbered(number, code, function, value, &mut room).unwrap();
    room[..length].to_vec()
}

/// One day's commands, numbered from 1 on: a use, a save, three settings used and one of them saved, one that fails in
/// its field, one that fails as a whole, a load, the factory value, a report and a Ping. The errors are those of the
/// day, of its replay without numbers on port 0, and on port 1.
fn day() -> Vec<(Vec<u8>, [Vec<u8>; 3])> {
    let three = hex("00000003 02 010501000E1000 07020101 08020105 080103");
    let same = |errors: &[u8]| [errors.to_vec(), errors.to_vec(), errors.to_vec()];
    let refused = |errors: &[u8]| [errors.to_vec(), vec![5; errors.len()], errors.to_vec()];
    vec![
        (numbered(1, code::ACCELEROMETER, function::USE, 4), refused(&[0])),
        (numbered(2, code::ACCELEROMETER, function::SAVE, 0), refused(&[0])),
        (message(NUMBERED, &three), refused(&[0, 0, 0, 0])),
        (message(NUMBERED, &hex("00000004 02 08020108")), refused(&[4])),
        (message(NUMBERED, &hex("00000005 03 08020101")), same(&[2])),
        (numbered(6, code::ACCELEROMETER, function::LOAD, 0), refused(&[0])),
        (numbered(7, code::BAUD, function::FACTORY, 0), refused(&[0])),
        (numbered(8, code::GYROSCOPE, function::REPORT, 0), same(&[0])),
        (numbered(9, code::PING, 0, 0), same(&[0])),
    ]
}

/// A board that has had that day, on a page that was blank, and then no power.
fn the_day_after() -> Driver {
    let mut driver = Driver::start(BLANK);
    for (command, [errors, ..]) in day() {
        assert_eq!(driver.errors(0, &command), errors);
    }
    assert_eq!(driver.board.settings, Settings { baud: 115200, accelerometer: 4, gyroscope: 5 });
    assert_eq!(driver.last_number(), Some(9));
    let driver = driver.cut();
    assert_eq!(driver.page[..16], hex("03 070A01 080B01 700C04 04 05 00000009"));
    driver
}

/// Yesterday's commands, sent again after a power cut, are not taken as new: each is refused with 5, on either port, and
/// settings and page are as they were.
#[test]
fn replay() {
    let mut driver = the_day_after();
    let (settings, page) = (driver.board.settings, driver.page);
    for port in [0, 1] {
        for (command, _) in day() {
            assert_eq!(driver.errors(port, &command), [5]);
            assert_eq!((driver.board.settings, driver.page, driver.stored), (settings, page, page));
        }
        driver = driver.cut();
    }
    // The next number is taken.
    assert_eq!(driver.errors(0, &numbered(10, code::GYROSCOPE, function::USE, 1)), [0]);
    assert_eq!(driver.board.settings, Settings { gyroscope: 1, ..settings });
    assert_eq!(driver.last_number(), Some(10));
}

/// The same commands without their numbers: on port 0 functions 1, 3, 4 and 5 are refused with 5, and Ping and reports go
/// on; on port 1 all are taken, and the number stays.
#[test]
fn replay_without_numbers() {
    let mut driver = the_day_after();
    let (settings, page) = (driver.board.settings, driver.page);
    let without = |command: &[u8]| message(command[8], &command[9..command.len() - 2]);
    for (command, [_, refused, _]) in day() {
        assert_eq!(driver.errors(0, &without(&command)), refused);
        assert_eq!((driver.board.settings, driver.page), (settings, page));
    }
    let other = [(code::ACCELEROMETER, 2), (code::GYROSCOPE, 3)];
    assert_eq!(driver.errors(1, &command(function::USE, &other)), [0, 0]);
    assert_eq!(driver.errors(1, &command(function::SAVE, &other)), [0, 0]);
    assert_eq!(driver.page[..16], hex("03 070A01 080B01 700C04 02 03 00000009"));
    for (command, [_, _, taken]) in day() {
        assert_eq!(driver.errors(1, &without(&command)), taken);
    }
    assert_eq!((driver.board.settings, driver.last_number()), (settings, Some(9)));
    assert_eq!(driver.cut().board.settings, settings);
}

/// What the header and [`Board::feed`] warn of: a page that is stored too late lets a number be accepted again.
#[test]
fn page_stored_too_late() {
    let mut driver = Driver::start(BLANK);
    let command = numbered(1, code::ACCELEROMETER, function::USE, 4);
    assert_eq!(driver.errors(0, &command), [0]);
    driver.stored = BLANK;
    let mut driver = driver.cut();
    assert_eq!(driver.errors(0, &command), [0]);
}

/// Numbers at the ends, on a page of each: larger is fresh, equal and smaller are stale. After 4294967295 nothing is.
#[test]
fn fresh_numbers() {
    let ends = [0, 1, 0xFF, 0x100, 0xFFFF, 0x1_0000, 0x7FFF_FFFF, 0x8000_0000, 0xFFFF_FFFE, 0xFFFF_FFFF];
    for number in ends {
        let ping = numbered(number, code::PING, 0, 0);
        assert_eq!(Driver::start(BLANK).errors(0, &ping), [0]);
        for last in ends {
            let mut page = BLANK;
            Values { last_number: Some(last), ..Values::default() }.write(&mut page).unwrap();
            let mut driver = Driver::start(page);
            let fresh = number > last;
            assert_eq!(driver.errors(1, &ping), [if fresh { 0 } else { 5 }]);
            assert_eq!(driver.last_number(), Some(if fresh { number } else { last }));
        }
    }
}

/// The one row of a numbered command whose fields are not reached, and whether its number was spent.
#[test]
fn numbered_commands_refused() {
    for (payload, echo, error, spent) in [
        ("", 0, 4, false),
        ("00000065", 0, 4, false),
        ("00000064 02", 0, 5, false),
        ("00000064 03 07", 7, 5, false),
        ("00000065 03 08020101", 8, 2, true),
        ("00000065 7C 00000066010200", 0, 2, true),
        ("00000065 02", 0, 3, true),
        ("00000065 02 63", 0x63, 4, true),
        ("00000065 02 6300", 0x63, 3, true),
        ("00000065 02 08020108", 8, 4, true),
        ("00000065 02 08020106", 8, 6, true),
    ] {
        let mut page = BLANK;
        Values { last_number: Some(100), ..Values::default() }.write(&mut page).unwrap();
        let mut board = Board::start(Profile::Full, &page).unwrap();
        let mut room = [0; Board::REPLY];
        let mut bytes = message(NUMBERED, &hex(payload));
        let outcome = board.feed(0, &bytes, &mut room, &mut page).unwrap();
        let error = ReplyError::from_number(error);
        let reported = Outcome::Reported { taken: bytes.len(), skipped: 0, saved: spent, error, reply: 10 };
        assert_eq!(outcome, reported, "{payload}");
        let row = Reply { kind: NUMBERED, echo, error, value: None };
        assert_eq!(read_reply(&room[..10], 0), Ok(row), "{payload}");
        assert_eq!(Values::read(&page).unwrap().last_number, Some(if spent { 101 } else { 100 }));

        // Damaged, it spends nothing, and the echo is its first payload byte.
        let end = bytes.len() - 1;
        bytes[end] ^= 1;
        let mut page = BLANK;
        let outcome = Board::start(Profile::Full, &page).unwrap().feed(0, &bytes, &mut room, &mut page).unwrap();
        let error = Some(ReplyError::Checksum);
        assert_eq!(outcome, Outcome::Reported { taken: bytes.len(), skipped: 1, saved: false, error, reply: 10 });
        assert_eq!((room[6..8].to_vec(), page), (vec![0, 1], BLANK));
    }
}

/// A page with this range of the gyroscope and no other value.
fn page_with(gyroscope: u32) -> [u8; PAGE] {
    let mut page = BLANK;
    Values { gyroscope: Some(gyroscope), ..Values::default() }.write(&mut page).unwrap();
    page
}

/// The page of an older board stays sound and is read, but a start takes the factory's range, and a load is refused. A save
/// ends it.
#[test]
fn old_page() {
    for range in [6, 7] {
        let page = page_with(range);
        assert_eq!(check_page(&page), Ok(()));
        assert_eq!(Values::read(&page).unwrap().gyroscope, Some(range));
        let mut driver = Driver::start(page);
        assert_eq!(driver.board, fresh().0);

        let load = command(function::LOAD, &[(code::GYROSCOPE, 0)]);
        assert_eq!(driver.errors(0, &command(function::USE, &[(code::GYROSCOPE, 5)])), [0]);
        assert_eq!(driver.errors(0, &load), [6]);
        assert_eq!(driver.errors(1, &load), [6]);
        assert_eq!((driver.board.settings.gyroscope, driver.page), (5, page));

        // The power is cut: again it is the factory's.
        let mut driver = driver.cut();
        assert_eq!((driver.board.settings.gyroscope, driver.page), (3, page));
        assert_eq!(driver.errors(0, &command(function::USE, &[(code::GYROSCOPE, 4)])), [0]);
        assert_eq!(driver.errors(0, &command(function::SAVE, &[(code::GYROSCOPE, 0)])), [0]);
        assert_eq!(driver.page, page_with(4));
        let mut driver = driver.cut();
        assert_eq!((driver.board.settings.gyroscope, driver.errors(0, &load)), (4, vec![0]));
    }
}

/// On such a page all other functions go on, and the entry stays until the range is saved; the number is spent where the
/// command inside gets 6, and 5 comes before 6.
#[test]
fn old_page_and_numbers() {
    let mut driver = Driver::start(page_with(6));
    let load = |number| numbered(number, code::GYROSCOPE, function::LOAD, 0);
    assert_eq!(driver.errors(0, &load(1)), [6]);
    assert_eq!(driver.page[..13], hex("02 080701 700804 06 00000001 FF"));
    assert_eq!(driver.errors(0, &load(1)), [5]);
    for function in [function::LOAD, function::SAVE, function::FACTORY] {
        assert_eq!(driver.errors(0, &command(function, &[(code::GYROSCOPE, 0)])), [5]);
    }
    assert_eq!(driver.errors(0, &message(0x02, &hex("08020106"))), [5]);
    assert_eq!(driver.errors(1, &message(0x02, &hex("08020106 080104 080105 080102 070103"))), [6, 6, 0, 0, 0]);
    assert_eq!(driver.page[..17], hex("03 070A01 080B01 700C04 02 06 00000001 FF"));
    assert_eq!(driver.errors(1, &command(function::SAVE, &[(code::GYROSCOPE, 0)])), [0]);
    assert_eq!(driver.errors(0, &load(2)), [0]);
}

/// What is sent with function 1: 6 and 7 are error 6 where the size is right; ranges that no board has are 4. The value
/// sent with function 4 is not looked at.
#[test]
fn ranges_sent() {
    for (field, error) in [
        ("08020100", 4),
        ("08020101", 0),
        ("08020105", 0),
        ("08020106", 6),
        ("08020107", 6),
        ("08020108", 4),
        ("0803010606", 4),
        ("080101", 4),
        ("08020006", 4),
        ("08020606", 4),
        ("08020206", 0),
        ("08020406", 0),
        ("07020105", 4),
        ("07020106", 4),
    ] {
        let mut driver = Driver::start(BLANK);
        assert_eq!(driver.errors(0, &message(0x02, &hex(field))), [error], "{field}");
        let used = if error == 0 && field.starts_with("080201") { hex(field)[3] } else { 3 };
        assert_eq!((driver.board.settings.gyroscope, driver.page), (used, BLANK), "{field}");
    }
    let mut driver = Driver::start(page_with(7));
    assert_eq!(driver.errors(0, &message(0x02, &hex("08020401 0803040101"))), [6, 4]);
}

/// The controller's side: a command with 6 or 7 is not written; a reply with them, or with error 6, is read.
#[test]
fn old_ranges_written_and_read() {
    let mut room = [0x11; 32];
    for range in [6, 7] {
        assert_eq!(write_command(code::GYROSCOPE, function::USE, range, &mut room), Err(Refusal::Command));
        assert_eq!(write_numbered(1, code::GYROSCOPE, function::USE, range, &mut room), Err(Refusal::Command));
        assert_eq!(append_field(0x02, code::GYROSCOPE, function::USE, range, 0, &mut room), Err(Refusal::Command));
        assert_eq!(room, [0x11; 32]);
        for kind in [0x02, NUMBERED] {
            let value = Reply { kind, echo: code::GYROSCOPE, error: None, value: Some(range) };
            assert_eq!(read_reply(&message(kind, &[0x80, 2, 8, 0, 8, 1, range as u8]), 0), Ok(value));
        }
    }
    // What is not written is not looked at.
    assert_eq!(write_command(code::GYROSCOPE, function::LOAD, 6, &mut room), Ok(9));
    let error = Reply { kind: 0x02, echo: code::GYROSCOPE, error: Some(ReplyError::Unsupported), value: None };
    assert_eq!(read_reply(&hex("A5A50204 80020806 E0E7"), 0), Ok(error));
    assert_eq!(read_reply(&message(0x02, &hex("80020808")), 0), Err(Refusal::Kind));
    assert_eq!(read_reply(&message(0x02, &hex("80020806 080106")), 0), Err(Refusal::Kind));
    assert_eq!(read_reply(&message(0x02, &hex("80020800 080108")), 0), Err(Refusal::Kind));
}

/// Totals of which none can grow.
const ALL_STOPPED: Tally = Tally { taken: u64::MAX, skipped: u64::MAX, good: u64::MAX, errors: [u64::MAX; 8] };

/// Boards that no start gives: sound ones that hold bytes on other settings, and one that a feed would refuse.
fn dirty_boards() -> [Board; 3] {
    let settings = Settings { baud: 9600, accelerometer: 1, gyroscope: 1 };
    let (full, empty) = (Port { bytes: [0xA5; 260], held: 260 }, Port { bytes: [0x77; 260], held: 0 });
    let unsound = Settings { baud: 0, accelerometer: 0xFF, gyroscope: 0 };
    let (some, most) = (Tally { taken: 3, skipped: 2, good: 1, errors: [9; 8] }, ALL_STOPPED);
    [
        Board { first: full, second: empty, settings, readonly: false, tally0: some, tally1: most },
        Board { first: empty, second: full, settings, readonly: true, tally0: most, tally1: some },
        Board {
            first: Port { held: usize::MAX, ..full },
            second: Port { held: 261, ..full },
            settings: unsound,
            readonly: true,
            tally0: most,
            tally1: most,
        },
    ]
}

/// A start in place gives the board of a start by value, from a board of any contents and profile, with totals of zero. Where
/// the start is refused, that is the factory's board, as a blank page gives it, in the profile asked for.
#[test]
fn starts_in_place() {
    let page = |baud, accelerometer, gyroscope, last_number| {
        let mut page = BLANK;
        Values { baud, accelerometer, gyroscope, last_number }.write(&mut page).unwrap();
        page
    };
    let (mut unsound, factory) = (factory_page(), fresh().0);
    unsound[14] = 5;
    let pages = [
        BLANK,
        factory_page(),
        page(Some(921600), Some(4), Some(5), Some(u32::MAX)),
        page(Some(921600), Some(4), Some(7), Some(u32::MAX)),
        page(None, Some(4), None, None),
        page(None, None, None, Some(0)),
        unsound,
        [0; PAGE],
    ];
    let lengths = pages.iter().flat_map(|page| [&page[..], &page[1..], &page[..0]]);
    for (given, board) in lengths.flat_map(|given| dirty_boards().map(|board| (given, board))) {
        for profile in [Profile::Full, Profile::ReadOnly] {
            let (mut board, started) = (board, Board::start(profile, given));
            assert_eq!(board.start_in_place(profile, given), started.map(|_| ()), "{given:02X?}");
            let refused = Board { readonly: profile == Profile::ReadOnly, ..factory };
            assert_eq!(board, started.unwrap_or(refused), "{given:02X?}");
            assert_eq!((board.profile(), board.tally0, board.tally1), (profile, Tally::new(), Tally::new()));
        }
    }
    assert_eq!(
        Board::start(Profile::Full, &pages[2]).unwrap().settings,
        Settings { baud: 921600, accelerometer: 4, gyroscope: 5 }
    );
    assert_eq!(
        Board::start(Profile::Full, &pages[3]).unwrap().settings,
        Settings { baud: 921600, accelerometer: 4, gyroscope: 3 }
    );
    assert_eq!(dirty_boards()[0].start_in_place(Profile::Full, &unsound), Err(Refusal::Page));
    assert_eq!(dirty_boards()[0].start_in_place(Profile::Full, &BLANK[1..]), Err(Refusal::PageLength));
}

/// A board that is started in place answers as a fresh one: nothing that it held is left, and a save that was stored is
/// used.
#[test]
fn restart_in_place() {
    let (mut board, mut page) = fresh();
    let set = command(function::USE, &[(code::GYROSCOPE, 5)]);
    let save = command(function::SAVE, &[(code::GYROSCOPE, 0)]);
    assert_eq!(replies(&mut board, &[set, save].concat(), &mut page).len(), 2);
    let ping = hex("A5A5010202004F25");
    assert!(replies(&mut board, &ping[..7], &mut page).is_empty());
    board.start_in_place(Profile::Full, &page).unwrap();
    assert_eq!((board.first.held, board.settings.gyroscope), (0, 5));
    assert!(replies(&mut board, &ping[7..], &mut page).is_empty());
    assert_eq!(replies(&mut board, &ping, &mut page), [hex("A5A5010480020200D3CF")]);
}

const PING: &str = "A5A5010202004F25";
const PING_REPLY: &str = "A5A5010480020200D3CF";

/// Silences of a port until nothing more is reported: of each the bytes skipped, the save mark and the reply.
fn drain(board: &mut Board, port: u8, page: &mut [u8]) -> Vec<(usize, bool, Vec<u8>)> {
    let mut answers = Vec::new();
    loop {
        let mut room = [0x77; Board::REPLY];
        match board.silence(port, &mut room, page).unwrap() {
            Outcome::Reported { taken, skipped, saved, error, reply } => {
                assert_eq!((taken, &room[reply..]), (0, &[0x77; Board::REPLY][reply..]));
                assert_eq!(read_reply(&room[..reply], 0).unwrap().error, error);
                answers.push((skipped, saved, room[..reply].to_vec()));
            }
            Outcome::UsedUp { taken, skipped } => {
                assert_eq!((taken, room), (0, [0x77; Board::REPLY]));
                answers.push((skipped, false, Vec::new()));
                return answers;
            }
        }
    }
}

/// A Ping behind headers that claim more than follows, on each port; the other port keeps what it holds.
#[test]
fn silence_behind_false_headers() {
    for (port, header) in [(0, "A5A501FF"), (1, "A5A502FF A5A501C8 A5A5A5 A5A57C20"), (1, "A5"), (0, "A5A5A5A5A5 00")] {
        let (mut board, mut page) = fresh();
        let mut room = [0; Board::REPLY];
        let outcome = board.feed(1 - port, &hex(PING)[..5], &mut room, &mut page);
        assert_eq!(outcome, Ok(Outcome::UsedUp { taken: 5, skipped: 0 }));
        let (header, held) = (hex(header), [hex(header), hex(PING), hex("A5A50102")].concat());
        let named = |board: Board| if port == 0 { board.first } else { board.second };
        // Put into the port: a feed would not wait behind each of these headers.
        let mut given = Port::new();
        given.bytes[..held.len()].copy_from_slice(&held);
        given.held = held.len();
        match port {
            0 => board.first = given,
            _ => board.second = given,
        }
        let answers = drain(&mut board, port, &mut page);
        assert_eq!(answers, [(header.len(), false, hex(PING_REPLY)), (4, false, vec![])]);
        assert_eq!(named(board), Port::new());
        let outcome = board.feed(1 - port, &hex(PING)[5..], &mut room, &mut page);
        assert_eq!(outcome, Ok(Outcome::Reported { taken: 3, skipped: 0, saved: false, error: None, reply: 10 }));
    }
}

/// A silence on a port that holds nothing does nothing but clear the room past its held bytes.
#[test]
fn silence_of_nothing() {
    let (sound, mut page) = fresh();
    let junk = Port { bytes: [0x44; Port::ROOM], held: 0 };
    let mut board = Board { second: junk, ..sound };
    assert_eq!(drain(&mut board, 0, &mut page), [(0, false, vec![])]);
    assert_eq!(board, Board { second: junk, ..sound });
    assert_eq!(drain(&mut board, 1, &mut page), [(0, false, vec![])]);
    assert_eq!((board, page), fresh());
}

/// What is held is read to its end: a damaged message is answered with error 1, a save is made, and a message that is not whole
/// is skipped. Its end, fed afterwards, is none.
#[test]
fn silence_reads_to_the_end() {
    let (mut board, mut page) = fresh();
    let save = command(function::SAVE, &[(code::GYROSCOPE, 0)]);
    let ping = hex(PING);
    let held = [hex("A5A501FF"), hex("A5A5010202004F24"), save, ping[..7].to_vec()].concat();
    assert!(replies(&mut board, &held, &mut page).is_empty());
    let done = hex("A5A5020480020800DAE1");
    let expected = [(5, false, hex("A5A5010480020201D4D0")), (7, true, done), (7, false, vec![])];
    assert_eq!(drain(&mut board, 0, &mut page), expected);
    assert_eq!((board.first, page), (Port::new(), page_with(3)));
    assert!(replies(&mut board, &ping[7..], &mut page).is_empty());
    assert_eq!(replies(&mut board, &ping, &mut page), [hex(PING_REPLY)]);
}

/// A feed before the silence is drained is taken, over the bytes left.
#[test]
fn feed_before_a_silence_is_drained() {
    let (mut board, mut page) = fresh();
    let ping = hex(PING);
    assert!(replies(&mut board, &[hex("A5A501FF"), ping.clone(), ping[..3].to_vec()].concat(), &mut page).is_empty());
    let mut room = [0; Board::REPLY];
    let reported = Ok(Outcome::Reported { taken: 0, skipped: 4, saved: false, error: None, reply: 10 });
    assert_eq!(board.silence(0, &mut room, &mut page), reported);
    assert_eq!(board.first.held, 3);
    assert_eq!(replies(&mut board, &ping[3..], &mut page), [hex(PING_REPLY)]);
}

/// A numbered command that a silence reports is accepted once, over silences, feeds and a power cut.
#[test]
fn silence_and_numbers() {
    let held = [hex("A5A57CFF"), numbered(1, code::GYROSCOPE, function::USE, 5)].concat();
    let (mut board, mut page) = fresh();
    let mut room = [0; Board::REPLY];
    for (saved, error) in [(true, None), (false, Some(ReplyError::Number))] {
        assert!(replies(&mut board, &held, &mut page).is_empty());
        let outcome = board.silence(0, &mut room, &mut page);
        assert_eq!(outcome, Ok(Outcome::Reported { taken: 0, skipped: 4, saved, error, reply: 10 }));
        let row = Reply { kind: NUMBERED, echo: code::GYROSCOPE, error, value: None };
        assert_eq!(read_reply(&room[..10], 0), Ok(row));
        assert_eq!(board.settings.gyroscope, 5);
        assert_eq!(Values::read(&page).unwrap().last_number, Some(1));
    }
    let mut driver = Driver::start(page);
    assert_eq!(driver.errors(1, &held[4..]), [5]);
}

/// The profile that a start was told is the board's after feeds and silences of either port, accepted and refused.
#[test]
fn profiles_are_kept() {
    for profile in [Profile::Full, Profile::ReadOnly] {
        let (mut board, mut page) = (Board::start(profile, &BLANK).unwrap(), BLANK);
        for (port, chunk, room) in [(0, PING, 166), (1, "A5A501FF", 166), (1, PING, 165), (0, "A5", 166), (2, "", 166)]
        {
            let mut room = vec![0; room];
            let fed = board.feed(port, &hex(chunk), &mut room, &mut page);
            assert_eq!(board.profile(), profile, "{fed:?}");
            let silent = board.silence(port, &mut room, &mut page);
            assert_eq!((board.profile(), board.readonly), (profile, profile == Profile::ReadOnly), "{silent:?}");
        }
    }
}

/// On port 1 of a read-only board Ping and reports are answered; what would change something, and every numbered command with
/// right sums, gets error 7, and nothing changes. On port 0 the same bytes are taken as on any board.
#[test]
fn read_only_board() {
    let mut damaged = numbered(1, code::BAUD, function::SAVE, 0);
    let last = damaged.len() - 1;
    damaged[last] ^= 1;
    for (bytes, port_1, port_0) in [
        (hex(PING), vec![0], vec![0]),
        (command(function::REPORT, &[(code::BAUD, 0), (code::GYROSCOPE, 0)]), vec![0, 0], vec![0, 0]),
        (command(function::USE, &[(code::BAUD, 9600), (code::GYROSCOPE, 5)]), vec![7, 7], vec![0, 0]),
        (command(function::SAVE, &[(code::ACCELEROMETER, 0); 16]), vec![7; 16], vec![0; 16]),
        (command(function::LOAD, &[(code::BAUD, 0)]), vec![7], vec![0]),
        (command(function::FACTORY, &[(code::BAUD, 0)]), vec![7], vec![0]),
        (message(0x02, &hex("6301 01 08020107 0800 080102 080106")), vec![3, 7, 4, 0, 4], vec![3, 6, 4, 0, 4]),
        (message(0x02, &hex("070103 08")), vec![4], vec![4]),
        (numbered(1, code::ACCELEROMETER, function::USE, 4), vec![7], vec![0]),
        (numbered(1, code::PING, 0, 0), vec![7], vec![0]),
        (message(NUMBERED, &hex("000001")), vec![7], vec![4]),
    ] {
        let mut driver = Driver::start_in(Profile::ReadOnly, BLANK);
        let before = driver.board;
        assert_eq!(driver.errors(1, &bytes), port_1, "{bytes:02X?}");
        let taken = bytes.len() as u64;
        let tally1 = Tally { taken, skipped: 0, good: taken, errors: one(usize::from(port_1[0])) };
        let after = Board { tally1, ..before };
        assert_eq!((driver.board, driver.page, driver.stored), (after, BLANK, BLANK), "{bytes:02X?}");
        assert_eq!(driver.errors(0, &bytes), port_0, "{bytes:02X?}");
        assert_eq!(Driver::start(BLANK).errors(1, &bytes), port_0, "{bytes:02X?}");
    }
    let (mut board, mut page, mut room) = (Board::start(Profile::ReadOnly, &BLANK).unwrap(), BLANK, [0; Board::REPLY]);
    let outcome = board.feed(1, &damaged, &mut room, &mut page);
    assert!(matches!(outcome, Ok(Outcome::Reported { error: Some(ReplyError::Checksum), saved: false, .. })));
    assert_eq!(room[..10], message(NUMBERED, &hex("80020001")));
}

/// What port 0 sees after each of its calls: the outcome, the reply, the bytes that it holds, the settings and the page; and
/// its totals.
type Seen = Vec<(Outcome, Vec<u8>, Port, Settings, [u8; PAGE], Tally)>;

/// A day on port 0 of a read-only board, before each command of which something comes on port 1.
fn day_beside(other: impl Fn(usize, &mut Board, &mut [u8; PAGE])) -> Seen {
    let (mut board, mut page) = (Board::start(Profile::ReadOnly, &BLANK).unwrap(), BLANK);
    let mut seen = Vec::new();
    for (place, (bytes, _)) in day().into_iter().enumerate() {
        other(place, &mut board, &mut page);
        let mut room = [0; Board::REPLY];
        // Every other command waits behind a false header until the line is silent.
        let outcome = match place % 2 {
            0 => board.feed(0, &bytes, &mut room, &mut page).unwrap(),
            _ => {
                let held = [hex("A5A501FF"), bytes].concat();
                assert_eq!(board.feed(0, &held, &mut room, &mut page).unwrap().taken(), held.len());
                other(place + 1, &mut board, &mut page);
                board.silence(0, &mut room, &mut page).unwrap()
            }
        };
        seen.push((outcome, room.to_vec(), board.first, board.settings, page, board.tally0));
    }
    seen
}

/// Port 0 of a read-only board does not see what comes on port 1: nothing, the same commands with the same numbers and larger
/// ones, or saves behind false headers. On a board of the full profile it does.
#[test]
fn port_0_sees_nothing_of_port_1() {
    let feed = |board: &mut Board, bytes: &[u8], page: &mut [u8; PAGE]| {
        assert_eq!(board.feed(1, bytes, &mut [0; Board::REPLY], page).unwrap().taken(), bytes.len());
    };
    let alone = day_beside(|_, _, _| ());
    assert_eq!(alone.len(), 9);
    assert!(alone.iter().all(|(outcome, ..)| matches!(outcome, Outcome::Reported { saved: true, .. })));
    let replayed = day_beside(|place, board, page| feed(board, &day()[place % 9].0, page));
    assert_eq!(replayed, alone);
    let larger = numbered(u32::MAX, code::GYROSCOPE, function::USE, 2);
    assert_eq!(day_beside(|_, board, page| feed(board, &larger, page)), alone);
    let save = [hex("A5A502FF"), command(function::SAVE, &[(code::BAUD, 0)])].concat();
    let silent = day_beside(|_, board, page| {
        feed(board, &save, page);
        let outcome = board.silence(1, &mut [0; Board::REPLY], page);
        assert!(matches!(outcome, Ok(Outcome::Reported { error: Some(ReplyError::NotAllowed), saved: false, .. })));
    });
    assert_eq!(silent, alone);
    let full = day_beside(|_, board, page| {
        board.readonly = false;
        feed(board, &larger, page);
    });
    assert_ne!(full, alone);
}

/// A refused feed or silence leaves board, room and page as they were, and counts nothing. Totals are never what is refused.
#[test]
fn refused_feeds_and_silences() {
    let tally0 = Tally { taken: 3, skipped: 2, good: 1, errors: [9; 8] };
    let sound = Board { tally0, tally1: ALL_STOPPED, ..fresh().0 };
    let mut unsound = sound;
    unsound.second.held = 261;
    let with_range = |gyroscope| Board { settings: Settings { gyroscope, ..sound.settings }, ..sound };
    let cases = [
        (2, unsound, 165, 63, Refusal::Port),
        (0, unsound, 165, 63, Refusal::Unsound),
        (1, with_range(6), 165, 63, Refusal::Unsound),
        (0, with_range(7), 166, 64, Refusal::Unsound),
        (1, with_range(8), 165, 63, Refusal::Unsound),
        (0, with_range(5), 166, 64, Refusal::Page),
        (0, sound, 16, 63, Refusal::Room),
        (0, sound, 165, 63, Refusal::Room),
        (0, sound, 166, 63, Refusal::PageLength),
        (0, sound, 166, 65, Refusal::PageLength),
        (0, sound, 166, 64, Refusal::Page),
    ];
    for (port, given, room, page, refusal) in cases {
        let mut board = given;
        let (mut room, mut page) = (vec![0x11; room], vec![0x22; page]);
        assert_eq!(board.feed(port, &hex(PING), &mut room, &mut page), Err(refusal));
        assert_eq!(board.silence(port, &mut room, &mut page), Err(refusal));
        assert_eq!(board, given);
        assert!(room.iter().all(|&byte| byte == 0x11) && page.iter().all(|&byte| byte == 0x22));
    }
}

/// A read-only board, and the driver's own record of each port beside it.
struct Counted {
    board: Board,
    page: [u8; PAGE],
    own: [Tally; 2],
}

impl Counted {
    fn start() -> Counted {
        let board = Board::start(Profile::ReadOnly, &BLANK).unwrap();
        Counted { board, page: BLANK, own: [Tally::new(); 2] }
    }

    fn held(&self, port: u8) -> usize {
        [self.board.first.held, self.board.second.held][usize::from(port)]
    }

    /// Counts a call in the driver's record of its port. Afterwards both records equal the board's totals, and of each port the
    /// bytes taken are the good ones, the skipped ones and those held.
    fn call(
        &mut self,
        port: u8,
        call: impl FnOnce(&mut Board, &mut [u8]) -> Result<Outcome, Refusal>,
    ) -> Result<Outcome, Refusal> {
        let before = self.held(port);
        let answer = call(&mut self.board, &mut self.page);
        self.own[usize::from(port)].count(&answer, before, self.held(port));
        for port in [0, 1] {
            let totals = self.board.tally(port).unwrap();
            assert_eq!(totals, &self.own[usize::from(port)], "port {port} after {answer:?}");
            assert_eq!(totals.taken, totals.good + totals.skipped + self.held(port) as u64);
        }
        answer
    }

    /// Feeds a piece until it is used up, after a feed that is refused.
    fn feed(&mut self, port: u8, mut piece: &[u8]) {
        let refused = self.call(port, |board, page| board.feed(port, piece, &mut [0; Board::REPLY - 1], page));
        assert_eq!(refused, Err(Refusal::Room));
        let mut room = [0; Board::REPLY];
        while let Outcome::Reported { taken, error, .. } =
            self.call(port, |board, page| board.feed(port, piece, &mut room, page)).unwrap()
        {
            piece = &piece[taken..];
            assert_eq!(room[7], number(error));
        }
    }

    /// Reads what a port holds to its end.
    fn silence(&mut self, port: u8) {
        let mut room = [0; Board::REPLY];
        while let Outcome::Reported { .. } =
            self.call(port, |board, page| board.silence(port, &mut room, page)).unwrap()
        {}
        assert_eq!(self.held(port), 0);
    }
}

/// What comes on port 0 of a read-only board: each error from 0 to 6, commands of two fields, of which the first counts, noise,
/// and a Ping behind a false header.
fn line_0() -> Vec<u8> {
    let two = ["08020108 080102", "080102 08020108"].map(|fields| message(0x02, &hex(fields)));
    [
        hex(&format!("A5 {PING} 000102 A5A5010202004F24 A5A503020200512D A5A501004B85")),
        two.concat(),
        message(0x02, &hex("08020106")),
        numbered(1, code::GYROSCOPE, function::USE, 5).repeat(2),
        command(function::SAVE, &[(code::GYROSCOPE, 0)]),
        hex(&format!("A5A501FF {PING} A5A50102")),
    ]
    .concat()
}

/// What comes on port 1: two commands that it may not use, a report, and a Ping that is cut off.
fn line_1() -> Vec<u8> {
    [
        command(function::SAVE, &[(code::BAUD, 0)]),
        numbered(7, code::PING, 0, 0),
        command(function::REPORT, &[(code::BAUD, 0)]),
        hex("FF A5A5010202"),
    ]
    .concat()
}

/// However the lines are cut, the totals at the end are the same. A driver's own records equal them after each call, refused
/// ones among them.
#[test]
fn totals_of_lines() {
    let lines = [line_0(), line_1()];
    for size in 1..=lines[0].len() {
        let mut counted = Counted::start();
        for place in (0..lines[0].len()).step_by(size) {
            for (port, line) in (0..).zip(&lines) {
                counted.feed(port, line.chunks(size).nth(place / size).unwrap_or(&[]));
            }
        }
        counted.silence(0);
        counted.silence(1);
        let tally0 = Tally { taken: 125, skipped: 20, good: 105, errors: [4, 1, 1, 1, 1, 2, 1, 0] };
        let tally1 = Tally { taken: 37, skipped: 6, good: 31, errors: [1, 0, 0, 0, 0, 0, 0, 2] };
        assert_eq!((counted.board.tally0, counted.board.tally1), (tally0, tally1), "pieces of {size}");
    }
}

/// A start gives zeros, each port has totals of its own, and there are none of another port.
#[test]
fn totals_of_ports() {
    let (mut board, mut page) = fresh();
    assert_eq!((board.tally(0), board.tally(1)), (Some(&Tally::new()), Some(&Tally::default())));
    for (port, taken) in [(0, 1), (1, 2)] {
        let outcome = board.feed(port, &[0; 2][..taken], &mut [0; Board::REPLY], &mut page);
        assert_eq!(outcome, Ok(Outcome::UsedUp { taken, skipped: taken }));
    }
    assert_eq!((board.tally0.taken, board.tally1.taken), (1, 2));
    assert_eq!((board.tally(0), board.tally(1)), (Some(&board.tally0), Some(&board.tally1)));
    assert!((2..=255).all(|port| board.tally(port).is_none()));
}

/// Each total stops at its largest figure, for itself, in the board and in a driver's record. A board with any totals is fed.
#[test]
fn totals_stop() {
    const MOST: u64 = u64::MAX;
    let tally = |taken, skipped, good, first| Tally { taken, skipped, good, errors: [first, 1, 2, 3, 4, 5, 6, 7] };
    for (given, expected) in [
        (tally(0, 0, 0, 0), tally(10, 2, 8, 1)),
        (tally(MOST - 10, MOST - 2, MOST - 8, MOST - 1), tally(MOST, MOST, MOST, MOST)),
        (tally(MOST - 9, 5, 5, 5), tally(MOST, 7, 13, 6)),
        (tally(5, MOST - 1, 5, 5), tally(15, MOST, 13, 6)),
        (tally(5, 5, MOST - 7, 5), tally(15, 7, MOST, 6)),
        (tally(5, 5, 5, MOST), tally(15, 7, 13, MOST)),
        (ALL_STOPPED, ALL_STOPPED),
    ] {
        let (sound, mut page) = fresh();
        let with = |port, tally| match port {
            0 => Board { tally0: tally, tally1: given, ..sound },
            _ => Board { tally0: given, tally1: tally, ..sound },
        };
        for port in [0, 1] {
            let (mut board, mut own) = (with(port, given), given);
            let answer = board.feed(port, &hex(&format!("0000 {PING}")), &mut [0; Board::REPLY], &mut page);
            own.count(&answer, 0, 0);
            assert_eq!((own, board), (expected, with(port, expected)), "{given:?}");
        }
    }
}

/// A driver's record takes any arguments: the good bytes are at least 0 and do not wrap, number 0 alone counts an error, none above
/// 7, and numbers above 1 change nothing.
#[test]
fn any_calls_are_counted() {
    const MOST: usize = usize::MAX;
    let tally = |taken, skipped, good, errors| Tally { taken, skipped, good, errors };
    let none = [0; 8];
    for ((number, taken, skipped, error), (before, after), expected) in [
        ((0, 8, 0, 0), (0, 0), tally(8, 0, 8, one(0))),
        ((0, 3, 1, 7), (6, 0), tally(3, 1, 8, one(7))),
        ((0, 3, 1, 8), (6, 0), tally(3, 1, 8, none)),
        ((0, 3, 1, 255), (6, 0), tally(3, 1, 8, none)),
        ((1, 3, 1, 7), (6, 0), tally(3, 1, 8, none)),
        ((1, 0, 4, 0), (4, 0), tally(0, 4, 0, none)),
        ((1, 0, 5, 0), (4, 0), tally(0, 5, 0, none)),
        ((0, 1, 0, 1), (0, MOST), tally(1, 0, 0, one(1))),
        ((0, 0, 0, 2), (MOST, 0), tally(0, 0, u64::MAX, one(2))),
        ((1, MOST, MOST, 0), (MOST, MOST), tally(u64::MAX, u64::MAX, 0, none)),
        ((1, MOST, 3, 0), (MOST, MOST), tally(u64::MAX, 3, u64::MAX - 3, none)),
        ((1, MOST, 0, 0), (MOST, 0), tally(u64::MAX, 0, u64::MAX, none)),
        ((2, 8, 1, 0), (9, 0), Tally::new()),
        ((16, 8, 1, 0), (9, 0), Tally::new()),
        ((255, MOST, MOST, 7), (MOST, 0), Tally::new()),
    ] {
        let mut own = Tally::new();
        own.count_call(number, taken, skipped, error, before, after);
        assert_eq!(own, expected, "{number} {taken} {skipped} {error}, held {before} and {after}");
    }
}

/// A refused call counts nothing in a driver's record, whatever it held.
#[test]
fn refusals_are_not_counted() {
    let given = Tally { taken: 3, skipped: 2, good: 1, errors: [9; 8] };
    for refusal in Refusal::ALL {
        let mut own = given;
        own.count(&Err(refusal), 260, 0);
        assert_eq!(own, given);
    }
}

/// The totals are lent as a row of numbers. One that is not 11 long is refused as an unsound board, and left alone.
#[test]
fn rows_of_totals() {
    let settings = fresh().0.settings;
    for (length, quiet) in [0, 1, 10, 11, 12, 300].into_iter().flat_map(|length| [(length, false), (length, true)]) {
        let (mut bytes, mut page, mut room) = ([0; Port::ROOM], BLANK, [0; Board::REPLY]);
        let (held, chunk) = if quiet { (8, vec![]) } else { (0, hex(PING)) };
        bytes[..held].copy_from_slice(&hex(PING)[..held]);
        let mut totals = vec![7; length];
        let (bytes, chunk, room, page) = (&mut bytes, &chunk, &mut room, &mut page);
        let stepped = ffi::call_in_place(1, bytes, 0, held, settings, false, quiet, &mut totals, chunk, room, page);
        let (number, expected) = match length {
            ffi::TOTALS => (0, vec![7 + chunk.len() as u64, 7, 15, 8, 7, 7, 7, 7, 7, 7, 7]),
            _ => (17, vec![7; length]),
        };
        assert_eq!((stepped.number, stepped.error, totals), (number, 0, expected), "{length}");
        assert_eq!(stepped.held, if number == 0 { 0 } else { held });
    }
}

#[test]
fn refusals_of_the_other_calls() {
    let mut room = [0; 300];
    assert_eq!(Board::start(Profile::Full, &BLANK[1..]), Err(Refusal::PageLength));
    assert_eq!(check_page(&[0; 64]), Err(Refusal::Page));
    assert_eq!(check_message(&hex("A5A5010202004F")), Err(Refusal::NotWhole));
    assert_eq!(check_message(&hex("A5A5010202004F24")), Err(Refusal::Sums));
    assert_eq!(read_reply(&hex("A5A5010202004F25"), 0), Err(Refusal::Kind));
    assert_eq!(read_reply(&hex("A5A5010480020200D3CF"), 1), Err(Refusal::NoField));
    assert_eq!(read_rows(&hex("A5A5010202004F25")).err(), Some(Refusal::Kind));
    assert_eq!(read_field(&hex("A5A5010202004F25"), 0), Err(Refusal::Kind));
    assert_eq!(write_message(0xA2, &[0; 256], &mut room), Err(Refusal::Payload));
    assert_eq!(write_command(code::PING, 0, 0, &mut room[..7]), Err(Refusal::Room));
    assert_eq!(write_command(code::BAUD, function::USE, 57600, &mut room), Err(Refusal::Command));
    assert_eq!(write_numbered(1, code::BAUD, function::USE, 57600, &mut []), Err(Refusal::Command));
    assert_eq!(write_numbered(1, code::PING, 0, 0, &mut room[..12]), Err(Refusal::Room));
    assert_eq!(write_numbered(1, code::PING, 0, 0, &mut room[..13]), Ok(13));
    assert_eq!(append_field(0x01, code::BAUD, function::REPORT, 0, 0, &mut room), Err(Refusal::Command));
    assert_eq!(append_field(NUMBERED, code::BAUD, function::REPORT, 0, 5, &mut room), Err(Refusal::Command));
    assert_eq!(append_field(0x02, code::BAUD, function::REPORT, 0, 298, &mut room), Err(Refusal::Room));
    assert_eq!(append_field(0x02, code::BAUD, function::REPORT, 0, usize::MAX, &mut room), Err(Refusal::Room));
    assert_eq!(write_data([0.0; 3], [0.0; 3], &mut room[..33]), Err(Refusal::Room));
    let data = |payload: &[u8]| {
        let mut room = [0; 300];
        let length = write_message(0xA2, payload, &mut room).unwrap();
        room[..length].to_vec()
    };
    assert_eq!(read_field(&data(&[0x10, 2, 0]), 0), Err(Refusal::Fields));
    assert_eq!(read_field(&data(&[0x10, 0, 0x81, 1, 0]), 0), Err(Refusal::FieldSize));
    assert_eq!(field_range(&data(&[0x10, 0, 0x81, 1, 0]), 0), Err(Refusal::FieldSize));
    assert_eq!(field_range(&data(&[0x10, 0]), 1), Err(Refusal::NoField));
    assert_eq!(field_data(&data(&[0x10, 0]), 1), Err(Refusal::NoField));
    assert_eq!(field_data(&data(&[]), usize::MAX), Err(Refusal::NoField));
}

/// The values of a page, and the bodies under its codes, are read from blank and sound pages alone.
#[test]
fn refused_pages() {
    let factory = factory_page();
    let mut unsound = factory;
    unsound[14] = 5;
    assert_eq!(Values::read(&BLANK), Ok(Values::default()));
    assert_eq!(Values::read(&unsound), Err(Refusal::Page));
    for length in [0, 63, 65] {
        assert_eq!(Values::read(&vec![0xFF; length]), Err(Refusal::PageLength));
    }
    // The saved page is tested before the factory page, both before the room, and the room is left alone.
    type Case<'a> = (&'a [u8], &'a [u8], usize, Result<usize, Refusal>);
    let cases: [Case; 7] = [
        (&BLANK[1..], &unsound, 0, Err(Refusal::PageLength)),
        (&unsound, &BLANK[1..], 0, Err(Refusal::Page)),
        (&BLANK, &BLANK[1..], 0, Err(Refusal::PageLength)),
        (&factory, &unsound, 1, Err(Refusal::Page)),
        (&BLANK, &factory, 0, Err(Refusal::Room)),
        (&BLANK, &factory, 1, Ok(1)),
        (&BLANK, &BLANK, 0, Ok(0)),
    ];
    for (saved, factory, length, expected) in cases {
        let mut room = vec![0x11; length];
        assert_eq!(copy_body(saved, factory, code::ACCELEROMETER, &mut room), expected);
        assert_eq!(room, if expected == Ok(1) { vec![2] } else { vec![0x11; length] });
    }
}

#[test]
fn refusals_have_their_numbers() {
    for (number, refusal) in (16..).zip(Refusal::ALL) {
        assert_eq!(refusal.number(), number);
        assert_eq!(Refusal::from_number(number), Some(refusal));
    }
    let others = (0..16).chain(29..=255);
    assert!(others.into_iter().all(|number| Refusal::from_number(number).is_none()));
}

/// The errors of a reply by number, name and text. A row with a number above 7 is no reply.
#[test]
fn reply_errors_have_their_numbers() {
    let errors = [
        (ReplyError::Checksum, "sums wrong (1)"),
        (ReplyError::MessageType, "no such type (2)"),
        (ReplyError::MessageCode, "no such code, or no field (3)"),
        (ReplyError::Parameter, "wrong size, function or value, or fields that do not fit (4)"),
        (ReplyError::Number, "number not fresh, or missing (5)"),
        (ReplyError::Unsupported, "not on this board (6)"),
        (ReplyError::NotAllowed, "not allowed on this port (7)"),
    ];
    assert_eq!(errors.map(|(error, _)| error), ReplyError::ALL);
    for (number, (error, text)) in (1..).zip(errors) {
        assert_eq!((error.number(), ReplyError::from_number(number)), (number, Some(error)));
        let boxed: Box<dyn std::error::Error> = error.into();
        assert_eq!(boxed.to_string(), text);
        let read = read_reply(&message(0x02, &[0x80, 2, 7, number]), 0).unwrap();
        assert_eq!((read.error, read.result()), (Some(error), Err(error)));
    }
    let read = read_reply(&message(0x02, &[0x80, 2, 7, 0, 7, 1, 4]), 0).unwrap();
    assert_eq!((read.error, read.result()), (None, Ok(Some(4))));
    for number in 8..=255 {
        assert_eq!(ReplyError::from_number(number), None);
        assert_eq!(read_reply(&message(0x02, &[0x80, 2, 7, number]), 0), Err(Refusal::Kind));
    }
}

/// A field of the longest size, and one behind it.
#[test]
fn part_of_the_message() {
    let mut payload = vec![0x10, 251];
    payload.extend(0..251u8);
    payload.extend([0x11, 0]);
    let mut room = [0; 261];
    assert_eq!(write_message(0xA2, &payload, &mut room), Ok(261));
    assert_eq!(field_data(&room, 0).unwrap(), (0..251).collect::<Vec<u8>>());
    assert_eq!(field_data(&room, 0).unwrap().as_ptr(), room[6..].as_ptr());
    assert_eq!(field_data(&room, 1), Ok(&[][..]));
    assert_eq!((field_range(&room, 0), field_range(&room, 1)), (Ok(6..257), Ok(259..259)));

    // One field alone fills the longest payload.
    payload[1] = 253;
    assert_eq!(write_message(0xA2, &payload, &mut room), Ok(261));
    assert_eq!((field_range(&room, 0), field_range(&room, 1)), (Ok(6..259), Err(Refusal::NoField)));
}

/// The place and size of fields of each kind, by the library's own answer.
#[test]
fn places_of_fields() {
    let axes = "3F800000 40000000 40400000";
    let bytes = message(0xA2, &hex(&format!("8600 810C {axes} 8602ABCD 820C {axes}")));
    let ranges: Vec<_> = (0..4).map(|k| field_range(&bytes, k).unwrap()).collect();
    assert_eq!(ranges, [6..6, 8..20, 22..24, 26..38]);
    for (k, range) in ranges.into_iter().enumerate() {
        assert_eq!(field_data(&bytes, k), Ok(&bytes[range]));
    }
    let unknown = Field::Unknown { code: 0x86, place: 22 };
    assert_eq!((read_field(&bytes, 2), field_range(&bytes, 4)), (Ok(unknown), Err(Refusal::NoField)));
}

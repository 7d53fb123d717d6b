//! Request 13 (02-13.1 to 02-13.7): the totals of each port, on the feed and on the plain reckoning at once, and the driver's own
//! record of them. What is expected is worked out from the papers by hand.

mod common;

use common::{hex, rows, Both, P1, P2};
use plain::generate::counting::{self, Turn, Wrong};
use plain::generate::numbered::numbered;
use plain::generate::{self, silences, Rng, Step};
use plain::*;

const P1_DAMAGED: &str = "A5A5010202004F24";
const TYPE_03: &str = "A5A503020200512D";
const LARGEST: u64 = u64::MAX;

/// Totals of bytes taken, skipped and of good messages, and of messages by their errors.
fn tally(taken: u64, skipped: u64, good: u64, errors: [u64; 8]) -> Tally {
    Tally { taken, skipped, good, errors }
}

/// No message with any error, but so many with these.
fn errors(of: &[(usize, u64)]) -> [u64; 8] {
    let mut errors = [0; 8];
    of.iter().for_each(|&(error, times)| errors[error] = times);
    errors
}

const NONE: Tally = Tally { taken: 0, skipped: 0, good: 0, errors: [0; 8] };

/// 02-13.2: each of the totals, after each call, on the port that it was of; the other port's stay.
#[test]
fn each_call_by_hand() {
    for port in [0, 1] {
        let (named, other) = (usize::from(port), 1 - usize::from(port));
        let mut both = Both::blank();
        assert_eq!(both.board.tallies, [NONE; 2]);
        let steps: [(&str, u8, Tally); 8] = [
            // A Ping, whole.
            (P1, 0, tally(8, 0, 8, errors(&[(0, 1)]))),
            // Three bytes of junk: skipped, and nothing is reported.
            ("001122", 0, tally(11, 3, 8, errors(&[(0, 1)]))),
            // A damaged Ping: its first byte is skipped, seven are held, and none of them is a good message's.
            (P1_DAMAGED, 1, tally(19, 4, 8, errors(&[(0, 1), (1, 1)]))),
            // They are skipped by the next feed.
            ("", 0, tally(19, 11, 8, errors(&[(0, 1), (1, 1)]))),
            // A message of type 03 is a good one, with error 2.
            (TYPE_03, 2, tally(27, 11, 16, errors(&[(0, 1), (1, 1), (2, 1)]))),
            // A part of a message is held, and no part of a good message yet.
            ("A5A501", 0, tally(30, 11, 16, errors(&[(0, 1), (1, 1), (2, 1)]))),
            ("0202004F25", 0, tally(35, 11, 24, errors(&[(0, 2), (1, 1), (2, 1)]))),
            // Junk, a Ping, and bytes behind it, which are not taken.
            ("77A5A5010202004F25A5A5", 0, tally(44, 12, 32, errors(&[(0, 3), (1, 1), (2, 1)]))),
        ];
        for (bytes, error, expected) in steps {
            let answer = both.feed(port, &hex(bytes));
            assert_eq!((answer.error, both.board.tallies[named]), (error, expected), "{bytes}");
            assert_eq!(both.board.tallies[other], NONE);
        }
    }
}

/// A message with each error, as the first row of its reply has it; the sum of the messages is the sum of the errors.
#[test]
fn each_error() {
    let mut both = Both::start(Profile::ReadOnly, &[0xFF; 64]);
    let number = numbered(7, 0x02, &hex("080103"));
    let messages = [
        (0, hex(P1), 0),
        (0, message(0x03, &[]), 2),
        (0, message(0x02, &hex("6300")), 3),
        (0, message(0x01, &[]), 3),
        (0, message(0x02, &hex("0700")), 4),
        (0, message(0x02, &hex("08020107")), 6),
        (0, number.clone(), 0),
        // A number that is stale, and a command without one where it needs one.
        (0, number.clone(), 5),
        (0, hex(P2), 5),
        // On port 1 of a read-only board.
        (1, number, 7),
        (1, hex(P2), 7),
        (1, hex(P1), 0),
    ];
    for (port, bytes, error) in &messages {
        let answer = common::fed(&mut both, *port, bytes);
        assert_eq!((answer.error, rows(&answer.reply)[0].1), (*error, *error), "{bytes:02X?}");
    }
    let lengths = |port: u8| messages.iter().filter(|message| message.0 == port).map(|message| message.1.len()).sum();
    let [first, second] = [lengths(0), lengths(1)].map(|sum: usize| sum as u64);
    let expected = [
        tally(first, 0, first, errors(&[(0, 2), (2, 1), (3, 2), (4, 1), (5, 2), (6, 1)])),
        tally(second, 0, second, errors(&[(0, 1), (7, 2)])),
    ];
    assert_eq!(both.board.tallies, expected);
    // The longest message, and the longest that is damaged: 260 of its bytes are held, and none is good.
    common::fed(&mut both, 1, &message(0xA2, &[0x11; 255]));
    assert_eq!(both.board.tallies[1], tally(second + 261, 0, second + 261, errors(&[(0, 1), (2, 1), (7, 2)])));
    let mut damaged = message(0xA2, &[0x11; 255]);
    damaged[260] ^= 1;
    assert_eq!((both.feed(1, &damaged).error, both.held(1)), (1, 260));
    assert_eq!(both.board.tallies[1], tally(second + 522, 1, second + 261, errors(&[(0, 1), (1, 1), (2, 1), (7, 2)])));
}

/// "messages by the first error number in the reply": of a command of several fields the first row's counts, and it alone,
/// whatever the others are.
#[test]
fn the_first_row_counts() {
    for (payload, all, first) in [
        ("080102 6300", vec![0, 3], 0),
        ("6300 080102", vec![3, 0], 3),
        ("0700 08020107 080102", vec![4, 6, 0], 4),
        ("08020107 0700", vec![6, 4], 6),
        ("080102 080102 0700", vec![0, 0, 4], 0),
    ] {
        let mut both = Both::blank();
        let bytes = message(0x02, &hex(payload));
        let answer = common::fed(&mut both, 0, &bytes);
        assert_eq!(rows(&answer.reply).iter().map(|row| row.1).collect::<Vec<_>>(), all, "{payload}");
        let length = bytes.len() as u64;
        assert_eq!(both.board.tallies, [tally(length, 0, length, errors(&[(usize::from(first), 1)])), NONE]);
        assert_eq!(answer.error, first);
    }
    // The rows of a numbered command are its inner fields'.
    let mut both = Both::blank();
    assert_eq!(common::fed(&mut both, 1, &numbered(1, 0x02, &hex("0700 080102"))).error, 4);
    assert_eq!(both.board.tallies[1].errors, errors(&[(4, 1)]));
}

/// A silence takes nothing: what it skips and reports is counted as a feed's.
#[test]
fn silences_are_counted() {
    let mut both = Both::blank();
    let held = [hex("A5A501FF"), hex(P1), hex(P1_DAMAGED), hex("A5A5")].concat();
    assert_eq!(both.feed(1, &held).number, 1);
    assert_eq!(both.board.tallies, [NONE, tally(22, 0, 0, [0; 8])]);
    let expected = [
        (0, tally(22, 4, 8, errors(&[(0, 1)]))),
        (1, tally(22, 5, 8, errors(&[(0, 1), (1, 1)]))),
        (0, tally(22, 14, 8, errors(&[(0, 1), (1, 1)]))),
        (0, tally(22, 14, 8, errors(&[(0, 1), (1, 1)]))),
    ];
    for (error, totals) in expected {
        assert_eq!((both.silence(1).error, both.board.tallies), (error, [NONE, totals]));
    }
}

/// A feed or a silence that is refused, with each number, changes no total and tells no error: its answer does not have the
/// error of a call before it.
#[test]
fn refused_calls_count_nothing() {
    let (_, mut board) = start(Profile::Full, &[0xFF; 64]);
    board.tallies = [tally(1, 2, 3, [4; 8]), tally(LARGEST, 5, 0, [LARGEST; 8])];
    let reported = feed(0, &board, &hex(TYPE_03), &mut [0; 166], &mut [0xFF; 64]);
    assert_eq!((reported.number, reported.error), (0, 2));
    board = reported.board;
    for (port, room, wrong, number) in [
        (2, 166, None, 16),
        (255, 0, None, 16),
        (0, 166, Some(Wrong::Held(0)), 17),
        (0, 166, Some(Wrong::Held(1)), 17),
        (1, 166, Some(Wrong::Setting), 17),
        (0, 165, None, 18),
        (1, 0, None, 18),
        (1, 166, Some(Wrong::PageLength), 19),
        (0, 166, Some(Wrong::Page), 20),
    ] {
        let given = wrong.map_or(board, |wrong| wrong.board(&board));
        let page = wrong.map_or(vec![0xFF; 64], |wrong| wrong.page(&[0xFF; 64]));
        let expected = Fed { number, taken: 0, skipped: 0, error: 0, saved: false, board: given };
        assert_eq!(feed(port, &given, &hex(P1), &mut vec![0; room], &mut page.clone()), expected);
        assert_eq!(silence(port, &given, &mut vec![0; room], &mut page.clone()), expected);
    }
    // An accepted feed that reports nothing tells no error either.
    let used_up = feed(0, &board, &hex("00"), &mut [0; 166], &mut [0xFF; 64]);
    assert_eq!((used_up.number, used_up.error), (1, 0));
}

/// The reckoning refuses with 16 and 18, and counts nothing.
#[test]
fn the_reckoning_counts_no_refusal() {
    let mut both = Both::blank();
    both.feed(0, &hex(TYPE_03));
    for (port, room) in [(2, 166), (0, 165), (1, 0)] {
        let answer = both.try_feed(port, &hex(P1), room).unwrap();
        assert_eq!((answer.number, answer.error), (if port == 2 { 16 } else { 18 }, 0));
        both.try_silence(port, room).unwrap();
        both.compare_state().unwrap();
    }
    assert_eq!(both.board.tallies, [tally(8, 0, 8, errors(&[(2, 1)])), NONE]);
}

/// "since start": a start, a restart and a start that is refused give zeros for both ports, whatever was counted before.
#[test]
fn starts_count_from_zero() {
    for profile in Profile::ALL {
        for (page, number) in [(vec![0xFF; 64], 0), (vec![0xFF; 63], 19), (vec![0; 64], 20)] {
            let (answered, board) = start(profile, &page);
            assert_eq!((answered, board.tallies), (number, [NONE; 2]));
        }
    }
    let mut both = Both::blank();
    both.feed(0, &hex(P1));
    both.feed(1, &hex(P1)[..4]);
    assert_ne!(both.board.tallies, [NONE; 2]);
    both.restart();
    assert_eq!(both.board.tallies, [NONE; 2]);
    both.feed(1, &hex(P1)[4..]);
    assert_eq!(both.board.tallies, [NONE, tally(4, 4, 0, [0; 8])]);
}

/// 02-13.3: "Until a total reaches its largest figure, where it stops": each by itself, and from each figure about it.
#[test]
fn totals_stop() {
    let fed = |tallies: [Tally; 2], bytes: &[u8]| {
        let board = Board { tallies, ..start(Profile::Full, &[0xFF; 64]).1 };
        feed(0, &board, bytes, &mut [0; 166], &mut [0xFF; 64]).board.tallies
    };
    // A byte of junk, then a Ping: 9 taken, 1 skipped, 8 of a good message.
    let bytes = hex("77A5A5010202004F25");
    for less in 0..12u64 {
        let totals = tally(LARGEST - less, LARGEST - less, LARGEST - less, [LARGEST - less; 8]);
        let mut expected = tally(
            LARGEST - less.saturating_sub(9),
            LARGEST - less.saturating_sub(1),
            LARGEST - less.saturating_sub(8),
            totals.errors,
        );
        expected.errors[0] = LARGEST - less.saturating_sub(1);
        assert_eq!(fed([totals; 2], &bytes), [expected, totals]);
    }
    // One total stops and the others go on.
    let other = tally(5, 6, LARGEST - 1, errors(&[(0, LARGEST)]));
    assert_eq!(fed([other, NONE], &bytes), [tally(14, 7, LARGEST, errors(&[(0, LARGEST)])), NONE]);
    assert_eq!(fed([other, NONE], &hex(TYPE_03)), [tally(13, 6, LARGEST, errors(&[(0, LARGEST), (2, 1)])), NONE]);
}

/// Any totals are sound: a board with any is accepted, and they have no part in what is answered.
#[test]
fn any_totals_are_sound() {
    let mut rng = Rng::new(0x1300);
    for _ in 0..20_000 {
        let board = generate::sound_board(&mut rng);
        let none = Board { tallies: [NONE; 2], ..board };
        let chunk = generate::stream(&mut rng, 2);
        let port = rng.below(2) as u8;
        let (mut rooms, mut pages) = ([[0x5C; 166]; 2], [generate::sound_page(&mut rng); 2]);
        pages[1] = pages[0];
        let [one, other] = [(board, 0), (none, 1)].map(|(board, at)| {
            let fed = feed(port, &board, &chunk, &mut rooms[at], &mut pages[at]);
            Fed { board: common::uncounted(&fed.board), ..fed }
        });
        assert!(number::accepted(one.number));
        assert_eq!((one, rooms[0], pages[0]), (other, rooms[1], pages[1]));
    }
}

/// The law by hand: it holds of right totals, is broken by one byte, and asks nothing once a total has stopped.
#[test]
fn sums_of_totals() {
    assert!(adds_up(&NONE, 0) && !adds_up(&NONE, 1));
    assert!(adds_up(&tally(19, 4, 8, [9; 8]), 7));
    for wrong in [tally(18, 4, 8, [9; 8]), tally(19, 5, 8, [9; 8]), tally(19, 4, 7, [9; 8])] {
        assert!(!adds_up(&wrong, 7));
    }
    let near = tally(LARGEST - 1, LARGEST - 9, 8, [0; 8]);
    assert!(adds_up(&near, 0) && !adds_up(&near, 1));
    assert!(!adds_up(&tally(0, LARGEST - 1, LARGEST - 1, [0; 8]), 4));
    for stopped in [tally(LARGEST, 4, 8, [0; 8]), tally(0, LARGEST, 8, [0; 8]), tally(3, 4, LARGEST, [0; 8])] {
        assert!(adds_up(&stopped, 7));
    }
}

// The driver's own record.

/// What the record is told of a call that answered 0 with no error, and of which each byte is of a good message.
const PING: Told = Told { number: 0, taken: 8, skipped: 0, error: 0, before: 0, after: 0 };

/// 02-13.4, 02-13.5, by hand.
#[test]
fn the_record_by_hand() {
    let cases = [
        (PING, tally(8, 0, 8, errors(&[(0, 1)]))),
        // A damaged Ping: eight taken, one skipped, seven held afterwards.
        (Told { skipped: 1, error: 1, after: 7, ..PING }, tally(8, 1, 0, errors(&[(1, 1)]))),
        // Out of what was held: behind four skipped bytes a Ping, and three more bytes.
        (Told { taken: 0, skipped: 4, before: 15, after: 3, ..PING }, tally(0, 4, 8, errors(&[(0, 1)]))),
        // "Only number 0 counts an error".
        (Told { number: 1, skipped: 5, error: 3, after: 3, ..PING }, tally(8, 5, 0, [0; 8])),
        // "none above 7".
        (Told { error: 7, ..PING }, tally(8, 0, 8, errors(&[(7, 1)]))),
        (Told { error: 8, ..PING }, tally(8, 0, 8, [0; 8])),
        (Told { error: 255, ..PING }, tally(8, 0, 8, [0; 8])),
        // "at least 0".
        (Told { skipped: 8, after: 1, ..PING }, tally(8, 8, 0, errors(&[(0, 1)]))),
        (Told { taken: 0, after: 260, ..PING }, tally(0, 0, 0, errors(&[(0, 1)]))),
        (Told { number: 1, taken: 3, before: 2, after: 1, ..PING }, tally(3, 0, 4, [0; 8])),
    ];
    for (told, expected) in cases {
        assert_eq!(record(&NONE, &told), expected, "{told:?}");
    }
    // "numbers above 1 change nothing."
    for number in 2..=255 {
        for totals in [NONE, tally(1, 2, 3, [4; 8]), tally(LARGEST, LARGEST, LARGEST, [LARGEST; 8])] {
            assert_eq!(record(&totals, &Told { number, error: number % 9, ..PING }), totals);
        }
    }
}

/// The largest counts: sums over whole numbers, which neither wrap nor stop before the total does.
#[test]
fn the_record_of_large_counts() {
    let most = usize::MAX;
    let cases = [
        (Told { taken: most, ..PING }, tally(LARGEST, 0, LARGEST, errors(&[(0, 1)]))),
        // Twice as much as fits, less nearly as much: all but one byte are good.
        (Told { taken: most, before: most, skipped: most, after: 1, ..PING }, {
            tally(LARGEST, LARGEST, LARGEST - 1, errors(&[(0, 1)]))
        }),
        (Told { taken: most, before: most, skipped: most, after: most, ..PING }, {
            tally(LARGEST, LARGEST, 0, errors(&[(0, 1)]))
        }),
        // The good bytes are more than a total can say.
        (Told { taken: 8, before: most, ..PING }, tally(8, 0, LARGEST, errors(&[(0, 1)]))),
        // Far below 0.
        (Told { taken: 0, skipped: most, after: most, ..PING }, tally(0, LARGEST, 0, errors(&[(0, 1)]))),
        (Told { taken: 1, skipped: most, after: 0, ..PING }, tally(1, LARGEST, 0, errors(&[(0, 1)]))),
    ];
    for (told, expected) in cases {
        assert_eq!(record(&NONE, &told), expected, "{told:?}");
    }
    // On totals about their largest figure.
    for less in 0..12 {
        let totals = tally(LARGEST - less, LARGEST - less, LARGEST - less, [LARGEST - less; 8]);
        let told = Told { skipped: 2, before: 2, error: 7, ..PING };
        let stop = |more: u64| LARGEST - less.saturating_sub(more);
        let mut expected = tally(stop(8), stop(2), stop(8), totals.errors);
        expected.errors[7] = stop(1);
        assert_eq!(record(&totals, &told), expected);
        let all = Told { taken: most, skipped: 0, before: most, ..PING };
        let mut expected = tally(LARGEST, LARGEST - less, LARGEST, totals.errors);
        expected.errors[0] = stop(1);
        assert_eq!(record(&totals, &all), expected);
    }
}

/// In another way, with sums that are known not to wrap: where all counts are small, and the totals not near their largest
/// figure; and nothing but the named totals changes, by at most what was told.
#[test]
fn the_record_of_any_arguments() {
    let mut rng = Rng::new(0x1304);
    let mut stopped = 0;
    for _ in 0..200_000 {
        let (totals, told) = (generate::tally(&mut rng), counting::told(&mut rng));
        let after = record(&totals, &told);
        let grown = [(totals.taken, after.taken, told.taken), (totals.skipped, after.skipped, told.skipped)];
        for (before, after, more) in grown {
            let more = if told.number > 1 { 0 } else { more as u64 };
            assert_eq!(after, before.checked_add(more).unwrap_or(LARGEST), "{told:?}");
            stopped += usize::from(after == LARGEST && before != LARGEST);
        }
        assert!(after.good >= totals.good);
        let counted = told.number == 0 && told.error < 8;
        for (error, (&before, &after)) in totals.errors.iter().zip(&after.errors).enumerate() {
            let one = u64::from(counted && error == usize::from(told.error) && before < LARGEST);
            assert_eq!(after - before, one, "{told:?}");
        }
        let Told { taken, skipped, before, after: held, .. } = told;
        if [taken, skipped, before, held].iter().all(|&count| count < 1 << 40) && totals.good < 1 << 50 {
            let good = (taken + before).saturating_sub(skipped + held) as u64;
            assert_eq!(after.good - totals.good, if told.number > 1 { 0 } else { good }, "{told:?}");
        }
    }
    assert!(stopped > 1000, "{stopped}");
}

/// A board, its page, and a driver's record for each port.
struct Recorded {
    board: Board,
    page: Vec<u8>,
    records: [Tally; 2],
    /// How often each number came, each error on each port, and a call with which a total stopped.
    numbers: [usize; 32],
    errors: [[usize; 8]; 2],
    stopped: usize,
}

impl Recorded {
    /// With the board's own totals as the records: from a start those are zeros.
    fn new(board: Board, page: &[u8]) -> Recorded {
        let (page, records) = (page.to_vec(), board.tallies);
        Recorded { board, page, records, numbers: [0; 32], errors: [[0; 8]; 2], stopped: 0 }
    }

    /// A turn of a list. 02-13.6: "So updated, the record equals the board's totals."
    fn turn(&mut self, turn: &Turn) -> Result<(), String> {
        if let Step::Restart(profile) = turn.step {
            self.board = start(profile, &self.page).1;
            self.records = [NONE; 2];
            return common::same("totals of a restart", &self.board.tallies, &self.records);
        }
        let board = turn.wrong.map_or(self.board, |wrong| wrong.board(&self.board));
        let mut page = turn.wrong.map_or(self.page.clone(), |wrong| wrong.page(&self.page));
        let (port, room) = turn.step.port_and_room().expect("a call");
        let fed = turn.step.answer(&board, &mut vec![0; room], &mut page).expect("a call is answered");
        self.numbers[usize::from(fed.number)] += 1;
        // A port that is none has no record; its number changes none.
        let named = usize::from(port.min(1));
        let told = told(&fed, board.ports[named].held, fed.board.ports[named].held);
        let before = self.records[named];
        self.records[named] = record(&before, &told);
        self.stopped += usize::from(before.taken < LARGEST && self.records[named].taken == LARGEST);
        common::same("totals and records", &fed.board.tallies, &self.records)?;
        if number::accepted(fed.number) {
            self.errors[named][usize::from(fed.error)] += usize::from(fed.number == 0);
            (self.board, self.page) = (fed.board, page);
            return Ok(());
        }
        common::same("board of a refusal", &fed.board, &board)
    }
}

/// What a driver knows of a call: the answer, and the port's held counts before and after.
fn told(fed: &Fed, before: usize, after: usize) -> Told {
    let Fed { number, taken, skipped, error, .. } = *fed;
    Told { number, taken, skipped, error, before, after }
}

fn run(board: Board, page: &[u8], turns: &[Turn]) -> Result<Recorded, String> {
    let mut recorded = Recorded::new(board, page);
    for (place, turn) in turns.iter().enumerate() {
        recorded.turn(turn).map_err(|text| format!("turn {place}: {text}"))?;
    }
    Ok(recorded)
}

/// Lists of calls from a start, and from boards of any contents with any totals: the records equal the totals after every call.
#[test]
fn records_equal_totals() {
    let mut rng = Rng::new(0x1306);
    let mut numbers = [0; 32];
    let mut errors = [[0; 8]; 2];
    let (mut turns_made, mut stopped) = (0, 0);
    for place in 0..3000 {
        let page = silences::page(&mut rng);
        let profile = generate::profile(&mut rng);
        let pieces = rng.between(4, 24);
        let turns = counting::turns(&mut rng, profile, &page, pieces);
        let board = match place % 2 {
            0 => start(profile, &page).1,
            _ => Board { profile, ..generate::sound_board(&mut rng) },
        };
        let run_of = |turns: &[Turn]| run(board, &page, turns);
        let recorded = run_of(&turns).unwrap_or_else(|text| {
            let short = generate::shrink(&turns, |turns| run_of(turns).is_err());
            panic!("list {place}: {text}\n{board:02X?}, page {page:02X?}\nshortest {short:02X?}")
        });
        turns_made += turns.len();
        stopped += recorded.stopped;
        numbers.iter_mut().zip(recorded.numbers).for_each(|(all, times)| *all += times);
        let both = errors.iter_mut().flatten().zip(recorded.errors.iter().flatten());
        both.for_each(|(all, &times)| *all += times);
    }
    assert!([0, 1, 16, 17, 18, 19, 20].iter().all(|&number| numbers[number] > 500), "{numbers:?}");
    assert!(errors.iter().flatten().enumerate().all(|(at, &times)| times > 50 || at == 7), "{errors:?}");
    assert!(turns_made > 100_000 && stopped > 300, "{turns_made} turns, {stopped} of them with a total that stopped");
}

/// 02-13.7: "Demand 3 covers the totals too": in drained lists the totals, and the law between them and the bytes held, are the
/// reckoning's after each step.
#[test]
fn reckoned_totals() {
    let mut rng = Rng::new(0x1303);
    let (mut compared, mut messages) = (0, [0; 2]);
    for place in 0..1200 {
        let page = silences::page(&mut rng);
        let profile = generate::profile(&mut rng);
        let pieces = rng.between(2, 10);
        let mut both = Both::start(profile, &page);
        let mut draining = Draining::default();
        for Turn { step, .. } in counting::turns(&mut rng, profile, &page, pieces) {
            // A feed that is accepted before its port is drained is left out.
            if matches!(&step, Step::Feed(call) if draining.must_drain(call.port) && call.room >= Port::LONGEST_REPLY) {
                continue;
            }
            let answer = both.try_step(&step).unwrap_or_else(|text| panic!("list {place}: {text}"));
            both.compare_state().unwrap_or_else(|text| panic!("list {place}: {text}"));
            let number = answer.map_or(number::USED_UP, |answer| answer.number);
            assert!(draining.allows(step.answered(number)), "list {place}");
            compared += 1;
            if let (0, Some((port, _))) = (number, step.port_and_room()) {
                messages[usize::from(port)] += 1;
            }
        }
    }
    assert!(compared > 10_000 && messages.iter().all(|&times| times > 2000), "{compared} steps, {messages:?}");
}

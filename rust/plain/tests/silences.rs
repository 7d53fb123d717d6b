//! Request 06 (02-06.1 to 02-06.8): silences, on the port that keeps the held bytes and on the plain reckoning at once; and
//! lists that are not drained, on the port alone. What is expected is worked out from the papers by hand.

mod common;

use common::{hex, uncounted, Answer, Both, P1, P1_REPLY, P2};
use plain::generate::numbered::{numbered, Silences};
use plain::generate::{self, silences, Call, Rng, Step};
use plain::*;

/// The number, the bytes skipped and the reply.
fn told(answer: &Answer) -> (u8, usize, Vec<u8>) {
    (answer.number, answer.skipped, answer.reply.clone())
}

/// Feeds bytes that stay held, all or the last of them.
fn hold(both: &mut Both, port: u8, bytes: &[u8]) {
    let answer = both.feed(port, bytes);
    assert_eq!((answer.number, answer.taken), (1, bytes.len()));
}

const P1_DAMAGED: &str = "A5A5010202004F24";
const P1_DAMAGED_REPLY: &str = "A5A5010480020201D4D0";
const P2_REPLY: &str = "A5A5020480020700D9DF";

/// 02-06.1: "A false header can claim 255 bytes, and a true command then waits behind it." A silence reports it.
#[test]
fn a_command_behind_a_false_header() {
    for port in [0, 1] {
        let mut both = Both::blank();
        hold(&mut both, port, &hex("A5A501FF"));
        hold(&mut both, port, &hex(P1));
        assert_eq!(both.held(usize::from(port)), 12);
        let answers = both.drain(port);
        assert_eq!(answers.iter().map(told).collect::<Vec<_>>(), [(0, 4, hex(P1_REPLY)), (1, 0, vec![])]);
        assert_eq!(both.held(usize::from(port)), 0);
        // The line goes on as from a fresh port.
        assert_eq!(told(&both.feed(port, &hex(P1))), (0, 0, hex(P1_REPLY)));
    }
}

/// Headers within headers: none of them is an error, and each byte before the commands is skipped.
#[test]
fn nested_false_headers() {
    let mut both = Both::blank();
    let headers = hex("A5A501FF A5A502FF A5A5A5 A5A5 7CFE 00 A5A5A2C8 A5");
    hold(&mut both, 0, &headers);
    hold(&mut both, 0, &[hex(P1), hex("A5A501F0"), hex(P2), hex("A5A5")].concat());
    let answers: Vec<_> = both.drain(0).iter().map(told).collect();
    let expected = [(0, headers.len(), hex(P1_REPLY)), (0, 4, hex(P2_REPLY)), (1, 2, vec![])];
    assert_eq!(answers, expected);
}

/// A header whose length fits what is held is no false one: its message is damaged, and is reported with error 1.
#[test]
fn damaged_messages_among_the_held() {
    let mut both = Both::blank();
    hold(&mut both, 1, &[hex("A5A501FF 00"), hex(P1_DAMAGED), hex(P1)].concat());
    let answers: Vec<_> = both.drain(1).iter().map(told).collect();
    // The damaged message is answered and its first byte skipped; seven more are then skipped in front of the good one.
    let expected = [(0, 6, hex(P1_DAMAGED_REPLY)), (0, 7, hex(P1_REPLY)), (1, 0, vec![])];
    assert_eq!(answers, expected);
}

/// 02-06.4: "no message crossing a mark": the two parts of a Ping with a drained silence between them are no Ping, wherever
/// it is cut.
#[test]
fn a_message_that_crosses_a_mark() {
    let ping = hex(P1);
    for cut in 1..ping.len() {
        let mut both = Both::blank();
        hold(&mut both, 0, &ping[..cut]);
        assert_eq!(told(&both.silence(0)), (1, cut, vec![]));
        let answer = both.feed(0, &ping[cut..]);
        assert_eq!(answer.number, 1, "cut {cut}");
        // The Ping, sent whole, is answered: what is left of the other one opens no message, or is skipped in front of it.
        assert_eq!(both.feed(0, &ping).reply, hex(P1_REPLY), "cut {cut}");
    }
}

/// Whatever is too short for a message is skipped, with no error: parts of a header, and of a message.
#[test]
fn what_is_undecided_is_skipped() {
    for held in ["A5", "A5A5", "A5A502", "A5A50200", "A5A5020000", "A5A5010202004F", "A5A501FF00A5A501FFA5A5"] {
        let mut both = Both::blank();
        hold(&mut both, 0, &hex(held));
        assert_eq!(told(&both.silence(0)), (1, hex(held).len(), vec![]), "{held}");
        let started = start(Profile::Full, &[0xFF; 64]).1;
        assert_eq!((uncounted(&both.board), &both.page[..]), (started, &[0xFF; 64][..]));
    }
}

/// "or when nothing is held (1)": a silence of a port that holds nothing skips nothing; two marks with no byte between are
/// as one.
#[test]
fn nothing_held() {
    let mut both = Both::blank();
    for port in [0, 1, 0] {
        assert_eq!(told(&both.silence(port)), (1, 0, vec![]));
    }
    hold(&mut both, 0, &hex("A5A5010202"));
    for skipped in [5, 0, 0] {
        assert_eq!(told(&both.silence(0)), (1, skipped, vec![]));
    }
    hold(&mut both, 0, &hex("004F25"));
    assert_eq!(told(&both.feed(0, &hex(P1))), (0, 0, hex(P1_REPLY)));
}

/// A silence is of one port: what the other holds goes on as if there had been none.
#[test]
fn the_other_port_goes_on() {
    let ping = hex(P1);
    for (quiet, other) in [(0, 1), (1, 0)] {
        let mut both = Both::blank();
        hold(&mut both, quiet, &ping[..5]);
        hold(&mut both, other, &ping[..5]);
        assert_eq!(told(&both.silence(quiet)), (1, 5, vec![]));
        assert_eq!(told(&both.feed(other, &ping[5..])), (0, 0, hex(P1_REPLY)));
        assert_eq!(told(&both.feed(quiet, &ping[5..])), (1, 3, vec![]));
    }
}

/// A silence stops at the first reported message, with the bytes behind it held; save mark, page and settings are as a feed's.
#[test]
fn as_a_feed_answers() {
    let mut both = Both::blank();
    let save = message(0x02, &[0x08, 1, 3]);
    hold(&mut both, 1, &[hex("A5A501FF"), hex("A5A50204 08020105 60F8"), save.clone(), vec![0x33; 3]].concat());
    let used = both.silence(1);
    assert_eq!((used.number, used.skipped, used.saved), (0, 4, false));
    assert_eq!((both.board.settings.gyroscope, both.held(1), &both.page[..]), (5, 12, &[0xFF; 64][..]));
    let saved = both.silence(1);
    assert_eq!((saved.number, saved.skipped, saved.saved, both.held(1)), (0, 0, true, 3));
    assert_eq!(values(&both.page).unwrap().gyroscope, Some(5));
    assert_eq!(told(&both.silence(1)), (1, 3, vec![]));
}

/// The longest that a port holds: 260 bytes of the longest message, and 254 bytes behind a false header.
#[test]
fn a_full_port() {
    let mut both = Both::blank();
    hold(&mut both, 0, &message(0x02, &[0x11; 255])[..260]);
    assert_eq!(told(&both.silence(0)), (1, 260, vec![]));

    let inner = message(0x02, &[0x11; 250]);
    hold(&mut both, 0, &[hex("A5A502FF"), inner].concat());
    assert_eq!(both.held(0), 260);
    let answer = both.silence(0);
    assert_eq!((answer.number, answer.skipped, both.held(0)), (0, 4, 0));
    assert_eq!(answer.reply, message(0x02, &[0x80, 2, 0x11, 4]));
}

/// 02-06.8: "Refusals: 16 to 20 as for a feed": the same number for the same board, room and page, and nothing is changed or
/// written.
#[test]
fn refusals() {
    let page = [0xFF; 64];
    let (_, sound) = start(Profile::Full, &page);
    let over = |port: usize| {
        let mut board = sound;
        board.ports[port].held = 261;
        board
    };
    let old_range = Board { settings: Settings { gyroscope: 6, ..FACTORY }, ..sound };
    let cases = [
        (2, over(0), 0, 0, 16),
        (255, sound, 166, 64, 16),
        (0, over(0), 0, 0, 17),
        (0, over(1), 166, 64, 17),
        (1, over(0), 165, 63, 17),
        (1, old_range, 0, 0, 17),
        (0, sound, 165, 63, 18),
        (1, sound, 0, 64, 18),
        (0, sound, 166, 63, 19),
        (1, sound, 167, 65, 19),
        (0, sound, 166, 64, 20),
    ];
    for (port, board, room, page, number) in cases {
        // Neither blank nor sound.
        let (mut given_room, mut given_page) = (vec![0x77; room], vec![0x33; page]);
        let refused = silence(port, &board, &mut given_room, &mut given_page);
        assert_eq!(refused, Fed { number, taken: 0, skipped: 0, error: 0, saved: false, board });
        assert_eq!((given_room, given_page), (vec![0x77; room], vec![0x33; page]));
        assert_eq!(feed(port, &board, &hex(P1), &mut vec![0; room], &mut vec![0x33; page]).number, number);
    }
    assert_eq!(silence(0, &sound, &mut [0; 166], &mut page.clone()).number, 1);
}

/// The reckoning refuses with 16 and 18 and makes no mark: the bytes stay held, and their message can be ended.
#[test]
fn a_refused_silence_makes_no_mark() {
    let mut both = Both::blank();
    hold(&mut both, 0, &hex(P1)[..5]);
    for (port, room, number) in [(2, 0, 16), (0, 165, 18), (0, 0, 18)] {
        assert_eq!(both.try_silence(port, room).unwrap().number, number);
    }
    assert_eq!(told(&both.feed(0, &hex(P1)[5..])), (0, 0, hex(P1_REPLY)));
}

/// "After every accepted feed the fed port's room past its held bytes is zero": so after every accepted silence, also where
/// nothing is held or skipped.
#[test]
fn junk_is_cleared() {
    for held in [0, 1, 8, 260] {
        let mut board = start(Profile::Full, &[0xFF; 64]).1;
        board.ports = [Port { bytes: [0x44; 260], held: 3 }, Port { bytes: [0x55; 260], held }];
        board.ports[1].bytes[..held.min(8)].copy_from_slice(&hex(P1)[..held.min(8)]);
        let answer = silence(1, &board, &mut [0; 166], &mut [0xFF; 64]);
        let expected = if held >= 8 { (0, held - 8) } else { (1, 0) };
        assert_eq!((answer.number, answer.board.ports[1].held), expected);
        assert_eq!(answer.board.ports[0], board.ports[0]);
        let after = answer.board.ports[1];
        assert!(after.bytes[after.held..].iter().all(|&byte| byte == 0), "{held}");
    }
}

/// The scan of a stream with marks, event by event.
#[test]
fn marked_streams() {
    use Event::{Good, Skipped};
    let skips = |places: std::ops::Range<usize>| places.map(|place| Skipped { place });
    let bytes = [hex("A5A501FF"), hex(P1), hex(P1)].concat();
    assert_eq!(scan_marked(&bytes, &[]), []);
    let both = [Good { place: 4, length: 8 }, Good { place: 12, length: 8 }];
    assert_eq!(scan_marked(&bytes, &[20]), [skips(0..4).collect::<Vec<_>>(), both.to_vec()].concat());
    // A mark within the second Ping: it is no message, on neither side.
    let first = [skips(0..4).collect::<Vec<_>>(), vec![both[0]]].concat();
    assert_eq!(scan_marked(&bytes, &[15]), [first.clone(), skips(12..20).collect()].concat());
    // Before a mark at its front or behind the header, the same; after the last mark the scan is undecided again.
    assert_eq!(scan_marked(&bytes, &[4, 12]), [first, vec![both[1]]].concat());
    assert_eq!(scan_marked(&bytes[..19], &[4, 12]).len(), 5);
    assert_eq!(scan_marked(&bytes[..19], &[4, 4, 12, 12]), scan_marked(&bytes[..19], &[4, 12]));
    assert_eq!(scan_marked(&hex("A5A5A5"), &[1]), [Skipped { place: 0 }]);
    assert_eq!(scan_marked(&hex("A5A5A5"), &[2]), [Skipped { place: 0 }, Skipped { place: 1 }]);
    assert_eq!(scan_marked(&[], &[0]), []);
}

/// 02-06.6: "An earlier feed is still taken, over the bytes left". The port no longer knows the mark, so that a message is read
/// across it; by the reckoning none is. Such a list is not drained.
#[test]
fn an_earlier_feed() {
    let mut page = [0xFF; 64];
    let (_, mut board) = start(Profile::Full, &page);
    let mut reckoning = Reckoning::new(Profile::Full, &page);
    let held = [hex("A5A501FF"), hex(P1), hex(P1)[..3].to_vec()].concat();
    let mut room = [0; 166];
    board = feed(0, &board, &held, &mut room, &mut page).board;
    reckoning.feed(0, &held, 166);
    let answer = silence(0, &board, &mut room, &mut page);
    board = answer.board;
    assert_eq!((answer.number, answer.skipped, board.ports[0].held), (0, 4, 3));
    assert_eq!(reckoning.silence(0, 166).number, 0);

    let fed = feed(0, &board, &hex(P1)[3..], &mut room, &mut page);
    assert_eq!((fed.number, fed.taken, fed.skipped, fed.board.ports[0].held), (0, 5, 0, 0));
    assert_eq!(room[..10], hex(P1_REPLY));
    let reckoned = reckoning.feed(0, &hex(P1)[3..], 166);
    assert_eq!((reckoned.number, reckoned.taken, reckoned.skipped), (1, 5, 8));

    let answers = [
        Answered::Feed { port: 0, number: 1 },
        Answered::Silence { port: 0, number: 0 },
        Answered::Feed { port: 0, number: 0 },
    ];
    assert!(drained(&answers[..2]) && !drained(&answers));
}

/// Which lists are drained.
#[test]
fn drained_lists() {
    let feed = |port, number| Answered::Feed { port, number };
    let silence = |port, number| Answered::Silence { port, number };
    let restart = Answered::Restart;
    let yes: [&[Answered]; 9] = [
        &[],
        &[silence(0, 0)],
        &[silence(0, 1), feed(0, 0)],
        &[silence(0, 0), silence(0, 0), silence(0, 1), feed(0, 1), feed(0, 0)],
        // Of that port alone.
        &[silence(0, 0), feed(1, 0), feed(1, 1), silence(0, 1), feed(0, 0)],
        // What is refused is not accepted.
        &[silence(0, 0), feed(0, 18), feed(2, 16), silence(0, 1), feed(0, 0)],
        &[silence(0, 18), feed(0, 0), silence(7, 16), feed(1, 0)],
        // A restart leaves nothing to drain.
        &[silence(0, 0), silence(1, 0), restart, feed(0, 0), feed(1, 1)],
        &[feed(0, 0), feed(0, 1), feed(1, 0)],
    ];
    assert!(yes.iter().all(|list| drained(list)));
    let no: [&[Answered]; 7] = [
        &[silence(0, 0), feed(0, 0)],
        &[silence(0, 0), feed(0, 1)],
        &[silence(1, 1), silence(1, 0), feed(1, 1)],
        &[silence(0, 0), silence(1, 1), feed(0, 1)],
        // A refused silence drains nothing, and neither does a feed.
        &[silence(0, 0), silence(0, 18), feed(0, 0)],
        &[silence(0, 0), feed(0, 1), silence(0, 1), feed(0, 1)],
        &[restart, silence(1, 0), feed(1, 0), restart],
    ];
    assert!(no.iter().all(|list| !drained(list)));
}

/// A restart forgets what is held and the mark: the board is as after starting.
#[test]
fn restarts() {
    let mut both = Both::blank();
    hold(&mut both, 0, &[hex("A5A501FF"), hex(P1), hex(P1)].concat());
    assert_eq!(both.silence(0).number, 0);
    assert_eq!(both.held(0), 8);
    both.restart();
    assert_eq!(told(&both.feed(0, &hex(P1))), (0, 0, hex(P1_REPLY)));
    hold(&mut both, 0, &hex(P1)[..4]);
    both.restart();
    assert_eq!(told(&both.silence(0)), (1, 0, vec![]));
}

/// A numbered command that a silence reports is accepted once: its number is on the page, and is stale afterwards, in a
/// feed, in a silence and behind a restart.
#[test]
fn numbered_commands() {
    let command = numbered(7, 0x02, &[0x08, 2, 1, 5]);
    for port in [0, 1] {
        let mut both = Both::blank();
        hold(&mut both, port, &[hex("A5A57CFF"), command.clone(), command.clone()].concat());
        let errors: Vec<_> =
            both.drain(port).iter().map(|answer| (answer.reply.get(7).copied(), answer.saved)).collect();
        assert_eq!(errors, [(Some(0), true), (Some(5), false), (None, false)]);
        assert_eq!(values(&both.page).unwrap().last_number, Some(7));
        assert_eq!(both.feed(1 - port, &command).reply[7], 5);
        both.restart();
        hold(&mut both, 1 - port, &[hex("A5A57CFF"), command.clone()].concat());
        assert_eq!(both.silence(1 - port).reply[7], 5);
    }
}

/// The sum law holds of right answers, of a good message and of a damaged one; and not where a count is wrong, or where the
/// message that is said to be reported is not there or is of the other kind.
#[test]
fn sums_of_wrong_answers() {
    let (ping, damaged) = (hex(P1), hex(P1_DAMAGED));
    let (reply, damaged_reply) = (hex(P1_REPLY), hex(P1_DAMAGED_REPLY));
    let good = Accepted { row: &ping, taken: 8, skipped: 0, reply: &reply, held: 0 };
    let bad = Accepted { row: &damaged, taken: 8, skipped: 1, reply: &damaged_reply, held: 7 };
    let none = Accepted { row: &ping[..5], taken: 5, skipped: 2, reply: &[], held: 3 };
    let holds = |call: &Accepted| SumLaw::default().count(call).is_ok();
    assert!([good, bad, none].iter().all(holds));
    let wrong = [
        Accepted { held: 1, ..good },
        Accepted { taken: 7, ..good },
        Accepted { skipped: 1, ..good },
        Accepted { row: &damaged, ..good },
        Accepted { row: &ping[..7], ..good },
        Accepted { reply: &[], ..good },
        Accepted { row: &ping, ..bad },
        Accepted { row: &damaged[..7], ..bad },
        Accepted { skipped: 0, held: 8, ..bad },
        Accepted { reply: &reply, ..bad },
        Accepted { held: 2, ..none },
    ];
    for (place, call) in wrong.iter().enumerate() {
        assert!(!holds(call), "{place}");
    }
    // The sums are those of the whole run.
    let mut law = SumLaw::default();
    assert!(law.count(&none).is_ok());
    assert!(law.count(&Accepted { row: &ping[..3], taken: 0, skipped: 3, reply: &[], held: 0 }).is_ok());
    assert!(law.count(&good).is_ok());
    assert!(law.count(&Accepted { taken: 0, ..good }).is_err());
}

/// What a list came to on the port alone.
#[derive(Default)]
struct Run {
    answers: Vec<Answered>,
    accepted: Vec<u32>,
    /// How often each number came of silences.
    silences: [usize; 32],
    /// Silences that skipped something, and those that reported a message from behind bytes that they skipped.
    skipping: usize,
    behind_skipped: usize,
}

/// A board and its page, without the reckoning, and the sums of each port's run.
struct Alone {
    board: Board,
    page: Vec<u8>,
    laws: [SumLaw; 2],
}

impl Alone {
    fn new(profile: Profile, page: &[u8]) -> Alone {
        Alone { board: start(profile, page).1, page: page.to_vec(), laws: Default::default() }
    }

    /// One call. Gives the answer and the reply.
    fn call(&mut self, step: &Step, room: usize) -> Result<(Fed, Vec<u8>), String> {
        let (mut room, page) = (vec![0x5C; room], self.page.clone());
        let fed = step.answer(&self.board, &mut room, &mut self.page).expect("a call is answered");
        let reply = if fed.number == 0 { room[..usize::from(room[3]) + 6].to_vec() } else { Vec::new() };
        common::same("room past the reply", &room[reply.len()..], &vec![0x5C; room.len() - reply.len()][..])?;
        if !fed.saved {
            common::same("page without the mark", &self.page, &page)?;
        }
        if number::accepted(fed.number) {
            self.accepted(step, &fed, &reply)?;
        } else {
            common::same("number of a refusal", &(16..=20).contains(&fed.number), &true)?;
            common::same("counts of a refusal", &(fed.taken, fed.skipped, fed.error, fed.saved), &(0, 0, 0, false))?;
            common::same("board of a refusal", &fed.board, &self.board)?;
        }
        self.board = fed.board;
        Ok((fed, reply))
    }

    /// Of an accepted call: what is taken, held and left alone, and the sum law, also between the totals.
    fn accepted(&mut self, step: &Step, fed: &Fed, reply: &[u8]) -> Result<(), String> {
        let named = usize::from(step.port_and_room().expect("a call").0);
        let (taken, skipped, held) = (fed.taken, fed.skipped, fed.board.ports[named].held);
        let unread = common::unread(&self.board, step);
        let row = &unread[..unread.len() - step.chunk().len() + taken];
        self.laws[named].count(&Accepted { row, taken, skipped, reply, held })?;
        common::same("at most 260 held", &(held <= 260), &true)?;
        common::same("held", &fed.board.ports[named].bytes[..held], &row[row.len() - held..])?;
        common::same("other port", &fed.board.ports[1 - named], &self.board.ports[1 - named])?;
        common::same("other totals", &fed.board.tallies[1 - named], &self.board.tallies[1 - named])?;
        common::same("the law of the totals", &adds_up(&fed.board.tallies[named], held), &true)?;
        match step {
            Step::Silence { .. } => common::same("held after 1", &(fed.number == 0 || held == 0), &true),
            _ => common::same("taken with 1", &(fed.number == 0 || taken == step.chunk().len()), &true),
        }
    }
}

/// Runs a list on the port alone: what 02-06.6 promises of every list, drained or not. "demand 1 and the sum law hold
/// there".
fn run_alone(profile: Profile, page: &[u8], list: &[Step]) -> Result<Run, String> {
    let mut run = Run::default();
    let mut alone = Alone::new(profile, page);
    for step in list {
        if let Step::Restart(profile) = *step {
            alone = Alone::new(profile, &alone.page);
            run.answers.push(Answered::Restart);
            continue;
        }
        let (_, room) = step.port_and_room().expect("a call has a room");
        let unread = common::unread(&alone.board, step);
        let (fed, reply) = alone.call(step, room)?;
        run.answers.push(step.answered(fed.number));
        run.accepted.extend(common::number_accepted(&unread, step, &reply));
        run.count(step, &fed);
    }
    Ok(run)
}

impl Run {
    fn count(&mut self, step: &Step, fed: &Fed) {
        if matches!(step, Step::Silence { .. }) {
            self.silences[usize::from(fed.number)] += 1;
            self.skipping += usize::from(fed.skipped > 0);
            self.behind_skipped += usize::from(fed.number == 0 && fed.skipped > 3);
        }
    }
}

/// Runs a list on the port and on the reckoning. Nothing is asked of a list that is not drained.
fn run_reckoned(profile: Profile, page: &[u8], list: &[Step]) -> Result<(), String> {
    if !drained(&run_alone(profile, page, list)?.answers) {
        return Ok(());
    }
    let mut both = Both::start(profile, page);
    for (place, step) in list.iter().enumerate() {
        both.try_step(step).map_err(|text| format!("step {place}: {text}"))?;
        both.compare_state().map_err(|text| format!("after step {place}: {text}"))?;
    }
    Ok(())
}

/// The port and the reckoning agree on drained lists, and the lists have in them what they are for.
#[test]
fn drained_lists_agree() {
    let mut rng = Rng::new(0x0604);
    let mut numbers = [0; 32];
    let (mut skipping, mut behind_skipped, mut feeds_after) = (0, 0, 0);
    for place in 0..3000 {
        let page = silences::page(&mut rng);
        let pieces = rng.between(1, 5);
        let profile = generate::profile(&mut rng);
        let list = silences::history(&mut rng, profile, &page, pieces, Silences::Drained);
        if let Err(text) = run_reckoned(profile, &page, &list) {
            let short = generate::shrink(&list, |list| run_reckoned(profile, &page, list).is_err());
            panic!("list {place}: {text}\n{profile:?}, page {page:02X?}\nshortest {short:02X?}");
        }
        let run = run_alone(profile, &page, &list).unwrap();
        assert!(drained(&run.answers), "list {place}");
        for (number, times) in numbers.iter_mut().zip(run.silences) {
            *number += times;
        }
        skipping += run.skipping;
        behind_skipped += run.behind_skipped;
        let fed_after = |pair: &[Answered]| matches!(pair, [Answered::Silence { port, number: 1 }, Answered::Feed { port: fed, number: 0 | 1 }] if port == fed);
        feeds_after += run.answers.windows(2).filter(|pair| fed_after(pair)).count();
    }
    assert!([0, 1, 16, 18].iter().all(|&number| numbers[number] > 300), "{numbers:?}");
    assert!(skipping > 3000 && behind_skipped > 500 && feeds_after > 2000, "{skipping} {behind_skipped} {feeds_after}");
}

/// Lists with silences anywhere: demand 1 and the sum law hold in each; many are not drained, and in some of those the
/// reckoning says something else, so that the words "for lists in which" are needed.
#[test]
fn any_lists() {
    let mut rng = Rng::new(0x0606);
    let (mut undrained, mut others) = (0, 0);
    for place in 0..3000 {
        let page = silences::page(&mut rng);
        let pieces = rng.between(1, 5);
        let profile = generate::profile(&mut rng);
        let list = silences::history(&mut rng, profile, &page, pieces, Silences::Anywhere);
        match run_alone(profile, &page, &list) {
            Ok(run) if drained(&run.answers) => run_reckoned(profile, &page, &list).unwrap(),
            Ok(_) => {
                undrained += 1;
                let mut both = Both::start(profile, &page);
                others += usize::from(list.iter().any(|step| both.try_step(step).is_err()));
            }
            Err(text) => {
                let short = generate::shrink(&list, |list| run_alone(profile, &page, list).is_err());
                panic!("list {place}: {text}\n{profile:?}, page {page:02X?}\nshortest {short:02X?}");
            }
        }
    }
    assert!(undrained > 500 && others > 200, "{undrained} not drained, {others} of them not as reckoned");
}

/// 02-06.7: "Req 03's histories take in silences, drained or not": the accepted numbers grow, from the one that the page keeps
/// at first.
#[test]
fn no_number_twice() {
    let mut rng = Rng::new(0x0607);
    let (mut taken, mut restarts) = (0, 0);
    for place in 0..4000 {
        let page = silences::page(&mut rng);
        let pieces = rng.between(1, 12);
        let silences = rng.pick(&[Silences::Drained, Silences::Anywhere]);
        let profile = generate::profile(&mut rng);
        let list = silences::history(&mut rng, profile, &page, pieces, silences);
        let grows = |list: &[Step]| {
            let kept = values(&page).unwrap().last_number.into_iter();
            run_alone(profile, &page, list).map(|run| kept.chain(run.accepted).is_sorted_by(|one, next| one < next))
        };
        if grows(&list) != Ok(true) {
            let short = generate::shrink(&list, |list| grows(list) != Ok(true));
            panic!("list {place}: {profile:?}, page {page:02X?}\nshortest {short:02X?}");
        }
        taken += run_alone(profile, &page, &list).unwrap().accepted.len();
        restarts += list.iter().filter(|step| matches!(step, Step::Restart(_))).count();
    }
    assert!(taken > 2000 && restarts > 2000, "{taken} numbers, {restarts} restarts");
}

/// A board of any contents; on every other one port 1 holds headers within headers.
fn any_board(rng: &mut Rng) -> Board {
    let mut board = generate::board(rng);
    if rng.chance(1, 2) {
        let mut held = [silences::headers(rng), silences::piece(rng, None)].concat();
        held.truncate(260);
        board.ports[1].held = held.len();
        board.ports[1].bytes[..held.len()].copy_from_slice(&held);
    }
    board
}

/// A third, shorter reading: on a board of any contents a silence is the scan of the held bytes with a mark behind them, up to
/// its first message; and where an empty feed is refused, so is a silence.
#[test]
fn boards_of_any_contents() {
    let mut rng = Rng::new(0x0603);
    let mut numbers = [0; 32];
    for _ in 0..100_000 {
        let board = any_board(&mut rng);
        let port = generate::port(&mut rng);
        let page = if rng.chance(1, 2) { generate::page(&mut rng) } else { generate::numbered::page(&mut rng) };
        let room = generate::room(&mut rng);
        let answer = silence(port, &board, &mut vec![0x77; room], &mut page.clone());
        numbers[usize::from(answer.number)] += 1;
        let empty_feed = feed(port, &board, &[], &mut vec![0x77; room], &mut page.clone());
        if !number::accepted(empty_feed.number) {
            assert_eq!(answer, empty_feed);
            continue;
        }
        let (before, after) = (board.ports[usize::from(port)], answer.board.ports[usize::from(port)]);
        let held = &before.bytes[..before.held];
        let mut events = scan_marked(held, &[held.len()]);
        let reported = events.iter().position(|event| event.message().is_some());
        events.truncate(reported.map_or(events.len(), |at| at + 1));
        let rest = &held[events.last().map_or(0, Event::after)..];
        assert_eq!((answer.number == 0, answer.number == 1), (reported.is_some(), reported.is_none()));
        assert_eq!(answer.skipped, events.iter().map(Event::skipped).sum());
        assert_eq!(&after.bytes[..after.held], rest);
    }
    assert!([0, 1, 16, 17, 18, 19, 20].iter().all(|&number| numbers[number] > 100), "{numbers:?}");
}

/// Some feed and silence of one list, by hand, through the same run as the generated ones.
#[test]
fn a_list_by_hand() {
    let feed = |chunk: &str| Step::Feed(Call { port: 0, chunk: hex(chunk), room: 166 });
    let silence = Step::Silence { port: 0, room: 166 };
    let list = [feed("A5A501FF"), feed(P1), silence.clone(), silence.clone(), feed(P2), silence];
    let run = run_alone(Profile::Full, &[0xFF; 64], &list).unwrap();
    let number = |answer: &Answered| match *answer {
        Answered::Feed { number, .. } | Answered::Silence { number, .. } => number,
        Answered::Restart => panic!("no restart"),
    };
    assert_eq!(run.answers.iter().map(number).collect::<Vec<_>>(), [1, 1, 0, 1, 0, 1]);
    run_reckoned(Profile::Full, &[0xFF; 64], &list).unwrap();
}

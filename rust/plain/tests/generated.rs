//! The generated material: what must come does come, and a failing list is shrunk.

mod common;

use common::{uncounted, Both};
use plain::generate::{self, fields, numbered, readonly, silences, Behind, Call, Rng, Step};
use plain::*;
use std::collections::BTreeSet;

/// Same seed, same material.
#[test]
fn seeded() {
    let page = [0xFF; 64];
    let list = |seed| generate::any_calls(&mut Rng::new(seed), &page, 8);
    assert_eq!(list(7), list(7));
    assert_ne!(list(7), list(8));
    // The first words of splitmix64 from 0.
    let mut rng = Rng::new(0);
    assert_eq!([rng.word(), rng.word()], [0xE220_A839_7B1D_CDAF, 0x6E78_9E6A_A1B9_65F4]);
}

#[test]
fn cut_and_joined() {
    let mut rng = Rng::new(2);
    let mut empty = 0;
    for _ in 0..2000 {
        let stream = generate::stream(&mut rng, 5);
        let chunks = generate::cut(&mut rng, &stream);
        assert_eq!(chunks.concat(), stream);
        empty += chunks.iter().filter(|chunk| chunk.is_empty()).count();
    }
    assert!(empty > 500);
}

/// The error in the first row of the reply.
fn first_error(received: &[u8]) -> u8 {
    handle(Profile::Full, 0, received, FACTORY, Values::default()).rows[0].error
}

/// All lengths, types, errors, and each function under each code, accepted, come in the messages.
#[test]
fn messages_reach_everything() {
    let mut rng = Rng::new(3);
    let mut lengths = BTreeSet::new();
    let mut errors = BTreeSet::new();
    let mut accepted = BTreeSet::new();
    let mut kinds = BTreeSet::new();
    let mut damaged = 0;
    for _ in 0..200_000 {
        let good = generate::any_good(&mut rng);
        assert_eq!(check_message(&good), 0);
        lengths.insert(good[3]);
        kinds.insert(good[2]);
        let error = first_error(&good);
        errors.insert((good[2].min(3), error));
        if error == 0 && good[2] == 0x02 {
            accepted.insert((good[4], good[6], good[5] > 1));
        }
        let other = generate::damaged(&mut rng);
        if check_message(&other) == 22 {
            damaged += 1;
            assert_eq!(first_error(&other), 1);
        }
    }
    assert_eq!(lengths.len(), 256);
    assert_eq!(kinds.len(), 256);
    for expected in [(0, 2), (1, 0), (1, 3), (1, 4), (2, 0), (2, 3), (2, 4), (3, 2)] {
        assert!(errors.contains(&expected), "{expected:?}");
    }
    // Function 1 with its value, 2 to 5 with and without, under three codes.
    assert_eq!(accepted.len(), 3 * (1 + 2 * 4));
    assert!(damaged > 20_000, "{damaged}");
}

/// Of messages of several fields: each count up to 17, one field's errors at each place, payloads that are not filled.
#[test]
fn several_fields_reach_everything() {
    let mut rng = Rng::new(7);
    let mut counts = BTreeSet::new();
    let mut errors = BTreeSet::new();
    let mut saved = 0;
    for _ in 0..100_000 {
        let received = fields::several(&mut rng);
        assert_eq!(check_message(&received), 0);
        let payload = &received[4..received.len() - 2];
        counts.insert((received[2].min(3), fields_of(payload).map(|fields| fields.len())));
        let handled = handle(Profile::Full, 0, &received, FACTORY, Values::default());
        saved += usize::from(handled.saved);
        for (place, row) in handled.rows.iter().enumerate() {
            errors.insert((received[2].min(3), place, row.error, row.value.is_some()));
        }
        for kind in [0x01, 0x02] {
            assert_eq!(fields_of(&fields::unfilled(&mut rng, kind)), None);
        }
    }
    for kind in [0x01, 0x02] {
        assert!(counts.contains(&(kind, None)) && (0..=17).all(|count| counts.contains(&(kind, Some(count)))));
        for place in 0..16 {
            assert!([0, 3, 4].iter().all(|&error| errors.contains(&(kind, place, error, false))), "{place}");
        }
    }
    assert!((0..16).all(|place| errors.contains(&(2, place, 0, true)) && errors.contains(&(2, place, 6, false))));
    assert!(saved > 10_000, "{saved}");
}

/// Of replies: each count of rows up to 16 is read in types 01, 02 and 7C, and each is refused where something is wrong;
/// each error and each range of the gyroscope is read.
#[test]
fn replies_of_rows_reach_everything() {
    let mut rng = Rng::new(8);
    let mut read = BTreeSet::new();
    let mut refused = BTreeSet::new();
    let (mut errors, mut ranges) = (BTreeSet::new(), BTreeSet::new());
    for turn in 0..300_000 {
        let reply = if turn % 3 == 0 { fields::reply_of_kind(&mut rng, 0x7C) } else { fields::reply_of_rows(&mut rng) };
        let kind = if reply[2] == 0x7C { 0x7C } else { reply[2].min(3) };
        let rows = (0..).take_while(|&row| read_reply(&reply, row).number == 0).count();
        let fields = fields_of(&reply[4..reply.len() - 2]);
        if rows == 0 {
            refused.insert((kind, fields.map(|fields| fields.len())));
        } else {
            read.insert((kind, rows));
            let last = read_reply(&reply, rows - 1);
            errors.insert(last.error);
            ranges.extend(last.value.filter(|_| last.echo == 0x08));
        }
    }
    for kind in [0x01, 0x02, 0x7C] {
        assert!((1..=16).all(|rows| read.contains(&(kind, rows))));
        assert!((0..=18).all(|fields| refused.contains(&(kind, Some(fields)))) && refused.contains(&(kind, None)));
    }
    assert!(read.contains(&(3, 1)) && !read.contains(&(3, 2)));
    assert!(errors.into_iter().eq(0..=7) && ranges.into_iter().eq(1..=7));
}

/// Three settings at a time: what is used is saved, and loaded after others were used.
#[test]
fn three_settings_are_loaded() {
    let mut rng = Rng::new(9);
    for _ in 0..2000 {
        let mut both = Both::blank();
        let stream = fields::three_settings(&mut rng);
        let mut rest = &stream[..];
        let mut saved = 0;
        while !rest.is_empty() {
            let answer = both.feed(0, rest);
            assert_eq!(answer.number, 0);
            saved += usize::from(answer.saved);
            rest = &rest[answer.taken..];
        }
        assert_eq!(saved, 1);
        assert_eq!(uncounted(&both.board), start(Profile::Full, &both.page).1);
        assert_eq!(both.page[0], 3);
    }
}

/// A run stands in front of what it is to stand before; both good and damaged messages have runs in them.
#[test]
fn runs() {
    let mut rng = Rng::new(6);
    let mut good = 0;
    for length in 1..=255 {
        let run = vec![0xA5; length];
        for behind in Behind::ALL {
            let stream = generate::run_before(&mut rng, length, behind);
            let (before, after) = stream.split_at(length);
            assert_eq!(before, run);
            let end = after.get(3).map_or(0, |&l| usize::from(l) + 6);
            match behind {
                Behind::Good => assert_eq!(check_message(&after[..end]), 0),
                Behind::TypeA5 => assert_eq!((check_message(&after[..end]), after[2]), (0, 0xA5)),
                Behind::Damaged | Behind::Noise => {}
            }
        }
        let stream = generate::run_within(&mut rng, length);
        let number = check_message(&stream[..usize::from(stream[3]) + 6]);
        assert!(number == 0 || number == 22);
        assert!(stream[4..4 + usize::from(stream[3])].windows(length).any(|part| part == run));
        good += usize::from(number == 0);
    }
    assert!((50..200).contains(&good), "{good}");
}

/// Lists reach all numbers, errors, saves, messages within damaged ones, and many held bytes.
#[test]
fn lists_reach_everything() {
    let mut rng = Rng::new(4);
    let mut numbers = [0; 32];
    let mut errors = [0; 7];
    let mut saves = 0;
    let mut from_held = 0;
    let mut most_held = 0;
    let mut reports = 0;
    for _ in 0..3000 {
        let mut page = generate::sound_page(&mut rng);
        let list = generate::any_calls(&mut rng, &page, 8);
        let (_, mut board) = start(Profile::Full, &page);
        for call in list {
            let mut room = vec![0; call.room];
            let fed = feed(call.port, &board, &call.chunk, &mut room, &mut page);
            board = fed.board;
            numbers[usize::from(fed.number)] += 1;
            if fed.number == 0 {
                errors[usize::from(room[7])] += 1;
                saves += usize::from(fed.saved);
                from_held += usize::from(fed.taken == 0);
                reports += usize::from(room[3] > 4);
            }
            most_held = most_held.max(board.ports[0].held);
        }
    }
    assert!([0, 1, 16, 18].iter().all(|&number| numbers[number] > 1000), "{numbers:?}");
    assert!([0, 1, 2, 3, 4].iter().all(|&error| errors[error] > 500), "{errors:?}");
    assert!(errors[6] > 100, "{errors:?}");
    assert!(saves > 400 && from_held > 400 && reports > 400, "{saves} {from_held} {reports}");
    assert!(most_held > 255, "{most_held}");
}

/// What came in histories: of each port, the type of each reply and the error in its first row; how many restarts, fresh
/// numbers, and stale ones behind a restart.
#[derive(Default)]
struct Reached {
    rows: BTreeSet<(u8, u8, u8)>,
    restarts: usize,
    fresh: usize,
    stale_after_restart: usize,
}

impl Reached {
    fn run(&mut self, profile: Profile, mut page: [u8; 64], list: &[Step]) {
        let (_, mut board) = start(profile, &page);
        let mut restarted = false;
        for step in list {
            if let Step::Restart(profile) = *step {
                board = start(profile, &page).1;
                self.restarts += 1;
                restarted = true;
                continue;
            }
            let (port, room) = step.port_and_room().expect("a call has a room");
            let mut room = vec![0; room];
            let fed = step.answer(&board, &mut room, &mut page).expect("a call is answered");
            board = fed.board;
            if fed.number == 0 {
                self.rows.insert((port, room[2], room[7]));
                self.fresh += usize::from(fed.saved && room[2] == 0x7C);
                self.stale_after_restart += usize::from(restarted && room[2] == 0x7C && room[7] == 5);
            }
        }
    }
}

/// Histories reach each error of a numbered command on each port, what is refused without a number on port 0 and taken
/// on port 1, and stale numbers behind restarts.
#[test]
fn histories_reach_everything() {
    let mut rng = Rng::new(10);
    let mut reached = Reached::default();
    for _ in 0..3000 {
        let page = numbered::sound_page(&mut rng);
        let profile = generate::profile(&mut rng);
        let list = numbered::history(&mut rng, profile, &page, 8);
        reached.run(profile, page, &list);
    }
    for port in [0, 1] {
        assert!((0..=6).all(|error| reached.rows.contains(&(port, 0x7C, error))), "{:?}", reached.rows);
        assert!([0, 1, 3, 4, 6].iter().all(|&error| reached.rows.contains(&(port, 0x02, error))), "{:?}", reached.rows);
    }
    assert!(reached.rows.contains(&(0, 0x02, 5)) && !reached.rows.contains(&(1, 0x02, 5)));
    let Reached { restarts, fresh, stale_after_restart, .. } = reached;
    assert!(restarts > 2000 && fresh > 2000 && stale_after_restart > 1000, "{restarts} {fresh} {stale_after_restart}");
}

/// Histories of a read-only board reach each error that port 1 gives: of a numbered command it gives 7 and 1 alone, and never 5
/// or 6. On port 0 all others come.
#[test]
fn read_only_histories_reach_everything() {
    let mut rng = Rng::new(12);
    let mut reached = Reached::default();
    for _ in 0..3000 {
        let page = silences::page(&mut rng);
        let list = readonly::history(&mut rng, &page, 8);
        reached.run(Profile::ReadOnly, page, &list);
    }
    let rows = &reached.rows;
    let errors = |port: u8, kind: u8| (0..=255).filter(move |&error| rows.contains(&(port, kind, error)));
    assert!(errors(1, 0x7C).eq([1, 7]) && errors(1, 0x02).eq([0, 1, 3, 4, 7]) && errors(1, 0x01).eq([0, 1, 3, 4]));
    assert!(errors(0, 0x7C).eq(0..=6) && errors(0, 0x02).eq([0, 1, 3, 4, 5, 6]));
    assert!(reached.restarts > 2000 && reached.fresh > 2000, "{} {}", reached.restarts, reached.fresh);
}

/// Of pages with a number: those that are refused differ from sound ones in each way.
#[test]
fn pages_with_numbers() {
    let mut rng = Rng::new(11);
    let mut counts = BTreeSet::new();
    let (mut sound, mut odd) = (0, 0);
    for _ in 0..20_000 {
        let page = numbered::sound_page(&mut rng);
        assert_eq!(check_page(&page), 0);
        sound += usize::from(values(&page).unwrap().last_number.is_some());
        counts.insert(page[0]);
        odd += usize::from(check_page(&numbered::odd_page(&mut rng)) == 20);
    }
    assert_eq!(counts, BTreeSet::from([1, 2, 3, 4, 0xFF]));
    assert!(sound > 15_000 && (5_000..19_000).contains(&odd), "{sound} {odd}");
}

/// A made-up fault: after a save on port 1, a report on port 0.
fn fails(list: &[Call]) -> bool {
    let mut page = [0xFF; 64];
    let (_, mut board) = start(Profile::Full, &page);
    let mut saved = false;
    for call in list {
        let mut room = vec![0; call.room];
        let fed = feed(call.port, &board, &call.chunk, &mut room, &mut page);
        board = fed.board;
        if fed.number == 0 {
            saved |= fed.saved && call.port == 1;
            if saved && call.port == 0 && room[3] > 4 {
                return true;
            }
        }
    }
    false
}

#[test]
fn shrinking() {
    let mut shrunk = 0;
    let mut shortest = 0;
    for seed in 0..500 {
        let mut rng = Rng::new(seed);
        let list = generate::any_calls(&mut rng, &[0xFF; 64], 20);
        let short = generate::shrink(&list, fails);
        if !fails(&list) {
            assert_eq!(short, list);
            continue;
        }
        shrunk += 1;
        assert!(fails(&short));
        // No feed and no byte can be dropped.
        for place in 0..short.len() {
            let mut fewer = short.clone();
            fewer.remove(place);
            assert!(!fails(&fewer));
            for at in 0..short[place].chunk.len() {
                let mut shorter = short.clone();
                shorter[place].chunk.remove(at);
                assert!(!fails(&shorter));
            }
        }
        // Mostly two messages of 9 bytes, or with a value of up to four that is not looked at.
        let bytes: usize = short.iter().map(|call| call.chunk.len()).sum();
        shortest += usize::from((18..=26).contains(&bytes));
    }
    assert!(shrunk > 20 && shortest * 10 > shrunk * 8, "{shortest} of {shrunk}");
}

/// A list may begin with any page that starting accepts.
#[test]
fn any_page() {
    let mut rng = Rng::new(5);
    let mut accepted = 0;
    for _ in 0..300 {
        let page = generate::page(&mut rng);
        let list = generate::any_calls(&mut rng, &page, 3);
        if start(Profile::Full, &page).0 != 0 {
            continue;
        }
        accepted += 1;
        let mut both = Both::new(&page);
        for call in list {
            both.try_feed(call.port, &call.chunk, call.room).unwrap();
        }
        both.compare_state().unwrap();
    }
    assert!(accepted > 50);
}

//! The feed, folded from starting, and the plain reckoning agree on generated lists; and the feed agrees with a third,
//! shorter reading on boards of any contents.
//!
//! `LISTS`, `FEEDS` and `SEED` in the environment change how much is run and from where.

mod common;

use common::Both;
use plain::generate::{self, fields, numbered, Behind, Call, Rng};
use plain::*;

fn setting(name: &str, otherwise: u64) -> u64 {
    match std::env::var(name) {
        Ok(text) => text.parse().expect("a number"),
        Err(_) => otherwise,
    }
}

/// Runs a list on both. Also the law of 01-025: "Over any run from a fresh port, bytes taken on it = lengths of its
/// good messages + bytes the scan skipped + bytes held."
fn run(profile: Profile, page: &[u8], list: &[Call]) -> Result<(), String> {
    let mut both = Both::start(profile, page);
    let mut taken = [0; 2];
    let mut skipped = [0; 2];
    let mut good = [0; 2];
    let mut streams = [Vec::new(), Vec::new()];
    for (place, call) in list.iter().enumerate() {
        let held_before = both.board.ports.map(|port| port.held);
        let settings_before = both.board.settings;
        let page_before = both.page.clone();
        let answer =
            both.try_feed(call.port, &call.chunk, call.room).map_err(|text| format!("feed {place}: {text}"))?;
        if answer.number > 1 {
            common::same("page of a refusal", &both.page, &page_before)?;
            common::same("settings of a refusal", &both.board.settings, &settings_before)?;
            continue;
        }
        let port = usize::from(call.port);
        taken[port] += answer.taken;
        skipped[port] += answer.skipped;
        streams[port].extend_from_slice(&call.chunk[..answer.taken]);
        good[port] += held_before[port] + answer.taken - answer.skipped - both.held(port);
        if answer.number == 1 {
            common::same("taken with 1", &answer.taken, &call.chunk.len())?;
        }
        if !answer.saved {
            common::same("page of a feed that saves nothing", &both.page, &page_before)?;
        }
        common::same("page", &check_page(&both.page), &0)?;
    }
    both.compare_state()?;
    for port in 0..2 {
        let mut lengths = 0;
        let mut at = 0;
        for event in scan(&streams[port]) {
            if at + both.held(port) == streams[port].len() {
                break;
            }
            at = event.after();
            if let Event::Good { length, .. } = event {
                lengths += length;
            }
        }
        common::same("lengths of good messages", &good[port], &lengths)?;
        common::same("the law", &taken[port], &(lengths + skipped[port] + both.held(port)))?;
    }
    Ok(())
}

#[test]
fn feed_and_reckoning() {
    let seed = setting("SEED", 0);
    for place in 0..setting("LISTS", 6000) {
        let mut rng = Rng::new(seed.wrapping_add(place).wrapping_mul(0x2545_F491_4F6C_DD1D));
        let page = generate::sound_page(&mut rng);
        let pieces = if rng.chance(1, 10) { 12 } else { 5 };
        let list = generate::any_calls(&mut rng, &page, pieces);
        run_or_shrink(&format!("list {place}"), generate::profile(&mut rng), &page, &list);
    }
}

/// Lists of messages of several fields.
#[test]
fn several_fields() {
    let mut rng = Rng::new(setting("SEED", 0) ^ 0xF1E1D);
    for place in 0..setting("LISTS", 2000) {
        let page = generate::sound_page(&mut rng);
        let pieces = rng.between(1, 4);
        let list = fields::calls_with_fields(&mut rng, &page, pieces);
        run_or_shrink(&format!("list {place}"), generate::profile(&mut rng), &page, &list);
    }
}

fn run_or_shrink(name: &str, profile: Profile, page: &[u8], list: &[Call]) {
    if let Err(text) = run(profile, page, list) {
        let short = generate::shrink(list, |list| run(profile, page, list).is_err());
        let why = run(profile, page, &short).unwrap_err();
        panic!("{name}: {text}\n{profile:?}, page {page:02X?}\nshortest {short:02X?}\n{why}");
    }
}

/// Runs of A5 of each length up to 300, in front of messages and noise and within messages, on both ports.
#[test]
fn runs_of_a5() {
    let mut rng = Rng::new(setting("SEED", 0) ^ 0xA5A5);
    for length in 1..=300 {
        let page = generate::sound_page(&mut rng);
        for behind in Behind::ALL {
            let streams = [(); 2].map(|()| generate::run_before(&mut rng, length, behind));
            let list = generate::offered(&mut rng, &page, streams);
            run_or_shrink(&format!("{length} A5 before {behind:?}"), generate::profile(&mut rng), &page, &list);
        }
        if length <= 255 {
            let streams = [(); 2].map(|()| generate::run_within(&mut rng, length));
            let list = generate::offered(&mut rng, &page, streams);
            run_or_shrink(&format!("{length} A5 within a message"), generate::profile(&mut rng), &page, &list);
        }
    }
}

/// What a feed gives on a sound board, in another way: the first message of the scan of the held bytes and the chunk in
/// one row.
fn in_one_row(port: u8, board: &Board, chunk: &[u8], room: &mut [u8], page: &mut [u8]) -> Fed {
    let record = &board.ports[usize::from(port)];
    let row = [&record.bytes[..record.held], chunk].concat();
    let mut fed = Fed { number: 1, taken: chunk.len(), skipped: 0, error: 0, saved: false, board: *board };
    let mut at = 0;
    let mut end = row.len();
    let mut good = 0;
    for event in scan(&row) {
        at = event.after();
        fed.skipped += event.skipped();
        good += event.good();
        if let Some((place, length)) = event.message() {
            end = (place + length).max(record.held);
            fed.number = 0;
            fed.taken = end - record.held;
            let message = &row[place..place + length];
            let handled = handle(board.profile, port, message, board.settings, values(page).unwrap());
            fed.saved = handled.saved;
            fed.error = handled.reply[7];
            fed.board.settings = handled.settings;
            room[..handled.reply.len()].copy_from_slice(&handled.reply);
            page.copy_from_slice(&write_page(&handled.values));
            break;
        }
    }
    let mut after = Port::fresh();
    after.held = end - at;
    after.bytes[..end - at].copy_from_slice(&row[at..end]);
    fed.board.ports[usize::from(port)] = after;
    fed.board.tallies[usize::from(port)] = counted(&board.tallies[usize::from(port)], &fed, good);
    fed
}

/// The totals with an accepted feed more, each up to its largest figure.
fn counted(totals: &Tally, fed: &Fed, good: usize) -> Tally {
    let more = |total: u64, more: usize| total.saturating_add(more as u64);
    let mut errors = totals.errors;
    if fed.number == 0 {
        errors[usize::from(fed.error)] = more(errors[usize::from(fed.error)], 1);
    }
    let (taken, skipped) = (more(totals.taken, fed.taken), more(totals.skipped, fed.skipped));
    Tally { taken, skipped, good: more(totals.good, good), errors }
}

/// A page, and a chunk for it: a beginning of a stream, of a message of several fields, or of a numbered command.
fn page_and_chunk(rng: &mut Rng) -> (Vec<u8>, Vec<u8>) {
    let pieces = rng.below(4);
    let page = if rng.chance(1, 2) { generate::page(rng) } else { numbered::page(rng) };
    let last = values(&page).and_then(|values| values.last_number);
    let mut chunk = match rng.below(4) {
        0 => fields::piece_with_fields(rng),
        1 => numbered::numbered_piece(rng, last),
        _ => generate::stream(rng, pieces),
    };
    chunk.truncate(generate::chunk_length(rng));
    (page, chunk)
}

#[test]
fn boards_of_any_contents() {
    let mut rng = Rng::new(setting("SEED", 0) ^ 0xB0A2D);
    let mut numbers = [0; 32];
    for _ in 0..setting("FEEDS", 400_000) {
        let port = generate::port(&mut rng);
        let board = generate::board(&mut rng);
        let (mut page, chunk) = page_and_chunk(&mut rng);
        let mut room = vec![0x77; generate::room(&mut rng)];
        let (given_room, given_page) = (room.clone(), page.clone());
        let fed = feed(port, &board, &chunk, &mut room, &mut page);
        numbers[usize::from(fed.number)] += 1;

        let over = board.ports[0].held > 260 || board.ports[1].held > 260;
        let expected = if port > 1 {
            16
        } else if over || !board.settings.usable() {
            17
        } else if room.len() < 166 {
            18
        } else {
            check_page(&given_page)
        };
        let (mut other_room, mut other_page) = (given_room, given_page);
        let other = if expected == 0 {
            in_one_row(port, &board, &chunk, &mut other_room, &mut other_page)
        } else {
            Fed { number: expected, taken: 0, skipped: 0, error: 0, saved: false, board }
        };
        assert_eq!(fed, other, "port {port}, board {board:02X?}, chunk {chunk:02X?}");
        assert_eq!(room, other_room);
        assert_eq!(page, other_page);
    }
    for number in [0, 1, 16, 17, 18, 19, 20] {
        assert!(numbers[number] > 100, "number {number} came {} times", numbers[number]);
    }
}

/// "It is one claim about the whole list": however a stream is cut, what is taken, reported and kept is the same.
#[test]
fn cutting_changes_nothing() {
    let mut rng = Rng::new(setting("SEED", 0) ^ 0xC07);
    for _ in 0..2000 {
        let page = generate::sound_page(&mut rng);
        let stream = generate::stream(&mut rng, 8);
        let all = |chunks: Vec<Vec<u8>>| {
            let mut page = page;
            let (_, mut board) = start(Profile::Full, &page);
            let mut replies = Vec::new();
            let mut skipped = 0;
            for chunk in chunks {
                let mut rest = &chunk[..];
                loop {
                    let mut room = [0; Port::LONGEST_REPLY];
                    let fed = feed(1, &board, rest, &mut room, &mut page);
                    rest = &rest[fed.taken..];
                    skipped += fed.skipped;
                    board = fed.board;
                    if fed.number != 0 {
                        assert_eq!(fed.number, 1);
                        break;
                    }
                    replies.push((room, fed.saved));
                }
            }
            (board, page, replies, skipped)
        };
        let whole = all(vec![stream.clone()]);
        assert_eq!(all(generate::cut(&mut rng, &stream)), whole);
        assert_eq!(all(stream.iter().map(|&byte| vec![byte]).collect()), whole);
        let messages = scan(&stream).iter().filter(|event| event.message().is_some()).count();
        assert_eq!(whole.2.len(), messages);
    }
}

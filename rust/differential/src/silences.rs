//! Silences: lists of feeds, silences and restarts, drained and not, against the reckoning, the plain port and the laws;
//! false headers of each length; messages that a silence cuts at each place; and single silences of boards of any contents.

use crate::calls::{Calls, Fed};
use crate::feeding::{same_board, same_bytes, Given, Pair, Start};
use crate::group::{same, Outcome, Ran};
use crate::lists::{or_shrink, reckon, reckoned_state, reply_in, run_or_shrink, Beside};
use crate::numbered::{growing, unread, Alone};
use crate::records;
use crate::runs::{to_the_end, Arrival};
use crate::singles;
use crate::tallies::add_up;
use ketphiroj::{Board, Port, Tally};
use plain::generate::numbered::{self, numbered, Silences};
use plain::generate::{self, silences, Rng, Step};
use plain::{Accepted, Draining, Profile, Reckoned, Reckoning, SumLaw};

/// A profile, a page, and a list from them of up to so many pieces.
fn start_and_list(rng: &mut Rng, pieces: usize, silences: Silences) -> (Profile, [u8; 64], Vec<Step>) {
    let (profile, page) = (generate::profile(rng), silences::page(rng));
    let pieces = rng.between(1, pieces);
    let list = silences::history(rng, profile, &page, pieces, silences);
    (profile, page, list)
}

/// Drained lists: the library against the reckoning, with no plain port between them.
pub fn drained(calls: &impl Calls, rng: &mut Rng, ran: &mut Ran) -> Outcome {
    // The reckoning goes through all bytes again for each byte: short lists for it.
    let (profile, page, list) = start_and_list(rng, 3, Silences::Drained);
    let start = Start { profile, page: &page };
    or_shrink(start, &list, ran, |list, ran| against_reckoning(calls, start, list, ran))
}

/// Each answer, reply, state and page is the reckoning's, as long as the list is drained: with fewer steps it may not be.
pub fn against_reckoning(calls: &impl Calls, start: Start, list: &[Step], ran: &mut Ran) -> Outcome {
    let mut alone = Alone::start(calls, start);
    let mut reckoning = Reckoning::new(start.profile, start.page);
    let mut draining = Draining::default();
    for (place, step) in list.iter().enumerate() {
        if let Step::Restart(profile) = *step {
            alone.restart(profile)?;
            reckoning.restart(profile);
            draining = Draining::default();
            continue;
        }
        let given = Given::of(step).ok_or("a restart is no call")?;
        // Not the library's number: with that, a feed that it wrongly accepts would end the comparison.
        let reckoned = reckon(&mut reckoning, given);
        if !draining.allows(step.answered(reckoned.number)) {
            return Ok(());
        }
        let mut room = given.room();
        let fed = given.answer(calls, alone.board, &mut room, &mut alone.page);
        let Fed { number, taken, skipped, error, saved, board } = fed;
        ran.count(number);
        alone.board = board;
        let told = |text| format!("step {place}: {text}");
        let answer = Reckoned { number, taken, skipped, error, saved, reply: reply_in(number, &room).to_vec() };
        same("answer and reckoning", &answer, &reckoned).map_err(told)?;
        same_bytes("room past the reply", &room[answer.reply.len()..], &given.room()[answer.reply.len()..])
            .and_then(|()| reckoned_state(&reckoning, &alone.board, &alone.page))
            .map_err(told)?;
    }
    Ok(())
}

/// Lists with silences anywhere: the library against the port that keeps the held bytes alone. Some have the wrapper beside
/// them.
pub fn any(calls: &impl Calls, rng: &mut Rng, ran: &mut Ran) -> Outcome {
    let silences = rng.pick(&[Silences::Drained, Silences::Anywhere, Silences::Anywhere]);
    let (profile, page, list) = start_and_list(rng, 8, silences);
    let beside = if rng.chance(1, 4) { Beside::Wrapper } else { Beside::Nothing };
    run_or_shrink(calls, Start { profile, page: &page }, &list, beside, ran)
}

/// Lists with silences anywhere, of the library alone: 02-06.6, "demand 1 and the sum law hold there".
pub fn laws(calls: &impl Calls, rng: &mut Rng, ran: &mut Ran) -> Outcome {
    let (profile, page, list) = start_and_list(rng, 8, Silences::Anywhere);
    let start = Start { profile, page: &page };
    or_shrink(start, &list, ran, |list, ran| lawful(calls, start, list, ran))
}

fn lawful(calls: &impl Calls, start: Start, list: &[Step], ran: &mut Ran) -> Outcome {
    let mut alone = Alone::start(calls, start);
    let mut sums = [SumLaw::default(); 2];
    for (place, step) in list.iter().enumerate() {
        if let Step::Restart(profile) = *step {
            alone.restart(profile)?;
            sums = Default::default();
            continue;
        }
        let given = Given::of(step).ok_or("a restart is no call")?;
        let told = |text| format!("step {place}: {text}");
        let (before, page) = (alone.board, alone.page.clone());
        let mut room = given.room();
        let fed = given.answer(calls, before, &mut room, &mut alone.page);
        ran.count(fed.number);
        let reply = reply_in(fed.number, &room);
        same_bytes("room past the reply", &room[reply.len()..], &given.room()[reply.len()..]).map_err(told)?;
        if !fed.saved {
            same("page without the mark", &alone.page, &page).map_err(told)?;
        }
        if plain::number::accepted(fed.number) {
            accepted(&before, step, &fed, reply, &mut sums).map_err(told)?;
        } else {
            refused(&before, &fed).map_err(told)?;
        }
        alone.board = fed.board;
    }
    Ok(())
}

fn refused(before: &Board, fed: &Fed) -> Outcome {
    // From a start on board and page stay sound, so that 17, 19 and 20 cannot come.
    same("number of a refusal", &[16, 18].contains(&fed.number), &true)?;
    same("counts of a refusal", &(fed.taken, fed.skipped, fed.error, fed.saved), &(0, 0, 0, false))?;
    same_board(&fed.board, before)
}

/// Of an accepted call: what is taken, held and left alone, and the sum law, of the calls and between the totals.
fn accepted(before: &Board, step: &Step, fed: &Fed, reply: &[u8], sums: &mut [SumLaw; 2]) -> Outcome {
    let (port, room) = step.port_and_room().ok_or("a restart is no call")?;
    same("room for the longest reply", &(room >= Board::REPLY), &true)?;
    let (named, tally) = match port {
        0 => (&fed.board.first, &fed.board.tally0),
        1 => (&fed.board.second, &fed.board.tally1),
        _ => return Err(format!("a call of port {port} was accepted")),
    };
    let (taken, skipped, held) = (fed.taken, fed.skipped, named.held);
    let unread = unread(before, step);
    same("taken at most the chunk", &(taken <= step.chunk().len()), &true)?;
    same("held at most 260", &(held <= 260), &true)?;
    let row = &unread[..unread.len() - step.chunk().len() + taken];
    same("held at most what was there", &(held <= row.len()), &true)?;
    sums[usize::from(port)].count(&Accepted { row, taken, skipped, reply, held })?;
    same_bytes("held", &named.bytes[..held], &row[row.len() - held..])?;
    same_bytes("past held", &named.bytes[held..], &[0; 260][held..])?;
    same("other port", &other_port(port, &fed.board), &other_port(port, before))?;
    add_up(tally, held)?;
    match step {
        Step::Silence { .. } => same("nothing held after 1", &(fed.number == 0 || held == 0), &true),
        _ => same("all taken with 1", &(fed.number == 0 || taken == step.chunk().len()), &true),
    }
}

/// The port that is not named, and its totals.
fn other_port(named: u8, board: &Board) -> (Port, Tally) {
    match named {
        0 => (board.second, board.tally1),
        _ => (board.first, board.tally0),
    }
}

/// 02-06.7 on the library alone: over histories with silences, drained or not, the numbers that it accepts grow.
pub fn grow(calls: &impl Calls, rng: &mut Rng, ran: &mut Ran) -> Outcome {
    let silences = rng.pick(&[Silences::Drained, Silences::Anywhere]);
    let (profile, page, list) = start_and_list(rng, 12, silences);
    let start = Start { profile, page: &page };
    or_shrink(start, &list, ran, |list, ran| growing(calls, start, list, ran))
}

/// What stands behind a false header: commands, damaged ones, headers, parts of them, nothing.
fn behind() -> Vec<Vec<u8>> {
    let ping = plain::message(0x01, &[0x02, 0]);
    let save = plain::message(0x02, &[0x08, 2, 1, 5, 0x08, 1, 3]);
    let mut damaged = ping.clone();
    damaged[7] ^= 1;
    let header = [0xA5, 0xA5, 0x02, 0xFF];
    vec![
        ping.clone(),
        [&save[..], &ping].concat(),
        [&damaged[..], &save].concat(),
        [&header[..], &ping].concat(),
        [&header[..], &header, &damaged, &header[..3], &ping, &header[..1]].concat(),
        // The length byte of the header is the first A5 of the Ping.
        [&header[..3], &ping].concat(),
        [&numbered(7, 0x02, &[0x07, 2, 1, 4])[..], &numbered(7, 0x02, &[0x07, 2, 1, 1])].concat(),
        ping[..7].to_vec(),
        vec![0xA5; 5],
        Vec::new(),
    ]
}

/// A header that claims each length, with each of these behind it, on each port; then a silence, and a Ping. And each
/// message, cut by a silence at each place.
pub fn false_headers(calls: &impl Calls, rng: &mut Rng, ran: &mut Ran) -> Outcome {
    let behind = behind();
    for length in 0..=255 {
        for (place, bytes) in behind.iter().enumerate() {
            let header = [0xA5, 0xA5, rng.pick(&[0x01, 0x02, 0x7C, 0xFF]), length];
            let port = ((place + usize::from(length)) % 2) as u8;
            cut(calls, (generate::profile(rng), port), [&header[..], bytes], bytes, ran)?;
        }
    }
    for port in [0, 1] {
        for bytes in &behind {
            (0..=bytes.len()).try_for_each(|at| {
                let (begun, ended) = bytes.split_at(at);
                cut(calls, (generate::profile(rng), port), [begun, &[]], ended, ran)
            })?;
        }
        full_ports(calls, (generate::profile(rng), port), ran)?;
    }
    Ok(())
}

/// These two chunks, a silence, what comes behind it, another silence, and a Ping. The other port has a part of a command
/// before, and its end after the silence.
fn cut(calls: &impl Calls, (profile, port): (Profile, u8), chunks: [&[u8]; 2], after: &[u8], ran: &mut Ran) -> Outcome {
    let command = plain::message(0x02, &[0x07, 2, 1, 4]);
    let (begun, ended) = command.split_at(5);
    let ping = plain::message(0x01, &[0x02, 0]);
    let list = to_the_end(&[
        Arrival::Chunk(1 - port, begun),
        Arrival::Chunk(port, chunks[0]),
        Arrival::Chunk(port, chunks[1]),
        Arrival::Silence(port),
        Arrival::Chunk(port, after),
        Arrival::Chunk(1 - port, ended),
        Arrival::Silence(port),
        Arrival::Chunk(port, &ping),
        Arrival::Silence(1 - port),
    ]);
    let start = Start { profile, page: &[0xFF; 64] };
    or_shrink(start, &list, ran, |list, ran| against_reckoning(calls, start, list, ran))
}

/// 260 bytes held behind a header that claims 255: filled with headers that claim more than what follows, with a Ping at
/// each fourth place, the last of them behind what is held.
fn full_ports(calls: &impl Calls, (profile, port): (Profile, u8), ran: &mut Ran) -> Outcome {
    let ping = plain::message(0x01, &[0x02, 0]);
    for place in (4..=260).step_by(4) {
        let mut held = [0xA5, 0xA5, 0x01, 0xFF].repeat(65);
        let end = held.len().min(place + ping.len());
        held[place..end].copy_from_slice(&ping[..end - place]);
        let list = to_the_end(&[Arrival::Chunk(port, &held), Arrival::Silence(port), Arrival::Chunk(port, &ping)]);
        run_or_shrink(calls, Start { profile, page: &[0xFF; 64] }, &list, Beside::Wrapper, ran)?;
    }
    Ok(())
}

/// One silence of a board of any contents, sound or not, with junk past the held bytes, any room and any page.
pub fn boards(calls: &impl Calls, rng: &mut Rng, ran: &mut Ran) -> Outcome {
    let mut plain = generate::board(rng);
    if rng.chance(1, 2) {
        hold_headers(rng, &mut plain);
    }
    let page = if rng.chance(1, 2) { numbered::page(rng) } else { generate::page(rng) };
    let pair = Pair { board: records::board(&plain), plain, page };
    singles::one(calls, &pair, Given::Silence { port: generate::port(rng), room: generate::room(rng) }, ran)
}

/// Headers and commands in a port, up to all of its room.
fn hold_headers(rng: &mut Rng, board: &mut plain::Board) {
    let port = &mut board.ports[rng.below(2)];
    let mut held = Vec::new();
    while held.len() < 260 && !rng.chance(1, 6) {
        held.extend(silences::headers(rng));
        held.extend(silences::piece(rng, None));
    }
    held.truncate(260);
    port.held = held.len();
    port.bytes[..held.len()].copy_from_slice(&held);
}

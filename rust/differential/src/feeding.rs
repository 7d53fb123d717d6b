//! One start, one feed and one silence, compared whole.

use crate::calls::{Calls, Fed};
use crate::group::{filled, same, Outcome};
use crate::records;
use crate::wrapper::Wrapper;
use ketphiroj::{Board, Refusal};
use plain::generate::{Call, Step};
use plain::Profile;

/// A board of the library and its page, and those of the plain reading, which are the same so far.
#[derive(Clone)]
pub struct Pair {
    pub board: Board,
    pub plain: plain::Board,
    pub page: Vec<u8>,
}

/// What a board is started from: the profile that it is told, and the page.
#[derive(Clone, Copy)]
pub struct Start<'a> {
    pub profile: Profile,
    pub page: &'a [u8],
}

/// Compares boards whole; a difference is told by its part, since a board is long.
pub fn same_board(library: &Board, plain: &Board) -> Outcome {
    if library == plain {
        return Ok(());
    }
    same("read-only", &library.readonly, &plain.readonly)?;
    same("settings", &library.settings, &plain.settings)?;
    same("held by port 0", &library.first.held, &plain.first.held)?;
    same("held by port 1", &library.second.held, &plain.second.held)?;
    same_bytes("bytes of port 0", &library.first.bytes, &plain.first.bytes)?;
    same_bytes("bytes of port 1", &library.second.bytes, &plain.second.bytes)?;
    same("totals of port 0", &library.tally0, &plain.tally0)?;
    same("totals of port 1", &library.tally1, &plain.tally1)
}

/// Compares arrays of one length; a difference is told by its first bytes.
pub fn same_bytes(what: &str, library: &[u8], plain: &[u8]) -> Outcome {
    let Some(at) = library.iter().zip(plain).position(|(one, other)| one != other) else {
        return Ok(());
    };
    let end = library.len().min(at + 8);
    same(&format!("{what} from {at} on"), &library[at..end], &plain[at..end])
}

/// Starts both, whether they accept the page or not. Gives the number too.
pub fn start(calls: &impl Calls, Start { profile, page }: Start) -> Result<(u8, Pair), String> {
    let started = calls.start(records::readonly(profile), page);
    let (number, plain) = plain::start(profile, page);
    same("number of start", &started.number, &number)?;
    same_board(&started.board, &records::board(&plain))?;
    Ok((number, Pair { board: started.board, plain, page: page.to_vec() }))
}

/// What a port of a board is given: a chunk, or word that its line is silent; and the length of the room.
#[derive(Clone, Copy)]
pub enum Given<'a> {
    Feed { port: u8, chunk: &'a [u8], room: usize },
    Silence { port: u8, room: usize },
}

impl<'a> Given<'a> {
    /// Of a step that is a call.
    pub fn of(step: &'a Step) -> Option<Given<'a>> {
        match *step {
            Step::Feed(Call { port, ref chunk, room }) => Some(Given::Feed { port, chunk, room }),
            Step::Silence { port, room } => Some(Given::Silence { port, room }),
            Step::Restart(_) => None,
        }
    }

    /// The room as it is before the call: a byte that depends on the chunk, so that no filling is that of every feed.
    pub fn room(self) -> Vec<u8> {
        match self {
            Given::Feed { chunk, room, .. } => filled(room, 0x5C ^ chunk.len() as u8),
            Given::Silence { room, .. } => filled(room, 0xC5),
        }
    }

    /// What the library answers.
    pub fn answer(self, calls: &impl Calls, board: Board, room: &mut [u8], page: &mut [u8]) -> Fed {
        match self {
            Given::Feed { port, chunk, .. } => calls.feed(port, board, chunk, room, page),
            Given::Silence { port, .. } => calls.silence(port, board, room, page),
        }
    }

    fn plain_answer(self, board: &plain::Board, room: &mut [u8], page: &mut [u8]) -> plain::Fed {
        match self {
            Given::Feed { port, chunk, .. } => plain::feed(port, board, chunk, room, page),
            Given::Silence { port, .. } => plain::silence(port, board, room, page),
        }
    }

    /// What the wrapper gives.
    pub fn wrapped_answer(
        self,
        wrapper: &impl Wrapper,
        board: &mut Board,
        room: &mut [u8],
        page: &mut [u8],
    ) -> Result<ketphiroj::Outcome, Refusal> {
        match self {
            Given::Feed { port, chunk, .. } => wrapper.wrapped_feed(port, board, chunk, room, page),
            Given::Silence { port, .. } => wrapper.wrapped_silence(port, board, room, page),
        }
    }
}

/// Calls both, and compares the answer, the board whole, the room and the page.
pub fn call(calls: &impl Calls, pair: &mut Pair, given: Given) -> Result<(plain::Fed, Vec<u8>), String> {
    let mut room = given.room();
    let mut plain_room = room.clone();
    let mut plain_page = pair.page.clone();
    let fed = given.answer(calls, pair.board, &mut room, &mut pair.page);
    let plain = given.plain_answer(&pair.plain, &mut plain_room, &mut plain_page);
    same("number", &fed.number, &plain.number)?;
    same("taken", &fed.taken, &plain.taken)?;
    same("skipped", &fed.skipped, &plain.skipped)?;
    same("error", &fed.error, &plain.error)?;
    same("saved", &fed.saved, &plain.saved)?;
    same("room", &room, &plain_room)?;
    same("page", &pair.page, &plain_page)?;
    same_board(&fed.board, &records::board(&plain.board))?;
    pair.board = fed.board;
    pair.plain = plain.board;
    Ok((plain, room))
}

/// The wrapper on the same call: its outcome says what the numbers say, and the board of a refusal stays.
pub fn call_wrapped(
    wrapper: &impl Wrapper,
    (before, after): (&Pair, &Pair),
    given: Given,
    fed: &plain::Fed,
    room: &[u8],
) -> Outcome {
    let mut board = before.board;
    let mut page = before.page.clone();
    let mut wrapped_room = given.room();
    let outcome = given.wrapped_answer(wrapper, &mut board, &mut wrapped_room, &mut page);
    let plain::Fed { taken, skipped, error, saved, .. } = *fed;
    let (error, reply) = (records::error(error), room.get(3).map_or(0, |&length| usize::from(length) + 6));
    let expected = match fed.number {
        0 => Ok(ketphiroj::Outcome::Reported { taken, skipped, saved, error, reply }),
        1 => Ok(ketphiroj::Outcome::UsedUp { taken, skipped }),
        number => Err(Refusal::from_number(number).ok_or("a number of no refusal")?),
    };
    same("wrapped outcome", &outcome, &expected)?;
    same_board(&board, &after.board).map_err(|text| format!("wrapped: {text}"))?;
    for port in [0, 1, 2] {
        let expected = after.plain.tallies.get(usize::from(port)).map(records::tally);
        same("wrapped totals of a port", &wrapper.wrapped_tally(&board, port), &expected)?;
    }
    same("wrapped room", &wrapped_room[..], room)?;
    same("wrapped page", &page, &after.page)
}

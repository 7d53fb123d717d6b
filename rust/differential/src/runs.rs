//! Runs of A5 of every length, in front of messages and of noise, and within messages.

use crate::calls::Calls;
use crate::feeding::Start;
use crate::group::{Outcome, Ran};
use crate::lists::{run_or_shrink, Beside};
use ketphiroj::Board;
use plain::generate::{self, Behind, Call, Rng, Step};
use plain::Profile;

const LONGEST: usize = 320;

/// Runs up to this length, two of the library's blocks of 16 bytes and more, are cut at every place, longer ones at random.
const SHORT: usize = 36;

/// Each length, in front of each kind of thing, and in a payload.
pub fn all(calls: &impl Calls, rng: &mut Rng, ran: &mut Ran) -> Outcome {
    for length in 1..=LONGEST {
        for behind in Behind::ALL {
            both_ports(calls, rng, length, |rng| generate::run_before(rng, length, behind), ran)
                .map_err(|text| format!("{length} A5 before {behind:?}: {text}"))?;
        }
        if length <= 255 {
            both_ports(calls, rng, length, |rng| generate::run_within(rng, length), ran)
                .map_err(|text| format!("{length} A5 within a message: {text}"))?;
        }
    }
    Ok(())
}

/// Two such streams, one for each port.
fn both_ports(
    calls: &impl Calls,
    rng: &mut Rng,
    length: usize,
    stream: impl Fn(&mut Rng) -> Vec<u8>,
    ran: &mut Ran,
) -> Outcome {
    let page = generate::sound_page(rng);
    let start = Start { profile: generate::profile(rng), page: &page };
    let streams = [stream(rng), stream(rng)];
    if length <= SHORT {
        // The lists are short, and so compared with the reckoning too.
        cut_at_every_place(calls, start, &streams, Beside::Reckoning, ran)?;
    }
    let list: Vec<Step> = generate::offered(rng, &page, streams).into_iter().map(Step::Feed).collect();
    run_or_shrink(calls, start, &list, Beside::Nothing, ran)
}

/// The ports alternate: a first part to each, then the rest. The one stream is cut from its front on, the other from
/// its end.
pub fn cut_at_every_place(
    calls: &impl Calls,
    start: Start,
    streams: &[Vec<u8>; 2],
    beside: Beside,
    ran: &mut Ran,
) -> Outcome {
    let [first, second] = streams;
    for cut in 0..=first.len().max(second.len()) {
        let (begun, ended) = first.split_at(cut.min(first.len()));
        let (other_begun, other_ended) = second.split_at(second.len().saturating_sub(cut));
        let list = used_up(&[(0, begun), (1, other_begun), (0, ended), (1, other_ended)]);
        run_or_shrink(calls, start, &list, beside, ran)?;
    }
    Ok(())
}

/// What comes on a port: a chunk, or a silence.
pub enum Arrival<'a> {
    Chunk(u8, &'a [u8]),
    Silence(u8),
}

/// Chunks in turn, each fed until it is used up, so that nothing of a stream is lost.
fn used_up(chunks: &[(u8, &[u8])]) -> Vec<Step> {
    let arrivals: Vec<Arrival> = chunks.iter().map(|&(port, chunk)| Arrival::Chunk(port, chunk)).collect();
    to_the_end(&arrivals)
}

/// Chunks and silences in turn, each called until the answer is 1. The answers are those of the plain board on a blank
/// page; in either profile they are the same as far as they are looked at.
pub fn to_the_end(arrivals: &[Arrival]) -> Vec<Step> {
    let mut page = vec![0xFF; 64];
    let (_, mut board) = plain::start(Profile::Full, &page);
    let mut list = Vec::new();
    for arrival in arrivals {
        let mut rest = match arrival {
            Arrival::Chunk(_, chunk) => *chunk,
            Arrival::Silence(_) => &[],
        };
        let mut answered = 0;
        while answered == 0 {
            let step = match *arrival {
                Arrival::Chunk(port, _) => Step::Feed(Call { port, chunk: rest.to_vec(), room: Board::REPLY }),
                Arrival::Silence(port) => Step::Silence { port, room: Board::REPLY },
            };
            let fed = step.answer(&board, &mut [0; Board::REPLY], &mut page).expect("a call is answered");
            list.push(step);
            rest = &rest[fed.taken..];
            board = fed.board;
            answered = fed.number;
        }
    }
    list
}

//! The floor programs against the library: every answer, the reply, the page, the port's bytes and the totals, on the generated files
//! in pieces of several sizes and on any board, page and room. A program that left something out would set no floor.

#![forbid(unsafe_code)]

use bench::files::File;
use bench::floor::{self, Branching, Fields, Selecting};
use bench::PIECE;
use ketphiroj::ffi::{call_in_place, Stepped, TOTALS};
use ketphiroj::{Settings, PAGE};
use plain::generate::{self, fields, numbered, ranges, Behind, Rng};

/// What a feed is given and may write.
#[derive(Clone, Debug, PartialEq)]
struct Given {
    port: u8,
    bytes: Vec<u8>,
    held: [usize; 2],
    settings: Settings,
    readonly: bool,
    totals: Vec<u64>,
    room: Vec<u8>,
    page: Vec<u8>,
}

/// A feed as the library has it.
#[derive(Clone, Copy)]
enum Program {
    Library,
    Branching,
    Selecting,
}

impl Program {
    const FLOORS: [Program; 2] = [Program::Branching, Program::Selecting];

    fn feed(self, given: &mut Given, chunk: &[u8]) -> Stepped {
        match self {
            Program::Library => {
                let Given { port, bytes, held: [first, second], settings, readonly, totals, room, page } = given;
                call_in_place(*port, bytes, *first, *second, *settings, *readonly, false, totals, chunk, room, page)
            }
            Program::Branching => fed::<Branching>(given, chunk),
            Program::Selecting => fed::<Selecting>(given, chunk),
        }
    }
}

fn fed<F: Fields>(given: &mut Given, chunk: &[u8]) -> Stepped {
    let Given { port, bytes, held: [first, second], settings, readonly, totals, room, page } = given;
    floor::feed_in_place::<F>(*port, bytes, *first, *second, *settings, *readonly, totals, chunk, room, page)
}

/// Feeds to the library and to each floor program, which must do the same to the last byte; what the library answered.
fn feed_to_all(name: &str, given: &mut Given, chunk: &[u8]) -> Stepped {
    let before = given.clone();
    let answer = Program::Library.feed(given, chunk);
    for (place, program) in Program::FLOORS.into_iter().enumerate() {
        let mut own = before.clone();
        let own_answer = program.feed(&mut own, chunk);
        let same = own_answer == answer && own == *given;
        assert!(same, "{name}, program {place}, {before:02X?} fed {chunk:02X?}: {own_answer:?} {own:02X?}\nand not {answer:?} {given:02X?}");
    }
    answer
}

fn fresh(readonly: bool, page: &[u8]) -> Given {
    let (_, board) = plain::start(plain::Profile::Full, page);
    let plain::Settings { baud, accelerometer, gyroscope } = board.settings;
    Given {
        port: 0,
        bytes: vec![0; 260],
        held: [0; 2],
        settings: Settings { baud, accelerometer, gyroscope },
        readonly,
        totals: vec![0; TOTALS],
        // What a reply does not touch is to stay.
        room: (0..=180).collect(),
        page: page.to_vec(),
    }
}

/// Feeds pieces, each until it is used up, and gives how many messages there were.
fn feed_pieces<'a>(name: &str, given: &mut Given, pieces: impl Iterator<Item = &'a [u8]>) -> u64 {
    let mut messages = 0;
    for piece in pieces {
        let mut rest = piece;
        loop {
            let answer = feed_to_all(name, given, rest);
            given.held[usize::from(given.port)] = answer.held;
            given.settings = answer.settings;
            rest = &rest[answer.taken..];
            match answer.number {
                0 => messages += 1,
                1 => break,
                number => panic!("{name}: refused with {number}"),
            }
        }
    }
    messages
}

#[test]
fn files() {
    for file in File::ALL {
        for (size, length) in [(1, 6), (7, 16), (16, 16), (260, 40), (261, 40), (4096, 100), (PIECE, 100)] {
            let bytes = file.bytes(length << 10);
            let mut given = fresh(false, &[0xFF; PAGE]);
            let messages = feed_pieces(file.name(), &mut given, bytes.chunks(size));
            let found = plain::scan(&bytes).iter().filter(|event| event.message().is_some()).count();
            assert_eq!(messages, found as u64, "{} in pieces of {size}", file.name());
        }
    }
}

/// Streams of commands whole and wrong, numbered or not, damage and noise, on either port of boards of either profile, on any sound page.
#[test]
fn streams() {
    let mut rng = Rng::new(0xF100);
    for round in 0..1500 {
        let page = if round % 3 == 0 { numbered::sound_page(&mut rng) } else { generate::sound_page(&mut rng) };
        let mut given = Given { port: rng.below(2) as u8, ..fresh(rng.chance(1, 3), &page) };
        let stream = match round % 5 {
            0 => numbered::stream(&mut rng, 60),
            1 => (0..40).flat_map(|_| fields::piece_with_fields(&mut rng)).collect(),
            2 => (0..60).flat_map(|_| ranges::command(&mut rng, None)).collect(),
            _ => generate::stream(&mut rng, 60),
        };
        let chunks = generate::cut(&mut rng, &stream);
        feed_pieces("a stream", &mut given, chunks.iter().map(Vec::as_slice));
    }
}

/// Runs of A5, cut at every place.
#[test]
fn runs() {
    let mut rng = Rng::new(0xF1A5);
    for length in (0..20).chain([31, 32, 33, 34, 63, 64, 65, 97, 258, 259, 260, 261, 262, 300]) {
        for behind in Behind::ALL {
            let stream = generate::run_before(&mut rng, length, behind);
            for cut in 0..=stream.len() {
                let (first, second) = stream.split_at(cut);
                feed_pieces("a run", &mut fresh(false, &[0xFF; PAGE]), [first, second].into_iter());
            }
        }
    }
}

/// Any board, page, room and chunk: refused or not. Each refusal comes, and so does each error.
#[test]
fn anything() {
    let mut rng = Rng::new(0xF1AA);
    let (mut numbers, mut errors) = ([0; 21], [0; 8]);
    for round in 0..60_000 {
        let page = if rng.chance(1, 2) { numbered::page(&mut rng) } else { generate::page(&mut rng) };
        let mut given = any(&mut rng, page);
        let last = plain::values(&given.page).and_then(|values| values.last_number);
        let mut chunk = match round % 3 {
            0 => fields::piece_with_fields(&mut rng),
            1 => numbered::numbered_piece(&mut rng, last),
            _ => generate::piece(&mut rng),
        };
        if rng.chance(1, 4) {
            chunk.extend(generate::piece(&mut rng));
        }
        let answer = feed_to_all("anything", &mut given, &chunk);
        numbers[usize::from(answer.number)] += 1;
        errors[usize::from(answer.error)] += 1;
    }
    let all = [0, 1, 16, 17, 18, 19, 20].map(|number: usize| numbers[number]);
    assert!(all.iter().chain(&errors).all(|&count| count > 100), "numbers {all:?} errors {errors:?}");
}

/// Arguments of any kind on a page.
fn any(rng: &mut Rng, page: Vec<u8>) -> Given {
    let board = if rng.chance(1, 2) { generate::sound_board(rng) } else { generate::board(rng) };
    let port = generate::port(rng);
    let named = usize::from(port).min(1);
    let plain::Settings { baud, accelerometer, gyroscope } = board.settings;
    let plain::Tally { taken, skipped, good, errors } = board.tallies[named];
    let mut given = Given {
        port,
        bytes: board.ports[named].bytes.to_vec(),
        held: [board.ports[0].held, board.ports[1].held],
        settings: Settings { baud, accelerometer, gyroscope },
        readonly: board.profile == plain::Profile::ReadOnly,
        totals: [taken, skipped, good].into_iter().chain(errors).collect(),
        room: rng.bytes(0),
        page,
    };
    let room = generate::room(rng);
    given.room = rng.bytes(room);
    if rng.chance(1, 2) {
        // Half of the boards have nothing held: then the chunk is read where it is.
        given.held[named] = 0;
    }
    if rng.chance(1, 60) {
        given.bytes.resize(rng.pick(&[0, 259, 261]), 0);
    }
    if rng.chance(1, 60) {
        given.totals.resize(rng.pick(&[0, 10, 12]), 0);
    }
    given
}

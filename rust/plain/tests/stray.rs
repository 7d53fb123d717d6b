//! Request 01 (02-01.1 to 02-01.5): stray A5 bytes are skipped and not reported, on the feed and on the plain reckoning
//! at once. What is expected is worked out from the papers by hand.

mod common;

use common::{hex, Both, P1, P1_REPLY, P2};
use plain::generate::{self, Rng};
use plain::*;

/// What a port answered while a chunk was used up.
#[derive(Debug, Default, PartialEq, Eq)]
struct Answers {
    replies: Vec<Vec<u8>>,
    skipped: usize,
}

/// Feeds a chunk, the rest of it and the empty rest too, until the answer is 1.
fn use_up(both: &mut Both, port: u8, chunk: &[u8]) -> Answers {
    let mut answers = Answers::default();
    let mut rest = chunk;
    loop {
        let answer = both.feed(port, rest);
        rest = &rest[answer.taken..];
        answers.skipped += answer.skipped;
        match answer.number {
            0 => answers.replies.push(answer.reply),
            number => {
                assert_eq!((number, rest.len()), (1, 0));
                return answers;
            }
        }
    }
}

/// A run of A5, then a Ping.
fn run_and_ping(run: usize) -> Vec<u8> {
    [vec![0xA5; run], hex(P1)].concat()
}

/// How many of a run and a Ping are skipped once `taken` of their bytes are there: of the run and the Ping's own A5 A5
/// all but the last two.
fn skipped_of(run: usize, taken: usize) -> usize {
    taken.min(run + 2).saturating_sub(2)
}

#[test]
fn runs_before_a_ping() {
    for run in 0..=6 {
        let input = run_and_ping(run);
        for port in 0..2 {
            let mut both = Both::blank();
            let answer = both.feed(port, &input);
            assert_eq!((answer.number, answer.taken, answer.skipped), (0, run + 8, run));
            assert_eq!(answer.reply, hex(P1_REPLY));
            assert_eq!(both.held(usize::from(port)), 0);
        }
    }
}

/// Cut at every place, and at every two places.
#[test]
fn runs_before_a_ping_in_parts() {
    for run in 0..=6 {
        let input = run_and_ping(run);
        for second in 0..input.len() {
            for first in 0..=second {
                let mut both = Both::blank();
                let mut skipped = 0;
                for (from, to) in [(0, first), (first, second)] {
                    let answer = both.feed(0, &input[from..to]);
                    let expected = (1, to - from, skipped_of(run, to) - skipped);
                    assert_eq!((answer.number, answer.taken, answer.skipped), expected);
                    skipped += answer.skipped;
                    assert_eq!(both.held(0), to - skipped);
                }
                let answer = both.feed(0, &input[second..]);
                assert_eq!((answer.number, answer.taken, answer.skipped), (0, input.len() - second, run - skipped));
                assert_eq!(answer.reply, hex(P1_REPLY));
                assert_eq!(both.held(0), 0);
            }
        }
    }
}

/// Both ports alternate, each with a run of its own: byte by byte, and each cut at every place.
#[test]
fn runs_on_both_ports() {
    let whole = |run| Answers { replies: vec![hex(P1_REPLY)], skipped: run };
    for (first, second) in (2..=6).flat_map(|first| (2..=6).map(move |second| (first, second))) {
        let inputs = [run_and_ping(first), run_and_ping(second)];
        let length = inputs[0].len().max(inputs[1].len());
        let mut both = Both::blank();
        let mut answers = [Answers::default(), Answers::default()];
        for (at, port) in (0..length).flat_map(|at| [(at, 0), (at, 1)]) {
            let byte: Vec<u8> = inputs[port].get(at).copied().into_iter().collect();
            let more = use_up(&mut both, port as u8, &byte);
            answers[port].skipped += more.skipped;
            answers[port].replies.extend(more.replies);
        }
        assert_eq!(answers, [whole(first), whole(second)]);

        for cut in 0..=length {
            let cuts = [cut.min(inputs[0].len()), (length - cut).min(inputs[1].len())];
            let mut both = Both::blank();
            let begun = [0, 1].map(|port| use_up(&mut both, port as u8, &inputs[port][..cuts[port]]));
            let ended = [0, 1].map(|port| use_up(&mut both, port as u8, &inputs[port][cuts[port]..]));
            for (port, run) in [(0, first), (1, second)] {
                assert_eq!(begun[port].skipped + ended[port].skipped, run);
                let replies = [&begun[port].replies[..], &ended[port].replies].concat();
                assert_eq!(replies, whole(run).replies);
            }
        }
    }
}

/// A front of A5 A5 is undecided while no third byte is there.
#[test]
fn a_run_at_the_end_of_a_chunk() {
    for (chunk, skipped) in [("A5A5", 0), ("A5A5A5", 1), ("A5A5A5A5", 2), ("00A5A5A5", 2), ("A500A5A5A5", 3)] {
        let mut both = Both::blank();
        let chunk = hex(chunk);
        let answer = both.feed(0, &chunk);
        assert_eq!((answer.number, answer.taken, answer.skipped), (1, chunk.len(), skipped));
        assert_eq!(both.held(0), 2);
        let answer = both.feed(0, &[]);
        assert_eq!((answer.number, answer.taken, answer.skipped), (1, 0, 0));
        assert_eq!(both.held(0), 2);
        // Another byte than A5 is then a type.
        let answer = both.feed(0, &hex(P1)[2..]);
        assert_eq!((answer.number, answer.taken, answer.skipped), (0, 6, 0));
        assert_eq!(answer.reply, hex(P1_REPLY));
    }
}

/// The end of a damaged message is looked at only by the next feed, and so is a run of A5 there.
#[test]
fn a_run_in_held_bytes() {
    let mut both = Both::blank();
    // Type 01, L = 1; F1 would be F1.
    let answer = both.feed(0, &hex("A5A50101A5A5A5"));
    assert_eq!((answer.number, answer.taken, answer.skipped), (0, 7, 1));
    assert_eq!(answer.reply[6..8], [0xA5, 1]);
    assert_eq!(both.held(0), 6);
    // A5 01 01, then one of three A5.
    let answer = both.feed(0, &[]);
    assert_eq!((answer.number, answer.taken, answer.skipped), (1, 0, 4));
    assert_eq!(both.held(0), 2);

    let mut board = start(Profile::Full, &[0xFF; 64]).1;
    board.ports[1] = Port { bytes: [0xA5; 260], held: 260 };
    let fed = feed(1, &board, &[], &mut [0; Port::LONGEST_REPLY], &mut [0xFF; 64]);
    assert_eq!((fed.number, fed.taken, fed.skipped), (1, 0, 258));
    assert_eq!(fed.board.ports[1].held, 2);
}

/// However long a run is and wherever it is cut, at most two bytes of it are held.
#[test]
fn a_run_holds_at_most_two_bytes() {
    for step in 0..=300 {
        let mut both = Both::blank();
        let mut taken = 0;
        for chunk in [step, 1, step, 0, 2] {
            let answer = both.feed(1, &vec![0xA5; chunk]);
            let skipped_before = skipped_of(taken, taken);
            taken += chunk;
            assert_eq!((answer.number, answer.taken), (1, chunk));
            assert_eq!(answer.skipped, skipped_of(taken, taken) - skipped_before);
            assert_eq!(both.held(1), taken.min(2));
        }
    }
}

/// What the plain writer writes for type A5: these bytes, which are one whole message with right sums.
fn written(payload: &str, expected: &str) -> Vec<u8> {
    let payload = hex(payload);
    let mut room = [0; 261];
    let (number, length) = write_message(0xA5, &payload, &mut room);
    assert_eq!((number, length), (0, payload.len() + 6));
    assert_eq!(room[..length], hex(expected));
    assert_eq!(check_message(&room[..length]), 0);
    room[..length].to_vec()
}

/// No payload: behind the skipped byte stands a header of type 00 with L = EF, which takes 245 bytes.
#[test]
fn type_a5_without_payload() {
    let bytes = written("", "A5A5A500EFCD");
    let mut both = Both::blank();
    let answer = both.feed(0, &bytes);
    assert_eq!((answer.number, answer.taken, answer.skipped), (1, 6, 1));
    assert_eq!(both.held(0), 5);
    // A5 A5 00 EF CD and zeros. F1 would be 06.
    let answer = both.feed(0, &[0; 300]);
    assert_eq!((answer.number, answer.taken, answer.skipped), (0, 240, 1));
    assert_eq!(answer.reply, hex("A5A500048002CD019E60"));
    assert_eq!(both.held(0), 244);
    let answer = both.feed(0, &[]);
    assert_eq!((answer.number, answer.taken, answer.skipped), (1, 0, 244));
}

/// A Ping's payload: behind the skipped byte stands a header of type 02 with L = 2. Its message ends in the first byte
/// behind the one of type A5 and is damaged.
#[test]
fn type_a5_with_the_payload_of_a_ping() {
    let bytes = written("0200", "A5A5A5020200F3B5");
    let input = [bytes, hex(P1)].concat();
    let mut both = Both::blank();
    // A5 A5 02 02 00 F3 B5 A5: F1 would be 41.
    let answer = both.feed(0, &input);
    assert_eq!((answer.number, answer.taken, answer.skipped), (0, 9, 2));
    assert_eq!(answer.reply, hex("A5A5020480020001D3D2"));
    // A5 02 02 00 F3 B5 are skipped; the last held A5 is the Ping's first.
    let answer = both.feed(0, &input[9..]);
    assert_eq!((answer.number, answer.taken, answer.skipped), (0, 7, 6));
    assert_eq!(answer.reply, hex(P1_REPLY));
    assert_eq!(both.held(0), 0);
}

/// Behind the skipped byte stands a good message of type 03 with L = 0, and then the sums of the one of type A5.
#[test]
fn type_a5_with_a_good_message_in_it() {
    let bytes = written("004D89", "A5A5A503004D89C8C9");
    let found = [
        Event::Skipped { place: 0 },
        Event::Good { place: 1, length: 6 },
        Event::Skipped { place: 7 },
        Event::Skipped { place: 8 },
    ];
    assert_eq!(scan(&bytes), found);
    let mut both = Both::blank();
    let answer = both.feed(0, &bytes);
    assert_eq!((answer.number, answer.taken, answer.skipped), (0, 7, 1));
    assert_eq!(answer.reply, hex("A5A5030480020002D5D9"));
    let answer = both.feed(0, &bytes[7..]);
    assert_eq!((answer.number, answer.taken, answer.skipped), (1, 2, 2));
}

/// A Ping in the payload of a message of type A5 is read: what is not found hides nothing.
#[test]
fn type_a5_with_a_ping_in_it() {
    let bytes = written("00 A5A5010202004F25", "A5A5A509 00 A5A5010202004F25 BB14");
    let mut both = Both::blank();
    // A5 A5 09 00 A5 A5: the sums would be 53 95.
    let answer = both.feed(0, &bytes);
    assert_eq!((answer.number, answer.taken, answer.skipped), (0, 7, 2));
    assert_eq!((answer.reply[2], &answer.reply[6..8]), (0x09, &[0, 1][..]));
    let answer = both.feed(0, &bytes[7..]);
    assert_eq!((answer.number, answer.taken, answer.skipped), (0, 6, 3));
    assert_eq!(answer.reply, hex(P1_REPLY));
    let answer = both.feed(0, &bytes[13..]);
    assert_eq!((answer.number, answer.taken, answer.skipped), (1, 2, 2));
}

/// "A5 is nobody's type": with every L, in front of other messages, none of type A5 is found or replied to.
#[test]
fn type_a5_is_never_found() {
    let mut rng = Rng::new(0xA5);
    let mut found = 0;
    for length in 0..=255 {
        let mut bytes = message(0xA5, &rng.bytes(length));
        assert_eq!(check_message(&bytes), 0);
        for _ in 0..4 {
            bytes.extend(generate::type_a5(&mut rng));
            bytes.extend(generate::piece(&mut rng));
        }
        let places: Vec<usize> = scan(&bytes).iter().filter_map(Event::message).map(|(place, _)| place).collect();
        assert!(places.iter().all(|&place| bytes[place + 2] != 0xA5), "{bytes:02X?}");
        let replies = use_up(&mut Both::blank(), 0, &bytes).replies;
        assert_eq!(replies.len(), places.len());
        assert!(replies.iter().all(|reply| reply[2] != 0xA5), "{bytes:02X?}");
        found += places.len();
    }
    assert!(found > 500, "{found}");
}

/// A5 in a payload is payload, as many as there are and wherever the message is cut.
#[test]
fn runs_in_a_payload() {
    for length in 0..=255 {
        // No field: error 3. Of A5 A5 and 165 bytes the code is unknown: error 3. Others are not filled: error 4.
        let error = if length == 0 || length == 2 + 0xA5 { 3 } else { 4 };
        let bytes = message(0x02, &vec![0xA5; length]);
        for cut in (0..bytes.len()).step_by(1 + length / 16) {
            let mut both = Both::blank();
            let answer = both.feed(0, &bytes[..cut]);
            assert_eq!((answer.number, answer.taken, answer.skipped), (1, cut, 0));
            let answer = both.feed(0, &bytes[cut..]);
            assert_eq!((answer.number, answer.taken, answer.skipped), (0, bytes.len() - cut, 0));
            assert_eq!(answer.reply[7], error);
            assert_eq!(both.held(0), 0);
        }
    }
    let bytes = message(0x63, &[hex("A5"), hex(P2), hex("A5A5A5")].concat());
    assert_eq!(scan(&bytes), [Event::Good { place: 0, length: 20 }]);
}

/// Sums that are A5 A5 belong to their message, whatever stands behind them; those of a damaged one are skipped.
#[test]
fn sums_of_a5() {
    let good = hex("A5A5630206F0A5A5");
    assert_eq!(check_message(&good), 0);
    for run in 0..3 {
        let input = [good.clone(), run_and_ping(run)].concat();
        let mut both = Both::blank();
        let answer = both.feed(0, &input);
        assert_eq!((answer.number, answer.taken, answer.skipped), (0, 8, 0));
        let answer = both.feed(0, &input[8..]);
        assert_eq!((answer.number, answer.taken, answer.skipped), (0, 8 + run, run));
        assert_eq!(answer.reply, hex(P1_REPLY));

        let mut damaged = input;
        damaged[2] = 0x62;
        let mut both = Both::blank();
        let answer = both.feed(0, &damaged);
        assert_eq!((answer.number, answer.taken, answer.skipped), (0, 8, 1));
        assert_eq!(answer.reply[7], 1);
        // A5 62 02 06 F0, then the sums.
        let answer = both.feed(0, &damaged[8..]);
        assert_eq!((answer.number, answer.taken, answer.skipped), (0, 8 + run, 7 + run));
        assert_eq!(answer.reply, hex(P1_REPLY));
    }
}

/// Good messages with runs before, between and behind them, and the lengths of the messages and of the runs. The last
/// run has no message behind it.
fn runs_and_messages(rng: &mut Rng) -> (Vec<u8>, Vec<usize>, Vec<usize>) {
    let mut stream = Vec::new();
    let mut lengths = Vec::new();
    let mut runs = Vec::new();
    for _ in 0..rng.between(1, 4) {
        let run = rng.below(8);
        let message = generate::accepted_command(rng);
        stream.extend(vec![0xA5; run]);
        stream.extend(&message);
        runs.push(run);
        lengths.push(message.len());
    }
    let run = rng.below(5);
    stream.extend(vec![0xA5; run]);
    runs.push(run);
    (stream, lengths, runs)
}

/// "the sum law stands": after every feed, "bytes taken on it = lengths of its good messages + bytes the scan skipped +
/// bytes held" (01-025). The lengths are those of the messages that were sent, not the scan's.
#[test]
fn sum_law() {
    let mut rng = Rng::new(0x5C);
    for _ in 0..1000 {
        let port = rng.below(2);
        let (stream, lengths, runs) = runs_and_messages(&mut rng);
        let mut both = Both::blank();
        let (mut taken, mut skipped, mut reported) = (0, 0, 0);
        for chunk in generate::cut(&mut rng, &stream) {
            let mut rest = &chunk[..];
            loop {
                let answer = both.feed(port as u8, rest);
                rest = &rest[answer.taken..];
                taken += answer.taken;
                skipped += answer.skipped;
                reported += usize::from(answer.number == 0);
                let good: usize = lengths[..reported].iter().sum();
                assert_eq!(taken, good + skipped + both.held(port), "{stream:02X?}");
                if answer.number == 1 {
                    break;
                }
            }
        }
        let last = runs[runs.len() - 1];
        assert_eq!((taken, reported), (stream.len(), lengths.len()));
        assert_eq!(skipped + last.min(2), runs.iter().sum());
    }
}

//! The gyroscope's ranges that this board no longer takes (02-05.1 to 02-05.7).

mod common;

use common::{fed, hex, page_of, rows, Both};
use plain::generate::{self, numbered::numbered, ranges, Rng};
use plain::*;

/// A board that works with this range, on a page with this range, or none, and this number, or none.
fn board_on(working: u8, gyroscope: Option<u8>, last_number: Option<u32>) -> Both {
    let values = Values { gyroscope, last_number, ..Values::default() };
    let mut both = Both::new(&write_page(&values));
    fed(&mut both, 1, &message(0x02, &[0x08, 2, 1, working]));
    assert_eq!(both.board.settings, Settings { gyroscope: working, ..FACTORY });
    assert_eq!(both.page, write_page(&values));
    both
}

/// What a value is for: 02-05.1 to 02-05.6. The lists of the other settings are one in all three.
#[test]
fn roles() {
    for value in (0..=300).chain([0x106, 0x107, 0x0600_0000, u32::MAX]) {
        assert_eq!(usable(0x08, value), (1..=5).contains(&value));
        assert_eq!(storable(0x08, value), (1..=7).contains(&value));
        assert_eq!(readable(0x08, value), (1..=7).contains(&value));
        for role in [usable, storable, readable] {
            assert_eq!(role(0x07, value), (1..=4).contains(&value));
            assert!(!role(0x01, value) && !role(0x02, value) && !role(0x70, value));
        }
    }
    for role in [usable, storable, readable] {
        assert!(generate::BAUDS.iter().all(|&baud| role(0x01, baud)));
    }
}

/// Each sentence of the request once, with the bytes of its messages.
#[test]
fn by_hand() {
    // "Old pages that hold them stay sound: starting uses the factory value".
    let page = page_of("01 080401 07");
    let mut both = Both::new(&page);
    assert_eq!(both.board.settings, FACTORY);
    assert_eq!(read_page(&page), (0, Values { gyroscope: Some(7), ..Values::default() }));

    // "and function 4 is refused with the working value left."
    fed(&mut both, 0, &message(0x02, &[0x08, 2, 1, 5]));
    let answer = fed(&mut both, 0, &hex("A5A50203 080104 5C95"));
    assert_eq!((answer.reply, answer.saved), (hex("A5A50204 80020806 E0E7"), false));
    assert_eq!((both.board.settings.gyroscope, &both.page), (5, &page));

    // "Codes 06 and 07 are no longer taken."
    for sent in ["A5A50204 08020106 61F9", "A5A50204 08020107 62FA"] {
        let answer = fed(&mut both, 0, &hex(sent));
        assert_eq!((answer.reply, answer.saved), (hex("A5A50204 80020806 E0E7"), false));
        assert_eq!((both.board.settings.gyroscope, &both.page), (5, &page));
    }

    // A save puts the working value over the old one, and it is loaded from then on.
    assert!(fed(&mut both, 0, &message(0x02, &[0x08, 1, 3])).saved);
    assert_eq!(both.page, page_of("01 080401 05"));
    fed(&mut both, 0, &message(0x02, &[0x08, 1, 5]));
    assert_eq!(rows(&fed(&mut both, 0, &message(0x02, &[0x08, 1, 4])).reply), [(8, 0)]);
    assert_eq!(both.board.settings.gyroscope, 5);

    // "The command writer refuses them (28)."
    for value in [6, 7] {
        assert_eq!(write_command(0x08, 1, value, &mut []), (28, 0));
        assert_eq!(write_numbered(1, 0x08, 1, value, &mut []), (28, 0));
        assert_eq!(append_field(0x02, 0x08, 1, value, 0, &mut []), (28, 0));
        assert_eq!(write_command(0x08, 4, value, &mut []), (18, 0));
    }

    // "The reply reader still takes them, from older boards."
    let reply = read_reply(&hex("A5A50207 80020800 080107 EDA8"), 0);
    assert_eq!(reply, Reply { number: 0, kind: 0x02, echo: 8, error: 0, value: Some(7) });
}

/// "A board record holding them is unsound (17)": whatever the page holds, between 16 and 18, and nothing is written.
#[test]
fn unsound_boards() {
    for (range, expected) in (0..=255).map(|range| (range, if (1..=5).contains(&range) { 0 } else { 17 })) {
        for held in ["", "01 080401 03", "01 080401 06", "01 080401 07"] {
            let page = page_of(held);
            let mut board = start(Profile::Full, &page).1;
            board.settings.gyroscope = range;
            let (mut room, mut fed_page) = ([0x33; 166], page.clone());
            let fed = feed(1, &board, &message(0x02, &[0x08, 1, 3]), &mut room, &mut fed_page);
            assert_eq!(fed.number, expected);
            if expected == 17 {
                assert_eq!((fed.board, room, fed_page), (board, [0x33; 166], page));
                assert_eq!(feed(2, &board, &[], &mut [], &mut []).number, 16);
                assert_eq!(feed(0, &board, &[], &mut [], &mut []).number, 17);
            }
        }
    }
}

/// The error of a field of the gyroscope's range: written down once more, in the order of 02-05.7 and 02-03.11.
fn expected_error(function: u8, value: &[u8], held: Option<u8>, number_missing: bool) -> u8 {
    let old = |range: u8| range == 6 || range == 7;
    match (function, value) {
        (1 | 3 | 4 | 5, _) if number_missing => 5,
        (1, &[range]) if old(range) => 6,
        (1, &[1..=5]) => 0,
        (4, [] | [_]) if held.is_some_and(old) => 6,
        (2..=5, [] | [_]) => 0,
        _ => 4,
    }
}

/// Each function, with no value, each value up to 9 and a value of two bytes, on a page with each range or none, with a
/// number or without, on each port, without a number and with one: error, mark, settings and page.
#[test]
fn every_function_on_every_page() {
    let held: Vec<Option<u8>> = std::iter::once(None).chain((1..=7).map(Some)).collect();
    let mut values: Vec<Vec<u8>> = (0..=9).map(|value| vec![value]).collect();
    values.extend([vec![], vec![6, 6], vec![3, 3]]);
    for (&held, last) in held.iter().flat_map(|held| [(held, None), (held, Some(8))]) {
        for (function, value) in (0..=6u8).flat_map(|function| values.iter().map(move |value| (function, value))) {
            let field = [&[0x08, 1 + value.len() as u8, function], &value[..]].concat();
            for (port, with_number) in [(0, false), (1, false), (0, true), (1, true)] {
                let mut both = board_on(2, held, last);
                let bytes = if with_number { numbered(9, 0x02, &field) } else { message(0x02, &field) };
                let answer = fed(&mut both, port, &bytes);
                let missing = port == 0 && last.is_some() && !with_number;
                let error = expected_error(function, value, held, missing);
                let told = format!("{field:02X?} on {held:?} and {last:?}, port {port}, {with_number}");
                assert_eq!(rows(&answer.reply), [(8, error)], "{told}");

                let saved = error == 0 && function == 3;
                assert_eq!(answer.saved, saved || with_number, "{told}");
                let gyroscope = if saved { Some(2) } else { held };
                let last_number = if with_number { Some(9) } else { last };
                assert_eq!(both.page, write_page(&Values { gyroscope, last_number, ..Values::default() }), "{told}");
                let working = match function {
                    1 if error == 0 => value[0],
                    4 if error == 0 => held.unwrap_or(3),
                    5 if error == 0 => 3,
                    _ => 2,
                };
                assert_eq!(both.board.settings, Settings { gyroscope: working, ..FACTORY }, "{told}");
                both.restart();
            }
        }
    }
}

/// An error 6 does not stop the fields after it; a save among them puts an end to it.
#[test]
fn among_other_fields() {
    let mut both = board_on(4, Some(6), None);
    let payload = hex("080104 08020107 080102 07020101 080103 080104 08020106 080105 080104 080102");
    let answer = fed(&mut both, 0, &message(0x02, &payload));
    let reply = "80020806 80020806 80020800080104 80020700 80020800 80020800 80020806 80020800 80020800 80020800080104";
    assert_eq!((answer.reply, answer.saved), (message(0x02, &hex(reply)), true));
    assert_eq!(both.page, page_of("01 080401 04"));
}

/// A save of another setting keeps the old entry, and so does a number that is written.
#[test]
fn the_entry_is_kept() {
    let mut both = board_on(4, Some(7), None);
    assert!(fed(&mut both, 0, &message(0x02, &[0x07, 1, 3])).saved);
    assert_eq!(both.page, page_of("02 070701 080801 02 07"));
    assert!(fed(&mut both, 0, &numbered(1, 0x02, &[0x08, 1, 4])).saved);
    assert_eq!(both.page, page_of("03 070A01 080B01 700C04 02 07 00000001"));
    both.restart();
    assert_eq!(both.board.settings, FACTORY);
}

/// In lists of feeds and restarts over old pages no working value is ever one of them, and each error comes.
#[test]
fn lists() {
    let mut rng = Rng::new(5);
    let mut errors = [0; 8];
    let (mut restarts, mut old_at_the_end) = (0, 0);
    for _ in 0..1500 {
        let page = ranges::old_page(&mut rng);
        let profile = generate::profile(&mut rng);
        let mut both = Both::start(profile, &page);
        for step in ranges::history(&mut rng, profile, &page, 5) {
            let Some(answer) = both.try_step(&step).unwrap() else {
                restarts += 1;
                continue;
            };
            assert!(both.board.settings.usable());
            if answer.number == 0 {
                errors[usize::from(answer.reply[7])] += 1;
            }
        }
        both.compare_state().unwrap();
        let held = values(&both.page).unwrap().gyroscope;
        old_at_the_end += usize::from(matches!(held, Some(6 | 7)));
    }
    assert!(errors[6] > 500 && errors[5] > 300 && errors[4] > 300 && errors[0] > 1000, "{errors:?}");
    assert!(restarts > 500 && (500..1400).contains(&old_at_the_end), "{restarts} {old_at_the_end}");
}

/// Of the pages that are generated many hold such a range, with a number and without.
#[test]
fn generated_pages() {
    let mut rng = Rng::new(6);
    let (mut without, mut with) = (0, 0);
    for _ in 0..10_000 {
        let old = |page: &[u8]| matches!(values(page).unwrap().gyroscope, Some(6 | 7));
        without += usize::from(old(&generate::sound_page(&mut rng)));
        with += usize::from(old(&generate::numbered::sound_page(&mut rng)));
        assert!(old(&ranges::old_page(&mut rng)));
    }
    assert!(without > 1500 && with > 2000, "{without} {with}");
}

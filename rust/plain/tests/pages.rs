//! The start-up page.

mod common;

use common::page_of;
use plain::generate::{self, numbered, Rng, BAUDS};
use plain::*;

/// The writings of all storable values without a number: 7 times 5 times 8.
fn writings() -> Vec<(Values, [u8; 64])> {
    let bauds = [None].into_iter().chain(BAUDS.map(Some));
    let mut all = Vec::new();
    for baud in bauds {
        for accelerometer in [None, Some(1), Some(2), Some(3), Some(4)] {
            for gyroscope in [None, Some(1), Some(2), Some(3), Some(4), Some(5), Some(6), Some(7)] {
                let values = Values { baud, accelerometer, gyroscope, last_number: None };
                all.push((values, write_page(&values)));
            }
        }
    }
    all
}

/// The values of which a page is the writing, searched for among all storable ones: without a number, or with the one
/// that stands behind the bodies of the others.
fn searched(all: &[(Values, [u8; 64])], page: &[u8]) -> Option<Values> {
    if page.len() != 64 {
        return None;
    }
    if let Some((values, _)) = all.iter().find(|(_, writing)| writing[..] == *page) {
        return Some(*values);
    }
    let with_number = |values: &Values| {
        let sizes = [values.baud.map(|_| 4), values.accelerometer.map(|_| 1), values.gyroscope.map(|_| 1), Some(4)];
        let entries = sizes.iter().flatten().count();
        let end = 1 + 3 * entries + sizes.iter().flatten().sum::<usize>();
        let number = u32::from_be_bytes(page[end - 4..end].try_into().unwrap());
        let values = Values { last_number: Some(number), ..*values };
        (usize::from(page[0]) == entries && write_page(&values)[..] == *page).then_some(values)
    };
    all.iter().find_map(|(values, _)| with_number(values))
}

/// "Sound: blank, or exactly the writing of some allowed values": read and compared, and searched for among all.
#[test]
fn sound_is_a_writing() {
    let all = writings();
    assert_eq!(all.len(), 280);
    let mut rng = Rng::new(64);
    for (written, page) in &all {
        assert_eq!(values(page), Some(*written));
        assert_eq!(read_page(page), (0, *written));
        let profile = rng.pick(&Profile::ALL);
        let (number, board) = start(profile, page);
        assert_eq!(number, 0);
        let expected = Settings {
            baud: written.baud.unwrap_or(115200),
            accelerometer: written.accelerometer.unwrap_or(2),
            // 02-05.3: "starting uses the factory value".
            gyroscope: written.gyroscope.filter(|&range| range != 6 && range != 7).unwrap_or(3),
        };
        let (ports, tallies) = ([Port::fresh(), Port::fresh()], [Tally::default(); 2]);
        assert_eq!(board, Board { ports, settings: expected, profile, tallies });
    }
    let mut numbers = [0; 32];
    for turn in 0..60_000 {
        let page = if turn % 2 == 0 { generate::page(&mut rng) } else { numbered::page(&mut rng) };
        let found = searched(&all, &page);
        let expected = match found {
            _ if page.len() != 64 => 19,
            Some(_) => 0,
            None => 20,
        };
        assert_eq!(check_page(&page), expected, "{page:02X?}");
        assert_eq!(values(&page), found);
        numbers[usize::from(expected)] += 1;
    }
    assert!([0, 19, 20].iter().all(|&number| numbers[number] > 1000), "{numbers:?}");
}

/// 02-03.2: "entry 70, four bytes of any value, so up to four entries." It stands last: "Codes ascend."
#[test]
fn numbers() {
    for (text, expected) in [
        ("01 700404 00000000", 0),
        ("01 700404 FFFFFFFF", 0),
        ("01 700404 A5A57C70", 0),
        ("02 010704 700B04 0001C200 00000001", 0),
        ("02 070701 700804 02 00000001", 0),
        ("03 070A01 080B01 700C04 02 03 00000001", 0),
        ("04 010D04 071101 081201 701304 0001C200 02 03 00000001", 0),
        ("04 010D04 071101 081201 701304 0001C200 05 03 00000001", 20), // a range that is not storable
        ("04 010D04 071101 081201 701304 0000E100 02 03 00000001", 20), // 57600
        ("01 700401 07", 20),                                           // one byte
        ("01 700403 000007", 20),                                       // three bytes
        ("01 700405 0000000007", 20),                                   // five bytes
        ("01 700400", 20),                                              // none
        ("01 700504 FF 00000007", 20),                                  // not close together
        ("01 700404 00000007 00", 20),                                  // not FF to the end
        ("01 710404 00000007", 20),                                     // another code
        ("01 7C0404 00000007", 20),                                     // the type is no code
        ("02 700704 010B04 00000007 0001C200", 20),                     // codes that do not ascend
        ("02 700704 700B04 00000007 00000008", 20),                     // twice
        ("05 011004 071401 081501 701604 701A04 0001C200 02 03 00000001 00000002", 20),
        ("03 010D04 071101 081201 701304 0001C200 02 03 00000001", 20), // a wrong count
    ] {
        let page = page_of(text);
        assert_eq!(check_page(&page), expected, "{text}");
        assert_eq!(start(Profile::Full, &page).0, expected, "{text}");
        assert_eq!(read_page(&page).1.last_number.is_some(), expected == 0, "{text}");
        assert_eq!(body(&page, &factory_page(), 0x70).1.len(), if expected == 0 { 4 } else { 0 }, "{text}");
    }
    let page = page_of("04 010D04 071101 081201 701304 000E1000 04 07 01020304");
    let all = Values { baud: Some(921600), accelerometer: Some(4), gyroscope: Some(7), last_number: Some(0x01020304) };
    assert_eq!(read_page(&page), (0, all));
    assert_eq!(write_page(&all)[..], page);
    // The range is read, but not taken (02-05.3).
    assert_eq!(start(Profile::Full, &page).1.settings, Settings { baud: 921600, accelerometer: 4, gyroscope: 3 });
    assert_eq!(body(&page, &factory_page(), 0x70), (0, &[1, 2, 3, 4][..]));
    // "the factory page has none", and a page without the entry has no number.
    assert_eq!(body(&factory_page(), &factory_page(), 0x70), (0, &[][..]));
    assert_eq!(read_page(&factory_page()).1.last_number, None);
}

#[test]
fn factory() {
    assert_eq!(factory_page()[..], page_of("03 010A04 070E01 080F01 0001C200 02 03"));
    assert_eq!(start(Profile::Full, &factory_page()).1.settings, FACTORY);
    assert_eq!(write_page(&Values::default()), [0xFF; 64]);
}

/// "take the body from the page if it has the entry, else from the factory page"
#[test]
fn lookup() {
    let factory = factory_page();
    let blank = [0xFF; 64];
    let saved = page_of("02 010704 080B01 000E1000 07");
    let accepted = |saved, factory, code| {
        let (number, body) = body(saved, factory, code);
        assert_eq!(number, 0);
        body
    };
    assert_eq!(accepted(&saved, &factory, 0x01), [0x00, 0x0E, 0x10, 0x00]);
    assert_eq!(accepted(&saved, &factory, 0x07), [0x02]);
    assert_eq!(accepted(&saved, &factory, 0x08), [0x07]);
    assert_eq!(accepted(&blank, &factory, 0x01), [0x00, 0x01, 0xC2, 0x00]);
    assert_eq!(accepted(&saved, &blank, 0x07), []);
    assert_eq!(accepted(&saved, &factory, 0x02), []);
    assert_eq!(accepted(&blank, &blank, 0xFF), []);
    // The part is one of the page itself.
    assert!(std::ptr::eq(accepted(&saved, &factory, 0x08).as_ptr(), &saved[11]));
    assert!(std::ptr::eq(accepted(&saved, &factory, 0x07).as_ptr(), &factory[14]));
}

/// A start in place is a start of the same page, for arrays of 260 bytes; others are refused before the page is looked at,
/// and left alone.
#[test]
fn started_in_place() {
    let pages = [page_of("01 080401 07"), page_of("01 080401 09"), vec![0xFF; 64], vec![0xFF; 63]];
    for ((page, number), profile) in
        pages.iter().zip([0, 20, 0, 19]).flat_map(|case| Profile::ALL.map(|one| (case, one)))
    {
        let (mut first, mut second) = ([0x31; 260], [0x62; 260]);
        let (started, board) = start(profile, page);
        assert_eq!((started, board.profile), (number, profile));
        let in_place = start_in_place(profile, &mut first, &mut second, page);
        assert_eq!(in_place, StartedInPlace { number, settings: board.settings, profile });
        assert_eq!((first, second), ([0; 260], [0; 260]));
    }
    for (first, second) in [(0, 260), (259, 260), (261, 260), (260, 0), (260, 259), (260, 261), (261, 261)] {
        let (mut first, mut second) = (vec![0x31; first], vec![0x62; second]);
        for (page, profile) in pages.iter().flat_map(|page| Profile::ALL.map(|profile| (page, profile))) {
            let in_place = start_in_place(profile, &mut first, &mut second, page);
            assert_eq!(in_place, StartedInPlace { number: 17, settings: FACTORY, profile });
            assert!(first.iter().all(|&byte| byte == 0x31) && second.iter().all(|&byte| byte == 0x62));
        }
    }
}

/// A refused page gives its number and no values, though entries can be made out on it; and no body, neither as the saved
/// nor as the factory page.
#[test]
fn refused_pages() {
    let factory = factory_page();
    for (text, expected) in [
        ("01 080402 0706", 20),
        ("01 080401 09", 20),
        ("04 080401 07", 20),
        ("00 080401 07", 20),
        ("01 083F01", 20),
        ("01 084000", 20),
        ("01 08FFFF", 20),
        ("02 080701 080801 05 06", 20),
        ("02 080701 070801 05 02", 20),
        ("03 010A04 070E01 080F01 0001C200 02 08", 20),
        ("03 010A04 070E01 080F01 0001C200 02 03", 0),
        ("01 080401 07", 0),
    ] {
        let page = page_of(text);
        let (number, values) = read_page(&page);
        assert_eq!(number, expected, "{text}");
        assert_eq!(values == Values::default(), expected != 0, "{text}");
        assert_eq!(body(&page, &factory, 0x08).0, expected, "{text}");
        assert_eq!(body(&factory, &page, 0x08), (expected, if expected == 0 { &[3][..] } else { &[] }), "{text}");
        for length in [0, 63, 65] {
            let mut other = page.clone();
            other.resize(length, 0xFF);
            assert_eq!(read_page(&other), (19, Values::default()), "{text}");
            // The saved page comes first.
            assert_eq!(body(&other, &page, 0x08), (19, &[][..]), "{text}");
            assert_eq!(body(&page, &other, 0x08).0, if expected == 0 { 19 } else { 20 }, "{text}");
        }
    }
}

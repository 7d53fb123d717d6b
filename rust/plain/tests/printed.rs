//! 01-114: "Messages printed in 003 are run through the sum check too." And its Ping table (01-010).

mod common;

use common::hex;
use plain::*;

/// The complete messages that 003 prints, in its order.
const PRINTED: [&str; 50] = [
    "A5A5010202004F25",
    "A5A5010480020200D3CF",
    "A5A5010203005027",
    "A5A5010F80030300830801020103010401057D73",
    "A5A5010204005129",
    "A5A5010480020400D5D3",
    "A5A501020500522B",
    "A5A501168002050085102020202020204D535F494D5533303230EC54",
    "A5A501020600532D",
    "A5A5011680020600861020202020202020202020203230323638E123",
    "A5A501020700542F",
    "A5A50116800207008710202020202020202020525F315F325F33A625",
    "A5A5010208005531",
    "A5A5011680020800881020202020202030352D30382D323031353210",
    "A5A501080906072F000002FF99AF",
    "A5A5010480020900DADD",
    "A5A502070105010001C2001D84",
    "A5A5020480020100D3D3",
    "A5A502040302010258E1",
    "A5A5020480020300D5D7",
    "A5A5020504030100126B56",
    "A5A5020480020400D6D9",
    "A5A502060503010081825E2E",
    "A5A5020480020500D7DB",
    "A5A5020206005431",
    "A5A50208800206008602032087A5",
    "A5A50204070201025CF1",
    "A5A5020480020700D9DF",
    "A5A50204080201025DF5",
    "A5A5020480020800DAE1",
    "A5A502030901035C97",
    "A5A5020480020900DBE3",
    "A5A502040A0201015EFC",
    "A5A5020480020A00DCE5",
    "A5A502040B0201015F00",
    "A5A5020480020B00DDE7",
    "A5A502050C0301818264F0",
    "A5A5020480020C00DEE9",
    "A5A502040D020105650C",
    "A5A5020480020D00DFEB",
    "A5A5A21C810C37A7C5AC377BA8823F800065820C37A7C5AC377BA8823749539C0C23",
    "A5A5A20E810C37A7C5AC377BA8823F800065D61A",
    "A5A5A20E820C37A7C5AC377BA8823749539C2240",
    "A5A5A20E830C37A7C5AC377BA8823749539C234E",
    "A5A5A20E840C37A7C5AC377BA8823749539C245C",
    "A5A5A20E850C37A7C5AC377BA8823749539C256A",
    "A5A5A2068604000003FD7CB4",
    "A5A5A20687040000001996D0",
    "A5A5A20E880C410944c000000000072F00081A32",
    "A5A5A20E890C37A7C5AC377BA8823F800065DE8A",
];

/// Says L = 0F, but 14 payload bytes follow (003, table 6).
const SHORT: &str = "A5A5010F80030300830801020103010401057D73";
/// Its sums are 1A 15 (003, table 72).
const WRONG: &str = "A5A5A20E880C410944c000000000072F00081A32";

#[test]
fn printed_messages() {
    for text in PRINTED {
        let expected = match text {
            SHORT => 21,
            WRONG => 22,
            _ => 0,
        };
        let bytes = hex(text);
        assert_eq!(check_message(&bytes), expected, "{text}");
        let end = bytes.len() - 2;
        let Sums { f1, f2 } = sums(&bytes[..end]);
        if text == WRONG {
            assert_eq!((f1, f2), (0x1A, 0x15));
        } else {
            // Right over the bytes as printed, also where the length is the fault.
            assert_eq!((f1, f2), (bytes[end], bytes[end + 1]), "{text}");
        }
        let length = bytes.len();
        let expected = match text {
            SHORT => None,
            WRONG => Some(Event::Damaged { place: 0, length }),
            _ => Some(Event::Good { place: 0, length }),
        };
        assert_eq!(scan(&bytes).first().copied(), expected, "{text}");
    }
}

/// "003 prints 333 and 1493 in row 4 of its Ping table where its own rule gives 335 and 1494; the rule and the final
/// bytes 4F 25 decide."
#[test]
fn ping_table() {
    let mut f1 = 0u32;
    let mut f2 = 0u32;
    let mut rows = Vec::new();
    for byte in hex("A5A501020200") {
        f1 += u32::from(byte);
        f2 += f1;
        rows.push((f1, f2));
    }
    assert_eq!(rows, [(165, 165), (330, 495), (331, 826), (333, 1159), (335, 1494), (335, 1829)]);
    assert_eq!((f1 % 256, f2 % 256), (0x4F, 0x25));
}

/// Each sum wraps at 256, for any bytes.
#[test]
fn sums_wrap_at_256() {
    let mut rng = plain::generate::Rng::new(1);
    for _ in 0..20000 {
        let count = rng.below(262);
        let bytes = rng.bytes(count);
        let mut f1 = 0u64;
        let mut f2 = 0u64;
        for &byte in &bytes {
            f1 += u64::from(byte);
            f2 += f1;
        }
        assert_eq!(sums(&bytes), Sums { f1: (f1 % 256) as u8, f2: (f2 % 256) as u8 });
    }
}

//! The listing (01-093 to 01-097; 02-02.7).

use crate::handling::Profile;
use crate::message::length_of;
use crate::number;
use crate::port::{feed, start, Port};
use crate::readers::read_reply;

/// What the program prints for its whole input.
///
/// 01-093: "A program reads standard input as port 0 of a board with a blank page."
pub fn listing(input: &[u8]) -> String {
    let mut page = [0xFF; 64];
    // Of port 0 the profiles say nothing.
    let (_, mut board) = start(Profile::Full, &page);
    let mut printed = String::from("type code error page\n");
    let mut taken = 0;
    let mut skipped = 0;
    // "It feeds on until a feed at the input's end answers 1;"
    loop {
        let mut room = [0; Port::LONGEST_REPLY];
        let fed = feed(0, &board, &input[taken..], &mut room, &mut page);
        taken += fed.taken;
        skipped += fed.skipped;
        board = fed.board;
        if fed.number == number::USED_UP {
            break;
        }
        // "Type and echo in two upper-case hex digits, then the error, then `saved` or `same` as the feed answered."
        // 02-02.7: "the listing prints a line for each echo."
        let mark = if fed.saved { "saved" } else { "same" };
        let reply = &room[..length_of(&room) + 6];
        let rows = (0..).map(|row| read_reply(reply, row)).take_while(|row| row.number == number::DONE);
        for row in rows {
            printed += &format!("{:02X} {:02X} {} {}\n", row.kind, row.echo, row.error, mark);
        }
    }
    // "the counts are decimal, over the whole input."
    printed += &format!("taken {} skipped {} held {}\n", taken, skipped, board.ports[0].held);
    printed
}

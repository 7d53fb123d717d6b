//! What several tests use.

#![allow(dead_code)]

use plain::generate::Step;
use plain::{adds_up, check_message, feed, read_reply, scan_marked, silence, start};
use plain::{Board, Event, Fed, Port, Profile, Reckoned, Reckoning};

/// "Blanks are only for the eye."
pub fn hex(text: &str) -> Vec<u8> {
    let digits: Vec<u32> = text.chars().filter(|c| !c.is_whitespace()).map(|c| c.to_digit(16).unwrap()).collect();
    assert!(digits.len().is_multiple_of(2), "half a byte in {text}");
    digits.chunks(2).map(|pair| (pair[0] * 16 + pair[1]) as u8).collect()
}

/// The bytes, then FF up to 64.
pub fn page_of(text: &str) -> Vec<u8> {
    let mut page = hex(text);
    page.resize(64, 0xFF);
    page
}

pub const P1: &str = "A5A5010202004F25";
pub const P1_REPLY: &str = "A5A5010480020200D3CF";
pub const P2: &str = "A5A50204070201025CF1";

/// One board fed directly, and the plain reckoning beside it; each feed is compared.
pub struct Both {
    pub board: Board,
    pub page: Vec<u8>,
    pub reckoning: Reckoning,
}

pub struct Answer {
    pub number: u8,
    pub taken: usize,
    pub skipped: usize,
    pub error: u8,
    pub saved: bool,
    pub reply: Vec<u8>,
}

impl Both {
    /// In a profile, from a blank or sound page.
    pub fn start(profile: Profile, page: &[u8]) -> Both {
        let (number, board) = start(profile, page);
        assert_eq!(number, 0);
        let both = Both { board, page: page.to_vec(), reckoning: Reckoning::new(profile, page) };
        both.compare_state().unwrap();
        both
    }

    /// In the full profile, from a blank or sound page.
    pub fn new(page: &[u8]) -> Both {
        Both::start(Profile::Full, page)
    }

    pub fn blank() -> Both {
        Both::new(&[0xFF; 64])
    }

    /// A start anew in the same profile on the page as it stands, and in the reckoning.
    pub fn restart(&mut self) {
        self.restart_in(self.board.profile);
    }

    pub fn restart_in(&mut self, profile: Profile) {
        let (number, board) = start(profile, &self.page);
        assert_eq!(number, 0);
        self.board = board;
        self.reckoning.restart(profile);
        self.compare_state().unwrap();
    }

    /// Profile, settings, held bytes, totals and page agree; past the held bytes a port is zero. The totals and the bytes held
    /// add up.
    pub fn compare_state(&self) -> Result<(), String> {
        same("profile", &self.board.profile, &self.reckoning.profile())?;
        same("settings", &self.board.settings, &self.reckoning.settings())?;
        same("page", &self.page[..], &self.reckoning.page()[..])?;
        for port in 0..2u8 {
            let record = &self.board.ports[usize::from(port)];
            same("held", &record.bytes[..record.held], &self.reckoning.held(port)[..])?;
            same("past held", &record.bytes[record.held..], &vec![0; 260 - record.held][..])?;
            let totals = &self.board.tallies[usize::from(port)];
            same("totals", totals, &self.reckoning.totals(port))?;
            same("the sum law of the totals", &adds_up(totals, record.held), &true)?;
        }
        Ok(())
    }

    /// Feeds both and compares the answers and the room, byte for byte.
    pub fn try_feed(&mut self, port: u8, chunk: &[u8], room_length: usize) -> Result<Answer, String> {
        self.compare(
            (port, room_length),
            |board, room, page| feed(port, board, chunk, room, page),
            |reckoning| reckoning.feed(port, chunk, room_length),
        )
    }

    /// A silence of both, compared in the same way. Nothing is taken.
    pub fn try_silence(&mut self, port: u8, room_length: usize) -> Result<Answer, String> {
        let answer = self.compare(
            (port, room_length),
            |board, room, page| silence(port, board, room, page),
            |reckoning| reckoning.silence(port, room_length),
        )?;
        same("taken by a silence", &answer.taken, &0)?;
        Ok(answer)
    }

    /// A step of a list; a restart has no answer.
    pub fn try_step(&mut self, step: &Step) -> Result<Option<Answer>, String> {
        match step {
            Step::Feed(call) => self.try_feed(call.port, &call.chunk, call.room).map(Some),
            Step::Silence { port, room } => self.try_silence(*port, *room).map(Some),
            Step::Restart(profile) => {
                self.restart_in(*profile);
                Ok(None)
            }
        }
    }

    fn compare(
        &mut self,
        (port, room_length): (u8, usize),
        call: impl FnOnce(&Board, &mut [u8], &mut [u8]) -> Fed,
        reckon: impl FnOnce(&mut Reckoning) -> Reckoned,
    ) -> Result<Answer, String> {
        let filling = 0x5C;
        let mut room = vec![filling; room_length];
        let before = self.board;
        let Fed { number, taken, skipped, error, saved, board } = call(&self.board, &mut room, &mut self.page);
        let reckoned = reckon(&mut self.reckoning);
        self.board = board;

        let reply_length = if number == 0 { usize::from(room[3]) + 6 } else { 0 };
        let reply = room[..reply_length].to_vec();
        let mut expected_room = vec![filling; room_length];
        expected_room[..reckoned.reply.len()].copy_from_slice(&reckoned.reply);
        same("room", &room[..], &expected_room[..])?;
        let answer = Reckoned { number, taken, skipped, error, saved, reply: reply.clone() };
        same("answer", &answer, &reckoned)?;
        if port < 2 {
            let other = 1 - usize::from(port);
            same("other port", &before.ports[other], &self.board.ports[other])?;
            same("totals of the other port", &before.tallies[other], &self.board.tallies[other])?;
        } else {
            same("board", &before, &self.board)?;
        }
        Ok(Answer { number, taken, skipped, error, saved, reply })
    }

    pub fn feed(&mut self, port: u8, chunk: &[u8]) -> Answer {
        let answer = self.try_feed(port, chunk, Port::LONGEST_REPLY).unwrap();
        self.compare_state().unwrap();
        answer
    }

    pub fn silence(&mut self, port: u8) -> Answer {
        let answer = self.try_silence(port, Port::LONGEST_REPLY).unwrap();
        self.compare_state().unwrap();
        answer
    }

    /// Silences of a port until one answers 1. Gives them all.
    pub fn drain(&mut self, port: u8) -> Vec<Answer> {
        let mut answers = vec![self.silence(port)];
        while answers[answers.len() - 1].number == 0 {
            answers.push(self.silence(port));
        }
        answers
    }

    pub fn held(&self, port: usize) -> usize {
        self.board.ports[port].held
    }
}

/// Feeds one good message whole to a port that holds nothing.
pub fn fed(both: &mut Both, port: u8, bytes: &[u8]) -> Answer {
    let answer = both.feed(port, bytes);
    assert_eq!((answer.number, answer.taken, answer.skipped), (0, bytes.len(), 0));
    assert_eq!(both.held(usize::from(port)), 0);
    answer
}

/// Echo and error of each row of a reply.
pub fn rows(reply: &[u8]) -> Vec<(u8, u8)> {
    let rows = (0..).map(|row| read_reply(reply, row)).take_while(|row| row.number == 0);
    rows.map(|row| (row.echo, row.error)).collect()
}

/// The board, but for what it has counted.
pub fn uncounted(board: &Board) -> Board {
    Board { tallies: Default::default(), ..*board }
}

pub fn same<T: PartialEq + std::fmt::Debug + ?Sized>(what: &str, left: &T, right: &T) -> Result<(), String> {
    if left == right {
        Ok(())
    } else {
        Err(format!("{what}: fed {left:02X?}, reckoned {right:02X?}"))
    }
}

/// What a port holds, and behind it what the step offers. Empty where there is no such port.
pub fn unread(board: &Board, step: &Step) -> Vec<u8> {
    let named = step.port_and_room().and_then(|(port, _)| board.ports.get(usize::from(port)));
    named.map_or(Vec::new(), |port| [&port.bytes[..port.held], step.chunk()].concat())
}

/// The number that a step accepted, if it did: it reported a good message of type 7C that has a number and a type, and the
/// reply is neither error 5 nor error 7. The message is the first one that the scan finds in what was unread.
pub fn number_accepted(unread: &[u8], step: &Step, reply: &[u8]) -> Option<u32> {
    if reply.is_empty() || reply[2] != 0x7C || reply[7] == 5 || reply[7] == 7 {
        return None;
    }
    let marks: &[usize] = if matches!(step, Step::Silence { .. }) { &[unread.len()] } else { &[] };
    let events = scan_marked(unread, marks);
    let (place, length) = events.iter().find_map(Event::message).expect("a message was reported");
    let message = &unread[place..place + length];
    let accepted = check_message(message) == 0 && message[3] >= 5;
    accepted.then(|| u32::from_be_bytes(message[4..8].try_into().unwrap()))
}

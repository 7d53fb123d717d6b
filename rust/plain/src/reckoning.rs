//! The plain reckoning (01-057 to 01-068; 02-02.5, 02-02.6, 02-03.9, 02-05.3), with restarts (02-03.10), silences (02-06.4,
//! 02-06.5), profiles (02-12.6) and totals (02-13.3, 02-13.7); and which lists demand 3 is about.

use crate::handling::{handle, loaded, Profile, Settings, ACCELEROMETER, BAUD, FACTORY, GYROSCOPE};
use crate::number;
use crate::page::{values, write_page, Values};
use crate::readers::read_reply;
use crate::scan::{scan_marked, Event};
use crate::tally::Tally;

/// 01-060: "It keeps, for each port, all bytes taken and the count n of messages reported, at first none and 0".
///
/// The number of the port's last accepted feed says where the scan then stood; it is kept for "since that port's last
/// accepted feed" (01-067). Before any feed nothing is left, as with number 1.
///
/// 02-06.4: "a stream with silence marks": each is the count of bytes taken before it.
///
/// 02-13.3: "each equals the count from the history": of the replies it keeps the first errors, and counts the rest from the
/// bytes.
#[derive(Clone, Debug, PartialEq, Eq)]
struct Stream {
    taken: Vec<u8>,
    marks: Vec<usize>,
    n: usize,
    last: u8,
    errors: Vec<u8>,
}

/// Where the scan stands, and until there how many bytes it has skipped and the good messages had.
struct Standing {
    place: usize,
    skipped: usize,
    good: usize,
}

impl Stream {
    /// 01-066: "The scan then stands after the good message, or one byte after the start of the damaged one; with
    /// number 1, where it is undecided or nothing is left."
    fn standing(&self) -> Standing {
        let mut standing = Standing { place: 0, skipped: 0, good: 0 };
        let mut messages = 0;
        for event in scan_marked(&self.taken, &self.marks) {
            if self.last == number::DONE && messages == self.n {
                break;
            }
            standing.place = event.after();
            standing.skipped += event.skipped();
            standing.good += event.good();
            if event.message().is_some() {
                messages += 1;
            }
        }
        standing
    }

    /// 02-13.2: "bytes taken, bytes skipped, bytes of good messages, and messages by the first error number in the reply, 0 to
    /// 7."
    fn totals(&self) -> Tally {
        let Standing { skipped, good, .. } = self.standing();
        let with = |error: usize| self.errors.iter().filter(|&&first| usize::from(first) == error).count();
        Tally {
            taken: total(self.taken.len()),
            skipped: total(skipped),
            good: total(good),
            errors: std::array::from_fn(|error| total(with(error))),
        }
    }
}

/// 02-13.3: "Until a total reaches its largest figure, where it stops, each equals the count from the history".
fn total(count: usize) -> u64 {
    u64::try_from(count).unwrap_or(u64::MAX)
}

/// What the reckoning says of one feed, or of one silence.
#[derive(Clone, Debug, PartialEq, Eq)]
pub struct Reckoned {
    pub number: u8,
    pub taken: usize,
    pub skipped: usize,
    /// The first error in the reply; 0 where there is none.
    pub error: u8,
    pub saved: bool,
    /// Empty where there is no reply.
    pub reply: Vec<u8>,
}

impl Reckoned {
    /// "no reply and no save"
    fn without_reply(number: u8, taken: usize, skipped: usize) -> Reckoned {
        Reckoned { number, taken, skipped, error: 0, saved: false, reply: Vec::new() }
    }
}

#[derive(Clone, Debug, PartialEq, Eq)]
pub struct Reckoning {
    ports: [Stream; 2],
    settings: Settings,
    values: Values,
    profile: Profile,
}

/// "A feed that the table below refuses with 16 or 18 gets the first of them that applies, no reply and no save, takes
/// and skips 0 bytes and changes nothing." 02-06.8: "16 to 20 as for a feed."
fn refusal(port: u8, room_length: usize) -> Option<u8> {
    if port != 0 && port != 1 {
        return Some(number::PORT);
    }
    // 02-02.5: "The feed's room grows to 166, number 18 below that."
    if room_length < 166 {
        return Some(number::ROOM);
    }
    None
}

impl Reckoning {
    /// 01-059: "The reckoning is given the page that starting got". A list of feeds begins with a page that starting
    /// accepts, so the page is blank or sound; no other page has values to reckon with. 02-12.6: "its reckoning told the
    /// profile".
    pub fn new(profile: Profile, page: &[u8]) -> Reckoning {
        let values = values(page).expect("the reckoning begins with a blank or sound page");
        let (taken, marks, errors) = (Vec::new(), Vec::new(), Vec::new());
        let empty = Stream { taken, marks, n: 0, last: number::USED_UP, errors };
        // "the working values, set as starting sets them; and the page's values, one or none under each code." 02-05.3:
        // "starting uses the factory value" where the page's is no longer taken.
        let started = |code: u8| loaded(code, &values).unwrap_or(FACTORY.value(code));
        let settings = FACTORY
            .with(BAUD, started(BAUD))
            .with(ACCELEROMETER, started(ACCELEROMETER))
            .with(GYROSCOPE, started(GYROSCOPE));
        Reckoning { ports: [empty.clone(), empty], settings, values, profile }
    }

    /// "then each feed's port, chunk and length of room, and nothing of the program's answers or records."
    pub fn feed(&mut self, port: u8, chunk: &[u8], room_length: usize) -> Reckoned {
        match refusal(port, room_length) {
            Some(number) => Reckoned::without_reply(number, 0, 0),
            None => {
                let skipped_before = self.ports[usize::from(port)].standing().skipped;
                self.accept(port, chunk, skipped_before)
            }
        }
    }

    /// 02-06.5: "In the plain reckoning an accepted silence marks the end of that port's bytes, then goes as an empty feed."
    pub fn silence(&mut self, port: u8, room_length: usize) -> Reckoned {
        match refusal(port, room_length) {
            Some(number) => Reckoned::without_reply(number, 0, 0),
            None => {
                let stream = &mut self.ports[usize::from(port)];
                // The bytes that the mark makes the scan skip are this call's, so the count is from before the mark.
                let skipped_before = stream.standing().skipped;
                stream.marks.push(stream.taken.len());
                self.accept(port, &[], skipped_before)
            }
        }
    }

    /// "Otherwise it is accepted:" a feed, or a silence that has made its mark. Given is how many bytes the scan had skipped
    /// before.
    fn accept(&mut self, port: u8, chunk: &[u8], skipped_before: usize) -> Reckoned {
        let stream = &mut self.ports[usize::from(port)];

        // "Take the shortest beginning of the chunk, the empty one too, with which the scan of all that port's bytes
        // finds more than n messages, good and damaged."
        for taken in 0..=chunk.len() {
            let mut all = stream.taken.clone();
            all.extend_from_slice(&chunk[..taken]);
            let events = scan_marked(&all, &stream.marks);
            let found: Vec<(usize, usize)> = events.iter().filter_map(Event::message).collect();
            if found.len() > stream.n {
                // "Message n + 1 is handled as above on the values kept; its reply and save mark are the feed's, the
                // number is 0, and n grows by one." 02-02.6: "Demand 3 handles such a message as one." 02-03.9: "demand
                // 3 stands with this handling."
                let (place, length) = found[stream.n];
                let message = &all[place..place + length];
                let handled = handle(self.profile, port, message, self.settings, self.values);
                self.settings = handled.settings;
                self.values = handled.values;
                stream.taken = all;
                stream.n += 1;
                stream.last = number::DONE;
                // "Bytes skipped are those that the scan skipped since that port's last accepted feed;"
                let skipped = stream.standing().skipped - skipped_before;
                let (saved, reply) = (handled.saved, handled.reply);
                let error = first_error(&reply);
                stream.errors.push(error);
                return Reckoned { number: number::DONE, taken, skipped, error, saved, reply };
            }
        }

        // "If no beginning does that, take the whole chunk: number 1, no reply, no save."
        stream.taken.extend_from_slice(chunk);
        stream.last = number::USED_UP;
        let skipped = stream.standing().skipped - skipped_before;
        Reckoned::without_reply(number::USED_UP, chunk.len(), skipped)
    }

    /// A restart, of which 02-03.10 has "any history of feeds and restarts over one page": the board starts anew on the
    /// page as it stands, and nothing but the page is kept. Starting is told a profile each time.
    pub fn restart(&mut self, profile: Profile) {
        *self = Reckoning::new(profile, &self.page());
    }

    pub fn profile(&self) -> Profile {
        self.profile
    }

    pub fn settings(&self) -> Settings {
        self.settings
    }

    /// "held are the bytes from there on." The port is 0 or 1.
    pub fn held(&self, port: u8) -> Vec<u8> {
        let stream = &self.ports[usize::from(port)];
        stream.taken[stream.standing().place..].to_vec()
    }

    /// 02-13.7: "Demand 3 covers the totals too." The port is 0 or 1.
    pub fn totals(&self, port: u8) -> Tally {
        self.ports[usize::from(port)].totals()
    }

    /// "The page is the writing of its values, blank with none."
    pub fn page(&self) -> [u8; 64] {
        write_page(&self.values)
    }
}

/// The error in the first row of a reply, as who gets it reads it.
fn first_error(reply: &[u8]) -> u8 {
    let row = read_reply(reply, 0);
    assert_eq!(row.number, number::DONE, "a reply has a first row");
    row.error
}

/// A step of a list, and the number that the call was answered with.
#[derive(Clone, Copy, Debug, PartialEq, Eq)]
pub enum Answered {
    Feed { port: u8, number: u8 },
    Silence { port: u8, number: u8 },
    Restart,
}

/// 02-06.4: whether this is one of the "lists in which each accepted silence is drained to answer 1 before a feed of that
/// port is accepted again": those that demand 3 is about.
pub fn drained(list: &[Answered]) -> bool {
    let mut draining = Draining::default();
    list.iter().all(|&answered| draining.allows(answered))
}

/// Of each port, whether its last accepted silence answered 0: it is then not drained yet.
#[derive(Clone, Copy, Debug, Default, PartialEq, Eq)]
pub struct Draining([bool; 2]);

impl Draining {
    /// Whether a port is to be drained before a feed of it is accepted. One that is neither 0 nor 1 never is.
    pub fn must_drain(&self, port: u8) -> bool {
        self.0.get(usize::from(port)) == Some(&true)
    }

    /// Whether a list that was drained so far still is with this step, which is the next.
    ///
    /// A silence that answers 1 is drained by itself. A restart leaves nothing held, so nothing has to be drained. What is
    /// answered of a port that is neither 0 nor 1 has no part in it.
    pub fn allows(&mut self, answered: Answered) -> bool {
        let (port, number) = match answered {
            Answered::Restart => {
                self.0 = [false; 2];
                return true;
            }
            Answered::Feed { port, number } | Answered::Silence { port, number } => (port, number),
        };
        let Some(draining) = self.0.get_mut(usize::from(port)).filter(|_| number::accepted(number)) else {
            return true;
        };
        match answered {
            Answered::Silence { .. } => *draining = number == number::DONE,
            _ => return !*draining,
        }
        true
    }
}

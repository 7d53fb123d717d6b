//! The board: starting, feeding and silences.

use crate::ffi::{self, Stepped};
use crate::refusal::{done_or_refused, refusal_of, Refusal};
use crate::reply::{error_of, ReplyError};
use crate::tally::Tally;

/// The bytes that a port holds: the first `held` of the array, of an undecided message or not yet looked at.
///
/// After an accepted feed or silence the bytes past them are zero in the port that it was of; the other port is as it came.
#[derive(Clone, Copy, Debug, PartialEq, Eq)]
#[repr(C)]
pub struct Port {
    /// The held bytes, and the room past them.
    pub bytes: [u8; Port::ROOM],
    /// How many are held.
    pub held: usize,
}

impl Port {
    /// The most bytes that a port holds.
    pub const ROOM: usize = 260;
    /// The longest message.
    pub const LONGEST: usize = Port::ROOM + 1;

    /// A port that holds nothing.
    #[must_use]
    pub const fn new() -> Port {
        Port { bytes: [0; Port::ROOM], held: 0 }
    }
}

impl Default for Port {
    fn default() -> Port {
        Port::new()
    }
}

/// The values that this board works with. The library takes, keeps and reports them; to put them to use, after a start and after
/// each feed and silence, is the driver's part.
#[derive(Clone, Copy, Debug, PartialEq, Eq)]
#[repr(C)]
pub struct Settings {
    /// One of 9600, 19200, 115200, 230400, 460800, 921600; the factory's is 115200.
    ///
    /// A new one is the working value at once, and the reply to it is in the room. The MS CIP specification (3.2.1) has the messages
    /// that follow the reply at the new rate: the driver sends the reply at the old one, and switches behind its last byte.
    pub baud: u32,
    /// The code of the accelerometer's range, 1 to 4; the factory's is 2.
    pub accelerometer: u8,
    /// The code of the gyroscope's range, 1 to 5; the factory's is 3. Older boards had 6 and 7, too.
    pub gyroscope: u8,
}

/// What the ports of a board may do. A start is told it, the board keeps it, and no feed or silence changes it. The page does
/// not keep it: a board that starts anew, as after a power cut, is told it again.
#[derive(Clone, Copy, Debug, PartialEq, Eq, Hash)]
pub enum Profile {
    /// Either port may use every function: port 0 with a number, once the page keeps one, and port 1 with or without.
    Full,
    /// Port 1 may use Ping and function 2 only, and port 0 what it may in the full profile.
    ///
    /// Functions 1, 3, 4 and 5 on port 1 are answered with error 7, not allowed on this port, field by field: an unknown code is
    /// 3 before that, and what would be 4 or 6 of a field's own comes after it. A message whose fields are not reached is answered
    /// as on any port (1, 2, 3 without a payload, 4). But every numbered command with right sums gets one row with error 7 on
    /// port 1, whatever stands in it, and its number is not spent.
    ///
    /// What is promised: whatever comes on port 1, in feeds and silences of any number, between those of port 0 or without
    /// them, port 0 does not see it. Of each call of port 0 the outcome, the reply, what port 0 then holds, its totals, the
    /// working settings and the page are the same. That is proved of the library, for every list of calls, refused ones included.
    ///
    /// What is not: port 1 still learns the working settings, since function 2 reports them, and so what port 0 does to them;
    /// who reads there can pass that on. Nor is time covered: how long a call takes, and when port 0 is served while much
    /// comes on port 1, is the driver's affair.
    ///
    /// ```
    /// use ketphiroj::{code, function, read_reply, write_command, write_numbered};
    /// use ketphiroj::{Board, Outcome, Profile, Refusal, ReplyError};
    ///
    /// type Answer = Result<Option<u32>, ReplyError>;
    ///
    /// /// Feeds a whole message. Gives the value that the reply's first row reports, or its error.
    /// fn answer(board: &mut Board, port: u8, message: &[u8], page: &mut [u8]) -> Result<Answer, Refusal> {
    ///     let mut room = [0; Board::REPLY];
    ///     let Outcome::Reported { reply, .. } = board.feed(port, message, &mut room, page)? else {
    ///         panic!("the message is whole");
    ///     };
    ///     Ok(read_reply(&room[..reply], 0)?.result())
    /// }
    ///
    /// let mut page = [0xFF; 64];
    /// let mut board = Board::start(Profile::ReadOnly, &page)?;
    /// let mut message = [0; 15];
    ///
    /// // Port 1 may ask, and may not save. Port 0 may.
    /// let ask = write_command(code::GYROSCOPE, function::REPORT, 0, &mut message)?;
    /// assert_eq!(answer(&mut board, 1, &message[..ask], &mut page)?, Ok(Some(3)));
    /// let save = write_command(code::GYROSCOPE, function::SAVE, 0, &mut message)?;
    /// assert_eq!(answer(&mut board, 1, &message[..save], &mut page)?, Err(ReplyError::NotAllowed));
    /// assert_eq!(page, [0xFF; 64]);
    /// assert_eq!(answer(&mut board, 0, &message[..save], &mut page)?, Ok(None));
    /// assert_ne!(page, [0xFF; 64]);
    ///
    /// // A number that comes on port 1 is not spent: port 0 may still use it.
    /// let length = write_numbered(1, code::GYROSCOPE, function::USE, 5, &mut message)?;
    /// assert_eq!(answer(&mut board, 1, &message[..length], &mut page)?, Err(ReplyError::NotAllowed));
    /// assert_eq!(answer(&mut board, 0, &message[..length], &mut page)?, Ok(None));
    /// assert_eq!(board.settings.gyroscope, 5);
    /// # Ok::<(), Refusal>(())
    /// ```
    ReadOnly,
}

impl Profile {
    /// The profile that the flag of the C interface stands for.
    const fn of(readonly: bool) -> Profile {
        match readonly {
            true => Profile::ReadOnly,
            false => Profile::Full,
        }
    }

    const fn is_readonly(self) -> bool {
        matches!(self, Profile::ReadOnly)
    }
}

/// The board's state between two calls: two ports, the working values, the profile, and the totals of each port.
///
/// It is plain data, to be kept, copied and sent as one likes. The next feed or silence refuses it ([`Refusal::Unsound`]) where a
/// held count, of either port, is over 260 or a value is none that this board works with. Any held bytes are accepted,
/// any bytes past them, and any totals.
#[derive(Clone, Copy, Debug, PartialEq, Eq)]
#[must_use = "a board that was started is to be fed"]
#[repr(C)]
pub struct Board {
    /// Port 0.
    pub first: Port,
    /// Port 1.
    pub second: Port,
    /// The working values.
    pub settings: Settings,
    /// Whether it is read-only: [`Board::profile`] as the C interface has it. A start puts it here, and the calls only read it.
    pub readonly: bool,
    /// The totals of port 0 since the start. A feed or a silence counts in those of its own port, and leaves the other's alone.
    pub tally0: Tally,
    /// The totals of port 1 since the start.
    pub tally1: Tally,
}

/// What an accepted feed did, or an accepted silence, which takes no byte.
///
/// It is to be looked at: it says whether there is a reply, how long it is, and whether the page is to be stored before that is sent.
/// The compiler warns where it is not, also behind a `?`:
///
/// ```compile_fail
/// #![deny(unused_must_use)]
/// use ketphiroj::{Board, Profile, Refusal};
///
/// let mut page = [0xFF; 64];
/// let mut board = Board::start(Profile::Full, &page)?;
/// board.feed(0, &[], &mut [0; Board::REPLY], &mut page)?;
/// # Ok::<(), Refusal>(())
/// ```
#[derive(Clone, Copy, Debug, PartialEq, Eq)]
#[must_use = "it says whether there is a reply, and whether the page is to be stored before that is sent"]
pub enum Outcome {
    /// A message was reported, good or damaged, and its reply was written. What is left of the chunk is to be fed
    /// again.
    Reported {
        /// Bytes taken from the front of the chunk.
        taken: usize,
        /// Bytes that the scan skipped.
        skipped: usize,
        /// Whether a save was accepted, of any field, or a fresh number was taken; the page has then been written, and is
        /// to be stored before the reply is sent.
        saved: bool,
        /// The first error in the reply, none where that is 0: of a command with several fields the first row's.
        error: Option<ReplyError>,
        /// The length of the reply at the front of the room.
        reply: usize,
    },
    /// The chunk is used up, or after a silence nothing is held, and there is nothing more to report. Nothing was written.
    UsedUp {
        /// Bytes taken: the chunk's length.
        taken: usize,
        /// Bytes that the scan skipped.
        skipped: usize,
    },
}

impl Outcome {
    /// Bytes taken from the front of the chunk.
    #[must_use]
    pub const fn taken(&self) -> usize {
        match *self {
            Outcome::Reported { taken, .. } | Outcome::UsedUp { taken, .. } => taken,
        }
    }

    /// Bytes that the scan skipped.
    #[must_use]
    pub const fn skipped(&self) -> usize {
        match *self {
            Outcome::Reported { skipped, .. } | Outcome::UsedUp { skipped, .. } => skipped,
        }
    }
}

impl Board {
    /// The longest reply, to a command of 16 fields, and the least room of a feed and of a silence.
    pub const REPLY: usize = 166;

    /// Starts a board in a profile, on the values that the page keeps, or the factory's where it keeps none. A page of an
    /// older board may keep the gyroscope's range 6 or 7, which this board does not have: it starts on the factory's, and
    /// the page stays as it is.
    ///
    /// # Errors
    ///
    /// [`Refusal::PageLength`] where the page is not 64 bytes, and [`Refusal::Page`] where it is neither blank (64 bytes FF) nor sound.
    /// Such a page is damaged: what it kept, the last number accepted too, is lost. Whether it is kept for service, or erased to a
    /// blank one and the board started on that, is for the firmware to decide: over a blank page every number is accepted again.
    ///
    /// # Examples
    ///
    /// ```
    /// use ketphiroj::{Board, Profile, Refusal, Values};
    ///
    /// let board = Board::start(Profile::Full, &[0xFF; 64])?;
    /// assert_eq!((board.settings.baud, board.profile()), (115200, Profile::Full));
    /// assert_eq!(Board::start(Profile::Full, &[0xFF; 63]), Err(Refusal::PageLength));
    /// assert_eq!(Board::start(Profile::Full, &[0x00; 64]), Err(Refusal::Page));
    ///
    /// // The page of an older board.
    /// let mut page = [0xFF; 64];
    /// Values { accelerometer: Some(4), gyroscope: Some(7), ..Values::default() }.write(&mut page)?;
    /// let settings = Board::start(Profile::Full, &page)?.settings;
    /// assert_eq!((settings.accelerometer, settings.gyroscope), (4, 3));
    /// # Ok::<(), Refusal>(())
    /// ```
    pub fn start(profile: Profile, page: &[u8]) -> Result<Board, Refusal> {
        let started = ffi::start(profile.is_readonly(), page);
        done_or_refused(started.number)?;
        Ok(started.board)
    }

    /// The profile that the board was started in.
    #[must_use]
    pub const fn profile(&self) -> Profile {
        Profile::of(self.readonly)
    }

    /// The totals of port 0 or 1 since the start; none of another port.
    ///
    /// ```
    /// use ketphiroj::{Board, Profile, Refusal};
    ///
    /// let mut page = [0xFF; 64];
    /// let mut board = Board::start(Profile::Full, &page)?;
    /// let outcome = board.feed(1, b"noise", &mut [0; Board::REPLY], &mut page)?;
    /// assert_eq!(outcome.skipped(), 5);
    /// assert_eq!(board.tally(0).map(|tally| tally.skipped), Some(0));
    /// assert_eq!(board.tally(1).map(|tally| tally.skipped), Some(5));
    /// assert_eq!(board.tally(2), None);
    /// # Ok::<(), Refusal>(())
    /// ```
    #[must_use]
    pub const fn tally(&self, port: u8) -> Option<&Tally> {
        match port {
            0 => Some(&self.tally0),
            1 => Some(&self.tally1),
            _ => None,
        }
    }

    /// Starts the board where it stands, in a profile and whatever it holds: afterwards it is the one that [`Board::start`]
    /// gives. It takes less stack, since no board is handed over by value.
    ///
    /// # Errors
    ///
    /// [`Refusal::PageLength`] and [`Refusal::Page`], as [`Board::start`]; the board then has two fresh ports, the factory's settings,
    /// the profile asked for, and totals of zero.
    ///
    /// # Examples
    ///
    /// ```
    /// use ketphiroj::{Board, Port, Profile, Refusal, Settings, Tally};
    ///
    /// let mut page = [0xFF; 64];
    /// let mut room = [0; Board::REPLY];
    /// let mut board = Board::start(Profile::Full, &page)?;
    ///
    /// // The accelerometer's range is set to 4, and then comes the front of another message, which is held.
    /// let set = [0xA5, 0xA5, 0x02, 0x04, 0x07, 0x02, 0x01, 0x04, 0x5E, 0xF3];
    /// assert_eq!(board.feed(0, &set, &mut room, &mut page)?.taken(), 10);
    /// assert_eq!(board.feed(0, &set[..5], &mut room, &mut page)?.taken(), 5);
    /// assert_eq!((board.settings.accelerometer, board.first.held), (4, 5));
    /// assert_eq!((board.tally0.taken, board.tally0.good), (15, 10));
    ///
    /// // None of it is on the page, so that a start forgets it.
    /// board.start_in_place(Profile::Full, &page)?;
    /// assert_eq!((board.settings.accelerometer, board.first.held), (2, 0));
    /// assert_eq!(board.tally0, Tally::new());
    /// assert_eq!(board, Board::start(Profile::Full, &page)?);
    ///
    /// // So does a start that is refused. The board is in the profile that was asked for.
    /// assert_eq!(board.feed(0, &set, &mut room, &mut page)?.taken(), 10);
    /// assert_eq!(board.feed(1, &set[..5], &mut room, &mut page)?.taken(), 5);
    /// assert_eq!(board.start_in_place(Profile::ReadOnly, &[0x00; 64]), Err(Refusal::Page));
    /// let factory = Settings { baud: 115200, accelerometer: 2, gyroscope: 3 };
    /// let (port, tally) = (Port::new(), Tally::new());
    /// let refused =
    ///     Board { first: port, second: port, settings: factory, readonly: true, tally0: tally, tally1: tally };
    /// assert_eq!(board, refused);
    /// assert_eq!(board.profile(), Profile::ReadOnly);
    /// # Ok::<(), Refusal>(())
    /// ```
    pub fn start_in_place(&mut self, profile: Profile, page: &[u8]) -> Result<(), Refusal> {
        let readonly = profile.is_readonly();
        let started = ffi::start_in_place(readonly, &mut self.first.bytes, &mut self.second.bytes, page);
        self.first.held = 0;
        self.second.held = 0;
        self.settings = started.settings;
        self.readonly = started.readonly;
        self.tally0 = Tally::new();
        self.tally1 = Tally::new();
        done_or_refused(started.number)
    }

    /// Feeds a chunk to port 0 or 1: takes bytes up to the end of the first message, handles it and writes its reply to
    /// the room's front, or takes the whole chunk where there is none. A save writes the page. Bytes that open no
    /// message are skipped without a reply; so are stray A5 in front of one. What is taken, skipped and answered is added to the
    /// totals of the port: [`Tally`].
    ///
    /// A command has 1 to 16 fields, which are handled in their order as separate commands would be; the reply has a
    /// row for each. Where the fields do not fill the payload, or are more than 16, nothing is done, and the reply has
    /// one row with error 4.
    ///
    /// The gyroscope's ranges on this board are 1 to 5. Function 1 with 6 or 7, and function 4 where the page keeps 6 or 7,
    /// are answered with error 6, and the working range and the page stay as they are. (A missing number is 5, a function
    /// that the port may not use 7, and a wrong size 4, before that.) Function 3 writes the working range over the page's.
    ///
    /// A numbered command (type 7C: a number of four bytes, then a command's type and its fields) is accepted on either
    /// port of a full board where its number is fresh: larger than the one that the page keeps, or any where it keeps none. The number is
    /// then written to the page and the command is handled; the number is spent even where that gives an error. A number
    /// that is not fresh is answered with error 5, and nothing changes. As soon as the page keeps a number, port 0 answers
    /// with error 5 what would change something and has no number (functions 1, 3, 4 and 5); port 1 takes it. After
    /// 4294967295 no number is fresh until the page is erased.
    ///
    /// Port 1 of a read-only board takes neither what would change something nor a numbered command: [`Profile::ReadOnly`].
    ///
    /// So no number is ever accepted twice over one page, whatever is fed and however often the board starts anew. Over a
    /// power cut that holds only if the page is stored where `saved` says so, whole or not at all, **before the reply is
    /// sent** and the settings are put to use: a number that was answered and is not on the stored page would be accepted
    /// again. The board is to be started on the page that was stored last, and nobody else may write or erase it. What is
    /// lent is a copy of it: while a feed or a silence writes the page, it is blank for a moment.
    ///
    /// # Errors
    ///
    /// [`Refusal::Port`] where it is not 0 or 1, [`Refusal::Unsound`], [`Refusal::Room`] where it is under [`Board::REPLY`] bytes,
    /// [`Refusal::PageLength`] and [`Refusal::Page`], the first that applies; the board, the room and the page are then as they were.
    ///
    /// # Examples
    ///
    /// A program feeds what is left of the chunk, the empty rest too, until the outcome is [`Outcome::UsedUp`]; on a silent line
    /// it calls [`Board::silence`]:
    ///
    /// ```
    /// use ketphiroj::{Board, Outcome, Profile, Refusal};
    ///
    /// let mut page = [0xFF; 64];
    /// let mut board = Board::start(Profile::Full, &page)?;
    /// let mut room = [0; Board::REPLY];
    /// let mut replies = Vec::new();
    ///
    /// // A Ping with a wrong sum, a stray A5, then function 3 of the baud rate, which saves it.
    /// let mut chunk: &[u8] = &[
    ///     0xA5, 0xA5, 0x01, 0x02, 0x02, 0x00, 0x4F, 0x24, // error 1
    ///     0xA5, // no reply
    ///     0xA5, 0xA5, 0x02, 0x03, 0x01, 0x01, 0x03, 0x54, 0x7F,
    /// ];
    /// loop {
    ///     let outcome = board.feed(1, chunk, &mut room, &mut page)?;
    ///     chunk = &chunk[outcome.taken()..];
    ///     match outcome {
    ///         Outcome::Reported { reply, saved, .. } => replies.push((room[..reply].to_vec(), saved)),
    ///         Outcome::UsedUp { .. } => break,
    ///     }
    /// }
    /// assert_eq!(replies.len(), 2);
    /// assert_eq!(replies[0], (vec![0xA5, 0xA5, 0x01, 0x04, 0x80, 0x02, 0x02, 0x01, 0xD4, 0xD0], false));
    /// assert!(replies[1].1);
    /// assert_eq!(page[..8], [0x01, 0x01, 0x04, 0x04, 0x00, 0x01, 0xC2, 0x00]);
    /// # Ok::<(), Refusal>(())
    /// ```
    ///
    /// A load from the page of an older board:
    ///
    /// ```
    /// use ketphiroj::{code, function, read_reply, write_command};
    /// use ketphiroj::{Board, Outcome, Profile, Refusal, ReplyError, Values};
    ///
    /// let mut page = [0xFF; 64];
    /// Values { gyroscope: Some(6), ..Values::default() }.write(&mut page)?;
    /// let mut board = Board::start(Profile::Full, &page)?;
    /// board.settings.gyroscope = 5;
    ///
    /// let mut room = [0; Board::REPLY];
    /// let mut load = [0; 9];
    /// write_command(code::GYROSCOPE, function::LOAD, 0, &mut load)?;
    /// let outcome = board.feed(0, &load, &mut room, &mut page)?;
    /// let error = Some(ReplyError::Unsupported);
    /// assert_eq!(outcome, Outcome::Reported { taken: 9, skipped: 0, saved: false, error, reply: 10 });
    /// assert_eq!(read_reply(&room[..10], 0)?.error, error);
    /// assert_eq!((board.settings.gyroscope, Values::read(&page)?.gyroscope), (5, Some(6)));
    /// # Ok::<(), Refusal>(())
    /// ```
    ///
    /// A numbered command, sent again after a power cut:
    ///
    /// ```
    /// use ketphiroj::{code, function, write_command, write_numbered};
    /// use ketphiroj::{Board, Outcome, Profile, Refusal, ReplyError};
    ///
    /// /// Feeds a command to port 0, and stores the page where it was written. Gives the error in the reply, which is now sent.
    /// fn answer(
    ///     board: &mut Board,
    ///     page: &mut [u8; 64],
    ///     stored: &mut [u8; 64],
    ///     command: &[u8],
    /// ) -> Result<Option<ReplyError>, Refusal> {
    ///     let mut room = [0; Board::REPLY];
    ///     let Outcome::Reported { saved, error, .. } = board.feed(0, command, &mut room, page)? else {
    ///         panic!("the command is whole");
    ///     };
    ///     if saved {
    ///         *stored = *page;
    ///     }
    ///     Ok(error)
    /// }
    ///
    /// let mut stored = [0xFF; 64];
    /// let mut page = stored;
    /// let mut board = Board::start(Profile::Full, &page)?;
    /// let mut yesterday = [0; 15];
    /// write_numbered(1, code::ACCELEROMETER, function::USE, 4, &mut yesterday)?;
    /// assert_eq!(answer(&mut board, &mut page, &mut stored, &yesterday)?, None);
    /// assert_eq!(board.settings.accelerometer, 4);
    ///
    /// // The power is cut, and the board starts anew on what was stored.
    /// let mut page = stored;
    /// let mut board = Board::start(Profile::Full, &page)?;
    /// assert_eq!(answer(&mut board, &mut page, &mut stored, &yesterday)?, Some(ReplyError::Number));
    /// assert_eq!(board.settings.accelerometer, 2);
    /// assert_eq!(page, stored);
    ///
    /// // Without a number port 0 does not take it either; with the next one it does.
    /// let mut command = [0; 15];
    /// let length = write_command(code::ACCELEROMETER, function::USE, 4, &mut command)?;
    /// assert_eq!(answer(&mut board, &mut page, &mut stored, &command[..length])?, Some(ReplyError::Number));
    /// write_numbered(2, code::ACCELEROMETER, function::USE, 4, &mut command)?;
    /// assert_eq!(answer(&mut board, &mut page, &mut stored, &command)?, None);
    /// # Ok::<(), Refusal>(())
    /// ```
    pub fn feed(&mut self, port: u8, chunk: &[u8], room: &mut [u8], page: &mut [u8]) -> Result<Outcome, Refusal> {
        let fed = ffi::feed_in_place(port, self, chunk, room, page);
        outcome_of(&fed, room)
    }

    /// Tells port 0 or 1 that its line is silent: no more bytes of a message that has begun will come, so that the scan goes on
    /// over the held bytes, and each time it would wait for more of them it skips one instead, without a reply. It stops at the
    /// first message, which is handled and answered as in a feed ([`Outcome::Reported`]), or when nothing is held
    /// ([`Outcome::UsedUp`]).
    ///
    /// It is for a false header, which can claim up to 255 bytes, and behind which a true command would wait for them. When a
    /// line counts as silent is the driver's to know.
    ///
    /// Before it everything that was received on that port is fed, until a feed gives [`Outcome::UsedUp`]. The rest of a chunk
    /// that is fed only after the silence counts as received after it: a message that begins before that rest and ends in it
    /// is lost.
    ///
    /// What is said of a feed about the page, numbered commands and totals holds here too. `taken` is 0.
    ///
    /// On a silent line a driver calls until nothing more is reported, and only then feeds that port again. (An earlier feed is
    /// taken, and goes on over the bytes that are left: a message may then begin before the silence and end after it.)
    ///
    /// # Errors
    ///
    /// As [`Board::feed`].
    ///
    /// # Examples
    ///
    /// ```
    /// use ketphiroj::{Board, Outcome, Profile, Refusal, Values};
    ///
    /// let mut stored = [0xFF; 64];
    /// let mut page = stored;
    /// let mut board = Board::start(Profile::Full, &page)?;
    /// let mut room = [0; Board::REPLY];
    ///
    /// // Noise that looks as a header of 255 bytes, then function 3 of the baud rate, which is held behind it.
    /// let noise = [0xA5, 0xA5, 0x01, 0xFF];
    /// let save = [0xA5, 0xA5, 0x02, 0x03, 0x01, 0x01, 0x03, 0x54, 0x7F];
    /// assert_eq!(board.feed(0, &noise, &mut room, &mut page)?, Outcome::UsedUp { taken: 4, skipped: 0 });
    /// assert_eq!(board.feed(0, &save, &mut room, &mut page)?, Outcome::UsedUp { taken: 9, skipped: 0 });
    ///
    /// // The line is silent. The page is stored where it was written, and only then the reply is sent.
    /// let mut sent = Vec::new();
    /// while let Outcome::Reported { reply, saved, .. } = board.silence(0, &mut room, &mut page)? {
    ///     if saved {
    ///         stored = page;
    ///     }
    ///     sent.push(room[..reply].to_vec());
    /// }
    /// assert_eq!(sent, [[0xA5, 0xA5, 0x02, 0x04, 0x80, 0x02, 0x01, 0x00, 0xD3, 0xD3]]);
    /// assert_eq!(Values::read(&stored)?.baud, Some(115200));
    /// assert_eq!(board.first.held, 0);
    /// # Ok::<(), Refusal>(())
    /// ```
    pub fn silence(&mut self, port: u8, room: &mut [u8], page: &mut [u8]) -> Result<Outcome, Refusal> {
        let stepped = ffi::silence_in_place(port, self, room, page);
        outcome_of(&stepped, room)
    }
}

/// The outcome of a feed or a silence that has this room.
fn outcome_of(stepped: &Stepped, room: &[u8]) -> Result<Outcome, Refusal> {
    let &Stepped { number, taken, skipped, saved, error, .. } = stepped;
    match number {
        // A reply is a message: its length byte says how long it is.
        0 => Ok(Outcome::Reported { taken, skipped, saved, error: error_of(error), reply: usize::from(room[3]) + 6 }),
        1 => Ok(Outcome::UsedUp { taken, skipped }),
        number => Err(refusal_of(number)),
    }
}

//! Wrong ways to handle a message of several fields, put together from the plain handling of separate messages. A fault
//! writes what they give over the library's answer.

use crate::calls::Fed;
use crate::counting::named_tally;
use crate::faults::Fault;
use crate::numbering;
use crate::ranging;
use crate::records;
use crate::rights;
use ketphiroj::{Board, Settings};
use plain::{Handled, Profile, Row, Values};

/// What a feed was given.
pub struct Before<'a> {
    pub port: u8,
    pub board: Board,
    pub chunk: &'a [u8],
    pub room: Vec<u8>,
    pub page: Vec<u8>,
}

/// The message that a feed reported, the board's profile and the port that it came on, what it was handled on, and how many
/// of its bytes were held before.
pub struct Reported {
    pub message: Vec<u8>,
    pub profile: Profile,
    pub port: u8,
    pub held: usize,
    pub settings: plain::Settings,
    pub values: Values,
    /// Whether the board was as starting gives it on that page.
    pub just_started: bool,
}

impl Before<'_> {
    /// Of an accepted feed that answered 0. None where its counts do not lead to a message.
    pub fn reported(&self, fed: &Fed) -> Option<Reported> {
        let port = if self.port == 0 { &self.board.first } else { &self.board.second };
        let row = [port.bytes.get(..port.held)?, self.chunk.get(..fed.taken)?].concat();
        let whole = |place: usize| {
            let end = place + usize::from(*row.get(place + 3)?) + 6;
            row.get(place..end)
        };
        // A damaged message begins one byte before: that byte is counted as skipped.
        let good = whole(fed.skipped).filter(|message| plain::check_message(message) == 0);
        let place = if good.is_some() { fed.skipped } else { fed.skipped.checked_sub(1)? };
        let Settings { baud, accelerometer, gyroscope } = self.board.settings;
        let profile = if self.board.readonly { Profile::ReadOnly } else { Profile::Full };
        Some(Reported {
            message: whole(place)?.to_vec(),
            profile,
            port: self.port,
            held: port.held.saturating_sub(place),
            settings: plain::Settings { baud, accelerometer, gyroscope },
            values: plain::values(&self.page)?,
            just_started: records::board(&plain::start(profile, &self.page).1) == self.board,
        })
    }
}

/// Where the fault shows in the message that was reported, its outcome instead of the library's. The error that it comes to is
/// told, and counted.
pub fn refold(fault: Fault, before: &Before, fed: &mut Fed, room: &mut [u8], page: &mut [u8]) {
    let wrong = |reported: Reported| {
        let handled = reported.wrong(fault).or_else(|| numbering::wrong(fault, &reported));
        handled.or_else(|| ranging::wrong(fault, &reported)).or_else(|| rights::wrong(fault, &reported))
    };
    let handled = before.reported(fed).and_then(wrong);
    let Some(handled) = handled.filter(|handled| handled.reply.len() <= room.len()) else {
        return;
    };
    room.copy_from_slice(&before.room);
    room[..handled.reply.len()].copy_from_slice(&handled.reply);
    page.copy_from_slice(&plain::write_page(&handled.values));
    fed.saved = handled.saved;
    fed.board.settings = records::settings(handled.settings);
    fed.error = handled.rows[0].error;
    let (tally, mut given) = (named_tally(before.port, &mut fed.board), before.board);
    tally.errors = named_tally(before.port, &mut given).errors;
    if let Some(counted) = tally.errors.get_mut(usize::from(fed.error)) {
        *counted = counted.saturating_add(1);
    }
}

impl Reported {
    #[cfg(test)]
    pub fn new(profile: Profile, port: u8, message: Vec<u8>, settings: plain::Settings, values: Values) -> Reported {
        Reported { message, profile, port, held: 0, settings, values, just_started: false }
    }

    /// Whether it came on a port that may use Ping and function 2 only.
    pub fn restricted(&self) -> bool {
        self.profile.restricts(self.port)
    }

    pub fn kind(&self) -> u8 {
        self.message[2]
    }

    pub fn payload(&self) -> &[u8] {
        &self.message[4..self.message.len() - 2]
    }

    /// The bytes of each field; none where they do not fill the payload.
    pub fn fields(&self) -> Option<Vec<&[u8]>> {
        let bytes = |field: &plain::Part| &self.payload()[field.place - 2..field.place + field.data.len()];
        Some(plain::fields_of(self.payload())?.iter().map(bytes).collect())
    }

    /// A separate message with this field alone.
    fn separate(&self, field: &[u8], settings: plain::Settings, values: Values) -> Handled {
        plain::handle(self.profile, self.port, &plain::message(self.kind(), field), settings, values)
    }

    /// The fields one after the other, each on what `on` says of those before it.
    fn fold(&self, fields: &[&[u8]], on: impl Fn(&Handled) -> (plain::Settings, Values)) -> Handled {
        let (settings, values) = (self.settings, self.values);
        let mut so_far = Handled { rows: Vec::new(), reply: Vec::new(), saved: false, settings, values };
        for field in fields {
            let (settings, values) = on(&so_far);
            let one = self.separate(field, settings, values);
            so_far.rows.extend(one.rows);
            so_far.saved |= one.saved;
            so_far.settings = one.settings;
            so_far.values = one.values;
        }
        so_far
    }

    /// The fields as they are to be handled.
    fn right(&self, fields: &[&[u8]]) -> Handled {
        self.fold(fields, |so_far| (so_far.settings, so_far.values))
    }

    /// One row, and nothing done.
    pub fn refused(&self, echo: u8, error: u8) -> Handled {
        let (settings, values) = (self.settings, self.values);
        let rows = vec![Row { echo, error, value: None }];
        Handled { rows, reply: Vec::new(), saved: false, settings, values }
    }

    /// What the fault gives; none where it does not show.
    fn wrong(&self, fault: Fault) -> Option<Handled> {
        let good = plain::sums_right(&self.message);
        let of_fields = self.kind() == 0x01 || self.kind() == 0x02;
        let mut handled = match (good, self.fields()) {
            (false, Some(fields)) => self.damaged(fault, &fields),
            (true, Some(fields)) if of_fields && fields.len() > 1 => {
                self.number_of_fields(fault, &fields).or_else(|| self.several(fault, &fields))
            }
            (true, Some(fields)) if of_fields && fields.is_empty() => {
                (fault == Fault::EmptyNotFilled).then(|| self.refused(0, 4))
            }
            (true, None) if of_fields => self.not_filled(fault),
            _ => None,
        }?;
        handled.reply = plain::reply_of(self.kind(), &handled.rows);
        Some(handled)
    }

    fn damaged(&self, fault: Fault, fields: &[&[u8]]) -> Option<Handled> {
        let rows = fields.iter().map(|field| Row { echo: field[0], error: 1, value: None });
        let several = (2..=16).contains(&fields.len()) && fault == Fault::RowsOfDamaged;
        several.then(|| Handled { rows: rows.collect(), ..self.refused(0, 1) })
    }

    fn number_of_fields(&self, fault: Fault, fields: &[&[u8]]) -> Option<Handled> {
        match (fault, fields.len()) {
            (Fault::SeventeenFields, 17) => Some(self.right(fields)),
            (Fault::SixteenRefused, 16) => Some(self.refused(fields[0][0], 4)),
            (Fault::FirstSixteen, 17..) => Some(self.right(&fields[..16])),
            _ => None,
        }
    }

    fn not_filled(&self, fault: Fault) -> Option<Handled> {
        let payload = self.payload();
        // The longest beginning that fields fill; it may be empty.
        let end = (0..payload.len()).rev().find(|&end| plain::fields_of(&payload[..end]).is_some())?;
        let beginning = Reported { message: plain::message(self.kind(), &payload[..end]), ..*self };
        let fields = beginning.fields().filter(|fields| (1..=16).contains(&fields.len()));
        let first = self.separate(&[payload[0], 0], self.settings, self.values);
        match fault {
            Fault::UnfilledAsFarAsItGoes => fields.map(|fields| self.right(&fields)),
            Fault::LastByteLeftOver if end + 1 == payload.len() => fields.map(|fields| self.right(&fields)),
            Fault::CodeBeforeFilling if first.rows[0].error == 3 => Some(self.refused(payload[0], 3)),
            Fault::EchoOfLastCode => Some(self.refused(payload[end], 4)),
            _ => None,
        }
    }

    /// Of 2 to 16 fields.
    fn several(&self, fault: Fault, fields: &[&[u8]]) -> Option<Handled> {
        if fields.len() > 16 {
            return None;
        }
        let right = self.right(fields);
        let last = fields[fields.len() - 1];
        let unknown = right.rows.iter().find(|row| row.error == 3);
        let first_error = right.rows.iter().position(|row| row.error != 0);
        Some(match fault {
            Fault::FieldsOnGivenSettings => self.fold(fields, |so_far| (self.settings, so_far.values)),
            Fault::LoadsFromGivenPage => {
                Handled { values: right.values, ..self.fold(fields, |so_far| (so_far.settings, self.values)) }
            }
            Fault::PageOfLastField => {
                Handled { values: self.separate(last, right.settings, self.values).values, ..right }
            }
            Fault::StopsAtFirstError => self.right(&fields[..=first_error?]),
            Fault::ErrorUndoesAll => {
                Handled { rows: right.rows.clone(), ..self.refused(0, right.rows[first_error?].error) }
            }
            Fault::UnknownCodeAlone => self.refused(unknown?.echo, 3),
            Fault::FirstFieldAlone => self.right(&fields[..1]),
            Fault::RowsReversed => Handled { rows: right.rows.iter().rev().copied().collect(), ..right },
            Fault::MarkOfLastField => {
                Handled { saved: self.separate(last, right.settings, right.values).saved, ..right }
            }
            Fault::MarkOfFirstField => {
                Handled { saved: self.separate(fields[0], self.settings, self.values).saved, ..right }
            }
            Fault::ReportsAtTheEnd => {
                with_rows(right, |row, after| row.value = row.value.map(|_| after.value(row.echo)))
            }
            Fault::EchoOfFirstField => {
                with_rows(right, |row, _| row.echo = row.value.map_or(fields[0][0], |_| row.echo))
            }
            Fault::StraddlingField => self.straddling(right)?,
            _ => return None,
        })
    }

    /// The field that is partly held and partly in the chunk is taken for one of a wrong size.
    fn straddling(&self, mut right: Handled) -> Option<Handled> {
        let cut = self.held.checked_sub(4)?;
        let parts = plain::fields_of(self.payload())?;
        let field = parts.iter().position(|part| part.place <= cut && cut < part.place + part.data.len())?;
        right.rows[field] = Row { error: 4, value: None, ..right.rows[field] };
        Some(right)
    }
}

/// Each row changed; the settings afterwards are given too.
fn with_rows(mut handled: Handled, change: impl Fn(&mut Row, &plain::Settings)) -> Handled {
    let after = handled.settings;
    handled.rows.iter_mut().for_each(|row| change(row, &after));
    handled
}

/// But for its fault, a wrong handling is the right one: what is put together from separate messages is what the plain
/// reading gives for the one.
#[test]
fn right_without_a_fault() {
    use plain::generate::{self, fields, numbered, Rng};
    let mut rng = Rng::new(16);
    for _ in 0..20_000 {
        let kind = rng.pick(&[0x01, 0x02]);
        let count = rng.between(1, 16);
        let message = plain::message(kind, &fields::row(&mut rng, kind, count));
        let (settings, values) = (generate::usable_settings(&mut rng), numbered::values(&mut rng));
        let (profile, port) = (generate::profile(&mut rng), rng.below(2) as u8);
        let expected = plain::handle(profile, port, &message, settings, values);
        let reported = Reported::new(profile, port, message, settings, values);
        let right = reported.right(&reported.fields().expect("filled"));
        assert_eq!(Handled { reply: plain::reply_of(kind, &right.rows), ..right }, expected);
    }
}

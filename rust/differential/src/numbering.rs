//! Wrong ways to handle a numbered command, or a command that has no number, put together from the plain handling. A
//! fault writes what they give over the library's answer.

use crate::faults::Fault;
use crate::folds::Reported;
use plain::{Handled, Profile, Row, Values};

/// What the fault gives of a message; none where it does not show. A port that may use no numbered command has none of these
/// faults.
pub fn wrong(fault: Fault, reported: &Reported) -> Option<Handled> {
    if reported.restricted() {
        return None;
    }
    let good = plain::sums_right(&reported.message);
    let mut handled = match (reported.kind(), good) {
        (0x7C, false) => damaged(fault, reported),
        (0x7C, true) => match Numbered::of(reported) {
            Some(numbered) => numbered.wrong(fault),
            None => short(fault, reported),
        },
        (0x01 | 0x02, true) => unnumbered(fault, reported),
        _ => None,
    }?;
    if handled.reply.is_empty() {
        handled.reply = plain::reply_of(reported.kind(), &handled.rows);
    }
    Some(handled)
}

/// The page's values with another number, or with none.
fn keeping(values: Values, last_number: Option<u32>) -> Values {
    Values { last_number, ..values }
}

/// Of a damaged message of type 7C.
fn damaged(fault: Fault, reported: &Reported) -> Option<Handled> {
    let payload = reported.payload();
    let echo = payload.first().copied().unwrap_or(0);
    match fault {
        Fault::DamagedSpends => {
            let number = Numbered::of(reported)?.number;
            let values = keeping(reported.values, Some(number));
            let fresh = plain::fresh(number, &reported.values);
            fresh.then(|| Handled { saved: true, values, ..reported.refused(echo, 1) })
        }
        Fault::DamagedEchoInside => Some(reported.refused(payload.get(5).copied().unwrap_or(0), 1)),
        Fault::DamagedStale => {
            let stale = !plain::fresh(Numbered::of(reported)?.number, &reported.values);
            stale.then(|| reported.refused(echo, 5))
        }
        _ => None,
    }
}

/// Of a message of type 7C that has no number or no type.
fn short(fault: Fault, reported: &Reported) -> Option<Handled> {
    let payload = reported.payload();
    match fault {
        Fault::ShortAs3 => Some(reported.refused(0, 3)),
        Fault::ShortEcho => Some(reported.refused(*payload.first()?, 4)),
        // A number alone is enough to spend it.
        Fault::ShortSpends => {
            let number = u32::from_be_bytes(payload.try_into().ok()?);
            let values = keeping(reported.values, Some(number));
            plain::fresh(number, &reported.values).then(|| Handled { saved: true, values, ..reported.refused(0, 4) })
        }
        _ => None,
    }
}

/// A message of type 7C that has a number and a type.
struct Numbered<'a> {
    reported: &'a Reported,
    number: u32,
    kind: u8,
    fields: &'a [u8],
}

impl Numbered<'_> {
    fn of(reported: &Reported) -> Option<Numbered<'_>> {
        let (number, inner) = reported.payload().split_first_chunk()?;
        let (&kind, fields) = inner.split_first()?;
        Some(Numbered { reported, number: u32::from_be_bytes(*number), kind, fields })
    }

    fn fresh(&self) -> bool {
        plain::fresh(self.number, &self.reported.values)
    }

    fn echo(&self) -> u8 {
        self.fields.first().copied().unwrap_or(0)
    }

    /// The command inside, as if it had come on this port without a number, on these values. Another number inside is
    /// of a type that has no fields.
    fn inside(&self, port: u8, values: Values) -> Handled {
        let kind = if self.kind == 0x7C { 0x03 } else { self.kind };
        let message = plain::message(kind, self.fields);
        let handled = plain::handle(Profile::Full, port, &message, self.reported.settings, values);
        Handled { reply: Vec::new(), ..handled }
    }

    /// The number taken as fresh, and written as this one; then the command inside.
    fn accepted_as(&self, number: u32) -> Handled {
        Handled { saved: true, ..self.inside(1, keeping(self.reported.values, Some(number))) }
    }

    fn accepted(&self) -> Handled {
        self.accepted_as(self.number)
    }

    fn stale(&self) -> Handled {
        self.reported.refused(self.echo(), 5)
    }

    /// Accepted or not, by another test of the number.
    fn accepted_if(&self, fresh: impl FnOnce(u32, u32) -> bool) -> Handled {
        match self.reported.values.last_number {
            Some(last) if !fresh(self.number, last) => self.stale(),
            _ => self.accepted(),
        }
    }

    fn right(&self) -> Handled {
        self.accepted_if(|number, last| number > last)
    }

    /// What the fault gives; none where it does not show.
    fn wrong(&self, fault: Fault) -> Option<Handled> {
        self.wrong_number(fault).or_else(|| self.wrong_inside(fault)).or_else(|| self.wrong_row(fault))
    }

    /// Faults in the test of the number.
    fn wrong_number(&self, fault: Fault) -> Option<Handled> {
        Some(match fault {
            Fault::EqualAccepted => self.accepted_if(|number, last| number >= last),
            Fault::AnyAccepted => self.accepted_if(|_, _| true),
            Fault::OtherAccepted => self.accepted_if(|number, last| number != last),
            Fault::OnlyNextAccepted => self.accepted_if(|number, last| Some(number) == last.checked_add(1)),
            Fault::ComparedBackwards => self.accepted_if(|number, last| number.swap_bytes() > last.swap_bytes()),
            Fault::ComparedIn16Bits => self.accepted_if(|number, last| number as u16 > last as u16),
            Fault::ComparedSigned => self.accepted_if(|number, last| number as i32 > last as i32),
            Fault::LastWraps => self.accepted_if(|number, last| number > last || (last == u32::MAX && number == 0)),
            Fault::ReadBackwards => {
                let number = self.number.swap_bytes();
                if !plain::fresh(number, &self.reported.values) {
                    return Some(self.stale());
                }
                self.accepted_as(number)
            }
            // The number was kept beside the page, and starting does not find it there.
            Fault::LostAtStart if self.reported.just_started => self.accepted(),
            Fault::ZeroStale if self.number == 0 => self.stale(),
            _ => return None,
        })
    }

    /// Faults in what is done with a fresh or a stale number.
    fn wrong_inside(&self, fault: Fault) -> Option<Handled> {
        let values = self.reported.values;
        if !self.fresh() {
            let handled = self.inside(1, values);
            // The reply says 5, and the command is handled all the same.
            return (fault == Fault::StaleHandled).then(|| Handled { rows: self.stale().rows, ..handled });
        }
        let accepted = self.accepted();
        let inside = self.inside(1, values);
        let failed = inside.rows.iter().any(|row| row.error != 0);
        let reached = self.kind == 0x01 || self.kind == 0x02;
        Some(match fault {
            Fault::FailedNotSpent if failed => inside,
            // The mark is set all the same.
            Fault::FirstFailedNotSpent if inside.rows[0].error != 0 => Handled { saved: true, ..inside },
            Fault::TypeNotSpent if !reached => Handled { saved: true, ..inside },
            Fault::SaveDropsNumber if inside.saved => Handled { values: keeping(accepted.values, None), ..accepted },
            // The number is put into the page as it was, over what the command saved.
            Fault::InsideFirst => Handled { values: keeping(values, Some(self.number)), ..accepted },
            Fault::InsideOnPort0 => Handled { saved: true, ..self.inside(0, keeping(values, Some(self.number))) },
            Fault::MarkOfInside => Handled { saved: inside.saved, ..accepted },
            Fault::SettingsOfInsideLost => Handled { settings: self.reported.settings, ..accepted },
            Fault::NumberInNumber if self.kind == 0x7C => {
                let message = plain::message(0x7C, self.fields);
                let values = keeping(values, Some(self.number));
                plain::handle(self.reported.profile, self.reported.port, &message, self.reported.settings, values)
            }
            Fault::ReplyOfInnerType => Handled { reply: plain::reply_of(self.kind, &accepted.rows), ..accepted },
            _ => return None,
        })
    }

    /// Faults in the one row of a command whose fields are not reached, and in the order of its errors.
    fn wrong_row(&self, fault: Fault) -> Option<Handled> {
        let payload = self.reported.payload();
        let right = self.right();
        let not_reached = plain::fields_of(self.fields).is_none_or(|fields| fields.is_empty() || fields.len() > 16)
            || self.kind != 0x01 && self.kind != 0x02
            || !self.fresh();
        let with = |echo, error| Some(Handled { rows: vec![Row { echo, error, value: None }], ..right.clone() });
        let error = right.rows[0].error;
        match fault {
            Fault::EchoOfNumber if not_reached => with(payload[0], error),
            Fault::EchoOfType if not_reached => with(payload[4], error),
            Fault::NoFieldAs4 if error == 3 && self.fields.is_empty() => with(0, 4),
            Fault::FieldsBeforeType if error == 2 && self.fields.is_empty() => with(0, 3),
            Fault::TypeBeforeStale if error == 5 && self.kind != 0x01 && self.kind != 0x02 => with(self.echo(), 2),
            Fault::NumberedRefusedOnPort1 if self.reported.port == 1 => Some(self.reported.refused(self.echo(), 2)),
            _ => None,
        }
    }
}

/// A field's first data byte, which is the function of a setting; none where it has no data.
fn function(field: &[u8]) -> Option<u8> {
    field.get(2).copied()
}

fn of_setting(field: &[u8]) -> bool {
    plain::value_size(field[0]).is_some()
}

/// Of a good message of type 01 or 02.
fn unnumbered(fault: Fault, reported: &Reported) -> Option<Handled> {
    let fields = reported.fields().filter(|fields| (1..=16).contains(&fields.len()))?;
    let kept = reported.values.last_number.is_some();
    let on_port = |port: u8| fold(reported, &fields, |_| port, |_, _| None);
    let (port_0, port_1) = (on_port(0), on_port(1));
    let let_through = |through: u8| Some(fold(reported, &fields, |field| port_if(field, through), |_, _| None));
    match (fault, reported.port) {
        (Fault::UnnumberedUse, 0) if kept => let_through(1),
        (Fault::UnnumberedSave, 0) if kept => let_through(3),
        (Fault::UnnumberedLoad, 0) if kept => let_through(4),
        (Fault::UnnumberedFactory, 0) if kept => let_through(5),
        (Fault::Port1Refused, 1) if kept => Some(port_0),
        (Fault::RefusedWithoutEntry, 0) if !kept => {
            let values = keeping(reported.values, Some(0));
            let handled = fold(&with_values(reported, values), &fields, |_| 0, |_, _| None);
            Some(Handled { values: reported.values, ..handled })
        }
        (Fault::RefusedWhole, 0) if port_0.rows.iter().any(|row| row.error == 5) => {
            Some(reported.refused(fields[0][0], 5))
        }
        (Fault::NumberZeroAsNone, 0) if reported.values.last_number == Some(0) => Some(port_1),
        (Fault::SaveDropsNumber, _) if kept => {
            let right = on_port(reported.port);
            let last_number = if right.saved { None } else { right.values.last_number };
            Some(Handled { values: keeping(right.values, last_number), ..right })
        }
        (_, 0) if kept => {
            let error = |field: &[u8], row: &Row| other_error(fault, reported, field, row);
            let shows = fields.iter().zip(&port_0.rows).any(|(field, row)| error(field, row).is_some());
            shows.then(|| fold(reported, &fields, |_| 0, error))
        }
        _ => None,
    }
}

/// The error that the fault gives one field, where it gives another.
fn other_error(fault: Fault, reported: &Reported, field: &[u8], row: &Row) -> Option<u8> {
    let function = function(field);
    let setting = of_setting(field) && reported.kind() == 0x02;
    let changes = matches!(function, Some(1 | 3 | 4 | 5));
    match fault {
        Fault::ReportRefused if setting && function == Some(2) => Some(5),
        Fault::PingRefused if row.echo == 0x02 && row.error == 0 => Some(5),
        Fault::OtherFunctionsRefused if setting && function.is_some() && function != Some(2) => Some(5),
        Fault::SizeZeroRefused if setting && function.is_none() => Some(5),
        Fault::Error5Before3 if !setting && changes => Some(5),
        Fault::Error5After4 if row.error == 5 => {
            let own = fold(reported, &[field], |_| 1, |_, _| None).rows[0].error;
            (own == 4).then_some(4)
        }
        _ => None,
    }
}

fn port_if(field: &[u8], through: u8) -> u8 {
    u8::from(function(field) == Some(through))
}

fn with_values(reported: &Reported, values: Values) -> Reported {
    Reported { message: reported.message.clone(), values, ..*reported }
}

/// The fields one after the other, each as on the port that is told for it, and with another error where one is told.
fn fold(
    reported: &Reported,
    fields: &[&[u8]],
    port: impl Fn(&[u8]) -> u8,
    error: impl Fn(&[u8], &Row) -> Option<u8>,
) -> Handled {
    let mut so_far = Handled { rows: Vec::new(), ..reported.refused(0, 0) };
    for field in fields {
        let message = plain::message(reported.kind(), field);
        let mut one = plain::handle(Profile::Full, port(field), &message, so_far.settings, so_far.values);
        let other = error(field, &one.rows[0]);
        if let Some(error) = other {
            one = Handled { saved: false, settings: so_far.settings, values: so_far.values, ..one };
            one.rows = vec![Row { error, value: None, ..one.rows[0] }];
        }
        so_far.rows.extend(one.rows);
        so_far.saved |= one.saved;
        so_far.settings = one.settings;
        so_far.values = one.values;
    }
    so_far
}

/// But for its fault, a wrong handling is the right one: what is put together here from the plain handling of other
/// messages is what the plain reading gives.
#[test]
fn right_without_a_fault() {
    use plain::generate::{self, numbered, Rng};
    let mut rng = Rng::new(0x7C);
    for _ in 0..20_000 {
        let values = numbered::values(&mut rng);
        let message = numbered::command(&mut rng, values.last_number);
        let settings = generate::usable_settings(&mut rng);
        let port = rng.below(2) as u8;
        let expected = plain::handle(Profile::Full, port, &message, settings, values);
        let reported = Reported::new(Profile::Full, port, message, settings, values);
        if let Some(numbered) = Numbered::of(&reported) {
            let right = numbered.right();
            assert_eq!(Handled { reply: plain::reply_of(0x7C, &right.rows), ..right }, expected);
        }
    }
}

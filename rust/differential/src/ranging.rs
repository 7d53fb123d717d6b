//! Wrong ways to handle the gyroscope's ranges that this board no longer takes, put together from the plain handling of
//! separate fields. A fault writes what they give over the library's answer.

use crate::faults::Fault;
use crate::folds::Reported;
use plain::{Handled, Profile, Row, Settings, Values};

const GYROSCOPE: u8 = 0x08;

pub fn old(range: u8) -> bool {
    range == 0x06 || range == 0x07
}

/// Whether a sound page holds such a range.
pub fn holds_old(values: &Values) -> bool {
    values.gyroscope.is_some_and(old)
}

/// What the fault gives of a good message whose fields are reached; none where it does not show.
pub fn wrong(fault: Fault, reported: &Reported) -> Option<Handled> {
    let command = Command::of(reported)?;
    let right = command.fold(|_, _, _| None);
    let mut handled = command.fold(|field, before, right| other(fault, field, before, right));
    if handled == right {
        return None;
    }
    handled.reply = plain::reply_of(reported.kind(), &handled.rows);
    Some(handled)
}

/// The settings and the page's values that a field is handled on.
#[derive(Clone, Copy)]
struct Before {
    settings: Settings,
    values: Values,
}

/// A command of type 02 whose fields are reached, on its own or behind a fresh number.
struct Command {
    fields: Vec<Vec<u8>>,
    /// The profile and the port that its fields are handled as on: on port 1 of a full board all may be used without a number.
    on: (Profile, u8),
    before: Before,
    /// Whether its number was written.
    saved: bool,
}

impl Command {
    fn of(reported: &Reported) -> Option<Command> {
        if !plain::sums_right(&reported.message) {
            return None;
        }
        let (settings, values) = (reported.settings, reported.values);
        let (payload, on, before, saved) = match (reported.kind(), reported.payload()) {
            (0x02, payload) => (payload, (reported.profile, reported.port), Before { settings, values }, false),
            (0x7C, [a, b, c, d, 0x02, inner @ ..]) if !reported.restricted() => {
                let number = u32::from_be_bytes([*a, *b, *c, *d]);
                let spent = Values { last_number: Some(number), ..values };
                let fresh = plain::fresh(number, &values).then_some(inner)?;
                (fresh, (Profile::Full, 1), Before { settings, values: spent }, true)
            }
            _ => return None,
        };
        let bytes = |field: &plain::Part| payload[field.place - 2..field.place + field.data.len()].to_vec();
        let fields: Vec<Vec<u8>> = plain::fields_of(payload)?.iter().map(bytes).collect();
        (1..=16).contains(&fields.len()).then_some(Command { fields, on, before, saved })
    }

    /// The fields one after the other, each as it is to be handled, or as told instead.
    fn fold(&self, instead: impl Fn(&[u8], Before, &Handled) -> Option<Handled>) -> Handled {
        let Before { settings, values } = self.before;
        let mut so_far = Handled { rows: Vec::new(), reply: Vec::new(), saved: self.saved, settings, values };
        for field in &self.fields {
            let before = Before { settings: so_far.settings, values: so_far.values };
            let (profile, port) = self.on;
            let right = plain::handle(profile, port, &plain::message(0x02, field), before.settings, before.values);
            let one = instead(field, before, &right).unwrap_or(right);
            so_far.rows.extend(one.rows);
            so_far.saved |= one.saved;
            so_far.settings = one.settings;
            so_far.values = one.values;
        }
        so_far
    }
}

impl Before {
    /// The field with this error, and nothing done.
    fn refused(self, field: &[u8], error: u8) -> Handled {
        let rows = vec![Row { echo: field[0], error, value: None }];
        Handled { rows, reply: Vec::new(), saved: false, settings: self.settings, values: self.values }
    }

    /// The field with this error, and this range used all the same.
    fn using(self, field: &[u8], error: u8, range: u8) -> Handled {
        let settings = Settings { gyroscope: range, ..self.settings };
        Handled { settings, ..self.refused(field, error) }
    }
}

/// What the fault makes of one field; none where it is handled as it is to be.
fn other(fault: Fault, field: &[u8], before: Before, right: &Handled) -> Option<Handled> {
    let error = right.rows[0].error;
    if field[0] != GYROSCOPE {
        return of_another_setting(fault, field, before, right);
    }
    match field[2..] {
        [1, ..] => used(fault, field, before, error),
        [4, ..] => loaded(fault, field, before, error),
        // What is saved, reported or taken from the factory is not the page's range.
        [2, ..] if fault == Fault::ReportOnOldPageRefused && error == 0 && holds_old(&before.values) => {
            Some(before.refused(field, 6))
        }
        [3, ..] if fault == Fault::SaveOnOldPageRefused && error == 0 && holds_old(&before.values) => {
            Some(before.refused(field, 6))
        }
        [5, ..] if fault == Fault::FactoryOnOldPageRefused && error == 0 && holds_old(&before.values) => {
            Some(before.refused(field, 6))
        }
        _ => None,
    }
}

/// Of function 1 of the gyroscope's range.
fn used(fault: Fault, field: &[u8], before: Before, error: u8) -> Option<Handled> {
    let range = *field.get(3)?;
    match (fault, error) {
        (Fault::OldRangeUsed, 6) => Some(before.using(field, 0, range)),
        (Fault::OldRangeUsedWith6, 6) => Some(before.using(field, 6, range)),
        (Fault::OldRangeAsFactory, 6) => Some(before.using(field, 0, plain::FACTORY.gyroscope)),
        (Fault::OldRangeAs4, 6) => Some(before.refused(field, 4)),
        (Fault::Range7As4, 6) if range == 7 => Some(before.refused(field, 4)),
        (Fault::BadRangeAs6, 4) if field.len() == 4 => Some(before.refused(field, 6)),
        (Fault::Error6BeforeSize, 4) if old(range) => Some(before.refused(field, 6)),
        (Fault::Error6Before5, 5) if old(range) && field.len() == 4 => Some(before.refused(field, 6)),
        _ => None,
    }
}

/// Of function 4 of the gyroscope's range.
fn loaded(fault: Fault, field: &[u8], before: Before, error: u8) -> Option<Handled> {
    let sent = field.get(3).copied();
    let held = before.values.gyroscope.filter(|&range| old(range));
    let factory = plain::FACTORY.gyroscope;
    match (fault, error) {
        (Fault::SentRangeWithLoad, 0) if sent.is_some_and(old) => Some(before.refused(field, 6)),
        (Fault::OldLoadBeforeSize, 4) if held.is_some() => Some(before.refused(field, 6)),
        (Fault::OldLoadBefore5, 5) if held.is_some() && field.len() <= 4 => Some(before.refused(field, 6)),
        (Fault::OldLoadTaken, 6) => Some(before.using(field, 0, held?)),
        (Fault::OldLoadAsFactory, 6) => Some(before.using(field, 0, factory)),
        (Fault::OldLoadAlters, 6) => Some(before.using(field, 6, factory)),
        (Fault::OldLoadOfSent, 6) => Some(before.using(field, 0, sent.filter(|range| (1..=5).contains(range))?)),
        (Fault::OldLoadAs4, 6) => Some(before.refused(field, 4)),
        (Fault::OldLoadLeaves, 6) => Some(before.refused(field, 0)),
        (Fault::OldLoadMarked, 6) => Some(Handled { saved: true, ..before.refused(field, 6) }),
        // The page is altered, too: it holds the working value then, or none.
        (Fault::OldLoadWrites, 6) => {
            let values = before.values.with(GYROSCOPE, u32::from(before.settings.gyroscope));
            Some(Handled { values, ..before.refused(field, 6) })
        }
        (Fault::OldLoadErases, 6) => {
            let values = Values { gyroscope: None, ..before.values };
            Some(Handled { values, ..before.refused(field, 6) })
        }
        _ => None,
    }
}

/// Of a field that is not of the gyroscope's range.
fn of_another_setting(fault: Fault, field: &[u8], before: Before, right: &Handled) -> Option<Handled> {
    match fault {
        Fault::AccelerometerAs6 if field.starts_with(&[0x07, 2, 1]) && (5..=7).contains(&field[3]) => {
            (right.rows[0].error == 4).then(|| before.refused(field, 6))
        }
        Fault::SaveDropsOldRange if right.saved && holds_old(&right.values) => {
            Some(Handled { values: Values { gyroscope: None, ..right.values }, ..right.clone() })
        }
        Fault::SaveMendsOldRange if right.saved && holds_old(&right.values) => {
            let values = right.values.with(GYROSCOPE, u32::from(right.settings.gyroscope));
            Some(Handled { values, ..right.clone() })
        }
        _ => None,
    }
}

/// But for its fault, a wrong handling is the right one: what is put together from separate fields is what the plain
/// reading gives for the one message.
#[test]
fn right_without_a_fault() {
    use plain::generate::{self, numbered, ranges, Rng};
    let mut rng = Rng::new(0x0567);
    for _ in 0..20_000 {
        let values = numbered::values(&mut rng);
        let message = ranges::piece(&mut rng, values.last_number);
        let settings = generate::usable_settings(&mut rng);
        let port = rng.below(2) as u8;
        let kind = message.get(2).copied().unwrap_or(0);
        if plain::check_message(&message) != 0 {
            continue;
        }
        let profile = generate::profile(&mut rng);
        let expected = plain::handle(profile, port, &message, settings, values);
        let reported = Reported::new(profile, port, message, settings, values);
        assert_eq!(wrong(Fault::JunkKept, &reported), None);
        if let Some(command) = Command::of(&reported) {
            let right = command.fold(|_, _, _| None);
            assert_eq!(Handled { reply: plain::reply_of(kind, &right.rows), ..right }, expected);
        }
    }
}

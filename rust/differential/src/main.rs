//! The proved library against the plain reading of the paper.
//!
//! `SEED` repeats a run; `SCALE` makes it longer or shorter (in percent). The last line is the tally, a check for each
//! group of cases and one for each planted fault.

#![forbid(unsafe_code)]

mod calls;
mod counting;
mod faults;
mod feeding;
mod fields;
mod folds;
mod group;
mod in_place;
mod lenient;
mod lists;
mod messages;
mod numbered;
mod numbering;
mod pages;
mod parts;
mod ranges;
mod ranging;
mod readonly;
mod records;
mod rights;
mod rows;
mod runs;
mod silences;
mod silencing;
mod singles;
mod tallies;
mod wrapper;

use calls::{Calls, Library};
use faults::{Fault, Planted};
use group::{Outcome, Ran};
use lists::Beside;
use plain::generate::Rng;
use std::collections::BTreeMap;
use std::num::NonZero;
use std::process::ExitCode;
use std::sync::atomic::{AtomicUsize, Ordering};
use std::sync::mpsc;
use std::thread;
use std::time::{Instant, SystemTime, UNIX_EPOCH};

/// A group of cases.
#[derive(Clone, Copy, Debug, PartialEq, Eq)]
enum Group {
    Lists,
    HardLists,
    ReckonedLists,
    WrappedLists,
    LongStreams,
    RunsOfA5,
    Boards,
    Commands,
    Starts,
    Readers,
    Replies,
    WrittenMessages,
    WrittenCommands,
    WrittenData,
    Pages,
    WrittenPages,
    Bodies,
    FactoryPages,
    FieldMessages,
    CutFields,
    FieldLists,
    SeparateMessages,
    ReplyRows,
    AppendedFields,
    NumberedCommands,
    UnnumberedCommands,
    Histories,
    CutNumbered,
    Replays,
    GrowingNumbers,
    NumberedReplies,
    WrittenNumbered,
    StartsInPlace,
    Ranges,
    RangeLists,
    DrainedSilences,
    AnySilences,
    SilenceLaws,
    GrowingSilences,
    FalseHeaders,
    SilentBoards,
    ReadOnlyCommands,
    HostileLists,
    TwoRuns,
    ProfileStarts,
    Records,
    RecordedLists,
    TotalsRows,
    FieldParts,
}

const GROUPS: [Group; 49] = [
    Group::Lists,
    Group::HardLists,
    Group::ReckonedLists,
    Group::WrappedLists,
    Group::LongStreams,
    Group::RunsOfA5,
    Group::Boards,
    Group::Commands,
    Group::Starts,
    Group::Readers,
    Group::Replies,
    Group::WrittenMessages,
    Group::WrittenCommands,
    Group::WrittenData,
    Group::Pages,
    Group::WrittenPages,
    Group::Bodies,
    Group::FactoryPages,
    Group::FieldMessages,
    Group::CutFields,
    Group::FieldLists,
    Group::SeparateMessages,
    Group::ReplyRows,
    Group::AppendedFields,
    Group::NumberedCommands,
    Group::UnnumberedCommands,
    Group::Histories,
    Group::CutNumbered,
    Group::Replays,
    Group::GrowingNumbers,
    Group::NumberedReplies,
    Group::WrittenNumbered,
    Group::StartsInPlace,
    Group::Ranges,
    Group::RangeLists,
    Group::DrainedSilences,
    Group::AnySilences,
    Group::SilenceLaws,
    Group::GrowingSilences,
    Group::FalseHeaders,
    Group::SilentBoards,
    Group::ReadOnlyCommands,
    Group::HostileLists,
    Group::TwoRuns,
    Group::ProfileStarts,
    Group::Records,
    Group::RecordedLists,
    Group::TotalsRows,
    Group::FieldParts,
];

impl Group {
    /// How many cases a whole run has; a group that goes through all of its cases has one.
    fn cases(self) -> u64 {
        match self {
            Group::Lists => 300_000,
            Group::HardLists => 90_000,
            Group::ReckonedLists => 120_000,
            Group::WrappedLists => 40_000,
            Group::LongStreams => 100,
            Group::RunsOfA5 => 30,
            Group::Boards => 1_500_000,
            Group::Readers => 2_000_000,
            Group::WrittenData => 1_000_000,
            Group::Bodies => 1_000_000,
            Group::CutFields => 2_000,
            Group::FieldLists => 40_000,
            Group::SeparateMessages => 100_000,
            Group::Histories => 60_000,
            Group::CutNumbered => 2_000,
            Group::Replays => 60_000,
            Group::GrowingNumbers => 30_000,
            Group::RangeLists => 40_000,
            Group::DrainedSilences => 80_000,
            Group::AnySilences => 60_000,
            Group::SilenceLaws => 60_000,
            Group::GrowingSilences => 40_000,
            Group::SilentBoards => 600_000,
            Group::HostileLists => 80_000,
            Group::TwoRuns => 40_000,
            Group::ProfileStarts => 40_000,
            Group::RecordedLists => 16_000,
            Group::TotalsRows => 200_000,
            _ => 1,
        }
    }

    /// The numbers that must come in it.
    fn numbers(self) -> &'static [u8] {
        match self {
            Group::Lists | Group::ReckonedLists | Group::WrappedLists | Group::RunsOfA5 => &[0, 1, 16, 18],
            Group::FieldLists | Group::Histories | Group::GrowingNumbers | Group::RangeLists => &[0, 1, 16, 18],
            Group::DrainedSilences | Group::AnySilences | Group::SilenceLaws | Group::GrowingSilences => {
                &[0, 1, 16, 18]
            }
            Group::HostileLists => &[0, 1, 16, 18],
            Group::TwoRuns => &[0, 1, 16, 18, 19, 20],
            Group::ReadOnlyCommands => &[0],
            Group::ProfileStarts | Group::RecordedLists | Group::TotalsRows => &[0, 1, 16, 17, 18, 19, 20],
            Group::Records => &[0, 1, 2, 16, 17, 18, 19, 20, 255],
            Group::FalseHeaders => &[0, 1],
            Group::Ranges => &[0, 17],
            Group::HardLists | Group::LongStreams | Group::CutFields | Group::CutNumbered => &[0, 1],
            Group::Boards | Group::SilentBoards => &[0, 1, 16, 17, 18, 19, 20],
            Group::Commands | Group::SeparateMessages | Group::Replays => &[0],
            Group::NumberedCommands | Group::UnnumberedCommands => &[0],
            Group::Starts | Group::Pages | Group::WrittenPages => &[0, 19, 20],
            Group::StartsInPlace => &[0, 17, 19, 20],
            Group::Readers => &[0, 18, 21, 22, 23, 24, 25, 27],
            Group::Replies => &[0, 23, 27],
            Group::FieldParts => &[0, 25, 27],
            Group::ReplyRows | Group::NumberedReplies => &[0, 21, 22, 23, 27],
            Group::WrittenMessages => &[0, 18, 26],
            Group::WrittenCommands | Group::AppendedFields | Group::WrittenNumbered => &[0, 18, 28],
            Group::Bodies => &[0, 18, 19, 20],
            Group::WrittenData | Group::FactoryPages | Group::FieldMessages => &[0, 18],
        }
    }

    /// One case of the group, from its own seed.
    fn case(self, calls: &impl Calls, rng: &mut Rng, ran: &mut Ran) -> Outcome {
        match self {
            Group::Lists => lists::any(calls, rng, Beside::Nothing, ran),
            Group::HardLists => lists::hard(calls, rng, ran),
            Group::ReckonedLists => lists::any(calls, rng, Beside::Reckoning, ran),
            Group::WrappedLists => lists::any(calls, rng, Beside::Wrapper, ran),
            Group::LongStreams => lists::long(calls, rng, ran),
            Group::RunsOfA5 => runs::all(calls, rng, ran),
            Group::Boards => singles::any(calls, rng, ran),
            Group::Commands => singles::commands(calls, rng, ran),
            Group::Starts => singles::starts(calls, rng, ran),
            Group::Readers => messages::read_any(calls, rng, ran),
            Group::Replies => messages::all_replies(calls, ran),
            Group::WrittenMessages => messages::write_messages(calls, rng, ran),
            Group::WrittenCommands => messages::write_commands(calls, rng, ran),
            Group::WrittenData => messages::write_data(calls, rng, ran),
            Group::Pages => pages::read_all(calls, rng, ran),
            Group::WrittenPages => pages::write_all(calls, rng, ran),
            Group::Bodies => pages::copy_body(calls, rng, ran),
            Group::FactoryPages => pages::factory_page(calls, ran),
            Group::FieldMessages => fields::all(calls, rng, ran),
            Group::CutFields => fields::cut(calls, rng, ran),
            Group::FieldLists => fields::lists(calls, rng, ran),
            Group::SeparateMessages => fields::separate(calls, rng, ran),
            Group::ReplyRows => rows::replies(calls, rng, ran),
            Group::AppendedFields => rows::append(calls, rng, ran),
            Group::NumberedCommands => numbered::commands(calls, rng, ran),
            Group::UnnumberedCommands => numbered::unnumbered(calls, rng, ran),
            Group::Histories => numbered::histories(calls, rng, ran),
            Group::CutNumbered => numbered::cut(calls, rng, ran),
            Group::Replays => numbered::replays(calls, rng, ran),
            Group::GrowingNumbers => numbered::grow(calls, rng, ran),
            Group::NumberedReplies => numbered::replies(calls, rng, ran),
            Group::WrittenNumbered => numbered::write(calls, rng, ran),
            Group::StartsInPlace => in_place::all(calls, rng, ran),
            Group::FieldParts => parts::all(calls, rng, ran),
            Group::Ranges => ranges::all(calls, rng, ran),
            Group::RangeLists => ranges::lists(calls, rng, ran),
            _ => self.case_of_silences(calls, rng, ran),
        }
    }

    fn case_of_silences(self, calls: &impl Calls, rng: &mut Rng, ran: &mut Ran) -> Outcome {
        match self {
            Group::DrainedSilences => silences::drained(calls, rng, ran),
            Group::AnySilences => silences::any(calls, rng, ran),
            Group::SilenceLaws => silences::laws(calls, rng, ran),
            Group::GrowingSilences => silences::grow(calls, rng, ran),
            Group::FalseHeaders => silences::false_headers(calls, rng, ran),
            Group::SilentBoards => silences::boards(calls, rng, ran),
            _ => self.case_of_profiles(calls, rng, ran),
        }
    }

    fn case_of_profiles(self, calls: &impl Calls, rng: &mut Rng, ran: &mut Ran) -> Outcome {
        match self {
            Group::ReadOnlyCommands => readonly::commands(calls, rng, ran),
            Group::HostileLists => readonly::lists(calls, rng, ran),
            Group::TwoRuns => readonly::two_runs(calls, rng, ran),
            Group::ProfileStarts => readonly::starts(calls, rng, ran),
            _ => self.case_of_totals(calls, rng, ran),
        }
    }

    fn case_of_totals(self, calls: &impl Calls, rng: &mut Rng, ran: &mut Ran) -> Outcome {
        match self {
            Group::Records => tallies::all_records(calls, rng, ran),
            Group::RecordedLists => tallies::lists(calls, rng, ran),
            Group::TotalsRows => tallies::rows(calls, rng, ran),
            _ => Err(format!("{self:?} has no cases")),
        }
    }

    /// The cases from a seed, up to the first difference. Gives the number of that case with it.
    fn run(self, calls: &impl Calls, seed: u64, cases: u64, ran: &mut Ran) -> Result<(), (u64, String)> {
        for place in 0..cases {
            let mut rng = Rng::new(Rng::new(seed ^ (self as u64) << 56).word().wrapping_add(place << 20));
            self.case(calls, &mut rng, ran).map_err(|text| (place, text))?;
        }
        Ok(())
    }
}

/// Each planted fault, and the group that is to find it.
const FAULTS: [(Fault, Group); 437] = [
    (Fault::ReplyOfError4, Group::Lists),
    (Fault::RoomPastTheReply, Group::Lists),
    (Fault::SkippedOfHeldMessage, Group::Lists),
    (Fault::MarkOfTheSameSave, Group::Lists),
    (Fault::OtherPort, Group::Lists),
    (Fault::PageOfARefusal, Group::Lists),
    (Fault::DamagedDropped, Group::Lists),
    (Fault::OnlyFirstChange, Group::Lists),
    (Fault::LongestMessage, Group::HardLists),
    (Fault::ReckonedSkipped, Group::ReckonedLists),
    (Fault::ReckonedHeld, Group::ReckonedLists),
    (Fault::WrappedSaveMark, Group::WrappedLists),
    (Fault::WrappedBoard, Group::WrappedLists),
    (Fault::WrappedRoom, Group::WrappedLists),
    (Fault::WrappedPage, Group::WrappedLists),
    (Fault::LengthOf16Bits, Group::LongStreams),
    (Fault::StrayReported, Group::RunsOfA5),
    (Fault::TwoSkippedForAStray, Group::RunsOfA5),
    (Fault::RunSkippedWhole, Group::RunsOfA5),
    (Fault::StrayNotCounted, Group::RunsOfA5),
    (Fault::SkippedOf8Bits, Group::RunsOfA5),
    (Fault::TwoA5Decided, Group::RunsOfA5),
    (Fault::JunkKept, Group::Boards),
    (Fault::UnsoundBeforePort, Group::Boards),
    (Fault::SizeBeforeCode, Group::Commands),
    (Fault::SentValueSaved, Group::Commands),
    (Fault::StartOnThreeEntries, Group::Starts),
    (Fault::WrappedStart, Group::Starts),
    (Fault::WholeWithoutSums, Group::Readers),
    (Fault::SignallingNanRead, Group::Readers),
    (Fault::FieldPlace, Group::Readers),
    (Fault::FieldPlace, Group::FieldParts),
    (Fault::AxesWithoutPlace, Group::Readers),
    (Fault::AxesWithoutPlace, Group::WrittenData),
    (Fault::PlaceAtSizeByte, Group::Readers),
    (Fault::PlaceAtCode, Group::Readers),
    (Fault::PlaceInPayload, Group::Readers),
    (Fault::PlaceOf8Bits, Group::FieldParts),
    (Fault::EmptyFieldUnplaced, Group::FieldParts),
    (Fault::RefusedFieldPlaced, Group::FieldParts),
    (Fault::AxesWithoutSize, Group::Readers),
    (Fault::AxesWithoutSize, Group::WrittenData),
    (Fault::SizeWithHeader, Group::Readers),
    (Fault::UnknownSizeOf12, Group::Readers),
    (Fault::UnknownSizeOf12, Group::FieldParts),
    (Fault::SizeOf7Bits, Group::FieldParts),
    (Fault::SizeToTheEnd, Group::FieldParts),
    (Fault::FieldCopyInShortRoom, Group::Readers),
    (Fault::WrappedMessageCheck, Group::Readers),
    (Fault::WrappedField, Group::Readers),
    (Fault::WrappedFieldRange, Group::Readers),
    (Fault::WrappedRangeWithHeader, Group::FieldParts),
    (Fault::WrappedFieldData, Group::Readers),
    (Fault::Error5Refused, Group::Replies),
    (Fault::WrappedReply, Group::Replies),
    (Fault::WrappedReplyError, Group::Replies),
    (Fault::RoomThatJustFits, Group::WrittenMessages),
    (Fault::WrappedMessage, Group::WrittenMessages),
    (Fault::RangeModulo256, Group::WrittenCommands),
    (Fault::WrappedCommand, Group::WrittenCommands),
    (Fault::SignallingNanWritten, Group::WrittenData),
    (Fault::WrappedData, Group::WrittenData),
    (Fault::WrappedDataBits, Group::WrittenData),
    (Fault::PageOfNoEntry, Group::Pages),
    (Fault::ValueOfRefusedPage, Group::Pages),
    (Fault::WrappedPageCheck, Group::Pages),
    (Fault::WrappedValuesRead, Group::Pages),
    (Fault::ValueNotThere, Group::WrittenPages),
    (Fault::WrappedValuesWritten, Group::WrittenPages),
    (Fault::BodyFromFactory, Group::Bodies),
    (Fault::FactoryPageUntested, Group::Bodies),
    (Fault::RoomBeforePages, Group::Bodies),
    (Fault::WrappedBody, Group::Bodies),
    (Fault::FactoryPageInLongRoom, Group::FactoryPages),
    (Fault::WrappedFactoryPage, Group::FactoryPages),
    (Fault::UnknownCodeAlone, Group::FieldMessages),
    (Fault::SeventeenFields, Group::FieldMessages),
    (Fault::SixteenRefused, Group::FieldMessages),
    (Fault::FirstSixteen, Group::FieldMessages),
    (Fault::UnfilledAsFarAsItGoes, Group::FieldMessages),
    (Fault::LastByteLeftOver, Group::FieldMessages),
    (Fault::CodeBeforeFilling, Group::FieldMessages),
    (Fault::EchoOfLastCode, Group::FieldMessages),
    (Fault::EmptyNotFilled, Group::Commands),
    (Fault::RoomOf165, Group::FieldMessages),
    (Fault::StraddlingField, Group::CutFields),
    (Fault::RowsOfDamaged, Group::FieldLists),
    (Fault::FieldsOnGivenSettings, Group::FieldLists),
    (Fault::LoadsFromGivenPage, Group::FieldLists),
    (Fault::PageOfLastField, Group::FieldLists),
    (Fault::StopsAtFirstError, Group::FieldLists),
    (Fault::ErrorUndoesAll, Group::FieldLists),
    (Fault::FirstFieldAlone, Group::FieldLists),
    (Fault::MarkOfLastField, Group::FieldLists),
    (Fault::MarkOfFirstField, Group::FieldLists),
    (Fault::RowsReversed, Group::SeparateMessages),
    (Fault::ReportsAtTheEnd, Group::SeparateMessages),
    (Fault::EchoOfFirstField, Group::SeparateMessages),
    (Fault::NoRowAsLast, Group::Replies),
    (Fault::NoRowAs23, Group::ReplyRows),
    (Fault::RowsFromOne, Group::ReplyRows),
    (Fault::RowsCountedAsFields, Group::ReplyRows),
    (Fault::RowOf32Bits, Group::ReplyRows),
    (Fault::RowsBehindUntested, Group::ReplyRows),
    (Fault::SeventeenRows, Group::ReplyRows),
    (Fault::NoRows, Group::ReplyRows),
    (Fault::RowsInAnyType, Group::ReplyRows),
    (Fault::ValueInType01, Group::ReplyRows),
    (Fault::ValueAfterError, Group::ReplyRows),
    (Fault::ValueOfAnotherCode, Group::ReplyRows),
    (Fault::TwoValues, Group::ReplyRows),
    (Fault::RowOfSize3, Group::ReplyRows),
    (Fault::WrappedRows, Group::ReplyRows),
    (Fault::RoomBeforeCommand, Group::AppendedFields),
    (Fault::FieldAtTheFront, Group::AppendedFields),
    (Fault::LengthOfTheField, Group::AppendedFields),
    (Fault::LengthWraps, Group::AppendedFields),
    (Fault::BytePastTheField, Group::AppendedFields),
    (Fault::PingInType02, Group::AppendedFields),
    (Fault::UnusedValueTested, Group::AppendedFields),
    (Fault::FieldRangeModulo256, Group::AppendedFields),
    (Fault::WrappedAppendedField, Group::AppendedFields),
    (Fault::EqualAccepted, Group::Replays),
    (Fault::AnyAccepted, Group::GrowingNumbers),
    (Fault::OtherAccepted, Group::Replays),
    (Fault::OnlyNextAccepted, Group::NumberedCommands),
    (Fault::ReadBackwards, Group::NumberedCommands),
    (Fault::ComparedBackwards, Group::GrowingNumbers),
    (Fault::ComparedIn16Bits, Group::GrowingNumbers),
    (Fault::ComparedSigned, Group::NumberedCommands),
    (Fault::LastWraps, Group::NumberedCommands),
    (Fault::LostAtStart, Group::Replays),
    (Fault::ZeroStale, Group::NumberedCommands),
    (Fault::StaleHandled, Group::Replays),
    (Fault::FailedNotSpent, Group::Replays),
    (Fault::FirstFailedNotSpent, Group::NumberedCommands),
    (Fault::TypeNotSpent, Group::NumberedCommands),
    (Fault::SaveDropsNumber, Group::Histories),
    (Fault::InsideFirst, Group::Histories),
    (Fault::InsideOnPort0, Group::Histories),
    (Fault::MarkOfInside, Group::Histories),
    (Fault::SettingsOfInsideLost, Group::CutNumbered),
    (Fault::NumberInNumber, Group::NumberedCommands),
    (Fault::ReplyOfInnerType, Group::NumberedCommands),
    (Fault::DamagedSpends, Group::Histories),
    (Fault::DamagedEchoInside, Group::NumberedCommands),
    (Fault::DamagedStale, Group::NumberedCommands),
    (Fault::ShortAs3, Group::NumberedCommands),
    (Fault::ShortEcho, Group::NumberedCommands),
    (Fault::ShortSpends, Group::NumberedCommands),
    (Fault::EchoOfNumber, Group::NumberedCommands),
    (Fault::EchoOfType, Group::NumberedCommands),
    (Fault::NoFieldAs4, Group::NumberedCommands),
    (Fault::FieldsBeforeType, Group::NumberedCommands),
    (Fault::TypeBeforeStale, Group::NumberedCommands),
    (Fault::NumberedRefusedOnPort1, Group::NumberedCommands),
    (Fault::UnnumberedUse, Group::UnnumberedCommands),
    (Fault::UnnumberedSave, Group::UnnumberedCommands),
    (Fault::UnnumberedLoad, Group::UnnumberedCommands),
    (Fault::UnnumberedFactory, Group::UnnumberedCommands),
    (Fault::Port1Refused, Group::UnnumberedCommands),
    (Fault::RefusedWithoutEntry, Group::UnnumberedCommands),
    (Fault::RefusedWhole, Group::UnnumberedCommands),
    (Fault::NumberZeroAsNone, Group::UnnumberedCommands),
    (Fault::ReportRefused, Group::UnnumberedCommands),
    (Fault::PingRefused, Group::UnnumberedCommands),
    (Fault::OtherFunctionsRefused, Group::UnnumberedCommands),
    (Fault::SizeZeroRefused, Group::UnnumberedCommands),
    (Fault::Error5Before3, Group::UnnumberedCommands),
    (Fault::Error5After4, Group::UnnumberedCommands),
    (Fault::OneRowInNumbered, Group::NumberedReplies),
    (Fault::NoValueInNumbered, Group::NumberedReplies),
    (Fault::NumberAsValue, Group::NumberedReplies),
    (Fault::NumberWrittenBackwards, Group::WrittenNumbered),
    (Fault::RoomBeforeNumbered, Group::WrittenNumbered),
    (Fault::BytePastNumbered, Group::WrittenNumbered),
    (Fault::PingAsSetting, Group::WrittenNumbered),
    (Fault::WrappedNumbered, Group::WrittenNumbered),
    (Fault::StartOnNumber, Group::Starts),
    (Fault::FourEntriesRefused, Group::Pages),
    (Fault::NumberOfOneByte, Group::Pages),
    (Fault::NumberReadBackwards, Group::Pages),
    (Fault::LastNumberNotRead, Group::Pages),
    (Fault::WrappedNumberRead, Group::Pages),
    (Fault::NumberNotWritten, Group::WrittenPages),
    (Fault::NumberNotThere, Group::WrittenPages),
    (Fault::BodyOfNumber, Group::Bodies),
    (Fault::SecondPortKept, Group::StartsInPlace),
    (Fault::LastByteKept, Group::StartsInPlace),
    (Fault::RefusedStartKeepsPorts, Group::StartsInPlace),
    (Fault::RefusedStartWithoutSettings, Group::StartsInPlace),
    (Fault::StartInPlaceOnNumber, Group::StartsInPlace),
    (Fault::LongerArrayStarted, Group::StartsInPlace),
    (Fault::SecondArrayUnmeasured, Group::StartsInPlace),
    (Fault::PageBeforeArrays, Group::StartsInPlace),
    (Fault::WrongArrayCleared, Group::StartsInPlace),
    (Fault::WrongArrayOnPage, Group::StartsInPlace),
    (Fault::WrappedStartInPlace, Group::StartsInPlace),
    (Fault::WrappedHeldKept, Group::StartsInPlace),
    (Fault::WrappedRefusalKept, Group::StartsInPlace),
    (Fault::OldRangeUsed, Group::Ranges),
    (Fault::OldRangeUsedWith6, Group::Ranges),
    (Fault::OldRangeAsFactory, Group::Ranges),
    (Fault::OldRangeAs4, Group::Ranges),
    (Fault::Range7As4, Group::Ranges),
    (Fault::BadRangeAs6, Group::Ranges),
    (Fault::AccelerometerAs6, Group::Ranges),
    (Fault::Error6BeforeSize, Group::Ranges),
    (Fault::Error6Before5, Group::Ranges),
    (Fault::SentRangeWithLoad, Group::Ranges),
    (Fault::OldLoadBeforeSize, Group::Ranges),
    (Fault::OldLoadBefore5, Group::Ranges),
    (Fault::OldLoadTaken, Group::Ranges),
    (Fault::OldLoadAsFactory, Group::Ranges),
    (Fault::OldLoadAlters, Group::Ranges),
    (Fault::OldLoadOfSent, Group::Ranges),
    (Fault::OldLoadAs4, Group::Ranges),
    (Fault::OldLoadLeaves, Group::Ranges),
    (Fault::OldLoadMarked, Group::Ranges),
    (Fault::OldLoadWrites, Group::RangeLists),
    (Fault::OldLoadErases, Group::RangeLists),
    (Fault::ReportOnOldPageRefused, Group::Ranges),
    (Fault::SaveOnOldPageRefused, Group::Ranges),
    (Fault::FactoryOnOldPageRefused, Group::Ranges),
    (Fault::SaveDropsOldRange, Group::RangeLists),
    (Fault::SaveMendsOldRange, Group::Ranges),
    (Fault::FeedOnOldPageRefused, Group::Ranges),
    (Fault::OldBoardFed, Group::Ranges),
    (Fault::StartOnOldRange, Group::Starts),
    (Fault::StartOnOldPageRefused, Group::Starts),
    (Fault::StartOnRange6, Group::RangeLists),
    (Fault::StartInPlaceOnOldRange, Group::StartsInPlace),
    (Fault::StartInPlaceOnOldPageRefused, Group::StartsInPlace),
    (Fault::OldPageUnsound, Group::Pages),
    (Fault::OldRangeNotRead, Group::Pages),
    (Fault::OldPageNotWritten, Group::WrittenPages),
    (Fault::OldBodyFromFactory, Group::Bodies),
    (Fault::OldRangeWritten, Group::WrittenCommands),
    (Fault::OldRangeNumbered, Group::WrittenNumbered),
    (Fault::OldRangeAppended, Group::AppendedFields),
    (Fault::Error6Refused, Group::Replies),
    (Fault::Reply6Refused, Group::Replies),
    (Fault::Reply7Refused, Group::ReplyRows),
    (Fault::SilenceAsEmptyFeed, Group::DrainedSilences),
    (Fault::SilenceSkipsOneFront, Group::DrainedSilences),
    (Fault::SilenceDropsAll, Group::DrainedSilences),
    (Fault::SilenceDropsUncounted, Group::SilenceLaws),
    (Fault::SilenceReportsUndecided, Group::SilenceLaws),
    (Fault::SilenceSkipsHeader, Group::FalseHeaders),
    (Fault::SilenceKeepsLastA5, Group::SilenceLaws),
    (Fault::SilenceStopsBeforeMessage, Group::FalseHeaders),
    (Fault::SilenceDropsBehind, Group::DrainedSilences),
    (Fault::SilenceSkippedNotCounted, Group::SilenceLaws),
    (Fault::SilenceOf8Bits, Group::FalseHeaders),
    (Fault::SilenceOf259, Group::SilentBoards),
    (Fault::SilenceGoesOn, Group::AnySilences),
    (Fault::SilenceSkipsDamaged, Group::DrainedSilences),
    (Fault::SilenceOnOtherPort, Group::DrainedSilences),
    (Fault::SilenceJunkKept, Group::SilentBoards),
    (Fault::SilenceClearsOtherPort, Group::SilentBoards),
    (Fault::SilenceMarkLost, Group::DrainedSilences),
    (Fault::SilencePageKept, Group::GrowingSilences),
    (Fault::SilenceSettingsKept, Group::AnySilences),
    (Fault::SilenceTakes, Group::AnySilences),
    (Fault::SilenceRoomPastReply, Group::DrainedSilences),
    (Fault::SilenceWritesWith1, Group::SilenceLaws),
    (Fault::SilencePort2AsPort1, Group::SilenceLaws),
    (Fault::SilenceOtherPortUntested, Group::SilentBoards),
    (Fault::SilenceOldBoard, Group::SilentBoards),
    (Fault::SilenceRoomUntested, Group::AnySilences),
    (Fault::SilencePageUntested, Group::SilentBoards),
    (Fault::SilenceUnsoundBeforePort, Group::SilentBoards),
    (Fault::SilenceRoomBeforeBoard, Group::SilentBoards),
    (Fault::SilencePageBeforeRoom, Group::SilentBoards),
    (Fault::SilencePageAsUnsound, Group::SilentBoards),
    (Fault::SilenceRefusalClears, Group::SilentBoards),
    (Fault::SilenceRefusalWrites, Group::SilentBoards),
    (Fault::WrappedSilence, Group::SilentBoards),
    (Fault::WrappedSilenceMark, Group::AnySilences),
    (Fault::WrappedSilenceBoard, Group::AnySilences),
    (Fault::ReadOnlyUse, Group::ReadOnlyCommands),
    (Fault::ReadOnlyUse, Group::TwoRuns),
    (Fault::ReadOnlySave, Group::HostileLists),
    (Fault::ReadOnlySave, Group::TwoRuns),
    (Fault::ReadOnlyLoad, Group::ReadOnlyCommands),
    (Fault::ReadOnlyLoad, Group::TwoRuns),
    (Fault::ReadOnlyFactory, Group::ReadOnlyCommands),
    (Fault::ReadOnlyFactory, Group::TwoRuns),
    (Fault::ReadOnlyUseUntold, Group::TwoRuns),
    (Fault::ReadOnlySaveKept, Group::TwoRuns),
    (Fault::ReadOnlySaveKept, Group::ReadOnlyCommands),
    (Fault::ReadOnlySaveMarked, Group::HostileLists),
    (Fault::Error7Before3, Group::ReadOnlyCommands),
    (Fault::Error7BeforeFilling, Group::ReadOnlyCommands),
    (Fault::Error7BeforeSums, Group::ReadOnlyCommands),
    (Fault::Error7Behind4, Group::ReadOnlyCommands),
    (Fault::Error7Behind6, Group::ReadOnlyCommands),
    (Fault::Error7As5, Group::HostileLists),
    (Fault::Error7Whole, Group::HostileLists),
    (Fault::Error7ForReport, Group::ReadOnlyCommands),
    (Fault::Error7ForPing, Group::HostileLists),
    (Fault::Error7ForSize0, Group::ReadOnlyCommands),
    (Fault::Error7ForOthers, Group::ReadOnlyCommands),
    (Fault::Error7OnPort0, Group::ReadOnlyCommands),
    (Fault::Error7OnPort0, Group::TwoRuns),
    (Fault::Error7WhenFull, Group::ReadOnlyCommands),
    (Fault::Error7WhenFull, Group::Lists),
    (Fault::ReadOnlyNumberTaken, Group::ReadOnlyCommands),
    (Fault::ReadOnlyNumberSpent, Group::ReadOnlyCommands),
    (Fault::ReadOnlyNumberSpent, Group::TwoRuns),
    (Fault::ReadOnlyNumberMarked, Group::HostileLists),
    (Fault::ReadOnlyNumberedPing, Group::ReadOnlyCommands),
    (Fault::ReadOnlyNumberedPing, Group::TwoRuns),
    (Fault::ReadOnlyNumberedReport, Group::HostileLists),
    (Fault::Error7After5, Group::ReadOnlyCommands),
    (Fault::Error7AfterLength, Group::ReadOnlyCommands),
    (Fault::Error7AfterInnerType, Group::ReadOnlyCommands),
    (Fault::RowForEachInner, Group::ReadOnlyCommands),
    (Fault::ReadOnlyEchoOfNumber, Group::ReadOnlyCommands),
    (Fault::ReadOnlyEchoOfType, Group::ReadOnlyCommands),
    (Fault::ReadOnlyEchoZero, Group::HostileLists),
    (Fault::Error7Refused, Group::Replies),
    (Fault::Error7Refused, Group::NumberedReplies),
    (Fault::Error8Read, Group::Replies),
    (Fault::StartIgnoresProfile, Group::ProfileStarts),
    (Fault::StartIgnoresProfile, Group::Lists),
    (Fault::RefusedStartLosesProfile, Group::ProfileStarts),
    (Fault::StartInPlaceIgnoresProfile, Group::StartsInPlace),
    (Fault::StartInPlaceIgnoresProfile, Group::ProfileStarts),
    (Fault::RefusedStartInPlaceLosesProfile, Group::ProfileStarts),
    (Fault::WrongArrayLosesProfile, Group::ProfileStarts),
    (Fault::FeedLosesProfile, Group::HostileLists),
    (Fault::FeedLosesProfile, Group::Boards),
    (Fault::RefusedFeedLosesProfile, Group::HostileLists),
    (Fault::SilenceLosesProfile, Group::DrainedSilences),
    (Fault::SilenceLosesProfile, Group::SilentBoards),
    (Fault::RefusedSilenceLosesProfile, Group::HostileLists),
    (Fault::RefusedSilenceLosesProfile, Group::SilentBoards),
    (Fault::ProfileIgnored, Group::ReadOnlyCommands),
    (Fault::ProfileIgnored, Group::Lists),
    (Fault::SilenceIgnoresProfile, Group::HostileLists),
    (Fault::ProfileOfLastStart, Group::ProfileStarts),
    (Fault::SkippedOfOtherPort, Group::TwoRuns),
    (Fault::PlainIsFull, Group::TwoRuns),
    (Fault::BothAreFull, Group::TwoRuns),
    (Fault::WrappedProfileIgnored, Group::ProfileStarts),
    (Fault::WrappedProfileKept, Group::ProfileStarts),
    (Fault::WrappedProfileTold, Group::StartsInPlace),
    (Fault::ReckonedError, Group::ReckonedLists),
    (Fault::ReckonedTotals, Group::ReckonedLists),
    (Fault::TotalWraps, Group::Boards),
    (Fault::TotalWraps, Group::RecordedLists),
    (Fault::TotalReset, Group::Boards),
    (Fault::TotalStopsShort, Group::Boards),
    (Fault::TotalOf32Bits, Group::Boards),
    (Fault::TotalLeavesOut, Group::SilentBoards),
    (Fault::TotalsStopTogether, Group::Boards),
    (Fault::LargestTotalUnsound, Group::Boards),
    (Fault::SkippedAsTaken, Group::Lists),
    (Fault::SkippedAsTaken, Group::RecordedLists),
    (Fault::DamagedAsGood, Group::Lists),
    (Fault::DamagedAsGood, Group::SilenceLaws),
    (Fault::DamagedSkippedWhole, Group::SilenceLaws),
    (Fault::OnlyObeyedAsGood, Group::Lists),
    (Fault::GoodWithoutHeld, Group::DrainedSilences),
    (Fault::SecondErrorCounted, Group::FieldMessages),
    (Fault::SecondErrorCounted, Group::RecordedLists),
    (Fault::EachRowCounted, Group::FieldLists),
    (Fault::LargestErrorCounted, Group::FieldLists),
    (Fault::Error7Uncounted, Group::ReadOnlyCommands),
    (Fault::Error7Uncounted, Group::RecordedLists),
    (Fault::UsedUpCounted, Group::Lists),
    (Fault::RefusedCounted, Group::Lists),
    (Fault::RefusedCounted, Group::SilentBoards),
    (Fault::RefusedCounted, Group::RecordedLists),
    (Fault::OtherPortCounted, Group::Lists),
    (Fault::BothPortsCounted, Group::SilenceLaws),
    (Fault::BothPortsCounted, Group::RecordedLists),
    (Fault::SilenceUncounted, Group::DrainedSilences),
    (Fault::SilenceUncounted, Group::RecordedLists),
    (Fault::SilenceCountedAsTaken, Group::SilenceLaws),
    (Fault::TotalsKeptOverStart, Group::Lists),
    (Fault::TotalsKeptOverStart, Group::RecordedLists),
    (Fault::TotalsKeptOverRefusedStart, Group::ProfileStarts),
    (Fault::SecondTotalsKept, Group::Histories),
    (Fault::ErrorUntold, Group::Lists),
    (Fault::ErrorUntold, Group::RecordedLists),
    (Fault::ErrorOfLastRow, Group::FieldLists),
    (Fault::ErrorOfLastCall, Group::Lists),
    (Fault::RefusalTellsError, Group::Lists),
    (Fault::RefusalTellsError, Group::SilentBoards),
    (Fault::SilenceErrorUntold, Group::DrainedSilences),
    (Fault::RecordWraps, Group::Records),
    (Fault::RecordWraps, Group::RecordedLists),
    (Fault::RecordReset, Group::Records),
    (Fault::RecordedErrorWraps, Group::Records),
    (Fault::GoodWraps, Group::Records),
    (Fault::GoodSumWraps, Group::Records),
    (Fault::GoodSumStops, Group::Records),
    (Fault::GoodInTwoParts, Group::Records),
    (Fault::GoodOfTakenAlone, Group::RecordedLists),
    (Fault::GoodWithNumber0Alone, Group::Records),
    (Fault::HeldCountsSwapped, Group::RecordedLists),
    (Fault::RecordedErrorOf1, Group::Records),
    (Fault::RecordedErrorOf1, Group::RecordedLists),
    (Fault::RefusalRecorded, Group::Records),
    (Fault::RefusalRecordedWhole, Group::RecordedLists),
    (Fault::Number2Recorded, Group::Records),
    (Fault::Error8As7, Group::Records),
    (Fault::ErrorOf3Bits, Group::Records),
    (Fault::Error8Uncounted, Group::Records),
    (Fault::RecordWithoutError0, Group::RecordedLists),
    (Fault::LongerRowTaken, Group::TotalsRows),
    (Fault::ShorterRowTaken, Group::TotalsRows),
    (Fault::NoRowTaken, Group::TotalsRows),
    (Fault::RowBeforePort, Group::TotalsRows),
    (Fault::RowBehindRoom, Group::TotalsRows),
    (Fault::WrongRowCleared, Group::TotalsRows),
    (Fault::WrongRowClearsPort, Group::TotalsRows),
    (Fault::WrongRowWritesRoom, Group::TotalsRows),
    (Fault::WrongRowForgetsHeld, Group::TotalsRows),
    (Fault::WrongArrayClearsRow, Group::TotalsRows),
    (Fault::WrappedErrorLost, Group::WrappedLists),
    (Fault::WrappedErrorLost, Group::RecordedLists),
    (Fault::WrappedTotalsLost, Group::WrappedLists),
    (Fault::WrappedTallyOfOther, Group::WrappedLists),
    (Fault::WrappedTallyOfOther, Group::RecordedLists),
    (Fault::WrappedTallyOfNone, Group::WrappedLists),
    (Fault::WrappedCountAsReported, Group::Records),
    (Fault::WrappedCountAsReported, Group::RecordedLists),
    (Fault::WrappedCountOfRefusal, Group::RecordedLists),
    (Fault::WrappedCountWithoutError, Group::RecordedLists),
    (Fault::WrappedCountSwaps, Group::Records),
    (Fault::WrappedSilenceError, Group::AnySilences),
    (Fault::WrappedTotalsKept, Group::StartsInPlace),
    (Fault::WrappedTotalsKept, Group::RecordedLists),
    (Fault::WrappedRefusedTotalsKept, Group::StartsInPlace),
];

fn number_from(name: &str) -> Option<u64> {
    let text = std::env::var(name).ok()?;
    Some(text.parse().unwrap_or_else(|_| panic!("{name}={text} is not a number")))
}

/// The nanoseconds of the clock: another run each time.
fn any_seed() -> u64 {
    SystemTime::now().duration_since(UNIX_EPOCH).map_or(0, |since| since.as_nanos() as u64)
}

/// What a check found: whether it passed, and what is printed of it.
struct Found {
    passed: bool,
    text: String,
}

/// Runs a group on the library as it is.
fn compare(group: Group, seed: u64, scale: u64) -> Found {
    let begin = Instant::now();
    let mut ran = Ran::default();
    let cases = (group.cases() * scale / 100).max(1);
    let result = group.run(&Library, seed, cases, &mut ran);
    // A short run may miss a number.
    let reached = if scale >= 100 { ran.reached(group.numbers()) } else { Ok(()) };
    let seconds = begin.elapsed().as_secs_f64();
    let passed = result.is_ok() && reached.is_ok();
    let mut text = match result {
        Ok(()) => format!("{group:?}: {cases} cases, {} calls compared, {seconds:.1} s", ran.calls),
        Err((place, text)) => format!("DIFFERENCE in {group:?}, case {place}, SEED={seed}\n  {text}"),
    };
    if let Err(missed) = reached {
        text += &format!("\nFAILED: {group:?}: {missed}");
    }
    Found { passed, text }
}

/// Runs the group that is to find a fault with the fault in it.
fn plant(fault: Fault, group: Group, seed: u64) -> Found {
    let found = group.run(&Planted::new(fault), seed, group.cases(), &mut Ran::default());
    let passed = found.is_err();
    let text = match found {
        Ok(()) => format!("FAILED: the planted fault {fault:?} was not found in {group:?}"),
        Err((place, text)) => format!("planted {fault:?}: found in {group:?}, case {place}{}", shortest(&text)),
    };
    Found { passed, text }
}

/// How short the list of a difference became.
fn shortest(text: &str) -> String {
    let line = text.lines().find_map(|line| line.trim_start().strip_prefix("shortest: "));
    match line.and_then(|line| line.split(',').next()) {
        Some(size) => format!(", shrunk to {size}"),
        None => String::new(),
    }
}

/// Makes the checks of these places, some at a time, and gives each with its place as soon as it is made.
fn in_threads(places: usize, check: impl Fn(usize) -> Found + Sync, mut made: impl FnMut(usize, Found)) {
    let (sender, receiver) = mpsc::channel();
    let next = AtomicUsize::new(0);
    let (next, check) = (&next, &check);
    thread::scope(|scope| {
        for _ in 0..thread::available_parallelism().map_or(1, NonZero::get) {
            let sender = sender.clone();
            scope.spawn(move || {
                let taken = std::iter::repeat_with(|| next.fetch_add(1, Ordering::Relaxed));
                for place in taken.take_while(|&place| place < places) {
                    sender.send((place, check(place))).expect("the results are received");
                }
            });
        }
        drop(sender);
        receiver.iter().for_each(|(place, found)| made(place, found));
    });
}

/// Each group on the library as it is, then each fault in its group. They are printed in this order.
fn main() -> ExitCode {
    let seed = number_from("SEED").unwrap_or_else(any_seed);
    let scale = number_from("SCALE").unwrap_or(100);
    println!("SEED={seed}");
    let check = |place: usize| match GROUPS.get(place) {
        Some(&group) => compare(group, seed, scale),
        None => {
            let (fault, group) = FAULTS[place - GROUPS.len()];
            plant(fault, group, seed)
        }
    };
    let (mut waiting, mut printed, mut passed) = (BTreeMap::new(), 0, 0);
    in_threads(GROUPS.len() + FAULTS.len(), check, |place, found| {
        waiting.insert(place, found);
        while let Some(found) = waiting.remove(&printed) {
            println!("{}", found.text);
            printed += 1;
            passed += usize::from(found.passed);
        }
    });
    let failed = GROUPS.len() + FAULTS.len() - passed;
    println!("{passed} passed, {failed} failed");
    if failed == 0 {
        ExitCode::SUCCESS
    } else {
        ExitCode::FAILURE
    }
}

/// A group in which no fault is planted is not shown to be able to fail.
#[test]
fn every_group_has_a_fault() {
    for group in GROUPS {
        assert!(FAULTS.iter().any(|&(_, finder)| finder == group), "{group:?}");
    }
}

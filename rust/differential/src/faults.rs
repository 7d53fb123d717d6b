//! Planted faults: the library, its wrapper, or what the reckoning is compared with, with one answer changed in one case.
//! Each must be found, or the comparison cannot fail.

use crate::calls::{self, Calls, Fed, FieldGiven, InPlace, NumberedGiven};
use crate::counting::{self, Last};
use crate::folds::{refold, Before};
use crate::lenient;
use crate::ranging;
use crate::rights;
use crate::silencing;
use crate::wrapper::Wrapper;
use ketphiroj::ffi::{self, FlatField, FlatPage, FlatReply, FlatValues, Started, StartedInPlace, Stepped, Written};
use ketphiroj::{Board, Field, Outcome, Port, Profile, Refusal, Reply, ReplyError, Settings, Tally, Values, PAGE};
use plain::{Reckoned, Told};
use std::cell::Cell;
use std::ops::Range;

/// A fault. The table in main.rs has the group of cases that is to find it.
#[derive(Clone, Copy, Debug, PartialEq, Eq)]
pub enum Fault {
    // Found in lists.
    ReplyOfError4,
    RoomPastTheReply,
    SkippedOfHeldMessage,
    MarkOfTheSameSave,
    OtherPort,
    LongestMessage,
    PageOfARefusal,
    DamagedDropped,
    OnlyFirstChange,
    // Found in a long stream alone: no other chunk is of 65536 bytes.
    LengthOf16Bits,
    // Found in runs of A5.
    StrayReported,
    TwoSkippedForAStray,
    RunSkippedWhole,
    StrayNotCounted,
    SkippedOf8Bits,
    TwoA5Decided,
    // Found in the comparison with the reckoning.
    ReckonedSkipped,
    ReckonedHeld,
    ReckonedError,
    ReckonedTotals,
    // Found in single feeds.
    SizeBeforeCode,
    SentValueSaved,
    JunkKept,
    UnsoundBeforePort,
    // Found in commands of several fields: how they are handled one after the other.
    FieldsOnGivenSettings,
    LoadsFromGivenPage,
    PageOfLastField,
    StopsAtFirstError,
    ErrorUndoesAll,
    UnknownCodeAlone,
    FirstFieldAlone,
    RowsReversed,
    MarkOfLastField,
    MarkOfFirstField,
    ReportsAtTheEnd,
    EchoOfFirstField,
    StraddlingField,
    // And which of them are reached.
    SeventeenFields,
    SixteenRefused,
    FirstSixteen,
    UnfilledAsFarAsItGoes,
    LastByteLeftOver,
    CodeBeforeFilling,
    EchoOfLastCode,
    EmptyNotFilled,
    RowsOfDamaged,
    RoomOf165,
    // Found in the rows of replies.
    NoRowAsLast,
    NoRowAs23,
    RowsFromOne,
    RowsCountedAsFields,
    RowOf32Bits,
    RowsBehindUntested,
    SeventeenRows,
    NoRows,
    RowsInAnyType,
    ValueInType01,
    ValueAfterError,
    ValueOfAnotherCode,
    TwoValues,
    RowOfSize3,
    // Found in the writer of one field.
    RoomBeforeCommand,
    FieldAtTheFront,
    LengthOfTheField,
    LengthWraps,
    BytePastTheField,
    PingInType02,
    UnusedValueTested,
    FieldRangeModulo256,
    // Found in numbered commands: the test of the number.
    EqualAccepted,
    AnyAccepted,
    OtherAccepted,
    OnlyNextAccepted,
    ReadBackwards,
    ComparedBackwards,
    ComparedIn16Bits,
    ComparedSigned,
    LastWraps,
    LostAtStart,
    ZeroStale,
    // What is done with a fresh number and with a stale one.
    StaleHandled,
    FailedNotSpent,
    FirstFailedNotSpent,
    TypeNotSpent,
    SaveDropsNumber,
    InsideFirst,
    InsideOnPort0,
    MarkOfInside,
    SettingsOfInsideLost,
    NumberInNumber,
    ReplyOfInnerType,
    // The one row where the fields are not reached.
    DamagedSpends,
    DamagedEchoInside,
    DamagedStale,
    ShortAs3,
    ShortEcho,
    ShortSpends,
    EchoOfNumber,
    EchoOfType,
    NoFieldAs4,
    FieldsBeforeType,
    TypeBeforeStale,
    NumberedRefusedOnPort1,
    // Found in commands without a number.
    UnnumberedUse,
    UnnumberedSave,
    UnnumberedLoad,
    UnnumberedFactory,
    Port1Refused,
    RefusedWithoutEntry,
    RefusedWhole,
    NumberZeroAsNone,
    ReportRefused,
    PingRefused,
    OtherFunctionsRefused,
    SizeZeroRefused,
    Error5Before3,
    Error5After4,
    // Found in replies to numbered commands, and in the writer of these.
    Error5Refused,
    OneRowInNumbered,
    NoValueInNumbered,
    NumberAsValue,
    NumberWrittenBackwards,
    RoomBeforeNumbered,
    BytePastNumbered,
    PingAsSetting,
    // Found in the page calls, on pages that keep a number.
    StartOnNumber,
    FourEntriesRefused,
    NumberOfOneByte,
    NumberReadBackwards,
    LastNumberNotRead,
    NumberNotWritten,
    NumberNotThere,
    BodyOfNumber,
    // Found in commands of the gyroscope's range: function 1 with one that the board no longer takes.
    OldRangeUsed,
    OldRangeUsedWith6,
    OldRangeAsFactory,
    OldRangeAs4,
    Range7As4,
    BadRangeAs6,
    AccelerometerAs6,
    Error6BeforeSize,
    Error6Before5,
    // Function 4 that is sent with one.
    SentRangeWithLoad,
    // Function 4 on a page that holds one.
    OldLoadBeforeSize,
    OldLoadBefore5,
    OldLoadTaken,
    OldLoadAsFactory,
    OldLoadAlters,
    OldLoadOfSent,
    OldLoadAs4,
    OldLoadLeaves,
    OldLoadMarked,
    OldLoadWrites,
    OldLoadErases,
    // What else is done on such a page, and boards that hold such a range.
    ReportOnOldPageRefused,
    SaveOnOldPageRefused,
    FactoryOnOldPageRefused,
    SaveDropsOldRange,
    SaveMendsOldRange,
    FeedOnOldPageRefused,
    OldBoardFed,
    // The calls of their own, with such a range or on such a page.
    StartOnOldRange,
    StartOnOldPageRefused,
    StartOnRange6,
    StartInPlaceOnOldRange,
    StartInPlaceOnOldPageRefused,
    OldPageUnsound,
    OldRangeNotRead,
    OldPageNotWritten,
    OldBodyFromFactory,
    OldRangeWritten,
    OldRangeNumbered,
    OldRangeAppended,
    Error6Refused,
    Reply6Refused,
    Reply7Refused,
    // Found in silences: how the scan goes on where it is undecided.
    SilenceAsEmptyFeed,
    SilenceSkipsOneFront,
    SilenceDropsAll,
    SilenceDropsUncounted,
    SilenceReportsUndecided,
    SilenceSkipsHeader,
    // What is read, skipped and held.
    SilenceKeepsLastA5,
    SilenceStopsBeforeMessage,
    SilenceDropsBehind,
    SilenceSkippedNotCounted,
    SilenceOf8Bits,
    SilenceOf259,
    SilenceGoesOn,
    SilenceSkipsDamaged,
    SilenceOnOtherPort,
    // What else is answered and written.
    SilenceJunkKept,
    SilenceClearsOtherPort,
    SilenceMarkLost,
    SilencePageKept,
    SilenceSettingsKept,
    SilenceTakes,
    SilenceRoomPastReply,
    SilenceWritesWith1,
    // And the refusals.
    SilencePort2AsPort1,
    SilenceOtherPortUntested,
    SilenceOldBoard,
    SilenceRoomUntested,
    SilencePageUntested,
    SilenceUnsoundBeforePort,
    SilenceRoomBeforeBoard,
    SilencePageBeforeRoom,
    SilencePageAsUnsound,
    SilenceRefusalClears,
    SilenceRefusalWrites,
    // Found on port 1 of a read-only board: functions that are let through, or are done all the same.
    ReadOnlyUse,
    ReadOnlySave,
    ReadOnlyLoad,
    ReadOnlyFactory,
    ReadOnlyUseUntold,
    ReadOnlySaveKept,
    ReadOnlySaveMarked,
    // Where error 7 stands among the others, and what it is for.
    Error7Before3,
    Error7BeforeFilling,
    Error7BeforeSums,
    Error7Behind4,
    Error7Behind6,
    Error7As5,
    Error7Whole,
    Error7ForReport,
    Error7ForPing,
    Error7ForSize0,
    Error7ForOthers,
    Error7OnPort0,
    Error7WhenFull,
    // Numbered commands there.
    ReadOnlyNumberTaken,
    ReadOnlyNumberSpent,
    ReadOnlyNumberMarked,
    ReadOnlyNumberedPing,
    ReadOnlyNumberedReport,
    Error7After5,
    Error7AfterLength,
    Error7AfterInnerType,
    RowForEachInner,
    ReadOnlyEchoOfNumber,
    ReadOnlyEchoOfType,
    ReadOnlyEchoZero,
    // The reader of its replies.
    Error7Refused,
    Error8Read,
    // The profile: where it is lost, and whose it is.
    StartIgnoresProfile,
    RefusedStartLosesProfile,
    StartInPlaceIgnoresProfile,
    RefusedStartInPlaceLosesProfile,
    WrongArrayLosesProfile,
    FeedLosesProfile,
    RefusedFeedLosesProfile,
    SilenceLosesProfile,
    RefusedSilenceLosesProfile,
    ProfileIgnored,
    SilenceIgnoresProfile,
    ProfileOfLastStart,
    // Looked for in two runs: what port 0 sees of port 1; a plain reading that is started in the other profile; and both in that
    // one, so that they agree and the two runs do not.
    SkippedOfOtherPort,
    PlainIsFull,
    BothAreFull,
    // Found in the totals: how one grows, where it stops, and whether it has a part in what is answered.
    TotalWraps,
    TotalReset,
    TotalStopsShort,
    TotalOf32Bits,
    TotalLeavesOut,
    TotalsStopTogether,
    LargestTotalUnsound,
    // What is counted in them, and where.
    SkippedAsTaken,
    DamagedAsGood,
    DamagedSkippedWhole,
    OnlyObeyedAsGood,
    GoodWithoutHeld,
    SecondErrorCounted,
    EachRowCounted,
    LargestErrorCounted,
    Error7Uncounted,
    UsedUpCounted,
    RefusedCounted,
    OtherPortCounted,
    BothPortsCounted,
    SilenceUncounted,
    SilenceCountedAsTaken,
    // Since when.
    TotalsKeptOverStart,
    TotalsKeptOverRefusedStart,
    SecondTotalsKept,
    // The error that a call tells.
    ErrorUntold,
    ErrorOfLastRow,
    ErrorOfLastCall,
    RefusalTellsError,
    SilenceErrorUntold,
    // Found in the driver's record: how its totals grow.
    RecordWraps,
    RecordReset,
    RecordedErrorWraps,
    // The good bytes.
    GoodWraps,
    GoodSumWraps,
    GoodSumStops,
    GoodInTwoParts,
    GoodOfTakenAlone,
    GoodWithNumber0Alone,
    HeldCountsSwapped,
    // Which numbers and errors count.
    RecordedErrorOf1,
    RefusalRecorded,
    RefusalRecordedWhole,
    Number2Recorded,
    Error8As7,
    ErrorOf3Bits,
    Error8Uncounted,
    RecordWithoutError0,
    // Found in rows of totals that are not of their length.
    LongerRowTaken,
    ShorterRowTaken,
    NoRowTaken,
    RowBeforePort,
    RowBehindRoom,
    WrongRowCleared,
    WrongRowClearsPort,
    WrongRowWritesRoom,
    WrongRowForgetsHeld,
    WrongArrayClearsRow,
    // Found in the place of a field.
    FieldPlace,
    AxesWithoutPlace,
    PlaceAtSizeByte,
    PlaceAtCode,
    PlaceInPayload,
    PlaceOf8Bits,
    EmptyFieldUnplaced,
    RefusedFieldPlaced,
    // And in its size.
    AxesWithoutSize,
    SizeWithHeader,
    UnknownSizeOf12,
    SizeOf7Bits,
    SizeToTheEnd,
    // Found in starts in place.
    SecondPortKept,
    LastByteKept,
    RefusedStartKeepsPorts,
    RefusedStartWithoutSettings,
    StartInPlaceOnNumber,
    LongerArrayStarted,
    SecondArrayUnmeasured,
    PageBeforeArrays,
    WrongArrayCleared,
    WrongArrayOnPage,
    // Found in the calls of their own.
    StartOnThreeEntries,
    WholeWithoutSums,
    SignallingNanRead,
    FieldCopyInShortRoom,
    RoomThatJustFits,
    RangeModulo256,
    SignallingNanWritten,
    PageOfNoEntry,
    ValueOfRefusedPage,
    ValueNotThere,
    BodyFromFactory,
    FactoryPageUntested,
    RoomBeforePages,
    FactoryPageInLongRoom,
    // Found in the comparison with the wrapper.
    WrappedSaveMark,
    WrappedBoard,
    WrappedRoom,
    WrappedPage,
    WrappedErrorLost,
    WrappedTotalsLost,
    WrappedTallyOfOther,
    WrappedTallyOfNone,
    WrappedCountAsReported,
    WrappedCountOfRefusal,
    WrappedCountWithoutError,
    WrappedCountSwaps,
    WrappedSilence,
    WrappedSilenceMark,
    WrappedSilenceError,
    WrappedSilenceBoard,
    WrappedStart,
    WrappedStartInPlace,
    WrappedTotalsKept,
    WrappedRefusedTotalsKept,
    WrappedProfileIgnored,
    WrappedProfileKept,
    WrappedProfileTold,
    WrappedHeldKept,
    WrappedRefusalKept,
    WrappedMessageCheck,
    WrappedReply,
    WrappedReplyError,
    WrappedRows,
    WrappedAppendedField,
    WrappedNumbered,
    WrappedNumberRead,
    WrappedField,
    WrappedFieldRange,
    WrappedRangeWithHeader,
    WrappedFieldData,
    WrappedMessage,
    WrappedCommand,
    WrappedData,
    WrappedDataBits,
    WrappedPageCheck,
    WrappedValuesRead,
    WrappedValuesWritten,
    WrappedBody,
    WrappedFactoryPage,
}

/// The fault, planted; and for a fault that keeps that beside the boards, whether the board that was started last is read-only, and
/// what the last call left.
pub struct Planted(Fault, Cell<bool>, Cell<Last>);

impl Planted {
    pub fn new(fault: Fault) -> Planted {
        Planted(fault, Cell::new(false), Cell::new(Last::default()))
    }

    fn is(&self, fault: Fault) -> bool {
        self.0 == fault
    }

    /// What a call counts and tells, with the fault in it.
    fn counted(&self, before: &Before, mut fed: Fed, room: &[u8]) -> Fed {
        let error = fed.error;
        counting::change_totals(self.0, before, &mut fed, room);
        counting::change_error(self.0, self.2.get(), &mut fed, room);
        // What is not reported leaves the last error as it was.
        let error = if fed.number == 0 { error } else { self.2.get().error };
        self.2.set(Last { tallies: [fed.board.tally0, fed.board.tally1], error });
        fed
    }

    /// The wrapper's result. Where this fault is planted, a refusal is told as the next one.
    fn next_refusal<T>(&self, fault: Fault, result: Result<T, Refusal>) -> Result<T, Refusal> {
        match result {
            Err(refusal) if self.is(fault) => Err(Refusal::from_number(refusal.number() + 1).unwrap_or(Refusal::Port)),
            result => result,
        }
    }
}

impl Calls for Planted {
    fn start(&self, readonly: bool, page: &[u8]) -> Started {
        self.1.set(readonly);
        let mut started = rights::start(self.0, readonly, page);
        if self.is(Fault::StartOnThreeEntries) && started.number == 0 && page[0] == 3 {
            started.board.settings.gyroscope = 3;
        }
        // A page with a number is taken for one without settings.
        if self.is(Fault::StartOnNumber) && started.number == 0 && has_entry(page, 0x70) {
            started.board.settings = ffi::start(false, &[0xFF; 64]).board.settings;
        }
        match (self.0, old_range(page)) {
            (Fault::StartOnOldRange, Some(7)) => started.board.settings.gyroscope = 7,
            (Fault::StartOnRange6, Some(6)) => started.board.settings.gyroscope = 6,
            (Fault::StartOnOldPageRefused, Some(_)) => return ffi::start(readonly, &[0; 64]),
            _ => {}
        }
        counting::started(self.0, self.2.get(), &mut started);
        started
    }

    fn start_in_place(&self, readonly: bool, first: &mut [u8], second: &mut [u8], page: &[u8]) -> StartedInPlace {
        let started = start_wrong_arrays(self.0, readonly, [&mut *first, &mut *second], page);
        let mut started = started.unwrap_or_else(|| start_kept_board(self.0, readonly, [first, second], page));
        rights::started_in_place(self.0, &mut started);
        started
    }

    fn feed(&self, port: u8, board: Board, chunk: &[u8], room: &mut [u8], page: &mut [u8]) -> Fed {
        let before = Before { port, board, chunk, room: room.to_vec(), page: page.to_vec() };
        let fed = feed_run(self.0, port, board, chunk, room, page);
        let fed = fed.or_else(|| rights::feed_in_another(self.0, self.1.get(), &before, room, page));
        if let Some(fed) = fed.or_else(|| feed_refused(self.0, &before, room, page)) {
            return fed;
        }
        let chunk = if self.is(Fault::LengthOf16Bits) { &chunk[..chunk.len() % 65536] } else { chunk };
        let mut fed = calls::feed(port, board, chunk, room, page);
        if fed.number == 0 {
            refold(self.0, &before, &mut fed, room, page);
        }
        match self.0 {
            Fault::ReplyOfError4 if fed.number == 0 && room[7] == 4 => room[9] ^= 1,
            Fault::RoomPastTheReply if fed.number == 0 && room.len() > Board::REPLY => room[Board::REPLY] = 0,
            Fault::SkippedOfHeldMessage if fed.number == 0 && fed.taken == 0 && fed.skipped > 0 => fed.skipped -= 1,
            Fault::MarkOfTheSameSave if fed.saved && page == before.page => fed.saved = false,
            Fault::OtherPort if fed.number == 0 && port == 1 && fed.board.first.held > 2 => {
                fed.board.first.bytes[fed.board.first.held] = 1
            }
            Fault::LongestMessage if fed.number == 1 && fed.board.first.held == 260 => fed.board.first.bytes[259] = 0,
            Fault::PageOfARefusal if fed.number == 18 => page[63] = 0,
            Fault::DamagedDropped if fed.number == 0 && room[7] == 1 && port == 0 => drop_held(&mut fed),
            Fault::OnlyFirstChange if board.settings.gyroscope != 3 => fed.board.settings = board.settings,
            Fault::StrayNotCounted if fed.skipped > 0 && chunk.starts_with(&[0xA5; 3]) => fed.skipped -= 1,
            Fault::SkippedOf8Bits => fed.skipped %= 256,
            Fault::TwoA5Decided if fed.number == 1 && port == 0 => skip_first_of_two(&mut fed),
            Fault::SizeBeforeCode if fed.number == 0 && room[7] == 3 => error_4_for_size_6(chunk, room),
            Fault::SentValueSaved if fed.saved && chunk.len() == 10 => save_sent_range(chunk, page),
            Fault::JunkKept if fed.number == 1 && chunk.is_empty() => keep_junk(&mut fed, &board),
            Fault::UnsoundBeforePort if fed.number == 16 && board.first.held > 260 => fed.number = 17,
            Fault::FeedOnOldPageRefused | Fault::LargestTotalUnsound if fed.number < 16 => {
                refuse_accepted(self.0, &before, &mut fed, room, page)
            }
            _ => rights::change_answer(self.0, &before, &mut fed),
        }
        self.counted(&before, fed, room)
    }

    fn silence(&self, port: u8, board: Board, room: &mut [u8], page: &mut [u8]) -> Fed {
        let before = Before { port, board, chunk: &[], room: room.to_vec(), page: page.to_vec() };
        let fed = rights::silence_in_another(self.0, self.1.get(), &before, room, page);
        let mut fed = fed.unwrap_or_else(|| silencing::silence(self.0, &before, room, page));
        match (self.0, fed.number) {
            (Fault::SilenceLosesProfile, 0 | 1) | (Fault::RefusedSilenceLosesProfile, 16..) => {
                fed.board.readonly = false
            }
            _ => counting::change_silence(self.0, &before, &mut fed),
        }
        self.counted(&before, fed, room)
    }

    fn call_in_place(&self, given: &mut InPlace) -> Stepped {
        counting::call_in_place(self.0, given)
    }

    fn count(&self, tally: &mut Tally, told: &Told) {
        counting::count(self.0, tally, told)
    }

    fn check_message(&self, message: &[u8]) -> u8 {
        match ffi::check_message(message) {
            // The second sum is not looked at.
            22 if self.is(Fault::WholeWithoutSums) && only_second_sum_wrong(message) => 0,
            number => number,
        }
    }

    fn append_field(&self, given: &FieldGiven, length: usize, room: &mut [u8]) -> Written {
        lenient::append(self.0, given, length, room)
    }

    fn write_numbered(&self, given: &NumberedGiven, room: &mut [u8]) -> Written {
        lenient::write_numbered(self.0, given, room)
    }

    fn read_reply(&self, message: &[u8], row: usize) -> FlatReply {
        if let Some(read) = lenient::read(self.0, message, row) {
            return read;
        }
        ffi::read_reply(message, row)
    }

    fn read_field(&self, message: &[u8], k: usize) -> FlatField {
        let mut read = lenient::read_field(self.0, message, k);
        if self.is(Fault::SignallingNanRead) {
            read.y = quiet(read.y);
        }
        read
    }

    fn copy_field(&self, message: &[u8], k: usize, room: &mut [u8]) -> Written {
        let written = ffi::copy_field(message, k, room);
        if self.is(Fault::FieldCopyInShortRoom) && written.number == 18 && !room.is_empty() {
            room[0] = message[4];
        }
        written
    }

    fn write_message(&self, kind: u8, payload: &[u8], room: &mut [u8]) -> Written {
        if self.is(Fault::RoomThatJustFits) && room.len() == payload.len() + 6 && payload.len() == 255 {
            return Written { number: 18, length: 0 };
        }
        ffi::write_message(kind, payload, room)
    }

    fn write_command(&self, code: u8, function: u8, value: u32, room: &mut [u8]) -> Written {
        lenient::write_command(self.0, code, function, value, room)
    }

    fn write_data(&self, acceleration: [u32; 3], rate: [u32; 3], room: &mut [u8]) -> Written {
        let [x, y, z] = rate;
        let rate = if self.is(Fault::SignallingNanWritten) { [x, y, quiet(z)] } else { rate };
        ffi::write_data(acceleration, rate, room)
    }

    fn check_page(&self, page: &[u8]) -> u8 {
        match ffi::check_page(page) {
            20 if self.is(Fault::PageOfNoEntry) && page[0] == 0 => 0,
            0 if self.is(Fault::FourEntriesRefused) && page[0] == 4 => 20,
            20 if self.is(Fault::NumberOfOneByte) && page.starts_with(&[1, 0x70, 4, 1]) => 0,
            0 if self.is(Fault::OldPageUnsound) && old_range(page) == Some(7) => 20,
            number => number,
        }
    }

    fn read_page(&self, page: &[u8]) -> FlatPage {
        let mut read = ffi::read_page(page);
        if self.is(Fault::ValueOfRefusedPage) && read.number == 20 && page[..4] == [1, 7, 4, 1] {
            read.values.has_accelerometer = true;
            read.values.accelerometer = u32::from(page[4]);
        }
        if self.is(Fault::NumberReadBackwards) {
            read.values.last_number = read.values.last_number.swap_bytes();
        }
        // A body of FF is taken for the end of the page.
        if self.is(Fault::LastNumberNotRead) && read.values.last_number == u32::MAX {
            read.values.has_last_number = false;
            read.values.last_number = 0;
        }
        if self.is(Fault::OldRangeNotRead) && read.values.gyroscope > 5 {
            read.values.has_gyroscope = false;
            read.values.gyroscope = 0;
        }
        read
    }

    fn write_page(&self, mut values: FlatValues, page: &mut [u8]) -> u8 {
        if self.is(Fault::ValueNotThere) && !values.has_baud {
            values.has_baud = values.baud == 9600;
        }
        if self.is(Fault::NumberNotWritten) && values.has_gyroscope {
            values.has_last_number = false;
        }
        if self.is(Fault::NumberNotThere) && values.last_number > 0 {
            values.has_last_number = true;
        }
        if self.is(Fault::OldPageNotWritten) && values.has_gyroscope && values.gyroscope == 6 && page.len() == 64 {
            return 20;
        }
        ffi::write_page(values, page)
    }

    fn copy_body(&self, saved: &[u8], factory: &[u8], code: u8, room: &mut [u8]) -> Written {
        match ffi::copy_body(saved, factory, code, room) {
            // Of a page that has all three entries the last is not found.
            Written { number: 0, .. } if self.is(Fault::BodyFromFactory) && saved[0] == 3 && code == 8 => {
                ffi::copy_body(&[0xFF; 64], factory, code, room)
            }
            // As a start takes it.
            Written { number: 0, .. }
                if self.is(Fault::OldBodyFromFactory) && code == 8 && old_range(saved).is_some() =>
            {
                ffi::copy_body(&[0xFF; 64], factory, code, room)
            }
            Written { number: 0, .. } if self.is(Fault::BodyOfNumber) && code == 0x70 && saved[0] == 4 => {
                Written { number: 0, length: 0 }
            }
            // The factory page is tested only where it is looked into.
            Written { number: 19 | 20, .. } if self.is(Fault::FactoryPageUntested) && has_entry(saved, code) => {
                ffi::copy_body(saved, saved, code, room)
            }
            Written { number: 19 | 20, length } if self.is(Fault::RoomBeforePages) && room.is_empty() => {
                Written { number: 18, length }
            }
            written => written,
        }
    }

    fn factory_page(&self, room: &mut [u8]) -> Written {
        let written = ffi::factory_page(room);
        if self.is(Fault::FactoryPageInLongRoom) && room.len() > 128 {
            room[64] = 0xFF;
        }
        written
    }

    fn answer_reckoned(&self, mut answer: Reckoned) -> Reckoned {
        if self.is(Fault::ReckonedSkipped) && answer.number == 1 && answer.taken == 0 {
            answer.skipped = 0;
        }
        if self.is(Fault::ReckonedError) && answer.error == 3 {
            answer.error = 0;
        }
        answer
    }

    fn board_reckoned(&self, mut board: Board) -> Board {
        if self.is(Fault::ReckonedHeld) && board.second.held > 1 {
            board.second.held -= 1;
        }
        if self.is(Fault::ReckonedTotals) && board.tally1.good > 0 {
            board.tally1.good -= 1;
        }
        board
    }

    fn plain_profile(&self, profile: plain::Profile) -> plain::Profile {
        match self.0 {
            Fault::PlainIsFull | Fault::BothAreFull => plain::Profile::Full,
            _ => profile,
        }
    }
}

impl Wrapper for Planted {
    fn wrapped_start(&self, profile: Profile, page: &[u8]) -> Result<Board, Refusal> {
        let profile = if self.is(Fault::WrappedProfileIgnored) { Profile::Full } else { profile };
        self.next_refusal(Fault::WrappedStart, Board::start(profile, page))
    }

    fn wrapped_start_in_place(&self, board: &mut Board, profile: Profile, page: &[u8]) -> Result<(), Refusal> {
        let before = *board;
        let started = self.next_refusal(Fault::WrappedStartInPlace, board.start_in_place(profile, page));
        match (self.0, started) {
            (Fault::WrappedProfileKept, Err(_)) => board.readonly = before.readonly,
            (Fault::WrappedHeldKept, Ok(())) => board.second.held = before.second.held,
            (Fault::WrappedTotalsKept, Ok(())) | (Fault::WrappedRefusedTotalsKept, Err(_)) => {
                (board.tally0, board.tally1) = (before.tally0, before.tally1)
            }
            // As a feed that is refused leaves its board.
            (Fault::WrappedRefusalKept, Err(_)) => *board = before,
            _ => {}
        }
        started
    }

    fn wrapped_profile(&self, board: &Board) -> Profile {
        if self.is(Fault::WrappedProfileTold) {
            return Profile::Full;
        }
        board.profile()
    }

    fn wrapped_feed(
        &self,
        port: u8,
        board: &mut Board,
        chunk: &[u8],
        room: &mut [u8],
        page: &mut [u8],
    ) -> Result<Outcome, Refusal> {
        let tally = board.tally0;
        let mut outcome = board.feed(port, chunk, room, page);
        match (&mut outcome, self.0) {
            (Ok(Outcome::Reported { saved, .. }), Fault::WrappedSaveMark) => *saved = false,
            (Ok(Outcome::Reported { error, .. }), Fault::WrappedErrorLost) => *error = None,
            (Ok(_), Fault::WrappedTotalsLost) => board.tally0 = tally,
            (Ok(Outcome::Reported { saved: true, .. }), Fault::WrappedPage) => page[63] = 0,
            (Ok(Outcome::UsedUp { .. }), Fault::WrappedRoom) => room[0] = 0xA5,
            // A refused feed loses what a port holds.
            (Err(_), Fault::WrappedBoard) => board.first = Port::new(),
            _ => {}
        }
        outcome
    }

    fn wrapped_silence(
        &self,
        port: u8,
        board: &mut Board,
        room: &mut [u8],
        page: &mut [u8],
    ) -> Result<Outcome, Refusal> {
        let mut outcome = self.next_refusal(Fault::WrappedSilence, board.silence(port, room, page));
        match (&mut outcome, self.0) {
            (Ok(Outcome::Reported { saved, .. }), Fault::WrappedSilenceMark) => *saved = false,
            (Ok(Outcome::Reported { error, .. }), Fault::WrappedSilenceError) => *error = None,
            (Err(_), Fault::WrappedSilenceBoard) => board.second = Port::new(),
            _ => {}
        }
        outcome
    }

    fn wrapped_tally(&self, board: &Board, port: u8) -> Option<Tally> {
        match (self.0, port) {
            (Fault::WrappedTallyOfOther, 0) => board.tally(1).copied(),
            (Fault::WrappedTallyOfOther, 1) => board.tally(0).copied(),
            (Fault::WrappedTallyOfNone, 2..) => board.tally(1).copied(),
            _ => board.tally(port).copied(),
        }
    }

    fn wrapped_count(&self, tally: &mut Tally, answer: &Result<Outcome, Refusal>, before: usize, after: usize) {
        match (self.0, *answer) {
            (Fault::WrappedCountAsReported, Ok(Outcome::UsedUp { taken, skipped })) => {
                tally.count_call(0, taken, skipped, 0, before, after)
            }
            (Fault::WrappedCountOfRefusal, Err(_)) => tally.count_call(0, 0, 0, 0, before, after),
            (Fault::WrappedCountWithoutError, Ok(Outcome::Reported { taken, skipped, .. })) => {
                tally.count_call(0, taken, skipped, 0, before, after)
            }
            _ => tally.count(answer, before, after),
        }
    }

    fn wrapped_count_call(&self, tally: &mut Tally, told: &Told) {
        let Told { number, taken, skipped, error, before, after } = *told;
        let (taken, skipped) = if self.is(Fault::WrappedCountSwaps) { (skipped, taken) } else { (taken, skipped) };
        tally.count_call(number, taken, skipped, error, before, after)
    }

    fn wrapped_check_message(&self, message: &[u8]) -> Result<(), Refusal> {
        self.next_refusal(Fault::WrappedMessageCheck, ketphiroj::check_message(message))
    }

    fn wrapped_write_message(&self, kind: u8, payload: &[u8], room: &mut [u8]) -> Result<usize, Refusal> {
        self.next_refusal(Fault::WrappedMessage, ketphiroj::write_message(kind, payload, room))
    }

    fn wrapped_write_command(&self, code: u8, function: u8, value: u32, room: &mut [u8]) -> Result<usize, Refusal> {
        self.next_refusal(Fault::WrappedCommand, ketphiroj::write_command(code, function, value, room))
    }

    fn wrapped_write_numbered(&self, given: &NumberedGiven, room: &mut [u8]) -> Result<usize, Refusal> {
        let NumberedGiven { number, code, function, value } = *given;
        let written = ketphiroj::write_numbered(number, code, function, value, room);
        self.next_refusal(Fault::WrappedNumbered, written)
    }

    fn wrapped_append_field(&self, given: &FieldGiven, length: usize, room: &mut [u8]) -> Result<usize, Refusal> {
        let FieldGiven { kind, code, function, value } = *given;
        let appended = ketphiroj::append_field(kind, code, function, value, length, room);
        self.next_refusal(Fault::WrappedAppendedField, appended)
    }

    fn wrapped_read_reply(&self, message: &[u8], row: usize) -> Result<Reply, Refusal> {
        let read = self.next_refusal(Fault::WrappedReply, ketphiroj::read_reply(message, row));
        // The names of 3 and 4 are exchanged.
        let other = |error| match error {
            ReplyError::MessageCode => ReplyError::Parameter,
            ReplyError::Parameter => ReplyError::MessageCode,
            error => error,
        };
        match read {
            Ok(reply) if self.is(Fault::WrappedReplyError) => Ok(Reply { error: reply.error.map(other), ..reply }),
            read => read,
        }
    }

    fn wrapped_read_rows(&self, message: &[u8]) -> Result<Vec<Reply>, Refusal> {
        // The sixteenth row is left out.
        let most = if self.is(Fault::WrappedRows) { 15 } else { usize::MAX };
        Ok(ketphiroj::read_rows(message)?.take(most).collect())
    }

    fn wrapped_read_field(&self, message: &[u8], k: usize) -> Result<Field, Refusal> {
        self.next_refusal(Fault::WrappedField, ketphiroj::read_field(message, k))
    }

    fn wrapped_field_range(&self, message: &[u8], k: usize) -> Result<Range<usize>, Refusal> {
        match self.next_refusal(Fault::WrappedFieldRange, ketphiroj::field_range(message, k)) {
            Ok(range) if self.is(Fault::WrappedRangeWithHeader) => Ok(range.start - 2..range.end),
            range => range,
        }
    }

    fn wrapped_field_data<'a>(&self, message: &'a [u8], k: usize) -> Result<&'a [u8], Refusal> {
        self.next_refusal(Fault::WrappedFieldData, ketphiroj::field_data(message, k))
    }

    fn wrapped_write_data(&self, [acceleration, rate]: [[f32; 3]; 2], room: &mut [u8]) -> Result<usize, Refusal> {
        self.next_refusal(Fault::WrappedData, ketphiroj::write_data(acceleration, rate, room))
    }

    fn wrapped_write_data_bits(&self, [acceleration, rate]: [[u32; 3]; 2], room: &mut [u8]) -> Result<usize, Refusal> {
        self.next_refusal(Fault::WrappedDataBits, ketphiroj::write_data_bits(acceleration, rate, room))
    }

    fn wrapped_check_page(&self, page: &[u8]) -> Result<(), Refusal> {
        self.next_refusal(Fault::WrappedPageCheck, ketphiroj::check_page(page))
    }

    fn wrapped_read_values(&self, page: &[u8]) -> Result<Values, Refusal> {
        match Values::read(page) {
            // A page that is neither blank nor sound is read as a blank one.
            Err(Refusal::Page) if self.is(Fault::WrappedValuesRead) => Ok(Values::default()),
            Ok(values) if self.is(Fault::WrappedNumberRead) => Ok(Values { last_number: None, ..values }),
            read => read,
        }
    }

    fn wrapped_write_values(&self, values: &Values, page: &mut [u8]) -> Result<(), Refusal> {
        self.next_refusal(Fault::WrappedValuesWritten, values.write(page))
    }

    fn wrapped_copy_body(&self, saved: &[u8], factory: &[u8], code: u8, room: &mut [u8]) -> Result<usize, Refusal> {
        self.next_refusal(Fault::WrappedBody, ketphiroj::copy_body(saved, factory, code, room))
    }

    fn wrapped_factory_page(&self) -> [u8; PAGE] {
        let mut page = ketphiroj::factory_page();
        if self.is(Fault::WrappedFactoryPage) {
            page[63] = 0;
        }
        page
    }
}

/// What a fault answers where an array is not 260 bytes; none where both are, and for the other faults.
fn start_wrong_arrays(
    fault: Fault,
    readonly: bool,
    [first, second]: [&mut [u8]; 2],
    page: &[u8],
) -> Option<StartedInPlace> {
    let Started { number, board } = ffi::start(readonly, page);
    let by_page = StartedInPlace { settings: board.settings, number, readonly };
    let (first_right, second_right) = (first.len() == Port::ROOM, second.len() == Port::ROOM);
    if first_right && second_right {
        return None;
    }
    match fault {
        // The 260 bytes that are needed are there.
        Fault::LongerArrayStarted if first.len() >= Port::ROOM && second.len() >= Port::ROOM => {
            Some(ffi::start_in_place(readonly, &mut first[..Port::ROOM], &mut second[..Port::ROOM], page))
        }
        Fault::SecondArrayUnmeasured if first_right => {
            first.fill(0);
            second.fill(0);
            Some(by_page)
        }
        Fault::PageBeforeArrays if number != 0 => Some(by_page),
        Fault::WrongArrayCleared => {
            second.fill(0);
            Some(ffi::start_in_place(readonly, first, second, page))
        }
        Fault::WrongArrayOnPage => Some(StartedInPlace { number: 17, ..by_page }),
        _ => None,
    }
}

/// The right answer, changed by the fault.
fn start_kept_board(fault: Fault, readonly: bool, [first, second]: [&mut [u8]; 2], page: &[u8]) -> StartedInPlace {
    let (first_given, second_given) = (first.to_vec(), second.to_vec());
    let mut started = ffi::start_in_place(readonly, first, second, page);
    match (fault, started.number) {
        (Fault::SecondPortKept, 0) => second.copy_from_slice(&second_given),
        (Fault::LastByteKept, 0) => first[Port::ROOM - 1] = first_given[Port::ROOM - 1],
        // As other calls that are refused, it writes nothing.
        (Fault::RefusedStartKeepsPorts, 19 | 20) => {
            first.copy_from_slice(&first_given);
            second.copy_from_slice(&second_given);
        }
        (Fault::RefusedStartWithoutSettings, 19 | 20) => {
            started.settings = Settings { baud: 0, accelerometer: 0, gyroscope: 0 }
        }
        (Fault::StartInPlaceOnNumber, 0) if has_entry(page, 0x70) => {
            started.settings = ffi::start(false, &[0xFF; 64]).board.settings
        }
        (Fault::StartInPlaceOnOldRange, 0) => {
            started.settings.gyroscope = old_range(page).unwrap_or(started.settings.gyroscope)
        }
        (Fault::StartInPlaceOnOldPageRefused, 0) if old_range(page).is_some() => {
            started = StartedInPlace { number: 20, settings: ffi::start(false, &[0xFF; 64]).board.settings, readonly }
        }
        _ => {}
    }
    started
}

/// One byte of room too few is enough, where the reply fits.
fn feed_in_short_room(before: &Before, room: &mut [u8], page: &mut [u8]) -> Fed {
    let mut longer = [&before.room[..], &[0]].concat();
    let fed = calls::feed(before.port, before.board, before.chunk, &mut longer, page);
    room.copy_from_slice(&longer[..room.len()]);
    fed
}

/// Whether a blank or sound page has an entry under a code; false for any other page.
fn has_entry(page: &[u8], code: u8) -> bool {
    let body = plain::body(page, &[0xFF; 64], code).1;
    !body.is_empty()
}

/// The range of the gyroscope that a sound page holds, where the board no longer takes it.
fn old_range(page: &[u8]) -> Option<u8> {
    plain::values(page)?.gyroscope.filter(|&range| ranging::old(range))
}

/// A feed that is to be refused is accepted.
fn feed_refused(fault: Fault, before: &Before, room: &mut [u8], page: &mut [u8]) -> Option<Fed> {
    match fault {
        Fault::OldBoardFed if ranging::old(before.board.settings.gyroscope) => Some(feed_old_board(before, room, page)),
        Fault::RoomOf165 if room.len() == Board::REPLY - 1 => Some(feed_in_short_room(before, room, page)),
        _ => None,
    }
}

/// A board that works with a range that it no longer takes is fed as one with another range; its own stays where the
/// message does not change it.
fn feed_old_board(before: &Before, room: &mut [u8], page: &mut [u8]) -> Fed {
    let mut board = before.board;
    board.settings.gyroscope = 1;
    let mut fed = calls::feed(before.port, board, before.chunk, room, page);
    if fed.board.settings.gyroscope == 1 {
        fed.board.settings.gyroscope = before.board.settings.gyroscope;
    }
    fed
}

/// An accepted feed is refused after all, where the fault shows.
fn refuse_accepted(fault: Fault, before: &Before, fed: &mut Fed, room: &mut [u8], page: &mut [u8]) {
    let number = match fault {
        Fault::FeedOnOldPageRefused if old_range(&before.page).is_some() => 20,
        Fault::LargestTotalUnsound if counting::stopped(&before.board) => 17,
        _ => return,
    };
    room.copy_from_slice(&before.room);
    page.copy_from_slice(&before.page);
    *fed = Fed { number, taken: 0, skipped: 0, error: 0, saved: false, board: before.board };
}

/// Of a damaged message all is dropped, and not one byte.
fn drop_held(fed: &mut Fed) {
    fed.skipped += fed.board.first.held;
    fed.board.first = Port::new();
}

/// What a fault answers where three A5 or more are fed to a port that holds nothing; none for the other faults.
fn feed_run(fault: Fault, port: u8, board: Board, chunk: &[u8], room: &mut [u8], page: &mut [u8]) -> Option<Fed> {
    let held = [board.first.held, board.second.held];
    let holds_nothing = held.get(usize::from(port)) == Some(&0);
    if !holds_nothing || !chunk.starts_with(&[0xA5; 3]) || room.len() < Board::REPLY {
        return None;
    }
    // The first bytes are skipped, whatever they are.
    let mut feed_behind = |first: usize| {
        let fed = calls::feed(port, board, &chunk[first..], room, page);
        Fed { taken: fed.taken + first, skipped: fed.skipped + first, ..fed }
    };
    match fault {
        Fault::StrayReported => report_type_a5(port, board, chunk, room),
        Fault::TwoSkippedForAStray => Some(feed_behind(2)),
        Fault::RunSkippedWhole => Some(feed_behind(chunk.iter().take_while(|&&byte| byte == 0xA5).count())),
        _ => None,
    }
}

/// As without request 01: a message of type A5, good or damaged, is reported. None where it is undecided.
fn report_type_a5(port: u8, mut board: Board, chunk: &[u8], room: &mut [u8]) -> Option<Fed> {
    let length = usize::from(*chunk.get(3)?) + 6;
    let message = chunk.get(..length)?;
    let damaged = !plain::sums_right(message);
    let reply = plain::handle(plain::Profile::Full, port, message, plain::FACTORY, plain::Values::default()).reply;
    room[..reply.len()].copy_from_slice(&reply);
    if damaged {
        let fed = if port == 0 { &mut board.first } else { &mut board.second };
        fed.held = length - 1;
        fed.bytes[..fed.held].copy_from_slice(&message[1..]);
    }
    Some(Fed { number: 0, taken: length, skipped: usize::from(damaged), error: reply[7], saved: false, board })
}

/// A front of A5 A5 alone is taken for one with a stray byte.
fn skip_first_of_two(fed: &mut Fed) {
    let port = &mut fed.board.first;
    if port.held == 2 && port.bytes[..2] == [0xA5; 2] {
        port.bytes[1] = 0;
        port.held = 1;
        fed.skipped += 1;
    }
}

/// A field's size is compared before its code: 4 where 3 comes first. No setting has 6 bytes of data.
fn error_4_for_size_6(chunk: &[u8], room: &mut [u8]) {
    if chunk.len() > 7 && chunk[3] == 8 && chunk[5] == 6 {
        let (kind, echo) = (room[2], room[6]);
        assert_eq!(ffi::write_message(kind, &[0x80, 2, echo, 4], room).number, 0);
    }
}

/// Function 3 of a range saves the value that came with it.
fn save_sent_range(chunk: &[u8], page: &mut [u8]) {
    let mut values = ffi::read_page(page).values;
    match chunk[4] {
        0x07 => values.accelerometer = u32::from(chunk[7]),
        _ => values.gyroscope = u32::from(chunk[7]),
    }
    // One that no page may keep (20) leaves the page as it was.
    let _ = ffi::write_page(values, page);
}

/// The fed port's bytes past the held ones, as they came.
fn keep_junk(fed: &mut Fed, given: &Board) {
    let held = fed.board.second.held;
    fed.board.second.bytes[held..].copy_from_slice(&given.second.bytes[held..]);
}

fn only_second_sum_wrong(message: &[u8]) -> bool {
    let end = message.len() - 2;
    plain::sums(&message[..end]).f1 == message[end]
}

/// A signalling NaN made quiet, as arithmetic would.
fn quiet(bits: u32) -> u32 {
    let nan = bits & 0x7F80_0000 == 0x7F80_0000 && bits & 0x007F_FFFF != 0;
    if nan {
        bits | 0x0040_0000
    } else {
        bits
    }
}

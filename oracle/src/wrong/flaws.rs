//! Which errors there are, and which inputs must expose each.

use crate::state::{Clause, CLAUSES};

#[derive(Clone, Copy, PartialEq, Eq, Debug)]
pub enum Flaw {
    // In the engine.
    PointersAtStart,
    ReadersFirst,
    FreedAtStart,
    PreviousNotSearched,
    OnlyRunningProtected,
    HighestFree,
    KeptAtFinish,
    AnyoneMayRun,
    WrittenToPrevious,
    DelayedAsDirect,
    ThirteenBeforeTwelve,
    AllFreedAtFinish,
    AheadProtectedToo,
    OnlyRunningBlock,
    SixteenFirst,
    // In the engine's arrivals, marks and start values.
    DefaultForStart,
    StartBySeen,
    StartAfterSecond,
    OneArrivalEnough,
    MarkByReader,
    MarkBeforeWriters,
    MarkAtDirect,
    MarkStays,
    MarkGoneAtStart,
    MarkGoneBySecond,
    MarkKeptAtFinish,
    MarkGoneAtFinish,
    SeenAtStart,
    SeenAtFinish,
    SeenPastTwo,
    // About the last task and link of a state, and sets past two bytes.
    LastTaskRefused,
    LastTaskNotMoved,
    LastTaskNotPointed,
    LastTaskNotWaiting,
    LastTaskNotFreed,
    LastLinkRefused,
    LastLinkNotSet,
    LastLinkNotFreed,
    FullSetWraps,
    WideSetCut,
    OnlySixteenBlock,
    LastTaskNotFilled,
    LastLinkLeftOut,
    LastTaskNotAsked,
    LastLinkNotAsked,
    StatesBySmaller,
    // About ticks and deadlines: the order of jobs,
    TiesByTable,
    TiesFromTheEnd,
    OrderByArrival,
    SixteenByTasks,
    SixteenByTable,
    SumIn32Bits,
    // the order of tasks,
    LinksByTable,
    SevenByTable,
    NineByTable,
    AheadFromTheEnd,
    ProtectedByTable,
    FreedByTable,
    PositionsByTable,
    IdleByTable,
    // either side of the last tick, of the limit and of the deadline,
    SameTickRefused,
    OneBelowAccepted,
    LimitRefused,
    PastLimitAccepted,
    AtDeadlineRefused,
    OneLateAccepted,
    LateRunRefused,
    // the order of refusals,
    TickBeforeTwelve,
    TickAfterPhases,
    TickLast,
    LateBeforeFifteen,
    LateBeforeSixteen,
    TwentyFourAfterThree,
    TwentyFourAfterLinks,
    // what the state keeps,
    LastByArrivals,
    LastNotByReads,
    LastByRefused,
    SinceKept,
    SinceNotSet,
    SinceAtStart,
    PolicyNotSet,
    EarlyPolicyKept,
    DeadlinesPastKept,
    // what is asked of a state, and which state a call is for,
    SincePastAsked,
    DeadlinePastAsked,
    DeadlineOfTwoBytes,
    LastAboveArrivals,
    WithoutTickAccepted,
    WithTickAccepted,
    // and the bytes, read and written.
    TickHighByteFirst,
    DeadlineHighByteFirst,
    DeadlineInItsField,
    NoDeadlineTwo,
    TickBeforeKind,
    TickAfterFields,
    TickAfterFirst,
    TickLeftOut,
    DeadlineBeforeDefault,
    DeadlineCut,
    DeadlineLowered,
    UnfinishedTaskNotCounted,
    UnfinishedTaskDropped,
    LargerByteForDated,
    // About kinds of recordings, in the reader and in the writer; the smaller one
    // is that of 253, and the larger one that of 254.
    SmallerByRoom,
    LargerBySmaller,
    DatedBySmaller,
    SmallerSetsOfFour,
    LargerSetsOfTwo,
    DatedSetsOfTwo,
    DatedByTenThousand,
    LargerBySixThousand,
    DatedAsLarger,
    LargerAsDated,
    SmallerRefused,
    LargerRefused,
    DatedRefused,
    KindsSwapped,
    UnknownAsSmaller,
    UnknownAsLarger,
    UnknownAsDated,
    AllAsSmaller,
    NextKindTaken,
    KindCut,
    // In the reader of recordings.
    FirstByteOptional,
    FirstByteAtOne,
    TaskCountAtZero,
    StartHighByteFirst,
    TwentyBeforeNine,
    RefusedEffectKept,
    EighteenBeforeFifteen,
    PlaceInsideEvent,
    PlaceInsideLink,
    PlaceInsideCount,
    PlacePastExtra,
    SeventeenNotGiven,
    ArrivalEventsCounted,
    WideArrivalsNotCounted,
    LinkFaultsFalling,
    RestBeforeKind,
    ListCleared,
    EarlyTableKept,
    RestFromTheLeft,
    // In the judgement of a table.
    LinksBeforeTasks,
    CountsCutToBytes,
    LeastOfAllLinks,
    PastCountsKept,
    TwentyByLowByte,
    // In the judgement of a saved state, and of a table.
    Unsound(Clause),
    TwelveBeforeNineteen,
    NoMarkAfterSecond,
    MarkAtEachPresent,
    SeenPastCounts,
    MarkPastCounts,
    // About self links: in the rules of a table,
    SelfCountedBehind,
    SelfAsNinth,
    SelfDirectAccepted,
    SelfDirectSeven,
    SelfDelayedRefused,
    SelfUnknownKindFive,
    SelfTwice,
    // in the engine,
    SelfProtected,
    SelfAsBehind,
    SelfAtNewest,
    SelfSetFirst,
    SelfNotSet,
    SelfMarkBeforeArrival,
    SelfFreedAtFinish,
    SelfMarkGoneAtFinish,
    SelfReadsPrevious,
    // and in the judgement of a saved state.
    SelfRoom,
    SelfIdleAbsent,
    SelfPreviousAsked,
    NotAskedOfSelf(Clause),
    // In the writer of recordings: its counts and limits,
    NoTaskWritten,
    OneTaskMore,
    OneLinkMore,
    OneEventMore,
    OneEventLess,
    UnfinishedLinkNotCounted,
    UnfinishedLinkDropped,
    UnfinishedEventNotCounted,
    UnfinishedEventDropped,
    UnknownEventNotCounted,
    UnknownEventDropped,
    CountedPastUnknown,
    // the order of what it tries,
    TasksBeforeKind,
    EventCountBeforeLinks,
    RoomFirst,
    RoomBeforeEvents,
    // the places,
    KindAtOne,
    PlaceWithoutEventCount,
    PlaceWithoutFirstByte,
    PlaceOfNumber,
    PlaceOfRoom,
    PlaceOfMissing,
    WrittenIsRoom,
    // numbers that a field can't hold, or that are no kind,
    WriterCut,
    ReaderCut,
    LinkKindCut,
    EventKindCut,
    SetCut,
    SetOfSixteenCut,
    TaskCut,
    LinkCut,
    StartCut,
    StartOptional,
    KindZeroAsOne,
    AnyKindDelayed,
    // the rules of links and events,
    Untried(u8),
    // the bytes,
    FirstByteLeftOut,
    SmallerByteAlways,
    StartLeftOut,
    StartBeforeEnds,
    LinkFieldsSwapped,
    FinishFieldsSwapped,
    DefaultHighByteFirst,
    ValueHighByteFirst,
    SetHighByteFirst,
    EventCountHighByteFirst,
    LinkCountOneLess,
    EventCountOneLess,
    KindFromZero,
    // and the buffer.
    BytePastEnd,
    BufferCleared,
    ShortBufferFilled,
    TouchedOnRefusal,
    ExactRoomRefused,
    OneShortWritten,
}

/// The errors about arrivals, marks and start values, which both recordings
/// and saved states must expose.
const OF_START_VALUES: [Flaw; 15] = [
    Flaw::DefaultForStart,
    Flaw::StartBySeen,
    Flaw::StartAfterSecond,
    Flaw::OneArrivalEnough,
    Flaw::MarkByReader,
    Flaw::MarkBeforeWriters,
    Flaw::MarkAtDirect,
    Flaw::MarkStays,
    Flaw::MarkGoneAtStart,
    Flaw::MarkGoneBySecond,
    Flaw::MarkKeptAtFinish,
    Flaw::MarkGoneAtFinish,
    Flaw::SeenAtStart,
    Flaw::SeenAtFinish,
    Flaw::SeenPastTwo,
];

/// The errors about self links in the rules of a table.
const OF_SELF_LINK_RULES: [Flaw; 7] = [
    Flaw::SelfCountedBehind,
    Flaw::SelfAsNinth,
    Flaw::SelfDirectAccepted,
    Flaw::SelfDirectSeven,
    Flaw::SelfDelayedRefused,
    Flaw::SelfUnknownKindFive,
    Flaw::SelfTwice,
];

/// The errors about self links in the engine, which both recordings and saved
/// states must expose.
const OF_SELF_LINKS: [Flaw; 8] = [
    Flaw::SelfProtected,
    Flaw::SelfAsBehind,
    Flaw::SelfAtNewest,
    Flaw::SelfSetFirst,
    Flaw::SelfNotSet,
    Flaw::SelfMarkBeforeArrival,
    Flaw::SelfFreedAtFinish,
    Flaw::SelfMarkGoneAtFinish,
];

/// The errors about self links that saved states alone can expose: in those of
/// a recording each points to `previous`, and all are sound.
const OF_SAVED_SELF_LINKS: [Flaw; 9] = [
    Flaw::SelfReadsPrevious,
    Flaw::SelfRoom,
    Flaw::SelfIdleAbsent,
    Flaw::SelfPreviousAsked,
    Flaw::NotAskedOfSelf(Clause::Pointer),
    Flaw::NotAskedOfSelf(Clause::ActiveReaderWithout),
    Flaw::NotAskedOfSelf(Clause::Mark),
    Flaw::NotAskedOfSelf(Clause::MarkWithoutPointer),
    Flaw::NotAskedOfSelf(Clause::MarkMissing),
];

/// The errors about the last task and link in the engine, which both recordings
/// and saved states must expose.
const OF_ENDS: [Flaw; 11] = [
    Flaw::LastTaskRefused,
    Flaw::LastTaskNotMoved,
    Flaw::LastTaskNotPointed,
    Flaw::LastTaskNotWaiting,
    Flaw::LastTaskNotFreed,
    Flaw::LastLinkRefused,
    Flaw::LastLinkNotSet,
    Flaw::LastLinkNotFreed,
    Flaw::FullSetWraps,
    Flaw::WideSetCut,
    Flaw::OnlySixteenBlock,
];

/// Those in a fresh state, which both recordings and tables must expose.
const OF_FRESH_ENDS: [Flaw; 2] = [Flaw::LastTaskNotFilled, Flaw::LastLinkLeftOut];

/// The errors about kinds of recordings, which both recordings and handovers must
/// expose.
const OF_KINDS: [Flaw; 19] = [
    Flaw::SmallerByRoom,
    Flaw::LargerBySmaller,
    Flaw::DatedBySmaller,
    Flaw::SmallerSetsOfFour,
    Flaw::LargerSetsOfTwo,
    Flaw::DatedSetsOfTwo,
    Flaw::DatedByTenThousand,
    Flaw::LargerBySixThousand,
    Flaw::DatedAsLarger,
    Flaw::LargerAsDated,
    Flaw::SmallerRefused,
    Flaw::LargerRefused,
    Flaw::DatedRefused,
    Flaw::KindsSwapped,
    Flaw::UnknownAsSmaller,
    Flaw::UnknownAsLarger,
    Flaw::UnknownAsDated,
    Flaw::AllAsSmaller,
    Flaw::NextKindTaken,
];

/// The errors about the order of tasks in the rules of a table, which recordings,
/// tables, saved states and handovers must expose.
const OF_ORDER_RULES: [Flaw; 4] = [Flaw::LinksByTable, Flaw::SevenByTable, Flaw::NineByTable, Flaw::AheadFromTheEnd];

/// The errors about ticks and deadlines in the judgement of an event, which
/// recordings, saved states and handovers must expose. That 22 comes before 21 can
/// not show: no tick is past the limit and below the last one.
const OF_TICKS: [Flaw; 17] = [
    Flaw::TiesByTable,
    Flaw::TiesFromTheEnd,
    Flaw::OrderByArrival,
    Flaw::SixteenByTasks,
    Flaw::SixteenByTable,
    Flaw::SameTickRefused,
    Flaw::OneBelowAccepted,
    Flaw::LimitRefused,
    Flaw::PastLimitAccepted,
    Flaw::AtDeadlineRefused,
    Flaw::OneLateAccepted,
    Flaw::LateRunRefused,
    Flaw::TickBeforeTwelve,
    Flaw::TickAfterPhases,
    Flaw::TickLast,
    Flaw::LateBeforeFifteen,
    Flaw::LateBeforeSixteen,
];

/// Those in what an event does, which both recordings and saved states must
/// expose.
const OF_JOBS: [Flaw; 8] = [
    Flaw::ProtectedByTable,
    Flaw::FreedByTable,
    Flaw::LastByArrivals,
    Flaw::LastNotByReads,
    Flaw::LastByRefused,
    Flaw::SinceKept,
    Flaw::SinceNotSet,
    Flaw::SinceAtStart,
];

/// Those that saved states alone can expose.
const OF_SAVED_TIMES: [Flaw; 9] = [
    Flaw::SumIn32Bits,
    Flaw::PositionsByTable,
    Flaw::IdleByTable,
    Flaw::SincePastAsked,
    Flaw::DeadlinePastAsked,
    Flaw::DeadlineOfTwoBytes,
    Flaw::LastAboveArrivals,
    Flaw::WithoutTickAccepted,
    Flaw::WithTickAccepted,
];

/// Those in when a relative deadline is asked for, which recordings, tables and
/// handovers must expose.
const OF_TWENTY_FOUR: [Flaw; 2] = [Flaw::TwentyFourAfterThree, Flaw::TwentyFourAfterLinks];

/// Those in the bytes that both recordings and handovers must expose.
const OF_DATED_BYTES: [Flaw; 4] =
    [Flaw::TickHighByteFirst, Flaw::DeadlineHighByteFirst, Flaw::DeadlineInItsField, Flaw::NoDeadlineTwo];

/// The errors the corpus of whole recordings must expose.
pub fn in_recordings() -> Vec<Flaw> {
    let of_self_links = OF_SELF_LINK_RULES.iter().chain(&OF_SELF_LINKS);
    let of_ends = OF_ENDS.iter().chain(&OF_FRESH_ENDS);
    let of_times = OF_ORDER_RULES.iter().chain(&OF_TICKS).chain(&OF_JOBS).chain(&OF_TWENTY_FOUR).chain(&OF_DATED_BYTES);
    let all = IN_RECORDINGS.iter().chain(&OF_START_VALUES).chain(of_self_links).chain(of_ends).chain(&OF_KINDS);
    all.chain(of_times).chain(&[Flaw::EarlyPolicyKept]).copied().collect()
}

const IN_RECORDINGS: [Flaw; 34] = [
    Flaw::PointersAtStart,
    Flaw::ReadersFirst,
    Flaw::FreedAtStart,
    Flaw::PreviousNotSearched,
    Flaw::OnlyRunningProtected,
    Flaw::HighestFree,
    Flaw::KeptAtFinish,
    Flaw::AnyoneMayRun,
    Flaw::WrittenToPrevious,
    Flaw::DelayedAsDirect,
    Flaw::ThirteenBeforeTwelve,
    Flaw::RefusedEffectKept,
    Flaw::EighteenBeforeFifteen,
    Flaw::PlaceInsideEvent,
    Flaw::PlaceInsideLink,
    Flaw::PlaceInsideCount,
    Flaw::PlacePastExtra,
    Flaw::SeventeenNotGiven,
    Flaw::ArrivalEventsCounted,
    Flaw::AllFreedAtFinish,
    Flaw::AheadProtectedToo,
    Flaw::OnlyRunningBlock,
    Flaw::SixteenFirst,
    Flaw::LinkFaultsFalling,
    Flaw::RestBeforeKind,
    Flaw::ListCleared,
    Flaw::EarlyTableKept,
    Flaw::RestFromTheLeft,
    Flaw::WideArrivalsNotCounted,
    Flaw::FirstByteOptional,
    Flaw::FirstByteAtOne,
    Flaw::TaskCountAtZero,
    Flaw::StartHighByteFirst,
    Flaw::TwentyBeforeNine,
];

/// The errors the tables must expose.
pub fn in_tables() -> Vec<Flaw> {
    let mut flaws = vec![
        Flaw::LinkFaultsFalling,
        Flaw::EarlyTableKept,
        Flaw::LinksBeforeTasks,
        Flaw::CountsCutToBytes,
        Flaw::LeastOfAllLinks,
        Flaw::PastCountsKept,
        Flaw::TwentyBeforeNine,
        Flaw::TwentyByLowByte,
        Flaw::StatesBySmaller,
    ];
    flaws.extend(OF_FRESH_ENDS);
    flaws.extend(OF_SELF_LINK_RULES);
    flaws.extend(OF_ORDER_RULES);
    flaws.extend([Flaw::PolicyNotSet, Flaw::EarlyPolicyKept, Flaw::DeadlinesPastKept, Flaw::DeadlinePastAsked]);
    flaws.extend(OF_TWENTY_FOUR);
    flaws.push(Flaw::DeadlineHighByteFirst);
    let table_rules = CLAUSES.iter().filter(|clause| clause.table_refusal().is_some());
    flaws.extend(table_rules.map(|clause| Flaw::Unsound(*clause)));
    flaws
}

/// The errors the corpus of saved states must expose.
pub fn in_saved_states() -> Vec<Flaw> {
    let mut flaws: Vec<Flaw> = IN_RECORDINGS[..11].to_vec();
    flaws.extend([Flaw::AllFreedAtFinish, Flaw::AheadProtectedToo, Flaw::OnlyRunningBlock, Flaw::SixteenFirst]);
    flaws.extend(OF_START_VALUES);
    flaws.extend([Flaw::TwelveBeforeNineteen, Flaw::TwentyByLowByte]);
    flaws.extend([Flaw::NoMarkAfterSecond, Flaw::MarkAtEachPresent, Flaw::SeenPastCounts, Flaw::MarkPastCounts]);
    flaws.extend(OF_SELF_LINKS);
    flaws.extend(OF_SAVED_SELF_LINKS);
    flaws.extend(OF_ENDS);
    flaws.extend([Flaw::LastTaskNotAsked, Flaw::LastLinkNotAsked, Flaw::StatesBySmaller]);
    flaws.extend(OF_ORDER_RULES);
    flaws.extend(OF_TICKS);
    flaws.extend(OF_JOBS);
    flaws.extend(OF_SAVED_TIMES);
    // Which rule a table breaks does not show: each is 19.
    let one_for_another = [Flaw::SelfDirectSeven, Flaw::SelfUnknownKindFive];
    flaws.extend(OF_SELF_LINK_RULES.iter().filter(|flaw| !one_for_another.contains(flaw)));
    flaws.extend(CLAUSES.iter().map(|clause| Flaw::Unsound(*clause)));
    flaws
}

/// The errors the handovers must expose.
#[rustfmt::skip]
pub fn in_handovers() -> Vec<Flaw> {
    use Flaw::*;
    let mut flaws = vec![
        NoTaskWritten, OneTaskMore, OneLinkMore, OneEventMore, OneEventLess, CountsCutToBytes,
        UnfinishedLinkNotCounted, UnfinishedLinkDropped, UnfinishedEventNotCounted, UnfinishedEventDropped,
        UnknownEventNotCounted, UnknownEventDropped, CountedPastUnknown,
        KindCut, TasksBeforeKind, KindAtOne, SmallerByteAlways,
        LastTaskRefused, LastLinkRefused, FullSetWraps, WideSetCut,
        EventCountBeforeLinks, RoomFirst, RoomBeforeEvents, RestBeforeKind, LinkFaultsFalling, ThirteenBeforeTwelve,
        SixteenFirst, TwentyBeforeNine, TwentyByLowByte,
        PlaceInsideLink, PlaceInsideEvent, PlaceInsideCount, PlaceWithoutEventCount, PlaceWithoutFirstByte,
        PlaceOfNumber, PlaceOfRoom, PlaceOfMissing, WrittenIsRoom,
        WriterCut, ReaderCut, LinkKindCut, EventKindCut, SetCut, SetOfSixteenCut, TaskCut, LinkCut, KindZeroAsOne,
        AnyKindDelayed, StartCut, StartOptional,
        FirstByteLeftOut, StartLeftOut, StartBeforeEnds, StartHighByteFirst,
        LinkFieldsSwapped, FinishFieldsSwapped, DefaultHighByteFirst, ValueHighByteFirst, SetHighByteFirst,
        EventCountHighByteFirst, LinkCountOneLess, EventCountOneLess, KindFromZero,
        BytePastEnd, BufferCleared, ShortBufferFilled, TouchedOnRefusal, ExactRoomRefused, OneShortWritten,
    ];
    flaws.extend(OF_KINDS);
    flaws.extend(OF_SELF_LINK_RULES);
    flaws.extend(OF_ORDER_RULES);
    flaws.extend(OF_TICKS);
    flaws.extend(OF_TWENTY_FOUR);
    flaws.extend(OF_DATED_BYTES);
    flaws.extend([
        TickBeforeKind, TickAfterFields, TickAfterFirst, TickLeftOut, DeadlineBeforeDefault, DeadlineCut,
        DeadlineLowered, UnfinishedTaskNotCounted, UnfinishedTaskDropped, LargerByteForDated,
    ]);
    flaws.extend((4..=9).chain(12..=16).chain(20..=24).map(Untried));
    flaws
}

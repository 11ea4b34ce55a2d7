// wrong.rs: the switches that make a card wrong in one rule, and those of a service book, of a journal reader, of the journal page and
// of a planner.

macro_rules! switches {
    ($kind:ident, $all:ident: $($name:ident = $words:expr),* $(,)?) => {
        /// `No` is the right one; every other one breaks a single rule.
        #[derive(Clone, Copy, PartialEq, Eq, Hash, Debug, Default)]
        pub enum $kind {
            #[default]
            No,
            $($name),*
        }

        /// All wrong ones, with what is wrong in plain words.
        pub const $all: &[($kind, &str)] = &[$(($kind::$name, $words)),*];
    };
}

switches! {
    Wrong, ALL:
    TailOneAbove = "tail only one above the last committed one read",
    TailKept = "tail kept where none was read",
    NumbersReused = "numbers used again after recovery (both of the above)",
    TailUnchanged = "tail number unchanged by recovery, whatever was read",
    NumbersFromOne = "numbers from 1 again after recovery",
    CapMissing = "tail number after recovery without the cap",
    NoEscape = "no escape of the mark",
    FlagIgnored = "flag 1 not looked at when an image is read",
    NoNameForCommitted = "no name for a holder already committed",
    ValidityOneDeep = "validity one name deep",
    AllCommittedValid = "recovery takes all committed ones as valid",
    LastNumber = "the last number named of a core instead of the highest",
    FirstNumber = "the first number named of a core instead of the highest",
    OwnCoreLeftOut = "no number for the own core",
    FormatMasterZero = "0 in bytes 8-11 of FORMAT's master",
    RetireMasterZero = "0 in bytes 8-11 of RETIRE's master",
    RecoverMasterZero = "0 in bytes 8-11 of RECOVER's master",
    RecoverMasterKept = "RECOVER's master keeps 0 or 1 as it was",
    OtherWordTaken = "another word than 0 and 1 in the master taken",
    ZeroRefused = "a master that holds 0 refused with 8",
    ListsAlways = "lists read where the master holds 1",
    ListsInRunning = "lists read by CHECKPOINT and RETIRE",
    NumbersAlways = "numbers read where the master holds 0",
    LayoutForgotten = "numbers read where 0 stands, once recovery was cut",
    CoreBeyondUnread = "a number for a core not below C passed over",
    CoreBeyondNamed = "a number for a core not below C taken as a name",
    UnusedBytesRead = "no commit where bytes 20-23 are not zero",
    NarrowedFirst = "block numbers narrowed before the range is tested",
    NarrowedForRange = "the range on the low byte, a block twice on all four",
    StampAtOpen = "stamp given at open",
    StampAtCommit = "stamp given at commit",
    StampsGoOn = "stamps going on after recovery",
    No32 = "32 missing",
    No33 = "33 missing",
    Only33Committed = "33 only against committed ones (equivalent)",
    No29 = "29 missing: a second CLOSE replaces the closed one",
    RecoverHighestFirst = "recovery from the highest block to the lowest",
    NewestByOrder = "newest image by core and number instead of stamp",
    TieFirst = "equal stamps: the first instead of the last",
    TailsCoreByCore = "tails emptied core by core, one master store each",
    CutKeepsPlace = "a cut in recovery does not start it over",
    CutKeepsMemory = "memory not zeroed by a cut",
    WriterTakesRunning = "the writer takes a running holder's block",
    OnlyWriterNames = "running holder: only the writer's list names",
    OnlyHolderNames = "running holder: only the holder's list names",
    HolderKept = "a retired transaction still holds its blocks",
    NotLoaded = "image not loaded from home when taken",
    UpBeforeHome = "RECOVER reports up before its home stores",
    FirstRecordOnly = "stores the first record, afterwards only counts",
    InventedCount = "an invented store count (CLOSE counts too)",
    NothingChanges = "commands that change nothing",
    BlankAlways = "recovers a blank area always",
    StoreAlways30 = "STORE always 30",
    CheckpointAlways32 = "CHECKPOINT always 32",
    RetireAlways34 = "RETIRE always 34",
    CheckpointFromMemory = "home image from memory instead of the journal",
    RetiresAtOnce = "CHECKPOINT retires without its home stores",
    RetireNo32 = "RETIRE does not ask 32",
    RetireNo33 = "RETIRE does not ask 33",
    RetireNo34 = "RETIRE does not ask 34",
    OldCheckpoint = "CHECKPOINT stores the master where 35 is due",
    MasterWithLastHome = "the master stored with CHECKPOINT's last home store",
    No35 = "35 not asked: CHECKPOINT stores home once too often",
    StoreFromImages = "data stored from current images, not closed copies",
    NoWrap = "a record that does not wrap",
    No36 = "36 not asked",
    Four36 = "36 from four blocks on",
    Held36 = "36 for a block that the transaction holds too",
    Tied36 = "36 for a running holder's block too",
    Early36 = "36 before 25",
    Late36 = "36 after 26",
    Lamp36 = "36 of command 2 too",
    ReportNamesNone = "byte 9 takes a closed holder's block without naming it",
    No26OnOpen = "26 not tested for a WRITE that opens without a block",
    Only26Stored = "26 does not count a closed one not yet stored",
    NoSequence = "the one before not asked for: paper 01's rule",
    SequenceInRecoveryAlone = "the one before asked for in recovery alone",
    SequenceInRunningAlone = "the one before asked for in running alone",
    SequenceOneRound = "the one before asked for in one round alone",
    SequenceBelowTail = "the one before asked for below the tail too",
    OneAboveMet = "a name met one above those that count",
    FirstUnmetKept = "the first record that is not met still counts",
    CountsOnce = "the counts lowered in one round alone",
    StrictlyAbove = "the least block above the place instead of at or above it",
    StartNotAdvanced = "no step past a core cut short to the next core's records",
    LastOfFullUnread = "the last record of a full journal not read",
}

switches! {
    WrongReader, READERS:
    FieldsFirst = "2 before 1: fields out of range where no descriptor stands",
    RoomFirst = "3 before 2",
    CommitFirst = "4 before 3",
    OneLeftIsNone = "end 1 for one block left",
    NoneLeftUnasked = "'no block left' not asked for",
    LimitLast = "end 4 for a number above the limit",
    LowByte = "the range of blocks tested on the low byte",
    CoreBeyond = "a core not below C in range",
    UnusedRead = "end 4 where bytes 20-23 of numbers are not zero",
    OtherLayout = "the layout that the master does not tell",
}

switches! {
    WrongBook, BOOKS:
    ReportUnnoted = "a write of byte 9 not noted",
}

switches! {
    WrongPage, PAGES:
    NamesCounted = "the page counts names, not the cores named",
}

switches! {
    WrongPlanner, PLANNERS:
    ByCoreAndNumber = "the order by core and number",
    Bound = "the bound in place of the figure",
    DoneNotTakenOff = "work done not taken off",
    RunningLeftOut = "running ones left out",
    ValidAlone = "only valid ones counted",
    TiesReversed = "of equal stamps the higher core and number first",
}

/// Wrong in what request (c) of paper 02 asks for; their tapes stand in `sequence.rs`.
pub const SEQUENCE: [Wrong; 5] = [
    Wrong::NoSequence,
    Wrong::SequenceInRecoveryAlone,
    Wrong::SequenceInRunningAlone,
    Wrong::SequenceOneRound,
    Wrong::SequenceBelowTail,
];

/// Wrong in how records that were read are kept and counted; their disks stand in `runs.rs`.
pub const RUNS: [Wrong; 6] = [
    Wrong::OneAboveMet,
    Wrong::FirstUnmetKept,
    Wrong::CountsOnce,
    Wrong::StrictlyAbove,
    Wrong::StartNotAdvanced,
    Wrong::LastOfFullUnread,
];

/// Those that generated tapes catch. They hardly meet what the sequence changes, and the equivalent card is never caught.
pub fn caught_by_generated() -> impl Iterator<Item = &'static (Wrong, &'static str)> {
    ALL.iter().filter(|(wrong, _)| *wrong != Wrong::Only33Committed && !SEQUENCE.contains(wrong))
}

/// Those that runs tell apart. `TiesReversed` takes a card that no run made: in runs all stamps differ.
pub fn told_by_runs() -> impl Iterator<Item = &'static (WrongPlanner, &'static str)> {
    PLANNERS.iter().filter(|(wrong, _)| *wrong != WrongPlanner::TiesReversed)
}

pub fn words(wrong: Wrong) -> &'static str {
    ALL.iter().find(|(each, _)| *each == wrong).map_or("the right card", |(_, words)| words)
}

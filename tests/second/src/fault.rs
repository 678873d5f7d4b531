//! Ways in which the played programs can be made wrong, to see that a run notices each.

#[derive(Clone, Copy, PartialEq, Eq, Debug)]
pub enum Fault {
    None,
    /// Merging leaves the fences as they were.
    MergeKeepsFences,
    /// The first word of U is not counted.
    OpenedOffByOne,
    /// Update to the row's own value flips its bit.
    SameValueFlips,
    /// Insert answers FULL before BAD_VALUE.
    FullBeforeBadValue,
    /// A flip merges when U has T ones, also if the row's own bit is one of them.
    MergesWithoutNeed,
    /// A flip merges after it turned the bit over, when U has more than T ones.
    MergesLate,
    /// Pack fills the last short group with ones.
    FillsLastGroup,
    /// Writing a list leaves the unused words as they were.
    KeepsUnusedWords,
    /// A refused Load replaces the header by zeros.
    RefusedLoadKept,
    /// The whole check does not look at bits past R.
    IgnoresPastCapacity,
    /// A row in two values reads as the first of them.
    TwoValuesPass,
    /// Audit does not look at a value's last fence.
    AuditSkipsLastFence,
    /// Audit does not look at rows between n and R.
    AuditSkipsPastIssued,
    /// Audit does not look for a row in two values.
    AuditSkipsDoubleRows,
    /// Audit does not look at unused words.
    AuditSkipsUnused,
    /// Reading V may open more than G words.
    WalkUnbounded,
    /// A fill that counts 0 is passed over in reading.
    EmptyFillPasses,
    /// Query refuses an output that is just long enough.
    RoomOffByOne,
    /// Merge of an empty U writes nothing.
    EmptyMergeSkipped,
    /// Insert does not read row n.
    InsertDoesNotLook,
    /// Row n is taken for an issued one.
    RowPastLast,
    /// Update flips the old value before it checks the new one.
    WritesBeforeSecondCheck,
    /// Update and Delete check the value found before GONE: a deleted row is looked for in value 0.
    CheckBeforeGone,
    /// The whole check does not count the ones of U.
    UpdateOnesUnchecked,
    /// Unpack does not see two neighbouring fills of one kind.
    UnpackTakesSplitFills,
    /// Reading goes by a list's room and not by its length.
    ReadsPastLength,
    /// Insert reads row n in the value given alone.
    InsertLooksAtOneValue,
    /// A refused Insert issues its row all the same.
    RefusedInsertIssues,
    /// Load clears the word behind the last block.
    LoadWritesBeyond,
    /// Load does not look at bytes past R before it answers FULL.
    LoadSkipsBytesPast,
    /// Reading V does not ask that the fence's first group is not past the row's.
    FenceFirstUnchecked,
    /// Update to the row's own value makes the whole check.
    SameValueChecks,
    /// A flip that does not merge writes V anew too.
    FlipWritesValue,
    /// Insert checks all values whole.
    InsertChecksAll,
    /// The whole check asks that no row is past n.
    CheckSeesPastIssued,
    /// The whole check asks that the fences are right.
    CheckSeesFences,
    /// The whole check asks that unused words are zero.
    CheckSeesUnused,
    /// The printing program takes upper-case digits.
    PrintUpperCase,
    /// The printing program takes 4,001 rows.
    PrintTooManyRows,
    /// The printing program takes several newlines.
    PrintManyNewlines,
    /// The printing program lends 8,193 words.
    PrintMoreMemory,
}

use Fault::*;

/// Fault number N of the command line.
pub const FAULTS: [Fault; 42] = [
    None,
    MergeKeepsFences,
    OpenedOffByOne,
    SameValueFlips,
    FullBeforeBadValue,
    MergesWithoutNeed,
    MergesLate,
    FillsLastGroup,
    KeepsUnusedWords,
    RefusedLoadKept,
    IgnoresPastCapacity,
    TwoValuesPass,
    AuditSkipsLastFence,
    AuditSkipsPastIssued,
    AuditSkipsDoubleRows,
    AuditSkipsUnused,
    WalkUnbounded,
    EmptyFillPasses,
    RoomOffByOne,
    EmptyMergeSkipped,
    InsertDoesNotLook,
    RowPastLast,
    WritesBeforeSecondCheck,
    CheckBeforeGone,
    UpdateOnesUnchecked,
    UnpackTakesSplitFills,
    ReadsPastLength,
    InsertLooksAtOneValue,
    RefusedInsertIssues,
    LoadWritesBeyond,
    LoadSkipsBytesPast,
    FenceFirstUnchecked,
    SameValueChecks,
    FlipWritesValue,
    InsertChecksAll,
    CheckSeesPastIssued,
    CheckSeesFences,
    CheckSeesUnused,
    PrintUpperCase,
    PrintTooManyRows,
    PrintManyNewlines,
    PrintMoreMemory,
];

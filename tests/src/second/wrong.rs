//! Deliberate mistakes, each of which the tests must find.
//!
//! The switch travels with the case that was read, so that each rule can look
//! at it in one short line. `Wrong::Nothing` is the second implementation.

#[derive(Clone, Copy, Debug, Default, PartialEq, Eq)]
pub enum Wrong {
    #[default]
    Nothing,
    /// Acceptance looks at next numbers only along the chains.
    StrayNextUnseen,
    /// The encoder leaves out the last 6.
    DropsA6,
    /// All 5s stand after all 4s.
    FivesLast,
    /// A store with a guard is not taken as a copy.
    GuardedStoreIsNoCopy,
    /// Thread 1 gets block 0 when thread 0 has no lines.
    EmptyThreadPassedOver,
    /// An item is read from the latest copy, whatever its block.
    CopyFromEarlierBlock,
    /// A 6 looks at the last copy alone.
    NoWalkBack,
    /// Values are tested before block numbers.
    ValuesBeforeBlocks,
    /// The decoder hands on the variable of an input whose guard is false.
    FalseInputKept,
    /// The replayer goes on after a failed assume.
    GoesOnAfterAssume,
    /// A violation is the reply, whatever cuts the run off later.
    ViolatedThoughCutOff,
    /// Block lengths are added modulo 65,536.
    LengthsWrap,
    /// Lengths of what is read are tested before the room for what is written.
    LengthBeforeRoom,
    /// A run that refusal 14 ends still writes the items.
    WritesThoughRefused,
    /// Numbers beyond the result are set to 0.
    ClearsTheTail,
    /// The listing of a refused case has the place before the number.
    PlaceBeforeNumber,
    /// A listing that is one byte too long for its slice is refused, and still
    /// written as far as it goes.
    WritesThoughShort,
    /// A line is taken as not run by any block number over n.
    UnrunPastN,
    /// A 2 allows n at most.
    UnrunTooLate,
    /// A 3 asks a line that was not run for its thread.
    UnrunHasThread,
    /// A line may be run after one that was not.
    RunAfterUnrun,
    /// An assert that was not run has value 0.
    UnrunAssertBroken,
    /// A line that was not run has the value that it would have in block n.
    UnrunInLastBlock,
    /// A 5 is asked of a line that was not run, as of one in block n.
    DemandOfUnrun,
    /// An input that was not run is free, and the decoder hands its variable on.
    UnrunInputFree,
    /// The decoder counts lines that were not run into block n.
    UnrunCounted,
    /// Block lengths must add up to a thread's lines.
    NoThreadStops,
    /// Block lengths may add up to more than a thread's lines.
    MoreThanLines,
    /// Inputs that are not run are looked at before the run.
    StrayLeftFirst,
    /// Inputs that are not run may have any value.
    StrayLeftUnseen,
    /// Of such inputs the one with the lowest record number is named.
    StrayLeftByRecord,
    /// A lock by thread t puts t in the mutex, and an unlock looks for t.
    HolderIsThread,
    /// An unlock of a free mutex is taken as one by its holder.
    FreeIsOwn,
    /// An unlock by a stranger leaves the mutex as it is.
    StrangerFreesNot,
    /// An unlock by a stranger violates, though its guard is false.
    PassedUnlockViolates,
    /// An unlock by a stranger violates, though it was not run.
    UnrunUnlockViolates,
    /// The 7 looks at asserts alone.
    OnlyAssertsIn7,
    /// A zero assert is named, though a stranger unlocked before it.
    AssertNamedFirst,
    /// Of several lines that violate the last one is named.
    LastNamed,
    /// A line with a guard is not taken as a copy.
    GuardedLineNotTaken,
    /// Lines of this kind are taken as visible where they are not, and the other
    /// way round.
    SeenOtherwise(u16),
    /// A thread's first line has an 8 as well; the line before it is 0, and block 0.
    EightOfFirst,
    /// A visible line has an 8 as well.
    EightOfVisible,
    /// An 8 has the line after in the place of the line before.
    LineAfter,
    /// An 8 has the record before, by number, in the place of the line before.
    RecordBefore,
    /// An 8 has the thread's first line in the place of the line before.
    FirstStays,
    /// An 8 has the latest visible line in the place of the line before.
    VisibleBefore,
    /// A line with a guard has no 8.
    GuardedMayMove,
    /// An 8 does not allow n + 1.
    NoStopAtInvisible,
    /// The 8 of a line stands before its 3.
    EightBefore3,
    /// The 8 of a line stands behind its 1 or 2.
    EightLast,
    /// The replayer refuses a schedule that does not keep the rule of the 8s.
    LateRefused,
    /// The decoder counts a line that has an 8 into the block of the line before it.
    CountedWithBefore,
    /// Filled block values come one block late.
    BlockValuesLate,
    /// An input that was not run is filled with its value in the schedule, and no
    /// refusal 14 meets it.
    UnrunInputCopied,
    /// An input with a false guard is filled with its value in the schedule.
    PassedInputCopied,
    /// A line with a false guard is filled with 0.
    PassedLine0,
    /// A filled assert or assume has the value of its expression.
    TestHasItsExpression,
    /// Lines that were not run are filled with block number n.
    UnrunInBlockN,
    /// Lines that were not run are filled with value 0, whatever their kind.
    UnrunFilledWith0,
    /// A clean run is filled.
    CleanIsFilled,
    /// A run that is cut off is filled.
    CutOffIsFilled,
    /// Refusal 16 comes before the 14 of an input that was not run.
    StrayAfterClean,
    /// Refusal 17 comes before 16.
    LateBeforeClean,
    /// The place of 17 is the line before the late one.
    LineBeforeNamed,
    /// The place of 17 is the late line that is run first.
    LateByRun,
    /// The place of 17 is the late line with the lowest record number.
    LateByRecord,
    /// A line that was not run is late.
    UnrunLate,
    /// A visible line is late.
    VisibleLate,
    /// An assignment is written before its run is known to violate.
    WrittenBeforeKnown,
    /// A name keeps the first line that has it as target.
    FirstLineStays,
    /// Mutexes stand where the globals begin, whatever G is.
    MutexAmongGlobals,
    /// A line is taken before its copies are read.
    TakenBeforeRead,
    /// An assert is taken as a copy of local 0.
    AssertTaken,
    /// A line that is refused is taken all the same.
    HeldThoughRefused,
    /// A record's fields are looked at before its number.
    FieldsBeforeNumber,
    /// A next number that no record can have is refused.
    NextLookedAt,
    /// Operand 16 has the copy of the name that stands at 16.
    ConstantHasCopy,
    /// The b that op 0 does not use has a copy.
    UnusedOperandHasCopy,
    /// A load has the copy of the local with the global's number.
    LoadOfLocal,
    /// Columns of a source are counted in bytes.
    ColumnsInBytes,
    /// A local that has a new name is still called by its plain one.
    PlainNameStays,
    /// A name may have 33 characters.
    LongName,
    /// Two numbers in an expression may differ; the second is the constant.
    TwoNumbers,
    /// A line's record is the largest before it and 1.
    RecordAfterLargest,
    /// The printed source counts a thread's records from 1.
    RecordAtThread,
    /// The text of the constraints does not end with a line's end.
    NoLastLineEnd,
    /// A seventh source is taken.
    SeventhSource,
    /// Sources stand by thread and chain, and not by record.
    SourcesByThread,
    /// A term is linked to a constant, too.
    LinksOfConstants,
    /// The last own block of a reading line is not asked for.
    LastBlockElse,
    /// The block of the reading line stands before the copy's.
    ReaderBeforeCopy,
    /// The facts of a comparison take two sources in one order alone.
    FactsOnce,
    /// The last part of a 7 stands without a `false`.
    NoFalseInnermost,
    /// Op 6 is spelled as less or equal.
    LessOrEqual,
    /// The text has 0 for every item before block 0.
    InitialValueForgotten,
    /// The text leaves the value of a line open where its guard is false.
    OldValueOpen,
    /// In the text's 8 the line before stands before the line.
    LineBeforeFirst,
    /// The text's 8 asks that the block number is at most that of the line before.
    AtMostInText,
    /// The text's 7 looks for t in the mutex that thread t unlocks.
    ThreadAskedFor,
    /// The text's 7 does not ask whether an unlock was run.
    UnrunPartHolds,
    /// In the text's 7 all unlocks stand behind all asserts.
    UnlocksBehindAsserts,
}

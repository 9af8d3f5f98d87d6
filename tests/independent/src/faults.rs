//! Small faults that can be switched on, one at a time. The comparison has to notice each; nothing else uses them.

macro_rules! faults {
    (
        $list:ident: $($name:ident,)*;
        $tables:ident: $($table:ident,)*;
        $ranges:ident: $($range:ident,)*;
        $readers:ident: $($reader:ident,)*;
        $tallies:ident: $($tally:ident,)*
    ) => {
        #[derive(Clone, Copy, Debug, PartialEq, Eq)]
        pub enum Fault { $($name,)* $($table,)* $($range,)* $($reader,)* $($tally,)* }
        /// Faults of the module and its replay.
        pub const $list: &[Fault] = &[$(Fault::$name),*];
        /// What the module would do by a wrong table of byte classes or of names.
        pub const $tables: &[Fault] = &[$(Fault::$table),*];
        /// Faults of the module and its replay where there is a coarse range, or where none is.
        pub const $ranges: &[Fault] = &[$(Fault::$range),*];
        /// Faults of the reader of answer lines.
        pub const $readers: &[Fault] = &[$(Fault::$reader),*];
        /// Faults of the tally, where it follows a typed tare, the unit and the range in force.
        pub const $tallies: &[Fault] = &[$(Fault::$tally),*];
    };
}

faults! {
    OF_THE_MODULE:
    // weights
    TieTowardsZero, TieToEven, RoundedTowardsZero, RoundedTwice, StepIgnored, MinusZeroPrinted, LeftAligned,
    OunceCutShort, GrainCutShort, TroyOunceCutShort, PennyweightCutShort, KilogramTenfold, PoundCutShort, UnitTextOfGrams,
    PlacesOfGrams,
    // typed numbers
    TypedSevenDecimals, TypedElevenCharacters, TypedBarePoint, TypedUnitIgnored, TypedTwoSpaces, ThresholdTieDownwards,
    ThresholdCut,
    // typed tares
    TypedRoundedOnce, TypedMicrogramFirst, TypedFirstTieDownwards, TypedFirstCut, TypedStepIgnored, TypedShortUnrounded,
    TypedLastPlaceFirst, TypedSecondTieDownwards, TypedSecondCut, TypedAboveCapacityTaken, TypedLimitBeforeBoth,
    TypedLimitBeforeSecond, TypedHeldToCapacity, TypedCutTo32Bits, TypedZeroRefused, ThresholdRoundedToStep,
    // the profile
    MarginUnchecked, ZeroingRangeUnchecked, PatienceOfThousandOne, PatienceOfZero, CapacityOverLimit, CapacityOfZero,
    StepOfThree, SevenDecimals, StepBelowMicrogram, OnlyCapacityFits, NoNetNeedsToFit, QuoteInText, ControlInText,
    OnlyInForceFits, OnlyInForceScaled, NewUnitsSevenDecimals, NewUnitsStepOfThree,
    // receiving
    Line63, Line65, FaultPastLimitForgotten, FaultForgotten, FaultyCrTaken, FaultyLfTaken, CrAloneEndsLine, LfAloneEndsLine,
    CrLost, SyntaxBeforeTransmission, ControlTaken, PrefixTaken, LowerCaseTaken, AnythingAfterName, WaitingBeforeSyntax,
    WaitingBeforeLogical, WaitingBeforeReset, ParametersBeforeWaiting, OwnIdentification, LineKeptAfterRefusal,
    // waiting
    TimeoutEarly, TimeoutLate, LatestCounted, UnstableJudged, TareStoredAtCommand, TareKeptAfterTimeout, ZeroKeptAfterTimeout,
    // repetition
    RepeatedThroughS, RepeatedThroughSi, RepetitionEndedWhileWaiting, RepetitionEndedByT, OverloadStartsNone,
    StartedWithoutSample, RepeatedWhileWaiting,
    // weighing, zeroing, taring
    FirstSampleKept, CapacityOffByOne, MarginOffByOne, CapacityByNet, ZeroRangeOffByOne, LowerZeroRangeOffByOne, ZeroRangeByGross,
    ZeroingKeepsTare, ZeroingByGross, TareBelowZeroTaken, TareAboveCapacityTaken, TareByNet, PrintedTareSubtracted,
    TareAnswersNet, QueryClearsTare,
    // reset and the rest
    ResetKeepsTare, ResetKeepsWaiting, ResetKeepsRepetition, ResetForgetsSample, ResetClearsZero, ResetUnanswered,
    TextOf21Shown, QuoteShown, LastListedB, LevelOneComplete, TextsSwapped,
    // the display
    DwKeepsText, ResetKeepsText, PowerOnKeepsText, TextNotShown, EmptyTextShowsWeight, TextCutShort, HighBytesReplaced,
    WrongTextShowsWeight, BusyTextShown, BusyDwShowsWeight, LogicalDwShowsWeight, ErrorShowsWeight, SampleShowsWeight,
    TimeoutShowsWeight, ReadingShowsWeight, ZeroingShowsWeight, TaringShowsWeight, TypedTareShowsWeight, ListShowsWeight,
    RefusalOneShowsWeight, RefusalTwoShowsWeight, RefusalThreeShowsWeight, RefusedOnShowsWeight,
    // the line held
    OverEmptiesLine, FaultyByteLeftOut, NothingHeldAfterFault, FaultSetsOver, FaultHidesOver, ControlSetsOver, CrHeldAtOnce,
    BytesKept, OverKept, FaultKept, CrKept, PowerOnKeepsLine,
    // what else is kept
    CountNotReset, BusyLineCounted, BusyStartsOver, BusyTakesOver, PowerOnKeepsWait, BusySirStarts, LogicalSirStarts,
    ErrorEndsRepetition, TimeoutEndsRepetition, OverloadEndsRepetition, PowerOnKeepsRepetition, OverloadCutDown,
    WaitingKeepsSample, TimeoutForgetsSample, ResetMarksUnstable, PowerOnKeepsSample,
    // send on change: which lines start and end it
    SrUnlisted, SrOwnIdentification, SrNeedsSample, SrAnswersUnstable, SrStartedByOverload, SrStartedByTimeout, SrOutlivesS,
    SrOutlivesSi, SrOutlivesSir, SrOutlivesSr, SrOutlivesReset, SirOutlivesSr, SirKeptBySr, BusySrEndsOld, WrongSrEndsOld,
    LogicalSiEndsSr,
    // send on change: the last net, what is owed, excursions
    SrRebasedByTaring, SrRebasedByTypedTare, SrRebasedByZeroing, PrintedNetKept, FirstNetForgotten, DynamicNetKept,
    OwedDroppedWhenBack, OwedWaitsForChange, OwedLostInExcursion, NewSrKeepsOwed, SecondDynamicSent, StableHeldBack,
    OutOfRangeRepeated, OutOfRangeUnsent, UnstableOutUnsent, OtherSideSentToo, SilentSampleStaysOut, BackInRangeSent,
    ExcursionEndsSr, WaitingSampleMovesSr, SrSentWhileWaiting, SentThoughRefused,
    // send on change: the threshold
    SetThresholdExclusive, EighthExclusive, StepsExclusive, EighthForgotten, StepsForgotten, EighthRoundedDown, StepsRoundedDown,
    EighthOfPresentNet, ThirtyLastPlaces, ChangeBySize, PrintedChangeCompared, SetThresholdHasLeast, ThresholdFixedAtStart,
    ThresholdKeptFromOlder, ThresholdOfZeroTaken, ThresholdAboveCapacityTaken, LoneSpaceTaken, LastNetUnjudged,
    LastNetJudgedByMargin, ThresholdUnjudged, WaitingThresholdUnjudged,
    // units by command: what a line has to be
    UnitByIndex, MicrogramsTakenForCarats, TwentyTakenForPounds, OunceCodesSwapped, NewUnitsRefused, OtherCodeSetsGrams,
    CodeInOneByte, CodeIn32Bits, CodePadded, CodeSigned, CodeAfterTwoSpaces, CodeBeforeSpace, HostPadded, HostLeftOut,
    DisplayUnitSet, LoneSpaceQueriesUnit, LoneHostQueriesUnit, UnitTakesNoParameters, UnitAgainRefused, UnitSetWhileWaiting,
    UnitQueriedWhileWaiting, WrongUnitBeforeWaiting, BusyUnitSet, UnitNeedsSample, WrongUnitSetsGrams,
    // units by command: what it answers, sets and leaves
    UnitToldByIndex, UnitToldAsDisplays, GramsTold, CodeToldPadded, UnitToldB, UnitQuerySetsGrams, UnitNotSet, UnitSendsReading,
    UnitSetInShortRoom, ResetSetsGrams, PowerOnKeepsUnit, UnitClearsTare, UnitClearsZero, UnitConvertsTare, UnitRoundsTare,
    UnitConvertsThreshold, UnitConvertsLastNet, UnitDropsOwed, UnitEndsSir, UnitEndsSr, SrRebasedByUnit, UnitShowsWeight,
    UnitListedAtLevelOne, UnitUnlisted, TiListedLast,
    // units by command: who takes the unit in force
    TypedInGrams, TypedToGramStep, ThresholdInGrams, ThirtyStepsOfGrams, ThirtyStepsOfStart,
    // refusals
    BytePastAnswerWritten, RefusalWritesBuffer,
    RefusalTwoFirst, RefusalThreeFirst, RoomOffByOne, ShortRoomTakes, ZeroUnjudged, TareUnjudged, CountUnjudged,
    RefusedOnForgetsState,
    // a whole buffer: its refusals and its marks
    FiveBeforeOne, FiveBeforeTwo, LongBufferTaken, LongBufferCut, FullBufferRefused, ExtraMarkIgnored, MissingMarkGood,
    BufferProfileUntested, BufferStateUntested, EmptyBufferUntested, RefusedBufferTaken, RefusalFiveShowsWeight,
    MarksBeyondOneGood, EvenMarksGood, MarksAbove127Good, MarksShifted, FaultSpreads,
    // a whole buffer: the room that its answers share, and where it stops
    RoomNotShared, RoomCutTo256, BufferRoomOffByOne, FullRoomStops, EmptyAnswerNeedsRoom, StopsAtFirstAnswer, AnswersAtFront,
    UnfitAnswerDropped, UnfitByteSkipped, UnfitByteTaken, StoppingByteCounted, UntakenStateKept, StoppedStateRolledBack,
    StoppedAnswersDropped, UnfitAnswerCut, UnfitAnswerCounted, StoppedBufferRefused, FirstByteRefused, StopUnsaid,
    // a whole buffer: what goes on from call to call, and what is told
    BufferStartsLine, BufferEndsLine, CrForgottenBetween, CountInOneByte, TakenInOneByte,
    ;
    OF_THE_TABLES:
    // classes of single bytes: 127; 128 to 255, wholly and by their low seven bits; 31, 32, 9, 46, 47, 58, 57, 34, 96
    DeleteTakenForControl, HighBytesTakenForControl, ClassesBySevenBits, LastControlTakenForText, SpaceTakenForText,
    TabTakenForSpace, PointTakenForText, SlashTakenForDigit, ColonTakenForDigit, NineTakenForText, QuoteTakenForText,
    GraveTakenForAtSign,
    // names
    LastZeroIgnored, PartOfNameTaken, FourthByteIgnored, NamesExchanged, FirstNameMissed, LastNameMissed, ListedInByteOrder,
    ;
    OF_THE_RANGES:
    // which weight decides
    CoarseAtLimit, CoarseByNet, CoarseByLoad, CoarseByTare, CoarseByGross, CoarseBySize, CoarseByPrinted, CoarseByPrintedCoarse,
    NeverCoarse, CoarseThroughout, UnstableFine, QueryFine, TaringFine, CoarseInGramsOnly, CoarseHeld, AnswerByTypedNumber,
    // rounding and text
    CoarseFineFirst, CoarseLastDigitDropped, CoarseStepOfOne, CoarseTieTowardsZero, CoarseRoundedDown, CoarseMinusZeroPrinted,
    CoarsePointMisplaced, CoarseSpaceBefore, CoarseZeroPrinted, CoarseFieldOneShort, CoarseLeftAligned,
    // typed numbers, SR
    TypedNeverCoarse, TypedAlwaysCoarse, TypedAtLimitCoarse, TypedComparedInSteps, TypedComparedInCoarseSteps,
    TypedComparedInMicrograms, TypedStepByGross, TypedStepByFormerTare, TypedCoarseWithoutRange, TypedFineFirst,
    TypedCoarseTieDownwards, TypedCoarseCut, TypedCoarseStepOfOne, ThresholdRoundedCoarse, SrCountsCoarseSteps, CoarseNetKept,
    // the profile and its lines in a script
    LimitAboveCapacityTaken, LimitUntestedInCalls, LimitOfZeroRefused, LimitAtCapacityRefused, OneDecimalCoarse, CoarseDecimalsUntested,
    DecimalsWithoutRange, CoarseFitUntested, CoarseFitWithoutRange, OnlyCapacityFitsCoarse, CoarseFitsTen, OnlyInForceCoarse,
    ProfileKeepsLimit, UnitResetsLimit, TextResetsLimit,
    ;
    OF_THE_READER:
    ReadLeadingZero, ReadMinusZero, ReadSevenDecimals, ReadBarePoint, ReadNegativeTare, ReadLeftAligned, ReadShortField,
    ReadOtherUnit, ReadLongText, ReadQuote, ReadControl, ReadSiBusy, ReadResetBusy, ReadOtherLevel, ReadBareZeroing, ReadTrailing,
    ReadLfAlone, ReadUnfinished, ReadWrongSign, ReadAnyVersion, ReadLowerCase, ReadSrBusy, ReadSrWrong, ReadNoWrongS,
    ReadTonneCode, ReadTwentyAsPounds, ReadPaddedCode, ReadDisplayUnit, ReadUnitB, ReadLoneHost, ReadNoUnitSet, ReadNoUnitBusy,
    ReadNoUnitWrong, ReadUnitAtLevelOne, ReadNoKilograms, ReadNoPounds, ReadUnitByIndex,
    // the coarse range
    ReadNoCoarse, ReadCoarseReadingsOnly, ReadCoarseFiveRefused, ReadCoarseOneRefused, ReadCoarseWhole, ReadCoarseSixDecimals,
    ReadCoarseDecimalsKept, ReadCoarseInFinePlaces, ReadCoarseAsFine, ReadCoarseTwoSpaces, ReadCoarseInTen, ReadCoarseMinusZero,
    ReadCoarseLeadingZero, ReadCoarseNegativeTare,
    ;
    OF_THE_TALLY:
    TallyReadsUnrounded, TallyTieDownwards, TallyStepIgnored, TallyRoundsToMicrogram, TallyReadsAnswer, TallyForgetsTyped,
    TallyKeepsTyped, TallyAllowsMicrogram, TallyReadsFirstUnit, TallyStepOfGrams, TallyTypedToGramStep, TallySetsAtWrong,
    TallySetsAtBusy, TallySetsAtQuery, TallySetsByFaultyLine, TallyReadsAnyCode, TallyForgetsAtReset, TallySetsOnce,
    // the coarse range
    TallyTrustsSpace, TallyIgnoresSpace, TallyAllowsSpace, TallyAllowsNoSpace, TallyAtLimitCoarse, TallyRangeByNet,
    TallyRangeByLoad, TallyRangeByGross, TallyRangeByUnroundedTare, TallyRangeTieDownwards, TallyHalvesFineStep,
    TallyHalvesCoarseStep, TallyTypedFine, TallyTypedCoarse, TallyTypedAtLimitCoarse, TallyTypedAfterRounding,
    TallyTypedInMicrograms, TallyTypedBySpace, TallyTypedWithoutRange,
}

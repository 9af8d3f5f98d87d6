//! The mutation check: each small fault, switched on in this implementation, has to be noticed by the comparison.

use independent::byte_sweeps::{singly, together};
use independent::cases::{histories, History};
use independent::compare::{capture_bytes, difference, script_bytes, shown, Judge, Script};
use independent::decode::{decode, decode_with};
use independent::faults::{Fault, OF_THE_MODULE, OF_THE_RANGES, OF_THE_READER, OF_THE_TABLES, OF_THE_TALLY};
use independent::module::Module;
use independent::random::{capture, script, Rng, MOST_UNSEEN};
use independent::reader::Reader;
use independent::replay::{replay, replay_with, Replay};
use independent::sweeps;
use independent::tally::Tally;

const SEED: u64 = 1;
const SCRIPTS: usize = 400;
/// The tally sees a unit that is a little short only beside a tie, and the follower of SR sees no `state`, so they get more.
const JUDGED_SCRIPTS: usize = 1_600;
const SILENT_SCRIPTS: usize = 100;
const CAPTURES: usize = 200;

/// Faults that break demand 3, so that the tally alone has to notice them.
const JUDGED: &[Fault] = &[
    Fault::RoundedTowardsZero,
    Fault::RoundedTwice,
    Fault::OunceCutShort,
    Fault::GrainCutShort,
    Fault::TroyOunceCutShort,
    Fault::TareStoredAtCommand,
    Fault::TareKeptAfterTimeout,
    Fault::ZeroKeptAfterTimeout,
    Fault::PrintedTareSubtracted,
    Fault::ResetKeepsTare,
    Fault::ResetClearsZero,
    Fault::ZeroingKeepsTare,
    Fault::ZeroingByGross,
    Fault::TareByNet,
    Fault::FirstSampleKept,
    Fault::TypedRoundedOnce,
    Fault::TypedMicrogramFirst,
    Fault::TypedFirstTieDownwards,
    Fault::TypedFirstCut,
    Fault::TypedStepIgnored,
    Fault::TypedShortUnrounded,
    Fault::TypedLastPlaceFirst,
    Fault::TypedSecondCut,
    Fault::TypedHeldToCapacity,
    Fault::TypedCutTo32Bits,
    Fault::QueryClearsTare,
    Fault::KilogramTenfold,
    Fault::PoundCutShort,
    Fault::UnitTextOfGrams,
    Fault::PlacesOfGrams,
    Fault::UnitByIndex,
    Fault::MicrogramsTakenForCarats,
    Fault::TwentyTakenForPounds,
    Fault::OunceCodesSwapped,
    Fault::OtherCodeSetsGrams,
    Fault::CodeInOneByte,
    Fault::CodeIn32Bits,
    Fault::CodePadded,
    Fault::CodeSigned,
    Fault::CodeAfterTwoSpaces,
    Fault::CodeBeforeSpace,
    Fault::HostPadded,
    Fault::HostLeftOut,
    Fault::DisplayUnitSet,
    Fault::BusyUnitSet,
    Fault::WrongUnitSetsGrams,
    Fault::UnitQuerySetsGrams,
    Fault::UnitNotSet,
    Fault::UnitSetInShortRoom,
    Fault::ResetSetsGrams,
    Fault::PowerOnKeepsUnit,
    Fault::UnitClearsTare,
    Fault::UnitClearsZero,
    Fault::UnitConvertsTare,
    Fault::UnitRoundsTare,
    Fault::TypedInGrams,
    Fault::TypedToGramStep,
    Fault::CoarseAtLimit,
    Fault::CoarseByNet,
    Fault::CoarseByLoad,
    Fault::CoarseByTare,
    Fault::CoarseByGross,
    Fault::CoarseBySize,
    Fault::CoarseByPrinted,
    Fault::CoarseByPrintedCoarse,
    Fault::NeverCoarse,
    Fault::CoarseThroughout,
    Fault::UnstableFine,
    Fault::QueryFine,
    Fault::TaringFine,
    Fault::CoarseInGramsOnly,
    Fault::CoarseHeld,
    Fault::AnswerByTypedNumber,
    Fault::CoarseFineFirst,
    Fault::CoarseLastDigitDropped,
    Fault::CoarseRoundedDown,
    Fault::CoarsePointMisplaced,
    Fault::CoarseSpaceBefore,
    Fault::CoarseZeroPrinted,
    Fault::TypedNeverCoarse,
    Fault::TypedAlwaysCoarse,
    Fault::TypedAtLimitCoarse,
    Fault::TypedComparedInSteps,
    Fault::TypedComparedInCoarseSteps,
    Fault::TypedComparedInMicrograms,
    Fault::TypedStepByGross,
    Fault::TypedStepByFormerTare,
    Fault::TypedCoarseWithoutRange,
    Fault::TypedFineFirst,
    Fault::TypedCoarseTieDownwards,
    Fault::TypedCoarseCut,
    Fault::TypedCoarseStepOfOne,
];

/// Faults of send on change that answers show, so that its follower alone has to notice them. A net that is kept at `S D` is none: the
/// `S S` owed comes before it could count.
const FOLLOWED: &[Fault] = &[
    Fault::SrOwnIdentification,
    Fault::SrNeedsSample,
    Fault::SrAnswersUnstable,
    Fault::SrStartedByOverload,
    Fault::SrStartedByTimeout,
    Fault::SrOutlivesS,
    Fault::SrOutlivesSi,
    Fault::SrOutlivesSir,
    Fault::SrOutlivesSr,
    Fault::SrOutlivesReset,
    Fault::SirOutlivesSr,
    Fault::SirKeptBySr,
    Fault::BusySrEndsOld,
    Fault::WrongSrEndsOld,
    Fault::LogicalSiEndsSr,
    Fault::SrRebasedByTaring,
    Fault::SrRebasedByTypedTare,
    Fault::SrRebasedByZeroing,
    Fault::PrintedNetKept,
    Fault::FirstNetForgotten,
    Fault::OwedDroppedWhenBack,
    Fault::OwedWaitsForChange,
    Fault::OwedLostInExcursion,
    Fault::NewSrKeepsOwed,
    Fault::SecondDynamicSent,
    Fault::StableHeldBack,
    Fault::OutOfRangeRepeated,
    Fault::OutOfRangeUnsent,
    Fault::UnstableOutUnsent,
    Fault::OtherSideSentToo,
    Fault::SilentSampleStaysOut,
    Fault::BackInRangeSent,
    Fault::ExcursionEndsSr,
    Fault::WaitingSampleMovesSr,
    Fault::SrSentWhileWaiting,
    Fault::SentThoughRefused,
    Fault::SetThresholdExclusive,
    Fault::EighthExclusive,
    Fault::StepsExclusive,
    Fault::EighthForgotten,
    Fault::StepsForgotten,
    Fault::EighthRoundedDown,
    Fault::StepsRoundedDown,
    Fault::EighthOfPresentNet,
    Fault::ThirtyLastPlaces,
    Fault::ChangeBySize,
    Fault::PrintedChangeCompared,
    Fault::SetThresholdHasLeast,
    Fault::ThresholdFixedAtStart,
    Fault::ThresholdKeptFromOlder,
    Fault::ThresholdOfZeroTaken,
    Fault::ThresholdAboveCapacityTaken,
    Fault::ThresholdRoundedToStep,
    Fault::LoneSpaceTaken,
    Fault::UnitConvertsThreshold,
    Fault::UnitConvertsLastNet,
    Fault::UnitDropsOwed,
    Fault::UnitEndsSir,
    Fault::UnitEndsSr,
    Fault::SrRebasedByUnit,
    Fault::ThresholdInGrams,
    Fault::ThirtyStepsOfGrams,
    Fault::ThirtyStepsOfStart,
    Fault::ThresholdRoundedCoarse,
    Fault::SrCountsCoarseSteps,
    Fault::CoarseNetKept,
];

/// Faults of typed tares, which the sweep of them has to notice too.
const OF_TYPED_TARES: &[Fault] = &[
    Fault::TypedRoundedOnce,
    Fault::TypedMicrogramFirst,
    Fault::TypedFirstTieDownwards,
    Fault::TypedFirstCut,
    Fault::TypedStepIgnored,
    Fault::TypedShortUnrounded,
    Fault::TypedLastPlaceFirst,
    Fault::TypedSecondTieDownwards,
    Fault::TypedSecondCut,
    Fault::TypedAboveCapacityTaken,
    Fault::TypedLimitBeforeBoth,
    Fault::TypedLimitBeforeSecond,
    Fault::TypedHeldToCapacity,
    Fault::TypedCutTo32Bits,
    Fault::TypedZeroRefused,
    Fault::ThresholdRoundedToStep,
];

/// Faults of the tally for which it rejects answers of the good module; the others let more pass, as constructed histories show.
const REJECTING: &[Fault] = &[
    Fault::TallyReadsUnrounded,
    Fault::TallyTieDownwards,
    Fault::TallyStepIgnored,
    Fault::TallyForgetsTyped,
    Fault::TallyReadsFirstUnit,
    Fault::TallyStepOfGrams,
    Fault::TallyTypedToGramStep,
    Fault::TallySetsAtBusy,
    Fault::TallyForgetsAtReset,
    Fault::TallySetsOnce,
    Fault::TallyAtLimitCoarse,
    Fault::TallyRangeByNet,
    Fault::TallyRangeByLoad,
    Fault::TallyRangeByGross,
    Fault::TallyRangeByUnroundedTare,
    Fault::TallyRangeTieDownwards,
    Fault::TallyHalvesFineStep,
    Fault::TallyTypedFine,
    Fault::TallyTypedCoarse,
    Fault::TallyTypedAtLimitCoarse,
    Fault::TallyTypedAfterRounding,
    Fault::TallyTypedInMicrograms,
    Fault::TallyTypedBySpace,
    Fault::TallyTypedWithoutRange,
];

/// Faults of the whole-buffer call that answers, refusals and bytes taken show, so that its bytes taken singly have to notice them.
const TAKEN_APART: &[Fault] = &[
    Fault::LongBufferTaken,
    Fault::LongBufferCut,
    Fault::FullBufferRefused,
    Fault::ExtraMarkIgnored,
    Fault::MissingMarkGood,
    Fault::MarksBeyondOneGood,
    Fault::EvenMarksGood,
    Fault::MarksAbove127Good,
    Fault::MarksShifted,
    Fault::FaultSpreads,
    Fault::RoomNotShared,
    Fault::RoomCutTo256,
    Fault::BufferRoomOffByOne,
    Fault::FullRoomStops,
    Fault::EmptyAnswerNeedsRoom,
    Fault::StopsAtFirstAnswer,
    Fault::AnswersAtFront,
    Fault::UnfitAnswerDropped,
    Fault::UnfitByteSkipped,
    Fault::UnfitByteTaken,
    Fault::StoppingByteCounted,
    Fault::StoppedAnswersDropped,
    Fault::UnfitAnswerCounted,
    Fault::StoppedBufferRefused,
    Fault::FirstByteRefused,
    Fault::StopUnsaid,
    Fault::BufferStartsLine,
    Fault::CrForgottenBetween,
    Fault::CountInOneByte,
    Fault::TakenInOneByte,
];

/// Faults that no answer shows, so that `state` alone has to.
const SILENT: &[Fault] = &[
    Fault::DwKeepsText,
    Fault::ResetKeepsText,
    Fault::PowerOnKeepsText,
    Fault::TextNotShown,
    Fault::EmptyTextShowsWeight,
    Fault::TextCutShort,
    Fault::HighBytesReplaced,
    Fault::WrongTextShowsWeight,
    Fault::BusyTextShown,
    Fault::BusyDwShowsWeight,
    Fault::LogicalDwShowsWeight,
    Fault::ErrorShowsWeight,
    Fault::SampleShowsWeight,
    Fault::TimeoutShowsWeight,
    Fault::ReadingShowsWeight,
    Fault::ZeroingShowsWeight,
    Fault::TaringShowsWeight,
    Fault::TypedTareShowsWeight,
    Fault::ListShowsWeight,
    Fault::RefusalOneShowsWeight,
    Fault::RefusalTwoShowsWeight,
    Fault::RefusalThreeShowsWeight,
    Fault::RefusalFiveShowsWeight,
    Fault::RefusedOnShowsWeight,
    Fault::OverEmptiesLine,
    Fault::FaultyByteLeftOut,
    Fault::NothingHeldAfterFault,
    Fault::FaultSetsOver,
    Fault::FaultHidesOver,
    Fault::ControlSetsOver,
    Fault::UnitShowsWeight,
];

/// Faults of units by command, which the stored cases and the sweeps of them have to notice too.
const OF_UNITS: &[Fault] = &[
    Fault::KilogramTenfold,
    Fault::PoundCutShort,
    Fault::UnitTextOfGrams,
    Fault::PlacesOfGrams,
    Fault::OnlyInForceFits,
    Fault::OnlyInForceScaled,
    Fault::NewUnitsSevenDecimals,
    Fault::NewUnitsStepOfThree,
    Fault::UnitByIndex,
    Fault::MicrogramsTakenForCarats,
    Fault::TwentyTakenForPounds,
    Fault::OunceCodesSwapped,
    Fault::NewUnitsRefused,
    Fault::OtherCodeSetsGrams,
    Fault::CodeInOneByte,
    Fault::CodeIn32Bits,
    Fault::CodePadded,
    Fault::CodeSigned,
    Fault::CodeAfterTwoSpaces,
    Fault::CodeBeforeSpace,
    Fault::HostPadded,
    Fault::HostLeftOut,
    Fault::DisplayUnitSet,
    Fault::LoneSpaceQueriesUnit,
    Fault::LoneHostQueriesUnit,
    Fault::UnitTakesNoParameters,
    Fault::UnitAgainRefused,
    Fault::UnitSetWhileWaiting,
    Fault::UnitQueriedWhileWaiting,
    Fault::WrongUnitBeforeWaiting,
    Fault::BusyUnitSet,
    Fault::UnitNeedsSample,
    Fault::WrongUnitSetsGrams,
    Fault::UnitToldByIndex,
    Fault::UnitToldAsDisplays,
    Fault::GramsTold,
    Fault::CodeToldPadded,
    Fault::UnitToldB,
    Fault::UnitQuerySetsGrams,
    Fault::UnitNotSet,
    Fault::UnitSendsReading,
    Fault::UnitSetInShortRoom,
    Fault::ResetSetsGrams,
    Fault::PowerOnKeepsUnit,
    Fault::UnitClearsTare,
    Fault::UnitClearsZero,
    Fault::UnitConvertsTare,
    Fault::UnitRoundsTare,
    Fault::UnitConvertsThreshold,
    Fault::UnitConvertsLastNet,
    Fault::UnitDropsOwed,
    Fault::UnitEndsSir,
    Fault::UnitEndsSr,
    Fault::SrRebasedByUnit,
    Fault::UnitShowsWeight,
    Fault::UnitListedAtLevelOne,
    Fault::UnitUnlisted,
    Fault::TiListedLast,
    Fault::TypedInGrams,
    Fault::TypedToGramStep,
    Fault::ThresholdInGrams,
    Fault::ThirtyStepsOfGrams,
    Fault::ThirtyStepsOfStart,
];

/// Faults of how a line is read that random histories notice; the cases and the sweeps of bytes have to notice them too.
const OF_LINES: &[Fault] =
    &[Fault::ControlTaken, Fault::PrefixTaken, Fault::LowerCaseTaken, Fault::AnythingAfterName, Fault::QuoteShown];

fn scripts(count: usize) -> Vec<Script> {
    let mut rng = Rng::new(SEED);
    (0..count).map(|_| script(&mut rng)).collect()
}

/// The input of the answers alone.
fn without_state(script: &[Vec<u8>]) -> Vec<u8> {
    let lines: Script = script.iter().filter(|line| *line != b"state").cloned().collect();
    script_bytes(&lines)
}

/// Those of the module, and those of the reader and the tally that stand after the first of theirs.
fn is_of_ranges(fault: Fault) -> bool {
    let after = |list: &[Fault], first: Fault| list.iter().skip_while(|one| **one != first).any(|one| *one == fault);
    OF_THE_RANGES.contains(&fault) || after(OF_THE_READER, Fault::ReadNoCoarse) || after(OF_THE_TALLY, Fault::TallyTrustsSpace)
}

#[test]
fn the_readme_counts_the_faults() {
    let lists = [OF_THE_MODULE, OF_THE_TABLES, OF_THE_RANGES, OF_THE_READER, OF_THE_TALLY];
    let total: usize = lists.iter().map(|list| list.len()).sum();
    let readme = include_str!("../README.md");
    let said =
        format!("{total} small faults, one at a time, each of which the comparison has to notice; {} of them", lists[1].len());
    assert!(readme.contains(&said), "{said}");
    let of_ranges = lists.concat().iter().filter(|fault| is_of_ranges(**fault)).count();
    assert!(readme.contains(&format!("and {of_ranges} are of the two ranges")), "{of_ranges}");
}

#[test]
fn every_fault_of_the_module_is_noticed() {
    let inputs: Vec<Vec<u8>> = scripts(SCRIPTS).iter().map(|one| script_bytes(one)).collect();
    let told: Vec<Vec<u8>> = inputs.iter().map(|input| replay(input)).collect();
    let mut unnoticed = vec![];
    for fault in [OF_THE_MODULE, OF_THE_RANGES].concat() {
        let faulty = |input: &[u8]| replay_with(Module { fault: Some(fault) }, input, &mut |_| {});
        match inputs.iter().zip(&told).position(|(input, told)| faulty(input) != *told) {
            Some(at) => println!("{fault:?}: noticed by script {at}"),
            None => unnoticed.push(fault),
        }
    }
    assert!(unnoticed.is_empty(), "not noticed: {unnoticed:?}");
}

#[test]
fn the_sweep_notices_every_fault_of_typed_tares() {
    let inputs: Vec<Vec<u8>> = sweeps::typed_tares().iter().map(|one| script_bytes(one)).collect();
    for &fault in OF_TYPED_TARES {
        let faulty = |input: &[u8]| replay_with(Module { fault: Some(fault) }, input, &mut |_| {});
        assert!(inputs.iter().any(|input| faulty(input) != replay(input)), "{fault:?}");
    }
}

/// By the limits of every scale that a coarse range can have.
#[test]
fn the_sweeps_notice_every_fault_of_the_ranges() {
    let inputs: Vec<Vec<u8>> = sweeps::coarse_scripts().iter().map(|one| script_bytes(one)).collect();
    let told: Vec<Vec<u8>> = inputs.iter().map(|input| replay(input)).collect();
    let noticed = |fault: &Fault| {
        let faulty = |input: &[u8]| replay_with(Module { fault: Some(*fault) }, input, &mut |_| {});
        inputs.iter().zip(&told).any(|(input, told)| faulty(input) != *told)
    };
    let unnoticed: Vec<Fault> = OF_THE_RANGES.iter().copied().filter(|fault| !noticed(fault)).collect();
    assert_eq!(unnoticed, vec![]);
}

fn unnoticed_by_cases(faults: &[Fault]) -> Vec<Fault> {
    let cases = independent::cases::all();
    let unnoticed = |fault: &Fault| {
        let faulty = |input: &[u8]| replay_with(Module { fault: Some(*fault) }, input, &mut |_| {});
        cases.iter().all(|case| faulty(case.script.as_bytes()) == case.prints.as_bytes())
    };
    faults.iter().copied().filter(unnoticed).collect()
}

#[test]
fn the_cases_notice_every_fault_of_units() {
    assert_eq!(unnoticed_by_cases(OF_UNITS), vec![]);
}

#[test]
fn the_cases_notice_every_fault_of_the_ranges() {
    assert_eq!(unnoticed_by_cases(OF_THE_RANGES), vec![]);
}

/// By the lines of the cases alone.
#[test]
fn the_captures_notice_every_fault_of_coarse_weights() {
    for &fault in OF_THE_READER.iter().filter(|fault| is_of_ranges(**fault)) {
        let reader = Reader { fault: Some(fault) };
        let noticed = |(line, prints): &(&str, &str)| decode_with(reader, line.as_bytes()) != prints.as_bytes();
        assert!(independent::cases::captures().iter().any(noticed), "{fault:?}");
    }
}

#[test]
fn the_cases_notice_every_fault_of_the_tables() {
    let faults = [OF_THE_TABLES, OF_LINES].concat();
    assert_eq!(unnoticed_by_cases(&faults), vec![]);
}

/// By each line alone, and by many in whole buffers.
#[test]
fn the_sweeps_of_bytes_notice_every_fault_of_the_tables() {
    for scripts in [singly("s 1000"), together("s 1000")] {
        let inputs: Vec<Vec<u8>> = scripts.iter().map(|one| script_bytes(one)).collect();
        let told: Vec<Vec<u8>> = inputs.iter().map(|input| replay(input)).collect();
        for fault in [OF_THE_TABLES, OF_LINES].concat() {
            let faulty = |input: &[u8]| replay_with(Module { fault: Some(fault) }, input, &mut |_| {});
            assert!(inputs.iter().zip(&told).any(|(input, told)| faulty(input) != *told), "{fault:?}");
        }
    }
}

/// Of a sweep's lines, the one that is judged otherwise is shown, with its bytes.
#[test]
fn a_line_judged_otherwise_is_shown_by_its_bytes() {
    for (fault, sweep, due) in [
        (Fault::LastNameMissed, singly("u 1000"), "on\nb 5A 49 0D 0A\n"),
        (Fault::ColonTakenForDigit, together("u 1000"), "on\nw 54 41 20 3A 20 67 0D 0A\n"),
    ] {
        let faulty = |input: &[u8]| replay_with(Module { fault: Some(fault) }, input, &mut |_| {});
        let shortest = difference(&sweep, script_bytes, &faulty, &replay).expect("a difference");
        assert_eq!(shown(&script_bytes(&shortest)), shown(due.as_bytes()), "{fault:?}");
    }
}

#[test]
fn no_answer_shows_the_silent_faults() {
    for one in scripts(SILENT_SCRIPTS) {
        let input = without_state(&one);
        let told = replay(&input);
        for &fault in SILENT {
            let faulty = replay_with(Module { fault: Some(fault) }, &input, &mut |_| {});
            assert!(faulty == told, "{fault:?} is shown by an answer to\n{}", shown(&input));
        }
    }
}

/// `state` stands often enough in the histories.
#[test]
fn few_calls_go_unseen() {
    for one in scripts(SCRIPTS) {
        let (mut replay, mut unseen) = (Replay::new(Module::default()), 0);
        for line in &one {
            replay.line(line, &mut vec![], &mut |_| unseen += 1);
            assert!(unseen <= MOST_UNSEEN, "{}", shown(&script_bytes(&one)));
            if line == b"state" {
                unseen = 0;
            }
        }
        assert_eq!(unseen, 0, "`state` ends the history");
    }
}

#[test]
fn every_fault_of_the_reader_is_noticed() {
    let mut rng = Rng::new(SEED);
    let captures: Vec<Script> = (0..CAPTURES).map(|_| capture(&mut rng)).collect();
    let mut unnoticed = vec![];
    for &fault in OF_THE_READER {
        let faulty = |input: &[u8]| decode_with(Reader { fault: Some(fault) }, input);
        match captures.iter().position(|one| faulty(&capture_bytes(one)) != decode(&capture_bytes(one))) {
            Some(at) => println!("{fault:?}: noticed by capture {at}"),
            None => unnoticed.push(fault),
        }
    }
    assert!(unnoticed.is_empty(), "not noticed: {unnoticed:?}");
}

/// No line and no byte of the script shown can be left out.
#[test]
fn a_difference_is_shown_by_a_short_script() {
    for fault in [
        Fault::ResetKeepsRepetition,
        Fault::FaultPastLimitForgotten,
        Fault::TareKeptAfterTimeout,
        Fault::CountUnjudged,
        Fault::ResetKeepsText,
        Fault::OverEmptiesLine,
        Fault::RoomNotShared,
    ] {
        let faulty = |input: &[u8]| replay_with(Module { fault: Some(fault) }, input, &mut |_| {});
        let shortest = difference(&scripts(SCRIPTS), script_bytes, &faulty, &replay).expect("a difference");
        println!("{fault:?}\n{}", shown(&script_bytes(&shortest)));
        let same = |lines: &[Vec<u8>]| faulty(&script_bytes(lines)) == replay(&script_bytes(lines));
        for at in 0..shortest.len() {
            assert!(same(&[&shortest[..at], &shortest[at + 1..]].concat()), "line {at} can be left out");
            let mut fewer = shortest.clone();
            for byte in 0..shortest[at].len() {
                fewer[at] = [&shortest[at][..byte], &shortest[at][byte + 1..]].concat();
                assert!(same(&fewer), "byte {byte} of line {at} can be left out");
            }
        }
    }
}

fn judged(fault: Option<Fault>, input: &[u8]) -> Judge {
    let mut judge = Judge::default();
    replay_with(Module { fault }, input, &mut |event| judge.see(event));
    judge
}

#[test]
fn the_tally_notices_wrong_weights() {
    let inputs: Vec<Vec<u8>> = scripts(JUDGED_SCRIPTS).iter().map(|one| without_state(one)).collect();
    for input in &inputs {
        let judge = judged(None, input);
        assert_eq!((judge.faults, judge.strays, judge.apart), (vec![], vec![], vec![]), "{}", shown(input));
    }
    let noticed = |fault| inputs.iter().any(|input| !judged(Some(fault), input).faults.is_empty());
    let unnoticed: Vec<Fault> = JUDGED.iter().copied().filter(|fault| !noticed(*fault)).collect();
    assert!(unnoticed.is_empty(), "not noticed: {unnoticed:?}");
}

/// By a constructed history of which it thinks otherwise, and where it rejects too much by the random histories too.
#[test]
fn every_fault_of_the_tally_is_noticed() {
    for &fault in OF_THE_TALLY {
        let accepts = |one: &History| Tally::faulty(&one.profile(), Some(fault)).take_lines(&one.calls).is_ok();
        assert!(histories().iter().any(|one| accepts(one) != one.accepted), "{fault:?}");
    }
    let inputs: Vec<Vec<u8>> = scripts(JUDGED_SCRIPTS).iter().map(|one| without_state(one)).collect();
    for &fault in REJECTING {
        let rejects = |input: &[u8]| {
            let mut judge = Judge::faulty(fault);
            replay_with(Module::default(), input, &mut |event| judge.see(event));
            !judge.faults.is_empty()
        };
        assert!(inputs.iter().any(|input| rejects(input)), "{fault:?}");
    }
}

#[test]
fn the_follower_notices_what_sr_should_not_send() {
    let inputs: Vec<Vec<u8>> = scripts(JUDGED_SCRIPTS).iter().map(|one| without_state(one)).collect();
    let noticed = |fault| inputs.iter().any(|input| !judged(Some(fault), input).strays.is_empty());
    let unnoticed: Vec<Fault> = FOLLOWED.iter().copied().filter(|fault| !noticed(*fault)).collect();
    assert!(unnoticed.is_empty(), "not noticed: {unnoticed:?}");
}

#[test]
fn a_whole_buffer_is_judged_by_its_bytes_taken_singly() {
    let inputs: Vec<Vec<u8>> = scripts(JUDGED_SCRIPTS).iter().map(|one| without_state(one)).collect();
    let noticed = |fault| inputs.iter().any(|input| !judged(Some(fault), input).apart.is_empty());
    let unnoticed: Vec<Fault> = TAKEN_APART.iter().copied().filter(|fault| !noticed(*fault)).collect();
    assert!(unnoticed.is_empty(), "not noticed: {unnoticed:?}");
}

//! A whole buffer of received bytes in one call (document 02, No. 2): its refusals 1, 2 and 5, and then the bytes taken singly.

use crate::faults::Fault;
use crate::module::{Line, Module, Outcome, State};
use crate::profile::Profile;

/// The most bytes that one call takes.
pub const MOST_BYTES: usize = 4_096;

/// The refusal number, 0 for none; the length of all answers together; the bytes taken.
#[derive(Clone, Copy, Debug, Default, PartialEq, Eq)]
pub struct Taken {
    pub refusal: u8,
    pub n: usize,
    pub taken: usize,
}

/// The byte call of one byte, with a state and a room.
type ByteCall<'a> = &'a dyn Fn(&mut State, &mut [u8]) -> Outcome;

impl Module {
    /// Each byte has its mark, of which 0 is good and any other faulty. All answers share the room.
    pub fn buffer(&self, profile: &Profile, state: &mut State, bytes: &[u8], marks: &[u8], room: &mut [u8]) -> Taken {
        let call = |at: usize| {
            let (byte, mark) = (bytes[at], self.mark(marks, at));
            move |state: &mut State, room: &mut [u8]| self.byte(profile, state, byte, mark, room)
        };
        if let Some(refusal) = self.buffer_refusal(profile, state, bytes.len(), marks.len()) {
            self.refuse(refusal, state, room);
            if refusal == 5 && self.has(Fault::RefusedBufferTaken) {
                for at in 0..bytes.len() {
                    call(at)(state, &mut AMPLE.clone());
                }
            }
            return Taken { refusal, ..Taken::default() };
        }
        let given = state.clone();
        self.goes_on(state);
        let mut so_far = Taken::default();
        while so_far.taken < bytes.len() && !self.ends_early(so_far) {
            let call = call(so_far.taken);
            let outcome = self.with_room_left(state, room, so_far.n, &call);
            if outcome.refusal != 0 {
                so_far = self.stopped(state, room, so_far, &given, &call);
                break;
            }
            so_far.n += outcome.n;
            so_far.taken += 1;
        }
        self.told(state, so_far, bytes.len())
    }

    /// 1 and 2 as for a byte, then 5 for unequal lengths and for more than 4,096.
    fn buffer_refusal(&self, profile: &Profile, state: &State, bytes: usize, marks: usize) -> Option<u8> {
        let unequal = match self.fault {
            Some(Fault::ExtraMarkIgnored) => bytes > marks,
            Some(Fault::MissingMarkGood) => bytes < marks,
            _ => bytes != marks,
        };
        let most = match self.fault {
            Some(Fault::LongBufferTaken) => MOST_BYTES + 1,
            Some(Fault::LongBufferCut) => usize::MAX,
            Some(Fault::FullBufferRefused) => MOST_BYTES - 1,
            _ => MOST_BYTES,
        };
        let by_lengths = (unequal || bytes > most).then_some(5);
        let before = self.refusal(profile, state).filter(|&number| match self.fault {
            Some(Fault::BufferProfileUntested) => number != 1,
            Some(Fault::BufferStateUntested) => number != 2,
            Some(Fault::EmptyBufferUntested) => bytes > 0,
            _ => true,
        });
        match (self.fault, before) {
            (Some(Fault::FiveBeforeOne), _) | (Some(Fault::FiveBeforeTwo), Some(2)) => by_lengths.or(before),
            _ => before.or(by_lengths),
        }
    }

    /// The byte call with the room that the answers before it left.
    fn with_room_left(&self, state: &mut State, room: &mut [u8], n: usize, call: ByteCall) -> Outcome {
        let end = match self.fault {
            Some(Fault::RoomCutTo256) => room.len().min(256),
            Some(Fault::BufferRoomOffByOne) => room.len().saturating_sub(1),
            _ => room.len(),
        };
        let left = if self.has(Fault::AnswersAtFront) { &mut room[..end - n] } else { &mut room[n..end] };
        if self.fault.is_none() {
            return call(state, left);
        }
        if left.is_empty() && self.has(Fault::FullRoomStops) {
            return UNFIT;
        }
        let before = state.clone();
        let outcome = call(state, left);
        let ended = before.line.cr && state.line == Line::default();
        if self.has(Fault::EmptyAnswerNeedsRoom) && ended && outcome.n == 0 && n == room.len() {
            *state = before;
            return UNFIT;
        }
        if outcome == UNFIT {
            return self.past_unfit(state, room, n, call);
        }
        outcome
    }

    // What stands here is for faults alone.

    /// The mark of the byte at this place.
    fn mark(&self, marks: &[u8], at: usize) -> u8 {
        let mark = marks.get(at).copied().unwrap_or(0);
        match self.fault {
            Some(Fault::MarksBeyondOneGood) if mark > 1 => 0,
            Some(Fault::EvenMarksGood) if mark % 2 == 0 => 0,
            Some(Fault::MarksAbove127Good) if mark > 127 => 0,
            Some(Fault::MarksShifted) => at.checked_sub(1).map_or(0, |before| marks[before]),
            Some(Fault::FaultSpreads) => marks[..=at].iter().copied().max().unwrap_or(0),
            _ => mark,
        }
    }

    /// The line goes on from the call before.
    fn goes_on(&self, state: &mut State) {
        match self.fault {
            Some(Fault::BufferStartsLine) => state.line = Line::default(),
            Some(Fault::CrForgottenBetween) => state.line.cr = false,
            _ => {}
        }
    }

    fn ends_early(&self, so_far: Taken) -> bool {
        match self.fault {
            Some(Fault::StopsAtFirstAnswer) => so_far.n > 0,
            Some(Fault::LongBufferCut) => so_far.taken == MOST_BYTES,
            _ => false,
        }
    }

    /// A byte whose answer does not fit is the end.
    fn past_unfit(&self, state: &mut State, room: &mut [u8], n: usize, call: ByteCall) -> Outcome {
        match self.fault {
            Some(Fault::RoomNotShared) => {
                let mut whole = vec![0; room.len()];
                let outcome = call(state, &mut whole);
                let fits = outcome.n.min(room.len() - n);
                room[n..n + fits].copy_from_slice(&whole[..fits]);
                Outcome { n: fits, ..outcome }
            }
            Some(Fault::UnfitAnswerDropped) => Outcome { n: 0, ..call(state, &mut AMPLE.clone()) },
            Some(Fault::UnfitByteSkipped) => Outcome { refusal: 0, n: 0 },
            _ => UNFIT,
        }
    }

    /// State, answers and both counts are those after the bytes taken; what follows in the room is as before.
    fn stopped(&self, state: &mut State, room: &mut [u8], so_far: Taken, given: &State, call: ByteCall) -> Taken {
        let (mut after, mut answer) = (state.clone(), AMPLE);
        let due = call(&mut after, &mut answer).n.min(room.len() - so_far.n);
        match self.fault {
            Some(Fault::UnfitByteTaken | Fault::UntakenStateKept) => *state = after,
            Some(Fault::StoppedStateRolledBack | Fault::StoppedBufferRefused) => *state = given.clone(),
            Some(Fault::UnfitAnswerCut) => room[so_far.n..so_far.n + due].copy_from_slice(&answer[..due]),
            _ => {}
        }
        match self.fault {
            Some(Fault::UnfitByteTaken | Fault::StoppingByteCounted) => Taken { taken: so_far.taken + 1, ..so_far },
            Some(Fault::StoppedAnswersDropped) => Taken { n: 0, ..so_far },
            Some(Fault::UnfitAnswerCounted) => Taken { n: so_far.n + due, ..so_far },
            Some(Fault::StoppedBufferRefused) => Taken { refusal: 3, ..Taken::default() },
            Some(Fault::FirstByteRefused) if so_far.taken == 0 => Taken { refusal: 3, ..so_far },
            _ => so_far,
        }
    }

    /// The line goes on in the next call, and both counts are told whole.
    fn told(&self, state: &mut State, taken: Taken, given: usize) -> Taken {
        if self.has(Fault::BufferEndsLine) && taken.taken == given {
            state.line = Line::default();
        }
        match self.fault {
            Some(Fault::CountInOneByte) => Taken { n: taken.n % 256, ..taken },
            Some(Fault::TakenInOneByte) => Taken { taken: taken.taken % 256, ..taken },
            Some(Fault::StopUnsaid) => Taken { taken: given, ..taken },
            _ => taken,
        }
    }
}

const UNFIT: Outcome = Outcome { refusal: 3, n: 0 };
/// Room for the answer to any byte.
const AMPLE: [u8; 384] = [0; 384];

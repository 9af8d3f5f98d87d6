//! The Rust that is written for speed gives the answers of the independent implementation, call by call and line by line.

use benchmark::fast::weight as fast;
use benchmark::fast::weight::UNITS as FAST_UNITS;
use benchmark::feed::{call, profile_in, take, Implementation, Outcome, Taken, BUFFER, CALL};
use benchmark::sides::{Fast, Independent};
use benchmark::workload::{
    any_buffer, any_history, any_lines, any_load, any_profiles, any_room, in_buffers, inner_buffers, mixed_bytes, profile,
    profile_a, profile_with_fine, repeated_at, Buffers, Rng, Script, BOARD_LENT, COARSE_LOAD, FINE, LENT, ROOM, SIZES,
};
use independent::module::Module;
use independent::profile::Profile;
use independent::random;
use independent::replay::{Called, Event, Replay};
use independent::sweeps;
use independent::tally::Call;
use independent::weight::{number_text, printed, typed_micrograms, typed_number, typed_tare, Range, Scale};

const PROFILES: usize = 64;
const CALLS: usize = 200_000;
const BUFFERS: usize = 6_000;
const SCRIPTS: usize = 500;
const LINES: usize = 50_000;
const NUMBERS: usize = 500;

/// The outcome of each record, with the buffer.
fn outcomes<'a, I: Implementation>(
    profiles: &'a [u8],
    script: &'a [u8],
) -> impl Iterator<Item = (Option<Outcome>, [u8; ROOM as usize])> + 'a
where
    I::Profile: 'a,
    I::State: 'a,
{
    let (mut profile, mut state) = (I::profile(profiles, 0), I::start());
    script.chunks_exact(CALL).map(move |record| {
        let mut out = [0xA5; ROOM as usize];
        let record = record.try_into().expect("a whole record");
        let outcome = match profile_in::<I>(profiles, record) {
            Some(next) => {
                profile = next;
                None
            }
            None => Some(call::<I>(&profile, &mut state, record, &mut out)),
        };
        (outcome, out)
    })
}

#[test]
fn histories_are_the_same() {
    let mut rng = Rng::new(7);
    let profiles = any_profiles(&mut rng, PROFILES);
    let script = any_history(&mut rng, PROFILES, CALLS);
    let mut seen = [0usize; 4];
    let sides = outcomes::<Fast>(&profiles, &script.0).zip(outcomes::<Independent>(&profiles, &script.0));
    for (at, (fast, independent)) in sides.enumerate() {
        assert_eq!(fast, independent, "call {at}");
        seen[fast.0.map_or(0, |outcome| outcome.refusal.into())] += 1;
    }
    assert!(seen.iter().all(|&calls| calls > 100), "every refusal is met: {seen:?}");
}

/// A call of either kind, with the buffer that was lent to it.
fn lent<T>(room: usize, call: impl FnOnce(&mut [u8]) -> T) -> (T, Vec<u8>) {
    let mut out = vec![0xA5; room];
    let told = call(&mut out);
    (told, out)
}

/// Whole buffers among samples, on profiles that change, so that the state is often refused; each with what was left of the one
/// before, or without it.
#[test]
fn whole_buffers_are_the_same() {
    let mut rng = Rng::new(10);
    let profiles = any_profiles(&mut rng, PROFILES);
    let (mut fast, mut independent) =
        ((Fast::profile(&profiles, 0), Fast::start()), (Independent::profile(&profiles, 0), Independent::start()));
    let (mut rest, mut rest_marks) = (vec![], vec![]);
    let (mut seen, mut stopped) = ([0usize; 6], 0);
    for at in 0..BUFFERS {
        match rng.below(20) {
            0 => {
                let n = rng.below(PROFILES as u64) as u32;
                (fast.0, independent.0) = (Fast::profile(&profiles, n), Independent::profile(&profiles, n));
            }
            1 => {
                let one = lent(ROOM.into(), |out| Fast::power_on(&fast.0, &mut fast.1, out));
                assert_eq!(
                    one,
                    lent(ROOM.into(), |out| Independent::power_on(&independent.0, &mut independent.1, out)),
                    "call {at}"
                );
            }
            2..=7 => {
                let (load, stable) = (any_load(&mut rng), rng.chance(60));
                let one = lent(ROOM.into(), |out| Fast::sample(&fast.0, &mut fast.1, load, stable, out));
                let other = lent(ROOM.into(), |out| Independent::sample(&independent.0, &mut independent.1, load, stable, out));
                assert_eq!(one, other, "call {at}");
            }
            _ => {}
        }
        let (more, more_marks) = any_buffer(&mut rng);
        let (bytes, marks) = ([rest, more].concat(), [rest_marks, more_marks].concat());
        let room = any_room(&mut rng);
        let one = lent(room, |out| Fast::take_bytes(&fast.0, &mut fast.1, &bytes, &marks, out));
        let other = lent(room, |out| Independent::take_bytes(&independent.0, &mut independent.1, &bytes, &marks, out));
        assert_eq!(one, other, "call {at}: {}", bytes.escape_ascii());
        let Taken { refusal, taken, .. } = one.0;
        seen[usize::from(refusal)] += 1;
        stopped += usize::from(refusal == 0 && taken < bytes.len());
        let goes_on = refusal == 0 && rng.chance(70);
        (rest, rest_marks) = if goes_on { (bytes[taken..].to_vec(), marks[taken..].to_vec()) } else { (vec![], vec![]) };
    }
    assert!([0, 1, 2, 5].iter().all(|&refusal| seen[refusal] > 100) && stopped > 100, "{seen:?}, {stopped} stopped");
    assert_eq!((seen[3], seen[4]), (0, 0));
}

/// Both sides of the length's limit, and one mark fewer and more.
#[test]
fn lengths_are_the_same() {
    let profiles = profile_a();
    let (fast, independent) = (Fast::profile(&profiles, 0), Independent::profile(&profiles, 0));
    for (bytes, marks) in
        [(0, 0), (0, 1), (1, 0), (1, 1), (4_095, 4_096), (4_096, 4_095), (4_096, 4_096), (4_096, 4_097), (4_097, 4_097)]
    {
        for byte in *b"S\r\n" {
            let (bytes, marks) = (vec![byte; bytes], vec![0; marks]);
            let one = Fast::take_bytes(&fast, &mut Fast::start(), &bytes, &marks, &mut []);
            assert_eq!(one, Independent::take_bytes(&independent, &mut Independent::start(), &bytes, &marks, &mut []));
            assert_eq!(one.refusal, if bytes.len() == marks.len() && bytes.len() <= 4_096 { 0 } else { 5 });
        }
    }
}

/// The rows of whole buffers measure what they say: each byte is taken, in the room that is lent there.
#[test]
fn whole_buffers_are_taken() {
    for size in SIZES {
        let room = if size < 4_096 { BOARD_LENT } else { LENT };
        assert_taken(&in_buffers(size, 100, &mixed_bytes()), room);
        assert_taken(&inner_buffers(size, 3), room);
    }
}

fn assert_taken(all: &Buffers, room: usize) {
    let (profile, mut state) = (Fast::profile(&profile_a(), 0), Fast::start());
    let (mut at, mut out) = (0, vec![0; room]);
    for record in all.script.0.chunks_exact(CALL) {
        let record: &[u8; CALL] = record.try_into().expect("a whole record");
        if record[0] != BUFFER {
            call::<Fast>(&profile, &mut state, record, &mut out);
            continue;
        }
        let before = at;
        let Taken { refusal, taken, .. } = take::<Fast>(&profile, &mut state, record, all.received(), &mut at, &mut out);
        assert_eq!((refusal, taken as u64), (0, at - before));
    }
    assert_eq!(at, all.bytes.len() as u64);
}

/// The rows of a running SR measure what they say.
#[test]
fn sr_sends_none_or_each_of_the_samples() {
    for (fill, count) in [(Script::close_samples as fn(&mut Script, usize), 0), (Script::changing_samples, 18)] {
        let mut script = Script::default();
        script.sr_started();
        let before = script.len();
        fill(&mut script, 2_000);
        let profiles = profile_a();
        for (outcome, _) in outcomes::<Fast>(&profiles, &script.0).skip(before) {
            assert_eq!(outcome, Some(Outcome { refusal: 0, count }));
        }
    }
}

/// The rows of the coarse range measure it.
#[test]
fn coarse_rows_send_coarse_weights() {
    let mut script = repeated_at(COARSE_LOAD, 0, &Script::default());
    script.line(b"SIR");
    let before = script.len() - 1;
    script.coarse_samples(2_000);
    let profiles = profile_with_fine(FINE);
    for (outcome, out) in outcomes::<Fast>(&profiles, &script.0).skip(before) {
        assert_eq!(outcome, Some(Outcome { refusal: 0, count: 18 }));
        assert_eq!(&out[13..18], b"  g\r\n");
    }
}

fn own(scale: Scale) -> fast::Scale {
    fast::Scale { unit: FAST_UNITS[scale.unit.index()], decimals: scale.decimals, step: scale.step }
}

/// The same in the coarse range.
fn coarse(scale: Scale) -> Scale {
    scale.in_range(Range::Coarse)
}

/// What TA and SR make of numbers up to every capacity, in every scale: at the ties of TA's two roundings, and any.
#[test]
fn typed_numbers_are_the_same() {
    let mut rng = Rng::new(11);
    for scale in sweeps::allowed_scales() {
        let own = own(scale);
        let ties =
            sweeps::second_ties(1_000_000_000, scale).into_iter().flatten().flat_map(|steps| 2 * steps - 1..=2 * steps + 1);
        let halves = (0..10).chain(ties).flat_map(|halves| sweeps::typed_halves(halves, scale));
        let any = (0..NUMBERS).map(|_| {
            let (power, decimals) = (rng.below(11) as u32, rng.below(7) as u8);
            number_text(rng.below(10u64.pow(power)).into(), decimals, false)
        });
        for number in halves.chain(any).chain(["9999999999".to_string()]) {
            let text = number.as_bytes();
            let within = |amount: &i128| *amount <= 1_000_000_000;
            let (tare, threshold) = (typed_tare(text, scale, None), typed_micrograms(text, scale, None));
            assert_eq!(
                fast::typed_tare(text, own, None).map(i128::from).filter(within),
                tare.filter(within),
                "{number} {scale:?}"
            );
            assert_eq!(
                fast::typed_threshold(text, own).map(i128::from).filter(within),
                threshold.filter(within),
                "{number} {scale:?}"
            );
        }
    }
}

/// Fine limits at either side of the exact number, at 0, at 1 and any.
#[test]
fn typed_numbers_are_rounded_in_their_range() {
    let mut rng = Rng::new(12);
    let mut seen = [0usize; 2];
    for scale in sweeps::allowed_scales().filter(|scale| scale.decimals >= 2) {
        let fits = |amount: &i128| *amount <= 1_000_000_000;
        for _ in 0..NUMBERS {
            let (power, decimals) = (rng.below(11) as u32, rng.below(7) as u8);
            let number = number_text(rng.below(10u64.pow(power)).into(), decimals, false);
            let text = number.as_bytes();
            let Some((value, decimals)) = typed_number(text, None) else { continue };
            let (nanograms, below) = (value * scale.unit.nanograms(), 1000 * 10i128.pow(decimals));
            let near = (nanograms / below).min(1_000_000_000) as u32;
            for limit in [0, 1, near.saturating_sub(1), near, near + 1, rng.below(1_000_000_000) as u32] {
                let is_above = nanograms > i128::from(limit) * below;
                let expected = typed_tare(text, if is_above { coarse(scale) } else { scale }, None).filter(fits);
                let found = fast::typed_tare(text, own(scale), Some(limit)).map(i128::from).filter(fits);
                assert_eq!(found, expected, "{number} {scale:?} {limit}");
                seen[usize::from(is_above)] += usize::from(found.is_some());
            }
        }
    }
    assert!(seen.iter().all(|&numbers| numbers > 10_000), "{seen:?}");
}

/// Nets of any size in every scale, rounded once, printed and read again.
#[test]
fn coarse_nets_are_the_same() {
    let mut rng = Rng::new(13);
    for scale in sweeps::allowed_scales().filter(|scale| scale.decimals >= 2) {
        for _ in 0..NUMBERS {
            let net = (rng.below(2_000_000_000) as i64 - 1_000_000_000) >> rng.below(20);
            let own = own(scale).in_range(true);
            let (places, mut field) = (own.places(net), [0; 10]);
            let number = printed(net.into(), coarse(scale), None);
            assert_eq!(fast::fits(places, own.decimals, true), number.len() <= 9, "{net} {scale:?}");
            if number.len() <= 9 {
                fast::put_field(places, own.decimals, true, &mut field);
                assert_eq!(field.escape_ascii().to_string(), format!("{number:>9} "), "{net} {scale:?}");
                assert_eq!(fast::read_field(&field), Some((places, own.decimals, true)));
            }
        }
    }
}

/// Every unit's decimals and steps: with two ranges there are at least two decimals, and the lowest net takes at most nine characters.
#[test]
fn coarse_scales_are_tested_alike() {
    for scale in sweeps::scales() {
        let alone = !sweeps::with_widest_capacity(scale).is_refused(None);
        let fits = |lowest: u32| alone && scale.decimals >= 2 && printed(-i128::from(lowest), coarse(scale), None).len() <= 9;
        let (mut least, mut over) = (0, 2_000_000_001);
        while least + 1 < over {
            let middle = (least + over) / 2;
            (least, over) = if fits(middle) { (middle, over) } else { (least, middle) };
        }
        for lowest in [1, 2, 1_000, least.max(1), over, over + 1, 2_000_000_000] {
            assert_eq!(own(scale).is_allowed(lowest, true), fits(lowest), "{scale:?} {lowest}");
        }
    }
}

/// Every unit's decimals and steps, with the widest lowest net that fits and one more.
#[test]
fn scales_are_tested_alike() {
    for scale in sweeps::scales() {
        let own = own(scale);
        let allowed = |profile: &Profile| own.is_allowed(profile.capacity + profile.margin, false);
        let widest = sweeps::with_widest_capacity(scale);
        for capacity in [1, 2, 1_000, widest.capacity, widest.capacity + 1, 1_000_000_000] {
            let alone = widest.clone().with_capacity(capacity.min(1_000_000_000));
            for margin in [0, alone.capacity / 2, alone.capacity] {
                let profile = Profile { margin, ..alone.clone() };
                assert_eq!(allowed(&profile), !profile.is_refused(None), "{scale:?} {margin} {capacity}");
            }
        }
    }
}

/// The independent implementation's own histories too, which are aimed at the edges of zero, tare and count, and of SR's threshold.
#[test]
fn aimed_histories_are_the_same() {
    let mut rng = random::Rng::new(9);
    for _ in 0..SCRIPTS {
        let (mut replay, mut state) = (Replay::new(Module::default()), Fast::start());
        for line in random::script(&mut rng) {
            replay.line(&line, &mut vec![], &mut |event| assert_same(event, &mut state));
        }
    }
}

fn assert_same(event: &Event, state: &mut <Fast as Implementation>::State) {
    let from = event.profile;
    let limits = [from.capacity, from.margin, from.zeroing, from.patience, from.fine];
    let texts = [0, 1, 2, 3].map(|at| &from.texts[at][..]);
    let resolutions = from.places.map(|places| [places.decimals, places.step]);
    let profile = Fast::profile(&profile(limits, resolutions, texts), 0);
    let mut out = [0xA5; 4096];
    let lent = &mut out[..event.room];
    let outcome = match event.called {
        Called::On => Fast::power_on(&profile, state, lent),
        Called::Single(Call::Byte { byte, good }) => Fast::byte(&profile, state, byte, !good, lent),
        Called::Single(Call::Sample { load, stable }) => Fast::sample(&profile, state, load, stable, lent),
        Called::Buffer(singly) => {
            let Taken { refusal, count, taken } = Fast::take_bytes(&profile, state, singly.bytes, singly.marks, lent);
            assert_eq!(taken, singly.count, "{} of {from:?}", singly.bytes.escape_ascii());
            Outcome { refusal, count }
        }
    };
    assert_eq!((outcome.refusal, &out[..outcome.count]), (event.refusal, event.answer), "{from:?}");
    assert!(out[outcome.count..].iter().all(|&byte| byte == 0xA5), "nothing is written past the answer");
}

/// What is read of a line, and that it is written again, in a buffer that is long enough alone.
fn digest<I: Implementation>(line: &[u8]) -> Option<benchmark::feed::Digest> {
    let answer = I::read(line)?;
    let mut out = [0; 64];
    assert_eq!(I::write(&answer, &mut out), Outcome { refusal: 0, count: line.len() }, "{}", line.escape_ascii());
    assert_eq!(&out[..line.len()], line);
    assert_eq!(I::write(&answer, &mut out[..line.len() - 1]), Outcome { refusal: 3, count: 0 }, "{}", line.escape_ascii());
    Some(I::digest(&answer))
}

#[test]
fn lines_are_the_same() {
    let mut taken = 0;
    for line in any_lines(&mut Rng::new(8), LINES) {
        let found = digest::<Fast>(&line);
        taken += usize::from(found.is_some());
        assert_eq!(found, digest::<Independent>(&line), "{}", line.escape_ascii());
    }
    assert!(taken > LINES / 4, "{taken} lines were taken");
}

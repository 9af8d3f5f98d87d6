//! Document 02, No. 7, on the Rust that is written for speed: the corners of the fine limit, line by line.

use benchmark::fast::command::{Command, Status};
use benchmark::fast::reader::{read, write, Answer, Number};
use benchmark::fast::weight::Unit;
use benchmark::feed::{call, profile_in, Implementation, Outcome, CALL};
use benchmark::sides::Fast;
use benchmark::workload::{any_history, any_profiles, profile, profile_with_fine, Rng, FINE, ROOM};

/// Power-on and then what is given: `s` or `u` and a load, or `> ` and a command. The answers, without the last CR LF.
fn told(profile: &[u8], given: &[&str]) -> Vec<String> {
    let (profile, mut state, mut out) = (Fast::profile(profile, 0), Fast::start(), [0; ROOM as usize]);
    assert_eq!(Fast::power_on(&profile, &mut state, &mut out).refusal, 0);
    let mut told = vec![];
    for given in given {
        let mut answer = vec![];
        let mut keep = |outcome: Outcome, out: &[u8]| {
            assert_eq!(outcome.refusal, 0, "{given}");
            answer.extend_from_slice(&out[..outcome.count]);
        };
        match given.split_at(2) {
            ("> ", line) => {
                for byte in line.bytes().chain(*b"\r\n") {
                    keep(Fast::byte(&profile, &mut state, byte, false, &mut out), &out);
                }
            }
            (mark, load) => {
                let load = load.parse().expect("a load");
                keep(Fast::sample(&profile, &mut state, load, mark == "s ", &mut out), &out);
            }
        }
        told.push(String::from_utf8(answer).expect("text").trim_end_matches("\r\n").to_string());
    }
    told
}

/// Profile A with a fine limit, and what each line or sample is answered.
fn assert_told(fine: u32, all: &[(&str, &str)]) {
    let (given, expected): (Vec<&str>, Vec<&str>) = all.iter().copied().unzip();
    assert_eq!(told(&profile_with_fine(fine), &given), expected);
}

#[test]
fn above_the_fine_limit_is_strict() {
    assert_told(FINE, &[("s 100000000", ""), ("> SI", "S S   100.0000 g")]);
    assert_told(FINE, &[("s 100000001", ""), ("> SI", "S S   100.000  g")]);
    assert_told(FINE, &[("u 100000001", ""), ("> SI", "S D   100.000  g"), ("> SIR", "S D   100.000  g")]);
    assert_told(FINE, &[("> S", ""), ("s 220000000", "S S   220.000  g"), ("s 220000001", ""), ("> S", "S +")]);
    assert_told(0, &[("s 0", ""), ("> S", "S S     0.0000 g"), ("s 1", ""), ("> S", "S S     0.000  g")]);
    assert_told(0, &[("s -1", ""), ("> S", "S S     0.0000 g"), ("s -1000000", ""), ("> S", "S S    -1.0000 g")]);
}

#[test]
fn gross_decides_and_net_is_printed() {
    assert_told(
        FINE,
        &[
            ("s 150000000", ""),
            ("> T", "T S   150.000  g"),
            ("s 150000500", ""),
            ("> S", "S S     0.001  g"),
            ("s 10000000", ""),
            ("> S", "S S  -140.0000 g"),
        ],
    );
    // Gross, not the load: zero at 4,000,000.
    assert_told(
        FINE,
        &[
            ("s 4000000", ""),
            ("> Z", "Z A"),
            ("s 104000000", ""),
            ("> S", "S S   100.0000 g"),
            ("s 104000001", ""),
            ("> S", "S S   100.000  g"),
            ("> TI", "TI S   100.000  g"),
        ],
    );
}

#[test]
fn the_tare_decides_in_a_tare_answer() {
    assert_told(
        FINE,
        &[
            ("s 200000000", ""),
            ("> TA 50 g", "TA A    50.0000 g"),
            ("> TA", "TA A    50.0000 g"),
            ("> S", "S S   150.000  g"),
            ("u 150000000", ""),
            ("> TI", "TI D   150.000  g"),
            ("s 0", ""),
            ("> TA", "TA A   150.000  g"),
        ],
    );
}

#[test]
fn a_coarse_net_is_rounded_once() {
    for (net, printed) in
        [(1_450, "0.001"), (500, "0.001"), (499, "0.000"), (-500, "-0.001"), (-499, "0.000"), (-1_500, "-0.002")]
    {
        let load = format!("s {}", 150_000_000 + net);
        let answers = told(&profile_with_fine(FINE), &["s 150000000", "> T", &load, "> S"]);
        assert_eq!(answers[3], format!("S S {printed:>9}  g"), "{net}");
    }
}

#[test]
fn a_typed_number_is_rounded_in_its_range() {
    for (fine, typed, answer) in [
        (FINE, "100.00004", "TA A   100.0000 g"),
        (FINE, "100.0004", "TA A   100.0000 g"),
        (FINE, "100.0005", "TA A   100.001  g"),
        (FINE, "100", "TA A   100.0000 g"),
        (FINE, "99.99996", "TA A   100.0000 g"),
        (FINE, "220.0004", "TA A   220.000  g"),
        (FINE, "220.0005", "TA L"),
        (220_000_000, "220.0004", "TA L"),
        (220_000_000, "220.00004", "TA A   220.0000 g"),
        (100_000_050, "100.00005", "TA A   100.000  g"),
        (FINE, "9999999999", "TA L"),
    ] {
        assert_told(fine, &[(&format!("> TA {typed} g"), answer)]);
    }
    // Ten digits of kilograms overflow.
    assert_told(FINE, &[("> M21 0 1", "M21 A"), ("> TA 9999999999 kg", "TA L"), ("> TA 0.21 kg", "TA A       0.2  kg")]);
}

#[test]
fn sr_counts_fine_steps() {
    assert_told(
        0,
        &[
            ("s 0", ""),
            ("> SR", "S S     0.0000 g"),
            ("s 2999", ""),
            ("s 3000", "S S     0.003  g"),
            ("u 6000", "S D     0.006  g"),
        ],
    );
    // The typed threshold is rounded to no step.
    assert_told(0, &[("s 0", ""), ("> SR 0.000501 g", "S S     0.0000 g"), ("s 500", ""), ("s 501", "S S     0.001  g")]);
}

/// Whether power-on takes a profile of g 4, the others 2, but for one unit.
fn is_taken([capacity, underload, fine]: [u32; 3], unit: Unit, decimals: u8, step: u8) -> bool {
    let mut resolutions = [[2, 1]; 9];
    resolutions[unit as usize] = [decimals, step];
    let bytes = profile([capacity, underload, 0, 3, fine], resolutions, [b""; 4]);
    Fast::power_on(&Fast::profile(&bytes, 0), &mut Fast::start(), &mut [0; 384]).refusal == 0
}

#[test]
fn profiles_are_refused_for_the_fine_limit() {
    let taken = |limits, decimals| is_taken(limits, Unit::Milligram, decimals, 1);
    assert!(taken([99_999_999, 0, 99_999_999], 3));
    assert!(!taken([99_999_999, 0, 99_999_998], 3));
    assert!(!taken([99_999_999, 0, 100_000_000], 3));
    assert!(taken([99_999_994, 0, 0], 3));
    assert!(!taken([99_999_995, 0, 0], 3));
    assert!(taken([99_999_993, 1, 0], 3));
    assert!(!taken([99_999_994, 1, 0], 3));
    assert!(taken([999_999_949, 0, 0], 2));
    assert!(!taken([999_999_950, 0, 0], 2));
    assert!(taken([999_999_950, 0, 999_999_950], 2));
    let of_kilograms = |fine, decimals| is_taken([220_000_000, 1_000_000, fine], Unit::Kilogram, decimals, 1);
    assert!(!of_kilograms(0, 1) && !of_kilograms(219_999_999, 1) && of_kilograms(220_000_000, 1));
    assert!(!of_kilograms(0, 0) && of_kilograms(220_000_000, 0));
    assert!(of_kilograms(0, 2) && of_kilograms(0, 6));
    assert!(!is_taken([220_000_000, 1_000_000, 0], Unit::Kilogram, 7, 1));
}

/// The narrowest profile that is taken prints both ends in nine characters and a space.
#[test]
fn the_widest_coarse_weights_fit() {
    let mut resolutions = [[2, 1]; 9];
    resolutions[Unit::Milligram as usize] = [3, 1];
    let bytes = profile([99_999_994, 0, 0, 3, 0], resolutions, [b""; 4]);
    let given = ["> M21 0 3", "s 99999994", "> S", "> T", "s 1", "> S", "s 0", "> S"];
    let lines = ["M21 A", "", "S S  99999.99  mg", "T S  99999.99  mg", "", "S S -99999.99  mg", "", "S S -99999.994 mg"];
    assert_eq!(told(&bytes, &given), lines);
}

fn weight(line: &str) -> Option<Number> {
    match read([line.as_bytes(), b"\r\n"].concat().as_slice())? {
        Answer::Weight(_, _, number) => Some(number),
        _ => None,
    }
}

#[test]
fn the_reader_tells_the_range() {
    for (line, places, decimals, coarse) in [
        ("S S    4875.2  g", 48_752, 1, true),
        ("S S   100.000  g", 100_000, 3, true),
        ("S S   100.0000 g", 1_000_000, 4, false),
        ("S D    -0.001  g", -1, 3, true),
        ("S S -99999.99  g", -9_999_999, 2, true),
        ("T S   0.00001  g", 1, 5, true),
        ("TI S 9999999.9  g", 99_999_999, 1, true),
        ("TI D       0.0  g", 0, 1, true),
        ("TA A    50.000  g", 50_000, 3, true),
    ] {
        assert_eq!(weight(line), Some(Number { places, decimals, unit: Unit::Gram, coarse }), "{line}");
    }
    for line in [
        "S S       150  g",
        "S S  0.000001  g",
        "S S    -0.000  g",
        "S S   -00.001  g",
        "S S  150.000   g",
        "S S   150.000   g",
        "S S   150.000 g",
        "S S            g",
        "S S         -  g",
        "S S      150.  g",
        "S S      .150  g",
        "TA A   -50.000  g",
    ] {
        assert_eq!(weight(line), None, "{line}");
    }
}

#[test]
fn the_writer_refuses_what_does_not_fit() {
    let mut out = [0; 64];
    for decimals in 0..8 {
        for (places, fits) in [(-10_000_000, false), (-9_999_999, true), (0, true), (99_999_999, true), (100_000_000, false)] {
            let number = Number { places, decimals, unit: Unit::Gram, coarse: true };
            let answer = Answer::Weight(Command::S, Status::S, number);
            let written = write(&answer, &mut out);
            assert_eq!(written, if fits && (1..=5).contains(&decimals) { Ok(18) } else { Err(4) }, "{number:?}");
            if written.is_ok() {
                assert_eq!(read(&out[..18]), Some(answer));
                assert_eq!(write(&answer, &mut [0; 17]), Err(3));
            }
        }
    }
}

/// The random histories have weights of both ranges, and what they print is read again.
#[test]
fn histories_have_both_ranges() {
    let mut rng = Rng::new(14);
    let profiles = any_profiles(&mut rng, 64);
    let script = any_history(&mut rng, 64, 200_000);
    let (mut profile, mut state, mut out) = (Fast::profile(&profiles, 0), Fast::start(), [0; ROOM as usize]);
    let mut seen = [0usize; 2];
    for record in script.0.chunks_exact(CALL) {
        let record = record.try_into().expect("a whole record");
        if let Some(next) = profile_in::<Fast>(&profiles, record) {
            profile = next;
            continue;
        }
        let Outcome { count, .. } = call::<Fast>(&profile, &mut state, record, &mut out);
        if count == 0 || out.starts_with(b"I0 B") {
            continue;
        }
        let answer = read(&out[..count]).unwrap_or_else(|| panic!("{}", out[..count].escape_ascii()));
        if let Answer::Weight(_, _, number) = answer {
            seen[usize::from(number.coarse)] += 1;
        }
    }
    assert!(seen.iter().all(|&weights| weights > 100), "{seen:?}");
}

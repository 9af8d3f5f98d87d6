//! The paper's cases on this implementation, and constructed states, readings and histories.

use independent::buffer::{Taken, MOST_BYTES};
use independent::byte_sweeps::{command_lines, parts, short_lines, together, with_a_byte_wrong, SITUATIONS};
use independent::cases::{self, run};
use independent::compare::{script_bytes, shown};
use independent::decode::decode;
use independent::faults::Fault;
use independent::module::{Line, Module, Outcome, Repetition, Sample, State, Wait};
use independent::on_change::OnChange;
use independent::profile::{is_text, Profile};
use independent::random::{script, Rng};
use independent::reader::{line_of, write, Answer, Reader};
use independent::replay::{replay, replay_with};
use independent::sent_on_change::Follower;
use independent::singly::Singly;
use independent::sweeps;
use independent::tally::{Call, Tally};
use independent::weight::{
    fits, fits_coarse, last_places, number_text, printed, ten_to, typed_number, typed_tare, weight_text, Range, Scale, Unit,
    UNITS,
};
use std::cell::OnceCell;

const MODULE: Module = Module { fault: None };

#[test]
fn bench_cases_and_worked_examples() {
    for case in cases::all() {
        let told = replay(case.script.as_bytes());
        assert_eq!(shown(&told), shown(case.prints.as_bytes()), "{}", case.name);
    }
}

#[test]
fn the_list_has_258_bytes() {
    let told = replay(b"on\n> I0\n");
    assert_eq!(told.len(), 258 + b"I4 A \"VA-0001\"\r\n".len());
}

// Byte classes and names (document 02, No. 6). The module has no table of either: here is what one has to hold.

#[derive(Clone, Copy, Debug, PartialEq, Eq)]
enum Class {
    Digit,
    Capital,
    Space,
    Quote,
    Point,
    AtSign,
    Control,
    OtherText,
}

fn class_of(byte: u8) -> Class {
    match byte {
        48..=57 => Class::Digit,
        65..=90 => Class::Capital,
        32 => Class::Space,
        34 => Class::Quote,
        46 => Class::Point,
        64 => Class::AtSign,
        0..=31 => Class::Control,
        _ => Class::OtherText,
    }
}

const NAMES: [&str; 20] =
    ["@", "D", "DW", "I0", "I1", "I2", "I3", "I4", "I5", "M21", "S", "SI", "SIR", "SR", "T", "TA", "TAC", "TI", "Z", "ZI"];

#[test]
fn the_classes_have_their_sizes() {
    use Class::*;
    let size = |class: Class| (0..=255).filter(|&byte| class_of(byte) == class).count();
    let sizes = [Digit, Capital, Space, Quote, Point, AtSign, Control, OtherText].map(size);
    assert_eq!(sizes, [10, 26, 1, 1, 1, 1, 32, 184]);
    assert_eq!(sizes.iter().sum::<usize>(), 256);
}

/// What I0 lists, sorted, is each name once.
#[test]
fn the_names_stand_in_byte_order() {
    let told = String::from_utf8(replay(b"on\n> I0\n")).expect("a list");
    let mut listed: Vec<&str> = told.lines().filter_map(|line| line.strip_prefix("I0 ")?.split('"').nth(1)).collect();
    assert_ne!(listed, NAMES, "I0 has an order of its own");
    listed.sort_unstable_by_key(|name| name.as_bytes());
    assert_eq!(listed, NAMES);
    assert!(NAMES.windows(2).all(|two| two[0].as_bytes() < two[1].as_bytes()), "each once");
    let in_names = |byte: u8| matches!(class_of(byte), Class::Digit | Class::Capital | Class::AtSign);
    assert!(NAMES.iter().all(|name| (1..=3).contains(&name.len()) && name.bytes().all(in_names)));
}

/// What a line is answered after power-on and a stable sample.
fn answer_to(line: &[u8]) -> String {
    let mut state = State { latest: Some(Sample { load: 1000, stable: true }), ..State::default() };
    let (taken, room) = taken_from(&mut state, &[line, b"\r\n"].concat(), 384);
    assert_eq!((taken.taken, &state.line), (line.len() + 2, &Line::default()), "{}", line.escape_ascii());
    String::from_utf8(room[..taken.n].to_vec()).expect("an answer without high bytes")
}

/// In a text, after a name, as a name, as a number and within one.
#[test]
fn the_module_tells_bytes_apart_by_class() {
    for byte in 0..=255 {
        let class = class_of(byte);
        let control = class == Class::Control;
        let text = if control {
            "ES\r\n"
        } else if class == Class::Quote {
            "D L\r\n"
        } else {
            "D A\r\n"
        };
        assert_eq!(answer_to(&[b'D', b' ', b'"', byte, b'"']), text, "{byte} in a text");
        assert_eq!(is_text(&[byte], 1, None), !control && class != Class::Quote, "{byte} in a profile's text");
        let after_name = if class == Class::Space { "EL\r\n" } else { "ES\r\n" };
        assert_eq!(answer_to(&[b'D', b'W', byte]), after_name, "{byte} after a name");
        let alone = answer_to(&[byte]);
        assert_eq!(alone == "I4 A \"VA-0001\"\r\n", class == Class::AtSign, "{byte} alone");
        let is_name = class == Class::AtSign || (class == Class::Capital && b"DSTZ".contains(&byte));
        assert_eq!(alone != "ES\r\n", is_name, "{byte} alone");
        let wrong = if control { "ES\r\n" } else { "TA L\r\n" };
        let number = answer_to(&[b'T', b'A', b' ', byte, b' ', b'g']);
        let digit = format!("TA A     {}.0000 g\r\n", char::from(byte));
        assert_eq!(number, if class == Class::Digit { &digit } else { wrong }, "{byte} as a number");
        assert_eq!(typed_number(&[byte], None).is_some(), class == Class::Digit, "{byte} as a number");
        let within = answer_to(&[b'T', b'A', b' ', b'1', byte, b'5', b' ', b'g']);
        let due = match class {
            Class::Point => "TA A     1.5000 g\r\n".to_string(),
            Class::Digit => format!("TA A   1{}5.0000 g\r\n", char::from(byte)),
            _ => wrong.to_string(),
        };
        assert_eq!(within, due, "{byte} within a number");
    }
}

/// Orders 2 and 3 by the classes and the names in byte order alone: ES, EL, or neither.
fn error_by_classes(line: &[u8]) -> Option<&'static str> {
    let space = line.iter().position(|&byte| class_of(byte) == Class::Space);
    let name = &line[..space.unwrap_or(line.len())];
    let known = NAMES.binary_search_by(|known| known.as_bytes().cmp(name)).map(|at| NAMES[at]);
    let control = line.iter().any(|&byte| class_of(byte) == Class::Control);
    match known {
        Ok("D" | "TA" | "SR" | "M21") if !control => None,
        Ok(_) if !control => space.map(|_| "EL\r\n"),
        _ => Some("ES\r\n"),
    }
}

#[test]
fn every_line_is_judged_by_classes_and_names() {
    for line in parts().concat() {
        let answer = answer_to(&line);
        match error_by_classes(&line) {
            Some(error) if line == b"\r\n" => assert_eq!(answer, error.repeat(2), "two empty lines"),
            Some(error) => assert_eq!(answer, error, "{}", line.escape_ascii()),
            None => assert!(!answer.is_empty() && answer != "ES\r\n" && answer != "EL\r\n", "{}", line.escape_ascii()),
        }
    }
}

/// 17 names have one byte or two, and five of them a space behind.
#[test]
fn few_short_lines_are_commands() {
    let lines = short_lines();
    let (names, others): (Vec<&Vec<u8>>, Vec<&Vec<u8>>) =
        lines.iter().filter(|line| !answer_to(line).starts_with("ES")).partition(|line| !line.contains(&b' '));
    assert_eq!(names.len(), NAMES.iter().filter(|name| name.len() < 3).count());
    assert_eq!(names.len(), 17);
    assert_eq!(others, [b"@ ", b"D ", b"S ", b"T ", b"Z "]);
}

#[test]
fn the_sweeps_of_bytes_hold_every_line() {
    assert_eq!(short_lines().len(), 1 + 256 + 65_536);
    let lines = command_lines();
    assert_eq!((lines.len(), lines[..20].concat().len(), lines.concat().len()), (26, 38, 78));
    for line in &lines {
        let n = line.len();
        assert_eq!(with_a_byte_wrong(line.as_bytes()).len(), 256 * (n + 1) + 256 * n + n, "{line}");
    }
    let all = parts().concat();
    assert_eq!(all.len(), 65_793 + 24_614 + 22_056);
    for one in
        [&b"SIRX"[..], b"S\0", b"SI\0", b"M21\0", b"si", b"SIr", b"I", b"M2", b"TA\t1 g", b"TA 1:5 g", b"D \"\"\"", b"\r\n"]
    {
        assert!(all.iter().any(|line| line == one), "{}", one.escape_ascii());
    }
}

/// No whole buffer of the sweeps stops before its end.
#[test]
fn the_sweeps_have_room() {
    for situation in SITUATIONS {
        for script in together(situation) {
            let told = replay(&script_bytes(&script));
            let last = told.split(|&byte| byte == b'\n').rev().find(|line| !line.is_empty()).expect("a state");
            assert!(last.starts_with(b"state ") && !told.windows(5).any(|five| five == b"took "), "{}", shown(&told));
        }
    }
}

#[test]
fn captures_of_the_manuals() {
    for (line, prints) in cases::captures() {
        assert_eq!(shown(&decode(line.as_bytes())), shown(prints.as_bytes()), "{line:?}");
    }
}

// The replay program's own lines.

#[test]
fn calls_before_power_on() {
    assert_eq!(
        replay(b"> S\ns 1\nb 41\n# note\n\nroom 3\non\ns 1\nroom 256\non\ns 1\n"),
        b"?\r\n?\r\n?\r\nrefused 3\r\n?\r\nI4 A \"VA-0001\"\r\n"
    );
}

#[test]
fn a_refused_power_on_gives_the_state_back() {
    let script = b"on\ns 5000\n> T\nprofile 0 0 0 0\non\nprofile 220000000 1000000 4400000 3\n> TA\n";
    let told = replay(script);
    assert!(told.ends_with(b"refused 1\r\nTA A     0.0050 g\r\n"), "{}", shown(&told));
}

#[test]
fn texts_of_a_script() {
    let script = b"text 4 \non\ntext 4 123456789012345678901\ntext 5 \x80\xff\n> I5\ntext 2 a\"b\n> \n";
    let told = replay(script);
    assert_eq!(told, b"I4 A \"\"\r\n?\r\nI5 A \"\x80\xff\"\r\nrefused 1\r\nrefused 1\r\n");
}

/// Rooms go up to 4,096, and a `w` line has its bytes as `b` has them.
#[test]
fn the_forms_of_a_whole_buffer() {
    let odd: [&str; 29] = [
        "w ",
        "w  ",
        "w 5",
        "w 530",
        "w 53 ",
        "w  53",
        "w 53  0D",
        "w 5G",
        "w 53 0D 0",
        "w 53,0D",
        "w 53\r",
        "W 53",
        "w53",
        "w!",
        "w !",
        "w 53 !",
        "w !53",
        "w 53!!",
        "w 5!",
        "w 53! ",
        "w-",
        "w- ",
        "w-53",
        "w- -",
        "w+ ",
        "w+53",
        "w*",
        "w* 53",
        "w* 1 53",
    ];
    let script = odd.map(|line| format!("{line}\n")).concat();
    assert_eq!(replay(format!("on\n{script}").as_bytes()), [ON, &b"?\r\n".repeat(odd.len())].concat());
    let more = b"on\nw -\nroom 4097\nroom 00000000001\nw\t53\n";
    assert_eq!(replay(more), [ON, &b"?\r\n".repeat(4)].concat());
    let good = b"on\nroom 4096\nw 64 57 0d 0A\nw 44 57 0d 0a!\nw 0d 0a\nw 0D 0d\nw 0a\nw\n";
    assert_eq!(replay(good), [ON, b"ES\r\nET\r\nES\r\n"].concat());
}

#[test]
fn whole_buffers_before_power_on() {
    let script = format!("w\nw 53\nw+\nw+ 53\nw- 53\n{}\nroom 15\non\nw 53\n", run(4_097, "53"));
    assert_eq!(replay(script.as_bytes()), [&b"?\r\n".repeat(6)[..], b"refused 3\r\n?\r\n"].concat());
}

const ON: &[u8] = b"I4 A \"VA-0001\"\r\n";

// The line `state`.

/// What `state` prints after a script that power-on starts, without CR LF.
fn state_after(lines: &[&str]) -> String {
    let script = [&["on"], lines, &["state"]].concat().join("\n");
    let told = replay(script.as_bytes());
    let text = told.strip_suffix(b"\r\n").expect("CR LF").escape_ascii().to_string().replace("\\\"", "\"");
    text.rsplit("\\r\\n").next().expect("a line").to_string()
}

#[test]
fn the_state_after_power_on() {
    let told = replay(b"on\nstate\nstate");
    let line = "state zero 0 tare 0 sample none waits none repeats no shows weight line 0 unit g\r\n";
    assert_eq!(shown(&told), shown(format!("I4 A \"VA-0001\"\r\n{line}{line}").as_bytes()));
}

#[test]
fn the_state_is_no_call_and_one_word() {
    assert_eq!(replay(b"state\nroom 15\non\nstate\n"), b"?\r\nrefused 3\r\n?\r\n");
    let odd = b"on\nstate \n state\nState\nstate x\nstates\nstat\nstate\r\nSTATE\nstate 1\n";
    assert_eq!(replay(odd), [&b"I4 A \"VA-0001\"\r\n"[..], &b"?\r\n".repeat(9)].concat());
    let told = replay(b"on\nb 53\nprofile 0 0 0 0\nunit g 0 0\nroom 0\nstate\n");
    assert!(told.ends_with(b"\"\r\nstate zero 0 tare 0 sample none waits none repeats no shows weight line 1 unit g\r\n"));
}

/// Each word of each field once; the unit, which is the last, is g where it is not named.
#[test]
fn the_words_of_the_state() {
    let full = &format!("b{}", " 53".repeat(64))[..];
    let cases: &[(&[&str], &str)] = &[
        (&["s 4400000", "> Z"], "zero 4400000 tare 0 sample s 4400000 waits none repeats no shows weight line 0"),
        (&["u -70", "> ZI"], "zero -70 tare 0 sample u -70 waits none repeats no shows weight line 0"),
        (&["s 49", "> T"], "zero 0 tare 49 sample s 49 waits none repeats no shows weight line 0"),
        (&["> TA 220 g"], "zero 0 tare 220000000 sample none waits none repeats no shows weight line 0"),
        (&["s 2147483647"], "zero 0 tare 0 sample s 2147483647 waits none repeats no shows weight line 0"),
        (&["u -2147483648"], "zero 0 tare 0 sample u -2147483648 waits none repeats no shows weight line 0"),
        (&["> S"], "zero 0 tare 0 sample none waits S 0 repeats no shows weight line 0"),
        (&["u 5", "> T", "u 6"], "zero 0 tare 0 sample u 6 waits T 1 repeats no shows weight line 0"),
        (&["> Z", "u 5", "u -6"], "zero 0 tare 0 sample u -6 waits Z 2 repeats no shows weight line 0"),
        (&["> Z", "u 5", "u 6", "u 7"], "zero 0 tare 0 sample u 7 waits none repeats no shows weight line 0"),
        (&["u 5", "> SIR", "> T"], "zero 0 tare 0 sample u 5 waits T 0 repeats SIR shows weight line 0"),
        (&["> SR"], "zero 0 tare 0 sample none waits SR 0 - repeats no shows weight line 0"),
        (
            &["s 5", "> SIR", "u 6", "> SR 1 g", "u 7"],
            "zero 0 tare 0 sample u 7 waits SR 1 1000000 repeats no shows weight line 0",
        ),
        (&["s 5", "> SR"], "zero 0 tare 0 sample s 5 waits none repeats SR 5 - shows weight line 0"),
        (&["s -5", "> SR 2 g"], "zero 0 tare 0 sample s -5 waits none repeats SR -5 2000000 shows weight line 0"),
        (&["s 5", "> SR", "u 3005"], "zero 0 tare 0 sample u 3005 waits none repeats SR 5 - owed shows weight line 0"),
        (&["s 5", "> SR", "u 999999999"], "zero 0 tare 0 sample u 999999999 waits none repeats SR 5 - out shows weight line 0"),
        (
            &["s 5", "> SR 1 g", "u 3000000", "s -1000001", "> D \"A\""],
            "zero 0 tare 0 sample s -1000001 waits none repeats SR 5 1000000 owed out shows \"A\" line 0",
        ),
        (&["s 5", "> SR", "u 4000", "> Z", "u 0"], "zero 0 tare 0 sample u 0 waits Z 1 repeats SR 5 - owed shows weight line 0"),
        (&["> D \"HALLO 1\""], "zero 0 tare 0 sample none waits none repeats no shows \"HALLO 1\" line 0"),
        (&["> D \"\""], "zero 0 tare 0 sample none waits none repeats no shows \"\" line 0"),
        (&["b 44 20 22 80 FF 20 22 0D 0A"], "zero 0 tare 0 sample none waits none repeats no shows \"\\x80\\xff \" line 0"),
        (&["b 44 57"], "zero 0 tare 0 sample none waits none repeats no shows weight line 2"),
        (&["b 44 0D"], "zero 0 tare 0 sample none waits none repeats no shows weight line 1 cr"),
        (&["b 44 0D 0D"], "zero 0 tare 0 sample none waits none repeats no shows weight line 2 cr"),
        (&["b 44 0D 57"], "zero 0 tare 0 sample none waits none repeats no shows weight line 3"),
        (&["b 44 0D", "f 0A"], "zero 0 tare 0 sample none waits none repeats no shows weight line 3 faulty"),
        (&["b 44", "f 0D"], "zero 0 tare 0 sample none waits none repeats no shows weight line 2 faulty"),
        (&["f 44", "b 0D"], "zero 0 tare 0 sample none waits none repeats no shows weight line 1 faulty cr"),
        (&[full], "zero 0 tare 0 sample none waits none repeats no shows weight line 64"),
        (&[full, "b 0D"], "zero 0 tare 0 sample none waits none repeats no shows weight line 64 cr"),
        (&[full, "b 53"], "zero 0 tare 0 sample none waits none repeats no shows weight line 64 over"),
        (&[full, "b 0D 0D"], "zero 0 tare 0 sample none waits none repeats no shows weight line 64 over cr"),
        (&[full, "f 53"], "zero 0 tare 0 sample none waits none repeats no shows weight line 64 over faulty"),
        (&[full, "b 53", "f 53", "b 0D"], "zero 0 tare 0 sample none waits none repeats no shows weight line 64 over faulty cr"),
        (&[full, "b 53", "f 53", "b 0D 0A"], "zero 0 tare 0 sample none waits none repeats no shows weight line 0"),
        (&["> M21 0 0"], "zero 0 tare 0 sample none waits none repeats no shows weight line 0 unit g"),
        (&["> M21 0 3"], "zero 0 tare 0 sample none waits none repeats no shows weight line 0 unit mg"),
        (&["> M21 0 5"], "zero 0 tare 0 sample none waits none repeats no shows weight line 0 unit ct"),
        (&["> M21 0 8"], "zero 0 tare 0 sample none waits none repeats no shows weight line 0 unit oz"),
        (&["> M21 0 9"], "zero 0 tare 0 sample none waits none repeats no shows weight line 0 unit ozt"),
        (&["> M21 0 10"], "zero 0 tare 0 sample none waits none repeats no shows weight line 0 unit GN"),
        (&["> M21 0 11"], "zero 0 tare 0 sample none waits none repeats no shows weight line 0 unit dwt"),
        (&["> M21 0 1"], "zero 0 tare 0 sample none waits none repeats no shows weight line 0 unit kg"),
        (
            &["> M21 0 7", full, "f 53", "b 0D"],
            "zero 0 tare 0 sample none waits none repeats no shows weight line 64 over faulty cr unit lb",
        ),
    ];
    for (lines, words) in cases {
        let unit = if words.contains(" unit ") { "" } else { " unit g" };
        assert_eq!(state_after(lines), format!("state {words}{unit}"), "{lines:?}");
    }
}

// Constructed states.

/// The refusal of a byte and of a sample call, which have to leave state and buffer.
fn refusal_of(profile: &Profile, state: &State) -> u8 {
    let (mut one, mut other) = (state.clone(), state.clone());
    let mut buffer = [7; 384];
    let byte = MODULE.byte(profile, &mut one, b'S', 0, &mut buffer);
    assert_eq!((buffer, byte.n), ([7; 384], 0));
    let sample = MODULE.sample(profile, &mut other, Sample { load: 0, stable: true }, &mut [7; 384]);
    assert_eq!(byte.refusal, sample.refusal);
    assert!(byte.refusal == 0 || (&one == state && &other == state));
    // A whole buffer has the same one, also if it is empty; 5 comes after.
    let lengths = [(1, 1), (0, 0), (1, 0), (0, 1), (MOST_BYTES + 1, MOST_BYTES + 1)];
    for (bytes, marks) in lengths {
        let mut given = state.clone();
        let taken = MODULE.buffer(profile, &mut given, &vec![b'S'; bytes], &vec![0; marks], &mut buffer);
        let refusal = if byte.refusal == 0 && (bytes != marks || bytes > MOST_BYTES) { 5 } else { byte.refusal };
        assert_eq!(taken, Taken { refusal, n: 0, taken: if refusal == 0 { bytes } else { 0 } });
        assert!(buffer == [7; 384] && (taken.taken > 0 || &given == state));
    }
    byte.refusal
}

#[test]
fn constructed_states() {
    let fine = State { latest: Some(Sample { load: 1, stable: false }), ..State::default() };
    let wait = |unstable| Some(Wait { name: "S", unstable, threshold: None });
    let line = |length| Line { bytes: vec![b'S'; length], ..Line::default() };
    let cases = [
        (0, fine.clone()),
        (0, State { zero: 4_400_000, ..fine.clone() }),
        (2, State { zero: 4_400_001, ..fine.clone() }),
        (0, State { zero: -4_400_000, ..fine.clone() }),
        (2, State { zero: -4_400_001, ..fine.clone() }),
        (0, State { tare: 220_000_000, ..fine.clone() }),
        (2, State { tare: 220_000_001, ..fine.clone() }),
        (2, State { tare: -1, ..fine.clone() }),
        (0, State { line: line(64), ..fine.clone() }),
        (2, State { line: line(65), ..fine.clone() }),
        (0, State { shown: Some(vec![255; 20]), ..fine.clone() }),
        (2, State { shown: Some(vec![255; 21]), ..fine.clone() }),
        (2, State { shown: Some(vec![34]), ..fine.clone() }),
        (2, State { shown: Some(vec![31]), ..fine.clone() }),
        (0, State { waiting: wait(2), ..fine.clone() }),
        (2, State { waiting: wait(3), ..fine.clone() }),
        (0, State { repetition: Repetition::Sir, ..fine.clone() }),
        (2, State { repetition: Repetition::Sir, latest: None, ..fine.clone() }),
    ];
    refused_as_said(&cases);
}

/// Each state has the refusal beside it, and 1 where the profile is refused as well.
fn refused_as_said(cases: &[(u8, State)]) {
    let a = Profile::a();
    for (refusal, state) in cases {
        assert_eq!(refusal_of(&a, state), *refusal, "{state:?}");
        let bad = Profile { patience: 0, ..Profile::a() };
        assert_eq!(refusal_of(&bad, state), 1, "{state:?}");
    }
}

/// Document 02, No. 1. SR running beside SIR is no case: `Repetition` is one of three, so no such state can be built. Nor does an SR
/// that is off leave anything behind.
#[test]
fn constructed_states_of_sr() {
    let fine = State { latest: Some(Sample { load: 1, stable: false }), ..State::default() };
    let runs = |last, threshold| Repetition::Sr(OnChange { last, threshold, owed: true, out: true });
    let running = |last, threshold| State { repetition: runs(last, threshold), ..fine.clone() };
    let waiting = |threshold| State { waiting: Some(Wait { name: "SR", unstable: 2, threshold }), ..fine.clone() };
    refused_as_said(&[
        (0, running(0, None)),
        (2, State { latest: None, ..running(0, None) }),
        // The last net, from -(U+C) to C.
        (0, running(220_000_000, None)),
        (2, running(220_000_001, None)),
        (0, running(-221_000_000, None)),
        (2, running(-221_000_001, None)),
        (2, running(i64::MAX, None)),
        (2, running(i64::MIN, None)),
        // A set threshold, from 1 to C.
        (0, running(0, Some(1))),
        (2, running(0, Some(0))),
        (2, running(0, Some(-1))),
        (0, running(0, Some(220_000_000))),
        (2, running(0, Some(220_000_001))),
        // The same of a waiting SR, which needs no sample.
        (0, waiting(None)),
        (0, State { latest: None, ..waiting(None) }),
        (0, waiting(Some(1))),
        (2, waiting(Some(0))),
        (2, waiting(Some(-1))),
        (0, waiting(Some(220_000_000))),
        (2, waiting(Some(220_000_001))),
        (2, State { latest: None, ..waiting(Some(0)) }),
        (2, State { waiting: Some(Wait { name: "SR", unstable: 3, threshold: None }), ..fine.clone() }),
    ]);
}

// Units.

#[test]
fn the_units_and_their_codes() {
    let told = UNITS.map(|unit| (unit.index(), unit.name(), unit.code(), unit.nanograms()));
    let nine = [
        (0, "g", "0", 1_000_000_000),
        (1, "mg", "3", 1_000_000),
        (2, "ct", "5", 200_000_000),
        (3, "oz", "8", 28_349_523_125),
        (4, "ozt", "9", 31_103_476_800),
        (5, "GN", "10", 64_798_910),
        (6, "dwt", "11", 1_555_173_840),
        (7, "kg", "1", 1_000_000_000_000),
        (8, "lb", "7", 453_592_370_000),
    ];
    assert_eq!(told, nine);
    for code in 0..10_000 {
        let unit = Unit::coded(code.to_string().as_bytes());
        assert_eq!(unit.map(Unit::code), nine.iter().map(|(_, _, code, _)| *code).find(|known| *known == code.to_string()));
    }
}

/// Every state and every unit: a set unit answers `M21 A` and changes nothing else; a query changes nothing at all.
#[test]
fn a_unit_moves_nothing_else() {
    let fine = State { latest: Some(Sample { load: 1, stable: false }), zero: -7, tare: 9, ..State::default() };
    let memory = OnChange { last: -9, threshold: Some(4), owed: true, out: true };
    let states = [
        State::default(),
        fine.clone(),
        State { shown: Some(b"A".to_vec()), ..fine.clone() },
        State { repetition: Repetition::Sir, ..fine.clone() },
        State { repetition: Repetition::Sr(memory), ..fine.clone() },
        State { waiting: Some(Wait { name: "T", unstable: 2, threshold: None }), ..fine.clone() },
    ];
    let (mut room, bytes) = ([0; 384], |line: String| format!("{line}\r\n").into_bytes());
    for (given, from) in states.iter().flat_map(|state| UNITS.map(|from| (State { unit: from, ..state.clone() }, from))) {
        let mut taken = |line: String| {
            let (mut state, line) = (given.clone(), bytes(line));
            let taken = MODULE.buffer(&Profile::a(), &mut state, &line, &vec![0; line.len()], &mut room);
            assert_eq!((taken.refusal, taken.taken), (0, line.len()));
            (String::from_utf8_lossy(&room[..taken.n]).into_owned(), state)
        };
        let waits = given.waiting.is_some();
        let asked = if waits { "M21 I\r\n".to_string() } else { format!("M21 A 0 {}\r\n", from.code()) };
        assert_eq!(taken("M21".to_string()), (asked, given.clone()));
        for to in UNITS {
            let set = if waits { ("M21 I\r\n", given.clone()) } else { ("M21 A\r\n", State { unit: to, ..given.clone() }) };
            let (answer, state) = taken(format!("M21 0 {}", to.code()));
            assert_eq!((answer.as_str(), state), set);
        }
        let wrong = if waits { "M21 I\r\n" } else { "M21 L\r\n" };
        assert_eq!(taken("M21 0 2".to_string()), (wrong.to_string(), given.clone()));
    }
}

/// One unit's decimals and step broken alone refuse the profile whichever unit is in force, at power-on and at every call.
#[test]
fn each_unit_is_tested_alone() {
    for scale in sweeps::scales() {
        let profile = Profile { margin: 9, zeroing: 9, ..Profile::a() }.with_capacity(1_000).with_scale(scale);
        let Scale { unit, decimals, step } = scale;
        let fine = i128::from(step) * unit.nanograms() >= 1000 * ten_to(decimals.into());
        let good = decimals <= 6 && [1, 2, 5].contains(&step) && fine;
        for in_force in UNITS {
            let state = State { unit: in_force, ..State::default() };
            assert_eq!(refusal_of(&profile, &state), u8::from(!good), "{scale:?} {in_force:?}");
        }
        let on = MODULE.power_on(&profile, &mut State::default(), &mut [0; 384]).refusal;
        assert_eq!(on, u8::from(!good), "{scale:?}");
    }
}

// Whole buffers.

/// The call on a state that it may change, with as many good marks, in a room of sevens; gives the room too.
fn taken_from(state: &mut State, bytes: &[u8], room: usize) -> (Taken, Vec<u8>) {
    let mut buffer = vec![7; room];
    let taken = MODULE.buffer(&Profile::a(), state, bytes, &vec![0; bytes.len()], &mut buffer);
    (taken, buffer)
}

#[test]
fn lengths_of_a_whole_buffer() {
    let taken = |bytes: usize, marks: usize| {
        let (mut state, mut room) = (State::default(), [7; 4]);
        let taken = MODULE.buffer(&Profile::a(), &mut state, &vec![b'\n'; bytes], &vec![0; marks], &mut room);
        assert!(room == [7; 4] && (taken.refusal == 0 || state == State::default()));
        taken
    };
    for good in [0, 1, 2, 4_095, 4_096] {
        assert_eq!(taken(good, good), Taken { refusal: 0, n: 0, taken: good });
    }
    for (bytes, marks) in [(0, 1), (1, 0), (1, 2), (2, 1), (4_096, 4_095), (4_095, 4_096), (4_096, 4_097), (4_097, 4_096)] {
        assert_eq!(taken(bytes, marks), Taken { refusal: 5, n: 0, taken: 0 });
    }
    for long in [4_097, 4_098, 8_192, 65_536, 65_537] {
        assert_eq!(taken(long, long), Taken { refusal: 5, n: 0, taken: 0 });
    }
}

#[test]
fn every_mark_but_0_is_faulty() {
    let (bytes, mut room) = (b"S\r\n\r\n", [7; 5]);
    for mark in 1..=255 {
        let taken = MODULE.buffer(&Profile::a(), &mut State::default(), bytes, &[0, mark, 0, 0, 0], &mut room);
        assert_eq!((taken, &room), (Taken { refusal: 0, n: 4, taken: 5 }, b"ET\r\n\x07"));
    }
}

/// `S I` twice in every room: what is left of it is as before.
#[test]
fn rooms_of_a_whole_buffer() {
    for room in 0..=12 {
        let answers = room.min(10) / 5;
        let (taken, told) = taken_from(&mut State::default(), b"SI\r\nSI\r\n", room);
        let bytes = [3, 7, 8][answers];
        assert_eq!(taken, Taken { refusal: 0, n: 5 * answers, taken: bytes }, "room {room}");
        assert_eq!(told, [&b"S I\r\n".repeat(answers)[..], &vec![7; room - 5 * answers]].concat());
    }
    for (room, taken) in [(257, (0, 3)), (258, (258, 6)), (261, (258, 6)), (262, (262, 7))] {
        let told = taken_from(&mut State::default(), b"I0\r\nQ\r\n", room).0;
        assert_eq!((told.refusal, (told.n, told.taken)), (0, taken), "room {room}");
    }
}

/// Cut in two anywhere, and stopped by any room and then sent on, a buffer gives the same answers and the same end.
#[test]
fn a_buffer_in_pieces() {
    let bytes = b"DW\r\nS\rI\nD \"A\"\r\nTA 1 g\r\nM21 0 5\r\nM21\r\n\r\nSI\r\nI1\r\nSR\r\n@ \r\nSI\r\n@\r\nQ";
    let started = State { latest: Some(Sample { load: 7, stable: false }), ..State::default() };
    let mut ended = started.clone();
    let (whole, answers) = taken_from(&mut ended, bytes, 384);
    assert_eq!(whole.taken, bytes.len());
    for cut in 0..=bytes.len() {
        let mut state = started.clone();
        let (first, one) = taken_from(&mut state, &bytes[..cut], 384);
        let (second, other) = taken_from(&mut state, &bytes[cut..], 384);
        assert_eq!([&one[..first.n], &other[..second.n]].concat(), &answers[..whole.n], "cut at {cut}");
        assert_eq!(state, ended, "cut at {cut}");
    }
    for room in 0..=whole.n {
        let mut state = started.clone();
        let (first, one) = taken_from(&mut state, bytes, room);
        let (second, other) = taken_from(&mut state, &bytes[first.taken..], 384);
        assert_eq!([&one[..first.n], &other[..second.n]].concat(), &answers[..whole.n], "room {room}");
        assert_eq!((first.taken + second.taken, &state), (bytes.len(), &ended), "room {room}");
    }
}

/// From power-on: a whole buffer, the bytes that it took, and what it answered, in a room.
fn judged_singly(bytes: &[u8], marks: usize, refusal: u8, taken: usize, room: usize, answer: &[u8]) -> Result<(), String> {
    let (marks, profile, given) = (vec![0; marks], Profile::a(), State::default());
    let singly =
        Singly { module: MODULE, profile: &profile, given, bytes, marks: &marks, count: taken, answers: OnceCell::new() };
    singly.judge(refusal, room, answer)
}

/// Each of these is followed by what it must not be.
#[test]
fn a_whole_buffer_beside_its_bytes_taken_singly() {
    let twice = |taken, room, answer: &[u8]| judged_singly(b"SI\r\nSI\r\n", 8, 0, taken, room, answer);
    assert_eq!(twice(8, 10, b"S I\r\nS I\r\n"), Ok(()));
    assert!(twice(8, 10, b"S I\r\n").is_err(), "an answer is missing");
    assert!(twice(8, 10, b"S I\r\nS L\r\n").is_err(), "another answer");
    assert!(twice(7, 10, b"S I\r\n").is_err(), "the room does not run out");
    assert_eq!(twice(7, 9, b"S I\r\n"), Ok(()));
    assert!(twice(8, 9, b"S I\r\n").is_err(), "a byte is taken whose answer is lost");
    assert!(twice(6, 9, b"S I\r\n").is_err(), "stopped before a byte that needs no room");
    assert!(twice(3, 9, b"").is_err(), "stopped before an answer that fits");
    assert_eq!(twice(3, 4, b""), Ok(()));
    let lengths = |bytes: usize, marks, refusal| {
        judged_singly(&vec![b'S'; bytes], marks, refusal, if refusal == 0 { bytes } else { 0 }, 4, b"")
    };
    assert_eq!((lengths(4_096, 4_096, 0), lengths(4_097, 4_097, 5)), (Ok(()), Ok(())));
    assert!(lengths(4_096, 4_096, 5).is_err() && lengths(4_097, 4_097, 0).is_err());
    assert_eq!((lengths(1, 1, 0), lengths(1, 0, 5), lengths(0, 1, 5), lengths(0, 0, 0)), (Ok(()), Ok(()), Ok(()), Ok(())));
    assert!(lengths(1, 0, 0).is_err() && lengths(0, 1, 0).is_err() && lengths(0, 0, 5).is_err());
    assert!(lengths(1, 1, 3).is_err() && lengths(1, 1, 4).is_err());
}

#[test]
fn power_on_reads_no_state() {
    let bad = State { zero: i64::MAX, tare: -5, repetition: Repetition::Sir, ..State::default() };
    let mut state = bad.clone();
    let mut buffer = [7; 20];
    assert_eq!(MODULE.power_on(&Profile::a(), &mut state, &mut buffer[..15]), Outcome { refusal: 3, n: 0 });
    assert_eq!((&state, buffer), (&bad, [7; 20]));
    assert_eq!(MODULE.power_on(&Profile::a(), &mut state, &mut buffer[..16]), Outcome { refusal: 0, n: 16 });
    assert_eq!((state, &buffer), (State::default(), b"I4 A \"VA-0001\"\r\n\x07\x07\x07\x07"));
}

#[test]
fn texts_too_long_are_refused() {
    for (at, room) in [(0, 40), (1, 40), (2, 20), (3, 20)] {
        let mut profile = Profile::a();
        profile.texts[at] = vec![b'x'; room];
        assert!(!profile.is_refused(None));
        profile.texts[at].push(b'x');
        assert!(profile.is_refused(None));
    }
}

#[test]
fn the_display_shows_a_text_or_the_weight() {
    let mut state = State::default();
    let mut send = |line: &[u8]| {
        for byte in line {
            MODULE.byte(&Profile::a(), &mut state, *byte, 0, &mut [0; 384]);
        }
        state.shown.clone()
    };
    assert_eq!(send(b"D \"HALLO\"\r\n"), Some(b"HALLO".to_vec()));
    assert_eq!(send(b"D \"HA\r\n"), Some(b"HALLO".to_vec()));
    assert_eq!(send(b"D \"\"\r\n"), Some(vec![]));
    assert_eq!(send(b"DW\r\n"), None);
    assert_eq!(send(b"D \"x\"\r\n"), Some(b"x".to_vec()));
    assert_eq!(send(b"@\r\n"), None);
}

#[test]
fn the_largest_answers_fit_384_bytes() {
    assert!(replay(b"on\n> I0\n").len() - 16 <= 384);
}

#[test]
fn numbers_without_decimals_have_no_point() {
    let scale = Scale { unit: Unit::Milligram, decimals: 0, step: 2 };
    assert_eq!(printed(2_999, scale, None), "2");
    assert_eq!(printed(3_000, scale, None), "4");
    assert_eq!(printed(-3_000, scale, None), "-4");
    assert_eq!(printed(-999, scale, None), "0");
}

/// Around every power of ten of each scale.
#[test]
fn what_fits_is_ten_characters() {
    for scale in sweeps::allowed_scales() {
        for power in 0..11 {
            let edge = ten_to(power) * scale.unit.nanograms() / (1000 * ten_to(scale.decimals.into()));
            let near = (edge - 9..edge + 9).chain([edge - edge / 1_000_000, edge + edge / 1_000_000]);
            for net in near.flat_map(|net| [net, -net]) {
                assert_eq!(fits(net, scale, None), printed(net, scale, None).len() <= 10, "{net} of {scale:?}");
                let coarse = printed(net, scale.in_range(Range::Coarse), None);
                assert!(scale.decimals < 2 || fits_coarse(net, scale, None) == (coarse.len() <= 9), "{net} of {scale:?}");
            }
        }
    }
}

// Typed tares.

/// The whole number nearest to a / b, a tie upwards: by the rest.
fn nearest(a: i128, b: i128) -> i128 {
    a / b + i128::from(2 * (a % b) >= b)
}

/// The last places and the micrograms of a typed tare.
fn both_roundings(number: &str, Scale { unit, decimals, step }: Scale) -> (i128, i128) {
    let (digits, typed) = typed_number(number.as_bytes(), None).expect("a number");
    let (k, shown) = (i128::from(step), ten_to(decimals.into()));
    let places = nearest(digits * shown, k * ten_to(typed)) * k;
    (places, nearest(places * unit.nanograms(), 1000 * shown))
}

/// The answer to a line with a unit in force, and the state after it.
fn answered(profile: &Profile, unit: Unit, line: &str) -> (String, State) {
    let (mut state, mut room) = (State { tare: 1, unit, ..State::default() }, [0; 384]);
    let mut told = vec![];
    for byte in format!("{line}\r\n").bytes() {
        let Outcome { refusal, n } = MODULE.byte(profile, &mut state, byte, 0, &mut room);
        assert_eq!(refusal, 0, "{line} on {profile:?}");
        told = room[..n].to_vec();
    }
    (String::from_utf8(told).expect("characters"), state)
}

/// The ten characters of the answer to a typed tare are the rounded decimal, and typing them sets the same tare again. True if it
/// is granted.
fn is_read_back(profile: &Profile, scale: Scale, number: &str) -> bool {
    let unit = scale.unit.name();
    let (places, tare) = both_roundings(number, scale);
    let (answer, state) = answered(profile, scale.unit, &format!("TA {number} {unit}"));
    if tare > profile.capacity.into() {
        assert_eq!((answer.as_str(), state.tare), ("TA L\r\n", 1), "{number} on {profile:?}");
        return false;
    }
    let decimal = number_text(places, scale.decimals, false);
    assert_eq!(answer, format!("TA A {decimal:>10} {unit}\r\n"), "{number} on {profile:?}");
    assert_eq!(i128::from(state.tare), tare, "{number} on {profile:?}");
    let again = answered(profile, scale.unit, &format!("TA {} {unit}", answer[5..15].trim_start()));
    assert_eq!(again, (answer, state), "{number} on {profile:?}");
    true
}

/// A display step is a microgram or more, so that the second rounding moves a decimal by less than half a step.
#[test]
fn what_ta_answers_is_what_it_set() {
    let mut rng = Rng::new(3);
    for scale in sweeps::allowed_scales() {
        let profile = sweeps::with_widest_capacity(scale);
        let ties = sweeps::second_ties(profile.capacity.into(), scale).into_iter().flatten();
        let halves = (0..12).chain(ties.flat_map(|steps| 2 * steps - 1..=2 * steps + 1));
        let numbers = halves.flat_map(|halves| sweeps::typed_halves(halves, scale));
        let granted = numbers.filter(|number| is_read_back(&profile, scale, number)).count();
        assert!(granted > 0, "{scale:?}");
        for _ in 0..60 {
            let decimals = rng.below(7);
            let digits = rng.below(if decimals == 0 { 10 } else { 9 }) as u32;
            let number = i128::from(rng.next()).rem_euclid(10 * ten_to(digits));
            is_read_back(&profile, scale, &number_text(number, decimals as u8, false));
        }
        for largest in ["9999999999", "99999999.9", "9999.99999", "999.999999", "0000000000", "0.000001"] {
            is_read_back(&profile, scale, largest);
        }
    }
}

/// The same by arithmetic alone, for many display steps of each scale.
#[test]
fn every_display_step_is_read_back() {
    let mut rng = Rng::new(4);
    for scale in sweeps::allowed_scales() {
        let capacity = i128::from(sweeps::with_widest_capacity(scale).capacity);
        let most = last_places(capacity, scale, None) / i128::from(scale.step);
        let any = (0..3_000).map(|_| i128::from(rng.next()) % (most + 1));
        for steps in (0..=3_000.min(most)).chain((most - 3_000).max(0)..=most).chain(any) {
            let places = steps * i128::from(scale.step);
            let number = number_text(places, scale.decimals, false);
            let tare = typed_tare(number.as_bytes(), scale, None).expect("a number");
            assert_eq!((places, tare), both_roundings(&number, scale));
            assert_eq!(last_places(tare, scale, None), places, "{number} of {scale:?}");
        }
    }
}

/// Where a decimal can stand halfway between two micrograms.
#[test]
fn ties_of_the_second_rounding() {
    for scale in sweeps::allowed_scales() {
        let Scale { unit, decimals, step } = scale;
        let fewest = match (unit, step) {
            (Unit::Gram | Unit::Milligram | Unit::Carat | Unit::Kilogram, _) => None,
            (Unit::Ounce | Unit::Grain, _) => Some(0),
            (Unit::TroyOunce, 2) => Some(5),
            (Unit::TroyOunce, _) => Some(4),
            (Unit::Pennyweight, 2) => Some(3),
            (Unit::Pennyweight, _) => Some(2),
            (Unit::Pound, 2) => Some(3),
            (Unit::Pound, _) => Some(2),
        };
        let ties = sweeps::second_ties(sweeps::with_widest_capacity(scale).capacity.into(), scale);
        assert_eq!(ties.is_some(), fewest.is_some_and(|fewest| decimals >= fewest), "{scale:?}");
    }
}

// Ranges (document 02, No. 7).

/// net x 1,000 x 10^d / unit to the nearest multiple of 10 k, a tie away from zero: by the rest.
fn to_ten_steps(net: i128, Scale { unit, decimals, step }: Scale) -> i128 {
    let ten = 10 * i128::from(step);
    net.signum() * nearest(net.abs() * 1000 * ten_to(decimals.into()), ten * unit.nanograms()) * ten
}

/// In every scale that a coarse range can have: the number in the coarse range is that of fine last places without the last, which is a
/// zero; the field has ten characters, of which a space is the last, as a digit is in the fine range.
#[test]
fn the_coarse_field_leaves_the_last_place_out() {
    let mut rng = Rng::new(7);
    for scale in sweeps::coarse_scales() {
        let Profile { capacity, .. } = sweeps::widest_coarse(scale);
        let step = 10 * i128::from(scale.step) * scale.unit.nanograms() / (1000 * ten_to(scale.decimals.into()));
        let small = (0..4).flat_map(|halves| (-1..=1).map(move |beside| halves * step / 2 + beside));
        let any = (0..200).map(|_| i128::from(rng.next()) % (i128::from(capacity) + 1));
        for net in small.chain(any).chain([capacity.into()]).flat_map(|net| [net, -net]) {
            let places = to_ten_steps(net, scale);
            assert_eq!(places, 10 * last_places(net, scale.in_range(Range::Coarse), None), "{net} of {scale:?}");
            let number = number_text(places, scale.decimals, places < 0);
            let unit = scale.unit.name();
            let cut = number.strip_suffix('0').expect("a multiple of ten");
            assert_eq!(
                weight_text(net, scale, Range::Coarse, None),
                format!("{:>10} {unit}", format!("{cut} ")),
                "{net} of {scale:?}"
            );
            for range in [Range::Fine, Range::Coarse] {
                let text = weight_text(net, scale, range, None);
                assert_eq!((text.len(), text.as_bytes()[9] == b' '), (11 + unit.len(), range == Range::Coarse), "{text}");
            }
        }
    }
}

/// Each side of each limit, whichever unit is in force; a refused call leaves state and buffer.
#[test]
fn fine_limits_that_are_refused() {
    let a = Profile::a();
    let limits = [(0, 0), (1, 0), (219_999_999, 0), (220_000_000, 0), (220_000_001, 1), (u32::MAX, 1)];
    for ((fine, refusal), unit) in limits.into_iter().flat_map(|limit| UNITS.map(|unit| (limit, unit))) {
        let state = State { unit, ..State::default() };
        assert_eq!(refusal_of(&Profile { fine, ..a.clone() }, &state), refusal, "{fine}");
        for decimals in 0..3 {
            let fewer = Profile { fine, ..a.clone() }.with_scale(Scale { unit, decimals, step: 1 });
            let due = u8::from(refusal == 1 || (decimals < 2 && fine < a.capacity));
            for in_force in UNITS {
                let state = State { unit: in_force, ..State::default() };
                assert_eq!(refusal_of(&fewer, &state), due, "{fine} {unit:?} {decimals}");
            }
            assert_eq!(MODULE.power_on(&fewer, &mut State::default(), &mut [0; 384]).refusal, due, "{fine} {unit:?} {decimals}");
        }
    }
}

/// The widest capacity beside a coarse range and one more. What fits coarse fits fine, and the lower end decides.
#[test]
fn the_lower_end_decides_what_fits_coarse() {
    let mut drawn_in = 0;
    for scale in sweeps::coarse_scales() {
        let widest = sweeps::widest_coarse(scale);
        let no_range = Profile { fine: widest.capacity, ..widest.clone() };
        assert!(!widest.is_refused(None) && !no_range.is_refused(None), "{scale:?}");
        let wider = widest.clone().with_capacity(widest.capacity + 1);
        assert!(wider.is_refused(None), "{scale:?}");
        let just_below = Profile { fine: wider.capacity - 1, ..wider.clone() };
        assert!(just_below.is_refused(None), "{scale:?}");
        drawn_in += usize::from(!Profile { fine: wider.capacity, ..wider }.is_refused(None));
        let edge = i128::from(widest.capacity);
        for net in (edge - 40..edge + 40).chain([edge / 2, 2 * edge]) {
            let lower = fits_coarse(-net, scale, None);
            assert!(
                !lower || (fits_coarse(net, scale, None) && fits(-net, scale, None) && fits(net, scale, None)),
                "{net} {scale:?}"
            );
        }
    }
    assert!(drawn_in > 20, "the coarse range alone refuses {drawn_in} of them");
}

/// Tare and answer of typed numbers beside each limit, by the rule: the number itself decides the step, the stored tare the range.
#[test]
fn the_number_decides_the_step_and_the_tare_the_answer() {
    for scale in sweeps::coarse_scales() {
        let widest = sweeps::widest_coarse(scale);
        for fine in sweeps::limits_of(&widest, scale).into_iter().chain([widest.capacity]) {
            let profile = Profile { fine, ..widest.clone() };
            let (unit, limit) = (scale.unit.name(), i128::from(fine));
            for decimals in 0..7u8 {
                let at = limit * 1000 * ten_to(decimals.into()) / scale.unit.nanograms();
                for number in [at - 1, at, at + 1, at + 4, at + 5, at + 49, at + 50].into_iter().filter(|number| *number >= 0) {
                    let text = number_text(number, decimals, false);
                    if text.len() > 10 {
                        continue;
                    }
                    let above = number * scale.unit.nanograms() > limit * 1000 * ten_to(decimals.into());
                    let range = if above && fine < profile.capacity { Range::Coarse } else { Range::Fine };
                    let (_, tare) = both_roundings(&text, scale.in_range(range));
                    let told = answered(&profile, scale.unit, &format!("TA {text} {unit}"));
                    if tare > profile.capacity.into() {
                        assert_eq!((told.0.as_str(), told.1.tare), ("TA L\r\n", 1), "{text} on {profile:?}");
                        continue;
                    }
                    let weight = weight_text(tare, scale, if tare > limit { Range::Coarse } else { Range::Fine }, None);
                    assert_eq!((told.0, i128::from(told.1.tare)), (format!("TA A {weight}\r\n"), tare), "{text} on {profile:?}");
                }
            }
        }
    }
}

/// Random histories: where F = C no weight is coarse, and where F < C both ranges are met often.
#[test]
fn without_a_coarse_range_no_weight_is_coarse() {
    let (mut rng, mut met) = (Rng::new(5), [[0; 2]; 2]);
    for _ in 0..300 {
        let script = script_bytes(&script(&mut rng));
        replay_with(MODULE, &script, &mut |event| {
            if let Some(Answer::Weight { range, .. }) = Reader::default().read(event.answer) {
                met[usize::from(event.profile.has_coarse_range())][usize::from(range == Range::Coarse)] += 1;
            }
        });
    }
    let [[old, none], [fine, coarse]] = met;
    assert!(none == 0 && old > 400 && fine > 400 && coarse > 400, "{met:?}");
}

// The tally.

fn tallied(history: &[(&str, &str)]) -> Result<(), String> {
    Tally::new(&Profile::a()).take_lines(history)
}

#[test]
fn the_tally_allows_half_a_step() {
    assert!(tallied(&[("14256050", ""), ("S", "S S    14.2561 g")]).is_ok());
    assert!(tallied(&[("14256050", ""), ("S", "S S    14.2560 g")]).is_ok());
    assert!(tallied(&[("14256051", ""), ("S", "S S    14.2560 g")]).is_err());
    assert!(tallied(&[("-50", ""), ("S", "S S    -0.0001 g")]).is_ok());
    assert!(tallied(&[("S", "S S     0.0000 g")]).is_err());
}

#[test]
fn the_tally_follows_zero_and_tare() {
    assert!(tallied(&[("70", ""), ("Z", "Z A"), ("S", "S S     0.0000 g")]).is_ok());
    assert!(tallied(&[("70", ""), ("Z", "Z +"), ("S", "S S     0.0000 g")]).is_err());
    assert!(tallied(&[("10000040", ""), ("T", "T S    10.0000 g"), ("10000100", ""), ("S", "S S     0.0001 g")]).is_ok());
    assert!(tallied(&[("10000040", ""), ("T", "T S    10.0000 g"), ("10000089", ""), ("S", "S S     0.0001 g")]).is_err());
    assert!(tallied(&[("TA 1.5 g", "TA A     1.5000 g"), ("1500051", ""), ("S", "S S     0.0001 g")]).is_ok());
    assert!(tallied(&[("TA 1.5 g", "TA A     1.5000 g"), ("1500048", ""), ("S", "S S     0.0001 g")]).is_err());
    assert!(tallied(&[("70000", ""), ("T", "T S     0.0700 g"), ("@", "I4 A \"\""), ("S", "S S     0.0700 g")]).is_ok());
    assert!(tallied(&[("70000", ""), ("T", "T S     0.0700 g"), ("@", "I4 A \"\""), ("S", "S S     0.0000 g")]).is_err());
}

#[test]
fn the_tally_thinks_of_each_history_as_said() {
    for history in cases::histories() {
        let told = Tally::new(&history.profile()).take_lines(&history.calls);
        assert_eq!(told.is_ok(), history.accepted, "{}: {told:?}", history.name);
    }
    // Document 01's tally, which read the number unrounded, thought otherwise of the first two.
    for history in &cases::histories()[..2] {
        let former = Tally::faulty(&history.profile(), Some(Fault::TallyReadsUnrounded)).take_lines(&history.calls);
        assert_ne!(former.is_ok(), history.accepted, "{}: {former:?}", history.name);
    }
}

/// Every unit once: a number of its last places is read with it and with no other, and a history without M21 is read in g.
#[test]
fn the_tally_reads_with_the_unit_in_force() {
    for (unit, other) in UNITS.into_iter().flat_map(|unit| UNITS.map(|other| (unit, other))) {
        let load = (unit.nanograms() / 100_000).min(200_000_000);
        let number = weight_text(load, Profile::a().scale(unit), Range::Fine, None);
        let (line, load, answer) = (format!("M21 0 {}", other.code()), load.to_string(), format!("S S {number}"));
        let set = |line: &str, told: &str| tallied(&[(line, told), (&load, ""), ("SI", &answer)]).is_ok();
        assert_eq!(set(&line, "M21 A"), unit == other, "{unit:?} {other:?}");
        assert_eq!(set(&line, "M21 L"), unit == Unit::Gram, "{unit:?} {other:?}");
        assert_eq!(set("M21", &format!("M21 A 0 {}", other.code())), unit == Unit::Gram, "{unit:?} {other:?}");
    }
}

/// Whole buffers and refused calls: a unit is set by the bytes taken, with their own answers.
#[test]
fn the_tally_takes_units_from_whole_buffers() {
    let after = |taken: &[(Call, Vec<u8>)], refusal: u8, told: &str| {
        let mut tally = Tally::new(&Profile::a());
        tally.take_all(taken)?;
        tally.take(Call::Byte { byte: b'\n', good: true }, refusal, b"M21 A\r\n")?;
        tally.take(Call::Sample { load: 200_000, stable: true }, 0, format!("{told}\r\n").as_bytes())
    };
    let (grams, carats) = ("S S     0.2000 g", "S S       1.00 ct");
    let set = two_lines(b"M21 0 8\r\n", "M21 A\r\n", b"M21 0 5\r\n", "M21 A\r\n");
    assert_eq!((after(&set, 0, carats), after(&set, 0, grams).is_err()), (Ok(()), true));
    let stopped = two_lines(b"DW\r\n", "DW A\r\n", b"M21 0 5\r", "");
    assert_eq!((after(&stopped, 0, carats), after(&stopped, 0, grams).is_err()), (Ok(()), true));
    assert_eq!((after(&stopped, 3, grams), after(&stopped, 3, carats).is_err()), (Ok(()), true));
}

/// The bytes of a whole buffer that were taken, each with its own answer: that of the first line and that of the second.
fn two_lines(first: &[u8], one: &str, second: &[u8], other: &str) -> Vec<(Call, Vec<u8>)> {
    let bytes = |line: &[u8]| line.iter().map(|&byte| (Call::Byte { byte, good: true }, vec![])).collect::<Vec<_>>();
    let (mut taken, more) = (bytes(first), bytes(second));
    taken.last_mut().expect("a byte").1 = one.as_bytes().to_vec();
    taken.extend(more);
    taken.last_mut().expect("a byte").1 = other.as_bytes().to_vec();
    taken
}

/// A whole buffer is the bytes that it took: no other, and each with its answer.
#[test]
fn the_tally_takes_a_whole_buffer_by_its_bytes() {
    let after = |taken: &[(Call, Vec<u8>)], next: &str| {
        let mut tally = Tally::new(&Profile::a());
        tally.take(Call::Sample { load: 5_000, stable: true }, 0, b"")?;
        tally.take_all(taken)?;
        tally.take(Call::Byte { byte: b'\n', good: true }, 0, next.as_bytes())
    };
    let tared = "T S     0.0050 g\r\n";
    let whole = two_lines(b"T\r\n", tared, b"SI\r\n", "S S     0.0000 g\r\n");
    assert_eq!(after(&whole, ""), Ok(()));
    assert!(after(&two_lines(b"T\r\n", tared, b"SI\r\n", "S S     0.0050 g\r\n"), "").is_err(), "the tare counts in one call");
    assert!(after(&two_lines(b"SI\r\n", tared, b"T\r\n", "S S     0.0050 g\r\n"), "").is_err(), "answers in the other order");
    // Stopped before the last LF: the line goes on with the next call, and what was not taken is no part of it.
    let stopped = &two_lines(b"T\r\n", tared, b"TA 1 g\r", "")[..];
    assert_eq!(after(stopped, "TA A     1.0000 g\r\n"), Ok(()));
    assert!(after(stopped, "TA A     0.0050 g\r\n").is_err(), "the line is not begun anew");
    let past = two_lines(b"T\r\n", tared, b"TA 1 g\r\n", "");
    assert!(after(&past, "TA A     1.0000 g\r\n").is_err(), "a byte that was not taken counts for none");
}

// The follower of SR.

/// Feeds lines and samples (`s` or `u` and a load), with the answer to the last byte or sample of each; "" is none.
fn followed_on(profile: &Profile, history: &[(&str, &str)]) -> Result<(), String> {
    let mut follower = Follower::new(profile);
    for (line, answer) in history {
        let ended = if answer.is_empty() { String::new() } else { format!("{answer}\r\n") };
        if let Some((mark @ ("s" | "u"), load)) = line.split_once(' ') {
            let load = load.parse().expect("a load");
            follower.take(Call::Sample { load, stable: mark == "s" }, 0, ended.as_bytes())?;
            continue;
        }
        for byte in format!("{line}\r").bytes() {
            follower.take(Call::Byte { byte, good: true }, 0, b"")?;
        }
        follower.take(Call::Byte { byte: b'\n', good: true }, 0, ended.as_bytes())?;
    }
    Ok(())
}

/// A history is followed, and is rejected with its last answer changed to any other.
fn only_last_answer(history: &[(&str, &str)], others: &[&str]) {
    only_last_answer_on(&Profile::a(), history, others);
}

fn only_last_answer_on(profile: &Profile, history: &[(&str, &str)], others: &[&str]) {
    assert_eq!(followed_on(profile, history), Ok(()), "{history:?}");
    let (last, before) = history.split_last().expect("a call");
    for other in others {
        let changed = [before, &[(last.0, *other)]].concat();
        assert!(followed_on(profile, &changed).is_err(), "{changed:?}");
    }
}

const STARTED: [(&str, &str); 2] = [("s 0", ""), ("SR", ZERO)];
const ZERO: &str = "S S     0.0000 g";
/// The third unstable sample ends a wait.
const TIMEOUT: [(&str, &str); 3] = [("u 1", ""), ("u 2", ""), ("u 3", "S I")];

/// After `s 0` and `SR`: the calls with their answers, the last of which must be what it is.
fn only_last_when_started(calls: &[(&str, &str)], others: &[&str]) {
    only_last_answer(&[&STARTED, calls].concat(), others);
}

#[test]
fn the_follower_knows_what_sr_sends() {
    // Moved by the threshold, or less.
    only_last_when_started(&[("s 2999", "")], &["S S     0.0030 g", "S D     0.0030 g"]);
    only_last_when_started(&[("s 3000", "S S     0.0030 g")], &["", "S D     0.0030 g", "S +"]);
    only_last_when_started(&[("u -3000", "S D    -0.0030 g")], &["", "S S    -0.0030 g"]);
    // One S D, then the S S owed, even if net came back.
    only_last_when_started(&[("u 5000", "S D     0.0050 g"), ("u 90000", "")], &["S D     0.0900 g"]);
    only_last_when_started(&[("u 5000", "S D     0.0050 g"), ("u 0", ""), ("s 0", ZERO)], &[""]);
    only_last_when_started(&[("u 5000", "S D     0.0050 g"), ("s 0", ZERO), ("s 0", "")], &[ZERO]);
    // One + or - an excursion; what is owed stays owed.
    only_last_when_started(&[("u 220000001", "S +")], &["", "S -", "S D   220.0000 g"]);
    only_last_when_started(&[("s 220000001", "S +"), ("s 220000001", "")], &["S +"]);
    only_last_when_started(&[("s 220000001", "S +"), ("s -1000001", "")], &["S -"]);
    only_last_when_started(&[("s 220000001", "S +"), ("u 1", ""), ("s -1000001", "S -")], &["", "S +"]);
    only_last_when_started(&[("s 220000001", "S +"), ("s 2999", "")], &["S S     0.0030 g"]);
    only_last_when_started(&[("u 5000", "S D     0.0050 g"), ("s -1000001", "S -"), ("s 0", ZERO)], &[""]);
    // The last net is that of the last S S.
    only_last_when_started(&[("s 80000", "S S     0.0800 g"), ("s 70001", "")], &["S S     0.0700 g"]);
    only_last_when_started(&[("s 80000", "S S     0.0800 g"), ("s 70000", "S S     0.0700 g")], &[""]);
    only_last_when_started(&[("s 3049", "S S     0.0030 g"), ("s 6000", "")], &["S S     0.0060 g"]);
}

#[test]
fn the_follower_knows_whether_sr_runs() {
    // Started by a weight alone.
    only_last_answer(&[("s 220000001", ""), ("SR", "S +"), ("s 0", "")], &[ZERO]);
    only_last_answer(&[&[("SR", "")], &TIMEOUT[..]].concat(), &["", "SR I", "S D     0.0000 g"]);
    only_last_answer(&[&[("SR", "")], &TIMEOUT[..], &[("s 90000", "")]].concat(), &["S S     0.0900 g"]);
    only_last_answer(&[("SR", ""), ("u 1", ""), ("s 90000", "S S     0.0900 g")], &["", "S D     0.0900 g", "S I", "S +"]);
    only_last_answer(&[("SR", "")], &["S I", "S L", ZERO]);
    only_last_answer(&[("s 0", ""), ("SR", ZERO)], &["", "S I", "S D     0.0000 g", "SR I"]);
    // Ended at order 8 by S, SI, SIR and SR, and by @.
    for line in ["S", "SI"] {
        only_last_when_started(&[(line, ZERO), ("s 90000", "")], &["S S     0.0900 g"]);
    }
    only_last_when_started(&[("SIR", ZERO), ("s 1", ZERO)], &[""]);
    only_last_when_started(&[("@", "I4 A \"\""), ("s 90000", "")], &["S S     0.0900 g"]);
    let times_out = [&[("u 0", ""), ("SR", "")], &TIMEOUT[..]].concat();
    only_last_when_started(&[&times_out[..], &[("s 90000", "")]].concat(), &["S S     0.0900 g"]);
    let repeated = [("s 0", ""), ("SIR", ZERO), ("u 0", "S D     0.0000 g"), ("SR", "")];
    only_last_answer(&[&repeated[..], &TIMEOUT[..], &[("u 4", "")]].concat(), &["S D     0.0000 g"]);
    // Not by what fails before order 8.
    for (line, answer) in [("SI 1", "EL"), ("SR x", "S L"), ("SR 0 g", "S L"), ("SR ", "S L"), ("SRX", "ES")] {
        only_last_when_started(&[(line, answer), ("s 3000", "S S     0.0030 g")], &[""]);
    }
    only_last_when_started(
        &[("u 1", ""), ("T", ""), ("SI", "S I"), ("SR", "S I"), ("s 3000", "T S     0.0030 g"), ("s 6000", "S S     0.0030 g")],
        &[""],
    );
    // Dropped by @, a waiting SR does not start.
    only_last_answer(&[("SR", ""), ("@", "I4 A \"\""), ("s 90000", "")], &["S S     0.0900 g"]);
}

#[test]
fn the_follower_passes_over_samples_of_a_wait() {
    let waits = [("u 1", ""), ("T", "")];
    only_last_when_started(&[&waits[..], &[("u 220000001", "")]].concat(), &["S +"]);
    let above = [("u 220000001", ""), ("u 220000001", ""), ("u 220000001", "T I"), ("u 220000001", "S +")];
    only_last_when_started(&[&waits[..], &above[..3]].concat(), &["", "S +", "S I"]);
    only_last_when_started(&[&waits[..], &above[..]].concat(), &["", "T I"]);
    only_last_when_started(&[&waits[..], &[("s 9000", "T S     0.0090 g"), ("s 9000", "")]].concat(), &[ZERO]);
    only_last_when_started(&[&waits[..], &[("s 9000", "T S     0.0090 g")]].concat(), &["", "S S     0.0090 g"]);
}

#[test]
fn the_follower_reads_thresholds_and_tares() {
    let set = |line| [("s 0", ""), (line, ZERO)];
    only_last_answer(&[&set("SR 0.000001 g")[..], &[("s 1", ZERO)]].concat(), &[""]);
    only_last_answer(&[&set("SR 1 g")[..], &[("s 999999", "")]].concat(), &["S S     1.0000 g"]);
    only_last_answer(&[&set("SR 220 g")[..], &[("s 220000000", "S S   220.0000 g")]].concat(), &[""]);
    for line in ["SR 0 g", "SR 220.000001 g", "SR 1", "SR 1 G", "SR  1 g", "SR 1. g", "SR "] {
        only_last_answer(&[("s 0", ""), (line, "S L")], &["", ZERO, "S I", "SR L"]);
    }
    // A new SR keeps nothing of the older one.
    only_last_answer(&[&set("SR 1 g")[..], &[("SR", ZERO), ("s 3000", "S S     0.0030 g")]].concat(), &[""]);
    // No zeroing and no taring moves the last net; a typed tare counts as it is rounded.
    only_last_when_started(&[("s 2000", ""), ("Z", "Z A"), ("s 4999", "")], &["S S     0.0030 g"]);
    only_last_when_started(&[("s 2000", ""), ("ZI", "ZI S"), ("s 5000", "S S     0.0030 g")], &[""]);
    only_last_when_started(&[("s 2999", ""), ("TI", "TI S     0.0030 g"), ("s 0", "")], &["S S    -0.0030 g"]);
    only_last_when_started(&[("TA 0.003 g", "TA A     0.0030 g"), ("s 0", "S S    -0.0030 g")], &[""]);
    only_last_when_started(&[("TA 0.00295 g", "TA A     0.0030 g"), ("s 0", "S S    -0.0030 g")], &[""]);
    only_last_when_started(&[("TA 0.002949 g", "TA A     0.0029 g"), ("s 0", "")], &["S S    -0.0029 g"]);
    only_last_when_started(&[("TA 1 g", "TA A     1.0000 g"), ("TAC", "TAC A"), ("s 0", "")], &["S S    -1.0000 g"]);
}

#[test]
fn the_follower_takes_the_unit_in_force() {
    let carats = ("M21 0 5", "M21 A");
    // The 30 steps are those in force at each sample.
    only_last_when_started(&[carats, ("s 59999", "")], &["S S       0.30 ct"]);
    only_last_when_started(&[carats, ("s 60000", "S S       0.30 ct")], &[""]);
    only_last_when_started(&[carats, ("s 3000", ""), ("M21 0 0", "M21 A"), ("s 3000", "S S     0.0030 g")], &[""]);
    only_last_when_started(&[("M21 0 5", "M21 L"), ("s 3000", "S S     0.0030 g")], &[""]);
    only_last_when_started(&[("M21", "M21 A 0 0"), ("s 3000", "S S     0.0030 g")], &[""]);
    only_last_when_started(&[carats, ("@", "I4 A \"\""), ("SR", "S S       0.00 ct"), ("s 59999", "")], &["S S       0.30 ct"]);
    // It is not sent at M21, and goes on after it, as SIR does.
    only_last_when_started(&[("u 5000", "S D     0.0050 g"), carats, ("s 0", "S S       0.00 ct")], &[""]);
    only_last_answer(&[("s 0", ""), ("SIR", ZERO), carats, ("s 0", "S S       0.00 ct")], &[""]);
    // A set threshold stays, and is read in the unit in force.
    let set = |line| [("s 0", ""), (line, ZERO)];
    only_last_answer(&[&set("SR 0.01 g")[..], &[carats, ("s 9999", "")]].concat(), &["S S       0.05 ct"]);
    only_last_answer(&[&set("SR 0.01 g")[..], &[carats, ("s 10000", "S S       0.05 ct")]].concat(), &[""]);
    only_last_answer(&[carats, ("s 0", ""), ("SR 0.01 g", "S L")], &["", "S S       0.00 ct"]);
    only_last_answer(&[carats, ("s 0", ""), ("SR 0.05 ct", "S S       0.00 ct"), ("s 9999", "")], &["S S       0.05 ct"]);
    only_last_answer(&[carats, ("s 0", ""), ("SR 0.05 ct", "S S       0.00 ct"), ("s 10000", "S S       0.05 ct")], &[""]);
}

/// The 30 steps are fine ones in the coarse range too, and a set threshold is rounded to no step.
#[test]
fn the_follower_counts_fine_steps() {
    let coarse = Profile { fine: 0, ..Profile::a() };
    let after = |calls: &[(&'static str, &'static str)], others: &[&str]| {
        only_last_answer_on(&coarse, &[&STARTED[..], calls].concat(), others);
    };
    after(&[("s 2999", "")], &["S S     0.003  g"]);
    after(&[("s 3000", "S S     0.003  g")], &[""]);
    after(&[("s 1", "")], &["S S     0.000  g"]);
    // The exact net is kept: 3,450 and not 3,000.
    after(&[("s 3450", "S S     0.003  g"), ("s 6449", "")], &["S S     0.006  g"]);
    after(&[("s 3450", "S S     0.003  g"), ("s 6450", "S S     0.006  g")], &[""]);
    let set = |line| [("s 0", ""), (line, ZERO)];
    only_last_answer_on(&coarse, &[&set("SR 0.001449 g")[..], &[("s 1448", "")]].concat(), &["S S     0.001  g"]);
    only_last_answer_on(&coarse, &[&set("SR 0.001449 g")[..], &[("s 1449", "S S     0.001  g")]].concat(), &[""]);
    // A typed tare above F is the coarse decimal: 0.004 g in place of 0.0036 g.
    after(&[("TA 0.0036 g", "TA A     0.004  g"), ("s 1000", "S S    -0.003  g")], &[""]);
    after(&[("TA 0.0034 g", "TA A     0.003  g"), ("s 1", "")], &["S S    -0.003  g"]);
}

/// A whole buffer is the bytes that it took: no other, and each with its answer.
#[test]
fn the_follower_takes_a_whole_buffer_by_its_bytes() {
    let after = |taken: &[(Call, Vec<u8>)], load: i32, sent: &str| {
        let mut follower = Follower::new(&Profile::a());
        follower.take(Call::Sample { load: 0, stable: true }, 0, b"")?;
        follower.take_all(taken)?;
        follower.take(Call::Sample { load, stable: true }, 0, sent.as_bytes())
    };
    let (zero, moved) = ("S S     0.0000 g\r\n", "S S     0.0030 g\r\n");
    let started = two_lines(b"SI\r\n", zero, b"SR\r\n", zero);
    assert_eq!(after(&started, 3_000, moved), Ok(()));
    assert!(after(&started, 3_000, "").is_err(), "SR runs");
    assert!(after(&two_lines(b"SI\r\n", zero, b"SR\r\n", ""), 3_000, "").is_err(), "the second line is not answered");
    // The second of them ended SR, or was not taken to its end.
    let ended = two_lines(b"SR\r\n", zero, b"SI\r\n", zero);
    assert_eq!(after(&ended, 3_000, ""), Ok(()));
    assert!(after(&ended, 3_000, moved).is_err(), "SI ended SR");
    let stopped = two_lines(b"SR\r\n", zero, b"SI\r", "");
    assert_eq!(after(&stopped, 3_000, moved), Ok(()));
    assert!(after(&stopped, 3_000, "").is_err(), "a byte that was not taken ends nothing");
}

/// A refused call changes nothing, and a byte that ends no line is not answered.
#[test]
fn the_follower_passes_over_refused_calls() {
    let mut follower = Follower::new(&Profile::a());
    let mut sample = |load, refusal, answer: &[u8]| follower.take(Call::Sample { load, stable: true }, refusal, answer);
    assert_eq!(sample(1, 2, b""), Ok(()));
    assert!(sample(1, 0, b"S S     0.0000 g\r\n").is_err());
    assert!(follower.take(Call::Byte { byte: b'S', good: true }, 0, b"S I\r\n").is_err());
}

// The reader and the writer.

#[test]
fn what_is_read_is_written_back() {
    for (line, prints) in cases::captures() {
        let read = Reader::default().read(line.as_bytes());
        assert_eq!(read.is_none(), prints == "refused 4\r\n" || line.is_empty(), "{line:?}");
        if let Some(answer) = read {
            assert_eq!(line_of(&answer).as_deref(), Some(line.as_bytes()));
        }
    }
}

/// Both inverse laws on coarse weights: in all six forms, at both sides of each limit.
#[test]
fn coarse_weights_are_written_and_read() {
    let forms = [("S", 'S'), ("S", 'D'), ("T", 'S'), ("TI", 'S'), ("TI", 'D'), ("TA", 'A')];
    let values = [0, 1, 99_999_999, 100_000_000, -1, -9_999_999, -10_000_000, i64::MAX, i64::MIN + 1];
    for ((identification, status), value) in forms.into_iter().flat_map(|form| values.map(|value| (form, value))) {
        for (decimals, unit) in (0..8).flat_map(|decimals| UNITS.map(|unit| (decimals, unit))) {
            let range = Range::Coarse;
            let answer = Answer::Weight { identification: identification.to_string(), status, value, decimals, unit, range };
            let good = (1..=5).contains(&decimals)
                && (-9_999_999..=99_999_999).contains(&value)
                && (value >= 0 || identification == "S");
            let line = line_of(&answer);
            assert_eq!(line.is_some(), good, "{answer:?}");
            let mut buffer = [7; 24];
            let outcome = write(&answer, &mut buffer);
            assert_eq!(
                (outcome.refusal, outcome.n),
                if good { (0, line.as_ref().map_or(0, Vec::len)) } else { (4, 0) },
                "{answer:?}"
            );
            assert!(good || buffer == [7; 24]);
            if let Some(line) = line {
                assert_eq!(line[identification.len() + 12..][..2], *b"  ", "two spaces before the unit");
                assert_eq!(write(&answer, &mut buffer[..line.len() - 1]), Outcome { refusal: 3, n: 0 });
                assert_eq!(Reader::default().read(&line), Some(answer));
            }
        }
    }
}

/// The two spaces before the unit are the whole of the difference: a number of nine characters is one or the other.
#[test]
fn a_space_tells_coarse_from_fine() {
    let read = |line: &str| match Reader::default().read(line.as_bytes()) {
        Some(Answer::Weight { value, decimals, range, .. }) => Some((value, decimals, range)),
        _ => None,
    };
    assert_eq!(read("S S   150.000  g\r\n"), Some((150_000, 3, Range::Coarse)));
    assert_eq!(read("S S    150.000 g\r\n"), Some((150_000, 3, Range::Fine)));
    assert_eq!(read("S S   150.0000 g\r\n"), Some((1_500_000, 4, Range::Fine)));
    assert_eq!(read("S S   150.000 g\r\n"), None);
    assert_eq!(read("S S  150.000   g\r\n"), None);
    assert_eq!(read("S S    150.000  g\r\n"), None);
}

#[test]
fn the_writer_refuses_what_has_no_line() {
    let weight = |identification: &str, status, value, decimals| Answer::Weight {
        identification: identification.to_string(),
        status,
        value,
        decimals,
        unit: Unit::Gram,
        range: Range::Fine,
    };
    let refusal = |answer: Answer| {
        let mut buffer = [7; 17];
        let outcome = write(&answer, &mut buffer);
        assert!(outcome.refusal == 0 || (buffer == [7; 17] && outcome.n == 0));
        outcome.refusal
    };
    assert_eq!(refusal(weight("S", 'S', 1, 7)), 4);
    assert_eq!(refusal(weight("S", 'A', 1, 4)), 4);
    assert_eq!(refusal(weight("T", 'S', -1, 4)), 4);
    assert_eq!(refusal(weight("S", 'S', 10_000_000_000, 0)), 4);
    assert_eq!(refusal(weight("S", 'S', 1_000_000_000, 6)), 4);
    assert_eq!(refusal(weight("S", 'S', 100_000_000, 6)), 3);
    assert_eq!(refusal(Answer::Status { identification: "@".to_string(), status: 'I' }), 4);
    assert_eq!(refusal(Answer::Status { identification: "TAC".to_string(), status: 'I' }), 0);
    assert_eq!(refusal(Answer::Status { identification: "S".to_string(), status: 'L' }), 0);
    assert_eq!(refusal(Answer::Status { identification: "SR".to_string(), status: 'L' }), 4);
    assert_eq!(refusal(Answer::Status { identification: "M21".to_string(), status: 'A' }), 0);
    assert_eq!(refusal(Answer::Status { identification: "M21".to_string(), status: 'I' }), 0);
    assert_eq!(refusal(Answer::Status { identification: "M21".to_string(), status: 'L' }), 0);
    assert_eq!(refusal(Answer::Status { identification: "M21".to_string(), status: 'B' }), 4);
    assert_eq!(refusal(Answer::Unit { unit: Unit::Pennyweight }), 0);
    assert_eq!(refusal(Answer::Listed { status: 'A', level: 2, name: "M21".to_string() }), 0);
    assert_eq!(refusal(Answer::Listed { status: 'A', level: 1, name: "M21".to_string() }), 4);
    assert_eq!(refusal(Answer::Status { identification: "SR".to_string(), status: 'I' }), 4);
    assert_eq!(refusal(Answer::Listed { status: 'B', level: 1, name: "SR".to_string() }), 0);
    assert_eq!(refusal(Answer::Listed { status: 'B', level: 0, name: "SR".to_string() }), 4);
    assert_eq!(refusal(Answer::Error { letters: "EI".to_string() }), 4);
    assert_eq!(refusal(Answer::Listed { status: 'A', level: 1, name: "S".to_string() }), 4);
    assert_eq!(refusal(Answer::Text { identification: "I4".to_string(), text: vec![b'x'; 21] }), 4);
    assert_eq!(refusal(Answer::Text { identification: "I6".to_string(), text: vec![] }), 4);
    assert_eq!(refusal(Answer::Text { identification: "I4".to_string(), text: b"VA-0001".to_vec() }), 0);
}

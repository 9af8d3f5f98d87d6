//! The bench cases of document 01, the corners of document 02's requests, the worked examples of the manuals and some states, as
//! scripts with what they print.

use crate::profile::Profile;
use crate::weight::{Scale, Unit, UNITS};

pub struct Case {
    pub name: &'static str,
    pub script: String,
    pub prints: String,
}

/// Profile A's numbers.
const A: &str = "profile 220000000 1000000 4400000 3";
const ON: &str = "I4 A \"VA-0001\"";

/// Profile A whole, in the lines of a script.
pub fn profile_a() -> Vec<String> {
    let units = UNITS.map(|unit| format!("unit {} {} 1", unit.name(), if unit == Unit::Gram { 4 } else { 2 }));
    let texts = ["text 2 ", "text 3 ", "text 4 VA-0001", "text 5 "].map(String::from);
    [A.to_string()].into_iter().chain(units).chain(texts).collect()
}

/// A case on profile A with some of its lines set anew, a comma between two: the lines sent and the lines printed after the power-on
/// answer. The first unit among those lines is set by M21. A `state` line that names no unit ends with that one.
fn on_profile(name: &'static str, lines: &str, sent: &[&str], printed: &[&str]) -> Case {
    let lines: Vec<&str> = lines.split(", ").filter(|line| !line.is_empty()).collect();
    let named = lines.iter().find_map(|line| line.strip_prefix("unit ")?.split(' ').next());
    let unit = Unit::named(named.unwrap_or("g").as_bytes()).expect("one of the nine");
    let (profile, set) = (profile_a(), set_unit(unit));
    let profile: Vec<&str> = profile.iter().map(String::as_str).chain(lines).collect();
    let (set, answered): (&[&str], &[&str]) = if unit == Unit::Gram { (&[], &[]) } else { (&[&set], &["M21 A"]) };
    let script = [&["room 384"], &profile[..], &["on"], set, sent].concat().iter().map(|line| format!("{line}\n")).collect();
    let ended = |line: &&str| match line.strip_prefix("state ") {
        Some(words) if !words.contains(" unit ") => format!("{line} unit {}\r\n", unit.name()),
        _ => format!("{line}\r\n"),
    };
    let prints = [&[ON], answered, printed].concat().iter().map(ended).collect();
    Case { name, script, prints }
}

/// The line that sets a unit.
pub fn set_unit(unit: Unit) -> String {
    format!("> M21 0 {}", unit.code())
}

fn on_a(name: &'static str, sent: &[&str], printed: &[&str]) -> Case {
    on_profile(name, "", sent, printed)
}

/// Lines that make a profile of profile A which power-on refuses, a comma between two.
fn refused(name: &'static str, lines: &str) -> Case {
    let sent: Vec<&str> = lines.split(", ").chain(["on"]).collect();
    on_a(name, &sent, &["refused 1"])
}

pub fn all() -> Vec<Case> {
    let base = [printing(), ranges(), zeroing_and_taring(), waiting(), lines(), profiles(), states(), manuals()];
    let on_change = [sr_lines(), sr_starts_and_ends(), sr_memory(), sr_passed_over(), sr_thresholds(), sr_refusals()];
    let buffers = [buffer_lines(), buffer_marks(), buffer_rooms(), buffer_lengths(), buffer_refusals()];
    let typed = [typed_to_steps(), typed_to_micrograms(), typed_limits(), typed_thresholds()];
    let lines = [unit_lines(), unit_orders(), unit_kept()];
    let units = [unit_weights(), unit_typed(), unit_on_change(), unit_profiles(), unit_rooms(), unit_scripts()];
    let tables = [byte_classes(), names()];
    let ranges = [range_limits(), range_deciding(), range_rounding(), range_typed(), range_on_change(), range_units()];
    let limits = [range_profiles(), range_calls(), range_scripts()];
    let requested = on_change.into_iter().chain(buffers).chain(typed).chain(lines).chain(units).chain(tables);
    let requested = requested.chain(ranges).chain(limits);
    base.into_iter().chain(requested).flatten().collect()
}

fn printing() -> Vec<Case> {
    let fives = "unit g 4 5";
    let carats = "unit ct 3 1";
    let ounces = "unit oz 5 1";
    vec![
        on_a("14,256,049", &["s 14256049", "> S"], &["S S    14.2560 g"]),
        on_a("14,256,050", &["s 14256050", "> S"], &["S S    14.2561 g"]),
        on_a("-49", &["s -49", "> S"], &["S S     0.0000 g"]),
        on_a("-50", &["s -50", "> S"], &["S S    -0.0001 g"]),
        on_profile("step 5, 249", fives, &["s 249", "> S"], &["S S     0.0000 g"]),
        on_profile("step 5, 250", fives, &["s 250", "> S"], &["S S     0.0005 g"]),
        on_profile("carats, 99", carats, &["s 99", "> S"], &["S S      0.000 ct"]),
        on_profile("carats, 100", carats, &["s 100", "> S"], &["S S      0.001 ct"]),
        on_profile("ounces", ounces, &["s 28349523", "> S"], &["S S    1.00000 oz"]),
    ]
}

fn ranges() -> Vec<Case> {
    vec![
        on_a("at capacity", &["s 220000000", "> S"], &["S S   220.0000 g"]),
        on_a("above capacity", &["s 220000001", "> S"], &["S +"]),
        on_a("at the margin", &["s -1000000", "> S"], &["S S    -1.0000 g"]),
        on_a("below the margin", &["s -1000001", "> S"], &["S -"]),
        on_a("32 bits", &["u 2147483647", "> SI", "u -2147483648", "> SI"], &["S +", "S -"]),
    ]
}

fn zeroing_and_taring() -> Vec<Case> {
    vec![
        on_a("Z at the range", &["s 4400000", "> Z", "> SI"], &["Z A", "S S     0.0000 g"]),
        on_a("Z past the range", &["s 4400001", "> Z", "s -4400001", "> ZI"], &["Z +", "ZI -"]),
        on_a("T below zero", &["s -1", "> T"], &["T -"]),
        on_a(
            "the microgram tare is subtracted",
            &["s 10000050", "> T", "s 10000100", "> SI"],
            &["T S    10.0001 g", "S S     0.0001 g"],
        ),
        on_a("a typed tare", &["> TA 100.00 g", "> TA"], &["TA A   100.0000 g", "TA A   100.0000 g"]),
        on_a(
            "typed tares refused",
            &["> TA -1 g", "> TA 220.00005 g", "> TA 100.00 G", "> TA 1. g", "> TA ", "> TA 1  g", "> TA"],
            &["TA L", "TA L", "TA L", "TA L", "TA L", "TA L", "TA A     0.0000 g"],
        ),
        on_a("typed at capacity", &["> TA 0220.00000 g", "> TAC", "> TA"], &["TA A   220.0000 g", "TAC A", "TA A     0.0000 g"]),
        on_a(
            "@ drops the tare and keeps the zero",
            &["s 1000", "> Z", "s 3000", "> T", "> @", "> SI", "> TA"],
            &["Z A", "T S     0.0020 g", ON, "S S     0.0020 g", "TA A     0.0000 g"],
        ),
    ]
}

fn waiting() -> Vec<Case> {
    vec![
        on_a("S before any sample", &["> S", "u 1", "u 1", "u 1", "u 1"], &["S I"]),
        on_a("SIR before any sample", &["> SIR", "s 1"], &["S I"]),
        on_a("SI, TI and ZI before any sample", &["> SI", "> TI", "> ZI"], &["S I", "TI I", "ZI I"]),
        on_a(
            "a command waits",
            &["> T", "> SIR", "> D", "> TA x", "> S 1", "> Q", "> @", "s 1"],
            &["S I", "D I", "TA I", "EL", "ES", ON],
        ),
        on_a(
            "the unstable sample before the command does not count",
            &["u 5", "> T", "u 6", "u 7", "s 800", "> TA"],
            &["T S     0.0008 g", "TA A     0.0008 g"],
        ),
        on_a(
            "a repetition is silent while T waits",
            &["u 300000000", "> SIR", "u 100", "> T", "u 200", "s 300", "s 300", "> S", "s 300"],
            &["S +", "S D     0.0001 g", "T S     0.0003 g", "S S     0.0000 g", "S S     0.0000 g"],
        ),
    ]
}

fn lines() -> Vec<Case> {
    let with_letters = |count: usize| format!("> {}", "S".repeat(count));
    let with_spaces = |count: usize| format!("> S{}", " ".repeat(count - 1));
    let (long, full, over) = (with_letters(65), with_spaces(64), with_spaces(65));
    vec![
        on_a("syntax", &["> ", "> s", "> S\r", "> SIX", "> Q"], &["ES", "ES", "ES", "ES", "ES"]),
        on_a("after the name", &["> S 1", "> S ", "> @ 1", "> DW \"\""], &["EL", "EL", "EL", "EL"]),
        on_a("65 bytes", &[&long], &["ES"]),
        on_a("64 bytes and 65", &[&full, &over], &["EL", "ES"]),
        on_a("a faulty byte", &["b 53", "f 49", "b 0D 0A", "> DW"], &["ET", "DW A"]),
        on_a("a faulty byte past the limit", &[&format!("b{}", " 53".repeat(70)), "f 53", "b 53 0D 0A"], &["ET"]),
        on_a("a faulty CR or LF", &["b 53 49", "f 0D", "b 0A 0D", "f 0A", "b 0D 0A"], &["ET"]),
        on_a("CR alone and LF alone", &["b 44 57 0D", "b 44 57 0A", "b 0D", "b 0A"], &["ES"]),
        on_a(
            "document 01's conversation",
            &["> S", "s 14256050", "> T", "s 14256100", "> SI", "> Q"],
            &["S S    14.2561 g", "T S    14.2561 g", "S S     0.0001 g", "ES"],
        ),
        on_a(
            "short rooms",
            &["room 5", "> DW", "room 6", "b 0A", "room 4", "> Q", "room 3", "> Q", "room 0", "s 1", "u 1"],
            &["refused 3", "DW A", "ES", "refused 3"],
        ),
    ]
}

fn profiles() -> Vec<Case> {
    vec![
        on_profile("milligrams that fit", "profile 99999999 0 4400000 3, unit mg 3 1", &["> TA"], &["TA A      0.000 mg"]),
        refused("milligrams that do not fit", "profile 100000000 0 4400000 3, unit mg 3 1"),
        refused("a step below a microgram", "profile 1000000 0 0 3, unit GN 5 1"),
        on_profile("a step of two", "profile 1000000 0 0 3, unit GN 5 2", &["> TA"], &["TA A    0.00000 GN"]),
        refused("no capacity", "profile 0 0 0 3"),
        refused("capacity above its limit", "profile 1000000001 0 0 3, unit mg 0 1"),
        refused("margin above capacity", "profile 1000 1001 0 3"),
        refused("zeroing range above capacity", "profile 1000 0 1001 3"),
        refused("no patience", "profile 1000 0 0 0"),
        refused("patience above its limit", "profile 1000 0 0 1001"),
        refused("seven decimals", "profile 1000 0 0 3, unit oz 7 1"),
        refused("a step of three", "profile 1000 0 0 3, unit g 4 3"),
        on_a(
            "refusals on a changed profile",
            &["s 5000", "> Z", "profile 220000000 1000000 4999 3", "> DW", "profile 0 1 4999 3", "s 1", A, "> DW"],
            &["Z A", "refused 2", "refused 2", "refused 2", "refused 2", "refused 1", "DW A"],
        ),
    ]
}

/// What no answer shows.
fn states() -> Vec<Case> {
    let after_on = "state zero 0 tare 0 sample none waits none repeats no shows weight line 0";
    let text_shown = "state zero 0 tare 0 sample none waits none repeats no shows \"HALLO\" line 0";
    let full = format!("b{}", " 53".repeat(64));
    vec![
        on_a("after power-on", &["state"], &[after_on]),
        on_a("D and DW on the display", &["> D \"HALLO\"", "state", "> DW", "state"], &["D A", text_shown, "DW A", after_on]),
        on_a("D and @ on the display", &["> D \"HALLO\"", "state", "> @", "state"], &["D A", text_shown, ON, after_on]),
        on_a(
            "what is refused leaves the display",
            &["> D \"HALLO\"", "> D HA", "> DW 1", "> dw", "f 44", "b 57 0D 0A", "state"],
            &["D A", "D L", "EL", "ES", "ET", text_shown],
        ),
        on_a(
            "a display while a command waits",
            &["> D \"HALLO\"", "> S", "> DW", "> D \"\"", "state", "> @", "state"],
            &["D A", "DW I", "D I", &text_shown.replace("waits none", "waits S 0"), ON, after_on],
        ),
        on_a(
            "a wait counts unstable samples, and the next starts anew",
            &["> Z", "u 1", "u 2", "state", "u 3", "state", "> T", "state"],
            &[
                "state zero 0 tare 0 sample u 2 waits Z 2 repeats no shows weight line 0",
                "Z I",
                "state zero 0 tare 0 sample u 3 waits none repeats no shows weight line 0",
                "state zero 0 tare 0 sample u 3 waits T 0 repeats no shows weight line 0",
            ],
        ),
        on_a(
            "zero, tare and repetition",
            &["s -70", "> Z", "s -21", "> T", "> SIR", "state", "> SI", "state", "> @", "state"],
            &[
                "Z A",
                "T S     0.0000 g",
                "S S     0.0000 g",
                "state zero -70 tare 49 sample s -21 waits none repeats SIR shows weight line 0",
                "S S     0.0000 g",
                "state zero -70 tare 49 sample s -21 waits none repeats no shows weight line 0",
                ON,
                "state zero -70 tare 0 sample s -21 waits none repeats no shows weight line 0",
            ],
        ),
        on_a(
            "a line on its way",
            &[&full, "state", "b 0D", "state", "f 0D", "state", "b 0D", "state", "b 0A", "state"],
            &[
                "state zero 0 tare 0 sample none waits none repeats no shows weight line 64",
                "state zero 0 tare 0 sample none waits none repeats no shows weight line 64 cr",
                "state zero 0 tare 0 sample none waits none repeats no shows weight line 64 over faulty",
                "state zero 0 tare 0 sample none waits none repeats no shows weight line 64 over faulty cr",
                "ET",
                after_on,
            ],
        ),
        on_a(
            "a refused call takes nothing",
            &["> T", "u 5", "room 4", "u 6", "s 7", "state", "b 44 57 0D", "room 0", "b 0A", "state"],
            &[
                "refused 3",
                "state zero 0 tare 0 sample u 6 waits T 2 repeats no shows weight line 0",
                "refused 3",
                "state zero 0 tare 0 sample u 6 waits T 2 repeats no shows weight line 2 cr",
            ],
        ),
    ]
}

// Document 02, No. 1: send on change.

/// Identification S, always; the parameter has the form of TA's.
fn sr_lines() -> Vec<Case> {
    let milligrams = "profile 99999999 0 4400000 3, unit mg 3 1";
    let waits = |set: &str| format!("state zero 0 tare 0 sample none waits SR 0 {set} repeats no shows weight line 0");
    vec![
        on_a("SR x", &["> SR x"], &["S L"]),
        on_a("SR while T waits", &["> T", "> SR", "> SR 1 g", "> SR x", "> SR "], &["S I", "S I", "S I", "S I"]),
        on_a("SRX and others that are no name", &["> SRX", "> sr", "> SR1", "> RS", "> SRR"], &["ES", "ES", "ES", "ES", "ES"]),
        on_a(
            "parameters refused",
            &["> SR ", "> SR 1", "> SR 1 G", "> SR 1. g", "> SR  1 g", "> SR 0 g", "> SR 220.000001 g", "state"],
            &[
                "S L",
                "S L",
                "S L",
                "S L",
                "S L",
                "S L",
                "S L",
                "state zero 0 tare 0 sample none waits none repeats no shows weight line 0",
            ],
        ),
        on_a(
            "more parameters refused",
            &["> SR 1 g ", "> SR 1  g", "> SR 1 mg", "> SR -1 g", "> SR .1 g", "> SR 0.0000001 g", "> SR 0.000000 g", "> SR g"],
            &["S L", "S L", "S L", "S L", "S L", "S L", "S L", "S L"],
        ),
        on_a(
            "parameters taken",
            &[
                "> SR 220 g",
                "state",
                "> @",
                "> SR 0.000001 g",
                "state",
                "> @",
                "> SR 000000.001 g",
                "state",
                "> @",
                "> SR",
                "state",
            ],
            &[&waits("220000000"), ON, &waits("1"), ON, &waits("1000"), ON, &waits("-")],
        ),
        on_profile(
            "half a microgram is rounded up",
            milligrams,
            &["> SR 0.0004 mg", "> SR 0.000499 mg", "> SR 0.0005 mg", "state", "> @", "> SR 1.0015 mg", "state"],
            &["S L", "S L", &waits("1"), ON, &waits("1002")],
        ),
        on_profile(
            "the capacity after rounding",
            milligrams,
            &["> SR 99999.9995 mg", "> SR 100000 mg", "> SR 99999.9994 mg", "state"],
            &["S L", "S L", &waits("99999999")],
        ),
        on_a("SR is received like others", &["b 53", "f 52", "b 0D 0A", "> SR\t", "> SR \t"], &["ET", "ES", "ES"]),
    ]
}

/// Order 8 alone ends and starts.
fn sr_starts_and_ends() -> Vec<Case> {
    vec![
        on_a(
            "SR waits as S, and stays off after I",
            &["> SR", "u 1", "u 2", "state", "u 3", "s 100000000", "state"],
            &[
                "state zero 0 tare 0 sample u 2 waits SR 2 - repeats no shows weight line 0",
                "S I",
                "state zero 0 tare 0 sample s 100000000 waits none repeats no shows weight line 0",
            ],
        ),
        on_a("SR stays off after +", &["s 220000001", "> SR", "s 0", "s 100000000"], &["S +"]),
        on_a("SR stays off after -", &["s -1000001", "> SR", "s 0", "s 100000000"], &["S -"]),
        on_a("SR stays off after + at a wait's end", &["> SR", "u 1", "s 220000001", "s 0", "s 100000000"], &["S +"]),
        on_a(
            "SR starts at a wait's end",
            &["> SR 10 g", "u 5", "s 7", "state", "s 10000006", "s 10000007"],
            &[
                "S S     0.0000 g",
                "state zero 0 tare 0 sample s 7 waits none repeats SR 7 10000000 shows weight line 0",
                "S S    10.0000 g",
            ],
        ),
        on_a(
            "what fails before order 8 ends nothing",
            &["s 0", "> SR", "u 1", "> T", "> SI", "> SR", "> S", "s 3000", "> SI 1", "> SR x", "s 6000"],
            &["S S     0.0000 g", "S I", "S I", "S I", "T S     0.0030 g", "EL", "S L", "S S     0.0030 g"],
        ),
        on_a("a wrong SR leaves SIR", &["s 0", "> SIR", "> SR 0 g", "u 1"], &["S S     0.0000 g", "S L", "S D     0.0000 g"]),
        on_a(
            "the LF of SR in rooms of 17 and 18",
            &["s 0", "> SIR", "room 17", "> SR", "state", "room 18", "b 0A", "state"],
            &[
                "S S     0.0000 g",
                "refused 3",
                "state zero 0 tare 0 sample s 0 waits none repeats SIR shows weight line 2 cr",
                "S S     0.0000 g",
                "state zero 0 tare 0 sample s 0 waits none repeats SR 0 - shows weight line 0",
            ],
        ),
        on_a(
            "SR ends a SIR, also if it then times out",
            &["u 0", "> SIR", "> SR", "state", "u 1", "u 2", "u 3", "u 90000", "s 90000"],
            &["S D     0.0000 g", "state zero 0 tare 0 sample u 0 waits SR 0 - repeats no shows weight line 0", "S I"],
        ),
        on_a(
            "SR ends an older SR, also if it then times out",
            &["s 0", "> SR", "u 0", "> SR 1 g", "state", "u 1", "u 2", "u 3", "u 90000", "s 90000"],
            &["S S     0.0000 g", "state zero 0 tare 0 sample u 0 waits SR 0 1000000 repeats no shows weight line 0", "S I"],
        ),
        on_a(
            "a new SR keeps nothing of the older one",
            &["s 0", "> SR 1 g", "u 5000000", "s 300000000", "s 9", "> SR", "state"],
            &[
                "S S     0.0000 g",
                "S D     5.0000 g",
                "S +",
                "S S     0.0000 g",
                "S S     0.0000 g",
                "state zero 0 tare 0 sample s 9 waits none repeats SR 9 - shows weight line 0",
            ],
        ),
        on_a(
            "S, SI and SIR end SR",
            &["s 0", "> SR", "> S", "s 90000", "> SR", "> SI", "s 0", "> SR", "> SIR", "s 90000", "s 90000"],
            &[
                "S S     0.0000 g",
                "S S     0.0000 g",
                "S S     0.0900 g",
                "S S     0.0900 g",
                "S S     0.0000 g",
                "S S     0.0000 g",
                "S S     0.0900 g",
                "S S     0.0900 g",
            ],
        ),
        on_a(
            "an S that waits has ended SR",
            &["s 0", "> SR", "u 1", "> S", "u 2", "u 3", "u 4", "s 90000"],
            &["S S     0.0000 g", "S I"],
        ),
        on_a(
            "@ drops a waiting SR unanswered and ends a running one",
            &["> SR", "> @", "s 0", "s 90000", "> SR", "> @", "s 0", "state"],
            &[ON, "S S     0.0900 g", ON, "state zero 0 tare 0 sample s 0 waits none repeats no shows weight line 0"],
        ),
        on_profile(
            "003 SR",
            "unit g 2 1",
            &["s 100000000", "> SR 10.00 g", "u 115230000", "s 200000000"],
            &["S S     100.00 g", "S D     115.23 g", "S S     200.00 g"],
        ),
    ]
}

/// The last stable net sent, what is owed, and excursions.
fn sr_memory() -> Vec<Case> {
    let running = |words: &str| format!("state zero 0 tare 0 {words} shows weight line 0");
    vec![
        on_a(
            "T moves no last net",
            &["s 10000000", "> SR", "> T", "s 10000000", "s 10000000"],
            &["S S    10.0000 g", "T S    10.0000 g", "S S     0.0000 g"],
        ),
        on_a(
            "Z, ZI, TI, TA and TAC move no last net, and nothing is sent at a command",
            &["s 9", "> SR", "s 2000", "> Z", "> ZI", "> TI", "> TA 1 g", "state", "> TAC", "> TA", "> TA 1 g", "s 2000"],
            &[
                "S S     0.0000 g",
                "Z A",
                "ZI S",
                "TI S     0.0000 g",
                "TA A     1.0000 g",
                "state zero 2000 tare 1000000 sample s 2000 waits none repeats SR 9 - shows weight line 0",
                "TAC A",
                "TA A     0.0000 g",
                "TA A     1.0000 g",
                "S S    -1.0000 g",
            ],
        ),
        on_a(
            "the exact net is kept, not the printed one",
            &["s 49", "> SR", "s 3048", "u 3048", "s 3049", "state"],
            &["S S     0.0000 g", "S S     0.0030 g", &running("sample s 3049 waits none repeats SR 3049 -")],
        ),
        on_a(
            "an S S is owed",
            &["s 0", "> SR", "u 5000", "state", "u 0", "u 90000", "state", "s 0", "s 2999", "s 3000"],
            &[
                "S S     0.0000 g",
                "S D     0.0050 g",
                &running("sample u 5000 waits none repeats SR 0 - owed"),
                &running("sample u 90000 waits none repeats SR 0 - owed"),
                "S S     0.0000 g",
                "S S     0.0030 g",
            ],
        ),
        on_a(
            "no timeout after S D",
            &["s 0", "> SR", "u 5000", "u 1", "u 2", "u 3", "u 4", "u 5", "s 6", "state"],
            &["S S     0.0000 g", "S D     0.0050 g", "S S     0.0000 g", &running("sample s 6 waits none repeats SR 6 -")],
        ),
        on_a(
            "one + or - for an excursion",
            &["s 0", "> SR", "u 5000", "s 220000001", "state", "u -1000001", "u 10", "state", "s 10"],
            &[
                "S S     0.0000 g",
                "S D     0.0050 g",
                "S +",
                &running("sample s 220000001 waits none repeats SR 0 - owed out"),
                &running("sample u 10 waits none repeats SR 0 - owed"),
                "S S     0.0000 g",
            ],
        ),
        on_a(
            "a silent sample is back in range",
            &["s 0", "> SR", "u 220000001", "state", "u 10", "state", "s -1000001", "s -1000000"],
            &[
                "S S     0.0000 g",
                "S +",
                &running("sample u 220000001 waits none repeats SR 0 - out"),
                &running("sample u 10 waits none repeats SR 0 -"),
                "S -",
                "S S    -1.0000 g",
            ],
        ),
        on_a(
            "back in range the last net still counts",
            &["s 0", "> SR", "s 220000001", "s 220000001", "u 2999", "s 300000000", "s 2999", "u -300000000", "s 3000"],
            &["S S     0.0000 g", "S +", "S +", "S -", "S S     0.0030 g"],
        ),
    ]
}

/// A sample that finds a command waiting gives only that command's answer, and moves nothing of SR.
fn sr_passed_over() -> Vec<Case> {
    vec![
        on_a(
            "passed over while out of range",
            &["s 0", "> SR", "u 220000001", "> T", "u 0", "s 220000001", "s 220000001"],
            &["S S     0.0000 g", "S +", "T +"],
        ),
        on_a(
            "passed over, and sent when nothing waits",
            &["s 0", "> SR", "u 1", "> T", "u 220000001", "u 220000001", "u 220000001", "state", "u 220000001"],
            &[
                "S S     0.0000 g",
                "T I",
                "state zero 0 tare 0 sample u 220000001 waits none repeats SR 0 - shows weight line 0",
                "S +",
            ],
        ),
        on_a(
            "a waiting Z's samples",
            &["s 0", "> SR", "u 1", "> Z", "u 90000", "state", "s 70000", "state", "s 90000"],
            &[
                "S S     0.0000 g",
                "state zero 0 tare 0 sample u 90000 waits Z 1 repeats SR 0 - shows weight line 0",
                "Z A",
                "state zero 70000 tare 0 sample s 70000 waits none repeats SR 0 - shows weight line 0",
                "S S     0.0200 g",
            ],
        ),
        on_a(
            "refused samples move nothing",
            &["s 0", "> SR", "room 17", "s 3000", "u 3000", "u 2999", "room 4", "s 220000001", "state", "room 5", "s 220000001"],
            &[
                "S S     0.0000 g",
                "refused 3",
                "refused 3",
                "refused 3",
                "state zero 0 tare 0 sample u 2999 waits none repeats SR 0 - shows weight line 0",
                "S +",
            ],
        ),
    ]
}

/// Each threshold from both sides; equality fires.
fn sr_thresholds() -> Vec<Case> {
    let ounces = "unit oz 5 1";
    vec![
        on_a("an eighth above 30 steps", &["s 24001", "> SR", "s 27001", "s 27002"], &["S S     0.0240 g", "S S     0.0270 g"]),
        on_a("an eighth and 30 steps", &["s 24000", "> SR", "s 26999", "s 27000"], &["S S     0.0240 g", "S S     0.0270 g"]),
        on_a("an eighth below 30 steps", &["s 23993", "> SR", "s 26992", "s 26993"], &["S S     0.0240 g", "S S     0.0270 g"]),
        on_a(
            "a last net below zero",
            &["s -800000", "> SR", "s -900000", "s -1000000"],
            &["S S    -0.8000 g", "S S    -0.9000 g"],
        ),
        on_a("towards zero", &["s -800000", "> SR", "u -700001", "u -700000"], &["S S    -0.8000 g", "S D    -0.7000 g"]),
        on_a(
            "the threshold is taken anew from each new last net",
            &["s 8000000", "> SR", "s 8999999", "s 9000000", "s 10124999", "s 10125000", "s 8859376", "s 8859375"],
            &["S S     8.0000 g", "S S     9.0000 g", "S S    10.1250 g", "S S     8.8594 g"],
        ),
        on_profile(
            "30 steps of an ounce",
            ounces,
            &["s 0", "> SR", "s 8504", "s 8505"],
            &["S S    0.00000 oz", "S S    0.00030 oz"],
        ),
        on_profile(
            "30 steps of five",
            "unit g 4 5",
            &["s 0", "> SR", "s -14999", "s 14999", "s 15000"],
            &["S S     0.0000 g", "S S     0.0150 g"],
        ),
        on_a(
            "a set threshold of a microgram",
            &["s 800000", "> SR 0.000001 g", "s 800000", "s 800001", "u 800001", "u 800000", "s 800001", "s 800001"],
            &["S S     0.8000 g", "S S     0.8000 g", "S D     0.8000 g", "S S     0.8000 g"],
        ),
        on_a(
            "a set threshold of the capacity",
            &["s -1", "> SR 220 g", "s 219999998", "s 219999999", "s 0", "s -1"],
            &["S S     0.0000 g", "S S   220.0000 g", "S S     0.0000 g"],
        ),
    ]
}

/// Refusal 2 at each side of each limit that a changed profile can reach; the rest are constructed states.
fn sr_refusals() -> Vec<Case> {
    vec![
        on_a(
            "a last net above C",
            &["s 5000", "> SR", "profile 5000 0 0 3", "b 53", "profile 4999 0 0 3", "b 53", "s 1", A, "s 5001", "> Q"],
            &["S S     0.0050 g", "refused 2", "refused 2", "ES"],
        ),
        on_a(
            "a last net below -(U+C)",
            &["s 5000", "> T", "s -1000", "> SR", "profile 5000 1000 0 3", "b 53", "profile 5000 999 0 3", "b 53", "u 0"],
            &["T S     0.0050 g", "S S    -0.0060 g", "refused 2", "refused 2"],
        ),
        on_a(
            "a set threshold above C, running",
            &["s 0", "> SR 0.005 g", "profile 5000 0 0 3", "b 53", "profile 4999 0 0 3", "b 53", "s 1", A, "s 5000"],
            &["S S     0.0000 g", "refused 2", "refused 2", "S S     0.0050 g"],
        ),
        on_a(
            "a set threshold above C, waiting",
            &["> SR 0.005 g", "profile 5000 0 0 3", "b 53", "profile 4999 0 0 3", "b 53", "s 1", A, "s 5000"],
            &["refused 2", "refused 2", "S S     0.0050 g"],
        ),
        on_a(
            "what an SR that is off left behind does not count",
            &["s 5000", "> SR 0.005 g", "> @", "profile 4999 0 0 3", "> DW", "u 1"],
            &["S S     0.0050 g", ON, "DW A"],
        ),
    ]
}

// Document 02, No. 2: a whole buffer of received bytes.

/// A whole buffer of these bytes, all good.
fn whole(bytes: &str) -> String {
    format!("w{}", bytes.bytes().map(|byte| format!(" {byte:02X}")).collect::<String>())
}

/// A whole buffer of so many good bytes, all the same, which is given in hexadecimal.
pub fn run(count: usize, byte: &str) -> String {
    format!("w{}", format!(" {byte}").repeat(count))
}

/// Answers and state are those of the bytes taken singly.
fn buffer_lines() -> Vec<Case> {
    let held = |words: &str| format!("state zero 0 tare 0 sample none waits none repeats no shows weight line {words}");
    vec![
        on_a("lines in one buffer", &[&whole("DW\r\nTAC\r\nQ\r\n"), "state"], &["DW A", "TAC A", "ES", &held("0")]),
        on_a("an empty buffer", &["w", "state", "b 51 0D", "w", "state", "w 0A"], &[&held("0"), &held("1 cr"), "ES"]),
        on_a(
            "a line over several calls",
            &[&whole("DW\r\nTA"), "state", &whole("C"), "b 0D", "state", "w 0A", "w 44", "b 57 0D", "w 0A 44"],
            &["DW A", &held("2"), &held("3 cr"), "TAC A", "DW A"],
        ),
        on_a("CR and LF in odd places", &[&whole("\nDW\r\nDW\rDW\r\nDW\r\r\n\r\n")], &["ES", "ES", "ES", "ES"]),
        on_a(
            "each line finds what the ones before it left",
            &["s 10000050", &whole("T\r\nSI\r\nTAC\r\nSI\r\nD \"A\"\r\n"), "state"],
            &[
                "T S    10.0001 g",
                "S S     0.0000 g",
                "TAC A",
                "S S    10.0001 g",
                "D A",
                "state zero 0 tare 0 sample s 10000050 waits none repeats no shows \"A\" line 0",
            ],
        ),
        on_a(
            "a wait begins in a buffer, and @ in it drops it",
            &[&whole("S\r\nSI\r\nTA\r\n"), "s 7000", &whole("SIR\r\n"), "u 1", &whole("T\r\n@\r\nSR\r\n"), "s 2", "s 90000"],
            &[
                "S I",
                "TA I",
                "S S     0.0070 g",
                "S S     0.0070 g",
                "S D     0.0000 g",
                ON,
                "S S     0.0000 g",
                "S S     0.0900 g",
            ],
        ),
        on_a(
            "lines that are too long",
            &[&whole(&format!("{}\r\n{}\r\nDW\r\n", "S".repeat(65), "S".to_string() + &" ".repeat(63)))],
            &["ES", "EL", "DW A"],
        ),
    ]
}

/// 0 is good, anything else faulty.
fn buffer_marks() -> Vec<Case> {
    let faulty_at = |place: usize| format!("w{} 53! 0D 0A 44 57 0D 0A", " 53".repeat(place));
    vec![
        on_a("a faulty CR", &["w 53 0D! 0A 0D 0A"], &["ET"]),
        on_a("a faulty LF", &["w 53 0D 0A! 0D 0A"], &["ET"]),
        on_a("one line is faulty, the next is not", &["w 44! 57 0D 0A 44 57 0D 0A"], &["ET", "DW A"]),
        on_a("a line is faulty, the one before is not", &["w 44 57 0D 0A 44 57! 0D 0A"], &["DW A", "ET"]),
        on_a("faulty in one call, ended in another", &["w 44!", "w 57 0D 0A", "w 44 57!", "b 0D 0A"], &["ET", "ET"]),
        on_a("all faulty", &["w 44! 57! 0d! 0a!", "w 0d 0a"], &["ET"]),
        on_a("marks of 255 and 1", &[&faulty_at(254), &faulty_at(255)], &["ET", "DW A", "ET", "DW A"]),
        on_a("marks of 127, 128 and 129", &[&faulty_at(126), &faulty_at(127), &faulty_at(128)], &["ET", "DW A"].repeat(3)),
    ]
}

/// The answers share the room; the call stops before the byte whose answer does not fit.
fn buffer_rooms() -> Vec<Case> {
    let held = |words: &str| format!("state zero 0 tare 0 sample none waits none repeats no shows weight line {words}");
    let (twice, listed) = (whole("SI\r\nSI\r\n"), whole("I0\r\nQ\r\n"));
    let (line_cr, full) = (held("2 cr"), [&LIST[..], &["ES"]].concat());
    vec![
        on_a("S I twice with room 4", &["room 4", &twice, "state", "room 5", "w 0A"], &["took 3", &line_cr, "S I"]),
        on_a("S I twice with room 5", &["room 5", &twice, "state", "w 0A"], &["S I", "took 7", &line_cr, "S I"]),
        on_a("S I twice with room 8", &["room 8", &twice, "state", "w 0A"], &["S I", "took 7", &line_cr, "S I"]),
        on_a("S I twice with room 9", &["room 9", &twice, "state", "b 0A"], &["S I", "took 7", &line_cr, "S I"]),
        on_a("S I twice with room 10", &["room 10", &twice, "state"], &["S I", "S I", &held("0")]),
        on_a("a shorter answer is not reached", &["room 257", &listed, "state"], &["took 3", &line_cr]),
        on_a("I0 alone fits", &["room 261", &listed, "state", "w 0A"], &[&LIST[..], &["took 6", &held("1 cr"), "ES"]].concat()),
        on_a("I0 and ES fit", &["room 262", &listed, "state"], &[&full[..], &[&held("0")]].concat()),
        on_a("LF with room 0", &["b 51 0D", "room 0", "w 0A", "state"], &["took 0", &held("1 cr")]),
        on_a(
            "LF and more with room 3",
            &["w 51 0D", "room 3", "w 0A 51 0D 0A", "room 8", "w 0A 51 0D 0A"],
            &["took 0", "ES", "ES"],
        ),
        on_a(
            "an empty answer fits no room at all",
            &["room 0", &whole("S\r\nSI\r\n"), "state", "room 5", "w 0A"],
            &["took 6", "state zero 0 tare 0 sample none waits S 0 repeats no shows weight line 2 cr", "S I"],
        ),
        on_a(
            "an empty answer fits a full room",
            &["room 4", &whole("Q\r\nS\r\nSI\r"), "state"],
            &["ES", "state zero 0 tare 0 sample none waits S 0 repeats no shows weight line 2 cr"],
        ),
        on_a("bytes that end no line need no room", &["room 4", &whole("Q\r\nQ\rQ\n"), "state"], &["ES", &held("4")]),
        on_a(
            "the state is that after the bytes taken",
            &["s 5000", "room 24", &whole("T\r\nTAC\r\n"), "state", "room 25", "w 0A", "state"],
            &[
                "T S     0.0050 g",
                "took 7",
                "state zero 0 tare 5000 sample s 5000 waits none repeats no shows weight line 3 cr",
                "TAC A",
                "state zero 0 tare 0 sample s 5000 waits none repeats no shows weight line 0",
            ],
        ),
        on_a(
            "SR in a room of 17 and 18",
            &["s 0", "> SIR", "room 17", &whole("SR\r\nSI\r\n"), "state", "room 18", "w 0A 53", "state"],
            &[
                "S S     0.0000 g",
                "took 3",
                "state zero 0 tare 0 sample s 0 waits none repeats SIR shows weight line 2 cr",
                "S S     0.0000 g",
                "state zero 0 tare 0 sample s 0 waits none repeats SR 0 - shows weight line 1",
            ],
        ),
        on_a(
            "the largest room holds fifteen lists",
            &["room 4096", &whole(&"I0\r\n".repeat(17)), "w 0A"],
            &[&LIST.repeat(15)[..], &["took 63"], &LIST].concat(),
        ),
    ]
}

/// Up to 4,096 bytes, and as many marks.
fn buffer_lengths() -> Vec<Case> {
    let held = |words: &str| format!("state zero 0 tare 0 sample none waits none repeats no shows weight line {words}");
    let (none, over) = (held("0"), held("64 over"));
    vec![
        on_a(
            "one mark fewer and one more",
            &["w- 53", "w+ 53", "w+", "state", "w 53", "state"],
            &["refused 5", "refused 5", "refused 5", &none, &held("1")],
        ),
        on_a(
            "more bytes and one mark fewer or more",
            &["w- 53 0D 0A", "w+ 53! 0D 0A", "state"],
            &["refused 5", "refused 5", &none],
        ),
        on_a(
            "4,097",
            &[&run(4_097, "53"), "state", "room 0", &run(4_097, "53"), &run(9_999, "0A")],
            &["refused 5", &none, "refused 5", "refused 5"],
        ),
        on_a(
            "4,096",
            &[&run(4_096, "53"), "state", &run(4_096, "0D"), "state", &run(4_096, "0A"), "state"],
            &[&over, &held("64 over cr"), "ES", &over],
        ),
        on_a(
            "4,096 with room 0",
            &["room 0", &run(4_096, "53"), "state", "w 0D", &run(4_096, "0A"), "state"],
            &[&over, "took 0", &held("64 over cr")],
        ),
        on_a(
            "4,095, 64, 65 and none",
            &[&run(64, "53"), "state", &run(1, "53"), "state", &run(4_095, "20"), &run(0, "0A"), "state"],
            &[&held("64"), &over, &over],
        ),
        on_a(
            "refused, the line goes on and the text stays",
            &["> D \"A\"", "b 44 57 0D", "w- 0A", "w+ 0A", &run(4_097, "0A"), "state", "w 0A"],
            &["D A", "refused 5", "refused 5", "refused 5", &held("2 cr").replace("weight", "\"A\""), "DW A"],
        ),
    ]
}

/// 1, then 2, then 5; never 3.
fn buffer_refusals() -> Vec<Case> {
    let bad = "profile 0 1000000 4400000 3";
    let narrow = "profile 220000000 1000000 4999 3";
    let state = "state zero 5000 tare 0 sample s 5000 waits none repeats no shows weight line 0";
    let (full, long) = (&run(4_096, "53")[..], &run(4_097, "53")[..]);
    vec![
        on_a(
            "2 before 5",
            &["s 5000", "> Z", narrow, "w 53", "w", "w- 53", "w+ 53", "w+", full, long, "state", A, long],
            &[&["Z A"], &["refused 2"; 7][..], &[state, "refused 5"]].concat(),
        ),
        on_a(
            "1 before 2 and 5",
            &["s 5000", "> Z", bad, "w 53", "w", "w- 53", "w+ 53", "w+", full, long, "state"],
            &[&["Z A"], &["refused 1"; 7][..], &[state]].concat(),
        ),
        on_a(
            "2 with room 0",
            &["s 5000", "> Z", "b 51 0D", narrow, "room 0", "w 0A", A, "w 0A", "room 4", "w 0A"],
            &["Z A", "refused 2", "took 0", "ES"],
        ),
        on_a(
            "3 is the byte call's alone",
            &["room 3", &whole("Q\r\n"), "b 0A", "w 0A", "room 4", "w 0A"],
            &["took 2", "refused 3", "took 0", "ES"],
        ),
    ]
}

// Document 02, No. 3: a typed tare has readable places only.

const GRAMS_IN_FIVES: &str = "profile 1000000000 0 0 3, unit g 0 5, unit mg 0 1";
const OUNCES_IN_FIVES: &str = "profile 1000000000 0 0 3, unit oz 0 5, unit mg 0 1";
const OUNCES: &str = "unit oz 5 1";

/// The state after power-on with this tare.
fn tared(tare: u32) -> String {
    format!("state zero 0 tare {tare} sample none waits none repeats no shows weight line 0")
}

/// The first rounding, to the display step.
fn typed_to_steps() -> Vec<Case> {
    let fives = "unit g 4 5";
    let twos = "unit g 4 2";
    let millionths = "profile 9999999 0 0 3, unit g 6 5";
    vec![
        on_a("half a step", &["> TA 0.00005 g", "state"], &["TA A     0.0001 g", &tared(100)]),
        on_a(
            "below half a step",
            &["> TA 1 g", "> TA 0.000049 g", "state"],
            &["TA A     1.0000 g", "TA A     0.0000 g", &tared(0)],
        ),
        on_a(
            "up to six decimals",
            &["> TA 123.45675 g", "state", "> TA 123.456749 g", "state", "> TA", "> TA 123.4567 g"],
            &[
                "TA A   123.4568 g",
                &tared(123_456_800),
                "TA A   123.4567 g",
                &tared(123_456_700),
                "TA A   123.4567 g",
                "TA A   123.4567 g",
            ],
        ),
        on_a(
            "the rounded tare is subtracted",
            &["> TA 0.000049 g", "s 9999951", "> SI", "> TA 0.00005 g", "> SI", "s 49", "> SI", "s 50", "> SI"],
            &[
                "TA A     0.0000 g",
                "S S    10.0000 g",
                "TA A     0.0001 g",
                "S S     9.9999 g",
                "S S    -0.0001 g",
                "S S    -0.0001 g",
            ],
        ),
        on_profile("steps of five, half of one", fives, &["> TA 0.00025 g", "state"], &["TA A     0.0005 g", &tared(500)]),
        on_profile("steps of five, below half of one", fives, &["> TA 0.000249 g", "state"], &["TA A     0.0000 g", &tared(0)]),
        on_profile(
            "steps of five, whole places between",
            fives,
            &["> TA 1.0002 g", "> TA 1.0003 g", "> TA 1.0007 g", "> TA 1.00075 g", "> TA 1.0008 g"],
            &["TA A     1.0000 g", "TA A     1.0005 g", "TA A     1.0005 g", "TA A     1.0010 g", "TA A     1.0010 g"],
        ),
        on_profile(
            "steps of two",
            twos,
            &["> TA 1.0001 g", "> TA 1.000099 g", "> TA 1.0003 g", "> TA 1.000299 g"],
            &["TA A     1.0002 g", "TA A     1.0000 g", "TA A     1.0004 g", "TA A     1.0002 g"],
        ),
        on_profile(
            "as many decimals as can be typed",
            millionths,
            &["> TA 0.000002 g", "> TA 0.000003 g", "> TA 1.000007 g", "> TA 1.000008 g"],
            &["TA A   0.000000 g", "TA A   0.000005 g", "TA A   1.000005 g", "TA A   1.000010 g"],
        ),
        on_profile(
            "no decimals",
            "unit g 0 1",
            &["> TA 0.499999 g", "> TA 0.5 g", "state", "> TA 219.5 g", "> TA 220.499999 g", "> TA 220.5 g"],
            &["TA A          0 g", "TA A          1 g", &tared(1_000_000), "TA A        220 g", "TA A        220 g", "TA L"],
        ),
    ]
}

/// The second rounding, to the microgram.
fn typed_to_micrograms() -> Vec<Case> {
    vec![
        on_profile(
            "half a microgram",
            OUNCES,
            &["> TA 4 oz", "state", "s 113398234", "> SI", "s 113398235", "> SI"],
            &["TA A    4.00000 oz", &tared(113_398_093), "S S    0.00000 oz", "S S    0.00001 oz"],
        ),
        on_profile("both roundings", OUNCES, &["> TA 1.000005 oz", "state"], &["TA A    1.00001 oz", &tared(28_349_807)]),
        on_profile(
            "both roundings, a tie in each",
            OUNCES,
            &["> TA 3.999995 oz", "state"],
            &["TA A    4.00000 oz", &tared(113_398_093)],
        ),
        on_profile(
            "a first rounding that misses the tie",
            OUNCES,
            &["> TA 3.999994 oz", "state"],
            &["TA A    3.99999 oz", &tared(113_397_809)],
        ),
        on_profile(
            "half a microgram in other units",
            "unit GN 2 1",
            &["> TA 50 GN", "state", "> TA 49.995 GN", "state"],
            &["TA A      50.00 GN", &tared(3_239_946), "TA A      50.00 GN", &tared(3_239_946)],
        ),
        on_profile(
            "not from the micrograms of the typed number",
            "profile 99999999 0 0 3, unit mg 2 1",
            &["> TA 0.0045 mg", "state", "> TA 0.004999 mg", "> TA 0.005 mg", "state"],
            &["TA A       0.00 mg", &tared(0), "TA A       0.00 mg", "TA A       0.01 mg", &tared(10)],
        ),
    ]
}

/// The microgram result alone is compared with C.
fn typed_limits() -> Vec<Case> {
    let ounces_to = |capacity: u32| format!("profile {capacity} 0 0 3, unit oz 0 5");
    let tie_to = |capacity: u32| format!("profile {capacity} 0 0 3, unit oz 5 1");
    vec![
        on_a(
            "above C before it is rounded",
            &["> TA 220.000001 g", "state", "> TA 0 g", "> TA 220.000049 g", "state"],
            &["TA A   220.0000 g", &tared(220_000_000), "TA A     0.0000 g", "TA A   220.0000 g", &tared(220_000_000)],
        ),
        on_a("above C once it is rounded", &["> TA 220.00005 g", "state"], &["TA L", &tared(0)]),
        on_profile(
            "grams in steps of five",
            GRAMS_IN_FIVES,
            &["> TA 1002.4 g", "state"],
            &["TA A       1000 g", &tared(1_000_000_000)],
        ),
        on_profile("grams in steps of five, half of one", GRAMS_IN_FIVES, &["> TA 1002.5 g", "state"], &["TA L", &tared(0)]),
        on_profile(
            "ounces in steps of five",
            OUNCES_IN_FIVES,
            &["> TA 37.4 oz", "state"],
            &["TA A         35 oz", &tared(992_233_309)],
        ),
        on_profile("ounces in steps of five, half of one", OUNCES_IN_FIVES, &["> TA 37.5 oz", "state"], &["TA L", &tared(0)]),
        on_profile(
            "below C before it is rounded",
            "profile 218000000 0 0 3, unit g 0 5",
            &["> TA 217.4 g", "> TA 217.5 g", "> TA 218 g", "state"],
            &["TA A        215 g", "TA L", "TA L", &tared(215_000_000)],
        ),
        // 35 oz are 992,233,309.375 micrograms.
        on_profile(
            "C just below the decimal",
            &ounces_to(992_233_309),
            &["> TA 35 oz", "state"],
            &["TA A         35 oz", &tared(992_233_309)],
        ),
        on_profile("C a microgram less", &ounces_to(992_233_308), &["> TA 35 oz", "state"], &["TA L", &tared(0)]),
        on_profile("C at a tie", &tie_to(113_398_093), &["> TA 4 oz", "state"], &["TA A    4.00000 oz", &tared(113_398_093)]),
        on_profile("C just below a tie", &tie_to(113_398_092), &["> TA 4 oz", "state"], &["TA L", &tared(0)]),
        on_a(
            "the largest numbers",
            &["> TA 9999999999 g", "> TA 999.999999 g", "> TA 0000000220 g"],
            &["TA L", "TA L", "TA A   220.0000 g"],
        ),
    ]
}

/// SR's number is read as before.
fn typed_thresholds() -> Vec<Case> {
    let waits = |set: u32| format!("state zero 0 tare 0 sample none waits SR 0 {set} repeats no shows weight line 0");
    vec![
        on_a("SR above C by a microgram", &["> SR 220.000001 g", "state"], &["S L", &tared(0)]),
        on_a("SR below half a step", &["> SR 0.00004 g", "state"], &[&waits(40)]),
        on_a("SR above half a step", &["> SR 0.000051 g", "state"], &[&waits(51)]),
        on_profile("SR in steps of five", GRAMS_IN_FIVES, &["> SR 1002.4 g", "> SR 2.4 g", "state"], &["S L", &waits(2_400_000)]),
        on_profile("SR at half a microgram", OUNCES, &["> SR 4 oz", "state"], &[&waits(113_398_093)]),
        on_profile("SR between display steps", OUNCES, &["> SR 1.000005 oz", "state"], &[&waits(28_349_665)]),
    ]
}

// Document 02, No. 5: units by command.

/// The nine codes, g last.
const CODES: [&str; 9] = ["1", "3", "5", "7", "8", "9", "10", "11", "0"];

/// A query, a set of each unit, and every line that is neither.
fn unit_lines() -> Vec<Case> {
    let wrong: [&str; 34] = [
        "> M21 ",
        "> M21 0",
        "> M21 0 ",
        "> M21 0 05",
        "> M21 00 5",
        "> M21 1 5",
        "> M21 2 5",
        "> M21 0  5",
        "> M21  0 5",
        "> M21 0 5 ",
        "> M21 5",
        "> M21 0 +5",
        "> M21 0 -5",
        "> M21 +0 5",
        "> M21 0 5.",
        "> M21 0 0x5",
        "> M21 0 2",
        "> M21 0 4",
        "> M21 0 6",
        "> M21 0 12",
        "> M21 0 13",
        "> M21 0 17",
        "> M21 0 18",
        "> M21 0 20",
        "> M21 0 22",
        "> M21 0 24",
        "> M21 0 99",
        "> M21 0 100",
        "> M21 0 256",
        "> M21 0 261",
        "> M21 0 4294967296",
        "> M21 0 ct",
        "> M21 0 5 0",
        "> M21 x",
    ];
    let sets = CODES.map(|code| format!("> M21 0 {code}"));
    let told = CODES.map(|code| format!("M21 A 0 {code}"));
    let states = ["kg", "mg", "ct", "lb", "oz", "ozt", "GN", "dwt", "g"].map(|unit| format!("{} unit {unit}", tared(0)));
    let each = |then: &'static str| sets.iter().flat_map(|set| [set.as_str(), then]).collect::<Vec<_>>();
    let all_told: Vec<&str> = told.iter().flat_map(|line| ["M21 A", line]).collect();
    let all_shown: Vec<&str> = states.iter().flat_map(|line| ["M21 A", line]).collect();
    let in_mg = format!("{} unit mg", tared(0));
    vec![
        on_a(
            "M21 asked and set",
            &["> M21", "> M21 0 5", "> M21", "> M21 0 5", "> M21", "> M21 0 0", "> M21"],
            &["M21 A 0 0", "M21 A", "M21 A 0 5", "M21 A", "M21 A 0 5", "M21 A", "M21 A 0 0"],
        ),
        on_a("M21 with each of the nine", &each("> M21"), &all_told),
        on_a("the nine in the state", &each("state"), &all_shown),
        on_a(
            "M21 with other parameters",
            &[&["> M21 0 3"], &wrong[..], &["> M21", "state"]].concat(),
            &[&["M21 A"], &["M21 L"; 34][..], &["M21 A 0 3", &in_mg]].concat(),
        ),
        on_a(
            "M21 and others that are no name",
            &["> M2", "> M211", "> m21", "> M", "> M20", "> M22", "> M21\t", "> M210 5", "> 21", "> MM21", "> M210", "> M21,"],
            &["ES"; 12],
        ),
        on_a(
            "a faulty M21",
            &["> M21 0 5", "f 4D", "b 32 31 20 30 20 30 0D 0A", "b 4D 32 31 20 30 20", "f 30", "b 0D 0A", "> M21"],
            &["M21 A", "ET", "ET", "M21 A 0 5"],
        ),
        on_a("003 M21", &["> M21 0 1", "> M21"], &["M21 A", "M21 A 0 1"]),
    ]
}

/// Orders 3 to 7: parameters are no EL, I comes before L, and no sample is needed.
fn unit_orders() -> Vec<Case> {
    vec![
        on_a(
            "M21 while a command waits",
            &["> T", "> M21", "> M21 0 5", "> M21 0 05", "> M21 ", "> M21 0 0", "> M21 x", "> M211", "state", "> @", "> M21"],
            &[
                "M21 I",
                "M21 I",
                "M21 I",
                "M21 I",
                "M21 I",
                "M21 I",
                "ES",
                "state zero 0 tare 0 sample none waits T 0 repeats no shows weight line 0 unit g",
                ON,
                "M21 A 0 0",
            ],
        ),
        on_a(
            "M21 before and after a wait",
            &["> M21 0 5", "> S", "u 1", "> M21 0 0", "s 200000", "> M21 0 8", "> S"],
            &["M21 A", "M21 I", "S S       1.00 ct", "M21 A", "S S       0.01 oz"],
        ),
        on_a(
            "M21 while SR waits",
            &["> SR", "> M21 0 5", "u 1", "> M21", "s 20000", "> M21"],
            &["M21 I", "M21 I", "S S     0.0200 g", "M21 A 0 0"],
        ),
        on_a("M21 with no sample", &["> M21", "> M21 0 7", "> M21", "> SI"], &["M21 A 0 0", "M21 A", "M21 A 0 7", "S I"]),
        on_a("I1 stays", &["> I1"], &["I1 A \"0\" \"2.30\" \"2.20\""]),
    ]
}

/// What M21 leaves, and what leaves the unit.
fn unit_kept() -> Vec<Case> {
    vec![
        on_a("@ keeps the unit", &["> M21 0 5", "> @", "> M21", "> TA"], &["M21 A", ON, "M21 A 0 5", "TA A       0.00 ct"]),
        on_a("power-on sets g", &["> M21 0 5", "on", "> M21", "> TA"], &["M21 A", ON, "M21 A 0 0", "TA A     0.0000 g"]),
        on_a(
            "a refused power-on keeps the unit",
            &["> M21 0 5", "room 15", "on", "room 384", "> M21", "unit kg 7 1", "on", "unit kg 2 1", "> M21"],
            &["M21 A", "refused 3", "M21 A 0 5", "refused 1", "M21 A 0 5"],
        ),
        on_a(
            "zero, tare, sample and display stay",
            &["s 70", "> Z", "s 120", "> T", "> D \"A\"", "> M21 0 5", "state", "> M21 0 9", "> M21", "> M21 0 2", "state"],
            &[
                "Z A",
                "T S     0.0001 g",
                "D A",
                "M21 A",
                "state zero 70 tare 50 sample s 120 waits none repeats no shows \"A\" line 0 unit ct",
                "M21 A",
                "M21 A 0 9",
                "M21 L",
                "state zero 70 tare 50 sample s 120 waits none repeats no shows \"A\" line 0 unit ozt",
            ],
        ),
        on_a(
            "SIR goes on in the new unit",
            &[
                "s 200000",
                "> SIR",
                "> M21 0 5",
                "s 200000",
                "> M21",
                "u 200000",
                "> M21 x",
                "u 200000",
                "> M21 0 0",
                "s 0",
                "state",
            ],
            &[
                "S S     0.2000 g",
                "M21 A",
                "S S       1.00 ct",
                "M21 A 0 5",
                "S D       1.00 ct",
                "M21 L",
                "S D       1.00 ct",
                "M21 A",
                "S S     0.0000 g",
                "state zero 0 tare 0 sample s 0 waits none repeats SIR shows weight line 0 unit g",
            ],
        ),
        on_a(
            "what SR owes and where it is out stay",
            &["s 0", "> SR", "u 5000", "u 220000001", "> M21 0 5", "state", "> M21", "s 220000001", "s 0", "s 59999", "s 60000"],
            &[
                "S S     0.0000 g",
                "S D     0.0050 g",
                "S +",
                "M21 A",
                "state zero 0 tare 0 sample u 220000001 waits none repeats SR 0 - owed out shows weight line 0 unit ct",
                "M21 A 0 5",
                "S S       0.00 ct",
                "S S       0.30 ct",
            ],
        ),
        on_a(
            "M21 in whole buffers",
            &["s 200000", &whole("SI\r\nM21 0 5\r\nSI\r\nM21\r\nM21 0 0\r\nTA\r\nM21 0 05\r\n"), "state"],
            &[
                "S S     0.2000 g",
                "M21 A",
                "S S       1.00 ct",
                "M21 A 0 5",
                "M21 A",
                "TA A     0.0000 g",
                "M21 L",
                "state zero 0 tare 0 sample s 200000 waits none repeats no shows weight line 0 unit g",
            ],
        ),
    ]
}

/// A sample on profile A, and the answers to a line in each unit, in the order of `CODES`.
fn in_each(name: &'static str, sample: &str, line: &str, weights: [&str; 9]) -> Case {
    in_each_on(name, "", sample, line, weights)
}

/// The same on profile A with some of its lines set anew.
fn in_each_on(name: &'static str, lines: &str, sample: &str, line: &str, weights: [&str; 9]) -> Case {
    let sets = CODES.map(|code| format!("> M21 0 {code}"));
    let sent: Vec<&str> = [sample].into_iter().chain(sets.iter().flat_map(|set| [set.as_str(), line])).collect();
    on_profile(name, lines, &sent, &weights.into_iter().flat_map(|weight| ["M21 A", weight]).collect::<Vec<_>>())
}

/// Weights in each of the nine.
fn unit_weights() -> Vec<Case> {
    vec![
        in_each(
            "14,256,050 in each",
            "s 14256050",
            "> S",
            [
                "S S       0.01 kg",
                "S S   14256.05 mg",
                "S S      71.28 ct",
                "S S       0.03 lb",
                "S S       0.50 oz",
                "S S       0.46 ozt",
                "S S     220.00 GN",
                "S S       9.17 dwt",
                "S S    14.2561 g",
            ],
        ),
        in_each(
            "-1,000,000 in each, not stable",
            "u -1000000",
            "> SI",
            [
                "S D       0.00 kg",
                "S D   -1000.00 mg",
                "S D      -5.00 ct",
                "S D       0.00 lb",
                "S D      -0.04 oz",
                "S D      -0.03 ozt",
                "S D     -15.43 GN",
                "S D      -0.64 dwt",
                "S D    -1.0000 g",
            ],
        ),
        in_each(
            "220,000,000 in each",
            "s 220000000",
            "> TI",
            [
                "TI S       0.22 kg",
                "TI S  220000.00 mg",
                "TI S    1100.00 ct",
                "TI S       0.49 lb",
                "TI S       7.76 oz",
                "TI S       7.07 ozt",
                "TI S    3395.12 GN",
                "TI S     141.46 dwt",
                "TI S   220.0000 g",
            ],
        ),
        on_profile(
            "kilograms at a tie",
            "unit kg 6 5",
            &["s 2499", "> SI", "s 2500", "> SI", "s -2499", "> SI", "s -2500", "> SI", "s 220000000", "> SI"],
            &["S S   0.000000 kg", "S S   0.000005 kg", "S S   0.000000 kg", "S S  -0.000005 kg", "S S   0.220000 kg"],
        ),
        on_profile(
            "pounds",
            "unit lb 6 1",
            &["s 220000000", "> SI", "s 226", "> SI", "s 227", "> SI", "s 45359237", "> SI", "s 453592370", "> SI"],
            &["S S   0.485017 lb", "S S   0.000000 lb", "S S   0.000001 lb", "S S   0.100000 lb", "S +"],
        ),
        on_a(
            "+ and - have no unit",
            &["> M21 0 1", "s 220000001", "> S", "> T", "> ZI", "u -1000001", "> SI", "> TI"],
            &["M21 A", "S +", "T +", "ZI +", "S -", "TI -"],
        ),
    ]
}

/// A stored tare stays; a typed one is in the unit in force, and rounded to its step.
fn unit_typed() -> Vec<Case> {
    vec![
        on_a(
            "the tare stays in micrograms",
            &["> M21 0 8", "> TA 4 oz", "> M21 0 0", "> TA", "> M21 0 3", "> TA", "> TA 1 g", "> SR 1 g", "state"],
            &[
                "M21 A",
                "TA A       4.00 oz",
                "M21 A",
                "TA A   113.3981 g",
                "M21 A",
                "TA A  113398.09 mg",
                "TA L",
                "S L",
                "state zero 0 tare 113398093 sample none waits none repeats no shows weight line 0 unit mg",
            ],
        ),
        on_a(
            "typed in kilograms",
            &["> M21 0 1", "> TA 0.224 kg", "> TA 0.225 kg", "state", "> TA 0.004 kg", "> TA 0.005 kg", "> M21 0 0", "> TA"],
            &[
                "M21 A",
                "TA A       0.22 kg",
                "TA L",
                "state zero 0 tare 220000000 sample none waits none repeats no shows weight line 0 unit kg",
                "TA A       0.00 kg",
                "TA A       0.01 kg",
                "M21 A",
                "TA A    10.0000 g",
            ],
        ),
        on_a(
            "the largest numbers in kilograms and pounds",
            &[
                "> M21 0 1",
                "> TA 9999999999 kg",
                "> TA 999.999999 kg",
                "> SR 9999999999 kg",
                "> SR 0.220001 kg",
                "> M21 0 7",
                "> TA 9999999999 lb",
                "> SR 9999999999 lb",
                "> TA 0.49 lb",
                "> TA 0.48 lb",
                "state",
            ],
            &[
                "M21 A",
                "TA L",
                "TA L",
                "S L",
                "S L",
                "M21 A",
                "TA L",
                "S L",
                "TA L",
                "TA A       0.48 lb",
                "state zero 0 tare 217724338 sample none waits none repeats no shows weight line 0 unit lb",
            ],
        ),
        on_profile(
            "pounds to the step and to the microgram",
            "unit lb 5 1",
            &["> TA 0.00005 lb", "state", "> TA 0.000045 lb", "state", "> TA 0.000044 lb", "state"],
            &["TA A    0.00005 lb", &tared(22_680), "TA A    0.00005 lb", &tared(22_680), "TA A    0.00004 lb", &tared(18_144)],
        ),
        on_a(
            "only the unit in force",
            &["> TA 1 mg", "> TA 1 kg", "> M21 0 5", "> TA 1 g", "> TA 1 ct", "> TA 1 CT", "> TA 1", "> M21 0 1", "> TA 0.1 kg"],
            &["TA L", "TA L", "M21 A", "TA L", "TA A       1.00 ct", "TA L", "TA L", "M21 A", "TA A       0.10 kg"],
        ),
        on_a(
            "a tare is subtracted as it is kept",
            &["s 10000050", "> T", "> M21 0 5", "s 10200049", "> SI", "> TA", "> TI", "> M21 0 0", "> TA"],
            &[
                "T S    10.0001 g",
                "M21 A",
                "S S       1.00 ct",
                "TA A      50.00 ct",
                "TI S      51.00 ct",
                "M21 A",
                "TA A    10.2000 g",
            ],
        ),
    ]
}

/// SR's 30 steps are those in force at each sample; a set threshold stays.
fn unit_on_change() -> Vec<Case> {
    vec![
        on_a(
            "30 steps in force",
            &["s 0", "> SR", "> M21 0 5", "s 3000", "s 59999", "s 60000", "> M21 0 0", "s 67499", "s 67500"],
            &["S S     0.0000 g", "M21 A", "S S       0.30 ct", "M21 A", "S S     0.0675 g"],
        ),
        on_a(
            "a set threshold stays",
            &["s 0", "> SR 0.01 g", "> M21 0 5", "state", "s 9999", "s 10000"],
            &[
                "S S     0.0000 g",
                "M21 A",
                "state zero 0 tare 0 sample s 0 waits none repeats SR 0 10000 shows weight line 0 unit ct",
                "S S       0.05 ct",
            ],
        ),
        on_a(
            "a threshold in the unit in force",
            &["> M21 0 5", "s 0", "> SR 0.05 g", "> SR 0.05 ct", "state", "> M21 0 7", "s 9999", "s 10000"],
            &[
                "M21 A",
                "S L",
                "S S       0.00 ct",
                "state zero 0 tare 0 sample s 0 waits none repeats SR 0 10000 shows weight line 0 unit ct",
                "M21 A",
                "S S       0.00 lb",
            ],
        ),
        on_a(
            "a coarser unit and back between two samples",
            &["s 0", "> SR", "> M21 0 1", "s 3000", "> M21 0 0", "s 3000", "> M21 0 1", "u 299999999", "s 219999999", "state"],
            &[
                "S S     0.0000 g",
                "M21 A",
                "M21 A",
                "S S     0.0030 g",
                "M21 A",
                "S +",
                "state zero 0 tare 0 sample s 219999999 waits none repeats SR 3000 - shows weight line 0 unit kg",
            ],
        ),
        on_a(
            "an S S owed in another unit",
            &["s 0", "> SR", "u 5000", "> M21 0 1", "u 0", "s 0", "s 5000"],
            &["S S     0.0000 g", "S D     0.0050 g", "M21 A", "S S       0.00 kg"],
        ),
    ]
}

/// All nine units are tested, in force or not, at every call.
fn unit_profiles() -> Vec<Case> {
    vec![
        on_profile("milligrams fit with a margin", "profile 998999994 1000000 4400000 3", &["> TA"], &["TA A     0.0000 g"]),
        refused("milligrams do not fit with a margin", "profile 998999995 1000000 4400000 3"),
        on_profile(
            "milligrams with one decimal",
            "profile 998999995 1000000 4400000 3, unit mg 1 1",
            &["> TA"],
            &["TA A        0.0 mg"],
        ),
        refused("grains below a microgram", "unit GN 5 1"),
        refused("carats below a microgram", "profile 1000 0 0 3, unit ct 6 2"),
        on_profile("carats of a microgram", "profile 1000 0 0 3, unit ct 6 5", &["> TA"], &["TA A   0.000000 ct"]),
        refused("milligrams below a microgram", "profile 1000 0 0 3, unit mg 4 5"),
        refused("grams that do not fit", "profile 100000000 0 0 3, unit g 6 1"),
        refused("carats that do not fit", "unit ct 5 1, profile 200000000 0 0 3"),
        refused("grains that do not fit", "unit GN 5 2, profile 64800000 0 0 3"),
        refused("pennyweights that do not fit", "unit dwt 6 1, profile 155600000 0 0 3"),
        refused("seven decimals of kilograms", "unit kg 7 1"),
        refused("seven decimals of pounds", "unit lb 7 1"),
        refused("seven decimals of ounces", "unit ozt 7 1"),
        refused("a step of three in pounds", "unit lb 2 3"),
        refused("no step in kilograms", "unit kg 2 0"),
        refused("a step of ten in grains", "unit GN 2 10"),
        refused("255 decimals of pennyweights", "unit dwt 255 1"),
        on_profile(
            "the finest of kilograms, pounds and ounces at the largest capacity",
            "profile 1000000000 1000000000 0 3, unit kg 6 1, unit lb 6 1, unit oz 6 1, unit ozt 6 1, unit dwt 4 1, unit mg 0 1",
            &["s 1000000000", "> T", "s -1000000000", "> SI", "> M21 0 7", "> SI", "> M21 0 8", "> SI", "> M21 0 11", "> SI"],
            &[
                "T S   1.000000 kg",
                "S S  -2.000000 kg",
                "M21 A",
                "S S  -4.409245 lb",
                "M21 A",
                "S S -70.547924 oz",
                "M21 A",
                "S S -1286.0299 dwt",
            ],
        ),
        on_a(
            "a unit that is not in force",
            &["s 5", "unit kg 7 1", "> SI", "s 6", "w", "w- 53", "on", "unit kg 2 1", "> SI", "> M21 0 1", "unit g 4 3", "> M21"],
            &[&["refused 1"; 8][..], &["S S     0.0000 g", "M21 A"], &["refused 1"; 5]].concat(),
        ),
    ]
}

/// The answers of M21 are 7, 11 and 12 bytes long, and I0's 258.
fn unit_rooms() -> Vec<Case> {
    vec![
        on_a(
            "M21 in short rooms",
            &["room 6", "> M21 0 11", "state", "room 7", "b 0A", "room 11", "> M21", "room 12", "b 0A", "room 6", "> M21 x"],
            &[
                "refused 3",
                "state zero 0 tare 0 sample none waits none repeats no shows weight line 8 cr unit g",
                "M21 A",
                "refused 3",
                "M21 A 0 11",
                "refused 3",
            ],
        ),
        on_a(
            "M21 in whole buffers that stop",
            &["room 17", &whole("M21 0 5\r\nM21\r\n"), "state", "room 11", "w 0A", "room 6", &whole("M21 0 0\r\n"), "state"],
            &[
                "M21 A",
                "took 13",
                "state zero 0 tare 0 sample none waits none repeats no shows weight line 3 cr unit ct",
                "M21 A 0 5",
                "took 8",
                "state zero 0 tare 0 sample none waits none repeats no shows weight line 7 cr unit ct",
            ],
        ),
        on_a(
            "I0 in rooms of 256, 257 and 258",
            &["room 256", "> I0", "room 257", "b 0A", "room 258", "b 0A"],
            &[&["refused 3", "refused 3"], &LIST[..]].concat(),
        ),
    ]
}

/// `profile` sets four numbers and `unit` two, at once and nothing else.
fn unit_scripts() -> Vec<Case> {
    vec![
        on_a(
            "a unit between calls",
            &["> M21 0 5", "s 200000", "> SI", "unit ct 3 5", "> SI", "unit g 2 1", "> SI", "> M21 0 0", "> SI", A, "> SI"],
            &[
                "M21 A",
                "S S       1.00 ct",
                "S S      1.000 ct",
                "S S      1.000 ct",
                "M21 A",
                "S S       0.20 g",
                "S S       0.20 g",
            ],
        ),
        on_a(
            "lines that set nothing",
            &[
                "profile 220000000 1000000 4400000 3 g 4 1",
                "profile 1 1 1",
                "profile 1 1 1 1 1",
                "profile",
                "profile ",
                "profile 1 1 1 ",
                "unit",
                "unit ",
                "unit g",
                "unit g 1",
                "unit g 1 1 1",
                "unit g 256 1",
                "unit g 1 256",
                "unit g -1 1",
                "unit g 1  1",
                "unit  g 1 1",
                "unit G 1 1",
                "unit t 1 1",
                "unit gn 1 1",
                "unit 0 1 1",
                "unit g 1 1 ",
                "unit g 00000000001 1",
                "Unit g 1 1",
                "> TA",
                "unit g 0000000003 002",
                "> TA",
            ],
            &[&["?"; 23][..], &["TA A     0.0000 g", "TA A      0.000 g"]].concat(),
        ),
    ]
}

// Document 02, No. 6: what a table of byte classes and one of names have to say.

/// Both sides of each edge between two classes.
fn byte_classes() -> Vec<Case> {
    vec![
        on_a("31 is control, 32 is not", &["> D \"\x1F\"", "> D \" \"", "> D \"\0\"", "> D \"\t\""], &["ES", "D A", "ES", "ES"]),
        on_a(
            "127 to 255 are text",
            &[
                "b 44 20 22 7E 22 0D 0A",
                "b 44 20 22 7F 22 0D 0A",
                "b 44 20 22 80 22 0D 0A",
                "b 44 20 22 8D 22 0D 0A",
                "b 44 20 22 9F 22 0D 0A",
                "b 44 20 22 A0 22 0D 0A",
                "b 44 20 22 A2 22 0D 0A",
                "b 44 20 22 FF 22 0D 0A",
            ],
            &["D A"; 8],
        ),
        on_a("quotes stand at a text's ends alone", &["> D \"!#\"", "> D \"a\"b\"", "> D \"\"\""], &["D A", "D L", "D L"]),
        on_a(
            "32 alone ends a name",
            &["> DW ", "> DW\t", "> DW\t1", "> DW!", "b 44 57 1F 0D 0A", "b 44 57 A0 0D 0A", "b 44 57 00 0D 0A"],
            &["EL", "ES", "ES", "ES", "ES", "ES", "ES"],
        ),
        on_a(
            "32 alone parts parameters",
            &["> TA\t1 g", "> TA 1\tg", "> TA 1_g", "b 54 41 20 31 A0 67 0D 0A", "> TA 1 g"],
            &["ES", "ES", "TA L", "TA L", "TA A     1.0000 g"],
        ),
        on_a(
            "46 alone is the point",
            &["> TA 1.5 g", "> TA 1-5 g", "> TA 1/5 g", "> TA 1,5 g", "b 54 41 20 31 AE 35 20 67 0D 0A"],
            &["TA A     1.5000 g", "TA L", "TA L", "TA L", "TA L"],
        ),
        on_a(
            "48 to 57 are the digits",
            &["> TA 0 g", "> TA 9 g", "> TA / g", "> TA 1/ g", "> TA : g", "> TA 1: g", "b 54 41 20 B1 20 67 0D 0A", "> TA 90 g"],
            &["TA A     0.0000 g", "TA A     9.0000 g", "TA L", "TA L", "TA L", "TA L", "TA L", "TA A    90.0000 g"],
        ),
        on_a(
            "64 alone is the at sign, 65 to 90 the capitals",
            &["s 1000", "> @", "> `", "> A", "> ?", "> Z", "> z", "> [", "b C0 0D 0A", "> si", "> Si", "> sI", "> SI"],
            &[ON, "ES", "ES", "ES", "Z A", "ES", "ES", "ES", "ES", "ES", "ES", "S S     0.0000 g"],
        ),
    ]
}

/// Each name, and the words beside it.
fn names() -> Vec<Case> {
    let in_byte_order = [
        "> @", "> D", "> DW", "> I0", "> I1", "> I2", "> I3", "> I4", "> I5", "> M21", "> S", "> SI", "> SIR", "> SR", "> T",
        "> TA", "> TAC", "> TI", "> Z", "> ZI",
    ];
    let before_list = [ON, "D L", "DW A"];
    let after_list = [
        "I1 A \"0\" \"2.30\" \"2.20\"",
        "I2 A \"\"",
        "I3 A \"\"",
        ON,
        "I5 A \"\"",
        "M21 A 0 0",
        "S S     0.0010 g",
        "S S     0.0010 g",
        "S S     0.0010 g",
        "S S     0.0010 g",
        "T S     0.0010 g",
        "TA A     0.0010 g",
        "TAC A",
        "TI S     0.0010 g",
        "Z A",
        "ZI S",
    ];
    vec![
        on_a(
            "the names in byte order",
            &[&["s 1000"], &in_byte_order[..]].concat(),
            &[&before_list, &LIST[..], &after_list].concat(),
        ),
        on_a(
            "a zero byte is no name's end",
            &["> S\0", "> SI\0", "> SIR\0", "> @\0", "> S\0\0", "> \0S", "> S\0 1", "> \0"],
            &["ES"; 8],
        ),
        on_a("a part of a name is none", &["> I", "> M", "> M2", "> 0", "> 21", "> A", "> W", "> "], &["ES"; 8]),
        on_a(
            "a longer word is no name",
            &["> SIRX", "> SIR1", "> M21X", "> M210", "> TACK", "> DWD", "> I0I1", "> @@", "> ZIZ", "> SRS"],
            &["ES"; 10],
        ),
        on_a(
            "what lies between two names is none",
            &["> C", "> DV", "> I6", "> M20", "> SH", "> SQ", "> TB", "> ZJ"],
            &["ES"; 8],
        ),
    ]
}

// Document 02, No. 7: DeltaRange pouches.

/// Profile A with F 100 g, which the issue's examples have.
const DELTA: &str = "fine 100000000";

/// Above F is strict, and counts in micrograms.
fn range_limits() -> Vec<Case> {
    vec![
        on_profile(
            "at F and above it",
            DELTA,
            &["s 100000000", "> S", "s 100000001", "> S", "u 100000000", "> SI", "u 100000001", "> SI"],
            &["S S   100.0000 g", "S S   100.000  g", "S D   100.0000 g", "S D   100.000  g"],
        ),
        on_profile(
            "a gross that prints as F",
            DELTA,
            &["s 100000049", "> S", "s 99999951", "> S", "s 100000499", "> S", "s 100000500", "> S"],
            &["S S   100.000  g", "S S   100.0000 g", "S S   100.000  g", "S S   100.001  g"],
        ),
        on_profile(
            "F 0",
            "fine 0",
            &["s 0", "> S", "s -1", "> S", "s -1000000", "> S", "s 1", "> S", "s 499", "> S", "s 500", "> S"],
            &[
                "S S     0.0000 g",
                "S S     0.0000 g",
                "S S    -1.0000 g",
                "S S     0.000  g",
                "S S     0.000  g",
                "S S     0.001  g",
            ],
        ),
        on_profile(
            "F 0, a tare of 0 and of 1",
            "fine 0",
            &["> TA", "s 0", "> T", "s 1", "> T", "> TA", "s 0", "> SI"],
            &["TA A     0.0000 g", "T S     0.0000 g", "T S     0.000  g", "TA A     0.000  g", "S S     0.0000 g"],
        ),
        on_profile("F 1", "fine 1", &["s 1", "> S", "s 2", "> S"], &["S S     0.0000 g", "S S     0.000  g"]),
        on_profile(
            "F a microgram below C",
            "fine 219999999",
            &["s 219999999", "> S", "s 220000000", "> S", "s 220000001", "> S", "s -1000001", "> S"],
            &["S S   220.0000 g", "S S   220.000  g", "S +", "S -"],
        ),
        on_profile(
            "F at C",
            "fine 220000000",
            &["s 220000000", "> S", "> T", "> TA", "> TA 220.0004 g", "> TA 220.00004 g", "s 220000001", "> S"],
            &["S S   220.0000 g", "T S   220.0000 g", "TA A   220.0000 g", "TA L", "TA A   220.0000 g", "S +"],
        ),
    ]
}

/// Gross decides and net is printed; in a tare answer the tare decides.
fn range_deciding() -> Vec<Case> {
    vec![
        on_profile(
            "gross decides, net is printed",
            DELTA,
            &["s 150000000", "> T", "s 150000500", "> S", "s 10000000", "> S", "s 100000000", "> S", "s 100000001", "> S"],
            &["T S   150.000  g", "S S     0.001  g", "S S  -140.0000 g", "S S   -50.0000 g", "S S   -50.000  g"],
        ),
        on_profile(
            "a net above F of a gross below it",
            "profile 220000000 220000000 4400000 3, fine 100000000",
            &["s 20000000", "> T", "s -100000000", "> S", "s -200000000", "> S"],
            &["T S    20.0000 g", "S S  -120.0000 g", "S S  -220.0000 g"],
        ),
        on_profile(
            "a tare below F under a gross above it",
            DELTA,
            &["s 50000000", "> T", "s 200000000", "> TA", "> SI", "> TA 50 g", "u 200000000", "> TA"],
            &["T S    50.0000 g", "TA A    50.0000 g", "S S   150.000  g", "TA A    50.0000 g", "TA A    50.0000 g"],
        ),
        on_profile(
            "a tare above F over a gross below it",
            DELTA,
            &["s 150000000", "> TI", "s 10000000", "> TA", "> SI", "> TA 150 g", "> SI"],
            &["TI S   150.000  g", "TA A   150.000  g", "S S  -140.0000 g", "TA A   150.000  g", "S S  -140.0000 g"],
        ),
        on_profile(
            "a tare at F and above it",
            DELTA,
            &["s 100000000", "> T", "> TA", "u 100000001", "> TI", "> TA", "s 100000001", "> T"],
            &["T S   100.0000 g", "TA A   100.0000 g", "TI D   100.000  g", "TA A   100.000  g", "T S   100.000  g"],
        ),
        on_profile(
            "a tare above F before any sample",
            DELTA,
            &["> TA 150 g", "> TA", "> TAC", "> TA"],
            &["TA A   150.000  g", "TA A   150.000  g", "TAC A", "TA A     0.0000 g"],
        ),
        on_profile(
            "the load is no gross",
            DELTA,
            &[
                "s 4000000",
                "> Z",
                "s 104000000",
                "> S",
                "s 104000001",
                "> S",
                "s -4000000",
                "> Z",
                "s 96000000",
                "> S",
                "s 96000001",
                "> S",
            ],
            &["Z A", "S S   100.0000 g", "S S   100.000  g", "Z A", "S S   100.0000 g", "S S   100.000  g"],
        ),
        on_profile(
            "back in the fine range at once",
            DELTA,
            &["u 150000000", "> SIR", "s 99999951", "u 100000001", "s 100000000", "s 0"],
            &["S D   150.000  g", "S S   100.0000 g", "S D   100.000  g", "S S   100.0000 g", "S S     0.0000 g"],
        ),
        on_profile(
            "waits are judged by the stable sample",
            DELTA,
            &["u 150000000", "> S", "s 50000000", "u 50000000", "> T", "s 150000000", "> SI"],
            &["S S    50.0000 g", "T S   150.000  g", "S S     0.000  g"],
        ),
    ]
}

/// One rounding, to multiples of ten steps.
fn range_rounding() -> Vec<Case> {
    let fives = "unit g 4 5, fine 100000000";
    let twos = "unit g 4 2, fine 100000000";
    vec![
        on_profile(
            "1,450, 1,500, 500 and their like",
            DELTA,
            &[
                "s 150000000",
                "> T",
                "s 150001450",
                "> S",
                "s 150001499",
                "> S",
                "s 150001500",
                "> S",
                "s 150000500",
                "> S",
                "s 150000499",
                "> S",
            ],
            &[
                "T S   150.000  g",
                "S S     0.001  g",
                "S S     0.001  g",
                "S S     0.002  g",
                "S S     0.001  g",
                "S S     0.000  g",
            ],
        ),
        on_profile(
            "below zero",
            DELTA,
            &["s 150000000", "> T", "s 149999500", "> S", "s 149999501", "> S", "s 149998500", "> S", "s 149998501", "> S"],
            &["T S   150.000  g", "S S    -0.001  g", "S S     0.000  g", "S S    -0.002  g", "S S    -0.001  g"],
        ),
        on_profile(
            "steps of five",
            fives,
            &[
                "s 150000000",
                "> T",
                "s 150002499",
                "> S",
                "s 150002500",
                "> S",
                "s 149997501",
                "> S",
                "s 149997500",
                "> S",
                "s 150007450",
                "> S",
            ],
            &[
                "T S   150.000  g",
                "S S     0.000  g",
                "S S     0.005  g",
                "S S     0.000  g",
                "S S    -0.005  g",
                "S S     0.005  g",
            ],
        ),
        on_profile(
            "steps of two",
            twos,
            &["s 150000999", "> S", "s 150001000", "> S", "s 150002950", "> S", "s 150003000", "> S"],
            &["S S   150.000  g", "S S   150.002  g", "S S   150.002  g", "S S   150.004  g"],
        ),
        on_profile(
            "two decimals, of which one is left",
            "unit g 2 1, fine 100000000",
            &["s 100000000", "> S", "s 149949999", "> S", "s 149950000", "> S"],
            &["S S     100.00 g", "S S     149.9  g", "S S     150.0  g"],
        ),
        on_profile(
            "six decimals, of which five are left",
            "profile 99999994 0 0 3, unit g 6 1, fine 5",
            &["s 5", "> S", "s 6", "> S", "s 99999994", "> S", "> T", "s 0", "> S"],
            &["S S   0.000005 g", "S S   0.00001  g", "S S  99.99999  g", "T S  99.99999  g", "S S -99.999994 g"],
        ),
        on_profile(
            "nine characters below zero",
            "profile 99999994 0 0 3, unit mg 3 1, fine 0",
            &["s 99999994", "> T", "s 1", "> S", "s 0", "> S"],
            &["T S  99999.99  mg", "S S -99999.99  mg", "S S -99999.994 mg"],
        ),
    ]
}

/// The typed number itself is compared with F, and the stored tare decides how it is told.
fn range_typed() -> Vec<Case> {
    let beside = "fine 100000050";
    let ounces = |fine: u32| format!("unit oz 5 1, fine {fine}");
    vec![
        on_profile(
            "above F, and stored at it",
            DELTA,
            &["> TA 100.00004 g", "state", "> TA 100.0004 g", "state", "> TA 100 g", "> TA 100.000001 g"],
            &[
                "TA A   100.0000 g",
                &tared(100_000_000),
                "TA A   100.0000 g",
                &tared(100_000_000),
                "TA A   100.0000 g",
                "TA A   100.0000 g",
            ],
        ),
        on_profile(
            "above F, and stored above it",
            DELTA,
            &["> TA 100.0005 g", "state", "> TA 100.000499 g", "state", "> TA 123.45678 g", "state"],
            &[
                "TA A   100.001  g",
                &tared(100_001_000),
                "TA A   100.0000 g",
                &tared(100_000_000),
                "TA A   123.457  g",
                &tared(123_457_000),
            ],
        ),
        on_profile(
            "at F and below it",
            DELTA,
            &["> TA 100.0000 g", "state", "> TA 99.99995 g", "state", "> TA 99.999949 g", "state"],
            &[
                "TA A   100.0000 g",
                &tared(100_000_000),
                "TA A   100.0000 g",
                &tared(100_000_000),
                "TA A    99.9999 g",
                &tared(99_999_900),
            ],
        ),
        on_profile(
            "L above C",
            DELTA,
            &[
                "> TA 220.0004 g",
                "state",
                "> TA 220.000499 g",
                "> TA 220.0005 g",
                "state",
                "> TA 9999999999 g",
                "> TA 999.999999 g",
            ],
            &["TA A   220.000  g", &tared(220_000_000), "TA A   220.000  g", "TA L", &tared(220_000_000), "TA L", "TA L"],
        ),
        on_a(
            "with F at C",
            &["> TA 220.0004 g", "> TA 220.00005 g", "> TA 220.000049 g"],
            &["TA L", "TA L", "TA A   220.0000 g"],
        ),
        on_profile(
            "with F a microgram below C",
            "fine 219999999",
            &["> TA 219.999999 g", "> TA 220 g", "> TA 220.000499 g", "> TA 220.0005 g"],
            &["TA A   220.000  g", "TA A   220.000  g", "TA A   220.000  g", "TA L"],
        ),
        on_profile(
            "at F between two steps, and stored above it",
            beside,
            &["> TA 100.00005 g", "state", "> TA 100.000049 g", "state", "> TA 100.000051 g", "state"],
            &[
                "TA A   100.000  g",
                &tared(100_000_100),
                "TA A   100.0000 g",
                &tared(100_000_000),
                "TA A   100.0000 g",
                &tared(100_000_000),
            ],
        ),
        on_profile(
            "F 0",
            "fine 0",
            &["> TA 0 g", "> TA 0.000499 g", "state", "> TA 0.0005 g", "state", "> TA 0.001499 g"],
            &["TA A     0.0000 g", "TA A     0.0000 g", &tared(0), "TA A     0.001  g", &tared(1_000), "TA A     0.001  g"],
        ),
        on_profile(
            "steps of five",
            "unit g 4 5, fine 100000000",
            &["> TA 100.002499 g", "> TA 100.0025 g", "> TA 100.0075 g", "state"],
            &["TA A   100.0000 g", "TA A   100.005  g", "TA A   100.010  g", &tared(100_010_000)],
        ),
        // 1 oz is 28,349,523.125 micrograms.
        on_profile(
            "ounces above F by less than a microgram",
            &ounces(28_349_523),
            &["> TA 1.00000 oz", "state", "> TA 1.00004 oz", "state", "> TA 1.00005 oz", "state"],
            &[
                "TA A    1.00000 oz",
                &tared(28_349_523),
                "TA A    1.00000 oz",
                &tared(28_349_523),
                "TA A    1.0001  oz",
                &tared(28_352_358),
            ],
        ),
        on_profile(
            "ounces below F by less than a microgram",
            &ounces(28_349_524),
            &["> TA 1.00000 oz", "state", "> TA 1.00004 oz", "state"],
            &["TA A    1.00000 oz", &tared(28_349_523), "TA A    1.00000 oz", &tared(28_349_523)],
        ),
        // 1.00002 oz are 28,350,090.1154625 micrograms.
        on_profile(
            "ounces above F by less than a microgram, beside a coarse step",
            &ounces(28_350_090),
            &["> TA 1.00002 oz", "state", "> TA 1.000019 oz", "state"],
            &["TA A    1.00000 oz", &tared(28_349_523), "TA A    1.00002 oz", &tared(28_350_090)],
        ),
        // 4 oz are 113,398,092.5 micrograms.
        on_profile(
            "a tie to the microgram at F",
            &ounces(113_398_092),
            &["> TA 4 oz", "state", "> TA 3.99995 oz", "state"],
            &["TA A    4.0000  oz", &tared(113_398_093), "TA A    3.99995 oz", &tared(113_396_675)],
        ),
        on_profile(
            "a tie to the microgram below F",
            &ounces(113_398_093),
            &["> TA 4 oz", "state"],
            &["TA A    4.00000 oz", &tared(113_398_093)],
        ),
        on_profile(
            "the gross decides no step",
            DELTA,
            &["s 150000000", "> TA 50.00004 g", "> TA 50.0001 g", "s 50000000", "> TA 150.0001 g", "> TA 50.0001 g"],
            &["TA A    50.0000 g", "TA A    50.0001 g", "TA A   150.000  g", "TA A    50.0001 g"],
        ),
    ]
}

/// SR counts fine steps, and its number is rounded to none.
fn range_on_change() -> Vec<Case> {
    let runs =
        |load: u32, last: u32| format!("state zero 0 tare 0 sample s {load} waits none repeats SR {last} - shows weight line 0");
    vec![
        on_profile(
            "30 fine steps",
            "fine 0",
            &["s 0", "> SR", "s 2999", "s 3000", "s 5999", "state", "s 6000"],
            &["S S     0.0000 g", "S S     0.003  g", &runs(5999, 3000), "S S     0.006  g"],
        ),
        on_profile(
            "the exact net is kept",
            "fine 0",
            &["s 1450", "> SR", "state", "s 4449", "s 4450", "state"],
            &["S S     0.001  g", &runs(1450, 1450), "S S     0.004  g", &runs(4450, 4450)],
        ),
        on_profile(
            "a change of range is none",
            DELTA,
            &["s 100000000", "> T", "> SR", "s 100000001", "s 100002999", "s 100003000", "u 100000000", "s 100000000"],
            &["T S   100.0000 g", "S S     0.0000 g", "S S     0.003  g", "S D     0.0000 g", "S S     0.0000 g"],
        ),
        on_profile(
            "a threshold above F",
            "fine 1000",
            &["s 0", "> SR 0.001449 g", "s 1448", "s 1449", "state"],
            &[
                "S S     0.0000 g",
                "S S     0.001  g",
                "state zero 0 tare 0 sample s 1449 waits none repeats SR 1449 1449 shows weight line 0",
            ],
        ),
        on_profile(
            "out of range and back",
            DELTA,
            &["s 150000000", "> SR", "u 220000001", "s 150000000", "u 50000000", "s 150000000"],
            &["S S   150.000  g", "S +", "S D    50.0000 g", "S S   150.000  g"],
        ),
    ]
}

/// F is micrograms whichever unit is in force.
fn range_units() -> Vec<Case> {
    vec![
        in_each_on(
            "every unit above F",
            DELTA,
            "s 150000000",
            "> SI",
            [
                "S S       0.2  kg",
                "S S  150000.0  mg",
                "S S     750.0  ct",
                "S S       0.3  lb",
                "S S       5.3  oz",
                "S S       4.8  ozt",
                "S S    2314.9  GN",
                "S S      96.5  dwt",
                "S S   150.000  g",
            ],
        ),
        in_each_on(
            "every unit at F",
            DELTA,
            "s 100000000",
            "> TI",
            [
                "TI S       0.10 kg",
                "TI S  100000.00 mg",
                "TI S     500.00 ct",
                "TI S       0.22 lb",
                "TI S       3.53 oz",
                "TI S       3.22 ozt",
                "TI S    1543.24 GN",
                "TI S      64.30 dwt",
                "TI S   100.0000 g",
            ],
        ),
        on_profile(
            "a tare above F in another unit",
            DELTA,
            &[
                "> TA 100.0005 g",
                "> M21 0 5",
                "> TA",
                "> TA 500.04 ct",
                "> M21 0 0",
                "> TA",
                "> M21 0 5",
                "> TA 500.05 ct",
                "> M21 0 0",
                "> TA",
            ],
            &[
                "TA A   100.001  g",
                "M21 A",
                "TA A     500.0  ct",
                "TA A     500.00 ct",
                "M21 A",
                "TA A   100.0000 g",
                "M21 A",
                "TA A     500.1  ct",
                "M21 A",
                "TA A   100.020  g",
            ],
        ),
    ]
}

/// Refusal 1 for breaking what a fine limit asks for.
fn range_profiles() -> Vec<Case> {
    let milligrams = |capacity: u32, fine: u32| format!("profile {capacity} 0 4400000 3, unit mg 3 1, fine {fine}");
    let granted = |name, lines: &str| on_profile(name, lines, &["> DW"], &["DW A"]);
    vec![
        granted("milligrams that fit with F at C", &milligrams(99_999_999, 99_999_999)),
        refused("milligrams that do not fit coarse, F just below C", &milligrams(99_999_999, 99_999_998)),
        refused("milligrams that do not fit coarse, F 0", &milligrams(99_999_995, 0)),
        granted("milligrams that fit coarse, F 0", &milligrams(99_999_994, 0)),
        granted("milligrams that fit coarse, F just below C", &milligrams(99_999_994, 99_999_993)),
        granted("a margin that fits coarse", "profile 90000000 9999994 0 3, unit mg 3 1, fine 0"),
        refused("a margin that does not fit coarse", "profile 90000000 9999995 0 3, unit mg 3 1, fine 0"),
        granted("a margin that fits without a coarse range", "profile 90000000 9999995 0 3, unit mg 3 1"),
        granted("grams in steps of two that fit coarse", "profile 99999989 0 0 3, unit g 6 2, fine 0"),
        refused("grams in steps of two that do not", "profile 99999990 0 0 3, unit g 6 2, fine 0"),
        refused("grams that do not fit coarse", "profile 99999995 0 0 3, unit g 6 1, fine 99999994"),
        granted("grams that fit coarse", "profile 99999994 0 0 3, unit g 6 1, fine 99999993"),
        // 999.9999 GN are 64,798,903.5 micrograms.
        granted("grains that fit coarse", "profile 64798903 0 0 3, unit GN 5 2, fine 5"),
        refused("grains that do not fit coarse", "profile 64798904 0 0 3, unit GN 5 2, fine 5"),
        granted("grains that need not fit coarse", "profile 64798904 0 0 3, unit GN 5 2"),
        refused("one decimal of kilograms, F 0", "unit kg 1 1, fine 0"),
        refused("one decimal of kilograms, F just below C", "unit kg 1 1, fine 219999999"),
        granted("one decimal of kilograms, F at C", "unit kg 1 1, fine 220000000"),
        refused("no decimals of kilograms, F 0", "unit kg 0 1, fine 0"),
        granted("no decimals of kilograms, F at C", "unit kg 0 1"),
        granted("two decimals of grams", "unit g 2 1, fine 0"),
        refused("one decimal of grams", "unit g 1 1, fine 0"),
        refused("one decimal of pounds", "unit lb 1 5, fine 1"),
        refused("F above C", "fine 220000001"),
        refused("the largest F", "fine 4294967295"),
        refused("no capacity, F 0", "profile 0 0 0 3, fine 0"),
        granted("C 1, F 0", "profile 1 0 0 3, fine 0"),
        granted("C 1, F 1", "profile 1 0 0 3, fine 1"),
        refused("C 1, F 2", "profile 1 0 0 3, fine 2"),
        granted("the largest C without a coarse range", "profile 1000000000 1000000000 0 3, unit mg 0 1"),
        refused("the largest C with a coarse range", "profile 1000000000 0 0 3, fine 999999999"),
        granted("the largest U + C beside a coarse range", "profile 999999949 0 0 3, fine 999999948"),
        refused("one more", "profile 999999950 0 0 3, fine 999999949"),
    ]
}

/// Each call tests the profile; single bytes and whole buffers print in the same range, in a room of 18 bytes.
fn range_calls() -> Vec<Case> {
    vec![
        on_a(
            "refused at each call, and nothing changed",
            &["s 5", "fine 220000001", "> S", "s 6", "w", "w- 53", "on", "fine 220000000", "state", "> SI"],
            &[
                &["refused 1"; 7][..],
                &["state zero 0 tare 0 sample s 5 waits none repeats no shows weight line 0", "S S     0.0000 g"],
            ]
            .concat(),
        ),
        on_profile(
            "a unit that loses its decimals",
            DELTA,
            &["s 150000000", "unit lb 1 1", "> SI", "unit lb 2 1", "> SI", "unit lb 1 1", "fine 220000000", "> SI"],
            &[&["refused 1"; 4][..], &["S S   150.000  g", "S S   150.0000 g"]].concat(),
        ),
        on_profile(
            "F moved between calls",
            DELTA,
            &["s 150000000", "> T", "> TA", "fine 150000000", "> TA", "> SI", "fine 149999999", "> TA", "> SI", "fine 0", "> SI"],
            &[
                "T S   150.000  g",
                "TA A   150.000  g",
                "TA A   150.0000 g",
                "S S     0.0000 g",
                "TA A   150.000  g",
                "S S     0.000  g",
                "S S     0.000  g",
            ],
        ),
        on_profile(
            "rooms of 17 and 18",
            DELTA,
            &["s 150000000", "room 17", "> SI", "room 18", "b 0A", "room 35", &whole("SI\r\nSI\r\n"), "room 18", "w 0A"],
            &["refused 3", "S S   150.000  g", "S S   150.000  g", "took 7", "S S   150.000  g"],
        ),
        on_profile(
            "a whole buffer",
            DELTA,
            &["s 150000000", &whole("SI\r\nT\r\nTA\r\nTA 100.0004 g\r\nSI\r\nTA 220.0005 g\r\n")],
            &["S S   150.000  g", "T S   150.000  g", "TA A   150.000  g", "TA A   100.0000 g", "S S    50.000  g", "TA L"],
        ),
        on_profile(
            "@ and power-on keep F",
            DELTA,
            &["s 150000000", "> @", "> SI", "on", "s 150000000", "> SI"],
            &[ON, "S S   150.000  g", ON, "S S   150.000  g"],
        ),
    ]
}

/// `fine` sets F alone, `profile` sets it to C, and no other line does.
fn range_scripts() -> Vec<Case> {
    let coarse = "S S   150.000  g";
    vec![
        on_profile(
            "lines that leave F",
            DELTA,
            &[
                "s 150000000",
                "> SI",
                "unit g 4 1",
                "> SI",
                "text 2 x",
                "> SI",
                "room 384",
                "> SI",
                "# fine 220000000",
                "fine x",
                "> SI",
            ],
            &[coarse, coarse, coarse, coarse, "?", coarse],
        ),
        on_profile(
            "profile sets F to C",
            DELTA,
            &[
                "s 150000000",
                "> SI",
                A,
                "> SI",
                "profile 160000000 1000000 4400000 3",
                "> SI",
                DELTA,
                "> SI",
                "fine 160000001",
                "> SI",
            ],
            &[coarse, "S S   150.0000 g", "S S   150.0000 g", coarse, "refused 1", "refused 1", "refused 1", "refused 1"],
        ),
        on_profile("a profile that is none leaves F", DELTA, &["s 150000000", "profile 1 1 1", "> SI"], &["?", coarse]),
        on_a(
            "lines that set no F",
            &[
                "fine",
                "fine ",
                "fine x",
                "fine -1",
                "fine +1",
                "fine 1 ",
                "fine  1",
                "fine 1 1",
                "fine 1.0",
                "fine 4294967296",
                "fine 9999999999",
                "fine 00000000001",
                "fine\t1",
                "Fine 1",
                "FINE 1",
                "fines 1",
                "fine1",
                " fine 1",
                "s 150000000",
                "> SI",
                "fine 0100000000",
                "> SI",
            ],
            &[&["?"; 18][..], &["S S   150.0000 g", coarse]].concat(),
        ),
    ]
}

/// A history of lines and stable loads with their answers, and whether the tally accepts it.
pub struct History {
    pub name: &'static str,
    pub scale: Scale,
    /// F of profile A's C.
    pub fine: u32,
    pub calls: Vec<(&'static str, &'static str)>,
    pub accepted: bool,
}

impl History {
    /// Profile A with this scale.
    pub fn profile(&self) -> Profile {
        Profile { fine: self.fine, ..Profile::a() }.with_scale(self.scale)
    }
}

/// What the tally makes of typed tares, on profile A with these scales, of which the unit is set first; each rule has one that it
/// rejects. Then what it makes of units, and of ranges.
pub fn histories() -> Vec<History> {
    typed_histories().into_iter().chain(range_histories()).collect()
}

/// Histories on one profile: ounces are set first.
fn of(unit: Unit, decimals: u8, step: u8, fine: u32) -> impl Fn(&'static str, &[(&'static str, &'static str)], bool) -> History {
    move |name, calls, accepted| {
        let set: &[_] = if unit == Unit::Ounce { &[("M21 0 8", "M21 A")] } else { &[] };
        History { name, scale: Scale { unit, decimals, step }, fine, calls: [set, calls].concat(), accepted }
    }
}

fn typed_histories() -> Vec<History> {
    let of = |unit, decimals, step| of(unit, decimals, step, Profile::a().capacity);
    let (grams, fives, ounces) = (of(Unit::Gram, 4, 1), of(Unit::Gram, 4, 5), of(Unit::Ounce, 5, 1));
    let (set, one_gram, one_carat) = (("M21 0 5", "M21 A"), ("SI", "S S     1.0000 g"), ("SI", "S S       1.00 ct"));
    vec![
        grams(
            "the typed 49 micrograms do not count",
            &[("TA 0.000049 g", "TA A     0.0000 g"), ("9999951", ""), ("SI", "S S    10.0000 g")],
            true,
        ),
        grams("as if they did", &[("TA 0.000049 g", "TA A     0.0000 g"), ("9999951", ""), ("SI", "S S     9.9999 g")], false),
        grams("a tie upwards", &[("TA 0.00005 g", "TA A     0.0001 g"), ("150", ""), ("SI", "S S     0.0001 g")], true),
        grams("a tie downwards", &[("TA 0.00005 g", "TA A     0.0000 g")], false),
        grams("the line decides, not the answer", &[("TA 1 g", "TA A     2.0000 g")], false),
        fives("to the step", &[("TA 0.0002 g", "TA A     0.0000 g"), ("260", ""), ("SI", "S S     0.0005 g")], true),
        fives("to the last place", &[("TA 0.0002 g", "TA A     0.0000 g"), ("260", ""), ("SI", "S S     0.0000 g")], false),
        fives("a tie of the step", &[("TA 0.00025 g", "TA A     0.0005 g")], true),
        fives("below a tie of the step", &[("TA 0.000249 g", "TA A     0.0005 g")], false),
        // 4 oz are 113,398,092.5 micrograms, and half a step is 141.747615625.
        ounces(
            "half a microgram is allowed",
            &[("TA 4 oz", "TA A    4.00000 oz"), ("113398518", ""), ("SI", "S S    0.00001 oz")],
            true,
        ),
        ounces("and no more", &[("TA 4 oz", "TA A    4.00000 oz"), ("113398235", ""), ("SI", "S S    0.00000 oz")], false),
        ounces(
            "the zero tare of TAC is not typed",
            &[("TA 4 oz", "TA A    4.00000 oz"), ("TAC", "TAC A"), ("142", ""), ("SI", "S S    0.00000 oz")],
            false,
        ),
        ounces("a typed zero is", &[("TA 0 oz", "TA A    0.00000 oz"), ("142", ""), ("SI", "S S    0.00000 oz")], true),
        ounces(
            "the tare of T is not typed",
            &[
                ("TA 4 oz", "TA A    4.00000 oz"),
                ("1000", ""),
                ("T", "T S    0.00004 oz"),
                ("1142", ""),
                ("SI", "S S    0.00000 oz"),
            ],
            false,
        ),
        // 1 ct is 200,000 micrograms, and half a step of profile A is 1,000.
        grams("g before any M21", &[("1000000", ""), one_gram], true),
        grams("a unit that was not set", &[("200000", ""), one_carat], false),
        grams("carats", &[set, ("200000", ""), one_carat], true),
        grams("half a step of a carat", &[set, ("201000", ""), one_carat], true),
        grams("more than half a step of a carat", &[set, ("201001", ""), one_carat], false),
        grams("a number in carats that is in grams", &[set, ("1000000", ""), one_carat], false),
        grams("the text of another unit", &[set, ("200000", ""), ("SI", "S S       1.00 g")], false),
        grams("a unit asked for is not set", &[("M21", "M21 A 0 5"), ("1000000", ""), one_gram], true),
        grams("the query's longer line sets nothing", &[("M21 0 5", "M21 A 0 5"), ("1000000", ""), one_gram], true),
        grams("nor does L", &[("M21 0 5", "M21 L"), ("1000000", ""), one_gram], true),
        grams("nor does I", &[("M21 0 5", "M21 I"), ("1000000", ""), one_gram], true),
        grams("nor does a faulty line", &[("!M21 0 5", "M21 A"), ("1000000", ""), one_gram], true),
        grams("nor does a code with a zero before it", &[("M21 0 05", "M21 A"), ("1000000", ""), one_gram], true),
        grams("nor does a code of none of the nine", &[("M21 0 4", "M21 A"), ("1000000", ""), one_gram], true),
        grams("nor does another designation", &[("M21 1 5", "M21 A"), ("1000000", ""), one_gram], true),
        grams("@ keeps the unit", &[set, ("@", "I4 A \"\""), ("200000", ""), one_carat], true),
        grams("the last one counts", &[set, ("M21 0 0", "M21 A"), ("1000000", ""), one_gram], true),
        grams("a tare stays", &[("200000", ""), ("T", "T S     0.2000 g"), set, ("TA", "TA A       1.00 ct")], true),
        grams("a tare that is converted", &[("200000", ""), ("T", "T S     0.2000 g"), set, ("TA", "TA A       0.20 ct")], false),
        grams(
            "typed to the step in force",
            &[set, ("TA 1.004 ct", "TA A       1.00 ct"), ("201700", ""), ("SI", "S S       0.01 ct")],
            true,
        ),
        grams(
            "typed as if to another step",
            &[set, ("TA 1.004 ct", "TA A       1.00 ct"), ("201700", ""), ("SI", "S S       0.00 ct")],
            false,
        ),
        grams(
            "typed in one unit, read in another",
            &[set, ("TA 1 ct", "TA A       1.00 ct"), ("M21 0 0", "M21 A"), ("TA", "TA A     0.2000 g")],
            true,
        ),
    ]
}

/// What the tally makes of a fine limit. Half a step of grams is 50 micrograms in the fine range and 500 in the coarse one.
fn range_histories() -> Vec<History> {
    let grams = of(Unit::Gram, 4, 1, 100_000_000);
    let (beside, no_range) = (of(Unit::Gram, 4, 1, 100_000_050), of(Unit::Gram, 4, 1, 220_000_000));
    let ounces = |fine| of(Unit::Ounce, 5, 1, fine);
    let tared = [("150000000", ""), ("T", "T S   150.000  g")];
    let then = |calls: &[(&'static str, &'static str)]| [&tared[..], calls].concat();
    vec![
        grams("fine at F", &[("100000000", ""), ("SI", "S S   100.0000 g")], true),
        grams("coarse at F", &[("100000000", ""), ("SI", "S S   100.000  g")], false),
        grams("coarse above F", &[("100000001", ""), ("SI", "S S   100.000  g")], true),
        grams("fine above F", &[("100000001", ""), ("SI", "S S   100.0000 g")], false),
        grams("fine above F, exact", &[("150000000", ""), ("SI", "S S   150.0000 g")], false),
        grams("a zero in place of the space", &[("150000500", ""), ("SI", "S S   150.0010 g")], false),
        grams("coarse below F, exact", &[("50000000", ""), ("SI", "S S    50.000  g")], false),
        grams("half a coarse step", &[("150000500", ""), ("SI", "S S   150.000  g")], true),
        grams("half a coarse step upwards", &[("150000500", ""), ("SI", "S S   150.001  g")], true),
        grams("more than half a coarse step", &[("150000501", ""), ("SI", "S S   150.000  g")], false),
        grams("half a fine step", &[("50000050", ""), ("SI", "S S    50.0000 g")], true),
        grams("more than half a fine step below F", &[("50000051", ""), ("SI", "S S    50.0000 g")], false),
        grams("the space before the number", &[("150000000", ""), ("SI", "S S    150.000 g")], false),
        grams("gross decides, net is told", &then(&[("150000500", ""), ("SI", "S S     0.001  g")]), true),
        grams("a net below F as if it decided", &then(&[("150000500", ""), ("SI", "S S     0.0005 g")]), false),
        grams("a gross below F with a net far below", &then(&[("10000000", ""), ("SI", "S S  -140.0000 g")]), true),
        grams("as if the tare decided", &then(&[("10000000", ""), ("SI", "S S  -140.000  g")]), false),
        grams("the tare decides in its answer", &then(&[("10000000", ""), ("TA", "TA A   150.000  g")]), true),
        grams("as if gross decided there", &then(&[("10000000", ""), ("TA", "TA A   150.0000 g")]), false),
        grams("T above F told fine", &[("150000000", ""), ("T", "T S   150.0000 g")], false),
        grams("T at F", &[("100000000", ""), ("T", "T S   100.0000 g")], true),
        grams("T at F told coarse", &[("100000000", ""), ("T", "T S   100.000  g")], false),
        grams("TI within half a coarse step", &[("150000500", ""), ("TI", "TI S   150.001  g")], true),
        grams("TI beyond it", &[("150000501", ""), ("TI", "TI S   150.000  g")], false),
        grams("the load is no gross", &[("4000000", ""), ("Z", "Z A"), ("104000000", ""), ("SI", "S S   100.0000 g")], true),
        grams("as if it were", &[("4000000", ""), ("Z", "Z A"), ("104000000", ""), ("SI", "S S   100.000  g")], false),
        // Typed numbers.
        grams(
            "typed above F, to the coarse step",
            &[("TA 100.0004 g", "TA A   100.0000 g"), ("100000051", ""), ("SI", "S S     0.000  g")],
            true,
        ),
        grams("typed above F, as if to the fine step", &[("TA 100.0004 g", "TA A   100.000  g")], false),
        grams("typed above F, as if to the fine step and told so", &[("TA 100.0004 g", "TA A   100.0004 g")], false),
        grams("typed above F, a tie upwards", &[("TA 100.0005 g", "TA A   100.001  g")], true),
        grams("typed above F, a tie downwards", &[("TA 100.0005 g", "TA A   100.0000 g")], false),
        grams(
            "the coarse step is subtracted",
            &[("TA 100.0006 g", "TA A   100.001  g"), ("90000000", ""), ("SI", "S S   -10.0010 g")],
            true,
        ),
        grams(
            "as if the fine step were",
            &[("TA 100.0006 g", "TA A   100.001  g"), ("90000000", ""), ("SI", "S S   -10.0006 g")],
            false,
        ),
        grams(
            "typed below F, to the fine step",
            &[("TA 50.0004 g", "TA A    50.0004 g"), ("90000000", ""), ("SI", "S S    39.9996 g")],
            true,
        ),
        grams("typed below F, as if to the coarse step", &[("TA 50.0004 g", "TA A    50.0000 g")], false),
        beside(
            "typed at F, to the fine step",
            &[("TA 100.00005 g", "TA A   100.000  g"), ("90000000", ""), ("SI", "S S   -10.0001 g")],
            true,
        ),
        beside(
            "typed at F, as if to the coarse step",
            &[("TA 100.00005 g", "TA A   100.000  g"), ("90000000", ""), ("SI", "S S   -10.0000 g")],
            false,
        ),
        beside("typed at F, told fine though it is stored above", &[("TA 100.00005 g", "TA A   100.0001 g")], false),
        no_range("no coarse range, typed above F", &[("TA 220.0004 g", "TA A   220.0000 g")], false),
        no_range("no coarse range, at C", &[("220000000", ""), ("SI", "S S   220.0000 g")], true),
        no_range("no coarse range, told coarse", &[("220000000", ""), ("SI", "S S   220.000  g")], false),
        // 1 oz is 28,349,523.125 micrograms, 4 oz are 113,398,092.5.
        ounces(28_349_523)("the tare as it is stored", &[("TA 1.00000 oz", "TA A    1.00000 oz")], true),
        ounces(28_349_523)("as if it were not rounded", &[("TA 1.00000 oz", "TA A    1.0000  oz")], false),
        ounces(28_349_523)(
            "the typed number unrounded",
            &[("TA 1.00004 oz", "TA A    1.00000 oz"), ("28000000", ""), ("SI", "S S   -0.01233 oz")],
            true,
        ),
        ounces(28_350_090)("above F by less than a microgram", &[("TA 1.00002 oz", "TA A    1.00000 oz")], true),
        ounces(28_350_090)("as if it were compared in micrograms", &[("TA 1.00002 oz", "TA A    1.00002 oz")], false),
        ounces(113_398_092)("a stored tie upwards", &[("TA 4 oz", "TA A    4.0000  oz")], true),
        ounces(113_398_092)("a stored tie as if downwards", &[("TA 4 oz", "TA A    4.00000 oz")], false),
    ]
}

fn manuals() -> Vec<Case> {
    let hundredths = "unit g 2 1";
    let thousandths = "unit g 3 1";
    vec![
        on_profile("003 S", hundredths, &["s 100000000", "> S"], &["S S     100.00 g"]),
        on_profile("003 SI", hundredths, &["u 129070000", "> SI"], &["S D     129.07 g"]),
        on_profile(
            "003 SIR",
            hundredths,
            &["u 129070000", "> SIR", "u 129080000", "s 129090000", "s 129090000", "u 114870000"],
            &["S D     129.07 g", "S D     129.08 g", "S S     129.09 g", "S S     129.09 g", "S D     114.87 g"],
        ),
        on_profile("003 T", hundredths, &["s 100000000", "> T", "> TAC"], &["T S     100.00 g", "TAC A"]),
        on_profile("003 TA", hundredths, &["> TA 100.00 g", "> TA"], &["TA A     100.00 g", "TA A     100.00 g"]),
        on_profile("003 TI", hundredths, &["u 117570000", "> TI"], &["TI D     117.57 g"]),
        on_profile("003 response format", thousandths, &["s 256000", "> S"], &["S S      0.256 g"]),
        on_profile("000 response format", thousandths, &["s 14256000", "> S"], &["S S     14.256 g"]),
        on_a("003 Z and ZI", &["s 1", "> Z", "> ZI", "u 2", "> ZI"], &["Z A", "ZI S", "ZI D"]),
        on_a("003 D and DW", &["> D \"HALLO\"", "> D \"\"", "> D \" \"", "> DW"], &["D A", "D A", "D A", "DW A"]),
        on_a("000 D with a quote, which document 01 leaves out", &["> D \"place 4\\\"filter!\""], &["D L"]),
        on_a("003 an example", &["s 70000000", "> D \"BEAKER\"", "> T", "> D \"C1 100g\""], &["D A", "T S    70.0000 g", "D A"]),
        on_a("004 lower case", &["> upd 20"], &["ES"]),
        on_a(
            "003 texts",
            &[
                "text 2 AX204-Standard 220.0090 g",
                "text 3 1.05 1.1.1.17.7",
                "text 4 1114350697",
                "text 5 12345678A",
                "> I2",
                "> I3",
                "> I4",
                "> I5",
                "> @",
            ],
            &[
                "I2 A \"AX204-Standard 220.0090 g\"",
                "I3 A \"1.05 1.1.1.17.7\"",
                "I4 A \"1114350697\"",
                "I5 A \"12345678A\"",
                "I4 A \"1114350697\"",
            ],
        ),
        on_a("I1", &["> I1"], &["I1 A \"0\" \"2.30\" \"2.20\""]),
        on_a("I0", &["> I0"], &LIST),
    ]
}

/// What I0 answers.
const LIST: [&str; 20] = [
    "I0 B 0 \"I0\"",
    "I0 B 0 \"I1\"",
    "I0 B 0 \"I2\"",
    "I0 B 0 \"I3\"",
    "I0 B 0 \"I4\"",
    "I0 B 0 \"I5\"",
    "I0 B 0 \"S\"",
    "I0 B 0 \"SI\"",
    "I0 B 0 \"SIR\"",
    "I0 B 0 \"Z\"",
    "I0 B 0 \"ZI\"",
    "I0 B 0 \"@\"",
    "I0 B 1 \"D\"",
    "I0 B 1 \"DW\"",
    "I0 B 1 \"SR\"",
    "I0 B 1 \"T\"",
    "I0 B 1 \"TA\"",
    "I0 B 1 \"TAC\"",
    "I0 B 1 \"TI\"",
    "I0 A 2 \"M21\"",
];

/// Answer lines with what decode prints for them; the manuals' first.
pub fn captures() -> Vec<(&'static str, &'static str)> {
    vec![
        ("S S     14.256 g\r\n", "weight S S 14256 3 g\r\n"),
        ("S S     4875.2 g\r\n", "weight S S 48752 1 g\r\n"),
        ("S D     129.07 g\r\n", "weight S D 12907 2 g\r\n"),
        ("TI D     117.57 g\r\n", "weight TI D 11757 2 g\r\n"),
        ("TA A   100.0000 g\r\n", "weight TA A 1000000 4 g\r\n"),
        ("S S    -0.0001 g\r\n", "weight S S -1 4 g\r\n"),
        ("S S          0 GN\r\n", "weight S S 0 0 GN\r\n"),
        ("S S 9999999999 mg\r\n", "weight S S 9999999999 0 mg\r\n"),
        ("S S -99.999999 ozt\r\n", "weight S S -99999999 6 ozt\r\n"),
        ("S S    -0.0000 g\r\n", "refused 4\r\n"),
        ("S S    00.0000 g\r\n", "refused 4\r\n"),
        ("S S      .0000 g\r\n", "refused 4\r\n"),
        ("S S         1. g\r\n", "refused 4\r\n"),
        ("S S  1.0000000 g\r\n", "refused 4\r\n"),
        ("S S     1.0000 kg\r\n", "weight S S 10000 4 kg\r\n"),
        ("TA A       0.49 lb\r\n", "weight TA A 49 2 lb\r\n"),
        ("S D  -0.000001 lb\r\n", "weight S D -1 6 lb\r\n"),
        ("S S   150.000  g\r\n", "weight S S 150000 3 g coarse\r\n"),
        ("S S    4875.2  g\r\n", "weight S S 48752 1 g coarse\r\n"),
        ("S D  0.00001  lb\r\n", "refused 4\r\n"),
        ("S D   0.00001  lb\r\n", "weight S D 1 5 lb coarse\r\n"),
        ("S S    -0.001  g\r\n", "weight S S -1 3 g coarse\r\n"),
        ("T S   150.000  g\r\n", "weight T S 150000 3 g coarse\r\n"),
        ("TI S       0.0  dwt\r\n", "weight TI S 0 1 dwt coarse\r\n"),
        ("TI D 9999999.9  mg\r\n", "weight TI D 99999999 1 mg coarse\r\n"),
        ("TA A 999.99999  kg\r\n", "weight TA A 99999999 5 kg coarse\r\n"),
        ("S S -999999.9  ct\r\n", "weight S S -9999999 1 ct coarse\r\n"),
        ("S D -99.99999  oz\r\n", "weight S D -9999999 5 oz coarse\r\n"),
        ("S S       150  g\r\n", "refused 4\r\n"),
        ("S S  0.000001  g\r\n", "refused 4\r\n"),
        ("S S    -0.000  g\r\n", "refused 4\r\n"),
        ("S S    00.000  g\r\n", "refused 4\r\n"),
        ("S S     0.000   g\r\n", "refused 4\r\n"),
        ("S S    0.000   g\r\n", "refused 4\r\n"),
        ("S S      .000  g\r\n", "refused 4\r\n"),
        ("S S      150.  g\r\n", "refused 4\r\n"),
        ("S S 99999999.9  g\r\n", "refused 4\r\n"),
        ("S S -9999999.9  g\r\n", "refused 4\r\n"),
        ("S S   150.000 g\r\n", "refused 4\r\n"),
        ("S S   150.000  t\r\n", "refused 4\r\n"),
        ("S S            g\r\n", "refused 4\r\n"),
        ("T S    -0.001  g\r\n", "refused 4\r\n"),
        ("TA A    -0.001  g\r\n", "refused 4\r\n"),
        ("S A   150.000  g\r\n", "refused 4\r\n"),
        ("S S     1.0000 KG\r\n", "refused 4\r\n"),
        ("S S     1.0000 lbs\r\n", "refused 4\r\n"),
        ("S S     1.0000 t\r\n", "refused 4\r\n"),
        ("T S    -1.0000 g\r\n", "refused 4\r\n"),
        ("TA A    -1.0000 g\r\n", "refused 4\r\n"),
        ("S S  Error 10b\r\n", "refused 4\r\n"),
        ("I4 A \"VA-0001\"\r\n", "text I4 VA-0001\r\n"),
        ("I2 A \"\"\r\n", "text I2 \r\n"),
        ("I0 B 0 \"I0\"\r\n", "command B 0 I0\r\n"),
        ("I0 A 0 \"@\"\r\n", "command A 0 @\r\n"),
        ("I0 A 1 \"TI\"\r\n", "command A 1 TI\r\n"),
        ("I0 B 1 \"I0\"\r\n", "refused 4\r\n"),
        ("I0 A 2 \"M21\"\r\n", "command A 2 M21\r\n"),
        ("I0 B 2 \"M21\"\r\n", "command B 2 M21\r\n"),
        ("I0 A 1 \"M21\"\r\n", "refused 4\r\n"),
        ("I0 A 0 \"M21\"\r\n", "refused 4\r\n"),
        ("I0 A 2 \"TI\"\r\n", "refused 4\r\n"),
        ("M21 A\r\n", "answer M21 A\r\n"),
        ("M21 I\r\n", "answer M21 I\r\n"),
        ("M21 L\r\n", "answer M21 L\r\n"),
        ("M21 A 0 0\r\n", "unit g\r\n"),
        ("M21 A 0 1\r\n", "unit kg\r\n"),
        ("M21 A 0 3\r\n", "unit mg\r\n"),
        ("M21 A 0 5\r\n", "unit ct\r\n"),
        ("M21 A 0 7\r\n", "unit lb\r\n"),
        ("M21 A 0 8\r\n", "unit oz\r\n"),
        ("M21 A 0 9\r\n", "unit ozt\r\n"),
        ("M21 A 0 10\r\n", "unit GN\r\n"),
        ("M21 A 0 11\r\n", "unit dwt\r\n"),
        ("M21 A 0 2\r\n", "refused 4\r\n"),
        ("M21 A 0 4\r\n", "refused 4\r\n"),
        ("M21 A 0 6\r\n", "refused 4\r\n"),
        ("M21 A 0 12\r\n", "refused 4\r\n"),
        ("M21 A 0 20\r\n", "refused 4\r\n"),
        ("M21 A 0 07\r\n", "refused 4\r\n"),
        ("M21 A 0 00\r\n", "refused 4\r\n"),
        ("M21 A 00 7\r\n", "refused 4\r\n"),
        ("M21 A 1 3\r\n", "refused 4\r\n"),
        ("M21 A 2 5\r\n", "refused 4\r\n"),
        ("M21 B 0 0\r\n", "refused 4\r\n"),
        ("M21 B\r\n", "refused 4\r\n"),
        ("M21 A 0\r\n", "refused 4\r\n"),
        ("M21 A 0 \r\n", "refused 4\r\n"),
        ("M21 A  0 5\r\n", "refused 4\r\n"),
        ("M21 A 0 5 \r\n", "refused 4\r\n"),
        ("M21 A 5\r\n", "refused 4\r\n"),
        ("M21 A 0 +5\r\n", "refused 4\r\n"),
        ("M21 L 0 5\r\n", "refused 4\r\n"),
        ("M21 S\r\n", "refused 4\r\n"),
        ("M21 +\r\n", "refused 4\r\n"),
        ("M21\r\n", "refused 4\r\n"),
        ("M22 A\r\n", "refused 4\r\n"),
        ("m21 A\r\n", "refused 4\r\n"),
        ("I1 A \"0\" \"2.30\" \"2.20\"\r\n", "answer I1 A \"0\" \"2.30\" \"2.20\"\r\n"),
        ("Z A\r\n", "answer Z A\r\n"),
        ("ZI D\r\n", "answer ZI D\r\n"),
        ("ZI A\r\n", "refused 4\r\n"),
        ("TI +\r\n", "answer TI +\r\n"),
        ("TA +\r\n", "refused 4\r\n"),
        ("D L\r\n", "answer D L\r\n"),
        ("S L\r\n", "answer S L\r\n"),
        ("SR L\r\n", "refused 4\r\n"),
        ("SR I\r\n", "refused 4\r\n"),
        ("SI L\r\n", "refused 4\r\n"),
        ("SR S     1.0000 g\r\n", "refused 4\r\n"),
        ("I0 B 1 \"SR\"\r\n", "command B 1 SR\r\n"),
        ("I0 A 1 \"SR\"\r\n", "command A 1 SR\r\n"),
        ("I0 B 0 \"SR\"\r\n", "refused 4\r\n"),
        ("S I\r\n", "answer S I\r\n"),
        ("I0 I\r\n", "answer I0 I\r\n"),
        ("SI I\r\n", "refused 4\r\n"),
        ("SIR I\r\n", "refused 4\r\n"),
        ("@ I\r\n", "refused 4\r\n"),
        ("ES\r\n", "answer ES\r\n"),
        ("ES\r\r\n", "refused 4\r\n"),
        ("\r\n", "refused 4\r\n"),
        ("Z A\nZ A\r\n", "refused 4\r\n"),
        ("Z A", "refused 4\r\n"),
        ("", ""),
    ]
}

//! A follower of send on change (document 02, No. 1). It reads calls and answers alone, as the tally does and never the state, and
//! knows from them what each sample has to send: nothing that is due is passed by in silence, and nothing else is sent.

use crate::profile::Profile;
use crate::tally::{display_step, Call, Tally, MICROGRAM};
use crate::weight::{typed_micrograms, Unit};

/// What samples that find no command waiting are sent for.
enum Sends {
    Nothing,
    /// SIR runs.
    Each,
    /// SR runs.
    Changes(Changes),
}

/// A running SR; weights are in femtograms, in which an eighth of a microgram and a display step are whole.
struct Changes {
    last: i128,
    set: Option<i128>,
    owed: bool,
    out: bool,
}

/// S, T, Z or SR waiting, and the unstable samples that came meanwhile.
struct Waiting {
    identification: &'static str,
    /// For SR: the threshold that it sets, if any.
    sr: Option<Option<i128>>,
    unstable: u32,
}

pub struct Follower {
    profile: Profile,
    /// It follows line, load, zero, tare and the unit in force.
    tally: Tally,
    stable: bool,
    waiting: Option<Waiting>,
    sends: Sends,
}

impl Follower {
    pub fn new(profile: &Profile) -> Follower {
        let tally = Tally::new(profile);
        Follower { profile: profile.clone(), tally, stable: false, waiting: None, sends: Sends::Nothing }
    }

    /// Takes one call with its refusal number and answer; says what is wrong with the answer.
    pub fn take(&mut self, call: Call, refusal: u8, answer: &[u8]) -> Result<(), String> {
        if refusal != 0 {
            return Ok(());
        }
        let ended = self.tally.follow(call, answer)?;
        match (call, ended) {
            (Call::Sample { stable, .. }, _) => {
                self.stable = stable;
                self.sample(answer)
            }
            (_, Some(line)) => self.line(&line, answer),
            _ => agree(None, answer),
        }
    }

    /// Takes a whole-buffer call by the bytes that it took, each with its own answer.
    pub fn take_all(&mut self, taken: &[(Call, Vec<u8>)]) -> Result<(), String> {
        taken.iter().try_for_each(|(call, answer)| self.take(*call, 0, answer))
    }

    // Samples.

    fn sample(&mut self, answer: &[u8]) -> Result<(), String> {
        let Some(mut waiting) = self.waiting.take() else { return agree(self.due(), answer) };
        if self.stable {
            return self.judge(waiting, answer);
        }
        waiting.unstable += 1;
        if waiting.unstable == self.profile.patience {
            return agree(Some(&format!("{} I", waiting.identification)), answer);
        }
        self.waiting = Some(waiting);
        agree(None, answer)
    }

    /// What a sample that finds no command waiting has to send.
    fn due(&mut self) -> Option<&'static str> {
        let told = self.reading()?;
        let (_, net) = self.tally.gross_and_net()?;
        let steps = 30 * display_step(self.tally.scale());
        match &mut self.sends {
            Sends::Nothing => None,
            Sends::Each => Some(told),
            Sends::Changes(changes) => changes.due(told, net, steps).then_some(told),
        }
    }

    /// What S and SI tell of the latest sample.
    fn reading(&self) -> Option<&'static str> {
        let (gross, _) = self.tally.gross_and_net()?;
        Some(if gross > i128::from(self.profile.capacity) * MICROGRAM {
            "S +"
        } else if gross < -i128::from(self.profile.margin) * MICROGRAM {
            "S -"
        } else if self.stable {
            "S S"
        } else {
            "S D"
        })
    }

    /// The answer of a command that waited, or did not have to, on a stable sample. What T and Z say of it is the tally's subject.
    fn judge(&mut self, Waiting { identification, sr, .. }: Waiting, answer: &[u8]) -> Result<(), String> {
        if identification != "S" {
            let own = answer.starts_with(format!("{identification} ").as_bytes());
            return if own { Ok(()) } else { Err(format!("{identification} waited, {} was sent", answer.escape_ascii())) };
        }
        let told = self.reading();
        agree(told, answer)?;
        if let (Some(set), Some("S S"), Some((_, last))) = (sr, told, self.tally.gross_and_net()) {
            self.sends = Sends::Changes(Changes { last, set, owed: false, out: false });
        }
        Ok(())
    }

    // Lines.

    /// What fails before order 8 changes nothing.
    fn line(&mut self, line: &[(u8, bool)], answer: &[u8]) -> Result<(), String> {
        let text: Vec<u8> = line.iter().map(|(byte, _)| *byte).collect();
        let good = text.len() <= 64 && line.iter().all(|&(byte, good)| good && byte >= 32);
        let mut words = text.splitn(2, |&byte| byte == b' ');
        let (name, rest) = (words.next().unwrap_or_default(), words.next());
        if good && text == b"@" {
            self.waiting = None;
            self.sends = Sends::Nothing;
        }
        if !good {
            return answered(answer);
        }
        if self.waiting.is_some() {
            return if name == b"SR" { agree(Some("S I"), answer) } else { answered(answer) };
        }
        match (name, rest) {
            (b"S", None) => {
                self.sends = Sends::Nothing;
                return self.judge_or_wait("S", None, answer);
            }
            (b"SR", rest) => return self.sr(rest, answer),
            (b"T", None) => return self.judge_or_wait("T", None, answer),
            (b"Z", None) => return self.judge_or_wait("Z", None, answer),
            (b"SI", None) => self.sends = Sends::Nothing,
            (b"SIR", None) if self.tally.gross_and_net().is_some() => self.sends = Sends::Each,
            _ => {}
        }
        answered(answer)
    }

    /// SR when nothing waits: a wrong parameter is L, anything else reaches order 8.
    fn sr(&mut self, rest: Option<&[u8]>, answer: &[u8]) -> Result<(), String> {
        let set = rest.map(|rest| self.threshold(rest));
        if set == Some(None) {
            return agree(Some("S L"), answer);
        }
        self.sends = Sends::Nothing;
        self.judge_or_wait("S", Some(set.flatten()), answer)
    }

    fn judge_or_wait(&mut self, identification: &'static str, sr: Option<Option<i128>>, answer: &[u8]) -> Result<(), String> {
        let waiting = Waiting { identification, sr, unstable: 0 };
        if self.stable {
            return self.judge(waiting, answer);
        }
        self.waiting = Some(waiting);
        agree(None, answer)
    }

    /// Number, one space, the unit in force; 1 to C once it is rounded to the microgram.
    fn threshold(&self, rest: &[u8]) -> Option<i128> {
        let (number, unit) = rest.split_at(rest.iter().position(|&byte| byte == b' ')?);
        let scale = self.tally.scale();
        let set = typed_micrograms(number, scale, None)?;
        let good = Unit::named(&unit[1..]) == Some(scale.unit) && (1..=self.profile.capacity.into()).contains(&set);
        good.then_some(set * MICROGRAM)
    }
}

impl Changes {
    /// Whether a sample is sent of which S would tell this.
    fn due(&mut self, told: &str, net: i128, steps: i128) -> bool {
        if matches!(told, "S +" | "S -") {
            return !std::mem::replace(&mut self.out, true);
        }
        self.out = false;
        let threshold = self.set.unwrap_or((self.last.abs() / 8).max(steps));
        if !self.owed && (net - self.last).abs() < threshold {
            return false;
        }
        if told == "S D" {
            return !std::mem::replace(&mut self.owed, true);
        }
        self.last = net;
        self.owed = false;
        true
    }
}

/// The answer is empty where nothing is due, and otherwise begins with what is due, as a word.
fn agree(due: Option<&str>, answer: &[u8]) -> Result<(), String> {
    let rest = due.map_or(Some(answer), |due| answer.strip_prefix(due.as_bytes()));
    match (due, rest) {
        (None, Some(b"")) | (Some(_), Some(b"\r\n")) => Ok(()),
        (Some("S S" | "S D"), Some([b' ', ..])) => Ok(()),
        _ => Err(format!("{} was due, {:?} was sent", due.unwrap_or("nothing"), answer.escape_ascii().to_string())),
    }
}

fn answered(answer: &[u8]) -> Result<(), String> {
    if answer.is_empty() {
        return Err("a line was not answered".to_string());
    }
    Ok(())
}

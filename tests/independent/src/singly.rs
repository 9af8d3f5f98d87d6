//! A whole-buffer call beside its bytes taken singly. In demand 3's list it stands for the bytes that it took, each with its own
//! answer; those that it did not take are no part of the list.

use crate::buffer::MOST_BYTES;
use crate::module::{Module, State};
use crate::profile::Profile;
use crate::tally::Call;
use std::cell::OnceCell;

pub struct Singly<'a> {
    pub module: Module,
    pub profile: &'a Profile,
    /// The state before the call.
    pub given: State,
    pub bytes: &'a [u8],
    pub marks: &'a [u8],
    /// How many it says that it took; a refused call took none.
    pub count: usize,
    /// Found when they are asked for.
    pub answers: OnceCell<Vec<(Call, Vec<u8>)>>,
}

impl Singly<'_> {
    /// The bytes that the call took, each with the answer that it has by itself.
    pub fn taken(&self) -> &[(Call, Vec<u8>)] {
        let answers = self.answers();
        &answers[..answers.len().min(self.count)]
    }

    /// Those, and the byte that it stopped before.
    fn answers(&self) -> &[(Call, Vec<u8>)] {
        self.answers.get_or_init(|| {
            let mut state = self.given.clone();
            let bytes = self.bytes.iter().zip(self.marks).take(self.count.saturating_add(1));
            let alone = bytes.map(|(&byte, &mark)| {
                let mut room = [0; 384];
                let outcome = self.module.byte(self.profile, &mut state, byte, mark, &mut room);
                (Call::Byte { byte, good: mark == 0 }, room[..outcome.n].to_vec())
            });
            alone.collect()
        })
    }

    /// Says what the call tells otherwise, to which so much room was lent.
    pub fn judge(&self, refusal: u8, room: usize, answer: &[u8]) -> Result<(), String> {
        let (bytes, marks) = (self.bytes.len(), self.marks.len());
        let takes = bytes == marks && bytes <= MOST_BYTES;
        match refusal {
            0 if !takes => return Err(format!("{bytes} bytes and {marks} marks were taken")),
            0 => {}
            5 if takes => return Err(format!("{bytes} bytes were refused")),
            1 | 2 | 5 => return Ok(()),
            _ => return Err(format!("a whole buffer is never refused by {refusal}")),
        }
        let due: Vec<u8> = self.taken().iter().flat_map(|(_, answer)| answer).copied().collect();
        if due != answer {
            return Err(format!("{} was due, {} was sent", due.escape_ascii(), answer.escape_ascii()));
        }
        match self.answers().get(self.count) {
            Some((_, next)) if answer.len() + next.len() <= room => Err(format!("{} fits", next.escape_ascii())),
            _ => Ok(()),
        }
    }
}

//! What the Rust answers to the records of tools/compare/instrument, whose other half is the proved
//! program `ask_instrument`: crates/ask_instrument/README.md has the form of both. The engine gives an
//! instrument's value at a time; what a stretch of samples leaves in a slice is said here in the words
//! of its evaluator.

use crate::engine::instrument::{Command, Instrument, Operator};
use crate::{bits, word};

const SLOTS: usize = 64;
/// A note has at most so many samples.
const NOTE_MOST: usize = 1 << 24;

/// The records are of 32 bytes each.
pub fn answers(bytes: &[u8]) -> Vec<u8> {
    let mut commands: Vec<Record> = Vec::new();
    let mut count = None;
    let mut out = Vec::new();
    for record in bytes.chunks_exact(32).map(Record) {
        match record.number(0) {
            1 => (commands, count) = (Vec::new(), None),
            2 | 3 => commands.push(record),
            4 => count = Some(record.long()),
            kind => {
                let inst = instrument(&commands, count.unwrap_or(commands.len()));
                let answer = match kind {
                    5 => vec![bits(inst.eval(
                        record.float(1),
                        record.float(2),
                        record.float(3),
                    ))],
                    6 => stretch(&inst, &record, record.number(5), record.number(6)),
                    _ => last_stretch(&inst, &record),
                };
                out.extend(answer.iter().flat_map(|n| n.to_le_bytes()));
            }
        }
    }
    out
}

struct Record<'a>(&'a [u8]);

impl Record<'_> {
    fn number(&self, i: usize) -> usize {
        word(self.0, 4 * i) as usize
    }

    fn float(&self, i: usize) -> f32 {
        f32::from_bits(word(self.0, 4 * i))
    }

    /// Numbers 1 and 2 as one, the low one first.
    fn long(&self) -> usize {
        self.number(1) | self.number(2) << 32
    }

    fn command(&self) -> Command {
        if self.number(0) == 3 {
            return Command::Stack(self.long());
        }
        Command::Operator(Operator {
            amplitude: self.float(1),
            freqratio: self.float(2),
            attack: self.float(3),
            decay: self.float(4),
            sustain: self.float(5),
            release: self.float(6),
            feedback: self.number(7) as u32,
        })
    }
}

/// The commands that count: slots that no command was put in hold Stack(0). The release has no part
/// in `eval`.
fn instrument(commands: &[Record], count: usize) -> Instrument {
    let slot = |k: usize| commands.get(k).map_or(Command::Stack(0), Record::command);
    let cmds = (0..count.min(SLOTS)).map(slot).collect();
    Instrument { release: 0.0, cmds }
}

/// How many elements get a sample, and the slice afterwards: the first ones are added to, the later
/// ones stored.
fn stretch(inst: &Instrument, record: &Record, first: usize, added: usize) -> Vec<u32> {
    let length = record.number(7);
    let count = length.min(NOTE_MOST.saturating_sub(first));
    let mut slice: Vec<f32> = (0..length).map(|k| k as f32 / 1024.0).collect();
    for (k, x) in slice.iter_mut().take(count).enumerate() {
        let t = (first + k) as f32 * (1.0 / record.number(4) as f32);
        let v = record.float(1) * inst.eval(record.float(2), record.float(3), t);
        *x = if k < added { *x + v } else { v };
    }
    let slice = slice.into_iter().map(bits);
    [count as u32].into_iter().chain(slice).collect()
}

/// The slice alone after the last of so many stretches, all of them within a note.
fn last_stretch(inst: &Instrument, record: &Record) -> Vec<u32> {
    let first = record.number(5) + (record.number(6) - 1) * record.number(7);
    stretch(inst, record, first, 0).split_off(1)
}

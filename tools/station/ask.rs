//! Answers the requests of tools/station/compare.py by the library, as ask.c does, from Rust.
use std::io::{self, BufRead, Read, Write};

#[link(name = "station", kind = "static")]
extern "C" {
    fn cue_samples(source: *const u8, len: usize, mode: u32, refusal: &mut u32, line: &mut usize) -> usize;
    fn cue_wav(source: *const u8, len: usize, mode: u32, size: u32, buffer: *mut u8, room: usize, refusal: &mut u32, line: &mut usize) -> usize;
    fn cue_header(source: *const u8, len: usize, mode: u32, size: u32, buffer: *mut u8, room: usize, refusal: &mut u32, line: &mut usize) -> usize;
    fn cue_window(
        source: *const u8,
        len: usize,
        mode: u32,
        start: usize,
        buffer: *mut u8,
        room: usize,
        place: usize,
        refusal: &mut u32,
        line: &mut usize,
    ) -> usize;
}

/// The count, the refusal's number and its line.
fn called(call: usize, text: &[u8], (mode, riff_size): (u32, u32), start: usize, buffer: &mut [u8], place: usize) -> (usize, u32, usize) {
    let (source, len, room) = (text.as_ptr(), text.len(), buffer.len());
    let (to, mut refusal, mut line) = (buffer.as_mut_ptr(), u32::MAX, usize::MAX);
    let (refused, at) = (&mut refusal, &mut line);
    // SAFETY: pointers and lengths are those of slices, and nothing overlaps.
    let count = unsafe {
        match call {
            0 => cue_samples(source, len, mode, refused, at),
            1 => cue_wav(source, len, mode, riff_size, to, room, refused, at),
            2 => cue_header(source, len, mode, riff_size, to, room, refused, at),
            3 => cue_window(source, len, mode, start, to, room, place, refused, at),
            _ => panic!("no such call"),
        }
    };
    (count, refusal, line)
}

fn main() -> io::Result<()> {
    let (mut asked, mut answers) = (io::stdin().lock(), io::stdout().lock());
    let mut request = String::new();
    while asked.read_line(&mut request)? != 0 {
        let numbers: Vec<usize> = request.split_whitespace().map(|n| n.parse().expect("a number")).collect();
        let [call, len, mode, riff_size, start, room, place, fill] = numbers[..] else { panic!("a request is not eight numbers") };
        let (mut text, mut buffer) = (vec![0; len], vec![fill as u8; room]);
        asked.read_exact(&mut text)?;
        let (count, refusal, line) = called(call, &text, (mode as u32, riff_size as u32), start, &mut buffer, place);
        writeln!(answers, "{count} {refusal} {line}")?;
        answers.write_all(&buffer)?;
        request.clear();
    }
    answers.flush()
}

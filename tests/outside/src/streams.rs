//! The block call on whole streams, cut anywhere: the outputs joined are the answers to the lines.

use crate::compare::{shown, Compared};
use crate::doors::{Door, PLAIN};
use crate::frame::{Builder, Call, Frame, Part};
use crate::seeded::Seeded;
use crate::texts::stream;

/// No answer line is longer.
const LONGEST_ANSWER: usize = 64;
/// No request line is longer.
const LONGEST_REQUEST: usize = 512;

/// Compares so many streams, each by as many calls as it takes; counts the streams.
pub fn compare(door: &mut Door, seeded: &mut Seeded, count: usize) -> Compared {
    let small = refused(door, seeded)?;
    for _ in 0..count {
        let input = stream(seeded);
        let output = Run { door, seeded }.answers(&input)?;
        if output != answers_line_by_line(&input) {
            return Err(format!(
                "answer_block: the answers to the stream {:?} are {:?}\n",
                String::from_utf8_lossy(&input),
                String::from_utf8_lossy(&output)
            ));
        }
    }
    Ok(small + count)
}

/// Fewer than three places for the progress: 10, and nothing changes.
fn refused(door: &mut Door, seeded: &mut Seeded) -> Compared {
    const TIMES: usize = 50;
    for places in 0..3 {
        for _ in 0..TIMES {
            let input = stream(seeded);
            let frame = block_frame(seeded, &input, false, true, 100, places);
            let mut made = frame.clone();
            if door.make_one(&mut made) != 10 || made != frame {
                return Err(shown(&frame));
            }
        }
    }
    Ok(3 * TIMES)
}

/// The lines of a stream; a last piece may lack its line feed.
pub fn lines_of(stream: &[u8]) -> impl Iterator<Item = &[u8]> {
    stream.split_inclusive(|&byte| byte == b'\n')
}

/// The plain implementation's answer to one line.
fn answer(line: &[u8]) -> Vec<u8> {
    let mut out = [0; LONGEST_ANSWER];
    let mut wrote = [0];
    assert_eq!((PLAIN.answer_line)(line, &mut out, 0, &mut wrote), 0);
    out[..wrote[0] as usize].to_vec()
}

fn answers_line_by_line(stream: &[u8]) -> Vec<u8> {
    lines_of(stream).flat_map(answer).collect()
}

fn block_frame(
    seeded: &mut Seeded,
    input: &[u8],
    skipping: bool,
    last: bool,
    out: usize,
    progress: usize,
) -> Frame {
    // Any number but 0 says yes.
    let yes = seeded.pick(&[1, 1, 2, u64::from(u32::MAX)]);
    Builder::new(seeded, Call::AnswerBlock)
        .number(if skipping { yes } else { 0 })
        .number(if last { yes } else { 0 })
        .give(input)
        .lend::<u8>(out)
        .lend::<u64>(progress)
        .done()
}

/// What one block call did.
struct Step {
    used: usize,
    written: Vec<u8>,
    skipping: bool,
}

/// A stream being answered through a door.
pub struct Run<'a> {
    pub door: &'a mut Door,
    pub seeded: &'a mut Seeded,
}

impl Run<'_> {
    /// The answers to a whole stream, which is handed over in pieces of any size.
    pub fn answers(&mut self, stream: &[u8]) -> Result<Vec<u8>, String> {
        let most = self.seeded.pick(&[3, 40, 200, 600, 2000, 70_000]);
        let (mut from, mut to) = (0, 0);
        let mut skipping = false;
        let mut output = Vec::new();
        loop {
            let last = to == stream.len();
            let step = self.step(&stream[from..to], skipping, last)?;
            from += step.used;
            skipping = step.skipping;
            output.extend(&step.written);
            if step.used == 0 && step.written.is_empty() {
                if last {
                    break;
                }
                to = stream.len().min(to + 1 + self.seeded.below(most));
            }
        }
        if from == stream.len() {
            return Ok(output);
        }
        Err(format!("answer_block: {} of {} bytes of a stream are left unused\n", to - from, to))
    }

    /// One call; with too small an output at first, if luck has it.
    fn step(&mut self, input: &[u8], skipping: bool, last: bool) -> Result<Step, String> {
        let room = self.seeded.below(4 * LONGEST_ANSWER);
        let places =
            self.seeded.pick(&[room, LONGEST_ANSWER, 1000, 1000, 65_536.min(8 * input.len())]);
        let step = self.checked_step(input, skipping, last, places)?;
        if step.used == 0 && step.written.is_empty() && places < LONGEST_ANSWER {
            return self.checked_step(input, skipping, last, LONGEST_ANSWER);
        }
        Ok(step)
    }

    fn checked_step(
        &mut self,
        input: &[u8],
        skipping: bool,
        last: bool,
        places: usize,
    ) -> Result<Step, String> {
        let frame = block_frame(self.seeded, input, skipping, last, places, 3);
        let mut made = frame.clone();
        let returned = self.door.make_one(&mut made);
        let [used, written, skips] = *made.array::<u64>(2) else { unreachable!() };
        let (used, written) = (used as usize, written as usize);
        let sound = returned == 0 && used <= input.len() && written <= places && skips < 2;
        if !sound || !only_answer_changed(&frame, &made, written) {
            return Err(format!(
                "{}  desk_c returns {returned}, used {used}, wrote {written}, skipping {skips}, \
                 or changes what is not its answer\n",
                shown(&frame)
            ));
        }
        let step =
            Step { used, written: made.array::<u8>(1)[..written].to_vec(), skipping: skips == 1 };
        match idle(&input[used..], &step, last, places - written) {
            Some(why) => Err(format!("{}  {why}\n", shown(&frame))),
            None => Ok(step),
        }
    }
}

/// Whether all memory but the answer and the progress is as it was.
fn only_answer_changed(before: &Frame, after: &Frame, written: usize) -> bool {
    let Part { start: out, .. } = before.parts[1];
    let Part { start: progress, .. } = before.parts[2];
    let changed = |place: &usize| {
        (out..out + written).contains(place) || (progress..progress + 24).contains(place)
    };
    (0..before.bytes().len())
        .filter(|place| !changed(place))
        .all(|place| before.bytes()[place] == after.bytes()[place])
}

/// What a call should have done with the rest of its input, if anything.
fn idle(rest: &[u8], step: &Step, last: bool, room: usize) -> Option<&'static str> {
    let line = lines_of(rest).next()?;
    let whole = line.ends_with(b"\n") || last;
    if step.skipping {
        return Some("input is left while a long line is passed over");
    }
    if whole && answer(line).len() <= room {
        return Some("a line is left for whose answer there is room");
    }
    if line.len() > LONGEST_REQUEST && !whole && room >= LONGEST_ANSWER {
        return Some("a line too long for a request is held back");
    }
    None
}

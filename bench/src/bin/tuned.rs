//! Request lines to answer lines by the plain implementation: whole numbers, tables, no copies of
//! lines, 64 KiB each way. It is timed beside the proved program, which moves bytes the same way.

use imbrolt_plain::door::answer_block;
use std::fs::File;
use std::io::{self, Read, Write};
use std::os::fd::AsFd;

const SIZE: usize = 64 * 1024;

fn main() -> io::Result<()> {
    // Files of their own: the standard ones would copy through buffers.
    let mut input = File::from(io::stdin().as_fd().try_clone_to_owned()?);
    let mut output = File::from(io::stdout().as_fd().try_clone_to_owned()?);
    let mut asked = vec![0; SIZE];
    let mut answered = vec![0; SIZE];
    let (mut filled, mut skipping) = (0, 0);
    loop {
        let got = input.read(&mut asked[filled..])?;
        filled += got;
        let mut start = 0;
        loop {
            let mut progress = [0; 3];
            answer_block(
                &asked[start..filled],
                skipping,
                u32::from(got == 0),
                &mut answered,
                &mut progress,
            );
            let [used, wrote, skips] = progress.map(|number| number as usize);
            output.write_all(&answered[..wrote])?;
            start += used;
            skipping = skips as u32;
            if used == 0 || start == filled {
                break;
            }
        }
        if got == 0 {
            return Ok(());
        }
        asked.copy_within(start..filled, 0);
        filled -= start;
    }
}

//! bursts < STREAM: every frame of a stream as a burst, words high byte first, up to the first place at which no frame is accepted.
//! `bursts --bsmods` writes, instead of bursts, the stream's first frame eight times over with bsmod 0 to 7: encoders send 0 alone.

use judge::burst::{write, BURST, WORDS};
use judge::cut::MANY_ROWS;
use judge::layout::ROW;
use std::io::{self, Read, Write};

fn main() -> io::Result<()> {
    let bsmods = std::env::args().any(|a| a == "--bsmods");
    let mut stream = Vec::new();
    io::stdin().read_to_end(&mut stream)?;
    let mut room = vec![0; ROW * MANY_ROWS];
    let mut burst = [0; BURST];
    let mut to = io::BufWriter::new(io::stdout().lock());
    let mut place = 0;
    while write(&stream, place, &mut room, &mut burst)[0] == 0 {
        let length = usize::from(u16::from_be_bytes([burst[6], burst[7]]) / 8);
        if bsmods {
            let frame = &mut burst[WORDS..WORDS + length];
            for bsmod in 0..8 {
                frame[5] = frame[5] & !7 | bsmod;
                to.write_all(frame)?;
            }
            break;
        }
        to.write_all(&burst)?;
        place += length;
    }
    to.flush()
}

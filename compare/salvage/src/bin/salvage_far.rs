//! salvage_far: salvages a capture of more than 4 GiB, zeros with a frame across 2 GiB, one across 4 GiB and one behind it, and holds the
//! answer, the list and the output against what they must be. It takes as much address space, and little memory: what is only read of it
//! stays unallocated. Status 1 on a difference.

use compare_salvage::raw;
use judge::craft::small;
use judge::layout::{ENTRY, ROW};

const FRAME: usize = 0;
const GAP: usize = 1;
const GIB: usize = 1 << 30;

fn main() {
    let frame = small(&|_| None);
    let places = [2 * GIB - 50, 4 * GIB - 50, 4 * GIB + 100];
    let length = 4 * GIB + 1000;
    let mut capture = vec![0; length];
    let mut expected = Vec::new();
    let mut end = 0;
    for place in places {
        capture[place..place + frame.len()].copy_from_slice(&frame);
        expected.push([GAP, end, place - end]);
        expected.push([FRAME, place, frame.len()]);
        end = place + frame.len();
    }
    expected.push([GAP, end, length - end]);
    let (mut rows, mut list, mut out) = ([0; ROW * 95], [0; ENTRY * 7], [0; 3 * 128]);
    let (answer, listed, written) = raw::salvage(&capture, &mut rows, &mut list, &mut out);
    println!("{length} bytes: answer {answer:?}");
    listed.chunks(ENTRY).for_each(|entry| println!("{entry:?}"));
    let same = answer == [0, 7, 384] && *listed == expected.concat() && written == frame.repeat(3);
    println!("as it must be: {same}");
    std::process::exit(i32::from(!same));
}

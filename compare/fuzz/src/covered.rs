//! Which counters of the original inputs move: those of a folder, and those of judge/vectors/list.txt, which are run in every test.

use crate::input::Input;
use judge::cases::input;
use judge::hex;
use judge::list::Listed;
use std::fs;

extern "C" {
    // The linker's names for the bounds of the counters, of their places (two words each), and of the program.
    static mut __start___sancov_cntrs: u8;
    static mut __stop___sancov_cntrs: u8;
    static __start___sancov_pcs: [usize; 2];
    static __executable_start: u8;
}

/// Runs the original, and notes which of its counters moved.
struct Covered(Vec<bool>);

impl Covered {
    fn new() -> Self {
        // SAFETY: the linker gives both bounds of one section.
        let count = unsafe {
            (&raw const __stop___sancov_cntrs).offset_from(&raw const __start___sancov_cntrs)
        };
        Covered(vec![false; count as usize])
    }

    fn run(&mut self, data: &[u8]) {
        let first = &raw mut __start___sancov_cntrs;
        // SAFETY: so many counters are there; nothing else refers to them, and no other thread moves them.
        unsafe { std::ptr::write_bytes(first, 0, self.0.len()) };
        let _ = original::ac3::parse(data);
        for (i, covered) in self.0.iter_mut().enumerate() {
            // SAFETY: as above.
            *covered |= unsafe { first.add(i).read_volatile() } != 0;
        }
    }

    fn count(&self) -> usize {
        self.0.iter().filter(|covered| **covered).count()
    }

    /// The place of a counter, as the program's file has it.
    fn place(&self, i: usize) -> usize {
        assert!(i < self.0.len());
        // SAFETY: there are as many places as counters.
        let place = unsafe { (&raw const __start___sancov_pcs).add(i).read()[0] };
        place - &raw const __executable_start as usize
    }
}

/// Prints how many counters the inputs of a folder move, how many those of the list, and the places of those that one of them or neither
/// does.
pub fn tell(folder: &str, list: &str) {
    let mut kept = Covered::new();
    for file in fs::read_dir(folder).expect("a folder") {
        let data = fs::read(file.expect("a file").path()).expect("a file");
        let input = Input::from_bytes(&data);
        kept.run(input.capture.get(input.place()..).unwrap_or(&[]));
    }
    let mut listed = Covered::new();
    let mut capture = Vec::new();
    for line in fs::read_to_string(list).expect("a list").lines() {
        if let Some(digits) = line.strip_prefix("frame ") {
            capture = hex::bytes(digits);
        } else if line.starts_with("case ") {
            let case = Listed::read(line);
            let data = input(&capture, case.edit, case.keep);
            listed.run(data.get(case.place..).unwrap_or(&[]));
        }
    }
    println!("{} counters in the original", kept.0.len());
    println!("moved by the inputs of the folder: {}", kept.count());
    println!("moved by the stored list: {}", listed.count());
    let (kept, listed) = (&kept, &listed);
    let of = |by| (0..kept.0.len()).filter(move |i| (kept.0[*i], listed.0[*i]) == by);
    for (by, what) in [
        ((true, false), "the folder alone"),
        ((false, true), "the list alone"),
        ((false, false), "neither"),
    ] {
        println!("moved by {what}: {}", of(by).count());
        of(by).for_each(|i| println!("{:#x} {what}", kept.place(i)));
    }
}

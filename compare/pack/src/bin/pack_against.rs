//! pack_against SEED SIZE: runs the generator of calls about packed listings and holds the port's answer and every byte of its output
//! against the judge's; those of the Rust by hand, too, so that what is measured does the same. Prints what was compared; status 1 on a
//! difference, or where something that is to be compared was not met.

use compare_pack::layout::PackAnswer;
use compare_pack::{by_hand, raw};
use judge::hex;
use judge::packed::cases::{fresh, Case, Packs, Way};

fn show(case: &Case<'_>, whose: &str, answer: PackAnswer, out: &[u8]) {
    println!("{:?} {}", case.way, hex::of(case.input));
    println!("  room for {} bytes", out.len());
    println!("  judge {:?}", case.answer);
    println!("  {whose} {answer:?}");
    if let Some(at) = (0..out.len()).find(|&i| out[i] != case.out[i]) {
        let (judge, other) = (case.out[at], out[at]);
        println!("  byte {at} of the output: judge {judge}, {whose} {other}");
    }
}

/// What an implementation answers, and the output after it.
fn asked(case: &Case<'_>, by_port: bool) -> (PackAnswer, Vec<u8>) {
    let mut out = fresh(case.out.len());
    let answer = match (case.way, by_port) {
        (Way::Pack, true) => raw::pack(case.input, &mut out).0,
        (Way::Unpack, true) => raw::unpack(case.input, &mut out).0,
        (Way::Pack, false) => by_hand::pack(case.input, &mut out),
        (Way::Unpack, false) => by_hand::unpack(case.input, &mut out),
    };
    (answer, out)
}

fn main() {
    let args: Vec<usize> = std::env::args()
        .skip(1)
        .map(|a| a.parse().expect("SEED and SIZE are numbers"))
        .collect();
    let [seed, size] = args[..] else {
        eprintln!("usage: pack_against SEED SIZE");
        std::process::exit(2);
    };
    let (mut differences, mut bytes) = (0, 0);
    let mut compare = |case: &Case<'_>| {
        bytes += case.out.len();
        for (whose, by_port) in [("port", true), ("by hand", false)] {
            let (answer, out) = asked(case, by_port);
            if answer != case.answer || out != case.out {
                differences += 1;
                if differences <= 3 {
                    show(case, whose, answer, &out);
                }
            }
        }
    };
    let mut packs = Packs::new(seed as u64, &mut compare);
    packs.run(size);
    for way in [Way::Pack, Way::Unpack] {
        let counts = packs.refused.iter().filter(|((w, _), _)| *w == way);
        let counts: Vec<String> = counts
            .map(|((_, n), times)| format!("{n}: {times}"))
            .collect();
        println!("{way:?} by refusal (0: none): {}", counts.join(", "));
    }
    for (what, times) in &packs.named {
        println!("{what}: {times}");
    }
    let missed = packs.missed();
    missed.iter().for_each(|what| println!("MISSED {what}"));
    let (calls, accepted) = (packs.calls(), packs.bytes);
    println!(
        "{calls} calls and {bytes} bytes of output compared, {accepted} bytes of listings taken"
    );
    println!("{differences} differences");
    std::process::exit((differences > 0 || !missed.is_empty()) as i32);
}

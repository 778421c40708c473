//! burst_against SEED SIZE: runs the generator of calls about bursts and holds the port's answer, every number of its room and every byte of
//! its output against the judge's. Prints what was compared; status 1 on a difference, or where a refusal or a case to be compared by name
//! was not met.

use compare_burst::layout::BurstAnswer;
use compare_burst::raw;
use judge::burst_cases::{fresh, Asked, Bursts, Case, FUNCTIONS};
use judge::cases::Amounts;
use judge::hex;

/// The first place at which two runs differ, with what stands there.
fn first<T: PartialEq + Copy>(judge: &[T], port: &[T]) -> Option<(usize, T, T)> {
    let at = (0..judge.len()).find(|&i| judge[i] != port[i])?;
    Some((at, judge[at], port[at]))
}

fn show(case: &Case<'_>, answer: BurstAnswer, room: &[i32], out: &[u8]) {
    match case.asked {
        Asked::Write { capture, place } => {
            println!("write place {place} of {}", hex::of(capture));
        }
        Asked::Read { burst } => println!("read {}", hex::of(burst)),
    }
    println!(
        "  room for {} numbers, output of {} bytes",
        room.len(),
        out.len()
    );
    println!("  judge {:?}", case.answer);
    println!("  port  {answer:?}");
    if let Some((at, judge, port)) = first(case.room, room) {
        println!("  number {at} of the room: judge {judge}, port {port}");
    }
    if let Some((at, judge, port)) = first(case.out, out) {
        println!("  byte {at} of the output: judge {judge}, port {port}");
    }
}

fn main() {
    let args: Vec<usize> = std::env::args()
        .skip(1)
        .map(|a| a.parse().expect("SEED and SIZE are numbers"))
        .collect();
    let [seed, size] = args[..] else {
        eprintln!("usage: burst_against SEED SIZE");
        std::process::exit(2);
    };
    let (mut differences, mut numbers, mut bytes) = (0, 0, 0);
    let mut compare = |case: &Case<'_>| {
        let (mut room, mut out) = fresh(case.room.len(), case.out.len());
        let (answer, _) = match case.asked {
            Asked::Write { capture, place } => {
                raw::burst_write(capture, place, &mut room, &mut out)
            }
            Asked::Read { burst } => raw::burst_read(burst, &mut room, &mut out),
        };
        numbers += room.len();
        bytes += out.len();
        if answer != case.answer || room != case.room || out != case.out {
            differences += 1;
            if differences <= 3 {
                show(case, answer, &room, &out);
            }
        }
    };
    let mut bursts = Bursts::new(seed as u64, &mut compare);
    bursts.run(seed as u64, Amounts::of_size(size));
    let calls = bursts.calls();
    for (function, refused) in FUNCTIONS.iter().zip(&bursts.refused) {
        let by_number: Vec<String> = refused
            .iter()
            .map(|(n, times)| format!("{n}: {times}"))
            .collect();
        println!(
            "{function}, calls by refusal (0: none): {}",
            by_number.join(", ")
        );
    }
    let least_of_bits = bursts.bits.iter().min().expect("bits");
    println!(
        "each of the {} bits of the four words turned: at least {least_of_bits} times",
        bursts.bits.len()
    );
    let least_of_pairs = bursts.pairs.values().min().unwrap_or(&0);
    println!(
        "each of the {} pairs of faults: at least {least_of_pairs} times",
        bursts.pairs.len()
    );
    for (what, times) in &bursts.named {
        println!("{what}: {times}");
    }
    let missed = bursts.missed();
    missed.iter().for_each(|what| println!("MISSED {what}"));
    println!("{calls} calls, {numbers} numbers of room and {bytes} bytes of output compared");
    println!("{differences} differences");
    std::process::exit((differences > 0 || !missed.is_empty()) as i32);
}

//! against SEED SIZE [LEAST]: runs the generator from SEED on and holds the port's answer and every number of its room against the judge's.
//! With LEAST the frames are swept as well (truncated at every byte, at every place of a longer capture, in every room), seed after seed
//! until there were that many inputs. Prints what was compared; status 1 on a difference, or where a refusal was not met, an input to be
//! compared by name was not, or no frame of the most rows that a frame can have.

use compare_parse::raw;
use judge::agree::fresh_room;
use judge::cases::{Amounts, Case, Generator};
use judge::corners::MOST_ROWS;
use judge::cut::{MANY_ROWS, REFUSALS};
use judge::goals::by_name;
use judge::hex;
use judge::layout::ROW;

fn main() {
    let args: Vec<usize> = std::env::args()
        .skip(1)
        .map(|a| a.parse().expect("SEED, SIZE and LEAST are numbers"))
        .collect();
    let (seed, amounts, least) = match args[..] {
        [seed, size] => (seed, Amounts::of_size(size), 0),
        [seed, size, least] => (seed, Amounts::swept(size), least),
        _ => {
            eprintln!("usage: against SEED SIZE [LEAST]");
            std::process::exit(2);
        }
    };
    let (mut differences, mut numbers) = (0, 0usize);
    let mut refused = [0usize; REFUSALS as usize + 1];
    let fresh = fresh_room(ROW * (MANY_ROWS + 1));
    let mut room = Vec::with_capacity(fresh.len());
    let mut compare = |case: &Case<'_>| {
        room.clear();
        room.extend_from_slice(&fresh[..case.call.room.len()]);
        let (answer, _) = raw::parse(case.input, case.place, &mut room);
        numbers += room.len();
        refused[case.call.answer.number() as usize] += 1;
        if answer != case.call.answer.numbers() || room != case.call.room {
            differences += 1;
            if differences <= 3 {
                println!("place {} of {}", case.place, hex::of(case.input));
                println!("  room for {} numbers", room.len());
                println!("  judge {:?}", case.call.answer.numbers());
                println!("  port  {answer:?}");
                if let Some(at) = (0..room.len()).find(|&i| room[i] != case.call.room[i]) {
                    println!(
                        "  number {at}: judge {}, port {}",
                        case.call.room[at], room[at]
                    );
                }
            }
        }
    };
    let (mut inputs, mut seeds, mut swept) = (0, 0, [0; 3]);
    let mut named = by_name().map(|_| 0);
    let mut most_rows = 0;
    loop {
        let mut generator = Generator::new((seed + seeds) as u64, &mut compare);
        generator.run_and_compared();
        generator.run(amounts);
        inputs += generator.calls;
        most_rows = most_rows.max(generator.most_rows);
        seeds += 1;
        for (sum, of_seed) in swept.iter_mut().zip(generator.swept) {
            *sum += of_seed;
        }
        for (times, (_, goal)) in named.iter_mut().zip(by_name()) {
            *times += generator.counts.of(goal);
        }
        if least <= inputs {
            break;
        }
    }
    println!("{inputs} inputs from {seeds} seeds, {numbers} numbers of room compared");
    let [truncations, places, rooms] = swept;
    println!("of them by sweeps {truncations} truncations, {places} places, {rooms} rooms");
    println!(
        "accepted {}, refused by number {:?}",
        refused[0],
        &refused[1..]
    );
    for (times, (name, _)) in named.iter().zip(by_name()) {
        println!("{name}: {times}");
    }
    println!("most rows of a frame: {most_rows}");
    let missed: Vec<usize> = (0..refused.len()).filter(|n| refused[*n] == 0).collect();
    missed
        .iter()
        .for_each(|n| println!("MISSED {n} (0: accepted)"));
    println!("{differences} differences");
    let complete = missed.is_empty() && !named.contains(&0) && most_rows == MOST_ROWS;
    std::process::exit((differences > 0 || !complete) as i32);
}

//! coverage SEED SIZE: runs the whole generator, with the checks of agreement on every input, and
//! prints what was reached. Ends with one line for each check, `ok` or `FAILED`, and with status 1
//! if some goal that can be reached was not.

use judge::cases::{Amounts, Generator};
use judge::corners::MOST_ROWS;
use judge::cut::REFUSALS;
use judge::features::FEATURES;
use judge::goals::{self, *};
use judge::mantissas;
use judge::names::{self, number, NAMES};

fn main() {
    let args: Vec<usize> = std::env::args()
        .skip(1)
        .map(|a| a.parse().expect("SEED and SIZE are numbers"))
        .collect();
    let [seed, size] = args[..] else {
        eprintln!("usage: coverage SEED SIZE");
        std::process::exit(2);
    };
    let mut nothing = |_: &judge::cases::Case<'_>| {};
    let mut generator = Generator::new(seed as u64, &mut nothing);
    generator.run(Amounts::of_size(size));
    let counts = &generator.counts;
    let count = names::COUNT as i32;

    let calls = generator.calls;
    let refused: usize = (1..=REFUSALS).map(|n| counts.of((REFUSAL, n, 0))).sum();
    let accepted = calls - refused;
    println!("{calls} inputs: {accepted} accepted, {refused} refused");
    let average = generator.accepted_rows / accepted.max(1);
    println!(
        "rows of an accepted frame: {average} on average, {} at most",
        generator.most_rows
    );

    println!("\nname: accepted frames with it, refusals 6 at it, refusals 7 at it");
    for (n, name) in (1..).zip(&NAMES) {
        let [with, six, seven] = [NAME, SIX, SEVEN].map(|kind| counts.of((kind, n, 0)));
        println!("{n:5} {:13} {with:7} {six:6} {seven:6}", name.text);
    }
    println!("\nrefusal: inputs, and by the name of the last row written");
    for n in 1..=REFUSALS {
        let mut line = format!("{n:5} {:7}", counts.of((REFUSAL, n, 0)));
        if n != 6 && n != 7 {
            for after in 0..=count {
                let times = counts.of((SITE, n, after));
                if times > 0 {
                    let name = if after == 0 {
                        "no row"
                    } else {
                        names::of(after).text
                    };
                    line += &format!("  {name} {times}");
                }
            }
        }
        println!("{line}");
    }
    println!("\nrefusal 6 by block: at a field, at a skip field, at mantissas");
    for block in 0..6 {
        let [field, skipfld, mantissas] = [0, 1, 2].map(|sort| counts.of((SIX_IN, block, sort)));
        println!("{block:5} {field:7} {skipfld:7} {mantissas:7}");
    }
    println!("\nmode (acmod, lfeon): accepted frames");
    for acmod in 0..8 {
        let [without, with] = [0, 1].map(|lfe| counts.of((MODE, acmod, lfe)));
        println!("{acmod:5} {without:7} {with:7}");
    }
    println!("\naccepted frames with");
    for (at, feature) in (0..).zip(FEATURES) {
        println!("{:7}  {feature}", counts.of((FEATURE, at, 0)));
    }
    println!("\naccepted frames with");
    for (what, of) in mantissas::sought() {
        let times = counts.of((MANTISSAS, what, of));
        println!("{times:7}  {}", mantissas::say(what, of));
    }
    println!("\nplaces in a longer capture");
    for (at, place) in (0..).zip(PLACES) {
        println!("{:7}  {place}", counts.of((PLACE, at, 0)));
    }
    let wished = goals::wished();
    let missed = counts.missed(&wished);
    println!(
        "\nof {} values, coupling ranges and numbers of bands, groups and segments, {} were not drawn",
        wished.len(),
        missed.len()
    );

    let header = number(LAST_OF_HEADER);
    println!(
        "\ncannot occur: refusal 6 at names 1 to {header}, since the longest header has 665 bits and the \
         shortest frame 1,024\ncannot occur, and stops the run if it does: the Rust's refusals for an \
         exponent strategy or range out of bounds, a short exponent set,\nallocation parameters or SNR \
         offsets never sent, reused exponents that do not cover, a bap above 15\n"
    );

    let required = goals::required();
    let mut failed = false;
    for (kind, what) in [
        (NAME, "every name in accepted frames"),
        (REFUSAL, "every refusal"),
        (SITE, "every refusal after every name where it can stand"),
        (SIX, "refusal 6 at every name of the blocks"),
        (
            SIX_IN,
            "refusal 6 at a field, a skip field and mantissas of every block",
        ),
        (SEVEN, "refusal 7 at every name"),
        (ONE_ROW_SHORT, "rows one too few"),
        (OUTSIDE, "exponents below 0 and above 24"),
        (MODE, "every mode"),
        (BSID, "every bsid"),
        (SIZE, "every frame size"),
        (STRATEGY, "every exponent strategy in every block"),
        (FEATURE, "every feature"),
        (
            MANTISSAS,
            "everything that is sought of groups and silent slots",
        ),
        (PLACE, "every sort of place"),
        (
            LAST_PART,
            "the most bands, groups and segments of every name",
        ),
        (LEFT_OVER, "every number of left-over numbers"),
    ] {
        let of_kind: Vec<Goal> = required.iter().copied().filter(|g| g.0 == kind).collect();
        let missed = counts.missed(&of_kind);
        assert!(!of_kind.is_empty());
        let verdict = if missed.is_empty() { "ok" } else { "FAILED" };
        println!("{verdict} {what} ({})", of_kind.len());
        missed
            .iter()
            .for_each(|goal| println!("   not reached: {}", goals::say(goal)));
        failed |= !missed.is_empty();
    }
    let never = (1..=header).map(|n| counts.of((SIX, n, 0))).sum::<usize>();
    println!(
        "{} no refusal 6 in the header",
        if never == 0 { "ok" } else { "FAILED" }
    );
    let elsewhere: Vec<&Goal> = counts
        .0
        .keys()
        .filter(|(kind, refusal, _)| *kind == SITE && ![1, 6, 7].contains(refusal))
        .filter(|goal| !required.contains(goal))
        .collect();
    let verdict = if elsewhere.is_empty() { "ok" } else { "FAILED" };
    println!("{verdict} no refusal after a name where it cannot stand");
    elsewhere
        .iter()
        .for_each(|goal| println!("   {}", goals::say(goal)));
    failed |= !elsewhere.is_empty();
    let most = generator.most_rows == MOST_ROWS;
    let verdict = if most { "ok" } else { "FAILED" };
    println!("{verdict} no frame has more than {MOST_ROWS} rows, and some have as many");
    println!("ok agreement with the published parser on {calls} inputs");
    std::process::exit(i32::from(failed || never > 0 || !most));
}

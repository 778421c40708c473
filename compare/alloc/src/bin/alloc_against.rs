//! alloc_against SEED SETS: random parameter sets from SEED on, each given to the port and to the judge by BAP and by HEBAP, and every
//! pointer compared; of a set that does not fit, and of a table that there is not, that the port refuses it and writes nothing. Prints what
//! was compared; status 1 on a difference, or where an entry of the tables was not met.

use compare_alloc::{by_judge, by_port, draw, fits, Set, BINS, TABLES};
use judge::rng::Rng;

/// No pointer: shows what was not written.
const UNTOUCHED: u8 = 255;

/// A table whose entries are their own addresses.
fn addresses() -> [u8; 64] {
    std::array::from_fn(|address| address as u8)
}

/// What is to be left in an array of pointers, by the table of a number.
fn wanted(set: &Set, which: u8) -> Option<[u8; BINS]> {
    let (_, table) = TABLES.get(usize::from(which)).filter(|_| fits(set))?;
    let mut all = [0; BINS];
    let end = set.end.min(BINS);
    all[..end].copy_from_slice(&by_judge(set, table)[..end]);
    Some(all)
}

fn main() {
    let args: Vec<u64> = std::env::args()
        .skip(1)
        .map(|a| a.parse().expect("SEED and SETS are numbers"))
        .collect();
    let &[seed, sets] = &args[..] else {
        eprintln!("usage: alloc_against SEED SETS");
        std::process::exit(2);
    };
    let mut rng = Rng(seed);
    let (mut taken, mut lfe, mut coupling, mut deltas, mut past, mut no_table, mut differences) = (0, 0, 0, 0, 0, 0, 0);
    let mut entries = [0; 64];
    for n in 0..sets {
        let set = draw::any(&mut rng);
        // One set in sixteen is also given with another number, which is no table's: all of them in turn.
        let none = (n % 16 == 0).then(|| 2 + (n / 16 % 254) as u8);
        no_table += usize::from(none.is_some());
        for which in [0, 1].into_iter().chain(none) {
            let mut out = [UNTOUCHED; BINS];
            let answer = by_port(&set, &mut out, which);
            let wanted = wanted(&set, which);
            if answer != wanted.is_some() || out != wanted.unwrap_or([UNTOUCHED; BINS]) {
                differences += 1;
                if differences <= 3 {
                    println!("table {which} of {set:?}\n  judge {wanted:?}\n  port  {answer} {out:?}");
                }
            }
        }
        if fits(&set) {
            taken += 1;
            lfe += usize::from(set.start == 0 && set.end == 7);
            coupling += usize::from(set.start > 0 && set.start < set.end);
            deltas += usize::from(set.count > 0);
            let bands: usize = set.segments[..3 * set.count].chunks_exact(3).map(|part| usize::from(part[0]) + usize::from(part[1])).sum();
            past += usize::from(bands > 50);
            if n % 16 == 0 && set.start < set.end {
                by_judge(&set, &addresses())[set.start..].iter().for_each(|address| entries[usize::from(*address)] += 1);
            }
        }
    }
    println!("{sets} sets from seed {seed}: {taken} taken ({lfe} of LFE, {coupling} that start past bin 0, {deltas} with delta segments, {past} with segments past band 49), {} refused", sets - taken);
    let names: Vec<&str> = TABLES.iter().map(|(name, _)| *name).collect();
    println!("each by {}, and {no_table} by no table", names.join(" and by "));
    let least = entries.iter().min().expect("entries");
    println!("of every sixteenth set, each of the {} entries of a table: at least {least} times", entries.len());
    println!("{differences} differences");
    std::process::exit(i32::from(differences > 0 || *least == 0));
}

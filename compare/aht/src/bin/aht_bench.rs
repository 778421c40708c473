//! aht_bench WALKS GAQMOD (none|rust|port): makes WALKS sections, always the same ones, and gives them to one side, or to none, so that its
//! instructions can be counted; with none it prints what the sections have on average.

use compare_aht::raw;
use judge::aht::{answer, published, Asked};
use judge::aht_cases::usual;
use judge::rng::Rng;
use std::hint::black_box;

fn main() {
    let args: Vec<String> = std::env::args().skip(1).collect();
    let number = |i: usize| {
        args[i]
            .parse::<usize>()
            .expect("WALKS and GAQMOD are numbers")
    };
    let (walks, gaqmod) = (number(0), number(1));
    let mut rng = Rng(1);
    let mut sums = [0; 3];
    for _ in 0..walks {
        let (data, hebap) = black_box(usual(&mut rng, gaqmod));
        let (end, past) = (8 * data.len(), hebap.len());
        let asked = Asked {
            data: &data,
            at: 0,
            end,
            hebap: &hebap,
            first: 0,
            past,
        };
        let of = black_box(answer(asked).1);
        for (sum, number) in sums.iter_mut().zip([past, of[1], of[2]]) {
            *sum += number;
        }
        match args[2].as_str() {
            "none" => {}
            "rust" => assert_eq!(black_box(published(&asked)).0, of),
            "port" => assert_eq!(black_box(raw::aht(&data, 0, end, &hebap, 0, past)), of),
            other => panic!("no side {other}"),
        }
    }
    if args[2] == "none" {
        let [bins, bits, tags] = sums.map(|sum| sum / walks);
        println!("gaqmod {gaqmod}: {bins} bins, {bits} bits and {tags} tags in a section");
    }
}

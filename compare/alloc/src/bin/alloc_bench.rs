//! alloc_bench CALLS KIND (none|rust|port|tests): makes CALLS sets, always the same ones, and gives them to one side, or to none, so that
//! its instructions can be counted. `tests` is the port with a call that it refuses after all of its tests. The pointers are those of BAP.

use compare_alloc::{by_judge, by_port, draw, BINS, TABLES};
use judge::rng::Rng;
use std::hint::black_box;

fn main() {
    let args: Vec<String> = std::env::args().skip(1).collect();
    let calls: usize = args[0].parse().expect("CALLS is a number");
    let kind = args[1].as_str();
    assert!(draw::KINDS.contains(&kind), "KIND is one of {:?}", draw::KINDS);
    let mut rng = Rng(1);
    for _ in 0..calls {
        let mut set = black_box(draw::usual(&mut rng, kind));
        let mut out = [0; BINS];
        match args[2].as_str() {
            "none" => {}
            "rust" => drop(black_box(by_judge(&set, TABLES[0].1))),
            "port" => assert!(by_port(&set, &mut out, 0)),
            "tests" => {
                set.exponents[BINS - 1] = 25;
                assert!(!by_port(&set, &mut out, 0));
            }
            other => panic!("no side {other}"),
        }
        black_box(out);
    }
}

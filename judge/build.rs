//! `logadd` and `calc_lowcomp` are private in the published alloc.rs. A test includes that file's
//! text to reach them; an included text may not begin with `//!` lines, so they are left out here.

use std::{env, fs, path::Path};

fn main() {
    let published = "ddpmeta/alloc.rs";
    println!("cargo::rerun-if-changed={published}");
    let text = fs::read_to_string(published).expect("the published file");
    let body: Vec<&str> = text
        .lines()
        .filter(|line| !line.starts_with("//!"))
        .collect();
    let out = env::var("OUT_DIR").expect("set by cargo");
    fs::write(Path::new(&out).join("alloc_body.rs"), body.join("\n")).expect("written");
}

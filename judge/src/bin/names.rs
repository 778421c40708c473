//! Prints the table of docs/NAMES.md.

fn main() {
    print!("{}", judge::names::table());
}

//! Prints corners.txt.

fn main() {
    print!("{}", judge::corners::text());
}

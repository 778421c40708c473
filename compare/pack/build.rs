// The archive is built by `tools/archive ferrysprig`, at the top of the repository.
fn main() {
    let top = concat!(env!("CARGO_MANIFEST_DIR"), "/../..");
    println!("cargo:rustc-link-search=native={top}/target/staticlib");
    println!("cargo:rustc-link-lib=static=ferrysprig");
    println!("cargo:rerun-if-changed={top}/target/staticlib/libferrysprig.a");
}

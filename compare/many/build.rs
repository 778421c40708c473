// The archive is built by `tools/archive ferrysprig`, at the top of the repository; `run --own` names another folder, with that for the
// processor at hand.
fn main() {
    let plain = concat!(env!("CARGO_MANIFEST_DIR"), "/../../target/staticlib");
    let folder = std::env::var("ARCHIVE").unwrap_or(plain.to_string());
    println!("cargo:rustc-link-search=native={folder}");
    println!("cargo:rustc-link-lib=static=ferrysprig");
    println!("cargo:rerun-if-env-changed=ARCHIVE");
    println!("cargo:rerun-if-changed={folder}/libferrysprig.a");
}

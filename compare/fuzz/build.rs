// The archive is built by `tools/archive ferrysprig`, at the top of the repository; `run` names libFuzzer's.
fn main() {
    let top = concat!(env!("CARGO_MANIFEST_DIR"), "/../..");
    println!("cargo:rustc-link-search=native={top}/target/staticlib");
    println!("cargo:rustc-link-lib=static=ferrysprig");
    println!("cargo:rerun-if-changed={top}/target/staticlib/libferrysprig.a");
    println!("cargo:rerun-if-env-changed=LIBFUZZER");
    if let Ok(fuzzer) = std::env::var("LIBFUZZER") {
        println!("cargo:rustc-link-arg-bins={fuzzer}");
        println!("cargo:rustc-link-arg-bins=-lstdc++");
    }
}

//! Links the archive that `tools/archive ferrysprig` writes at the top of the repository; FERRYSPRIG_LIB names its folder where it stands
//! elsewhere.

use std::env;
use std::path::PathBuf;
use std::process::exit;

const ARCHIVE: &str = "libferrysprig.a";

fn main() {
    println!("cargo:rerun-if-env-changed=FERRYSPRIG_LIB");
    let system =
        ["ARCH", "OS"].map(|what| env::var(format!("CARGO_CFG_TARGET_{what}")).unwrap_or_default());
    if system != ["x86_64", "linux"] {
        eprintln!(
            "ferrysprig: {ARCHIVE} is for x86-64 Linux and cannot be linked into a program for {}",
            system.join(" ")
        );
        eprintln!("Build with `--target x86_64-unknown-linux-gnu`; compare/x86-64 readies cargo for that on another processor.");
        exit(1);
    }
    let folder = match env::var_os("FERRYSPRIG_LIB") {
        Some(folder) => PathBuf::from(folder),
        None => PathBuf::from(concat!(env!("CARGO_MANIFEST_DIR"), "/../target/staticlib")),
    };
    // Watched also where it is missing, so that building it is noticed.
    println!("cargo:rerun-if-changed={}", folder.join(ARCHIVE).display());
    if !folder.join(ARCHIVE).is_file() {
        eprintln!("ferrysprig: there is no {ARCHIVE} in {}", folder.display());
        eprintln!("Build it with `tools/archive ferrysprig` at the top of Ferrysprig's repository (it writes target/staticlib/{ARCHIVE}),");
        eprintln!("or set FERRYSPRIG_LIB to the folder that holds it.");
        exit(1);
    }
    println!("cargo:rustc-link-search=native={}", folder.display());
    println!("cargo:rustc-link-lib=static=ferrysprig");
}

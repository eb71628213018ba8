//! Where the archive stands: the folder that ./library built it into.
use std::{env, path::PathBuf};

fn main() {
    let here = PathBuf::from(env::var("CARGO_MANIFEST_DIR").expect("cargo names the package's folder"));
    let folder = env::var("LACE_CARD_DIR").map_or(here.join("../../target/library"), PathBuf::from);
    println!("cargo:rerun-if-env-changed=LACE_CARD_DIR");
    println!("cargo:rerun-if-changed={}", folder.join("liblace_card.a").display());
    println!("cargo:rustc-link-search=native={}", folder.display());
}

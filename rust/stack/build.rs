//! Hands the name of the archive that the crate `hainscope` links on to this crate.

use std::env;

fn main() {
    let archive = env::var("DEP_HAINSCOPE_ARCHIVE").expect("the crate hainscope tells its archive");
    println!("cargo:rustc-env=HAINSCOPE_ARCHIVE={archive}");
}

//! Finds the static library, which `scripts/library` makes.
use std::env;
use std::path::PathBuf;

const PLACE: &str = "SIMPLIFY_ORDERING_LIB_DIR";
const FILE: &str = "libsimplify_ordering_lib.a";

fn main() {
    println!("cargo:rerun-if-env-changed={PLACE}");

    let folder = env::var_os(PLACE).map_or_else(default_folder, PathBuf::from);
    let library = folder.join(FILE);
    println!("cargo:rerun-if-changed={}", library.display());
    if !library.is_file() {
        eprintln!("error: there is no {}", library.display());
        eprintln!(
            "Run `scripts/library` at the top of the repository, or name its folder in {PLACE}."
        );
        std::process::exit(1);
    }

    println!("cargo:rustc-link-search=native={}", folder.display());
    println!("cargo:rustc-link-lib=static=simplify_ordering_lib");
}

fn default_folder() -> PathBuf {
    let here = PathBuf::from(env::var_os("CARGO_MANIFEST_DIR").expect("cargo names the folder of the crate"));
    here.join("../../target/staticlib")
}

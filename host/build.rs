// Links the static library that `.ci/library` writes. It does not build it: proving takes its own time.
use std::path::Path;

fn main() {
    let folder = concat!(env!("CARGO_MANIFEST_DIR"), "/../target/staticlib");
    let library = format!("{folder}/libengine.a");
    println!("cargo:rerun-if-changed={library}");
    assert!(
        Path::new(&library).exists(),
        "{library} is not there: run `.ci/library` first"
    );
    println!("cargo:rustc-link-search=native={folder}");
    println!("cargo:rustc-link-lib=static=engine");
}

// Tells cargo where libklovdrun.a is and that it is linked static. It rests on the environment variable KLOVDRUN_ARCHIVE, the
// archive's folder; without it, ../target/staticlib beside the manifest.
use std::env;
use std::path::PathBuf;

fn main() {
    println!("cargo:rerun-if-env-changed=KLOVDRUN_ARCHIVE");
    let manifest = PathBuf::from(env::var_os("CARGO_MANIFEST_DIR").expect("cargo sets CARGO_MANIFEST_DIR"));
    // A relative folder counts from the manifest, whatever folder the linker is started in.
    let folder = manifest.join(env::var_os("KLOVDRUN_ARCHIVE").unwrap_or_else(|| "../target/staticlib".into()));
    let archive = folder.join("libklovdrun.a");
    println!("cargo:rerun-if-changed={}", archive.display());
    assert!(archive.is_file(), "{} is not there: KLOVDRUN_ARCHIVE names the folder of libklovdrun.a", archive.display());
    println!("cargo:rustc-link-search=native={}", folder.display());
    println!("cargo:rustc-link-lib=static=klovdrun");
}

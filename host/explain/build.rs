//! Links the proved library, the archives of `$GRASSGLISTEN_NATIVE`.
const ARCHIVES: [&str; 2] = ["bridge", "bridge_frames"];

fn main() {
    println!("cargo:rerun-if-env-changed=GRASSGLISTEN_NATIVE");
    let native = std::env::var("GRASSGLISTEN_NATIVE");
    let native = native.expect("GRASSGLISTEN_NATIVE names no directory; tools/explain sets it");
    println!("cargo:rustc-link-search=native={native}");
    for archive in ARCHIVES {
        println!("cargo:rerun-if-changed={native}/lib{archive}.a");
        println!("cargo:rustc-link-lib=static={archive}");
    }
}

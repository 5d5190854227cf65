//! Links the proved library, the archives of `$GRASSGLISTEN_NATIVE`.
const ARCHIVES: [&str; 6] =
    ["bridge", "bridge_frames", "bridge_streams", "bridge_link", "bench_bridge", "bench_walk"];

fn main() {
    println!("cargo:rerun-if-env-changed=GRASSGLISTEN_NATIVE");
    let native = std::env::var("GRASSGLISTEN_NATIVE");
    let native =
        native.expect("GRASSGLISTEN_NATIVE names no directory; tools/differential sets it");
    println!("cargo:rustc-link-search=native={native}");
    for archive in ARCHIVES {
        println!("cargo:rerun-if-changed={native}/lib{archive}.a");
        println!("cargo:rustc-link-lib=static={archive}");
    }
}

//! Copies the sources of iec104 unchanged from `$IEC104_SRC` to `$OUT_DIR/iec104`, and writes beside them
//! `modules.rs`, which lib.rs includes: a `mod x;` in an included file is looked up beside that file, so that
//! `types.rs` finds `types/*.rs` as in the published crate.
use std::{
    env, fs,
    path::{Path, PathBuf},
};

const MODULES: [&str; 7] = ["apdu", "asdu", "config", "cot", "error", "types", "types_id"];

/// Not among `MODULES`: lib.rs includes it itself, to stand inside it and reach its private parts.
const OPENED: &str = "receive_handler";

const TYPES: [&str; 7] = [
    "commands",
    "information_elements",
    "information_objects",
    "measurements",
    "parameters",
    "quality_descriptors",
    "time",
];

fn main() {
    println!("cargo:rerun-if-env-changed=IEC104_SRC");
    println!("cargo:rerun-if-changed=build.rs");
    let source = env::var_os("IEC104_SRC").map(PathBuf::from);
    let source = source.expect("IEC104_SRC names no directory; tools/differential sets it");
    let copy = Path::new(&env::var_os("OUT_DIR").unwrap()).join("iec104");
    fs::create_dir_all(copy.join("types")).unwrap();
    for file in files() {
        let from = source.join(&file);
        println!("cargo:rerun-if-changed={}", from.display());
        fs::copy(&from, copy.join(&file)).unwrap_or_else(|e| panic!("{}: {e}", from.display()));
    }
    let modules: String = MODULES.iter().map(|m| format!("pub mod {m};\n")).collect();
    fs::write(copy.join("modules.rs"), modules).unwrap();
}

fn files() -> Vec<String> {
    let top = MODULES.iter().chain([&OPENED]).map(|m| format!("{m}.rs"));
    let types = TYPES.iter().map(|m| format!("types/{m}.rs"));
    top.chain(types).collect()
}

//! Finds the static library: in the folder that `KEY_INDEX_LIB` names, in `lib` here, where a release has it, or in `lib` at the top of the
//! repository, where it is compiled without a proof if it is not there. Only linking needs it.

use std::env;
use std::fs;
use std::path::PathBuf;
use std::process::{exit, Command};

fn main() {
    let set = |name: &str| env::var(name).unwrap_or_default();
    let part = |name: &str| set(&format!("CARGO_CFG_TARGET_{name}"));
    if ["ARCH", "OS", "ENV", "POINTER_WIDTH"].map(part) != ["x86_64", "linux", "gnu", "64"] {
        eprintln!(
            "key-index has no library for {}, only for x86_64-unknown-linux-gnu",
            set("TARGET")
        );
        exit(1);
    }
    println!("cargo:rerun-if-env-changed=KEY_INDEX_LIB");
    let package = PathBuf::from(env::var_os("CARGO_MANIFEST_DIR").unwrap());
    let named = env::var_os("KEY_INDEX_LIB").map(PathBuf::from);
    let packed = Some(package.join("lib")).filter(|folder| folder.is_dir());
    let given = named.or(packed);
    let folder = given.clone().unwrap_or_else(|| package.join("../../lib"));
    let library = folder.join("libkey_index.a");
    let script = package.join("../../.ci/library");
    let mut why = String::new();
    if given.is_none() && !library.is_file() && script.is_file() {
        let made = Command::new(script).arg(&folder).arg("--unproved").output();
        let said = made.map_or_else(
            |error| error.to_string(),
            |made| String::from_utf8_lossy(&made.stderr).into(),
        );
        why = said.lines().last().map_or(why, |line| format!(" ({line})"));
    }
    println!("cargo:rerun-if-changed={}", library.display());
    if !library.is_file() {
        println!(
            "cargo:warning={} is not there{why}, so nothing links: where the toolchain's command rt is on the path, `./build library \
             --unproved` at the top of the repository makes it; KEY_INDEX_LIB names another folder",
            library.display()
        );
    } else if fs::read(folder.join("library.txt")).is_ok_and(|said| said.starts_with(b"unproved")) {
        println!("cargo:warning=the library is unproved: `./build library` at the top of the repository makes the proved one");
    }
    println!("cargo:rustc-link-search=native={}", folder.display());
    println!("cargo:rustc-link-lib=static=key_index");
}

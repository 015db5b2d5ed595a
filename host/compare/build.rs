//! Compiles, with the system's gcc, the plain C that the benchmark and the soak compare the library with.

use std::env;
use std::path::Path;
use std::process::Command;

fn run(program: &str, words: &[&str]) {
    let status = Command::new(program).args(words).status();
    assert!(status.is_ok_and(|status| status.success()), "{program} {words:?} failed");
}

fn main() {
    let folder = env::var("OUT_DIR").expect("cargo sets the folder");
    // Without its flag gcc 12 packs the two numbers of a point by way of the stack and waits for that: small functions would take up
    // to five times as long.
    for (name, flags) in [("plain", &["-O3"][..]), ("leaves", &["-O3", "-fno-tree-slp-vectorize"])]
    {
        let source = format!("{name}.c");
        println!("cargo::rerun-if-changed={source}");
        let object = Path::new(&folder).join(format!("{name}.o")).display().to_string();
        let archive = Path::new(&folder).join(format!("lib{name}.a")).display().to_string();
        run("gcc", &[flags, &["-c", &source, "-o", &object]].concat());
        run("ar", &["rcs", &archive, &object]);
        println!("cargo::rustc-link-lib=static={name}");
    }
    println!("cargo::rustc-link-search=native={folder}");
    println!("cargo::rustc-link-lib=m");
}

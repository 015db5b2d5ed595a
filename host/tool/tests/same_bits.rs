//! The same bits on every host: a search whose maths library gives other values writes the same journal.
#![allow(missing_docs)]

mod common;

use common::{file, folder, program, small};
use std::fs;
use std::path::Path;
use std::process::Command;
use tool::synthetic::BUILT_IN;

/// The functions of a C maths library of one and of two numbers: each gives its value a little larger, and counts its calls.
const OF_ONE: &str = "sin cos tan asin acos atan sinh cosh tanh asinh acosh atanh exp exp2 expm1 log log2 log10 log1p cbrt \
                      lgamma tgamma erf erfc";
const OF_TWO: &str = "pow atan2 hypot fmod";

/// A library that stands before the machine's own.
fn other_maths(here: &Path) -> String {
    let mut text = String::from(
        "#define _GNU_SOURCE\n#include <dlfcn.h>\n#include <stdio.h>\nstatic long calls;\n\
         static void *real(const char *name) { calls++; return dlsym(RTLD_NEXT, name); }\n",
    );
    for name in OF_ONE.split(' ') {
        text += &format!(
            "double {name}(double x) {{ double (*f)(double) = real(\"{name}\"); return f(x) * (1 + 1e-9); }}\n"
        );
    }
    for name in OF_TWO.split(' ') {
        text += &format!(
            "double {name}(double x, double y) {{ double (*f)(double, double) = real(\"{name}\"); return f(x, y) * (1 + 1e-9); }}\n"
        );
    }
    text += "double fma(double x, double y, double z) { calls++; return (x * y + z) * (1 + 1e-9); }\n\
             void sincos(double x, double *s, double *c) { void (*f)(double, double *, double *) = real(\"sincos\"); f(x, s, c); *s *= 1 + 1e-9; *c *= 1 + 1e-9; }\n\
             __attribute__((destructor)) static void told(void) { fprintf(stderr, \"%ld calls\\n\", calls); }\n";
    fs::write(here.join("maths.c"), text).unwrap();
    let library = here.join("maths.so");
    let compiled = Command::new("cc")
        .args(["-shared", "-fPIC", "-fno-builtin", "-w", "-o"])
        .args([&library, &here.join("maths.c")])
        .arg("-ldl")
        .status();
    assert!(compiled.unwrap().success());
    library.display().to_string()
}

/// The journal and what it started from, of a search under the machine's own maths library or another one, and how often that
/// was called.
fn searched(here: &Path, words: &[&str], maths: Option<&str>) -> ([String; 2], Option<usize>) {
    let _ = fs::remove_file(here.join("night"));
    let _ = fs::remove_file(here.join("night.inputs"));
    let mut command = program(here, &small(&[words, &["--journal=night"]].concat()));
    command.env("SOURCE_DATE_EPOCH", "1798761599");
    if let Some(maths) = maths {
        command.env("LD_PRELOAD", maths);
    }
    let told = String::from_utf8(command.output().unwrap().stderr).unwrap();
    let calls = told.lines().rev().find_map(|line| line.strip_suffix(" calls")?.parse().ok());
    (["night", "night.inputs"].map(|name| file(here.join(name))), calls)
}

#[test]
fn another_maths_library_changes_no_bit_of_a_run() {
    let here = folder("same-bits");
    let maths = other_maths(&here);
    let mut plate = BUILT_IN.plate();
    plate.views[2].pixels[5].x += 0.3;
    fs::write(here.join("views.txt"), plate.text()).unwrap();
    let cases: [&[&str]; 4] = [
        &[],
        &["views.txt"],
        &["views.txt", "--tangential"],
        &["views.txt", "--lens=-0.1,0.02,0.001,-0.002,0.003"],
    ];
    for words in cases {
        let (own, none) = searched(&here, words, None);
        let (other, calls) = searched(&here, words, Some(&maths));
        assert_eq!(none, None);
        // What is said of the winner does call it: the library stood before the machine's own.
        assert!(calls.unwrap() > 100, "{calls:?}");
        assert!(own == other, "{words:?}: a journal has other bits under another maths library");
    }
}

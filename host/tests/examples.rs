//! The examples in C are compiled with include/meter.h and the static library, and run; those in C and in Rust print the same.

use std::env;
use std::path::{Path, PathBuf};
use std::process::Command;

fn output(command: &mut Command) -> String {
    let out = command.output().unwrap_or_else(|e| panic!("{command:?}: {e}"));
    let text = String::from_utf8_lossy(&out.stdout).into_owned();
    let errors = String::from_utf8_lossy(&out.stderr);
    assert!(out.status.success(), "{command:?}: {}\n{text}{errors}", out.status);
    text
}

fn host() -> &'static Path {
    Path::new(env!("CARGO_MANIFEST_DIR"))
}

fn expected(name: &str) -> String {
    std::fs::read_to_string(host().join(format!("examples/{name}.out"))).expect("the expected output")
}

fn c_example(name: &str) {
    let library = env::var_os("METER_LIB_DIR").map_or_else(|| host().join("../target/staticlib"), PathBuf::from);
    let program = Path::new(env!("CARGO_TARGET_TMPDIR")).join(format!("{name}_c_example"));
    let cc = env::var_os("CC").unwrap_or_else(|| "cc".into());
    output(
        Command::new(cc)
            .args(["-std=c99", "-O2", "-Wall", "-Wextra", "-Wpedantic", "-Werror", "-I"])
            .arg(host().join("../include"))
            .arg(host().join(format!("examples/{name}.c")))
            .arg(library.join("libmeter_c.a"))
            .arg("-o")
            .arg(&program),
    );
    assert_eq!(output(&mut Command::new(program)), expected(name));
}

fn rust_example(name: &str) {
    let cargo = env::var_os("CARGO").unwrap_or_else(|| "cargo".into());
    let mut run = Command::new(cargo);
    run.args(["run", "--offline", "--quiet", "--example", name])
        .current_dir(host());
    assert_eq!(output(&mut run), expected(name));
}

#[test]
fn in_c() {
    c_example("meter");
}

#[test]
fn in_rust() {
    rust_example("meter");
}

#[test]
fn short_in_c() {
    c_example("short");
}

#[test]
fn short_in_rust() {
    rust_example("short");
}

#[test]
fn watched_in_c() {
    c_example("watch");
}

#[test]
fn watched_in_rust() {
    rust_example("watch");
}

#[test]
fn signed_in_c() {
    c_example("signed");
}

#[test]
fn signed_in_rust() {
    rust_example("signed");
}

/// README shows the short example in C as it is built and run here.
#[test]
fn in_readme() {
    let read = |path: &str| std::fs::read_to_string(host().join(path)).expect(path);
    let block = format!("```c\n{}```\n", read("examples/short.c"));
    assert!(
        read("../README.md").contains(&block),
        "README.md does not have short.c as it is"
    );
}

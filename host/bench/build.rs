// Compiles the meters for comparison and the hash alone, for the same plain x86-64 as the proved library. CC names another compiler.
use std::env;
use std::path::PathBuf;
use std::process::Command;

fn run(command: &mut Command) {
    let status = command.status().unwrap_or_else(|e| panic!("{command:?}: {e}"));
    assert!(status.success(), "{command:?}: {status}");
}

fn main() {
    let c = PathBuf::from(env::var_os("CARGO_MANIFEST_DIR").unwrap()).join("../c");
    let out = PathBuf::from(env::var_os("OUT_DIR").unwrap());
    let cc = env::var_os("CC").unwrap_or_else(|| "cc".into());
    let mut objects = Vec::new();
    for name in ["salsa", "signed", "countmin", "hash"] {
        let object = out.join(name).with_extension("o");
        let source = c.join(name).with_extension("c");
        run(Command::new(&cc)
            .args(["-std=c99", "-O3", "-Wall", "-Wextra", "-Werror", "-fPIC", "-c"])
            .arg(&source)
            .arg("-o")
            .arg(&object));
        objects.push(object);
    }
    run(Command::new("ar").arg("crs").arg(out.join("libplain.a")).args(&objects));
    for (name, command) in [("CC_VERSION", &cc), ("RUSTC_VERSION", &env::var_os("RUSTC").unwrap())] {
        let text = Command::new(command)
            .arg("--version")
            .output()
            .expect("a compiler's version")
            .stdout;
        let text = String::from_utf8_lossy(&text).lines().next().unwrap_or("").to_string();
        println!("cargo:rustc-env={name}={text}");
    }
    println!("cargo:rustc-link-search=native={}", out.display());
    println!("cargo:rustc-link-lib=static=plain");
    println!("cargo:rerun-if-changed={}", c.display());
    println!("cargo:rerun-if-env-changed=CC");
}

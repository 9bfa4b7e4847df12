// Links the proved library. `./build` at the root of the repository writes it; METER_LIB_DIR names another folder.
use std::env;
use std::path::PathBuf;

fn main() {
    let folder = env::var_os("METER_LIB_DIR").map_or_else(
        || PathBuf::from(env::var_os("CARGO_MANIFEST_DIR").unwrap()).join("../target/staticlib"),
        PathBuf::from,
    );
    let library = folder.join("libmeter_c.a");
    println!("cargo:rerun-if-env-changed=METER_LIB_DIR");
    println!("cargo:rerun-if-changed={}", library.display());
    if !library.exists() {
        println!("cargo::error=libmeter_c.a is not there: run `./build` at the root of the repository");
        return;
    }
    println!("cargo:rustc-link-search=native={}", folder.display());
    println!("cargo:rustc-link-lib=static=meter_c");
}

//! Finds the static library of the core: in the directory that PAIRING_LIB_DIR
//! names, or else where the project's own build puts it. If it isn't there, the
//! build ends here and says what to do; the linker would only name the library.

use std::env;
use std::path::PathBuf;

fn main() {
    println!("cargo::rerun-if-env-changed=PAIRING_LIB_DIR");
    let package = PathBuf::from(env::var_os("CARGO_MANIFEST_DIR").expect("set by cargo"));
    let root = package.ancestors().nth(2).expect("bindings/rust");
    let named = env::var_os("PAIRING_LIB_DIR");
    let directory = match &named {
        Some(directory) => package.join(directory),
        None => root.join("target/staticlib"),
    };
    let library = directory.join("libpairing.a");
    println!("cargo::rerun-if-changed={}", library.display());
    if library.is_file() {
        println!("cargo::rustc-link-search=native={}", directory.display());
        println!("cargo::rustc-link-lib=static=pairing");
        return;
    }
    let library = library.display();
    println!("cargo::error=the static library of the core isn't there: {library}");
    let make = format!(
        "run `tools/build library` in {} (a few minutes the first time)",
        root.display()
    );
    let path = "the whole path of the directory that holds libpairing.a";
    match named {
        Some(named) => println!(
            "cargo::error=PAIRING_LIB_DIR is {named:?}: set it to {path}, or unset it and {make}"
        ),
        None => println!("cargo::error={make}, or set PAIRING_LIB_DIR to {path}"),
    }
}

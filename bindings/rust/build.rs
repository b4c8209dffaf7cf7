//! Finds the proved library libecho_c.a and links it: in the folder that ECHO_LIB_DIR names, else in lib of the archive that this package
//! was unpacked from, else in target/staticlib of the repository that it is part of.

use std::env;
use std::path::{Path, PathBuf};
use std::process::exit;

const LIBRARY: &str = "libecho_c.a";

fn main() {
    println!("cargo::rerun-if-env-changed=ECHO_LIB_DIR");
    let package = PathBuf::from(env::var_os("CARGO_MANIFEST_DIR").unwrap_or_default());
    let given = env::var_os("ECHO_LIB_DIR").filter(|named| !named.is_empty());
    let folder = match &given {
        Some(named) => package.join(named),
        None => {
            let unpacked = package.join("../../lib");
            if unpacked.join(LIBRARY).is_file() { unpacked } else { package.join("../../target/staticlib") }
        }
    };
    let library = folder.join(LIBRARY);
    println!("cargo::rerun-if-changed={}", library.display());
    if env::var("CARGO_CFG_TARGET_ARCH").as_deref() != Ok("x86_64") || env::var("CARGO_CFG_TARGET_OS").as_deref() != Ok("linux") {
        fail("the proved library is for x86-64 Linux only");
    }
    // The path goes to compilers that run in other folders, so it must be absolute.
    match folder.canonicalize() {
        Ok(absolute) if library.is_file() => {
            println!("cargo::rustc-link-search=native={}", absolute.display());
            println!("cargo::rustc-link-lib=static=echo_c");
        }
        _ => missing(&library, given.is_some()),
    }
}

fn missing(library: &Path, named: bool) -> ! {
    let how = if named { "ECHO_LIB_DIR names the folder looked in." } else { "ECHO_LIB_DIR can name another folder to look in." };
    fail(&format!(
        "there is no {}. Run `sh tools/staticlib.sh` in the root of the repository: it proves the library and writes it to \
         target/staticlib/{LIBRARY}, and the archive has it as lib/{LIBRARY}. {how}",
        library.display()
    ))
}

fn fail(message: &str) -> ! {
    eprintln!("smt-echo: {message}");
    exit(1)
}

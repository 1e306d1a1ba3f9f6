//! Finds the static library: where TOLTJEBRIM_ARCHIVE says, or else where `host/archive.sh` puts it.
use std::env;
use std::path::PathBuf;
use std::process::exit;

fn fail(what: &str) -> ! {
    eprintln!("toltjebrim: {what}");
    exit(1)
}

fn main() {
    println!("cargo:rerun-if-env-changed=TOLTJEBRIM_ARCHIVE");
    let target = env::var("TARGET").unwrap_or_default();
    if !(target.starts_with("x86_64-") && target.contains("linux")) {
        fail(&format!("the library is for x86-64 Linux, and this builds for {target}: give cargo --target x86_64-unknown-linux-gnu"));
    }
    let here = PathBuf::from(env::var_os("CARGO_MANIFEST_DIR").unwrap_or_default());
    let archive = match env::var_os("TOLTJEBRIM_ARCHIVE") {
        Some(named) => PathBuf::from(named),
        None => here.join("../target/staticlib/libcontroller.a"),
    };
    println!("cargo:rerun-if-changed={}", archive.display());
    let archive = archive.canonicalize().unwrap_or_else(|_| {
        fail(&format!("there is no library at {}: run `host/archive.sh` in the repository, or say in TOLTJEBRIM_ARCHIVE where libcontroller.a is", archive.display()))
    });
    let name = archive.file_name().and_then(|name| name.to_str()).unwrap_or_default();
    let name = name.strip_prefix("lib").and_then(|name| name.strip_suffix(".a")).unwrap_or_else(|| {
        fail(&format!("{} is not named as a library is (libNAME.a)", archive.display()))
    });
    let folder = archive.parent().unwrap_or_else(|| fail("the library stands in no folder"));
    println!("cargo:rustc-link-search=native={}", folder.display());
    println!("cargo:rustc-link-lib=static={name}");
}

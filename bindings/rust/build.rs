//! Finds the archive: FOXENTU_ARCHIVE names it, or FOXENTU_PREFIX the folder of `install`; else it is the one that the repository has built.
use std::env;
use std::path::{Path, PathBuf};

fn main() {
    println!("cargo:rerun-if-env-changed=FOXENTU_ARCHIVE");
    println!("cargo:rerun-if-env-changed=FOXENTU_PREFIX");
    let target = env::var("CARGO_CFG_TARGET_ARCH").unwrap_or_default();
    if target != "x86_64" {
        stop(&format!("the archive is for x86-64, and this build is for {target}"));
    }
    let found = archive();
    println!("cargo:rerun-if-changed={}", found.display());
    let room = PathBuf::from(env::var_os("OUT_DIR").expect("cargo sets OUT_DIR"));
    if let Err(why) = std::fs::copy(&found, room.join("libfoxentu.a")) {
        stop(&format!("{}: {why}", found.display()));
    }
    println!("cargo:rustc-link-search=native={}", room.display());
    println!("cargo:rustc-link-lib=static=foxentu");
}

fn archive() -> PathBuf {
    if let Some(path) = env::var_os("FOXENTU_ARCHIVE") {
        return PathBuf::from(path);
    }
    if let Some(prefix) = env::var_os("FOXENTU_PREFIX") {
        return Path::new(&prefix).join("lib/libfoxentu.a");
    }
    let built = Path::new(env!("CARGO_MANIFEST_DIR")).join("../../target/staticlib/libc_api.a");
    if !built.is_file() {
        stop("no archive: run `./foxentu build library` at the top of the repository, or name one by FOXENTU_ARCHIVE, or the folder of `install` by FOXENTU_PREFIX");
    }
    built
}

fn stop(why: &str) -> ! {
    eprintln!("foxentu: {why}");
    std::process::exit(1)
}

//! Links libstring_cache.a, which `tools/c_library.sh` of the library's repository builds. STRING_CACHE_DIR says where it is, or else pkg-config.

use std::env;
use std::process::Command;

/// The folder of the library that pkg-config knows, if it knows one.
fn installed() -> Option<String> {
    let told = Command::new("pkg-config").args(["--variable=libdir", "string_cache"]).output().ok()?;
    let folder = String::from_utf8(told.stdout).ok()?.trim().to_owned();
    (told.status.success() && !folder.is_empty()).then_some(folder)
}

fn main() {
    println!("cargo:rerun-if-env-changed=STRING_CACHE_DIR");
    println!("cargo:rerun-if-env-changed=PKG_CONFIG_PATH");
    match env::var("STRING_CACHE_DIR").ok().filter(|folder| !folder.is_empty()).or_else(installed) {
        Some(folder) => {
            println!("cargo:rustc-link-search=native={folder}");
            // The crate's own library has a copy of it, which cargo makes anew only if it is told to look.
            println!("cargo:rerun-if-changed={folder}/libstring_cache.a");
        }
        None => println!("cargo:warning=neither STRING_CACHE_DIR nor pkg-config says where libstring_cache.a is"),
    }
    println!("cargo:rustc-link-lib=static=string_cache");
}

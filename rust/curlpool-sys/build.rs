//! Links the library of tools/install-c: from the folder that CURLPOOL_LIB names, or where pkg-config finds it.

use std::{env, process::Command};

fn main() {
    println!("cargo:rerun-if-env-changed=CURLPOOL_LIB");
    println!("cargo:rerun-if-env-changed=PKG_CONFIG_PATH");
    let folder = env::var("CURLPOOL_LIB").ok().or_else(|| {
        let words = ["--variable=libdir", "curlpool"];
        let found = Command::new("pkg-config").args(words).output().ok()?;
        found.status.success().then(|| String::from_utf8_lossy(&found.stdout).trim().to_string())
    });
    if let Some(folder) = folder {
        println!("cargo:rustc-link-search=native={folder}");
    }
    println!("cargo:rustc-link-lib=static=curlpool");
}

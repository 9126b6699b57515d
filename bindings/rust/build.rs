//! Links libcbrelay.a: below `CBRELAY_PREFIX`, or where pkg-config finds it.

use std::env;
use std::process::Command;

fn folder() -> Option<String> {
    if let Ok(prefix) = env::var("CBRELAY_PREFIX") {
        return Some(format!("{prefix}/lib"));
    }
    let words = ["--variable=libdir", "cbrelay"];
    let ran = Command::new("pkg-config").args(words).output().ok()?;
    let text = String::from_utf8(ran.stdout).ok()?;
    (ran.status.success() && !text.trim().is_empty()).then(|| text.trim().to_string())
}

fn main() {
    println!("cargo:rerun-if-env-changed=CBRELAY_PREFIX");
    println!("cargo:rerun-if-env-changed=PKG_CONFIG_PATH");
    match folder() {
        Some(folder) => {
            println!("cargo:rustc-link-search=native={folder}");
            println!("cargo:rustc-link-lib=static=cbrelay");
        }
        None => println!("cargo:rustc-link-lib=dylib=cbrelay"),
    }
}

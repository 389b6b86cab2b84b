//! Finds libjilgomt.a: in the folder that JILGOMT_LIB_DIR names, else by pkg-config.
use std::env;
use std::process::Command;

fn folder() -> Option<String> {
    if let Ok(folder) = env::var("JILGOMT_LIB_DIR") {
        return Some(folder);
    }
    let found = Command::new("pkg-config").args(["--variable=libdir", "jilgomt"]).output().ok()?;
    let text = String::from_utf8(found.stdout).ok()?;
    let folder = text.trim();
    (found.status.success() && !folder.is_empty()).then(|| folder.to_string())
}

fn main() {
    println!("cargo:rerun-if-env-changed=JILGOMT_LIB_DIR");
    println!("cargo:rerun-if-env-changed=PKG_CONFIG_PATH");
    match folder() {
        Some(folder) => println!("cargo:rustc-link-search=native={folder}"),
        None => println!("cargo:warning=pkg-config doesn't know jilgomt: set JILGOMT_LIB_DIR to the folder of libjilgomt.a"),
    }
    println!("cargo:rustc-link-lib=static=jilgomt");
}

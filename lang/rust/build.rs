// Finds the folder of libksi.a: KSI_LIB names it, or else pkg-config does. The crate contains a copy of the archive, so it is rebuilt if
// the archive changes.
use std::{env, path::Path, process::Command};

fn by_pkg_config() -> Option<String> {
    let ran = Command::new("pkg-config").args(["--variable=libdir", "ksi"]).output().ok()?;
    let folder = String::from_utf8(ran.stdout).ok()?;
    Some(folder.trim().to_string()).filter(|it| ran.status.success() && !it.is_empty())
}

fn main() {
    println!("cargo:rerun-if-env-changed=KSI_LIB");
    println!("cargo:rerun-if-env-changed=PKG_CONFIG_PATH");
    let found = env::var("KSI_LIB").ok().or_else(by_pkg_config);
    let folder = match found.filter(|it| Path::new(it).join("libksi.a").exists()) {
        Some(folder) => folder,
        None => {
            eprintln!("libksi.a is not here. Name its folder by KSI_LIB, or install libksi-dev so that pkg-config finds it.");
            std::process::exit(1)
        }
    };
    println!("cargo:rerun-if-changed={folder}/libksi.a");
    println!("cargo:rustc-link-search=native={folder}");
    println!("cargo:rustc-link-lib=static=ksi");
}

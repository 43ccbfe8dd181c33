//! Finds the library: in the folder `FANLIGHTNARD_PREFIX` that `bindings/build` made, or else by
//! `pkg-config`.

use std::{env, process::Command};

fn main() {
    println!("cargo:rerun-if-env-changed=FANLIGHTNARD_PREFIX");
    println!("cargo:rerun-if-env-changed=PKG_CONFIG_PATH");
    if let Ok(prefix) = env::var("FANLIGHTNARD_PREFIX") {
        println!("cargo:rerun-if-changed={prefix}/lib/libfanlightnard.a");
        println!("cargo:rustc-link-search=native={prefix}/lib");
        println!("cargo:rustc-link-lib=static=fanlightnard");
        return;
    }
    let help = "set FANLIGHTNARD_PREFIX to the folder that bindings/build made";
    let found = Command::new("pkg-config")
        .args(["--libs", "fanlightnard"])
        .output();
    let flags = match found {
        Ok(output) if output.status.success() => String::from_utf8_lossy(&output.stdout).into_owned(),
        Ok(_) => panic!("pkg-config doesn't know fanlightnard: {help}"),
        Err(error) => panic!("pkg-config doesn't start ({error}): {help}"),
    };
    for flag in flags.split_whitespace() {
        if let Some(folder) = flag.strip_prefix("-L") {
            println!("cargo:rustc-link-search=native={folder}");
        } else if let Some(library) = flag.strip_prefix("-l") {
            println!("cargo:rustc-link-lib={library}");
        }
    }
}

//! Links the proved library and the plain C. The library is `libmfp.a` in the
//! directory that MFP_LIB_DIR names; a relative name counts from host/.
#![deny(warnings)]

use std::path::{Path, PathBuf};
use std::process::Command;

fn main() {
    let host = Path::new(env!("CARGO_MANIFEST_DIR"))
        .parent()
        .expect("this package lies in host/");
    link_library(host);
    link_plain(host);
}

fn link_library(host: &Path) {
    let named = std::env::var("MFP_LIB_DIR").unwrap_or_else(|_| "../target/staticlib".into());
    let directory = host.join(named);
    println!("cargo:rerun-if-env-changed=MFP_LIB_DIR");
    println!(
        "cargo:rerun-if-changed={}",
        directory.join("libmfp.a").display()
    );
    println!("cargo:rustc-link-search=native={}", directory.display());
    println!("cargo:rustc-link-lib=static=mfp");
}

fn link_plain(host: &Path) {
    let out = PathBuf::from(std::env::var("OUT_DIR").expect("cargo names it"));
    let (source, object) = (host.join("bench/plain.c"), out.join("plain.o"));
    for file in ["bench/plain.c", "bench/plain.h", "include/mfp.h"] {
        println!("cargo:rerun-if-changed={}", host.join(file).display());
    }
    let mut compile = Command::new(tool("gcc"));
    compile.args(["-std=c99", "-O3", "-Wall", "-Wextra", "-Werror", "-c"]);
    compile.arg("-I").arg(host.join("include"));
    must(compile.arg(source).arg("-o").arg(&object));
    must(
        Command::new(tool("ar"))
            .arg("rcs")
            .arg(out.join("libplain.a"))
            .arg(&object),
    );
    println!("cargo:rustc-link-search=native={}", out.display());
    println!("cargo:rustc-link-lib=static=plain");
}

/// What makes C for the target: the cross tool where that is another machine.
fn tool(name: &str) -> String {
    let machine = |of: &str| std::env::var(of).expect("cargo names it");
    if machine("TARGET") == machine("HOST") {
        name.to_string()
    } else {
        format!("x86_64-linux-gnu-{name}")
    }
}

fn must(command: &mut Command) {
    let status = command.status().expect("the command can be started");
    assert!(status.success(), "{command:?} failed");
}

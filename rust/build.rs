//! Links the library's archives, one for each level of the processor, from `lib`.

use std::env;
use std::path::Path;
use std::process::{self, Command};

fn main() {
    let arch = env::var("CARGO_CFG_TARGET_ARCH").unwrap();
    let os = env::var("CARGO_CFG_TARGET_OS").unwrap();
    let levels: &[&str] = match (&*arch, &*os) {
        ("x86_64", "linux") => &["x86_64_v2", "x86_64_v3"],
        ("aarch64", "linux") => &["aarch64"],
        _ => fail(&format!("the library is for Linux on x86_64 and aarch64, not for {os} on {arch}")),
    };
    let folder = Path::new(&env::var("CARGO_MANIFEST_DIR").unwrap()).join("lib");
    println!("cargo:rerun-if-changed={}", folder.display());
    println!("cargo:rustc-link-search=native={}", folder.display());
    for level in levels {
        let archive = folder.join(format!("libescape_{level}.a"));
        if !archive.is_file() {
            fail(&format!(
                "there is no {}: take the package of a release, or make it by rust/archives {}",
                archive.display(),
                level.replace("x86_64_", "x86-64-")
            ));
        }
        println!("cargo:rustc-link-lib=static=escape_{level}");
    }
    let minor = minor_version().unwrap_or(0);
    if minor >= 80 {
        println!("cargo:rustc-check-cfg=cfg(has_core_error)");
    }
    if minor >= 81 {
        println!("cargo:rustc-cfg=has_core_error");
    }
}

/// The second number of the compiler's version.
fn minor_version() -> Option<u32> {
    let said = Command::new(env::var_os("RUSTC")?).arg("--version").output().ok()?.stdout;
    String::from_utf8(said).ok()?.split('.').nth(1)?.parse().ok()
}

fn fail(reason: &str) -> ! {
    eprintln!("escape-simd: {reason}");
    process::exit(1)
}

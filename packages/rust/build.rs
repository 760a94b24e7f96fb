//! Links the static library in `lib`, which is built for one target: 64-bit x86 Linux.
use std::env;
use std::path::PathBuf;
use std::process::exit;

fn main() {
    println!("cargo:rerun-if-changed=build.rs");
    println!("cargo:rerun-if-changed=lib/libunicode_bidi.a");
    if let Err(reason) = link() {
        eprintln!("{}", reason);
        exit(1);
    }
}

fn link() -> Result<(), String> {
    let target = setting("TARGET");
    let is_supported = setting("CARGO_CFG_TARGET_ARCH") == "x86_64"
        && setting("CARGO_CFG_TARGET_POINTER_WIDTH") == "64"
        && setting("CARGO_CFG_TARGET_OS") == "linux";
    if !is_supported {
        return Err(format!(
            "unicode-bidi+yoqanchu contains its library for x86-64 Linux only, not for {}.",
            target
        ));
    }
    let folder = PathBuf::from(setting("CARGO_MANIFEST_DIR")).join("lib");
    if !folder.join("libunicode_bidi.a").is_file() {
        return Err(format!(
            "unicode-bidi+yoqanchu has no libunicode_bidi.a in {}, where packages/build puts it.",
            folder.display()
        ));
    }
    println!("cargo:rustc-link-search=native={}", folder.display());
    println!("cargo:rustc-link-lib=static=unicode_bidi");
    Ok(())
}

/// The value of a variable that Cargo sets for build scripts.
fn setting(name: &str) -> String {
    env::var(name).unwrap_or_default()
}

//! Finds the C library `libgix_glob_c.a`: in the folder `GIX_GLOB_LIB_DIR`, else with the feature `vendored` in the package, else
//! where `pkg-config` says.
mod sha256;

use std::env;
use std::fs;
use std::path::PathBuf;
use std::process::Command;

const ARCHIVE: &str = "libgix_glob_c.a";

/// The file with the sum of the archive in the package, as `sha256sum` writes it.
const SUMS: &str = "SHA256SUMS";

/// The package and the version that `pkg-config` is asked for.
const PACKAGE: &str = "gix_glob >= 0.4.0";

/// What pkg-config answers, or why it doesn't.
fn pkg_config(question: &str) -> Result<String, String> {
    let program = env::var_os("PKG_CONFIG").unwrap_or_else(|| "pkg-config".into());
    let name = program.to_string_lossy();
    let said = Command::new(&program)
        .args([question, PACKAGE])
        // (else it tells no folder that linkers look into anyway)
        .env("PKG_CONFIG_ALLOW_SYSTEM_LIBS", "1")
        .output()
        .map_err(|error| format!("{name} can't be run: {error}"))?;
    let text = |bytes: &[u8]| String::from_utf8_lossy(bytes).trim().replace('\n', " ");
    if said.status.success() {
        return Ok(text(&said.stdout));
    }
    // (of a package that is missing or too old most say nothing)
    let why = text(&said.stderr);
    Err(format!("{name} {}", if why.is_empty() { "finds no gix_glob of version 0.4.0 or later" } else { &why }))
}

/// The folder of an installed library: its `libdir`, or else the first that a linker is told.
fn installed() -> Result<PathBuf, String> {
    let folder = pkg_config("--variable=libdir")?;
    if !folder.is_empty() {
        return Ok(folder.into());
    }
    let folders = pkg_config("--libs-only-L")?;
    let first = folders.trim_start_matches("-L").split(" -L").next();
    Ok(first.unwrap_or_default().into())
}

/// The folder of the package's library.
fn vendored() -> PathBuf {
    PathBuf::from(env::var_os("CARGO_MANIFEST_DIR").expect("cargo sets it")).join("vendored")
}

/// The folder of the package's library, which is the one that was packed.
fn checked() -> Result<PathBuf, String> {
    let folder = vendored();
    let read = |name: &str| {
        let file = folder.join(name);
        fs::read(&file)
            .map_err(|error| format!("{} can't be read: {error}; only a released package has it", file.display()))
    };
    let line = format!("{}  {ARCHIVE}", sha256::sum(&read(ARCHIVE)?));
    if String::from_utf8_lossy(&read(SUMS)?).lines().any(|told| told == line) {
        return Ok(folder);
    }
    Err(format!("{} isn't what was packed: its sum isn't in {SUMS}", folder.join(ARCHIVE).display()))
}

/// The folder of the library, or why there is none.
fn library_folder() -> Result<PathBuf, String> {
    let folder = match env::var_os("GIX_GLOB_LIB_DIR") {
        Some(folder) => folder.into(),
        None if cfg!(feature = "vendored") => checked()?,
        None => installed()?,
    };
    let archive = folder.join(ARCHIVE);
    archive.is_file().then_some(folder).ok_or_else(|| format!("there is no {}", archive.display()))
}

/// How to get what is missing.
fn advice() -> &'static [&'static str] {
    if !cfg!(feature = "vendored") && vendored().join(ARCHIVE).is_file() {
        return &["turn on the feature `vendored`, which takes the library that lies in this package"];
    }
    &[
        "make it by `examples/c/install PREFIX` in a checkout of Girvuzhan, which needs the Rattle toolchain;",
        "then set PKG_CONFIG_PATH to PREFIX/lib/pkgconfig, or GIX_GLOB_LIB_DIR to PREFIX/lib",
    ]
}

/// Stops the build with a message.
fn stop(why: &str, advice: &[&str]) -> ! {
    println!("cargo::error={why}");
    for line in advice {
        println!("cargo::error={line}");
    }
    std::process::exit(1)
}

fn main() {
    println!("cargo::rerun-if-changed=build");
    for name in ["DOCS_RS", "GIX_GLOB_LIB_DIR", "PKG_CONFIG", "PKG_CONFIG_PATH", "PKG_CONFIG_LIBDIR"] {
        println!("cargo::rerun-if-env-changed={name}");
    }
    // what only documents the crate has no library, and links none
    if env::var_os("DOCS_RS").is_some() {
        return;
    }
    let told = |name: &str| env::var(format!("CARGO_CFG_TARGET_{name}")).unwrap_or_default();
    // (x32 is x86-64 with short pointers)
    if [told("ARCH"), told("OS"), told("POINTER_WIDTH")] != ["x86_64", "linux", "64"] {
        let target = env::var("TARGET").expect("cargo sets it");
        stop(&format!("the library is for x86-64 Linux, and not for {target}"), &[]);
    }
    match library_folder() {
        Ok(folder) => {
            println!("cargo::rerun-if-changed={}", folder.join(ARCHIVE).display());
            println!("cargo::rustc-link-search=native={}", folder.display());
            println!("cargo::rustc-link-lib=static=gix_glob_c");
        }
        Err(why) => stop(&format!("the library {ARCHIVE} isn't found: {why}"), advice()),
    }
}

//! Finds the library: in the folder that `OTP_LIBRARY` names; in a checkout of the repository where its scripts put it; where
//! pkg-config knows it; or in this package, where its sum is checked. `OTP_NO_PKG_CONFIG` leaves pkg-config out.
mod sha256;

use std::path::{Path, PathBuf};
use std::process::Command;
use std::{env, fs};

/// The library is one file, or as it is proved two.
const ONE: [&str; 1] = ["otp-supervision"];
const PARTS: [&str; 2] = ["otp_c", "libc_c"];

fn main() {
    for name in ["OTP_LIBRARY", "OTP_NO_PKG_CONFIG", "PKG_CONFIG_PATH", "DOCS_RS"] {
        println!("cargo:rerun-if-env-changed={name}");
    }
    if env::var_os("DOCS_RS").is_some() {
        // Documentation is made without linking.
        println!("cargo:rustc-env=OTP_LIBRARY_SUM=none");
        return;
    }
    let own = PathBuf::from(env::var_os("CARGO_MANIFEST_DIR").unwrap_or_default());
    let found = named().or_else(|| checkout(&own)).unwrap_or_else(|| by_pkg_config().map_or_else(|| bundled(&own), Ok));
    match found {
        Ok(folder) => link(&folder),
        Err(why) => {
            eprintln!("{why}");
            std::process::exit(1);
        }
    }
}

/// The names of the files that a folder has.
fn files_in(folder: &Path) -> Option<&'static [&'static str]> {
    let has = |names: &[&str]| names.iter().all(|name| file(folder, name).exists());
    if has(&ONE) {
        return Some(&ONE);
    }
    has(&PARTS).then_some(&PARTS[..])
}

fn file(folder: &Path, name: &str) -> PathBuf {
    folder.join(format!("lib{name}.a"))
}

/// The folder that the environment names.
fn named() -> Option<Result<PathBuf, String>> {
    let folder = PathBuf::from(env::var_os("OTP_LIBRARY")?);
    if files_in(&folder).is_none() {
        let folder = folder.display();
        return Some(Err(format!(
            "OTP_LIBRARY is {folder}, which has neither libotp-supervision.a nor libotp_c.a and liblibc_c.a"
        )));
    }
    Some(Ok(folder))
}

/// Where the repository's scripts put it: `embed/out`, or without proofs below that.
fn checkout(own: &Path) -> Option<Result<PathBuf, String>> {
    let embed = own.join("../..");
    if !embed.join("build").is_file() || !embed.join("c/otp.h").is_file() {
        return None;
    }
    let (proved, unproved) = (embed.join("out"), embed.join("out/unproved"));
    // One of them may come.
    println!("cargo:rerun-if-changed={}", proved.display());
    if files_in(&proved).is_some() {
        return Some(Ok(proved));
    }
    if files_in(&unproved).is_some() {
        println!("cargo:warning=the library isn't proved: it is that of embed/out/unproved (embed/build proves it)");
        return Some(Ok(unproved));
    }
    println!(
        "cargo:warning=embed/out has no library: `embed/build` proves it, in half an hour, `embed/build --unproved` compiles it in \
         two minutes; OTP_LIBRARY names another folder"
    );
    // What links nothing, as `cargo check`, needs none.
    Some(Ok(proved))
}

/// The folder that pkg-config says, if it knows a library of this crate's interface.
fn by_pkg_config() -> Option<PathBuf> {
    if env::var("HOST") != env::var("TARGET") || env::var_os("OTP_NO_PKG_CONFIG").is_some() {
        return None;
    }
    let tool = env::var_os("PKG_CONFIG").unwrap_or_else(|| "pkg-config".into());
    let ask = |what: &str| {
        let said = Command::new(&tool).args([what, ONE[0]]).output().ok()?;
        let text = String::from_utf8(said.stdout).ok()?;
        said.status.success().then(|| text.trim().to_string())
    };
    let (theirs, ours) = (ask("--variable=interface")?, interface());
    if theirs != ours {
        println!(
            "cargo:warning=pkg-config's library has interface {theirs}, and this crate wants {ours}: it isn't taken"
        );
        return None;
    }
    let folder = PathBuf::from(ask("--variable=libdir")?);
    file(&folder, ONE[0]).exists().then_some(folder)
}

/// Before version 1 each minor version is another interface.
fn interface() -> String {
    let number = |name| env::var(name).unwrap_or_default();
    match number("CARGO_PKG_VERSION_MAJOR") {
        major if major == "0" => format!("0.{}", number("CARGO_PKG_VERSION_MINOR")),
        major => major,
    }
}

/// The folder in this package for the target. It has to be the library that was released.
fn bundled(own: &Path) -> Result<PathBuf, String> {
    let target = env::var("TARGET").unwrap_or_default();
    let native = own.join("native");
    let library = file(&native.join(&target), ONE[0]);
    let name = format!("{target}/lib{}.a", ONE[0]);
    let sums = fs::read_to_string(native.join("SHA256SUMS")).unwrap_or_default();
    let told = sums.lines().find_map(|line| line.strip_suffix(&name).map(str::trim));
    let (Some(told), Ok(bytes)) = (told, fs::read(&library)) else {
        return Err(format!(
            "otp-supervision brings no library for {target}: set OTP_LIBRARY to a folder with libotp-supervision.a, or install \
             libotp-supervision-dev"
        ));
    };
    if sha256::of(&bytes) != told {
        return Err(format!(
            "{} isn't the library that was released: its sum differs from native/SHA256SUMS",
            library.display()
        ));
    }
    Ok(native.join(target))
}

/// Links the library of a folder, and tells a sum of it (FNV-1a), by which a log says which one it was.
fn link(folder: &Path) {
    let names = files_in(folder).unwrap_or(&PARTS);
    for name in names {
        println!("cargo:rerun-if-changed={}", file(folder, name).display());
        println!("cargo:rustc-link-lib=static={name}");
    }
    let bytes = fs::read(file(folder, names[0])).unwrap_or_default();
    let sum = bytes
        .iter()
        .fold(0xcbf2_9ce4_8422_2325_u64, |sum, &byte| (sum ^ u64::from(byte)).wrapping_mul(0x100_0000_01b3));
    println!("cargo:rustc-env=OTP_LIBRARY_SUM={sum:016x}");
    println!("cargo:rustc-link-search=native={}", folder.display());
}

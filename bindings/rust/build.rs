//! Links the proved library, `libtwkb.a`, from the folder that the environment variable `TWKB_LIB` names, or else from the one
//! that `pkg-config` names. Its version has to be this crate's, since the two share the layout of structs and slots.

use std::env;
use std::ffi::OsString;
use std::fs;
use std::path::{Path, PathBuf};
use std::process::{exit, Command};

/// What the library has before its version.
const NAMED: &[u8] = b"libtwkb ";

fn main() {
    for name in ["TWKB_LIB", "PKG_CONFIG", "PKG_CONFIG_PATH", "PKG_CONFIG_LIBDIR", "PKG_CONFIG_SYSROOT_DIR"] {
        println!("cargo:rerun-if-env-changed={name}");
    }
    let found = env::var_os("TWKB_LIB").map_or_else(asked, named);
    match found.and_then(of_this_version) {
        Ok(folder) => {
            println!("cargo:rustc-link-search=native={}", folder.display());
            println!("cargo:rustc-link-lib=static=twkb");
        }
        Err(why) => {
            eprintln!("dozhemik: {why}.");
            eprintln!("dozhemik: `make library` in the repository makes libtwkb.a: set TWKB_LIB to its folder.");
            eprintln!("dozhemik: `make install-library` installs it with twkb.pc, which pkg-config finds.");
            exit(1);
        }
    }
}

/// The folder that the environment names.
fn named(name: OsString) -> Result<PathBuf, String> {
    Path::new(&name).canonicalize().map_err(|why| format!("TWKB_LIB is {name:?}: {why}"))
}

/// The folder of the installed library.
fn asked() -> Result<PathBuf, String> {
    println!("cargo:rerun-if-changed={}", Path::new(&told("--variable=pcfiledir")?).join("twkb.pc").display());
    Ok(PathBuf::from(told("--variable=libdir")?))
}

/// The folder, if the archive in it has the version of this crate.
fn of_this_version(folder: PathBuf) -> Result<PathBuf, String> {
    let archive = folder.join("libtwkb.a");
    println!("cargo:rerun-if-changed={}", archive.display());
    let bytes = fs::read(&archive).map_err(|why| format!("{} can't be read: {why}", archive.display()))?;
    let at = bytes.windows(NAMED.len()).position(|word| word == NAMED);
    let text = at.and_then(|at| bytes[at + NAMED.len()..].split(|&byte| byte == 0).next());
    let version = text.map_or("no known version".into(), String::from_utf8_lossy);
    let own = env!("CARGO_PKG_VERSION");
    if version != own {
        return Err(format!("{} is of {version}, and this is dozhemik {own}", archive.display()));
    }
    Ok(folder)
}

/// What pkg-config says of the library.
fn told(what: &str) -> Result<String, String> {
    let program = env::var_os("PKG_CONFIG").unwrap_or_else(|| "pkg-config".into());
    let done = Command::new(&program).args(["--print-errors", what, "twkb"]).output();
    let done = done.map_err(|why| format!("TWKB_LIB is not set, and {program:?} can't be run: {why}"))?;
    let text = |bytes: &[u8]| String::from_utf8_lossy(bytes).trim().replace('\n', " ");
    if !done.status.success() {
        return Err(format!("TWKB_LIB is not set, and {program:?} says: {}", text(&done.stderr)));
    }
    Ok(text(&done.stdout))
}

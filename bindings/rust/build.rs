//! Finds the library: in the folder that SWIMTAB_LIB names or, if that is not set, where pkg-config says, or
//! else in build/ of this repository.

use std::env;
use std::fs;
use std::path::{Path, PathBuf};
use std::process::{exit, Command};

/// The oldest library that has all calls, and the name of a call that older ones do not have.
const OLDEST: &str = "0.3.0";
const NEWEST_CALL: &[u8] = b"swimtab_view_offer\0";

/// Whether to link the shared library.
fn is_shared() -> bool {
    env::var_os("CARGO_FEATURE_SHARED").is_some()
        || env::var("SWIMTAB_SHARED").is_ok_and(|shared| shared == "1")
}

/// The folder that pkg-config names, or why there is none.
fn by_pkg_config() -> Result<PathBuf, String> {
    let asked = |word: &str| {
        let told = Command::new("pkg-config").args([word, "swimtab"]).output();
        told.map_err(|error| format!("pkg-config did not run: {error}"))
    };
    let told = asked("--variable=libdir")?;
    let folder = String::from_utf8_lossy(&told.stdout).trim().to_owned();
    if !told.status.success() || folder.is_empty() {
        return Err("pkg-config does not know swimtab".into());
    }
    if !asked(&format!("--atleast-version={OLDEST}"))?.status.success() {
        return Err(format!("in {folder}, which pkg-config tells, it is older than {OLDEST}"));
    }
    Ok(folder.into())
}

/// The folder, if the file is in it and new enough, or a text that says what is wrong.
fn holding(file: &str, folder: PathBuf, whose: &str) -> Result<PathBuf, String> {
    let here = folder.display();
    if !folder.is_dir() {
        return Err(format!("there is no folder {here}, {whose}"));
    }
    let path = folder.join(file);
    if !path.is_file() {
        return Err(format!("it is not in {here}, {whose}"));
    }
    let bytes = fs::read(&path).map_err(|error| format!("{} cannot be read: {error}", path.display()))?;
    if !bytes.windows(NEWEST_CALL.len()).any(|name| name == NEWEST_CALL) {
        return Err(format!("the one in {here}, {whose}, is older than {OLDEST}"));
    }
    Ok(folder)
}

/// The folder of the library, or why it is in none of the places that were searched.
fn folder_of(file: &str) -> Result<PathBuf, Vec<String>> {
    if let Some(folder) = env::var_os("SWIMTAB_LIB") {
        return holding(file, folder.into(), "which SWIMTAB_LIB names").map_err(|place| vec![place]);
    }
    let manifest = env::var_os("CARGO_MANIFEST_DIR").unwrap_or_default();
    let build = Path::new(&manifest).ancestors().nth(2).unwrap_or(Path::new("")).join("build");
    by_pkg_config().and_then(|folder| holding(file, folder, "which pkg-config tells")).or_else(|first| {
        holding(file, build, "the build folder of this repository").map_err(|second| vec![first, second])
    })
}

/// Says what is missing and what to do next, and stops the build.
fn stop(file: &str, places: &[String]) -> ! {
    eprintln!(
        "The swimtab crate needs the C library {file}, version {OLDEST} or later, and did not find it:"
    );
    for place in places {
        eprintln!("  - {place}");
    }
    eprintln!("Do one of these, and then build again:");
    eprintln!("  - run `make library` in the swimtab repository, and set SWIMTAB_LIB to its folder `build`;");
    eprintln!("  - run `make install-library` there, if pkg-config then knows swimtab;");
    eprintln!("  - set SWIMTAB_LIB to another folder that has {file}.");
    exit(1)
}

fn main() {
    for variable in ["SWIMTAB_LIB", "SWIMTAB_SHARED", "PKG_CONFIG_PATH", "PKG_CONFIG_LIBDIR"] {
        println!("cargo:rerun-if-env-changed={variable}");
    }
    let (kind, file) = if is_shared() { ("dylib", "libswimtab.so") } else { ("static", "libswimtab.a") };
    let folder = folder_of(file).unwrap_or_else(|places| stop(file, &places));
    println!("cargo:rerun-if-changed={}", folder.join(file).display());
    println!("cargo:rustc-link-search=native={}", folder.display());
    println!("cargo:rustc-link-lib={kind}=swimtab");
}

//! Links libvelodrome.a: from `VELODROME_LIB_DIR`; else from `lib/TARGET` in this package; else as pkg-config says.
use std::path::{Path, PathBuf};
use std::process::{exit, Command};

const ARCHIVE: &str = "libvelodrome.a";

fn main() {
    println!("cargo:rerun-if-env-changed=VELODROME_LIB_DIR");
    if std::env::var_os("DOCS_RS").is_some() {
        return; // documentation links nothing
    }
    match folder() {
        Ok(folder) => {
            println!("cargo:rerun-if-changed={}", folder.join(ARCHIVE).display());
            println!("cargo:rustc-link-search=native={}", folder.display());
            println!("cargo:rustc-link-lib=static=velodrome");
        }
        Err(words) => {
            eprintln!("{words}");
            exit(1);
        }
    }
}

/// The folder that has the archive, absolute.
fn folder() -> Result<PathBuf, String> {
    if let Some(named) = std::env::var_os("VELODROME_LIB_DIR") {
        let asked = start().join(&named);
        return archive_in(&asked)
            .ok_or_else(|| format!("VELODROME_LIB_DIR: {} has no {ARCHIVE}", asked.display()));
    }
    let target = std::env::var("TARGET").unwrap_or_default();
    let package = PathBuf::from(std::env::var_os("CARGO_MANIFEST_DIR").unwrap_or_default());
    archive_in(&package.join("lib").join(&target)).or_else(by_pkg_config).ok_or_else(|| {
        format!("no {ARCHIVE} for {target}: set VELODROME_LIB_DIR to the folder that has it, or install it for pkg-config")
    })
}

/// Where a relative path begins: the folder that cargo was called in, not that of this package.
fn start() -> PathBuf {
    std::env::var_os("PWD")
        .map(PathBuf::from)
        .unwrap_or_default()
}

fn archive_in(folder: &Path) -> Option<PathBuf> {
    let folder = folder.canonicalize().ok()?;
    folder.join(ARCHIVE).is_file().then_some(folder)
}

fn by_pkg_config() -> Option<PathBuf> {
    let said = Command::new("pkg-config")
        .args(["--variable=libdir", "velodrome"])
        .output()
        .ok()?;
    archive_in(Path::new(String::from_utf8(said.stdout).ok()?.trim()))
}

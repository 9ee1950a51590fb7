//! Finds the archive of the proved library: in `TYPED_PATH_DIR`, by `pkg-config`, or in this package.

use std::env;
use std::path::{Path, PathBuf};
use std::process::Command;

const ARCHIVE: &str = "libtyped_path.a";

fn main() {
    println!("cargo:rerun-if-env-changed=TYPED_PATH_DIR");
    println!("cargo:rerun-if-env-changed=PKG_CONFIG_PATH");
    // rustdoc and clippy link with nothing, and so do docs.rs and this.
    if env::var_os("DOCS_RS").is_some() {
        return;
    }
    let folder = archive_folder();
    println!("cargo:rerun-if-changed={}", folder.join(ARCHIVE).display());
    println!("cargo:rustc-link-search=native={}", folder.display());
    println!("cargo:rustc-link-lib=static=typed_path");
}

/// The folder of the archive.
fn archive_folder() -> PathBuf {
    if let Some(laid_out) = env::var_os("TYPED_PATH_DIR") {
        let folder = Path::new(&laid_out).join("lib");
        if has_archive(&folder) {
            return folder;
        }
        panic!("TYPED_PATH_DIR names {}, which has no lib/{ARCHIVE}", Path::new(&laid_out).display());
    }
    if let Some(folder) = installed().filter(|folder| has_archive(folder)) {
        return folder;
    }
    let target = env::var("TARGET").expect("cargo names the target");
    let package = env::var_os("CARGO_MANIFEST_DIR").expect("cargo names the package");
    let folder = Path::new(&package).join("native").join(&target);
    if has_archive(&folder) {
        return folder;
    }
    panic!(
        "there is no archive of the proved library for {target}. Lay one out with bindings/c/build.sh DIR of its \
         repository and set TYPED_PATH_DIR=DIR, or install it, by libtyped-path-dev of a release or bindings/c/install.sh \
         PREFIX, so that pkg-config finds typed_path, or put {ARCHIVE} into {}",
        folder.display()
    );
}

fn has_archive(folder: &Path) -> bool {
    folder.join(ARCHIVE).is_file()
}

/// The folder of the library that is installed, if it is of the version of this package.
fn installed() -> Option<PathBuf> {
    let [major, minor] =
        ["MAJOR", "MINOR"].map(|part| env::var(format!("CARGO_PKG_VERSION_{part}")).unwrap());
    let next: u32 = minor.parse::<u32>().ok()? + 1;
    let asked = |words: &[&str]| {
        let answer = Command::new("pkg-config").args(words).output().ok()?;
        answer.status.success().then(|| String::from_utf8_lossy(&answer.stdout).trim().to_owned())
    };
    let versions = format!("typed_path >= {major}.{minor} typed_path < {major}.{next}");
    asked(&["--exists", &versions])?;
    Some(asked(&["--variable=libdir", "typed_path"])?.into())
}

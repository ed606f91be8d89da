//! Finds the archive of the proved library, `libimbrolt.a`, and has it linked.

use std::env;
use std::path::{absolute, PathBuf};
use std::process::{exit, Command};

const ARCHIVE: &str = "libimbrolt.a";

fn main() {
    for variable in ["IMBROLT_ARCHIVE_DIR", "PKG_CONFIG_PATH", "PKG_CONFIG_LIBDIR"] {
        println!("cargo:rerun-if-env-changed={variable}");
    }
    let named = env::var_os("IMBROLT_ARCHIVE_DIR").filter(|name| !name.is_empty());
    let named = named.and_then(|name| absolute(name).ok());
    let Some(folder) = folder_of_archive(named.clone()) else {
        eprintln!("{}", what_to_do(named));
        exit(1);
    };
    println!("cargo:rerun-if-changed={}", folder.join(ARCHIVE).display());
    println!("cargo:rustc-link-search=native={}", folder.display());
    println!("cargo:rustc-link-lib=static=imbrolt");
}

/// The folder that is named and no other; else the repository's, else that of an installed library.
fn folder_of_archive(named: Option<PathBuf>) -> Option<PathBuf> {
    let has_archive = |folder: &PathBuf| folder.join(ARCHIVE).is_file();
    match named {
        Some(folder) => Some(folder).filter(has_archive),
        None => folders_of_repository()
            .into_iter()
            .find(has_archive)
            .or_else(|| folder_of_install().filter(has_archive)),
    }
}

/// Where the repository builds the archive. Any folder above may be the repository: cargo tries a
/// package out some folders below the crate.
fn folders_of_repository() -> Vec<PathBuf> {
    let crate_folder = env::var_os("CARGO_MANIFEST_DIR").map(PathBuf::from).unwrap_or_default();
    crate_folder.ancestors().map(|above| above.join("target/native")).collect()
}

/// The folder of a library that is installed, if it is of this version but for the last part.
fn folder_of_install() -> Option<PathBuf> {
    let part = |name| env::var(name).ok()?.parse::<u32>().ok();
    let (major, minor) = (part("CARGO_PKG_VERSION_MAJOR")?, part("CARGO_PKG_VERSION_MINOR")?);
    let from = format!("imbrolt >= {major}.{minor}");
    let to = format!("imbrolt < {major}.{}", minor + 1);
    let fits = Command::new("pkg-config").args(["--exists", &from, &to]).status().ok()?;
    let told = Command::new("pkg-config").args(["--variable=libdir", "imbrolt"]).output().ok()?;
    let folder = String::from_utf8(told.stdout).ok()?;
    fits.success().then(|| PathBuf::from(folder.trim_end()))
}

fn what_to_do(named: Option<PathBuf>) -> String {
    let sought = match named {
        Some(folder) => format!("in {}, the folder of IMBROLT_ARCHIVE_DIR", folder.display()),
        None => {
            "in target/native of any folder above, and pkg-config knows of none of this version"
                .to_string()
        }
    };
    format!(
        "\
imbrolt: there is no {ARCHIVE} {sought}. Do one of these:
  make                        in the repository, to build it
  make install PREFIX=FOLDER  in the repository, with FOLDER/lib/pkgconfig in PKG_CONFIG_PATH
  IMBROLT_ARCHIVE_DIR=FOLDER  in the environment, where FOLDER has it"
    )
}

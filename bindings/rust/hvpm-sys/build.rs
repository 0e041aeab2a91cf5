//! Finds the library hvpm: in the folder that HVPM_LIB names, or else by pkg-config. A crate that depends on
//! this one reads the folder in DEP_HVPM_LIBDIR.

use std::env;
use std::path::{Path, PathBuf};
use std::process::Command;

/// What pkg-config prints for these words, if it succeeds.
fn pkg_config(words: &[&str]) -> Option<String> {
    let command = env::var_os("PKG_CONFIG").unwrap_or_else(|| "pkg-config".into());
    let told = Command::new(command).args(words).output().ok().filter(|told| told.status.success())?;
    Some(String::from_utf8(told.stdout).ok()?.trim().to_owned())
}

/// The folder of the installed library, if pkg-config knows one of this version.
fn installed() -> Option<PathBuf> {
    let (major, minor) = (env!("CARGO_PKG_VERSION_MAJOR"), env!("CARGO_PKG_VERSION_MINOR"));
    let next = minor.parse::<u32>().expect("cargo gives a number") + 1;
    pkg_config(&["--exists", &format!("hvpm >= {major}.{minor} hvpm < {major}.{next}")])?;
    pkg_config(&["--variable=libdir", "hvpm"]).map(PathBuf::from)
}

/// Links the library in a folder: the archive, if it has both forms.
fn link(folder: &Path) -> Result<(), String> {
    let forms = [("static", "libhvpm.a"), ("dylib", "libhvpm.so")];
    let (form, file) = forms
        .into_iter()
        .find(|(_, file)| folder.join(file).is_file())
        .ok_or_else(|| format!("{} has neither libhvpm.a nor libhvpm.so", folder.display()))?;
    println!("cargo::rerun-if-changed={}", folder.join(file).display());
    println!("cargo::rustc-link-search=native={}", folder.display());
    println!("cargo::rustc-link-lib={form}=hvpm");
    println!("cargo::metadata=libdir={}", folder.display());
    Ok(())
}

fn main() {
    for name in ["HVPM_LIB", "PKG_CONFIG", "PKG_CONFIG_PATH", "PKG_CONFIG_LIBDIR", "PKG_CONFIG_SYSROOT_DIR"] {
        println!("cargo::rerun-if-env-changed={name}");
    }
    let named = env::var_os("HVPM_LIB").map(PathBuf::from);
    let linked = match named.or_else(installed) {
        Some(folder) => link(&folder),
        None => {
            Err("pkg-config finds no library hvpm, and HVPM_LIB isn't set. Install the library, and add \
                     its lib/pkgconfig to PKG_CONFIG_PATH; or set HVPM_LIB to the folder of libhvpm.a or \
                     libhvpm.so"
                .into())
        }
    };
    if let Err(why) = linked {
        println!("cargo::error={why}");
    }
}

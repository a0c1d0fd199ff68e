//! Finds the archive of the C layer: in the folder that NAME_CONSOLE_LIB_DIR names, in the repository's target/staticlib,
//! or where pkg-config says that it is installed.
use std::env;
use std::path::{Path, PathBuf};
use std::process::Command;

/// The archive's name as installed, and as `tools/build screen` writes it.
const NAMES: [&str; 2] = ["name_console", "screen"];

const MISSING: &str = "name-console: there is no archive of the C layer. Run 'make' in the repository (it writes target/staticlib/libscreen.a), \
    or 'make install' where pkg-config looks, or set NAME_CONSOLE_LIB_DIR to the folder that has libname_console.a or libscreen.a";

/// Which of the two names a folder has.
fn archive(folder: &Path) -> Option<&'static str> {
    NAMES.into_iter().find(|name| folder.join(format!("lib{name}.a")).is_file())
}

/// Where pkg-config says that the library is.
fn installed() -> Option<PathBuf> {
    let run = Command::new("pkg-config").args(["--variable=libdir", "name_console"]).output().ok()?;
    let folder = String::from_utf8(run.stdout).ok()?;
    (run.status.success() && !folder.trim().is_empty()).then(|| PathBuf::from(folder.trim()))
}

fn main() {
    println!("cargo:rerun-if-changed=build.rs");
    for name in ["NAME_CONSOLE_LIB_DIR", "PKG_CONFIG_PATH", "PKG_CONFIG_LIBDIR"] {
        println!("cargo:rerun-if-env-changed={name}");
    }
    let folder = match env::var_os("NAME_CONSOLE_LIB_DIR") {
        Some(named) => PathBuf::from(named),
        None => {
            let built = Path::new(&env::var_os("CARGO_MANIFEST_DIR").expect("cargo sets it")).join("../../target/staticlib");
            if archive(&built).is_some() { built } else { installed().unwrap_or(built) }
        }
    };
    let Some(name) = archive(&folder) else { panic!("{MISSING} (looked in {})", folder.display()) };
    let folder = folder.canonicalize().expect("a folder");
    println!("cargo:rerun-if-changed={}/lib{name}.a", folder.display());
    println!("cargo:rustc-link-search=native={}", folder.display());
    println!("cargo:rustc-link-lib=static={name}");
}

//! Links the static library, which `scripts/library DIR` builds. It is in the folder that the
//! variable RUGHVADI_LIB_DIR names. Where that isn't set it is in DIR/lib, if this is the crate
//! that was installed there, else where pkg-config says.
use std::env;
use std::path::{Path, PathBuf};
use std::process::{exit, Command};

const ARCHIVE: &str = "librughvadi.a";
const READ: [&str; 4] = [
    "RUGHVADI_LIB_DIR",
    "PKG_CONFIG",
    "PKG_CONFIG_PATH",
    "PKG_CONFIG_LIBDIR",
];
const WANTED: &str = "set RUGHVADI_LIB_DIR to the folder of librughvadi.a, or PKG_CONFIG_PATH to \
                      that of rughvadi.pc; `scripts/library DIR` of Rughvadi makes both";

/// The folder beside this crate's own, where both were installed under one.
fn beside() -> Option<PathBuf> {
    let crate_folder = env::var_os("CARGO_MANIFEST_DIR")?;
    let folder = Path::new(&crate_folder).join("../../../lib");
    folder.join(ARCHIVE).is_file().then_some(folder)
}

/// The folder that pkg-config says.
fn by_pkg_config() -> Option<PathBuf> {
    let command = env::var_os("PKG_CONFIG").unwrap_or_else(|| "pkg-config".into());
    let mut asked = Command::new(command);
    asked.args(["--variable=libdir", "rughvadi"]);
    let said = asked.output().ok().filter(|said| said.status.success())?;
    let folder = PathBuf::from(String::from_utf8(said.stdout).ok()?.trim_end());
    folder.join(ARCHIVE).is_file().then_some(folder)
}

fn main() {
    for variable in READ {
        println!("cargo:rerun-if-env-changed={}", variable);
    }
    let named = env::var_os("RUGHVADI_LIB_DIR").map(PathBuf::from);
    match named.or_else(beside).or_else(by_pkg_config) {
        Some(folder) => {
            println!("cargo:rustc-link-search=native={}", folder.display());
            println!("cargo:rerun-if-changed={}", folder.join(ARCHIVE).display());
            println!("cargo:rustc-link-lib=static=rughvadi");
        }
        None => {
            eprintln!("{}", WANTED);
            exit(1);
        }
    }
}

//! Links the static library `wrewrite_c`, and the library by which it allocates, which comes with Rattle's toolchain. `WREWRITE_LIB`
//! and `RATTLE_KIT` name the folders of the one and of the toolchain where they aren't at their places.

use std::path::{Path, PathBuf};
use std::process::Command;

const HOW: &str = "at the top of the repository, `dev/run-program --quick wrewrite_c` builds it without proofs in minutes, and \
                   `dev/run-program --build wrewrite_c` proves all and builds it; or set WREWRITE_LIB to its folder";

/// Ends with one line.
fn stop(why: &str) -> ! {
    eprintln!("wrewrite: {why}");
    std::process::exit(1);
}

/// The toolchain's folder: that of the page that `rt doc` names.
fn kit() -> PathBuf {
    if let Some(kit) = std::env::var_os("RATTLE_KIT") {
        return PathBuf::from(kit);
    }
    let Ok(page) = Command::new("rt").arg("doc").output() else {
        stop("rt, the command of Rattle's toolchain, isn't on the path: set RATTLE_KIT to the toolchain's folder");
    };
    let mut kit = PathBuf::from(String::from_utf8_lossy(&page.stdout).trim());
    kit.pop();
    kit
}

/// The folder of the library: the one that is named, else that of the proved build, else that of the build without proofs.
fn library(here: &Path) -> PathBuf {
    let folders = match std::env::var_os("WREWRITE_LIB") {
        Some(folder) => vec![PathBuf::from(folder)],
        None => ["out", "out-quick"].iter().map(|name| here.join("../../crates/wrewrite_c").join(name)).collect(),
    };
    let found = folders.iter().find(|folder| folder.join("libwrewrite_c.a").is_file());
    let Some(found) = found else {
        stop(&format!("there is no libwrewrite_c.a in {}: {HOW}", folders[0].display()));
    };
    found.clone()
}

fn main() {
    println!("cargo:rerun-if-env-changed=RATTLE_KIT");
    println!("cargo:rerun-if-env-changed=WREWRITE_LIB");
    let here = PathBuf::from(std::env::var_os("CARGO_MANIFEST_DIR").expect("cargo sets it"));
    let library = library(&here);
    println!("cargo:rerun-if-changed={}", library.join("libwrewrite_c.a").display());
    println!("cargo:rustc-link-search=native={}", library.display());
    println!("cargo:rustc-link-search=native={}", kit().join("c").display());
    println!("cargo:rustc-link-lib=static=wrewrite_c");
    println!("cargo:rustc-link-lib=static=libc_c");
}

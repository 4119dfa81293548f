//! Finds the static library of each feature: in the folder that LIMZHUR_LIBRARY names, else where `./library` of the repository
//! leaves it or where it is installed beside this package, else where pkg-config says.
use std::path::PathBuf;
use std::process::Command;

/// Of each feature, as cargo tells it, the library, the word of `./library` that makes it, and its name for pkg-config.
const LIBRARIES: [(&str, &str, &str, &str); 2] = [
    ("CARGO_FEATURE_HEAP", "liblimzhur_c.a", "./library", "limzhur"),
    ("CARGO_FEATURE_GUEST", "liblimzhur_guest.a", "./library --guest", "limzhur_guest"),
];

/// Where they may lie, from this folder.
const NEAR: [&str; 2] = ["../../.build", "../../../lib"];

/// The folder that the installed file of pkg-config tells.
fn installed(package: &str) -> Option<PathBuf> {
    let told = Command::new("pkg-config").args(["--variable=libdir", package]).output().ok()?;
    Some(PathBuf::from(String::from_utf8(told.stdout).ok()?.trim()))
}

fn find(library: &str, command: &str, package: &str) {
    let has_library = |folder: &PathBuf| folder.join(library).is_file();
    let here = PathBuf::from(std::env::var_os("CARGO_MANIFEST_DIR").unwrap());
    let near = NEAR.iter().map(|folder| here.join(folder)).find(has_library);
    let found = match std::env::var_os("LIMZHUR_LIBRARY") {
        Some(folder) => Some(PathBuf::from(folder)).filter(has_library),
        None => near.or_else(|| installed(package).filter(has_library)),
    };
    let folder = found.unwrap_or_else(|| {
        panic!(
            "there is no {library}: run {command} at the top of the repository, or install it and let pkg-config find it, or \
             name its folder in LIMZHUR_LIBRARY"
        )
    });
    println!("cargo:rerun-if-changed={}", folder.join(library).display());
    println!("cargo:rustc-link-search=native={}", folder.display());
}

fn main() {
    println!("cargo:rerun-if-env-changed=LIMZHUR_LIBRARY");
    println!("cargo:rerun-if-env-changed=PKG_CONFIG_PATH");
    for (feature, library, command, package) in LIBRARIES {
        if std::env::var_os(feature).is_some() {
            find(library, command, package);
        }
    }
}

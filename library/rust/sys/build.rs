//! Links libcamlheap.a: the one in the folder that CAMLHEAP_LIB_DIR names, the one that `make -C library` has made, or an
//! installed one, which pkg-config finds.
use std::path::{Path, PathBuf};
use std::process::Command;
use std::{env, str};

// The folder in which pkg-config finds the installed library.
fn installed() -> Option<PathBuf> {
    let told = Command::new("pkg-config").args(["--variable=libdir", "camlheap"]).output().ok()?;
    let folder = str::from_utf8(&told.stdout).ok()?.trim();
    (told.status.success() && !folder.is_empty()).then(|| PathBuf::from(folder))
}

fn has_archive(folder: &Path) -> bool {
    folder.join("libcamlheap.a").is_file()
}

fn main() {
    println!("cargo::rerun-if-env-changed=CAMLHEAP_LIB_DIR");
    println!("cargo::rerun-if-env-changed=PKG_CONFIG_PATH");
    let here = PathBuf::from(env::var("CARGO_MANIFEST_DIR").expect("cargo names the folder"));
    let named = env::var_os("CAMLHEAP_LIB_DIR").map(PathBuf::from);
    let folder = match named {
        Some(folder) => Some(folder).filter(|it| has_archive(it)),
        None => [Some(here.join("../../out")), installed()].into_iter().flatten().find(|it| has_archive(it)),
    };
    let Some(folder) = folder else {
        println!("cargo::error=no libcamlheap.a was found: `make -C library` makes it; of one that is installed below PREFIX CAMLHEAP_LIB_DIR=PREFIX/lib or PKG_CONFIG_PATH=PREFIX/lib/pkgconfig tells");
        return;
    };
    println!("cargo::rerun-if-changed={}", folder.join("libcamlheap.a").display());
    println!("cargo::rustc-link-search=native={}", folder.display());
    println!("cargo::rustc-link-lib=static=camlheap");
}

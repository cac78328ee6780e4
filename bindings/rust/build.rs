//! Links the library: `libbpf_host.a` of a package (`tools/package`), or else what `tools/static_library` built, and the toolchain's C library, whose file
//! `BPF_HOST_LIBC` names. `BPF_HOST_LIB` names another folder of the library than the one beside this crate, by an absolute path.

use std::env;
use std::path::{Path, PathBuf};

/// The folder of a file, and the name by which it is linked.
fn library(file: &Path) -> (String, String) {
    let folder = file.parent().unwrap_or(Path::new("."));
    let stem = file.file_stem().unwrap_or_default().to_string_lossy();
    (
        folder.display().to_string(),
        stem.strip_prefix("lib").unwrap_or(&stem).to_owned(),
    )
}

/// Links what `tools/static_library` built into a folder.
fn link_built(built: &Path) {
    let libc = env::var("BPF_HOST_LIBC")
        .map(PathBuf::from)
        .unwrap_or("/opt/rattle/c/liblibc_c.a".into());
    let (folder, name) = library(&libc);
    println!("cargo:rustc-link-search=native={folder}");
    println!("cargo:rustc-link-lib=static=bpf_host_c");
    println!("cargo:rustc-link-lib=static={name}");
    println!(
        "cargo:rerun-if-changed={}",
        built.join("libbpf_host_c.a").display()
    );
}

fn main() {
    println!("cargo:rerun-if-env-changed=BPF_HOST_LIB");
    println!("cargo:rerun-if-env-changed=BPF_HOST_LIBC");
    let root = PathBuf::from(env::var("CARGO_MANIFEST_DIR").unwrap_or_default());
    let beside = if root.join("../lib").is_dir() {
        root.join("../lib")
    } else {
        root.join("../../crates/bpf_host_c/out")
    };
    let folder = env::var("BPF_HOST_LIB").map_or(beside, PathBuf::from);
    assert!(
        folder.is_absolute(),
        "BPF_HOST_LIB must be an absolute path"
    );
    let packed = folder.join("libbpf_host.a");
    println!("cargo:rustc-link-search=native={}", folder.display());
    if packed.is_file() {
        println!("cargo:rustc-link-lib=static=bpf_host");
        println!("cargo:rerun-if-changed={}", packed.display());
    } else {
        link_built(&folder);
    }
}

//! Links the exported library: target/libmovaleduft.a of the repository, which ./library makes,
//! or libmovaleduft.a of the folder that MOVALEDUFT_LIB_DIR names.
use std::env;
use std::path::PathBuf;

fn main() {
    println!("cargo::rerun-if-env-changed=MOVALEDUFT_LIB_DIR");
    let here = PathBuf::from(env::var_os("CARGO_MANIFEST_DIR").expect("cargo names the package's folder"));
    let root = here.ancestors().nth(2).expect("the package lies two folders below the repository's");
    let dir = env::var_os("MOVALEDUFT_LIB_DIR").map_or_else(|| root.join("target"), |dir| here.join(dir));
    let archive = dir.join("libmovaleduft.a");
    println!("cargo::rerun-if-changed={}", archive.display());
    if !archive.is_file() {
        println!("cargo::error=there is no {}: run ./library first (in {})", archive.display(), root.display());
        return;
    }
    println!("cargo::rustc-link-search=native={}", dir.display());
    println!("cargo::rustc-link-lib=static=movaleduft");
}

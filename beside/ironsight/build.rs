//! Finds the five source files, unchanged, in the folder that IRONSIGHT_SRC names (beside/run asks for it).
use std::path::PathBuf;

fn main() {
    println!("cargo:rerun-if-env-changed=IRONSIGHT_SRC");
    let src = PathBuf::from(std::env::var("IRONSIGHT_SRC").expect("IRONSIGHT_SRC names the folder that has addr.rs"));
    assert!(src.is_absolute(), "IRONSIGHT_SRC is made absolute by beside/run");
    let module = |name: &str, file: &str| {
        let path = src.join(file);
        println!("cargo:rerun-if-changed={}", path.display());
        format!("#[path = {path:?}] pub mod {name};\n")
    };
    let root = format!(
        "{}{}{}{}pub mod protocol {{\n{}}}\n",
        module("addr", "addr.rs"),
        module("error", "error.rs"),
        module("codec", "codec.rs"),
        module("frame", "frame.rs"),
        module("shot", "protocol/shot.rs"),
    );
    let out = PathBuf::from(std::env::var("OUT_DIR").unwrap());
    std::fs::write(out.join("ironsight.rs"), root).unwrap();
}

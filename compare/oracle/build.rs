// Writes the module tree of the oracle: each module is a file of the crate's source, named by its path and not copied.
use std::path::{Path, PathBuf};
use std::{env, fs};

fn source_folder() -> PathBuf {
    let here = PathBuf::from(env::var("CARGO_MANIFEST_DIR").unwrap());
    let named = env::var("MF4_SOURCE").map(PathBuf::from);
    let folder = named.unwrap_or_else(|_| here.join("../../../shared/docs/src/src"));
    fs::canonicalize(&folder).unwrap_or_else(|_| panic!("the crate's source is not at {}", folder.display()))
}

fn module(folder: &Path, file: &str, name: &str) -> String {
    format!("#[path = {:?}] pub mod {};\n", folder.join(file), name)
}

fn main() {
    println!("cargo:rerun-if-env-changed=MF4_SOURCE");
    let folder = source_folder();
    println!("cargo:rerun-if-changed={}", folder.display());
    let mut tree = module(&folder, "error.rs", "error");
    tree += "pub mod blocks {\n";
    for name in ["common", "text_block", "metadata_block", "channel_block"] {
        tree += &module(&folder, &format!("blocks/{name}.rs"), name);
    }
    tree += &module(&folder, "blocks/conversion/mod.rs", "conversion");
    tree += "}\npub mod parsing {\n";
    tree += &module(&folder, "parsing/decoder.rs", "decoder");
    tree += "}\n";
    let out = PathBuf::from(env::var("OUT_DIR").unwrap()).join("tree.rs");
    fs::write(out, tree).unwrap();
}

// Links the archive of the C face, in the folder that MDF_ARCHIVE_FOLDER names.
use std::env;
use std::path::PathBuf;

fn main() {
    println!("cargo:rerun-if-env-changed=MDF_ARCHIVE_FOLDER");
    let here = PathBuf::from(env::var("CARGO_MANIFEST_DIR").unwrap());
    let named = env::var("MDF_ARCHIVE_FOLDER").map(PathBuf::from);
    let folder = named.unwrap_or_else(|_| here.join("../target/staticlib"));
    println!("cargo:rerun-if-changed={}", folder.join("libgateway.a").display());
    println!("cargo:rustc-link-search=native={}", folder.display());
    println!("cargo:rustc-link-lib=static=gateway");
}

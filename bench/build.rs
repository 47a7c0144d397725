// Links the proved archive of the C face, in the folder that MDF_ARCHIVE_FOLDER names.
fn main() {
    println!("cargo:rerun-if-env-changed=MDF_ARCHIVE_FOLDER");
    let folder = std::env::var("MDF_ARCHIVE_FOLDER").unwrap_or_else(|_| "../target/staticlib".to_string());
    println!("cargo:rerun-if-changed={folder}/libgateway.a");
    println!("cargo:rustc-link-search=native={folder}");
    println!("cargo:rustc-link-lib=static=gateway");
}

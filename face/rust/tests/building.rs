//! The crate in a package of a user: where its build finds the archive, for which targets, and what a user cannot write.
use std::fs;
use std::path::PathBuf;
use std::process::Command;

/// A package that depends on the crate, beside a folder with an archive. It is only checked, not linked, so that the archive may be empty.
struct Package(PathBuf);

impl Package {
    fn new() -> Package {
        let folder = std::env::temp_dir().join(format!("mdf-conversion-{}-package", std::process::id()));
        fs::create_dir_all(folder.join("user/src")).unwrap();
        fs::create_dir_all(folder.join("here")).unwrap();
        fs::write(folder.join("here/libgateway.a"), "").unwrap();
        let dependency = format!("mdf-conversion = {{ path = {:?} }}", env!("CARGO_MANIFEST_DIR"));
        let manifest = format!("[package]\nname = \"user\"\nedition = \"2021\"\n[dependencies]\n{dependency}\n[workspace]\n");
        fs::write(folder.join("user/Cargo.toml"), manifest).unwrap();
        Package(folder.canonicalize().unwrap())
    }

    /// Checks the package with this source from the folder above it. The error output where that fails.
    fn check(&self, archive_folder: &str, words: &[&str], source: &str) -> Result<(), String> {
        fs::write(self.0.join("user/src/lib.rs"), source).unwrap();
        let output = Command::new(env!("CARGO"))
            .args(["check", "--offline", "--quiet", "--manifest-path", "user/Cargo.toml", "--target-dir", "target"])
            .args(words)
            .current_dir(&self.0)
            .env("MDF_ARCHIVE_DIR", archive_folder)
            .env("PWD", "/") // what a shell has left there need not be the working folder
            .output()
            .unwrap();
        if output.status.success() {
            Ok(())
        } else {
            Err(String::from_utf8(output.stderr).unwrap())
        }
    }
}

impl Drop for Package {
    fn drop(&mut self) {
        let _ = fs::remove_dir_all(&self.0);
    }
}

#[test]
fn a_package_of_a_user() {
    let package = Package::new();
    let folder = package.0.display();
    let sound = "#![no_std]\npub fn is_known(t: mdf_conversion::ConversionType) -> bool { !matches!(t, mdf_conversion::ConversionType::Unknown(_)) }";

    // A relative folder counts from where cargo is started, which is neither the user's package nor this one.
    assert_eq!(package.check("here", &[], sound), Ok(()));
    assert_eq!(package.check(&format!("{folder}/here"), &[], sound), Ok(()));
    let complaint = package.check("elsewhere", &[], sound).unwrap_err();
    for line in [
        format!("no archive at {folder}/elsewhere/libgateway.a\n"),
        format!("MDF_ARCHIVE_DIR is \"elsewhere\", counted from {folder}, where cargo was started.\n"),
        "Run `tools/archive` in the project's root, or name the archive's folder in the variable MDF_ARCHIVE_DIR.\n".into(),
    ] {
        assert!(complaint.contains(&line), "{line} in {complaint}");
    }

    for target in ["aarch64-unknown-linux-gnu", "x86_64-pc-windows-gnu", "x86_64-unknown-linux-gnux32"] {
        let complaint = package.check("here", &["--target", target], sound).unwrap_err();
        assert!(complaint.contains("the archive of the proved code is for x86-64 Linux\n"), "{target}: {complaint}");
    }

    // No known type can be called unknown.
    let with = |kind: &str| format!("#![no_std]\npub const TYPE: mdf_conversion::ConversionType = mdf_conversion::ConversionType::Unknown({kind});");
    assert!(package.check("here", &[], &with("1")).unwrap_err().contains("error[E0308]"));
    assert!(package.check("here", &[], &with("mdf_conversion::UnknownType(1)")).unwrap_err().contains("error[E0423]"));

    // No edition can be named but the two. A mode can be a constant.
    let of = |edition: &str| format!("#![no_std]\nuse mdf_conversion::{{Edition, Mode}};\npub const MODE: Mode = Mode::STANDARD.edition({edition});");
    assert_eq!(package.check("here", &[], &of("Edition::Mdf410")), Ok(()));
    assert!(package.check("here", &[], &of("400")).unwrap_err().contains("error[E0308]"));
    assert!(package.check("here", &[], &of("Edition::Mdf400")).unwrap_err().contains("error[E0599]"));
}

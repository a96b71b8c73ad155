//! Links libhainscope.a from the repository's target/staticlib folder, or from the folder that
//! HAINSCOPE_ARCHIVE_DIR names, and refuses an archive that is not of the sources as they stand.

use std::os::unix::process::parent_id;
use std::path::{Path, PathBuf};
use std::process::{exit, Command};
use std::{env, fs};

fn main() {
    let root = Path::new(env!("CARGO_MANIFEST_DIR")).join("../..");
    let root = root.canonicalize().unwrap_or(root);
    let folder = archive_folder(&root);
    let archive = folder.join("libhainscope.a");
    rerun_if_changed(&archive);
    if !archive.is_file() {
        stop(&archive, "is missing: `bash rust/archive.sh` makes it, HAINSCOPE_ARCHIVE_DIR names another folder");
    }
    if root.join("crates.txt").is_file() && !of_the_sources(&root, &folder) {
        stop(
            &archive,
            "is not of the Rattle sources as they stand: `bash rust/archive.sh` makes it again",
        );
    }
    println!("cargo:archive={}", archive.display()); // for the build scripts of crates that depend on this one
    println!("cargo:rustc-env=HAINSCOPE_ARCHIVE={}", archive.display());
    println!("cargo:rustc-link-search=native={}", folder.display());
    println!("cargo:rustc-link-lib=static=hainscope");
}

/// The folder of the archive. A relative name is taken from where the user stands, which is where
/// cargo was started, and not from this package.
fn archive_folder(root: &Path) -> PathBuf {
    println!("cargo:rerun-if-env-changed=HAINSCOPE_ARCHIVE_DIR");
    let Some(folder) = env::var_os("HAINSCOPE_ARCHIVE_DIR").map(PathBuf::from) else {
        return root.join("target/staticlib");
    };
    if folder.is_absolute() {
        return folder;
    }
    println!("cargo:rerun-if-env-changed=PWD");
    match fs::read_link(format!("/proc/{}/cwd", parent_id())) {
        Ok(stands) => stands.join(folder),
        Err(_) => stop(
            &folder,
            "is relative, and where cargo was started cannot be told",
        ),
    }
}

/// Whether the fingerprint beside the archive is that of the archive and the sources as they stand.
fn of_the_sources(root: &Path, folder: &Path) -> bool {
    let beside = folder.join("libhainscope.fingerprint");
    for part in [&beside, &root.join("crates"), &root.join("crates.txt")] {
        rerun_if_changed(part);
    }
    let script = root.join("rust/fingerprint.sh");
    match Command::new("bash").arg(&script).arg(folder).output() {
        Ok(made) if made.status.success() => fs::read(beside).is_ok_and(|told| told == made.stdout),
        _ => stop(
            &script,
            "did not run: it compares the archive with the sources",
        ),
    }
}

fn rerun_if_changed(path: &Path) {
    println!("cargo:rerun-if-changed={}", path.display());
}

/// Ends the build, with words on a path.
fn stop(path: &Path, words: &str) -> ! {
    eprintln!("{} {words}", path.display());
    exit(1)
}

//! The archive that is linked is of the Rattle sources as they stand. The build asks this as well, but cargo builds
//! again only where a file looks newer; a test asks each time.

use std::fs;
use std::path::Path;
use std::process::Command;

#[test]
fn the_archive_is_of_the_sources_as_they_stand() {
    let folder = Path::new(env!("HAINSCOPE_ARCHIVE")).parent().unwrap();
    let made = Command::new("bash")
        .arg(concat!(env!("CARGO_MANIFEST_DIR"), "/../fingerprint.sh"))
        .arg(folder)
        .output()
        .unwrap();
    let beside = fs::read(folder.join("libhainscope.fingerprint")).unwrap();
    assert_eq!(
        String::from_utf8_lossy(&made.stdout),
        String::from_utf8_lossy(&beside),
        "the archive is of other sources: `bash rust/archive.sh` makes it again"
    );
}

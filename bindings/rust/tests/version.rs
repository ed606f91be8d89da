//! The crate and the library that it is linked with are of one version.

use imbrolt::{door, version, VERSION};

#[test]
fn the_library_has_the_version_of_the_crate() {
    let parts: Vec<u32> = VERSION.split('.').map(|part| part.parse().unwrap()).collect();
    let [major, minor, patch] = parts[..] else { panic!("{VERSION} has three parts") };
    assert_eq!(version(), 10_000 * major + 100 * minor + patch);
    assert_eq!(door::version(), version());
}

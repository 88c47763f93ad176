//! The header, the archive and the comparison are of one version, and it is 0.10.0.

mod common;

use yavrinks_peer::archive::{Archive, Calls, VERSION};

#[test]
fn header_archive_and_comparison_agree() {
    let stated = common::header_numbers();
    assert_eq!(stated.get("CAPTABLE_VERSION"), Some(&VERSION));
    assert_eq!(Archive.version(), VERSION);
    assert_eq!(VERSION.to_be_bytes(), [0, 0, 10, 0]);
}

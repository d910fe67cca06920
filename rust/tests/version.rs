//! The archive that is linked has this package's version.

#[test]
fn of_the_archive() {
    let package = [env!("CARGO_PKG_VERSION_MAJOR"), env!("CARGO_PKG_VERSION_MINOR"), env!("CARGO_PKG_VERSION_PATCH")];
    assert_eq!(simmerstoat::version(), package.map(|number| number.parse().unwrap()));
}

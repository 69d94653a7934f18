//! Links the static library that `scripts/build panel` wrote.
fn main() {
    let here = std::env::var("CARGO_MANIFEST_DIR").unwrap();
    let folder = format!("{here}/../../target/staticlib");
    println!("cargo:rerun-if-changed={folder}/libpanel.a");
    println!("cargo:rustc-link-search=native={folder}");
    println!("cargo:rustc-link-lib=static=panel");
}

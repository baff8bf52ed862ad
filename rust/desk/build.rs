// Links the archive of crates/desk_c, which `./archive` writes into target/staticlib.
fn main() {
    let here = std::env::var("CARGO_MANIFEST_DIR").expect("cargo sets CARGO_MANIFEST_DIR");
    let folder = format!("{here}/../../target/staticlib");
    println!("cargo:rustc-link-search=native={folder}");
    println!("cargo:rustc-link-lib=static=desk");
    println!("cargo:rerun-if-changed={folder}/libdesk.a");
}

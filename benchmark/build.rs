// Links the proved archive that `make target/staticlib/librindthok.a` writes.
fn main() {
    let archive = std::env::var("CARGO_MANIFEST_DIR").unwrap() + "/../target/staticlib";
    println!("cargo:rustc-link-search=native={archive}");
    println!("cargo:rustc-link-lib=static=rindthok");
    println!("cargo:rerun-if-changed={archive}/librindthok.a");
}

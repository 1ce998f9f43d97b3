//! Links the proved library, which `tools/build ayokwelifu` writes.

fn main() {
    let library = format!("{}/../../target/staticlib", std::env::var("CARGO_MANIFEST_DIR").unwrap());
    println!("cargo:rustc-link-search=native={library}");
    println!("cargo:rustc-link-lib=static=ayokwelifu");
    println!("cargo:rerun-if-changed={library}/libayokwelifu.a");
}

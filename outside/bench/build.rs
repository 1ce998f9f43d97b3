//! Links the proved loops over the public functions, which `tools/build` writes.

fn main() {
    let library = format!("{}/../../target/staticlib", std::env::var("CARGO_MANIFEST_DIR").unwrap());
    println!("cargo:rustc-link-search=native={library}");
    for name in ["bench", "bench_batches", "bench_census", "bench_drains"] {
        println!("cargo:rustc-link-lib=static={name}");
        println!("cargo:rerun-if-changed={library}/lib{name}.a");
    }
}

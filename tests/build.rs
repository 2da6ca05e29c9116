//! Links the proved library, which `./build libzestanchor.a` writes; the benchmark also links `libbench.a`.

fn main() {
    let folder = concat!(env!("CARGO_MANIFEST_DIR"), "/../target/staticlib");
    println!("cargo:rustc-link-search=native={folder}");
    println!("cargo:rustc-link-lib=static=zestanchor");
    println!("cargo:rerun-if-changed={folder}");
}

// Links the proved code, which `tools/staticlib bench` and `tools/staticlib kondrivai` build.
fn main() {
    let root = std::path::Path::new(env!("CARGO_MANIFEST_DIR")).parent().unwrap();
    let libraries = root.join("target/staticlib");
    println!("cargo:rustc-link-search=native={}", libraries.display());
    for library in ["bench", "kondrivai"] {
        println!("cargo:rustc-link-lib=static={library}");
        println!("cargo:rerun-if-changed={}", libraries.join(format!("lib{library}.a")).display());
    }
}

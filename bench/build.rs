// Links the proved libraries that `rt lib` writes: calls_c and export_c, and batch_c into the bench alone.
fn main() {
    let crates = std::path::Path::new(&std::env::var("CARGO_MANIFEST_DIR").unwrap()).join("../crates");
    for name in ["calls_c", "export_c"] {
        let folder = crates.join(name).join("out");
        println!("cargo:rustc-link-search=native={}", folder.display());
        println!("cargo:rustc-link-lib=static={name}");
        println!("cargo:rerun-if-changed={}", folder.join(format!("lib{name}.a")).display());
    }
    let batch = crates.join("batch_c/out/libbatch_c.a");
    println!("cargo:rustc-link-arg-bin=bench={}", batch.display());
    println!("cargo:rerun-if-changed={}", batch.display());
}

//! Where `rt lib` in the folder crates/measured writes what is timed of the joiner.

fn main() {
    if std::env::var_os("CARGO_FEATURE_OURS").is_some() {
        let folder = format!("{}/../crates/measured/out", env!("CARGO_MANIFEST_DIR"));
        println!("cargo:rustc-link-search=native={folder}");
        println!("cargo:rustc-link-lib=static=measured");
        println!("cargo:rerun-if-changed={folder}/libmeasured.a");
    }
    println!("cargo:rerun-if-changed=build.rs");
}

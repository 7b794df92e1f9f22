// Tells cargo where libergo.a is: in the folder that ERGO_LIB names, by default ../../crates/ergo/out. A relative path is taken from this
// package's folder.
use std::path::Path;

fn main() {
    println!("cargo:rerun-if-changed=build.rs");
    println!("cargo:rerun-if-env-changed=ERGO_LIB");
    let named = std::env::var("ERGO_LIB").ok().filter(|name| !name.is_empty());
    let package = std::env::var("CARGO_MANIFEST_DIR").unwrap_or_default();
    let folder = Path::new(&package).join(named.unwrap_or_else(|| "../../crates/ergo/out".to_string()));
    let library = folder.join("libergo.a");
    println!("cargo:rerun-if-changed={}", library.display());
    if !library.is_file() {
        println!("cargo:warning=there is no {}: make it by `rt lib` in crates/ergo, or name its folder in ERGO_LIB", library.display());
    }
    println!("cargo:rustc-link-search=native={}", folder.display());
}

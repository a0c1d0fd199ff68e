// Links the product's static library.
use std::path::Path;

fn main() {
    let library = Path::new("../../target/staticlib").canonicalize().expect("run 'bash tools/build screen_tests' first");
    println!("cargo:rustc-link-search=native={}", library.display());
    println!("cargo:rustc-link-lib=static=screen_tests");
    println!("cargo:rerun-if-changed={}/libscreen_tests.a", library.display());
}

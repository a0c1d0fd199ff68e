// Links the baselines written in C.
include!("../tests/c.rs");

fn main() {
    let fast: &[&str] = &["-O3"];
    // The source's functions are calls, as they are where an ML compiler has made them.
    let calls: &[&str] = &["-O3", "-fno-inline"];
    // bench/before has put the libraries of another commit there.
    if std::env::var_os("CARGO_FEATURE_BEFORE").is_some() {
        let folder = std::env::var("BEFORE").expect("run bench/before");
        println!("cargo:rustc-link-search=native={folder}");
        println!("cargo:rustc-link-lib=static=before_screen_tests");
        println!("cargo:rustc-link-lib=static=before_screen");
        println!("cargo:rerun-if-changed={folder}");
    }
    link_c("baseline", &[("sound.c", fast), ("complete.c", fast), ("register.c", fast), ("source.c", calls)]);
}

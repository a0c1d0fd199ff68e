// For build scripts: compiles C files into an archive and links it.

/// `files` are the C files with the options of each, beside those that all have.
fn link_c(name: &str, files: &[(&str, &[&str])]) {
    let out = std::env::var("OUT_DIR").unwrap();
    let archive = format!("{out}/lib{name}.a");
    let _ = std::fs::remove_file(&archive);
    for (file, options) in files {
        let object = format!("{out}/{file}.o");
        run(std::process::Command::new("cc").args(["-Wall", "-Wextra", "-Werror", "-c", file, "-o", &object]).args(*options));
        run(std::process::Command::new("ar").args(["rcs", &archive, &object]));
        println!("cargo:rerun-if-changed={file}");
    }
    println!("cargo:rustc-link-search=native={out}");
    println!("cargo:rustc-link-lib=static={name}");
}

fn run(command: &mut std::process::Command) {
    assert!(command.status().expect("a C compiler").success(), "{command:?}");
}

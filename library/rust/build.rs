//! Links the static library in the folder that MIZGAURE_LIB names, or what the linker finds.
fn main() {
    println!("cargo:rerun-if-env-changed=MIZGAURE_LIB");
    match std::env::var("MIZGAURE_LIB") {
        Ok(folder) => {
            println!("cargo:rustc-link-search=native={folder}");
            println!("cargo:rustc-link-lib=static=mizgaure");
        }
        Err(_) => println!("cargo:rustc-link-lib=mizgaure"),
    }
}

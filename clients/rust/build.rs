//! Links `librumstrait.a`: that in the folder of the environment variable `RUMSTRAIT_LIB_DIR`, or the one that the linker finds.

fn main() {
    println!("cargo:rerun-if-env-changed=RUMSTRAIT_LIB_DIR");
    if let Ok(folder) = std::env::var("RUMSTRAIT_LIB_DIR") {
        println!("cargo:rustc-link-search=native={folder}");
    }
    println!("cargo:rustc-link-lib=static=rumstrait");
}

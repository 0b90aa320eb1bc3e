//! Links libdesk.a from the folder that NDURABEEW_LIB names.

fn main() {
    println!("cargo:rerun-if-env-changed=NDURABEEW_LIB");
    match std::env::var("NDURABEEW_LIB") {
        Ok(folder) => println!("cargo:rustc-link-search=native={folder}"),
        Err(_) => println!("cargo:warning=NDURABEEW_LIB does not say in which folder libdesk.a is"),
    }
    println!("cargo:rustc-link-lib=static=desk");
}

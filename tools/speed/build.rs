//! Links the static libraries that the Makefile makes. It says where they stand.

fn main() {
    println!("cargo:rerun-if-env-changed=STATICLIB");
    let folder = std::env::var("STATICLIB").unwrap_or_else(|_| panic!("STATICLIB is not set: call this by `make speed`"));
    println!("cargo:rustc-link-search=native={folder}");
    println!("cargo:rerun-if-changed={folder}");
    for library in ["verdict", "probe"] {
        println!("cargo:rustc-link-lib=static={library}");
    }
}

//! Links the static library that `run` names.

fn main() {
    println!("cargo:rerun-if-env-changed=TRAZZUGHES_LIBRARY");
    let folder =
        std::env::var("TRAZZUGHES_LIBRARY").expect("TRAZZUGHES_LIBRARY, by hosts/rust/run");
    println!("cargo:rerun-if-changed={folder}/libcapi.a");
    println!("cargo:rustc-link-search=native={folder}");
    println!("cargo:rustc-link-lib=static=capi");
}

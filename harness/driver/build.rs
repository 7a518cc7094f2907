// Links the static library that `harness/library` writes; ZUZGRAVEL_LIB names its folder.
fn main() {
    let folder = std::env::var("ZUZGRAVEL_LIB").unwrap_or_else(|_| {
        let here = std::env::var("CARGO_MANIFEST_DIR").unwrap();
        format!("{here}/../../target/staticlib")
    });
    println!("cargo:rustc-link-search=native={folder}");
    println!("cargo:rustc-link-lib=static=capi");
    println!("cargo:rerun-if-changed={folder}/libcapi.a");
    println!("cargo:rerun-if-env-changed=ZUZGRAVEL_LIB");
}

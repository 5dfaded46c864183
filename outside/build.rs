// With the feature `proved`, links libhost.a from the folder named by PROVED_LIB_DIR.
fn main() {
    println!("cargo:rerun-if-changed=build.rs");
    println!("cargo:rerun-if-env-changed=PROVED_LIB_DIR");
    if std::env::var_os("CARGO_FEATURE_PROVED").is_some() {
        let folder = std::env::var("PROVED_LIB_DIR")
            .expect("set PROVED_LIB_DIR to the folder that holds libhost.a");
        println!("cargo:rerun-if-changed={folder}/libhost.a");
        println!("cargo:rustc-link-search=native={folder}");
        println!("cargo:rustc-link-lib=static=host");
    }
}

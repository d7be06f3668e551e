// Links the library that `tools/staticlib export` makes.
fn main() {
    let root = std::env::var("CARGO_MANIFEST_DIR").unwrap();
    println!("cargo:rustc-link-search=native={root}/../../target/staticlib");
    println!("cargo:rustc-link-lib=static=export");
    println!("cargo:rerun-if-changed={root}/../../target/staticlib/libexport.a");
}

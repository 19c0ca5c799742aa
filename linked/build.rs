fn main() {
    let native = concat!(env!("CARGO_MANIFEST_DIR"), "/../target/native");
    println!("cargo:rustc-link-search=native={native}");
    println!("cargo:rustc-link-lib=static=pmtiles");
    println!("cargo:rerun-if-changed={native}/libpmtiles.a");
}

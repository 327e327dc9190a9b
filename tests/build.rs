//! Links the product's static library where CUDDREMAI_LIBRARY names the folder that it stands in.

fn main() {
    println!("cargo:rerun-if-env-changed=CUDDREMAI_LIBRARY");
    if let Ok(folder) = std::env::var("CUDDREMAI_LIBRARY") {
        println!("cargo:rustc-link-search=native={folder}");
        println!("cargo:rustc-link-arg-bin=library=-lcuddremai_c");
    }
}

//! Says where the static libraries are: `rt lib` in the crates bernstein and test_calls writes each to the folder out of its crate.

fn main() {
    for library in ["bernstein", "test_calls"] {
        let folder = format!("{}/../../crates/{library}/out", env!("CARGO_MANIFEST_DIR"));
        println!("cargo:rustc-link-search=native={folder}");
        println!("cargo:rerun-if-changed={folder}/lib{library}.a");
    }
}

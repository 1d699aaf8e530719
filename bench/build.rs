//! Links the proved library into the bench, where bench/run says where it lies.

fn main() {
    println!("cargo:rerun-if-env-changed=JUNTZERO_LIBRARIES");
    for library in std::env::var("JUNTZERO_LIBRARIES").unwrap_or_default().split_whitespace() {
        println!("cargo:rustc-link-arg-bin=bench={library}");
        println!("cargo:rerun-if-changed={library}");
    }
}

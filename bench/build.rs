//! Links libfec; the crate `chamanzil` links the proved library.
fn main() {
    println!("cargo:rustc-link-lib=fec");
}

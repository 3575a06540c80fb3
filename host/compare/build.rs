//! Whether the original's source is here.
fn main() {
    if std::env::var("DEP_ORIGINAL_SOURCE_PRESENT").is_ok() {
        println!("cargo:rustc-cfg=source");
    }
}

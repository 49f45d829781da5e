//! Asks, as many build scripts do, whether the compiler takes unstable features.

fn main() {
    println!("cargo:rerun-if-env-changed=RUSTC_BOOTSTRAP");
    println!("cargo:rustc-check-cfg=cfg(unstable)");
    if std::env::var_os("RUSTC_BOOTSTRAP").is_some() {
        println!("cargo:rustc-cfg=unstable");
    }
}

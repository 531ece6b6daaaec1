//! Links the long run with the library, where it is to have that in its own process.

fn main() {
    if std::env::var_os("CARGO_FEATURE_HERE").is_some() {
        for part in ["outside/serve.o", "staticlib/libdrobisten.a"] {
            let path = format!("{}/../target/{part}", env!("CARGO_MANIFEST_DIR"));
            println!("cargo:rerun-if-changed={path}");
            println!("cargo:rustc-link-arg-bins={path}");
        }
    }
}

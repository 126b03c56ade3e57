//! Links the archives of target/staticlib, and builds again where they changed.

fn main() {
    let here = std::env::var("CARGO_MANIFEST_DIR").expect("cargo names this folder");
    let archives = std::env::var("TERKINOHA_ARCHIVES").unwrap_or(format!("{here}/../target/staticlib"));
    println!("cargo:rustc-link-search=native={archives}");
    println!("cargo:rerun-if-env-changed=TERKINOHA_ARCHIVES");
    for name in ["terkinoha", "bench_utf8"] {
        println!("cargo:rerun-if-changed={archives}/lib{name}.a");
    }
}

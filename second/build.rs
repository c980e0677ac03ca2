// Links the engine's static library, which stands under target/staticlib of the repository.
fn main() {
    let here = std::env::var("CARGO_MANIFEST_DIR").expect("cargo names the package's folder");
    let folder = format!("{here}/../target/staticlib");
    println!("cargo:rustc-link-search=native={folder}");
    println!("cargo:rustc-link-lib=static=doughpillar");
    println!("cargo:rerun-if-changed={folder}/libdoughpillar.a");
}

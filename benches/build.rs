//! Links the static library of what is timed, which `benches/run` has made, from the folder that it names.

fn main() {
    let folder = std::env::var("SATVRENGI_STATICLIB").expect("benches/run says where the static library is");
    println!("cargo:rerun-if-env-changed=SATVRENGI_STATICLIB");
    println!("cargo:rerun-if-changed={folder}/libtimed.a");
    println!("cargo:rustc-link-search=native={folder}");
    println!("cargo:rustc-link-lib=static=timed");
}

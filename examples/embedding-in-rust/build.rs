//! Links the archive from the folder that WAKHURMI names, which `c/build.sh` filled.

fn main() {
    let folder = std::env::var("WAKHURMI").expect("WAKHURMI names the folder of libwakhurmi.a");
    println!("cargo:rustc-link-search=native={folder}");
    println!("cargo:rustc-link-lib=static=wakhurmi");
    println!("cargo:rerun-if-env-changed=WAKHURMI");
    for file in ["libwakhurmi.a", "wakhurmi.h"] {
        println!("cargo:rerun-if-changed={folder}/{file}");
    }
}

// Links the proved core, and Intel's ISA-L where the machine has it.
use std::env;
use std::path::Path;

const ISAL: [&str; 4] = [
    "/usr/lib/x86_64-linux-gnu/libisal.so",
    "/usr/lib/libisal.so",
    "/usr/lib64/libisal.so",
    "/usr/local/lib/libisal.so",
];

fn main() {
    let here = env::var("CARGO_MANIFEST_DIR").expect("cargo names the folder");
    let core = format!("{here}/../crates/ffi/out");
    println!("cargo:rustc-link-search=native={core}");
    println!("cargo:rustc-link-lib=static=ffi");
    println!("cargo:rerun-if-changed={core}/libffi.a");
    println!("cargo:rustc-check-cfg=cfg(isal)");
    if let Some(found) = ISAL.iter().find(|path| Path::new(path).exists()) {
        let folder = Path::new(found).parent().expect("a file lies in a folder");
        println!("cargo:rustc-link-search=native={}", folder.display());
        println!("cargo:rustc-link-lib=dylib=isal");
        println!("cargo:rustc-cfg=isal");
    }
}

//! Links target/staticlib/libotterchime.a, or the archive in the folder that OTTERCHIME_LIB names. The archive is for x86-64
//! Linux; for any other machine the package is built without its calls, with a warning.
use std::env;
use std::path::PathBuf;

fn main() {
    println!("cargo:rustc-check-cfg=cfg(otterchime_linked)");
    println!("cargo:rerun-if-env-changed=OTTERCHIME_LIB");
    let of_target = |name: &str| env::var(format!("CARGO_CFG_TARGET_{name}")).unwrap_or_default();
    let (machine, system) = (of_target("ARCH"), of_target("OS"));
    if machine != "x86_64" || system != "linux" {
        println!("cargo:warning=the proved library is for x86-64 Linux and can't be linked on {machine} {system}: built without its calls");
        return;
    }
    let package = PathBuf::from(env::var_os("CARGO_MANIFEST_DIR").expect("cargo names the package's folder"));
    let folder = env::var_os("OTTERCHIME_LIB").map_or(package.join("../target/staticlib"), PathBuf::from);
    let archive = folder.join("libotterchime.a");
    println!("cargo:rerun-if-changed={}", archive.display());
    if !archive.is_file() {
        eprintln!(
            "otterchime: {} is not there: run `tools/archive` in the repository, or set OTTERCHIME_LIB to its folder",
            archive.display()
        );
        std::process::exit(1);
    }
    println!("cargo:rustc-link-search=native={}", folder.display());
    println!("cargo:rustc-link-lib=static=otterchime");
    println!("cargo:rustc-cfg=otterchime_linked");
}

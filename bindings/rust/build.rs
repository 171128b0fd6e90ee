//! Links the archive that `./build-library FOLDER` leaves, where ONCRPC_LIBRARY names the folder; else `library/` at
//! the top of the repository.
use std::env;
use std::path::PathBuf;

fn main() {
    println!("cargo:rerun-if-env-changed=ONCRPC_LIBRARY");
    let here = PathBuf::from(env::var_os("CARGO_MANIFEST_DIR").expect("cargo names the package's folder"));
    let folder = env::var_os("ONCRPC_LIBRARY").map_or_else(|| here.join("../../library"), PathBuf::from);
    println!("cargo:rerun-if-changed={}", folder.join("liboncrpc.a").display());
    println!("cargo:rustc-link-search=native={}", folder.display());
    println!("cargo:rustc-link-lib=static=oncrpc");
}

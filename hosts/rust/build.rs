//! Links the library that `tools/native-staticlib exports` writes; PARNUSILD_LIB names its folder where it is another.
use std::env;
use std::path::{Path, PathBuf};

/// Without the library the linker's own error would come, which doesn't say how to get it.
fn library_in(folder: &Path) -> PathBuf {
    let library = folder.join("libexports.a");
    if !library.exists() {
        panic!(
            "there is no {}: `tools/native-staticlib exports`, run at the top of the repository, writes it to target/native; \
             where the library is in another folder, PARNUSILD_LIB names that",
            library.display()
        );
    }
    library
}

fn main() {
    let ours = PathBuf::from(env::var("CARGO_MANIFEST_DIR").unwrap()).join("../../target/native");
    let folder = env::var("PARNUSILD_LIB").map(PathBuf::from).unwrap_or(ours);
    println!("cargo:rerun-if-env-changed=PARNUSILD_LIB");
    println!("cargo:rerun-if-changed={}", library_in(&folder).display());
    println!("cargo:rustc-link-search=native={}", folder.display());
    println!("cargo:rustc-link-lib=static=exports");
}

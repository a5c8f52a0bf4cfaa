use std::env;
use std::path::PathBuf;
use std::process;

/// Links the proved archive: the repository's own, unless STRANVEK_ARCHIVE_DIR names another folder.
fn main() {
    println!("cargo:rerun-if-env-changed=STRANVEK_ARCHIVE_DIR");
    let folder = match env::var_os("STRANVEK_ARCHIVE_DIR") {
        Some(folder) => PathBuf::from(folder),
        None => {
            let manifest =
                env::var_os("CARGO_MANIFEST_DIR").expect("cargo names the manifest's folder");
            PathBuf::from(manifest).join("../../target/staticlib")
        }
    };
    let archive = folder.join("libstranvek.a");
    println!("cargo:rerun-if-changed={}", archive.display());
    if !archive.exists() {
        eprintln!("{} is not there, the proved archive that this crate links.", archive.display());
        eprintln!("In the repository, `tools/archive` proves the library and makes it.");
        eprintln!("One that stands elsewhere is found by STRANVEK_ARCHIVE_DIR, its folder.");
        process::exit(1);
    }
    println!("cargo:rustc-link-search=native={}", folder.display());
    println!("cargo:rustc-link-lib=static=stranvek");
    // The build script of a crate whose tests read the archive's symbols asks for this.
    println!("cargo:archive={}", archive.display());
}

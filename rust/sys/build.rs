use std::env;

/// The range functions stand in the archive that `stranvek` links; the tests read its symbols.
fn main() {
    let archive =
        env::var("DEP_STRANVEK_ARCHIVE").expect("stranvek's build script says where it is");
    println!("cargo:rustc-env=STRANVEK_ARCHIVE={}", archive);
}

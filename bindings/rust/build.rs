//! Links `libfintaqush.a`: from the folder that FINTAQUSH_LIB names, or from where this repository
//! builds it. With DOCS_RS set, as by docs.rs, nothing is linked, so `cargo doc` needs no library.
use std::env;
use std::path::{Path, PathBuf};
use std::process;

const NAME: &str = "libfintaqush.a";

fn main() {
    println!("cargo:rerun-if-env-changed=FINTAQUSH_LIB");
    println!("cargo:rerun-if-env-changed=DOCS_RS");
    if env::var_os("DOCS_RS").is_some() {
        return;
    }
    match archive() {
        Ok(archive) => link(&archive),
        Err(why) => {
            eprintln!("fintaqush: {why}");
            process::exit(1);
        }
    }
}

fn archive() -> Result<PathBuf, String> {
    let machine = env::var("CARGO_CFG_TARGET_ARCH").unwrap_or_default();
    if machine != "x86_64" && machine != "aarch64" {
        return Err(format!("{NAME} is for x86-64 and arm64 alone"));
    }
    let (folder, cure) = match env::var_os("FINTAQUSH_LIB") {
        Some(named) => (
            PathBuf::from(named),
            "FINTAQUSH_LIB has to be the whole path of the folder that has it",
        ),
        None => (
            Path::new(env!("CARGO_MANIFEST_DIR")).join("../../crates/napi_c/out"),
            "run `scripts/c_library.sh crates/napi_c/out` at the top of the repository, or let \
             FINTAQUSH_LIB name the folder of one that is installed, as PREFIX/lib",
        ),
    };
    let archive = folder.join(NAME);
    if !folder.is_absolute() || !archive.is_file() {
        return Err(format!("there is no {}: {cure}", archive.display()));
    }
    Ok(archive)
}

fn link(archive: &Path) {
    let folder = archive.parent().unwrap_or(archive);
    println!("cargo:rerun-if-changed={}", archive.display());
    println!("cargo:rustc-link-search=native={}", folder.display());
    println!("cargo:rustc-link-lib=static=fintaqush");
}

//! Finds openjp2's sources and names them to the compiler, and links our archive when asked to. Where that has the run by single steps,
//! the program is built with `cfg(stepped)`.

use std::env;
use std::fs;
use std::path::{Path, PathBuf};
use std::process::exit;

/// The files of openjp2 that are compiled unchanged.
const FILES: [&str; 7] = ["c_api_types", "consts", "image", "malloc", "math", "pi", "types"];

/// The export that makes a whole run by single steps.
const STEPPED: &str = "bonxigarth_stepped_run";

fn main() {
    let bench = PathBuf::from(env::var("CARGO_MANIFEST_DIR").unwrap());
    let repository = bench.parent().unwrap().to_path_buf();
    name_sources(&repository);
    if env::var_os("CARGO_FEATURE_OURS").is_some() {
        link_archives(&repository);
    }
}

/// Writes one `mod` line with an absolute path for each file of openjp2.
fn name_sources(repository: &Path) {
    println!("cargo:rerun-if-env-changed=OPENJP2_SRC");
    let folder = from_environment("OPENJP2_SRC", &repository.join("../shared/docs/src"));
    let mut modules = String::new();
    for file in FILES {
        let path = folder.join("src").join(file).with_extension("rs");
        let Ok(path) = path.canonicalize() else {
            fail(&format!(
                "the sources of openjp2 are not there: {} is missing.\n\
                 Give their folder (the one that holds src/pi.rs) as OPENJP2_SRC.",
                path.display()
            ));
        };
        println!("cargo:rerun-if-changed={}", path.display());
        modules += &format!("#[allow(warnings)]\n#[path = {path:?}]\nmod {file};\n");
    }
    let target = PathBuf::from(env::var("OUT_DIR").unwrap()).join("openjp2.rs");
    fs::write(target, modules).expect("cannot write the list of modules");
}

/// Links the archive with our C exports, and the one with the run by single steps if that is another.
fn link_archives(repository: &Path) {
    println!("cargo:rerun-if-env-changed=BONXIGARTH_LIB");
    println!("cargo:rerun-if-env-changed=BONXIGARTH_STEPPED_LIB");
    let archive = from_environment("BONXIGARTH_LIB", &repository.join("crates/host/out/libhost.a"));
    let stepped = from_environment("BONXIGARTH_STEPPED_LIB", &archive);
    link(&archive);
    if stepped != archive {
        link(&stepped);
    }
    if names(&stepped, STEPPED) {
        println!("cargo:rustc-cfg=stepped");
    }
}

/// Whether an archive has a symbol of this name.
fn names(archive: &Path, symbol: &str) -> bool {
    let bytes = fs::read(archive).expect("cannot read the archive");
    bytes.windows(symbol.len()).any(|window| window == symbol.as_bytes())
}

/// Tells the linker of a static archive.
fn link(archive: &Path) {
    let Ok(archive) = archive.canonicalize() else {
        fail(&format!(
            "our archive is not there: {} is missing.\n\
             Build it (make native) or give its path as BONXIGARTH_LIB (or BONXIGARTH_STEPPED_LIB).",
            archive.display()
        ));
    };
    let stem = archive.file_stem().and_then(|stem| stem.to_str()).unwrap_or("");
    let Some(name) = stem.strip_prefix("lib") else {
        fail(&format!("the archive's name must be lib*.a: {}", archive.display()));
    };
    println!("cargo:rerun-if-changed={}", archive.display());
    println!("cargo:rustc-link-search=native={}", archive.parent().unwrap().display());
    println!("cargo:rustc-link-lib=static={name}");
}

fn from_environment(name: &str, otherwise: &Path) -> PathBuf {
    env::var_os(name).map_or_else(|| otherwise.to_path_buf(), PathBuf::from)
}

fn fail(message: &str) -> ! {
    eprintln!("{message}");
    exit(1);
}

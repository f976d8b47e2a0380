//! Links the library. DMA330_LIB names the archive. Without it, links the one that a release has in this crate's folder
//! `lib`, else this repository's, which `make library` builds, else the one that `make install` installed,
//! which pkg-config finds.

use std::path::{Path, PathBuf};
use std::process::{exit, Command};

fn main() {
    println!("cargo:rerun-if-env-changed=DMA330_LIB");
    // (the pages of the API are built without the library)
    println!("cargo:rerun-if-env-changed=DOCS_RS");
    if std::env::var_os("DOCS_RS").is_some() {
        return;
    }
    match std::env::var_os("DMA330_LIB") {
        Some(named) => link(&PathBuf::from(named)),
        None => link(&nearby().unwrap_or_else(installed)),
    }
}

fn nearby() -> Option<PathBuf> {
    let variable = |name| std::env::var(name).expect("cargo names the crate's folder and the target");
    let target = format!("{}-{}", variable("CARGO_CFG_TARGET_ARCH"), variable("CARGO_CFG_TARGET_OS"));
    let here = PathBuf::from(variable("CARGO_MANIFEST_DIR"));
    let places = [here.join("lib").join(target).join("libdma330.a"), here.join("../../out/libdma330.a")];
    places.into_iter().find(|place| place.is_file())
}

fn installed() -> PathBuf {
    let found = Command::new("pkg-config").args(["--variable=libdir", "dma330"]).output();
    let folder = found.ok().filter(|found| found.status.success()).and_then(|found| String::from_utf8(found.stdout).ok());
    match folder {
        Some(folder) => Path::new(folder.trim()).join("libdma330.a"),
        None => fail(
            "libdma330.a is missing for this target: a release has it in this crate's folder lib, but there is none, it \
             isn't built in this repository, pkg-config finds none that is installed, and DMA330_LIB isn't set.\n\
             To build it, run `make library` at the top of the repository, which needs the Rattle kit. \
             Or set DMA330_LIB to the path of an archive that is built elsewhere.",
        ),
    }
}

fn link(archive: &Path) {
    let name = archive.file_stem().and_then(|stem| stem.to_str()).and_then(|stem| stem.strip_prefix("lib"));
    let (Some(folder), Some(name), true) = (archive.parent(), name, archive.is_file()) else {
        fail(&format!("there is no archive {}: DMA330_LIB or pkg-config names a file that is missing", archive.display()));
    };
    println!("cargo:rerun-if-changed={}", archive.display());
    println!("cargo:rustc-link-search=native={}", folder.display());
    println!("cargo:rustc-link-lib=static={name}");
}

fn fail(text: &str) -> ! {
    eprintln!("{text}");
    exit(1)
}

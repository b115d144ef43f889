//! Finds the library: in the folder RIVETGNOME_LIB, else by pkg-config, else in target/staticlib of the repository, where `make lib` builds it.
use std::env;
use std::path::{Path, PathBuf};
use std::process::Command;

const STATIC: &str = "librivetgnome.a";
const SHARED: &str = "librivetgnome.so";

fn has(folder: &Path) -> bool {
    folder.join(STATIC).exists() || folder.join(SHARED).exists()
}

fn by_pkg_config() -> Option<PathBuf> {
    let tool = env::var("PKG_CONFIG").unwrap_or_else(|_| "pkg-config".into());
    let wanted = concat!("rivetgnome >= ", env!("CARGO_PKG_VERSION"));
    Command::new(&tool)
        .args(["--exists", wanted])
        .status()
        .ok()
        .filter(|status| status.success())?;
    let out = Command::new(tool).args(["--variable=libdir", "rivetgnome"]).output().ok()?;
    let folder = PathBuf::from(String::from_utf8(out.stdout).ok()?.trim());
    has(&folder).then_some(folder)
}

fn by_repository() -> PathBuf {
    let root = Path::new(env!("CARGO_MANIFEST_DIR")).join("../..");
    let folder = root.join("target/staticlib");
    if !has(&folder) {
        let made = Command::new("make").arg("-C").arg(&root).arg("lib").status();
        assert!(
            made.is_ok_and(|status| status.success()) && has(&folder),
            "no library: set RIVETGNOME_LIB to its folder, or install it, or let `make lib` build it"
        );
    }
    folder
}

fn main() {
    for name in ["RIVETGNOME_LIB", "PKG_CONFIG", "PKG_CONFIG_PATH"] {
        println!("cargo:rerun-if-env-changed={name}");
    }
    let folder = match env::var_os("RIVETGNOME_LIB") {
        Some(folder) => {
            let folder = PathBuf::from(folder);
            assert!(has(&folder), "no {STATIC} or {SHARED} in RIVETGNOME_LIB, {}", folder.display());
            folder
        }
        None => by_pkg_config().unwrap_or_else(by_repository),
    };
    let (kind, file) = if folder.join(STATIC).exists() {
        ("static", STATIC)
    } else {
        ("dylib", SHARED)
    };
    println!("cargo:rerun-if-changed={}", folder.join(file).display());
    println!("cargo:rustc-link-search=native={}", folder.display());
    println!("cargo:rustc-link-lib={kind}=rivetgnome");
}

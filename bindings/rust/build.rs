//! Finds the library `libjonquilsaw.a`: in `JONQUILSAW_LIB_DIR`, else as pkg-config has it, else in the repository, whose `./archive` makes it where it is
//! missing or not of these sources. Documents are made without it (`cargo doc`; always where `DOCS_RS` is set).

use std::env;
use std::fs::{OpenOptions, read_dir};
use std::io::{BufRead, BufReader, Write};
use std::path::{Path, PathBuf};
use std::process::{Command, Stdio, exit};

const ARCHIVE: &str = "libjonquilsaw.a";

fn fail(message: &str) -> ! {
    eprintln!("jonquilsaw: {message}");
    exit(1)
}

fn warn(message: &str) {
    println!("cargo::warning={message}");
}

/// The folder that the caller names.
fn named() -> Option<PathBuf> {
    let folder = PathBuf::from(env::var_os("JONQUILSAW_LIB_DIR")?);
    if !folder.join(ARCHIVE).is_file() {
        fail(&format!("JONQUILSAW_LIB_DIR is {}, which holds no {ARCHIVE}", folder.display()));
    }
    Some(folder)
}

/// The folder of an installed library of this crate's version (`./install`).
fn installed() -> Option<PathBuf> {
    let pkg_config = env::var_os("PKG_CONFIG").unwrap_or_else(|| "pkg-config".into());
    let version = format!("--exact-version={}", env::var("CARGO_PKG_VERSION").ok()?);
    let ask =
        |word: &str| Command::new(&pkg_config).args([word, "jonquilsaw"]).stderr(Stdio::null()).output().ok().filter(|out| out.status.success());
    ask(&version)?;
    let folder = PathBuf::from(String::from_utf8(ask("--variable=libdir")?.stdout).ok()?.trim());
    if !folder.join(ARCHIVE).is_file() {
        return None;
    }
    if root().is_some() {
        warn(&format!("links the installed {ARCHIVE} in {}, and not the repository's; JONQUILSAW_LIB_DIR names another", folder.display()));
    }
    Some(folder)
}

/// The repository, if this crate stands in it.
fn root() -> Option<PathBuf> {
    let root = PathBuf::from(env::var_os("CARGO_MANIFEST_DIR").expect("cargo says where the crate is")).join("../..");
    root.join("archive").is_file().then_some(root)
}

/// Whether the Rattle kit is at hand.
fn kit() -> bool {
    Command::new("rt").arg("version").stdout(Stdio::null()).stderr(Stdio::null()).status().is_ok_and(|status| status.success())
}

/// Runs `./archive`. Proving takes minutes, and cargo keeps what a build script says to itself: each line goes to the terminal, too, if there is one.
fn make(root: &Path) -> bool {
    let made = Command::new(root.join("archive")).stdout(Stdio::null()).stderr(Stdio::piped()).spawn();
    let mut made = made.unwrap_or_else(|why| fail(&format!("`./archive` in {} cannot be run: {why}", root.display())));
    let mut terminal = OpenOptions::new().write(true).open("/dev/tty").ok();
    for line in BufReader::new(made.stderr.take().expect("it is piped")).lines().map_while(Result::ok) {
        eprintln!("{line}");
        // Over cargo's own line of progress.
        let _ = terminal.as_mut().map(|terminal| writeln!(terminal, "\r\x1b[K{line}"));
    }
    made.wait().is_ok_and(|status| status.success())
}

/// The repository's folder, with the library made there.
fn repository() -> Option<PathBuf> {
    let root = root()?;
    for source in ["archive", "build", "crates.txt", "target/staticlib"] {
        println!("cargo::rerun-if-changed={}", root.join(source).display());
    }
    // A crate's folder out/ is written by every proof.
    for folder in read_dir(root.join("crates")).into_iter().flatten().flatten() {
        for part in ["src", "specs", "proofs"].map(|part| folder.path().join(part)) {
            if part.is_dir() {
                println!("cargo::rerun-if-changed={}", part.display());
            }
        }
    }
    if make(&root) {
        return Some(root.join("target/staticlib"));
    }
    // Nothing is trusted of a script that failed. Where there is no kit, documents can still be made.
    if kit() {
        fail(&format!("`./archive` in {} failed", root.display()));
    }
    None
}

fn main() {
    for name in ["JONQUILSAW_LIB_DIR", "DOCS_RS", "PKG_CONFIG", "PKG_CONFIG_PATH", "PKG_CONFIG_LIBDIR"] {
        println!("cargo::rerun-if-env-changed={name}");
    }
    println!("cargo::rerun-if-changed=build.rs");
    if env::var_os("DOCS_RS").is_some() {
        return;
    }
    let target = |name: &str| env::var(name).unwrap_or_default();
    let (arch, system) = (target("CARGO_CFG_TARGET_ARCH"), target("CARGO_CFG_TARGET_OS"));
    if (&*arch, &*system) != ("x86_64", "linux") {
        warn(&format!("{ARCHIVE} is compiled for x86-64 Linux; this target is {arch} {system}, so that only documents can be made"));
        return;
    }
    println!("cargo::rustc-link-lib=static=jonquilsaw");
    let Some(folder) = named().or_else(installed).or_else(repository) else {
        warn(&format!(
            "there is no {ARCHIVE} of these sources, so that only documents can be made. \
             Name the folder that holds one in JONQUILSAW_LIB_DIR, install it for pkg-config, or install the Rattle kit (rt) and build in the repository"
        ));
        return;
    };
    // A relative path would be read from another folder by the linker.
    let folder = folder.canonicalize().unwrap_or_else(|why| fail(&format!("{}: {why}", folder.display())));
    println!("cargo::rerun-if-changed={}", folder.join(ARCHIVE).display());
    println!("cargo::rustc-link-search=native={}", folder.display());
}

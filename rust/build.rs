//! Finds the static library of the proved crates, or makes it, and has it linked.
//!
//! HEWNSPANDREL_LIB names the folder of libhewnspandrel.a, by its whole path. Where it is not set, or empty, the folder is
//! crates/hewnspandrel/out of this repository, and `rt lib --cpu x86-64` in crates/hewnspandrel makes the library where it is
//! missing or older than what it is made of: crates.txt, and src, specs and proofs of each crate. Without the flag it would be
//! for some processors only, and would not test for one.

use std::fs::{self, File, OpenOptions};
use std::io::Write;
use std::path::{Path, PathBuf};
use std::process::{exit, Command};
use std::time::SystemTime;
use std::{env, io};

const LIBRARY: &str = "libhewnspandrel.a";

/// The name that bears the interface's version; src/foreign.rs has the linker look for it too.
const INTERFACE: &str = "hewn_interface_3";

fn main() {
    println!("cargo:rerun-if-env-changed=HEWNSPANDREL_LIB");
    println!("cargo:rerun-if-changed=build.rs");
    for_this_target();
    let folder = match env::var_os("HEWNSPANDREL_LIB") {
        Some(folder) if !folder.is_empty() => named(PathBuf::from(folder)),
        _ => made(),
    };
    let library = folder.join(LIBRARY);
    same_interface(&library);
    println!("cargo:rerun-if-changed={}", library.display());
    println!("cargo:rustc-link-search=native={}", folder.display());
    println!("cargo:rustc-link-lib=static=hewnspandrel");
}

/// Goes by the target, so that any host may build for x86-64 Linux.
fn for_this_target() {
    let of_target = |what: &str| env::var(format!("CARGO_CFG_TARGET_{what}")).unwrap_or_default();
    if [of_target("ARCH"), of_target("OS"), of_target("POINTER_WIDTH")] != ["x86_64", "linux", "64"] {
        let target = env::var("TARGET").unwrap_or_default();
        stop(&format!("the proved library is for x86-64 Linux, and the target of this build is {target}"));
    }
}

/// The folder that the caller names, as it is.
fn named(folder: PathBuf) -> PathBuf {
    let name = folder.display();
    if folder.is_relative() {
        // cargo runs this script in the crate's folder, not where the name was typed
        stop(&format!("HEWNSPANDREL_LIB names {name}, which is no whole path: let it begin with /"));
    }
    if !folder.join(LIBRARY).is_file() {
        stop(&format!("HEWNSPANDREL_LIB names {name}, and there is no {LIBRARY} in it"));
    }
    folder
}

/// crates/hewnspandrel/out of the repository, with a library that is as new as its sources.
fn made() -> PathBuf {
    let here = PathBuf::from(env::var_os("CARGO_MANIFEST_DIR").unwrap());
    let repository = here.join("..").canonicalize().expect("the folder above this crate");
    let crates = repository.join("crates");
    if !crates.is_dir() {
        stop(&format!("no proved crates beside this folder ({}): set HEWNSPANDREL_LIB to the folder of {LIBRARY}", crates.display()));
    }
    let sources = sources(&repository);
    for source in &sources {
        println!("cargo:rerun-if-changed={}", source.display());
    }
    let library_crate = crates.join("hewnspandrel");
    let library = library_crate.join("out").join(LIBRARY);
    if is_old(&library, &sources) {
        let lock = lock(&repository.join("target"));
        // another build may have made it while this one waited
        if is_old(&library, &sources) {
            let state = if library.is_file() { "is older than its sources" } else { "does not exist yet" };
            make(&library_crate, &format!("{} {state}", library.display()), lock);
        }
    }
    if !library.is_file() {
        stop(&format!("`rt lib` ended well, but {} is not there", library.display()));
    }
    library_crate.join("out")
}

/// What the library is made of: crates.txt, and all of each crate but its `out`, which rt writes.
fn sources(repository: &Path) -> Vec<PathBuf> {
    let crates = fs::read_dir(repository.join("crates")).into_iter().flatten().flatten();
    let parts = crates.flat_map(|one| ["src", "specs", "proofs"].map(|part| one.path().join(part)));
    [repository.join("crates.txt")].into_iter().chain(parts.filter(|part| part.is_dir())).collect()
}

fn make(library_crate: &Path, cause: &str, lock: File) {
    say(&format!("{cause}, so `rt lib` makes it now in {}: minutes where nothing is proved yet", library_crate.display()));
    let way_out = format!("or set HEWNSPANDREL_LIB to a folder that has {LIBRARY}, which is then taken as it is");
    let mut rt = Command::new("rt");
    rt.args(["lib", "--cpu", "x86-64"]).current_dir(library_crate);
    // what rt says is for people; cargo reads this script's output
    rt.stdout(io::stderr());
    // rt holds the lock too, so that it stays taken where this script is killed and rt runs on
    rt.stdin(lock);
    match rt.status() {
        Err(e) => stop(&format!("{cause}, and `rt` could not be started ({e}): put the Rattle kit's rt on PATH, {way_out}")),
        Ok(s) if !s.success() => stop(&format!("{cause}, and `rt lib` failed ({s}): read its words above, {way_out}")),
        Ok(_) => (),
    }
}

/// Waits until no other build makes the library. The kernel gives the lock back when its last holder ends, however it
/// ends, so that none is left behind.
fn lock(target: &Path) -> File {
    let path = target.join("staticlib.lock");
    let open = || {
        fs::create_dir_all(target)?;
        OpenOptions::new().create(true).truncate(false).write(true).read(true).open(&path)
    };
    let file = open().unwrap_or_else(|e| stop(&format!("{} could not be opened: {e}", path.display())));
    if !flock(&file, false) {
        say("another build makes the library; this one waits for it");
        if !flock(&file, true) {
            stop(&format!("{} could not be locked: {}", path.display(), io::Error::last_os_error()));
        }
    }
    file
}

/// flock(2), which the standard library has only from Rust 1.89 on.
#[cfg(unix)]
fn flock(file: &File, wait: bool) -> bool {
    use std::os::fd::AsRawFd;
    extern "C" {
        fn flock(fd: i32, operation: i32) -> i32;
    }
    const EXCLUSIVE: i32 = 2;
    const AT_ONCE: i32 = 4;
    // SAFETY: the file is open, and flock(2) touches no memory of ours.
    unsafe { flock(file.as_raw_fd(), if wait { EXCLUSIVE } else { EXCLUSIVE | AT_ONCE }) == 0 }
}

/// There is no rt for such a host, so nothing to keep apart.
#[cfg(not(unix))]
fn flock(_file: &File, _wait: bool) -> bool {
    true
}

/// One sentence before the linker's many, where the library has another interface than this crate.
fn same_interface(library: &Path) {
    let archive = fs::read(library).unwrap_or_else(|e| stop(&format!("{} could not be read: {e}", library.display())));
    if names(&archive).is_some_and(|mut names| !names.any(|name| name == INTERFACE.as_bytes())) {
        let library = library.display();
        stop(&format!("{library} has another interface than this crate, which needs {INTERFACE}: take both from one version"));
    }
}

/// The names in an archive's index, where it has one of the usual form: the first member, called `/`. Its header of 60
/// bytes ends with its size; then come a count of 4 bytes, as many offsets of 4, and the names, each with a 0 after it.
fn names(archive: &[u8]) -> Option<impl Iterator<Item = &[u8]>> {
    let header = archive.strip_prefix(b"!<arch>\n/ ")?.get(..58)?;
    let size: usize = std::str::from_utf8(&header[46..56]).ok()?.trim().parse().ok()?;
    let index = archive.get(68..)?.get(..size)?;
    let count = u32::from_be_bytes(index.get(..4)?.try_into().ok()?) as usize;
    Some(index.get(4 + 4 * count..)?.split(|&byte| byte == 0))
}

fn is_old(library: &Path, sources: &[PathBuf]) -> bool {
    changed(library) < sources.iter().map(|source| newest(source)).max()
}

fn changed(file: &Path) -> Option<SystemTime> {
    fs::metadata(file).and_then(|m| m.modified()).ok()
}

/// When a file, or the newest of a folder and all below it, was changed. A folder changes when something in it comes or goes.
fn newest(source: &Path) -> SystemTime {
    let entries = fs::read_dir(source).into_iter().flatten().flatten();
    let own = changed(source).unwrap_or(SystemTime::UNIX_EPOCH);
    entries.map(|e| newest(&e.path())).fold(own, SystemTime::max)
}

/// At once, for someone who waits: cargo keeps back what a build script writes until it has ended, so it goes to the
/// terminal where there is one. `cargo build -vv` shows it as well.
fn say(what: &str) {
    eprintln!("hewnspandrel: {what}");
    if let Ok(mut terminal) = OpenOptions::new().write(true).open("/dev/tty") {
        // cargo's progress bar stands on the line
        let _ = write!(terminal, "\r\x1b[Khewnspandrel: {what}\n");
    }
}

fn stop(why: &str) -> ! {
    eprintln!("hewnspandrel: {why}");
    exit(1)
}

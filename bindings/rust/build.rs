//! Links the library, `libcommitgraph.a`. It is looked for in the folders that `COMMITGRAPH_LIB` names, with a colon between
//! them; where that is not set, in this clone, where `building/library` makes it, and then where `pkg-config` says.
use std::os::unix::process::parent_id;
use std::path::{Path, PathBuf};
use std::process::{exit, Command};
use std::{env, fs};

/// What is to be linked: all names of a row stand in the folders, or the row is not it.
const ARCHIVES: [&[&str]; 2] = [&["commitgraph_c", "libc_c"], &["commitgraph"]];

fn main() {
    println!("cargo:rerun-if-changed=build.rs");
    println!("cargo:rerun-if-env-changed=COMMITGRAPH_LIB");
    let named = env::var_os("COMMITGRAPH_LIB").filter(|named| !named.is_empty());
    if let Some(named) = named {
        let folders: Vec<_> = env::split_paths(&named).map(whole).collect();
        if !link_first(&folders) {
            give_up(&folders, "COMMITGRAPH_LIB names no other folder", "unset COMMITGRAPH_LIB and ");
        }
    } else {
        let built = [clone().join("crates/commitgraph_c/out")];
        if !link_first(&built) && !link_installed() {
            give_up(&built, "pkg-config knows no commitgraph", "");
        }
    }
}

/// Ends the build, since no library is in these folders, and elsewhere neither; and says what is to be done first.
fn give_up(folders: &[PathBuf], elsewhere: &str, first: &str) -> ! {
    let places: Vec<_> = folders.iter().map(|folder| folder.join("libcommitgraph.a").display().to_string()).collect();
    let script = clone().join("building/library");
    let script = if script.is_file() { format!("'{}'", script.display()) } else { "building/library in a clone of Nolavimure".into() };
    eprintln!(
        "there is no {}, and {elsewhere}; what to do: {first}run {script}, which proves and builds it; or after building/install \
         --library PREFIX let COMMITGRAPH_LIB name the folder PREFIX/lib",
        places.join(", and no ")
    );
    exit(1);
}

/// The top of the clone that this crate is in.
fn clone() -> PathBuf {
    let folder = PathBuf::from(env::var_os("CARGO_MANIFEST_DIR").expect("Cargo names it")).join("../..");
    folder.canonicalize().unwrap_or(folder)
}

/// A folder by its whole path. One that is not whole begins where Cargo was started.
fn whole(folder: PathBuf) -> PathBuf {
    if folder.is_absolute() {
        return folder;
    }
    let Ok(started) = fs::read_link(format!("/proc/{}/cwd", parent_id())) else {
        eprintln!(
            "COMMITGRAPH_LIB names {}, and the system does not tell where that begins; what to do: let it name the whole path",
            folder.display()
        );
        exit(1);
    };
    look_again_elsewhere(&started);
    started.join(folder)
}

/// Has Cargo look again where it is started in another folder than this one. It sees that by `PWD`; where that says another folder, or
/// none, it looks each time, since the file of this name is never there.
fn look_again_elsewhere(started: &Path) {
    println!("cargo:rerun-if-env-changed=PWD");
    let told = env::var_os("PWD").and_then(|told| fs::canonicalize(told).ok());
    if told.as_deref() != Some(started) {
        println!("cargo:rerun-if-changed=no/such/file");
    }
}

/// Links the first archives that are all there, and says whether there are any. A newer archive is linked anew.
fn link_first(folders: &[PathBuf]) -> bool {
    ARCHIVES.iter().any(|names| {
        let found: Option<Vec<_>> = names.iter().map(|name| archive(folders, name)).collect();
        for (name, path) in names.iter().zip(found.iter().flatten()) {
            println!("cargo:rerun-if-changed={}", path.display());
            println!("cargo:rustc-link-search=native={}", path.parent().expect("a file is in a folder").display());
            println!("cargo:rustc-link-lib=static={name}");
        }
        found.is_some()
    })
}

fn archive(folders: &[PathBuf], name: &str) -> Option<PathBuf> {
    folders.iter().map(|folder| folder.join(format!("lib{name}.a"))).find(|path| path.is_file())
}

/// Links the library that `building/install --library` has put where `pkg-config` looks.
fn link_installed() -> bool {
    println!("cargo:rerun-if-env-changed=PKG_CONFIG_PATH");
    let asked = Command::new("pkg-config").args(["--variable=libdir", "commitgraph"]).output();
    let folder = asked.ok().filter(|told| told.status.success()).map(|told| String::from_utf8_lossy(&told.stdout).into_owned());
    folder.is_some_and(|folder| link_first(&[PathBuf::from(folder.trim())]))
}

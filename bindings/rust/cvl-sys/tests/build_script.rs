//! Where the build finds the library, and what it tells cargo and the packages above.

#[path = "../build/library.rs"]
mod library;

use std::fs;
use std::path::{Path, PathBuf};

use library::{Found, Library, Lookup};

const HERE: &str = "x86_64-unknown-linux-gnu";
const THERE: &str = "aarch64-unknown-linux-gnu";

/// A prefix with a library in a folder and its header, below a folder with a blank in its name.
fn prefix_with(name: &str, libdir: &str) -> PathBuf {
    let root = Path::new(env!("CARGO_TARGET_TMPDIR")).join(format!("{name} of its own"));
    for file in ["libcvl.a", "libcvl.so"].map(|file| format!("{libdir}/{file}")) {
        write(&root.join(file));
    }
    write(&root.join("include/cvl.h"));
    root
}

fn write(file: &Path) {
    fs::create_dir_all(file.parent().unwrap()).unwrap();
    fs::write(file, "").unwrap();
}

fn prefix(name: &str) -> PathBuf {
    prefix_with(name, "lib")
}

/// What is found where these variables are set, and pkg-config says this of its variables.
fn found(variables: &[(&str, &str)], package: &[(&str, &str)]) -> Result<Found, String> {
    let of = |pairs: &[(&str, &str)], name: &str| pairs.iter().find(|pair| pair.0 == name).map(|pair| pair.1.to_string());
    let fixed = [("HOST", HERE), ("TARGET", HERE)];
    let lookup =
        Lookup { variable: &|name| of(variables, name).or_else(|| of(&fixed, name)), package: &|name| of(package, name) };
    lookup.find()
}

fn library(found: Result<Found, String>) -> Library {
    match found {
        Ok(Found::Library(library)) => library,
        other => panic!("{other:?} is no library"),
    }
}

fn missing(found: Result<Found, String>) -> String {
    match found {
        Ok(Found::Missing(why)) => why,
        other => panic!("{other:?} is not missing"),
    }
}

#[test]
fn the_archive_inside_the_crate() {
    let crate_root = Path::new(env!("CARGO_TARGET_TMPDIR")).join("a crate with an archive");
    let native = crate_root.join("native").join(HERE);
    fs::create_dir_all(&native).unwrap();
    fs::write(native.join("libcvl.a"), "").unwrap();
    let own = ("CARGO_MANIFEST_DIR", crate_root.to_str().unwrap());
    let other = prefix("packaged beside").join("lib");
    let package = [("libdir", other.to_str().unwrap())];
    assert_eq!(library(found(&[own], &package)).folder, native);
    let from = |name| found(&[own, ("HOST", name), ("TARGET", HERE)], &[]);
    assert_eq!(library(from(THERE)).folder, native);
    // a folder that is named, and the shared object, which no crate has inside
    let named = ("CVL_LIB_DIR", other.to_str().unwrap());
    assert_eq!(library(found(&[own, named], &[])).folder, other);
    let shared = library(found(&[own, ("CVL_SHARED", "1")], &package));
    assert_eq!((shared.folder, shared.shared), (other, true));
    assert!(found(&[own, ("TARGET", THERE)], &[]).is_err());
}

#[test]
fn the_folder_that_a_variable_names() {
    let root = prefix("named");
    let (folder, other) = (root.join("lib"), prefix("packaged").join("lib"));
    let package = [("libdir", other.to_str().unwrap())];
    let named = library(found(&[("CVL_LIB_DIR", folder.to_str().unwrap())], &package));
    assert_eq!(named.folder, folder);
    assert_eq!(named.include, Some(root.join("include")));
    assert_eq!(
        named.lines(),
        [
            format!("cargo:rerun-if-changed={}/libcvl.a", folder.display()),
            format!("cargo:rustc-link-search=native={}", folder.display()),
            "cargo:rustc-link-lib=static=cvl".into(),
            format!("cargo:lib={}", folder.display()),
            format!("cargo:include={}/include", root.display()),
            format!("cargo:root={}", root.display()),
        ]
    );
    let wrong = found(&[("CVL_LIB_DIR", "lib")], &package).unwrap_err();
    assert!(wrong.contains("CVL_LIB_DIR is lib"), "{wrong}");
}

/// The headers stand beside the folder of the library, or beside the folder above that, as in Debian. Headers further up are
/// those of something else.
#[test]
fn the_headers_of_a_library() {
    for (libdir, has_headers) in
        [("lib", true), ("lib64", true), ("lib/x86_64-linux-gnu", true), ("deep/lib/x86_64-linux-gnu", false)]
    {
        let root = prefix_with(&format!("with {}", libdir.replace('/', " ")), libdir);
        let folder = root.join(libdir);
        let said = folder.to_str().unwrap();
        let wanted = has_headers.then(|| root.join("include"));
        let named = library(found(&[("CVL_LIB_DIR", said)], &[]));
        assert_eq!(named.include, wanted, "{libdir}");
        let lines = named.lines();
        let roots: Vec<_> = lines.iter().filter_map(|line| line.strip_prefix("cargo:root=")).collect();
        assert_eq!(roots.first().map(Path::new), has_headers.then_some(&*root), "{libdir}");
        // and where pkg-config leads, which may say no folder of headers
        let packaged = library(found(&[], &[("libdir", said)]));
        assert_eq!(packaged.include, wanted, "{libdir}");
    }
}

/// A variable that leads to no library is an error, whatever pkg-config finds.
#[test]
fn a_variable_that_is_empty_or_leads_nowhere() {
    let packaged = prefix("beside").join("lib");
    let package = [("libdir", packaged.to_str().unwrap())];
    for name in ["CVL_LIB_DIR", "CVL_LIB_DIR_x86_64_unknown_linux_gnu"] {
        let empty = found(&[(name, "")], &package).unwrap_err();
        assert!(empty.contains(&format!("{name} is empty")), "{empty}");
        for (shared, file) in [("0", "libcvl.a"), ("1", "libcvl.so")] {
            let variables = [(name, "/nowhere"), ("CVL_SHARED", shared)];
            let nowhere = found(&variables, &package).unwrap_err();
            assert!(nowhere.contains(&format!("{name} leads to /nowhere/{file}")), "{nowhere}");
        }
    }
}

#[test]
fn the_folder_of_the_package() {
    let root = prefix("package");
    let escaped = root.to_str().unwrap().replace(' ', "\\ ");
    let (lib, include) = (format!("{escaped}/lib/../lib"), format!("{escaped}/lib/../include"));
    let told = library(found(&[], &[("libdir", &lib), ("includedir", &include)]));
    assert_eq!((told.folder, told.include), (root.join("lib"), Some(root.join("include"))));
    let why = missing(found(&[], &[]));
    assert!(why.contains("CVL_LIB_DIR") && why.contains("PKG_CONFIG_PATH"), "{why}");
    assert!(missing(found(&[], &[("libdir", "/nowhere")])).contains("cvl.pc leads to /nowhere/libcvl.a"));
}

#[test]
fn the_shared_object_is_taken_where_that_is_said() {
    let folder = prefix("shared").join("lib");
    let of = |said: &str| found(&[("CVL_LIB_DIR", folder.to_str().unwrap()), ("CVL_SHARED", said)], &[]);
    for (said, shared, line) in [
        ("1", true, "cargo:rustc-link-lib=dylib=cvl"),
        ("0", false, "cargo:rustc-link-lib=static=cvl"),
        ("", false, "cargo:rustc-link-lib=static=cvl"),
    ] {
        let library = library(of(said));
        assert_eq!(library.shared, shared);
        assert!(library.lines().contains(&line.to_string()));
    }
    assert!(of("no").unwrap_err().contains("CVL_SHARED is no"));
}

#[test]
fn another_machine_needs_a_library_of_its_own() {
    let folder = prefix("other").join("lib");
    let folder = folder.to_str().unwrap();
    let package = [("libdir", folder)];
    for variables in [vec![("TARGET", THERE)], vec![("TARGET", THERE), ("CVL_LIB_DIR", folder)]] {
        let why = found(&variables, &package).unwrap_err();
        assert!(why.contains(THERE) && why.contains("CVL_LIB_DIR_aarch64_unknown_linux_gnu"), "{why}");
    }
    let own = [("TARGET", THERE), ("CVL_LIB_DIR_aarch64_unknown_linux_gnu", folder), ("CVL_LIB_DIR", "/nowhere")];
    assert_eq!(library(found(&own, &[])).folder, Path::new(folder));
    let of_this = [("CVL_LIB_DIR_x86_64_unknown_linux_gnu", folder), ("CVL_LIB_DIR", "/nowhere")];
    assert_eq!(library(found(&of_this, &[])).folder, Path::new(folder));
}

#[test]
fn pages_need_no_library() {
    for target in [HERE, THERE] {
        let asked = found(&[("DOCS_RS", "1"), ("TARGET", target)], &[]);
        assert_eq!(asked, Ok(Found::Nothing));
    }
}

#[test]
fn each_variable_that_is_asked_is_watched() {
    let asked = std::cell::RefCell::new(Vec::new());
    let ask = |name: &str| {
        asked.borrow_mut().push(name.to_string());
        (name == "TARGET" || name == "HOST").then(|| HERE.to_string())
    };
    let lookup = Lookup { variable: &ask, package: &|_| None };
    lookup.find().unwrap();
    let watched = lookup.asked();
    for name in asked.borrow().iter().filter(|name| *name != "TARGET" && *name != "HOST") {
        assert!(watched.contains(name), "{name} is asked and not watched");
    }
}

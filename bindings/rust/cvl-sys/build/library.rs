//! Where the library is: in the folder that a variable names, or where pkg-config says.

use std::path::{Path, PathBuf};

/// Whom is asked: the variables of the build, and pkg-config by its variables.
pub struct Lookup<'a> {
    pub variable: &'a dyn Fn(&str) -> Option<String>,
    pub package: &'a dyn Fn(&str) -> Option<String>,
}

/// The library of a build.
#[derive(Debug, PartialEq, Eq)]
pub struct Library {
    pub folder: PathBuf,
    pub shared: bool,
    /// The folder with `cvl.h`, where it is known.
    pub include: Option<PathBuf>,
}

/// What was found.
#[derive(Debug, PartialEq, Eq)]
pub enum Found {
    Library(Library),
    /// No variable names a library and pkg-config has none, and why. What is only checked needs none.
    Missing(String),
    /// None is wanted, since pages are made.
    Nothing,
}

impl Lookup<'_> {
    /// The variables that the answer hangs on.
    pub fn asked(&self) -> Vec<String> {
        let fixed =
            ["CARGO_MANIFEST_DIR", "DOCS_RS", "CVL_LIB_DIR", "CVL_SHARED", "PKG_CONFIG", "PKG_CONFIG_PATH", "PKG_CONFIG_LIBDIR"];
        let mut asked: Vec<String> = fixed.iter().map(|name| name.to_string()).collect();
        asked.push(self.of_target());
        asked
    }

    /// The variable that names the folder of a library for the target alone.
    fn of_target(&self) -> String {
        format!("CVL_LIB_DIR_{}", self.said("TARGET").replace(['-', '.'], "_"))
    }

    fn said(&self, name: &str) -> String {
        (self.variable)(name).unwrap_or_default()
    }

    /// Finds the library, or tells what is wrong with the target or a variable, which may also lead to no library.
    pub fn find(&self) -> Result<Found, String> {
        if (self.variable)("DOCS_RS").is_some() {
            return Ok(Found::Nothing);
        }
        let shared = match self.said("CVL_SHARED").as_str() {
            "" | "0" => false,
            "1" => true,
            other => {
                return Err(format!("the variable CVL_SHARED is {other}; it has to be 1, the shared object, or 0, the archive"))
            }
        };
        match (self.named()?, self.inside(shared)) {
            (Some((name, folder)), _) => in_folder(&name, folder, shared).map(Found::Library),
            (None, Some(library)) => Ok(Found::Library(library)),
            (None, None) => Ok(self.of_package(shared)),
        }
    }

    /// The archive inside the crate, which it has for some targets as it is released, and not in a checkout.
    fn inside(&self, shared: bool) -> Option<Library> {
        let folder = PathBuf::from((self.variable)("CARGO_MANIFEST_DIR")?).join("native").join(self.said("TARGET"));
        if shared {
            return None;
        }
        in_folder("this crate", folder, false).ok()
    }

    /// The folder that a variable names, with the variable. A library of the machine that builds is none for another one.
    fn named(&self) -> Result<Option<(String, PathBuf)>, String> {
        let (target, host, own) = (self.said("TARGET"), self.said("HOST"), self.of_target());
        let names = if target == host { vec![own.clone(), "CVL_LIB_DIR".into()] } else { vec![own.clone()] };
        let said = names.into_iter().find_map(|name| (self.variable)(&name).map(|folder| (name, PathBuf::from(folder))));
        match said {
            Some((name, folder)) if folder.as_os_str().is_empty() => {
                Err(format!("the variable {name} is empty; it has to be the folder of the library, or unset"))
            }
            Some((name, folder)) if !folder.is_absolute() => {
                Err(format!("the variable {name} is {}; it has to be a path from the root", folder.display()))
            }
            None if target != host && self.inside(false).is_none() => Err(format!(
                "this builds for {target} on {host}, and no library cvl for {target} is named: name its folder in {own}"
            )),
            found => Ok(found),
        }
    }

    fn of_package(&self, shared: bool) -> Found {
        let folder = match self.folder_of_package("libdir") {
            Some(folder) => folder,
            None => {
                let why = "name its folder in CVL_LIB_DIR, or the folder of its cvl.pc in PKG_CONFIG_PATH";
                return Found::Missing(format!("the library cvl was not found: {why}"));
            }
        };
        match in_folder("cvl.pc", folder, shared) {
            Ok(library) => {
                let said = self.folder_of_package("includedir");
                Found::Library(Library { include: said.or(library.include), ..library })
            }
            Err(why) => Found::Missing(why),
        }
    }

    /// A folder that pkg-config tells; it writes a blank with a backslash before it, and the way from its own file.
    fn folder_of_package(&self, name: &str) -> Option<PathBuf> {
        let folder = PathBuf::from((self.package)(name)?.replace("\\ ", " "));
        Some(folder.canonicalize().unwrap_or(folder))
    }
}

/// The library in a folder that `named` leads to, or why it is not there.
fn in_folder(named: &str, folder: PathBuf, shared: bool) -> Result<Library, String> {
    let file = folder.join(if shared { "libcvl.so" } else { "libcvl.a" });
    if !file.is_file() {
        return Err(format!("the library cvl was not found: {named} leads to {}, which is not there", file.display()));
    }
    let include = include_beside(&folder);
    Ok(Library { folder, shared, include })
}

/// The headers of a library in `lib`, or in a folder of the machine's kind in it.
fn include_beside(folder: &Path) -> Option<PathBuf> {
    let around = folder.ancestors().skip(1).take(2);
    around.map(|above| above.join("include")).find(|include| include.join("cvl.h").is_file())
}

impl Library {
    /// What cargo is told: what is linked, when it is looked for again, and what the build scripts of packages that depend on
    /// this one see, as DEP_CVL_LIB, DEP_CVL_INCLUDE and DEP_CVL_ROOT.
    pub fn lines(&self) -> Vec<String> {
        let folder = self.folder.display();
        let (kind, file) = if self.shared { ("dylib", "libcvl.so") } else { ("static", "libcvl.a") };
        let mut lines = vec![
            format!("cargo:rerun-if-changed={folder}/{file}"),
            format!("cargo:rustc-link-search=native={folder}"),
            format!("cargo:rustc-link-lib={kind}=cvl"),
            format!("cargo:lib={folder}"),
        ];
        if let Some(include) = &self.include {
            lines.push(format!("cargo:include={}", include.display()));
            lines.extend(include.parent().map(|root| format!("cargo:root={}", root.display())));
        }
        lines
    }
}

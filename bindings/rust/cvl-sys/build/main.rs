//! Tells cargo where the library is. `library.rs` finds it.

mod library;

use std::env;
use std::process::{exit, Command};

use library::{Found, Lookup};

/// What pkg-config says of the library by a variable of its own.
fn of_package(name: &str) -> Option<String> {
    let program = env::var("PKG_CONFIG").unwrap_or_else(|_| "pkg-config".into());
    let variable = format!("--variable={name}");
    let output = Command::new(program).args([&variable, "cvl"]).output().ok()?;
    let said = String::from_utf8(output.stdout).ok()?.trim().to_string();
    (output.status.success() && !said.is_empty()).then_some(said)
}

fn main() {
    let lookup = Lookup {
        // what is not UTF-8 stands in the error as well as it can be shown
        variable: &|name| env::var_os(name).map(|said| said.to_string_lossy().into_owned()),
        package: &of_package,
    };
    for name in lookup.asked() {
        println!("cargo:rerun-if-env-changed={name}");
    }
    match lookup.find() {
        Ok(Found::Nothing) => {}
        Ok(Found::Library(library)) => library.lines().iter().for_each(|line| println!("{line}")),
        // Pages and checks are made without the library. What is built tells by this warning why it is not there.
        Ok(Found::Missing(why)) => {
            println!("cargo:warning={why}");
            println!("cargo:rerun-if-changed=what-was-not-found");
            println!("cargo:rustc-link-lib=static=cvl");
        }
        Err(why) => {
            eprintln!("{why}");
            exit(1);
        }
    }
}

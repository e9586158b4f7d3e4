"""Which file goes where below the prefix."""

import archive
import generated
import proved

TOP = proved.TOP


# what a crate for Rust is made of
CRATE = ("Cargo.toml", "README.md", "LICENSE", "build.rs", "build/*.rs", "src/**/*.rs")


def _for_processors(libdir, work, also):
    """The library for some processors, where the loader of glibc looks for it before the one for all."""
    folders = {cpu: f"{libdir}/{archive.for_processor(cpu)}" for cpu in also}
    found = {f"{folder}/{archive.FULL}": work / archive.for_processor(cpu) / archive.FULL for cpu, folder in folders.items()}
    return found, {f"{folder}/{archive.SONAME}": archive.FULL for folder in folders.values()}


def base(places, work, written, also, made):
    """What each install has, and its links. `work` is where the library was built, also for some processors, and below `written` stands
    what the repository has not; `made` are files for this install alone, with where they go."""
    libdir, headers = places.libdir, generated.files_of(written, "include", "*.h", "*.hpp")
    crates = generated.files_of(written, "bindings/rust", *CRATE, *(f"cvl-sys/{name}" for name in CRATE))
    own, links = _for_processors(libdir, work, also)
    found = {
        "bin/cvl": work / "cvl",
        f"{libdir}/libcvl.a": work / "libcvl.a",
        f"{libdir}/{archive.FULL}": work / archive.FULL,
        "include/cvl.f90": written / "bindings/fortran/cvl.f90",
        "share/man/man1/cvl.1": TOP / "docs/man/cvl.1",
        "share/doc/cvl/docs/user/tutorial.ipynb": written / "docs/user/tutorial.ipynb",
        "share/bash-completion/completions/cvl": TOP / "bindings/shell/cvl.bash",
        "share/zsh/site-functions/_cvl": TOP / "bindings/shell/_cvl",
        "share/fish/vendor_completions.d/cvl.fish": TOP / "bindings/shell/cvl.fish",
        **made,
        **own,
        **{f"include/{name}": path for name, path in headers.items()},
        **{f"share/man/man3/{name}": path for name, path in generated.files_of(written, "docs/man", "*.3").items()},
        **{f"share/cvl/rust/{name}": path for name, path in crates.items()},
    }
    return found, {f"{libdir}/{archive.SONAME}": archive.FULL, f"{libdir}/{archive.LINKED}": archive.SONAME, **links}

"""The crates for Rust: `cvl-sys` with the library inside, and `cvl` over it. Unpacked side by side both build without a network."""

import re
import tempfile

import generated
import table

from . import packed

RUST, EXAMPLES = "bindings/rust", "examples/rust"
SOURCES = ("src/**/*.rs", "build/*.rs", "tests/**/*", "README.md", "LICENSE", "Cargo.toml")


def _outside_workspace(text):
    """The description of a crate outside of its workspace, beside the other one."""
    text = re.sub(r"\n\[workspace\]\n(?:.+\n)*", "", text)
    return text.replace('path = "cvl-sys"', f'path = "../cvl-sys-{table.VERSION}"')


def file_of(name):
    """The name of a crate's file."""
    return f"{name}-{table.VERSION}.crate"


def _write(folder, name, sources, work, time):
    whole, described = f"{name}-{table.VERSION}", work / f"{name}.toml"
    described.write_text(_outside_workspace(sources["Cargo.toml"].read_text()))
    packed.tar_gz(
        folder / file_of(name), {f"{whole}/{path}": source for path, source in {**sources, "Cargo.toml": described}.items()}, time
    )
    return file_of(name)


def write(folder, builds, time):
    """Writes both, and answers their names."""
    with tempfile.TemporaryDirectory() as work:
        written = generated.below(work)
        own = generated.files_of(written, RUST, *SOURCES)
        own.update({f"examples/{name}": path for name, path in generated.files_of(written, EXAMPLES, "*.rs").items()})
        beneath = generated.files_of(written, f"{RUST}/cvl-sys", *SOURCES)
        beneath["native/x86_64-unknown-linux-gnu/libcvl.a"] = builds.library()
        return [_write(folder, "cvl", own, builds.work, time), _write(folder, "cvl-sys", beneath, builds.work, time)]

"""Recipes for other package managers, as text: each takes the tree of this release, by its name and its sum."""

import hashlib
import json

import table

from . import older_glibc, packed, texts, trees

NAME = f"cvl-recipes-{table.VERSION}"
FILE = f"{NAME}.tar.gz"
SUMMARY = "Proved vector calls for flat and nested data"
# the folders of the tree that each takes
FOLDERS = ("bin", "include", "lib", "share")

CONDA = """package:
  name: cvl
  version: "{version}"

source:
  url: {url}
  sha256: {sha256}

build:
  number: 0
  skip: true  # [not linux64]
  script: mkdir -p "$PREFIX" && cp -a {folders} "$PREFIX"

requirements:
  run:
    - __glibc >={glibc}

test:
  commands:
    - cvl --version

about:
  license: MIT
  license_file: share/doc/cvl/LICENSE
  summary: {summary}
"""

VCPKG = """vcpkg_download_distfile(archive URLS "{url}" FILENAME "{file}" SHA512 {sha512})
vcpkg_extract_source_archive(tree ARCHIVE "${{archive}}")
file(INSTALL "${{tree}}/include/" DESTINATION "${{CURRENT_PACKAGES_DIR}}/include" FILES_MATCHING PATTERN "*.h")
file(INSTALL "${{tree}}/lib/libcvl.a" DESTINATION "${{CURRENT_PACKAGES_DIR}}/lib")
file(INSTALL "${{tree}}/lib/pkgconfig/cvl.pc" DESTINATION "${{CURRENT_PACKAGES_DIR}}/lib/pkgconfig")
set(VCPKG_POLICY_MISMATCHED_NUMBER_OF_BINARIES enabled)
vcpkg_install_copyright(FILE_LIST "${{tree}}/share/doc/cvl/LICENSE")
"""

HOMEBREW = """class Cvl < Formula
  desc "{summary}"
  homepage "{homepage}"
  url "{url}"
  version "{version}"
  sha256 "{sha256}"
  license "MIT"

  depends_on arch: :x86_64
  depends_on :linux

  def install
    prefix.install {quoted}
  end

  test do
    assert_equal "cvl {version}", shell_output("#{{bin}}/cvl --version").strip
  end
end
"""

SPACK = """from spack.package import *


class Cvl(Package):
    \"\"\"{summary}.\"\"\"

    homepage = "{homepage}"
    license("MIT")

    version(
        "{version}",
        sha256="{sha256}",
        url="{url}",
    )

    conflicts("platform=darwin")
    conflicts("platform=windows")
    requires("target=x86_64_v2:")

    def install(self, spec, prefix):
        for folder in ({quoted}):
            install_tree(folder, join_path(prefix, folder))
"""


def _port(said):
    """What vcpkg is told of the port."""
    told = {"name": "cvl", "version": said["version"], "description": SUMMARY, "license": "MIT", "supports": "linux & x64"}
    return json.dumps(told, indent=2) + "\n"


def recipes(tree):
    """Each recipe by its place, for a tree."""
    text = tree.read_bytes()
    said = {
        "version": table.VERSION, "file": trees.FILE, "url": f"{texts.ADDRESS}/{trees.FILE}", "homepage": texts.ADDRESS, "summary": SUMMARY,
        "sha256": hashlib.sha256(text).hexdigest(), "sha512": hashlib.sha512(text).hexdigest(), "glibc": older_glibc.OLDEST,
        "folders": " ".join(FOLDERS), "quoted": ", ".join(f'"{folder}"' for folder in FOLDERS),
    }  # fmt: skip
    rows = (
        ("conda/meta.yaml", CONDA),
        ("vcpkg/portfile.cmake", VCPKG),
        ("homebrew/cvl.rb", HOMEBREW),
        ("spack/package.py", SPACK),
    )
    return {**{place: template.format(**said) for place, template in rows}, "vcpkg/vcpkg.json": _port(said)}


def write(folder, work, time):
    """Writes the archive, beside the tree, and answers its name."""
    named = {}
    for place, text in recipes(folder / trees.FILE).items():
        made = work / "recipes" / place
        made.parent.mkdir(parents=True, exist_ok=True)
        made.write_text(text)
        named[f"{NAME}/{place}"] = made
    packed.tar_gz(folder / FILE, named, time)
    return [FILE]

"""Reads the recipes by what Debian has for their languages, since Debian 12 has none of the tools that they are for."""

import collections
import pathlib
import re
import subprocess
import tempfile

Lint = collections.namedtuple("Lint", "place package words")
# a recipe for conda begins without a line of hyphens, and has lines as long as a link
YAML = "{extends: default, rules: {document-start: disable, line-length: disable, comments: {min-spaces-from-content: 1}}}"
# Spack's own lines have 99 columns, and its packages import all names of one module
LINTS = (
    Lint("conda/meta.yaml", "yamllint", ("yamllint", "-s", "-d", YAML)),
    Lint("homebrew/cvl.rb", "ruby", ("ruby", "-w", "-c")),
    Lint("spack/package.py", "flake8", ("flake8", "--isolated", "--max-line-length=99", "--extend-ignore=F403,F405")),
    Lint("spack/package.py", "black", ("black", "--quiet", "--line-length=99", "--check", "--diff")),
    Lint("vcpkg/vcpkg.json", "jq", ("jq", "--exit-status", '.name and .version and .license and .supports == "linux & x64"')),
)
# the packages of Debian that `faults` and `port` need, each with the program of its name
PACKAGES = ("yamllint", "ruby", "flake8", "black", "jq", "cmake")

# what vcpkg has beside CMake's own commands
OF_VCPKG = """cmake_minimum_required(VERSION 3.13)
macro(vcpkg_download_distfile VARIABLE)
  set(${VARIABLE} "an archive")
endmacro()
function(vcpkg_extract_source_archive VARIABLE)
  if(NOT "${ARGN}" STREQUAL "ARCHIVE;an archive")
    message(FATAL_ERROR "${ARGN}")
  endif()
  set(${VARIABLE} "${TREE}" PARENT_SCOPE)
endfunction()
function(vcpkg_install_copyright WORD FILE)
  file(INSTALL "${FILE}" DESTINATION "${CURRENT_PACKAGES_DIR}/share/cvl" RENAME copyright)
endfunction()
include("${PORTFILE}")
"""


def _told(*words, **more):
    """What a program says, if it does not end well."""
    told = subprocess.run([str(word) for word in words], capture_output=True, text=True, stdin=subprocess.DEVNULL, **more)
    return "" if told.returncode == 0 else f"{words[0]}:\n{told.stdout}{told.stderr}"


def faults(folder, lints=LINTS):
    """What these programs find in the recipes of a folder, a text each."""
    told = (_told(*lint.words, pathlib.Path(folder, lint.place)) for lint in lints)
    return [text for text in told if text]


def port(portfile, tree, made):
    """Runs vcpkg's recipe over an unpacked tree into a folder, and answers what went wrong, or nothing."""
    with tempfile.TemporaryDirectory() as work:
        script = pathlib.Path(work, "script.cmake")
        script.write_text(OF_VCPKG)
        given = {"TREE": tree, "PORTFILE": portfile, "CURRENT_PACKAGES_DIR": made}
        return _told("cmake", *(f"-D{name}={value}" for name, value in given.items()), "-P", script)


def conda(recipe, tree, made):
    """Runs the script of conda's recipe the same way."""
    (script,) = re.findall(r"^  script: (.*)$", pathlib.Path(recipe).read_text(), re.M)
    return _told("env", f"PREFIX={made}", "sh", "-euc", script, cwd=tree)

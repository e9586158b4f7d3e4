"""Whether what pages say of numpy, pandas and scipy is there: each name behind `numpy.`, `ndarray.` and their like on a page, and each
name of numpy and pandas that `bindings/foreign.py` has. Two seconds; a library that this Python does not have is skipped."""

import importlib
import pathlib
import re
import sys
import unittest

sys.dont_write_bytecode = True
TOP = pathlib.Path(__file__).resolve().parents[2]
sys.path[:0] = [str(TOP / "bindings")]

import foreign

PAGES = sorted((*TOP.glob("*.md"), *TOP.glob("docs/*/*.md"), *TOP.glob("bindings/**/*.md")))

# what names stand behind on a page, and where they are found
BASES = {
    "numpy": "numpy",
    "np": "numpy",
    "ndarray": "numpy.ndarray",
    "pandas": "pandas",
    "DataFrame": "pandas.DataFrame",
    "Series": "pandas.Series",
    "scipy": "scipy",
}
NAMED = re.compile(rf"(?<![\w./])({'|'.join(BASES)})((?:\.[A-Za-z_]\w*)+)")

# where the names of a library stand that have nothing before them
PLACES = {
    "numpy": ("numpy", "numpy.ndarray"),
    "pandas": ("pandas.DataFrame", "pandas.Series", "pandas.core.groupby.SeriesGroupBy"),
}

# Python's own, among the words of numpy
OWN = {"len"}


def found(path):
    """What a path of names leads to; nothing if one is not there."""
    first, *names = path.split(".")
    value = importlib.import_module(first)
    for at, name in enumerate(names, 1):
        try:
            value = getattr(value, name) if hasattr(value, name) else importlib.import_module(".".join([first, *names[:at]]))
        except ImportError:
            return None
    return value


def named(text):
    """Each name on a page, as it is there, and where it is found."""
    return {base + rest: BASES[base] + rest for base, rest in NAMED.findall(text)}


def names_in(word):
    """The names of a library in one of its words, such as `groupby` and `sum` in `groupby(k).sum()`; a single letter is an array."""
    paths = re.findall(r"[A-Za-z_][\w.]*", re.sub(r"\(.*?\)|\[.*?\]", "()", word))
    names = (re.sub(r"^\w\.", "", path) for path in paths if re.search(r"\w\w|\.", path))
    return [name for name in names if name not in OWN]


def missing(library, words):
    """The names in words of a library that it does not have."""
    return [
        name for word in words for name in names_in(word) if all(found(f"{place}.{name}") is None for place in PLACES[library])
    ]


def words_of(library):
    return [word for names in foreign.LIBRARIES[library][1] for word in names.words.split("  ")]


class Foreign(unittest.TestCase):
    def needs(self, library):
        try:
            importlib.import_module(library)
        except ImportError:
            self.skipTest(f"no {library}")

    def pages(self, library):
        """Each name that stands on a page behind that of a library, and is not there."""
        self.needs(library)
        for page in PAGES:
            for name, path in named(page.read_text()).items():
                if path.split(".")[0] == library and found(path) is None:
                    yield f"{page.relative_to(TOP)} names {name}, which is not there"

    def test_names_on_pages(self):
        for library in ("numpy", "pandas", "scipy"):
            with self.subTest(library):
                self.assertEqual(list(self.pages(library)), [])

    def test_names_that_calls_have_elsewhere(self):
        for library in PLACES:
            with self.subTest(library):
                self.needs(library)
                self.assertEqual(missing(library, words_of(library)), [])

    def test_pages_name_some(self):
        text = "".join(page.read_text() for page in PAGES)
        self.assertGreater(len(named(text)), 20)
        self.assertGreater(sum(len(names_in(word)) for word in words_of("numpy")), 60)

    def test_a_name_that_is_not_there_is_reported(self):
        self.needs("numpy")
        self.assertEqual(
            named("`numpy.add.att(a)`, in numpy. Or ndarray.itim"),
            {"numpy.add.att": "numpy.add.att", "ndarray.itim": "numpy.ndarray.itim"},
        )
        self.assertIsNone(found("numpy.add.att"))
        self.assertIsNotNone(found("numpy.add.at"))
        self.assertEqual(
            missing(
                "numpy",
                ["cumsum  add.accumulate", "add.gather", "trunc(a / b)", "trunk(a / b)", "astype(int33)", "d[i] = s", "a.T"],
            ),
            ["add.gather", "trunk"],
        )


if __name__ == "__main__":
    unittest.main()

"""The site in a browser, from files as an install puts them: every link and picture, the search, next and previous, a narrow screen, the
contrast of each text by day and by night, and that no page asks another machine for anything. Without a browser nothing runs.

    python3 -m unittest test_site      Debian: python3-sphinx python3-myst-parser chromium chromium-driver python3-selenium

SITE names a folder with a site that was made before.
"""

import filecmp
import html.parser
import json
import os
import pathlib
import re
import sys
import tempfile
import unittest
import urllib.parse

from selenium import webdriver
from selenium.webdriver.common.by import By
from selenium.webdriver.common.keys import Keys
from selenium.webdriver.support.ui import WebDriverWait

sys.dont_write_bytecode = True
TOP = pathlib.Path(__file__).resolve().parents[2]
sys.path.insert(0, str(TOP / "docs/site"))

import making

import reference
import signatures

NARROW = 360

# the searches of readers who know only numpy, only Thrust, or neither, and the page that has to be among the first three answers
SEARCHES = {
    "cumsum": "calls/add_suz", "reduceat": "calls/add_rez", "bincount": "calls/counts", "unique": "calls/sort", "argsort": "calls/order",
    "where": "calls/sel_wuz", "boolean mask": "calls/pck_luz", "searchsorted": "calls/counts", "repeat": "calls/dis_vez",
    "concatenate": "calls/append_segments_int", "nonzero": "calls/pck_luz", "clip": "calls/add_wuz",

    "reduce_by_key": "calls/run_lengths_int", "exclusive_scan_by_key": "calls/add_sez", "copy_if": "calls/pck_luz", "scatter_if": "calls/sel_puz",
    "permutation_iterator": "calls/bck_puz", "stable_sort_by_key": "calls/sort_by_key", "inclusive_scan": "calls/add_suz",
    "transform_reduce": "calls/add_wuz", "unique_by_key": "calls/run_starts_int", "counting_iterator": "calls/ind_luz", "scatter": "calls/smp_puz",
    "gather": "calls/bck_puz", "prefix sum": "calls/add_suz",

    "running total": "calls/add_suz", "average": "calls/add_ruz", "remove duplicates": "tasks", "count occurrences": "calls/counts",
    "join tables": "calls/bck_puz", "largest": "calls/order", "sort descending": "calls/sort_by_key_descending", "filter": "calls/pck_luz",
    "words of a text": "tasks", "sum of each row": "calls/add_rez", "group by": "calls/combine_permute_int", "lookup table": "calls/bck_puz",
}  # fmt: skip

# the least contrast of a text, and of one whose letters are large: WCAG 2.1, level AA
LEAST, LEAST_OF_LARGE = 4.5, 3.0

# the contrast of each text with what is behind it, where that is too little
TOO_PALE = """
const luminance = ([r, g, b]) => {
    const [x, y, z] = [r, g, b].map((v) => ((v /= 255) <= 0.03928 ? v / 12.92 : ((v + 0.055) / 1.055) ** 2.4));
    return 0.2126 * x + 0.7152 * y + 0.0722 * z;
};
const numbers = (colour) => colour.match(/[\\d.]+/g).map(Number);
const ground = (element) => {
    for (; element; element = element.parentElement) {
        const found = numbers(getComputedStyle(element).backgroundColor);
        if (found.length < 4 || found[3] > 0.99) return found;
    }
    return matchMedia("(prefers-color-scheme: dark)").matches ? [0, 0, 0] : [255, 255, 255];
};
const found = new Map();
const walker = document.createTreeWalker(document.body, NodeFilter.SHOW_TEXT);
for (let node = walker.nextNode(); node; node = walker.nextNode()) {
    const element = node.parentElement, style = getComputedStyle(element);
    if (!node.textContent.trim() || ["SCRIPT", "STYLE"].includes(element.tagName) || style.visibility === "hidden" || !element.getClientRects().length) continue;
    const [a, b] = [luminance(numbers(style.color)), luminance(ground(element))].sort((p, q) => q - p);
    const size = parseFloat(style.fontSize), large = size >= 24 || (size >= 18.66 && style.fontWeight >= 700);
    const contrast = (a + 0.05) / (b + 0.05);
    if (contrast < (large ? arguments[1] : arguments[0])) found.set(element.tagName + "." + element.className, [contrast.toFixed(2), node.textContent.trim().slice(0, 40)]);
}
return Object.fromEntries(found);
"""

# what is wider than the screen, with the widest element
TOO_WIDE = """
const width = document.documentElement.clientWidth;
if (document.documentElement.scrollWidth <= width && document.body.scrollWidth <= width) return "";
const wide = [...document.body.querySelectorAll("*")].filter((e) => e.getBoundingClientRect().right > width + 1);
return `${document.documentElement.scrollWidth} pixels: ` + wide.slice(0, 3).map((e) => e.tagName + "." + e.className).join(" ");
"""

# what a screen reader would find without a name, and headings that leave a level out
UNNAMED = """
const name = (e) => (e.getAttribute("aria-label") || e.textContent || "").trim();
const found = [...document.querySelectorAll("a[href], button, summary")].filter((e) => !name(e)).map((e) => e.outerHTML.slice(0, 80));
const labelled = (e) => e.labels?.length || e.getAttribute("aria-label") || document.getElementById(e.getAttribute("aria-labelledby"))?.textContent.trim();
const fields = [...document.querySelectorAll("input")].filter((e) => !["hidden", "submit"].includes(e.type));
found.push(...fields.filter((e) => !labelled(e)).map((e) => e.outerHTML.slice(0, 80)));
found.push(...[...document.images].filter((e) => !e.alt).map((e) => e.src));
const navs = [...document.querySelectorAll("nav")].map((e) => e.getAttribute("aria-label"));
if (navs.some((e) => !e) || new Set(navs).size < navs.length) found.push("nav: " + navs);
if (document.querySelectorAll("main").length !== 1 || document.querySelectorAll("h1").length !== 1) found.push("main or h1");
if (!document.documentElement.lang || !document.title) found.push("lang or title");
let level = 1;
for (const e of document.querySelectorAll("main h1, main h2, main h3, main h4, main h5")) {
    if (+e.tagName[1] > level + 1) found.push(e.tagName + " " + e.textContent);
    level = +e.tagName[1];
}
return found;
"""

NOT_SHOWN = (
    "return [...document.images].filter((image) => !image.complete || image.naturalWidth === 0).map((image) => image.src);"
)


class Page(html.parser.HTMLParser):
    """What a page leads to, what it has a browser fetch, and its anchors."""

    def __init__(self, text):
        super().__init__()
        self.links, self.fetched, self.anchors, self.beside = [], [], set(), {}
        self.feed(text)

    def handle_starttag(self, tag, attributes):
        found = dict(attributes)
        self.anchors.update({found[name] for name in ("id", "name") if found.get(name)})
        if tag == "a" and "href" in found:
            self.links.append(found["href"])
            if found.get("rel") in ("prev", "next"):
                self.beside[found["rel"]] = found["href"]
        elif tag in ("link", "script", "img", "iframe", "source"):
            self.fetched += [found[name] for name in ("href", "src") if name in found]


def made(folder):
    """A site in a folder of its own."""
    if not making.build(folder):
        sys.exit("test_site: the site cannot be made")
    return folder


def setUpModule():
    global WORK, SITE, PAGES
    WORK = tempfile.TemporaryDirectory()
    SITE = pathlib.Path(os.environ["SITE"]).resolve() if "SITE" in os.environ else made(pathlib.Path(WORK.name, "html"))
    PAGES = {str(path.relative_to(SITE)): Page(path.read_text()) for path in sorted(SITE.rglob("*.html"))}


def tearDownModule():
    WORK.cleanup()


def target(page, link):
    """The file that a link of a page leads to, from the top of the site, and the anchor in it."""
    parts = urllib.parse.urlsplit(link)
    path = os.path.normpath(os.path.join(os.path.dirname(page), urllib.parse.unquote(parts.path))) if parts.path else page
    return path, urllib.parse.unquote(parts.fragment)


class Files(unittest.TestCase):
    """What can be read in the files."""

    def test_each_link_leads_to_a_file_and_an_anchor(self):
        for page, found in PAGES.items():
            for link in found.links:
                if re.match(r"https?://|mailto:", link):
                    continue
                path, anchor = target(page, link)
                self.assertTrue((SITE / path).is_file(), f"{page} leads to {link}")
                if anchor and path in PAGES:
                    self.assertIn(anchor, PAGES[path].anchors, f"{page} leads to {link}")

    def test_nothing_is_fetched_from_elsewhere(self):
        for page, found in PAGES.items():
            for link in found.fetched:
                if "://" in link or link.startswith("//"):
                    self.fail(f"{page} fetches {link}")
                path, _ = target(page, link)
                self.assertTrue(path in PAGES or (SITE / path).is_file(), f"{page} fetches {link}")
        for style in SITE.rglob("*.css"):
            self.assertEqual(re.findall(r"@import|url\(\s*['\"]?(?:https?:)?//", style.read_text()), [], style)

    def test_next_leads_through_all_pages_and_previous_back(self):
        page, seen = "index.html", ["index.html"]
        while "next" in PAGES[page].beside:
            following, _ = target(page, PAGES[page].beside["next"])
            self.assertEqual(target(following, PAGES[following].beside["prev"])[0], page)
            self.assertNotIn(following, seen)
            seen.append(following)
            page = following
        self.assertEqual(sorted({*PAGES} - {*seen}), ["genindex.html", "search.html"])

    def test_each_call_has_an_anchor_and_is_said_in_each_language(self):
        for _, _, entries in [*reference.of_scripts(), *reference.beside()]:
            for entry in entries:
                text, anchors = (SITE / f"calls/{entry.name}.html").read_text(), PAGES[f"calls/{entry.name}.html"].anchors
                self.assertEqual([name for name in entry.calls if f"call-{name}" not in anchors], [], entry.name)
                languages = re.findall(r'<div class="signature (\w+)">', text)
                wanted = ["script"] * bool(entry.said) + ["c", "cpp", "python", "rust", "fortran"] * bool(entry.rows)
                self.assertEqual(set(wanted) - set(languages), set(), entry.name)

    def test_what_a_page_declares_in_cpp_stands_in_the_header(self):
        header = re.sub(r"\s+", " ", (TOP / "include/cvl.hpp").read_text())
        declared = [
            signatures.of_cpp(row)
            for _, _, entries in [*reference.of_scripts(), *reference.beside()]
            for entry in entries
            for row in entry.rows
        ]
        self.assertGreater(len(declared), 100)
        self.assertEqual([line for line in declared if f" {line.replace(' cvl::', ' ', 1)} {{" not in header], [])

    @unittest.skipIf("SITE" in os.environ, "a site that was made before")
    def test_the_same_pages_give_the_same_bytes(self):
        with tempfile.TemporaryDirectory() as folder:
            again = made(pathlib.Path(folder, "html"))
            names = sorted(str(path.relative_to(SITE)) for path in SITE.rglob("*") if path.is_file())
            self.assertEqual(names, sorted(str(path.relative_to(again)) for path in again.rglob("*") if path.is_file()))
            self.assertEqual(filecmp.cmpfiles(SITE, again, names, shallow=False)[1:], ([], []))


def browser():
    """A browser without a window, which keeps what each page asks for and reports."""
    options = webdriver.ChromeOptions()
    for word in ("--headless=new", "--no-sandbox", "--disable-gpu", "--disable-dev-shm-usage", "--window-size=1280,900"):
        options.add_argument(word)
    options.set_capability("goog:loggingPrefs", {"performance": "ALL", "browser": "ALL"})
    return webdriver.Chrome(options=options)


class Browser(unittest.TestCase):
    """What only a browser shows."""

    @classmethod
    def setUpClass(cls):
        cls.browser = browser()

    @classmethod
    def tearDownClass(cls):
        cls.browser.quit()

    def open(self, page, width=1280, scheme="light"):
        narrow = width < 600
        self.browser.execute_cdp_cmd(
            "Emulation.setDeviceMetricsOverride", {"width": width, "height": 800, "deviceScaleFactor": 1, "mobile": narrow}
        )
        self.light(scheme)
        self.browser.get(f"{SITE.as_uri()}/{page}")

    def light(self, scheme):
        """By day or by night."""
        self.browser.execute_cdp_cmd(
            "Emulation.setEmulatedMedia", {"features": [{"name": "prefers-color-scheme", "value": scheme}]}
        )

    def asked(self):
        """The addresses that were asked for since the last time."""
        events = (json.loads(entry["message"])["message"] for entry in self.browser.get_log("performance"))
        return [event["params"]["request"]["url"] for event in events if event["method"] == "Network.requestWillBeSent"]

    def pale(self, page):
        """Texts that are hard to read, by day and by night."""
        for scheme in ("light", "dark"):
            self.light(scheme)
            self.assertEqual(self.browser.execute_script(TOO_PALE, LEAST, LEAST_OF_LARGE), {}, f"{page} ({scheme})")

    def test_each_page_on_a_narrow_screen(self):
        for page in PAGES:
            self.open(page, NARROW)
            self.assertEqual(self.browser.execute_script(TOO_WIDE), "", page)
            self.assertEqual(self.browser.execute_script(NOT_SHOWN), [], page)
            self.assertEqual(self.browser.execute_script(UNNAMED), [], page)
            self.pale(page)
        self.assertEqual([url for url in self.asked() if not url.startswith(("file:", "data:"))], [])
        self.assertEqual([entry for entry in self.browser.get_log("browser") if entry["level"] == "SEVERE"], [])

    def test_pages_on_a_wide_screen(self):
        for page in ("index.html", "calls/add_sez.html", "genindex.html"):
            self.open(page)
            self.pale(page)

    def test_the_night_is_dark(self):
        grounds = []
        for scheme in ("light", "dark"):
            self.open("index.html", scheme=scheme)
            grounds.append(self.browser.execute_script("return getComputedStyle(document.body).backgroundColor"))
        self.assertEqual(grounds, ["rgb(255, 255, 255)", "rgb(20, 23, 27)"])

    def test_keys_lead_past_the_list_of_pages_to_the_page(self):
        self.open("tasks.html")
        seen = []
        for _ in range(4):
            webdriver.ActionChains(self.browser).send_keys(Keys.TAB).perform()
            focused = self.browser.switch_to.active_element
            seen.append(focused.get_attribute("class") or focused.get_attribute("name") or focused.tag_name)
            self.assertNotEqual(
                self.browser.execute_script("return getComputedStyle(document.activeElement).outlineStyle"), "none", seen
            )
        self.assertEqual(seen, ["skip", "home", "q", "button"])
        self.browser.find_element(By.CSS_SELECTOR, "a.skip").send_keys(Keys.ENTER)
        self.assertEqual(self.browser.switch_to.active_element.tag_name, "main")
        webdriver.ActionChains(self.browser).send_keys(Keys.TAB).perform()
        self.assertTrue(self.browser.execute_script("return document.querySelector('main').contains(document.activeElement)"))

    def test_a_long_page_has_its_contents_beside_it(self):
        self.open("tasks.html", 1500)
        links = self.browser.find_elements(By.CSS_SELECTOR, "nav.here a")
        [link] = [link for link in links if link.text == "Transpose"]
        link.click()
        self.assertLess(
            self.browser.execute_script("return document.querySelector('#transpose').getBoundingClientRect().top"), 100
        )
        self.open("calls/cpy_wuz.html", 700)
        self.assertFalse(any(link.is_displayed() for link in self.browser.find_elements(By.CSS_SELECTOR, "nav.here a")))

    def test_a_button_copies_what_one_types(self):
        self.open("tasks.html")
        self.browser.execute_script("navigator.clipboard.writeText = async (text) => { window.copied = text; };")
        for words, wanted in (
            ("add_rez(v, rows)", "cvl.add_rez(v, rows).tolist()\n"),
            ("must(cvl_add_rez", "must(cvl_add_rez(v, 5, rows, sums));\n"),
        ):
            block = next(block for block in self.browser.find_elements(By.CSS_SELECTOR, "div.highlight") if words in block.text)
            button = block.find_element(By.CSS_SELECTOR, "button.copy")
            self.browser.execute_script("arguments[0].focus()", button)
            button.send_keys(Keys.ENTER)
            WebDriverWait(self.browser, 5).until(lambda browser: button.text == "Copied")
            self.assertEqual(self.browser.execute_script("return window.copied"), wanted)

    def test_pictures_are_dark_in_the_night(self):
        filters = []
        for scheme in ("light", "dark"):
            self.open("calls/add_suz.html", scheme=scheme)
            filters.append(self.browser.execute_script("return getComputedStyle(document.querySelector('main img')).filter"))
        self.assertEqual(filters, ["none", "invert(0.92) hue-rotate(180deg)"])

    def test_next_follows_the_tutorial(self):
        for page, following in (("index", "tasks"), ("tutorial", "segments"), ("segments", "examples")):
            self.assertEqual(PAGES[f"{page}.html"].beside["next"], f"{following}.html")

    def found(self, words):
        """What a search finds: titles, with the addresses."""
        self.open("index.html")
        field = self.browser.find_element(By.CSS_SELECTOR, "form.search input")
        field.send_keys(words)
        field.submit()
        done = "return document.querySelector('.search-summary') !== null && /found|did not match/.test(document.querySelector('.search-summary').textContent)"
        WebDriverWait(self.browser, 20).until(lambda browser: browser.execute_script(done))
        return [(link.text, link.get_attribute("href")) for link in self.browser.find_elements(By.CSS_SELECTOR, "ul.search li a")]

    def test_the_search_finds_calls_by_their_names_and_pages_by_their_words(self):
        self.assertIn("calls/add_rez.html#call-add_rez", self.found("add_rez")[0][1])
        self.assertIn("calls/smp_puz.html#call-smp_pub", self.found("smp_pub")[0][1])
        self.assertIn("calls/add_rez.html", " ".join(address for _, address in self.found("cvl_add_rez")))
        self.assertIn("examples.html", " ".join(address for _, address in self.found("histogram")))
        self.assertEqual(self.found("qwxyzzy"), [])

    def test_the_search_leads_from_names_elsewhere_to_their_pages(self):
        for words, page in SEARCHES.items():
            addresses = [urllib.parse.urlsplit(address).path for _, address in self.found(words)[:3]]
            self.assertIn(f"{SITE.as_uri()[7:]}/{page}.html", addresses, words)

    def test_a_search_shows_a_line_with_its_words(self):
        shown = "return [...document.querySelectorAll('ul.search p.line')].map((line) => line.textContent)"
        for words in ("histogram", "prefix sum", "argsort"):
            self.assertNotEqual(self.found(words), [], words)
            lines = self.browser.execute_script(shown)
            self.assertTrue(lines and all(any(word in line.lower() for word in words.split()) for line in lines), lines)
            self.assertTrue(any(words in line.lower() for line in lines), lines)

    def test_what_a_search_finds_is_opened(self):
        self.found("max_seb ior_seb")
        self.browser.find_element(By.CSS_SELECTOR, "ul.search li a").click() if self.found("ior_seb") else self.fail(
            "nothing was found"
        )
        self.assertIn("Exclusive scan of each segment", self.browser.find_element(By.TAG_NAME, "h1").text)

    def test_the_list_of_pages_is_closed_on_a_narrow_screen_and_opens(self):
        self.open("calls.html", NARROW)
        pages = self.browser.find_element(By.CSS_SELECTOR, "nav.pages details")
        self.assertIsNone(pages.get_attribute("open"))
        pages.find_element(By.TAG_NAME, "summary").click()
        self.assertIsNotNone(pages.get_attribute("open"))
        self.assertEqual(self.browser.execute_script(TOO_WIDE), "")


if __name__ == "__main__":
    unittest.main()

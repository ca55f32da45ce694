"""The page in Chromium: what is shown, the filter, the keys, light and dark, narrow, hostile names."""

from __future__ import annotations

import atexit
import os
import tempfile
import unittest
from typing import Any, ClassVar, List, Optional

import browser
import golden
import samples

SHOWN = "[...document.querySelectorAll({!r})].filter(node => node.checkVisibility()).map(node => node.innerText.trim())"
CHOSEN = "document.querySelector('nav a[aria-current] b').innerText"
# how far the colour of a letter is from that of its page, as WCAG 2 has it
CONTRAST = """
(() => {
  const lit = (colour) => {
    const parts = colour.match(/[\\d.]+/g).slice(0, 3).map((part) => part / 255);
    const [r, g, b] = parts.map((part) => (part <= 0.03928 ? part / 12.92 : ((part + 0.055) / 1.055) ** 2.4));
    return 0.2126 * r + 0.7152 * g + 0.0722 * b;
  };
  const behind = (node) => {
    for (; node; node = node.parentElement) {
      const colour = getComputedStyle(node).backgroundColor;
      if (!/, 0\\)$/.test(colour)) return colour;
    }
    return 'rgb(255, 255, 255)';
  };
  const low = (node) => {
    const [a, b] = [lit(getComputedStyle(node).color), lit(behind(node))];
    return (Math.max(a, b) + 0.05) / (Math.min(a, b) + 0.05) < 4.5;
  };
  const texts = [...document.querySelectorAll('h1,h2,h3,p,b,small,td,pre,summary,kbd')];
  return texts.filter((node) => node.checkVisibility() && low(node)).map((node) => node.innerText);
})()
"""


class Page(unittest.TestCase):
    chromium: ClassVar[Optional[browser.Browser]] = None

    @classmethod
    def setUpClass(cls) -> None:
        if browser.missing():
            raise unittest.SkipTest(browser.missing())
        if Page.chromium is None:
            Page.chromium = browser.Browser()
            atexit.register(Page.chromium.close)

    def setUp(self) -> None:
        folder = tempfile.TemporaryDirectory()
        self.addCleanup(folder.cleanup)
        self.path = os.path.join(folder.name, "page.html")
        self.browser().emulate()
        self.browser().complaints()

    def tearDown(self) -> None:
        self.assertEqual(self.browser().complaints(), [])

    def browser(self) -> browser.Browser:
        assert Page.chromium is not None
        return Page.chromium

    def run_in_page(self, script: str) -> Any:
        return self.browser().run(script)

    def show(self, name: str, place: str = "") -> None:
        with open(self.path, "w", encoding="utf-8") as file:
            file.write(golden.printed(name, "html", samples.REPORTS[name]))
        self.browser().open(self.path + place)

    def shown(self, selector: str) -> List[str]:
        found = self.run_in_page(SHOWN.format(selector))
        assert isinstance(found, list)
        return found

    def keys(self, *names: str) -> None:
        self.browser().keys(*names)

    def type(self, text: str) -> None:
        self.run_in_page(
            f"document.getElementById('filter').value = {text!r};"
            "document.getElementById('filter').dispatchEvent(new Event('input'))"
        )

    def test_a_finding_is_shown_whole(self) -> None:
        self.show("pool")
        self.assertEqual(self.shown("article h2"), ["Pool::acquire() is not atomic"])
        rows = self.shown("article > table tr")
        self.assertEqual(len(rows), 4)
        self.assertIn("if (!available()) return nullptr;", rows[0])
        self.assertEqual(len(self.shown("article > table tr.between")), 2)
        self.assertIn(">    25", self.shown("article pre")[1].replace("\u00a0", " "))
        self.assertEqual(
            self.run_in_page("document.querySelector('figure .blame').textContent"),
            "Pool::acquire()",
        )

    def test_nothing_has_the_focus_at_first(self) -> None:
        for name in ("pool", "nothing_found"):
            self.show(name)
            self.assertEqual(self.run_in_page("document.activeElement.tagName"), "BODY")

    def test_no_list_where_nothing_was_found(self) -> None:
        self.show("nothing_found")
        self.assertEqual(self.shown("nav"), [])
        self.assertIn("no mistake found", self.shown("header")[0])
        self.show("nothing_looked_at")
        self.assertIn("the program was rebuilt since", self.shown("header")[0])
        self.assertNotIn("no mistake", self.shown("header")[0])

    def test_keys_choose(self) -> None:
        self.show("every_kind")
        first = self.run_in_page(CHOSEN)
        self.keys("j")
        second = self.run_in_page(CHOSEN)
        self.assertNotEqual(first, second)
        self.assertEqual(len(self.shown("article")), 1)
        self.keys("k")
        self.assertEqual(self.run_in_page(CHOSEN), first)
        self.keys("ArrowDown")
        self.assertEqual(self.run_in_page(CHOSEN), second)
        self.keys("Home", "k")
        self.assertEqual(self.run_in_page(CHOSEN), first)

    def test_a_key_opens_what_is_folded(self) -> None:
        self.show("every_kind")
        self.assertEqual(len(self.shown("nav li")), 4)
        self.keys("End")
        self.assertEqual(self.run_in_page(CHOSEN), "client(..) is not atomic")
        self.assertEqual(len(self.shown("nav li")), 5)
        self.keys("j")
        self.assertEqual(self.run_in_page(CHOSEN), "client(..) is not atomic")

    def test_filter(self) -> None:
        self.show("every_kind")
        self.keys("/")
        self.assertEqual(self.run_in_page("document.activeElement.id"), "filter")
        self.type("DEADLOCK")
        self.assertEqual(len(self.shown("nav li")), 2)
        self.assertIn("2 of 6", self.shown("#count")[0])
        self.assertTrue(self.run_in_page(CHOSEN).startswith("deadlock"))
        self.type("no such words")
        self.assertEqual((self.shown("nav li"), self.shown("article")), ([], []))
        self.assertEqual(self.shown("#none"), ["No finding has these words."])
        self.keys("Escape")
        self.assertEqual(len(self.shown("nav li")), 4)
        self.assertEqual(len(self.shown("article")), 1)
        self.assertEqual(self.shown("#none"), [])
        self.type("people/d.cpp")
        self.assertEqual(len(self.shown("nav li")), 2)
        self.type("pool::ACQUIRE")
        self.assertEqual(self.shown("nav li b"), ["Pool::acquire() is not atomic"])

    def test_what_is_chosen_stays_if_the_filter_lets_it(self) -> None:
        self.show("every_kind")
        self.keys("j", "j", "j")
        chosen = self.run_in_page(CHOSEN)
        self.type("deadlock")
        self.assertEqual(self.run_in_page(CHOSEN), chosen)

    def test_letters_in_the_filter_are_letters(self) -> None:
        self.show("every_kind")
        self.keys("/", "j", "k")
        self.assertEqual(self.run_in_page("document.getElementById('filter').value"), "jk")

    def test_a_link_chooses(self) -> None:
        self.show("every_kind", "#finding-3")
        self.assertTrue(self.run_in_page(CHOSEN).startswith("deadlock: "))
        self.run_in_page("document.querySelector('nav a[href=\"#finding-2\"]').click()")
        self.browser().run("new Promise(done => setTimeout(done, 50))")
        self.assertIn("old value", self.run_in_page(CHOSEN))

    def test_without_script_everything_is_there(self) -> None:
        with open(self.path, "w", encoding="utf-8") as file:
            file.write(
                golden.without_looks(golden.printed("", "html", samples.REPORTS["every_kind"]))
            )
        self.browser().open(self.path)
        self.assertEqual(len(self.shown("article")), 6)
        self.assertEqual(self.shown("#filter"), [])

    def test_light_and_dark_can_be_read(self) -> None:
        pages = {}
        for scheme in ("light", "dark"):
            self.browser().emulate(scheme)
            self.show("every_kind")
            self.assertEqual(self.run_in_page(CONTRAST), [])
            colours = "[document.body, document.querySelector('figure .page')].map(node => getComputedStyle(node)['{}'])"
            pages[scheme] = (
                self.run_in_page(colours.format("backgroundColor"))[0],
                self.run_in_page(colours.format("fill"))[1],
            )
            self.assertEqual(pages[scheme][0], pages[scheme][1])
        self.assertNotEqual(pages["light"], pages["dark"])

    def test_nothing_is_wider_than_the_window(self) -> None:
        for name in ("every_kind", "hostile", "long", "right_to_left", "wide"):
            for width in (1400, 500):
                with self.subTest(name, width=width):
                    self.browser().emulate(width=width)
                    self.show(name)
                    wide = self.run_in_page("document.documentElement.scrollWidth - innerWidth")
                    self.assertLessEqual(wide, 0)

    def test_a_hostile_name_runs_nothing(self) -> None:
        finding = samples.pool_finding(1)
        evil = "</script><script>window.evil=1</script><img src=x onerror='window.evil=2'>\"'>"
        report = samples.named(evil)
        report.findings.append(finding)
        with open(self.path, "w", encoding="utf-8") as file:
            file.write(golden.printed("", "html", report))
        self.browser().open(self.path)
        self.assertIsNone(self.run_in_page("window.evil ?? null"))
        self.assertEqual(self.run_in_page("document.querySelectorAll('img').length"), 0)
        self.assertIn("</script>", self.shown("h2")[0])

    def test_texts_fit_their_boxes(self) -> None:
        self.show("every_kind")
        out = self.run_in_page(
            "[...document.querySelectorAll('article:not([hidden]) figure g')].filter(group => {"
            " const box = group.querySelector('rect'); if (!box) return false;"
            " const right = box.getBBox().x + box.getBBox().width;"
            " return [...group.querySelectorAll('text')].some(t => t.getBBox().x + t.getBBox().width > right); }).length"
        )
        self.assertEqual(out, 0)


if __name__ == "__main__":
    unittest.main()

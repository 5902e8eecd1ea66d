"""What tests of a page in chromium have in common."""
import unittest

from browser import Browser
from days import Days


def open_browser():
    """One browser and the same days for all tests of a module, since to make them takes longer than most tests do."""
    PageTest.days, PageTest.browser = Days(), Browser()
    unittest.addModuleCleanup(PageTest.days.close)
    unittest.addModuleCleanup(PageTest.browser.close)


class PageTest(unittest.TestCase):
    def show(self, name, fragment="", reach=False):
        """Opens the page of a day."""
        self.browser.open(self.days.page_of(name, reach), fragment)

    def cells(self, selector):
        return [[cell.text for cell in row.find_elements("css selector", "td")]
                for row in self.browser.all(f"{selector} tbody tr:not(.below)")]

    def figures(self):
        words = self.browser.text("#figures").split("\n")
        return dict(zip(words[::2], words[1::2]))

    def key(self, *keys):
        self.browser.one("main").send_keys(*keys)

    def tearDown(self):
        self.assertEqual(self.browser.faults(), [])

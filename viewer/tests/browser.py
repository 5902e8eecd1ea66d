"""A headless chromium, as a person has it."""
import os
import shutil
import time

from selenium import webdriver
from selenium.webdriver.chrome.service import Service
from selenium.webdriver.common.by import By
from selenium.webdriver.support.ui import WebDriverWait

PATIENCE = 300      # seconds for what takes one on a machine that does nothing else


class Browser:
    def __init__(self, width=1280, height=800, dark=False):
        options = webdriver.ChromeOptions()
        for word in ("--headless=new", "--no-sandbox", "--disable-gpu", "--hide-scrollbars",
                     "--disable-dev-shm-usage", "--disable-background-networking",
                     f"--window-size={width},{height}", "--enable-precise-memory-info"):
            options.add_argument(word)
        options.set_capability("goog:loggingPrefs", {"browser": "ALL"})
        self.driver = webdriver.Chrome(service=Service(shutil.which("chromedriver")), options=options)
        self.command("Emulation.setDeviceMetricsOverride", width=width, height=height,
                     deviceScaleFactor=1, mobile=False)
        self.command("Emulation.setEmulatedMedia", features=[
            {"name": "prefers-color-scheme", "value": "dark" if dark else "light"}])

    def command(self, name, **values):
        return self.driver.execute_cdp_cmd(name, values)

    def open(self, path, fragment="", wait=True):
        """The seconds until the page has drawn the selected run."""
        self.driver.get("about:blank")
        start = time.monotonic()
        self.driver.get(f"file://{path}{fragment}")
        if wait:
            self.drawn()
        return time.monotonic() - start

    def drawn(self, run=None):
        def done(driver):
            found = driver.execute_script("return document.body.dataset.drawn || ''")
            return found if run is None else found.split(" ")[0] == str(run)
        WebDriverWait(self.driver, PATIENCE, 0.02).until(done)

    def one(self, selector):
        return self.driver.find_element(By.CSS_SELECTOR, selector)

    def all(self, selector):
        return self.driver.find_elements(By.CSS_SELECTOR, selector)

    def text(self, selector):
        return self.one(selector).text

    def wait_for(self, selector):
        """The text of an element, as soon as it has one."""
        return WebDriverWait(self.driver, PATIENCE, 0.02).until(lambda _: self.text(selector))

    def settled(self, selector, word):
        """Waits until an element has a text without this word."""
        WebDriverWait(self.driver, PATIENCE, 0.02).until(
            lambda _: self.text(selector) and word not in self.text(selector))

    def run(self, script, *values):
        return self.driver.execute_script(script, *values)

    def faults(self):
        return [line["message"] for line in self.driver.get_log("browser")
                if line["level"] == "SEVERE"]

    def memory(self):
        """The megabytes of the largest process that draws pages for this browser."""
        parents = {}
        for name in filter(str.isdigit, os.listdir("/proc")):
            try:
                with open(f"/proc/{name}/stat", encoding="ascii", errors="replace") as page:
                    parents[int(name)] = int(page.read().rsplit(")", 1)[1].split()[1])
            except OSError:
                continue
        found, mine = [0], {self.driver.service.process.pid}
        for _ in range(6):
            mine |= {child for child, parent in parents.items() if parent in mine}
        for number in mine:
            with open(f"/proc/{number}/cmdline", encoding="ascii", errors="replace") as page:
                drawing = "--type=renderer" in page.read()
            if drawing:
                with open(f"/proc/{number}/smaps_rollup", encoding="ascii") as page:
                    found += [int(line.split()[1]) // 1024 for line in page
                              if line.startswith("Pss:")]
        return max(found)

    def picture(self, path):
        self.driver.save_screenshot(path)

    def close(self):
        self.driver.quit()

"""The page that checks a layer, in a browser that the tests drive."""
import base64
import json
import os
import time

from browsers import SECONDS
from harness import HERE, TOP

PICTURES = os.path.join(TOP, "build", "page")


class Driven:
    """The page in a browser."""

    def __init__(self, browser, page, program, folder, where=""):
        self.browser, self.program, self.folder, self.page = browser, program, folder, page
        self.where = f", {where}" if where else ""
        self.reload()

    def reload(self, hash=""):
        """Opens the page anew, at an address of another page first, since one with another hash alone isn't loaded again."""
        self.browser.go("about:blank")
        self.browser.go("file://" + self.page + hash)
        with open(os.path.join(HERE, "page.js"), encoding="utf-8") as script:
            self.browser.run(f"(async () => {{\n{script.read()}\n}})()")
        self.wait('document.documentElement.dataset.ready === "yes"')

    def name(self, what):
        return f"{self.browser.name}{self.where}, {what}"

    def run(self, expression):
        return self.browser.run(expression)

    def wait(self, condition):
        for _ in range(20 * SECONDS):
            if self.run(condition):
                return
            time.sleep(0.05)
        raise TimeoutError(f"{self.browser.name} waits for {condition}")

    def drop(self, name, data):
        self.run(f'dropped({json.dumps(name)}, "{base64.b64encode(data).decode()}")')
        return self.run("verdict()")

    def dropping(self, name, data):
        """Drops a file, and doesn't wait for the answer."""
        self.run(f'dropping({json.dumps(name)}, "{base64.b64encode(data).decode()}")')

    def dropping_file(self, name, data):
        """Chooses a file that has these bytes, and doesn't wait for the answer."""
        path = os.path.join(self.folder, name)
        with open(path, "wb") as file:
            file.write(data)
        self.choose(path)

    def choose(self, path):
        """Gives the file input a file, and doesn't wait for an answer."""
        before = int(self.run("document.documentElement.dataset.run ?? 0"))
        self.browser.choose("#file", path)
        self.wait(f"document.documentElement.dataset.run > {before}")

    def open(self, path):
        self.choose(path)
        self.wait("isSettled()")
        return self.run("verdict()")

    def rows(self):
        """Waits for the rows of the table, which come after all else."""
        self.wait('$("list").tBodies[0].rows.length > 0')

    def scan(self, window):
        return self.run(f"scanned({json.dumps(window)})")

    def picture(self, what, at="document.body"):
        """A picture of what is seen with that element on top; its path."""
        self.run(f"({at}.scrollIntoView(), new Promise((resume) => setTimeout(() => resume(null), 150)))")
        path = os.path.join(PICTURES, f"{self.browser.name}-{what}.png")
        self.browser.picture(path)
        return path

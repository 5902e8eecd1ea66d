"""Writes one page with its style, its modules, d3 and the day's parts in it.

Nothing of the files comes into the page but as JSON with `<`, `>` and `&` escaped, or packed in base64. A policy in the
page's head lets these scripts run and no others, and nothing be fetched.
"""
import base64
import hashlib
import json
import os
import re
import zlib

HERE = os.path.join(os.path.dirname(os.path.dirname(os.path.abspath(__file__))), "page")
D3 = "/usr/share/nodejs/d3/dist/d3.min.js"
IMPORT = re.compile(r'^import \{([^}]*)\} from "\./(\w+)\.js";\n', re.M)
EXPORT = re.compile(r"^export (?=(?:async )?(?:function|const|class) (\w+))", re.M)
PACKING = 4         # of zlib's levels: half the time of the usual one, and a tenth more bytes


def read(*names):
    with open(os.path.join(HERE, *names), encoding="utf-8") as page:
        return page.read()


def module(name):
    """A module as a function that is called at once, since a page of a file can't load any."""
    text = read("js", name + ".js")
    names = ", ".join(EXPORT.findall(text))
    text = EXPORT.sub("", IMPORT.sub(
        lambda found: f"const {{{found[1].replace(' as ', ': ')}}} = {found[2]}_module;\n", text))
    return f"const {name}_module = (() => {{\n{text}\nreturn {{ {names} }};\n}})();\n"


def order(name="main", made=()):
    """The modules that one needs, each after those that it imports."""
    for _, needed in IMPORT.findall(read("js", name + ".js")):
        if needed not in made:
            made = order(needed, made)
    return (*made, name)


def script_text():
    return '"use strict";\n' + "".join(module(name) for name in order())


def digest(text):
    made = hashlib.sha256(text.encode()).digest()
    return f"'sha256-{base64.b64encode(made).decode()}'"


def json_text(value):
    """JSON that no script element can be ended by."""
    text = json.dumps(value, separators=(",", ":"))
    return text.replace("<", "\\u003c").replace(">", "\\u003e").replace("&", "\\u0026")


def packed(value):
    text = json.dumps(value, separators=(",", ":")).encode()
    return base64.b64encode(zlib.compress(text, PACKING)).decode()


class Page:
    """The page in the order of its text: `start`, then each `part`, then `end`."""

    def __init__(self, write, d3):
        self.write, self.d3 = write, d3

    def start(self):
        script, style = script_text(), read("style.css")
        policy = f"default-src 'none'; script-src {digest(self.d3)} {digest(script)}; " \
                 f"style-src 'unsafe-inline'; img-src data:; base-uri 'none'; form-action 'none'"
        head, self.tail = read("index.html").split("<!-- parts -->")
        head = head.replace("<!-- policy -->",
                            f'<meta http-equiv="Content-Security-Policy" content="{policy}">')
        self.write(head.replace("<!-- style -->", f"<style>\n{style}</style>"))
        self.scripts = f"<script>{self.d3}</script>\n<script>{script}</script>\n"

    def part(self, name, value):
        self.write(f'<script type="text/plain" id="{name}">{packed(value)}</script>\n')

    def end(self, summary):
        self.write(f'<script type="application/json" id="day">{json_text(summary)}</script>\n')
        self.write(self.tail.replace("<!-- scripts -->", self.scripts))

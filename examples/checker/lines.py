"""The lines of a printed day, by "The text" and "What `reach clear` prints" of docs/FORMATS.md: which text is one."""

import re
from collections import Counter

CAP = 9_999_900  # cents per MWh


def cents(text):
    """A price in euro, as cents."""
    whole, _, part = text.lstrip("-").partition(".")
    return (-1 if text.startswith("-") else 1) * (100 * int(whole or 0) + int((part + "00")[:2]))


def quarter_cents(text):
    """Money in euro with four decimals, as quarter-cents."""
    whole, _, part = text.lstrip("-").partition(".")
    return (-1 if text.startswith("-") else 1) * (10_000 * int(whole) + int(part)) // 25


def field(form, value=str, least="", most="~"):
    """A test of a field: it has a form, and its value is within a range. No number has more than 19 digits before a point."""
    return lambda word: re.fullmatch(form, word) is not None and least <= value(word) <= most


def whole(least, most):
    return field("0|-?[1-9][0-9]{0,18}", int, least, most)


NAME, PRICE = field("[A-Za-z0-9_-]{1,16}"), field(r"(?!-0\.00)-?(0|[1-9][0-9]{0,18})\.[0-9]{2}", cents, -CAP, CAP)
MONEY_FORM = r"(?!-0\.0000)-?(0|[1-9][0-9]{0,18})\.[0-9]{2}(00|25|50|75)"
MONEY, GAP = (field(MONEY_FORM, quarter_cents, least, 4 * 10**18) for least in (-4 * 10**18, 0))
RUN, QUARTER, ITEMS, AMOUNT, NUMBER = whole(1, 1_000), whole(1, 400), whole(1, 50_000), whole(0, 99_999), whole(1, 64)
FLOW, COUNT, KIND = whole(-199_998, 199_998), whole(0, 1_000), field("scheduled|direct")
# of each kind of line its fields, and of those that end with a list what is in it, with its least and greatest length
FIELDS = {
    "welfare": [whole(0, 2**63 - 1)], "zone": [NAME, PRICE, PRICE, PRICE, NUMBER], "border": [NAME, NAME, FLOW, MONEY],
    "bid": [NAME, AMOUNT], "demand": [whole(1, 512), AMOUNT], "tree": [ITEMS], "operator": [NAME, MONEY, MONEY, MONEY],
    "provider": [NAME, MONEY], "end": [RUN], "total-operator": [NAME, MONEY, MONEY, MONEY], "total-provider": [NAME, MONEY],
    "done": [COUNT, COUNT], "bound": [], "cut": [field("out|in")],
}
FIELDS_OF_FORM = {
    "1": {"branch": [], "conflict": [], "at": [], "flows": [], "mws": []},
    "2": {"branch": [NAME], "price": [NAME, PRICE], "none": []},
}
LISTS = {
    "bound": (PRICE, 1, 64), "cut": (NUMBER, 1, 64), "conflict": (NUMBER, 1, 64), "at": (PRICE, 1, 64),
    "flows": (FLOW, 0, 256), "mws": (AMOUNT, 0, 4_608),
}
ENDINGS = {"1": {"published": [], "unpublished": [ITEMS]}, "2": {"first": [], "within": [GAP]}}
LEAVES = ("branch", "price", "none", "bound", "cut", "mws")  # after them an item may end
FOLLOWS = {
    "": "mari", "mari": "run total-operator", "unpublished": "run total-operator", "end": "run total-operator", "run": "welfare",
    "welfare": "zone", "zone": "zone border bid demand tree", "border": "border bid demand tree", "bid": "bid demand tree",
    "demand": "demand tree", "conflict": "at", "at": "flows", "flows": "mws", "operator": "operator provider end",
    "provider": "provider end", "total-operator": "total-operator total-provider done",
    "total-provider": "total-provider done", "done": "",
}
MOST = {"run": 1_000, "zone": 64, "border": 256, "bid": 4_096, "operator": 64, "provider": 4_096, "total-operator": 64, "total-provider": 1_638_400}


def is_line(kind, words, form):
    """Whether a line has a form that a day of this form has."""
    if kind == "mari":
        fields = [field(form), field("[0-9]{4}-[0-9]{2}-[0-9]{2}"), QUARTER, ITEMS]
    elif kind == "run" and len(words) > 3 and words[3] in ENDINGS[form]:
        fields = [RUN, QUARTER, KIND, NAME, *ENDINGS[form][words[3]]]
    else:
        fields = FIELDS.get(kind, FIELDS_OF_FORM[form].get(kind))
    if fields is None or len(words) < len(fields) or not all(test(word) for test, word in zip(fields, words)):
        return False
    listed = words[len(fields):]
    test, least, most = LISTS.get(kind, (NAME, 0, 0))
    if not (least <= len(listed) <= most and all(map(test, listed))):
        return False
    return kind != "cut" or listed == sorted(set(listed), key=int)


class Place:
    """What the lines so far say of the next one."""

    def __init__(self):
        self.last, self.items, self.run, self.count, self.ended = "", 0, None, Counter(), [0, 0]

    def takes(self, kind, words):
        """Whether a line may come here; then it is taken."""
        if self.last == "tree" or self.last in LEAVES:
            allowed = (*LEAVES[:-1], "conflict") if self.items else ("operator",)
        else:
            allowed = FOLLOWS[self.last].split()
        self.count[kind] += 1
        agrees = {"demand": [str(self.count["demand"])], "end": [self.run], "done": [str(runs) for runs in self.ended]}.get(kind, [])
        if kind not in allowed or self.count[kind] > MOST.get(kind, self.count[kind]) or words[:len(agrees)] != agrees:
            return False
        self.last = kind
        if kind == "run":
            self.run, self.count = words[0], Counter(run=self.count[kind])
            self.last = "unpublished" if words[3] == "unpublished" else kind
            self.ended[words[3] in ("unpublished", "within")] += 1
        elif kind == "tree":
            self.items = int(words[0])
        elif kind in LEAVES[:-1] or kind == "conflict":
            self.items -= 1
        return True


def refusal_of(text):
    """The line, the number and the name of the first fault of a text's form, or None where it is a printed day."""
    form, place = "2" if text.startswith("mari 2 ") else "1", Place()
    *lines, rest = text.split("\n")
    for number, line in enumerate(lines, 1):
        kind, *words = line.split(" ")
        if not is_line(kind, words, form):
            return f"{number} 11 BadLine"
        if not place.takes(kind, words):
            return f"{number} 12 BadOrder"
    return None if place.last == "done" and not rest else f"{len(lines) + 1} 13 Truncated"

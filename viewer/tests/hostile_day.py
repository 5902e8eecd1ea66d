"""Names that try to leave the page's data, in the market files and the publication of a day.

The program refuses such names, and so does `show`; so that the walls behind these are tested too, the page of this day
is made past that check.
"""
from dataclasses import fields, is_dataclass, replace

NAMES = {
    "A": "</script><script>window.hit=1</script>",
    "B": "\"><img src=x onerror=\"window.hit=2\">",
    "TA": "</SCRIPT ><svg onload=window.hit=3>",
    "TB": "<!-- <script> ' ` ${window.hit=4} \\u003c &lt;b&gt; %3Cb%3E",
    "P1": "\u2028\u2029\u0000</title></style><b>bold</b>",
    "P2": "__proto__",
    "a1": "<i>a1</i>&amp;\u202eright",
    "b1": "constructor",
}


def renamed(value):
    """A folder, a publication, or a part of one, with these names."""
    if isinstance(value, str):
        return NAMES.get(value, value)
    if isinstance(value, list):
        return [renamed(item) for item in value]
    if isinstance(value, tuple):
        return type(value)(*map(renamed, value)) if hasattr(value, "_fields") else tuple(map(renamed, value))
    if is_dataclass(value):
        return replace(value, **{field.name: renamed(getattr(value, field.name)) for field in fields(value)})
    return value

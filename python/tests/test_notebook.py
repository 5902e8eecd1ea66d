"""The notebook of examples/, run as a script, with values worked out by hand from its demands and plants."""

import contextlib
import io
import json
import unittest
from decimal import Decimal
from pathlib import Path

from tests.program import needs_program

NOTEBOOK = Path(__file__).resolve().parents[2] / "examples" / "notebook" / "day-from-frames.ipynb"

try:
    import matplotlib
    import pandas as pd

    matplotlib.use("Agg")
except ImportError:
    pd = None


@needs_program
@unittest.skipIf(pd is None, "pandas or matplotlib isn't installed")
class TestNotebook(unittest.TestCase):
    def test_it_runs(self):
        cells = json.loads(NOTEBOOK.read_text(encoding="utf-8"))["cells"]
        names, out = {}, io.StringIO()
        with contextlib.redirect_stdout(out):
            for cell in cells:
                if cell["cell_type"] == "code":
                    exec("".join(cell["source"]), names)
        prices = {20.0: [30, 45], 60.0: [60, 95], 45.0: [80]}
        wanted = [price for mw in names["demand"] for price, demands in prices.items() if mw in demands]
        self.assertEqual(list(names["prices"]["South"]), wanted)
        # Gas of 10 MW for 60, steam of 30 MW for 80, and steam of 30 MW and gas of 15 MW for 95: each comes from hydro.
        gained = names["more"].publication.welfare - names["day"].publication.welfare
        self.assertEqual(gained, Decimal(3 * 10 * 40 + 2 * 30 * 25 + 2 * (30 * 25 + 15 * 40)) / 4)
        self.assertIn(f"paid: {(3 * 10 * 60 + 2 * 30 * 45 + 2 * 45 * 60) / 4} euro", out.getvalue())
        self.assertIn("steam-27 rejected in the money", out.getvalue())


if __name__ == "__main__":
    unittest.main()

"""The workbench in Chromium (workbench.py)."""
import unittest

import common
import workbench

globals().update(workbench.classes_in("Chromium", __name__))

if __name__ == "__main__":
    unittest.main()

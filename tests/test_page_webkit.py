"""A good part of the tests of the workbench in WebKit (workbench.py)."""
import unittest

import common
import workbench

globals().update(workbench.classes_in("WebKit", __name__))

if __name__ == "__main__":
    unittest.main()

"""A good part of the tests of the workbench in Firefox (workbench.py)."""
import unittest

import common
import workbench

globals().update(workbench.classes_in("Firefox", __name__))

if __name__ == "__main__":
    unittest.main()

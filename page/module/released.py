"""The page that a release hands out, the module in it, and what it was made of."""
import glob
import hashlib
import json
import os
import re

import one_file
import toolchain
from files import read

ROOT = os.path.dirname(os.path.dirname(os.path.dirname(os.path.realpath(__file__))))
PAGE, MADE_OF = f"{ROOT}/release/agcws.html", f"{ROOT}/release/agcws.json"
# All that the module's bytes come from beside the toolchain, and all that the page's come from.
OF_MODULE = ["crates.txt", "crates/*/src/**/*.rt", "page/module/build.py", "page/module/layer.c", "page/module/retarget.py"]
OF_PAGE = [*OF_MODULE, "examples/runs.txt", "examples/*.agc", "examples/*.feed", "docs/COURSE.md", "examples/course/*/exercise.*", "page/*.js", "page/*.css", "page/*.svg", "page/*.html", "page/make", "page/module/host.js", "page/module/unpack.js", "page/module/one_file.py"]


def sum_of(patterns):
    """Returns a sum of the names and texts of some files."""
    paths = sorted({it for each in patterns for it in glob.glob(f"{ROOT}/{each}", recursive=True) if os.path.isfile(it)})
    texts = (f"{os.path.relpath(it, ROOT)} {hashlib.sha256(read(it)).hexdigest()}\n" for it in paths)
    return hashlib.sha256("".join(texts).encode()).hexdigest()


def made_of():
    """Returns what a page that is made now is made of."""
    return {"module": sum_of(OF_MODULE), "page": sum_of(OF_PAGE), "toolchain": toolchain.version()}


def module_in(page):
    """Returns the bytes of the module in a page."""
    return one_file.unpacked(re.search(rb'<script type="text/plain" id="agcws-module">([^<]*)</script>', page)[1].decode())


def about(module):
    """Returns what a module says of itself."""
    return json.loads(re.search(rb"\x05agcws(\{[^}]*\})\Z", module)[1])


def current_module():
    """Returns the bytes of the release's module where sources and toolchain are those that it was made of, else None."""
    if not os.path.exists(MADE_OF):
        return None
    then, now = json.loads(read(MADE_OF)), made_of()
    return module_in(read(PAGE)) if (then["module"], then["toolchain"]) == (now["module"], now["toolchain"]) else None

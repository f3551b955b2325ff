"""What it takes to put a page into one file: its modules of JavaScript as one script, and the module of the program as text."""
import base64
import gzip
import lzma
import os
import re
import zlib

IMPORT = re.compile(r"^import \{([^}]*)\} from '([^']+)';\n", re.M)
EXPORT = re.compile(r"^export (?=(?:async )?(?:function\*?|class|const|let) ([\w$]+))", re.M)

# How the module is packed: its code has no bits in common by their places, and is shorter than the dictionary.
LZMA = {"id": lzma.FILTER_LZMA1, "preset": 9 | lzma.PRESET_EXTREME, "lc": 3, "lp": 0, "pb": 0, "dict_size": 1 << 21}
# Where the size stands in what LZMA has made, and the bytes of this and of the sum at the end.
SIZE_AT, SIZE_BYTES, SUM_BYTES = 5, 8, 4


def script(paths):
    """Returns one text of some modules, each after those that it imports. What a module declares stays its own: it becomes a function that returns what it exports.
    So imports have the form `import {a, b as c} from './module.js';`, and `export` stands before a declaration."""
    made = ["'use strict';", "const modules = {};"]
    for path in map(os.path.realpath, paths):
        with open(path, encoding="utf-8") as file:
            text = file.read()
        names = EXPORT.findall(text)

        def imported(found):
            source = os.path.normpath(os.path.join(os.path.dirname(path), found[2]))
            return f"const {{{found[1].replace(' as ', ': ')}}} = modules[{os.path.basename(source)!r}];\n"

        text = EXPORT.sub("", IMPORT.sub(imported, text))
        if left := re.search(r"^(?:import|export)\b.*$", text, re.M):
            raise ValueError(f"{path}: not known how to put this into one file: {left[0]}")
        made.append(f"modules[{os.path.basename(path)!r}] = (() => {{\n{text}return {{{', '.join(names)}}};\n}})();")
    # (in a page this would end the script)
    return "\n".join(made).replace("</script", "<\\/script") + "\n"


def zipped(text):
    """Returns a text as one for a page: base64 of gzip, the same for the same text."""
    return base64.b64encode(gzip.compress(text.encode(), 9, mtime=0)).decode()


def packed(module):
    """Returns the bytes of the module as the text for a page, the same for the same bytes: base64 of LZMA and of a sum, which unpack.js unpacks."""
    made = lzma.compress(module, lzma.FORMAT_ALONE, filters=[LZMA])
    # (Python tells no size)
    made = made[:SIZE_AT] + len(module).to_bytes(SIZE_BYTES, "little") + made[SIZE_AT + SIZE_BYTES :]
    return base64.b64encode(made + zlib.crc32(module).to_bytes(SUM_BYTES, "little")).decode()


def unpacked(text):
    """Returns the bytes of the module in the text of a page."""
    made = base64.b64decode(text)
    return lzma.decompress(made[:SIZE_AT] + b"\xff" * SIZE_BYTES + made[SIZE_AT + SIZE_BYTES : -SUM_BYTES], lzma.FORMAT_ALONE)

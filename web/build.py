#!/usr/bin/env python3
"""build.py MODULE NOTICES OUT [unproved]: puts the page together in one file, which opens from the disk: page.html
with page.css, the scripts, the module, a sample and the licences of all that is in it.

The page's policy of content allows this script and this style by their hashes, WebAssembly, and nothing else:
no network and no other script.
"""

import base64
import hashlib
import html
import pathlib
import sys

HERE = pathlib.Path(__file__).resolve().parent
BEFORE_MODULE = ("reader.js", "tables.js", "side.js", "rule.js")


def hash_of(text):
    return "sha256-" + base64.b64encode(hashlib.sha256(text.encode()).digest()).decode()


def page(module, notices, proofs):
    before = "\n".join((HERE / it).read_text() for it in BEFORE_MODULE)
    sample = (HERE.parent / "samples" / "calls.pcap").read_bytes()
    first, second = (base64.b64encode(it).decode() for it in (module, sample))
    script = f'{before}\nconst MODULE = "{first}", SAMPLE = "{second}";\n\n{(HERE / "page.js").read_text()}'
    style = (HERE / "page.css").read_text()
    if "</script" in script.lower() or "</style" in style.lower():
        raise ValueError("a source would end its own element")
    licences = f'{(HERE.parent / "LICENSE").read_text()}\n{notices}'
    parts = {"@PROOFS@": proofs, "@LICENCES@": html.escape(licences), "@SCRIPT_HASH@": hash_of(script), "@STYLE_HASH@": hash_of(style), "@STYLE@": style, "@SCRIPT@": script}
    text = (HERE / "page.html").read_text()
    for place, part in parts.items():
        text = text.replace(place, part)
    return text


def main(module, notices, out, proofs="proved"):
    pathlib.Path(out).parent.mkdir(parents=True, exist_ok=True)
    pathlib.Path(out).write_text(page(pathlib.Path(module).read_bytes(), pathlib.Path(notices).read_text(), proofs))


if __name__ == "__main__":
    if len(sys.argv) not in (4, 5):
        sys.exit(__doc__)
    main(*sys.argv[1:])

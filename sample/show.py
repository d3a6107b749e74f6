"""Runs the program cut on a page and shows its runs, with the text of each.

    python3 sample/show.py CUT TABLE PAGE
"""

import os
import shutil
import subprocess
import sys
import tempfile


def shown(data):
    """The text of a run in quotes, with what does not print as an escape."""
    return '"' + "".join(chr(b) if 32 <= b < 127 and b not in (34, 92) else "\\x%02x" % b for b in data) + '"'


def main(cut, table, page):
    text = open(page, "rb").read()
    with tempfile.TemporaryDirectory() as folder:
        shutil.copy(table, os.path.join(folder, "table"))
        done = subprocess.run([os.path.abspath(cut)], cwd=folder, input=text, capture_output=True)
    if done.returncode != 0:
        sys.exit("cut ended with status %d: %s" % (done.returncode, done.stderr.decode(errors="replace")))
    out = done.stdout
    if out.startswith(b"refused ") or len(out) % 4:
        print("the page was not cut: %s" % out.decode(errors="replace").strip())
        return
    print("%s (%d bytes) was cut by %s into %d runs:" % (page, len(text), table, len(out) // 4))
    for number in range(len(out) // 4):
        start = int.from_bytes(out[4 * number : 4 * number + 2], "big")
        end = int.from_bytes(out[4 * number + 2 : 4 * number + 4], "big")
        print("run %3d  %4d to %4d  %s" % (number, start, end, shown(text[start:end])))


main(*sys.argv[1:])

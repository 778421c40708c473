#!/usr/bin/env python3
"""shown.py DOCUMENT FOLDER [--again]: runs the lines of a document that begin with `    $ ` in a folder, by bash, and holds the indented lines
that follow each of them to what it prints, standard error included. With --again those lines are written anew. The exit status is 0 if all
are as they were shown."""
import re
import subprocess
import sys

document, folder = sys.argv[1:3]
text = open(document).read()
INDENT = "    "
differences = []


def shown(match):
    line, before = match.groups()
    command = line[len(INDENT) + 2 :]
    run = subprocess.run(["bash", "-c", command], cwd=folder, stdout=subprocess.PIPE, stderr=subprocess.STDOUT, text=True)
    after = "".join(f"{INDENT}{told}".rstrip() + "\n" for told in run.stdout.splitlines())
    if before != after:
        differences.append(f"{command}\n{after}")
    return line + "\n" + after


after = re.sub(r"^(    \$ .*)\n((?:    (?!\$ ).*\n)*)", shown, text, flags=re.M)
if "--again" in sys.argv:
    open(document, "w").write(after)
else:
    print("".join(differences), end="")
    sys.exit(1 if differences else 0)

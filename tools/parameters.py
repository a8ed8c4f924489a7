"""Lists the functions of crates/*/src that take six parameters or more (self counts), and how many they are."""

import glob
import re

FUNCTION = re.compile(r"\bfn (\w+)(<[^>]*>)?\(([^)]*)\)")

found = 0
for path in sorted(glob.glob("crates/*/src/*.rt")):
    with open(path, encoding="utf-8") as source:
        text = source.read()
    for function in FUNCTION.finditer(text):
        count = len([p for p in function.group(3).split(",") if p.strip()])
        if count >= 6:
            print(path, function.group(1), count)
            found += 1
print(found)

"""Lists the facts that the `requires` of three or more functions state, with how many do: usage: facts.py [ROOT]

`old` and `now` of a parameter count as one; of a record or a predicate only the name counts. By text alone."""

import collections
import pathlib
import re
import sys

root = pathlib.Path(sys.argv[1] if len(sys.argv) > 1 else ".")
facts = collections.Counter()
for path in sorted(root.glob("crates/*/src/**/*.rt")):
    for clause in re.finditer(r"\n +requires(?: \w+)? \{(.*?)\}\n", path.read_text(), re.S):
        for part in re.sub(r"\s+", " ", clause[1]).split(" × "):
            part = re.sub(r"\b(old|now)\b", "_", part.strip().strip("()"))
            facts[part.split(" ")[0] if part[:1].isupper() else part] += 1
for fact, functions in facts.most_common():
    if functions > 2:
        print(f"{functions:4} {fact}")

#!/usr/bin/env python3
# together.py [COMMIT]: sets of three parameters, by name and type, that stand together in three functions or more of src/.
import collections, itertools, re, subprocess, sys

commit = sys.argv[1] if len(sys.argv) > 1 else "HEAD"
git = lambda *words: subprocess.run(("git",) + words, capture_output=True, text=True, check=True).stdout
functions = collections.defaultdict(list)
for path in git("ls-tree", "-r", "--name-only", commit, "crates").split():
    if not re.match(r"crates/\w+/src/.*\.rt$", path):
        continue
    text = git("show", f"{commit}:{path}")
    for name, listed in re.findall(r"\bfn (\w+)(?:<[^(]*>)?\(([^)]*)\)", text):
        parameters = (re.sub(r"\s+|^\s*mut |'\w+ ", " ", p).strip() for p in listed.split(","))
        found = sorted({p for p in parameters if ":" in p})
        for together in itertools.combinations(found, 3):
            functions[together].append(f"{path.split('/')[1]}::{name}")
for together, names in sorted(functions.items(), key=lambda item: (-len(item[1]), item[0])):
    if len(names) > 2:
        print(len(names), "; ".join(together), "|", ", ".join(names))

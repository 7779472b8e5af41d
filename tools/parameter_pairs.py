"""Lists the pairs of parameter names that three functions of src/ and more have. Run at the top of the repository."""
import collections
import glob
import re

where = collections.defaultdict(list)
for path in sorted(glob.glob("crates/*/src/*.rt")):
    with open(path, encoding="utf-8") as source:
        text = source.read()
    for name, parameters in re.findall(r"fn (\w+)(?:<[^(]*>)?\(([^)]*)\)", text):
        names = [p.split(":")[0].strip().replace("mut ", "") for p in parameters.split(",") if ":" in p]
        names = sorted(n for n in names if n not in ("self", "rt", "f"))
        for i, first in enumerate(names):
            for second in names[i + 1:]:
                where[first, second].append(path.split("/")[1] + "/" + name)
for pair, functions in sorted(where.items(), key=lambda item: -len(item[1])):
    if len(functions) >= 3:
        print(len(functions), *pair, *functions)

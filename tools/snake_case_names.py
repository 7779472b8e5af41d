#!/usr/bin/env python3
"""Respell the definitions and lemmas of this repository, and where they are named, in snake case.

Run once, at the top of the repository, behind the toolchain's own port.py: that one turns the library's names and only
some of ours. A name such as `frameLength` becomes `frame_length`, also as a part of a lemma's name. Types, modules and
variants begin with a capital and stay; functions of the code are in snake case already; strings stay.
It stops, and writes nothing, where a new name is already the name of something else.
"""
import pathlib
import re
import sys

CAMEL = re.compile(r"(?<![\w\\])[a-z][a-z0-9]*(?:[A-Z][a-z0-9]*)+(?![A-Za-z0-9])")
STRING = re.compile(r'b?"(?:\\.|[^"\\])*"')
HUMP = re.compile(r"(?<=[a-z0-9])(?=[A-Z])")
SNAKE = re.compile(r"(?<![\w.])[a-z][a-z0-9]*(?:_[a-z0-9]+)+")


def snake(name):
    return HUMP.sub("_", name).lower()


def respelled(text, is_code):
    if not is_code:
        return CAMEL.sub(lambda found: snake(found.group()), text)
    pieces, at = [], 0
    for literal in STRING.finditer(text):
        pieces += [respelled(text[at:literal.start()], False), literal.group()]
        at = literal.end()
    return "".join(pieces) + respelled(text[at:], False)


def defined(text):
    """The names that a file of specs/ or proofs/ declares at its head column, and the fields of its records."""
    head = r"^(?:  )?(?:(?:abbrev|unfoldable|pub|record|data|ruleset)\s+)*([\w'◌-]+)\s*(?:\(.*\)\s*)?:"
    return set(re.findall(head, text, re.M))


def main():
    top = pathlib.Path(".")
    sources = sorted(p for p in top.glob("crates/**/*") if p.suffix in (".rt", ".antt") and "out" not in p.parts)
    pages = [top / "README.md", *sorted(top.glob("docs/*.md"))]
    texts = {path: path.read_text() for path in sources}
    renamed = {name for text in texts.values() for name in CAMEL.findall(STRING.sub("", text))}
    taken = {name for path, text in texts.items() if path.suffix == ".antt" for name in defined(text)}
    clashes = sorted(name for name in renamed & taken if snake(name) in taken)
    spelled = {}
    for name in renamed:
        spelled.setdefault(snake(name), []).append(name)
    clashes += sorted(str(names) for names in spelled.values() if len(names) > 1)
    if clashes:
        sys.exit("names that fall together: " + ", ".join(clashes))
    for path in sources:
        path.write_text(respelled(texts[path], path.suffix == ".rt"))
    for path in pages:
        path.write_text(respelled(path.read_text(), False))
    print(f"{len(renamed)} names respelled")
    parameters = {word for path, text in texts.items() if path.suffix == ".rt" for word in SNAKE.findall(text)}
    print("also words of the code: " + ", ".join(sorted(set(map(snake, renamed)) & parameters)))


if __name__ == "__main__":
    main()

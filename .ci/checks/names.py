"""Looks up what the documents name: files, names of the sources, and in the index the functions, clauses and definitions of each file."""

import os
import re
import sys

WORD = re.compile(r"[A-Za-z][A-Za-z0-9_]*$")
NAMES = r"(`[^`]+`(?:, `[^`]+`)*)"
# A file with what stands in it, and the clause of a contract; and definitions with their file.
CODE = re.compile(rf"`([^`]+\.rt)`: {NAMES}(?:, ([a-z]+))?")
DEFINITION = re.compile(rf"{NAMES} in `([^`]+\.antt)`")


def sources():
    """The names in all sources, and the names of crates and wrong bodies."""
    names = set()
    for folder, folders, files in os.walk("crates"):
        folders[:] = [name for name in folders if name != "out"]
        for name in files:
            if name.endswith((".rt", ".antt")):
                with open(os.path.join(folder, name), encoding="utf-8") as text:
                    names.update(re.findall(r"[A-Za-z][A-Za-z0-9_]*", text.read()))
            elif name.endswith(".edit"):
                names.add(name[: -len(".edit")])
    names.update(os.listdir("crates"))
    return names


def missing_in(document, names):
    """The files and names between backticks in the rows of tables that are nowhere."""
    found = []
    with open(document, encoding="utf-8") as text:
        rows = [line for line in text if line.startswith("|")]
    for row in rows:
        for word in re.findall(r"`([^`]+)`", row):
            if "/" in word and " " not in word and "<" not in word:
                if not any(os.path.exists(os.path.join(top, word)) for top in (".", "crates")):
                    found.append(word)
            elif "_" in word or "::" in word:
                found.extend(part for part in word.split("::") if WORD.match(part) and part not in names)
            elif WORD.match(word) and word[0].isupper() and word not in names:
                found.append(word)
    return found


def said_in(file):
    """What a file holds. One that is missing is told as a name."""
    try:
        with open(os.path.join("crates", file), encoding="utf-8") as text:
            return text.read()
    except FileNotFoundError:
        return ""


def misplaced_in(document):
    """What an index says of a file that doesn't hold it."""
    with open(document, encoding="utf-8") as text:
        rows = [line for line in text if line.startswith("|")]
    for row in rows:
        for file, names, clause in CODE.findall(row):
            source = said_in(file)
            if not source:
                continue
            for name in re.findall(r"`([^`]+)`", names):
                if not re.search(rf"\b(fn|struct|enum) {name.split('::')[-1]}\b", source):
                    yield f"{name} in {file}"
            if clause and not re.search(rf"\bensures {clause} ", source):
                yield f"a clause {clause} in {file}"
        for names, file in DEFINITION.findall(row):
            source = said_in(file)
            for name in re.findall(r"`([^`]+)`", names):
                if source and not re.search(rf"^(unfoldable |abbrev |pub |record |data )*{name}\b", source, re.M):
                    yield f"{name} in {file}"


def main():
    names = sources()
    lost = {document: missing_in(document, names) for document in ("docs/INDEX.md", "docs/PROVED.md")}
    lost["docs/INDEX.md"] += misplaced_in("docs/INDEX.md")
    for document, words in lost.items():
        for word in words:
            print(f"names: {document} names {word}, which isn't there")
    if any(lost.values()):
        sys.exit(1)
    print("names: all that docs/INDEX.md and docs/PROVED.md name is there")


main()

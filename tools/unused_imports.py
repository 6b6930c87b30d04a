#!/usr/bin/env python3
"""Names that an antt or Rattle file brings in and doesn't use.

unused_imports.py [--fix] [FOLDER...]     default: crates
Lists them, a line a file, and exits 1 where there are any; with --fix it takes them out of the `use` lines. What rt makes, in the folders
out, is not read.
"""
import pathlib
import re
import sys

USE = re.compile(r"^(?P<head>\s*(?:ghost )?use )(?P<path>[^{};]+?)(?:\.\{(?P<names>[^}]*)\}| as (?P<alias>\S+?))?(?P<tail>;?)\s*$")


def is_comment(line):
    return line.lstrip().startswith(("--", "//"))


def words_of(text):
    """The names in a text: what stands between blanks and brackets, and the parts of a path."""
    words = set()
    for word in re.split(r"[\s(){}\[\];,@⌜⌝⟦⟧|\"←]+", text):
        words.add(word)
        words.update(word.split("."))
    return words


def is_used(name, words, body):
    """A name with places for arguments, as ◌+◌, is used where each of its parts stands; one of marks alone, as [], where it does."""
    parts = [part for part in name.split("◌") if part]
    if all(part in words for part in parts):
        return True
    return not any(character.isalnum() for character in name) and all(part in body for part in parts)


def cleaned(path):
    """The file's text without the names that it doesn't use, and those names."""
    lines = path.read_text(encoding="utf8").split("\n")
    ghost_only = path.suffix == ".rt"
    imports = {}
    for number, line in enumerate(lines):
        match = USE.match(line)
        if match and (not ghost_only or "ghost use" in line) and not line.lstrip().startswith("pub use"):
            imports[number] = match
    body = "\n".join(line for number, line in enumerate(lines) if number not in imports and not is_comment(line))
    words = words_of(body)
    unused, kept = [], []
    for number, line in enumerate(lines):
        match = imports.get(number)
        if match is None:
            kept.append(line)
            continue
        if match["names"] is not None:
            names = [name.strip() for name in match["names"].split(",") if name.strip()]
            wanted = [name for name in names if is_used(name.split(" as ")[-1].strip(), words, body)]
            unused += [name for name in names if name not in wanted]
            if wanted:
                kept.append(f"{match['head']}{match['path']}.{{{', '.join(wanted)}}}{match['tail']}")
        else:
            name = match["alias"] or match["path"].split(".")[-1]
            if is_used(name, words, body):
                kept.append(line)
            else:
                unused.append(name)
    return "\n".join(kept), unused


def main():
    words = sys.argv[1:]
    fix = "--fix" in words
    folders = [word for word in words if word != "--fix"] or ["crates"]
    found = False
    for folder in folders:
        for path in sorted(pathlib.Path(folder).rglob("*")):
            if path.suffix not in (".antt", ".rt") or "out" in path.parts or not path.is_file():
                continue
            text, unused = cleaned(path)
            if unused:
                found = True
                print(f"{path}: {', '.join(unused)}")
                if fix:
                    path.write_text(text, encoding="utf8")
    sys.exit(1 if found and not fix else 0)


if __name__ == "__main__":
    main()

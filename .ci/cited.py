#!/usr/bin/env python3
"""Lists the files of definitions by which the contract of `cdle_run` is read, and compares them with README.md.

From the ghost imports of the file that has `cdle_run`, and of the traits that it is generic over, it follows the `use` lines of the
definitions from file to file. What lies in the toolchain's own library is left out. Run at the top of the repository.
"""
import os
import re
import sys

ROOTS = ["crates/cdle_call/src/run.rt", "crates/cdle_folder/src/outside.rt"]
USE = re.compile(r"^\s*(?:ghost )?use Rattle\.(\w+)\.specs\.([\w.+]+?)(?:\.\{| as |;|$)", re.M)


def file_of(crate, module):
    """The file of a module of definitions, or None where the toolchain makes it from the code (`declared`) or it is another library's."""
    path = f"crates/{crate}/specs/{module.replace('.', '/')}.antt"
    return path if os.path.isfile(path) else None


def cited():
    found, waiting = set(), list(ROOTS)
    while waiting:
        with open(waiting.pop(), encoding="utf-8") as text:
            for crate, module in USE.findall(text.read()):
                path = file_of(crate, module)
                if path and path not in found:
                    found.add(path)
                    waiting.append(path)
    crates = {}
    for path in sorted(found):
        _, crate, _, module = path.split("/", 3)
        crates.setdefault(crate, []).append(module.removesuffix(".antt"))
    return [f"{crate}: {', '.join(modules)}" for crate, modules in crates.items()]


def main():
    lines = cited()
    with open("README.md", encoding="utf-8") as readme:
        text = readme.read()
    missing = [line for line in lines if line not in text]
    for line in missing:
        print(f"README.md does not list among the definitions that the contract of cdle_run cites: {line}")
    if not missing and "--list" in sys.argv:
        print("\n".join(lines))
    return 1 if missing else 0


if __name__ == "__main__":
    sys.exit(main())

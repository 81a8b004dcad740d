"""Prints the folder under a prefix in which this Python looks for modules: `python3 where.py PREFIX`.

Pythons differ in this: Debian's looks in lib/python3.11/dist-packages under /usr/local, and in a venv in lib/python3.11/
site-packages. Each of its schemes is asked with the prefix as base, and the first folder that it looks in is printed. Where it
looks in none of them, that of its plain scheme is, and a line on standard error says so.
"""

import os
import site
import sys
import sysconfig


def main() -> None:
    prefix = os.path.abspath(sys.argv[1])
    looked = {*site.getsitepackages(), site.getusersitepackages(), *sys.path}
    for scheme in [sysconfig.get_default_scheme(), *sysconfig.get_scheme_names()]:
        base = prefix
        if scheme == "posix_local":  # Debian's for /usr/local, which adds the "local" itself
            if not prefix.endswith("/local"):
                continue
            base = prefix.removesuffix("/local")
        folder = sysconfig.get_path("purelib", scheme, vars={"base": base, "platbase": base, "userbase": base})
        if folder in looked:
            print(folder)
            return
    folder = sysconfig.get_path("purelib", "posix_prefix", vars={"base": prefix, "platbase": prefix})
    said = f"install: {sys.executable} doesn't look in {folder}: PYTHONPATH may name it, or PYTHON another Python"
    print(said, file=sys.stderr)
    print(folder)


main()

"""What the checks of this folder read of the crates: files, the names that a file uses, and the definitions of a file of specs/."""
import functools
import os
import re

HERE = os.path.join(os.path.dirname(os.path.abspath(__file__)), "..")


@functools.cache
def read(path):
    with open(os.path.join(HERE, path)) as file:
        return file.read()


@functools.cache
def used(path):
    """The definitions of this repository that a file names in its `use` lines: name there -> (file, name there)."""
    found = {}
    for crate, module, names in re.findall(r"\buse Rattle\.(?!std\.)(\w+)\.specs\.((?!declared)[\w.]+)\.\{([^}]*)\}", read(path)):
        for name in names.split(","):
            old, _, new = name.strip().partition(" as ")
            found[new or old] = f"crates/{crate}/specs/{module.replace('.', '/')}.antt", old
    return found


@functools.cache
def definitions(path):
    """The definitions of a file of specs/, in order: name -> its text, without comments."""
    text = re.sub(r"--.*|^module .*", "", read(path), flags=re.M)
    parts = re.split(r"^ *(?:(?:unfoldable|abbrev)(?: pub)?|(?:pub )?(?:record|data)) ([^\s{]+)", text, flags=re.M)
    return dict(zip(parts[1::2], parts[2::2]))

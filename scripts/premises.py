#!/usr/bin/env python3
"""Compares docs/PREMISES.md with the `requires` clauses of the sources.

A public call is a `pub fn` that lib.rt holds or exports, a `pub fn` of an exported type, or a method of an exported
trait. The page has a table under the heading `## CRATE` for each crate with such a call that has a premise. A row

    | `call`, `Type::method` | `clause`, `other`: what they say | who meets them |

says that each of its calls has each of its clauses; `-` stands for a clause without a name. The section "Crates without
a premise" names every other crate. Crates of tests (`.._tests`) are left out.

Where page and sources agree it prints nothing and ends with 0; else it prints a line for each premise that only one of
them has, and for each row that it can't read, and ends with 1. It reads crates.txt, the sources (crates/*/src) and the
page, and no more.
"""

import re
import sys
from pathlib import Path

ROOT = Path(__file__).resolve().parent.parent
PAGE = "docs/PREMISES.md"
WITHOUT = "Crates without a premise"
TABLE_HEAD = ["| call | premise | met by |", "|---|---|---|"]

EXPORT = re.compile(r"^pub use (\w+)::(?:(\w+)(?: as \w+)?|\{([\w\s,]*)\});", re.M)
OWN_ITEM = re.compile(r"^pub (?:fn|struct|enum|trait) (\w+)", re.M)
OWNER = re.compile(r"(?:pub )?(?:unsafe )?(?:(trait)|impl) (?:.*( for ))?(?:& ?(?:mut )?)?(\w+)")
FUNCTION = re.compile(r"( *)(pub(?:\([\w ]+\))? )?(?:(?:const|unsafe) )*fn (\w+)")
CLAUSE = re.compile(r" *requires\*? *(\w*) *\{")
NAMES = r"`[^`]+`(?:, `[^`]+`)*"
ROW = re.compile(rf"\| ({NAMES}) \| ({NAMES}):? [^|]+ \| [^|]+ \|")


def read(path):
    return path.read_text(encoding="utf-8")


def quoted(text):
    """What stands between backticks."""
    return re.findall(r"`([^`]+)`", text)


def crate_names():
    """The crates of crates.txt but those of tests."""
    lines = (line.partition("#")[0] for line in read(ROOT / "crates.txt").splitlines())
    names = (line.partition(":")[0].split()[0] for line in lines if line.strip())
    return [name for name in names if not name.endswith("_tests")]


def public_items(library):
    """The items that lib.rt makes public, as pairs of a module and a name."""
    exports = EXPORT.findall(library)
    if len(exports) != len(re.findall(r"^ *pub (?:use|mod)\b", library, re.M)):
        sys.exit("premises.py reads only exports of the form `pub use module::{Name, other_name};` or `pub use module::Name as Other;`")
    items = {(module, name) for module, one, many in exports for name in re.findall(r"\w+", one + many)}
    return items | {("lib", name) for name in OWN_ITEM.findall(library)}


def owner_of(line):
    """The type or trait whose methods follow, and whether they are those of a trait, which are public without `pub`."""
    plain = line
    while (shorter := re.sub(r"<[^<>]*>", "", plain)) != plain:
        plain = shorter
    found = OWNER.match(plain) or sys.exit(f"premises.py can't read: {line}")
    return found[3], bool(found[1] or found[2])


def premises_of_file(module, text, items):
    """The premises of the public calls of a file, as pairs of a call and a clause. It relies on the layout of rt fmt."""
    types = {name for _, name in items}
    owner, of_trait, call, indent = None, False, None, ""
    for line in text.splitlines():
        if re.match(r"(pub )?(unsafe )?(impl|trait)\b", line):
            owner, of_trait = owner_of(line)
        elif line == "}":
            owner, of_trait = None, False
        elif start := FUNCTION.match(line):
            indent, is_public, name = start[1], start[2] == "pub ", start[3]
            if not indent:
                call = name if is_public and (module, name) in items else None
            else:
                is_method = len(indent) == 4 and owner in types
                call = f"{owner}::{name}" if is_method and (is_public or of_trait) else None
        elif call and (clause := CLAUSE.match(line)):
            yield call, clause[1] or "-"
        # The body begins, at the indentation of the function.
        if re.match(indent + r"\S.*\{\}?$|" + indent + r"\{", line):
            call = None


def premises_of_sources():
    """The premises of every public call, as triples of a crate, a call and a clause."""
    for crate in crate_names():
        source = ROOT / "crates" / crate / "src"
        library = source / "lib.rt"
        items = public_items(read(library)) if library.exists() else set()
        for file in sorted(source.rglob("*.rt")):
            text = read(file)
            if file != library and re.search(r"^ *pub (use|mod)\b", text, re.M):
                sys.exit(f"premises.py reads exports only in lib.rt: {file}")
            for call, clause in premises_of_file(file.stem, text, items):
                yield crate, call, clause


def page_says():
    """What the page says: triples of a crate, a call and a clause, the crates without any, and rows that can't be read."""
    heading, premises, without, unread = None, set(), set(), []
    for line in read(ROOT / PAGE).splitlines():
        if line.startswith("#"):
            heading = line.lstrip("# ")
        elif heading == WITHOUT:
            without.update(quoted(line))
        elif row := ROW.fullmatch(line):
            premises.update((heading, call, clause) for call in quoted(row[1]) for clause in quoted(row[2]))
        elif line.startswith("|") and line not in TABLE_HEAD:
            unread.append(line)
    return premises, without, unread


def main():
    premises = set(premises_of_sources())
    without = set(crate_names()) - {crate for crate, _, _ in premises}
    said, said_without, unread = page_says()
    complaints = [f"can't be read: {line}" for line in unread]
    complaints += [f"lacks {crate}: `{call}`, `{clause}`" for crate, call, clause in sorted(premises - said)]
    complaints += [f"has {crate}: `{call}`, `{clause}`, no source has" for crate, call, clause in sorted(said - premises)]
    complaints += [f"lacks `{crate}` among the crates without a premise" for crate in sorted(without - said_without)]
    complaints += [f"has `{crate}` among the crates without a premise" for crate in sorted(said_without - without)]
    for complaint in complaints:
        print(f"{PAGE} {complaint}")
    return 1 if complaints else 0


if __name__ == "__main__":
    sys.exit(main())

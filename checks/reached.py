"""Lists, crate by crate, the definitions of specs/ that exported contracts reach, and those that none does.

It follows names by the text: from the clauses of what a crate's root file hands out, the views of its types and the
ghost members of its traits, through imports, renames and names that are handed on. A name after a dot is a field, but
where a module's other name stands before it.

    reached.py [--each]    the counts, and with --each every definition; the status is 1 where one outside inner/ is not
                           reached

Definitions that serve proofs alone stand in a folder inner/.
"""

import pathlib
import re
import sys

WORD = r"[^\W\d][\w'?!]*"
TOKEN = re.compile(rf"\.?{WORD}|[^\s\w(){{}}\[\],;.]+")
ITEM = re.compile(r"^(?:(?:abbrev|unfoldable|opaque|pub|record|data|def|inductive) +)+([^\s:(]+)")
USE = re.compile(r"^\s*(?:ghost |unfoldable |pub )*use +([\w.]+?)(?:\.\{([^}]*)\}|\.\*)?(?: +as +(\S+?))?;?\s*$")
HEAD = re.compile(rf"^( *)(pub(?:\([a-z]+\))? )?(?:unsafe |const |extern \"C\" )*(fn|struct|enum|trait|type) ({WORD})")


def tokens(text):
    """Words, with a dot where one stands before; and signs."""
    return TOKEN.findall(text)


def imports(lines):
    """The names that these lines import: name -> (module, its name there), and other names of modules."""
    names, modules = {}, {}
    for line in lines:
        found = USE.match(line)
        if not found:
            continue
        module, inside, other = found.groups()
        if inside is None:
            modules[other or module.rsplit(".", 1)[1]] = module
            continue
        for name in (part.strip() for part in inside.split(",")):
            if name:
                first, _, second = name.partition(" as ")
                names[second.strip() or first.strip()] = (module, first.strip())
    return names, modules


class Definition:
    """A definition: its module, its name, its lines without comments, and the names that it makes."""

    def __init__(self, module, name, lines):
        self.module, self.name, self.lines = module, name, lines
        self.made = {name}
        if re.search(r"\bdata\b", lines[0]):
            self.made |= {m.group(1) for m in map(re.compile(r"^ +(?:pub )?([^\s:]+) *:").match, lines[1:]) if m}


class Module:
    """A file of definitions."""

    def __init__(self, name, path):
        self.name, self.path, self.definitions = name, path, []
        lines = [re.sub(r"(^|\s)--( .*|$)", "", line) for line in path.read_text().splitlines()]
        self.names, self.modules = imports(lines)
        block = None
        for line in lines:
            item = ITEM.match(line)
            if USE.match(line) or line.startswith("pub mod"):
                block = None
            elif item and not line.startswith("pub use"):
                block = [line]
                self.definitions.append(Definition(self, item.group(1), block))
            elif block is not None and line.strip():
                block.append(line)
        self.made = {made: each for each in self.definitions for made in each.made}


class Reader:
    """All modules, and what was reached."""

    def __init__(self, root):
        self.modules, self.reached = {}, {}
        for path in sorted(root.glob("crates/*/specs/**/*.antt")):
            crate, _, *rest = path.relative_to(root / "crates").with_suffix("").parts
            name = ".".join(["Rattle", crate, "specs", *rest])
            self.modules[name] = Module(name, path)

    def find(self, module, name):
        """The definition that a module hands out under this name."""
        seen = set()
        while module in self.modules and (module, name) not in seen:
            seen.add((module, name))
            here = self.modules[module]
            if name in here.made:
                return here.made[name]
            if name not in here.names:
                return None
            module, name = here.names[name]
        return None

    def read(self, text, names, modules, made, why):
        """Reaches what the text names: labels of fields, and what a λ or a clause's left side binds, are no names."""
        text = re.sub(rf"([{{;]\s*)(?:pub )?{WORD}(\s*=\s)", r"\1\2", text)
        if re.match(r"(?:pub )*(?:record|data)|record pub", text):
            text = re.sub(rf"^ +(?:pub )?{WORD} *:", ":", text, flags=re.M)
        bound = set(re.findall(WORD, " ".join(re.findall(r"[λ∀∃]([^.:]*)[.:]", text))))
        bound |= {word for group in re.findall(r"[({]((?:[a-z][\w']* )+):", text) for word in group.split()}
        for left in re.findall(rf"^[^\s]+ ([^=:\n]*) = ", text, re.M) if made else []:
            bound |= set(re.findall(r"[a-z][\w'?!]*", left))
        words = [word for word in tokens(text) if word not in bound]
        there = set(words)
        for before, word in zip([""] + words, words):
            if word.startswith("."):
                if before in modules:
                    self.reach(self.find(modules[before], word[1:]), why)
            elif word in made:
                self.reach(made[word], why)
            elif word in names:
                self.reach(self.find(*names[word]), why)
        # Names with places, as in `a ≤ b`: all their signs are there.
        for name in [*made, *names]:
            parts = [part for part in re.split("[◌_]" if "◌" in name else "$^", name) if part]
            if "◌" in name and all(set(tokens(part)) <= there for part in parts):
                self.reach(made.get(name) or self.find(*names[name]), why)

    def reach(self, definition, why):
        """Reaches a definition, and what it names."""
        if definition is None or definition in self.reached:
            return
        self.reached[definition] = why
        here = definition.module
        self.read("\n".join(definition.lines), here.names, here.modules, here.made, f"{here.name}.{definition.name}")


def exported(text):
    """The names that a root file hands out, and its public modules."""
    text = re.sub(r"//.*", "", text)
    names = set()
    for use in re.findall(r"^pub use ([^;]*);", text, re.M):
        names |= set(re.findall(WORD, use))
    return names, set(re.findall(r"^pub mod (\w+)", text, re.M))


def balanced(lines, start):
    """The lines from this one until its braces are closed."""
    depth, out, opened = 0, [], False
    for line in lines[start:]:
        out.append(line)
        depth += line.count("{") - line.count("}")
        opened = opened or "{" in line
        if (opened and depth <= 0) or (not opened and line.rstrip().endswith(";")):
            break
    return out


def clauses(lines, start):
    """A function's clauses: the lines from `requires` or `ensures` until its body or its end."""
    out, inside, depth = [], False, 0
    for line in lines[start:]:
        if depth == 0 and re.match(r" *\{", line) or not inside and re.search(r"[{;] *$", line):
            inside = inside or re.match(r" *(requires|ensures)\b", line) is not None
            if not inside or re.match(r" *\{", line):
                break
        if depth == 0 and re.match(r" *(requires|ensures)\b", line):
            inside = True
        if inside:
            out.append(line)
            depth += line.count("{") - line.count("}")
            if depth == 0 and line.rstrip().endswith(";"):
                break
    return "\n".join(out)


def roots(reader, crate):
    """Reaches what a crate's exported contracts name."""
    root = next((p for p in (crate / "src/lib.rt", crate / "src/main.rt") if p.exists()), None)
    if root is None:
        return
    out, public = exported(root.read_text())
    files, bodies = [], {}
    for path in sorted((crate / "src").rglob("*.rt")):
        lines = [re.sub(r"(^|\s)//.*", "", line) for line in path.read_text().splitlines()]
        files.append((path, lines))
        for at, line in enumerate(lines):
            head = HEAD.match(line)
            if head and not head.group(1) and head.group(3) != "fn":
                if head.group(2) == "pub " and path.stem in public:
                    out.add(head.group(4))
                bodies[head.group(4)] = "\n".join(balanced(lines, at))
    # A view reads those of the fields.
    types, todo = set(), [name for name in bodies if name in out]
    while todo:
        name = todo.pop()
        if name not in types:
            types.add(name)
            todo += [word for word in set(re.findall(WORD, bodies[name])) if word in bodies]
    for path, lines in files:
        is_public = path.stem in public or path == root
        names, modules = imports(lines)
        owner, is_trait, at = None, False, 0
        for at, line in enumerate(lines):
            impl = re.match(r"impl(?:<[^{]*?>)? +(?:(.*?) for )?&?(?:'\w+ )?(?:mut )?(\w+)", line)
            if impl:
                owner, is_trait = impl.group(2), impl.group(1) is not None
            trait = re.match(r"(?:pub )?trait (\w+)", line)
            if trait:
                owner, is_trait = trait.group(1), True
            if line.startswith("}"):
                owner = None
            known = owner is not None and (owner in types or owner in out or is_trait and owner not in bodies)
            ghost = re.match(r" +ghost (?!use\b)(\w+)", line)
            why = f"{path.parent.parent.name} {path.stem}"
            if ghost and known:
                reader.read("\n".join(balanced(lines, at)), names, modules, {}, f"{why}: {owner}.{ghost.group(1)}")
            head = HEAD.match(line)
            if not head or head.group(3) != "fn":
                continue
            function = head.group(4)
            if owner is None:
                handed = head.group(2) == "pub " and (function in out or is_public) or function == "main"
            else:
                handed = known and (is_trait or head.group(2) == "pub ")
            if handed:
                reader.read(clauses(lines, at), names, modules, {}, f"{why}: {owner + '.' if owner else ''}{function}")


def main():
    sys.setrecursionlimit(100000)
    root = pathlib.Path(__file__).resolve().parent.parent
    reader = Reader(root)
    for crate in sorted((root / "crates").iterdir()):
        roots(reader, crate)
    counts, wrong = {}, []
    for module in reader.modules.values():
        count = counts.setdefault(module.name.split(".")[1], [0, 0, 0, 0])
        missing = []
        for each in module.definitions:
            is_reached = each in reader.reached
            count[0 if is_reached else 2] += 1
            count[1 if is_reached else 3] += len(each.lines)
            if not is_reached:
                missing.append(each.name)
            if "--each" in sys.argv:
                why = "by " + reader.reached[each] if is_reached else "by none"
                print(f"{module.name}.{each.name}", len(each.lines), why, sep="\t")
        if missing and ".specs.inner." not in module.name:
            wrong.append(f"{module.name}: by none are reached {' '.join(missing)}")
    form = "{:18} {:>8} {:>8} {:>8} {:>8}"
    print(form.format("crate", "reached", "lines", "not", "lines"))
    for crate, count in counts.items():
        print(form.format(crate, *count))
    print(form.format("all", *map(sum, zip(*counts.values()))))
    print("\n".join(wrong))
    sys.exit(1 if wrong else 0)


if __name__ == "__main__":
    main()

"""What the files of definitions (crates/*/specs/*.antt) have: names, and which names each of them is said with."""
import re
from pathlib import Path

TOP = Path(__file__).resolve().parent.parent
UNLISTED = {"Lib", "Samples", "Laws", "NumberOrder", "Spelled"}
SIGNATURE = re.compile(r"(\s*)(?:(?:abbrev|unfoldable) )?(?:pub )?(?:record |data )?(\S+) (?:\([^=]*\) |\{[^=]*\} )*: ")
PUBLIC = re.compile(r"(\s*)(?:(?:abbrev|unfoldable) )?pub (?:record |data )?(\S+)")
USE = re.compile(r"\s*(?:ghost |unfoldable )?(?:pub )?use Rattle\.(\w+)\.specs\.([\w.]+?)(?:\.\{([^}]*)\})?(?: as (\w+))?;?$")
TOKEN = re.compile(r"[^\s(){};,]+")


def read(path):
    return path.read_text(encoding="utf-8").split("\n")


def spec_files():
    """The lines of each file that is listed, by crate and name of the file."""
    paths = sorted(p for p in TOP.glob("crates/*/specs/*.antt") if p.stem not in UNLISTED)
    return {(p.parts[-3], p.stem): read(p) for p in paths}


def imports_of(lines):
    """The names that the lines import, each with crate, file and name, and the files that they import whole."""
    names, wholes = {}, {}
    for line in lines:
        use = USE.match(line)
        if not use:
            continue
        crate, path, items, alias = use.groups()
        if alias:
            wholes[alias] = (crate, path)
        for item in (items or "").split(","):
            name, _, other = item.strip().partition(" as ")
            if name:
                names[other or name] = (crate, path, name)
    return names, wholes


def bodies_of(lines):
    """The lines of each definition of a file, by its name, without comments."""
    bodies, now, within = {}, None, False
    for line in lines:
        if line.strip() == "mutual":
            within = True
        elif line and not line[0].isspace():
            within = False
        if line.lstrip().startswith(("--", "use ", "pub use ", "unfoldable pub use ", "infix")) or not line.strip():
            continue
        begins = SIGNATURE.match(line) or PUBLIC.match(line)
        if begins and len(begins.group(1)) == (2 if within else 0):
            now = begins.group(2)
            bodies[now] = []
        if now:
            bodies[now].append(line)
    return bodies


class Names:
    """Which definition each word of a file stands for."""

    def __init__(self, files):
        self.bodies = {key: bodies_of(lines) for key, lines in files.items()}
        self.imports = {key: imports_of(lines) for key, lines in files.items()}

    def named(self, text, own, names, wholes):
        """The definitions and plain types that a text names: each with crate, file and name."""
        for word in TOKEN.findall(text):
            front, _, rest = word.partition(".")
            for name in (word, front, f"◌{word}◌"):
                if own and name in self.bodies[own]:
                    yield own + (name,)
                elif name in names:
                    yield names[name]
            if front in wholes and rest:
                yield wholes[front] + (rest.split(".")[0],)

    def closure(self, roots):
        """All definitions and plain types that these are said with, themselves among them."""
        found, left = set(), list(roots)
        while left:
            crate, path, name = at = left.pop()
            if at in found:
                continue
            found.add(at)
            key = (crate, path)
            if name in self.bodies.get(key, {}):
                left += self.named("\n".join(self.bodies[key][name]), key, *self.imports[key])
        return found


def contract_of(lines, function):
    """The clauses of a public function of a file in Rattle's own language."""
    start = next(at for at, line in enumerate(lines) if re.match(rf"pub fn {function}\b", line))
    end = next(at for at in range(start, len(lines)) if lines[at].startswith("{"))
    clauses = next(at for at in range(start, end) if re.match(r"\s+(requires|ensures)", lines[at]))
    return "\n".join(line for line in lines[clauses:end] if not line.strip().startswith("//"))

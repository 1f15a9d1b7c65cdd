"""What the sources say: the functions of crates/*/src with their contracts, and the types that they name.

tests/determined holds the statements to it.
"""
import re
import sys
from pathlib import Path

ROOT = Path(__file__).resolve().parent.parent
CLAUSE = re.compile(r"^ +(requires|ensures)(?: \w+)? \{", re.M)
# what is lent to be written, with or without a lifetime
LENT = re.compile(r"&\s*(?:'\w+\s+)?mut\b")
NAME = r"[^\s(){}.;,@\"«»]+"


# a function: the name, what it is generic in, the parameters, the answer and the contract
FUNCTION = re.compile(r'^pub (?:extern "C" )?fn (\w+)(?:<([^>]*)>)?\((.*?)\)(?: -> ([^\n{]+))?\n(.*?)^\{(.*?)^\}', re.S | re.M)
HEAD = re.compile(r'^pub (?:extern "C" )?fn \w+', re.M)


class Function:
    def __init__(self, crate, path, source, match):
        _, generic, parameters, answer, self.contract, self.body = match.groups()
        self.crate = crate
        self.path = path
        self.source = source
        self.uses = uses_of(source, "ghost use", ";")
        # each type that it is generic in, with the trait that bounds it
        self.bounds = [tuple(part.strip() for part in bound.split(":")) for bound in split(generic or "", ",") if not bound.strip().startswith("'")]
        self.given = [(n.strip(), t.strip()) for n, t in (p.split(":", 1) for p in split(parameters, ","))]
        self.owned = [n for n, t in self.given if not LENT.match(t)]
        self.lent = [n for n, t in self.given if LENT.match(t)]
        self.answer = answer and answer.strip()
        self.answers = answer is not None
        self.clauses = list(clauses(self.contract, "ensures"))
        self.requires = list(clauses(self.contract, "requires"))
        if any(len(bound) != 2 or not re.fullmatch(r"\w+", bound[1]) for bound in self.bounds) or re.search(r"\bwhere\b", f"{answer} {self.contract}") or "impl " in parameters:
            sys.exit(f"{path}: it is generic in another way than by one trait for a type, which is not followed")

    def text(self):
        """The contract as one text: its clauses, joined by × where there are more."""
        if len(self.clauses) == 1:
            return self.clauses[0]
        return " × ".join(c if enclosed(c) else f"({c})" for c in self.clauses)

    def module(self):
        return self.path.rpartition("::")[0]

    def home(self, name):
        """The crate, with its modules, that declares a type or trait which the function names."""
        return home(name, self.source, self.module())


def clauses(contract, kind):
    """The text of each clause of a kind, without its braces."""
    for match in CLAUSE.finditer(contract):
        depth, at = 1, match.end()
        while depth:
            depth += (contract[at] == "{") - (contract[at] == "}")
            at += 1
        if match.group(1) == kind:
            yield words(contract[match.end() : at - 1])


def home(name, source, here):
    """The crate, with its modules, that declares a type or trait which a source names; it may be passed on by `pub use`."""
    path = owner(name, source, here)
    text = source_of(*path.split("::")).read_text()
    return path if re.search(rf"^pub (?:struct|enum|trait) {name}\b", text, re.M) else home(name, text, path)


def is_struct(path):
    """Whether a type is a struct, which has one case."""
    crate, *modules, name = path.split("::")
    return re.search(rf"^pub struct {name}\b", source_of(crate, *modules).read_text(), re.M) is not None


def traits():
    """The public traits of every crate: the path of each, the types that it is written for, its methods, and the other crates that name it."""
    sources = {file: file.read_text() for file in sorted(ROOT.glob("crates/*/src/**/*.rt"))}
    for file, source in sources.items():
        for name in re.findall(r"^pub trait (\w+)", source, re.M):
            crate = file.relative_to(ROOT).parts[1]
            path = "::".join([crate] + ([file.stem] if file.stem != "lib" else []) + [name])
            own = "\n".join(text for other, text in sources.items() if other.relative_to(ROOT).parts[1] == crate)
            elsewhere = {other.relative_to(ROOT).parts[1] for other, text in sources.items() if re.search(rf"\b(?:{name}\b|{file.stem}::\*)", re.sub(r"//.*|^ghost use [^;]*;", "", text, flags=re.M))}
            yield path, re.findall(rf"^impl(?:<[^>]*>)? {name} for (.+) \{{", own, re.M), methods(source, name), sorted(elsewhere - {crate})


def methods(source, trait):
    """The methods that a trait declares: the name of each and the kinds of its clauses."""
    body = re.search(rf"^pub trait {trait}\b.*?^\}}", source, re.S | re.M).group(0)
    for item in re.split(r"^ {4}(?=\S)", body, flags=re.M):
        if method := re.search(r"\bfn (\w+)", item.partition("\n")[0]):
            yield method.group(1), [match.group(1) for match in CLAUSE.finditer(item)]


def owner(name, source, here):
    """The crate, with its modules, that declares a type which a source names."""
    if "::" in name:
        return name.rpartition("::")[0]
    path = next((path for path in imported(source) if path.endswith(f"::{name}")), f"{here}::{name}").rpartition("::")[0]
    first = path.partition("::")[0]
    return re.sub("^crate(?=::|$)", here.partition("::")[0], path) if first == "crate" or (ROOT / "crates" / first).is_dir() else f"{here}::{path}"


def imported(source):
    """The paths of what a source takes from elsewhere."""

    def listed(tree, above):
        for part in split(tree, ","):
            head, brace, inner = part.strip().partition("{")
            yield from listed(inner.rpartition("}")[0], above + head) if brace else [above + head]

    for tree in re.findall(r"^(?:pub )?use ([^;]*);", source, re.M):
        yield from listed(words(tree), "")


def source_of(crate, *modules):
    return ROOT / "crates" / crate / "src" / f"{modules[-1] if modules else 'lib'}.rt"


def public_functions():
    """The functions that another crate can call, of every library crate. What a crate of the same name and _c exports to C is told by its export."""
    crates = re.findall(r"^(\w+)(?: staticlib)?:", (ROOT / "crates.txt").read_text(), re.M)
    for crate in crates:
        library = source_of(crate)
        if library.exists() and not crate.endswith("_c"):
            yield from in_module(crate, [crate], library)


def exports():
    """The functions that are exported to C, each with the function of the same name that it stands for."""
    functions = {(f.crate, f.path.rpartition("::")[2]): f for f in public_functions()}
    for library in sorted(ROOT.glob("crates/*_c/src")):
        crate = library.parent.name
        for file in sorted(library.glob("*.rt")):
            for match in FUNCTION.finditer(file.read_text()):
                yield Function(crate, f"{crate}::{match.group(1)}", file.read_text(), match), functions.get((crate.removesuffix("_c"), match.group(1)))


def in_module(crate, modules, file):
    """The functions of a module that another crate can call."""
    source = file.read_text()
    if re.search(r"^[ \t]+pub fn", source, re.M) or any(re.search(r"::[a-z_0-9]+$", path) for path in imported("\n".join(re.findall(r"^pub use [^;]*;", source, re.M)))):
        sys.exit(f"{file.relative_to(ROOT)}: a method, or a function passed on by `pub use`, which is not followed")
    heads, read = HEAD.findall(source), list(FUNCTION.finditer(source))
    # a head with no contract would run on into the next function
    if len(heads) != len(read) or any(HEAD.search(match.group(0), 1) for match in read):
        sys.exit(f"{file.relative_to(ROOT)}: a public function with no contract, or with its brace elsewhere than on a line of its own")
    for match in read:
        yield Function(crate, "::".join(modules + [match.group(1)]), source, match)
    for name in re.findall(r"^pub mod (\w+);", source, re.M):
        yield from in_module(crate, modules + [name], file.parent / f"{name}.rt")


def uses_of(source, keyword, end):
    """From a name to the module and the name there that it stands for."""
    names = {}
    for module, listed in re.findall(rf"^{keyword} ([^\s{{]+)\.\{{([^}}]*)\}}{end}", source, re.M):
        for item in listed.split(","):
            real, _, other = item.strip().partition(" as ")
            names[(other or real).strip()] = f"{module}.{real.strip()}"
            if real.startswith("◌") and not other:
                names[real.strip("◌ ")] = f"{module}.{real.strip()}"
    return names


def split(text, mark):
    parts, depth, part = [], 0, ""
    for letter in text:
        depth += (letter in "([{<") - (letter in ")]}>")
        if letter == mark and depth == 0:
            parts.append(part)
            part = ""
        else:
            part += letter
    return [p for p in parts + [part] if p.strip()]


def enclosed(text):
    """The text stands in one pair of parentheses as a whole."""
    depth = 0
    for at, letter in enumerate(text):
        depth += (letter == "(") - (letter == ")")
        if depth == 0:
            return at == len(text) - 1
    return False


def words(text):
    return " ".join(text.split())

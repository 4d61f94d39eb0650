#!/usr/bin/env python3
"""Bring the repository's own names to snake case. Run once, at the repository's top, right after port.py; it takes no arguments.

port.py respells the library's names, and of the repository's own only those that look like a name of the library. This script does
the rest: definitions, lemmas, fields, constructors, local names and aliases in crates/*/specs and crates/*/proofs that are in camel
case (`flowAt`) or have dashes (`mem-count`) become `flow_at` and `mem_count`. Names that begin with a capital keep their spelling.

It leaves alone what isn't the repository's to spell: whatever a `use` line takes from the library or from a module that Rattle
makes; what a Proof.antt declares as one of its `tie.` needs; what stands behind a dot, unless it is a field of one of the
repository's records or stands behind the name of one of its modules (so `c.before.flow-place.ensures` stays); and Rust code,
strings, file names and module names.

The same names are respelled in the clauses and comments of crates/*/src, in crates/*/must-fail/*.edit, and between backticks in
README.md and docs/*.md. Edits and pages are not turned by port.py, so there the names of the repository that port.py respelled in
the sources are brought to that spelling too.

Where a new spelling is taken already in a file (or is a keyword, a Rust parameter beside a clause, or, for a lemma, the name of a
Rust function), the table OTHER has another name. If one isn't there, the script says which, and changes nothing. The names that
changed are written to tools/respelled.txt, old and new, in order.
"""
import re
import sys
from collections import defaultdict
from pathlib import Path

# Names whose snake case is taken, and what they are called instead. A lemma or field beside the definition that it is about:
OTHER = {
    name: name.replace("-", "_") + "_lem"
    for name in """
        bucket-fits cell-at empty-cell first-refused flight-of flow-fits fresh-tally in-first-row in-later-row in-north in-turn is-flow
        left-at line-behind list-number next-cell next-register next-tally of-flow offer-number offer-on on-memory on-way passed-of
        register-fits register-ok role-offers set-answer south-taken step-number step-on tally-at tally-fits wait-less write-on
    """.split()
}
# A function's contract beside the definition of that name:
OTHER |= {name: name.replace("-", "_") + "_fn" for name in "answer-by call-number groups-fed kept-with".split()}
# Fields are called `in_place` already, and a field is beside the definition `onTorus`:
OTHER |= {"inPlace": "is_in_place", "on-torus": "is_on_torus"}
# Names that port.py brought to snake case, by the module that declares them:
SPELLED = {
    ("Rattle.host.proofs.hrt_recent.Proof", "answer_word"): "answer_word_fn",
    ("Rattle.plan.proofs.Accepted", "size_ok"): "size_ok_lem",
    ("Rattle.router.proofs.Reasons", "by_number"): "by_number_lem",
    ("Rattle.run.proofs.Calls", "step_by"): "step_by_lem",
    ("Rattle.run.proofs.Calls", "steps_on"): "steps_on_lem",
}

KEYWORDS = set(
    "data record deriving module where use mod pub package open as unfoldable abbrev axiom unfold unfolding ruleset mutual infix "
    "infixl infixr elim let in do Type ground assumption search grind simp omega rw cc".split()
)
TOKEN = re.compile(r'[^\s(){}.;,@"«»]+')
STRING = re.compile(r'"(?:[^"\\\n]|\\.)*"')
COMMENT = re.compile(r"(?:^|(?<=\s))--(?=\s|$).*")
USE = re.compile(r"\s*(?:(?:pub|package|unfoldable) )*use ([^\s{]+?)\.?(?:\{(.*)\}| as (\S+))?\s*$")
DECLARED = re.compile(r"\s*(?:(?:where|pub|package|abbrev|unfoldable|axiom) )*((?:%s )+): (.*)" % TOKEN.pattern)
RECORD = re.compile(r"(\s*)(?:pub |package )?record (?!\{)")


def is_old(name):
    """A name in camel case or with dashes that begins with a small letter."""
    return name[:1].islower() and bool(re.search(r"[a-z0-9][A-Z]|\w-\w", name))


def snake(name):
    return re.sub(r"(?<=[a-z0-9])[A-Z](?![A-Z])", lambda m: "_" + m[0].lower(), re.sub(r"(?<=\w)-(?=\w)", "_", name)).replace("′", "'")


class Module:
    """What one antt file declares, imports and cites."""

    def __init__(self, path):
        self.path = path
        self.lines = path.read_text().split("\n")
        crate, *rest = path.with_suffix("").parts[1:]
        self.name = ".".join(["Rattle", crate, *rest])
        self.declared, self.shared, self.needs, self.fields = set(), set(), set(), set()
        self.imports = {}  # the names in `use M.{..}`, by the name that they have here and by their own: M and their own
        self.aliases, self.modules = set(), {}  # the names behind `as`, and those among them that are modules
        self.plain, self.dotted = set(), set()  # the tokens of its code that stand alone, and those behind a dot
        record_indent = field_indent = None
        for line in self.lines:
            code = COMMENT.sub("", line)
            indent = len(code) - len(code.lstrip())
            if use := USE.match(code):
                for words in map(str.split, filter(str.strip, (use[2] or "").split(","))):
                    self.imports[words[0]] = self.imports[words[-1]] = (use[1], words[0])
                    self.aliases.update(words[2:])
                if use[3]:
                    self.aliases.add(use[3])
                    self.modules[use[3]] = use[1]
                continue
            if code.strip() and record_indent is not None and indent <= record_indent:
                record_indent = field_indent = None
            if RECORD.match(code):
                record_indent = indent
            elif found := DECLARED.match(code):
                field_indent = indent if record_indent is not None and field_indent is None else field_indent
                for word in found[1].split():
                    if re.match(r"tie\.(Need-|invariant|decreases)", found[2]):
                        self.needs.add(word)
                        continue
                    self.declared.add(word)
                    if field_indent == indent:
                        self.fields.add(word)
                    elif re.match(r"\s*(pub|package) ", code):
                        self.shared.add(word)
            self.declared.update(re.findall(r"\blet (%s)" % TOKEN.pattern, code))
            for token in TOKEN.finditer(code):
                (self.dotted if code[: token.start()].endswith(".") else self.plain).add(token[0])
        self.ties = any(source.endswith(".Tie") for source in self.modules.values())


class Repository:
    def __init__(self):
        paths = sorted(p for part in ("specs", "proofs") for p in Path("crates").glob(f"*/{part}/**/*.antt"))
        self.modules = {module.name: module for module in map(Module, paths)}
        self.sources = {p: p.read_text() for p in sorted(Path("crates").glob("*/src/**/*.rt"))}
        self.functions = {f for text in self.sources.values() for f in re.findall(r"\bfn (\w+)", text)}
        self.fields = set().union(*(m.fields for m in self.modules.values()))
        self.declared = set().union(*(m.declared for m in self.modules.values()))
        self.foreign = {}  # by module, the names that there are the library's or Rattle's
        for m in self.modules.values():
            self.foreign[m.name] = m.needs | {n for n in m.imports if n not in m.aliases and not self.home(m, n)}
        names = set().union(*(m.declared | m.aliases | self.bound(m) for m in self.modules.values()))
        self.names = {name: OTHER.get(name, snake(name)) for name in sorted(names) if is_old(name)}

    def home(self, module, name):
        """The module of the repository that declares a name that this one imports or declares, however often it is passed on."""
        while module and name not in module.declared | module.aliases:
            if name not in module.imports:
                return None
            source, name = module.imports[name]
            module = self.modules.get(source)
        return module and module.name

    def bound(self, module):
        """The names that are nowhere declared or imported. What ends in -end is Rattle's name for a range's end."""
        return {n for n in module.plain - self.foreign[module.name] - set(module.imports) if not n.endswith("-end")}

    def spelled(self, module, name):
        """A name that stands alone in a file, as it is to be spelled."""
        if name in self.foreign[module.name]:
            return name
        if not is_old(name):
            source, original = module.imports.get(name, (module.name, name))
            return SPELLED.get((source, original), name)
        return self.names.get(name, name)

    def spelled_behind(self, module, name, chain):
        """A name behind a dot. The chain is what stands before the dot, up to a space or bracket."""
        if name not in self.names:
            return name
        if home := self.modules.get(chain if chain.startswith("Rattle.") else module.modules.get(chain)):
            return self.names[name] if self.home(home, name) else name
        is_call = module.ties and name.replace("-", "_") in self.functions
        return self.names[name] if name in self.fields and not is_call else name

    def code(self, module, line):
        def new(token):
            before = line[: token.start()]
            if before.endswith("."):
                return self.spelled_behind(module, token[0], re.search(r'[^\s(){};,@"«»]*$', before[:-1])[0])
            return self.spelled(module, token[0])

        comment = COMMENT.search(line)
        end = comment.start() if comment else len(line)
        return TOKEN.sub(new, line[:end]) + TOKEN.sub(lambda t: self.names.get(t[0], t[0]), line[end:])

    def said(self, name):
        """A name on a page or in an edit, where port.py respelled nothing."""
        return self.names.get(name) or (snake(name) if is_old(name) and snake(name) in self.declared else name)

    def collisions(self):
        for name, new in self.names.items():
            if new in KEYWORDS:
                yield name, new, "a keyword"
            if name in self.fields and new in self.fields:
                yield name, new, "a field too"
        for module in self.modules.values():
            taken = defaultdict(set)
            for name in module.plain | set(module.imports) | module.aliases:
                taken[self.spelled(module, name)].add(name)
            for new, olds in taken.items():
                if len(olds) > 1:
                    yield " ".join(sorted(olds)), new, f"both in {module.path}"
            if "proofs" in module.path.parts:
                for name in module.shared & self.names.keys():
                    if self.names[name] in self.functions:
                        yield name, self.names[name], f"a lemma in {module.path}, and a Rust function"
        for path, text in self.sources.items():
            for item in re.split(r"(?m)^(?= *(?:pub )?(?:fn|struct|enum) )", text):
                for name in set(TOKEN.findall(item)) & self.names.keys():
                    if re.search(r"(?<!fn )(?<![\w.:])%s\b(?!\()" % re.escape(self.names[name]), item):
                        yield name, self.names[name], f"a word of an item in {path}"


def outside_strings(change, text):
    """The text with the change made to what stands between its string literals."""
    parts, at = [], 0
    for string in STRING.finditer(text):
        parts += [change(text[at : string.start()]), string[0]]
        at = string.end()
    return "".join(parts) + change(text[at:])


def main():
    repo = Repository()
    clashes = sorted(set(repo.collisions()))
    if clashes:
        sys.exit("Nothing is changed. Names for the tables OTHER and SPELLED:\n" + "\n".join("  %s -> %s: %s" % clash for clash in clashes))
    files = {m.path: "\n".join(repo.code(m, line) for line in m.lines) for m in repo.modules.values()}
    for path, text in repo.sources.items():
        files[path] = outside_strings(lambda part: TOKEN.sub(lambda t: repo.names.get(t[0], t[0]), part), text)
    for path in sorted(Path("crates").glob("*/must-fail/*.edit")):
        lines = path.read_text().split("\n")
        change = lambda line: outside_strings(lambda part: TOKEN.sub(lambda t: repo.said(t[0]), part), line)
        files[path] = "\n".join(line if line.startswith("file:") else change(line) for line in lines)
    for path in [Path("README.md"), *sorted(Path("docs").glob("*.md"))]:
        quoted = lambda quote: re.sub(r"(?<![\w-])[\w'′-]+(?![\w-])", lambda t: repo.said(t[0]), quote[0])
        files[path] = re.sub(r"`[^`\n]+`", quoted, path.read_text())
    changed = [path for path, text in files.items() if text != path.read_text()]
    for path in changed:
        path.write_text(files[path])
    table = sorted([*repo.names.items(), *((name, new) for (_, name), new in SPELLED.items())])
    Path("tools").mkdir(exist_ok=True)
    Path("tools/respelled.txt").write_text("".join(f"{old} {new}\n" for old, new in table))
    print(f"{len(table)} names respelled in {len(changed)} files; they are listed in tools/respelled.txt")


if __name__ == "__main__":
    main()

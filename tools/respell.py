#!/usr/bin/env python3
"""Bring the repository's own names to today's spelling: functions, lemmas, fields and constructors in snake case, and a dash in a lemma's
name only between two names that are defined. Run at the repository's top, without arguments; it rewrites in place. It exits with 2, and
writes nothing, where two names of a file would become one."""

import glob
import os
import re
import sys

# ---- names that the rules alone would not spell well

EXCEPTIONS = {
    "getD-all": "get_or-all",
    "nth-getD": "nth-get_or",
    "strike-answer": "whole_strike",
    # facts
    "Is-said": "IsSaid",
    "Is-made": "IsMade",
    "Is-parent": "IsParent",
    "okModeBits": "OkModeBits",
}

# lemmas, by their module, that have in snake case the name of a function they speak of
TAKEN = {
    "closing.proofs.Lines": ["lines_left"],
    "closing.proofs.Texts": ["given_by"],
    "jumps.proofs.Goes": ["goes_to"],
    "left_lines.proofs.Fates": ["kept_by"],
    "left_lines.proofs.Leaves": ["all_left"],
    "listing_lines.proofs.Laws": ["set_line"],
    "outcome.proofs.Edits": ["remove_entry"],
    "programs.proofs.Results": ["results_on"],
    "rule_writing.proofs.Parts": ["op_bytes"],
    "rules.proofs.Pairs": ["read_pairs"],
    "striking.proofs.Judged": ["all_left"],
    "striking.proofs.Lines": ["lines_left"],
}

# definitions that a step of a proof would hide: they get another name in that proof
HIDDEN = {
    "crates/plan_due/proofs/is_fair/Proof.antt": {"isDigit": "is_decimal"},
    "crates/reader/proofs/read_line/Proof.antt": {"readPairs": "read_pairs_of"},
}

# fields of which a record of Rust code has one of the same name
SHARED_FIELDS = {"mode_set"}

# words of libraries that lemmas name, and that not every file imports
LIBRARY_WORDS = """
length append take drop map all any cat sum get get_or set replicate reverse concat filter lookup zip fold
add sub mul div mod pow suc pred min max zero one le lt eq eqb leb ltb and or not true false none some nil cons
""".split()

RESERVED = {"record", "data", "open", "abbrev", "unfold", "let", "in", "elim", "where", "do", "use", "pub", "mod", "module", "as", "unfolding",
            "unfoldable", "rw", "if", "then", "else", "match", "with"}

GENERATED = re.compile(r"^(invariant|decreases|Need|After|In|At|Then|Else|loop|returns|goal|tie)-|^(Then|Else|At|In)\d")
WALK_FILES = ("Proof.antt", "Answers.antt", "Invariants.antt")
SYMBOL = "≤<≥>≡≢=+*/∷◌∙⊎×&|"
TOKEN = re.compile(r"(?<![%s])[\w'-]+(?![%s])" % (re.escape(SYMBOL), re.escape(SYMBOL)))
PREFIX = r"(?:(?:pub|abbrev|unfoldable|opaque|private|infix[lr]? \d+) )*"
NAMES = r"[\w'-]+(?: [\w'-]+)*"
DECLARATION = re.compile(r"^(\s*)(%s)(%s) : " % (PREFIX, NAMES))
BARE_DECLARATION = re.compile(r"^(\s*)(%s)(%s) :$" % (PREFIX, NAMES))
TYPE_HEAD = re.compile(r"^(\s*)%s(record|data) ([\w'-]+)" % PREFIX)
USE = re.compile(r"(?:^|(?<=\n))[ \t]*(?:pub )?(?:ghost )?use ([\w'.-]+?)(?:\.\{([^}]*)\}|(?: as ([\w'-]+))?[ \t]*;?[ \t]*(?=\n|$))")
CAMEL = re.compile(r"(?:^|(?<=[-_]))[a-z][a-z0-9']*[A-Z]")


def is_camel(name):
    return bool(CAMEL.search(name))


def snake(name):
    """lowerCamel parts of a name in snake case; a part that begins with a capital is a fact and stays."""
    def part(word):
        if not word[:1].islower():
            return word
        return re.sub(r"(?<=[a-z0-9'])([A-Z])", lambda m: "_" + m[1].lower(), word)
    return "".join(piece if piece in "-_" else part(piece) for piece in re.split(r"([-_])", name) if piece)


# ---- the text of a file in pieces: code, strings, comments

def pieces(text, comment):
    """Pairs of kind and text; the kinds are code, string and comment."""
    pattern = re.compile(r'"(?:\\.|[^"\\])*"|' + (r"//[^\n]*|b?'(?:\\.[^']*|[^'\\])'" if comment == "//" else r"(?<![\w'◌-])--[^\n]*"), re.S)
    at = 0
    for found in pattern.finditer(text):
        if found.start() > at:
            yield "code", text[at:found.start()]
        yield ("comment" if found[0].startswith(comment) else "string"), found[0]
        at = found.end()
    if at < len(text):
        yield "code", text[at:]


def without_comments(text, comment):
    return "".join(piece if kind == "code" else re.sub(r"[^\n]", " ", piece) if kind == "comment" else '""' for kind, piece in pieces(text, comment))


def clauses(text):
    """Where the clauses and the ghost uses of Rust code stand."""
    out = []
    for found in re.finditer(r"\b(?:requires|ensures|ghost|invariant|decreases|proves|assumes)\b(?: \w+)? ?\{", text):
        depth, at = 1, found.end()
        while depth and at < len(text):
            depth += {"{": 1, "}": -1}.get(text[at], 0)
            at += 1
        out.append((found.start(), at))
    return out + [found.span() for found in re.finditer(r"\bghost\b[^{;\n]*(?:\{[^}]*\})?[^;\n]*;", text)]


# ---- what the repository defines

class Names:
    def __init__(self, crates):
        self.crates = crates
        self.tool = set()  # of the toolchain's libraries
        self.spec = set()  # defined in specs/, or by another name in a ghost use
        self.lemma = set()  # declared in lemma files
        self.fields = set()  # of records
        self.known = set(LIBRARY_WORDS)  # that a dash may join
        self.camel = set()  # lowerCamel, wherever
        self.local = {}  # of each Proof.antt: its own lemmas

    def own(self, path):
        parts = path.split(".")
        return parts[0] == "Rattle" and len(parts) > 1 and parts[1] in self.crates or parts[0] in ("self", "crate", "super")

    def uses(self, text):
        for found in USE.finditer(text):
            yield found[1], [entry.split() for entry in (found[2] or "").split(",") if entry.strip()], found[3]

    def read_uses(self, text, into):
        for path, entries, _ in self.uses(text):
            for entry in entries:
                if not self.own(path):
                    self.tool.add(entry[0])
                    if entry[0][:1].isalpha() and "-" not in entry[0]:
                        self.known.add(entry[0])
                if len(entry) == 3 and entry[1] == "as":
                    into.add(entry[2])

    def read_antt(self, path, text):
        walk = os.path.basename(path) in WALK_FILES
        spec = "/specs/" in path
        for token in TOKEN.findall(text):
            if is_camel(token):
                self.camel.add(token)
        if walk:
            self.read_uses(text, set())
            local = self.local[path] = set()
            bound = set(re.findall(r"let ([\w'-]+) =", text))
            for found in re.finditer(r"^(?:pub )?([\w'-]+) :[ \n]\s*(\S+)", text, re.M):
                if not found[2].startswith("tie.") and found[1] not in bound and not GENERATED.match(found[1]):
                    local.add(found[1])
            return
        self.read_uses(text, self.spec if spec else self.lemma)
        into = self.spec if spec else self.lemma
        block = None
        for line in text.split("\n"):
            head = TYPE_HEAD.match(line)
            if head:
                block = (head[2], len(head[1]))
                self.known.add(head[3])
                continue
            found = DECLARATION.match(line) or BARE_DECLARATION.match(line)
            if line.strip() and block and len(line) - len(line.lstrip()) <= block[1]:
                block = None
            if not found:
                for bound in re.findall(r"\blet ([\w'-]+) [:=]", line):
                    into.add(bound)
                continue
            names = found[3].split()
            into.update(names)
            if block and block[0] == "record":
                self.fields.update(names)
            elif block or "abbrev" in found[2] or "unfoldable" in found[2] or (spec and not found[1]):
                self.known.update(snake(name).replace("-", "_") if spec else snake(name) for name in names)

    def joined(self, name):
        """A lemma's name: a dash stays between two names that are known."""
        words = snake(name).split("-")

        def known(word):
            return any(word[:end] in self.known for end in [len(word)] + [m.start() for m in re.finditer("_", word)])
        out = words[0]
        for before, word in zip(words, words[1:]):
            out += ("-" if known(before) and known(word) else "_") + word
        return out

    def map(self):
        self.known = {name for name in self.known if "-" not in name}
        out = {}
        for name in self.spec | self.lemma | self.camel:
            if name in self.tool or name in EXCEPTIONS or GENERATED.match(name) or name.startswith("-"):
                continue
            if name in self.spec:
                new = snake(name).replace("-", "_")
                if "-" in name and name[0].isupper():
                    new = new[0].lower() + new[1:]
            elif "-" in name:
                new = self.joined(name)
            else:
                new = snake(name)
            if new != name:
                out[name] = new
        # a lemma that would have a function's name
        taken = self.known | self.spec | {new for name, new in out.items() if "-" not in name or name in self.spec}
        for name, new in out.items():
            if "-" in name and name not in self.spec and new in taken and new != name:
                out[name] = new + "_lem"
        out.update(EXCEPTIONS)
        return out


# ---- the rewriting

class Respelling:
    def __init__(self, names):
        self.names = names
        self.map = names.map()
        self.functions = set()  # functions of Rust code, which steps of a proof are named after
        self.changed = set()

    def new(self, name):
        out = self.map.get(name, name)
        if out != name:
            self.changed.add(name)
        return out

    def step(self, name):
        return re.sub(r"\d+$", "", name).replace("-", "_") in self.functions

    def walk_map(self, path, text):
        """What changes of the dashed names of a Proof.antt: what it imports, its own lemmas, and the theorem."""
        out = {}
        words = {snake(word) for word in TOKEN.findall(text) if "-" not in word}
        for used, entries, _ in self.names.uses(text):
            if self.names.own(used) and used.split(".")[-1] not in ("Tie", "Statement", "Proof", "Answers", "Invariants"):
                for entry in entries:
                    for name in (entry[0], entry[-1]):
                        if name in self.map:
                            out[name] = self.map[name]
        for name in self.names.local.get(path, ()):
            if name in self.names.tool:
                continue
            new = EXCEPTIONS.get(name) or self.names.joined(name)
            if new in words:
                new += "_lem"
            if new != name:
                out[name] = new
        out.update({name: new for name, new in EXCEPTIONS.items() if name[0].isupper()})
        function = os.path.basename(os.path.dirname(path))
        for name in self.names.local.get(path, ()):
            if name.replace("-", "_") == function + "_spec":
                out[name] = function + "_spec"
        return out

    def code(self, text, path=None, walk=None, modules=()):
        def change(found):
            name = found[0]
            before = text[max(0, found.start() - 100):found.start()]
            if name in self.names.tool:
                return name
            if before.endswith("."):
                owner = re.search(r"([\w'-]+)\.$", before)
                module = owner and owner[1] in modules
                if is_camel(name) or module:
                    return self.new(name)
                if "-" in name and name in self.names.fields and not GENERATED.match(name) and not self.step(name):
                    return self.new(name)
                return self.new(name) if owner and owner[1][0].isupper() and walk is None else name
            if walk is not None and "-" in name:
                if name in walk:
                    self.changed.add(name)
                return walk.get(name, name)
            return self.new(name)
        return TOKEN.sub(change, text)

    def remark(self, text, walk=None):
        """In a comment: lowerCamel names, and dashed ones in backquotes."""
        text = TOKEN.sub(lambda m: self.new(m[0]) if is_camel(m[0]) else m[0], text)
        return re.sub(r"`[^`\n]*`", lambda m: self.quoted(m[0], walk), text)

    def quoted(self, text, walk=None):
        if '"' in text or "/" in text:
            return text
        return TOKEN.sub(lambda m: (walk or {}).get(m[0], m[0]) if walk is not None and "-" in m[0] else self.new(m[0]), text)

    def modules(self, text):
        out = set()
        for used, entries, alias in self.names.uses(text):
            if self.names.own(used) and (used.split(".")[-1] not in ("Tie", "Statement")):
                out.add(alias or used.split(".")[-1])
        return out

    def antt(self, path, text):
        plain = without_comments(text, "--")
        walk = self.walk_map(path, plain) if os.path.basename(path) in WALK_FILES else None
        modules = self.modules(plain)
        text = self.given_away(path, text, plain)
        return "".join(self.code(piece, path, walk, modules) if kind == "code" else self.remark(piece, walk) if kind == "comment" else piece
                       for kind, piece in pieces(text, "--"))

    def given_away(self, path, text, plain):
        """The lemmas that have a function's name, and the definitions that a step would hide."""
        taken = set(TAKEN.get(path.removeprefix("crates/").removesuffix(".antt").replace("/", "."), ()))
        for used, entries, _ in self.names.uses(plain):
            for name in TAKEN.get(used.removeprefix("Rattle."), ()):
                if [name] in entries:
                    taken.add(name)
        # only in the tree as it was: there the function still has its old name
        for name in taken:
            if self.old_of(name):
                text = re.sub(r"(?<![\w'.-])%s(?![\w'-])" % name, name + "_lem", text)
                self.changed.add(name)
        for name, other in HIDDEN.get(path, {}).items():
            new = self.map.get(name)
            if new:
                text = re.sub(r"(?<![\w'.-])%s(?![\w'-])" % name, other, text)
                text = re.sub(r"(use [^\n]*\{[^}\n]*?)(?<![\w'.-])%s(?![\w'-])" % other, lambda m: m[1] + new + " as " + other, text)
        return text

    def old_of(self, name):
        return any(new == name for old, new in self.map.items() if is_camel(old))

    def rust(self, text, fragment=False):
        """Clauses and ghost uses: all names; other code: lowerCamel ones."""
        spans = clauses(re.sub(r'"(?:\\.|[^"\\])*"', lambda m: '"' * len(m[0]), text))
        out, at = [], 0
        for kind, piece in pieces(text, "//"):
            if kind == "comment":
                out.append(self.remark(piece))
            elif kind == "string":
                out.append(piece)
            else:
                def change(found):
                    name = found[0]
                    place = at + found.start()
                    if "-" in name and not fragment and not any(a <= place < b for a, b in spans):
                        return re.sub(r"[\w']+", lambda m: self.new(m[0]) if is_camel(m[0]) else m[0], name)
                    if not is_camel(name) and "-" not in name or name in self.names.tool:
                        return name
                    return self.new(name)
                out.append(TOKEN.sub(change, piece))
            at += len(piece)
        return "".join(out)

    def edit(self, path, text):
        file = re.search(r"^file: *(\S+)", text, re.M)
        target = file[1] if file else ""
        crate = os.path.dirname(os.path.dirname(path))
        whole = os.path.join(crate, target)

        original = open(whole).read() if os.path.exists(whole) else ""

        def older(line):
            # a name that the edit alone still has in lowerCamel
            return TOKEN.sub(lambda m: snake(m[0]) if is_camel(m[0]) and m[0] not in self.map
                             and re.search(r"(?<![\w'-])%s(?![\w'-])" % re.escape(snake(m[0])), original) else m[0], line)

        def change(found):
            line = older(found[2])
            if target.endswith(".rt"):
                return found[1] + self.rust(line, True)
            if target.endswith(".antt"):
                plain = without_comments(original, "--")
                walk = self.walk_map(whole, plain) if os.path.basename(whole) in WALK_FILES else None
                modules = self.modules(plain)
                return found[1] + "".join(self.code(piece, whole, walk, modules) if kind == "code" else self.remark(piece, walk) if kind == "comment" else piece
                                          for kind, piece in pieces(line, "--"))
            return found[0]
        return re.sub(r"^((?:old|new):)(.*)$", change, text, flags=re.M)

    def prose(self, text):
        return re.sub(r"`[^`\n]+`", lambda m: self.quoted(m[0]), text)


# ---- names that fall together

def tokens(text, comment):
    """The names of a text, those behind a dot apart."""
    plain = without_comments(text, comment)
    if comment == "//":
        plain = " ".join(plain[start:end] for start, end in clauses(plain))
    free, behind = [], []
    for found in TOKEN.finditer(plain):
        (behind if plain[found.start() - 1:found.start()] == "." else free).append(found[0])
    return free, behind


def falls(path, old, new, comment):
    """Pairs of different names of a file that have become one."""
    out = []
    for name in HIDDEN.get(path, {}).values():
        old, new = (re.sub(r"[\w']+ as %s\b" % name, name, text) for text in (old, new))
    old_tokens, new_tokens = tokens(old, comment), tokens(new, comment)
    behind_old = old_tokens[1]
    for before, after in zip(old_tokens, new_tokens):
        if len(before) != len(after):
            out.append((path, "tokens", str(len(before)), str(len(after))))
            continue
        sources = {}
        for one, other in zip(before, after):
            sources.setdefault(other, set()).add(one)
        out += [(path, name, *sorted(olds)) for name, olds in sources.items() if len(olds) > 1 and not (before is behind_old and name in SHARED_FIELDS)]
    out += [(path, name, "is reserved") for name in set(tokens(new, comment)[0]) - set(tokens(old, comment)[0]) if name in RESERVED]
    return out


def hidden(path, old, new):
    """Parameters of Rust code that would hide a name that a clause of theirs cites."""
    out = []
    fresh = set(re.findall(r"[\w'-]+", without_comments(new, "//"))) - set(re.findall(r"[\w'-]+", without_comments(old, "//")))
    old_functions = re.split(r"(?=\bfn \w+)", without_comments(old, "//"))
    new_functions = re.split(r"(?=\bfn \w+)", without_comments(new, "//"))
    for before, after in zip(old_functions, new_functions):
        head = re.match(r"fn \w+[^(]*\(([^)]*)\)", after)
        if not head:
            continue
        parameters = set(re.findall(r"(\w+) *:", head[1])) | set(re.findall(r"\blet (?:mut )?(\w+)", after))
        came = set(re.findall(r"[\w'-]+", after)) if not before == after else set()
        changed = {b for a, b in zip(re.findall(r"[\w'-]+", before), re.findall(r"[\w'-]+", after)) if a != b}
        out += [(path, name, "hidden by a parameter of " + re.match(r"fn (\w+)", after)[1]) for name in parameters & changed & came]
    return out


def main():
    crates = set(os.listdir("crates"))
    files = []
    for folder, folders, names in os.walk("crates"):
        folders[:] = sorted(each for each in folders if each != "out")
        files += [os.path.join(folder, name) for name in sorted(names) if name.endswith((".antt", ".rt", ".edit"))]
    files += [path for path in ["README.md"] + sorted(glob.glob("docs/*.md") + glob.glob("docs/changes/*.md")) if os.path.exists(path)]
    texts = {path: open(path).read() for path in files}

    found = Names(crates)
    for path, text in texts.items():
        if path.endswith(".antt"):
            found.read_antt(path, without_comments(text, "--"))
        elif path.endswith(".rt"):
            plain = without_comments(text, "//")
            found.read_uses(plain, found.spec)
            found.camel.update(name for name in re.findall(r"\w+", plain) if is_camel(name))

    respelling = Respelling(found)
    for path, text in texts.items():
        if path.endswith(".rt"):
            respelling.functions.update(re.findall(r"\bfn (\w+)", text))

    changed, problems = {}, []
    for path, text in texts.items():
        if path.endswith(".antt"):
            new = respelling.antt(path, text)
            problems += falls(path, text, new, "--")
        elif path.endswith(".rt"):
            new = respelling.rust(text)
            problems += falls(path, text, new, "//") + hidden(path, text, new)
        elif path.endswith(".edit"):
            new = respelling.edit(path, text)
        else:
            new = respelling.prose(text)
        if new != text:
            changed[path] = new

    if problems:
        for problem in problems:
            print(": ".join(problem), file=sys.stderr)
        sys.exit(2)
    for path, text in changed.items():
        with open(path, "w") as out:
            out.write(text)
    print(f"{len(respelling.changed)} names changed, in {len(changed)} files")


if __name__ == "__main__":
    main()

"""Edits that make the body of a function wrong, and the functions of a source that they stand in."""
import os
import re

PARTS = ("src", "specs", "proofs")

CLAUSE = re.compile(r"\s*(requires|ensures|may_panic|ghost(?!\s+use\b)|owns|decreases)\b")
HEAD = re.compile(r"^([ ]*)(?:pub(?:\([a-z: ]+\))? )?(?:const |unsafe |extern \"C\" )*fn (\w+)", re.M)
BLOCK = re.compile(r"^(?:unsafe )?(impl|trait|mod)\b([^{;]*)\{", re.M)


class Function:
    """A function of a source: where its first attribute, its body and its end stand, and its name."""

    def __init__(self, path, start, body, end, within, in_trait, name):
        self.path, self.start, self.body, self.end = path, start, body, end
        self.within, self.in_trait, self.name = within, in_trait, name

    def full(self, name=None):
        """Returns the function's name as the prover prints it below the crate, with another last word where one is given."""
        module = re.sub(r"\Asrc/|\.rt\Z", "", self.path)
        module = re.sub(r"(\A|/)(lib|main|mod)\Z", "", module)
        return "::".join([*filter(None, module.split("/")), *self.within, name or self.name])


def skipped(text, at):
    """Returns where the comment, string or character that begins here ends, or where it stands if none does."""
    if text.startswith("//", at):
        end = text.find("\n", at)
        return len(text) if end < 0 else end
    raw = re.compile(r'b?r(#*)"').match(text, at)
    if raw and not (at and (text[at - 1].isalnum() or text[at - 1] == "_")):
        end = text.find('"' + raw[1], raw.end())
        return len(text) if end < 0 else end + 1 + len(raw[1])
    if text[at] == '"':
        at += 1
        while at < len(text) and text[at] != '"':
            at += 2 if text[at] == "\\" else 1
        return at + 1
    letter = re.compile(r"'(\\.[^']*|[^'\\])'").match(text, at)
    return letter.end() if letter else at


def closed(text, at, is_code=True):
    """Returns where the block that begins with the brace here ends."""
    depth = 0
    while at < len(text):
        over = skipped(text, at) if is_code else at
        if over > at:
            at = over
            continue
        depth += {"{": 1, "}": -1}.get(text[at], 0)
        at += 1
        if not depth:
            return at
    return at


def blocks_of(text):
    """Returns the impls, traits and modules of a source: where each begins and ends, whether it is of a trait, and its name."""
    blocks = []
    for it in BLOCK.finditer(text):
        of = re.sub(r"\bwhere\b.*", "", it[2], flags=re.S)
        first, of_trait, last = re.sub(r"\A\s*<[^{]*?>\s+", "", of).partition(" for ")
        is_trait = it[1] == "trait" or bool(of_trait)
        blocks.append((it.start(), closed(text, it.end() - 1), is_trait, word_of(last) + word_of(first)))
    return blocks


def word_of(path):
    """Returns the last word of the path that a text begins with. The prover names an impl by the type's and then the trait's."""
    name = re.match(r"\s*(?:&\s*(?:mut\s+)?)?([A-Za-z_]\w*(?:::\w+)*)", path)
    return name[1].split("::")[-1] if name else ""


def is_clause(head):
    """Whether a brace behind this text begins a clause, and not the body."""
    last = re.split(r"\}\s*", head)[-1]
    return bool(CLAUSE.search(last.split("\n")[-1])) or bool(re.search(r"\b(requires|ensures|ghost)\*?\s*[\w ()◌:]*\Z", last))


def body_of(text, at):
    """Returns where the body of the function begins whose name ends here, or None where it has none."""
    begin, depth = at, 0
    while at < len(text):
        over = skipped(text, at)
        depth += {"(": 1, "[": 1, ")": -1, "]": -1}.get(text[at], 0)
        if over > at:
            at = over
        elif text[at] == ";" and not depth:
            return None
        elif text[at] != "{":
            at += 1
        elif is_clause(text[begin:at]):
            at = closed(text, at, False)
        else:
            return at
    return None


def first_line(text, start):
    """Returns where the comments and attributes begin that stand above a function."""
    while start:
        line = text.rfind("\n", 0, start - 1) + 1
        if not re.match(r"\s*(///|#\[)", text[line:start]):
            break
        start = line
    return start


def functions_of(path, text):
    """Returns the functions of a source that is laid out by rt fmt: those at its head and those of its impls."""
    blocks, found = blocks_of(text), []
    for it in HEAD.finditer(text):
        inside = [block for block in blocks if block[0] <= it.start() < block[1]]
        # (one that is set in deeper stands within another function's body)
        body = body_of(text, it.end()) if len(it[1]) == 4 * len(inside) else None
        if body is not None:
            start, within = first_line(text, it.start()), [block[3] for block in inside]
            found.append(Function(path, start, body, closed(text, body), within, any(block[2] for block in inside), it[2]))
    return found


class Edit:
    """One edit file: what it changes, and where that stands."""

    def __init__(self, crate, path):
        self.crate, self.path = crate, path
        self.name = os.path.basename(path)[: -len(".edit")]
        self.texts, self.why = {}, None
        self.function, self.body, self.alone = None, None, None
        # the answers that are left out of the function's proof, since their goals are gone with the edit
        self.dropped = set()
        try:
            with open(path, encoding="utf-8") as it:
                self.text = it.read()
            self.why = self.apply()
        except (OSError, ValueError) as error:
            self.text, self.why = "", f"it cannot be read: {error}"

    def apply(self):
        """Finds the texts of the files that the edit changes, as rt does. Returns why it can't be applied, or None."""
        path = old = None
        for line in self.text.split("\n"):
            if line.startswith("file: "):
                path = line[len("file: ") :].strip()
                if os.path.normpath(path) != path or not path.startswith(tuple(f"{it}/" for it in PARTS)):
                    return "a 'file:' line names no file below src/, specs/ or proofs/"
            elif line.startswith("old: "):
                old = line[len("old: ") :]
            elif line.startswith("new:"):
                if not path or not old:
                    return "a 'new:' line stands before any 'file:' or 'old:' line"
                if path not in self.texts:
                    if not os.path.isfile(f"{self.crate.folder}/{path}"):
                        return f"there is no file {path}"
                    self.texts[path] = self.crate.text(path)
                found = self.texts[path].count(old)
                if found != 1:
                    return f"an 'old:' text is in {path} {found} times, and not once"
                self.texts[path] = self.texts[path].replace(old, re.sub(r"\A ", "", line[len("new:") :]))
                old = None
        is_change = any(text != self.crate.text(it) for it, text in self.texts.items())
        return None if is_change else "it changes nothing"

    def changed(self):
        """Returns the file, and where in it what the edit changes begins and ends."""
        ((path, text),) = self.texts.items()
        was = self.crate.text(path)
        begin = next((i for i, (a, b) in enumerate(zip(was, text)) if a != b), min(len(was), len(text)))
        most = min(len(was), len(text)) - begin
        after = next((i for i in range(most) if was[-1 - i] != text[-1 - i]), most)
        return path, begin, len(was) - after

    def place(self):
        """Finds the function whose body the edit changes, or why it has to be tried alone."""
        if len(self.texts) != 1:
            self.alone = "several files"
            return
        path, begin, end = self.changed()
        if not path.startswith("src/"):
            self.alone = f"it changes {path.split('/')[0]}/"
            return
        here = [it for it in self.crate.functions(path) if it.start <= begin and end <= it.end]
        if not here:
            self.alone = "it changes no function's body alone"
        elif begin < here[0].body:
            self.alone = "it changes a contract or a signature"
        else:
            self.stand_in(here[0])

    def stand_in(self, function):
        """Notes the function and its wrong body, and why it has to be tried alone if it has."""
        was, text = self.crate.text(function.path), self.texts[function.path]
        self.function = function
        self.body = text[function.start : function.end + len(text) - len(was)]
        if function.in_trait:
            self.alone = "a method of a trait's impl"
        elif function.name == "main" or re.search(r"no_mangle|extern \"C\"|#\[test\]", was[function.start : function.body]):
            self.alone = "main, a test, or what C calls"
        elif self.calls_itself():
            self.alone = "it may call itself"

    def calls_itself(self):
        """Returns whether the body has a call of the function's own name that may be of the function itself."""
        name = self.function.name
        body = self.body[self.function.body - self.function.start :]
        way = r"self\s*\.\s*|Self\s*::\s*" if self.function.within else r"(?<![.:A-Za-z0-9_])"
        return bool(re.search(rf"(?:{way}){name}\s*\(", body)) or bool(re.search(rf"::\s*{name}\s*\(", body))

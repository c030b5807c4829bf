"""The inline attributes of functions, read from the sources: what the kit gives LLVM beside a function of a proved program."""
import os
import re

TOKEN = re.compile(
    r"""//[^\n]*|/\*.*?\*/|"(?:\\.|[^"\\])*"|b?'(?:\\.|[^'\\])'|[A-Za-z_][A-Za-z0-9_]*|'[a-z_]+|\S""", re.S
)
CLAUSES = ("requires", "ensures", "measure", "decreases")
LLVM = (("inline(always", "alwaysinline"), ("inline(never", "noinline"), ("cold", "cold"))


def tokens_of(path):
    with open(path, encoding="utf-8") as file:
        return [token for token in TOKEN.findall(file.read()) if not token.startswith(("//", "/*"))]


def closing(tokens, at, opens, closes):
    """The place of the bracket that closes the one at this place."""
    depth = 0
    for place in range(at, len(tokens)):
        depth += (tokens[place] == opens) - (tokens[place] == closes)
        if depth == 0:
            return place
    return len(tokens) - 1


def after_generics(tokens):
    return tokens[closing(tokens, 0, "<", ">") + 1 :] if tokens[:1] == ["<"] else tokens


class Source:
    """One file of a crate: its functions go into `found`, by module and name, with the type and trait that they are of."""

    def __init__(self, path, module, found):
        self.path, self.module, self.found = path, module, found
        self.tokens, self.blocks, self.head, self.attributes, self.inner = tokens_of(path), [], [], [], []

    def modules(self):
        return [name for kind, name, _ in self.blocks if kind == "mod"]

    def read(self):
        at = 0
        while at < len(self.tokens):
            at = self.step(at)
        return self.inner

    def clear(self, at):
        self.head, self.attributes = [], []
        return at

    def step(self, at):
        token = self.tokens[at]
        after = self.tokens[at + 1 : at + 3] + ["", ""]
        if token == "#" and after[0] in ("[", "!"):
            opening = at + 1 + (after[0] == "!")
            end = closing(self.tokens, opening, "[", "]")
            self.attributes.append("".join(self.tokens[opening + 1 : end]))
            return end + 1
        if token == "mod" and (not self.head or self.head[-1] in ("pub", ")")) and after[1] in (";", "{"):
            if after[1] == ";":
                self.inner.append((after[0], self.modules()))
            else:
                self.blocks.append(("mod", after[0], ""))
            return self.clear(at + 3)
        if token == "fn" and re.match(r"[A-Za-z_]", after[0]):
            self.note(after[0])
            return self.clear(self.past_body(at + 2))
        if token == "{":
            self.blocks.append(self.block())
            return self.clear(at + 1)
        if token == "}" and self.blocks:
            self.blocks.pop()
        if token in ("}", ";"):
            return self.clear(at + 1)
        self.head.append(token)
        return at + 1

    def note(self, name):
        owner = next((block[1:] for block in reversed(self.blocks) if block[0] in ("impl", "trait")), None)
        place = ("::".join([*self.module, *self.modules()]), name)
        self.found.setdefault(place, []).append((owner, self.attributes))

    def past_body(self, at):
        """Behind the body of a function, or behind the `;` of one without a body. Clauses have brackets of their own."""
        in_clause = False
        while at < len(self.tokens) and self.tokens[at] != ";":
            if self.tokens[at] in CLAUSES:
                in_clause = True
            elif self.tokens[at] == "{":
                at = closing(self.tokens, at, "{", "}")
                if not in_clause:
                    break
                in_clause = False
            at += 1
        return at + 1

    def block(self):
        if "impl" in self.head and self.head[0] in ("impl", "unsafe"):
            words = after_generics(self.head[self.head.index("impl") + 1 :])
            if "for" in words:
                middle = words.index("for")
                return "impl", "".join(words[middle + 1 :]), "".join(words[:middle])
            return "impl", "".join(words), ""
        if "trait" in self.head:
            return "trait", self.head[self.head.index("trait") + 1], ""
        return "other", "", ""


def read_module(path, module, found):
    stem, base = os.path.splitext(os.path.basename(path))[0], os.path.dirname(path)
    folder = base if stem in ("lib", "main", "mod") else os.path.join(base, stem)
    for name, between in Source(path, module, found).read():
        inside = os.path.join(folder, *between)
        for file in (os.path.join(inside, name + ".rt"), os.path.join(inside, name, "mod.rt")):
            if os.path.exists(file):
                read_module(file, [*module, *between, name], found)
                break


def table(roots):
    """The functions of these crates; `roots` has the root file of each."""
    found = {}
    for crate, root in roots.items():
        if os.path.exists(root):
            read_module(root, [crate], found)
    return found


def words_for_llvm(attributes):
    words = {word for attribute in attributes for begin, word in LLVM if attribute.startswith(begin)}
    if "inline" in attributes:
        words.add("inlinehint")
    return " ".join(sorted(words))


def type_word(name):
    """A type as it stands in the name of an impl: `&mut [T]` is RefRef.., a parameter is nothing."""
    name, references = re.sub(r"'[a-z_]+", "", name), ""
    while name.startswith("&"):
        references, name = references + "Ref", name[1:].removeprefix("mut") if len(name) > 4 else name[1:]
    name = re.sub(r"<.*", "", name).split("::")[-1]
    name = "" if re.fullmatch(r"[A-Z]", name) else name
    return references + name[:1].upper() + name[1:]


def trait_word(name):
    return re.sub(r"<.*", "", name).split("::")[-1]


def nearest(candidates, implementation):
    """Of functions of several impls those whose impl has this name."""
    tests = (
        lambda kind, of: kind.endswith("as" + implementation),
        lambda kind, of: type_word(kind) + trait_word(of) == implementation,
        lambda kind, of: of and implementation.endswith(trait_word(of)) and implementation.startswith(type_word(kind)),
        lambda kind, of: of and implementation.endswith(trait_word(of)),
    )
    for test in tests:
        kept = [candidate for candidate in candidates if test(*candidate[0])]
        if kept:
            return kept
    return candidates


def candidates_for(functions, parts):
    module, implementation, name = "::".join(parts[:-1]), parts[-2] if len(parts) > 1 else "", parts[-1]
    free = [entry for entry in functions.get((module, name), []) if entry[0] is None]
    if free or len(parts) < 3:
        return free
    owned = [entry for entry in functions.get(("::".join(parts[:-2]), name), []) if entry[0] is not None]
    if len({words_for_llvm(entry[1]) for entry in owned}) > 1:
        owned = nearest(owned, implementation)
    if owned:
        return owned
    return [
        entry
        for (place, function), entries in functions.items()
        if function == name and place.split("::")[0] == parts[0]
        for entry in entries
        if entry[0] is not None and trait_word(entry[0][0]) == implementation
    ]


def find(functions, name):
    """LLVM's words for the function of this name in a module; nothing where no source or more than one kind of them is found."""
    parts = re.sub(r"::<.*$", "", name).split("::")
    words = {words_for_llvm(entry[1]) for entry in candidates_for(functions, parts)}
    return words.pop() if len(words) == 1 else ""

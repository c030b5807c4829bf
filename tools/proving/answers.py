"""Files of answers (proofs/**/Answers.antt) as imports and blocks, read, cut and written again: for shorten.py."""
import re

SIGNATURE = re.compile(r"^(?:(?:pub|abbrev|unfoldable)\s+)*([^\s:()]+)\s+:\s")
GOAL = re.compile(r"^pub (\S+) : goal\.(\S+)\s*$")
COMMON = "Rattle.std.proofs.Common"
TACTIC_WORDS = (("arith", COMMON), ("rules", COMMON), ("common_steps", "Rattle.std.proofs.lemmas.Grind"))


def names(text, word):
    """Whether the word stands in the text as a whole name."""
    return re.search(rf"(?<![\w.-]){re.escape(word)}(?![\w-])", text) is not None


class Block:
    """A top-level item of a file of answers, with the comments above it: an answer to a goal, or a lemma."""

    def __init__(self, lines):
        self.lines = lines
        self.name, self.goal, self.unfolding = None, None, []
        for line in lines:
            found = SIGNATURE.match(line)
            if self.name is None and found and not line.startswith("--"):
                self.name = found[1]
                goal = GOAL.match(line)
                self.goal = goal[2] if goal else None
            elif line.startswith("unfolding "):
                self.unfolding.append(line)

    def text(self):
        return "\n".join(self.lines).rstrip("\n")

    def body_lines(self):
        return sum(1 for line in self.lines if line.strip() and not line.startswith("--"))

    def head(self):
        """The first line of the definition up to its `=`, as `returns g c`."""
        for line in self.lines:
            if self.name and line.startswith(self.name + " ") and not SIGNATURE.match(line) and "=" in line:
                return line.split(" =", 1)[0]
        return None

    def equations(self):
        return sum(1 for line in self.lines if self.name and line.startswith(self.name + " ") and not SIGNATURE.match(line))


def parse(text):
    """The imports of a file, and its blocks."""
    lines = text.split("\n")
    head, blocks, at, inside = [], [], 0, False
    while at < len(lines):
        line = lines[at]
        if inside:
            head.append(line)
            inside = not line.startswith("}")
        elif line.startswith("use "):
            head.append(line)
            inside = "{" in line and "}" not in line
        elif line.strip():
            break
        at += 1
    block, seen = [], False
    for line in lines[at:]:
        starts = bool(line and not line[0].isspace() and (line.startswith("--") or SIGNATURE.match(line)))
        if starts and seen:
            blocks.append(Block(block))
            block, seen = [], False
        if SIGNATURE.match(line) and not line.startswith("--"):
            seen = True
        if line.strip() or block:
            block.append(line)
    if any(line.strip() for line in block):
        blocks.append(Block(block))
    return head, blocks


def render(head, blocks):
    text = "\n".join(head) + "\n\n" if head else ""
    return text + "\n\n".join(block if isinstance(block, str) else block.text() for block in blocks) + "\n"


def fields_of(block):
    """Of an answer that is one record what stands before it, and its fields [(name, text)]; else None."""
    text = block.text()
    found = re.search(r"=\s+((?:let [^\n]*? in\s+)*)record \{\n(.*)\n\s*\}\s*\Z", text, re.S)
    if not found or block.equations() != 1:
        return None
    fields, depth, now = [], 0, ""
    for sign in found[2]:
        depth += sign in "([{"
        depth -= sign in ")]}"
        if sign == ";" and depth == 0:
            fields.append(now)
            now = ""
        else:
            now += sign
    if now.strip():
        fields.append(now)
    split = [re.match(r"\s*(\w+) =\s+(.*)\Z", field, re.S) for field in fields]
    if depth or not all(split):
        return None
    return found[1], [(it[1], it[2]) for it in split]


def is_wanted(goal, wanted):
    """Whether an answer to this goal serves an open one: the same, a clause of it, or the whole that it is a clause of."""
    return any(it == goal or it.startswith(goal + "-clause-") or goal.startswith(it + "-clause-") for it in wanted)


def needed(blocks):
    """The blocks without lemmas and definitions that none of the answers leads to."""
    uses = {id(it): it.text() for it in blocks}
    live, todo = set(), [it for it in blocks if it.goal or not it.name or it.text().startswith("pub ")]
    todo = [it for it in todo if it.goal or not it.name]
    while todo:
        block = todo.pop()
        if id(block) in live:
            continue
        live.add(id(block))
        for other in blocks:
            if other.name and id(other) not in live and names(uses[id(block)], other.name):
                todo.append(other)
    return [it for it in blocks if id(it) in live]


def blocks_at(text, numbers):
    """The goals of the answers that these lines are in."""
    lines, found = text.split("\n"), set()
    for number in numbers:
        for at in range(min(number, len(lines)) - 1, -1, -1):
            goal = GOAL.match(lines[at])
            if goal:
                found.add(goal[2])
                break
            if SIGNATURE.match(lines[at]):
                break
    return found


def with_imports(head):
    """The imports, with those that a tactic's list may need."""
    text = "\n".join(head)
    more = []
    for name, module in TACTIC_WORDS:
        if not re.search(rf"(?<![\w-]){name}(?![\w-])", text):
            more.append((name, module))
    lines = list(head)
    for name, module in more:
        first = f"use {module}.{{"
        has = [at for at, line in enumerate(lines) if line.startswith(first) and line.endswith("}") and len(line) < 200]
        if has:
            lines[has[0]] = lines[has[0]][:-1] + f", {name}}}"
        else:
            lines.insert(0, f"use {module}.{{{name}}}")
    return lines

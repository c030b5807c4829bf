"""The static library crates/junction_c without any proof: its exported calls are put before a `main` that calls each of them,
since what nothing calls isn't lowered, and the object of that program shows the calls alone."""
import re
import shutil
import subprocess
import tempfile
from pathlib import Path

from building import lowering
from building import told_checks
from building import without_checks

CRATE, PROGRAM = "junction_c", "junction_calls_main"
EXPORT = re.compile(r'^pub extern "C" fn (\w+)\(([^)]*)\)', re.MULTILINE)
# what is handed to a parameter of each type, in calls that are never run
VALUES = [
    (re.compile(r"Global"), "alloc"),
    (re.compile(r"&mut \[\w+\]"), "&mut []"),
    (re.compile(r"&\[\w+\]"), "&[]"),
    (re.compile(r"&mut (\w+)"), r"unsafe { &mut *std::ptr::null_mut::<\1>() }"),
    (re.compile(r"&(\w+)"), r"unsafe { &*std::ptr::null::<\1>() }"),
    (re.compile(r"u8|u16|u32|u64|usize|i32|i64"), "0"),
    (re.compile(r"bool"), "false"),
]


def value_for(call, kind):
    """A value of that type."""
    for form, value in VALUES:
        if form.fullmatch(kind):
            return form.sub(value, kind)
    raise lowering.Refused(f"{call} takes a parameter of the type {kind}, for which no value is known here")


def program_of(source):
    """The source of a program that calls each export once, and the names of the exports."""
    exports = EXPORT.findall(source)
    if not exports:
        raise lowering.Refused(f"crates/{CRATE}/src/lib.rt exports no call")
    calls = []
    for name, parameters in exports:
        kinds = [parameter.split(":", 1)[1].strip() for parameter in parameters.split(",") if parameter.strip()]
        calls.append(f"    let _ = {name}({', '.join(value_for(name, kind) for kind in kinds)});")
    main = ["fn main(rt: HostRuntime) {", "    let alloc = rt.alloc();", *calls, "}"]
    return source + "\n" + "\n".join(main) + "\n", [name for name, _ in exports]


def with_exports(lines, exports):
    """The lines of the program's module with the exported calls under their names of C, to be seen from outside."""
    shown = set()
    for line in lines:
        line = re.sub(rf'@"{PROGRAM}::({"|".join(exports)})"', r"@\1", line)
        begun = re.match(rf'^define [^@]*@({"|".join(exports)})\(', line)
        if begun:
            shown.add(begun[1])
            line = re.sub(r"^define ((internal|private|hidden|dso_local|fastcc) )*", "define ", line)
        yield line
    if shown != set(exports):
        raise lowering.Refused(f"the module lacks {', '.join(sorted(set(exports) - shown))}")


def build(kit, top, out, is_fast, said=lambda text: None):
    """Builds the static library, with the run-time checks but without the address sanitizer, or optimized and without checks."""
    with tempfile.TemporaryDirectory(prefix="not-proved-") as name:
        room = Path(name)
        named = lowering.crates_in(top)
        for crate in lowering.below(CRATE, named):
            shutil.copytree(top / "crates" / crate / "src", room / "crates" / crate / "src")
        source, exports = program_of((top / "crates" / CRATE / "src" / "lib.rt").read_text(encoding="utf-8"))
        main = room / "crates" / PROGRAM / "src" / "main.rt"
        main.parent.mkdir(parents=True)
        main.write_text(source, encoding="utf-8")
        lines = [f"{name}: {' '.join(libraries)}" for name, libraries in named.items()]
        (room / "crates.txt").write_text("\n".join([*lines, f"{PROGRAM}: {' '.join(named[CRATE])}"]) + "\n", encoding="utf-8")
        module = lowering.module_of(kit, room, PROGRAM, room, room)
        said("lowered")
        if is_fast:
            without_checks.convert(kit, room, module, room / "as_built.ll")
        else:
            told_checks.convert(module, room / "as_built.ll")
        with open(room / "as_built.ll", encoding="utf-8") as text, open(room / "shown.ll", "w", encoding="utf-8") as shown:
            shown.writelines(with_exports(text, exports))
        lowering.compiled(kit, room / "shown.ll", room / "all.o", "-fPIC", *(lowering.PLAIN if is_fast else ["-O1"]))
        subprocess.run(["objcopy", "--localize-symbol=main", room / "all.o", room / f"{CRATE}.o"], check=True)
        out.unlink(missing_ok=True)
        subprocess.run(["ar", "rcs", out, room / f"{CRATE}.o"], check=True)

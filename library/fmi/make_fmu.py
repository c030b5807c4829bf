#!/usr/bin/env python3
"""make_fmu.py FMU BUILT PROGRAM PUA TIMES INTERGREENS

Makes an FMI 3.0 unit for co-simulation of a junction: FMU is the file to write, BUILT the folder that `make -C library`
made."""
import hashlib
import os
import pathlib
import subprocess
import sys
import tempfile
import zipfile

HERE = pathlib.Path(__file__).resolve().parent
RESOURCES = ("program.vap", "junction.pua", "times.csv", "intergreens.csv")
ZEROS = " ".join(["0"] * 64)
ONE = 'variability="discrete" start="0"'
# kind, name, causality, further attributes, length of the array (0: a number), description; the value reference is its place
VARIABLES = [
    ("Float64", "time", "independent", 'variability="continuous"', 0, "the seconds made"),
    ("UInt32", "fronts", "input", f'variability="discrete" start="{ZEROS}"', 64, "the fronts of detectors 1 to 64 in a second"),
    ("UInt32", "rears", "input", f'variability="discrete" start="{ZEROS}"', 64, "their rears"),
    ("UInt32", "second", "output", "", 0, "the last second made; 0 before the first one"),
    ("UInt8", "groups", "output", "", 0, "how many groups there are"),
    ("UInt8", "aspects", "output", "", 64, "of each group R, U (red-amber), G or A as its code; 0 behind the last one"),
    ("UInt8", "place", "output", "", 0, "0: no stages; 1: stage `to`; 2: interstage `from` to `to`, second `t`"),
    ("UInt8", "from", "output", "", 0, "the stage that an interstage leaves"),
    ("UInt8", "to", "output", "", 0, "the stage, or that which an interstage leads to"),
    ("UInt8", "t", "output", "", 0, "the second of the interstage"),
    ("UInt8", "fault", "output", "", 0, "0: none; 1 Budget 2 Overflow 3 ZeroDivisor 4 Index 5 Number"),
    ("UInt32", "fault_line", "output", "", 0, "the line of the fault"),
    ("UInt32", "stages", "output", "", 0, "how many stage commands were refused"),
    ("UInt32", "turns", "output", "", 0, "how many turns were refused"),
    ("UInt8", "turn_groups", "output", "", 64, "the groups whose turns were refused"),
    ("UInt8", "turn_rules", "output", "", 64, "the rules: 1 Sequence 2 MinGreen 3 Conflict 4 Intergreen 8 MinRed"),
    ("UInt8", "turn_others", "output", "", 64, "the groups in the way, or 255"),
    ("Boolean", "taken", "output", "", 0, "whether the counts of the last step were taken"),
    ("String", "header", "output", "", 0, "the first line of the log"),
    ("String", "record", "output", "", 0, "the last second as a line of the log"),
    ("Boolean", "by_commands", "input", 'variability="discrete" start="false"', 0, "a second by the commands that follow"),
    ("UInt8", "order_from", "input", ONE, 0, "a stage command: the stage that is left; 0 and 0: none"),
    ("UInt8", "order_to", "input", ONE, 0, "the stage to which it leads"),
    ("UInt8", "wished_stage", "input", ONE, 0, "where another stage is active, the command from that one to this; 0: none"),
    ("UInt8", "wishes", "input", f'variability="discrete" start="{ZEROS}"', 64, "of each group 0 the stage's, 1 green, 2 red"),
]


def description(token):
    lines = [
        '<?xml version="1.0" encoding="UTF-8"?>',
        f'<fmiModelDescription fmiVersion="3.0" modelName="junction" instantiationToken="{token}" '
        'generationTool="make_fmu.py" description="A proved traffic signal controller at its site" '
        'variableNamingConvention="flat">',
        '  <CoSimulation modelIdentifier="junction" needsExecutionTool="false" '
        'canBeInstantiatedOnlyOncePerProcess="false" canGetAndSetFMUState="false" '
        'canSerializeFMUState="false" canHandleVariableCommunicationStepSize="false" '
        'fixedInternalStepSize="1" maxOutputDerivativeOrder="0" hasEventMode="false" providesIntermediateUpdate="false"/>',
        '  <LogCategories><Category name="logStatusError"/><Category name="logStatusDiscard"/></LogCategories>',
        '  <DefaultExperiment startTime="0" stopTime="3600" stepSize="1"/>',
        "  <ModelVariables>",
    ]
    for reference, (kind, name, causality, more, length, text) in enumerate(VARIABLES):
        if causality == "output":
            more = 'variability="discrete" initial="calculated"'
        head = f'    <{kind} name="{name}" valueReference="{reference}" causality="{causality}" {more} description="{text}"'
        lines.append(head + (f'><Dimension start="{length}"/></{kind}>' if length else "/>"))
    lines += ["  </ModelVariables>", "  <ModelStructure>"]
    outputs = [reference for reference, variable in enumerate(VARIABLES) if variable[2] == "output"]
    lines += [f'    <Output valueReference="{reference}"/>' for reference in outputs]
    lines += [f'    <InitialUnknown valueReference="{reference}" dependencies=""/>' for reference in outputs]
    return "\n".join(lines + ["  </ModelStructure>", "</fmiModelDescription>", ""])


def main(unit, built, *words):
    texts = [pathlib.Path(word).read_bytes() for word in words]
    built = pathlib.Path(built).resolve()
    archive = (built / "lib/libjunction.a").read_bytes()
    token = hashlib.sha256(b"".join(hashlib.sha256(text).digest() for text in [archive, *texts])).hexdigest()
    with tempfile.TemporaryDirectory() as folder:
        (pathlib.Path(folder) / "token.h").write_text(f'#define TOKEN "{token}"\n')
        made = pathlib.Path(folder) / "junction.so"
        folders = [f"-I{folder}", f"-I{HERE.parent}/include", f"-I{HERE}"]
        parts = [
            str(HERE / "fmi3_junction.c"),
            str(built / "lib/libjunction.a"),
            "-Wl,--exclude-libs,ALL",
            "-Wl,--no-undefined",
        ]
        subprocess.run(
            [
                os.environ.get("CC", "cc"),
                "-std=gnu11",
                "-Wall",
                "-Wextra",
                "-O2",
                "-shared",
                "-fPIC",
                "-fvisibility=hidden",
                *folders,
                *parts,
                "-o",
                str(made),
            ],
            check=True,
        )
        with zipfile.ZipFile(unit, "w", zipfile.ZIP_DEFLATED) as out:
            out.writestr("modelDescription.xml", description(token))
            out.write(made, "binaries/x86_64-linux/junction.so")
            for name, text in zip(RESOURCES, texts):
                out.writestr("resources/" + name, text)
    return 0


if __name__ == "__main__":
    sys.exit(main(*sys.argv[1:]) if len(sys.argv) == 7 else __doc__)

#!/usr/bin/env python3
"""try_fmu.py FMU MASTER DETECTORS LOG: takes a unit apart, checks its description, and plays it by the master."""
import pathlib
import re
import subprocess
import sys
import tempfile
import xml.etree.ElementTree as xml
import zipfile


def judge(root):
    """what the standard asks of the description, as far as this unit has it"""
    assert root.tag == "fmiModelDescription" and root.get("fmiVersion") == "3.0"
    order = [child.tag for child in root]
    assert order == ["CoSimulation", "LogCategories", "DefaultExperiment", "ModelVariables", "ModelStructure"], order
    variables = {v.get("valueReference"): v for v in root.find("ModelVariables")}
    assert len(variables) == len(root.find("ModelVariables")) == len({v.get("name") for v in variables.values()})
    assert [v.get("name") for v in variables.values() if v.get("causality") == "independent"] == ["time"]
    outputs = {r for r, v in variables.items() if v.get("causality") == "output"}
    structure = root.find("ModelStructure")
    assert {o.get("valueReference") for o in structure.findall("Output")} == outputs
    assert {o.get("valueReference") for o in structure.findall("InitialUnknown")} == outputs
    for v in variables.values():
        if v.get("causality") == "input":
            dimension = v.find("Dimension")
            assert len(v.get("start").split()) == (1 if dimension is None else int(dimension.get("start")))
            assert dimension is None or dimension.get("start") == "64"
        if v.get("causality") == "output":
            assert v.get("variability") == "discrete" and v.get("initial") == "calculated" and v.get("start") is None
        assert v.tag in ("Float64", "UInt32", "UInt8", "Boolean", "String")
    return variables


def main(unit, master, detectors, log):
    with tempfile.TemporaryDirectory() as folder, zipfile.ZipFile(unit) as packed:
        packed.extractall(folder)
        root = xml.parse(pathlib.Path(folder) / "modelDescription.xml").getroot()
        variables = judge(root)
        source = pathlib.Path(__file__).with_name("fmi3_junction.c").read_text()
        names = re.findall(r"\b[A-Z_]+\b", re.search(r"enum \{\s*(TIME.*?)\s*\}", source, re.S)[1])
        assert [v.get("name").upper() for v in variables.values()] == names, names
        print(len(variables), "variables; the description is as it must be")
        return subprocess.run(
            [
                master,
                f"{folder}/binaries/x86_64-linux/junction.so",
                root.get("instantiationToken"),
                f"{folder}/resources/",
                detectors,
                log,
            ]
        ).returncode


if __name__ == "__main__":
    sys.exit(main(*sys.argv[1:]) if len(sys.argv) == 5 else __doc__)

#!/usr/bin/env python3
"""Writes the scenarios of examples/ that have a journal, and these, as the constants that the tests of the program walk through.

The files of examples/ are the home of these texts. A test can't read files, so it has them as constants, in
crates/bm_tests_tool/src/examples/, one file an example, and tables of them in crates/bm_tests_tool/src/examples.rt, each of which is
short enough for the proof of the test that walks it.

    tools/examples_to_tests.py            writes these files
    tools/examples_to_tests.py --check    writes nothing; ends with 1 where one of them isn't what it would be
"""
import pathlib
import sys

TOP = pathlib.Path(__file__).resolve().parent.parent
EXAMPLES = TOP / "examples"
SOURCES = TOP / "crates/bm_tests_tool/src"

# The tables with what they are called, and how many examples one may have.
TABLES = {"EXAMPLES": "Scenarios", "MORE_EXAMPLES": "More scenarios", "OTHER_EXAMPLES": "Other scenarios"}
MOST = 10


def constant(name: str, text: str) -> str:
    if '"' in text or "\\" in text:
        sys.exit(f"a text with a quote or a backslash can't be written so: {name}")
    return f'pub(crate) const {name}: &str = "{text}";\n'


def row(name: str) -> str:
    """A row of the table, as the formatter has it: on one line as far as it isn't wider than 60."""
    words = [f"{name}::SCENARIO", f"{name}::JOURNAL"]
    short = f"({', '.join(words)})"
    return f"    {short},\n" if len(short) <= 60 else "    (\n" + "".join(f"        {word},\n" for word in words) + "    ),\n"


def files() -> dict[pathlib.Path, str]:
    names = sorted(file.stem for file in EXAMPLES.glob("*.journal"))
    made = {}
    for name in names:
        scenario = (EXAMPLES / f"{name}.scenario").read_text()
        journal = (EXAMPLES / f"{name}.journal").read_text()
        made[SOURCES / "examples" / f"{name}.rt"] = (
            f"//! The example {name}, as it stands in examples/.\n\n"
            + constant("SCENARIO", scenario)
            + "\n"
            + constant("JOURNAL", journal)
        )
    if len(names) > MOST * len(TABLES):
        sys.exit(f"more than {MOST * len(TABLES)} examples: another table is needed, and a test that walks it")
    tables = ""
    for index, (table, called) in enumerate(TABLES.items()):
        rows = "".join(row(name) for name in names[MOST * index : MOST * (index + 1)])
        tables += f"\n/// {called}, each with its journal.\n"
        tables += f"pub(crate) const {table}: &[(&str, &str)] = &[\n{rows}];\n"
    made[SOURCES / "examples.rt"] = (
        "//! The scenarios of examples/ with their journals, as tools/examples_to_tests.py writes them. Where the journals are from is\n"
        "//! told in examples/README.md.\n\n"
        + "".join(f"pub(crate) mod {name};\n" for name in names)
        + tables
    )
    return made


def main() -> None:
    made = files()
    if sys.argv[1:] == ["--check"]:
        other = [str(file) for file, text in made.items() if not file.exists() or file.read_text() != text]
        sys.exit("not as in examples/: " + ", ".join(other) if other else 0)
    if sys.argv[1:]:
        sys.exit(__doc__)
    for file, text in made.items():
        file.parent.mkdir(parents=True, exist_ok=True)
        file.write_text(text)


main()

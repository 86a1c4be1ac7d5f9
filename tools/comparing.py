"""What the comparisons need: their words, and a place for what differs."""

import argparse
import tempfile
from collections.abc import Iterator
from pathlib import Path

from object_scenarios import ObjectMaker, SlotMaker
from random_scenarios import Maker


def words(about: str) -> tuple[str, range]:
    """The program, a built bpfmem, and the seeds."""
    return program_and_seeds(parser_of(about).parse_args())


def words_with_makers(about: str) -> tuple[str, Iterator[tuple[int, Maker]]]:
    """The same, and for each seed what makes its scenario."""
    parser = parser_of(about)
    parser.add_argument("--processors", action="store_true", help="scenarios of two to eight processors, not of one")
    forms = parser.add_mutually_exclusive_group()
    forms.add_argument("--slots", action="store_true", help="scenarios with slots too, without lists and trees")
    forms.add_argument("--objects", action="store_true", help="scenarios of the whole language")
    given = parser.parse_args()
    program, seeds = program_and_seeds(given)
    made_by = ObjectMaker if given.objects else SlotMaker if given.slots else Maker
    return program, ((seed, made_by(seed, given.processors)) for seed in seeds)


def parser_of(about: str) -> argparse.ArgumentParser:
    parser = argparse.ArgumentParser(description=about, formatter_class=argparse.RawDescriptionHelpFormatter)
    parser.add_argument("program", help="a built bpfmem")
    parser.add_argument("first", type=int, help="the first seed")
    parser.add_argument("last", type=int, help="the last seed")
    return parser


def program_and_seeds(given: argparse.Namespace) -> tuple[str, range]:
    return given.program, range(given.first, given.last + 1)


def keep(name: str, text: bytes) -> Path:
    """Keeps a scenario in the folder for temporary files."""
    kept = Path(tempfile.gettempdir()) / f"bpfmem-{name}.scenario"
    kept.write_bytes(text)
    return kept

"""SUMO's files and programs: XML written, and the programs run as children."""

import subprocess
import xml.etree.ElementTree as ElementTree
from typing import Any, Iterable, Mapping, Sequence, Tuple

from ..faults import Fault


def write_xml(path: str, name: str, elements: Iterable[Tuple[str, Mapping[str, Any]]]) -> None:
    """Writes a file of SUMO: a root element and, one in a line, (name, attributes) of those in it."""
    root = ElementTree.Element(name)
    for tag, attributes in elements:
        ElementTree.SubElement(root, tag, {key: str(value) for key, value in attributes.items()})
    write_root(root, path)


def write_root(root: ElementTree.Element, path: str) -> None:
    """Writes an element as a file, one element in a line."""
    ElementTree.indent(root)
    ElementTree.ElementTree(root).write(path, encoding="utf-8", xml_declaration=True)


def run_tool(words: Sequence[str], folder: str) -> None:
    """Runs a program of SUMO in a folder."""
    try:
        done = subprocess.run(words, cwd=folder, capture_output=True, text=True, errors="replace")
    except FileNotFoundError as error:
        raise Fault(f"{words[0]} is not installed: examples/sumo/README.md says how SUMO is") from error
    if done.returncode:
        raise Fault(f"{words[0]} failed in {folder}: {' '.join(done.stderr.split()) or 'it said nothing'}")

"""Networks of SUMO for tests, made by netgenerate and netconvert."""

import os
import shutil
import subprocess
import unittest
from typing import Sequence

TOOLS = ("netconvert", "netgenerate")
needs_sumo = unittest.skipUnless(all(map(shutil.which, TOOLS)), "SUMO isn't installed: there is no netconvert")

# Two crossings with signals on a street, as a map of OpenStreetMap has them: 300 m apart, side streets of 200 m.
OSM = """<?xml version="1.0" encoding="UTF-8"?>
<osm version="0.6">
 <bounds minlat="52.0000" minlon="13.0000" maxlat="52.0100" maxlon="13.0200"/>
 <node id="1" version="1" lat="52.0050000" lon="13.0000000"/>
 <node id="2" version="1" lat="52.0050000" lon="13.0040000"><tag k="highway" v="traffic_signals"/></node>
 <node id="3" version="1" lat="52.0050000" lon="13.0083700"><tag k="highway" v="traffic_signals"/></node>
 <node id="4" version="1" lat="52.0050000" lon="13.0120000"/>
 <node id="5" version="1" lat="52.0068000" lon="13.0040000"/>
 <node id="6" version="1" lat="52.0032000" lon="13.0040000"/>
 <node id="7" version="1" lat="52.0068000" lon="13.0083700"/>
 <node id="8" version="1" lat="52.0032000" lon="13.0083700"/>
 <way id="10" version="1"><nd ref="1"/><nd ref="2"/><nd ref="3"/><nd ref="4"/>
  <tag k="highway" v="secondary"/><tag k="name" v="Åkervägen, &quot;norra&quot;"/><tag k="lanes" v="2"/>
  <tag k="maxspeed" v="50"/></way>
 <way id="11" version="1"><nd ref="5"/><nd ref="2"/><nd ref="6"/>
  <tag k="highway" v="tertiary"/><tag k="lanes" v="2"/><tag k="maxspeed" v="30"/></way>
 <way id="12" version="1"><nd ref="7"/><nd ref="3"/><nd ref="8"/>
  <tag k="highway" v="tertiary"/><tag k="name" v="Mill Lane"/><tag k="lanes" v="2"/><tag k="maxspeed" v="30"/></way>
</osm>
"""

NODES = """<nodes>
 <node id="w" x="-600" y="0"/><node id="A" x="-300" y="0" type="traffic_light"/><node id="an" x="-300" y="200"/>
 <node id="as" x="-300" y="-200"/><node id="e" x="600" y="0"/><node id="B" x="300" y="0" type="traffic_light"/>
 <node id="bn" x="300" y="200"/><node id="bs" x="300" y="-200"/>
 <node id="n" x="0" y="250"/><node id="s" x="0" y="-250"/>
 <node id="rw" x="-20" y="0"/><node id="re" x="20" y="0"/><node id="rn" x="0" y="20"/><node id="rs" x="0" y="-20"/>
</nodes>"""
ROUND = ("rw", "rs", "re", "rn")  # the way round, where traffic drives on the right


def run(words: Sequence[str], folder: str) -> None:
    """Runs a program of SUMO."""
    home = {"SUMO_HOME": "/usr/share/sumo"} if os.path.isdir("/usr/share/sumo") else {}
    done = subprocess.run(words, cwd=folder, capture_output=True, text=True, env={**home, **os.environ})
    if done.returncode:
        raise AssertionError(f"{words[0]} failed: {done.stderr}")


def write(folder: str, name: str, text: str) -> str:
    """Writes a file, and returns its name."""
    path = os.path.join(folder, name)
    with open(path, "w", encoding="utf-8") as file:
        file.write(text)
    return path


def grid(folder: str, *options: str) -> str:
    """A grid of three by three junctions with signals."""
    usual = {"--grid.number": "3", "--no-turnarounds": "true"}
    words = [word for name, value in usual.items() if name not in options for word in (name, value)]
    run(["netgenerate", "--grid", *words, "--grid.length", "200", "--grid.attach-length", "150",
         "--default-junction-type", "traffic_light", "-o", "grid.net.xml", *options], folder)
    return os.path.join(folder, "grid.net.xml")


def roundabout(folder: str) -> str:
    """Two junctions with signals, and a roundabout without between them, with a street to the north and the south."""
    ways = [("w", "A"), ("an", "A"), ("as", "A"), ("e", "B"), ("bn", "B"), ("bs", "B"), ("A", "rw"), ("B", "re"),
            ("n", "rn"), ("s", "rs")]
    edges = [f'<edge id="{one}{other}" from="{one}" to="{other}" numLanes="1" speed="12.5"/>'
             for pair in ways for one, other in (pair, pair[::-1])]
    edges += [f'<edge id="{one}{other}" from="{one}" to="{other}" numLanes="1" speed="6"/>'
              for one, other in zip(ROUND, ROUND[1:] + ROUND[:1])]
    write(folder, "r.nod.xml", NODES)
    write(folder, "r.edg.xml", f"<edges>{''.join(edges)}</edges>")
    run(["netconvert", "-n", "r.nod.xml", "-e", "r.edg.xml", "-o", "r.net.xml", "--no-turnarounds", "true"], folder)
    return os.path.join(folder, "r.net.xml")


def of_a_map(folder: str) -> str:
    """The network that netconvert makes of the map."""
    write(folder, "map.osm", OSM)
    run(["netconvert", "--osm-files", "map.osm", "-o", "map.net.xml", "--no-turnarounds", "true",
         "--output.street-names", "true"], folder)
    return os.path.join(folder, "map.net.xml")

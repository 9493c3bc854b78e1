"""arrows.py PAGE NUMBER: the chart is well formed, and has so many arrows of arrivals."""

import sys
from xml.etree import ElementTree

parts = ElementTree.parse(sys.argv[1]).iter()
arrows = sum("arrival" in part.get("class", "").split() for part in parts)
if arrows != int(sys.argv[2]):
    sys.exit(f"examples: {arrows} arrows, expected {sys.argv[2]}")

"""Draws each component of a system as a graph: its states, its transitions
with their actions, a dot before each initial state, dashed arrows for
internal moves.

  oatmist graph SYSTEM -o FILE.svg     drawn by Graphviz, where it is installed
  oatmist graph SYSTEM -o FILE.dot     a text for Graphviz, as without -o
"""
from .. import files, graphs, inputs, manners
from ..faults import Fault

SUMMARY = "the components as graphs"


def arguments(parser):
    parser.add_argument("system", metavar="SYSTEM", help="a text of a system or a product, an .aut file or a sheet")
    parser.add_argument("-o", metavar="FILE", dest="output", help="FILE.svg or FILE.dot; else dot to standard output")


def run(given):
    name = given.output or ".dot"
    if not name.endswith((".svg", ".dot", ".gv")) and not files.special(name):
        raise Fault("name a file that ends in .svg or .dot", path=name)
    system, _ = inputs.read_system(given.system)
    drawing = graphs.svg(system) if name.endswith(".svg") else graphs.dot(system).encode()
    manners.deliver(given.output, drawing)
    return manners.DONE

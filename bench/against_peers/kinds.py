"""The kinds of comparison, in the order in which they are made. Each module has a NAME, `missing`, which names a peer that isn't there, and `check`."""
from against_peers import console, instructions, libraries, links, sources, tapes
from against_peers.torture import comparing as torture

KINDS = {kind.NAME: kind for kind in (sources, instructions, tapes, console, torture, links, libraries)}

"""Every chain of kinship between two persons in a file of links, and every ring that leads back to one, from the proved library.

    import kin

    file = open("examples/six_persons.klf", "rb").read()
    for chain in kin.chains(file, kin.Question(0, 5, 4)):
        print(chain)
    for ring in kin.rings(file, kin.Question.back_to(2, 4)):
        print(ring)

A link file is bytes, and nothing changes it. Any bytes, any question and any bookmark get their answer or raise Refused, with a
number, a place and a meaning. All numbers are whole numbers of 32 bits; the library cannot be asked others, they are a ValueError.

    To                                    call
    check a file                          check
    see a person's links                  row_view, links_in
    know how far a person is from To      fewest_hops
    go through all chains                 chains
    ask for one portion of them           portion
    keep a place in a listing             HeldListing
    have the shortest chains first        join
    go through all rings of a person      rings
    ask for one portion of them           ring_portion

The library has no state of its own, so that any number of threads may call at once, each with a held listing of its own.

The package carries the library, libkin.so. The environment variable KIN_LIBRARY names another.
"""

from ._files import Counts, Link, check, links_in, row_view
from ._library import Bytes
from ._listings import ROOM, WORKING_ROOM, Chain, Chains, HeldListing, Joined, Portion, Ring, RingPortion, Rings
from ._listings import chains, fewest_hops, join, portion, ring_portion, rings
from ._question import LAST_DAY, Classes, DateMeaning, Day, Question
from ._refused import MEANINGS, Refused
from ._version import __version__

__all__ = [
    "LAST_DAY",
    "MEANINGS",
    "ROOM",
    "WORKING_ROOM",
    "Bytes",
    "Chain",
    "Chains",
    "Classes",
    "Counts",
    "DateMeaning",
    "Day",
    "HeldListing",
    "Joined",
    "Link",
    "Portion",
    "Question",
    "Refused",
    "Ring",
    "RingPortion",
    "Rings",
    "__version__",
    "chains",
    "check",
    "fewest_hops",
    "join",
    "links_in",
    "portion",
    "ring_portion",
    "rings",
    "row_view",
]

# In tracebacks and help they are shown by the name they are had by: kin.Refused, wherever it stands.
for _had in (Chains, Classes, Counts, DateMeaning, HeldListing, Joined, Link, Portion, Question, Refused, RingPortion, Rings):
    _had.__module__ = __name__

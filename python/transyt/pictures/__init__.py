"""Pictures of a plan as SVG text, made of the program's answers alone.

    transyt.pictures.road(session, [[11, 21, 31]])      # the time-space diagram of a route, and of the way back
    transyt.pictures.signals(session)                   # each junction's stages over the cycle
    transyt.pictures.link(session, 21)                  # a link's arrivals, GO, departures and queue
    transyt.pictures.saturation(session)                # links by degree of saturation
    transyt.pictures.climb(session)                     # the index over the looks of a climb (it climbs)
    transyt.pictures.sensitivity(session)               # the index at the moves of the certificate

A picture takes whatever answers as a `Session` does (`source.Answers`): a live session, or a filed report.
"""

from .climbing import climb
from .links import link, saturation
from .roads import road, routes_of
from .sensitive import sensitivity
from .signals import signals
from .source import Answers

__all__ = ["Answers", "climb", "link", "road", "routes_of", "saturation", "sensitivity", "signals"]

"""What the program tells of a plan that is driven: of each link delay, queue and GO."""

from dataclasses import dataclass
from typing import Mapping, Tuple

from ..faults import Fault
from ..session import Session


@dataclass(frozen=True)
class LinkPlan:
    """The program's figures of a link.

    `delay` is uniform and random delay together, in vehicle-hours an hour, `seconds` the mean delay of a vehicle,
    `queue` the greatest queue in vehicles, `go` in units a step; `flow` in vehicles an hour.
    """

    flow: int
    delay: float
    seconds: float
    queue: float
    go: Tuple[int, ...]


@dataclass(frozen=True)
class PlanFigures:
    """The figures of each link, by its number, and the index in units."""

    links: Mapping[int, LinkPlan]
    index: int

    def link(self, number: int) -> LinkPlan:
        """The figures of a link."""
        if number not in self.links:
            raise Fault(f"the report has no link {number}")
        return self.links[number]


def read_plan(session: Session) -> PlanFigures:
    """The figures of the network that a session has."""
    figures, delays, links = session.figures(), session.links(), {}
    for link in figures.links:
        delay = delays.link(link.number)
        links[link.number] = LinkPlan(link.flow_an_hour, delay.uniform_vehicle_hours + delay.random_vehicle_hours,
                                      link.delay_seconds, link.queue_vehicles, session.profile(link.number).go)
    return PlanFigures(links, figures.index)

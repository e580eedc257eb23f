"""Links and switches as people name them: a link by one of its ends (`s1:2`) or by its switches (`s1-s2`), a switch by
its name."""
from __future__ import annotations

from planner_tools.files import did_you_mean
from planner_tools.proved import Unable

TYPE_CHECKING = False
if TYPE_CHECKING:
    from planner_tools.network import Network

WRONG_WORDS = 2


def links_of(network: Network) -> list[tuple[str, str]]:
    """The links in the order of the topology, as pairs of port references."""
    found: list[tuple[str, str]] = []
    for one, other in network.peers.items():
        if (other, one) not in found[-1:]:
            found.append((one, other))
    return found


def switch_of(end: str) -> str:
    return end.rpartition(":")[0]


class Places:
    """The links and switches of a network, by their names."""

    def __init__(self, network: Network) -> None:
        self.network, self.links = network, links_of(network)
        self.by_end = {end: link for link in self.links for end in link}
        self.between: dict[str, list[tuple[str, str]]] = {}
        for link in self.links:
            for one, other in (link, link[::-1]):
                self.between.setdefault(f"{switch_of(one)}-{switch_of(other)}", []).append(link)

    def named(self, word: str) -> tuple[list[tuple[str, str]], list[str]]:
        """The links, or the one switch, that a word names: a list of links and a list of switches. A word that names
        none is Unable."""
        switches, links = [word] if word in self.network.numbers else [], []
        if not switches:
            links = [self.by_end[word]] if word in self.by_end else list(dict.fromkeys(self.between.get(word, [])))
        if not switches and not links:
            raise Unable(
                (
                    "the network has neither a link nor a switch"
                    f" {word}{did_you_mean(word, [*self.network.numbers, *self.by_end, *self.between])}"
                ),
                WRONG_WORDS,
                ["a link is named by an end of it, as s1:2, or by its switches, as s1-s2; a switch by its name"],
            )
        if len({tuple(sorted(map(switch_of, link))) for link in links}) > 1:
            raise Unable(
                f"{word} names links between several pairs of switches", WRONG_WORDS,
                [f"name one of their ends: {', '.join(end for link in links for end in link)}"],
            )
        return links, switches


def link_words(link: tuple[str, str]) -> str:
    return " - ".join(link)

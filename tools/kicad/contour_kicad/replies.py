"""The reply text, read a line at a time. Certificates are passed over: `contour check` judges them."""
from dataclasses import dataclass, field

from .errors import WrongInput


@dataclass
class Connection:
    """A connection of a net: its number, what it costs, and its nodes.

    A node is (x, y, layer name, kind): kind names the via that leads there, and is None at the start and after
    a wire.
    """
    number: int
    cost: int
    nodes: list


@dataclass
class State:
    """What is made: for each net its connections in order, and the first one that has no way."""
    connections: dict = field(default_factory=dict)
    open_at: dict = field(default_factory=dict)

    def cost(self):
        """The sum of what all connections cost."""
        return sum(one.cost for conns in self.connections.values() for one in conns)


class Reader:
    """Follows replies to `route`, `rip` and `show`, and keeps the state that they leave."""

    def __init__(self):
        self.state = State()
        self.net = None
        self.current = None
        self.legs = 0

    def take(self, line):
        """Takes one line; gives the net's name where a reply to a command for a net begins, else None."""
        words = line.split()
        if not words:
            return None
        word = words[0].decode("ascii", "replace")
        if word in ("src", "step", "cert", "all", "rules"):
            return None
        try:
            return self.take_words(word, [w.decode("ascii") for w in words[1:]])
        except (ValueError, IndexError, KeyError, AttributeError):
            raise WrongInput("the replies are no replies of contour to route, rip or show") from None

    def take_words(self, word, words):
        """Takes a line that is no part of a certificate."""
        if word == "via" and self.legs == 0:
            return None
        if word in ("to", "via") and self.legs == 0:
            raise ValueError(word)
        if word in ("route", "show", "rip"):
            self.net = words[0]
            if word == "show" or word == "rip":
                self.state.connections[self.net] = []
            self.state.connections.setdefault(self.net, [])
            self.state.open_at.pop(self.net, None)
            return self.net
        if word == "conn":
            number, cost, self.legs = (int(w) for w in words)
            self.current = Connection(number, cost, [])
            self.state.connections[self.net].append(self.current)
        elif word == "at":
            self.current.nodes.append((int(words[0]), int(words[1]), words[2], None))
        elif word == "to":
            self.current.nodes.append((int(words[0]), int(words[1]), words[2], None))
            self.legs -= 1
        elif word == "via":
            self.current.nodes.append((int(words[1]), int(words[2]), words[3], words[0]))
            self.legs -= 1
        elif word == "none":
            self.state.open_at[self.net] = int(words[0])
        elif word not in ("close", "outline", "removed", "round", "best", "back"):
            raise ValueError(word)
        return None


def read_replies(lines):
    """The state that replies leave."""
    reader = Reader()
    for line in lines:
        reader.take(line)
    return reader.state

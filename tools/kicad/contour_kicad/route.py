"""Routing a board: export, run, check, import, and KiCad's verdict before and after."""
import fnmatch
import time
from dataclasses import dataclass, field, replace

from . import freedom, judge, kicad, replies, writing, zones
from .errors import NotRight, WrongInput
from .export import Exporter
from .model import Model, Net
from .progress import Progress

PASSES = 4
FINISH_STEPS = 10


@dataclass
class Missing:
    """A pad that is not reached: its net, why, and what stands round it."""
    net: str
    pad: str
    why: str
    round_it: list


@dataclass
class Outcome:
    """What routing brought."""
    before: judge.Verdict
    after: judge.Verdict
    new: dict
    missing: list
    nets: int
    seconds: float
    items: list = field(default_factory=list)


@dataclass
class Plan:
    """Commands that were run on a model, the state that they leave, and the paths of both texts."""
    model: Model
    commands: list
    state: replies.State
    board: str
    replies: str

    def kept(self, program):
        """The plan with its texts under names that later runs leave alone."""
        board, answer = program.file("best.board"), program.file("best.replies")
        program.rename(self.board, board)
        program.rename(self.replies, answer)
        return replace(self, board=board, replies=answer)


def chosen_codes(board, pattern):
    """The numbers of the nets that the pattern names, as in a shell; all nets without one."""
    nets = {code: info.GetNetname() for code, info in board.GetNetsByNetcode().items() if code > 0}
    if pattern is None:
        return set(nets)
    found = {code for code, name in nets.items()
             if any(fnmatch.fnmatchcase(name, one) for one in pattern.split(","))}
    if not found:
        raise WrongInput(f"no net of the board is named as {pattern}")
    return found


def rip_up(board, codes):
    """Takes away the tracks and vias of these nets that are not locked."""
    for track in list(board.GetTracks()):
        if track.GetNetCode() in codes and not track.IsLocked():
            board.Delete(track)


def zone_codes(board):
    """The numbers of the nets that have a zone."""
    return {zone.GetNetCode() for zone in board.Zones() if not zone.GetIsRuleArea() and zone.GetNetCode() > 0}


def route_board(board, program, options, codes, rounds=None, quiet=False):
    """Routes nets of a board in memory and gives the outcome; the tracks stand in the board then.

    Nets with zones come last: their zones are filled round the tracks of the others, and tracks join only what
    the zones leave apart.
    """
    start = time.monotonic()
    judge.fill_zones(board)
    before = judge.judge(board)
    model = Exporter(board, options).model()
    chosen = sorted((net for net in model.nets if net.code in codes), key=span)
    with_zone = zone_codes(board)
    zoned = [net for net in chosen if net.code in with_zone]
    model, others = without_standing(board, model, [net for net in chosen if net.code not in with_zone])
    put_shut_in_last(model, others)
    plan = search_plan(program, model, others, rounds, quiet)
    items = writing.Writer(board, plan.model).write(plan.state)
    judge.fill_zones(board)
    plan, links = join_zones(board, program, plan, zoned, quiet)
    program.check(plan.board, plan.replies)
    if links:
        for item in items:
            board.Delete(item)
        items = writing.Writer(board, plan.model).write(plan.state)
        judge.fill_zones(board)
    after = judge.judge(board)
    missing = missing_of(plan.model, plan.state, others + links)
    return Outcome(before, after, judge.new_violations(before, after), missing, len(chosen),
                   time.monotonic() - start, items)


def without_standing(board, model, nets):
    """The model and the nets to route where tracks stand: only what these leave apart is routed."""
    tracked = [net for net in nets if any(group.label in ("track", "via") for group in net.groups)]
    clusters = {net.name: zones.clusters_of(board, model, net) for net in tracked}
    apart = [net for net in tracked if len(clusters[net.name]) > 1]
    model, links = zones.with_links(model, apart, clusters)
    return model, [net for net in nets if net not in tracked] + links


def put_shut_in_last(model, nets):
    """Moves pads that no wire of their class can leave to the end of their nets."""
    for net, group in freedom.shut_in(model, nets):
        net.groups.remove(group)
        net.groups.append(group)


def join_zones(board, program, plan, zoned, quiet):
    """The plan with the tracks that nets with zones still need, and the nets that stand for these."""
    clusters = {net.name: zones.clusters_of(board, plan.model, net) for net in zoned}
    apart = [net for net in zoned if len(clusters[net.name]) > 1]
    if not apart:
        return plan, []
    model, links = zones.with_links(plan.model, apart, clusters)
    commands = plan.commands + [f"route {net.name}" for net in links]
    return run_plan(program, model, commands, quiet, "routing to zones"), links


def span(net):
    """Half the way round the box of a net's anchors."""
    xs, ys = [group.anchor[0] for group in net.groups], [group.anchor[1] for group in net.groups]
    return max(xs) - min(xs) + max(ys) - min(ys)


def search_plan(program, model, nets, rounds, quiet):
    """A plan that routes the nets one after another; where it leaves one open, the best that a search finds."""
    plan = route_in_order(program, model, nets, quiet)
    if not rounds or not shortfall(plan.state, nets):
        return plan
    found = search_orders(program, model, nets, rounds, quiet)
    return found.kept(program) if shortfall(found.state, nets) < shortfall(plan.state, nets) else plan


def route_in_order(program, model, nets, quiet):
    """Routes the nets one after another. A pad without a way goes to the end of its net for one more try."""
    best, best_groups = None, {}
    tried = set()
    for number in range(PASSES):
        title = "routing" if number == 0 else f"routing, pass {number + 1}"
        plan = run_plan(program, model, [f"route {net.name}" for net in nets], quiet, title)
        if best is None or shortfall(plan.state, nets) < shortfall(best.state, nets):
            best = plan.kept(program)
            best_groups = {net.name: list(net.groups) for net in nets}
        if not any([put_last(net, plan.state, tried) for net in nets]):
            break
    for net in nets:
        net.groups = best_groups[net.name]
    return best


def run_plan(program, model, commands, quiet, title):
    """Runs commands on the board; progress counts the nets."""
    board = program.write("board", model.text(commands))
    answer = program.file("replies")
    progress = Progress(title, len(commands), quiet)
    reader = replies.Reader()
    for line in program.lines(["run"], board, answer):
        if reader.take(line) is not None:
            progress.step()
    progress.close()
    return Plan(model, commands, reader.state, board, answer)


def shortfall(state, nets):
    """How many connections to pads are not made."""
    return sum(lacking(net, state)[0] for net in nets)


def lacking(net, state):
    """How many pads of a net are not reached, and the first of them."""
    at = state.open_at.get(net.name)
    if at is None:
        return 0, None
    seen = 0
    for place, group in enumerate(net.groups):
        seen += len(group.rects)
        if at < seen:
            return len(net.groups) - max(place, 1), group
    raise NotRight(f"the reply to net {net.name} names a connection that it does not have")


def put_last(net, state, tried):
    """Moves the pad to which there is no way to the end of its net; whether that is new."""
    _, group = lacking(net, state)
    if group is None or (net.name, id(group)) in tried or group is net.groups[-1]:
        return False
    tried.add((net.name, id(group)))
    net.groups.remove(group)
    net.groups.append(group)
    return True


def search_orders(program, model, nets, rounds, quiet):
    """Searches an order of the nets that leaves fewer open, with `finish` where there is one, and runs it."""
    alone = only(model, nets)
    if program.has_finish():
        commands = finish(program, alone, rounds, quiet)
    else:
        commands = [f"route {name}" for name in best_order(program, alone, rounds, nets, quiet)]
    return run_plan(program, model, commands, quiet, "routing in the best order")


def only(model, chosen):
    """The model with every rectangle of other nets as a net of its own, so that nothing of them can be routed."""
    nets = list(chosen)
    for net in model.nets:
        if net not in chosen:
            for group in net.groups:
                for rect in group.rects:
                    nets.append(Net(f"~~{len(nets)}", net.class_name, [replace(group, rects=[rect])]))
    return replace(model, nets=nets)


def finish(program, model, steps, quiet):
    """The commands that `contour finish` finds, a few steps at a time."""
    text = program.write("plan", model.text([]))
    progress = Progress("finish", -(-steps // FINISH_STEPS), quiet, every=0)
    for done in range(0, steps, FINISH_STEPS):
        words = ["finish", str(min(FINISH_STEPS, steps - done))]
        status, told = program.to_file(words, text, program.file("plan.new"))
        if status:
            raise NotRight(f"contour {' '.join(words)} ended with status {status}: {told}")
        program.rename(program.file("plan.new"), text)
        progress.step()
    progress.close()
    with open(text, "rb") as plan:
        return [line.decode("ascii").strip() for line in plan if line.startswith((b"route ", b"rip "))]


def best_order(program, model, rounds, chosen, quiet):
    """The order of the nets in the best round that `contour auto` plays."""
    text = program.write("board", model.text([]))
    rounds_played, order, best = [], [], 1
    wanted = {net.name for net in chosen}
    progress = Progress("auto", min(100, rounds), quiet, every=0)
    for line in program.lines(["auto", str(min(100, rounds))], text, program.file("auto")):
        words = line.split()
        if words[:1] == [b"round"]:
            order = []
            rounds_played.append(order)
            progress.step()
        elif words[:1] == [b"route"] and words[1].decode("ascii") in wanted:
            order.append(words[1].decode("ascii"))
        elif words[:1] == [b"best"]:
            best = int(words[1])
    progress.close()
    return rounds_played[best - 1]


def missing_of(model, state, chosen):
    """The pads that are not reached."""
    found = []
    for net in chosen:
        count, first = lacking(net, state)
        if not count:
            continue
        shut = {id(group) for _, group in freedom.shut_in(model, [net])}
        for group in net.groups[max(1, net.groups.index(first)):]:
            why = ("no wire of its class can leave it" if id(group) in shut
                   else "there is no way" if group is first or net.groups[0] is first else "not tried after that")
            found.append(Missing(net.title, group.label, why, round_pad(model, net, group)))
    return found


def round_pad(model, net, group):
    """What of other nets stands so near to a pad that a wire between the two has no room, the nearest first."""
    one = next(c for c in model.classes if c.name == net.class_name)
    reach = 2 * (one.half + one.gap)
    near = []
    for other in model.nets:
        if other is net:
            continue
        for piece in other.groups:
            if piece.first <= group.last and group.first <= piece.last:
                apart = min(between(a, b) for a in group.rects[:1] for b in piece.rects[:1])
                if apart < reach:
                    near.append((apart, f"{piece.label} ({other.title})"))
    return [label for _, label in sorted(near)[:4]]


def between(a, b):
    """What separates two rectangles: the greater of across and up."""
    return max(a[0] - b[2], b[0] - a[2], a[1] - b[3], b[1] - a[3], 0)


def route_file(source, target, program_path, options, rounds=None, quiet=False):
    """Routes a board file into another one; gives the outcome. Nothing is written unless all is judged."""
    from .program import Program
    board = kicad.open_board(source)
    codes = chosen_codes(board, options.nets)
    if options.rip_up:
        rip_up(board, codes)
    with Program(program_path) as program:
        outcome = route_board(board, program, options, codes, rounds, quiet)
    writing.save(board, target)
    return outcome

#!/usr/bin/env python3
"""Draws the crates of crates.txt as docs/crates.svg: tools/crates.py [--check]

PLACES says where each stands, and is refused where a crate isn't there, or stands on one that isn't below it. A line
leads from a crate down to each one that it uses, but to those that one of these stands on; in place of a line to
rx_model from another wing there is a dot. With --check nothing is written, and docs/crates.svg has to be what would
be."""
import argparse
import pathlib
import sys

top = pathlib.Path(__file__).resolve().parent.parent
LIST, DRAWING = top / "crates.txt", top / "docs/crates.svg"
PLACES = """
.             .               .           .          .               rx_top_tests    rx             .
.             .               .           .          .               .               rx_top         .
.             .               .           .          .               rx_peer_plan    rx_loader      rx_world
.             .               .           .          .               rx_wire_loop    rx_stage       rx_words
.             .               .           .          rx_joint_peers  .               rx_drive       .
rx_node_bench rx_server_tests rx_joint    rx_caller  rx_peer         .               rx_dispatch    rx_closing
.             rx_server       rx_client   .          .               .               rx_load        rx_rounds
.             rx_books        rx_progress .          .               .               .              rx_plan
rx_call_tests rx_node         rx_between  rx_token   rx_jumbo        .               rx_jobs        rx_run
rx_call_bench rx_call_ends    rx_table    rx_class   rx_asks         .               .              .
.             rx_call         rx_queue    rx_events  .               rx_script_tests rx_reply       xg_parse_tests
rx_recvwin    rx_sendwin      rx_due      rx_law     rx_examples     xdr_tests       rx_script      xg_compile
rx_pool       rx_rtt          rx_room     rx_history rx_packet_bench stub_table      xdr_code_bench xg_check
.             .               rx_packet   rx_rules   rx_wire         xdr_code        xdr_json       xg_parse
.             .               rx_model    .          rx_base         xdr_value       .              xg_lex
"""
# A wing: its title, its color, its first and last column, and its lowest and highest floor.
WINGS = [("the program", "#fdeee0", 5, 7, 6, 14), ("the protocol", "#e8f0fb", 0, 4, 0, 10),
         ("values", "#e9f6ea", 5, 6, 0, 4), ("interface files", "#f5ebf8", 7, 7, 0, 4)]
FLOORS = ["what is said", "rules, bytes", "laws, rates, slots", "windows, moments", "one end of a call",
          "ends, connections", "what both nodes share", "what is due", "the two nodes", "around the nodes", "what drives them", "runs, passes",
          "whole runs", "the commands", "what runs"]
ASIDE = {"rx_examples", "rx_call_tests", "rx_server_tests", "rx_top_tests", "rx_script_tests", "xg_parse_tests",
         "xdr_tests"}
SAID = "rx_model"
LEGEND = ["A line leads down to a crate that is used, unless another", "one that is used stands on it.",
          "A dot: it uses rx_model, which stands in another wing.", "A broken box: it shows, tests or measures."]
WIDTH, HEIGHT, COLUMN, FLOOR, LEFT, HEAD, PAD = 116, 28, 140, 64, 170, 46, 10
MARGIN, STEPS, BOW = 64, 40, 22
STYLE = """
svg { font: 13px "DejaVu Sans", Verdana, sans-serif; fill: #222 }
.page { fill: #fff }
.box { fill: #fff; stroke: #444; stroke-width: 1.2 }
.aside { stroke-dasharray: 4 3; stroke: #888 }
.name { text-anchor: middle }
.wing { font-weight: bold; fill: #555 }
.floor { fill: #777; font-size: 12px; text-anchor: end }
.dot { fill: #5577a0 }
.legend { fill: #555; font-size: 12px }
.use { fill: none; stroke: #5577a0; stroke-width: 1.1; opacity: .75 }
"""


class Fault(Exception):
    """What is wrong with the list or the places."""


def crates():
    """Each crate of the list with those of the list that it uses."""
    lines = [line.partition(":") for line in LIST.read_text().splitlines() if line.strip()]
    names = {name.strip() for name, _, _ in lines}
    return {name.strip(): [it for it in uses.split() if it in names] for name, _, uses in lines}


def places():
    """The column and the floor of each crate."""
    rows = [row.split() for row in PLACES.strip().splitlines()]
    found = {}
    for floor, row in enumerate(reversed(rows)):
        for column, name in enumerate(row):
            if name in found:
                raise Fault(f"tools/crates.py: {name} stands in PLACES twice")
            if name != ".":
                found[name] = column, floor
    return found


def check(uses, at):
    """That each crate has its place, in a wing, above all that it stands on."""
    if missing := sorted(uses.keys() ^ at.keys()):
        raise Fault(f"tools/crates.py: in PLACES or in crates.txt alone: {' '.join(missing)}")
    for name, below in uses.items():
        if not wing_of(at[name]):
            raise Fault(f"tools/crates.py: {name} stands in no wing")
        for other in below:
            if at[other][1] >= at[name][1]:
                raise Fault(f"tools/crates.py: {name} uses {other}, which isn't below it in PLACES")


def reached(uses, name):
    """All that a crate stands on."""
    return {it for below in uses[name] for it in {below} | reached(uses, below)}


def direct(uses, name):
    """What a crate uses that nothing else which it uses stands on."""
    return [it for it in uses[name] if not any(it in reached(uses, other) for other in uses[name])]


def wing_of(place):
    """The title of the wing in which a place is, or None."""
    column, floor = place
    wings = (it for it, _, left, right, low, high in WINGS if left <= column <= right and low <= floor <= high)
    return next(wings, None)


def is_dotted(name, other, at):
    """Whether a dot stands for the line from a crate to another."""
    return other == SAID and wing_of(at[name]) != wing_of(at[other])


def middle(place):
    """The middle of the box of a place."""
    column, floor = place
    return LEFT + COLUMN * column + WIDTH / 2, HEAD + FLOOR * (len(FLOORS) - 1 - floor) + HEIGHT / 2


def curves(upper, lower):
    """The ways that a line can take from the lower side of one box to the upper side of another, straighter ones first:
    the four points of a Bezier curve."""
    (x1, y1), (x2, y2) = middle(upper), middle(lower)
    y1, y2 = y1 + HEIGHT / 2, y2 - HEIGHT / 2
    for aside in sorted(range(-8, 9), key=abs):
        for share in (0.5, 0.3, 0.15):
            bend = max((y2 - y1) * share, FLOOR / 4)
            yield (x1, y1), (x1 + aside * BOW, y1 + bend), (x2 + aside * BOW, y2 - bend), (x2, y2)


def on_curve(points, share):
    """The place on a Bezier curve at this share of it."""
    rest = 1 - share
    weights = rest**3, 3 * rest**2 * share, 3 * rest * share**2, share**3
    return tuple(sum(weight * point[axis] for weight, point in zip(weights, points)) for axis in (0, 1))


def hidden(points, boxes):
    """How much of a curve is behind boxes, or close to one."""
    count = 0
    for x, y in (on_curve(points, step / STEPS) for step in range(1, STEPS)):
        count += any(abs(x - left) < WIDTH / 2 + 4 and abs(y - up) < HEIGHT / 2 + 2 for left, up in boxes)
    return count


def line(upper, lower, at):
    """The straightest way of those that are the least hidden."""
    boxes = [middle(it) for it in at.values() if it not in (upper, lower)]
    ways = [(hidden(points, boxes), points) for points in curves(upper, lower)]
    _, way = min(ways, key=lambda it: it[0])
    first, *others = (f"{x:g} {y:g}" for x, y in way)
    return f'<path class="use" d="M{first} C{" ".join(others)}"/>'


def box(name, place, has_dot):
    x, y = middle(place)
    kind = "box aside" if name.endswith("_bench") or name in ASIDE else "box"
    corner = f'x="{x - WIDTH / 2:g}" y="{y - HEIGHT / 2:g}" width="{WIDTH}" height="{HEIGHT}" rx="5"'
    dot = f'<circle class="dot" cx="{x + WIDTH / 2 - 9:g}" cy="{y + HEIGHT / 2 - 8:g}" r="3"/>' if has_dot else ""
    return f'<rect class="{kind}" {corner}/><text class="name" x="{x:g}" y="{y + 4.5:g}">{name}</text>{dot}'


def wing(title, color, left, right, low, high):
    (x1, y1), (x2, y2) = middle((left, high)), middle((right, low))
    x1, y1, x2, y2 = x1 - WIDTH / 2 - PAD / 2, y1 - HEIGHT / 2 - 24, x2 + WIDTH / 2 + PAD / 2, y2 + HEIGHT / 2 + PAD
    area = f'<rect x="{x1:g}" y="{y1:g}" width="{x2 - x1:g}" height="{y2 - y1:g}" rx="8" fill="{color}"/>'
    return f'{area}<text class="wing" x="{x1 + PAD:g}" y="{y1 + 17:g}">{title}</text>'


def drawing(uses, at):
    columns = 1 + max(column for column, _ in at.values())
    width, height = LEFT + COLUMN * columns + MARGIN, HEAD + FLOOR * len(FLOORS)
    box_of_page = f'width="{width}" height="{height}" viewBox="0 0 {width} {height}"'
    parts = [f'<svg xmlns="http://www.w3.org/2000/svg" {box_of_page}>', "<title>The crates</title>",
             f"<style>{STYLE}</style>", '<rect class="page" width="100%" height="100%"/>']
    parts += [wing(*it) for it in WINGS]
    for floor, name in enumerate(FLOORS):
        parts.append(f'<text class="floor" x="{LEFT - 2 * PAD}" y="{middle((0, floor))[1] + 4:g}">{name}</text>')
    for at_row, text in enumerate(LEGEND):
        parts.append(f'<text class="legend" x="{LEFT}" y="{HEAD + 18 * at_row}">{text}</text>')
    below = {name: direct(uses, name) for name in uses}
    parts += [line(at[name], at[it], at) for name in uses for it in below[name] if not is_dotted(name, it, at)]
    parts += [box(name, at[name], any(is_dotted(name, it, at) for it in below[name])) for name in uses]
    return "\n".join([*parts, "</svg>", ""])


def main():
    parser = argparse.ArgumentParser(prog="tools/crates.py", description=__doc__,
                                     formatter_class=argparse.RawDescriptionHelpFormatter)
    parser.add_argument("--check", action="store_true", help="compare docs/crates.svg, and write nothing")
    is_check = parser.parse_args().check
    uses, at = crates(), places()
    check(uses, at)
    if not is_check:
        DRAWING.write_text(drawing(uses, at))
    elif not DRAWING.exists() or DRAWING.read_text() != drawing(uses, at):
        raise Fault("docs/crates.svg isn't the drawing of crates.txt: tools/crates.py makes it")


try:
    main()
except Fault as fault:
    sys.exit(str(fault))

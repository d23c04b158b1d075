# The picture that docs/draw makes: where things stand, and the SVG elements that show them.
import math
from html import escape

JOINED = {"convert": "to", "wrap": "in", "unwrap": "from"}
COLOURS = ["#1d5fa8", "#b4560a", "#2a7a4b", "#7a4aa5", "#b02f49", "#0e7580", "#75502c", "#4c5a72"]
ARROWS = "→↗↑↖←↙↓↘"

# A depot's circle, a header box's height, from frame to frame, from one line of depots to the next.
RADIUS, BOX, FRAME, STOREY = 34, 22, 28, 190

STYLE = """
svg { font-family: sans-serif; font-size: 13px; } text { fill: #1f2733; text-anchor: middle; }
.head { font-size: 21px; font-weight: bold; } .small { font-size: 11px; fill: #55606f; } .bold { font-weight: bold; }
.cost { font-size: 14px; fill: #39424f; } .halo { paint-order: stroke; stroke: #ffffff; stroke-width: 4px; }
.light { font-weight: bold; fill: #ffffff; } .row { font-family: monospace; }
.link { fill: none; stroke: #a3acb8; stroke-width: 2; } .hop { stroke: #1f2733; stroke-width: 3; }
.depot { fill: #ffffff; stroke: #1f2733; stroke-width: 2.5; } .other { stroke: #a3acb8; }
.can { fill: #f1f3f6; stroke: #ccd2da; } .used { fill: #fff3c4; stroke: #8a6d00; stroke-width: 1.5; }
"""


def tunnels_of(hops):
    """Each tunnel as its level (how many headers lie below the one that makes it) and its first and last hop."""
    tunnels = []
    for level in range(1, max((len(hop.stack) for hop in hops), default=1)):
        inside = [i for i, hop in enumerate(hops) if len(hop.stack) > level]
        firsts = [i for i in inside if i - 1 not in inside]
        lasts = [i for i in inside if i + 1 not in inside]
        tunnels.extend((level, first, last) for first, last in zip(firsts, lasts))
    return tunnels


def tag(name, inner="", **words):
    """One element; a hyphen in a word's name is written as an underscore."""
    listed = "".join(f' {key.rstrip("_").replace("_", "-")}="{escape(str(value))}"' for key, value in words.items())
    return f"<{name}{listed}>{inner}</{name}>" if inner else f"<{name}{listed}/>"


def text(x, y, inner, class_="plain", **words):
    return tag("text", inner, x=x, y=y, class_=class_, **words)


class Picture:
    def __init__(self, network, hops, visits):
        self.network, self.hops, self.visits, self.parts, self.filled = network, hops, visits, [], []
        self.longest = max(map(len, network.protocols))
        self.spacing = 218 + 12 * self.longest
        self.tallest = max((len(hop.stack) for hop in hops), default=1)
        self.edge = max(RADIUS, self.half(self.tallest - 1))
        self.line = 110 + FRAME * max(len(self.functions_of(visit.node)) for visit in visits) + self.edge
        self.cards = self.line + self.edge + 70 + 16 * max(0, self.tallest - 2)
        self.across = max(3, len(visits) - 1)
        self.width = self.spacing * (self.across + 1) - 20
        start = (self.width - self.spacing * (len(visits) - 1)) // 2
        self.stops = [start + self.spacing * i for i in range(len(visits))]
        self.at = {}
        for visit, x in zip(visits, self.stops):
            self.at.setdefault(visit.node, (x, self.line))
        self.others = [node for node in network.nodes if node not in self.at]
        self.floor = self.cards + self.place_others()

    def half(self, level):
        """Half the height of a tunnel; one that wraps another is the wider."""
        return BOX * self.tallest // 2 + 10 * level

    def colour(self, protocol):
        return COLOURS[self.network.protocols.index(protocol) % len(COLOURS)]

    def tinted(self, protocol):
        return tag("tspan", escape(protocol), fill=self.colour(protocol), font_weight="bold")

    def functions_of(self, node):
        return [function[1:] for function in self.network.functions if function[0] == node]

    def place_others(self):
        """Depots that are not on the route, below and between those that are; answers how deep they, or links above them, reach."""
        sag = depth = max((self.sag(u, v) + 24 for u, v in self.other_links() if u in self.at and v in self.at), default=0)
        for i, node in enumerate(self.others):
            self.at[node] = self.spacing - 10 + i % self.across * self.spacing, self.cards + sag + 80 + i // self.across * STOREY
            depth = max(depth, self.at[node][1] - self.cards + RADIUS + 8 + FRAME * len(self.functions_of(node)))
        return depth

    def other_links(self):
        """The links that the packet does not take, each once."""
        taken = [{visit.node, following.node} for visit, following in zip(self.visits, self.visits[1:])]
        place = self.network.nodes.index
        return [(u, v) for u, v in self.network.links if place(u) < place(v) and {u, v} not in taken]

    def sag(self, u, v):
        """How far below the cards a link between two depots of the route hangs; further where it spans more of them."""
        return 20 + 15 * abs(self.at[u][0] - self.at[v][0]) // self.spacing

    def bend(self, u, v):
        """The control point of a link's curve: straight where nothing stands between its ends."""
        (x, y), (x2, y2) = self.at[u], self.at[v]
        if y == y2 == self.line:
            return (x + x2) // 2, y + 2 * (self.cards - self.line + self.sag(u, v))
        return (x + x2) // 2, (y + y2) // 2 - (130 if y == y2 and abs(x - x2) > self.spacing else 0)

    def add(self, *parts):
        self.parts.extend(parts)

    def card(self, x, y, wide, inner, words, **shape):
        """A line of text on a ground of its own; no cost is written there."""
        self.filled.append((x, y + 12, wide // 2, 12))
        self.add(tag("rect", x=x - wide // 2, y=y, width=wide, height=24, **shape), text(x, y + 17, inner, **words))

    def cost(self, spot, start, end, link, class_="cost"):
        """What a link costs from start to end, with an arrow that way."""
        angle = math.atan2(start[1] - end[1], end[0] - start[0])
        arrow = ARROWS[round(angle / (math.pi / 4)) % 8]
        self.add(text(*spot, f"{arrow} {link}" if arrow in "↖←↙" else f"{link} {arrow}", class_))

    def free_spot(self, start, bend, end):
        """Where beside a curve nothing is written yet, nearest to its first part."""
        angle = math.atan2(start[1] - end[1], end[0] - start[0])
        for percent in sorted(range(20, 81, 2), key=lambda percent: abs(percent - 40)):
            t = percent / 100
            x, y = ((1 - t) ** 2 * p + 2 * t * (1 - t) * b + t**2 * q for p, b, q in zip(start, bend, end))
            x, y = round(x - 20 * math.sin(angle)), round(y - 14 * math.cos(angle)) + 5
            if all(abs(x - x2) > wide + 32 or abs(y - 5 - y2) > high + 9 for x2, y2, wide, high in self.filled):
                break
        self.filled.append((x, y - 5, 32, 9))
        return x, y

    def draw_other_links(self):
        for u, v in self.other_links():
            (x, y), bend, (x2, y2) = self.at[u], self.bend(u, v), self.at[v]
            self.add(tag("path", class_="link", d=f"M{x} {y}Q{bend[0]} {bend[1]} {x2} {y2}"))

    def draw_other_costs(self):
        for u, v in self.other_links():
            for start, end in ((u, v), (v, u)):
                spot = self.free_spot(self.at[start], self.bend(u, v), self.at[end])
                self.cost(spot, self.at[start], self.at[end], self.network.links[start, end], "cost halo")

    def draw_tunnel(self, level, first, last):
        left, right, half, y = self.stops[first] + RADIUS + 10, self.stops[last + 1] - RADIUS - 10, self.half(level), self.line
        inner, outer = self.hops[first].stack[level - 1 : level + 1]
        line = {"stroke": self.colour(outer), "stroke_width": 2, "fill": self.colour(outer)}
        tube = f"M{left} {y - half}H{right}A8 {half} 0 0 1 {right} {y + half}H{left}A8 {half} 0 0 1 {left} {y - half}Z"
        self.add(tag("path", d=tube, fill_opacity=0.14, **line), tag("ellipse", cx=left, cy=y, rx=8, ry=half, fill_opacity=0.24, **line))
        words = f"tunnel: {self.tinted(inner)} in {self.tinted(outer)}"
        self.card((self.stops[first] + self.stops[first + 1]) // 2, y + self.edge - 8 + 16 * level, 110, words, {"class_": "halo"}, fill="none")

    def draw_hop(self, i):
        hop, x, x2, y = self.hops[i], self.stops[i], self.stops[i + 1], self.line
        middle, wide = (x + x2) // 2, 28 + 8 * self.longest
        self.add(tag("path", class_="link hop", d=f"M{x + RADIUS} {y}H{x2 - RADIUS - 10}", marker_end="url(#tip)"))
        self.cost((x + 71, y - 9), (x, y), (x2, y), hop.link)
        self.cost((x2 - 71, y + 19), (x2, y), (x, y), self.network.links[self.visits[i + 1].node, hop.node])
        for level, protocol in enumerate(hop.stack):
            top = y + BOX * len(hop.stack) // 2 - BOX * (level + 1)
            self.add(tag("rect", x=middle - wide // 2, y=top, width=wide, height=BOX, rx=3, fill=self.colour(protocol), stroke="#ffffff"))
            self.add(text(middle, top + 16, escape(protocol), "light"))
        self.add(text(middle, y - self.edge - 12, f"price {hop.price} + link {hop.link} = {hop.price + hop.link}"))

    def draw_functions(self, node, x, top, used=None):
        for i, (kind, a, b) in enumerate(self.functions_of(node)):
            words = f"{kind} {self.tinted(a)} {JOINED[kind]} {self.tinted(b)}, price {self.network.functions[node, kind, a, b]}"
            self.card(x, top + FRAME * i, self.spacing - 46, words, {}, rx=5, class_="can used" if (kind, a, b) == used else "can")

    def draw_depot(self, node, x, y, class_="depot"):
        self.filled.append((x, y, RADIUS, RADIUS))
        self.add(tag("circle", cx=x, cy=y, r=RADIUS, class_=class_), text(x, y - 8, "depot", "small"))
        self.add(text(x, y + 13, escape(node), "bold", font_size=min(19, 92 // len(node))))

    def draw_visit(self, visit, x):
        top = self.line - self.edge - 32 - FRAME * len(self.functions_of(visit.node))
        self.add(tag("path", class_="link", d=f"M{x} {top + 4}V{self.line}"))
        self.draw_depot(visit.node, x, self.line)
        self.draw_functions(visit.node, x, top, visit.used)
        spent = f"spent {visit.spent}" + ("" if visit.used else ", delivered")
        self.card(x, self.line + self.edge + 8, 24 + 7 * len(spent), spent, {"class_": "light"}, rx=12, fill="#1f2733")
        size = min(13, (self.spacing - 30) * 8 // 5 // len(visit.words))
        wide = 20 + size * len(visit.words) * 5 // 8
        self.card(x, self.cards - 30, wide, escape(visit.words), {"class_": "row", "font_size": size}, class_="can")

    def draw(self):
        self.draw_other_links()
        for level, first, last in reversed(tunnels_of(self.hops)):
            self.draw_tunnel(level, first, last)
        for i in range(len(self.hops)):
            self.draw_hop(i)
        for visit, x in zip(self.visits, self.stops):
            self.draw_visit(visit, x)
        for node in self.others:
            x, y = self.at[node]
            self.draw_depot(node, x, y, "depot other")
            self.draw_functions(node, x, y + RADIUS + 8)
        self.draw_other_costs()

    def draw_legend(self):
        for i, words in enumerate((
            "Boxes: the packet's headers on that link, the bottom one below. A number with an arrow: what the link costs that way.",
            "Frames above: what the depot can do, at which price; in yellow what it does to this packet.",
            "Below: the depot's row, as printed: depot, destination, stack, cost, next depot, function.",
        )):
            self.add(text(self.width // 2, self.floor + 24 + 18 * i, words, "small"))

    def whole(self, title, desc):
        """The picture as one file: on its own background, with a title and a description for those who do not see it."""
        self.draw()
        self.draw_legend()
        width, height, tip = self.width, self.floor + 76, tag("path", d="M0 0L10 5L0 10Z", fill="#1f2733")
        marker = tag("marker", tip, id="tip", viewBox="0 0 10 10", refX=1, refY=5, markerWidth=4, markerHeight=4, orient="auto")
        start = [tag("title", escape(title), id="title"), tag("desc", escape(desc), id="desc"), tag("style", STYLE), tag("defs", marker),
                 tag("rect", x=1, y=1, width=width - 2, height=height - 2, rx=10, fill="#ffffff", stroke="#ccd2da", stroke_width=2),
                 text(width // 2, 42, escape(title), "head")]
        return tag("svg", "\n".join(["", *start, *self.parts, ""]), xmlns="http://www.w3.org/2000/svg", width=width, height=height,
                   viewBox=f"0 0 {width} {height}", role="img", aria_labelledby="title desc")

"""A session as a picture, in SVG."""
from collections import Counter
from html import escape
from typing import List, NamedTuple, Sequence, Tuple

from .lanes import Lane, Span, lanes_of
from .layout import Row, Run, clustered, counted, listed, merged, rate_text, rates, row_above, row_for, tick_text, ticks
from .lines import told
from .session import Event, Session
from .svg import BAR, BLACK, GREY, GROUP_COLOURS, SHADE, STYLE, Canvas, colour_of, element
from .words import cause, clock, cut, ems, field, labels_of

LEFT, RIGHT = 214, 30
# Above so many marks in all, rows of more than a few in which they would lie over each other show their rate.
MANY_MARKS, FEW, STRIP = 1000, 12, 16
# A picture that is higher has an overview.
LONG = 1500
LEGEND = (
    ("bar", "there, from ENTER to EXIT"),
    ("group", "in a group"),
    ("WHISPER", "WHISPER"),
    ("SHOUT", "SHOUT"),
    ("several", "so many at one time"),
    ("EVASIVE", "EVASIVE"),
    ("REFUSED", "REFUSED"),
    ("end", "EXIT, with its cause"),
)
RATE = ("strip", "how many at a time; the number beside it is its height")


class Cause(NamedTuple):
    """Where the cause of an EXIT stands: its row above the bar, from 1, or 0 beside its end; the place of that end;
    where the text begins; and the text."""

    row: int
    end: float
    left: float
    text: str


class Picture(Canvas):
    """The picture of a session, as it grows downwards."""

    def __init__(self, session: Session, title: str, width: int) -> None:
        super().__init__(width)
        self.session, self.title = session, title
        self.own, self.lanes = lanes_of(session)
        self.labels = labels_of([*session.ids, *filter(None, [session.identity])])
        groups = Counter(group for lane in [self.own, *self.lanes] for group in lane.groups)
        self.colours = {
            group: GROUP_COLOURS[at % len(GROUP_COLOURS)] for at, (group, _) in enumerate(groups.most_common())
        }
        marks = sum(len(events) for lane in [self.own, *self.lanes] for events in lane.marks.values())
        self.is_dense = marks > MANY_MARKS
        # what tells the height of a strip stands left of it
        self.left = LEFT + 46 * self.is_dense
        self.room = width - self.left - RIGHT

    def x(self, time: float) -> float:
        """The place of a time; those outside are at the edge."""
        begin, end = self.session.begin, self.session.end
        return self.left + self.room * min(1.0, max(0.0, (time - begin) / max(1, end - begin)))

    def places(self, span: Span) -> Tuple[float, float]:
        """From where to where a span goes."""
        return (self.x(span.begin.time if span.begin else 0), self.x(span.end.time if span.end else self.session.end))

    # --- the head ---

    def heading(self) -> None:
        """The title and the legend."""
        session = self.session
        peers = "1 peer" if len(self.lanes) == 1 else f"{len(self.lanes):,} peers"
        about = f": {peers}, {session.entries:,} entries over {clock(session.length)}"
        self.text(10, 22, cut(self.title, (self.width - 20) / 16 - ems(about)) + about, "head")
        x, self.y = 10.0, 42.0
        part = [session.part] if session.part else []
        if (session.begin, session.end) != (0, session.length):
            part.append(f"from {clock(session.begin)} to {clock(session.end)}")
        if part:
            self.text(10, 40, cut("Only " + ", ".join(part), (self.width - 20) / 11), "name")
            self.y = 58
        for kind, words in [*LEGEND, *[RATE] * self.is_dense]:
            reach = 26 + 11 * ems(words) + 14
            if x + reach > self.width:
                x, self.y = 10.0, self.y + 18
            self.sample(kind, x, self.y)
            self.text(x + 26, self.y, words, "plain")
            x += reach
        self.y += 12

    def sample(self, kind: str, x: float, y: float) -> None:
        """One of what the legend explains."""
        if kind == "bar":
            self.bar(x, y - 9, 20, 10, BAR)
        elif kind == "group":
            self.bar(x, y - 5, 20, 3, GROUP_COLOURS[0])
        elif kind == "end":
            self.bar(x, y - 9, 12, 10, BAR)
            self.bar(x + 12, y - 11, 2.5, 14, BLACK)
        elif kind == "strip":
            self.strip((x, y, 20, 10), 4, [1, 3, 2, 0, 4], colour_of("SHOUT"), "")
        else:
            self.mark("SHOUT" if kind == "several" else kind, x + 12, y - 4, 12 if kind == "several" else 1, "")

    def axis(self, y: float) -> None:
        """The times under or over the lanes."""
        begin, end = self.session.begin, self.session.end
        for time in ticks(begin, end, self.room):
            self.text(self.x(time), y, tick_text(time, begin, end), "middle")

    def overview(self) -> None:
        """All lanes at once: the rate of all messages, and a thin bar for each time that a peer was there."""
        top = self.y
        self.text(10, top + 14, "overview", "name")
        self.text(10, top + 26, "all messages, and all peers", "small")
        sent = sorted(
            (
                event
                for lane in [self.own, *self.lanes]
                for kind in ("WHISPER", "SHOUT")
                for event in lane.marks.get(kind, [])
            ),
            key=lambda event: event.time,
        )
        if sent:
            self.rate("WHISPER and SHOUT", sent, self.y + 2, 24, GREY)
            self.y += 28
        thin = 4 if len(self.lanes) <= 64 else 2
        for number, lane in enumerate(self.lanes):
            for run in merged(self.places(stay) for stay in lane.stays):
                stays = [event for stay in lane.stays[run.first : run.last] for event in stay.events()]
                self.bar(
                    run.begin,
                    self.y + thin * number,
                    max(1, run.end - run.begin),
                    thin - 0.7,
                    SHADE,
                    f"{lane.name} {lane.peer}\n{listed(stays)}",
                )
        self.y = max(self.y + thin * len(self.lanes), top + 30) + 8

    # --- what a lane has ---

    def causes(self, lane: Lane, runs: Sequence[Run]) -> List[Cause]:
        """Where the causes of EXIT stand, for those that have room; the others are in the tooltips alone."""
        taken, found = [0.0] * 4, []
        for at, run in enumerate(runs):
            gone = Counter(
                cause(stay.end.fields[2:])
                for stay in lane.stays[run.first : run.last]
                if stay.end and stay.end.kind == "EXIT"
            )
            text = counted(gone)
            left = self.beside(run.end, 9.5 * ems(text))
            limit = runs[at + 1].begin - 6 if at + 1 < len(runs) else self.width - 6
            is_beside = run.end + 6 + 9.5 * ems(text) <= limit
            left = run.end + 6 if is_beside else left
            row = 0 if is_beside else row_above(taken, left, run.end)
            if not gone or row is None:
                continue
            if row:
                taken[1:row] = [run.end] * (row - 1)
                taken[row] = max(run.end, left + 9.5 * ems(text))
            found.append(Cause(row, run.end, left, text))
        return found

    def beside(self, end: float, wide: float) -> float:
        """Where text in a row above a bar begins: it ends with the bar, or begins there if the left has no room."""
        return end - 3 - wide if end - 3 - wide >= self.left else max(self.left, min(end + 4, self.width - 6 - wide))

    def draw_causes(self, causes: Sequence[Cause], y: float, height: float) -> None:
        """The causes of a bar that begins there and is so high."""
        for row, end, left, text in causes:
            if row == 0:
                self.text(left, y + height / 2 + 3.5, text, "cause")
                continue
            self.bar(end, y - 11 * row - 1, 0.8, 11 * row, BLACK)
            if left < end:
                self.text(end - 3, y - 11 * row + 8, text, "cause end")
            else:
                self.text(left, y - 11 * row + 8, text, "cause")

    def stays(self, lane: Lane, runs: Sequence[Run], y: float, height: float) -> None:
        """A bar for each time that the owner was there, and its end, which the next bar doesn't cover."""
        ends = []
        for run in runs:
            events = [event for stay in lane.stays[run.first : run.last] for event in stay.events()]
            self.bar(
                run.begin,
                y,
                max(2, run.end - run.begin),
                height,
                BAR,
                f"{lane.name} {lane.peer}\n{listed(events)}".strip(),
            )
            if lane.stays[run.last - 1].end:
                place = max(run.end, run.begin + 2) - 1
                ends.append(
                    element(
                        "rect",
                        "",
                        listed(events[-1:]),
                        x=float(place),
                        y=float(y - 2),
                        width=2.5,
                        height=float(height + 4),
                        fill=BLACK,
                    )
                )
        self.parts += ends

    def rows(self, lane: Lane) -> List[Tuple[str, List[Run], int]]:
        """For each kind of what the owner sent its runs, none where its rate is shown, and the height of its row."""
        found = []
        for kind in lane.sent():
            runs = self.runs(lane.marks[kind])
            found.append((kind, runs, 11 if runs else STRIP))
        return found

    def runs(self, events: Sequence[Event]) -> List[Run]:
        """Marks in a row, none where the row is to show their rate."""
        runs = clustered([self.x(event.time) for event in events])
        return [] if self.is_dense and len(events) > FEW and len(runs) < len(events) else runs

    def marks(self, kind: str, events: Sequence[Event], runs: Sequence[Run], top: float, height: float) -> None:
        """Marks, or their rate, in a row that begins there and is so high."""
        for run in runs:
            self.mark(kind, run.middle(), top + height / 2, run.last - run.first, listed(events[run.first : run.last]))
        if not runs:
            self.rate(kind, events, top + 1, height - 1, colour_of(kind))

    def rate(self, kind: str, events: Sequence[Event], top: float, height: float, fill: str) -> None:
        """The rate of events, with what its height means beside it."""
        width, counts = rates([self.x(event.time) - self.left for event in events], self.room)
        bin_time = (self.session.end - self.session.begin) * width / self.room
        most = max(counts)
        scale = rate_text(most, bin_time)
        at = round(self.session.begin + bin_time * counts.index(most))
        self.strip(
            (self.left, top + height, self.room, height - 2),
            width,
            counts,
            fill,
            f"{len(events):,} {kind}, at most {scale} ({most:,} from {clock(at)} on, in "
            f"{clock(round(bin_time))}); --from and --to show them one by one",
        )
        self.text(self.left - 5, top + 8, scale, "small end")

    def times_in_groups(self, lane: Lane) -> List[Tuple[float, float, str, List[Event]]]:
        """Each time that the owner was in a group: from where to where, the group, and the events; by their begin."""
        found = []
        for group, spans in lane.groups.items():
            for run in merged(self.places(span) for span in spans):
                events = [event for span in spans[run.first : run.last] for event in span.events()]
                found.append((run.begin, run.end, group, events))
        return sorted(found, key=lambda time: time[0])

    def groups(self, lane: Lane, y: float) -> float:
        """The bars of groups in as few rows as their names have room in; the answer is where they end."""
        rows: List[Row] = []
        others = []
        for begin, end, group, events in self.times_in_groups(lane):
            name = field(group, 60) or "(the group without a name)"
            wide = 9 * ems(name)
            left = max(self.left, min(begin, self.width - 6 - wide))
            row = row_for(rows, group, begin, left)
            if row is None:
                others.append((begin, end, group, events))
                continue
            at = y + 13 * row.number
            self.bar(begin, at + 9, max(2, end - begin), 3, self.colours[group], f"{name}\n{listed(events)}")
            if row.named + 6 <= left:
                self.text(left, at + 7, cut(name, (self.width - 6 - left) / 9), "small")
                row.named = left + wide
            row.group, row.taken = group, max(end, begin + 2)
        return self.further_groups(others, y + 13 * len(rows))

    def further_groups(self, others: Sequence[Tuple[float, float, str, List[Event]]], y: float) -> float:
        """What no row of its own is left for."""
        if not others:
            return y
        self.text(others[0][0], y + 7, f"{len({group for _, _, group, _ in others}):,} further groups", "small")
        for run in merged((begin, end) for begin, end, _, _ in others):
            events = [event for *_, told_of in others[run.first : run.last] for event in told_of]
            self.bar(run.begin, y + 9, max(2, run.end - run.begin), 3, GREY, listed(events))
        return y + 13

    # --- lanes ---

    def lane(self, lane: Lane, name: str, is_striped: bool) -> None:
        """What is known of one peer, or of the node."""
        top, rows = self.y, self.rows(lane)
        runs = merged(self.places(stay) for stay in lane.stays)
        causes, height = self.causes(lane, runs), max(10, sum(high for *_, high in rows))
        y = top + 6 + 11 * max([row for row, *_ in causes], default=0)
        self.label(lane, name, max(top + 15, y + 8))
        self.stays(lane, runs, y, height)
        at = y + (height - sum(high for *_, high in rows)) / 2
        for kind, mark_runs, high in rows:
            self.marks(kind, lane.marks[kind], mark_runs, at, high)
            at += high
        self.draw_causes(causes, y, height)
        self.y = max(self.y + 5, self.groups(lane, y + height + 2) + 5)
        if lane is self.own:
            self.happenings(lane)
        self.stripe(top, is_striped)

    def label(self, lane: Lane, name: str, y: float) -> None:
        """Who a lane is of."""
        came, sent = lane.counts()
        self.text(10, y, cut(name, (LEFT - 20) / 12.5), "name")
        digits = self.labels.get(lane.peer, "")
        if ems(digits + came) > (LEFT - 16) / 9:
            # digits are never cut: they tell the peers apart
            came, sent = "", f"{came[3:]} · {sent}".rstrip(" ·")
        self.text(10, y + 12, digits + came, "small")
        self.text(10, y + (23 if digits else 12), cut(sent, (LEFT - 16) / 9), "small")
        self.y = y + 4 + 11 * (bool(digits) + bool(sent))

    def happenings(self, lane: Lane) -> None:
        """What else is told of the node itself: connections, commands that weren't done, and its stop."""
        kinds = set(lane.marks) - set(lane.sent())
        for kind in sorted(kinds, key=lambda kind: (kind == "STOP", kind)):
            events = lane.marks[kind]
            runs = self.runs(events)
            self.text(LEFT - 10, self.y + 11, f"{len(events):,} {kind}" if len(events) > 1 else kind, "small end")
            self.marks(kind, events, runs, self.y + (2 if runs else 0), 11 if runs else STRIP)
            self.reasons(events, runs, self.y + 11)
            self.y += 15 if runs else STRIP + 2
        self.y += 6 if kinds else 0

    def reasons(self, events: Sequence[Event], runs: Sequence[Run], y: float) -> None:
        """Why, beside the marks, where there is room."""
        for at, run in enumerate(runs):
            left = run.middle() + run.half() + 4
            room = (runs[at + 1].middle() - runs[at + 1].half() if at + 1 < len(runs) else self.width) - left - 4
            text = counted(Counter(reason(event) for event in events[run.first : run.last]))
            if text and room > 40:
                self.text(left, y, cut(text, room / 9), "small")

    def body(self, has_overview: bool) -> float:
        """Everything below the head; the answer is where the lanes begin."""
        if has_overview:
            self.overview()
        self.y += 16
        self.axis(self.y)
        self.y += 6
        begin = self.y
        name = f"this node, {self.session.name}" if self.session.name else "this node"
        self.lane(self.own, name, False)
        for number, lane in enumerate(self.lanes, 1):
            if number % 15 == 0:
                self.axis(self.y + 13)
                self.y += 19
            self.lane(lane, lane.name or "(no name)", number % 2 == 1)
        return begin

    def svg(self) -> str:
        """The whole picture."""
        self.heading()
        top, ground = self.y, len(self.parts)
        begin = self.body(False)
        if self.y > LONG:
            self.y, self.stripes = top, []
            del self.parts[ground:]
            begin = self.body(True)
        lines = [(self.x(time), "grid") for time in ticks(self.session.begin, self.session.end, self.room)]
        lines += [(self.x(event.time), "stop") for event in self.own.marks.get("STOP", [])]
        ruled = [element("path", d=f"M{x:.1f} {begin:.1f}V{self.y:.1f}", class_=kind) for x, kind in lines]
        self.axis(self.y + 15)
        height = round(self.y + 26)
        head = [
            element("title", escape(self.title)),
            element("style", STYLE),
            element("rect", width="100%", height="100%", fill="#fff"),
        ]
        body = "\n".join(head + self.parts[:ground] + self.stripes + ruled + self.parts[ground:])
        return (
            element(
                "svg",
                f"\n{body}\n",
                xmlns="http://www.w3.org/2000/svg",
                width=self.width,
                height=height,
                viewBox=f"0 0 {self.width} {height}",
            )
            + "\n"
        )


def reason(event: Event) -> str:
    """Why something was told of the node itself; before a refusal the command."""
    text = told(event, 60)
    if event.kind in ("CLOSED", "IGNORED"):
        return text[len("connection ") :]
    return f"{event.asked}: {text}" if event.asked else text

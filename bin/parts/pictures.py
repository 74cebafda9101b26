"""No command: a run (parts/story.py) as a picture, an SVG whose time goes to the right, a column a turn, and as columns of
text, a line a turn. Pages stand below one another."""
from story import CUT

# How many turns a page has, and the fewest that it is made wide enough for; the width of a turn's column, and of the names of
# the lanes.
PAGE, LEAST, PITCH, LEFT = 60, 12, 24, 84
# The heights of a line of text and of a bar, and the width of a letter.
LINE, BAR, LETTER = 14, 18, 7
STYLE = """<style>.p{fill:#fff}text{font:11px monospace;fill:#222}.h{font-weight:bold}.m{fill:#777}\
.n{font-size:9px;fill:#777;text-anchor:middle}.e{font-size:9px;font-weight:bold;fill:#fff;text-anchor:middle}.r{fill:#b00020}\
.z{stroke:#b00020;stroke-width:2}.b{fill:#dfe9f7}.o{fill:none;stroke:#4a6fa5}.k{stroke:#4a6fa5;stroke-width:2}\
.s{stroke:#4a6fa5;stroke-dasharray:2 2}.w{fill:none;stroke:#d07c00;stroke-width:2}.d{fill:#a8431f}.g{stroke:#ddd}.l{stroke:#bbb}
@media(prefers-color-scheme:dark){.p{fill:#181a1f}text{fill:#ddd}.m,.n{fill:#999}.e{fill:#fff}.r{fill:#ff7a85}\
.z{stroke:#ff7a85}.b{fill:#27364d}.o,.k,.s{stroke:#86a9dc}.w{stroke:#f0a030}.g{stroke:#363a42}.l{stroke:#555b66}}</style>
"""
LEGEND = [
    "bar: a call, open at the right where it has not ended; tick: a step on one word;",
    "hook: a step that goes back; dashed tick: a turn without a step, as a decision;",
    "numbered dot on a grey line: its call acts or changes something; words below: what else happens;",
    "x: a refused turn, with why; ?: its owner is not sure yet; ..: how many more there are",
]
TEXT_LEGEND = """
+ begins a call; | is a step on one word; < a step that goes back; ' a turn without a step; = ends the call;
x is refused, with why; : stands while others have turns; * numbers what acts or changes something; ? is not sure yet;
.. says how many more there are
"""


def text_at(kind, x, y, text):
    return f'<text class="{kind}" x="{x}" y="{y}">{text}</text>\n'


def line_at(kind, x, y, to_x, to_y):
    return f'<line class="{kind}" x1="{x}" y1="{y}" x2="{to_x}" y2="{to_y}"/>\n'


class Labels:
    """Labels that stand beside one another where there is room, and else a line further out."""

    def __init__(self, right):
        self.right, self.labels, self.ends = right, [], []

    def height(self):
        return len(self.ends) * LINE

    # Puts a label at the highest level on which it fits beside the labels before it.
    def add(self, x, text, kind):
        width = len(text) * LETTER + LETTER
        start = min(x, max(self.right - width, 0))
        level = next((at for at, end in enumerate(self.ends) if end <= start), len(self.ends))
        self.ends[level : level + 1] = [start + width]
        self.labels.append((x, start, level, kind, text))

    def above(self, y):
        """Draws them above this height, each with a line down to it."""
        drawn = ""
        for x, start, level, kind, text in self.labels:
            at = y - level * LINE - 4
            drawn += (line_at("l", x, at - 8, x, y) if level else "") + text_at(kind, start + 3, at, text)
        return drawn

    # Draws all labels below this height, each with a line up to the turn that it is of.
    def below(self, y):
        drawn = ""
        for x, start, level, kind, text in self.labels:
            at = y + level * LINE + LINE - 2
            drawn += line_at("l", x, y, x, at) + text_at(kind, start + 3, at, text)
        return drawn


class Page:
    """The turns of a story from one to before another, of a page that ends at the right."""

    def __init__(self, story, first, end, right):
        self.story, self.first, self.end, self.right = story, first, end, right

    def has(self, turn):
        return turn is not None and self.first <= turn < self.end

    def x(self, turn):
        """The middle of a turn's column."""
        return max(turn - self.first, 0) * PITCH + LEFT + PITCH // 2

    def bars(self, lane):
        """The calls of a lane, with where the bar of each begins and ends."""
        for call in self.story.calls:
            if call.lane == lane and call.begin < self.end and (call.end is None or call.end >= self.first):
                left = self.x(call.begin) - 8 if self.has(call.begin) else LEFT
                right = self.x(call.end) + 8 if self.has(call.end) else self.x(max(self.end - 1, 0)) + PITCH // 2
                yield call, left, right

    # Draws the bar of a call. It is open on a side that lies on another page.
    def bar(self, call, left, right, top):
        low = top + BAR
        drawn = f'<rect class="b" x="{left}" y="{top}" width="{max(right - left, 0)}" height="{BAR}"/>\n'
        drawn += line_at("o", left, top, right, top) + line_at("o", left, low, right, low)
        drawn += line_at("k", left, top, left, low) if self.has(call.begin) else ""
        return drawn + (line_at("k", right, top, right, low) if self.has(call.end) else "")

    def turn(self, did, refused, x, top):
        """What a turn was, in the middle of its column."""
        middle, low = top + BAR // 2, top + BAR
        if refused:
            return line_at("z", x - 5, middle - 5, x + 5, middle + 5) + line_at("z", x - 5, middle + 5, x + 5, middle - 5)
        if did == "back":
            return f'<path class="w" d="M{x + 5} {middle - 5}L{x - 5} {middle}L{x + 5} {middle + 5}"/>\n'
        kind = {"step": "k", "nothing": "s", "said": "s"}.get(did)
        return line_at(kind, x, top, x, low) if kind else ""

    # Draws the numbered dots of a lane, one for each turn in which something acts.
    def acts(self, lane, y):
        drawn, last = "", None
        for own, turn, number, _ in self.story.acts:
            if own == lane and self.has(turn) and turn != last:
                last, x = turn, self.x(turn)
                drawn += f'<circle class="d" cx="{x}" cy="{y}" r="8"/><text class="e" x="{x}" y="{y + 3}">{number}</text>\n'
        return drawn

    def lane(self, lane, name, y):
        """A lane from here on, and where it ends."""
        names, marks = Labels(self.right), Labels(self.right)
        for call, left, _ in self.bars(lane):
            names.add(left, call.text, "")
        for own, turn, text, refused in self.story.marks:
            if own == lane and self.has(turn):
                marks.add(self.x(turn), text, "r" if refused else "")
        top = y + names.height() + 4
        drawn = text_at("h", 8, top + 13, name) + line_at("g", LEFT, top + BAR // 2, self.right, top + BAR // 2)
        drawn += names.above(top) + marks.below(top + BAR)
        drawn += "".join(self.bar(*it, top) for it in self.bars(lane))
        for turn, (own, did, refused) in enumerate(self.story.turns):
            if own == lane and self.has(turn):
                drawn += self.turn(did, refused, self.x(turn), top)
        return drawn + self.acts(lane, top + BAR // 2), top + BAR + marks.height() + 12

    def contents(self):
        """The contents, as they are when the page begins and after each change."""
        labels = Labels(self.right)
        before = [text for turn, text in self.story.contents if turn < self.first]
        labels.add(LEFT, [self.story.opening, *before][-1], "m")
        for turn, text in self.story.contents:
            if self.has(turn):
                labels.add(self.x(turn), text, "")
        return labels

    def list(self, y):
        """The acts in their order, and where the list ends."""
        drawn = text_at("h", self.right + 24, y, self.story.order)
        for act in self.story.acts:
            if self.has(act[1]):
                y += LINE + 2
                drawn += text_at("", self.right + 24, y, self.story.told(act))
        return drawn, y

    def draw(self, y):
        """The page from here on, and where it ends."""
        head = y + 10
        drawn = text_at("m", 8, head, "turn")
        for turn in range(self.first, self.end):
            drawn += f'<text class="n" x="{self.x(turn)}" y="{head}">{turn + 1}</text>\n'
        lanes, low = "", head + 8
        for lane, name in enumerate(self.story.lanes):
            one, low = self.lane(lane, name, low)
            lanes += one
        for turn, _ in self.story.contents:  # (light lines through all lanes where something acts)
            if self.has(turn):
                drawn += line_at("g", self.x(turn), head + 4, self.x(turn), low)
        contents = self.contents()
        listed, end = self.list(head)
        drawn += lanes + text_at("h", 8, low + LINE - 2, "contents") + contents.below(low) + listed
        return drawn, max(low + contents.height(), end) + 24


def svg(story):
    """The run as a picture."""
    count = len(story.turns)
    texts = [it.text for it in story.calls] + [it[2] for it in story.marks] + [it[1] for it in story.contents]
    letters = (max(map(len, texts), default=0) + 1) * LETTER
    right = max(min(max(count, LEAST), PAGE) * PITCH, letters) + LEFT + 8
    body, y = text_at("h", 8, 18, story.title), 30
    for first in range(0, max(count, 1), PAGE):
        drawn, y = Page(story, first, min(count, first + PAGE), right).draw(y)
        body += drawn
    for kind, said in [*[("r", CUT)] * story.is_cut, *(("m", it) for it in LEGEND)]:
        body += text_at(kind, 8, y, said)
        y += LINE
    listed = max(len(it) for it in [story.order, *map(story.told, story.acts)]) * LETTER + 32
    wide = max(right + listed, *(len(it) * LETTER + 16 for it in [story.title, *LEGEND]))
    head = f'<svg xmlns="http://www.w3.org/2000/svg" width="{wide}" height="{y}" viewBox="0 0 {wide} {y}">\n'
    head += f"<title>{story.title}</title>\n{STYLE}"
    return f'{head}<rect class="p" width="100%" height="100%"/>\n{body}</svg>\n'


def cells(story):
    """What each lane shows at each turn: what its party did, the answer with which its call ends, and the numbers of acts."""
    rows = [[""] * len(story.lanes) for _ in story.turns]
    goes_on = [[False] * len(story.lanes) for _ in story.turns]
    for call in story.calls:
        name, _, answer = call.text.partition(" -> ")
        last = len(rows) - 1 if call.end is None else call.end
        for turn in range(call.begin, last + 1):
            ends = turn == call.end
            rows[turn][call.lane] += f"+ {name}" if turn == call.begin else f"= {answer}" if ends else ""
            goes_on[turn][call.lane] = not ends
    for turn, (own, did, refused) in enumerate(story.turns):
        for lane, said in enumerate(rows[turn]):
            if lane != own:
                rows[turn][lane] += ":" if goes_on[turn][lane] else ""
            elif refused:
                rows[turn][lane] += "x"
            elif not said:
                rows[turn][lane] = {"back": "<", "step": "|"}.get(did, "'")
    for lane, turn, text, _ in story.marks:
        rows[turn][lane] += f" {text}"
    for lane, turn, number, _ in story.acts:
        rows[turn][lane] += f" *{number}"
    return rows


def columns(story):
    """The run as a text."""
    rows, contents = cells(story), dict(story.contents)
    widths = [max(map(len, [name, *(row[lane] for row in rows)])) + 2 for lane, name in enumerate(story.lanes)]
    text = f"{story.title}\n"
    for turn, row in enumerate(rows):
        if turn % PAGE == 0:
            names = "".join(name.ljust(width) for name, width in zip(story.lanes, widths))
            text += f"\nturn  {names}contents, at first {story.opening}\n"
        line = "".join(cell.ljust(width) for cell, width in zip(row, widths))
        text += f"{turn + 1:4}  {line}{contents.get(turn, '')}".rstrip() + "\n"
    text += f"{CUT}\n" if story.is_cut else ""
    return text + "\n".join(["", f"{story.order}:", *map(story.told, story.acts), ""]) + TEXT_LEGEND

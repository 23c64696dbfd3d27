"""A picture in SVG that Graphviz draws, in light and in dark colours, with its title and its meaning in words.

What is drawn names a class for its look. The last line of a picture is a digest of its graph and of the lines above, so that one that is
out of date is found without Graphviz, whose versions and fonts draw the same graph a little differently.
"""

import hashlib
import re
import subprocess
from html import escape

# what every graph begins with: the font by which Graphviz measures, and no ground of its own
PLAIN = ['graph [fontname=Helvetica,fontsize=12,bgcolor=transparent]', 'node [fontname=Helvetica,fontsize=12]', 'edge [fontname=Helvetica,fontsize=12]']
# the looks, which are the classes of what is drawn, in light and in dark colours
STYLE = """
svg{--ground:#fff;--text:#1c2126;--soft:#59626d;--line:#7d8793;--grid:#dde1e6;--plain:#f5f6f8;--rules:#e2f1e4;--rule:#4b8a55;
--tables:#e3ecf9;--table:#4a76b5;--final:#fdf1dc;--end:#b3822b;--up:#2f7d3c;--down:#c0532b;background:var(--ground)}
@media (prefers-color-scheme:dark){svg{--ground:#14181d;--text:#e7eaee;--soft:#a3adb8;--line:#7d8793;--grid:#2c333c;--plain:#20262e;
--rules:#1c3222;--rule:#5fa36a;--tables:#1b2b42;--table:#6b97d6;--final:#3a2f1a;--end:#c99a45;--up:#67b874;--down:#e58a5f}}
text{fill:var(--text);font:12px Helvetica,Arial,sans-serif}
path,polygon,ellipse,polyline{fill:none;stroke:var(--line)}.edge polygon{fill:var(--line)}
.soft text{fill:var(--soft)}.bold text{font-weight:bold}
.plain path,.plain polygon{fill:var(--plain)}
.rules path,.rules polygon{fill:var(--rules);stroke:var(--rule)}
.tables path,.tables polygon{fill:var(--tables);stroke:var(--table)}
.final path,.final polygon{fill:var(--final);stroke:var(--end)}
.dot ellipse{fill:var(--text);stroke:none}.turned ellipse{fill:var(--down);stroke:none}.saved polygon{fill:var(--table);stroke:none}
.grid path{stroke:var(--grid)}.level path{stroke:var(--table);stroke-dasharray:2 4}
.up path{stroke:var(--up);stroke-width:2.5}.down path{stroke:var(--down);stroke-width:2.5}.stay path{stroke-width:2.5}
.turn path{stroke:var(--down);stroke-dasharray:4 3}.turn polygon{fill:var(--down);stroke:none}
"""


class Bad(Exception):
    """What is wrong with what is to be drawn."""


def quoted(text):
    """A text as DOT has it; one in <> is read as HTML is."""
    return text if text.startswith("<") else '"' + text.replace('"', '\\"').replace("\n", "\\n") + '"'


def attributes(**words):
    return "[" + ",".join(f"{name}={quoted(str(value))}" for name, value in words.items()) + "]"


def node(name, **words):
    return f"{quoted(name)} {attributes(**words)}"


def edge(start, end, **words):
    return f"{quoted(start)} -> {quoted(end)} {attributes(**words)}"


class Picture:
    """What Graphviz draws: a graph in DOT, by one of its programs, with the words that say the same."""

    def __init__(self, title, about, lines, program="dot"):
        self.title, self.about, self.program = title, about, program
        self.graph = "digraph {\n" + "\n".join(PLAIN + lines) + "\n}\n"

    def mark(self, drawn):
        """The line that says that these lines were drawn from this graph."""
        text = "\n".join([self.title, self.about, STYLE, self.program, self.graph, drawn])
        return f"<!-- {hashlib.sha256(text.encode()).hexdigest()[:16]} -->\n"

    def is_drawn(self, svg):
        """Returns whether a file is what was drawn from this graph."""
        drawn = "".join(svg.splitlines(keepends=True)[:-1])
        return svg == drawn + self.mark(drawn)

    def draw(self):
        """The picture, as the text of a file."""
        words = [self.program, *(["-n2"] if self.program == "neato" else []), "-Tsvg"]
        svg = subprocess.run(words, input=self.graph, capture_output=True, text=True, check=True).stdout
        size = re.sub(r'pt"\s+', '" ', re.search(r'\d+pt" height="\d+pt"\s+viewBox="[^"]*', svg)[0])
        # the shapes and texts with their classes, in whole numbers, and nothing of what the style sheet says
        inside = re.sub(r'<title>.*?</title>|<!--.*?-->| (id|fill|stroke|font-family|font-weight|font-size)="[^"]*"| text-anchor="middle"', "", svg[svg.index("<g ") :], flags=re.S)
        inside = re.sub(r'="[^"]*"', lambda value: re.sub(r"-?\d+\.\d+", lambda number: f"{float(number[0]):.0f}", value[0]), inside)
        # a line without a head and a text needs no group
        inside = re.sub(r'<g class="edge">\s*(<path [^>]*/>)\s*</g>', r"\1", inside)
        drawn = "\n".join([
            f'<svg xmlns="http://www.w3.org/2000/svg" width="{size}" text-anchor="middle" role="img" aria-labelledby="title desc">',
            f'<title id="title">{escape(self.title, False)}</title>',
            f'<desc id="desc">{escape(self.about, False)}</desc>',
            f"<style>{STYLE}</style>",
            re.sub(r"\s*\n\s*", "\n", inside.strip()) + "\n",
        ])
        return drawn + self.mark(drawn)


def labels_of(text):
    """The labels of a graph in DOT, each with the nodes that its edge leads from and to, or two empty texts."""
    return re.findall(r'^(?:(.+) -> (.+) )?.*\[.*?label="([^"]*)"', text, re.MULTILINE)


def read(text):
    """The picture of a graph in DOT that was written by hand. Its first line is its title, as a comment; its labels are its words."""
    title, _, *lines, _ = text.splitlines()
    said = []
    for start, end, label in labels_of(text):
        words = label.removeprefix("• ").replace("\\n• ", "; ").replace("\\n", " " if start else ": ")
        said.append(f"{start} to {end}: {words}.".replace('"', "") if start else f"{words}.")
    return Picture(title.removeprefix("// "), " ".join(said), lines)

"""Counts what the house style forbids in the pages and in the texts of help: phrases that only this repository uses, sentences of
more than 35 words, pages of more than 300 lines, and decisions that are no record, or that no topic names. The phrases count in the
comments of sources, too. A count above its limit fails. No limit is raised.

words.py            compares the counts with the limits, and ends with 1 where one is above
words.py --list     prints each place that counts, page by page
"""
import collections
import re
import sys
from pathlib import Path

TOP = Path(__file__).resolve().parents[1]
LONG, MOST_LINES = 35, 300
# pages that list one entry after another, each read by itself
RECORDS = {"docs/FORMATS.md", "docs/PROMISES.md", "docs/DECISIONS.md", "docs/RECORDS.md", "docs/CHANGES_OF_CRATES.md"}

# each phrase, and what the field says instead; code and names in backticks are not counted
PHRASES = [
    (r"wrong (?:body|bodies)|bod(?:y|ies) that (?:must be|are to be) refused", "a mutant that the prover must reject"),
    (r"edits?", "a mutant; in a command or a file's name it stays"),
    (r"may be found|might be found", "a recoverable state"),
    (r"(?:the )?house's door", "the administrator's socket"),
    (r"outlooks?", "a dry run of the next step"),
    (r"by (?:a|each|either|its|their) ways?(?! (?:back|down|on|up))|the wide (?:way|one)|the profile or", "strict mode, lenient mode"),
    (r"(?:only |comes |fails? |Store )for a reason|(?:has|have) a reason", "implies an I/O error; has an I/O error as its cause"),
    (r"refused (?:by|for) (?:a|the) name(?: alone)?|only a name refused", "an invalid mutant, which does not compile"),
    (r"seats?|seated", "a connection, a slot; accepts; of a flight a place"),
    (r"hand(?:s|ed|ing)? out", "flushed, yielded, returned"),
    (r"(?:is|are|was|were|be|been) given back", "is returned"),
    (r"closes what was there", "replaces"),
    (r"want of memory", "out of memory"),
]
PHRASES = [(re.compile(rf"\b(?:{phrase})\b", re.IGNORECASE), instead) for phrase, instead in PHRASES]
# what has another sense where a comment speaks of journeys, of SQL and of `reason`
SENSES = re.compile(r"seats?|edits?|.*reason", re.IGNORECASE)
# in CHANGES alone: what stayed is not said
UNCHANGED = re.compile(r"\bas (?:it|they) (?:was|were)\b", re.IGNORECASE)

# a decision begins with its number, title, date and status, and has at most so many lines; a row of the table names those of a topic
DECISIONS, RECORD_LINES = "docs/DECISIONS.md", 12
RECORD = re.compile(r"\d+\. \*\*[^*]+\.\*\* \*\d{4}-\d\d-\d\d; (?:stands|(?:replaced|completed|extended)\b|tried and dropped)[^*]*\.\* ")
TOPIC = re.compile(r"\| [^|]+ \| (\d[^|]*) \|")

# the most that there may be of each
LIMITS = {"phrases": 0, "sentences": 9, "pages": 0, "decisions": 0}


class Text:
    """A page, or the texts of help: its name, its lines, and its prose as (line, text), one for each paragraph, item and cell."""

    def __init__(self, name, source, parts):
        self.name, self.lines, self.parts = name, source.count("\n"), list(parts)

    def phrases(self):
        """Each phrase that is to go: its line, itself, and what to say."""
        for line, text in self.parts:
            plain = re.sub(r"`[^`]*`|\]\([^)]*\)", " ` ", text)
            for phrase, instead in PHRASES:
                yield from ((line, found[0], instead) for found in phrase.finditer(plain))
            if "CHANGES" in self.name:
                yield from ((line, found[0], "nothing") for found in UNCHANGED.finditer(plain))

    def sentences(self):
        """Each sentence that is too long: its line, its number of words, and its first words."""
        for line, text in self.parts:
            plain = re.sub(r"`[^`]*`", "`code`", re.sub(r"\]\([^)]*\)|\*\*|!?\[", "", text))
            for sentence in re.split(r"(?<=[.!?])[)\"*]* +(?=[A-Z`\"(*\[0-9])", plain):
                words = [word for word in sentence.split() if re.search(r"\w", word)]
                if len(words) > LONG:
                    yield line, len(words), " ".join(words[:9])

    def is_long(self):
        return self.name.endswith(".md") and self.lines > MOST_LINES and self.name not in RECORDS


def parts_of_page(source):
    """The prose of a Markdown page: paragraphs, items of lists and cells of tables, without blocks of code."""
    first, held, in_code = 0, [], False
    for number, line in enumerate(source.splitlines() + [""], 1):
        stripped = line.strip()
        if stripped.startswith("```"):
            in_code = not in_code
            stripped = ""
        begins = not stripped or in_code or re.match(r"[-*] |\d+\. |#|\||>|!\[", stripped)
        if begins and held:
            yield first, " ".join(held)
            held = []
        if in_code or not stripped:
            continue
        if stripped.startswith("|"):
            yield from ((number, cell.strip()) for cell in re.split(r"(?<!\\)\|", stripped)[1:-1])
        else:
            first = first if held else number
            held.append(re.sub(r"^(?:[-*] |\d+\. |#+ |> )", "", stripped))


def parts_of_help(source):
    """The prose of the constants of a source: paragraphs and items, without examples and tables of words."""
    for constant in re.finditer(r'"\\\n(.*?)";', source, re.DOTALL):
        first = source.count("\n", 0, constant.start(1)) + 1
        for paragraph in re.finditer(r"(?:.+\n?)+", constant[1]):
            line = first + constant[1].count("\n", 0, paragraph.start())
            text = paragraph[0]
            if re.search(r"^ ", text, re.MULTILINE):
                yield from ((line, row.strip()) for row in re.split(r"\n(?=  \S)", text))
            else:
                yield line, " ".join(text.split())


class Comments(Text):
    """The comments of a source: only their phrases count."""

    def phrases(self):
        return (found for found in super().phrases() if not SENSES.fullmatch(found[1]))

    def sentences(self):
        return ()


def parts_of_source(source):
    """The comments that have lines of their own, each with its lines as one."""
    for comment in re.finditer(r"(?:^[ \t]*(?://|--).*\n)+", source, re.MULTILINE):
        lines = (re.sub(r"^\s*(?://[/!]?|--)\s*", "", line) for line in comment[0].splitlines())
        yield source.count("\n", 0, comment.start()) + 1, " ".join(lines)


def decisions_by_topic(lines):
    """The numbers in the rows of topics, where `2 to 5` are four."""
    for numbers in filter(None, map(TOPIC.fullmatch, lines)):
        for first, _, last in (it.partition(" to ") for it in numbers[1].split(", ")):
            yield from range(int(first), int(last or first) + 1)


def bad_decisions():
    """Each decision that is no record, whose number does not rise, or that stands under no topic or under two: its line, and why."""
    last, lines = 0, (TOP / DECISIONS).read_text(encoding="utf-8").splitlines()
    topics = collections.Counter(decisions_by_topic(lines))
    starts = [n for n, line in enumerate(lines) if re.match(r"\d+\. ", line)]
    for start, end in zip(starts, starts[1:] + [len(lines)]):
        text = " ".join(line.strip() for line in lines[start:end])
        number = int(lines[start].partition(".")[0])
        times = topics.pop(number, 0)
        if not RECORD.match(text):
            yield start + 1, "not of the form: number, title, date, status"
        elif end - start > RECORD_LINES:
            yield start + 1, f"{end - start} lines"
        elif number <= last:
            yield start + 1, "a number that does not rise"
        elif times != 1:
            yield start + 1, f"under {times} topics"
        last = number
    yield from ((1, f"a topic names {number}, which is no decision") for number in topics)


def texts():
    """All pages of the repository, the texts of help, and the comments of its sources."""
    for pattern, parts_of in (("*.md", parts_of_page), ("docs/*.md", parts_of_page), ("crates/help_texts/src/*.rt", parts_of_help)):
        for path in sorted(TOP.glob(pattern)):
            source = path.read_text(encoding="utf-8")
            yield Text(str(path.relative_to(TOP)), source, parts_of(source))
    for path in sorted([*TOP.glob("crates/*/*/**/*.rt"), *TOP.glob("crates/*/*/**/*.antt")]):
        if "out" not in path.relative_to(TOP).parts:
            source = path.read_text(encoding="utf-8")
            yield Comments(str(path.relative_to(TOP)), source, parts_of_source(source))


def places():
    """Each place that counts: as what, and where it is."""
    for text in texts():
        yield from (("phrases", f"{text.name}:{line}: '{found}': {instead}") for line, found, instead in text.phrases())
        yield from (("sentences", f"{text.name}:{line}: {count} words: {begin} ..") for line, count, begin in text.sentences())
        if text.is_long():
            yield "pages", f"{text.name}: {text.lines} lines"
    yield from (("decisions", f"{DECISIONS}:{line}: {why}") for line, why in bad_decisions())


def main(words):
    if words == ["--list"]:
        for _, place in places():
            print(place)
        return 0
    if words:
        print(__doc__.strip(), file=sys.stderr)
        return 2
    counts = collections.Counter(what for what, _ in places())
    for what, most in LIMITS.items():
        print(f"{what}: {counts[what]}, at most {most}")
    return int(any(counts[what] > most for what, most in LIMITS.items()))


if __name__ == "__main__":
    sys.exit(main(sys.argv[1:]))

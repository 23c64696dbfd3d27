#!/usr/bin/env python3
"""Makes the source of the crate agents_page from web/desk.html: the page, and the policy for its content.

scripts/page.py           writes crates/agents_page/src/page.rt
scripts/page.py --check   ends with 1 where that file is another
scripts/page.py --served  prints the page as a browser gets it, without the lines of comments in its script

The policy allows the page's own style and script, by their hashes, and requests to the desk that served it. A page that
would load anything else, or has a style or a script that the policy would not allow, is not made. Nor is one whose table of
texts lacks one in a language, or has another value in one than in the other, or that has a text beside its table.
"""
import base64
import hashlib
import html.parser
import pathlib
import re
import sys

TOP = pathlib.Path(__file__).resolve().parent.parent
PAGE = TOP / 'web' / 'desk.html'
SOURCE = TOP / 'crates' / 'agents_page' / 'src' / 'page.rt'
# the page is loaded whole before its first word is shown; its texts, in two languages, are 26 kB of it
MOST_BYTES = 125_000
COMMENT = re.compile(r'^ *//.*\n', re.MULTILINE)
# the table of texts, a row of it (a name, a text in English, the same in German), and a text that should be in it
TABLE = re.compile(r'^const WORDS = \{\n(.*?)^\};\n', re.MULTILINE | re.DOTALL)
ROW = re.compile(r"  (?:'([\w.]+)'|(\w+)): \['([^'\\]+)', '([^'\\]+)'\],")
BESIDE = re.compile(r"""['`][^'`\n]*?\b[A-Z][a-z]+ [a-z]{2,}[^'`\n]*['`]""")


class Parts(html.parser.HTMLParser):
    """The styles and scripts of a page, what its policy would not allow, and what it says beside its script."""

    def __init__(self):
        super().__init__(convert_charrefs=False)
        self.texts = {'style': [], 'script': []}
        self.faults, self.said, self.names, self.inside = [], [], [], None

    def handle_starttag(self, tag, attrs):
        for name, value in attrs:
            if name in ('data-text', 'data-label'):
                self.names.append(value)
            if name == 'style' or name.startswith('on'):
                self.faults.append(f'<{tag} {name}=..>')
            if name in ('src', 'srcset', 'action', 'formaction') or (name == 'href' and tag != 'a'):
                self.faults.append(f'<{tag} {name}={value!r}>')
        if tag in self.texts:
            self.texts[tag].append('')
        if tag in self.texts or tag == 'noscript':
            self.inside = tag

    def handle_endtag(self, tag):
        if tag == self.inside:
            self.inside = None

    def handle_data(self, data):
        if self.inside in self.texts:
            self.texts[self.inside][-1] += data
        elif not self.inside:
            self.said += data.split()


def hashes(texts):
    """The sources of a policy that allow these texts (Content Security Policy Level 3, section 2.3.1)."""
    made = (base64.b64encode(hashlib.sha256(text.encode()).digest()).decode() for text in texts)
    return ' '.join(f"'sha256-{digest}'" for digest in made) or "'none'"


def policy_of(parts):
    own = f"script-src {hashes(parts.texts['script'])}; style-src {hashes(parts.texts['style'])}; connect-src 'self'"
    return f"default-src 'none'; {own}; frame-ancestors 'none'; base-uri 'none'; form-action 'none'"


def words_of(script):
    """The table of texts: names with the text in each language; and what is wrong with it, or with how the script uses it."""
    table, faults, words = TABLE.search(script), [], {}
    if not table:
        return {}, ['there is no table of texts']
    for line in table[1].splitlines():
        row = ROW.fullmatch(line)
        if row and (row[1] or row[2]) not in words:
            words[row[1] or row[2]] = row[3], row[4]
        else:
            faults.append(f'no row of two texts, or a second one: {line.strip()}')
    for name, texts in words.items():
        if len({tuple(sorted(set(re.findall(r'\{\d\}', text)))) for text in texts}) > 1 or max(text.count('|') for text in texts) > 1:
            faults.append(f'the texts of {name} have other values, or too many forms')
    faults += [f'a text beside the table: {text}' for text in BESIDE.findall(script.replace(table[0], ''))]
    return words, faults


def uses_of(script, names):
    """The names of texts that the script and the page use; those that end with a dot begin others."""
    used = set(names)
    for first in re.findall(r"\bt\(((?:[^,()]|\([^()]*\))*)", script):
        found = re.findall(r"'([\w.]+)'", first)
        used.update(found[:1] if "' + " in first else found)
    return used


def faults_of_words(parts):
    """What is wrong with the texts of a page."""
    script = ''.join(parts.texts['script'])
    words, faults = words_of(script)
    for use in sorted(uses_of(script, parts.names)):
        if not any(name.startswith(use) if use.endswith('.') else name == use for name in words):
            faults.append(f'no text is named {use}')
    for name in words:
        if f"'{name}'" not in TABLE.sub('', script) and name not in parts.names and f"'{name.split('.')[0]}.'" not in script:
            faults.append(f'nobody uses the text {name}')
    return faults + [f'a text beside the script: {word}' for word in parts.said if word != 'Desk']


def raw(text):
    """A raw literal of Rust, with as many marks as the text calls for."""
    marks = '#' * (1 + max(map(len, re.findall('"(#*)', text)), default=0))
    return f'r{marks}"{text}"{marks}'


def served(page):
    """The page as a browser gets it."""
    return COMMENT.sub('', page)


def source_of(page):
    if len(page.encode()) > MOST_BYTES:
        sys.exit(f'page: without its comments {PAGE.name} has more than {MOST_BYTES} bytes')
    if '\r' in page:
        sys.exit(f'page: {PAGE.name} has a carriage return')
    parts = Parts()
    parts.feed(page)
    parts.close()
    if parts.faults:
        sys.exit(f'page: the policy would not allow {", ".join(parts.faults)}')
    if faults := faults_of_words(parts):
        sys.exit('page: ' + '\npage: '.join(faults))
    return f'''//! The page and its policy. Made by `scripts/page.py` from `web/desk.html`.

/// What the page may load and do: its own style and script, and requests to the desk that served it.
pub const POLICY: &str =
    {raw(policy_of(parts))};

/// The page, in HTML.
pub const PAGE: &str = {raw(page)};
'''


def main():
    page = served(PAGE.read_text(encoding='utf-8'))
    source = source_of(page)
    if sys.argv[1:] == ['--served']:
        sys.stdout.write(page)
    elif sys.argv[1:] == ['--check']:
        if not SOURCE.exists() or SOURCE.read_text(encoding='utf-8') != source:
            sys.exit(f'page: {SOURCE.relative_to(TOP)} is not that of web/desk.html: run scripts/page.py')
    elif sys.argv[1:]:
        sys.exit('usage: scripts/page.py [--check | --served]')
    else:
        SOURCE.write_text(source, encoding='utf-8')


if __name__ == '__main__':
    main()

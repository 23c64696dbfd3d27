"""Mutants of a crate: which function's body each changes, which functions reach which, and which mutants may share a check."""

import re
from collections import namedtuple

# A mutant, with its pairs of a file, an old text and a new one.
Edit = namedtuple("Edit", "name path pairs")
# A function: its file, impl and path, the start of its closures' paths, the folders of their proofs, the line at which it begins, with
# its attributes, and the first and last of its body
Function = namedtuple("Function", "file owner path closures folders head first last")
HEAD = re.compile(r"( *)(?:pub(?:\([^)]*\))? )?fn (\w+)")
ITEM = re.compile(r"^\s*(?:#!?\[|(?:pub\b.*? )?(?:unsafe |const )*(?:fn|impl|struct|enum|trait|mod|static|const|type|use)\b)|\bmacro_rules\b", re.M)


class Stopped(Exception):
    """Nothing can be tried, for the reason that it holds."""


def read_edit(path):
    """An edit with its pairs, each a file, an old text and a new one."""
    file, old, pairs = "", None, []
    for line in path.read_text(encoding="utf-8").split("\n"):
        if line.startswith("file: "):
            file = line[6:].strip()
        elif line.startswith("old: "):
            old = line[5:]
        elif line.startswith("new:") and old is not None:
            pairs.append((file, old, line[4:].removeprefix(" ")))
            old = None
    return Edit(path.name, path, pairs)


def edits_of(crate, names):
    """The edits of both folders, or those of these names."""
    paths = [it for folder in ("must-fail", "mutants") for it in sorted((crate / folder).glob("*.edit"))]
    found = [read_edit(it) for it in paths if not names or it.name in names]
    lacking = set(names) - {it.name for it in found}
    if lacking or len({it.name for it in found}) < len(found):
        raise Stopped(f"no such edit: {', '.join(sorted(lacking))}" if lacking else "an edit's name stands in both folders")
    return found


def texts_of(edit, crate):
    """The whole texts that the edit makes of the files that it names; nothing where it cannot be applied, or changes nothing."""
    texts, were = {}, {}
    for file, old, new in edit.pairs:
        if file not in texts:
            if not re.match(r"(src|specs|proofs)/", file) or not (crate / file).is_file():
                return {}
            texts[file] = were[file] = (crate / file).read_text(encoding="utf-8")
        if texts[file].count(old) != 1:
            return {}
        texts[file] = texts[file].replace(old, new)
    return {file: text for file, text in texts.items() if text != were[file]}


def sources_of(crate):
    """The lines of each source of a crate, by its path in it."""
    return {str(it.relative_to(crate)): it.read_text(encoding="utf-8").split("\n") for it in sorted(crate.glob("src/**/*.rt"))}


def changes(edit, sources):
    """The lines that the edit makes, by file and number from 1; nothing where it cannot be applied to sources alone."""
    texts = {file: "\n".join(lines) for file, lines in sources.items()}
    for file, old, new in edit.pairs:
        if texts.get(file, "").count(old) != 1:
            return {}
        texts[file] = texts[file].replace(old, new)
    return {(file, at): line for file, lines in sources.items() for at, line in enumerate(texts[file].split("\n"), 1) if line != lines[at - 1]}


def names_of_impl(header):
    """The names by which rattle may call an impl: by its type, its type and trait, and the trait's argument."""
    header = re.sub(r"^impl\b", "", header.split(" where ")[0]).rstrip(" {")
    # what stands outside angle brackets
    words, before = header.replace("->", ""), None
    while words != before:
        words, before = re.sub(r"<[^<>]*>", "", words), words
    names = [it.strip().split("::")[-1] for it in words.split(" for ")]
    argument = re.search(r"\w<(?:\w+::)*(\w+)[^,]*> for ", header)
    base = "".join(reversed(names))
    return [base, base + argument[1]] if argument and len(names) == 2 else [base]


def impls_in(lines):
    """The impls of a file: the numbers of their first and last lines, and their names."""
    for at, line in enumerate(lines, 1):
        if re.match(r"impl\b", line):
            opens = next((it for it in range(at, len(lines) + 1) if lines[it - 1].endswith("{")), at)
            ends = next((it for it in range(opens, len(lines) + 1) if lines[it - 1] == "}"), at)
            yield at, ends, names_of_impl(" ".join(it.strip() for it in lines[at - 1 : opens]))


def body_after(lines, at, indent):
    """The numbers of the first and the last line of the body whose function begins at this line, or None."""
    level = [it for it in range(at, len(lines) + 1) if re.match(indent + r"\S", lines[it - 1])]
    opens = next((it for it in level if lines[it - 1].endswith(("{", ";", "}"))), None)
    ends = next((it for it in level if opens and it > opens and lines[it - 1] == indent + "}"), None)
    return (opens + 1, ends - 1) if ends and lines[opens - 1].endswith("{") else None


def top_of(lines, at, indent):
    """The number of the line at which the attributes of the function of this line begin, or its own, where it has none. What the
    prover says of a function names the place of its first attribute."""
    while at > 1 and lines[at - 2].startswith((indent + "#[", indent + ")]")):
        at = next(it for it in range(at - 1, 0, -1) if lines[it - 1].startswith(indent + "#["))
    return at


def functions_in(name, file, lines):
    """The functions of a file, which `rt fmt` has laid out, free ones and those of impls. One of an impl may have two names."""
    module = [it for it in re.sub(r"(^|/)(lib|main|mod)$", "", file[4:-3]).split("/") if it]
    impls = list(impls_in(lines))
    for at, line in enumerate(lines, 1):
        head = HEAD.match(line)
        span = head and len(head[1]) in (0, 4) and body_after(lines, at, head[1])
        owners = [of for first, last, names in impls if first < at < last for of in names] if head and head[1] else [""]
        for owner in owners if span else []:
            rest = [it for it in (owner, head[2]) if it]
            folders = tuple("/".join(["proofs", *module, *it, ""]) for it in (rest, ["fn", *rest]))
            path, closures = "::".join([name, *module, *rest]), "::".join([name, *module, "fn", *rest, ""])
            yield Function(file, owner, path, closures, folders, top_of(lines, at, head[1]), *span)


def functions_of(name, sources, proved):
    """The functions of a crate by their paths, where these are certain: rattle proved one of that path, and no other has it or its lines."""
    every = [it for file, lines in sources.items() for it in functions_in(name, file, lines) if it.path in proved]
    is_one = lambda it: sum(it.path == other.path or it.file == other.file and it.first <= other.last and other.first <= it.last for other in every) == 1
    return {it.path: it for it in every if is_one(it)}


def body(function, sources, changed={}):
    """The text of a function's body, with these lines changed."""
    lines = enumerate(sources[function.file][function.first - 1 : function.last], function.first)
    return "\n".join(changed.get((function.file, at), line) for at, line in lines)


def function_of(edit, functions, sources):
    """The one function whose body the edit changes, or None: then it is tried alone. So is one that names a function which the body did not name."""
    changed = changes(edit, sources)
    found = {of for file, at in changed for of in [next((it for it in functions.values() if file == it.file and it.first <= at <= it.last), None)]}
    of = found.pop() if len(found) == 1 else None
    if not of or ITEM.search(body(of, sources) + "\n" + body(of, sources, changed)):
        return None
    words, were = (set(re.findall(r"\w+", body(of, sources, lines))) for lines in (changed, {}))
    return None if any(it.path.split("::")[-1] in words - were for it in functions.values()) else of


def calls(of, text, functions):
    """The functions that a text in the place of this one's body may call, by their names and by the type before the name."""
    words = set(re.findall(r"(\w+::|\.|)\b(\w+)\b(?=(\(|::<)?)", text))
    for it in functions.values():
        name = it.path.split("::")[-1]
        for before, word, after in words:
            of_type = before[:-2].replace("Self", of.owner) if before.endswith("::") else ""
            fits = len(of_type) == 1 or it.owner.startswith(of_type) or it.owner.endswith(of_type)
            if word == name and (before and fits and (after or before != ".") if it.owner else before != "."):
                yield it.path


def in_cycles(functions, sources):
    """The functions that may call themselves through another one, so that their proofs that they end may rest on one another's bodies."""
    reach = {path: set(calls(of, body(of, sources), functions)) - {path} for path, of in functions.items()}
    direct = {path: set(found) for path, found in reach.items()}
    for middle in functions:
        for path in functions:
            if middle in reach[path]:
                reach[path] |= reach[middle]
    return {path for path in functions if any(path in reach[it] for it in direct[path])}


def rests_on_others(crate, of, functions):
    """Whether the proof files of a function, its own and those of the lemmas that they name, name modules of another function."""
    todo = [it for part in of.folders for it in (crate / part).glob("**/*.antt")]
    seen, others = set(), tuple(part for it in functions.values() if it != of for part in it.folders)
    while todo:
        for named in {it.replace(".", "/") for it in re.findall(r"\bproofs\.[\w.+]*\w", todo.pop().read_text(encoding="utf-8"))} - seen:
            seen.add(named)
            todo += [it for it in [crate / f"{named}.antt"] if it.is_file()]
    return any(f"{it}/".startswith(others) for it in seen)


def packed(fit):
    """Batches of edits, each with its function, of which no two change the same one."""
    batches = []
    for edit, of in fit:
        batch = next((it for it in batches if of not in [other for _, other in it]), None)
        if batch is None:
            batches.append(batch := [])
        batch.append((edit, of))
    return batches

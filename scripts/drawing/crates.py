"""The crates by layer: a crate's layer is one above the highest that it stands on."""

from drawing.graphs import Picture, edge, node, quoted

# the waist: it, and what it stands on, are drawn as the rules
WAIST = "saga_core"
# how the names of the crates of the SQL library begin
SQL = "sqlite"
KEY = {"rules": f"{WAIST}, and what it stands on", "tables": "names the SQL library", "plain": "the others"}


def reduced(tables, name):
    """What a crate stands on, without what follows through another one."""
    uses = tables.uses[name]
    return [other for other in uses if not any(other in tables.below(via)[:-1] for via in uses)]


def picture(tables):
    """The picture of the crates: those of the program by layer, and below them the others with what each stands on."""
    inside, layer, look = tables.program(), {}, {}
    for name, uses in tables.uses.items():
        layer[name] = 1 + max((layer[other] for other in uses), default=0)
        look[name] = "tables" if any(other.startswith(SQL) for other in tables.depends[name]) else "plain"
    look.update((name, "rules") for name in tables.below(WAIST))
    layers = {n: [name for name in inside if layer[name] == n] for n in range(max(layer[name] for name in inside), 0, -1)}
    apart = sorted((name for name in tables.uses if name not in inside), key=lambda it: (it.endswith("_tests"), layer[it]))
    lines = [
        "nodesep=0.15; ranksep=0.3; labelloc=t; labeljust=l; node [shape=box,height=0.3,margin=\"0.1,0.03\"]; edge [arrowhead=none]",
        'label="A line leads from a crate down to one that it stands on.\\lWhat follows through another crate, and the libraries, are left out.\\l"',
    ]
    for n, names in layers.items():
        lines += [node(str(n), shape="plaintext", group="layer", **{"class": "soft"}), f"{{rank=same; {n}; {'; '.join(names)}}}"]
        lines += [node(name, **{"class": look[name]}) for name in names]
    lines += [edge(str(n + 1), str(n), style="invis", weight=9) for n in list(layers)[1:]]
    lines += [edge(name, other) for name in inside for other in reduced(tables, name)]
    said = [f"Layer {n}: {', '.join(names)}." for n, names in layers.items()]
    rows = "".join(f'<tr><td align="left">{name}</td><td align="left">{", ".join(reduced(tables, name))}</td></tr>' for name in apart)
    head = '<tr><td colspan="2" align="left">Beside the program, which stands on none of them; at the right what each stands on:</td></tr>'
    lines += [node("apart", shape="plaintext", label=f'<<table border="0" cellspacing="0">{head}{rows}</table>>'), edge("1", "apart", style="invis", weight=9)]
    lines += [node(means, **{"class": its}) for its, means in KEY.items()] + [f"{{rank=same; apart; {'; '.join(map(quoted, KEY.values()))}}}"]
    said.append("Beside the program: " + ", ".join(apart) + ".")
    return Picture("The crates of the desk by layer", " ".join(said), lines)

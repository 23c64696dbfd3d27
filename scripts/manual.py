"""The man page and the completions of the program, all made from the help that it prints: manual.py PROGRAM man | bash | zsh | fish
More than 200 lines: one help, in four forms."""
import re
import subprocess
import sys
from dataclasses import dataclass

# the values of which a help names the words that may stand for them, and those that are files or sockets
CHOSEN, FILES = ("FORMAT", "KIND", "STATE"), ("FILE", "CSV", "PATH")


@dataclass
class Value:
    """An option or an argument: its short and its long name, the value that follows it, and what it is."""

    short: str
    long: str
    name: str
    about: str

    def flags(self):
        return [f"-{self.short}"] * bool(self.short) + [f"--{self.long}"] * bool(self.long)

    def choices(self):
        """The words that may stand for its value, where these are few."""
        text = self.about.replace(" (the default)", "").rpartition(": ")[2].replace(",", "").replace(" or ", " ")
        return text.split(" ") if self.name in CHOSEN else []

    def is_file(self):
        return self.name in FILES


class Help:
    """The whole help of the program, or of a command, by sections; the first lines are the section ''."""

    def __init__(self, program, *command):
        run = subprocess.run([program, *command, "--help"], stdin=subprocess.DEVNULL, capture_output=True, check=False)
        self.word = " ".join(command)
        self.lines = run.stderr.decode().splitlines()
        self.about, self.sections, title = self.lines[0], {}, ""
        for line in self.lines:
            title = line[:-1] if re.match(r"[^ ].*:$", line) else title
            self.sections.setdefault(title, []).append(line)
        self.usage = next(line[7:] for line in self.lines if line.startswith("Usage: ")).replace("-", r"\-")
        self.options, self.values = self.listed("Options"), self.listed("Arguments")

    def listed(self, title):
        """The options or the arguments: each line that names one, with the line after it."""
        lines = [line.strip() for line in self.sections.get(title, [])]
        found = [(re.fullmatch(r"(?:-(\w))?(?:, )?(?:--(\w+))?(?: ?<(\w+)>)?", line), after) for line, after in zip(lines, lines[1:]) if line]
        return [Value(*(word or "" for word in name.groups()), about) for name, about in found if name]

    def flags(self):
        return [flag for option in self.options for flag in option.flags()]


def roff(text):
    return text.translate(str.maketrans({"\\": r"\e", "-": r"\-", "'": r"\(aq", "`": r"\(ga", "^": r"\(ha", "~": r"\(ti"}))


def page_part(page, level):
    """Roff of a help, but for its first line, its usage and the list of commands; its headings are of this level."""
    title, at, gap = "", "", False

    def enter(part):
        """A part of the page: text, a list of options or values, or a block, which keeps its lines as they are."""
        nonlocal at, gap
        if part == at == "block" and gap:
            yield ""
        elif part != at or gap:
            yield from [".EE"] * (at == "block") + [".PP"] * (part != "list") + [".EX"] * (part == "block")
        at, gap = part, False

    for line in page.lines[1:]:
        if re.match(r"[^ ].*:$", line):
            title = line[:-1]
            if title != "Commands":
                yield from [".EE"] * (at == "block") + ([f".SH {roff(title).upper()}"] if level == "SH" else [".PP", f".B {roff(title)}"])
                at = ""
        elif not line:
            gap = True
        elif line.startswith("Usage: ") or title == "Commands" and line.startswith(" "):
            continue
        elif not line.startswith(" "):
            title = ""
            yield from [*enter("text"), rf"\&{roff(line)}"]
        elif title in ("Arguments", "Options"):
            text = line.lstrip()
            yield from [*enter("list"), *([".TP", rf"\fB{roff(text)}\fR"] if re.match(" +[-<]", line) else [rf"\&{roff(text)}"])]
        else:
            yield from [*enter("block"), rf"\&{roff(line)}"]
    if at == "block":
        yield ".EE"


def man_page(main, commands, version):
    yield f'.TH DESK 1 "" "{version}" "User Commands"\n.SH NAME\ndesk \\- {main.about}\n.SH SYNOPSIS'
    yield from (f".B {command.usage}\n.br" for command in commands)
    yield from page_part(main, "SH")
    yield ".SH COMMANDS"
    for command in commands:
        yield f".SS {command.word}\n{command.about}.\n.PP\n.B {command.usage}"
        yield from page_part(command, "SS")


def bash_completion(main, commands, _):
    words = " ".join(command.word for command in commands)
    yield f"""# Completion of desk for bash, made from its help.
_desk() {{
  local word=${{COMP_WORDS[COMP_CWORD]}} before=${{COMP_WORDS[COMP_CWORD - 1]}} words=""
  COMPREPLY=()
  if [ "$COMP_CWORD" -eq 1 ]; then
    mapfile -t COMPREPLY < <(compgen -W '{words} help {" ".join(main.flags())}' -- "$word")
    return
  fi
  case ${{COMP_WORDS[1]}}:$before in
    help:help) mapfile -t COMPREPLY < <(compgen -W '{words}' -- "$word") ;;"""
    for command in commands:
        for option in (it for it in command.options if it.choices()):
            yield f"""    {command.word}:--{option.long}) mapfile -t COMPREPLY < <(compgen -W '{" ".join(option.choices())}' -- "$word"); return ;;"""
        valued = [f"{command.word}:--{option.long}" for option in command.options if option.name and not option.is_file()]
        if valued:
            yield f"    {' | '.join(valued)}) return ;;"
    yield "  esac\n  case ${COMP_WORDS[1]} in"
    yield from (f"    {command.word}) words='{' '.join(command.flags())}' ;;" for command in commands)
    yield """    *) return ;;
  esac
  case $word in
    -*) mapfile -t COMPREPLY < <(compgen -W "$words" -- "$word") ;;
    *)
      compopt -o filenames 2>/dev/null
      mapfile -t COMPREPLY < <(compgen -f -- "$word")
      ;;
  esac
}
complete -F _desk desk"""


def quoted(text):
    """The text between single quotes, for bash, zsh and fish."""
    return "'" + text.replace("\\", "\\\\").replace("'", "'\\''") + "'"


def zsh_arguments(command):
    def shown(text):
        return re.sub(r"([\[\]:])", r"\\\1", text)

    for option in command.options:
        words = f"({' '.join(option.choices())})" if option.choices() else "_files" if option.is_file() else " "
        value = f":{option.name}:{words}" if option.name else ""
        yield from (quoted(f"{flag}[{shown(option.about)}]{value}") for flag in reversed(option.flags()))
    for value in command.values:
        yield quoted(f":{value.name} -- {shown(value.about)}:{'_files' if value.is_file() else ' '}")


def zsh_completion(_, commands, __):
    listed = "\n".join(f"    {quoted(f'{command.word}:{command.about}')}" for command in commands)
    yield f"""#compdef desk
# Completion of desk for zsh, made from its help.
_desk() {{
  local -a commands=(
{listed}
  )
  if ((CURRENT == 2)); then
    _describe -t commands command commands
    return
  fi
  shift words
  ((CURRENT -= 1))
  case $words[1] in
    help) _describe -t commands command commands ;;"""
    for command in commands:
        yield f"    {command.word})\n      _arguments \\\n        " + " \\\n        ".join(zsh_arguments(command)) + "\n      ;;"
    yield '  esac\n}\n[ "$funcstack[1]" = _desk ] && _desk "$@" || compdef _desk desk'


def fish_options(when, options):
    for option in options:
        short, choices = f" -s {option.short}" if option.short else "", f" -a '{' '.join(option.choices())}'" if option.choices() else ""
        value = " -rF" if option.is_file() else f" -x{choices}" if option.name else ""
        yield f"complete -c desk -n '{when}'{short} -l {option.long}{value} -d {quoted(option.about)}"


def fish_completion(main, commands, _):
    yield "# Completion of desk for fish, made from its help.\ncomplete -c desk -f"
    yield from fish_options("__fish_use_subcommand", main.options)
    for command in commands:
        when = f"__fish_seen_subcommand_from {command.word}"
        yield f"complete -c desk -n __fish_use_subcommand -a {command.word} -d {quoted(command.about)}"
        yield from fish_options(when, command.options)
        if any(value.is_file() for value in command.values):
            yield f"complete -c desk -n '{when}' -F"


MADE = {"man": man_page, "bash": bash_completion, "zsh": zsh_completion, "fish": fish_completion}


def main(program, what):
    whole = Help(program)
    commands = [Help(program, line.split()[0]) for line in whole.sections["Commands"][1:] if line.startswith("  ") and line.split()[0] != "help"]
    version = subprocess.run([program, "--version"], capture_output=True, text=True, check=True).stdout.strip()
    print("\n".join(MADE[what](whole, commands, version)))


if __name__ == "__main__":
    main(*sys.argv[1:])

"""The page of commands, the man page and the completions of pdbdump, written from what `--help` says."""

import re
from dataclasses import dataclass, field

from pdbtest.calls import call

PROGRAM, VERSION = "pdbdump", "0.2.0"
SHARE = "tools/share"
EXAMPLES = """\
pdbdump program.pdb
pdbdump types --json program.pdb
pdbdump id --expect DC130BB29A1B9E914C4C44205044422E1 program.pdb
pdbdump extract program.pdb /names > names
pdbdump validate *.pdb
pdbdump diff old.pdb new.pdb
pdbdump declare program.pdb 'Widget*' > widgets.h
"""
ROW = re.compile(r"^ {2,6}(?P<name>(?:-\w, )?\S+(?: <\w+>)?) {2,}(?P<help>.*)$")
OPTION = re.compile(r"(?:-(?P<short>\w), )?--(?P<long>[\w-]+)(?: <(?P<value>\w+)>)?$")


@dataclass
class Option:
    """An option, what follows it, what it does, and the words that it takes, if these are all."""

    short: str
    long: str
    value: str
    help: str
    words: list

    @property
    def called(self):
        """How it is written."""
        return f"--{self.long}{f' {self.value}' if self.value else ''}"


@dataclass
class Help:
    """What help says of the program, or of a command."""

    about: str
    usage: str
    commands: list = field(default_factory=list)
    arguments: list = field(default_factory=list)
    options: list = field(default_factory=list)
    details: str = ""


def option_of(name, text):
    """An option by its row."""
    found = OPTION.match(name)
    about, _, words = text.partition(" [possible values: ")
    return Option(found["short"] or "", found["long"], found["value"] or "", about, words.rstrip("]").split(", ") if words else [])


def read_help(text):
    """What a text of `--help` says."""
    about, usage, *blocks = text.rstrip("\n").split("\n\n")
    said, details = Help(about, usage.removeprefix("Usage: ")), []
    for block in blocks:
        title, *lines = block.split("\n")
        if title in ("Commands:", "Arguments:", "Options:"):
            rows = [(row["name"], row["help"]) for row in map(ROW.match, lines)]
            rows = [option_of(*row) for row in rows] if title == "Options:" else rows
            setattr(said, title.rstrip(":").lower(), rows)
        else:
            details.append(block)
    said.details = "\n\n".join(details)
    return said


def read_all(program):
    """The help of the program, and of each command by its name."""
    help_of = lambda words: read_help(call(program, [*words, "--help"]).out.decode())
    whole = help_of([])
    return whole, {name: help_of([name]) for name, _ in whole.commands if name != "help"}


# The man page.


def roff(text):
    """A text as roff writes it."""
    lines = text.replace("\\", "\\e").replace("-", "\\-").replace("`", "").split("\n")
    return "\n".join(f"\\&{line}" if line[:1] in (".", "'") else line for line in lines)


def row(called, text):
    """A paragraph with a title."""
    return f".TP\n.B {roff(called)}\n{roff(text)}\n"


def man_page(whole, commands):
    """The man page."""
    parts = [f'.TH {PROGRAM.upper()} 1 "" "pdb_container {VERSION}" "User Commands"\n']
    parts.append(f".SH NAME\n{PROGRAM} \\- {roff(whole.about[0].lower() + whole.about[1:])}\n.SH SYNOPSIS\n.nf\n")
    parts += [f"{roff(command.usage)}\n" for command in commands.values()]
    parts.append(f".fi\n.SH DESCRIPTION\n{roff(whole.details).replace(chr(10) * 2, chr(10) + '.PP' + chr(10))}\n.SH COMMANDS\n")
    for name, command in commands.items():
        parts.append(f".SS {name}\n{roff(command.about)}.\n.PP\n{roff(command.details)}\n")
        for option in command.options:
            if option.long not in ("help", "json"):
                words = f": {', '.join(option.words)}" if option.words else ""
                parts.append(row(option.called, option.help + words))
    parts.append(".SH OPTIONS\n" + row("--json", "Write each line as a JSON object; not with extract and declare"))
    parts += [row(f"-{option.short}, {option.called}", option.help) for option in whole.options]
    parts.append(f".SH EXAMPLES\n.nf\n{roff(EXAMPLES)}.fi\n.SH SEE ALSO\n.BR pdbq (1)\n")
    return "".join(parts)


# The page of commands.


def command_page(program, commands):
    """What `--help` prints of each command."""
    parts = ["# The commands of `pdbdump`\n\n<!-- Made by `tests/calling --write` from what `pdbdump help COMMAND` prints. -->\n"]
    parts += [f"## {name}\n\n```text\n{call(program, ['help', name]).out.decode()}```\n" for name in commands]
    return "\n".join(parts)


# Completions.


def bash(whole, commands):
    """Completion for bash."""
    names = " ".join([*commands, "help", *(f"--{option.long}" for option in whole.options)])
    cases, values = [], []
    for name, command in commands.items():
        cases.append(f'        {name}) words="{" ".join(f"--{option.long}" for option in command.options)}" ;;\n')
        for option in command.options:
            if option.words:
                values.append(f'    {name}:--{option.long}) words="{" ".join(option.words)}" ;;\n')
    return f"""\
# Completion of {PROGRAM} for bash: a command, or else a file, and the options of the command.
_{PROGRAM}() {{
    local words=
    COMPREPLY=()
    case ${{COMP_WORDS[1]}}:$3 in
{"".join(values)}    *)
        if [[ $COMP_CWORD == 1 || ${{COMP_WORDS[1]}}:$COMP_CWORD == help:2 ]]; then
            words="{names}"
        elif [[ $2 == -* ]]; then
            case ${{COMP_WORDS[1]}} in
{"".join("    " + case for case in cases)}            esac
        fi
        ;;
    esac
    mapfile -t COMPREPLY < <(compgen -W "$words" -- "$2")
}}
complete -o default -F _{PROGRAM} {PROGRAM}
"""


def quoted(text):
    """A text in single quotes, for a shell."""
    return "'" + text.replace("'", "'\\''") + "'"


def zsh(whole, commands):
    """Completion for zsh."""
    described = lambda text: text.replace(":", "\\:").replace("[", "\\[").replace("]", "\\]")
    rows = "".join(f"    {quoted(f'{name}:{described(about)}')}\n" for name, about in whole.commands)
    cases = []
    for name, command in commands.items():
        specs = []
        for option in command.options:
            called = f"--{option.long}{'=' if option.value else ''}[{described(option.help)}]"
            value = f":{option.value}:({' '.join(option.words)})" if option.words else f":{option.value}:" if option.value else ""
            specs.append(quoted(called + value))
        cases.append(f"    {name}) _arguments {' '.join(specs)} '*:file:_files' ;;\n")
    return f"""\
#compdef {PROGRAM}
# Completion of {PROGRAM} for zsh: a command, or else a file, and the options of the command.
local -a commands=(
{rows})
if (( CURRENT == 2 )); then
    _describe command commands
    _files
    return
fi
shift words
(( CURRENT-- ))
case $words[1] in
{"".join(cases)}    help) _describe command commands ;;
    *) _files ;;
esac
"""


def fish(whole, commands):
    """Completion for fish."""
    lines = [f"# Completion of {PROGRAM} for fish: a command, or else a file, and the options of the command."]
    for name, about in whole.commands:
        lines.append(f"complete -c {PROGRAM} -n __fish_use_subcommand -a {name} -d {quoted(about)}")
    for name, command in commands.items():
        for option in command.options:
            value = f" -x -a {quoted(' '.join(option.words))}" if option.words else " -x" if option.value else ""
            within = quoted(f"__fish_seen_subcommand_from {name}")
            lines.append(f"complete -c {PROGRAM} -n {within} -l {option.long}{value} -d {quoted(option.help)}")
    return "\n".join(lines) + "\n"


def pages(program):
    """The text of each page, by its path."""
    whole, commands = read_all(program)
    return {
        "docs/generated/COMMANDS.md": command_page(program, commands),
        f"{SHARE}/man/man1/{PROGRAM}.1": man_page(whole, commands),
        f"{SHARE}/bash-completion/completions/{PROGRAM}": bash(whole, commands),
        f"{SHARE}/zsh/site-functions/_{PROGRAM}": zsh(whole, commands),
        f"{SHARE}/fish/vendor_completions.d/{PROGRAM}.fish": fish(whole, commands),
    }

"""The man page and the completions of shells, made of what the program says with --help.

The library that reads the command line prints help and makes no completions, so the text of its help is taken apart
here: nothing is said twice. `--compiled` in the place of a program is the program compiled without proofs, which takes
a minute or two.
"""
import dataclasses
import glob
import re
import subprocess
import sys
import tempfile

from sources import ROOT, read, write

NAME = "hg_pushd"
SECTIONS = ("Commands:", "Arguments:", "Options:")
# an entry of a section: its words, and after two spaces or in the next line what it does
ENTRY = re.compile(r"^ {2,}(-\S.*?|<\S+>\S*|\[\S+\]\S*|\w[\w-]*)(?: {2,}(.*))?$")
OPTION = re.compile(r"(?:-(\w), +)?--([\w-]+)(?: <(\w+)>)?")


@dataclasses.dataclass
class Entry:
    """A command, an argument or an option, and what it does."""

    words: str
    does: str

    @property
    def option(self):
        """The short and the long form of an option, and the name of its value."""
        found = OPTION.match(self.words)
        return found.groups(default="") if found else None


@dataclasses.dataclass
class Help:
    """What the program says of itself, or of one of its commands."""

    about: str
    usage: str
    commands: list
    arguments: list
    options: list
    after: list

    def paragraph(self, start):
        return next((it.removeprefix(start).strip() for it in self.after if it.startswith(start)), "")


def built(program):
    """What the built program says to some words."""
    def said(*words):
        run = subprocess.run([*program, *words], capture_output=True, check=False, text=True)
        if run.returncode or not run.stdout:
            sys.exit(f"manual: {' '.join([*program, *words])} has status {run.returncode}\n{run.stderr}")
        return run.stdout
    return said


def compiled():
    """What the program says that is compiled once, without proofs, and run on all words that are asked here.
    The names of its commands are those of its sources."""
    source = "".join(read(path) for path in glob.glob(f"{ROOT}/crates/hg_commands/src/**/*.rt", recursive=True))
    names = re.findall(r'= CommandRow \{\s*name: "(\w+)"', source)
    asked = [("--version",), ("--help",), *((it, "--help") for it in names)]
    with tempfile.TemporaryDirectory() as cases:
        for number, words in enumerate(asked):
            write(f"{cases}/{number:02}", "")
            write(f"{cases}/{number:02}.args", "".join(f"{it}\n" for it in words))
        run = subprocess.run(["rt", "try", "--cases", cases], cwd=f"{ROOT}/crates/hg_pushd",
                             capture_output=True, check=False, text=True)
    answers = re.split(r"^== \d\d\n", run.stdout, flags=re.M)[1:]
    if run.returncode or len(answers) != len(asked):
        sys.exit(f"manual: the program is not compiled, or has another status\n{run.stderr}")
    return lambda *words: answers[asked.index(words)]


def entries(lines):
    """The entries of a section; a line that begins none goes on with the one before."""
    found = []
    for line in lines:
        entry = ENTRY.match(line)
        if entry and len(line) - len(line.lstrip()) <= 6:
            found.append(Entry(entry[1].strip(), (entry[2] or "").strip()))
        elif found:
            found[-1].does = f"{found[-1].does} {line.strip()}".strip()
    return found


def read_help(text):
    found = Help("", "", [], [], [], [])
    sections = {name: getattr(found, name.rstrip(":").lower()) for name in SECTIONS}
    for block in re.split(r"\n{2,}", text.strip()):
        lines = block.split("\n")
        if lines[0].startswith("Usage:"):
            found.usage = lines[0].removeprefix("Usage:").strip()
        elif lines[0] in sections:
            sections[lines[0]].extend(entries(lines[1:]))
        elif not found.usage:
            found.about = " ".join(block.split())
        elif lines[0].startswith("  "):
            # where entries stand apart, each is a block
            last = found.options or found.arguments or found.commands
            last.extend(entries(lines))
        else:
            found.after.append(" ".join(block.split()))
    # the name under which it was run is of no matter
    found.usage = re.sub(r"^\S+", NAME, found.usage)
    return found


class Manual:
    """What the program and each of its commands say."""

    def __init__(self, program):
        said = compiled() if program == ["--compiled"] else built(program)
        self.version = said("--version").split()[1]
        self.whole = read_help(said("--help"))
        names = [it.words for it in self.whole.commands if it.words != "help"]
        self.commands = {it: read_help(said(it, "--help")) for it in names}
        if not names or not all(it.usage and it.options for it in self.commands.values()):
            sys.exit("manual: the help has another form than wanted")


# The man page.

def roff(text):
    """Text as roff shows it."""
    text = text.replace("\\", "\\e").replace("-", "\\-")
    return f"\\&{text}" if text[:1] in (".", "'") else text


def entries_as_roff(found):
    for it in found:
        words = re.sub(r"<(\w+)>", r"\\fI\1\\fB", roff(it.words))
        yield from (".TP", f"\\fB{words}\\fR", roff(it.does))


def man(manual):
    whole = manual.whole
    yield f'.TH {NAME.upper()} 1 "" "{NAME} {manual.version}" "User Commands"'
    yield from (".SH NAME", f"{NAME} \\- {roff(whole.about[0].lower() + whole.about[1:])}")
    yield ".SH SYNOPSIS"
    for told in manual.commands.values():
        yield from (f".B {roff(told.usage)}", ".br")
    yield from (".SH DESCRIPTION", roff(whole.about) + ".")
    yield ".SH COMMANDS"
    for name, told in manual.commands.items():
        yield from (f".SS {name}", roff(told.about) + ".")
        yield from entries_as_roff([*told.arguments, *told.options])
        for paragraph in told.after:
            yield from paragraph_as_roff(paragraph)
    yield from (".SH OPTIONS", *entries_as_roff(whole.options))
    status = whole.paragraph("Status:")
    if status:
        yield from (".SH EXIT STATUS", roff(status))
    for paragraph in whole.after:
        if not paragraph.startswith("Status:"):
            yield from (".PP", roff(paragraph))
    yield from (".SH SEE ALSO", ".BR hg (1)", ".PP",
                "The documents that came with the program, in share/doc/deqtorap below the place where it "
                "was installed: operating.md and team.md.")


def paragraph_as_roff(paragraph):
    example = paragraph.removeprefix("Example:").strip()
    if example != paragraph:
        return [".PP", "Example:", ".RS 4", ".EX", roff(example), ".EE", ".RE"]
    return [".PP", roff(paragraph)]


# The completions.

def kind(value):
    """Which files a value may name: none, folders, or all."""
    if value in ("DIR", "FOLDER"):
        return "folders"
    return "files" if value.rstrip(".").strip("<>[]").startswith("FILE") else ""


def takes_files(told):
    """Whether files stand on the command line by themselves."""
    return any(kind(it.words) == "files" for it in told.arguments)


def long_words(told):
    return " ".join(f"--{it.option[1]}" for it in told.options if it.option)


def bash(manual):
    words = " ".join([*manual.commands, "help"])
    yield f"# completes the words of {NAME} in bash; made by tools/package.py"
    yield f"_{NAME}_words() {{"
    yield '    mapfile -t COMPREPLY < <(compgen "$@" -- "${COMP_WORDS[COMP_CWORD]}")'
    yield "}"
    yield f"_{NAME}() {{"
    yield "    COMPREPLY=()"
    yield '    [ "$COMP_CWORD" = 1 ] &&'
    yield f"        {{ _{NAME}_words -W '{words} {long_words(manual.whole)}'; return; }}"
    yield '    case "${COMP_WORDS[1]} ${COMP_WORDS[COMP_CWORD - 1]}" in'
    for name, told in manual.commands.items():
        for it in told.options:
            if it.option and it.option[2]:
                how = {"folders": f"_{NAME}_words -d; ", "files": f"_{NAME}_words -f; "}
                yield f"        '{name} --{it.option[1]}') {how.get(kind(it.option[2]), '')}return ;;"
    yield "    esac"
    yield '    case "${COMP_WORDS[1]} ${COMP_WORDS[COMP_CWORD]}" in'
    yield f"        'help '*) _{NAME}_words -W '{words}' ;;"
    for name, told in manual.commands.items():
        options = "-*" if takes_files(told) else "*"
        yield f"        '{name} '{options}) _{NAME}_words -W '{long_words(told)}' ;;"
        if takes_files(told):
            yield f"        '{name} '*) _{NAME}_words -f ;;"
    yield "    esac"
    yield "}"
    yield f"complete -o filenames -F _{NAME} {NAME}"


def quoted(text):
    return "'" + text.replace("'", "'\\''") + "'"


def zsh_option(it):
    short, long, value = it.option
    does = re.sub(r"([\[\]:\\])", r"\\\1", it.does)
    takes = f":{value}:{ {'folders': '_files -/', 'files': '_files'}.get(kind(value), ' ') }" if value else ""
    for form in filter(None, (f"-{short}" if short else "", f"--{long}")):
        yield quoted(f"{form}[{does}]{takes}")


def zsh(manual):
    yield f"#compdef {NAME}"
    yield f"# completes the words of {NAME} in zsh; made by tools/package.py"
    yield f"_{NAME}() {{"
    yield "    local -a commands"
    yield "    if (( CURRENT == 2 )); then"
    yield "        commands=("
    for it in manual.whole.commands:
        does = it.does.replace(":", "\\:")
        yield f"            {quoted(f'{it.words}:{does}')}"
    yield "        )"
    yield "        _describe command commands"
    yield f"        _arguments {' '.join(form for it in manual.whole.options for form in zsh_option(it))}"
    yield "        return"
    yield "    fi"
    yield "    local command=$words[2]"
    yield "    shift words"
    yield "    (( CURRENT-- ))"
    yield '    case "$command" in'
    for name, told in manual.commands.items():
        words = [form for it in told.options if it.option for form in zsh_option(it)]
        words += ["'*:file:_files'"] if takes_files(told) else []
        yield f"        {name})"
        yield "            _arguments " + " \\\n                ".join(words)
        yield "            ;;"
    yield "        help)"
    yield f"            _values command {' '.join(manual.commands)}"
    yield "            ;;"
    yield "    esac"
    yield "}"
    yield f'_{NAME} "$@"'


def fish(manual):
    yield f"# completes the words of {NAME} in fish; made by tools/package.py"
    yield f"complete -c {NAME} -f"
    for it in manual.whole.commands:
        yield f"complete -c {NAME} -n __fish_use_subcommand -a {it.words} -d {fish_quoted(it.does)}"
    yield from (fish_option("__fish_use_subcommand", it) for it in manual.whole.options)
    for name, told in manual.commands.items():
        of = f"'__fish_seen_subcommand_from {name}'"
        yield from (fish_option(of, it) for it in told.options if it.option)
        if takes_files(told):
            yield f"complete -c {NAME} -n {of} -F"
    yield f"complete -c {NAME} -n '__fish_seen_subcommand_from help' -a '{' '.join(manual.commands)}'"


def fish_quoted(text):
    return "'" + text.replace("\\", "\\\\").replace("'", "\\'") + "'"


def fish_option(of, it):
    short, long, value = it.option
    names = f"{f'-s {short} ' if short else ''}-l {long}"
    takes = {"folders": " -x -a '(__fish_complete_directories)'", "files": " -r -F", "": " -x"}[kind(value)]
    return f"complete -c {NAME} -n {of} {names}{takes if value else ''} -d {fish_quoted(it.does)}"


MADE = {
    "man": (man, f"{NAME}.1"),
    "bash": (bash, f"{NAME}.bash"),
    "zsh": (zsh, f"_{NAME}"),
    "fish": (fish, f"{NAME}.fish"),
}


def text(what, manual):
    return "".join(f"{line}\n" for line in MADE[what][0](manual))


def write_all(folder, program):
    """Writes the man page and the completions into a folder."""
    manual = Manual(program)
    for what, (_, name) in MADE.items():
        write(f"{folder}/{name}", text(what, manual))

#!/usr/bin/env python3
"""pages.py ROOT VERSION DATE   writes manual pages and completions of the commands in ROOT/usr/bin, below ROOT/usr/share.

All of it is made of what the commands print for --help: a page for each command, a completion for bash for each, and one for zsh.
"""
import gzip
import os
import pathlib
import re
import subprocess
import sys
from typing import Dict, List, NamedTuple, Optional

PROGRAM = "jepmon"
MODELS = ("register", "cas-register", "mutex", "fifo-queue", "unordered-queue", "set", "wide-register", "wide-cas-register", "wide-set", "wide-fifo-queue", "wide-unordered-queue")
WORDS = {"--mode": ("strict", "sloppy"), "--faults": ("off", "on")}  # of `jepmon run`
SUMMARY = "proved linearizability checker"
VALUE = r"<?[A-Z][A-Z=]*>?|\{[^}]*\}"
NAME = rf"--[a-z][a-z-]*(?: (?:{VALUE}))?"
OPTION = re.compile(rf"^ {{2,6}}(?:-\w, )?(?P<names>{NAME}(?:, {NAME})*)(?:  +(?P<text>.*))?$")
FILES = ("FILE", "DIR", "PAGE", "FOLDER", "PATH")
COMMAND = re.compile(r"^ {2,4}([a-z]+)  +([A-Z].*)$")
STATUS = "0 legal, 1 illegal, 2 unknown, 3 refused. Of confirm: 0 linearizable, 1 no order, 3 refused."


class Option(NamedTuple):
    """An option of a command: its names, whether it takes a value, the words that this may be, and what it does."""

    names: List[str]
    value: Optional[str]
    words: List[str]
    text: str


class Command(NamedTuple):
    """A command, what it prints for --help, and the help of each of its own commands."""

    name: str
    help: str
    below: Dict[str, str]


# --- What commands say of themselves ---


def said(root: pathlib.Path, *words: str) -> str:
    """What a command of the package prints."""
    environment = dict(os.environ, COLUMNS="78", PYTHONPATH=str(root / "usr/lib/python3/dist-packages"), PYTHONDONTWRITEBYTECODE="1")
    ran = subprocess.run([str(root / "usr/bin" / words[0]), *words[1:]], stdin=subprocess.DEVNULL, stdout=subprocess.PIPE, env=environment,
                         check=True, universal_newlines=True)
    return ran.stdout.replace(f"{root}/usr/bin/", "")


def command(root: pathlib.Path, name: str) -> Command:
    text = said(root, name, "--help")
    below: Dict[str, str] = {}
    if name == PROGRAM:
        found = [match.group(1) for match in map(COMMAND.match, text.splitlines()) if match]
        below = {word: said(root, name, word, "--help") for word in found if word != "help"}
    elif re.search(r"^usage: .*\bsplit\|judge\|join\b", text, re.M):
        below = {word: said(root, name, word, "--help") for word in ("split", "judge", "join")}
    return Command(name, text, below)


def options(text: str) -> List[Option]:
    """The options that a --help names."""
    found: List[Option] = []
    lines = text.splitlines()
    for place, line in enumerate(lines):
        match = OPTION.match(line)
        if match is None:
            continue
        rest = [match.group("text") or ""]
        for more in lines[place + 1:]:
            if OPTION.match(more) or not more.startswith("      "):
                break
            rest.append(more.strip())
        of_it = " ".join(re.sub(r"\[default: .*?\]", "", " ".join(rest)).replace("- ", "-").split())
        names, values = re.findall(r"--[a-z-]+", match.group("names")), re.findall(VALUE, match.group("names"))
        value: Optional[str] = values[0] if values else None
        if all(names != other.names for other in found):
            found.append(Option(names, value, words_of(names[0], value, of_it), of_it))
    return found


def words_of(name: str, value: Optional[str], text: str) -> List[str]:
    """The words that the value of an option may be, if they are few."""
    if value is not None and value.startswith("{"):
        return value[1:-1].split(",")
    if name in ("--model", "--object"):
        return [model for model in MODELS if re.search(rf"(?<![\w-]){model}(?![\w-])", text)]
    return [word for word in WORDS.get(name, ()) if value is not None]


# --- Manual pages ---


def escaped(line: str) -> str:
    line = line.replace("\\", "\\e").replace("-", "\\-").replace("'", "\\(aq").replace("`", "\\(ga").replace("^", "\\(ha").replace("~", "\\(ti")
    return f"\\&{line}" if line.startswith(".") else line


def body(text: str) -> str:
    """A text as a page has it: lines at the margin are paragraphs, or titles if they end with a colon and are short; others stay as they are."""
    made: List[str] = []
    is_kept = False
    for line in text.strip("\n").splitlines():
        keeps = line.startswith(" ")
        if keeps != is_kept:
            made.append(".nf" if keeps else ".fi")
            is_kept = keeps
        if not line.strip():
            made.append(".PP")
        elif re.match(r"^[A-Za-z][A-Za-z ,]{2,40}:$", line):
            made.append(f'.SS "{escaped(line[:-1].capitalize())}"')
        else:
            made.append(escaped(line.rstrip()))
    return tidied("\n".join(made + ([".fi"] if is_kept else [])))


def tidied(text: str) -> str:
    """Without requests that do nothing, of which groff warns."""
    text = re.sub(r"\.nf\n\.PP\n", ".PP\n.nf\n", text)
    text = re.sub(r"(?:\.PP\n)+(\.SS|\.SH|\.PP)", r"\1", text)
    text = re.sub(r"(\.S[SH] [^\n]*\n)\.PP\n", r"\1", text)
    return re.sub(r"(?:\.PP\n?)+$", "", text)


def page(of: Command, version: str, date: str) -> str:
    usage, _, rest = of.help.partition("\n\n")
    if of.name == PROGRAM:
        summary = SUMMARY
        sections = {"SYNOPSIS": f"{PROGRAM} [COMMAND] [OPTIONS]", "DESCRIPTION": of.help}
        sections.update({f"{PROGRAM} {word}".upper(): text for word, text in of.below.items()})
        sections["EXIT STATUS"] = STATUS
    else:
        first = re.split(r"[.:](?:\s|$)", rest, maxsplit=1)[0]
        summary = " ".join(first.split())
        sections = {"SYNOPSIS": re.sub(r"^usage: ", " ", usage), "DESCRIPTION": rest}
        sections.update({f"{of.name} {word}".upper(): text for word, text in of.below.items()})
    sections["SEE ALSO"] = "The guide and its chapters: /usr/share/doc/jepmon"
    head = f'.TH {of.name.upper()} 1 "{date}" "jepmon {version}" "User Commands"\n.SH NAME\n{of.name} \\- {escaped(summary[0].lower() + summary[1:])}\n'
    return head + "".join(f'.SH "{escaped(title)}"\n{body(text)}\n' for title, text in sections.items())


# --- Completions ---


def bash_options(text: str) -> str:
    """Lines of a case over the word before, and the options."""
    lines = []
    for option in options(text):
        if option.words:
            lines.append(f'    {"|".join(option.names)}) words="{" ".join(option.words)}" ;;')
        elif option.value is not None:
            lines.append(f'    {"|".join(option.names)}) ' + ('words="" ;;' if option.value.strip("<>") in FILES else "return ;;"))
    names = " ".join(name for option in options(text) for name in option.names)
    return "\n".join([f'  local words="{names}"', "  case $before in", *lines, '    *) [[ $current == -* ]] || words="" ;;', "  esac"])


def bash(of: Command) -> str:
    function = "_" + of.name.replace("-", "_")
    parts = [f"# Completions of {of.name} for bash, made of its --help.", f"{function}() {{",
             "  local current=${COMP_WORDS[COMP_CWORD]} before=${COMP_WORDS[COMP_CWORD - 1]}"]
    if of.below:
        parts += ["  if [ \"$COMP_CWORD\" -eq 1 ]; then", f'    mapfile -t COMPREPLY < <(compgen -W "{" ".join(of.below)} --help --version" -- "$current")',
                  "    return", "  fi", "  case ${COMP_WORDS[1]} in"]
        for word, text in of.below.items():
            parts += [f"  {word})", bash_options(text), "  ;;"]
        parts += ["  *) return ;;", "  esac"]
    else:
        parts.append(bash_options(of.help))
    parts += ['  mapfile -t COMPREPLY < <(if [ -n "$words" ]; then compgen -W "$words" -- "$current"; else compgen -f -- "$current"; fi)', "}",
              f"complete -o filenames -F {function} {of.name}", ""]
    return "\n".join(parts)


def zsh_option(option: Option) -> List[str]:
    text = re.split(r"(?<=[a-z)])[.;:](?:\s|$)", option.text)[0].replace("'", "").replace("[", "(").replace("]", ")").replace(":", "")
    if option.words:
        action = f":{option.names[0][2:]}:({' '.join(option.words)})"
    else:
        value = (option.value or "").strip("<>")
        action = f":{value.lower()}:{'_files' if value in FILES else ' '}" if value else ""
    return [f"'{name}[{text}]{action}'" for name in option.names]


def zsh_arguments(text: str) -> str:
    return " \\\n    ".join(["_arguments -s", *(one for option in options(text) for one in zsh_option(option)), "'*:file:_files'"])


def zsh(commands: List[Command]) -> str:
    parts = [f"#compdef {' '.join(one.name for one in commands)}", "# Completions for zsh, made of --help.", "case $service in"]
    for one in commands:
        parts.append(f"{one.name})")
        if one.below:
            parts += [f"  if (( CURRENT == 2 )); then compadd -- {' '.join(one.below)} --help --version; return; fi",
                      "  local command=$words[2]", "  shift words; (( CURRENT-- ))", "  case $command in"]
            for word, text in one.below.items():
                parts += [f"  {word})", f"    {zsh_arguments(text)}", "  ;;"]
            parts.append("  esac")
        else:
            parts.append(f"  {zsh_arguments(one.help)}")
        parts.append("  ;;")
    return "\n".join([*parts, "esac", ""])


def main() -> None:
    root, version, date = pathlib.Path(sys.argv[1]).resolve(), sys.argv[2], sys.argv[3]
    commands = [command(root, file.name) for file in sorted((root / "usr/bin").iterdir())]
    share = root / "usr/share"
    for folder in ("man/man1", "bash-completion/completions", "zsh/vendor-completions"):
        (share / folder).mkdir(parents=True, exist_ok=True)
    for one in commands:
        (share / "man/man1" / f"{one.name}.1.gz").write_bytes(gzip.compress(page(one, version, date).encode(), 9, mtime=0))
        (share / "bash-completion/completions" / one.name).write_text(bash(one))
    (share / "zsh/vendor-completions" / "_jepmon").write_text(zsh(commands))


if __name__ == "__main__":
    main()

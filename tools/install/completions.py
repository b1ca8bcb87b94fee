"""Completion of bash, zsh and fish, made of the commands' own helps and of docs/CLI.md."""
import argparse
import os
import re
import sys
from typing import NamedTuple

from program import installed, repo, usage
from verify import words

PAGE = "docs/CLI.md"
# A line of the list of commands in the help of all; an option in the form of a command.
COMMAND, OPTION = re.compile(r"(?m)^  ([a-z]+)  +(\S.*)$"), re.compile(r"--[a-z][a-z-]*")
# A row of a table of options in a page.
ROW = re.compile(r"(?m)^\| `(--[a-z-]+)(?: ([A-Z]+)(?:\\\|[A-Z]+)?)?`[^|]*\| ([^|]*) \|")
HELP = ("--help", None, "print the help")
# So many characters say what an option does.
MOST_SAID = 82
FURTHER, OF_CHECKOUT = ("help", "--version"), ("--build",)


class Option(NamedTuple):
    """An option: its name, the word for what it takes, none if it takes nothing; what it does."""
    name: str
    takes: str
    says: str

    def is_of_files(self):
        """Whether it takes a file or a folder."""
        return bool(self.takes) and bool(re.search("FILE|FOLDER", self.takes))


def short(text):
    """What an option does, in one short line."""
    text, _, _ = text.partition("; ")
    text = " ".join(re.sub(r"\[([^\]]*)\]\([^)]*\)", r"\1", text).replace("`", "").split())
    return text if len(text) <= MOST_SAID else f"{text[:MOST_SAID].rpartition(' ')[0]} .."


def of_parser(made):
    """The options of a parser of Python's argparse."""
    found = []
    for action in made._actions:
        name = next((one for one in action.option_strings if one.startswith("--")), None)
        if name and action.help != argparse.SUPPRESS:
            takes = None if action.nargs == 0 else action.metavar or action.dest.upper()
            found.append(Option(name, takes, short((action.help or "").replace("%(default)s", ""))))
    return found


def section_of(name):
    """The section of the page that is on a command; tools/gate/helps.py looks whether there is one."""
    found = re.search(rf"(?ms)^## `{name}`\n(.*?)(?=^## |\Z)", repo.read(PAGE))
    return found[1] if found else ""


def of_text(text):
    """The options of the tables in a text."""
    return [Option(name, takes or None, short(says)) for name, takes, says in ROW.findall(text)]


def inventory():
    """The options of certpath-inventory."""
    if installed.FOLDER not in sys.path:
        sys.path.insert(1, installed.FOLDER)
    from certpath.inventory import words as of_inventory
    return of_parser(of_inventory.parser())


def subcommands():
    """What each command of certpath does, by its name."""
    listed = usage.GENERAL.partition("Commands:\n")[2].partition("\n\n")[0]
    said = dict(COMMAND.findall(listed))
    return {name: short(said.get(name, "")) for name in sorted(usage.COMMANDS)}


def of_subcommand(name):
    """The options of a command of certpath: those of the form that its section begins with. What one
    does may be said in the section of another command."""
    described = {option.name: option for command in usage.COMMANDS for option in of_text(section_of(f"certpath {command}"))}
    form = section_of(f"certpath {name}").strip().partition("\n\n")[0]
    return [*(described[option] for option in OPTION.findall(form) if option in described), Option(*HELP)]


def scripts():
    """The options of each script, by its name."""
    return {"verify": of_parser(words.parser()), "vouch": [*of_text(section_of("vouch")), Option(*HELP)], "bundle": [Option(*HELP)],
            "inventory": inventory()}


def names(options):
    return " ".join(sorted(option.name for option in options))


def bash(is_installed):
    """The completion of bash: for the commands of an installation, or for the scripts of a checkout."""
    further = FURTHER if is_installed else FURTHER + OF_CHECKOUT
    cases = "".join(f'    {subcommand}) words="{names(of_subcommand(subcommand))}" ;;\n' for subcommand in subcommands())
    others = {(installed.COMMANDS[script] if is_installed else script): options for script, options in scripts().items()
              if is_installed or os.path.exists(os.path.join(repo.TOP, script))}
    tables = "".join(f'    {name}) words="{names(options)}" ;;\n' for name, options in others.items())
    return f"""# Completion of bash for certpath, {', '.join(others)}. Made of the commands' helps.
_certpath() {{
  local word=${{COMP_WORDS[COMP_CWORD]}} words
  if [ "$COMP_CWORD" -eq 1 ]; then
    COMPREPLY=($(compgen -W "{' '.join([*subcommands(), *further])}" -- "$word"))
    return
  fi
  case ${{COMP_WORDS[1]}} in
    help) words="{' '.join(subcommands())}" ;;
{cases}  esac
  _certpath_words "$word" "$words"
}}
_certpath_other() {{
  local word=${{COMP_WORDS[COMP_CWORD]}} words
  case ${{1##*/}} in
{tables}  esac
  _certpath_words "$word" "$words"
}}
_certpath_words() {{
  case $1 in
    -*) COMPREPLY=($(compgen -W "$2" -- "$1")) ;;
    *) COMPREPLY=($(compgen -f -- "$1")) ;;
  esac
  if [ "${{COMP_WORDS[COMP_CWORD - 1]}}" = --anchors ]; then
    COMPREPLY+=($(compgen -W system -- "$1"))
  fi
}}
complete -o filenames -F _certpath certpath
complete -o filenames -F _certpath_other {' '.join(others)}
"""


def quoted(text):
    """A text between single quotes, for zsh and fish alike: of ours, which have no backslash."""
    return "'" + text.replace("'", "’") + "'"


def zsh_option(option):
    """What _arguments of zsh takes for an option."""
    said = option.says.replace("[", "(").replace("]", ")").replace(":", ";")
    if not option.takes:
        return quoted(f"*{option.name}[{said}]")
    action = "_files" if option.is_of_files() else " "
    return quoted(f"*{option.name}[{said}]:{option.takes}:{action}")


def zsh_arguments(options, indent):
    lines = [*map(zsh_option, options), quoted("*:file:_files")]
    return f" \\\n{indent}  ".join([f"{indent}_arguments", *lines])


def zsh():
    """The completion of zsh."""
    listed = " ".join(quoted(f"{name}:{says}") for name, says in subcommands().items())
    cases = "".join(f"    {subcommand})\n{zsh_arguments(of_subcommand(subcommand), '      ')} ;;\n" for subcommand in subcommands())
    others = "".join(f"  {installed.COMMANDS[name]})\n{zsh_arguments(options, '    ')} ;;\n"
                     for name, options in scripts().items())
    return f"""#compdef {' '.join(installed.COMMANDS.values())}
# Made of the commands' helps.
_certpath_command() {{
  local -a commands
  commands=({listed} {' '.join(FURTHER)})
  if (( CURRENT == 2 )); then
    _describe command commands
    return
  fi
  local command=$words[2]
  shift words
  (( CURRENT-- ))
  case $command in
{cases}    help)
      _describe command commands ;;
  esac
}}
case $service in
  certpath) _certpath_command ;;
{others}esac
"""


def fish_options(command, condition, options):
    for option in options:
        takes = "" if not option.takes else " -r -F" if option.is_of_files() else " -x"
        yield f"complete -c {command}{condition} -l {option.name[2:]}{takes} -d {quoted(option.says)}"


def fish():
    """The completion of fish."""
    lines = ["# Made of the commands' helps."]
    for name, says in subcommands().items():
        lines.append(f"complete -c certpath -n __fish_use_subcommand -f -a {name} -d {quoted(says)}")
        lines += fish_options("certpath", f" -n '__fish_seen_subcommand_from {name}'", of_subcommand(name))
    lines += [f"complete -c certpath -n __fish_use_subcommand {'-l' if entry.startswith('--') else '-f -a'} {entry.lstrip('-')}"
              for entry in FURTHER]
    for name, options in scripts().items():
        lines += fish_options(installed.COMMANDS[name], "", options)
    lines.append("complete -c certpath-verify -l anchors -x -a \"system (__fish_complete_path)\"")
    return "\n".join(lines) + "\n"

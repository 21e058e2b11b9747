"""Makes completions of the command `sebrakt` and of the programs, from the words that they take."""
import argparse

from package import agent

OF_NODES = ["--weigh", "--intensity", "--period", "--buffer"]
OF_PROGRAMS = {"supctl": {"simulate": [*OF_NODES, "--help"], "cluster": [*OF_NODES, "--help"], "place": ["--weigh", "--help"], "inspect": ["--weigh", "--help"]},
               "supd": {"": ["--image", *OF_NODES]}, "supdraw": {"": []}}
BASH = """# Completion of {name}; of ids and machines too, where python3-argcomplete is there.
_{name}() {{
  local word=${{COMP_WORDS[COMP_CWORD]}} verb=${{COMP_WORDS[1]}} words
  [ "$COMP_CWORD" -gt 1 ] || verb=
  case $verb in
{cases}
  esac
  mapfile -t COMPREPLY < <(compgen -W "$words" -- "$word")
}}
complete -o default -F _{name} {name}
"""
ASKED = """if command -v register-python-argcomplete >/dev/null; then
  eval "$(register-python-argcomplete sebrakt)"
fi
"""


def of_sebrakt():
    """Its commands, each with its options."""
    words = {verb: options_of(parser) for verb, parser in verbs_of(agent.module("command_words").parser()).items()}
    own = verbs_of(agent.module("options").words(""))
    words.update({verb: options_of(own[verb]) for verb in ("run", "init", "serve", "move")})
    return words


def verbs_of(parser):
    return next(action for action in parser._actions if isinstance(action, argparse._SubParsersAction)).choices


def options_of(parser):
    return sorted(option for action in parser._actions for option in action.option_strings if option.startswith("--"))


def bash(name, words):
    cases = [f"    {verb}) words='{' '.join(options)}' ;;" for verb, options in words.items() if verb]
    cases.append(f"    *) words='{' '.join([verb for verb in words if verb] + words.get('', []) + ['--help', '--version'])}' ;;")
    return BASH.format(name=name, cases="\n".join(cases)) + (ASKED if name == "sebrakt" else "")


def zsh(name, words):
    cases = [f"  {verb}) compadd -- {' '.join(options)}; _files ;;" for verb, options in words.items() if verb and options]
    first = " ".join([verb for verb in words if verb] + words.get("", []) + ["--help", "--version"])
    lines = [f"#compdef {name}", "if (( CURRENT == 2 )); then", f"  compadd -- {first}", "  return", "fi", "case $words[2] in", *cases, "  *) _files ;;", "esac"]
    return "\n".join(lines) + "\n"


def all_of_them():
    """Each program's name and the words that it takes."""
    return {"sebrakt": of_sebrakt(), **OF_PROGRAMS}

"""`./escrow completion`: the completion of the commands for a shell, made from the table of commands."""

from __future__ import annotations

from .commands import Command, Commands, option_words, read_commands
from .speaking import Words, put_out
from .statuses import DONE

WHAT = """\
The completion of these commands for a shell, on standard output: names of commands, options of each, and files. In ~/.bashrc or
~/.zshrc stands: source <(/path/to/escrow completion bash), or zsh."""

BASH = """\
# The completion of ./escrow, which `./escrow completion %(shell)s` makes.
_escrow() {
  local word=${COMP_WORDS[COMP_CWORD]} command= place options
  for ((place = 1; place < COMP_CWORD; place++)); do
    if [[ ${COMP_WORDS[place]} != -* ]]; then
      command=${COMP_WORDS[place]}
      break
    fi
  done
  COMPREPLY=()
  if [[ -z $command ]]; then
    COMPREPLY=($(compgen -W '%(names)s --explain --no-explain --force --help --version' -- "$word"))
    return
  fi
  case $command in
%(cases)s
    *) options= ;;
  esac
  if [[ $word == -* ]]; then
    COMPREPLY=($(compgen -W "$options" -- "$word"))
  elif [[ $command == completion ]]; then
    COMPREPLY=($(compgen -W 'bash zsh' -- "$word"))
  else
    local IFS=$'\n'
    COMPREPLY=($(compgen -f -- "$word"))
  fi
}
complete -o filenames -F _escrow escrow ./escrow
"""
# zsh takes the completion of bash by a module of its own.
ZSH = "autoload -U +X compinit && compinit\nautoload -U +X bashcompinit && bashcompinit\n"
PROGRAM_OPTIONS = ["--explain", "--no-explain", "--force", "--help"]


def words() -> Words:
    parser = Words("completion", WHAT)
    parser.add_argument("shell", metavar="SHELL", choices=("bash", "zsh"), help="bash or zsh")
    return parser


def _options(command: Command) -> list[str]:
    further = {"program": PROGRAM_OPTIONS, "build": ["--help"]}
    return option_words(command) + further.get(command.kind, [])


def completion(shell: str, table: Commands) -> str:
    cases = "\n".join("    %s) options='%s' ;;" % (one.name, " ".join(_options(one))) for one in table.commands)
    names = " ".join(one.name for one in table.commands)
    return (ZSH if shell == "zsh" else "") + BASH % {"shell": shell, "names": names, "cases": cases}


def run(arguments: list[str]) -> int:
    chosen = words().parse_args(arguments)
    put_out(completion(chosen.shell, read_commands()).encode())
    return DONE

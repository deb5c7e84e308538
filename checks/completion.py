#!/usr/bin/env python3
"""Holds the completion of bash and of zsh, completion/cedr.bash and completion/_cedr, to the table of commands in
docs/program.md that they are made from, writes them, and tries them in the shells that are there.

Status 0: all right. 1: something differs.

usage: checks/completion.py            compares, and tries them
       checks/completion.py --write    writes them
"""
import os
import pty
import re
import select
import shutil
import subprocess
import sys
import tempfile
import time
from pathlib import Path

sys.dont_write_bytecode = True

from doc_tables import CODE, Command, commands
from program import ROOT

BASH, ZSH = ROOT / "completion/cedr.bash", ROOT / "completion/_cedr"
# So many numbers at most are offered one by one.
FEW = 64
SECONDS = 20
STOP = re.compile(r"`[^`]*`|[.:;] ")

BASH_TEXT = """# Completion of cedr, cedr-explain and cedr-plan for bash. Made from the table of commands in docs/program.md by
# checks/completion.py --write. Change that table, and not this file.

# What stands behind a command; the status is 1 where the word is none.
_cedr_words() {
  case $1 in
@WORDS@
    *) return 1 ;;
  esac
}

# Offers what stands for a word of this kind.
_cedr_kind() {
  case $1 in
    PLAN)
      compopt -o filenames
      mapfile -t COMPREPLY < <(compgen -f -X '!*.json' -- "$word"; compgen -d -- "$word") ;;
    N:*) mapfile -t COMPREPLY < <(compgen -W "$(seq "${1#N:}")" -- "$word") ;;
    N | '') ;;
    *)
      compopt -o filenames
      mapfile -t COMPREPLY < <(compgen -f -- "$word") ;;
  esac
}

_cedr() {
  local word=${COMP_WORDS[COMP_CWORD]} at kinds='' offered=''
  COMPREPLY=()
  for ((at = 1; at < COMP_CWORD; at++)); do
    if kinds=$(_cedr_words "${COMP_WORDS[at]}"); then break; fi
  done
  if ((at < COMP_CWORD)); then
    read -ra kinds <<< "$kinds"
    _cedr_kind "${kinds[COMP_CWORD - at - 1]-}"
    return
  fi
  offered='@NAMES@'
  if [[ ${COMP_WORDS[0]##*/} == cedr-explain ]]; then offered+=' --progress'; fi
  mapfile -t COMPREPLY < <(compgen -W "$offered" -- "$word")
}

# The words of cedr-plan: its command, a file, and behind `ask` a command of the program without its plan.
_cedr_plan() {
  local word=${COMP_WORDS[COMP_CWORD]} kinds=''
  COMPREPLY=()
  case $COMP_CWORD:${COMP_WORDS[1]} in
    1:*) mapfile -t COMPREPLY < <(compgen -W '@OF_PLAN@ --help' -- "$word") ;;
    2:words) _cedr_kind PLAN ;;
    2:compile | 2:check | 2:ask) _cedr_kind FILE ;;
    3:ask) mapfile -t COMPREPLY < <(compgen -W '@ASKED@' -- "$word") ;;
    *:ask)
      kinds=$(_cedr_words "${COMP_WORDS[3]}") || return
      read -ra kinds <<< "${kinds/PLAN/}"
      _cedr_kind "${kinds[COMP_CWORD - 4]-}" ;;
  esac
}

complete -F _cedr cedr cedr-explain
complete -F _cedr_plan cedr-plan
"""
ZSH_TEXT = """#compdef cedr cedr-explain cedr-plan
# Completion of cedr, cedr-explain and cedr-plan for zsh. Made from the table of commands in docs/program.md by
# checks/completion.py --write. Change that table, and not this file.

_cedr() {
  local curcontext=$curcontext state line
  local -a commands options kinds
  local -A words_of
  commands=(
@COMMANDS@
  )
  words_of=(
@WORDS@
  )
  if [[ ${service:-cedr} == cedr-plan ]]; then
    _cedr_plan
    return
  fi
  [[ ${service:-cedr} == cedr-explain ]] && options=('--progress[say each second how far the files are read]')
  _arguments -C $options '1: :->command' '*:: :->word' && return
  if [[ $state == command ]]; then
    _describe -t commands command commands
    return
  fi
  kinds=(${=words_of[$words[1]]})
  _cedr_kind "${kinds[CURRENT - 1]}"
}

# Offers what stands for a word of this kind.
_cedr_kind() {
  case $1 in
    PLAN) _files -g '*.json(-.)' ;;
    N:*) compadd -- {1..${1#N:}} ;;
    N | '') _message 'no more words' ;;
    *) _files ;;
  esac
}

# The words of cedr-plan: its command, a file, and behind `ask` a command of the program without its plan.
_cedr_plan() {
  case $CURRENT:$words[2] in
    2:*) compadd -- @OF_PLAN@ --help ;;
    3:words) _cedr_kind PLAN ;;
    3:(compile|check|ask)) _cedr_kind FILE ;;
    4:ask) compadd -- @ASKED@ ;;
    *:ask)
      kinds=(${=${words_of[$words[4]]}/PLAN/})
      _cedr_kind "${kinds[CURRENT - 4]}" ;;
    *) _message 'no more words' ;;
  esac
}

_cedr "$@"
"""
# The commands of cedr-plan, and those of the program that its `ask` takes.
OF_PLAN = "compile words check ask"
NOT_ASKED = ("check", "history", "make", "--help", "--version")

# Words, the last of them begun, and what is offered, in a folder with these files. Where no plan begins so, zsh offers
# other files.
FILES = ["plan.json", "plan.txt", "second plan.json", "events.csv"]
TRIED = [
    (["cedr", "st"], ["stream"]),
    (["cedr", "sa"], ["save"]),
    (["cedr", "--v"], ["--version"]),
    (["cedr", "h"], ["history"]),
    (["cedr", "run", "pl"], ["plan.json"]),
    (["cedr", "run", "ev"], [], ["events.csv"]),
    (["cedr", "run", "sec"], ["second plan.json"]),
    (["cedr", "history", "ev"], ["events.csv"]),
    (["cedr", "live", "plan.json", "ev"], ["events.csv"]),
    (["cedr", "resume", "sec"], ["second plan.json"]),
    (["cedr", "resume", "plan.json", "plan.t"], ["plan.txt"]),
    (["cedr", "resume", "plan.json", "plan.txt", "ev"], ["events.csv"]),
    (["cedr", "resume", "plan.json", "plan.txt", "events.csv", "ev"], []),
    (["cedr", "fo"], ["follow"]),
    (["cedr", "follow", "sec"], ["second plan.json"]),
    (["cedr", "follow", "plan.json", "ev"], ["events.csv"]),
    (["cedr", "follow", "plan.json", "plan.txt", "ev"], ["events.csv"]),
    (["cedr", "follow", "plan.json", "plan.txt", "events.csv", "ev"], []),
    (["cedr", "pool", "16"], ["16"]),
    (["cedr", "pool", "4", "pl"], ["plan.json"]),
    (["cedr", "make", "1"], []),
    (["cedr", "run", "plan.json", "pl"], []),
    (["cedr", "--prog"], []),
    (["cedr-explain", "--prog"], ["--progress"]),
    (["cedr-explain", "--progress", "run", "pl"], ["plan.json"]),
    (["cedr-plan", "comp"], ["compile"]),
    (["cedr-plan", "--h"], ["--help"]),
    (["cedr-plan", "words", "pl"], ["plan.json"]),
    (["cedr-plan", "ask", "ev"], ["events.csv"]),
    (["cedr-plan", "ask", "events.csv", "str"], ["stream"]),
    (["cedr-plan", "ask", "events.csv", "hist"], []),
    (["cedr-plan", "ask", "events.csv", "pool", "16"], ["16"]),
    (["cedr-plan", "ask", "events.csv", "resume", "plan.json", "ev"], ["events.csv"]),
    (["cedr-plan", "ask", "events.csv", "follow", "plan.t"], ["plan.txt"]),
    (["cedr-plan", "ask", "events.csv", "run", "ev"], []),
    (["cedr-plan", "check", "events.csv", "ev"], []),
]


def by_name() -> list:
    """The commands, each once: what is said of its first form, and the words of its longest one. In the others files stand where
    files stand in that."""
    first = {one.name: one for one in reversed(commands())}
    longest = {one.name: one for one in sorted(commands(), key=lambda one: len(one.words))}
    return [first[name]._replace(words=longest[name].words) for name in dict.fromkeys(one.name for one in commands())]


def kinds(command: Command) -> str:
    """The words behind a command, and a number with its greatest value where all can be offered."""
    return " ".join(f"N:{command.most()}" if word == "N" and command.most() <= FEW else word for word in command.words)


def about(command: Command) -> str:
    """What the command writes, up to its first colon or full stop outside of code."""
    text = command.text
    end = next((found.start() for found in STOP.finditer(text) if found[0][0] != "`"), len(text))
    return CODE.sub(lambda code: code[1], text[:end]).replace("'", "'\\''").replace(":", "\\:")


def bash_text() -> str:
    words = "\n".join(f"    {one.name}) echo '{kinds(one)}' ;;" for one in by_name())
    return of_plan(BASH_TEXT).replace("@WORDS@", words).replace("@NAMES@", " ".join(one.name for one in by_name()))


def of_plan(text: str) -> str:
    asked = " ".join(one.name for one in by_name() if one.name not in NOT_ASKED)
    return text.replace("@OF_PLAN@", OF_PLAN).replace("@ASKED@", asked)


def zsh_text() -> str:
    lines = "\n".join(f"    '{one.name}:{about(one)}'" for one in by_name())
    words = "\n".join(f"    {one.name} '{kinds(one)}'" for one in by_name())
    return of_plan(ZSH_TEXT).replace("@COMMANDS@", lines).replace("@WORDS@", words)


def in_bash(words: list, folder: Path) -> list:
    """What bash offers for the last of these words."""
    script = ('source "$0"; compopt() { :; }; COMP_WORDS=("$@"); COMP_CWORD=$(($# - 1)); $FUNCTION; '
              'printf "%s\\n" "${COMPREPLY[@]}"')
    env = {**os.environ, "FUNCTION": "_cedr_plan" if words[0] == "cedr-plan" else "_cedr"}
    done = subprocess.run(["bash", "-c", script, BASH, *words], cwd=folder, env=env, capture_output=True, text=True, check=False)
    return done.stdout.split("\n")[:-1] if done.stdout.strip() else done.stderr.split("\n")[:-1]


class Zsh:
    """A zsh at a terminal, in which a line is typed up to a tabulator.

    The line that comes of it is written to a file.
    """

    def __init__(self, folder: Path, home: Path) -> None:
        self.told = home / "line"
        start = (f"PROMPT=; unsetopt beep list_beep; fpath=({ZSH.parent} $fpath); "
                 "autoload -Uz compinit; compinit -D -u\n"
                 f"told() {{ print -r -- $BUFFER > {self.told}.new && mv {self.told}.new {self.told}; BUFFER= }}\n"
                 "zle -N told; bindkey '^X' told; bindkey '^I' expand-or-complete\n")
        (home / ".zshrc").write_text(start)
        self.process, self.terminal = pty.fork()
        if not self.process:
            os.chdir(folder)
            os.execvpe("zsh", ["zsh", "-i", "-d"], {**os.environ, "ZDOTDIR": str(home), "TERM": "dumb", "LANG": "C"})

    def line(self, text: str) -> str:
        """What the line is behind the tabulator."""
        self.told.unlink(missing_ok=True)
        os.write(self.terminal, text.encode() + b"\t\x18")
        end = time.monotonic() + SECONDS
        while time.monotonic() < end and not self.told.exists():
            if select.select([self.terminal], [], [], 0.02)[0]:
                os.read(self.terminal, 65_536)
        return self.told.read_text().rstrip("\n") if self.told.exists() else f"no answer within {SECONDS} s"

    def end(self) -> None:
        os.write(self.terminal, b"exit\n")
        os.close(self.terminal)
        os.waitpid(self.process, 0)


def check_bash(folder: Path, differ: list) -> str:
    if not shutil.which("bash"):
        return "bash skipped, which isn't there"
    for words, wanted, *_ in TRIED:
        came = in_bash(words, folder)
        if came != wanted:
            differ.append(f"bash, {words}: {came}, and {wanted} is wanted")
    return f"{len(TRIED)} lines in bash"


def check_zsh(folder: Path, home: Path, differ: list) -> str:
    """A word that one offer completes stands whole in the line, with a blank behind it; else the line is as it was."""
    if not shutil.which("zsh"):
        return "zsh skipped, which isn't there"
    zsh = Zsh(folder, home)
    for words, *offers in TRIED:
        wanted, typed = offers[-1], " ".join(words)
        last = wanted[0].replace(" ", "\\ ") if wanted else words[-1]
        line = " ".join([*words[:-1], last])
        came = zsh.line(typed)
        if came.rstrip(" ") != line:
            differ.append(f"zsh, {typed!r}: {came!r}, and {line!r} is wanted")
    zsh.end()
    return f"{len(TRIED)} lines in zsh"


def main() -> int:
    made = {BASH: bash_text(), ZSH: zsh_text()}
    if sys.argv[1:] == ["--write"]:
        for path, text in made.items():
            path.write_text(text)
    others = [path.relative_to(ROOT) for path, text in made.items() if not path.is_file() or path.read_text() != text]
    differ = [f"{path} isn't what docs/program.md makes of it; python3 checks/completion.py --write makes it anew"
              for path in others]
    with tempfile.TemporaryDirectory(prefix="cedr-check-") as folder, \
            tempfile.TemporaryDirectory(prefix="cedr-home-") as home:
        for name in FILES:
            Path(folder, name).touch()
        tried = [check_bash(Path(folder), differ), check_zsh(Path(folder), Path(home), differ)]
    summary = f"completion: of {len(by_name())} commands, {', '.join(tried)}: {len(differ)} differences"
    print("\n".join([*differ, summary]))
    return 1 if differ else 0


if __name__ == "__main__":
    sys.exit(main())

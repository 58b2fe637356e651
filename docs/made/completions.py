"""Makes completions/ from what `--help` of each program prints. What a value or an argument is called there says what
is offered for it: files, folders, or the words that it has in small letters, as `auto` in `<1..64|auto>`."""
import re
from typing import Iterable

from lib.named_options import VERBS, Entry, of_section

# what zsh does not offer beside each other
APART = [{"--read-only", "--overwrite"}, {"--read-only", "--uploads"}, {"--forever", "--transfers"},
         {"--forever", "--rounds"}, {"--servers", "--server"}]
MADE = "made by `make docs` of the help that the program prints"
# what is offered, as each shell says it
KINDS = {"FILE": "files", "LOCAL": "files", "SCRIPT": "files", "ROOT": "folders"}
BASH = {"files": "-f", "folders": "-d"}
FISH = {"files": " -r -F", "": " -x"}
ZSH = {"files": "_files", "folders": "_files -/", "": " "}

FUNCTION = """\
# bash completion of {name}, {made}

_{function}() {{
    local words word how verb='' value='' place=0
    COMPREPLY=()
    # bash parts words at colons, too: ADDR:PORT is one word of the line
    read -ra words <<< "${{COMP_LINE:0:COMP_POINT}}"
    # the words before the one that is completed
    if [[ ${{COMP_LINE:COMP_POINT-1:1}} != ' ' ]]; then unset 'words[-1]'; fi
    for word in "${{words[@]:1}}"; do
        if [[ -n $value ]]; then
            value=''
            continue
        fi
        case $word in
        {valued}) value=$word ;;
        -*) ;;
        *) if [[ -z $verb && ' {verbs} ' = *" $word "* ]]; then verb=$word; else place=$((place + 1)); fi ;;
        esac
    done
    # the option whose value is completed, or else the subcommand with the place of the word
    case ${{value:-$verb$place}},$2 in
    {cases}
    *) return ;;
    esac
    if [[ ${{how[0]}} != -W ]]; then compopt -o filenames 2> /dev/null; fi
    mapfile -t COMPREPLY < <(compgen "${{how[@]}}" -- "$2")
}}

complete -F _{function} {name}
"""


def offered(it: Entry) -> str:
    return KINDS.get(it.value) or " ".join(re.findall(r"(?<=\|)[a-z]+", it.value))


def short(it: Entry) -> str:
    """Its help text up to the first semicolon, without its default."""
    return re.sub(r";.*| \[default.*", "", it.text).replace("'", "’")


def section(name: str, title: str) -> list[tuple[str, int, Entry]]:
    """The entries of a section in the help of a program and of its subcommands, each with its subcommand and its
    place."""
    return [(verb, place, it) for verb in VERBS[name] for place, it in enumerate(of_section(name, verb, title))]


def commands(name: str) -> list[Entry]:
    """The subcommands that transfer a file."""
    return [it for it in of_section(name, "", "Commands") if it.value in VERBS[name]]


def cases_of(keys: Iterable[tuple[str, str]]) -> list[str]:
    """An arm of bash for all keys for which the same is offered."""
    found = dict[str, list[str]]()
    for what, key in keys:
        if what and f"{key},*" not in found.setdefault(BASH.get(what, f"-W '{what}'"), []):
            found[BASH.get(what, f"-W '{what}'")].append(f"{key},*")
    return [f"{' | '.join(keys)}) how=({how}) ;;" for how, keys in found.items()]


def of_bash(name: str) -> str:
    options, verbs = section(name, "Options"), " ".join(filter(None, VERBS[name]))
    cases = [*cases_of((offered(it), each) for _, _, it in options for each in it.names), "-*,*) return ;;"]
    for verb in sorted(VERBS[name], reverse=True):
        words = [each for its, _, it in options if its == verb for each in reversed(it.names)]
        cases.append(f"{verb}*,-*) how=(-W '{' '.join(words)}') ;;")
    cases += cases_of((offered(it), f"{verb}{place}") for verb, place, it in section(name, "Arguments"))
    cases += cases_of([(verbs, "0")])
    valued = " | ".join(dict.fromkeys(each for _, _, it in options if it.value for each in it.names))
    return FUNCTION.format(name=name, made=MADE, function=name.replace("-", "_"), valued=valued, verbs=verbs,
                           cases="\n    ".join(cases))


def of_fish(name: str) -> str:
    begin, has_verbs, options = f"complete -c {name}", len(VERBS[name]) > 1, dict[tuple[bool, Entry], list[str]]()
    lines = [f"{begin} -f"] * has_verbs
    for verb, place, it in section(name, "Arguments"):
        if offered(it) == "folders":
            lines.append(f"{begin} -f -a '(__fish_complete_directories)'")
        elif verb and offered(it):
            behind = f"test (count (commandline -opc)) -ge {place + 2}"
            lines.append(f"{begin} -n '__fish_seen_subcommand_from {verb}; and {behind}' -F")
    lines += [f"{begin} -n __fish_use_subcommand -a {it.value} -d '{short(it)}'" for it in commands(name)]
    for verb, _, it in section(name, "Options"):
        options.setdefault((bool(verb), it), []).append(verb)
    for (has_verb, it), verbs in options.items():
        when = f" -n '__fish_seen_subcommand_from {' '.join(verbs)}'" if has_verb else " -n __fish_use_subcommand"
        names = "".join(f" -l {each[2:]}" if each[:2] == "--" else f" -s {each[1:]}" for each in it.names)
        value = FISH.get(offered(it), f" -x -a '{offered(it)}'") if it.value else ""
        lines.append(f"{begin}{when * has_verbs}{names}{value} -d '{short(it)}'")
    return "\n".join([f"# fish completion of {name}, {MADE}\n", *lines, ""])


def of_zsh(name: str) -> str:
    def value(message: str, it: Entry) -> str:
        return ":" + message.replace(":", "\\:") + ":" + ZSH.get(offered(it), f"({offered(it)})")

    def option(it: Entry) -> str:
        names = [each + ("=" if each[:2] == "--" else "+") * bool(it.value) for each in it.names]
        apart = {*it.names[:-1], *(other for pair in APART if it.names[-1] in pair for other in pair - {it.names[-1]})}
        begin = f"({' '.join(sorted({*apart, *it.names[1:]}))})" * bool(apart) + "*" * ("once or more" in it.text)
        named = names[0] if len(names) == 1 else f"'{{{','.join(names)}}}'"
        return f"'{begin}{named}[{short(it)}]{value(it.value, it) * bool(it.value)}'"

    def specs(verb: str) -> str:
        found = [option(it) for it in of_section(name, verb, "Options")]
        found += [f"'{at}{value(short(it), it)}'" for at, it in enumerate(of_section(name, verb, "Arguments"), 1)]
        if not verb and commands(name):
            pairs = " ".join(f'{it.value}\\:"{short(it)}"' for it in commands(name))
            found.append(f"'1:command:(({pairs}))'")
        return "".join(f" \\\n    {it}" for it in found) + "\n"

    text, arms = f"_arguments{specs('')}", "".join(
        f"{verb})\n  shift words\n  (( CURRENT-- ))\n  _arguments{specs(verb)}  ;;\n" for verb in VERBS[name] if verb)
    text = f"case $words[2] in\n{arms}*)\n  {text}  ;;\nesac\n" if arms else text
    return f"#compdef {name}\n# zsh completion of {name}, {MADE}\n\n{text}"


SHELLS = {"bash": of_bash, "fish": of_fish, "zsh": of_zsh}

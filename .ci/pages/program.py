"""The program's text of help, as its test expects it, against the pages, the manual and the completions of three shells."""

import re

from pages.calls import SCRIPT, faults_of_page, limits_of_page
from pages.texts import held, indented_behind, lines_of, text_of

TEST = "crates/test_runs/src/programs.rt"

MANUAL = "docs/man/cvl.1"

BASH, ZSH, FISH = "bindings/shell/cvl.bash", "bindings/shell/_cvl", "bindings/shell/cvl.fish"


def help_text():
    """The lines of help."""
    return re.search(r'^const HELP: &str = "(.*?)\n";$', text_of(TEST), re.M | re.S)[1].split("\n")


def options():
    """Each option of help: its letter, where it has one, its name, and what it does, with the default that stands behind it."""
    found = (re.fullmatch(r" +(?:-(\w), )?--(\w+)(?: <N>)? +(\S.*)", line) for line in help_text())
    return [(option[1] or "", option[2], option[3]) for option in found if option]


def without_default(does):
    return re.sub(r" \[default: .*\]$", "", does)


def check_help():
    yield from held(SCRIPT, TEST, indented_behind(lines_of(SCRIPT), "`cvl --help` prints"), help_text())


def check_manual_statuses():
    """The manual has each status of help, with what it means."""
    manual = lines_of(MANUAL)
    shown = [f"{line[3:]} {manual[number + 1]}" for number, line in enumerate(manual) if re.fullmatch(r"\.B [0-3]", line)]
    wanted = [f"{status[1]} {status[2]}" for status in (re.fullmatch(r"  ([0-3])  (.*)", line) for line in help_text()) if status]
    yield from held(MANUAL, TEST, shown, wanted)


def check_manual_options():
    """The manual has each option of help, with what it does."""
    shown, manual = [], lines_of(MANUAL)
    for number, line in enumerate(manual):
        option = re.match(r'\.B[IR]? (?:\\-(\w) ", " )?\\-\\-(\w+)', line)
        if option:
            shown.append((option[1] or "", option[2], manual[number + 1]))
    yield from held(MANUAL, TEST, list(map(str, shown)), list(map(str, options())))


def check_manual_faults():
    shown = [line[:-1] for line in lines_of(MANUAL) if re.fullmatch(r"[0-9]+ [A-Z][A-Za-z]+[,.]", line)]
    yield from held(MANUAL, SCRIPT, shown, faults_of_page())


def check_manual_limits():
    section = text_of(MANUAL).split("\n.SH LIMITS\n")[1].split("\n.PP\n")[0]
    shown = [f"{what} {most}" for most, what in re.findall(r"^\.B (.*)\n(.*)$", section, re.M)]
    yield from held(MANUAL, SCRIPT, shown, [f"{what} {most}" for what, most in limits_of_page()])


def check_fish():
    """The completion for fish has each option of help, with what it does."""
    shown = [
        (letter, name, does)
        for letter, name, does in re.findall(r"^complete -c cvl (?:-s (\w) )?-l (\w+) .*?-d '(.*)'$", text_of(FISH), re.M)
    ]
    wanted = [(letter, name, without_default(does)) for letter, name, does in options()]
    yield from held(FISH, TEST, list(map(str, shown)), list(map(str, wanted)))


def check_zsh():
    """The same for zsh, which says in small letters what an option does."""
    shown = re.findall(r"^ +'(?:\(- \*\)'\{-(\w),)?--(\w+)(?:=|\}')?\W*\[(.*?)\]", text_of(ZSH), re.M)
    wanted = [(letter, name, without_default(does)[0].lower() + without_default(does)[1:]) for letter, name, does in options()]
    yield from held(ZSH, TEST, list(map(str, shown)), list(map(str, wanted)))


def numbers_offered():
    """What each shell offers for each option that takes a number, and what else an option of fish has."""
    bash = re.findall(r'^    --(\w+)\) mapfile .* -W "(.*?)"', text_of(BASH), re.M)
    zsh = re.findall(r"^ +'--(\w+)=\[.*?\]:\w+:\((.*?)\)'", text_of(ZSH), re.M)
    fish = re.findall(r"^complete -c cvl -l (\w+) (.*) -d '", text_of(FISH), re.M)
    return bash, zsh, fish


def check_numbers():
    """The three shells offer the same numbers for each option that takes one, and fish, by `-x`, no files."""
    bash, zsh, fish = numbers_offered()
    wanted = [name for _, name, does in options() if does != without_default(does)]
    yield from held(BASH, TEST, [name for name, _ in bash], wanted)
    yield from held(ZSH, BASH, list(map(str, zsh)), list(map(str, bash)))
    yield from held(FISH, BASH, list(map(str, fish)), [str((name, f"-x -a '{numbers}'")) for name, numbers in bash])


def check_bash():
    """The completion for bash names each option of help, in both its forms, and knows each that takes a number."""
    words = re.search(r'-\*\) mapfile .* -W "(.*?)"', text_of(BASH))[1].split()
    wanted = [word for letter, name, _ in options() for word in (f"--{name}", f"-{letter}") if word != "-"]
    yield from held(BASH, TEST, words, wanted)
    numbers = re.findall(r"^    (--\w+)\)", text_of(BASH), re.M)
    yield from held(BASH, TEST, numbers, [f"--{name}" for _, name, does in options() if does != without_default(does)])

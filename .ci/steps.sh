# shellcheck shell=bash
# What the steps of .ci/after in bash have in common. A step begins with
#     . "$(dirname "$0")/../steps.sh" NAME || exit 2
# and has then: the folder at the top as $top and as its own; $work, a folder that goes with the step; $log in it, for what a command prints;
# give_up, which shows the end of that, tells why with the step's name in front, and ends red. This file runs nothing by itself.
set -u -o pipefail
step=$1
top=$(cd "$(dirname "${BASH_SOURCE[0]}")/.." && pwd -P) || exit 2
cd "$top" || exit 2
work=$(mktemp -d) || exit 2
trap 'rm -rf "$work"' EXIT
log=$work/log
: >"$log" || exit 2

give_up() {
    tail -n 60 "$log"
    tell "$*"
    exit 1
}

# A line with the step's name in front, as the gate shows it.
tell() { echo "$step: $*"; }

# How many tests passed, by what cargo printed into the log.
tests_passed() { sed -n 's/^test result: ok\. \([0-9]*\) passed.*/\1/p' "$log" | awk '{ sum += $1 } END { print sum + 0 }'; }

# A function of tools/common, in a shell of its own: its give_up is another.
in_common() { # FUNCTION WORDS..
    # shellcheck disable=SC2016  # that shell reads them
    top=$top bash -c '. "$top/tools/common" && "$@"' bash "$@"
}

# What runs a program of another processor here, with that processor's C library: the words before the program's, a line each. It fails where there is none.
emulator_of() { # PROCESSOR
    local emulator folder=/usr/$1-linux-gnu
    emulator=$(command -v "qemu-$1" || command -v "qemu-$1-static") && [ -e "$folder/lib/libc.so.6" ] && printf '%s\n' "$emulator" -L "$folder"
}

# The C program of README.md into a folder as my.c; and the line that builds it there, as the page has it.
c_of_readme() { # FOLDER
    # shellcheck disable=SC2016  # as it stands on the page
    sed -n '/^```c$/,/^```$/{/^```/!p}' README.md >"$1/my.c" && [ -s "$1/my.c" ] || give_up "README.md has no C program"
}
line_of_readme() {
    # shellcheck disable=SC2016  # as it stands on the page
    grep -o '`cc -std=c99 my\.c [^`]*`' README.md | tr -d '`' | grep .
}

# Whether README.md says that its C program prints this.
readme_prints() { # WORDS
    grep -qF "It prints \`$1\`" README.md
}

#!/bin/sh
# Runs a Kernel Oz text: ./oz FILE.oz, or ./oz < TEXT, with the program's words. The words, the output and the exit status
# are the program's own; what is said beside them goes to standard error. Where no program of these sources is there yet, it
# is built first, without checking its proofs; `./oz prove` checks them, and from then on the proved program runs. Where it was
# installed from a package, the program stands beside it, and nothing is built.
set -u
# Where it is called through a link, its folder is that of what the link leads to.
self=$(readlink -f -- "$0" 2>/dev/null) || self=$0
top=$(CDPATH='' cd -- "$(dirname -- "$self")" && pwd) || exit 70

# One byte more than the longest text that is read.
most=1048577

# How it is called here, which what it says has for it. A package has the program beside it.
called=./oz
[ ! -x "$top/oz_main" ] || called=oz
OZ_CALLED=$called
export OZ_CALLED

# Sets `program` to the one of these sources that is there: proved, or else not; and `kind` to which it is.
find_program() {
    if [ "$called" = oz ]; then
        kind=$(sed -n 's/^kind //p' "$top/note") program=$top/oz_main
        return
    fi
    for kind in proved unproved; do
        [ -d "$top/out/$kind" ] || continue
        [ "$kind" = proved ] && code='' || code=code
        program=$top/out/$kind/$("$top/.ci/fingerprint" $code)/oz_main
        [ ! -x "$program" ] || return 0
    done
    kind=none
    return 1
}

# Says which program runs.
version() {
    case $kind in
    none)
        if [ -d "$top/out/unproved" ] || [ -d "$top/out/proved" ]; then
            echo 'oz: no program of these sources is built yet: the next run builds it'
        else
            echo 'oz: no program is built yet: the first run builds it'
        fi
        return
        ;;
    packaged-proved) what='a package, whose program was proved where the package was made' ;;
    packaged-unproved) what='a package, whose program was built without checking its proofs' ;;
    proved) what='proved here' ;;
    unproved) what='built without checking its proofs here (./oz prove checks them)' ;;
    esac
    note=$(dirname -- "$program")/note
    echo "oz: $what; $(sed -n 's/^commit/commit/p' "$note"), $(sed -n 's/^kit //p' "$note")"
}

# Runs a command beside this script and waits for it, so that a signal ends both, from before it begins. The command's standard
# input is 3.
waits_for() {
    before=${!-}
    trap 'ended_by 1 HUP' HUP
    trap 'ended_by 2 INT' INT
    trap 'ended_by 3 QUIT' QUIT
    trap 'ended_by 15 TERM' TERM
    "$@" <&3 3<&- &
    wait "$!"
    status=$?
    trap - HUP INT QUIT TERM
    exec 3<&-
    return "$status"
}

# A child of a script ignores INT, so it is ended by TERM.
ended_by() {
    trap '' HUP INT QUIT TERM
    if [ "${!-}" != "$before" ]; then
        kill -TERM "$!" 2>/dev/null
        wait "$!" 2>/dev/null
    fi
    trap - HUP INT QUIT TERM
    kill "-$2" "$$"
    exit $((128 + $1))
}

wants_python() {
    command -v python3 >/dev/null || {
        echo 'oz: python3 is wanted, and is not on the path' >&2
        exit 70
    }
}

# Builds the program where none of these sources is there. With `proofs` it proves it, too.
build() {
    wants_python
    if [ "${1-}" != proofs ]; then
        exec 3</dev/null
        waits_for python3 "$top/.ci/build-unproved" >/dev/null && return
        case $status in
        3) echo 'oz: so the program is proved and built, as ./oz prove does' >&2 ;;
        *) exit 70 ;;
        esac
    fi
    exec 3</dev/null
    waits_for python3 "$top/.ci/build" || exit 70
}

# Finds the program, or builds it.
need_program() {
    find_program && return
    build
    find_program || {
        echo 'oz: the program was built, and is not there: a source was changed meanwhile' >&2
        exit 70
    }
}

# The line and the column of a refusal, where it names a byte or a place.
place_of() {
    case $2 in
    "refused byte "*)
        at=${2#refused byte }
        at=${at%% *}
        line=$(($(head -c "$at" <"$1" | wc -l) + 1))
        column=$(($(head -c "$at" <"$1" | tail -n "+$line" | wc -c) + 1))
        ;;
    "refused "[0-9]*:[0-9]*)
        place=${2#refused }
        place=${place%% *}
        line=${place%:*}
        column=${place#*:}
        ;;
    *) return 1 ;;
    esac
}

# Shows the line that was refused with its place, as editors read it, and a caret under its column, which counts bytes; of a long line the
# part around it.
show_refusal() {
    place_of "$1" "$2" || return 0
    why=${2#refused }
    case $why in
    byte*) ;;
    *) why=${why#* } ;;
    esac
    echo "$name:$line:$column: $why" >&2
    LC_ALL=C awk -v line="$line" -v column="$column" '
        NR == line { row = $0; exit }
        END {
            from = column > 80 ? column - 60 : 1
            shown = substr(row, from, 100)
            before = substr(shown, 1, column - from)
            gsub(/[\200-\277]/, "", before)
            gsub(/[^\t]/, " ", before)
            margin = line " | "
            blank = margin
            gsub(/[0-9]/, " ", blank)
            printf "%s%s\n%s%s^\n", margin, shown, blank, before
        }' <"$1" >&2
}

# Says what a refusal or an end may mean. It changes neither the output nor the status.
hint() {
    [ -x "$top/hints/hint" ] || return 0
    command -v python3 >/dev/null || return 0
    OZ_PROGRAM=$program OZ_TEXT=${text-} OZ_NAME=${name-} "$top/hints/hint" "$@" </dev/null >&2 || :
}

# Runs the program on a text in a file, with these words. One that is refused is so here, where its place is shown. For any
# other the program takes the place of this script, so that signals reach it, but where hints come after it.
run_text() {
    text=$1
    name=${file:--}
    shift
    refusal=$("$program" --steps 1 central <"$text" 2>/dev/null | tail -n 1)
    case $refusal in
    "refused "*)
        "$program" "$@" <"$text"
        status=$?
        if [ "$status" -eq 3 ]; then
            show_refusal "$text" "$refusal"
            hint refusal "$text" "$refusal"
        fi
        [ "$hints" = no ] || hint end "$status" "$@"
        exit "$status"
        ;;
    esac
    [ "$hints" = yes ] || exec "$program" "$@" <"$text" 5<&-
    exec 3<"$text"
    waits_for "$program" "$@"
    hint end "$status" "$@"
    exit "$status"
}

# Refuses words, or a text that is not there, in two lines: why, and the shortest line that shows what is taken. Nothing was built or
# read. Standard output has the program's own answer, but on a terminal, where it would say less than the two lines.
refuse() {
    echo "oz: $1" >&2
    echo "taken: $called ${2-FILE.oz}   ($called help has the rest)" >&2
    [ -t 1 ] || echo usage
    exit 2
}

# A page of help, from the folder of that name.
help_page() {
    [ $# -le 1 ] || refuse "$2: help takes one word more" 'help words'
    page=${1-first}
    case $page in
    first | words | ends) ;;
    *) refuse "$page: no page of help has this name" 'help words, or: help ends' ;;
    esac
    sed "s|\./oz|$called|g" "$top/help/$page" || exit
    [ "$called" = ./oz ] || echo "The pages are in $(dirname -- "$(dirname -- "$top")")/share/doc/kernel-oz."
    exit
}

# Whether a number is one from $2 to $3, which has less than 19 digits or is the largest seed.
is_within() {
    number=${1#+}
    case $number in
    '' | *[!0-9]*) return 1 ;;
    esac
    while [ "${#number}" -gt 1 ] && [ "${number#0}" != "$number" ]; do
        number=${number#0}
    done
    [ "${#number}" -le "${#3}" ] || return 1
    # The largest seed has two halves of ten digits.
    if [ "${#number}" -eq 20 ]; then
        first=${number%??????????} last=${number#??????????}
        [ "$first" -lt 1844674407 ] && return
        [ "$first" -eq 1844674407 ] && [ "1$last" -le 13709551615 ]
        return
    fi
    # Fewer digits are less than the largest seed, which no test of the shell takes.
    [ "${#3}" -eq 20 ] || { [ "$number" -ge "$2" ] && [ "$number" -le "$3" ]; }
}

# Refuses a number that the word before it does not take.
takes_number() {
    case $1 in
    --sites) least=1 greatest=64 range='1 to 64' shown='--sites 4 FILE.oz' ;;
    --workers) least=0 greatest=64 range='0 to 64' shown='--workers 0 FILE.oz' ;;
    --steps) least=1 greatest=1000000000 range='1 to 1,000,000,000' shown='--steps 1000 FILE.oz' ;;
    --messages) least=0 greatest=4000000000 range='0 to 4,000,000,000' shown='--messages 1000 FILE.oz' ;;
    --seed) least=0 greatest=18446744073709551615 range='0 to 2^64 - 1' shown='--seed 7 FILE.oz' ;;
    gen) least=1 greatest=1000 range='1 to 1,000' shown='gen 100' ;;
    esac
    is_within "$2" "$least" "$greatest" || refuse "$1 $2: the number behind $1 is $range" "$shown"
}

# Words of the script's own stand first.
first=${1-}
case $first in
races)
    shift
    wants_python
    # The program certifies what is listed, where it is there.
    find_program && set -- --program "$program" "$@"
    exec "$top/oracle/races" "$@"
    ;;
again)
    shift
    wants_python
    need_program
    exec "$top/oracle/again" --program "$program" "$@"
    ;;
picture)
    shift
    wants_python
    need_program
    exec "$top/pages/make" --program "$program" "$@"
    ;;
package | prove)
    [ $# -eq 1 ] || refuse "$2: $first takes no more words" "$first"
    [ "$called" = ./oz ] || refuse "$first wants the sources, and this is a package" version
    if [ "$first" = prove ]; then
        build proofs
    else
        wants_python
        need_program
        exec python3 "$top/package/make" "$program"
    fi
    exit
    ;;
version | --version)
    [ $# -eq 1 ] || refuse "$2: version takes no more words" version
    find_program
    version
    exit
    ;;
program)
    [ $# -eq 1 ] || refuse "$2: program takes no more words" program
    need_program
    echo "$program"
    exit
    ;;
help)
    shift
    help_page "$@"
    ;;
esac

# Each word is looked at once: those of the program are kept in their order, and a file that is none of them is the text.
file=
action=
wants=
given=' '
hints=no
[ ! -t 1 ] || hints=yes
count=$#
while [ "$count" -gt 0 ]; do
    word=$1
    shift
    count=$((count - 1))
    if [ -n "$wants" ]; then
        takes_number "$wants" "$word"
        wants=
        set -- "$@" "$word"
        continue
    fi
    case $word in
    --sites | --workers | --steps | --messages | --seed | --sites=* | --workers=* | --steps=* | --messages=* | --seed=*)
        option=${word%%=*}
        case $given in
        *" $option "*) refuse "$option stands twice" "$option 7 FILE.oz" ;;
        esac
        given="$given$option "
        [ "$option" = "$word" ] && wants=$option || takes_number "$option" "${word#*=}"
        ;;
    --hints)
        hints=yes
        continue
        ;;
    -h | --help | help) help_page ;;
    run | central | gen | save | check)
        [ -z "$action" ] || refuse "$word: $action stands before it, and one of the two is done" "$word FILE.oz"
        action=$word
        [ "$word" != gen ] || wants=gen
        ;;
    races | again | picture | package | prove | version | --version | program) refuse "$word: this word stands first" "$word" ;;
    *)
        if [ -d "$word" ]; then
            refuse "$word is a folder, and no text"
        elif [ ! -e "$word" ]; then
            case $word in
            *.oz) refuse "$word is not there" ;;
            -*) refuse "$word: there is no such option" '--sites 4 FILE.oz' ;;
            [0-9]*) refuse "$word: a number stands behind an option or gen" '--sites 4 FILE.oz' ;;
            *) refuse "$word: no file has this name, and it is no word of oz" ;;
            esac
        fi
        [ -z "$file" ] || refuse "$word: a second file behind $file, and one is run" "$file"
        file=$word
        continue
        ;;
    esac
    set -- "$@" "$word"
done
case $wants in
gen) refuse 'gen wants a number behind it, 1 to 1,000' 'gen 100' ;;
?*) refuse "$wants wants a number behind it" "$wants 7 FILE.oz" ;;
esac
[ "$action" != gen ] || [ -z "$file" ] || refuse "$file: gen reads no text, it makes one" 'gen 100'

tells_to_type() {
    echo "oz: the text is read from here: end it with a line that has Ctrl-D alone ($called help has what is taken)" >&2
}

# What is read is said before the program is built.
is_told=
if ! find_program; then
    if [ $# -eq 0 ] && [ -z "$file" ] && [ -t 0 ]; then
        tells_to_type
        is_told=yes
    fi
    need_program
fi

# `gen` reads no text.
if [ "$action" = gen ]; then
    exec 3</dev/null
    waits_for "$program" "$@"
    [ "$hints" = no ] || hint end "$status" "$@"
    exit "$status"
fi

# Words that the program that is there does not take are refused before anything is read.
"$program" "$@" </dev/null >/dev/null 2>&1
[ $? -ne 2 ] || refuse "$*: the program that is there does not take these words" 'help words'

if [ -n "$file" ] && [ ! -r "$file" ]; then
    echo "oz: $file cannot be read" >&2
    exec "$program" "$@" <&-
fi

# A saved run is left to the program, where it stands.
if [ "$action" = check ]; then
    [ -z "$file" ] || exec <"$file"
    if [ "$hints" = no ] || ! (exec 3<&0) 2>/dev/null; then
        exec "$program" "$@"
    fi
    exec 3<&0
    waits_for "$program" "$@"
    hint end "$status" "$@"
    exit "$status"
fi

if [ -n "$file" ]; then
    [ ! -f "$file" ] || run_text "$file" "$@"
    # A pipe or a device is read as standard input is.
    exec <"$file"
fi

[ $# -ne 0 ] || [ ! -t 0 ] || [ -n "$is_told" ] || tells_to_type
# Standard input is kept in a file without a name, so that the place of a refusal can be shown.
if ! kept=$(mktemp); then
    exec "$program" "$@"
fi
exec 4>"$kept" 5<"$kept"
rm -f -- "$kept"
if ! (exec 3<&0) 2>/dev/null || ! { exec 3<&0 && waits_for head -c "$most" >&4; }; then
    # A part of the text may be gone: what is left of it is no text.
    echo 'oz: standard input cannot be read, or its text cannot be kept' >&2
    exec "$program" "$@" <&-
fi
exec 4>&-
# Where files that are open have no names, the place of a refusal is not shown.
[ -r /dev/fd/5 ] || exec "$program" "$@" <&5
run_text /dev/fd/5 "$@"

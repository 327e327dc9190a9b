# shellcheck shell=bash disable=SC2154
# The programs of this repository, for the scripts at its root: sourced, with `root` set to the repository's root and `me` to the
# script's name.

# For DIMACS texts, and for AIGER texts.
programs=(cuddremai cuddremai_aiger)
# Made when the programs were last proved and built, with the time at which that began.
stamp=$root/target/compare.stamp
# All that rt said when it last proved the programs.
log=$root/target/compare.log
# While the programs are proved: the process group that does it.
prover=''

say() { printf '%s: %s\n' "$me" "$1" >&2; }

trouble() {
    say "$1"
    exit 2
}

# The crates of this repository that the programs are made of, each once, themselves last.
crates() {
    local crate printed=' '
    for crate in $(sed -En "s/^(${programs[0]}|${programs[1]})://p" "$root/crates.txt") "${programs[@]}"; do
        if [ -d "$root/crates/$crate" ] && [[ $printed != *" $crate "* ]]; then
            printf '%s\n' "$crate"
            printed+="$crate "
        fi
    done
}

# Prints a source that is newer than the last build, if there is one, and NUL. What rt makes is in the folders `out`. For a subshell.
newer_source() {
    local crate entry sources=("$root/crates.txt")
    shopt -s nullglob
    for crate in $(crates); do
        for entry in "$root/crates/$crate"/*; do
            [ "${entry##*/}" = out ] || sources+=("$entry")
        done
    done
    find "${sources[@]}" -newer "$stamp" -print0 -quit
}

# Where rt puts a program.
built() { printf '%s\n' "$root/crates/$1/out/$1"; }

has_programs() {
    local program
    for program in "${programs[@]}"; do
        [ -x "$(built "$program")" ] || return 1
    done
}

# Whether the programs are there and no older than their sources; if not, `why` says so.
is_built() {
    why='the programs have not been proved and built'
    has_programs && [ -e "$stamp" ] || return 1
    local newer
    IFS= read -r -d '' newer < <(newer_source)
    why="the programs are older than $newer"
    [ -z "$newer" ]
}

# Proves and builds the programs, unless that is done. One process at a time does it.
build() {
    is_built && return
    command -v rt >/dev/null || trouble "$why, and rt (the Rattle kit) is not on the path"
    { mkdir -p "$root/target" && exec 9>>"$root/target/compare.lock" && : >>"$log"; } || trouble "cannot write to $root/target"
    if ! flock -n 9; then
        say 'another process proves and builds the programs; waiting for it'
        # Bash attends to signals between two commands.
        until flock -w 1 9; do :; done
    fi
    is_built || prove
    exec 9>&-
}

# Has rt prove and build the programs, in a process group of its own so that all of it can be ended, and shows how far it is.
prove() {
    local said needed
    say 'proving and building the programs; the first time this takes some minutes'
    touch "$stamp.new"
    mapfile -t needed < <(crates)
    exec {said}< <(exec setsid "$root/scripts/prove" "${needed[@]}" 2>&1 </dev/null)
    prover=$!
    follow "$said" >"$log"
    exec {said}<&-
    if ! wait "$prover" || ! has_programs; then
        tail -n 20 "$log" >&2
        trouble "the programs could not be proved and built; all that rt said is in $log"
    fi
    prover=''
    mv "$stamp.new" "$stamp"
}

# For traps: ends the proof, if one is going on.
end_prover() {
    [ -n "$prover" ] || return
    kill -TERM -- "-$prover" 2>/dev/null || kill -TERM "$prover" 2>/dev/null
    [ ! -t 2 ] || printf '\n' >&2
}

# Copies what scripts/prove says on a descriptor to standard output, and says on standard error which crate is at hand.
follow() {
    local line text='' at='' shown='' began=$SECONDS status
    while true; do
        IFS= read -r -t 0.5 -u "$1" line
        status=$?
        text+=$line
        if [ $status -gt 128 ]; then
            # Nothing was said for half a second, so a crate is being proved.
            progress
            continue
        fi
        [ $status -eq 0 ] || break
        printf '%s\n' "$text"
        [[ ! $text =~ ^'prove: '([A-Za-z0-9_]+)$ ]] || at=${BASH_REMATCH[1]}
        text=''
    done
    printf '%s' "$text"
    [ ! -t 2 ] || printf '\r\033[K' >&2
}

# Says the crate that is at hand: on a terminal each time, in one line, and elsewhere when it is another one.
progress() {
    local crate number=0 text
    [ -n "$at" ] || return
    for crate in "${needed[@]}"; do
        number=$((number + 1))
        [ "$crate" != "$at" ] || break
    done
    text="$me: proving $at ($number of ${#needed[@]})"
    if [ -t 2 ]; then
        printf '\r\033[K%s, %d s' "$text" $((SECONDS - began)) >&2
    elif [ "$text" != "$shown" ]; then
        printf '%s, %d s\n' "$text" $((SECONDS - began)) >&2
    fi
    shown=$text
}

# Runs the program for the text on standard input: what it prints goes to `printed`. Answers 0 for a sheet, 1 for a refusal.
run() {
    local first program=cuddremai kind
    # The text's first four bytes as hex digits, ` 61 61 67 20`, since a variable holds no NUL.
    first=$(set -o pipefail && head -c 4 | od -An -v -tx1) || trouble "the input cannot be read"
    # The first word is `aag` or, of a binary file, `aig`: a blank or the text's end follows.
    [[ ! $first =~ ^' 61 6'[19]' 67'(' 20'|' 09'|' 0a'|' 0d')?$ ]] || program=cuddremai_aiger
    printed=$(set -o pipefail && input_from "$first" | "$(built "$program")" && printf .)
    printed=${printed%.}
    judge "$printed"
    kind=$?
    [ $kind -ne 2 ] || trouble "the program printed neither a sheet nor a refusal"
    return $kind
}

# The input from its first bytes on, which have been read. A program takes 65,537 bytes at most, so no more are taken here.
input_from() {
    # shellcheck disable=SC2059
    printf "${1// /\\x}"
    # With fewer than four bytes the end has been met, which a terminal would have to be told once more.
    [ ${#1} -lt 12 ] || head -c 65533
}

# Tells a whole sheet (0), a refusal (1) and any other text (2) apart. `outcome` is then the verdict, `refusal` with its number, or `none`.
judge() {
    outcome=none place=''
    case $1 in
    verdict,*) judge_sheet "$1" ;;
    refusal,*) judge_refusal "$1" ;;
    *) return 2 ;;
    esac
}

judge_refusal() {
    [[ $1 =~ ^refusal,place$'\n'([1-9][0-9]?),([0-9]+)$'\n'$ ]] || return 2
    outcome="refusal ${BASH_REMATCH[1]}" place=${BASH_REMATCH[2]}
    return 1
}

# A sheet is whole if it ends with the line of its last net; on contradiction it has no line of a net.
judge_sheet() {
    local head=verdict,rounds,variables,ands,xors,ites,groups$'\n' verdict nets rest
    [[ $1 =~ ^$head(contradiction|settled|unfinished),[0-9]+,([0-9]+)(,[0-9]+){4}$'\n' ]] || return 2
    verdict=${BASH_REMATCH[1]} nets=${BASH_REMATCH[2]} rest=${1#"${BASH_REMATCH[0]}"}
    case $verdict,$nets in
    contradiction,*) [ -z "$rest" ] ;;
    *,0) [ "$rest" = $'net,lead\n' ] ;;
    *) [[ $rest == $'net,lead\n1,'*$'\n' && $'\n'$rest == *$'\n'"$nets,"+([-0-9TF])$'\n' ]] ;;
    esac || return 2
    outcome=$verdict
}

# Says the refusal in `outcome` and `place` in the words of the table in docs/REFUSALS.md.
explain() {
    local row where=''
    mapfile -t row < <(refusal_row "${outcome#refusal }" 2>/dev/null)
    if [ ${#row[@]} -ne 3 ]; then
        say "$outcome, place $place: docs/REFUSALS.md says what it means"
        return
    fi
    case ${row[1]} in
    *byte*) where=" (byte $place, counted from 0)" ;;
    *entry*) where=" (entry $place, counted from 0)" ;;
    esac
    say "$outcome: ${row[0]}$where: ${row[2]}"
}

# Of the table's row with a number: the cells below `it means`, `place` and `what to do`, a line for each.
refusal_row() {
    awk -F ' *[|] *' -v number="$1" '
        $2 == "number" { for (i = 3; i < NF; i++) column[$i] = i }
        $2 == number && ("it means" in column) && ("place" in column) && ("what to do" in column) {
            print $column["it means"]; print $column["place"]; print $column["what to do"]; exit
        }' "$root/docs/REFUSALS.md"
}

# Tests that a list can be read.
readable() {
    [ -e "$1" ] || trouble "there is no file $1"
    [ ! -d "$1" ] || trouble "$1 is a folder"
    [ -r "$1" ] || trouble "$1 cannot be read"
}

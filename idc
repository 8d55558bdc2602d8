#!/usr/bin/env bash
# Runs idc with the words given, by the program that tools/program names: the proved one where ./prove has built it,
# else the same program's module in docs/play by node or by C, else one with checks at run time in place of proofs.
# Behind `--version` stands which it is, and what is newly trusted. The program takes the place of this script, so its
# output, its status and signals are its own. Beside it a line on standard error says each few seconds that it still
# runs; where that is a terminal, one says where to look when a run was stopped. IDC_QUIET=1 silences both.
here=$(dirname -- "$(readlink -f -- "${BASH_SOURCE[0]}")")
if [ "${1-}" = graph ]; then
    for word; do # a tool makes these of what the program prints
        case $word in --json | --svg) exec "$here/tools/graph" "${@:2}" ;; esac
    done
fi
. "$here/tools/program"

if [ $# = 1 ] && { [ "$1" = --version ] || [ "$1" = -V ]; }; then
    "${words[@]}" "$1" || exit
    build_line || exit 5
    exit
fi

case ${IDC_QUIET-} in '' | 0) ;; *) exec "${words[@]}" "$@" ;; esac

# Of a word that is to be a file's name: why no file is read there, where none is.
why_no_file() {
    case $1 in
    - | -* | *=*) [ "$1" != - ] || echo "-: standard input is the file /dev/stdin" ;;
    *)
        if [ ! -e "$1" ]; then
            echo "$1: there is no such file"
        elif [ -d "$1" ]; then
            echo "$1: this is a directory"
        elif [ ! -r "$1" ]; then
            echo "$1: you may not read this file"
        fi
        ;;
    esac
}

if [[ ${1-} =~ ^(run|check|graph|facts|judge|why)$ ]]; then
    at=2
    while [[ ${!at-} == --* ]]; do at=$((at + 1)); done
    why=$(why_no_file "${!at-}")
    if [ "$1" = judge ]; then # each word behind its file that is no option and gives no input names a log
        while [ -z "$why" ] && [ "$at" -lt $# ]; do
            at=$((at + 1))
            case ${!at} in
            -) ;;
            --elements) at=$((at + 1)) ;;
            *) why=$(why_no_file "${!at}") ;;
            esac
        done
    fi
    if [ -n "$why" ] && [ -n "${!at-}" ]; then
        "${words[@]}" "$@"
        status=$?
        [ "$status" != 5 ] || say "$why"
        exit "$status"
    fi
fi

more=''
[ "${1-}" != run ] || more="; --steps N stops a run, tools/why FILE says what goes on"
exec 8> >(tell "still running" "$more") # which ends when the program has ended, and with it this pipe
if [ "${1-}" = run ] && [ -t 2 ]; then
    # the program ends with this script, also where that is killed
    guard=()
    if setpriv --pdeathsig KILL true 2>/dev/null; then
        guard=(setpriv --pdeathsig KILL)
    fi
    "${guard[@]}" "${words[@]}" "$@"
    status=$?
    [ "$status" != 3 ] || say "messages were left at its limit of steps; tools/why FILE says what goes on without end"
    exit "$status"
fi
exec "${words[@]}" "$@"

# Completion of junction, junction_check, junction_trace and log_report for bash: their commands, and files of the kind that is due.

_vantulig_files()
{
    compopt -o filenames 2>/dev/null
    COMPREPLY=($(compgen -f -X "!*.$1" -- "$cur") $(compgen -d -- "$cur"))
    [ ${#COMPREPLY[@]} -gt 0 ] || COMPREPLY=($(compgen -f -- "$cur"))
}

_vantulig_site()
{
    case $1 in
        1) _vantulig_files vap ;;
        2) _vantulig_files pua ;;
        3 | 4) _vantulig_files csv ;;
        5) _vantulig_files txt ;;
    esac
}

# whether the word before is an option that is followed by a number or a text
_vantulig_is_value()
{
    case ${COMP_WORDS[COMP_CWORD - 1]} in
        --allow | --from | --to | --strip | --title | --begin | --each | --serves | --amber-tolerance) return 0 ;;
    esac
    return 1
}

# offers those of the options that may still follow: they stand in this order, A|B is one of both, A+ one that may come again
_vantulig_options()
{
    local option one word at=0 begun=0
    for option in "$@"; do
        at=$((at + 1))
        for one in ${option//[|+]/ }; do
            for word in "${COMP_WORDS[@]:1:COMP_CWORD-1}"; do
                [ "$word" != "$one" ] || case $option in *+) begun=$((at - 1)) ;; *) begun=$at ;; esac
            done
        done
    done
    shift "$begun"
    set -- "${@//[|+]/ }"
    COMPREPLY=($(compgen -W "$*" -- "$cur"))
}

# the place of the word among those that are no options and no values of them; a subject behind a colon stands apart in bash
_vantulig_place()
{
    local at place=1
    for ((at = 1; at < COMP_CWORD; at++)); do
        case ${COMP_WORDS[at]} in
            --allow) at=$((at + 1)); [ "${COMP_WORDS[at + 1]}" != : ] || at=$((at + 2)) ;;
            -*) ;;
            *) place=$((place + 1)) ;;
        esac
    done
    echo "$place"
}

_vantulig_junction()
{
    local cur=${COMP_WORDS[COMP_CWORD]} place=$((COMP_CWORD - 1))
    if [ "$COMP_CWORD" -eq 1 ]; then
        COMPREPLY=($(compgen -W "run compile exec live sample audit net" -- "$cur"))
        return
    fi
    case ${COMP_WORDS[1]} in
        run) _vantulig_site "$place" ;;
        live) if [ "$place" -eq 6 ]; then COMPREPLY=($(compgen -W "1 2 3 4 5 6 7 8" -- "$cur")); else _vantulig_site "$place"; fi ;;
        sample) [ "$place" -gt 4 ] || _vantulig_site "$place" ;;
        compile) [ "$place" -gt 1 ] || _vantulig_files vap ;;
        exec) if [ "$place" -eq 1 ]; then _vantulig_files code; else _vantulig_site "$place"; fi ;;
        audit) if [ "$place" -eq 1 ]; then _vantulig_files log; else [ "$place" -gt 4 ] || _vantulig_site "$place"; fi ;;
        net) [ "$place" -gt 1 ] || _vantulig_files txt ;;
    esac
}

_vantulig_junction_check()
{
    local cur=${COMP_WORDS[COMP_CWORD]} place
    ! _vantulig_is_value || return
    place=$(_vantulig_place)
    case $COMP_CWORD:$place:$cur in
        1:*:-*) COMPREPLY=($(compgen -W "--json --allow --help --version" -- "$cur")) ;;
        *:1:-*) _vantulig_options --json --allow+ ;;
        *) _vantulig_site "$place" ;;
    esac
}

_vantulig_junction_trace()
{
    local cur=${COMP_WORDS[COMP_CWORD]}
    ! _vantulig_is_value || return
    case $COMP_CWORD:$cur in
        1:*) COMPREPLY=($(compgen -W "values how-ended lines second trace --help --version" -- "$cur")); return ;;
        2:-*) COMPREPLY=($(compgen -W "--help" -- "$cur")); return ;;
    esac
    case $COMP_CWORD in
        [2-6]) _vantulig_site "$((COMP_CWORD - 1))" ;;
        *)
            case ${COMP_WORDS[1]} in
                values) _vantulig_options --from --to ;;
                how-ended) _vantulig_options --csv ;;
                lines)
                    case ${COMP_WORDS[COMP_CWORD - 1]} in
                        --add) _vantulig_files txt ;;
                        *) _vantulig_options "--csv|--lcov" --add+ ;;
                    esac
                    ;;
            esac
            ;;
    esac
}

_vantulig_log_report()
{
    local cur=${COMP_WORDS[COMP_CWORD]}
    ! _vantulig_is_value || return
    case $COMP_CWORD:$cur in
        1:*) COMPREPLY=($(compgen -W "diagram text sums compare breaches protocol refusals --help --version" -- "$cur")); return ;;
        2:-*) COMPREPLY=($(compgen -W "--help" -- "$cur")); return ;;
    esac
    case $COMP_CWORD in
        2) _vantulig_files log ;;
        *)
            case ${COMP_WORDS[1]}:$COMP_CWORD in
                breaches:3 | protocol:3 | refusals:3) _vantulig_files pua ;;
                breaches:[45] | protocol:[45] | refusals:[45])
                    # behind the two tables of a record in tenths the options may stand already
                    case ${COMP_WORDS[1]}:$COMP_CWORD:$cur in
                        breaches:5:-*) _vantulig_options --amber-tolerance --csv ;;
                        protocol:5:-*) _vantulig_options --csv ;;
                        *) _vantulig_files csv ;;
                    esac
                    ;;
                breaches:*) _vantulig_options --amber-tolerance --csv ;;
                protocol:* | refusals:*) _vantulig_options --csv ;;
                compare:*) _vantulig_files log ;;
                sums:*) _vantulig_options --each --serves+ --lost --csv ;;
                diagram:[34]) ;;
                diagram:*)
                    case --site in
                        "${COMP_WORDS[COMP_CWORD - 1]}") _vantulig_files pua ;;
                        "${COMP_WORDS[COMP_CWORD - 2]}" | "${COMP_WORDS[COMP_CWORD - 3]}") _vantulig_files csv ;;
                        *) _vantulig_options --site --strip --title --begin ;;
                    esac
                    ;;
            esac
            ;;
    esac
}

complete -F _vantulig_junction junction
complete -F _vantulig_junction_check junction_check
complete -F _vantulig_junction_trace junction_trace
complete -F _vantulig_log_report log_report

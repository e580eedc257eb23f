# Completes the words of the planner in bash:  . docs/planner.bash

_planner() {
    local files=0 choices=
    COMPREPLY=()
    if [ "$COMP_CWORD" -eq 1 ]; then
        mapfile -t COMPREPLY < <(compgen -W "config paths trace plan pack check certify explain simulate replay tables upgrade import emit drive serve sample collect adopt apply update show diff links policy route page from-ofctl from-mininet from-graphml to-ofctl install --help --version" -- "${COMP_WORDS[1]}")
        return
    fi
    if [[ ${COMP_WORDS[COMP_CWORD]} == -* ]]; then
        local options="--help -o --strict --quiet --json"
        case ${COMP_WORDS[1]} in
            pack) options="--wait $options" ;;
            adopt) options="--switches --listen --own --patience --yes --dry-run $options" ;;
            collect) options="--switches --listen --patience $options" ;;
            apply) options="--switches --listen --wait --ask --patience --resume --back --recover --without --repair --take-over --no-mark $options" ;;
            links) options="--empty $options" ;;
            policy) options="--through --changed --most $options" ;;
            route) options="--drain --weights --from $options" ;;
            show) options="--wait $options" ;;
            page) options="--schedule --planner --layout $options" ;;
            from-ofctl) options="--drop-unsayable $options" ;;
            from-mininet) options="--hosts --vlans --tags --capacity $options" ;;
            from-graphml) options="--hosts --external --vlans --tags --capacity --names --distances --speeds $options" ;;
            to-ofctl) options="--switches $options" ;;
            update) options="--switches --listen --wait --ask --patience --yes --dry-run --ordered --two-phase --without $options" ;;
        esac
        mapfile -t COMPREPLY < <(compgen -W "$options" -- "${COMP_WORDS[COMP_CWORD]}")
        return
    fi
    case ${COMP_WORDS[1]} in
        collect | from-ofctl | to-ofctl) files=1 ;;
        trace | upgrade | import | emit | links) files=2 ;;
        config | paths | show | policy | route) files=3 ;;
        plan | pack | replay | tables | diff) files=4 ;;
        check | certify | explain | simulate | serve | page) files=5 ;;
        drive | apply) files=6 ;;
    esac
    # A word of which there are few stands behind the names of files, or earlier behind a folder, where its beginning is typed.
    case ${COMP_WORDS[1]} in
        pack) choices="ordered two-phase" ;;
    esac
    if [ "$COMP_CWORD" -eq $((files + 2)) ] || [ "$COMP_CWORD" -gt 2 ] && [ -n "${COMP_WORDS[COMP_CWORD]}" ]; then
        mapfile -t COMPREPLY < <(compgen -W "$choices" -- "${COMP_WORDS[COMP_CWORD]}")
    fi
    # Names of files are completed by bash itself, which does so where there is no answer; behind the last file there is nothing to complete.
    if [ "$COMP_CWORD" -gt $((files + 1)) ]; then
        compopt +o default 2>/dev/null
    fi
}

complete -o default -F _planner planner ./planner

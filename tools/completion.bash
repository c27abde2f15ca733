# The completion of fcoe_tool in bash: its commands, and then files.
_fcoe_tool() {
    local commands="run live replay show convert migrate make snoop enode --help --version"
    [ "$COMP_CWORD" != 1 ] || mapfile -t COMPREPLY < <(compgen -W "$commands" -- "${COMP_WORDS[1]}")
}
complete -o default -F _fcoe_tool fcoe_tool

# The completion of zones: its options, and then files.
_zones() {
    local options="--from --to --vsan --set --defined --all --logins --skip --quiet --help"
    case ${COMP_WORDS[COMP_CWORD - 1]} in
    --to) mapfile -t COMPREPLY < <(compgen -W "config nxos fos" -- "${COMP_WORDS[COMP_CWORD]}") ;;
    *) [[ ${COMP_WORDS[COMP_CWORD]} != -* ]] || mapfile -t COMPREPLY < <(compgen -W "$options" -- "${COMP_WORDS[COMP_CWORD]}") ;;
    esac
}
complete -o default -F _zones zones

# The completion of look: its options, its commands before anything else, and then files; both are those that `look --help` names.
_look() {
    local word=${COMP_WORDS[COMP_CWORD]} help
    [[ $word == -* || $COMP_CWORD == 1 ]] || return
    help=$("${COMP_WORDS[0]}" --help 2>/dev/null) || return
    if [[ $word == -* ]]; then
        mapfile -t COMPREPLY < <(compgen -W "$(grep -oE -- '--[a-z-]+' <<<"$help" | sort -u)" -- "$word")
    else
        mapfile -t COMPREPLY < <(compgen -W "$(sed -nE 's/^  look ([a-z|]+) .*/\1/p' <<<"$help" | tr '|' '\n' | sort -u)" -- "$word"; compgen -f -- "$word")
    fi
}
complete -o default -o filenames -F _look look

# The completion of live: its options, the configuration, and then interfaces.
_live() {
    local word=${COMP_WORDS[COMP_CWORD]} before=${COMP_WORDS[COMP_CWORD - 1]}
    local options="--list --record --keep-stream --mark --statistics --seconds --program --help"
    case $before in
    --record | --program | --mark | --statistics | --seconds) return ;;
    esac
    if [[ $word == -* ]]; then
        mapfile -t COMPREPLY < <(compgen -W "$options" -- "$word")
    elif [ -f "$before" ] || [ -e "/sys/class/net/$before" ]; then
        mapfile -t COMPREPLY < <(compgen -W "$(ls /sys/class/net)" -- "$word")
    fi
}
complete -o default -F _live live

# The completion of vm: its options, folders, and what is done with a machine.
_vm() {
    local word=${COMP_WORDS[COMP_CWORD]}
    if [[ $word == -* ]]; then
        mapfile -t COMPREPLY < <(compgen -W "--tap --mac --vlan --kvm --help" -- "$word")
    elif [ "$COMP_CWORD" = 1 ]; then
        mapfile -t COMPREPLY < <(compgen -d -- "$word")
    else
        mapfile -t COMPREPLY < <(compgen -W "start stop end" -- "$word")
    fi
}
complete -o filenames -F _vm vm

# The completion of scenes, fcoe_host and load: options by --help, names of scenes and faults by --list, interfaces, and then files.
_scenes() {
    local word=${COMP_WORDS[COMP_CWORD]} before=${COMP_WORDS[COMP_CWORD - 1]} tool=${COMP_WORDS[0]} words=
    case $before in
    --scene | --fault) words=$("$tool" --list 2>/dev/null | awk 'NR > 1 { print $1 }') ;;
    --without) words="npiv commands end" ;;
    *)
        if [[ $word == -* ]]; then
            words=$("$tool" --help 2>/dev/null | grep -oE -- '--[a-z-]+' | sort -u)
        elif [[ $before != -* && $tool != *load ]]; then
            words=$(ls /sys/class/net)
        fi
        ;;
    esac
    [ -z "$words" ] || mapfile -t COMPREPLY < <(compgen -W "$words" -- "$word")
}
complete -o default -F _scenes scenes fcoe_host load

# Completions of the card command for bash: commands, options, and files.
_card() {
    local word=${COMP_WORDS[COMP_CWORD]} before=${COMP_WORDS[COMP_CWORD - 1]} command=${COMP_WORDS[1]}
    local commands="lay check list free put clear write read show repair label screen uefi report grow apply help"
    local writes="--dry-run --mounted" options=""
    COMPREPLY=()
    if [ "$COMP_CWORD" -eq 1 ]; then
        mapfile -t COMPREPLY < <(compgen -W "$commands --version --help" -- "$word")
        return
    fi
    case $before in
        -b | --block-size) mapfile -t COMPREPLY < <(compgen -W "512 4096" -- "$word"); return ;;
        --type) mapfile -t COMPREPLY < <(compgen -W "data linux efi swap" -- "$word"); return ;;
        --attrs) mapfile -t COMPREPLY < <(compgen -W "RequiredPartition NoBlockIOProtocol LegacyBIOSBootable GUID:" -- "$word"); return ;;
    esac
    case $command in
        help) mapfile -t COMPREPLY < <(compgen -W "$commands" -- "$word"); return ;;
        lay) options="--size --guid --force $writes" ;;
        list) options="--json --map" ;;
        put) options="--first --last --size --type --name --guid --attrs --replace --stop-after $writes" ;;
        clear) options="--wipe --stop-after --progress $writes" ;;
        write) options="--at --progress $writes" ;;
        read) options="--at --length" ;;
        repair) options="--force --stop-after $writes" ;;
        label) options="--date --style --sheet $writes" ;;
        grow) options="$writes" ;;
        apply) options="--size --progress $writes" ;;
    esac
    case $word in
        -*) mapfile -t COMPREPLY < <(compgen -W "-b --block-size --help $options" -- "$word") ;;
        *)
            compopt -o filenames
            mapfile -t COMPREPLY < <(compgen -f -- "$word")
            [ "$command" = put ] && [ "$COMP_CWORD" -eq 3 ] && COMPREPLY+=(next)
            ;;
    esac
}
complete -F _card card

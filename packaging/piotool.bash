# Completion of piotool for bash, made by packaging/from_help of what the program says.
_piotool() {
    local word=${COMP_WORDS[COMP_CWORD]} before=${COMP_WORDS[COMP_CWORD - 1]} words=
    COMPREPLY=()
    if [ "$COMP_CWORD" -eq 1 ]; then
        COMPREPLY=($(compgen -W 'asm run dis check gen table recheck shares measure receive uart pair inspect help --help' -- "$word"))
        return
    fi
    case $before in
        --config | --second | --send | --source | --stimulus | --table)
            compopt -o filenames
            mapfile -t COMPREPLY < <(compgen -f -- "$word")
            return ;;
        --bit | --clocks | --divider | --pin | --seed | --side | --span) return ;;
    esac
    case ${COMP_WORDS[1]} in
        asm) words='--help' ;;
        run) words='--source --config --stimulus --clocks --help' ;;
        dis) words='--side --opt --help' ;;
        check) words='--source --config --help' ;;
        gen) words='--seed --clocks --help' ;;
        table) words='--source --config --span --help' ;;
        recheck) words='--source --config --span --table --help' ;;
        shares) words='--source --config --help' ;;
        measure) words='--source --config --stimulus --clocks --help' ;;
        receive) words='--source --config --stimulus --clocks --pin --bit --help' ;;
        uart) words='--send --divider --clocks --help' ;;
        pair) words='--source --config --second --stimulus --clocks --help' ;;
        inspect) words='--source --config --stimulus --clocks --help' ;;
        help) words='asm run dis check gen table recheck shares measure receive uart pair inspect' ;;
    esac
    case ${COMP_WORDS[1]}:$word in
        *:-* | help:*) COMPREPLY=($(compgen -W "$words" -- "$word")) ;;
        asm:* | dis:*)
            compopt -o filenames
            mapfile -t COMPREPLY < <(compgen -f -- "$word") ;;
        *) COMPREPLY=($(compgen -W "$words" -- "$word")) ;;
    esac
}
complete -F _piotool piotool

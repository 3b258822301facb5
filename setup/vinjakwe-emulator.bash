# bash completion of vinjakwe-emulator

_vinjakwe_emulator() {
    local before=${COMP_WORDS[COMP_CWORD-1]} now=${COMP_WORDS[COMP_CWORD]}
    case $before in
    --state | --record | --pid | --unixio) mapfile -t COMPREPLY < <(compgen -f -- "$now") ;;
    --swtpm | --mssim | --listen | --owner | --greatest) ;;
    *)
        COMPREPLY=($(compgen -W '--swtpm --mssim --unixio --stdio --listen --state --owner --greatest --startup
            --only-device --record --daemon --pid --version --help' -- "$now"))
        ;;
    esac
}
complete -o filenames -F _vinjakwe_emulator vinjakwe-emulator

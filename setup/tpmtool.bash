# bash completion of tpmtool

_tpmtool() {
    local verb=${COMP_WORDS[1]} before=${COMP_WORDS[COMP_CWORD-1]} now=${COMP_WORDS[COMP_CWORD]} words='' files=''
    local commands='NV_UndefineSpace NV_DefineSpace NV_Increment PCR_Event PCR_Reset Startup NV_Read FlushContext
        NV_ReadPublic PolicyAuthValue PolicyCommandCode PolicyOR StartAuthSession PCR_Read PolicyPCR PolicyRestart
        PCR_Extend PolicyGetDigest'
    if ((COMP_CWORD == 1)); then
        words='show build run explain check events --help --version'
    else
        case $verb,$before in
        show,--reply) words=$commands ;;
        show,--file | show,--pcap | show,--nv | check,--registers | check,--attest | check,--allow | events,--attest) files=yes ;;
        check,--hash | events,--hash) words='sha1 sha256 sha384' ;;
        show,--port | run,--owner | run,--greatest | check,--quote | check,--nonce | check,--require | check,--signer | events,--register) ;;
        events,--nonce | events,--require | events,--signer) ;;
        *)
            case $verb,$now in
            show,-*) words='--reply --fields --file --binary --json --pcap --port --nv --help' ;;
            build,-*) words='--help' ;;
            explain,-*) words='--decimal --help' ;;
            build,*) words=$commands ;;
            run,-*) words='--owner --greatest --help' ;;
            check,-*) words='--registers --quote --attest --nonce --any-nonce --require --any-selection --signer --hash
                --allow --secure-boot --any-state --extends --listed --json --help' ;;
            events,-*) words='--register --places --digests --data --attest --nonce --any-nonce --require --any-selection
                --signer --hash --header --json --help' ;;
            check,* | events,*) files=yes ;;
            esac
            ;;
        esac
    fi
    if [ -n "$files" ]; then
        mapfile -t COMPREPLY < <(compgen -f -- "$now")
    else
        COMPREPLY=($(compgen -W "$words" -- "$now"))
    fi
}
complete -o filenames -F _tpmtool tpmtool

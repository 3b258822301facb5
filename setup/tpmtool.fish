# fish completion of tpmtool

set -l commands NV_UndefineSpace NV_DefineSpace NV_Increment PCR_Event PCR_Reset Startup NV_Read FlushContext \
    NV_ReadPublic PolicyAuthValue PolicyCommandCode PolicyOR StartAuthSession PCR_Read PolicyPCR PolicyRestart \
    PCR_Extend PolicyGetDigest

complete -c tpmtool -f
complete -c tpmtool -n __fish_use_subcommand -a 'show build run explain check events'
complete -c tpmtool -n __fish_use_subcommand -l version
complete -c tpmtool -l help
complete -c tpmtool -n '__fish_seen_subcommand_from show' -l reply -x -a "$commands"
complete -c tpmtool -n '__fish_seen_subcommand_from show' -l fields
complete -c tpmtool -n '__fish_seen_subcommand_from show' -l file -r -F
complete -c tpmtool -n '__fish_seen_subcommand_from show' -l pcap -r -F
complete -c tpmtool -n '__fish_seen_subcommand_from show' -l port -x
complete -c tpmtool -n '__fish_seen_subcommand_from show' -l nv -r -F
complete -c tpmtool -n '__fish_seen_subcommand_from show' -l binary
complete -c tpmtool -n '__fish_seen_subcommand_from show check events' -l json
complete -c tpmtool -n '__fish_seen_subcommand_from build' -a "$commands"
complete -c tpmtool -n '__fish_seen_subcommand_from run' -l owner -x
complete -c tpmtool -n '__fish_seen_subcommand_from run' -l greatest -x
complete -c tpmtool -n '__fish_seen_subcommand_from explain' -l decimal
complete -c tpmtool -n '__fish_seen_subcommand_from check events' -F
complete -c tpmtool -n '__fish_seen_subcommand_from check' -l registers -r -F
complete -c tpmtool -n '__fish_seen_subcommand_from check' -l quote -x
complete -c tpmtool -n '__fish_seen_subcommand_from check events' -l attest -r -F
complete -c tpmtool -n '__fish_seen_subcommand_from check events' -l nonce -x
complete -c tpmtool -n '__fish_seen_subcommand_from check events' -l any-nonce
complete -c tpmtool -n '__fish_seen_subcommand_from check events' -l require -x
complete -c tpmtool -n '__fish_seen_subcommand_from check events' -l any-selection
complete -c tpmtool -n '__fish_seen_subcommand_from check events' -l signer -x
complete -c tpmtool -n '__fish_seen_subcommand_from check events' -l hash -x -a 'sha1 sha256 sha384'
complete -c tpmtool -n '__fish_seen_subcommand_from check' -l allow -r -F
complete -c tpmtool -n '__fish_seen_subcommand_from check' -l secure-boot
complete -c tpmtool -n '__fish_seen_subcommand_from check' -l any-state
complete -c tpmtool -n '__fish_seen_subcommand_from check' -l extends
complete -c tpmtool -n '__fish_seen_subcommand_from check' -l listed
complete -c tpmtool -n '__fish_seen_subcommand_from events' -l register -x
complete -c tpmtool -n '__fish_seen_subcommand_from events' -l places
complete -c tpmtool -n '__fish_seen_subcommand_from events' -l digests
complete -c tpmtool -n '__fish_seen_subcommand_from events' -l data
complete -c tpmtool -n '__fish_seen_subcommand_from events' -l header

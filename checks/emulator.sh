#!/bin/sh
# The emulator: tpm2-tools drive it over both protocols, and give what they give over swtpm (checks/emulator.txt); a
# log's records leave the registers of its list; it is killed at random moments, and no counter goes back; and random
# messages over sanitizers.
#
#     KILLS=1000 BOOTS=1000 MESSAGES=1000000 ./test     kills it and starts it so often, and sends so many messages

. "$(dirname "$0")/shared.sh"
. checks/toolchain.sh
# LLVM's archive, where the check of the library for C has left both.
archive=crates/tpm_c/out/llvm/libtpm_c.a
[ -f "$archive" ] || archive=crates/tpm_c/out/libtpm_c.a
program=crates/tpmtool/out/tpmtool
flags="-std=c99 -D_POSIX_C_SOURCE=200809L -Wall -Wextra -pedantic -Werror -Iinclude"

# begin WORD..: starts the words in the background, and waits until they listen at $port; $server is their process.
# Where something else listens there, the next ports are tried.
port=$((20000 + $$ % 390 * 32))
begin() {
    for try in 1 2 3 4 5 6 7 8; do
        port=$((port + 8))
        serve "$@" >"$room/served" 2>&1 &
        server=$!
        for wait in $(seq 200); do
            if "$room/client" listens "$port" >/dev/null && kill -0 "$server" 2>/dev/null; then return 0; fi
            kill -0 "$server" 2>/dev/null || break
            sleep 0.05
        done
        wait "$server"
    done
    return 1
}

# serve KIND WORD..: becomes the emulator, or swtpm, at $port and behind.
serve() {
    kind=$1
    shift
    case $kind in
    swtpm)
        mkdir -p "$room/swtpm" && exec swtpm socket --tpm2 --tpmstate "dir=$room/swtpm" --flags not-need-init \
            --server "type=tcp,port=$port,bindaddr=127.0.0.1" --ctrl "type=tcp,port=$((port + 1)),bindaddr=127.0.0.1"
        ;;
    *) exec "$room/$kind" --swtpm "$port" --mssim "$((port + 2))" "$@" ;;
    esac
}

# end: SIGTERM ends the server, and its status is 0.
end() {
    kill "$server" && wait "$server"
}

# over PROTOCOL: what the tools are told to speak.
over() {
    case $1 in
    mssim) export TPM2TOOLS_TCTI="mssim:host=127.0.0.1,port=$((port + 2))" ;;
    swtpm) export TPM2TOOLS_TCTI="swtpm:host=127.0.0.1,port=$port" ;;
    esac
}

# t TOOL WORD..: what tpm2_TOOL prints, behind a line with these words, and `refused` where its status is not 0. Behind
# `-` it is only said whether it was done. (A bank of SHA-512 is not compared.)
t() {
    quiet=
    [ "$1" = - ] && quiet=yes && shift
    tool=$1
    shift
    echo "\$ tpm2_$tool $*"
    if timeout 20 "tpm2_$tool" "$@" >"$room/tool" 2>"$room/tool.err"; then said=done; else said=refused; fi
    if [ -n "$quiet" ]; then echo "$said"; else LC_ALL=C sed '/sha512/d' "$room/tool"; fi
    [ "$said" = "done" ] || [ -n "$quiet" ] || echo "$said"
}

# entries LIST NAMES: what tpm2_getcap says of these entries of a list.
entries() {
    echo "\$ tpm2_getcap $1"
    timeout 20 tpm2_getcap "$1" 2>/dev/null |
        awk -v names=" $2 " '/^[^ ]/ { name = $1; sub(/:$/, "", name); wanted = index(names, " " name " ") } wanted'
}

# value INDEX: the value of a counter, in hexadecimal.
value() {
    echo "\$ value $1"
    timeout 20 tpm2_nvread "$1" -C o 2>/dev/null | od -An -tx1 | tr -d ' \n'
    echo
}

letters() {
    printf "%$(($1 * 2))s" '' | sed "s/  /$2/g"
}

registers=sha1:0,16,17,23+sha256:0,16,17,23+sha384:0,16,17,23
counter='ownerread|ownerwrite|authread|authwrite|nt=counter'

# with_registers: extends, events and resets.
with_registers() {
    t startup -c
    t pcrread $registers
    t pcrextend "16:sha1=$(letters 20 61),sha256=$(letters 32 62),sha384=$(letters 48 63)" "23:sha256=$(letters 32 64)"
    t pcrread $registers
    printf 'an event' >event
    t pcrevent 23 event
    t pcrevent event
    t pcrread $registers
    t pcrreset 16
    t pcrreset 0
    t pcrextend "17:sha1=$(letters 20 61)"
    t pcrread $registers
}

# with_counters: their life by passwords and an HMAC session.
with_counters() {
    t nvdefine 0x01800001 -C o -s 8 -a "$counter"
    t nvreadpublic 0x01800001
    t nvread 0x01800001 -C o
    t nvincrement 0x01800001 -C o
    t nvreadpublic 0x01800001
    value 0x01800001
    t nvincrement 0x01800001 -C 0x01800001
    value 0x01800001
    t nvdefine 0x01800001 -C o -s 8 -a "$counter"
    t nvdefine 0x01800002 -C o -s 8 -p secret -a "$counter|no_da"
    t nvincrement 0x01800002 -C 0x01800002 -P secret
    value 0x01800002
    t nvincrement 0x01800002 -C 0x01800002 -P secrets
    t nvundefine 0x01800001 -C o
    t nvreadpublic 0x01800001
    t nvdefine 0x01800001 -C o -s 8 -a "$counter"
    t nvincrement 0x01800001 -C o
    value 0x01800001
    t startauthsession --hmac-session -S hmac.context
    t nvincrement 0x01800001 -C o -P session:hmac.context
    t nvincrement 0x01800002 -C 0x01800002 -P session:hmac.context+secret
    t flushcontext hmac.context
    value 0x01800001
    value 0x01800002
    t getcap handles-nv-index
}

# with_policies: the digests of all assertions, in trials and in policy sessions.
with_policies() {
    t createpolicy --policy-pcr -l sha256:16,23 -L registers.policy
    t flushcontext -l
    t startauthsession -S trial.context
    t policypcr -S trial.context -l sha256:16,23
    t policycommandcode -S trial.context TPM2_CC_NV_Increment -L increment.policy
    t policyrestart -S trial.context
    t policyauthvalue -S trial.context -L value.policy
    t policyor -S trial.context sha256:increment.policy,value.policy -L either.policy
    t flushcontext trial.context
    t startauthsession --policy-session -S policy.context
    t policypcr -S policy.context -l sha256:16,23
    t policycommandcode -S policy.context TPM2_CC_NV_Increment
    t policyor -S policy.context sha256:registers.policy,value.policy
    t policyor -S policy.context sha256:increment.policy,value.policy
    t getpolicydigest -S policy.context --hex
    t getcap handles-loaded-session
    t getcap handles-saved-session
    t flushcontext policy.context
    t getcap handles-saved-session
}

# under: a session with the policy of the registers, for an increment of a counter, and then the alternatives.
under() {
    t startauthsession --policy-session -S policy.context
    t policypcr -S policy.context -l sha256:16,23
    t policycommandcode -S policy.context TPM2_CC_NV_Increment
    t policyor -S policy.context sha256:increment.policy,value.policy
    t nvincrement 0x01800003 -C 0x01800003 -P session:policy.context
    value 0x01800003
}

# with_a_policy: a counter that only a policy may increment, by the registers or by its authorization value.
with_a_policy() {
    t nvdefine 0x01800003 -C o -s 8 -p value -L either.policy -a 'ownerread|policywrite|nt=counter|no_da'
    t nvincrement 0x01800003 -C o
    under
    t nvincrement 0x01800003 -C 0x01800003 -P session:policy.context
    t flushcontext policy.context
    under
    t flushcontext policy.context
    t nvreadpublic 0x01800003
    t pcrextend "16:sha256=$(letters 32 65)"
    under
    t flushcontext policy.context
    t startauthsession --policy-session -S policy.context
    t policyauthvalue -S policy.context
    t policyor -S policy.context sha256:increment.policy,value.policy
    t nvincrement 0x01800003 -C 0x01800003 -P session:policy.context+values
    t nvincrement 0x01800003 -C 0x01800003 -P session:policy.context+value
    t flushcontext policy.context
    value 0x01800003
}

# with_the_rest: what the host answers.
with_the_rest() {
    t getcap handles-pcr
    t getcap handles-transient
    entries algorithms "sha1 sha256 sha384"
    entries commands "TPM2_CC_NV_UndefineSpace TPM2_CC_NV_DefineSpace TPM2_CC_NV_Increment TPM2_CC_PCR_Event \
TPM2_CC_PCR_Reset TPM2_CC_Startup TPM2_CC_NV_Read TPM2_CC_FlushContext TPM2_CC_NV_ReadPublic TPM2_CC_PolicyAuthValue \
TPM2_CC_PolicyCommandCode TPM2_CC_PolicyOR TPM2_CC_StartAuthSession TPM2_CC_PCR_Read TPM2_CC_PolicyPCR \
TPM2_CC_PolicyRestart TPM2_CC_PCR_Extend TPM2_CC_PolicyGetDigest TPM2_CC_SelfTest TPM2_CC_Shutdown \
TPM2_CC_ContextLoad TPM2_CC_ContextSave TPM2_CC_GetCapability TPM2_CC_GetRandom TPM2_CC_GetTestResult \
TPM2_CC_ReadClock"
    entries properties-fixed "TPM2_PT_FAMILY_INDICATOR TPM2_PT_LEVEL TPM2_PT_INPUT_BUFFER TPM2_PT_HR_LOADED_MIN \
TPM2_PT_PCR_COUNT TPM2_PT_PCR_SELECT_MIN TPM2_PT_MAX_COMMAND_SIZE TPM2_PT_MAX_RESPONSE_SIZE"
    t - getcap properties-variable
    t getcap pcrs
    t - getrandom --hex 16
    t selftest
    t selftest --fulltest
    t gettestresult
    t - readclock
    t shutdown -c
    t nvundefine 0x01800001 -C o
    t nvundefine 0x01800002 -C o
    t nvundefine 0x01800003 -C o
    t getcap handles-nv-index
}

# script: all of it, in a folder of its own.
script() {
    mkdir -p "$room/folder" && cd "$room/folder" && rm -f ./* || return 1
    with_registers
    with_counters
    with_policies
    with_a_policy
    with_the_rest
}

# expected WHICH: what the script prints, here or over swtpm. The file was written over swtpm 0.7.1; where the two
# differ a line has both, and docs/DIFFERENCES.md says why.
expected() {
    awk -F ' [|] ' -v which="$1" '/^\$/ || NF < 2 { print; next } { print which == "swtpm" ? $2 : $1 }' \
        checks/emulator.txt
}

# script_gives KIND PROTOCOL WORD..: the script over such a server prints what is expected.
script_gives() {
    kind=$1 protocol=$2
    shift 2
    begin "$kind" "$@" || { cat "$room/served" && return 1; }
    over "$protocol"
    (script) >"$room/out" 2>&1
    end || { echo "status $?" && cat "$room/served" && return 1; }
    expected "$kind" | diff - "$room/out"
}

# the_records LOG: the records of a log that extend, as words of tpm2_pcrextend, a line each.
the_records() {
    awk '$3 != "EV_NO_ACTION" {
        words = ""
        count = split($7, digests, ",")
        for (i = 1; i <= count; i++)
            if (digests[i] ~ /^sha(1|256|384)=/) words = words (words == "" ? "" : ",") digests[i]
        if (words != "") print $2 ":" words
    }' "checks/logs/$1.events"
}

# all_registers: those of the device as `tpmtool check` prints them.
all_registers() {
    timeout 20 tpm2_pcrread sha1:all+sha256:all+sha384:all |
        awk '
            /^  sha/ { bank = $1; sub(/:/, "", bank); next }
            { sub(/:/, " "); print bank, $1, tolower(substr($NF, 3)) }'
}

# log_leaves LOG: a device that is sent the log has the registers of its list, which `tpmtool check` prints, too.
log_leaves() {
    begin emulator --startup || { cat "$room/served" && return 1; }
    over swtpm
    the_records "$1" >"$room/records"
    while read -r record; do
        timeout 20 tpm2_pcrextend "$record" || { echo "$record is refused" && end && return 1; }
    done <"$room/records"
    all_registers >"$room/out"
    end && diff "checks/logs/$1.registers" "$room/out" || return 1
    [ ! -x "$program" ] || "$program" check "checks/logs/$1.log" | diff - "$room/out"
}

logs_leave() {
    for log in worked fewer_and_in_other_order no_bank every_type; do
        log_leaves "$log" || { echo "$log" && return 1; }
    done
}

# three_counters: a counter for the owner, one by its value, and one that only a policy of registers increments, three
# times.
three_counters() {
    cd "$room/folder" && rm -f ./* || return 1
    with_registers
    t nvdefine 0x01800001 -C o -s 8 -a "$counter"
    t nvdefine 0x01800002 -C o -s 8 -p secret -a 'ownerread|authread|authwrite|nt=counter'
    with_policies
    t nvdefine 0x01800003 -C o -s 8 -p value -L either.policy -a 'ownerread|policywrite|nt=counter|no_da'
    t nvincrement 0x01800001 -C o
    for time in 1 2 3; do
        under
        t flushcontext policy.context
    done
    t nvincrement 0x01800002 -C 0x01800002 -P secret
    t nvincrement 0x01800001 -C o
    t nvdefine 0x01800004 -C o -s 8 -a "$counter"
}

# of_counters: their public areas, their Names, and their values.
of_counters() {
    t nvreadpublic
    for index in 0x01800001 0x01800002 0x01800003; do value $index; done
}

# values_wanted: one more than the greatest for a first value, and one more than it was for a later one.
values_wanted() {
    printf '$ value 0x01800001\n%016x\n$ value 0x01800002\n%016x\n$ value 0x01800003\n%016x\n' 43 46 45
}

# kept: they are there with all that was told of them when the process was killed, and the next first value is behind
# the greatest.
kept() {
    rm -f "$room/state"
    mkdir -p "$room/folder" || return 1
    begin emulator --state "$room/state" --greatest 41 || return 1
    over mssim
    (three_counters) >"$room/out" 2>&1
    of_counters >"$room/before"
    kill -KILL "$server"
    wait "$server" 2>/dev/null
    begin emulator --state "$room/state" --startup || { cat "$room/served" && return 1; }
    over mssim
    of_counters >"$room/after"
    tail -n 6 "$room/after" >"$room/values"
    timeout 20 tpm2_nvincrement 0x01800004 -C o
    value 0x01800004 >"$room/fourth"
    end || return 1
    values_wanted | diff - "$room/values" && diff "$room/before" "$room/after" &&
        grep -q '^000000000000002f$' "$room/fourth"
}

# refuses STATUS WORDS..: the emulator with this state ends at once, with this status and such a line, and leaves no
# lock but another's.
refuses() {
    wanted=$1
    shift
    timeout 20 "$room/emulator" --stdio --state "$room/state.bad" </dev/null 2>"$room/err"
    [ $? -eq "$wanted" ] && grep -q "$*" "$room/err" || { echo "in place of $*: $(cat "$room/err")" && return 1; }
    [ ! -e "$room/state.bad.lock" ] || case $* in *holds*) ;; *) echo "behind $* a lock is left" && return 1 ;; esac
}

# changed AT BYTE: the state with another byte at this place.
changed() {
    head -c "$1" "$room/state" && printf '%s' "$2" | xxd -r -p && tail -c "+$(($1 + 2))" "$room/state"
}

# refused_states: a state that was cut or changed, with its first fault and where that is; what is no state; and one
# that another emulator holds. (Its parts: magic number, version, the greatest value, the count, counters, a digest.)
refused_states() {
    size=$(wc -c <"$room/state")
    digest=$((size - 32))
    for cut in '0 0' '3 0' '5 4' '13 6' '17 14' "$((size - 1)) $digest"; do
        head -c "${cut% *}" "$room/state" >"$room/state.bad" && refuses 1 "code 09a at byte ${cut#* }\$" || return 1
    done
    changed 0 00 >"$room/state.bad" && refuses 1 'code 084 at byte 0$' || return 1
    changed 5 02 >"$room/state.bad" && refuses 1 'code 084 at byte 4$' || return 1
    changed 13 00 >"$room/state.bad" && refuses 1 "code 146 at byte $digest\$" || return 1
    changed 13 ff >"$room/state.bad" && refuses 1 "code 09f at byte $digest\$" || return 1
    changed 23 09 >"$room/state.bad" && refuses 1 "code 09f at byte $digest\$" || return 1
    { cat "$room/state" && head -c 2000 /dev/zero; } >"$room/state.bad" && refuses 1 "code 095 at byte $size\$" ||
        return 1
    echo 'vinjakwe emulator state 1' >"$room/state.bad" && refuses 1 'code 084 at byte 0$' || return 1
    rm "$room/state.bad" && mkdir "$room/state.bad" && refuses 3 "can't be read" && rmdir "$room/state.bad" || return 1
    cp "$room/state" "$room/state.bad"
    begin emulator --state "$room/state.bad" || return 1
    refuses 3 'another emulator holds it' || { end && return 1; }
    end
}

# streamed: three commands over standard input and output give the bytes of tpmtool; what can't be a frame is refused.
streamed() {
    printf '80010000000c000001440000\n8001000000140000017e00000001000403000001\n8001000000\n' >"$room/in.stream"
    head -n 2 "$room/in.stream" | "$program" run | tr -d '\n' >"$room/out.wanted"
    tr -d '\n' <"$room/in.stream" | xxd -r -p | "$room/emulator" --stdio | xxd -p | tr -d '\n' >"$room/out" || return 1
    cmp "$room/out" "$room/out.wanted" || return 1
    printf 'no frames here' | "$room/emulator" --stdio 2>"$room/err"
    [ $? -eq 1 ]
}

# by_itself: each tool starts the program anew, built by emulator/run, over the state that the one before has left.
by_itself() {
    export TPM2TOOLS_TCTI="cmd:emulator/run --stdio --startup --state $room/state.tools"
    timeout 100 tpm2_nvdefine 0x01800001 -C o -s 8 -a "$counter" && timeout 100 tpm2_nvincrement 0x01800001 -C o &&
        timeout 100 tpm2_nvincrement 0x01800001 -C o && [ "$(value 0x01800001 | tail -n 1)" = 0000000000000002 ]
}

# controlled: the control channel as swtpm's own program speaks to it. An init takes the registers, and a shutdown ends
# the program.
controlled() {
    begin emulator --startup || return 1
    control="swtpm_ioctl --tcp 127.0.0.1:$((port + 1))"
    over swtpm
    timeout 20 tpm2_pcrextend "16:sha256=$(letters 32 62)" && timeout 20 $control -c && timeout 20 $control -e &&
        timeout 20 $control -l 0 && ! timeout 20 $control -l 3 && timeout 20 $control -C &&
        timeout 20 $control -b 4096 &&
        ! timeout 20 $control --info 1 && timeout 20 $control -i &&
        timeout 20 tpm2_pcrread sha256:16 | grep -q "0x$(letters 32 00)\$" && timeout 20 $control --stop &&
        ! timeout 20 tpm2_pcrread sha256:16 && timeout 20 $control -s && wait "$server"
}

# controlled_over_tcp: the same port by its bytes: no descriptors, a message that waits for its rest, and unknown ones.
controlled_over_tcp() {
    begin emulator || return 1
    ask 1 00000001 00000010 0000000500 0000000503 00000004 0000000b00000000 00000009 0000000f ffffffff 00000011 00000000 \
        0000000200000000 0000000e 00000012 00000001 >"$room/answers"
    end
    printf '%s\n' 0000000000002faf 0000000a 00000000 0000003d 0000000000000000 00000000 00000000 0000000000000000 \
        0000000a - 00000000000010000000100000001000 00000000 00000000 0000000a 0000000000002faf | diff - "$room/answers"
}

# the_device_alone: with --only-device nothing is answered by the host.
the_device_alone() {
    begin emulator --only-device || return 1
    over swtpm
    timeout 20 tpm2_startup -c || { end && return 1; }
    for tool in 'getcap pcrs' 'getrandom 8' selftest gettestresult 'shutdown -c' readclock; do
        if timeout 20 tpm2_$tool >"$room/out" 2>&1; then echo "tpm2_$tool" && end && return 1; fi
        grep -q -i -e 0x143 "$room/out" || { cat "$room/out" && end && return 1; }
    done
    timeout 20 tpm2_pcrextend "16:sha256=$(letters 32 62)" && end
}

# audits CONTEXT: random bytes under this session, which audits; twice.
audits() {
    for time in 1 2; do
        [ "$(timeout 20 tpm2_getrandom -S "$1" --hex 8 | wc -c)" -eq 16 ] || { echo "$1 does not audit" && return 1; }
    done
}

# with_audits: sessions that audit, of each hash, and bound to the owner; the tools check each HMAC. One is used for a
# command of the device before and behind.
with_audits() {
    cd "$room" && rm -f ./*.context
    index=0x01800001
    {
        for hash in sha1 sha256 sha384; do
            tpm2_startauthsession --audit-session -g $hash -S $hash.context && audits $hash.context &&
                tpm2_flushcontext $hash.context || return 1
        done
        tpm2_startauthsession --audit-session --bind-context=o --bind-auth=own -S bound.context &&
            audits bound.context && tpm2_flushcontext bound.context &&
            tpm2_startauthsession --audit-session --bind-context=o --bind-auth=other -S bound.context &&
            ! tpm2_getrandom -S bound.context --hex 8 && tpm2_flushcontext bound.context || return 1
        tpm2_nvdefine $index -C o -P own -s 8 -a "$counter" && tpm2_startauthsession --hmac-session -S both.context &&
            tpm2_nvincrement $index -C o -P session:both.context+own &&
            tpm2_sessionconfig both.context --enable-audit && audits both.context &&
            tpm2_sessionconfig both.context --disable-audit && tpm2_nvincrement $index -C o -P session:both.context+own
    } 2>&1
}

# audited: sessions audit what the host answers.
audited() {
    begin emulator --startup --owner 6f776e || return 1
    over swtpm
    (with_audits)
    said=$?
    end
    return $said
}

# no_random_bytes: where the system has no more random bytes the program ends with status 3.
no_random_bytes() {
    cat >"$room/none.c" <<'END'
#include <errno.h>
#include <stddef.h>
#include <sys/types.h>
ssize_t getrandom(void *room, size_t len, unsigned flags) {
    static int times;
    (void)room, (void)flags;
    if (++times <= 2)
        return (ssize_t)len;
    errno = ENOSYS;
    return -1;
}
END
    "$compiler" -shared -fPIC -o "$room/none.so" "$room/none.c" || return 1
    for times in 1 2 3 4 5; do printf '80010000000c0000017b0010'; done | xxd -r -p |
        LD_PRELOAD="$room/none.so" "$room/emulator" --stdio --startup >"$room/out" 2>"$room/err"
    [ $? -eq 3 ] && grep -q 'no random bytes' "$room/err" && [ "$(wc -c <"$room/out")" -eq 28 ]
}

# killed: no value comes twice, and none goes back.
killed() {
    timeout 900 "$room/client" kill $((port + 8)) "${KILLS:-40}" "${SEED:-1}" "$room/emulator" --swtpm $((port + 8)) \
        --state "$room/state.killed"
}

# filled: the same where the disk is full at a random moment in place of a kill: the emulator ends, and what it could
# not keep is told to nobody.
filled() {
    on_a_small_disk "$room/disk" 32k timeout 900 "$room/client" full $((port + 24)) "${KILLS:-40}" "${SEED:-1}" \
        "$room/disk/more" "$room/emulator" --swtpm $((port + 24)) --state "$room/disk/state"
}

# not_written: a definition and an increment that can't be kept are not answered; the file stays, and so does what was
# told of it.
not_written() {
    rm -f "$room"/state.full*
    full="$room/emulator --stdio --startup --state $room/state.full"
    printf '%s\n' $define $increment | xxd -r -p | $full >"$room/out" && [ "$(wc -c <"$room/out")" -eq 38 ] || return 1
    cp "$room/state.full" "$room/state.before" && ln -s /dev/full "$room/state.full.new" || return 1
    for command in $increment $undefine; do
        printf '%s\n' $read $command $read | xxd -r -p | $full >"$room/out" 2>"$room/err"
        [ $? -eq 3 ] && grep -q "can't be written" "$room/err" && [ "$(wc -c <"$room/out")" -eq 29 ] &&
            cmp "$room/state.before" "$room/state.full" || { cat "$room/err" && return 1; }
    done
    rm "$room/state.full.new" && printf '%s\n' $increment $read | xxd -r -p | $full | xxd -p | tr -d '\n' |
        grep -q '^80020000001300000000000000000000010000.*00080000000000000002'
}

# there_again: counters of all kinds are there at the next start, to the byte, and the next first value is behind the
# greatest.
there_again() {
    timeout 900 "$room/client" again $((port + 16)) "${BOOTS:-30}" "${SEED:-1}" "$room/emulator" \
        --swtpm $((port + 16)) --state "$room/state.again"
}

# build_sanitized: the emulator with sanitizers, once.
build_sanitized() {
    [ -x "$room/sanitized" ] ||
        "$compiler" $flags -g -O1 -fsanitize=address,undefined -fno-sanitize-recover=all -o "$room/sanitized" \
            emulator/*.c "$archive"
}

# harmless: random messages and cut connections, over the emulator with sanitizers.
harmless() {
    build_sanitized || return 1
    begin sanitized --state "$room/state.frames" || { cat "$room/served" && return 1; }
    timeout 900 "$room/client" frames $((port + 2)) "$port" "${MESSAGES:-30000}" "${SEED:-1}" &&
        timeout 100 "$room/client" many "$port" 4200
    said=$?
    end && [ $said -eq 0 ] && ! grep -q -e ERROR -e 'runtime error' "$room/served" ||
        { cat "$room/served" && return 1; }
}

# ---- what is answered, byte for byte

# ask AFTER COMMAND..: what is answered to each of these at the port that is so many behind the first, a line each.
ask() {
    after=$1
    shift
    printf '%s\n' "$@" | timeout 20 "$room/client" ask $((port + after))
}

# rows FILE: the rows of such a file, without what is said of them.
rows() {
    grep -v -e '^#' -e '^$' "$1"
}

# answers_of KIND WORD..: the server answers the commands of checks/host.txt as its rows say: a command and its
# response, or ours and swtpm's with a `|` between. A `.` is any digit.
answers_of() {
    kind=$1
    shift
    begin "$kind" "$@" || { cat "$room/served" && return 1; }
    [ "$kind" = emulator ] || ask 0 80010000000c000001440000 >/dev/null
    rows checks/host.txt | cut -d ' ' -f 1 | timeout 60 "$room/client" ask "$port" >"$room/answers"
    end
    rows checks/host.txt | paste -d ' ' - "$room/answers" | awk -v kind="$kind" '
        { wanted = kind == "swtpm" && NF == 5 ? $4 : $2 }
        $NF !~ ("^" wanted "$") { print substr($1, 1, 60), $NF, "and not", wanted; bad = 1 }
        END { exit bad || NR < 150 }'
}

registers_0=8001000000200000017e00000003000403000001000b03000001000c03000001
session=80010000002b0000017640000007400000070010000102030405060708090a0b0c0d0e0f0000000010000b
save=80010000000e0000016202000000

# saved_once: a session that is saved can't be saved again, a context is loaded once, and a changed one never.
saved_once() {
    begin emulator --startup || return 1
    ask 0 $session $save $save >"$room/answers"
    context=$(sed -n 's/^8001........00000000//p' "$room/answers" | sed -n 2p)
    load=$(printf '8001%08x00000161%s' $((10 + ${#context} / 2)) "$context")
    case $load in
    *0) changed=${load%0}1 ;;
    *) changed=${load%?}0 ;;
    esac
    ask 0 "$changed" "$load" "$load" $save "$load" >>"$room/answers"
    end
    sed -e '1,2d' "$room/answers" | cut -c 13-20 | tr '\n' ' ' >"$room/codes"
    [ "$(cat "$room/codes")" = '00000910 000001df 00000000 000001cb 00000000 000001cb ' ] ||
        { cat "$room/codes" && return 1; }
}

# of_locality: another locality than 0 over mssim.
of_locality() {
    begin emulator --startup || return 1
    ask 2 00000008000000000c80010000000c0000017b0000 00000008010000000c80010000000c0000017b0000 \
        00000008ff0000000c80010000000c0000017b0000 >"$room/answers"
    end
    refused=0000000a80010000000a0000090700000000
    printf '%s\n' 0000000c80010000000c00000000000000000000 $refused $refused | diff - "$room/answers"
}

define=80020000002d0000012a40000001000000094000000900000100000000000e01800001000b0206001600000008
increment=80020000001f00000134400000010180000100000009400000090000010000
read=8002000000230000014e40000001018000010000000940000009000001000000080000
undefine=80020000001f00000122400000010180000100000009400000090000010000

# variables: the variable properties, each as a number.
variables() {
    set --
    for property in 200 201 202 203 204 205 206 207 208 209 20a 20b; do
        set -- "$@" "8001000000160000017a0000000600000${property}00000001"
    done
    ask 0 "$@" | sed 's/.*0000\(....\)$/\1/' | tr '\n' ' '
}

# in_one_life: a power cycle within one process takes the sessions, and is counted; what variable properties and the
# clock say of it.
in_one_life() {
    begin emulator --startup --owner 0102 || return 1
    ask 0 $session 80010000000a00000181 >"$room/answers"
    variables >"$room/before"
    sleep 0.3
    ask 3 00000002 00000001 >/dev/null
    sleep 0.2
    ask 0 80010000000a00000181 >>"$room/answers"
    variables >"$room/after"
    end
    [ "$(cat "$room/before")" = '0001 0002 0000 0001 0002 0001 0002 0000 0000 0000 0000 0008 ' ] &&
        [ "$(cat "$room/after")" = '0001 0002 0000 0000 0003 0000 0003 0000 0000 0000 0000 0008 ' ] ||
        { cat "$room/before" "$room/after" && return 1; }
    # Behind the header: the time since the power came on, the clock, resets, restarts, and whether it is safe.
    sed -n '2,$s/^8001........00000000\(.\{16\}\)\(.\{16\}\)/\1 \2 /p' "$room/answers" >"$room/clocks"
    { read -r time1 clock1 rest1 && read -r time2 clock2 rest2; } <"$room/clocks" || return 1
    [ "$rest1 $rest2" = '000000000000000000 000000010000000000' ] && [ $((0x$time1)) -le $((0x$clock1)) ] &&
        [ $((0x$time2)) -ge 150 ] && [ $((0x$time2)) -lt $((0x$clock2 - 250)) ] &&
        [ $((0x$clock2 - 0x$clock1)) -ge 450 ] && [ $((0x$clock2)) -lt 60000 ] || { cat "$room/clocks" && return 1; }
}

# cycled: counters over power cycles of one process, whose file is kept: they go on, and the next first value is behind
# the greatest.
cycled() {
    rm -f "$room/state.life"
    begin emulator --startup --state "$room/state.life" || return 1
    {
        ask 0 $define $increment $increment $read
        ask 3 00000011
        ask 0 $read $increment $read
        ask 3 00000002 00000001
        ask 0 $read $undefine $define $increment $read
    } | sed -n 's/^8002........00000000........0008000000000000\(....\).*/\1/p' | tr '\n' ' ' >"$room/values"
    end
    [ "$(cat "$room/values")" = '0002 0002 0003 0003 0004 ' ] || { cat "$room/values" && return 1; }
}

# synced: before a reply says that a counter has changed, the file is on the disk, has its name, and its folder is on
# the disk.
synced() {
    rm -f "$room/state.traced"
    printf '%s\n' $define $increment | xxd -r -p |
        strace -f -o "$room/trace" -e trace=openat,fsync,rename,renameat,renameat2,write \
            "$room/emulator" --stdio --startup --state "$room/state.traced" >"$room/out" || return 1
    awk -v folder="\"$room\"" '
        { sub(/^[0-9]+ +/, "") }
        /^openat/ && index($0, folder ",") { place = $NF }
        /^openat.*state.traced.new"/ { file = $NF; order = "" }
        /^fsync/ {
            split($0, part, /[()]/)
            order = order (part[2] == place ? "folder " : part[2] == file ? "file " : "other ")
        }
        /^rename/ { order = order "name " }
        /^write\(1,/ { if (order != "file name folder ") { print "before a reply: " order; bad = 1 } else good++ }
        END { exit bad || good < 2 }' "$room/trace" || { tail -n 12 "$room/trace" && return 1; }
}

# simulated: each message of mssim's two ports: the handshake, a command in two writes, the end, a command that is too
# long, and what is none; the platform's signals, and what is answered without power.
simulated() {
    begin emulator --startup || return 1
    nothing=80010000000c0000017b0000
    {
        ask 2 0000000f00000001 0000000800 0000000c$nothing 00000014
        ask 2 000000080000001001
        ask 2 00000005
        ask 3 00000003 00000004 00000009 0000000a 0000000b 0000000c 00000001 00000002
        ask 2 00000008000000000c$nothing
        ask 0 $nothing
        ask 3 00000001 00000014
        ask 2 00000008000000000c$nothing
        ask 3 00000011 00000007
        ask 2 00000008000000000c$nothing
    } >"$room/answers"
    end
    answer=0000000c80010000000c00000000000000000000
    {
        printf '%s\n' 000000010000000000000000 - $answer closed closed closed
        printf '00000000\n00000000\n00000000\n00000000\n00000000\n00000000\n00000000\n00000000\n'
        printf '%s\n' 0000000000000000 80010000000a00000101 00000000 closed $answer 00000000 closed $answer
    } | diff - "$room/answers"
}

# held: as many connections as there may be are answered; one more closes the one that was quiet longest.
held() {
    begin emulator --startup || return 1
    timeout 300 "$room/client" hold "$port" 4096
    said=$?
    end && return $said
}

# not_touched: the state file is written where NV memory changed, and else never; it and a record are their owner's
# alone.
not_touched() {
    rm -f "$room"/state.still* "$room/frames"
    still="$room/emulator --stdio --startup --state $room/state.still --record $room/frames"
    printf '%s\n' $define $increment | xxd -r -p | $still >"$room/out" || return 1
    before=$(stat -c %i "$room/state.still")
    other=$(echo $increment | sed 's/01800001/01800009/')
    printf '%s\n' $read $define $registers_0 $session $save 80010000000a00000181 "$other" | xxd -r -p |
        $still >"$room/out" || return 1
    [ "$(stat -c %i "$room/state.still")" = "$before" ] || { echo "it is written" && return 1; }
    # What a process has left that was killed as it wrote is in no state.
    (umask 077 && head -c 2000 /dev/zero >"$room/state.still.new") || return 1
    printf '%s\n' $increment | xxd -r -p | $still >"$room/out" || return 1
    printf '%s\n' $read | xxd -r -p | $still | xxd -p | tr -d '\n' | grep -q '00080000000000000002' || return 1
    [ "$(stat -c %i "$room/state.still")" != "$before" ] || { echo "it is not written" && return 1; }
    [ "$(stat -c %a "$room/state.still" "$room/frames" | tr '\n' ' ')" = '600 600 ' ]
}

# in_parts: a command over mssim whose header and body are written apart takes no 40 milliseconds.
in_parts() {
    begin emulator --startup || return 1
    took=$(timeout 60 "$room/client" parts $((port + 2)) 50)
    end
    [ "${took:-9999}" -lt 1000 ] || { echo "50 commands took $took milliseconds" && return 1; }
}

# ---- QEMU's channel

# at_channel KIND WORD..: starts it at a Unix socket, and waits; $server is its process.
at_channel() {
    kind=$1
    shift
    "$room/$kind" --unixio "$room/channel" "$@" >"$room/served" 2>&1 &
    server=$!
    comes [ -S "$room/channel" ]
}

# channelled: each message of checks/channel.txt is answered as its row says; the last one ends the emulator, and its
# socket is gone.
channelled() {
    at_channel emulator || return 1
    rows checks/channel.txt | cut -d ' ' -f 1 | timeout 60 "$room/client" channel "$room/channel" >"$room/answers"
    wait "$server" || { echo "status $?" && return 1; }
    rows checks/channel.txt | cut -d ' ' -f 2 | diff - "$room/answers" && [ ! -e "$room/channel" ]
}

# set_and_kept: a blob that is set is in the state file before that is answered, and one that is refused is not.
set_and_kept() {
    rm -f "$room"/state.set*
    at_channel emulator --state "$room/state.set" || return 1
    blob=564a4e560001000000000000002900000000974d57366103fb65af71876814798c983a63c57f2bb3f75aabc4db0d282d9ffe
    printf '%s\n' 0000000d000000000000000100000032$blob 0000000d000000000000000100000031${blob%fe} |
        timeout 20 "$room/client" channel "$room/channel" >"$room/answers"
    kill -KILL "$server"
    wait "$server" 2>/dev/null
    rm -f "$room/channel"
    printf '%s\n' 00000000 00000003 | diff - "$room/answers" && [ "$(xxd -p "$room/state.set" | tr -d '\n')" = $blob ]
}

# first_answer: the emulator at the socket answers its first message.
first_answer() {
    printf '00000001\n' | timeout 20 "$room/client" channel "$room/channel" | grep -q -x 0000000000003faf
}

# one_channel: a second emulator does not take the socket of another; one that was left by a killed process is taken
# over.
one_channel() {
    at_channel emulator || return 1
    "$room/emulator" --unixio "$room/channel" 2>"$room/err"
    [ $? -eq 3 ] && grep -q 'in use' "$room/err" || { end && return 1; }
    [ "$(stat -c %a "$room/channel")" = 600 ] || { end && return 1; }
    kill -KILL "$server"
    wait "$server" 2>/dev/null
    [ -S "$room/channel" ] || return 1
    at_channel emulator && comes first_answer && end
}

# has_open N: the server has so many open descriptors.
has_open() {
    left=$(find "/proc/$server/fd" 2>/dev/null | wc -l)
    [ "$left" -eq "$1" ]
}

# harmless_channel: random messages, cut ones, and descriptors; none stays open.
harmless_channel() {
    build_sanitized && at_channel sanitized || return 1
    open=$(find "/proc/$server/fd" 2>/dev/null | wc -l)
    timeout 900 "$room/client" messages "$room/channel" "${MESSAGES:-1000000}" "${SEED:-1}"
    said=$?
    comes has_open "$open"
    end && [ $said -eq 0 ] && [ "$left" -eq "$open" ] && ! grep -q -e ERROR -e 'runtime error' "$room/served" ||
        { echo "$open descriptors before, $left behind" && cat "$room/served" && return 1; }
}

# ---- the program

# in_the_background: --daemon returns when it listens, its number is in the file, and the file goes with it; it leads a
# session of its own, which the end of a terminal's does not reach; a fault is its status.
in_the_background() {
    rm -f "$room/state.back" "$room/pid"
    port=$((port + 8))
    "$room/emulator" --swtpm "$port" --state "$room/state.back" --daemon --pid "$room/pid" >"$room/out" 2>&1 ||
        { cat "$room/out" && return 1; }
    "$room/client" listens "$port" >/dev/null && kill -0 "$(cat "$room/pid")" || return 1
    leads=$(awk '{ print $6 }' "/proc/$(cat "$room/pid")/stat")
    [ "$leads" = "$(cat "$room/pid")" ] || { echo "it is in session $leads" && return 1; }
    "$room/emulator" --swtpm $((port + 4)) --state "$room/state.back" --daemon 2>"$room/err"
    [ $? -eq 3 ] && grep -q 'another emulator holds it' "$room/err" || return 1
    "$room/emulator" --swtpm "$port" --daemon 2>/dev/null
    [ $? -eq 3 ] || return 1
    "$room/emulator" --stdio --daemon 2>/dev/null
    [ $? -eq 2 ] || return 1
    kill "$(cat "$room/pid")" && comes [ ! -e "$room/pid" ]
}

# its_words: the version, words that collide, and words that are none.
its_words() {
    version=$(awk '$2 == "VINJAKWE_VERSION" { gsub(/"/, ""); print $3 }' include/vinjakwe.h)
    [ "$("$room/emulator" --version)" = "vinjakwe-emulator $version" ] &&
        "$room/emulator" --help | grep -q -e '--unixio PATH' || return 1
    for words in '--mssim 24376 --swtpm 24377' '--mssim 24376 --swtpm 24375' '--mssim 24376 --swtpm 24376'; do
        "$room/emulator" $words 2>"$room/err"
        [ $? -eq 2 ] && grep -q 'they collide' "$room/err" || { echo "$words" && return 1; }
    done
    for words in '' '--swtpm' '--swtpm 0' '--swtpm 65535' '--other' '--owner 0' "--unixio $(printf '%0200d' 0)" \
        '--stdio --owner 0g' "--stdio --owner $(zeros 49)" '--stdio --greatest -1' '--stdio --greatest 1x' \
        '--stdio --greatest 18446744073709551616' '--swtpm 24376 --listen here'; do
        timeout 20 "$room/emulator" $words </dev/null 2>"$room/err"
        [ $? -eq 2 ] && [ -s "$room/err" ] || { echo "words $words" && return 1; }
    done
    for word in --swtpm --mssim; do
        "$room/emulator" --stdio $word </dev/null 2>"$room/err"
        [ $? -eq 2 ] && grep -q -x "emulator: $word wants a port's number" "$room/err" ||
            { cat "$room/err" && return 1; }
    done
    for word in --listen --unixio --state --record --pid --owner --greatest; do
        "$room/emulator" --stdio $word </dev/null 2>"$room/err"
        [ $? -eq 2 ] && grep -q "^emulator: $word wants " "$room/err" || { cat "$room/err" && return 1; }
    done
}

# its_device: the owner's value in either kind of digits, and the greatest value, which a file that is there says
# already.
its_device() {
    rm -f "$room"/state.words*
    by_owner=$(echo $define |
        sed 's/^80020000002d/80020000002f/; s/0000000940000009\(000001\)0000/0000000b40000009\100024f6b/')
    for owner in 4F6B 4f6b; do
        printf '%s\n' $define "$by_owner" | xxd -r -p | "$room/emulator" --stdio --startup --owner $owner |
            xxd -p | tr -d '\n' | grep -q '^80010000000a000009a280020000001300000000000000000000010000$' ||
            { echo "--owner $owner" && return 1; }
    done
    words="--stdio --startup --greatest 18446744073709551614 --state $room/state.words"
    printf '%s\n' $define $increment $read | xxd -r -p | "$room/emulator" $words | xxd -p | tr -d '\n' |
        grep -q '0008ffffffffffffffff0000010000$' || return 1
    "$room/emulator" $words </dev/null 2>"$room/err"
    [ $? -eq 2 ] && grep -q 'says the greatest value already' "$room/err" && [ ! -e "$room/state.words.lock" ]
}

# at_its_address: it listens where it is told, and else at the loopback's first address alone.
at_its_address() {
    begin emulator || return 1
    "$room/client" listens "$port" 127.0.0.2 && end && return 1
    end || return 1
    for try in 1 2 3 4 5 6 7 8; do
        port=$((port + 8))
        rm -f "$room/err"
        "$room/emulator" --swtpm "$port" --mssim $((port + 2)) --listen 127.0.0.2 2>"$room/err" &
        server=$!
        comes [ -s "$room/err" ]
        if kill -0 "$server" 2>/dev/null; then break; fi
    done
    for at in 0 1 2 3; do
        "$room/client" listens $((port + at)) 127.0.0.2 && ! "$room/client" listens $((port + at)) ||
            { echo "$at" && end && return 1; }
    done
    end
}

# recorded: each frame and its answer are in the record, a line each, which the program tells.
recorded() {
    printf '%s\n' 80010000000c000001440000 $registers_0 $session 80010000000a00000181 | tee "$room/in.frames" |
        xxd -r -p |
        "$room/emulator" --stdio --record "$room/frames" | xxd -p | tr -d '\n' >"$room/out" || return 1
    sed -n 's/^> //p' "$room/frames" | diff "$room/in.frames" - &&
        [ "$(sed -n 's/^< //p' "$room/frames" | tr -d '\n')" = "$(cat "$room/out")" ] &&
        [ "$(wc -l <"$room/frames")" -eq 8 ] || return 1
    [ ! -x "$program" ] || "$program" show --file "$room/frames" | grep -q StartAuthSession || return 1
    "$room/emulator" --stdio --record "$room/no/frames" </dev/null 2>/dev/null
    [ $? -eq 3 ]
}

# by_links: emulator/run works through symbolic links, and without `rt` where it is built.
by_links() {
    mkdir -p "$room/links/more" && ln -sf "$PWD/emulator/run" "$room/links/one" &&
        ln -sf ../one "$room/links/more/two" || return 1
    for link in "$room/links/one" "$room/links/more/two"; do
        PATH=/usr/bin:/bin "$link" --version | grep -q '^vinjakwe-emulator ' || { echo "$link" && return 1; }
    done
    (cd "$room/links/more" && ./two --version) | grep -q '^vinjakwe-emulator '
}

# tss_built: the tests of checks/tss.c are built over tpm2-tss' libraries.
tss_built() {
    "$compiler" -std=c11 -O2 -w $(pkg-config --cflags $tss) -o "$room/tss" checks/tss.c $(pkg-config --libs $tss)
}

# tested KIND PROTOCOL: each of them passes over the emulator or swtpm.
tested() {
    begin "$1" || return 1
    over "$2"
    "$room/tss" "$TPM2TOOLS_TCTI" >"$room/out" 2>"$room/err"
    grep -v '^ok ' "$room/out"
    end && [ "$(grep -c '^ok ' "$room/out")" -eq 19 ] && [ "$(wc -l <"$room/out")" -eq 19 ]
}

# by_libraries: what programs over tpm2-tss' libraries ask.
by_libraries() {
    tss="tss2-esys tss2-sys tss2-mu tss2-tctildr"
    name="tpm2-tss' integration tests"
    if ! command -v pkg-config >/dev/null 2>&1 || ! pkg-config --exists $tss; then
        skip "$name" "there are no libraries of tpm2-tss to build with"
    elif ! tss_built >"$room/said" 2>&1; then
        fail "$name" "they are not built: $(head -n 5 "$room/said")"
    else
        holds "$name over mssim" tested emulator mssim
        holds "$name over swtpm's protocol" tested emulator swtpm
        holds_by swtpm "$name over swtpm" tested swtpm swtpm
    fi
}

# sanitizes: whether the compiler has sanitizers.
sanitizes() {
    echo 'int main(void) { return 0; }' >"$room/empty.c"
    "$compiler" -fsanitize=address,undefined -o "$room/empty" "$room/empty.c" >/dev/null 2>&1 && "$room/empty"
}

# by_tools: what the tools of TPM software show.
by_tools() {
    if ! command -v tpm2_startup >/dev/null 2>&1 || ! command -v tpm2_getpolicydigest >/dev/null 2>&1; then
        skip "the emulator by tpm2-tools" "there are no tpm2-tools"
        return
    fi
    holds "tpm2-tools over mssim print what they print over swtpm" \
        script_gives emulator mssim --state "$room/state.script"
    holds "tpm2-tools over swtpm's protocol print what they print over swtpm" script_gives emulator swtpm
    holds_by swtpm "tpm2-tools over swtpm print what is kept of it" script_gives swtpm swtpm
    holds "logs that tpm2_pcrextend sends leave their registers" logs_leave
    holds "counters outlive the process, one of a policy among them" kept
    holds "a state that was cut or changed, or that is held, is refused" refused_states
    holds "tools that start the emulator themselves find their counters" by_itself
    holds_by swtpm_ioctl "the control channel is spoken to by swtpm_ioctl" controlled
    holds "the device alone answers its own commands" the_device_alone
    holds "sessions audit what the host answers" audited
}

if [ -z "$compiler" ]; then
    skip "the emulator" "no C compiler was found"
elif [ ! -f "$archive" ]; then
    skip "the emulator" "the library for C is not built"
elif ! command -v xxd >/dev/null 2>&1; then
    skip "the emulator" "there is no xxd"
elif ! "$compiler" $flags -O2 -o "$room/emulator" emulator/*.c "$archive" >"$room/said" 2>&1 ||
    ! "$compiler" -std=c99 -D_POSIX_C_SOURCE=200809L -Wall -Wextra -Werror -O2 -o "$room/client" checks/emulator.c \
        >>"$room/said" 2>&1; then
    fail "the emulator" "it isn't built: $(head -n 5 "$room/said")"
else
    by_tools
    by_libraries
    if [ -x "$program" ]; then
        holds "commands over standard input give the bytes of tpmtool" streamed
    else
        skip "commands over standard input give the bytes of tpmtool" "the program is not built"
    fi
    holds "the host answers as swtpm does, field by field" answers_of emulator --startup
    holds_by swtpm "swtpm answers as is kept of it" answers_of swtpm
    holds "a session is saved once, and its context loaded once" saved_once
    holds "another locality over mssim is refused" of_locality
    holds "a power cycle within one process is counted" in_one_life
    holds "counters go on over power cycles of one process" cycled
    holds_by strace "a counter is on the disk before the reply" synced
    holds "a command over mssim in two parts does not wait" in_parts
    holds "each message of mssim's two ports is answered" simulated
    holds "the state file is written where NV memory changed, and else never" not_touched
    if [ "$(ulimit -Hn)" = unlimited ] || [ "$(ulimit -Hn)" -ge 4160 ]; then
        holds "4,096 connections are answered, and one more closes the one that was quiet longest" held
    else
        skip "4,096 connections are answered, and one more closes the one that was quiet longest" \
            "there may not be so many"
    fi
    holds "each message of swtpm's control port is answered" controlled_over_tcp
    holds "each message of QEMU's channel is answered" channelled
    holds "a state blob that is set is kept" set_and_kept
    holds "a Unix socket has one emulator" one_channel
    holds "the emulator in the background" in_the_background
    holds "the emulator's words" its_words
    holds "the emulator's device by its words" its_device
    holds "the emulator's address" at_its_address
    holds "frames are recorded" recorded
    holds "emulator/run works through symbolic links" by_links
    holds "without random bytes the emulator ends" no_random_bytes
    holds "counters of all kinds are there at the next start" there_again
    holds "killed at random moments, no counter goes back" killed
    if [ -c /dev/full ]; then
        holds "what can't be kept is told to nobody" not_written
    else
        skip "what can't be kept is told to nobody" "there is no /dev/full"
    fi
    if on_a_small_disk "$room/disk" 32k true >/dev/null 2>&1; then
        holds "on a disk that is full at random moments, no counter goes back" filled
    else
        skip "on a disk that is full at random moments, no counter goes back" "no file system can be mounted"
    fi
    if sanitizes; then
        holds "random messages and cut connections harm nothing" harmless
        holds "random messages over QEMU's channel harm nothing" harmless_channel
    else
        skip "random messages and cut connections harm nothing" "the compiler has no sanitizers"
    fi
fi

#!/bin/sh
# The bindings for Python, Go and Rust over what ./install installs: one table of questions, answered by each as by the
# C programs and by tpmtool. A question is a line:
#
#     command HEX, reply NAME HEX, build NAME HANDLES SESSIONS PARAMETERS      as examples/view.c
#     log FILE, pieces FILE                               `tpmtool check FILE`, whole and from a reader
#     events FILE                                         as examples/events.c, which checks/c.sh compares
#     texts FILE                                          as examples/events.c, which checks/c.sh compares
#     contents FILE                                       as checks/contents.py
#     objects FILE                                        `tpmtool events --json FILE`, of the records alone
#     boot FILE BANK                                      as examples/secure_boot.c, which checks/c.sh compares
#     quote FILE HEX HASH                                 as examples/log.c
#     attest LOG HEX NONCE REQUIRE HASH [LIST]            a quote as it was signed; `any` nonce, or `any` registers;
#                                                         beside a list of allowed digests
#     frames SIZE HEX                                     a stream in pieces of so many bytes
#     device OWNER, execute HEX, power                    a script, by its nonces, of a new device
#     start, seal, open, give-up                          what a new caller does beside it: checks/callers.txt
#     zeros SIZE HEX                                      as command and as log: HEX, and zeros up to this size
#     code HEX                                            the name of a response code, as `tpmtool explain` has it

. "$(dirname "$0")/shared.sh"
. checks/tables.sh
want_program
find_compiler

prefix=$room/prefix
table=$room/table
LD_LIBRARY_PATH=$prefix/lib
PKG_CONFIG_PATH=$prefix/lib/pkgconfig
PYTHONPATH=$PWD/bindings/python
PYTHONDONTWRITEBYTECODE=yes
CARGO_TARGET_DIR=$room/rust
GOFLAGS=-mod=mod
GOCACHE=$room/go
GODEBUG=cgocheck=1


# in_place WORD..: runs the words with the installed library, wherever that is.
in_place() {
    env LD_LIBRARY_PATH="$LD_LIBRARY_PATH" PKG_CONFIG_PATH="$PKG_CONFIG_PATH" PYTHONPATH="$PYTHONPATH" \
        CARGO_TARGET_DIR="$CARGO_TARGET_DIR" \
        PYTHONDONTWRITEBYTECODE=yes GOFLAGS="$GOFLAGS" GOCACHE="$GOCACHE" GODEBUG="$GODEBUG" CGO_LDFLAGS_ALLOW='.*' "$@"
}

# selection WORD: the TPML_PCR_SELECTION of `sha256:0,7+sha1:1`.
selection() {
    echo "$1" | awk '
        BEGIN { number["sha1"] = "0004"; number["sha256"] = "000b"; number["sha384"] = "000c" }
        {
            count = split($0, entries, "+")
            for (i = 1; i <= count; i++) {
                split(entries[i], halves, ":")
                many = split(halves[2], registers, ",")
                octets[0] = octets[1] = octets[2] = 0
                for (j = 1; j <= many; j++) octets[int(registers[j] / 8)] += 2 ^ (registers[j] % 8)
                text = text number[halves[1]] sprintf("03%02x%02x%02x", octets[0], octets[1], octets[2])
            }
            printf "%08x%s\n", count, text
        }'
}

# ask_quotes: of each quote in checks/quotes what is right of it, and what is wrong where a word is another, with the
# answers.
ask_quotes() {
    while read -r quote log hash nonce selected; do
        bytes=$(xxd -p "checks/quotes/$quote.msg" | tr -d '\n')
        log=checks/quotes/$log
        list=$(selection "$selected")
        {
            echo "attest $log $bytes $nonce $list $hash"
            echo "attest $log $bytes $nonce any $hash"
            echo "attest $log $bytes any $list $hash"
            echo "attest $log $bytes any any $hash"
            echo "attest $log $bytes $nonce - $hash"
            echo "attest $log $bytes $nonce 00000000 $hash"
            echo "attest $log $bytes $nonce 00000001000b03000000 $hash"
            echo "attest $log $bytes ${nonce}00 $list $hash"
            echo "attest $log $bytes - $list $hash"
            echo "attest $log $bytes - any $hash"
            echo "attest $log ${bytes#??} any $list $hash"
            echo "attest $log $bytes $nonce $(selection sha384:9) $hash"
            echo "attest $log $bytes $nonce 000000 $hash"
            echo "attest $log fe${bytes#??} $nonce $list $hash"
            echo "attest checks/logs/worked.log $bytes $nonce $list $hash"
            echo "attest checks/logs/cut_by_a_byte.log $bytes $nonce $list $hash"
        } >>"$table"
        # No log extends the registers that this quote selects, so that each gives its digest.
        other='digest differs'
        [ "$quote" != not-measured ] || other=matches
        printf '%s\n' matches matches matches matches 'nothing to compare' 'nothing to compare' 'nothing to compare' \
            'nonce differs' 'nothing to compare' 'nothing to compare' 'refused 084 at 0' 'lacks sha384 9' \
            'requirement refused' 'refused 084 at 0' "$other" 'log Truncated at 211' >>"$table.wanted"
    done <checks/quotes/cases.txt
}

# ask_lists: of each log that has a list of lines a quote of what it extends, beside the list of its own digests, one in
# which the first of SHA-256 is another, one with a register more, as checks/logs/allowed.py has them, one with three
# more, of which the least by bank and number is told, and one without a digest.
ask_lists() {
    mkdir "$room/lists" && begin_python || return
    for events in checks/logs/*.events; do
        log=${events%.events}
        list=$room/lists/${log##*/}
        by_python checks/logs/allowed.py lists "$events" >"$list"
        grep -q '^sha256' "$list" || continue
        named=$(by_python checks/logs/allowed.py registers "$list")
        bytes=$(by_python checks/quotes/made.py "$log.registers" 6e6f "$named" | xxd -p | tr -d '\n')
        { echo "# others" && awk '{ of = $1 " " $2 } of in first { next } { first[of] = $3 }
            $1 == "sha256" { print of, "00" substr($3, 3) " words # and a comment" }' "$list"; } >"$list.others"
        { cat "$list" && echo "sha384 13 $(zeros 48)"; } >"$list.more"
        { echo "sha384 20 $(zeros 48)" && echo "sha1 22 $(zeros 20)" && echo "sha1 20 $(zeros 20)" && cat "$list"; } \
            >"$list.several"
        printf '\n  # sha256 7\n' >"$list.none"
        for asked in "$list" "$list.others" "$list.more" "$list.several" "$list.none"; do
            echo "attest $log.log $bytes 6e6f any sha256 $asked" >>"$table"
        done
        echo matches >>"$table.wanted"
        by_python checks/logs/allowed.py told "$events" "$list.others" | sort -s -n -k 5,5 | head -n 1 |
            cut -d ' ' -f 1-5 >>"$table.wanted"
        printf '%s\n' "lacks sha384 13" "lacks sha1 20" "nothing to compare" >>"$table.wanted"
    done
}

# ask_spellings: of a log and a quote of what it extends lists whose first line is spelled otherwise, as
# checks/spelled.txt has it by words of awk, and one with a long comment; with what tpmtool says of each.
ask_spellings() {
    log=checks/logs/secure_types list=$room/lists/secure_types number=10
    bytes=$(by_python checks/quotes/made.py "$log.registers" 6e6f sha256:7 | xxd -p | tr -d '\n')
    bytes_of "$bytes" >"$room/lists/quote"
    while IFS= read -r change; do
        number=$((number + 1))
        awk "NR == 1 { $change } 1" "$list" >"$list.$number"
    done <checks/spelled.txt
    { echo "#$(zeros 50000)" && cat "$list"; } >"$list.long"
    for asked in "$list".[0-9]* "$list.long"; do
        echo "attest $log.log $bytes 6e6f any sha256 $asked" >>"$table"
        "$program" check "$log.log" --attest "$room/lists/quote" --nonce 6e6f --any-selection --allow "$asked" | awk '
            /^line / { told = "no list at line " $2 + 0 }
            /^no register$/ { told = "nothing to compare" }
            /^unknown / && (at == "" || $5 < at) { at = $5; told = "unknown " $2 " " $3 " at " at }
            /^allowed / && told == "" { told = "matches" }
            END { print told }' >>"$table.wanted"
    done
}

# make_table: the questions, and their answers by C and by tpmtool.
make_table() {
    : >"$room/asked"
    : >"$room/wanted"
    set -f
    while IFS= read -r line; do
        case $line in
        '#'*) ;;
        'buffer '* | 'command '* | 'reply '* | 'cut '* | 'sized '* | 'set '*) row "$line" ;;
        esac
    done <<ROWS
$(cat checks/commands.txt checks/responses.txt checks/cut.txt)
ROWS
    set +f
    awk 'NF < 2 || $1 == "reply" && NF < 3 { $0 = $0 " -" } { gsub(/  +/, " "); print }' "$room/asked" >"$table"
    cat checks/show.txt checks/build.txt | while IFS= read -r line; do
        case $line in
        '$ show '[0-9a-fA-F]*) echo "command ${line#??show }" ;;
        '$ build '*"'"*) ;;
        '$ build '*) echo "${line#??}" ;;
        esac
    done | awk '
        function is_hex(word) { return word == "-" || length(word) % 2 == 0 && word ~ /^[0-9a-fA-F]+$/ }
        $1 == "command" && NF == 2 && is_hex($2) || $1 == "build" && NF == 5 && is_hex($3) && is_hex($4) && is_hex($5)' >>"$table"
    "$room/c_view" <"$table" >"$table.wanted" || return 1
    for log in checks/logs/*.log; do
        printf 'log %s\npieces %s\n' "$log" "$log" >>"$table"
        "$program" check "$log" >"$room/out"
        cat "$room/out" "$room/out" >>"$table.wanted"
        echo "events $log" >>"$table"
        "$room/c_events" bytes <"$log" >>"$table.wanted"
        # Half of a pair in UTF-16 is U+FFFD for Go and Rust.
        case $log in */halves.log) ;; *)
            echo "texts $log" >>"$table"
            "$room/c_events" texts <"$log" >>"$table.wanted"
            ;;
        esac
        if [ -f "${log%.log}.registers" ] && command -v python3 >/dev/null 2>&1; then
            echo "contents $log" >>"$table"
            python3 checks/contents.py --replaced "$log" >>"$table.wanted" || return 1
        fi
        echo "objects $log" >>"$table"
        "$program" events --json "$log" | sed '/^{"fault"/d' >>"$table.wanted"
        for bank in sha1 sha256 sha384; do
            echo "boot $log $bank" >>"$table"
            "$room/c_boot" "$bank" <"$log" >>"$table.wanted"
        done
    done
    quoted=00000001000b03810000
    digest=002029007275b14d167931c84e098e48fbede947a9cc74f672be54fcb83ed9d07a5c
    for words in "$quoted$digest sha256" "$quoted$digest sha384" "00000001000b03800000$digest sha256"; do
        echo "quote checks/logs/worked.log $words" >>"$table"
        "$room/c_log" $words <checks/logs/worked.log >>"$table.wanted"
    done
    # SHA-256 of no bytes: such a quote says nothing of a log.
    nothing=0020e3b0c44298fc1c149afbf4c8996fb92427ae41e4649b934ca495991b7852b855
    for selected in 00000000 00000001000b03000000; do
        echo "quote checks/logs/worked.log $selected$nothing sha256" >>"$table"
        echo "quote selects nothing" >>"$table.wanted"
    done
    for size in 1 5 12 100; do
        echo "frames $size 80010000000c00000144000080010000000a000000008001" >>"$table"
        printf 'frame %s\n' 80010000000c000001440000 80010000000a00000000 >>"$table.wanted"
        echo inside >>"$table.wanted"
        echo "frames $size 80010000000c00000144000080010000000980010000000a00000000" >>"$table"
        printf '%s\n' 'frame 80010000000c000001440000' 'no buffer has the size that was stated' >>"$table.wanted"
    done
    echo "device 6f776e6572" >>"$table"
    write_hundred
    sed '/^power$/!s/^/execute /' "$room/in" >>"$table"
    "$program" run --owner 6f776e6572 <"$room/in" >>"$table.wanted" || return 1
    sed -n '/^#/d; s/ -> .*//; /./p' checks/callers.txt >>"$table"
    sed -n '/^#/d; s/.* -> //p' checks/callers.txt >>"$table.wanted"
    echo "zeros 4294967308 80010000000c000001440000" >>"$table"
    printf '%s\n' 'refused 142 at 2' 'log NotCryptoAgile at 0' >>"$table.wanted"
    named_codes >"$room/codes"
    { cut -f 1 "$room/codes" && echo 1084; } | sed 's/^/code /' >>"$table"
    { cut -f 2 "$room/codes" && echo 0x1084; } >>"$table.wanted"
    ! [ -d checks/quotes ] || ask_quotes
    ! command -v python3 >/dev/null 2>&1 || { ask_lists && ask_spellings && ask_vouched; }
}

# ask_vouched: what a quote vouches for in the log of what was measured, and in logs in which data, types or further
# records are others (checks/logs/NAME.vouched).
ask_vouched() {
    list=sha1:1,8+sha256:0,1,4,7,8+sha384:1,7
    by_python checks/quotes/made.py checks/logs/attested.registers 6e6f "$list" >"$room/quote"
    bytes=$(xxd -p "$room/quote" | tr -d '\n')
    for log in attested attested_changed attested_relabelled attested_added; do
        echo "vouched checks/logs/$log.log $bytes" >>"$table"
        awk '{ sub(/^vouched=-?/, "", $6); gsub(/,/, " ", $6); print $2 ($6 == "" ? "" : " " $6) }' \
            "checks/logs/$log.vouched" >>"$table.wanted"
    done
}

# make_changed: a hundred thousand commands and replies of the table, each with a digit changed, some cut.
make_changed() {
    awk '($1 == "command" && $2 != "-" || $1 == "reply" && $3 != "-") && length($0) < 400' "$table" | awk '
        { lines[NR] = $0 }
        END {
            srand(1)
            for (i = 0; i < 100000; i++) {
                line = lines[1 + i % NR]
                count = split(line, words, " ")
                hex = words[count]
                head = substr(line, 1, length(line) - length(hex))
                at = int(rand() * length(hex))
                hex = substr(hex, 1, at) substr("0123456789abcdef", 1 + int(rand() * 16), 1) substr(hex, at + 2)
                if (i % 16 == 0) hex = substr(hex, 1, 2 * int(rand() * length(hex) / 2))
                print head (hex == "" ? "-" : hex)
            }
        }' >"$room/changed"
    "$room/c_view" <"$room/changed" >"$room/changed.wanted"
}

# answers WORD..: this program answers the table, and the changed buffers, as C and tpmtool do.
answers() {
    in_place "$@" <"$table" >"$room/out" && diff "$table.wanted" "$room/out"
}

answers_changed() {
    in_place "$@" <"$room/changed" >"$room/out" || return 1
    cmp "$room/changed.wanted" "$room/out"
}

# make_layout: of each structure of the header that the bindings write again its size and the places of its fields, and
# each number.
make_layout() {
    awk '
        function size(name) { printf "printf(\"%s %%zu\\n\", sizeof(struct %s));\n", name, name }
        function place(name, field) {
            printf "printf(\"%s.%s %%zu\\n\", offsetof(struct %s, %s));\n", name, field, name, field
        }
        function number(name, value) { printf "printf(\"%s %%lu\\n\", (unsigned long)%s);\n", name, value }
        BEGIN { print "#include \"vinjakwe.h\"\n#include <stdio.h>\nint main(void) {" }
        /^struct tpm_[a-z_]* \{/ &&
            ($2 ~ /refusal|part|session|areas|attest|signature|allowed|policy|counter|secure_boot|variable/ ||
                $2 ~ /log_(place|digest|event)|image|node|firmware|table|tag|measurement|evidence|content/ ||
                $2 ~ /owned|option/) {
            name = $2
            size(name)
            next
        }
        /^}/ { name = "" }
        name && /;/ {
            for (i = 1; i <= NF; i++) if ($i ~ /;/) break
            sub(/(\[.*)?;.*/, "", $i)
            place(name, $i)
        }
        /^#define TPM_(CC|RC)_/ &&
            $2 !~ /^TPM_RC_([HPS1-7])$/ { number($2, $2) }
        /^#define TPM_(DONE|REFUSED|NO_ROOM|NO_COMMAND|EVENT|VARIABLE|TEXT|TEXT_UTF16|CALLER_OPENED) / ||
            /^#define TPM_(NOT_ALLOWED|IMAGE|PATH_NODE) / ||
            /^#define TPM_(VERSION|VERSION_GUID|SEPARATOR|LOCALITY|FIRMWARE|TABLES|TAG|PARTITIONS) / ||
            /^#define TPM_(MEASUREMENT|EVIDENCE) / ||
            /^#define TPM_(PARTITION|TABLE|TABLE_BYTES|SIGNATURE_LIST|OWNED|LOAD_OPTION|DEVICE_PATH) / ||
            /^#define TPM_HOLDS_(LOAD_OPTION|BOOT_ORDER|SIGNATURES|SIGNATURE|BYTE) / ||
            /^#define TPM_POLICY_NO_DIGEST / ||
            /^#define TPM_(FRAMER_[A-Z]+|ATTEST_[A-Z_]+|MEASURED_[A-Z]+) / ||
            /^#define TPM_ALG_(SHA|RSA|ECDSA)/ ||
            /^#define TPM_(BUFFER|OWNER|NONCE|REGISTERS|DEVICE_KEPT|SELECTION)_BYTES/ ||
            /^#define TPM_(EVENT_TYPE|CODE_NAME|LOG_NAME)_BYTES/ { number($2, $2) }
        /^#define TPM_SECURE_BOOT_(ON|OFF|UNSET|NO_ROOM|NOT_MEASURED) / { number($2, $2) }
        /^#define TPM_LOG_/ && $2 !~ /_BYTES$/ {
            sub(/^TPM_LOG_/, "", $2)
            gsub(/_/, "", $2)
            number("TPM_LOG_" $2, $3)
        }
        END { print "return 0; }" }' include/vinjakwe.h >"$room/layout.c"
    "$compiler" -Iinclude -o "$room/c_layout" "$room/layout.c" && "$room/c_layout" | sort >"$room/layout"
}

# python_layout: the same of the package, but for the kinds of a log's faults, which it knows by their names alone.
python_layout() {
    grep -v '^TPM_LOG_[A-Z]* ' "$room/layout" >"$room/layout.python"
    in_place python3 - >"$room/out.unsorted" <<'END' && sort "$room/out.unsorted" | diff "$room/layout.python" -
import ctypes
import vinjakwe as v

for it, name in (
    (v._Refusal, "refusal"), (v._Part, "part"), (v._CommandSession, "command_session"),
    (v._CommandAreas, "command_areas"), (v._ResponseSession, "response_session"), (v._ResponseAreas, "response_areas"),
    (v._LogPlace, "log_place"), (v._LogDigest, "log_digest"), (v._LogEvent, "log_event"), (v._Attest, "attest"),
    (v._Signature, "signature"),
    (v._AttestFault, "attest_fault"), (v._AllowedDigest, "allowed"), (v._Policy, "policy"), (v._Counter, "counter"),
    (v._SecureBoot, "secure_boot"), (v._Variable, "variable"), (v._Image, "image"), (v._PathNode, "path_node"),
    (v._Firmware, "firmware"), (v._Tables, "tables"), (v._Tag, "tag"), (v._Partitions, "partitions"),
    (v._Measurement, "measurement"), (v._Evidence, "evidence"), (v._Content, "content"), (v._Partition, "partition"),
    (v._Table, "table"), (v._SignatureList, "signature_list"), (v._Owned, "owned"), (v._LoadOption, "load_option"),
):
    print(f"tpm_{name} {ctypes.sizeof(it)}")
    for field, _ in it._fields_:
        print(f"tpm_{name}.{field} {getattr(it, field).offset}")
algorithms = {name.upper(): number for name, number in (v.HASHES | v.SCHEMES).items()}
parts = {name.upper(): number for name, number in v.MEASURED.items()}
for prefix, table in (("CC", v.COMMANDS), ("RC", v.CODES), ("ALG", algorithms), ("MEASURED", parts)):
    for name, number in table.items():
        print(f"TPM_{prefix}_{name} {number}")
for name in ("BUFFER_BYTES", "OWNER_BYTES", "NONCE_BYTES", "REGISTERS_BYTES", "DEVICE_KEPT_BYTES",
             "EVENT_TYPE_BYTES", "CODE_NAME_BYTES", "LOG_NAME_BYTES", "SELECTION_BYTES"):
    print(f"TPM_{name} {getattr(v, name)}")
for name in ("DONE", "REFUSED", "NO_ROOM", "NO_COMMAND", "FRAMER_MORE", "FRAMER_READY", "FRAMER_BROKEN", "EVENT",
             "VARIABLE", "TEXT", "TEXT_UTF16", "NOT_ALLOWED", "IMAGE", "PATH_NODE", "CALLER_OPENED", "ATTEST_REFUSED",
             "ATTEST_NO_BANK", "ATTEST_REQUIREMENT", "POLICY_NO_DIGEST", "VERSION", "VERSION_GUID", "SEPARATOR",
             "LOCALITY", "FIRMWARE", "TABLES", "TAG", "PARTITIONS", "MEASUREMENT", "EVIDENCE", "PARTITION", "TABLE",
             "TABLE_BYTES", "SIGNATURE_LIST", "OWNED", "LOAD_OPTION", "DEVICE_PATH", "HOLDS_LOAD_OPTION",
             "HOLDS_BOOT_ORDER", "HOLDS_SIGNATURES", "HOLDS_SIGNATURE", "HOLDS_BYTE"):
    print(f"TPM_{name} {getattr(v, '_' + name)}")
for kind in v.Kind:
    if kind.value >= 0:
        print(f"TPM_ATTEST_{kind.name} {kind.value}")
for state in v.SecureBootState:
    print(f"TPM_SECURE_BOOT_{state.name} {state.value}")
print(f"TPM_SECURE_BOOT_NO_ROOM {v._SECURE_BOOT_NO_ROOM}")
print(f"TPM_SECURE_BOOT_NOT_MEASURED {v._SECURE_BOOT_NOT_MEASURED}")
END
}

# python_faults: what has no bytes, a library that is not there or is another, and a file.
python_faults() {
    in_place python3 - <<'END' || return 1
import vinjakwe as v

def refuses(kind, call, *words):
    try:
        call(*words)
    except kind:
        return
    raise SystemExit(f"{call} {words}")

for it in ("80", 5, None, object(), 1.5, (b"",), [b""]):
    for call in (v.decode_command, v.Framer().push, v.Device, v.Device().execute):
        refuses((TypeError, AttributeError), call, it)
    refuses((TypeError, AttributeError, FileNotFoundError), v.replay, it)
refuses(BufferError, v.decode_command, memoryview(b"1234")[::2])
refuses(ValueError, v.decode_response, "GetRandom", b"")
refuses(ValueError, v.decode_response, -1, b"")
refuses(ValueError, v.build_command, 1 << 32)
refuses(ValueError, v.Device, b"1" * 49)
refuses(ValueError, v.Device, b"", 1 << 64)
refuses(ValueError, v.Device().execute, b"", b"")
refuses(ValueError, v.check_quote, b"", b"", "md5")
refuses(TypeError, v.check, b"", b"", b"1")
refuses(TypeError, v.check, b"", b"", None, "sha256:0")
refuses((TypeError, AttributeError), v.check, b"", b"", b"1", None)
refuses(ValueError, v.Caller().seal, b"", b"")
assert not v.Caller().start(b"", b"") and not v.Caller().open(b"") and not v.Caller().give_up(b"")
assert v.code_name(0x9A2) == "TPM_RC_BAD_AUTH for session 1" and v.code_name(0x1C4) == "TPM_RC_VALUE for parameter 1"
with open("checks/logs/worked.log", "rb") as log:
    found = v.replay(log)
    assert v.replay(bytearray(open(log.name, "rb").read())) == found
END
    in_place env VINJAKWE_LIBRARY=/nowhere/none.so python3 -c 'import vinjakwe' 2>&1 |
        grep -q 'LibraryError: the library vinjakwe is not found' || return 1
    printf 'extern const char vinjakwe_version[];\nconst char vinjakwe_version[] = "9.0.0";\n' >"$room/other.c"
    "$compiler" -shared -fPIC -o "$room/other.so" "$room/other.c" || return 1
    in_place env VINJAKWE_LIBRARY="$room/other.so" python3 -c 'import vinjakwe' 2>&1 |
        grep -q 'LibraryError: .* has version 9.0.0' || return 1
    in_place python3 -m vinjakwe check checks/logs/worked.log | cmp - checks/logs/worked.registers
}

# python_tests, go_tests, rust_tests: what a user runs in the folder of a binding.
python_tests() {
    (cd bindings/python && in_place python3 -m unittest) >"$room/out" 2>&1 || { cat "$room/out" && return 1; }
    ! grep '^Ran 0 tests' "$room/out"
}

go_tests() {
    (cd bindings/go && in_place go test ./...)
}

rust_tests() {
    (cd bindings/rust && in_place cargo test --offline --locked --features alloc)
}

# python_typed: a checker of types finds nothing.
python_typed() {
    (cd bindings/python && mypy --strict --cache-dir="$room/mypy" vinjakwe)
}

# python_wheel: a wheel holds the library, runs without another install, and leaves nothing among the sources.
python_wheel() {
    before=$(find bindings/python | sort)
    VINJAKWE_LIBRARY=$prefix/lib/libvinjakwe.so.0 "$1" -m pip wheel -q --no-build-isolation --no-deps -w "$room/wheel" \
        bindings/python || return 1
    [ "$(find bindings/python | sort)" = "$before" ] || return 1
    mkdir "$room/unpacked" && "$1" -m zipfile -e "$room"/wheel/*.whl "$room/unpacked" || return 1
    env -u VINJAKWE_LIBRARY -u LD_LIBRARY_PATH PYTHONPATH="$room/unpacked" "$1" -m vinjakwe check \
        checks/logs/worked.log | cmp - checks/logs/worked.registers
}

# wheel_maker: a python3 that makes wheels without a network.
wheel_maker() {
    for maker in python3 /usr/bin/python3; do
        "$maker" -c 'import setuptools, wheel, pip' 2>/dev/null && return
    done
    return 1
}

# same_said WORD..: `python -m vinjakwe` and tpmtool write the same and have the same status for these words.
same_said() {
    "$program" "$@" >"$room/out.wanted" 2>"$room/err" </dev/null
    wanted=$?
    in_place python3 -m vinjakwe "$@" >"$room/out" 2>"$room/err" </dev/null
    [ $? -eq "$wanted" ] && cmp "$room/out.wanted" "$room/out" && return
    echo "$*"
    return 1
}

# python_program: each quote in checks/quotes beside its log, another and a broken one, with nonces, lists of registers
# and hashes.
python_program() {
    while read -r quote log hash nonce selected; do
        for log in "checks/quotes/$log" checks/logs/worked.log checks/logs/cut_by_a_byte.log; do
            for words in "" "--nonce $nonce" "--nonce ${nonce}00 --hash $hash" "--nonce no" "--nonce $nonce --require $selected --hash $hash" \
                "--require sha256:007,0+sha1:7" "--require sha384:9+$selected --nonce $nonce" "--require sha1:all --hash sha384" \
                "--any-nonce --any-selection" "--nonce $nonce --any-selection" "--any-nonce --require $selected" \
                "--any-nonce --nonce $nonce" "--any-selection --require $selected"; do
                same_said check "$log" --attest "checks/quotes/$quote.msg" $words || return 1
            done
        done
    done <checks/quotes/cases.txt
    for list in "" all none sha256 sha256: sha256:none sha256:0, sha256:,0 sha256:0+ sha256:24 sha256:0x1 sha256:-1 \
        sha256:all,0 SHA256:0 md5:0 ' sha256:0' 'sha256:0 ' sha256:0:1 sha256:18446744073709551623; do
        same_said check checks/logs/worked.log --attest checks/quotes/not-measured.msg --require "$list" || return 1
    done
    same_said check checks/logs/worked.log --attest checks/logs/worked.log &&
        same_said check checks/logs/worked.log --require sha256:0 \
        && same_said check checks/logs/worked.log --nonce 00 && same_said check checks/logs/worked.log --hash sha1
}

# go_built: the package is vetted, and the program that answers the table is built.
go_built() {
    (cd bindings/go && in_place go vet ./... && in_place go build -o "$room/go_table" ./table &&
        in_place go build -o "$room/go_verify" ./examples/verify)
}

# go_static, rust_static: the program holds the archive, and needs no shared library.
go_static() {
    (cd bindings/go && in_place go build -tags vinjakwe_static -o "$room/go_static" ./table) &&
        ! ldd "$room/go_static" | grep vinjakwe && answers "$room/go_static"
}

rust_static() {
    (cd bindings/rust && in_place cargo build --offline --locked --features static --examples \
        --target-dir "$room/rust_static") &&
        ! ldd "$room/rust_static/debug/examples/table" | grep vinjakwe &&
        answers "$room/rust_static/debug/examples/table" $(numbers)
}

# rust_built: the crate is built without a warning, and so is the program that answers the table; its structures, made
# of the header, lie as C lays them out, and its log faults are in the header's order.
rust_built() {
    (cd bindings/rust && RUSTFLAGS='-D warnings' in_place cargo build --offline --release --locked --examples)
}

rust_layout() {
    grep -e '^tpm_' -e '^TPM_LOG_[A-Z]* ' "$room/layout" >"$room/layout.rust"
    in_place "$room/rust/release/examples/layout" | sort | diff "$room/layout.rust" -
}

# numbers: the commands of the header, as words for the program in Rust, which has no table of their names.
numbers() {
    sed -n 's/^TPM_CC_\([A-Za-z_]*\) /\1=/p' "$room/layout"
}

# example FILE WORDS: the blocks of code in a README that begin with these words.
example() {
    awk -v fence="^\`\`\`$2\$" '$0 ~ fence { inside = 1; next } /^```$/ { inside = 0 } inside' "$1"
}

# python_example, go_example, rust_example: the README's example as it stands there, from a log, a quote and a nonce to
# a verdict.
python_example() {
    example bindings/python/README.md python >"$room/example.py"
    [ "$(in_place python3 "$room/example.py" $one_quote)" = "$verdict" ]
}

go_example() {
    mkdir -p "$room/example" && example bindings/go/README.md go >"$room/example/main.go"
    printf 'module example\n\ngo 1.19\n\nrequire vinjakwe v0.1.0\n\nreplace vinjakwe => %s/bindings/go\n' "$PWD" \
        >"$room/example/go.mod"
    (cd "$room/example" && in_place go build -o "$room/go_example" .) &&
        [ "$(in_place "$room/go_example" $one_quote)" = "$verdict" ]
}

rust_example() {
    mkdir -p "$room/example_rust/src" && example bindings/rust/README.md rust >"$room/example_rust/src/main.rs"
    example bindings/rust/README.md 'rust build.rs' >"$room/example_rust/build.rs"
    cat >"$room/example_rust/Cargo.toml" <<END
[package]
name = "example"
version = "0.0.0"
edition = "2021"

[dependencies]
vinjakwe = { path = "$PWD/bindings/rust" }
END
    (cd "$room/example_rust" && in_place cargo build --offline) &&
        [ "$(env -u LD_LIBRARY_PATH "$room/rust/debug/example" $one_quote)" = "$verdict" ]
}

# are_short: the verifiers have as many lines as their readers were promised.
are_short() {
    [ "$(wc -l <bindings/python/examples/verify.py)" -le 60 ] &&
        [ "$(wc -l <bindings/go/examples/verify/main.go)" -le 60 ]
}

# make_signed: quotes with their signatures as TPMT_SIGNATURE and what is said of them, in $room/signed: those of
# checks/quotes, and one of a made log by a key for each scheme; of RSAPSS one with a salt as long as the digest, and
# one with the greatest, since TPMs use either.
make_signed() {
    mkdir -p "$room/signed" && : >"$room/signed/cases" || return 1
    while read -r quote log hash nonce selected; do
        case $quote in rsa-*) scheme=rsassa ;; *) scheme=ecdsa ;; esac
        signed_case "$quote" "checks/quotes/$log" "checks/quotes/$quote" $scheme "$hash" "$nonce" "$selected" ||
            return 1
    done <checks/quotes/cases.txt
    nonce=00112233445566778899aabbccddeeff selected=sha256:4,7,8
    python3 checks/quotes/made.py checks/logs/measured.registers $nonce $selected >"$room/signed/made.msg" || return 1
    for scheme in rsassa rsapss-digest rsapss-max ecdsa; do
        made=$room/signed/made-$scheme
        cp "$room/signed/made.msg" "$made.msg"
        case $scheme in
        ecdsa) openssl ecparam -name secp384r1 -genkey -noout -out "$made.key" ;;
        *) openssl genrsa -out "$made.key" 3072 2>/dev/null ;;
        esac || return 1
        padding=
        case $scheme in
        rsapss-*) padding="-sigopt rsa_padding_mode:pss -sigopt rsa_pss_saltlen:${scheme#*-}" ;;
        esac
        # shellcheck disable=SC2086
        openssl dgst -sha256 -sign "$made.key" $padding -out "$made.sig" "$made.msg" &&
            openssl pkey -in "$made.key" -pubout -out "$made.pem" &&
            signed_case "made-$scheme" checks/logs/measured.log "$made" ${scheme%-*} sha256 $nonce $selected || return 1
    done
}

# signed_case NAME LOG FILES SCHEME HASH NONCE SELECTED: a line of the cases.
signed_case() {
    python3 checks/quotes/verified.py --spell "$4" "$5" "$3.sig" >"$room/signed/$1.tpmt" &&
        python3 checks/quotes/verified.py "$2" $(echo "$7" | tr + ' ') >"$room/signed/$1.said" &&
        echo "$1 $2 $3 $6 $7" >>"$room/signed/cases"
}

# verifies WORD..: this program says of each quote what it vouches for, and believes nothing else: another key, another
# nonce, another register, a byte of the quote or of the signature that is another.
verifies() {
    while read -r quote log files nonce selected; do
        signature=$room/signed/$quote.tpmt
        tells "$room/out" "$@" "$log" "$files.msg" "$signature" "$files.pem" "$nonce" "$selected" || return 1
        # Where no state is proved there are no authorities.
        grep -v -e '^Secure Boot' "$room/out" >"$room/said_of_it"
        pattern='^authority'
        [ "$wanted" -ne 0 ] || pattern='^$'
        grep -v "$pattern" "$room/signed/$quote.said" | cmp - "$room/said_of_it" || return 1
        [ "$(grep -c '^Secure Boot' "$room/out")" -eq "$(grep -c '^bank' "$room/out")" ] || return 1
        for at in 20 60; do
            cp "$files.msg" "$room/changed.msg" && change_byte "$room/changed.msg" $at
            believes_nothing "$@" "$log" "$room/changed.msg" "$signature" "$files.pem" "$nonce" "$selected" || return 1
        done
        cp "$signature" "$room/changed.tpmt" && change_byte "$room/changed.tpmt" 30
        believes_nothing "$@" "$log" "$files.msg" "$room/changed.tpmt" "$files.pem" "$nonce" "$selected" &&
            believes_nothing "$@" "$log" "$files.msg" "$signature" "$(other_key "$quote")" "$nonce" "$selected" &&
            believes_nothing "$@" "$log" "$files.msg" "$signature" "$files.pem" "${nonce}00" "$selected" &&
            believes_nothing "$@" "$log" "$files.msg" "$signature" "$files.pem" "$nonce" "$selected+sha384:9" ||
            return 1
        # No log extends the registers that this quote selects.
        [ "$quote" = not-measured ] ||
            believes_nothing "$@" checks/logs/worked.log "$files.msg" "$signature" "$files.pem" "$nonce" "$selected" ||
            return 1
    done <"$room/signed/cases"
}

# other_key NAME: the file of a key of the same kind by which the quote of this name isn't signed.
other_key() {
    case $1 in
    made-ecdsa) echo checks/quotes/ecc-sha256.pem ;;
    made-rsapss-*) echo "$room/signed/made-rsassa.pem" ;;
    *rsa*) echo "$room/signed/made-rsapss-max.pem" ;;
    *) echo "$room/signed/made-ecdsa.pem" ;;
    esac
}

# tells FILE WORD..: the program writes to the file what a quote vouches for, with status 0 where each bank proves
# whether Secure Boot was on, and else with 1.
tells() {
    told=$1 && shift
    wanted=0 found=0
    in_place "$@" >"$told" || found=$?
    ! grep -q -e '^Secure Boot unknown' -e '^Secure Boot not quoted' "$told" || wanted=1
    [ "$found" -eq "$wanted" ] && grep -q '^bank' "$told"
}

# is_not_fooled WORD..: logs whose quote still matches, but with the prefixes of GRUB swapped, with variables called
# authorities, or with separators called images, have no line that the true ones don't have.
is_not_fooled() {
    while read -r quote log files nonce selected; do
        said="$room/signed/$quote.tpmt $files.pem $nonce $selected"
        tells "$room/true" "$@" "$log" "$files.msg" $said || return 1
        for forgery in swap relabel; do
            python3 checks/quotes/verified.py --$forgery "$log" >"$room/forged.log" &&
                tells "$room/forged" "$@" "$room/forged.log" "$files.msg" $said || return 1
            ! grep -e '^authority' -e '^register 4' -e '^loader 8 "' "$room/forged" | grep -v -x -F -f "$room/true" ||
                return 1
        done
    done <"$room/signed/cases"
}

# allowed_of LOG REGISTERS: the lines of `tpmtool check LOG --extends` of these registers, as `sha1:7+sha256:0,7`.
allowed_of() {
    "$program" check "$1" --extends | awk -v registers="$2" '
        BEGIN {
            count = split(registers, entries, "+")
            for (i = 1; i <= count; i++) {
                split(entries[i], halves, ":")
                many = split(halves[2], numbers, ",")
                for (j = 1; j <= many; j++) asked[halves[1] " " numbers[j]] = 1
            }
        }
        ($1 " " $2) in asked'
}

# goes_by_list WORD..: beside a list of the log's own digests the program says of each quote what it says without one.
# It believes nothing beside a list that lacks a digest, that has a line which is none, or that is empty.
goes_by_list() {
    : >"$room/empty"
    while read -r quote log files nonce selected; do
        said="$log $files.msg $room/signed/$quote.tpmt $files.pem $nonce $selected"
        believes_nothing "$@" $said "$room/empty" && grep -q 'no digest' "$room/out" || return 1
        allowed_of "$log" "$selected" >"$room/allowed"
        # No log extends the registers that this quote selects.
        [ "$quote" != not-measured ] || continue
        tells "$room/true" "$@" $said && tells "$room/listed" "$@" $said "$room/allowed" &&
            cmp "$room/true" "$room/listed" || return 1
        awk 'NR == 1 { $3 = "00" substr($3, 3) } 1' "$room/allowed" >"$room/lacking"
        first=$(head -n 1 "$room/allowed" | cut -d ' ' -f 1,2)
        believes_nothing "$@" $said "$room/lacking" &&
            grep -q "^not to be believed: unknown $first at [0-9]" "$room/out" || return 1
        sed '2s/ /  /' "$room/allowed" >"$room/wrong"
        believes_nothing "$@" $said "$room/wrong" && grep -q 'line 2 is no bank' "$room/out" || return 1
    done <"$room/signed/cases"
}

# verified_by WORD..: the same of each quote, where they are made.
verified_by() {
    [ -s "$room/signed/cases" ] || make_signed && verifies "$@" && is_not_fooled "$@" && goes_by_list "$@"
}

# change_byte FILE AT: another byte there.
change_byte() {
    old=$(xxd -s "$2" -l 1 -p "$1")
    printf "%02x" $((0x$old ^ 1)) | xxd -r -p | dd of="$1" bs=1 seek="$2" conv=notrunc 2>/dev/null
}

believes_nothing() {
    ! in_place "$@" >"$room/out" 2>&1 && grep -q '^not to be believed' "$room/out" && ! grep -q '^bank' "$room/out" ||
        { echo "$*: $(cat "$room/out")" && return 1; }
}

one_quote="$PWD/checks/quotes/17-ovmf-secureboot.log $PWD/checks/quotes/ecc-sha256.msg c0ffee0000000000000000000000000000000000"
verdict='the machine booted as its log says'

if [ -z "$compiler" ] || ! command -v xxd >/dev/null 2>&1; then
    skip "the bindings" "there is no C compiler or no xxd"
elif ! grep -q tpm_log_check_attest include/vinjakwe.h; then
    skip "the bindings" "the header has no quote as it was signed"
elif ! ./install "$prefix" >"$room/said" 2>&1 || [ ! -e "$prefix/lib/libvinjakwe.so" ]; then
    fail "the bindings" "nothing is installed: $(tail -n 3 "$room/said")"
elif ! "$compiler" -O2 -Iinclude -o "$room/c_view" examples/view.c "$prefix/lib/libvinjakwe.a" ||
    ! "$compiler" -O2 -Iinclude -o "$room/c_log" examples/log.c "$prefix/lib/libvinjakwe.a" ||
    ! "$compiler" -O2 -Iinclude -o "$room/c_events" examples/events.c "$prefix/lib/libvinjakwe.a" ||
    ! "$compiler" -O2 -Iinclude -o "$room/c_boot" examples/secure_boot.c "$prefix/lib/libvinjakwe.a" ||
    ! make_table || ! make_changed || ! make_layout; then
    fail "the bindings" "the table was not made"
else
    holds "a verifier has at most 60 lines in Python and in Go" are_short
    if ! command -v python3 >/dev/null 2>&1; then
        skip "the binding for Python" "there is no python3"
    else
        holds "Python has the header's numbers and places" python_layout
        holds "Python answers the table of $(wc -l <"$table" | tr -d ' ') questions" answers \
            python3 bindings/python/table.py
        holds "Python answers a hundred thousand changed buffers" answers_changed python3 bindings/python/table.py
        sanitizer=$("$compiler" -print-file-name=libasan.so)
        if [ -e "$sanitizer" ]; then
            holds "Python answers them beside an address sanitizer" answers_changed env LD_PRELOAD="$sanitizer" ASAN_OPTIONS=detect_leaks=0 \
                python3 bindings/python/table.py
        else
            skip "Python answers them beside an address sanitizer" "there is no libasan.so"
        fi
        holds "Python refuses what has no bytes, and other libraries" python_faults
        holds "Python prints of quotes what tpmtool prints" python_program
        holds "the example in Python" python_example
        if ! python3 -c 'import cryptography' 2>/dev/null || ! command -v openssl >/dev/null 2>&1; then
            skip "a verifier in Python" "there is no cryptography for python3 or no openssl"
        else
            holds "a verifier in Python" verified_by python3 bindings/python/examples/verify.py
        fi
        holds "the tests of the package for Python" python_tests
        if command -v mypy >/dev/null 2>&1; then
            holds "Python's types" python_typed
        else
            skip "Python's types" "there is no mypy"
        fi
        if wheel_maker; then
            holds "a wheel that holds the library" python_wheel "$maker"
        else
            skip "a wheel that holds the library" "there is no python3 with pip, setuptools and wheel"
        fi
    fi
    if ! command -v go >/dev/null 2>&1 || ! command -v pkg-config >/dev/null 2>&1; then
        skip "the binding for Go" "there is no go or no pkg-config"
    elif ! go_built >"$room/said" 2>&1; then
        fail "the binding for Go" "$(head -n 5 "$room/said")"
    else
        holds "Go answers the table" answers "$room/go_table"
        holds "Go answers the table while its collector works, which clears what it frees" answers env \
            GODEBUG=cgocheck=1,clobberfree=1 GOGC=1 "$room/go_table"
        holds "Go answers a hundred thousand changed buffers" answers_changed "$room/go_table"
        if (cd bindings/go && in_place go build -asan -o "$room/go_asan" ./table) >"$room/said" 2>&1; then
            holds "Go answers them beside an address sanitizer" answers_changed env ASAN_OPTIONS=detect_leaks=0 "$room/go_asan"
        else
            skip "Go answers them beside an address sanitizer" "$(head -n 1 "$room/said")"
        fi
        holds "Go answers the table by the archive" go_static
        holds "the example in Go" go_example
        if ! command -v python3 >/dev/null 2>&1 || ! command -v openssl >/dev/null 2>&1; then
            skip "a verifier in Go" "there is no python3 or no openssl"
        else
            holds "a verifier in Go" verified_by "$room/go_verify"
        fi
        holds "the tests of the package for Go" go_tests
    fi
    if ! command -v cargo >/dev/null 2>&1; then
        skip "the binding for Rust" "there is no cargo"
    elif ! rust_built >"$room/said" 2>&1; then
        fail "the binding for Rust" "$(head -n 5 "$room/said")"
    else
        holds "Rust has the header's places" rust_layout
        holds "Rust answers the table" answers "$room/rust/release/examples/table" $(numbers)
        holds "Rust answers a hundred thousand changed buffers" answers_changed "$room/rust/release/examples/table" $(numbers)
        if command -v valgrind >/dev/null 2>&1; then
            holds "Rust answers them under valgrind" answers_changed valgrind -q --error-exitcode=9 "$room/rust/release/examples/table" $(numbers)
        else
            skip "Rust answers them under valgrind" "there is no valgrind"
        fi
        holds "Rust answers the table by the archive" rust_static
        holds "the example in Rust" rust_example
        holds "the tests of the crate for Rust" rust_tests
    fi
fi

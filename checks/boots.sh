#!/bin/sh
# Machines that boot: SeaBIOS, OVMF, shim, GRUB and Linux in QEMU, in emulation, with the emulator as their TPM, and the
# same boots over swtpm. An initramfs that is made on the spot prints the kernel's registers and the firmware's log.
#
# Debian's packages: qemu-system-x86, seabios, ovmf, linux-image-cloud-amd64 (or another), busybox-static, cpio;
# shim-signed, grub-efi-amd64-signed, mtools and dosfstools for the boots by GRUB; swtpm and swtpm-tools; tpm2-tools and
# libtss2-tcti-device0 for tools in the guest.
#
#     BOOT_FILES=FOLDER ./test     kernel, shim and GRUB from packages that `dpkg -x` has unpacked there
#     BOOTS_ONLY="WORD.." ./test   these boots alone: FIRMWARE-DEVICE, as the table below has them
#     TABLE=FILE ./test            a row for each boot is written to this file, as docs/EMULATOR.md has it

. "$(dirname "$0")/shared.sh"
. checks/toolchain.sh
archive=crates/tpm_c/out/llvm/libtpm_c.a
[ -f "$archive" ] || archive=crates/tpm_c/out/libtpm_c.a
program=crates/tpmtool/out/tpmtool
files=${BOOT_FILES:-}
boots=$room/boots

# first FILE..: the first of these that can be read.
first() {
    for file; do
        if [ -r "$file" ]; then
            echo "$file"
            return 0
        fi
    done
    return 1
}

# wanting FILE..: those that are not there.
wanting() {
    for file; do
        [ -r "$file" ] || printf '%s ' "$file"
    done
}

kernel=$(first "$files"/boot/vmlinuz-*-cloud-* "$files"/boot/vmlinuz-*)
shim=$files/usr/lib/shim/shimx64.efi.signed
grub=$files/usr/lib/grub/x86_64-efi-signed/grubx64.efi.signed

# ---- what is booted

# add FOLDER FILE: the file and the libraries that it is linked with, in a folder for an initramfs.
add() {
    { echo "$2" && ldd "$2" 2>/dev/null | grep -o '/[^ ]*'; } | sort -u | while read -r file; do
        mkdir -p "$1$(dirname "$file")" && cp -L "$file" "$1$file" || return 1
    done
}

# pack FOLDER FILE: an initramfs of the folder.
pack() {
    (cd "$1" && find . | LC_ALL=C sort | cpio --quiet -o -H newc -R 0:0 --reproducible) | gzip -n -1 >"$2"
}

# the_init: what runs in the guest. Each part that it gives stands in base64 between two markers.
the_init() {
    cat <<'END'
#!/bin/busybox sh
/bin/busybox mkdir -p /proc /sys /dev /tmp /bin
/bin/busybox --install -s /bin
export PATH=/bin:/usr/bin
mount -t proc none /proc
mount -t sysfs none /sys
mount -t devtmpfs none /dev
mount -t securityfs none /sys/kernel/security
exec </dev/console >/dev/console 2>&1
stty -F /dev/ttyS0 -onlcr 2>/dev/null
echo 1 >/proc/sys/kernel/printk
give() {
    echo "@@BEGIN $1@@"
    base64
    echo "@@END $1@@"
}
tpm=/sys/class/tpm/tpm0
cat $tpm/tpm_version_major 2>/dev/null | give version
for bank in $tpm/pcr-*; do
    for n in $(seq 0 23); do
        [ -f $bank/$n ] && echo "${bank##*/pcr-} $n $(cat $bank/$n 2>&1 | tr A-F a-f)"
    done
done | give registers
cat /sys/kernel/security/tpm0/binary_bios_measurements 2>/dev/null | give log
ls /dev/tpm* 2>&1 | give devices
dmesg | grep -i tpm | give messages
[ -f /guest.sh ] && . /guest.sh
echo "@@DONE@@"
poweroff -f
END
}

# the_guest: tools in the guest, over the kernel's resource manager. A counter is incremented under a policy session,
# once in each boot; after the first of them the guest resets the machine.
the_guest() {
    cat <<'END'
cd /tmp
export TPM2TOOLS_TCTI=device:/dev/tpmrm0
index=0x01800003
policy() {
    tpm2 startauthsession $1 -S s.context && tpm2 policypcr -S s.context -l sha256:16,23 &&
        tpm2 policycommandcode -S s.context TPM2_CC_NV_Increment $2 $3
}
counts() {
    tpm2 nvread $index -C o | od -An -tx1 | tr -d ' \n'
    echo
}
{
    if ! tpm2 nvreadpublic $index >/dev/null 2>&1; then
        policy '' -L increment.policy && tpm2 flushcontext s.context &&
            tpm2 nvdefine $index -C o -s 8 -L increment.policy -a 'ownerread|policywrite|nt=counter|no_da' &&
            echo "defined"
    fi
    policy --policy-session && tpm2 nvincrement $index -C $index -P session:s.context && echo "incremented"
    tpm2 flushcontext s.context
    tpm2 getcap handles-loaded-session
    tpm2 getcap handles-saved-session
} 2>&1 | give tools
counts | give counter
[ "$(counts)" = 0000000000000001 ] && echo "@@RESET@@" && reboot -f
END
}

# make_images: an initramfs, and one with tools where they are there.
make_images() {
    mkdir -p "$boots/tree/bin" "$boots/tools" || return 1
    add "$boots/tree" "$(command -v busybox)" &&
        mv "$boots/tree$(command -v busybox)" "$boots/tree/bin/busybox" 2>/dev/null
    the_init >"$boots/tree/init" && chmod 755 "$boots/tree/init" "$boots/tree/bin/busybox" &&
        pack "$boots/tree" "$boots/plain.img" || return 1
    tcti=$(first /usr/lib/*/libtss2-tcti-device.so.0) && command -v tpm2 >/dev/null 2>&1 || return 0
    cp -a "$boots/tree/." "$boots/tools" && add "$boots/tools" "$(command -v tpm2)" && add "$boots/tools" "$tcti" ||
        return 1
    the_guest >"$boots/tools/guest.sh" && pack "$boots/tools" "$boots/tools.img"
}

# make_disk: a file system without partitions that OVMF boots by \EFI\BOOT\BOOTX64.EFI: shim, then GRUB, then the
# kernel.
make_disk() {
    cat >"$boots/grub.cfg" <<'END'
set timeout=0
search --no-floppy --label ESP --set=root
linuxefi /vmlinuz console=ttyS0,115200 panic=-1
initrdefi /initrd.img
boot
END
    truncate -s 96M "$boots/disk.img" && mkfs.vfat -F 32 -i 12345678 -n ESP "$boots/disk.img" &&
        mmd -i "$boots/disk.img" ::/EFI ::/EFI/BOOT ::/EFI/debian &&
        mcopy -i "$boots/disk.img" "$shim" ::/EFI/BOOT/BOOTX64.EFI &&
        mcopy -i "$boots/disk.img" "$grub" ::/EFI/BOOT/grubx64.efi && mcopy -i "$boots/disk.img" "$kernel" ::/vmlinuz &&
        mcopy -i "$boots/disk.img" "$boots/plain.img" ::/initrd.img &&
        mcopy -i "$boots/disk.img" "$boots/grub.cfg" ::/EFI/debian/grub.cfg &&
        mcopy -i "$boots/disk.img" "$boots/grub.cfg" ::/EFI/BOOT/grub.cfg
}

# ---- a boot

# flash CODE VARIABLES: OVMF's two flash memories, of which the second is the boot's own.
flash() {
    cp "$2" "$here/variables.fd" || return 1
    flashes="-drive if=pflash,format=raw,unit=0,readonly=on,file=$1"
    flashes="$flashes -drive if=pflash,format=raw,unit=1,file=$here/variables.fd"
}

# boot SOCKET NAME [IMAGE]: boots the machine of that name, FIRMWARE-DEVICE, and waits for its end. Its console is in
# $here/console, and $seconds is how long it took. QEMU_MORE are more words for QEMU.
boot() {
    socket=$1 firmware=${2%-*} device=tpm-${2##*-} image=${3:-plain} machine=q35 flashes=
    case $firmware in
    seabios) flashes="-bios /usr/share/seabios/bios-256k.bin" ;;
    secure)
        machine=q35,smm=on
        flash /usr/share/OVMF/OVMF_CODE_4M.secboot.fd /usr/share/OVMF/OVMF_VARS_4M.ms.fd || return 1
        flashes="$flashes -global driver=cfi.pflash01,property=secure,value=on -global ICH9-LPC.disable_s3=1"
        ;;
    *) flash /usr/share/OVMF/OVMF_CODE_4M.fd /usr/share/OVMF/OVMF_VARS_4M.fd || return 1 ;;
    esac
    set -- -kernel "$kernel" -initrd "$boots/$image.img" -append "console=ttyS0,115200 panic=-1"
    case $firmware in
    grub | secure)
        set -- -drive "if=none,id=disk,format=raw,readonly=on,file=$boots/disk.img" \
            -device virtio-blk-pci,drive=disk,bootindex=0
        ;;
    esac
    began=$(date +%s%N)
    # shellcheck disable=SC2086
    nice -n 10 timeout --kill-after=5 "${BOOT_SECONDS:-240}" qemu-system-x86_64 -accel tcg,thread=single \
        -machine "$machine" -cpu max -smp 1 -m 512 -nodefaults -no-user-config -display none -monitor none \
        -net none -serial "file:$here/console" \
        -chardev "socket,id=chrtpm,path=$socket" -tpmdev emulator,id=tpm0,chardev=chrtpm -device "$device,tpmdev=tpm0" \
        $flashes $QEMU_MORE "$@" </dev/null >"$here/qemu" 2>&1
    status=$?
    seconds=$((($(date +%s%N) - began) / 100000000))
    seconds=${seconds%?}.${seconds#"${seconds%?}"}
    rm -f "$here/variables.fd"
    return "$status"
}

# given PART: what the guest gave of this, in its last boot.
given() {
    tr -d '\r' <"$here/console" | awk -v part="$1" '
        $0 == "@@BEGIN " part "@@" { inside = 1; text = ""; next }
        $0 == "@@END " part "@@" { inside = 0; next }
        inside && /^[A-Za-z0-9+\/=]+$/ { text = text $0 "\n" }
        END { printf "%s", text }' | base64 -d 2>/dev/null
}

# at_socket: waits until the TPM of the process $tpm listens at the socket.
at_socket() {
    for wait in $(seq 200); do
        [ -S "$here/socket" ] && return 0
        kill -0 "$tpm" 2>/dev/null || break
        sleep 0.05
    done
    return 1
}

# with_emulator WORD..: starts the emulator for a boot in $here.
with_emulator() {
    rm -f "$here/socket"
    "$room/emulator" --unixio "$here/socket" "$@" >"$here/tpm" 2>&1 &
    tpm=$!
    at_socket || { cat "$here/tpm" && return 1; }
}

# with_swtpm: a new swtpm of the same three banks.
with_swtpm() {
    rm -rf "$here/state" "$here/socket"
    mkdir -p "$here/state" && swtpm_setup --tpm2 --tpmstate "$here/state" --pcr-banks sha1,sha256,sha384 \
        --config /dev/null >"$here/tpm" 2>&1 ||
        { cat "$here/tpm" && return 1; }
    swtpm socket --tpm2 --tpmstate "dir=$here/state" --ctrl "type=unixio,path=$here/socket" >"$here/tpm" 2>&1 &
    tpm=$!
    at_socket || { cat "$here/tpm" && return 1; }
}

# tpm_ends: QEMU has told it to end, and its status is 0.
tpm_ends() {
    wait "$tpm" || { echo "the TPM ended with $?" && cat "$here/tpm" && return 1; }
}

# booted NAME: the guest came up, with a TPM 2.0 that its kernel takes.
booted() {
    tr -d '\r' <"$here/console" | grep -q -x '@@DONE@@' ||
        { echo "the guest of $1 did not end: $(tail -n 3 "$here/console") $(cat "$here/qemu")" && return 1; }
    [ "$(given version)" = 2 ] || { echo "the kernel of $1 finds no TPM 2.0: $(given messages)" && return 1; }
    given devices | grep -q -x /dev/tpmrm0 || { echo "there is no /dev/tpmrm0 in $1" && return 1; }
    given log >"$here/log" && given registers >"$here/registers"
    [ "$(wc -l <"$here/registers")" -eq 72 ] && [ -s "$here/log" ] ||
        { echo "$1 gives no registers, or no log" && return 1; }
}

# told NAME: the program says of each register of the log that it matches, but register 10, which is the kernel's own;
# of Secure Boot what is true; of the log beside a quote what Python says; and it tells all frames, and refuses none of
# the commands that it has.
told() {
    "$program" check "$here/log" --registers "$here/registers" >"$here/matches"
    awk '$2 " " $3 !~ /^sha[0-9]* 10$/ && $1 != "match" { print; bad = 1 } END { exit bad }' "$here/matches" || return 1
    [ "$(grep -c '^match' "$here/matches")" -ge 69 ] || { cat "$here/matches" && return 1; }
    if "$program" check --help | grep -q -e --secure-boot; then
        "$program" check "$here/log" --secure-boot >"$here/secure"
        case $1 in
        secure*) grep -q -w on "$here/secure" ;;
        seabios*) grep -q -w NoSecureBoot "$here/secure" ;;
        *) grep -q -w -e off -e unset "$here/secure" && ! grep -q -w on "$here/secure" ;;
        esac || { cat "$here/secure" && return 1; }
    fi
    ! command -v python3 >/dev/null 2>&1 || vouched || return 1
    "$program" show --file "$here/frames" >"$here/frames.told"
    [ "$(grep -c . "$here/frames")" -gt 60 ] || { echo "only $(grep -c . "$here/frames") frames" && return 1; }
    refused_frames >"$here/refused"
    [ ! -s "$here/refused" ] || { head -n 3 "$here/refused" && return 1; }
}

# same_as WORD..: what the words print is in $here/wanted.
same_as() {
    "$@" >"$here/printed" && cmp "$here/printed" "$here/wanted"
}

# vouched: beside a quote of the registers that the kernel showed, which is made here, the program tells what it vouches
# for in each record, and that all digests are on the list of what the log extends, as Python's hashlib does.
vouched() {
    all=0,1,2,3,4,5,6,7,8,9 records=checks/logs/list_events.py digests=checks/logs/allowed.py
    list=sha1:$all+sha256:$all+sha384:$all
    set -- --attest "$here/quote" --nonce 6e6f --require "$list"
    python3 checks/quotes/made.py "$here/registers" 6e6f "$list" >"$here/quote" &&
        python3 checks/quotes/told.py --lines "$here/quote" matches covers matches >"$here/verdicts" &&
        python3 $records "$here/log" "$list" | cat "$here/verdicts" - >"$here/wanted" &&
        same_as "$program" events "$here/log" "$@" --digests --places &&
        python3 $records "$here/log" >"$here/events" && python3 $digests lists "$here/events" >"$here/wanted" &&
        same_as "$program" check "$here/log" --extends &&
        python3 $digests lists "$here/events" "$list" >"$here/list" &&
        python3 $digests told "$here/events" "$here/list" | cat "$here/verdicts" - >"$here/wanted" &&
        same_as "$program" check "$here/log" "$@" --allow "$here/list"
}

# refused_frames: those of the eighteen commands that the program refuses.
refused_frames() {
    awk '
        BEGIN {
            count = split("122 12a 134 13c 13d 144 14e 165 169 16b 16c 171 176 17e 17f 180 182 189", codes, " ")
            for (i = 1; i <= count; i++) known["00000" codes[i]]
        }
        /^> 800[12]/ && (substr($2, 13, 8) in known)' "$here/frames" | sort -u | while read -r way frame; do
        "$program" show "$frame" >/dev/null 2>&1 || echo "$frame"
    done
}

# without_addresses LOG: its bytes, a line each. Of images that were loaded the address is left out, which is not
# measured: swtpm lists a fourth bank, which is off, and so OVMF loads some images to another page.
without_addresses() {
    od -An -v -tu1 "$1" | tr -s ' ' '\n' | grep . | awk '
        function number(at) { return byte[at] + 256 * (byte[at + 1] + 256 * (byte[at + 2] + 256 * byte[at + 3])) }
        { byte[NR - 1] = $1 }
        END {
            size[4] = 20; size[11] = 32; size[12] = 48; size[13] = 64
            for (at = 32 + number(28); at < NR; at = data + 4 + number(data)) {
                data = at + 12
                for (left = number(at + 8); left > 0; left--) data += 2 + size[byte[data] + 256 * byte[data + 1]]
                type = number(at + 4) - 2147483648
                if (type >= 3 && type <= 5) for (i = 4; i < 12; i++) byte[data + i] = "-"
            }
            for (i = 0; i < NR; i++) print byte[i]
        }'
}

# like_swtpm NAME: the same boot over swtpm gives the same log, and the same registers.
like_swtpm() {
    cp "$here/log" "$here/ours.log" && cp "$here/registers" "$here/ours.registers" && with_swtpm || return 1
    boot "$here/socket" "$1"
    tpm_ends && booted "$1" && diff "$here/registers" "$here/ours.registers" || return 1
    without_addresses "$here/ours.log" >"$here/ours.bytes"
    without_addresses "$here/log" | cmp - "$here/ours.bytes"
}

# boots_as NAME: boots, over the emulator and over swtpm; a row of the table.
boots_as() {
    here=$boots/$1
    mkdir -p "$here" && with_emulator --record "$here/frames" || return 1
    boot "$here/socket" "$1"
    ours=$seconds
    tpm_ends && booted "$1" || return 1
    frames=$(grep -c '^>' "$here/frames") records=-
    [ ! -x "$program" ] || { told "$1" && records=$("$program" events "$here/log" | wc -l); } || return 1
    seconds=-
    ! command -v swtpm_setup >/dev/null 2>&1 || like_swtpm "$1" || return 1
    echo "$1 $frames $records $ours $seconds" >>"$boots/table"
}

# ---- tools in the guest

# counted VALUE: the counter that the guest read has this value, and it was incremented under its policy.
counted() {
    given tools | grep -q -x incremented || { given tools | tail -n 5 && return 1; }
    [ "$(given counter)" = "$(printf '%016x' "$1")" ] ||
        { echo "the counter is $(given counter), and not $1" && return 1; }
}

# tools_in_the_guest: a counter goes on after a reset of the guest, and after a restart of the emulator.
tools_in_the_guest() {
    here=$boots/tools-in-the-guest
    mkdir -p "$here" && rm -f "$here/state" && with_emulator --state "$here/state" || return 1
    boot "$here/socket" seabios-tis tools
    tpm_ends && booted "the first guest" && counted 2 || return 1
    tr -d '\r' <"$here/console" | grep -q -x '@@RESET@@' || { echo "the guest did not reset the machine" && return 1; }
    with_emulator --state "$here/state" && boot "$here/socket" ovmf-crb tools
    tpm_ends && booted "the next guest" && counted 3
}

# ---- a TPM that fails

# a_failed_tpm: the emulator is killed in the middle of a boot. The guest sees a TPM that fails, and the next boot is
# whole.
a_failed_tpm() {
    here=$boots/failed
    mkdir -p "$here" && with_emulator --record "$here/frames" || return 1
    { while [ "$(grep -c '^>' "$here/frames" 2>/dev/null)" -lt 12 ]; do sleep 0.05; done && kill -KILL "$tpm"; } &
    killer=$!
    BOOT_SECONDS=100 boot "$here/socket" seabios-tis
    kill "$killer" 2>/dev/null
    wait "$killer" 2>/dev/null
    wait "$tpm" 2>/dev/null
    ! booted "the guest whose TPM is gone" >/dev/null || { echo "the guest has a TPM, still" && return 1; }
    grep -q -i tpm "$here/qemu" || given messages | grep -q -i -e 'fail' -e 'error' ||
        { echo "nobody says that the TPM failed: $(cat "$here/qemu")" && return 1; }
    with_emulator && boot "$here/socket" seabios-tis
    tpm_ends && booted "the next boot"
}

# ---- all of it

# boots NAME WORD..: the check NAME passes where the words succeed.
boots() {
    name=$1
    shift
    if "$@" >"$room/said" 2>&1; then pass "$name"; else fail "$name" "$(head -n 5 "$room/said")"; fi
}

# wanted NAME: whether this boot is to be done.
wanted() {
    case " ${BOOTS_ONLY:-$1} " in *" $1 "*) return 0 ;; esac
    return 1
}

# boots_of NAMES WHAT: each of the boots, or that they are skipped where files of WHAT are wanting.
boots_of() {
    for name in $1; do
        wanted "$name" || continue
        if [ -n "$2" ]; then
            skip "a boot of $name" "there is no $2"
        else
            boots "a boot of $name" boots_as "$name"
        fi
    done
}

# all_boots: what is here is booted.
all_boots() {
    lacks=$(wanting /usr/share/seabios/bios-256k.bin)
    boots_of "seabios-tis seabios-crb" "$lacks"
    ovmf=$(wanting /usr/share/OVMF/OVMF_CODE_4M.fd /usr/share/OVMF/OVMF_VARS_4M.fd)
    boots_of "ovmf-tis ovmf-crb" "$ovmf"
    disk=$(wanting "$shim" "$grub")
    if ! command -v mcopy >/dev/null 2>&1 || ! command -v mkfs.vfat >/dev/null 2>&1; then
        disk="${disk}mtools or dosfstools"
    elif [ -z "$disk" ] && ! make_disk >"$room/said" 2>&1; then
        fail "a disk with shim and GRUB" "$(tail -n 3 "$room/said")"
        disk="disk"
    fi
    boots_of grub-tis "$ovmf$disk"
    boots_of secure-tis "$(wanting /usr/share/OVMF/OVMF_CODE_4M.secboot.fd /usr/share/OVMF/OVMF_VARS_4M.ms.fd)$disk"
    if wanted tools && [ ! -f "$boots/tools.img" ]; then
        skip "tools in the guest" "there is no tpm2-tools, or no libtss2-tcti-device0"
    elif wanted tools && [ -z "$lacks$ovmf" ]; then
        boots "tools in the guest, and a counter that never goes back" tools_in_the_guest
    fi
    ! wanted failed || [ -n "$lacks" ] || boots "a guest whose TPM is killed, and the next one" a_failed_tpm
    [ ! -f "$boots/table" ] || [ -z "$TABLE" ] || cp "$boots/table" "$TABLE"
}

missing=
for word in qemu-system-x86_64 busybox cpio; do
    command -v "$word" >/dev/null 2>&1 || missing=$word
done
if [ -z "$compiler" ]; then
    skip "boots" "no C compiler was found"
elif [ ! -f "$archive" ]; then
    skip "boots" "the library for C is not built"
elif [ -n "$missing" ]; then
    skip "boots" "there is no $missing (Debian: qemu-system-x86, busybox-static, cpio)"
elif [ -z "$kernel" ]; then
    skip "boots" \
        "there is no kernel in $files/boot that can be read (Debian: linux-image-cloud-amd64; or BOOT_FILES=FOLDER)"
elif ! "$compiler" -std=c99 -D_POSIX_C_SOURCE=200809L -O2 -Iinclude -o "$room/emulator" emulator/*.c "$archive" \
    >"$room/said" 2>&1; then
    fail "boots" "the emulator isn't built: $(head -n 5 "$room/said")"
elif ! make_images >"$room/said" 2>&1; then
    fail "boots" "there is no initramfs: $(tail -n 3 "$room/said")"
else
    all_boots
fi

"""verify.py LOG QUOTE SIGNATURE KEY NONCE REGISTERS [ALLOW]: what booted, where a quote by this key vouches for it;
status 0 where each bank proves whether Secure Boot was on. SIGNATURE is as `tpm2_quote -s` writes it, KEY in PEM, and
ALLOW has the lines of `tpmtool check LOG --extends`: no other digest is believed in the registers that it names."""
import json
import sys

import vinjakwe


def told(log, attest, bank, quoted):
    """What the registers of a bank say, in lines, where the quote vouches for it, whatever types the log has."""
    authorities, state = (), "not quoted"
    try:
        if 7 in quoted:
            boot = vinjakwe.secure_boot(log, bank)
            authorities, state = boot.authorities, boot.state.name.lower()
    except vinjakwe.SecureBootFault as fault:
        state = f"unknown {fault.kind}"
    yield f"Secure Boot {state}"
    for it in (it for it in vinjakwe.events(log) if bank in vinjakwe.vouched(it, attest)):
        variable, text = vinjakwe.vouched_variable(it, attest, bank), vinjakwe.vouched_text(it, attest, bank)
        if it.at in authorities:
            yield f"authority {json.dumps(variable.name if variable else '')} {it.digests[bank].hex()}"
        elif it.register == 4 and vinjakwe.event_type_name(it.type) == "EV_EFI_BOOT_SERVICES_APPLICATION":
            yield f"register 4 image {it.digests[bank].hex()}"
        elif it.register == 8:
            yield f"loader 8 {it.digests[bank].hex() if text is None else json.dumps(text)}"


def whole(name):
    """The bytes of a file, also of a list: a text that `open` reads has line ends of its own."""
    with open(name, "rb") as file:
        return file.read()


def main(log, quote, signature, key, nonce, registers, allow=None):
    log, quote, signature, key = map(whole, (log, quote, signature, key))
    allow = None if allow is None else whole(allow)
    try:
        attest = vinjakwe.verify(log, quote, signature, key, bytes.fromhex(nonce), registers, allow=allow)
    except ValueError as fault:
        return f"not to be believed: {fault}"
    lines = [line for bank, quoted in attest.selections for line in (f"bank {bank}", *told(log, attest, bank, quoted))]
    print(*lines, sep="\n")
    return int(any(line.startswith(("Secure Boot unknown", "Secure Boot not quoted")) for line in lines))


sys.exit(main(*sys.argv[1:]))

"""Answers the lines of the table in checks/bindings.sh by the package, as the other bindings do."""
import mmap
import sys

import vinjakwe
from vinjakwe import Kind, LogFault, Refusal


def unhex(text):
    return b"" if text == "-" else bytes.fromhex(text)


def text(data):
    return data.hex() or "-"


def command(data):
    it = vinjakwe.decode_command(data)
    yield f"command {it.name} size {it.size}"
    yield from (f"handle {i} {handle:08x}" for i, handle in enumerate(it.handles, 1))
    for i, s in enumerate(it.sessions, 1):
        yield f"session {i} {s.handle:08x} nonce {text(s.nonce)} attributes {s.attributes:02x} hmac {text(s.hmac)}"
    yield f"parameters {text(it.parameters)}"


def reply(name, data):
    it = vinjakwe.decode_response(name, data)
    if it.code:
        yield f"reply code {it.code:03x}"
        return
    yield f"reply {name} size {len(data)}"
    if it.handle is not None:
        yield f"handle 1 {it.handle:08x}"
    yield f"parameters {text(it.parameters)}"
    for i, s in enumerate(it.sessions, 1):
        yield f"session {i} nonce {text(s.nonce)} attributes {s.attributes:02x} hmac {text(s.hmac)}"


def registers(log):
    for name, values in vinjakwe.replay(log).items():
        yield from (f"{name} {i} {value.hex()}" for i, value in enumerate(values))


def events(log):
    for it in vinjakwe.events(log):
        digests = (f" {vinjakwe.HASHES.get(name, name):04x}:{text(value)}{'*' if name in it.hashed else ''}"
                   for name, value in it.digests.items())
        yield f"{it.register} {it.type:08x} {text(it.data)}{''.join(digests)}"


def vouched(log, attest):
    for it in vinjakwe.events(log):
        parts = vinjakwe.vouched(it, attest)
        yield " ".join([str(it.register), *(f"{bank}:{parts[bank]}" for bank in vinjakwe.HASHES if bank in parts)])


def escaped(unit):
    if unit in (0x22, 0x5C):
        return "\\" + chr(unit)
    return chr(unit) if 0x20 <= unit <= 0x7E else f"\\u{unit:04x}"


def texts(log):
    for it in vinjakwe.events(log):
        said, name = vinjakwe.text(it), vinjakwe.event_type_name(it.type) or f"{it.type:08x}"
        units = (said or "").encode("utf-16-le", "surrogatepass")
        shown = "".join(escaped(int.from_bytes(units[at:at + 2], "little")) for at in range(0, len(units), 2))
        yield f"{it.register} {name}" + (f" text {shown}" if said else "")


def shown(data):
    return bytes(data).hex() or "-"


def guid(it):
    return it.bytes_le.hex()


def wide(text):
    """In UTF-16, with U+FFFD for half of a pair, as Go and Rust have it."""
    return shown(text.encode("utf-16-le", "surrogatepass").decode("utf-16-le", "replace").encode("utf-16-le"))


def nodes(path):
    told = ",".join(f"{it.type}:{it.subtype}:{it.data.hex()}" for it in path)
    return f"{told or '-'} {shown(vinjakwe.path_text(path).encode())}"


def held(it):
    if isinstance(it, vinjakwe.LoadOption):
        yield f"option {it.attributes} {wide(it.description)} {shown(it.data)}"
        yield from (f"path {nodes(path)}" for path in it.paths)
    elif isinstance(it, vinjakwe.BootOrder):
        yield " ".join(["order", *map(str, it.numbers)])
    elif isinstance(it, vinjakwe.SignatureLists):
        for one in it.lists:
            yield f"list {guid(one.type)} {shown(one.header)}"
            for owned in one.signatures:
                yield from held(owned)
    elif isinstance(it, vinjakwe.Owned):
        yield f"owned {guid(it.owner)} {shown(it.data)}"
    elif isinstance(it, int):
        yield f"byte {it}"


def content(it):
    if isinstance(it, vinjakwe.Holding):
        vendor, name, value = it.variable
        yield f"variable {guid(vendor)} {wide(name)} {shown(value)}"
        yield from held(it.holds)
    elif isinstance(it, vinjakwe.Text):
        yield f"text {it.text.encode().hex()}"
    elif isinstance(it, vinjakwe.Version):
        is_text = isinstance(it.version, str)
        yield f"version {wide(it.version)}" if is_text else f"version-guid {guid(it.version)}"
    elif isinstance(it, (vinjakwe.Separator, vinjakwe.Locality)):
        yield f"{type(it).__name__.lower()} {it.number}"
    elif isinstance(it, vinjakwe.Image):
        yield f"image {it.address} {it.size} {it.link_address} {nodes(it.path)}"
    elif isinstance(it, vinjakwe.Firmware):
        yield f"firmware {it.base} {it.size} {shown(it.name)}"
    elif isinstance(it, vinjakwe.Tables):
        yield f"tables {shown(it.name)}"
        yield from (f"table {guid(one.guid)} {one.address}" for one in it.tables)
    elif isinstance(it, vinjakwe.Tag):
        yield f"tag {it.id} {shown(it.data)}"
    elif isinstance(it, vinjakwe.Partitions):
        yield f"partitions {guid(it.disk)}"
        for one in it.partitions:
            yield (f"partition {guid(one.type)} {guid(one.guid)} {one.first} {one.last} {one.attributes} "
                   f"{wide(one.name)}")
    elif isinstance(it, vinjakwe.Measurement):
        yield f"measurement {it.hash} {it.device_type} {shown(it.block)} {shown(it.context)}"
    elif isinstance(it, vinjakwe.Evidence):
        yield (f"evidence {it.auth_state} {it.device_type} {it.sub_header_type} {it.uid} {nodes(it.path)} "
               f"{shown(it.sub_header)} {shown(it.context)}")


def contents(log):
    for it in vinjakwe.events(log):
        yield from (f"{it.number} {line}" for line in content(it.content))


def objects(log):
    try:
        yield from (it.json for it in vinjakwe.events(log))
    except LogFault:
        pass


def boot(log, bank):
    try:
        it = vinjakwe.secure_boot(log, bank)
    except vinjakwe.SecureBootFault as fault:
        yield f"secure-boot {bank} unknown {fault.kind} at {fault.at}"
        return
    yield f"secure-boot {bank} {it.state.name.lower()}"
    if it.dma_protection_disabled:
        yield "dma-protection disabled"
    for name, at in ("PK", it.pk), ("KEK", it.kek), ("db", it.db), ("dbx", it.dbx):
        if at is not None:
            yield f"{name} at {at}"
    yield from (f"authority at {at}" for at in it.authorities)


def frames(size, stream):
    framer = vinjakwe.Framer()
    for at in range(0, len(stream), size):
        try:
            yield from ("frame " + it.hex() for it in framer.push(stream[at:at + size]))
        except vinjakwe.BrokenStream as fault:
            yield from ("frame " + it.hex() for it in fault.frames)
            yield str(fault)
            return
    if framer.within:
        yield "inside"


def said(verdict):
    return {Kind.MATCHES: "matches", Kind.NONCE: "nonce differs",
            Kind.LACKS: f"lacks {verdict.bank} {verdict.register}",
            Kind.EMPTY: "selects nothing", Kind.DIFFERS: "digest differs",
            Kind.UNKNOWN: f"unknown {verdict.bank} {verdict.register} at {verdict.at}"}[verdict.kind]


def attest(log, quote, nonce, require, hash, list=None):
    nonce = vinjakwe.ANY_NONCE if nonce == "any" else unhex(nonce)
    require = vinjakwe.ANY_SELECTION if require == "any" else unhex(require)
    try:
        yield said(vinjakwe.check(log, unhex(quote), nonce, require, hash, allow=list and whole(list)))
    except (Refusal, LogFault):
        raise
    except ValueError as fault:
        told = str(fault)
        if told.startswith("allow: line "):
            yield f"no list at {told.removeprefix('allow: ').partition(' is no ')[0]}"
        else:
            yield "requirement refused" if told.startswith("require: refused") else "nothing to compare"


def sealed(caller, command, first, second, auth, nonce, keep):
    try:
        return caller.seal(*map(unhex, (command, first, second, auth, nonce)), keep == "keep").hex()
    except ValueError:
        return "not sealed"


def whole(name):
    with open(name, "rb") as file:
        return file.read()


def opened(name):
    with open(name, "rb") as file:
        yield from registers(file)


class Answers:
    number, device, caller = 0, None, None

    def zeros(self, size, first):
        zeros, first = mmap.mmap(-1, int(size)), unhex(first)
        zeros[:len(first)] = first
        yield from told(command, zeros)
        yield from told(registers, zeros)

    def of(self, verb, *words):
        if verb == "command":
            yield from command(unhex(*words or "-"))
        elif verb == "reply":
            yield from reply(words[0], unhex(*words[1:] or "-"))
        elif verb == "build":
            yield vinjakwe.build_command(words[0], *map(unhex, words[1:])).hex()
        elif verb == "log":
            yield from registers(whole(*words))
        elif verb == "pieces":
            yield from opened(*words)
        elif verb == "events":
            yield from events(whole(*words))
        elif verb == "texts":
            yield from texts(whole(*words))
        elif verb == "contents":
            yield from contents(whole(*words))
        elif verb == "objects":
            yield from objects(whole(*words))
        elif verb == "boot":
            yield from boot(whole(words[0]), words[1])
        elif verb == "quote":
            verdict = vinjakwe.check_quote(whole(words[0]), unhex(words[1]), words[2])
            yield "quote " + said(verdict).removeprefix("digest ")
        elif verb == "vouched":
            yield from vouched(whole(words[0]), vinjakwe.decode_attest(unhex(words[1])))
        elif verb == "attest":
            yield from attest(whole(words[0]), *words[1:])
        elif verb == "frames":
            yield from frames(int(words[0]), unhex(words[1]))
        elif verb == "device":
            self.number, self.device, self.caller = 0, vinjakwe.Device(unhex(words[0])), vinjakwe.Caller()
        elif verb == "power":
            self.device.power_cycle()
            yield verb
        elif verb == "execute":
            self.number += 1
            yield self.device.execute(unhex(words[0]), self.number.to_bytes(16, "big") * 4).hex()
        elif verb == "start":
            yield "started" if self.caller.start(*map(unhex, words)) else "not started"
        elif verb == "seal":
            yield sealed(self.caller, *words)
        elif verb == "open":
            yield "opened" if self.caller.open(unhex(*words)) else "not opened"
        elif verb == "give-up":
            yield "given up" if self.caller.give_up(unhex(*words)) else "not given up"
        elif verb == "zeros":
            yield from self.zeros(*words)
        elif verb == "code":
            yield vinjakwe.code_name(int(*words, 16))


def told(ask, *words):
    try:
        yield from ask(*words)
    except Refusal as it:
        yield f"refused {it.code:03x} at {it.at}"
    except ValueError as it:
        yield str(it)


def main():
    answers = Answers()
    for line in sys.stdin:
        if line.split():
            for answer in told(answers.of, *line.split()):
                print(answer)


main()

"""What the package answers, beside hashlib and the logs and quotes of the repository: `python -m unittest` in
bindings/python."""
import copy
import hashlib
import importlib.util
import json
import pickle
import sys
import unittest
from concurrent.futures import ThreadPoolExecutor
from pathlib import Path

import vinjakwe as v

CHECKS = Path(__file__).resolve().parents[3] / "checks"
LOG = CHECKS / "logs" / "worked.log"


def registers_of(path):
    found = {}
    for line in path.read_text().splitlines():
        bank, _, value = line.split()
        found.setdefault(bank, []).append(bytes.fromhex(value))
    return {bank: tuple(values) for bank, values in found.items()}


def quotes():
    for line in (CHECKS / "quotes" / "cases.txt").read_text().splitlines():
        name, log, hash, nonce, selected = line.split()
        log, quote = (CHECKS / "quotes" / log).read_bytes(), (CHECKS / "quotes" / f"{name}.msg").read_bytes()
        yield log, quote, bytes.fromhex(nonce), selected, hash


class Logs(unittest.TestCase):
    def test_registers_of_bytes_of_a_path_and_of_a_file(self):
        wanted = registers_of(LOG.with_suffix(".registers"))
        for log in LOG, str(LOG), LOG.read_bytes(), bytearray(LOG.read_bytes()), memoryview(LOG.read_bytes()):
            self.assertEqual(v.replay(log), wanted)
        with open(LOG, "rb") as file:
            self.assertEqual(v.replay(file), wanted)

    def test_events_of_bytes_of_a_path_and_of_a_file(self):
        wanted = list(v.events(LOG.read_bytes()))
        self.assertEqual(list(v.events(LOG)), wanted)
        with open(LOG, "rb") as file:
            self.assertEqual(list(v.events(file)), wanted)
        for event in wanted:
            for name in event.hashed:
                self.assertEqual(hashlib.new(name, event.data).digest(), event.digests[name])

    def test_fault_of_a_log_that_is_cut(self):
        with self.assertRaises(v.LogFault) as caught:
            v.replay(LOG.with_name("cut_by_a_byte.log"))
        self.assertEqual((caught.exception.kind, caught.exception.at), ("Truncated", 211))

    def test_threads_over_one_log(self):
        logs = [LOG.read_bytes()] * 64
        with ThreadPoolExecutor(4) as pool:
            self.assertEqual(list(pool.map(v.replay, logs)), [v.replay(LOG)] * 64)


def variables():
    """What checks/logs/variables.txt says: of each log the places of the variables that its records' data are."""
    found = {}
    for line in (CHECKS / "logs" / "variables.txt").read_text().splitlines():
        words = line.split()
        if words[0] == "log":
            listed = found[words[1]] = []
        else:
            listed.append([tuple(int(it) for it in word.split("+")) for word in words[2:]])
    return found


class Variables(unittest.TestCase):
    def test_each_log_with_a_list(self):
        for name, listed in variables().items():
            path = CHECKS / "logs" / f"{name}.log"
            log = path.read_bytes()
            wanted = [[log[at:at + size] for at, size in parts] for parts in listed]
            told = [it for it in map(v.variable, v.events(path)) if it]
            found = [[it.vendor.bytes_le, it.name.encode("utf-16-le", "surrogatepass"), it.value] for it in told]
            self.assertEqual(found, wanted)

    def test_the_key_that_secure_boot_tells(self):
        log = LOG.with_name("secure_on.log")
        names = {it.name for it in map(v.variable, v.events(log)) if it}
        self.assertLessEqual({"SecureBoot", "PK", "KEK", "db", "dbx"}, names)


def said():
    """What the lists beside the logs say of records: of each log the names of their types, their places, and which data
    are text."""
    for path in sorted((CHECKS / "logs").glob("*.events")):
        lines = [line.split(" ", 7) for line in path.read_text().splitlines() if not line.startswith("log ")]
        yield path.with_suffix(".log"), [(line[2], line[5], "".join(line[7:])) for line in lines]


class Texts(unittest.TestCase):
    def test_each_log_with_a_list(self):
        for path, wanted in said():
            events = list(v.events(path))
            found = [(v.event_type_name(it.type) or f"{it.type:08x}", f"at={it.at}") for it in events]
            self.assertEqual(found, [(name, place) for name, place, _ in wanted], path)
            for event, (_, _, words) in zip(events, wanted):
                told = json.loads(f'"{words[5:]}"') if words.startswith("text ") else None
                found = v.text(event)
                # Of text in UTF-8 beyond ASCII the list has its size.
                if not (words.startswith("size ") and found and not found.isascii()):
                    self.assertEqual(found, told, path)

    def test_a_type_that_the_profile_does_not_name(self):
        for kind in 0x13, 0x8000000E, 0xFFFFFFFF, 1 << 32, -1:
            self.assertIsNone(v.event_type_name(kind))


def objects():
    """Of each log with a list of objects what `events --json` prints of its records."""
    for path in sorted((CHECKS / "logs").glob("*.json")):
        yield path.with_suffix(".log"), [json.loads(line) for line in path.read_text().splitlines()]


class Objects(unittest.TestCase):
    def test_each_log_with_a_list_of_objects(self):
        for path, told in objects():
            found = [json.loads(it.json) for it in v.events(path)]
            self.assertEqual(found, [it for it in told if "measured" in it], path)

    def test_a_record_of_no_log(self):
        for event in v.events(LOG):
            for other in v.Event(*event), pickle.loads(pickle.dumps(event)):
                self.assertEqual(other, event)
                with self.assertRaises(ValueError):
                    other.json

    def test_a_node_of_a_path(self):
        self.assertEqual(str(v.PathNode(4, 4, "\\a\0".encode("utf-16-le"))), "\\a")
        self.assertEqual(v.path_text(v.PathNode(127, it, b"") for it in (1, 2, 255)), ",Path(127,2)")


class Images(unittest.TestCase):
    def test_each_log_with_a_list_of_objects(self):
        files = set()
        for path, told in objects():
            for event, it in zip(v.events(path), (it for it in told if "measured" in it)):
                found = v.image(event)
                # An image whose device path has a fault is none in the list.
                if "image" in it:
                    numbers = f"{found.address:#x}", found.size, f"{found.link_address:#x}"
                    self.assertEqual(numbers, tuple(it["image"][name] for name in ("address", "length", "link")))
                    files.add(found.file)
        self.assertIn("\\EFI\\BOOT\\BOOTX64.EFI", files)


def told_of(content):
    """What `events --json` prints of a content, as far as it is the same for each, by the words that it has there."""
    if isinstance(content, v.Holding):
        vendor, name, value = content.variable
        told = {"guid": str(vendor), "name": name, "data": value.hex()}
        if isinstance(content.holds, v.LoadOption):
            it = content.holds
            told["option"] = {"attributes": f"{it.attributes:#x}", "description": it.description, "data": it.data.hex()}
        if isinstance(content.holds, v.BootOrder):
            told["order"] = [f"{number:04x}" for number in content.holds.numbers]
        if isinstance(content.holds, v.Owned):
            owned = content.holds
            told["signature"] = {"owner": str(owned.owner), "sha256": hashlib.sha256(owned.data).hexdigest()}
        return "variable", told
    if isinstance(content, v.Separator):
        return "separator", f"{content.number:08x}"
    if isinstance(content, v.Locality):
        return "locality", content.number
    if isinstance(content, v.Version):
        return ("text", content.version) if isinstance(content.version, str) else ("guid", str(content.version))
    if isinstance(content, v.Text):
        return "text", content.text
    if isinstance(content, v.Image):
        numbers = f"{content.address:#x}", content.size, f"{content.link_address:#x}"
        return "image", dict(zip(("address", "length", "link"), numbers))
    if isinstance(content, v.Firmware):
        return "firmware", {"address": f"{content.base:#x}", "length": content.size}
    if isinstance(content, v.Tables):
        listed = [{"guid": str(it.guid), "address": f"{it.address:#x}"} for it in content.tables]
        return "tables", {"count": len(listed), "list": listed}
    if isinstance(content, v.Tag):
        return "tag", {"id": f"{content.id:#x}"}
    if isinstance(content, v.Partitions):
        listed = [{"type": str(it.type), "guid": str(it.guid), "first": it.first, "last": it.last,
                   "attributes": f"{it.attributes:#x}", "name": it.name} for it in content.partitions]
        return "partitions", {"count": len(listed), "disk": str(content.disk), "list": listed}
    if isinstance(content, v.Measurement):
        return "device", {"hash": f"{content.hash:#x}", "device_type": content.device_type,
                          "block": content.block.hex(), "context": content.context.hex()}
    return "device", {"uid": f"{content.uid:#x}", "auth_state": content.auth_state, "device_type": content.device_type,
                      "sub_header_type": content.sub_header_type, "sub_header": content.sub_header.hex(),
                      "context": content.context.hex()}


class Contents(unittest.TestCase):
    def assert_within(self, found, told, words):
        """What was found is what is told of it, which has U+FFFD for half of a pair."""
        if isinstance(found, dict):
            for name, value in found.items():
                if name in told:
                    self.assert_within(value, told[name], words)
        elif isinstance(found, list) and found and isinstance(found[0], dict):
            self.assertEqual(len(found), len(told))
            for one, other in zip(found, told):
                self.assert_within(one, other, words)
        elif isinstance(found, str):
            self.assertEqual(found.encode("utf-16-le", "surrogatepass").decode("utf-16-le", "replace"), told, words)
        else:
            self.assertEqual(found, told, words)

    def test_each_log_with_a_list_of_objects(self):
        kinds = set()
        for path, told in objects():
            for event, it in zip(v.events(path), (it for it in told if "measured" in it)):
                if event.content is None:
                    continue
                name, found = told_of(event.content)
                if name in it:
                    kinds.add(type(event.content))
                    self.assert_within(found, it[name], (path, it["number"]))
        self.assertEqual(len(kinds), 12)

    def test_a_type_without_a_kind(self):
        event = v.Event(1, 0, 0, 0x80000010, {}, b"words", ())
        self.assertIsNone(event.content)
        self.assertIsNone(v.content(event._replace(type=4)))
        self.assertEqual(v.content(event._replace(type=5)), v.Text("words"))


class Measured(unittest.TestCase):
    def test_each_log_with_a_list_of_objects(self):
        for path, told in objects():
            found = [v.measured(it) for it in v.events(path)]
            self.assertEqual(found, [it["measured"] for it in told if "measured" in it], path)

    def test_a_text_behind_a_prefix(self):
        data = b"kernel_cmdline: quiet"
        digests = {name: hashlib.new(name, b"quiet").digest() for name in v.HASHES}
        event = v.Event(1, 0, 8, 0xD, {**digests, 0x12: bytes(32)}, data, ())
        self.assertEqual(v.measured(event), dict.fromkeys(v.HASHES, "text"))
        self.assertEqual(v.measured(event._replace(type=5)), dict.fromkeys(v.HASHES, "other"))


def boots():
    """What the lists beside the logs say of Secure Boot: of each bank its state or fault, and its lines by name and
    place."""
    for path in sorted((CHECKS / "logs").glob("*.secure")):
        found = {}
        for line in path.read_text().splitlines():
            words = line.split()
            if words[0] == "secure-boot":
                lines = found[words[1]] = []
            lines.append(words[2:] if words[0] == "secure-boot" else words)
        yield path.with_suffix(".log"), found


class SecureBoots(unittest.TestCase):
    def test_each_log_with_a_list(self):
        for path, banks in boots():
            for bank, (said, *lines) in banks.items():
                if said[0] == "unknown":
                    with self.assertRaises(v.SecureBootFault) as caught:
                        v.secure_boot(path, bank)
                    self.assertEqual((caught.exception.kind, caught.exception.at), (said[1], int(said[3])))
                    continue
                found = v.secure_boot(path.read_bytes(), bank)
                self.assertEqual((found.state.name.lower(), bool(found)), (said[0], said[0] == "on"))
                self.assertEqual(found.dma_protection_disabled, ["dma-protection", "disabled"] in lines)
                placed = (line for line in lines if line[0] != "dma-protection")
                places = [(name, int(at)) for name, word, at, *_ in placed]
                named = [(name, at) for name, at in zip(("PK", "KEK", "db", "dbx"), found[2:6]) if at is not None]
                self.assertEqual(named + [("authority", at) for at in found.authorities], places)

    def test_the_records_that_it_names(self):
        log = LOG.with_name("secure_on.log")
        found, events = v.secure_boot(log), {it.at: it for it in v.events(log)}
        names = [v.variable(events[at]).name for at in (found.pk, found.kek, found.db, found.dbx)]
        self.assertEqual(names, ["PK", "KEK", "db", "dbx"])
        types = {v.event_type_name(events[at].type) for at in found.authorities}
        self.assertEqual(types, {"EV_EFI_VARIABLE_AUTHORITY"})

    def test_a_log_that_is_none_and_another_hash(self):
        with self.assertRaises(v.LogFault):
            v.secure_boot(LOG.with_name("cut_by_a_byte.log"))
        with self.assertRaisesRegex(ValueError, "md5"):
            v.secure_boot(LOG, "md5")

    def test_more_authorities_than_the_first_room(self):
        log = LOG.with_name("secure_on.log").read_bytes()
        last = v.secure_boot(log).authorities[-1]
        found = v.secure_boot(log + 40 * log[last:])
        size = len(log[last:])
        self.assertEqual(found.authorities[2:], tuple(range(len(log), len(log) + 40 * size, size)))


class Quotes(unittest.TestCase):
    def test_each_quote_matches_its_log(self):
        for log, quote, nonce, selected, hash in quotes():
            self.assertTrue(v.check(log, quote, nonce, selected, hash))
            self.assertTrue(v.check(log, quote, nonce, v.selection(selected), hash))
            self.assertTrue(v.check_quote(log, v.decode_attest(quote).info, hash))

    def test_a_log_by_its_path(self):
        for line in (CHECKS / "quotes" / "cases.txt").read_text().splitlines():
            name, log, hash, nonce, selected = line.split()
            quote = (CHECKS / "quotes" / f"{name}.msg").read_bytes()
            self.assertTrue(v.check(CHECKS / "quotes" / log, quote, bytes.fromhex(nonce), selected, hash))
            with open(CHECKS / "quotes" / log, "rb") as file:
                self.assertTrue(v.check_quote(file, v.decode_attest(quote).info, hash))

    def test_another_nonce(self):
        for log, quote, nonce, selected, hash in quotes():
            self.assertIs(v.check(log, quote, nonce + b"\0", selected, hash).kind, v.Kind.NONCE)

    def test_a_register_that_is_not_selected(self):
        for log, quote, nonce, _, hash in quotes():
            verdict = v.check(log, quote, nonce, "sha384:9", hash)
            self.assertEqual(verdict, (v.Kind.LACKS, "sha384", 9, None))
            self.assertFalse(verdict)

    def test_the_text_of_a_verdict(self):
        for words, text in (((v.Kind.MATCHES,), "matches"), ((v.Kind.DIFFERS,), "digest differs"),
                            ((v.Kind.NONCE,), "nonce differs"), ((v.Kind.LACKS, "sha1", 7), "selection lacks sha1 7"),
                            ((v.Kind.UNKNOWN, "sha256", 4, 211), "unknown sha256 4 at 211")):
            self.assertEqual(str(v.Verdict(*words)), text)

    def test_nothing_compared_is_no_success(self):
        no_register = bytes.fromhex("00000001000b03000000")
        for log, quote, nonce, selected, hash in quotes():
            for words in (b"", selected), (nonce, b""), (nonce, bytes(4)), (nonce, no_register):
                self.assertRaisesRegex(ValueError, "ANY_", v.check, log, quote, *words, hash)
            self.assertRaises(TypeError, v.check, log, quote, nonce)
            self.assertTrue(v.check(log, quote, v.ANY_NONCE, selected, hash))
            self.assertTrue(v.check(log, quote, nonce, v.ANY_SELECTION, hash))
        empty = bytes.fromhex("000000000020") + hashlib.sha256().digest()
        self.assertIs(v.check_quote(LOG, empty).kind, v.Kind.EMPTY)

    def test_another_signer(self):
        for log, quote, nonce, selected, hash in quotes():
            signer = v.decode_attest(quote).signer
            self.assertTrue(v.check(log, quote, nonce, selected, hash, signer))
            self.assertIs(v.check(log, quote, nonce, selected, hash, signer[:-1]).kind, v.Kind.SIGNER)

    def test_what_is_vouched_of_each_record(self):
        for log, quote, _, selected, _ in quotes():
            attest, count = v.decode_attest(quote), 0
            listed = {bank: {int(it) for it in registers.split(",")}
                      for bank, registers in (entry.split(":") for entry in selected.split("+"))}
            for event in v.events(log):
                wanted = {bank: "digest" if part == "other" else part for bank, part in v.measured(event).items()
                          if event.register in listed.get(bank, ()) and event.type != 3}
                self.assertEqual(v.vouched(event, attest), wanted)
                count += len(wanted)
                self.assertEqual(v.vouched(event._replace(type=3), attest), {})
            self.assertEqual(count == 0, selected == "sha256:10,11,12")

    def test_texts_and_variables_that_are_vouched(self):
        attest = v.decode_attest((CHECKS / "quotes" / "ecc-sha256.msg").read_bytes())

        def record(type, data, measured, register=7):
            return v.Event(1, 0, register, type, {"sha256": hashlib.sha256(measured).digest()}, data, ())

        line = b"kernel_cmdline: quiet splash"
        for data, measured, told in (
            (line, line, line.decode()), (line, b"quiet splash", "quiet splash"), (line, b"other", None),
            (line, line[:-1], None), (b"grub_cmd: quiet splash", b"quiet splash", "quiet splash"),
            (b"grub_cmd quiet\0", b"quiet", "quiet"), (b"module_cmdline: quiet", b"quiet", "quiet"),
            (b"grub_kernel_cmdline quiet", b"quiet", "quiet"),
        ):
            self.assertEqual(v.vouched_text(record(0xD, data, measured), attest, "sha256"), told)
        self.assertIsNone(v.vouched_text(record(0xD, line, line, 8), attest, "sha256"))
        self.assertIsNone(v.vouched_text(record(0xD, line, line), attest, "sha1"))
        name = "db".encode("utf-16-le")
        data = bytes(16) + (2).to_bytes(8, "little") + (3).to_bytes(8, "little") + name + b"key"
        for data, measured, told in ((data, data, True), (data + b"0", data, True), (data, b"key", False),
                                     (data, b"other", False), (data + b"0", data + b"0", False)):
            found = v.vouched_variable(record(0x800000E0, data, measured), attest, "sha256")
            self.assertEqual(found and found[1:], ("db", b"key") if told else None)
        self.assertIsNone(v.vouched_variable(record(0x800000E0, data, data, 9), attest, "sha256"))

    def test_the_hash_by_the_length_of_the_digest(self):
        for log, quote, nonce, selected, _ in quotes():
            self.assertTrue(v.check(log, quote, nonce, selected))
        with self.assertRaises(v.Refusal):
            v.check(LOG, b"", b"1", "sha256:0")

    def test_a_list_of_digests(self):
        log, quote, nonce, selected, hash = next(it for it in quotes() if it[3] == "sha256:0,1,2,3,4,5,6,7")
        found = [(it.register, it.digests["sha256"], it.at) for it in v.events(log) if it.type != 3]
        lines = [f"sha256 {register} {digest.hex()} words # and a comment" for register, digest, _ in found
                 if register < 8]
        allowed = "# a boot\n\n" + "\n".join(lines)
        self.assertEqual(v.check(log, quote, nonce, selected, hash, allow=allowed), (v.Kind.MATCHES, None, None, None))
        for register, digest, at in found[:9]:
            other = allowed.replace(digest.hex(), bytes(32).hex())
            verdict = v.check(log, quote, nonce, selected, hash, allow=other)
            self.assertEqual(verdict, (v.Kind.UNKNOWN, "sha256", register, at))
        lacking = v.check(log, quote, nonce, selected, hash, allow=f"sha256 9 {bytes(32).hex()}")
        self.assertEqual(lacking[:3], (v.Kind.LACKS, "sha256", 9))
        self.assertIs(v.check(log, quote, b"1", selected, hash, allow=other).kind, v.Kind.NONCE)
        # The first by bank and register, whatever the list's order.
        lacking = v.check(log, quote, nonce, selected, hash, allow="\n".join(
            f"{bank} {register} {bytes(size).hex()}" for bank, register, size in (
                ("sha384", 0, 48), ("sha256", 9, 32), ("sha1", 23, 20), ("sha256", 8, 32), ("sha1", 3, 20))))
        self.assertEqual(lacking[:3], (v.Kind.LACKS, "sha1", 3))

    def test_a_list_without_a_digest(self):
        for words in quotes():
            for given in "", b"", "# none", "  \n#", bytearray(b"\n\n"), f"# sha256 0 {'00' * 32}":
                self.assertRaisesRegex(ValueError, "allow: it has no digest", v.check, *words, allow=given)
            self.assertTrue(v.check(*words, allow=None))
        for given in 5, True, [], object():
            self.assertRaises(TypeError, v.check, *words, allow=given)

    def test_how_a_list_is_spelled(self):
        """As the proved reader takes it: checks/check.txt has the same lines."""
        line = "sha256 4 " + "0a" * 32
        same = (line, "sha256 4 " + "0A" * 32, line + "#", line + " ", line + " words", line + " \r", line + " \t",
                line + "  # words", line + "\n", "\n\n" + line, "   \n" + line, "  # words\n" + line,
                f"#{' ' * 100_000}\n" + line, line + " " * 100_000, "# \x85\n" + line, "# \udc80\n" + line)
        for text in same:
            for given in text, text.encode("utf-8", "surrogatepass"):
                self.assertEqual([(it.hash, it.pcr, bytes(it.digest)) for it in v._allowed(given)],
                                 [(0x000B, 4, b"\x0a" * 32 + bytes(16))], text[:80])
        for between in "\f", "\v", "\r", "\x1c", "\x1d", "\x1e", "\x85", "\u2028", "\u2029", "\t", " ":
            self.assertEqual(len(v._allowed(f"# words{between}{line}\n{line}")), 1)
        wrong = ("sha256 4", "md5 4 00", "sha256 24 " + "00" * 32, "sha256 4 " + "00" * 31, "sha256 4 " + "0g" * 32,
                 " " + line, line.replace(" ", "  ", 1), line.replace(" 4 ", " 4  "), line.replace(" ", "\t"),
                 line + "\t", line + "\r", "\r", "\t", "\f", line.replace("4", "04"), line.replace("4", "+4"),
                 line.replace("4", "\u0664"), line.replace("0a", "\u0660a"), line + "00", line + "0",
                 line[:-2] + "\t\t", line[:9] + "0a " * 32, line.upper(), "sha512 4 " + "00" * 64,
                 line.replace(" 0a", " #0a", 1), line + "\0", "\ufeff" + line, line.replace("4", "100"))
        for text in wrong:
            with self.assertRaisesRegex(ValueError, "^allow: line 3 is no bank, register and digest", msg=text):
                v._allowed(f"# a list\n{line}\n{text}\nneither")

    def test_a_size_before_a_quote(self):
        for log, quote, nonce, selected, hash in quotes():
            sized = len(quote).to_bytes(2, "big") + quote
            for call in (lambda: v.decode_attest(sized), lambda: v.check(log, sized, nonce, selected, hash)):
                with self.assertRaisesRegex(v.SizedAttest, "a size stands before it"):
                    call()
            with self.assertRaises(v.Refusal) as caught:
                v.decode_attest(b"\0\1" + quote)
            self.assertIs(type(caught.exception), v.Refusal)

    def test_a_whole_attest_is_not_a_quotes_information(self):
        for log, quote, _, _, hash in quotes():
            with self.assertRaisesRegex(ValueError, "TPMS_ATTEST"):
                v.check_quote(log, quote, hash)


class Signatures(unittest.TestCase):
    def test_each_scheme(self):
        for number, name in (0x14, "rsassa"), (0x16, "rsapss"):
            spelled = number.to_bytes(2, "big") + bytes.fromhex("000b0003") + b"sig"
            self.assertEqual(v.decode_signature(spelled), (name, "sha256", b"sig", 0, 0))
        self.assertEqual(v.decode_signature(bytes.fromhex("00180004 00020102 000103")), ("ecdsa", "sha1", b"", 258, 3))

    def test_what_is_refused(self):
        greatest = bytes.fromhex("0014000c0200") + bytes(512)
        self.assertEqual(v.decode_signature(greatest).sig, bytes(512))
        for text, code, at in (("", 0x9A, 0), ("001a", 0x92, 0), ("00140010", 0x83, 2), ("0014000b0201", 0x95, 4),
                               ("0014000b000101ff", 0x95, 7), ("0018000b0043", 0x95, 4),
                               ("0018000b000101000202", 0x9A, 9)):
            with self.assertRaises(v.Refusal) as caught:
                v.decode_signature(bytes.fromhex(text))
            self.assertEqual((caught.exception.code, caught.exception.at), (code, at), text)


@unittest.skipUnless(importlib.util.find_spec("cryptography"), "there is no cryptography")
class Verified(unittest.TestCase):
    def signed(self):
        """The quotes with their signatures, whose spelling is written here, and their keys in PEM."""
        from cryptography.hazmat.primitives.asymmetric.utils import decode_dss_signature
        for line in (CHECKS / "quotes" / "cases.txt").read_text().splitlines():
            name, log, hash, nonce, selected = line.split()
            log, (quote, key, sig) = (CHECKS / "quotes" / log).read_bytes(), (
                (CHECKS / "quotes" / f"{name}.{it}").read_bytes() for it in ("msg", "pem", "sig"))
            scheme, parts = (0x14, [sig]) if name.startswith("rsa") else (
                0x18, [it.to_bytes(48, "big") for it in decode_dss_signature(sig)])
            head = scheme.to_bytes(2, "big") + v.HASHES[hash].to_bytes(2, "big")
            spelled = head + b"".join(len(it).to_bytes(2, "big") + it for it in parts)
            yield log, quote, spelled, key, bytes.fromhex(nonce), selected

    def test_each_quote_is_by_its_key(self):
        for words in self.signed():
            self.assertEqual(v.verify(*words), v.decode_attest(words[1]))

    def test_what_is_not_to_be_believed(self):
        keys = [words[3] for words in self.signed()]
        for log, quote, spelled, key, nonce, selected in self.signed():
            def kind(**other):
                words = {"log": log, "attest": quote, "signature": spelled, "key": key, "nonce": nonce,
                         "require": selected, **other}
                with self.assertRaises(v.Mismatch) as caught:
                    v.verify(**words)
                return caught.exception.verdict.kind
            for other in keys:
                if other != key:
                    self.assertIs(kind(key=other), v.Kind.UNSIGNED)
            self.assertIs(kind(attest=quote + b"0"), v.Kind.UNSIGNED)
            self.assertIs(kind(signature=spelled[:-1] + bytes([spelled[-1] ^ 1])), v.Kind.UNSIGNED)
            self.assertIs(kind(nonce=b"1"), v.Kind.NONCE)
            self.assertIs(kind(require="sha384:9"), v.Kind.LACKS)
            self.assertIs(kind(signer=b"1"), v.Kind.SIGNER)
            self.assertIs(kind(allow="sha384 9 " + "00" * 48), v.Kind.LACKS)
            self.assertRaises(ValueError, v.verify, log, quote, spelled, key, nonce, selected, allow="# none")
            self.assertRaises(v.Refusal, v.verify, log, quote, b"", key, nonce, selected)
            self.assertRaises(ValueError, v.verify, log, quote, spelled, b"key", nonce, selected)


class Faults(unittest.TestCase):
    def test_faults_are_pickled_and_copied(self):
        for fault in (v.Refusal(0x1C4, 10), v.SizedAttest(0x84, 0), v.LogFault(1, 211), v.SecureBootFault(67, 548),
                      v.BrokenStream([b"frame"]), v.Mismatch(v.Verdict(v.Kind.LACKS, "sha1", 7))):
            for made in pickle.loads(pickle.dumps(fault)), copy.copy(fault):
                self.assertEqual((type(made), str(made), vars(made)), (type(fault), str(fault), vars(fault)))

    def test_what_a_mismatch_says(self):
        for verdict, said in ((v.Verdict(v.Kind.DIFFERS), "digest differs"), (v.Verdict(v.Kind.NONCE), "nonce differs"),
                              (v.Verdict(v.Kind.LACKS, "sha1", 7), "selection lacks sha1 7"),
                              (v.Verdict(v.Kind.EMPTY), "selects nothing"),
                              (v.Verdict(v.Kind.UNKNOWN, "sha256", 4, 73), "unknown sha256 4 at 73"),
                              (v.Verdict(v.Kind.UNSIGNED), "not signed by the key")):
            self.assertEqual(str(v.Mismatch(verdict)), said)

    def test_position_and_name_of_a_refusal(self):
        with self.assertRaises(v.Refusal) as caught:
            v.decode_command(bytes.fromhex("80010000000c000001440002"))
        self.assertEqual((caught.exception.code, caught.exception.at), (0x1C4, 10))
        self.assertEqual(caught.exception.name, "TPM_RC_VALUE for parameter 1")

    def test_a_refusal_whose_code_is_not_told(self):
        refusal = v.Refusal(0, 3)
        self.assertEqual((str(refusal), refusal.name), ("refused at 3", ""))

    def test_names_of_codes(self):
        for code, name in ((0, "TPM_RC_SUCCESS"), (0x921, "TPM_RC_LOCKOUT"), (0x9A2, "TPM_RC_BAD_AUTH for session 1"),
                           (0xFE1, "TPM_RC_RESERVED_BITS for parameter 15"), (0x184, "TPM_RC_VALUE for handle 1"),
                           (0x1084, "0x1084"), (1 << 32, "0x100000000")):
            self.assertEqual(v.code_name(code), name)


class Policies(unittest.TestCase):
    def test_digests_by_hashlib(self):
        for name in v.HASHES:
            def extended(old, data):
                return hashlib.new(name, old + data).digest()
            zeros = bytes(hashlib.new(name).digest_size)
            composite = hashlib.new(name, b"registers").digest()
            policy = v.Policy(name)
            self.assertEqual(policy.digest, zeros)
            policy.pcr("sha256:0,7", composite)
            wanted = extended(zeros, bytes.fromhex("0000017f") + v.selection("sha256:0,7") + composite)
            self.assertEqual(policy.digest, wanted)
            policy.command_code("NV_Increment")
            wanted = extended(wanted, bytes.fromhex("0000016c00000134"))
            self.assertEqual(policy.digest, wanted)
            policy.auth_value()
            wanted = extended(wanted, bytes.fromhex("0000016b"))
            self.assertEqual(policy.digest, wanted)
            policy.any_of([wanted, zeros])
            self.assertEqual(policy.digest, extended(zeros, bytes.fromhex("00000171") + wanted + zeros))
            policy.restart()
            self.assertEqual(policy.digest, zeros)

    def test_refusals_change_nothing(self):
        policy = v.Policy()
        policy.auth_value()
        before = policy.digest
        for call in (lambda: policy.pcr(b"\0", bytes(32)), lambda: policy.pcr("sha256:0", bytes(31)),
                     lambda: policy.any_of([before])):
            self.assertRaises(ValueError, call)
            self.assertEqual(policy.digest, before)
        self.assertRaises(ValueError, v.Policy, "md5")


class Devices(unittest.TestCase):
    def test_a_device_starts_once(self):
        device, startup = v.Device(), bytes.fromhex("80010000000c000001440000")
        self.assertEqual(device.execute(startup).hex(), "80010000000a00000000")
        self.assertEqual(device.execute(startup).hex(), "80010000000a00000100")
        device.power_cycle()
        self.assertEqual(device.execute(startup).hex(), "80010000000a00000000")

    def test_a_device_is_made_again_of_what_it_kept(self):
        device, answered = v.Device(b"owner", 40), "80010000000a00000000"
        password = bytes.fromhex("0000000e" "40000009" "0000" "00" "0005") + b"owner"
        defined = bytes.fromhex("8002" "00000033" "0000012a" "40000001") + password + bytes.fromhex(
            "0001" "61" "000e" "01800001" "000b" "02020012" "0000" "0008")
        increment = bytes.fromhex("8002" "00000024" "00000134" "40000001" "01800001") + password
        session = bytes.fromhex("8001" "0000002b" "00000176" "40000007" "40000007" "0010") + bytes(16) + bytes.fromhex(
            "0000" "01" "0010" "000b")
        self.assertEqual(device.execute(bytes.fromhex("80010000000c000001440000")).hex(), answered)
        for command, changes in (defined, True), (increment, True), (session, False):
            reply = device.execute(command)
            self.assertEqual((reply[6:10], v.changes_nv(command, reply)), (bytes(4), changes))
        kept, counter = device.keep(), v.Counter(0x01800001, "sha256", 0x22020012, b"", True, 41)
        self.assertEqual(device.session_hash(0x03000000), "sha256")
        for again in v.Device.restore(b"owner", kept), v.Device.restore(b"owner", bytearray(kept)):
            self.assertEqual((again.greatest, again.counters, again.keep()), (41, (counter,), kept))
            self.assertEqual(again.session_hash(0x03000000), None)
        changed = kept[:-1] + bytes([kept[-1] ^ 1])
        for other, code, name, at in ((changed, 0x09F, "TPM_RC_INTEGRITY", len(kept) - 32),
                                      (b"", 0x09A, "TPM_RC_INSUFFICIENT", 0)):
            with self.assertRaises(v.Refusal) as found:
                v.Device.restore(b"owner", other)
            self.assertEqual((found.exception.code, found.exception.name, found.exception.at), (code, name, at))
        self.assertRaises(v.Refusal, v.Device.restore, bytes(49), kept)

    def test_a_nonce_of_another_length_is_refused(self):
        for nonce in b"", bytes(63), bytes(65):
            self.assertRaises(ValueError, v.Device().execute, b"", nonce)


class Names(unittest.TestCase):
    def test_each_public_name_is_there(self):
        for name in v.__all__:
            self.assertTrue(hasattr(v, name), name)


if __name__ == "__main__":
    sys.exit(unittest.main())

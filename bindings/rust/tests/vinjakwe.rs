//! The crate over the repository's logs and quotes.
use std::fmt::Write;
use std::fs;
use vinjakwe::{
    allowed_digests, changes_nv, check, check_quote, check_version, events, replay, secure_boot, AllowedDigest, Attest,
    Bank, CodeName, Content, Device, Event, Expected, Fault, Held, LogFault, MeasuredPart, Nonce, Policy, Refusal,
    Replay, Required, Room, Selection, Signature, Verdict, BUFFER_BYTES, DEVICE_KEPT_BYTES, NONCE_BYTES,
};

fn read(name: &str) -> Vec<u8> {
    fs::read(format!("{}/../../checks/{name}", env!("CARGO_MANIFEST_DIR"))).expect("a file of the repository")
}

fn unhex(text: &str) -> Vec<u8> {
    text.as_bytes().chunks(2).map(|it| u8::from_str_radix(std::str::from_utf8(it).unwrap(), 16).unwrap()).collect()
}

#[test]
fn the_library_has_this_version() {
    check_version().unwrap();
}

#[test]
fn registers_of_a_log() {
    let log = read("logs/worked.log");
    let registers = replay(&log).unwrap();
    let mut lines = String::new();
    for bank in Bank::ALL {
        for i in 0..24 {
            write!(lines, "{bank} {i} ").unwrap();
            registers.value(bank, i).unwrap().iter().for_each(|byte| write!(lines, "{byte:02x}").unwrap());
            lines.push('\n');
        }
    }
    assert_eq!(lines.as_bytes(), read("logs/worked.registers"));
    let mut room = Room::new();
    let mut pieces = Replay::new(&mut room).unwrap();
    log.chunks(7).for_each(|piece| pieces.feed(piece).unwrap());
    assert_eq!(pieces.end().unwrap(), registers);
    assert!(events(&log).all(|it| it.is_ok()));
}

#[test]
fn fault_of_a_log_that_is_cut() {
    let fault = replay(&read("logs/cut_by_a_byte.log")).unwrap_err();
    assert_eq!(fault, Fault::Log(LogFault { kind: "Truncated", at: 211 }));
    assert_eq!(fault.to_string(), "log Truncated at 211");
}

// The last record of the log, of Shim, has a byte behind its variable.
#[test]
fn variables_of_a_log() {
    let log = read("logs/secure_on.log");
    let found: Vec<_> = events(&log).filter_map(|it| it.unwrap().variable()).collect();
    let names: Vec<String> = found.iter().map(|it| it.name_chars().collect()).collect();
    assert_eq!(names, ["SecureBoot", "PK", "KEK", "db", "dbx", "db"]);
    assert_eq!((found[0].guid.len(), found[0].value), (16, &[1][..]));
}

// Each list beside a log has a line for a record, whose third word is the type's name, whose sixth is its place, and
// whose eighth may be "text".
#[test]
fn names_and_texts_of_each_log_with_a_list() {
    let logs = format!("{}/../../checks/logs", env!("CARGO_MANIFEST_DIR"));
    let lists = fs::read_dir(logs)
        .unwrap()
        .map(|it| it.unwrap().path())
        .filter(|it| it.extension().is_some_and(|it| it == "events"));
    let mut count = 0;
    for list in lists {
        let (log, lines) = (fs::read(list.with_extension("log")).unwrap(), fs::read_to_string(&list).unwrap());
        let lines = lines.lines().filter(|it| !it.starts_with("log "));
        for (it, line) in events(&log).map_while(Result::ok).zip(lines) {
            let words: Vec<&str> = line.splitn(9, ' ').collect();
            assert_eq!(it.type_name().map_or(format!("{:08x}", it.kind), |it| it.to_string()), words[2], "{line}");
            assert_eq!(format!("at={}", it.at), words[5], "{line}");
            let text: Option<String> = it.text().map(|it| it.chars().collect());
            // Of text in UTF-8 beyond ASCII the list has its size.
            let text = text.filter(|it| it.is_ascii() || words.get(7) != Some(&"size"));
            assert_eq!(text.is_some(), words.get(7) == Some(&"text"), "{line}");
            assert!(text.map_or(true, |it| words[8].contains('\\') || it == words[8]), "{line}");
            count += 1;
        }
    }
    assert!(count > 0);
}

// What is said of Secure Boot in a bank, as the lists beside the logs have it, without what the variables hold.
fn boot_lines(log: &[u8], bank: Bank) -> String {
    let mut room = [0; 8];
    let it = match secure_boot(log, bank, &mut room) {
        Ok(it) => it,
        Err(Fault::SecureBoot(fault)) => return format!("secure-boot {bank} unknown {} at {}\n", fault.kind, fault.at),
        Err(fault) => return format!("{fault}\n"),
    };
    let mut lines = format!("secure-boot {bank} {}\n", it.state);
    if it.dma_protection_disabled {
        lines += "dma-protection disabled\n";
    }
    for (name, at) in [("PK", it.pk), ("KEK", it.kek), ("db", it.db), ("dbx", it.dbx)] {
        at.into_iter().for_each(|at| writeln!(lines, "{name} at {at}").unwrap());
    }
    it.authorities.iter().for_each(|at| writeln!(lines, "authority at {at}").unwrap());
    lines
}

#[test]
fn secure_boot_of_each_log_with_a_list() {
    let logs = format!("{}/../../checks/logs", env!("CARGO_MANIFEST_DIR"));
    let lists = fs::read_dir(logs)
        .unwrap()
        .map(|it| it.unwrap().path())
        .filter(|it| it.extension().is_some_and(|it| it == "secure"));
    let mut count = 0;
    for list in lists {
        let log = fs::read(list.with_extension("log")).unwrap();
        let (mut found, mut wanted) = (String::new(), String::new());
        for line in fs::read_to_string(&list).unwrap().lines() {
            if let Some(bank) = Bank::ALL.into_iter().find(|it| line.starts_with(&format!("secure-boot {it} "))) {
                found += &boot_lines(&log, bank);
            }
            writeln!(wanted, "{}", line.split(" size ").next().unwrap().split(" variable ").next().unwrap()).unwrap();
        }
        assert_eq!(found, wanted, "{}", list.display());
        count += 1;
    }
    assert!(count > 0);
}

#[test]
fn the_records_that_secure_boot_names() {
    let (log, mut room) = (read("logs/secure_on.log"), [0; 2]);
    let boot = secure_boot(&log, Bank::Sha256, &mut room).unwrap();
    let name_at = |at: u32| {
        let found = events(&log).map(Result::unwrap).find(|it| it.at == at)?;
        Some(found.variable()?.name_chars().collect::<String>())
    };
    let places = [boot.pk, boot.kek, boot.db, boot.dbx, boot.authorities.first().copied()];
    assert_eq!(places.map(|at| name_at(at.unwrap()).unwrap()), ["PK", "KEK", "db", "dbx", "db"]);
}

#[test]
fn secure_boot_of_other_logs() {
    let cut = secure_boot(&read("logs/cut_by_a_byte.log"), Bank::Sha256, &mut []).unwrap_err();
    assert_eq!(cut, Fault::Log(LogFault { kind: "Truncated", at: 211 }));
    assert_eq!(secure_boot(&read("logs/secure_on.log"), Bank::Sha256, &mut [0; 1]), Err(Fault::Room(2)));
}

#[test]
fn each_quote_matches_its_log() {
    for line in String::from_utf8(read("quotes/cases.txt")).unwrap().lines() {
        let [quote, log, hash, nonce, selected] = line.split(' ').collect::<Vec<_>>()[..] else { panic!("{line}") };
        let (quote, log) = (read(&format!("quotes/{quote}.msg")), read(&format!("quotes/{log}")));
        let mut nonce = unhex(nonce);
        let bank = Bank::ALL.into_iter().find(|it| it.name() == hash).unwrap();
        let require = Selection::of(selected).unwrap();
        let required = Required::Registers(require.as_bytes());
        assert_eq!(check(&log, &quote, &Expected::new(Nonce::Is(&nonce), required, bank)), Ok(Verdict::Matches));
        let attest = Attest::decode(&quote).unwrap();
        assert_eq!(attest.nonce, nonce);
        let listed: Vec<String> = attest.selections().map(|(bank, registers)| {
            format!("{bank}:{}", registers.map(|it| it.to_string()).collect::<Vec<_>>().join(","))
        }).collect();
        assert_eq!(Selection::of(&listed.join("+")), Some(require));
        assert_eq!(check_quote(&log, attest.info, bank), Ok(Verdict::Matches));
        assert_eq!(check_quote(&log, &quote, bank), Err(Fault::Attest));
        nonce.push(0);
        let verdict = check(&log, &quote, &Expected::new(Nonce::Is(&nonce), required, bank)).unwrap();
        assert_eq!(verdict.to_string(), "nonce differs");
    }
}

#[test]
fn another_signer_and_a_size_before_a_quote() {
    let (log, quote) = (read("quotes/17-ovmf-secureboot.log"), read("quotes/ecc-sha256.msg"));
    let mut expected = Expected::new(Nonce::Any, Required::Any, Bank::Sha256);
    // The signer is behind the magic, the type and its size.
    expected.signer = Some(&quote[8..42]);
    assert_eq!(check(&log, &quote, &expected), Ok(Verdict::Matches));
    expected.signer = Some(&[]);
    assert_eq!(check(&log, &quote, &expected), Ok(Verdict::Signer));
    let mut sized = (quote.len() as u16).to_be_bytes().to_vec();
    sized.extend(&quote);
    assert_eq!(Attest::decode(&sized).err(), Some(Fault::Sized));
    assert_eq!(check(&log, &sized, &expected), Err(Fault::Sized));
    sized[1] ^= 1;
    assert_eq!(Attest::decode(&sized).err(), Some(Fault::Refused(Refusal { code: 0x84, at: 0 })));
}

#[test]
fn what_is_vouched_of_each_record() {
    let (log, quote) = (read("quotes/17-ovmf-secureboot.log"), read("quotes/ecc-sha256.msg"));
    let attest = Attest::decode(&quote).unwrap();
    for event in events(&log).map(Result::unwrap) {
        for bank in Bank::ALL {
            let selected = bank == Bank::Sha256 && event.register < 8 && event.kind != 3;
            assert_eq!(event.vouched(&attest, bank), event.measured(bank).filter(|_| selected));
        }
    }
}

#[test]
fn a_list_of_digests() {
    let (log, quote) = (read("quotes/17-ovmf-secureboot.log"), read("quotes/ecc-sha256.msg"));
    let mut lines = String::from("# a boot\n\n");
    let records: Vec<_> = events(&log).map(Result::unwrap).filter(|it| it.kind != 3 && it.register < 8).collect();
    let hex = |bytes: &[u8]| bytes.iter().map(|it| format!("{it:02x}")).collect::<String>();
    let digest = |at: usize| hex(records[at].digests.iter().find(|it| it.hash == Bank::Sha256 as u16).unwrap().bytes);
    for (at, it) in records.iter().enumerate() {
        writeln!(lines, "sha256 {} {} words # a comment", it.register, digest(at)).unwrap();
    }
    let said = |text: &str| {
        let allowed: Vec<_> = allowed_digests(text).map(Result::unwrap).collect();
        let mut expected = Expected::new(Nonce::Any, Required::Any, Bank::Sha256);
        expected.allow = Some(&allowed);
        check(&log, &quote, &expected).unwrap()
    };
    let zeros = "0".repeat(64);
    assert_eq!(said(&lines), Verdict::Matches);
    let unknown = Verdict::Unknown(Bank::Sha256, records[0].register, records[0].at);
    assert_eq!(said(&lines.replace(&digest(0), &zeros)), unknown);
    assert_eq!(said(&format!("sha256 9 {zeros}")), Verdict::Lacks(Bank::Sha256, 9));
    // The first by bank and register, whatever the list's order.
    let (short, long) = (&zeros[..40], "0".repeat(96));
    let lines = format!("sha384 0 {long}\nsha256 9 {zeros}\nsha1 23 {short}\nsha256 8 {zeros}\nsha1 3 {short}");
    assert_eq!(said(&lines), Verdict::Lacks(Bank::Sha1, 3));
}

#[test]
fn a_list_without_a_digest() {
    let (log, quote) = (read("quotes/17-ovmf-secureboot.log"), read("quotes/ecc-sha256.msg"));
    let expected = Expected::new(Nonce::Any, Required::Any, Bank::Sha256);
    assert_eq!(check(&log, &quote, &expected), Ok(Verdict::Matches));
    for text in ["", "# none", "  \n#", "\n\n", &format!("# sha256 0 {}", "0".repeat(64))] {
        assert_eq!(allowed_digests(text).count(), 0);
        assert_eq!(check(&log, &quote, &Expected { allow: Some(&[]), ..expected }), Err(Fault::Nothing));
    }
}

// As the proved reader takes it: checks/check.txt has the same lines.
#[test]
fn how_a_list_is_spelled() {
    let line = &format!("sha256 4 {}", "0a".repeat(32));
    let mut digest = [0; 48];
    digest[..32].fill(10);
    let wanted = AllowedDigest { register: 4, bank: Bank::Sha256, digest };
    let many = " ".repeat(100_000);
    for text in [
        line.clone(), format!("sha256 4 {}", "0A".repeat(32)), format!("{line}#"), format!("{line} "),
        format!("{line} words"), format!("{line} \r"), format!("{line} \t"), format!("{line}  # words"),
        format!("{line}\n"), format!("\n\n{line}"), format!("   \n{line}"), format!("  # words\n{line}"),
        format!("#{many}\n{line}"), format!("{line}{many}"),
    ] {
        assert_eq!(allowed_digests(&text).collect::<Vec<_>>(), [Ok(wanted)]);
    }
    // What stands in a comment needn't be text.
    for (words, wanted) in [(&b" # \xff\n"[..], Ok(wanted)), (b" \xff\n", Ok(wanted)), (b"\xff\n", Err(1))] {
        assert_eq!(allowed_digests(&[line.as_bytes(), words].concat()).collect::<Vec<_>>(), [wanted]);
    }
    for between in ['\x0c', '\x0b', '\r', '\x1c', '\x1d', '\x1e', '\u{85}', '\u{2028}', '\u{2029}', '\t', ' '] {
        let text = format!("# words{between}{line}\n{line}");
        assert_eq!(allowed_digests(&text).collect::<Vec<_>>(), [Ok(wanted)]);
    }
    let zeros = "0".repeat(64);
    for text in [
        "sha256 4".into(), "md5 4 00".into(), "sha256 4 0g".into(), format!("sha256 24 {zeros}"),
        format!("sha256 4 {}g", &zeros[1..]), format!("sha256 4 {}", &zeros[2..]), format!("{line}0"),
        format!("{line}00"), format!(" {line}"), line.replacen(' ', "  ", 1), line.replace(" 4 ", " 4  "),
        line.replace(' ', "\t"), format!("{line}\t"), format!("{line}\r"), "\r".into(), "\t".into(), "\x0c".into(),
        line.replace('4', "04"), line.replace('4', "+4"), line.replace('4', "-4"), line.replace('4', "\u{664}"),
        line.replace('4', "100"), line.replacen("0a", "\u{660}a", 1), line.to_uppercase(),
        format!("sha512 4 {zeros}{zeros}"), line.replace(" 0a", " #0a"), format!("{line}\0"), format!("\u{feff}{line}"),
    ] {
        let read: Vec<_> = allowed_digests(&format!("# a list\n{line}\n{text}")).collect();
        assert_eq!(read, [Ok(wanted), Err(3)], "{text}");
    }
}

// A text where its data were measured, or what is behind a prefix; a variable where all of it was.
#[test]
fn texts_and_variables_that_are_vouched() {
    let quote = read("quotes/ecc-sha256.msg");
    let attest = Attest::decode(&quote).unwrap();
    let mut count = (0, 0);
    for (log, bank) in [("logs/measured.log", Bank::Sha256), ("quotes/17-ovmf-secureboot.log", Bank::Sha256)] {
        for it in events(&read(log)).map(Result::unwrap) {
            let part = it.vouched(&attest, bank);
            let text: Option<String> = it.vouched_text(&attest, bank).map(|it| it.chars().collect());
            let whole: Option<String> = it.text().map(|it| it.chars().collect());
            match part {
                Some(MeasuredPart::Data) => assert_eq!(text, whole),
                Some(MeasuredPart::Text) => assert_eq!(text.as_deref(), whole.unwrap().split_once(' ').map(|it| it.1)),
                _ => assert_eq!(text, None),
            }
            let found = it.vouched_variable(&attest, bank);
            match part {
                Some(MeasuredPart::Data) => assert_eq!(found, it.variable()),
                Some(MeasuredPart::Cut) => assert!(found.is_none() || it.variable().is_none()),
                _ => assert_eq!(found, None),
            }
            assert_eq!(it.vouched_text(&attest, Bank::Sha1), None);
            count.0 += usize::from(it.vouched_text(&attest, bank).is_some());
            count.1 += usize::from(found.is_some());
        }
    }
    assert!(count.0 > 0 && count.1 > 0);
}

#[test]
fn signatures_by_their_parts() {
    let rsa = |scheme: u8| [&[0, scheme, 0, 0xb, 0, 3][..], b"sig"].concat();
    assert_eq!(Signature::decode(&rsa(0x14)), Ok(Signature::RsaSsa(Bank::Sha256, b"sig")));
    assert_eq!(Signature::decode(&rsa(0x16)), Ok(Signature::RsaPss(Bank::Sha256, b"sig")));
    let ecdsa = [0, 0x18, 0, 4, 0, 2, 1, 2, 0, 1, 3];
    assert_eq!(Signature::decode(&ecdsa), Ok(Signature::Ecdsa(Bank::Sha1, &[1, 2], &[3])));
    for (bytes, code, at) in [(&rsa(0x1a)[..], 0x92, 0), (&rsa(0x14)[..8], 0x9a, 6), (&ecdsa[..10], 0x9a, 10)] {
        assert_eq!(Signature::decode(bytes), Err(Fault::Refused(Refusal { code, at })));
    }
}

#[test]
fn names_of_codes() {
    for (code, name) in [
        (0, "TPM_RC_SUCCESS"),
        (0x921, "TPM_RC_LOCKOUT"),
        (0x9a2, "TPM_RC_BAD_AUTH for session 1"),
        (0x1c4, "TPM_RC_VALUE for parameter 1"),
        (0xfe1, "TPM_RC_RESERVED_BITS for parameter 15"),
        (0x184, "TPM_RC_VALUE for handle 1"),
    ] {
        assert_eq!(CodeName::of(code).unwrap().as_str(), name);
    }
    assert_eq!(CodeName::of(0x1084), None);
}

#[test]
fn images_of_a_log() {
    let log = read("quotes/17-ovmf-secureboot.log");
    let images: Vec<_> = events(&log).filter_map(|it| it.unwrap().image()).collect();
    assert!(!images.is_empty());
    for it in images {
        let size: usize = it.nodes().map(|it| 4 + it.data.len()).sum();
        assert_eq!(size, it.path.len());
        assert!(it.size > 0);
    }
    let mut files = Vec::new();
    for it in events(&read("logs/images.log")).map(Result::unwrap) {
        files.extend(it.image().map(|it| it.file_chars().collect::<String>()));
    }
    assert!(files.iter().any(|it| it == "\\EFI\\BOOT\\BOOTX64.EFI"), "{files:?}");
}

// A line of these lists has of each record what each digest is of, as `"measured":{"sha256":"data"}`.
#[test]
fn contents_of_a_log() {
    let log = read("logs/secure_on.log");
    let mut secure_boot = None;
    for event in events(&log).flatten() {
        match event.content() {
            Some(Content::Variable(it, Held::Byte(byte))) if it.name_chars().eq("SecureBoot".chars()) => {
                secure_boot = Some(byte)
            }
            _ => {}
        }
    }
    assert_eq!(secure_boot, Some(1));
    let signatures = read("logs/secure_signatures.log");
    let lists = events(&signatures).flatten().filter_map(|it| match it.content() {
        Some(Content::Variable(_, Held::Signatures(lists))) => Some(lists.iter().count()),
        _ => None,
    });
    assert_eq!(lists.sum::<usize>(), 7);
    let log = read("logs/partitions.log");
    let first = events(&log).next().unwrap().unwrap();
    let Some(Content::Partitions(it)) = first.content() else { panic!("no partitions") };
    let told: Vec<_> = it.iter().map(|it| (it.first, it.last, it.name_chars().collect::<String>())).collect();
    assert_eq!(told, [(2048, 1050623, "EFI System".into()), (1050624, 4194270, "root".into())]);
    assert_eq!(Event { kind: 4, data: &[1, 0, 0, 0], ..first }.content(), Some(Content::Separator(1)));
    assert_eq!(Event { kind: 4, data: &[], ..first }.content(), None);
}

#[test]
fn what_was_measured_of_each_log_with_a_list() {
    let logs = format!("{}/../../checks/logs", env!("CARGO_MANIFEST_DIR"));
    let mut count = 0;
    for list in fs::read_dir(logs).unwrap().map(|it| it.unwrap().path()) {
        let log = list.with_extension("log");
        if !list.extension().is_some_and(|it| it == "json") || !log.exists() {
            continue;
        }
        let (log, lines) = (fs::read(log).unwrap(), fs::read_to_string(&list).unwrap());
        for (it, line) in events(&log).map_while(Result::ok).zip(lines.lines().filter(|it| it.contains("measured"))) {
            assert_eq!(it.json(&mut vec![0; line.len()]), Ok(line));
            assert_eq!(it.json(&mut vec![0; line.len() - 1]), Err(Fault::Length));
            for bank in Bank::ALL {
                let told = it.measured(bank).map_or(String::new(), |it| format!("\"{bank}\":\"{it}\""));
                assert!(line.contains(&told), "{line}");
                count += usize::from(!told.is_empty());
            }
        }
    }
    assert!(count > 0);
}

#[test]
fn nothing_compared_is_no_success() {
    let (no_entry, no_register) = ([0; 4], unhex("00000001000b03000000"));
    for line in String::from_utf8(read("quotes/cases.txt")).unwrap().lines() {
        let [quote, log, hash, nonce, selected] = line.split(' ').collect::<Vec<_>>()[..] else { panic!("{line}") };
        let (quote, log) = (read(&format!("quotes/{quote}.msg")), read(&format!("quotes/{log}")));
        let (nonce, require) = (unhex(nonce), Selection::of(selected).unwrap());
        let bank = Bank::ALL.into_iter().find(|it| it.name() == hash).unwrap();
        let (sent, required) = (Nonce::Is(&nonce), Required::Registers(require.as_bytes()));
        for listed in [&[][..], &no_entry, &no_register] {
            let expected = Expected::new(sent, Required::Registers(listed), bank);
            assert_eq!(check(&log, &quote, &expected), Err(Fault::Nothing));
        }
        assert_eq!(check(&log, &quote, &Expected::new(Nonce::Is(&[]), required, bank)), Err(Fault::Nothing));
        assert_eq!(check(&log, &quote, &Expected::new(Nonce::Any, required, bank)), Ok(Verdict::Matches));
        assert_eq!(check(&log, &quote, &Expected::new(sent, Required::Any, bank)), Ok(Verdict::Matches));
    }
    // The digest of no register is SHA-256 of no bytes.
    let empty = unhex("000000000020e3b0c44298fc1c149afbf4c8996fb92427ae41e4649b934ca495991b7852b855");
    assert_eq!(check_quote(&read("logs/worked.log"), &empty, Bank::Sha256), Ok(Verdict::Empty));
}

#[test]
fn lists_of_registers() {
    let spelled = unhex("00000003000403020000000b03810000000c03000000");
    assert_eq!(Selection::of("sha256:0,7+sha1:1").unwrap().as_bytes(), spelled);
    for text in ["", "sha256", "sha256:", "sha256:24", "sha256:+1", "md5:0", "sha256:0+", "sha256:0,"] {
        assert_eq!(Selection::of(text), None, "{text}");
    }
}

// As in examples/policy.c: the digests are those of Python's hashlib.
#[test]
fn digest_of_a_policy() {
    let selected = unhex("00000001000b03810000");
    let composite = unhex("f5a5fd42d16a20302798ef6ed309979b43003d2320d9f0e8ea9831a92759fb4b");
    let (mut policy, mut known) = (Policy::new(Bank::Sha256), Policy::new(Bank::Sha256));
    policy.pcr(&selected, &composite).unwrap();
    policy.command_code(0x134);
    known.auth_value();
    let list = [&[0, 0, 0, 2, 0, 32], policy.digest(), &[0, 32], known.digest()].concat();
    policy.or(&list).unwrap();
    assert_eq!(policy.to_string(), "sha256 0cbc8809e81cb16ff30999fbee7e2683f52d23fb11af4cc3636eca86dfb154cf");
    let before = policy.to_string();
    assert!(matches!(policy.or(&list[..39]), Err(Fault::Refused(_))));
    assert_eq!(policy.pcr(&selected, &composite[1..]), Err(Fault::Length));
    assert_eq!(policy.to_string(), before);
    policy.restart();
    assert_eq!(policy.digest(), [0; 32]);
}

fn starts_once<P: vinjakwe::Place>(mut device: Device<P>) {
    let (startup, mut out) = (unhex("80010000000c000001440000"), [0; BUFFER_BYTES]);
    assert_eq!(device.execute(&startup, &[0; NONCE_BYTES], &mut out), unhex("80010000000a00000000"));
    assert_eq!(device.execute(&startup, &[1; NONCE_BYTES], &mut out), unhex("80010000000a00000100"));
    device.power_cycle();
    assert_eq!(device.execute(&startup, &[2; NONCE_BYTES], &mut out), unhex("80010000000a00000000"));
}

#[test]
fn a_device_is_made_again_of_what_it_kept() {
    let (mut room, mut second, mut out) = (Room::new(), Room::new(), [0; BUFFER_BYTES]);
    let mut device = Device::new(&mut room, b"owner", 40).unwrap();
    for (command, changes) in [
        ("80010000000c000001440000", false),
        (
            "8002000000330000012a400000010000000e4000000900000000056f776e6572000161000e01800001000b0202001200000008",
            true,
        ),
        ("8002000000240000013440000001018000010000000e4000000900000000056f776e6572", true),
        ("80010000002b0000017640000007400000070010000000000000000000000000000000000000010010000b", false),
    ] {
        let reply = device.execute(&unhex(command), &[7; NONCE_BYTES], &mut out);
        assert_eq!((&reply[6..10], changes_nv(&unhex(command), reply)), (&[0; 4][..], changes));
    }
    let (mut kept, mut again) = ([0; DEVICE_KEPT_BYTES], [0; DEVICE_KEPT_BYTES]);
    let kept = device.keep(&mut kept);
    assert_eq!(device.session_hash(0x0300_0000), Some(Bank::Sha256));
    let mut other = Device::restore(&mut second, b"owner", kept).unwrap();
    assert_eq!((other.greatest(), other.session_hash(0x0300_0000)), (41, None));
    let counter = other.counter(0).unwrap();
    assert_eq!((counter.index, counter.hash, counter.attributes), (0x0180_0001, 0x000B, 0x2202_0012));
    assert_eq!((counter.policy(), counter.has_auth, counter.value), (&[][..], true, Some(41)));
    assert!(other.counter(1).is_none());
    assert_eq!(other.keep(&mut again), kept);
    for (owner, bytes) in [(&[0; 49][..], kept), (b"owner", &kept[1..]), (b"owner", &[])] {
        assert!(matches!(Device::restore(&mut Room::new(), owner, bytes), Err(Fault::Refused(_))));
    }
    #[cfg(feature = "alloc")]
    assert_eq!(Device::restore_boxed(b"owner", kept).unwrap().greatest(), 41);
}

#[test]
fn a_device_starts_once() {
    starts_once(Device::new(&mut Room::new(), b"", 0).unwrap());
    #[cfg(feature = "alloc")]
    starts_once(Device::boxed(b"", 0).unwrap());
}

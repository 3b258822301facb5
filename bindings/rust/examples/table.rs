//! Answers the lines of the table in checks/bindings.sh by the crate, as the other bindings do.
use std::collections::BTreeMap;
use std::fs::File;
use std::io::{stdin, stdout, BufRead, BufWriter, Read, Write};
use vinjakwe::*;

fn unhex(text: &str) -> Vec<u8> {
    let digits = text.trim_start_matches('-').as_bytes();
    digits.chunks(2).map(|it| u8::from_str_radix(std::str::from_utf8(it).unwrap(), 16).unwrap()).collect()
}

fn text(bytes: &[u8]) -> String {
    if bytes.is_empty() { "-".into() } else { hex(bytes) }
}

fn hex(bytes: &[u8]) -> String {
    bytes.iter().map(|it| format!("{it:02x}")).collect()
}

fn bank(name: &str) -> Bank {
    match name {
        "sha1" => Bank::Sha1,
        "sha256" => Bank::Sha256,
        _ => Bank::Sha384,
    }
}

fn command(out: &mut impl Write, names: &BTreeMap<u32, String>, bytes: &[u8]) -> std::io::Result<()> {
    let it = match Command::decode(bytes) {
        Ok(it) => it,
        Err(fault) => return writeln!(out, "{fault}"),
    };
    writeln!(out, "command {} size {}", names[&it.code], it.size)?;
    for (i, handle) in it.handles.iter().enumerate() {
        writeln!(out, "handle {} {handle:08x}", i + 1)?;
    }
    for (i, s) in it.sessions.iter().enumerate() {
        writeln!(out, "session {} {:08x} nonce {} attributes {:02x} hmac {}", i + 1, s.handle, text(s.nonce),
            s.attributes, text(s.hmac))?;
    }
    writeln!(out, "parameters {}", text(it.parameters))
}

fn reply(out: &mut impl Write, name: &str, code: u32, bytes: &[u8]) -> std::io::Result<()> {
    let it = match Response::decode(code, bytes) {
        Ok(it) => it,
        Err(fault) => return writeln!(out, "{fault}"),
    };
    if it.code != 0 {
        return writeln!(out, "reply code {:03x}", it.code);
    }
    writeln!(out, "reply {name} size {}", bytes.len())?;
    if let Some(handle) = it.handle {
        writeln!(out, "handle 1 {handle:08x}")?;
    }
    writeln!(out, "parameters {}", text(it.parameters))?;
    for (i, s) in it.sessions.iter().enumerate() {
        writeln!(out, "session {} nonce {} attributes {:02x} hmac {}", i + 1, text(s.nonce), s.attributes,
            text(s.hmac))?;
    }
    Ok(())
}

fn registers(out: &mut impl Write, found: Result<Registers, Fault>) -> std::io::Result<()> {
    let found = match found {
        Ok(found) => found,
        Err(fault) => return writeln!(out, "{fault}"),
    };
    for name in ["sha1", "sha256", "sha384"] {
        for i in 0..24 {
            writeln!(out, "{name} {i} {}", hex(found.value(bank(name), i).unwrap()))?;
        }
    }
    Ok(())
}

fn tell_events(out: &mut impl Write, log: &[u8]) -> std::io::Result<()> {
    for found in events(log) {
        let it = match found {
            Ok(it) => it,
            Err(fault) => return writeln!(out, "{fault}"),
        };
        write!(out, "{} {:08x} {}", it.register, it.kind, text(it.data))?;
        for digest in it.digests.iter() {
            write!(out, " {:04x}:{}{}", digest.hash, text(digest.bytes), if digest.hashed { "*" } else { "" })?;
        }
        writeln!(out)?;
    }
    Ok(())
}

// Each record's register, and of each bank what the quote vouches for.
fn tell_vouched(out: &mut impl Write, log: &[u8], attest: &Attest) -> std::io::Result<()> {
    for it in events(log).map_while(Result::ok) {
        write!(out, "{}", it.register)?;
        for bank in Bank::ALL {
            match it.vouched(attest, bank) {
                Some(MeasuredPart::Other) => write!(out, " {bank}:digest")?,
                Some(part) => write!(out, " {bank}:{part}")?,
                None => {}
            }
        }
        writeln!(out)?;
    }
    Ok(())
}

// UTF-16, with U+FFFD for half of a pair.
fn wide(chars: impl Iterator<Item = char>) -> String {
    let units = chars.collect::<String>().encode_utf16().collect::<Vec<_>>();
    text(&units.iter().flat_map(|it| it.to_le_bytes()).collect::<Vec<_>>())
}

// The nodes of a device path, and its text.
fn nodes(path: &[u8]) -> String {
    let told: Vec<String> = path_nodes(path).map(|it| format!("{}:{}:{}", it.kind, it.subtype, hex(it.data))).collect();
    let told = if told.is_empty() { "-".into() } else { told.join(",") };
    let mut room = vec![0; 2 + 16 * path.len()];
    format!("{told} {}", text(PathText::of(path, &mut room).unwrap().to_string().as_bytes()))
}

fn owned(it: Owned) -> String {
    format!("owned {} {}", text(it.owner), text(it.data))
}

fn held_lines(it: Held) -> Vec<String> {
    match it {
        Held::LoadOption(it) => {
            let first = format!("option {} {} {}", it.attributes, wide(it.description_chars()), text(it.data));
            let paths = it.paths().map(|it| format!("path {}", nodes(it)));
            std::iter::once(first).chain(paths).collect()
        }
        Held::BootOrder(it) => {
            let numbers = it.iter().map(|it| format!(" {it}"));
            vec![std::iter::once("order".to_string()).chain(numbers).collect()]
        }
        Held::Signatures(it) => it.iter().flat_map(|it| {
            let first = format!("list {} {}", text(it.kind), text(it.header));
            std::iter::once(first).chain(it.iter().map(owned)).collect::<Vec<_>>()
        }).collect(),
        Held::Signature(it) => vec![owned(it)],
        Held::Byte(it) => vec![format!("byte {it}")],
        Held::Bytes(_) => vec![],
    }
}

fn content_lines(it: Content) -> Vec<String> {
    match it {
        Content::Variable(it, holds) => {
            let first = format!("variable {} {} {}", text(it.guid), wide(it.name_chars()), text(it.value));
            std::iter::once(first).chain(held_lines(holds)).collect()
        }
        Content::Text(it) => vec![format!("text {}", hex(it.chars().collect::<String>().as_bytes()))],
        Content::Version(it) => vec![format!("version {}", wide(it.chars()))],
        Content::VersionGuid(it) => vec![format!("version-guid {}", text(it))],
        Content::Separator(it) => vec![format!("separator {it}")],
        Content::Locality(it) => vec![format!("locality {it}")],
        Content::Image(it) => {
            vec![format!("image {} {} {} {}", it.address, it.size, it.link_address, nodes(it.path))]
        }
        Content::Firmware(it) => vec![format!("firmware {} {} {}", it.base, it.size, text(it.name))],
        Content::Tables(it) => {
            let tables = it.iter().map(|it| format!("table {} {}", text(it.guid), it.address));
            std::iter::once(format!("tables {}", text(it.name))).chain(tables).collect()
        }
        Content::Tag(id, data) => vec![format!("tag {id} {}", text(data))],
        Content::Partitions(it) => {
            let partitions = it.iter().map(|it| {
                let (kind, guid, name) = (text(it.kind), text(it.guid), wide(it.name_chars()));
                format!("partition {kind} {guid} {} {} {} {name}", it.first, it.last, it.attributes)
            });
            std::iter::once(format!("partitions {}", text(it.disk))).chain(partitions).collect()
        }
        Content::Measurement(it) => {
            vec![format!("measurement {} {} {} {}", it.hash, it.device_type, text(it.block), text(it.context))]
        }
        Content::Evidence(it) => {
            let (state, kind, sub_kind, uid) = (it.auth_state, it.device_type, it.sub_header_type, it.uid);
            let (path, sub, context) = (nodes(it.path), text(it.sub_header), text(it.context));
            vec![format!("evidence {state} {kind} {sub_kind} {uid} {path} {sub} {context}")]
        }
    }
}

fn tell_contents(out: &mut impl Write, log: &[u8]) -> std::io::Result<()> {
    for it in events(log).flatten() {
        for line in it.content().map_or(vec![], content_lines) {
            writeln!(out, "{} {line}", it.number)?;
        }
    }
    Ok(())
}

fn tell_objects(out: &mut impl Write, log: &[u8]) -> std::io::Result<()> {
    for it in events(log).flatten() {
        let mut room = vec![0; 4096 + 16 * it.data.len()];
        writeln!(out, "{}", it.json(&mut room).unwrap())?;
    }
    Ok(())
}

// Each record by the name of its type, with its text as JSON escapes it.
fn tell_texts(out: &mut impl Write, log: &[u8]) -> std::io::Result<()> {
    for found in events(log) {
        let it = match found {
            Ok(it) => it,
            Err(fault) => return writeln!(out, "{fault}"),
        };
        write!(out, "{} {}", it.register, it.type_name().map_or(format!("{:08x}", it.kind), |it| it.to_string()))?;
        if let Some(said) = it.text() {
            write!(out, " text ")?;
            for unit in said.chars().collect::<String>().encode_utf16() {
                match unit {
                    0x22 | 0x5c => write!(out, "\\{}", unit as u8 as char)?,
                    0x20..=0x7e => write!(out, "{}", unit as u8 as char)?,
                    _ => write!(out, "\\u{unit:04x}")?,
                }
            }
        }
        writeln!(out)?;
    }
    Ok(())
}

fn tell_boot(out: &mut impl Write, log: &[u8], name: &str) -> std::io::Result<()> {
    let mut room = vec![0; 2];
    if let Err(Fault::Room(count)) = secure_boot(log, bank(name), &mut room) {
        room = vec![0; count];
    }
    let it = match secure_boot(log, bank(name), &mut room) {
        Ok(it) => it,
        Err(Fault::SecureBoot(fault)) => {
            return writeln!(out, "secure-boot {name} unknown {} at {}", fault.kind, fault.at);
        }
        Err(fault) => return writeln!(out, "{fault}"),
    };
    writeln!(out, "secure-boot {name} {}", it.state)?;
    if it.dma_protection_disabled {
        writeln!(out, "dma-protection disabled")?;
    }
    for (name, at) in [("PK", it.pk), ("KEK", it.kek), ("db", it.db), ("dbx", it.dbx)] {
        if let Some(at) = at {
            writeln!(out, "{name} at {at}")?;
        }
    }
    it.authorities.iter().try_for_each(|at| writeln!(out, "authority at {at}"))
}

fn pieces(name: &str) -> Result<Registers, Fault> {
    let (mut room, mut file, mut piece) = (Room::new(), File::open(name).unwrap(), [0; 1000]);
    let mut replay = Replay::new(&mut room).unwrap();
    loop {
        match file.read(&mut piece).unwrap() {
            0 => return replay.end(),
            count => replay.feed(&piece[..count])?,
        }
    }
}

fn frames(out: &mut impl Write, size: usize, stream: &[u8]) -> std::io::Result<()> {
    let (mut room, mut frame, mut inside) = (Room::new(), [0; BUFFER_BYTES], false);
    let mut framer = Framer::new(&mut room).unwrap();
    for mut piece in stream.chunks(size) {
        while !piece.is_empty() {
            match framer.push(piece) {
                Ok((taken, ready)) => {
                    piece = &piece[taken..];
                    inside = !ready;
                    if let Some(frame) = framer.take(&mut frame) {
                        writeln!(out, "frame {}", hex(frame))?;
                    }
                }
                Err(fault) => return writeln!(out, "{fault}"),
            }
        }
    }
    if inside { writeln!(out, "inside") } else { Ok(()) }
}

// What is said of a quote: attest LOG ATTEST NONCE REQUIRED HASH [LIST].
fn attest(out: &mut impl Write, words: &[&str]) -> std::io::Result<()> {
    let (nonce, required) = (unhex(words[3].trim_start_matches("any")), unhex(words[4].trim_start_matches("any")));
    let nonce = if words[3] == "any" { Nonce::Any } else { Nonce::Is(&nonce) };
    let required = if words[4] == "any" { Required::Any } else { Required::Registers(&required) };
    let mut expected = Expected::new(nonce, required, bank(words[5]));
    let list = if words[6].is_empty() { None } else { Some(std::fs::read(words[6])?) };
    let allowed: Result<Option<Vec<_>>, usize> = list.map(|it| allowed_digests(&it).collect()).transpose();
    let allowed = match allowed {
        Ok(allowed) => allowed,
        Err(line) => return writeln!(out, "no list at line {line}"),
    };
    expected.allow = allowed.as_deref();
    match check(&std::fs::read(words[1])?, &unhex(words[2]), &expected) {
        Ok(verdict) => writeln!(out, "{verdict}"),
        Err(Fault::Nothing) => writeln!(out, "nothing to compare"),
        Err(Fault::Requirement(_)) => writeln!(out, "requirement refused"),
        Err(fault) => writeln!(out, "{fault}"),
    }
}

// What a caller does: start COMMAND REPLY BIND_AUTH, seal COMMAND FIRST SECOND AUTH NONCE keep|last, open REPLY, or
// give-up REPLY.
fn session<P: Place>(out: &mut impl Write, caller: &mut Caller<P>, words: &[&str]) -> std::io::Result<()> {
    let given: Vec<Vec<u8>> = words[1..6].iter().map(|it| unhex(it)).collect();
    let (done, word) = match words[0] {
        "start" => (caller.start(&given[0], &given[1], &given[2]), "started"),
        "open" => (caller.open(&given[0]), "opened"),
        "give-up" => (caller.give_up(&given[0]), "given up"),
        _ => {
            let (names, keep, mut sealed) = ([&given[1][..], &given[2]], words[6] == "keep", [0; BUFFER_BYTES]);
            return match caller.seal(&given[0], names, &given[3], &given[4], keep, &mut sealed) {
                Ok(sealed) => writeln!(out, "{}", hex(sealed)),
                Err(_) => writeln!(out, "not sealed"),
            };
        }
    };
    writeln!(out, "{}{word}", if done.is_ok() { "" } else { "not " })
}

fn room() -> &'static mut Room {
    Box::leak(Box::new(Room::new()))
}

fn main() -> std::io::Result<()> {
    check_version().unwrap();
    let mut names = BTreeMap::new();
    let mut numbers = BTreeMap::new();
    for line in std::env::args().skip(1) {
        let (name, number) = line.split_once('=').unwrap();
        names.insert(number.parse().unwrap(), name.to_string());
        numbers.insert(name.to_string(), number.parse::<u32>().unwrap());
    }
    let out = &mut BufWriter::new(stdout());
    let (mut device, mut caller, mut number) = (None, None, 0u64);
    for line in stdin().lock().lines() {
        let line = line?;
        let mut words: Vec<&str> = line.split_whitespace().collect();
        words.resize(8, "");
        let code = |name| numbers.get(name).copied().unwrap_or(0);
        match words[0] {
            "command" => command(out, &names, &unhex(words[1]))?,
            "reply" => reply(out, words[1], code(words[1]), &unhex(words[2]))?,
            "build" => {
                let mut built = [0; BUFFER_BYTES];
                match build_command(code(words[1]), &unhex(words[2]), &unhex(words[3]), &unhex(words[4]), &mut built) {
                    Ok(built) => writeln!(out, "{}", hex(built))?,
                    Err(fault) => writeln!(out, "{fault}")?,
                }
            }
            "log" => registers(out, replay(&std::fs::read(words[1])?))?,
            "pieces" => registers(out, pieces(words[1]))?,
            "events" => tell_events(out, &std::fs::read(words[1])?)?,
            "texts" => tell_texts(out, &std::fs::read(words[1])?)?,
            "contents" => tell_contents(out, &std::fs::read(words[1])?)?,
            "objects" => tell_objects(out, &std::fs::read(words[1])?)?,
            "boot" => tell_boot(out, &std::fs::read(words[1])?, words[2])?,
            "quote" => match check_quote(&std::fs::read(words[1])?, &unhex(words[2]), bank(words[3])) {
                Ok(verdict) => writeln!(out, "quote {}", verdict.to_string().trim_start_matches("digest "))?,
                Err(fault) => writeln!(out, "{fault}")?,
            },
            "vouched" => {
                tell_vouched(out, &std::fs::read(words[1])?, &Attest::decode(&unhex(words[2])).unwrap())?
            }
            "attest" => attest(out, &words)?,
            "frames" => frames(out, words[1].parse().unwrap(), &unhex(words[2]))?,
            "device" => {
                device = Some(Device::new(room(), &unhex(words[1]), 0).unwrap());
                caller = Some(Caller::new(room()).unwrap());
                number = 0;
            }
            "start" | "seal" | "open" | "give-up" => session(out, caller.as_mut().unwrap(), &words)?,
            "power" => {
                device.as_mut().unwrap().power_cycle();
                writeln!(out, "power")?;
            }
            "execute" => {
                number += 1;
                let (mut nonce, mut response) = ([0; NONCE_BYTES], [0; BUFFER_BYTES]);
                for group in nonce.chunks_mut(16) {
                    group[8..].copy_from_slice(&number.to_be_bytes());
                }
                writeln!(out, "{}", hex(device.as_mut().unwrap().execute(&unhex(words[1]), &nonce, &mut response)))?;
            }
            "code" => {
                let code = u32::from_str_radix(words[1], 16).unwrap();
                writeln!(out, "{}", CodeName::of(code).map_or(format!("{code:#x}"), |it| it.to_string()))?;
            }
            "zeros" => {
                let mut zeros = vec![0; words[1].parse().unwrap()];
                let first = unhex(words[2]);
                zeros[..first.len()].copy_from_slice(&first);
                command(out, &names, &zeros)?;
                registers(out, replay(&zeros))?;
            }
            _ => {}
        }
    }
    out.flush()
}

// SPDX-License-Identifier: Apache-2.0
//! Records in words, packed into a feed by the library's writer.
//!
//!     cargo run --example pack -- WORDS > FEED       # '-' is standard input
//!
//! A line is `NUMBER OPERATION NAME=VALUE ..`; `#` starts a comment. Numbers are decimal.
//!
//! - `insert`: `id scope covers subject expires [exclusive principal metadata parent]`
//! - `insert_vehicle`: the same, and `children=ID,ID`
//! - `renew`: `id expires now [metadata]`
//! - `delete`, `acknowledge`: `id`
//! - `begin_expiration`: `id now`
//! - `replace`: as `insert`, and `by at roots=ID,ID`
//! - `expire_defunct`: `now`
//!
//! `scope` is `vehicle`, `ecu:N` or `group:N`; `covers` is `vehicle`, ECU numbers with commas, or
//! `none`; a list of ids may be empty. `cut=N` keeps the record's first N bytes. Nothing is written
//! where a line can't be read: each such line is named on standard error, and the status is 1.

use std::{
    collections::BTreeMap,
    env, fs,
    io::{self, Read as _, Write as _},
    process::ExitCode,
    str::{self, FromStr},
};

use cablegorse::{Active, Coverage, Lock, LockId, Operation, Scope};

fn main() -> ExitCode {
    let [words] = &env::args().skip(1).collect::<Vec<_>>()[..] else {
        eprintln!("usage: pack WORDS ('-': standard input)");
        return ExitCode::from(2);
    };
    let text = match read(words) {
        Ok(text) => text,
        Err(error) => {
            eprintln!("pack: {words}: {error}");
            return ExitCode::from(2);
        }
    };
    match feed(&text) {
        Ok(feed) => match io::stdout().write_all(&feed) {
            Ok(()) => ExitCode::SUCCESS,
            Err(error) => {
                eprintln!("pack: {error}");
                ExitCode::FAILURE
            }
        },
        Err(lines) => {
            eprint!("{lines}");
            ExitCode::FAILURE
        }
    }
}

fn read(path: &str) -> io::Result<Vec<u8>> {
    if path != "-" {
        return fs::read(path);
    }
    let mut text = Vec::new();
    io::stdin().read_to_end(&mut text)?;
    Ok(text)
}

/// The records of all lines; or what is wrong, a line of text for each that can't be read.
fn feed(text: &[u8]) -> Result<Vec<u8>, String> {
    let (mut feed, mut wrong) = (Vec::new(), String::new());
    for (line, bytes) in text.split(|byte| *byte == b'\n').enumerate() {
        match record(bytes) {
            Ok(record) => feed.extend(record),
            Err(what) => wrong += &format!("line {}: {what}\n", line + 1),
        }
    }
    if wrong.is_empty() {
        Ok(feed)
    } else {
        Err(wrong)
    }
}

/// The record of a line; no bytes where it has no words.
fn record(line: &[u8]) -> Result<Vec<u8>, String> {
    let line = str::from_utf8(line).map_err(|_| "not UTF-8")?;
    let mut words = line
        .split('#')
        .next()
        .unwrap_or_default()
        .split_whitespace();
    let Some(first) = words.next() else {
        return Ok(Vec::new());
    };
    let sequence = number("the record's number", first)?;
    let name = words.next().ok_or("there is no operation")?;
    let mut arguments = Arguments::read(words)?;
    let operation = operation(name, &mut arguments)?;
    let cut = arguments.perhaps("cut")?;
    arguments.end()?;
    let mut record = operation
        .record(sequence)
        .map_err(|too_long| too_long.to_string())?;
    if let Some(cut) = cut {
        if cut > record.len() {
            return Err(format!("cut={cut}: the record has {} bytes", record.len()));
        }
        record.truncate(cut);
    }
    Ok(record)
}

fn operation(name: &str, arguments: &mut Arguments) -> Result<Operation, String> {
    Ok(match name {
        "insert" => Operation::InsertActive {
            lock: lock(arguments)?,
        },
        "insert_vehicle" => Operation::InsertVehicle {
            lock: lock(arguments)?,
            children: arguments.ids("children")?,
        },
        "renew" => Operation::Renew {
            id: arguments.id("id")?,
            expires: arguments.number("expires")?,
            now: arguments.number("now")?,
            metadata: arguments.perhaps("metadata")?,
        },
        "delete" => Operation::Delete {
            id: arguments.id("id")?,
        },
        "begin_expiration" => Operation::BeginExpiration {
            id: arguments.id("id")?,
            now: arguments.number("now")?,
        },
        "replace" => Operation::CommitReplacement {
            roots: arguments.ids("roots")?,
            lock: lock(arguments)?,
            broken_by: arguments.number("by")?,
            broken_at: arguments.number("at")?,
        },
        "acknowledge" => Operation::AcknowledgeDefunct {
            id: arguments.id("id")?,
        },
        "expire_defunct" => Operation::ExpireDefunct {
            now: arguments.number("now")?,
        },
        _ => return Err(format!("{name}: no such operation")),
    })
}

fn lock(arguments: &mut Arguments) -> Result<Active, String> {
    let exclusive: u8 = arguments.perhaps("exclusive")?.unwrap_or_default();
    if exclusive > 1 {
        return Err(format!("exclusive={exclusive}: 0 or 1"));
    }
    let lock = Lock {
        id: arguments.id("id")?,
        scope: scope(arguments.take("scope")?)?,
        exclusive: exclusive == 1,
        coverage: coverage(arguments.take("covers")?)?,
        subject: arguments.number("subject")?,
        principal: arguments.perhaps("principal")?.unwrap_or_default(),
        metadata: arguments.perhaps("metadata")?.unwrap_or_default(),
    };
    Ok(Active {
        lock,
        expires: arguments.number("expires")?,
        parent: arguments.perhaps("parent")?.map(LockId::from_u128),
    })
}

fn scope(text: &str) -> Result<Scope, String> {
    match text.split_once(':') {
        None if text == "vehicle" => Ok(Scope::Vehicle),
        Some(("ecu", ecu)) => Ok(Scope::Ecu(number("scope", ecu)?)),
        Some(("group", group)) => Ok(Scope::FunctionalGroup(number("scope", group)?)),
        _ => Err(format!("scope={text}: vehicle, ecu:N or group:N")),
    }
}

fn coverage(text: &str) -> Result<Coverage, String> {
    match text {
        "vehicle" => Ok(Coverage::Vehicle),
        "none" => Ok(Coverage::of(&[])),
        _ => {
            let ecus = text.split(',').map(|ecu| number("covers", ecu));
            Ok(Coverage::of(&ecus.collect::<Result<Vec<u8>, _>>()?))
        }
    }
}

/// A decimal number, digits and nothing else.
fn number<T: FromStr>(name: &str, text: &str) -> Result<T, String> {
    if text.is_empty() || !text.bytes().all(|byte| byte.is_ascii_digit()) {
        return Err(format!("{name}: '{text}' is no number"));
    }
    let range = |_| format!("{name}: {text} is out of range");
    text.parse().map_err(range)
}

/// What stands behind the operation: each is taken out once, and nothing may be left.
struct Arguments<'a>(BTreeMap<&'a str, &'a str>);

impl<'a> Arguments<'a> {
    fn read(words: impl Iterator<Item = &'a str>) -> Result<Self, String> {
        let mut all = BTreeMap::new();
        for word in words {
            let argument = word.split_once('=');
            let (name, value) = argument.ok_or_else(|| format!("{word}: not NAME=VALUE"))?;
            if all.insert(name, value).is_some() {
                return Err(format!("{name} is given twice"));
            }
        }
        Ok(Self(all))
    }

    fn take(&mut self, name: &str) -> Result<&'a str, String> {
        let missing = || format!("{name} is missing");
        self.0.remove(name).ok_or_else(missing)
    }

    fn number<T: FromStr>(&mut self, name: &str) -> Result<T, String> {
        number(name, self.take(name)?)
    }

    fn perhaps<T: FromStr>(&mut self, name: &str) -> Result<Option<T>, String> {
        let value = self.0.remove(name);
        value.map(|value| number(name, value)).transpose()
    }

    fn id(&mut self, name: &str) -> Result<LockId, String> {
        self.number(name).map(LockId::from_u128)
    }

    fn ids(&mut self, name: &str) -> Result<Vec<LockId>, String> {
        let list = self.take(name)?;
        let ids = list.split(',').filter(|_| !list.is_empty());
        ids.map(|id| number(name, id).map(LockId::from_u128))
            .collect()
    }

    fn end(self) -> Result<(), String> {
        match self.0.keys().next() {
            Some(name) => Err(format!("{name}: no such argument here")),
            None => Ok(()),
        }
    }
}

#[cfg(test)]
mod tests {
    use super::*;

    fn packed(text: &str) -> Result<Vec<u8>, String> {
        feed(text.as_bytes())
    }

    #[test]
    fn the_story() {
        let words = include_bytes!("../../examples/story.txt");
        assert_eq!(
            feed(words),
            Ok(include_bytes!("../../examples/story.feed").to_vec())
        );
    }

    fn full() -> Active {
        Active {
            lock: Lock {
                id: LockId::from_u128(u128::MAX),
                scope: Scope::FunctionalGroup(255),
                exclusive: true,
                coverage: Coverage::of(&[0, 64, 255]),
                subject: u16::MAX,
                principal: u32::MAX,
                metadata: 9,
            },
            expires: u64::MAX,
            parent: Some(LockId::from_u128(3)),
        }
    }

    fn plain() -> Active {
        let mut plain = full();
        plain.lock.scope = Scope::Vehicle;
        plain.lock.exclusive = false;
        plain.lock.coverage = Coverage::Vehicle;
        (plain.lock.principal, plain.lock.metadata) = (0, 0);
        plain.parent = None;
        plain
    }

    const ID: &str = "id=340282366920938463463374607431768211455";
    const REST: &str = "subject=65535 expires=18446744073709551615";

    /// The words of `full` and `plain`.
    fn locks() -> [(Active, String); 2] {
        let more = "exclusive=1 principal=4294967295 metadata=9 parent=3";
        [
            (
                full(),
                format!("{ID} scope=group:255 covers=0,64,255 {REST} {more}"),
            ),
            (plain(), format!("covers=vehicle scope=vehicle {REST} {ID}")),
        ]
    }

    fn check(words: &str, operation: &Operation) {
        let record = operation.record(4_294_967_295).unwrap();
        assert_eq!(
            packed(&format!("4294967295 {words}")),
            Ok(record),
            "{words}"
        );
    }

    #[test]
    fn operations_on_a_lock() {
        let id = LockId::from_u128(7);
        let renew = |metadata| Operation::Renew {
            id,
            expires: 8,
            now: 9,
            metadata,
        };
        check("renew id=7 expires=8 now=9", &renew(None));
        check("renew id=7 expires=8 now=9 metadata=0", &renew(Some(0)));
        check("delete id=7", &Operation::Delete { id });
        check(
            "begin_expiration id=7 now=9",
            &Operation::BeginExpiration { id, now: 9 },
        );
        check("acknowledge id=7", &Operation::AcknowledgeDefunct { id });
        check("expire_defunct now=9", &Operation::ExpireDefunct { now: 9 });
    }

    #[test]
    fn operations_that_bring_a_lock() {
        let [two, seven] = [2, 7].map(LockId::from_u128);
        for (lock, words) in locks() {
            let insert = format!("insert {words}");
            check(&insert, &Operation::InsertActive { lock });
            for (ids, list) in [(vec![], ""), (vec![seven, two, seven], "7,2,7")] {
                let children = ids.clone();
                check(
                    &format!("insert_vehicle {words} children={list}"),
                    &Operation::InsertVehicle { lock, children },
                );
                let replace = Operation::CommitReplacement {
                    roots: ids,
                    lock,
                    broken_by: 5,
                    broken_at: 6,
                };
                check(&format!("replace {words} by=5 at=6 roots={list}"), &replace);
            }
        }
    }

    #[test]
    fn comments_cuts_and_the_empty_set() {
        let delete = Operation::Delete {
            id: LockId::from_u128(7),
        }
        .record(0)
        .unwrap();
        for cut in 0..=24 {
            let words = format!("\n \t# nothing\n0 delete id=7 cut={cut}# more\r\n");
            assert_eq!(packed(&words), Ok(delete[..cut].to_vec()));
        }
        assert_eq!(packed(""), Ok(Vec::new()));
        let mut lock = plain();
        (lock.lock.scope, lock.lock.coverage) = (Scope::Ecu(0), Coverage::of(&[]));
        let words = format!("insert {ID} scope=ecu:0 covers=none {REST}");
        check(&words, &Operation::InsertActive { lock });
    }

    /// Lines that can't be read, each with what is wrong. INSERT and ADOPT stand for the start of one.
    const BAD: &str = "\
x | the record's number: 'x' is no number
-1 delete id=1 | the record's number: '-1' is no number
4294967296 delete id=1 | the record's number: 4294967296 is out of range
0 | there is no operation
0 remove id=1 | remove: no such operation
0 delete | id is missing
0 delete id | id: not NAME=VALUE
0 delete id= | id: '' is no number
0 delete id=1 id=1 | id is given twice
0 delete id=1 now=1 | now: no such argument here
0 delete id=+1 | id: '+1' is no number
0 delete id=340282366920938463463374607431768211456 | id: 340282366920938463463374607431768211456 is out of range
0 delete id=1 cut=25 | cut=25: the record has 24 bytes
0 delete id=1 cut=-1 | cut: '-1' is no number
0 renew id=1 expires=1 | now is missing
0 renew id=1 expires=1 now=1 metadata=4294967296 | metadata: 4294967296 is out of range
0 expire_defunct now=18446744073709551616 | now: 18446744073709551616 is out of range
INSERT subject=1 | scope is missing
INSERT subject=1 scope=ecu:256 covers=5 | scope: 256 is out of range
INSERT subject=1 scope=ecu covers=5 | scope=ecu: vehicle, ecu:N or group:N
INSERT subject=1 scope=vehicle:0 covers=5 | scope=vehicle:0: vehicle, ecu:N or group:N
INSERT subject=1 scope=ecu:5 covers=256 | covers: 256 is out of range
INSERT subject=1 scope=ecu:5 covers=5, | covers: '' is no number
INSERT subject=1 scope=ecu:5 covers=5 exclusive=2 | exclusive=2: 0 or 1
INSERT subject=1 scope=ecu:5 covers=5 children= | children: no such argument here
INSERT subject=65536 scope=ecu:5 covers=5 | subject: 65536 is out of range
ADOPT | children is missing
ADOPT children=1,,2 | children: '' is no number
ADOPT children=LONG | 65 ids; a record holds at most 64";

    /// What is wrong with a line, and that nothing else is.
    #[test]
    fn bad_lines() {
        for row in BAD.lines() {
            let (line, what) = row.split_once(" | ").unwrap();
            let line = line
                .replace("INSERT", "0 insert id=1 expires=1")
                .replace(
                    "ADOPT",
                    "0 insert_vehicle id=1 scope=vehicle covers=vehicle expires=1 subject=1",
                )
                .replace("LONG", &["1"; 65].join(","));
            let text = format!("# one\n0 delete id=1\n{line}\n1 delete id=1\n");
            assert_eq!(packed(&text), Err(format!("line 3: {what}\n")));
        }
        let two = b"\xff\n0 delete id=1\n1 delete";
        let wrong = "line 1: not UTF-8\nline 3: id is missing\n";
        assert_eq!(feed(two), Err(wrong.into()));
    }
}

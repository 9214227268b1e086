// SPDX-License-Identifier: Apache-2.0
//! Images and feed records, read and written from document 01's "Records" alone.

use crate::{
    answer::Refusal,
    model::{
        ACTIVE_LIMIT, Active, Coverage, DEFUNCT_LIMIT, Defunct, EcuSet, Id, IdList, Lock,
        Operation, Scope, State,
    },
    rules::broken_rule,
};

const HEAD: u16 = 1;
const ACTIVE: u16 = 2;
const DEFUNCT: u16 = 3;
/// Most ids a record of kind 17 or 21 lists.
pub const LIST_LIMIT: usize = 64;

/// A kind's length without ids, and whether it lists any.
fn shape(kind: u16) -> Option<(usize, bool)> {
    Some(match kind {
        HEAD => (18, false),
        ACTIVE => (89, false),
        DEFUNCT => (102, false),
        16 => (93, false),
        17 => (95, true),
        18 => (43, false),
        19 | 22 => (22, false),
        20 => (30, false),
        21 => (107, true),
        23 => (14, false),
        _ => return None,
    })
}

fn length_possible(kind: u16, length: usize) -> bool {
    shape(kind).is_some_and(|(base, lists)| match length.checked_sub(base) {
        Some(0) => true,
        Some(rest) => lists && rest.is_multiple_of(16) && rest / 16 <= LIST_LIMIT,
        None => false,
    })
}

/// Takes fields off the front of a body. A field of bytes that run out is wrong (none), but the
/// frame has been checked, so that never decides.
struct Fields<'a>(&'a [u8]);

impl<'a> Fields<'a> {
    fn take<const N: usize>(&mut self) -> Option<[u8; N]> {
        let (field, rest) = self.0.split_first_chunk()?;
        self.0 = rest;
        Some(*field)
    }

    fn u8(&mut self) -> Option<u8> {
        self.take().map(u8::from_le_bytes)
    }

    fn u16(&mut self) -> Option<u16> {
        self.take().map(u16::from_le_bytes)
    }

    fn u32(&mut self) -> Option<u32> {
        self.take().map(u32::from_le_bytes)
    }

    fn u64(&mut self) -> Option<u64> {
        self.take().map(u64::from_le_bytes)
    }

    fn id(&mut self) -> Option<Id> {
        self.take().map(Id)
    }

    fn flag(&mut self) -> Option<bool> {
        match self.u8()? {
            0 => Some(false),
            1 => Some(true),
            _ => None,
        }
    }

    fn scope(&mut self) -> Option<Scope> {
        match (self.u8()?, self.u8()?) {
            (0, 0) => Some(Scope::Vehicle),
            (1, ecu) => Some(Scope::Ecu(ecu)),
            (2, group) => Some(Scope::Group(group)),
            _ => None,
        }
    }

    fn coverage(&mut self) -> Option<Coverage> {
        let kind = self.u8()?;
        // ECU e is bit e mod 8 of byte e/8: four little-endian words hold the bits in order.
        let set = EcuSet([self.u64()?, self.u64()?, self.u64()?, self.u64()?]);
        match kind {
            0 => (set == EcuSet::default()).then_some(Coverage::Vehicle),
            1 => Some(Coverage::Set(set)),
            _ => None,
        }
    }

    fn lock(&mut self) -> Option<Lock> {
        let id = self.id()?;
        let scope = self.scope()?;
        Some(Lock {
            id,
            scope,
            exclusive: self.flag()?,
            coverage: self.coverage()?,
            subject: self.u16()?,
            principal: self.u32()?,
            metadata: self.u32()?,
        })
    }

    fn active(&mut self) -> Option<Active> {
        Some(Active {
            lock: self.lock()?,
            expires: self.u64()?,
            parent: self.parent()?,
        })
    }

    fn parent(&mut self) -> Option<Option<Id>> {
        match (self.flag()?, self.id()?) {
            (true, id) => Some(Some(id)),
            (false, id) => (id == Id::default()).then_some(None),
        }
    }

    fn defunct(&mut self) -> Option<Defunct> {
        Some(Defunct {
            lock: self.lock()?,
            expires: self.u64()?,
            broken_at: self.u64()?,
            broken_by: self.u32()?,
            target: self.id()?,
            holder: self.u16()?,
        })
    }

    fn new_metadata(&mut self) -> Option<Option<u32>> {
        match (self.flag()?, self.u32()?) {
            (true, metadata) => Some(Some(metadata)),
            (false, metadata) => (metadata == 0).then_some(None),
        }
    }

    /// A count and exactly that many ids up to the end.
    fn ids(&mut self) -> Option<IdList> {
        let count = usize::from(self.u16()?);
        let mut list = Vec::new();
        while !self.0.is_empty() {
            list.push(self.id()?);
        }
        (list.len() == count).then(|| IdList::of(&list))
    }

    fn head(&mut self) -> Option<Head> {
        let head = Head {
            revision: self.u64()?,
            expected: self.u32()?,
            active: self.u16()?.into(),
            defunct: self.u16()?.into(),
        };
        (head.active <= ACTIVE_LIMIT && head.defunct <= DEFUNCT_LIMIT).then_some(head)
    }

    fn operation(&mut self, kind: u16) -> Option<Operation> {
        Some(match kind {
            16 => Operation::InsertActive {
                lock: self.active()?,
            },
            17 => Operation::InsertVehicle {
                lock: self.active()?,
                children: self.ids()?,
            },
            18 => Operation::Renew {
                id: self.id()?,
                expires: self.u64()?,
                now: self.u64()?,
                metadata: self.new_metadata()?,
            },
            19 => Operation::Delete { id: self.id()? },
            20 => Operation::BeginExpiration {
                id: self.id()?,
                now: self.u64()?,
            },
            21 => {
                let lock = self.active()?;
                let broken_by = self.u32()?;
                let broken_at = self.u64()?;
                Operation::CommitReplacement {
                    roots: self.ids()?,
                    lock,
                    broken_by,
                    broken_at,
                }
            }
            22 => Operation::AcknowledgeDefunct { id: self.id()? },
            23 => Operation::ExpireDefunct { now: self.u64()? },
            _ => return None,
        })
    }
}

struct Head {
    revision: u64,
    expected: u32,
    active: usize,
    defunct: usize,
}

/// The record at a place: its kind, its body and where the next one begins. `due` says which
/// kinds may stand here.
fn frame(
    bytes: &[u8],
    at: usize,
    due: impl Fn(u16) -> bool,
) -> Result<(u16, Fields<'_>, usize), Refusal> {
    let rest = bytes.get(at..).unwrap_or_default();
    let [l0, l1, k0, k1, ..] = *rest else {
        return Err(Refusal::Torn(at));
    };
    let length = usize::from(u16::from_le_bytes([l0, l1]));
    let kind = u16::from_le_bytes([k0, k1]);
    if !due(kind) {
        return Err(Refusal::BadKind(at));
    }
    if !length_possible(kind, length) {
        return Err(Refusal::BadField(at));
    }
    let body = rest.get(4..2 + length).ok_or(Refusal::Torn(at))?;
    Ok((kind, Fields(body), at + 2 + length))
}

/// Reads an image: its state and the expected sequence number.
pub fn read_image(bytes: &[u8]) -> Result<(State, u32), Refusal> {
    let (state, expected) = read_records(bytes)?;
    match broken_rule(&state) {
        None => Ok((state, expected)),
        Some(rule) => Err(Refusal::UnsoundState(rule)),
    }
}

/// The first half: records to lists, without the sound-state test.
pub fn read_records(bytes: &[u8]) -> Result<(State, u32), Refusal> {
    let (_, mut body, mut at) = frame(bytes, 0, |kind| kind == HEAD)?;
    let head = body.head().ok_or(Refusal::BadField(0))?;
    let active = run(bytes, &mut at, ACTIVE, head.active, Fields::active, |a| {
        a.lock.id
    })?;
    let defunct = run(
        bytes,
        &mut at,
        DEFUNCT,
        head.defunct,
        Fields::defunct,
        |d| d.lock.id,
    )?;
    if at < bytes.len() {
        return Err(Refusal::BadOrder(at));
    }
    Ok((
        State {
            revision: head.revision,
            active,
            defunct,
        },
        head.expected,
    ))
}

/// So many records of one kind, ids strictly ascending.
fn run<'a, T>(
    bytes: &'a [u8],
    at: &mut usize,
    due: u16,
    count: usize,
    decode: impl Fn(&mut Fields<'a>) -> Option<T>,
    id: impl Fn(&T) -> Id,
) -> Result<Vec<T>, Refusal> {
    let mut list: Vec<T> = Vec::new();
    for _ in 0..count {
        let (_, mut body, next) = frame(bytes, *at, |kind| kind == due)?;
        let record = decode(&mut body).ok_or(Refusal::BadField(*at))?;
        if list.last().is_some_and(|last| id(last) >= id(&record)) {
            return Err(Refusal::BadOrder(*at));
        }
        list.push(record);
        *at = next;
    }
    Ok(list)
}

/// The lock of the ACTIVE record that these bytes begin with.
pub fn read_active(bytes: &[u8]) -> Result<Active, Refusal> {
    let (_, mut body, _) = frame(bytes, 0, |kind| kind == ACTIVE)?;
    body.active().ok_or(Refusal::BadField(0))
}

/// The lock of the DEFUNCT record that these bytes begin with.
pub fn read_defunct(bytes: &[u8]) -> Result<Defunct, Refusal> {
    let (_, mut body, _) = frame(bytes, 0, |kind| kind == DEFUNCT)?;
    body.defunct().ok_or(Refusal::BadField(0))
}

/// One feed record as read.
#[derive(Clone, Debug, PartialEq, Eq)]
pub struct FeedRecord {
    pub sequence: u32,
    pub operation: Operation,
    /// Where the next record begins.
    pub next: usize,
}

/// Reads the feed record at a place.
pub fn read_feed(feed: &[u8], at: usize) -> Result<FeedRecord, Refusal> {
    let (kind, mut body, next) = frame(feed, at, |kind| (16..=23).contains(&kind))?;
    let sequence = body.u32().ok_or(Refusal::BadField(at))?;
    let operation = body.operation(kind).ok_or(Refusal::BadField(at))?;
    Ok(FeedRecord {
        sequence,
        operation,
        next,
    })
}

/// Writes fields behind each other.
#[derive(Default)]
struct Out(Vec<u8>);

impl Out {
    fn put(&mut self, bytes: &[u8]) -> &mut Self {
        self.0.extend_from_slice(bytes);
        self
    }

    fn lock(&mut self, lock: &Lock) -> &mut Self {
        let (kind, number) = match lock.scope {
            Scope::Vehicle => (0, 0),
            Scope::Ecu(ecu) => (1, ecu),
            Scope::Group(group) => (2, group),
        };
        let (coverage, set) = match lock.coverage {
            Coverage::Vehicle => (0, EcuSet::default()),
            Coverage::Set(set) => (1, set),
        };
        self.put(&lock.id.0)
            .put(&[kind, number, lock.exclusive.into(), coverage]);
        for word in set.0 {
            self.put(&word.to_le_bytes());
        }
        self.put(&lock.subject.to_le_bytes())
            .put(&lock.principal.to_le_bytes())
            .put(&lock.metadata.to_le_bytes())
    }

    fn active(&mut self, active: &Active) -> &mut Self {
        self.lock(&active.lock)
            .put(&active.expires.to_le_bytes())
            .put(&[active.parent.is_some().into()])
            .put(&active.parent.unwrap_or_default().0)
    }

    fn defunct(&mut self, defunct: &Defunct) -> &mut Self {
        self.lock(&defunct.lock)
            .put(&defunct.expires.to_le_bytes())
            .put(&defunct.broken_at.to_le_bytes())
            .put(&defunct.broken_by.to_le_bytes())
            .put(&defunct.target.0)
            .put(&defunct.holder.to_le_bytes())
    }

    fn ids(&mut self, ids: &[Id]) -> &mut Self {
        self.put(&(ids.len() as u16).to_le_bytes());
        for id in ids {
            self.put(&id.0);
        }
        self
    }

    /// The bytes as the body of a record of this kind.
    fn record(&self, kind: u16) -> Vec<u8> {
        let mut record = Vec::with_capacity(self.0.len() + 4);
        record.extend_from_slice(&(self.0.len() as u16 + 2).to_le_bytes());
        record.extend_from_slice(&kind.to_le_bytes());
        record.extend_from_slice(&self.0);
        record
    }
}

/// An active lock as an ACTIVE record.
#[must_use]
pub fn active_record(active: &Active) -> Vec<u8> {
    Out::default().active(active).record(ACTIVE)
}

/// A defunct lock as a DEFUNCT record.
#[must_use]
pub fn defunct_record(defunct: &Defunct) -> Vec<u8> {
    Out::default().defunct(defunct).record(DEFUNCT)
}

/// The lists as they are, sound or not, with these counts in HEAD.
#[must_use]
pub fn write_records(state: &State, expected: u32) -> Vec<u8> {
    let mut bytes = Out::default()
        .put(&state.revision.to_le_bytes())
        .put(&expected.to_le_bytes())
        .put(&(state.active.len() as u16).to_le_bytes())
        .put(&(state.defunct.len() as u16).to_le_bytes())
        .record(HEAD);
    for active in &state.active {
        bytes.extend(active_record(active));
    }
    for defunct in &state.defunct {
        bytes.extend(defunct_record(defunct));
    }
    bytes
}

/// The image of a sound state, or the lowest broken rule.
pub fn write_image(state: &State, expected: u32) -> Result<Vec<u8>, Refusal> {
    match broken_rule(state) {
        None => Ok(write_records(state, expected)),
        Some(rule) => Err(Refusal::UnsoundState(rule)),
    }
}

/// A feed record. None for `delete_defunct`, for an odd id list and for more than 64 ids, which
/// no record holds.
#[must_use]
pub fn write_feed(operation: &Operation, sequence: u32) -> Option<Vec<u8>> {
    let mut out = Out::default();
    out.put(&sequence.to_le_bytes());
    match operation {
        Operation::InsertActive { lock } => out.active(lock),
        Operation::InsertVehicle { lock, children } => out.active(lock).ids(&few(children)?),
        Operation::Renew {
            id,
            expires,
            now,
            metadata,
        } => out
            .put(&id.0)
            .put(&expires.to_le_bytes())
            .put(&now.to_le_bytes())
            .put(&[metadata.is_some().into()])
            .put(&metadata.unwrap_or_default().to_le_bytes()),
        Operation::Delete { id } | Operation::AcknowledgeDefunct { id } => out.put(&id.0),
        Operation::BeginExpiration { id, now } => out.put(&id.0).put(&now.to_le_bytes()),
        Operation::CommitReplacement {
            roots,
            lock,
            broken_by,
            broken_at,
        } => out
            .active(lock)
            .put(&broken_by.to_le_bytes())
            .put(&broken_at.to_le_bytes())
            .ids(&few(roots)?),
        Operation::ExpireDefunct { now } => out.put(&now.to_le_bytes()),
        Operation::DeleteDefunct { .. } => return None,
    };
    Some(out.record(operation.kind()?))
}

fn few(list: &IdList) -> Option<Vec<Id>> {
    list.ids().filter(|ids| ids.len() <= LIST_LIMIT)
}

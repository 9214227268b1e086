// SPDX-License-Identifier: Apache-2.0
//! Document 01's "Order of checks" restated on the model, sentence by sentence, to be compared
//! with the judge's. It isn't a blind reading: the Rust was known when it was written. The reads,
//! which 01 only names, follow 000's text.

use std::collections::BTreeSet;

use crate::{
    answer::{Class, Outcome, Reason, Seen, Told},
    model::{
        ACTIVE_LIMIT, Active, Coverage, DEFUNCT_LIMIT, Defunct, Id, IdList, Operation, Read, Scope,
        State, TesterPresent,
    },
    rules::broken_rule,
};

/// What an operation gives on success.
struct Change {
    told: Told,
    removed: Vec<Active>,
    expired: Vec<Id>,
    state: State,
}

impl Change {
    fn to(state: State) -> Self {
        Self {
            told: Told::Done,
            removed: Vec::new(),
            expired: Vec::new(),
            state,
        }
    }

    fn told(told: Told, state: &State) -> Self {
        Self {
            told,
            ..Self::to(state.clone())
        }
    }
}

/// A refusal, with the state it leaves where that isn't the one at entry.
struct Refused {
    told: Told,
    leaves: Option<State>,
}

impl From<Told> for Refused {
    fn from(told: Told) -> Self {
        Self { told, leaves: None }
    }
}

type Judged = Result<Change, Refused>;

/// The operation as 01 has it.
#[must_use]
pub fn apply(state: &State, operation: &Operation) -> Outcome {
    let judged = match broken_rule(state) {
        Some(rule) => Err(Told::UnsoundState(rule).into()),
        None => run(state, operation),
    };
    match judged {
        Ok(Change {
            told,
            removed,
            expired,
            state,
        }) => Outcome {
            told,
            removed,
            expired,
            state,
        },
        Err(Refused { told, leaves }) => Outcome {
            told,
            removed: Vec::new(),
            expired: Vec::new(),
            state: leaves.unwrap_or_else(|| state.clone()),
        },
    }
}

fn run(state: &State, operation: &Operation) -> Judged {
    match operation {
        Operation::InsertActive { lock } => insert_active(state, lock),
        Operation::InsertVehicle { lock, children } => insert_vehicle(state, lock, children),
        Operation::Renew {
            id,
            expires,
            now,
            metadata,
        } => renew(state, *id, *expires, *now, *metadata),
        Operation::Delete { id } => delete(state, *id),
        Operation::BeginExpiration { id, now } => begin_expiration(state, *id, *now),
        Operation::CommitReplacement {
            roots,
            lock,
            broken_by,
            broken_at,
        } => commit_replacement(state, roots, lock, *broken_by, *broken_at),
        Operation::AcknowledgeDefunct { id } => acknowledge(state, *id),
        Operation::ExpireDefunct { now } => expire_defunct(state, *now),
        Operation::DeleteDefunct { id, scope, subject } => {
            delete_defunct(state, *id, *scope, *subject)
        }
    }
}

/// 1, 2, 4, 5, 11.3, 11.4, 7, 8, 13.
fn insert_active(state: &State, lock: &Active) -> Judged {
    unused_id(state, lock.lock.id)?;
    let mut next = insertion(state, lock)?;
    step(&mut next)?;
    room(&next)?;
    Ok(Change::to(next))
}

/// 14, 11.1, 3 or 11.2, 1, 2, 8, 11.3 before 11.4 at the lowest child, 13.
fn insert_vehicle(state: &State, lock: &Active, children: &IdList) -> Judged {
    let children: BTreeSet<Id> = children.ids().ok_or(Told::BadList)?.into_iter().collect();
    if lock.lock.scope != Scope::Vehicle || lock.parent.is_some() {
        return Err(Told::Invariant(Reason::NoRootVehicle).into());
    }
    for id in &children {
        let child = state.active_at(*id).ok_or(Told::ActiveLockNotFound(*id))?;
        if child.lock.scope == Scope::Vehicle || child.parent.is_some() {
            return Err(Told::Invariant(Reason::BadChild(*id)).into());
        }
    }
    unused_id(state, lock.lock.id)?;
    let mut next = insertion(state, lock)?;
    step(&mut next)?;
    for id in children {
        let child = next.active_at(id).ok_or(Told::ActiveLockNotFound(id))?;
        fits_parent(child, lock)?;
        adopt(&mut next, id, lock.lock.id);
    }
    room(&next)?;
    Ok(Change::to(next))
}

/// 3, 9, 10, 8.
fn renew(state: &State, id: Id, expires: u64, now: u64, metadata: Option<u32>) -> Judged {
    let mut next = state.clone();
    let lock = next
        .active
        .iter_mut()
        .find(|a| a.lock.id == id)
        .ok_or(Told::ActiveLockNotFound(id))?;
    if lock.expires <= now {
        return Err(Told::LockExpired.into());
    }
    if expires <= lock.expires {
        return Err(Told::RenewalNotExtension.into());
    }
    lock.expires = expires;
    lock.lock.metadata = metadata.unwrap_or(lock.lock.metadata);
    step(&mut next)?;
    Ok(Change::to(next))
}

/// 3, 8.
fn delete(state: &State, id: Id) -> Judged {
    let root = state.active_at(id).ok_or(Told::ActiveLockNotFound(id))?;
    let removed = tree(state, root);
    let mut next = state.clone();
    take_out(&mut next, &removed);
    step(&mut next)?;
    Ok(Change {
        removed,
        ..Change::to(next)
    })
}

fn begin_expiration(state: &State, id: Id, now: u64) -> Judged {
    match state.active_at(id) {
        None => Ok(Change::told(Told::Stale, state)),
        Some(lock) if lock.expires > now => Ok(Change::told(Told::NotDue(lock.expires), state)),
        Some(_) => delete(state, id),
    }
}

/// 14, 3, 1, 6, then the trees, then the insertion's checks, adoption, 8, 11.4, 13.
fn commit_replacement(
    state: &State,
    roots: &IdList,
    lock: &Active,
    broken_by: u32,
    broken_at: u64,
) -> Judged {
    let roots: BTreeSet<Id> = roots.ids().ok_or(Told::BadList)?.into_iter().collect();
    let mut expanded: BTreeSet<Id> = BTreeSet::new();
    for id in &roots {
        let root = state.active_at(*id).ok_or(Told::ActiveLockNotFound(*id))?;
        expanded.extend(tree(state, root).iter().map(|a| a.lock.id));
    }
    unused_id(state, lock.lock.id)?;
    if let Some(holder) = state.holder_of(lock.lock.scope)
        && !expanded.contains(&holder.lock.id)
    {
        return Err(Told::ReplacementScopeConflict.into());
    }
    let (left, removed) = break_trees(state, &roots, lock, broken_by, broken_at);
    let mut next = insertion(&left, lock)?;
    let adopted = adoptable(&next, lock);
    step(&mut next)?;
    for id in adopted {
        let child = next.active_at(id).ok_or(Told::ActiveLockNotFound(id))?;
        fits_parent(child, lock)?;
        adopt(&mut next, id, lock.lock.id);
    }
    room(&next)?;
    Ok(Change {
        removed,
        ..Change::to(next)
    })
}

/// Roots ascending, each tree removed from what then remains and entered as defunct.
fn break_trees(
    state: &State,
    roots: &BTreeSet<Id>,
    lock: &Active,
    broken_by: u32,
    broken_at: u64,
) -> (State, Vec<Active>) {
    let mut left = state.clone();
    let mut removed = Vec::new();
    for id in roots {
        // A root may have gone with the tree of an earlier one. What then remains of its own
        // tree is nothing: its children went by the same tree or aren't its own.
        let Some(root) = left.active_at(*id).copied() else {
            continue;
        };
        let gone = tree(&left, &root);
        take_out(&mut left, &gone);
        for active in gone {
            enter(&mut left, broken(&active, lock, broken_by, broken_at));
            removed.push(active);
        }
    }
    (left, removed)
}

/// For a vehicle, every other active parentless lock of its subject, ascending.
fn adoptable(state: &State, lock: &Active) -> Vec<Id> {
    if lock.lock.scope != Scope::Vehicle {
        return Vec::new();
    }
    state
        .active
        .iter()
        .filter(|a| a.lock.id != lock.lock.id && a.parent.is_none())
        .filter(|a| a.lock.subject == lock.lock.subject)
        .map(|a| a.lock.id)
        .collect()
}

fn acknowledge(state: &State, id: Id) -> Judged {
    if state.defunct_at(id).is_none() {
        return Ok(Change::told(Told::False, state));
    }
    Ok(Change::to(shed(state, &[id])?))
}

fn expire_defunct(state: &State, now: u64) -> Judged {
    let due: Vec<Id> = state
        .defunct
        .iter()
        .filter(|d| d.expires <= now)
        .map(|d| d.lock.id)
        .collect();
    if due.is_empty() {
        return Ok(Change::told(Told::Done, state));
    }
    let next = shed(state, &due)?;
    Ok(Change {
        expired: due,
        ..Change::to(next)
    })
}

fn delete_defunct(state: &State, id: Id, scope: Scope, subject: u16) -> Judged {
    match state.defunct_at(id) {
        Some(entry) if entry.lock.scope == scope => {
            if entry.lock.subject != subject {
                return Err(Told::Forbidden.into());
            }
            acknowledge(state, id)
        }
        _ => Ok(Change::told(Told::False, state)),
    }
}

/// Removes entries; at the last revision they are gone all the same (8).
fn shed(state: &State, ids: &[Id]) -> Result<State, Refused> {
    let mut next = state.clone();
    for id in ids {
        splice(&mut next, *id);
    }
    let gone = next.clone();
    step(&mut next).map_err(|told| Refused {
        told,
        leaves: Some(gone),
    })?;
    Ok(next)
}

/// Entries that point at a removed one take over its target and holder.
fn splice(state: &mut State, id: Id) {
    let Some(entry) = state.defunct_at(id).copied() else {
        return;
    };
    for other in state.defunct.iter_mut().filter(|d| d.target == id) {
        other.target = entry.target;
        other.holder = entry.holder;
    }
    state.defunct.retain(|d| d.lock.id != id);
}

fn unused_id(state: &State, id: Id) -> Result<(), Told> {
    if state.active_at(id).is_some() || state.defunct_at(id).is_some() {
        return Err(Told::DuplicateId(id));
    }
    Ok(())
}

/// The insertion's 2, 4, 5, 11.3, 11.4, 7, then superseding and the lock itself. Without limits.
fn insertion(state: &State, lock: &Active) -> Result<State, Told> {
    if state.holder_of(lock.lock.scope).is_some() {
        return Err(Told::DuplicateScope);
    }
    if let Some(id) = lock.parent {
        let parent = state.active_at(id).ok_or(Told::ParentNotFound(id))?;
        if parent.lock.scope != Scope::Vehicle {
            return Err(Told::ParentNotVehicle(id));
        }
        fits_parent(lock, parent)?;
    }
    if let Some(other) = state.active.iter().find(|a| conflicts(a, lock)) {
        return Err(Told::CoverageConflict(other.lock.id));
    }
    let mut next = state.clone();
    for id in superseded(state, lock) {
        splice(&mut next, id);
    }
    let place = next.active.partition_point(|a| a.lock.id < lock.lock.id);
    next.active.insert(place, *lock);
    Ok(next)
}

/// 11.3, then 11.4.
fn fits_parent(child: &Active, parent: &Active) -> Result<(), Told> {
    let (child_id, parent_id) = (child.lock.id, parent.lock.id);
    if parent.lock.subject != child.lock.subject {
        return Err(Told::Invariant(Reason::Owner {
            child: child_id,
            parent: parent_id,
        }));
    }
    if !parent.lock.coverage.contains(&child.lock.coverage) {
        return Err(Told::Invariant(Reason::Coverage {
            child: child_id,
            parent: parent_id,
        }));
    }
    Ok(())
}

/// Another subject, overlapping coverage, the new lock not a vehicle lock.
fn conflicts(active: &Active, lock: &Active) -> bool {
    active.lock.subject != lock.lock.subject
        && active.lock.coverage.overlaps(&lock.lock.coverage)
        && lock.lock.scope != Scope::Vehicle
}

/// Defunct entries of the same subject go if the new scope is vehicle or equal, or the new
/// coverage contains theirs.
fn superseded(state: &State, lock: &Active) -> Vec<Id> {
    state
        .defunct
        .iter()
        .filter(|d| d.lock.subject == lock.lock.subject)
        .filter(|d| covers(lock.lock.scope, &lock.lock.coverage, d))
        .map(|d| d.lock.id)
        .collect()
}

fn covers(scope: Scope, coverage: &Coverage, entry: &Defunct) -> bool {
    scope == Scope::Vehicle || scope == entry.lock.scope || coverage.contains(&entry.lock.coverage)
}

fn adopt(state: &mut State, child: Id, parent: Id) {
    for active in state.active.iter_mut().filter(|a| a.lock.id == child) {
        active.parent = Some(parent);
    }
}

/// Children ascending; for a group, the same subject's ECU locks whose scope ECU it covers,
/// ascending; the root.
fn tree(state: &State, root: &Active) -> Vec<Active> {
    let children = state
        .active
        .iter()
        .filter(|a| a.parent == Some(root.lock.id));
    let narrow = state.active.iter().filter(|a| narrow_of(a, root));
    children.chain(narrow).chain([root]).copied().collect()
}

fn narrow_of(active: &Active, group: &Active) -> bool {
    match (group.lock.scope, active.lock.scope) {
        (Scope::Group(_), Scope::Ecu(ecu)) => {
            active.lock.subject == group.lock.subject && group.lock.coverage.covers(ecu)
        }
        _ => false,
    }
}

fn take_out(state: &mut State, gone: &[Active]) {
    state
        .active
        .retain(|a| gone.iter().all(|g| g.lock.id != a.lock.id));
}

/// Its expiry as the original one, no parent, the new id as target, the new subject as holder.
fn broken(active: &Active, by: &Active, broken_by: u32, broken_at: u64) -> Defunct {
    Defunct {
        lock: active.lock,
        expires: active.expires,
        broken_at,
        broken_by,
        target: by.lock.id,
        holder: by.lock.subject,
    }
}

fn enter(state: &mut State, entry: Defunct) {
    let place = state.defunct.partition_point(|d| d.lock.id < entry.lock.id);
    state.defunct.insert(place, entry);
}

/// 8, else the revision rises by 1.
fn step(state: &mut State) -> Result<(), Told> {
    state.revision = state
        .revision
        .checked_add(1)
        .ok_or(Told::RevisionOverflow)?;
    Ok(())
}

/// 13 looks only at the final state.
fn room(state: &State) -> Result<(), Told> {
    if state.active.len() > ACTIVE_LIMIT || state.defunct.len() > DEFUNCT_LIMIT {
        return Err(Told::NoRoom);
    }
    Ok(())
}

/// 25, then 24; else the generation rises by 1, saturating.
#[must_use]
pub fn prepare_runtime_update(state: &State, generation: u64) -> (Told, u64) {
    let held = |wanted: fn(Scope) -> bool| state.active.iter().any(|a| wanted(a.lock.scope));
    if let Some(rule) = broken_rule(state) {
        (Told::UnsoundState(rule), generation)
    } else if held(|scope| matches!(scope, Scope::Group(_))) {
        (Told::FunctionalGroupLocksHeld, generation)
    } else if held(|scope| matches!(scope, Scope::Ecu(_))) {
        (Told::EcuLocksHeld, generation)
    } else {
        (Told::Done, generation.saturating_add(1))
    }
}

/// 02, C-11: "for all 256 ECUs, the number of active locks covering it and the lowest id among
/// them, zeros if none".
#[must_use]
pub fn board(state: &State) -> Vec<u8> {
    let entry = |ecu| {
        let covers = |a: &&Active| a.lock.coverage.covers(ecu);
        let ids = state.active.iter().filter(covers).map(|a| a.lock.id);
        let (locks, lowest) = (ids.clone().count() as u8, ids.min());
        [locks].into_iter().chain(lowest.unwrap_or_default().0)
    };
    (0..=255).flat_map(entry).collect()
}

/// The read as 01 and the names of 000 have it.
#[must_use]
pub fn read(state: &State, read: &Read) -> Seen {
    if let Some(rule) = broken_rule(state) {
        return Seen::Unsound(rule);
    }
    match *read {
        Read::Revision => Seen::Revision(state.revision),
        Read::ActiveForScope(scope) => Seen::Active(state.holder_of(scope).copied()),
        Read::ActiveById(id) => Seen::Active(state.active_at(id).copied()),
        Read::DefunctById(id) => Seen::Defunct(state.defunct_at(id).copied()),
        Read::ActiveAt(place) => Seen::Active(state.active.get(place).copied()),
        Read::DefunctAt(place) => Seen::Defunct(state.defunct.get(place).copied()),
        Read::CoveredNarrowLocks(broad) => {
            let narrow = state.active.iter().filter(|a| narrow_of(a, &broad));
            Seen::Ids(narrow.map(|a| a.lock.id).collect())
        }
        Read::CoveringFunctionalGroup { subject, ecu } => {
            Seen::Active(covering_group(state, subject, ecu))
        }
        Read::TesterPresentFor { subject, scope } => {
            Seen::TesterPresent(tester_present_for(state, subject, scope))
        }
        Read::TesterPresentNeeded(kind) => Seen::Flag(
            state
                .active
                .iter()
                .any(|a| tester_present_for(state, a.lock.subject, a.lock.scope) == Some(kind)),
        ),
        Read::UncoveredDefunct {
            subject,
            scope,
            coverage,
            now,
        } => Seen::Defunct(uncovered(state, subject, scope, &coverage, now)),
        Read::CurrentHolder(record) => holder(state, &record),
        Read::VehicleLockOwnerSub => {
            Seen::Subject(state.holder_of(Scope::Vehicle).map(|a| a.lock.subject))
        }
        Read::HasNonVehicleLocks => {
            Seen::Flag(state.active.iter().any(|a| a.lock.scope != Scope::Vehicle))
        }
    }
}

fn covering_group(state: &State, subject: u16, ecu: u8) -> Option<Active> {
    state
        .active
        .iter()
        .find(|a| {
            matches!(a.lock.scope, Scope::Group(_))
                && a.lock.subject == subject
                && a.lock.coverage.covers(ecu)
        })
        .copied()
}

fn tester_present_for(state: &State, subject: u16, scope: Scope) -> Option<TesterPresent> {
    match scope {
        Scope::Vehicle => None,
        Scope::Group(group) => Some(TesterPresent::Functional(group)),
        Scope::Ecu(ecu) => match covering_group(state, subject, ecu) {
            Some(_) => None,
            None => Some(TesterPresent::Ecu(ecu)),
        },
    }
}

fn uncovered(
    state: &State,
    subject: u16,
    scope: Scope,
    coverage: &Coverage,
    now: u64,
) -> Option<Defunct> {
    let meets = |d: &Defunct| {
        d.lock.scope == Scope::Vehicle
            || d.lock.scope == scope
            || d.lock.coverage.overlaps(coverage)
    };
    state
        .defunct
        .iter()
        .find(|d| {
            d.lock.subject == subject && d.expires > now && meets(d) && !covers(scope, coverage, d)
        })
        .copied()
}

/// In a sound state the walk meets no id twice, so it needs no record of where it was.
fn holder(state: &State, record: &Defunct) -> Seen {
    let (mut at, mut subject, mut links) = (record.target, record.holder, 0);
    loop {
        if let Some(active) = state.active_at(at) {
            return Seen::Holder {
                subject: active.lock.subject,
                links,
            };
        }
        let Some(entry) = state.defunct_at(at) else {
            return Seen::Holder { subject, links };
        };
        (at, subject, links) = (entry.target, entry.holder, links + 1);
    }
}

/// The response class as 01 lists it.
#[must_use]
pub fn response_class(number: u8) -> Option<Class> {
    match number {
        10 => Some(Class::BadRequest),
        2 | 6 | 7 | 9 => Some(Class::Conflict),
        1 | 3 | 4 | 5 | 8 | 11 => Some(Class::InternalServerError),
        26 => Some(Class::Forbidden),
        _ => None,
    }
}

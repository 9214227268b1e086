// SPDX-License-Identifier: Apache-2.0
//! The original behind numbers: the model's values into its types and back. Nothing is decided
//! here; texts are made so that they compare as the numbers do.

use std::{
    collections::BTreeSet,
    time::{Duration, SystemTime, UNIX_EPOCH},
};

use cda_interfaces::{
    TesterPresentType,
    lock_priority_api::{LockId, LockPrincipal, LockScope},
};
use serde_json::{Map, Value};

use super::{
    lock_state::{
        ActiveLock, DefunctLock, ExpirationStart, LockCoverage, LockState, ScopeKey, StateError,
        access,
    },
    locks::{self, ApiError, EvaluatedMetadata, LockUpdateError},
};
use crate::{
    answer::{Class, Reason, Seen, Told},
    model::{
        Active, Coverage, Defunct, EcuSet, Id, Lock, Operation, Read, Scope, State, TesterPresent,
    },
};

/// The original's state.
#[derive(Clone)]
pub struct Original(LockState);

/// An operation's arguments in the original's types, made before a clock starts.
pub struct Call(Arguments);

enum Arguments {
    InsertActive(ActiveLock),
    InsertVehicle(ActiveLock, Vec<LockId>),
    Renew(LockId, SystemTime, SystemTime, Option<EvaluatedMetadata>),
    Delete(LockId),
    BeginExpiration(LockId, SystemTime),
    CommitReplacement(Vec<LockId>, ActiveLock, String, SystemTime),
    AcknowledgeDefunct(LockId),
    ExpireDefunct(SystemTime),
    DeleteDefunct(LockId, LockScope, String),
}

/// What the original gave back, in its own types.
pub struct Reply(Result<Given, Failure>);

enum Given {
    Nothing,
    Removed(Vec<ActiveLock>),
    Expiration(ExpirationStart),
    Flag(bool),
    Expired(Vec<LockId>),
}

enum Failure {
    State(StateError),
    Api(ApiError),
}

impl Call {
    /// None for an id list with an odd number of words, which the original can't be given.
    #[must_use]
    pub fn new(operation: &Operation) -> Option<Self> {
        Some(Self(match operation {
            Operation::InsertActive { lock } => Arguments::InsertActive(active_lock(lock)),
            Operation::InsertVehicle { lock, children } => {
                Arguments::InsertVehicle(active_lock(lock), lock_ids(&children.ids()?))
            }
            Operation::Renew {
                id,
                expires,
                now,
                metadata,
            } => Arguments::Renew(
                lock_id(*id),
                time(*expires),
                time(*now),
                metadata.map(|number| EvaluatedMetadata::new(opaque(number))),
            ),
            Operation::Delete { id } => Arguments::Delete(lock_id(*id)),
            Operation::BeginExpiration { id, now } => {
                Arguments::BeginExpiration(lock_id(*id), time(*now))
            }
            Operation::CommitReplacement {
                roots,
                lock,
                broken_by,
                broken_at,
            } => Arguments::CommitReplacement(
                lock_ids(&roots.ids()?),
                active_lock(lock),
                broken_by.to_string(),
                time(*broken_at),
            ),
            Operation::AcknowledgeDefunct { id } => Arguments::AcknowledgeDefunct(lock_id(*id)),
            Operation::ExpireDefunct { now } => Arguments::ExpireDefunct(time(*now)),
            Operation::DeleteDefunct { id, scope, subject } => {
                Arguments::DeleteDefunct(lock_id(*id), lock_scope(*scope), subject_text(*subject))
            }
        }))
    }
}

impl Original {
    /// Any state with distinct ids in each list and distinct scopes.
    #[must_use]
    pub fn new(state: &State) -> Self {
        Self(access::build(
            state.revision,
            state.active.iter().map(active_lock).collect(),
            state.defunct.iter().map(defunct_lock).collect(),
        ))
    }

    /// The whole state read out.
    ///
    /// # Panics
    /// If an index of the original disagrees with its locks: then the locks aren't all of it.
    #[must_use]
    pub fn state(&self) -> State {
        assert!(
            access::indexes_agree(&self.0),
            "an index disagrees with the locks: {:?}",
            self.0
        );
        State {
            revision: self.0.revision(),
            active: self.0.active().map(active).collect(),
            defunct: self.0.defunct().map(defunct).collect(),
        }
    }

    /// For each ECU how many active locks cover it, and the lowest id among them: by the map of
    /// locks and each lock's own set of names.
    #[must_use]
    pub fn on_ecus(&self) -> [(u8, Option<Id>); 256] {
        let mut on = [(0, None); 256];
        for lock in self.0.active() {
            let id = id_of(&lock.id);
            let count = |ecu: u8| {
                let (locks, lowest): &mut (u8, Option<Id>) = &mut on[usize::from(ecu)];
                *locks += 1;
                *lowest = Some(lowest.map_or(id, |other| other.min(id)));
            };
            match &lock.coverage {
                LockCoverage::Vehicle => (0..=255).for_each(count),
                LockCoverage::Ecus(names) => {
                    names.iter().map(|name| number(name, "ecu")).for_each(count);
                }
            }
        }
        on
    }

    /// The original's own test of a state.
    #[must_use]
    pub fn is_valid(&self) -> bool {
        self.0.validate_invariants().is_ok()
    }

    /// Calls the original; nothing else happens here, so this is what a benchmark times.
    pub fn call(&mut self, call: Call) -> Reply {
        let state = &mut self.0;
        let done = |()| Given::Nothing;
        Reply(
            match call.0 {
                Arguments::InsertActive(lock) => state.insert_active(lock).map(done),
                Arguments::InsertVehicle(lock, ids) => state.insert_vehicle(lock, &ids).map(done),
                Arguments::Renew(id, expires, now, metadata) => {
                    state.renew(&id, expires, now, metadata).map(done)
                }
                Arguments::Delete(id) => state.delete(&id).map(Given::Removed),
                Arguments::BeginExpiration(id, now) => {
                    state.begin_expiration(&id, now).map(Given::Expiration)
                }
                Arguments::CommitReplacement(ids, lock, by, at) => state
                    .commit_replacement(&ids, lock, &by, at)
                    .map(Given::Removed),
                Arguments::AcknowledgeDefunct(id) => {
                    state.acknowledge_defunct(&id).map(Given::Flag)
                }
                Arguments::ExpireDefunct(now) => state.expire_defunct(now).map(Given::Expired),
                Arguments::DeleteDefunct(id, scope, subject) => {
                    return Reply(
                        locks::delete_defunct(state, &id, &scope, &subject)
                            .map(Given::Flag)
                            .map_err(Failure::Api),
                    );
                }
            }
            .map_err(Failure::State),
        )
    }

    /// `prepare_runtime_update` with the generation before and after.
    pub fn prepare_runtime_update(&mut self, generation: u64) -> (Told, u64) {
        let (result, generation) = locks::prepare_runtime_update(&mut self.0, generation);
        let told = match result {
            Ok(()) => Told::Done,
            Err(LockUpdateError::EcuLocksHeld) => Told::EcuLocksHeld,
            Err(LockUpdateError::FunctionalGroupLocksHeld) => Told::FunctionalGroupLocksHeld,
        };
        (told, generation)
    }

    /// What the original answers to a read. The count of links, which it doesn't give, is 0.
    pub fn read(&mut self, read: &Read) -> Seen {
        let state = &mut self.0;
        match read {
            Read::Revision => Seen::Revision(state.revision()),
            Read::ActiveForScope(scope) => {
                Seen::Active(state.active_for_scope(&scope_key(*scope)).map(active))
            }
            Read::ActiveById(id) => Seen::Active(state.active_by_id(&lock_id(*id)).map(active)),
            Read::DefunctById(id) => Seen::Defunct(state.defunct_by_id(&lock_id(*id)).map(defunct)),
            Read::ActiveAt(place) => Seen::Active(state.active().nth(*place).map(active)),
            Read::DefunctAt(place) => Seen::Defunct(state.defunct().nth(*place).map(defunct)),
            Read::CoveredNarrowLocks(broad) => {
                Seen::Ids(ids(&state.covered_narrow_locks(&active_lock(broad))))
            }
            Read::CoveringFunctionalGroup { subject, ecu } => Seen::Active(
                state
                    .covering_functional_group(&subject_text(*subject), &ecu_name(*ecu))
                    .map(active),
            ),
            Read::TesterPresentFor { subject, scope } => Seen::TesterPresent(
                state
                    .tester_present_for(&subject_text(*subject), &scope_key(*scope))
                    .as_ref()
                    .map(tester_present),
            ),
            Read::TesterPresentNeeded(kind) => {
                Seen::Flag(state.tester_present_needed(&tester_present_type(*kind)))
            }
            Read::UncoveredDefunct {
                subject,
                scope,
                coverage,
                now,
            } => Seen::Defunct(
                state
                    .uncovered_defunct(
                        &subject_text(*subject),
                        &scope_key(*scope),
                        &lock_coverage(coverage),
                        time(*now),
                    )
                    .map(defunct),
            ),
            Read::CurrentHolder(record) => Seen::Holder {
                subject: subject_number(state.current_holder(&defunct_lock(record))),
                links: 0,
            },
            Read::VehicleLockOwnerSub => Seen::Subject(
                locks::vehicle_lock_owner_sub(state).map(|text| subject_number(&text)),
            ),
            Read::HasNonVehicleLocks => Seen::Flag(locks::has_non_vehicle_locks(state)),
        }
    }
}

impl Reply {
    /// The answer with its removed locks and expired ids.
    #[must_use]
    pub fn read(&self) -> (Told, Vec<Active>, Vec<Id>) {
        let told = |told| (told, Vec::new(), Vec::new());
        match &self.0 {
            Ok(Given::Nothing | Given::Flag(true)) => told(Told::Done),
            Ok(Given::Flag(false)) => told(Told::False),
            Ok(Given::Removed(locks) | Given::Expiration(ExpirationStart::Expired(locks))) => {
                (Told::Done, locks.iter().map(active).collect(), Vec::new())
            }
            Ok(Given::Expiration(ExpirationStart::Stale)) => told(Told::Stale),
            Ok(Given::Expiration(ExpirationStart::NotDue(at))) => told(Told::NotDue(millis(*at))),
            Ok(Given::Expired(list)) => (Told::Done, Vec::new(), ids(list)),
            Err(Failure::State(error)) => told(told_by(error)),
            Err(Failure::Api(error)) => told(told_by_response(error)),
        }
    }
}

/// The response class 001 gives a refusal number; none for numbers it doesn't know.
#[must_use]
pub fn response_class(number: u8) -> Option<Class> {
    let response = match number {
        26 => forbidden(),
        _ => locks::response(&error_of(number)?),
    };
    Some(match response {
        ApiError::BadRequest(_) => Class::BadRequest,
        ApiError::Conflict(_) => Class::Conflict,
        ApiError::InternalServerError(_) => Class::InternalServerError,
        ApiError::Forbidden(_) => Class::Forbidden,
    })
}

/// A refusal 26 as 001 makes it: one defunct lock of subject 1 deleted by subject 2.
fn forbidden() -> ApiError {
    let lock = Lock {
        id: Id::default(),
        scope: Scope::Vehicle,
        exclusive: false,
        coverage: Coverage::Vehicle,
        subject: 1,
        principal: 0,
        metadata: 0,
    };
    let entry = Defunct {
        lock,
        expires: 0,
        broken_at: 0,
        broken_by: 0,
        target: Id([1; 16]),
        holder: 2,
    };
    let mut state = access::build(0, Vec::new(), vec![defunct_lock(&entry)]);
    locks::delete_defunct(
        &mut state,
        &lock_id(lock.id),
        &LockScope::Vehicle,
        &subject_text(2),
    )
    .expect_err("another subject's entry")
}

fn error_of(number: u8) -> Option<StateError> {
    let id = lock_id(Id::default());
    Some(match number {
        1 => StateError::DuplicateId(id),
        2 => StateError::DuplicateScope,
        3 => StateError::ActiveLockNotFound(id),
        4 => StateError::ParentNotFound(id),
        5 => StateError::ParentNotVehicle(id),
        6 => StateError::ReplacementScopeConflict,
        7 => StateError::CoverageConflict(id),
        8 => StateError::RevisionOverflow,
        9 => StateError::LockExpired,
        10 => StateError::RenewalNotExtension,
        11 => StateError::Invariant(String::new()),
        _ => return None,
    })
}

fn told_by(error: &StateError) -> Told {
    match error {
        StateError::DuplicateId(id) => Told::DuplicateId(id_of(id)),
        StateError::DuplicateScope => Told::DuplicateScope,
        StateError::ActiveLockNotFound(id) => Told::ActiveLockNotFound(id_of(id)),
        StateError::ParentNotFound(id) => Told::ParentNotFound(id_of(id)),
        StateError::ParentNotVehicle(id) => Told::ParentNotVehicle(id_of(id)),
        StateError::ReplacementScopeConflict => Told::ReplacementScopeConflict,
        StateError::CoverageConflict(id) => Told::CoverageConflict(id_of(id)),
        StateError::RevisionOverflow => Told::RevisionOverflow,
        StateError::LockExpired => Told::LockExpired,
        StateError::RenewalNotExtension => Told::RenewalNotExtension,
        StateError::Invariant(text) => Told::Invariant(reason(text)),
    }
}

/// 001 keeps of an error its text alone; the text is compared with the original's own.
fn told_by_response(error: &ApiError) -> Told {
    match error {
        ApiError::Forbidden(_) => Told::Forbidden,
        ApiError::InternalServerError(Some(text))
            if *text == StateError::RevisionOverflow.to_string() =>
        {
            Told::RevisionOverflow
        }
        other => Told::Invariant(Reason::Other(format!("{other:?}"))),
    }
}

/// The reason from the original's message.
fn reason(text: &str) -> Reason {
    if text == "Vehicle insertion requires a root vehicle lock" {
        return Reason::NoRootVehicle;
    }
    if let Some(Ok(child)) = text.strip_prefix("Invalid vehicle child ").map(str::parse) {
        return Reason::BadChild(child);
    }
    if let Some((child, parent)) = child_and_parent(text, " owner differs from vehicle lock ") {
        return Reason::Owner { child, parent };
    }
    if let Some((child, parent)) = child_and_parent(text, " coverage is outside vehicle lock ") {
        return Reason::Coverage { child, parent };
    }
    Reason::Other(text.to_owned())
}

fn child_and_parent(text: &str, between: &str) -> Option<(Id, Id)> {
    let (child, parent) = text.strip_prefix("Child lock ")?.split_once(between)?;
    Some((child.parse().ok()?, parent.parse().ok()?))
}

fn lock_id(id: Id) -> LockId {
    id.to_string().into()
}

fn id_of(id: &LockId) -> Id {
    id.as_str().parse().expect("an id made here")
}

fn lock_ids(list: &[Id]) -> Vec<LockId> {
    list.iter().copied().map(lock_id).collect()
}

fn ids(list: &[LockId]) -> Vec<Id> {
    list.iter().map(id_of).collect()
}

fn time(millis: u64) -> SystemTime {
    UNIX_EPOCH + Duration::from_millis(millis)
}

fn millis(time: SystemTime) -> u64 {
    let since = time.duration_since(UNIX_EPOCH).expect("a time made here");
    since.as_millis().try_into().expect("a time made here")
}

fn ecu_name(ecu: u8) -> String {
    format!("ecu{ecu:03}")
}

fn group_name(group: u8) -> String {
    format!("grp{group:03}")
}

fn subject_text(subject: u16) -> String {
    format!("subject-{subject:05}")
}

/// The number at the end of a name made here, after its first letters.
fn number<T: std::str::FromStr>(text: &str, letters: &str) -> T {
    text.strip_prefix(letters)
        .and_then(|digits| digits.parse().ok())
        .unwrap_or_else(|| panic!("a name made here: {text}"))
}

fn subject_number(text: &str) -> u16 {
    number(text, "subject-")
}

fn scope_key(scope: Scope) -> ScopeKey {
    ScopeKey::from(&lock_scope(scope))
}

fn lock_scope(scope: Scope) -> LockScope {
    match scope {
        Scope::Vehicle => LockScope::Vehicle,
        Scope::Ecu(ecu) => LockScope::Ecu {
            name: ecu_name(ecu),
        },
        Scope::Group(group) => LockScope::FunctionalGroup {
            name: group_name(group),
        },
    }
}

fn scope(key: &ScopeKey) -> Scope {
    match key {
        ScopeKey::Vehicle => Scope::Vehicle,
        ScopeKey::Ecu(name) => Scope::Ecu(number(name, "ecu")),
        ScopeKey::FunctionalGroup(name) => Scope::Group(number(name, "grp")),
    }
}

fn lock_coverage(coverage: &Coverage) -> LockCoverage {
    match coverage {
        Coverage::Vehicle => LockCoverage::vehicle(),
        Coverage::Set(set) => LockCoverage::new(set.iter().map(ecu_name)),
    }
}

fn coverage(coverage: &LockCoverage) -> Coverage {
    match coverage {
        LockCoverage::Vehicle => Coverage::Vehicle,
        LockCoverage::Ecus(names) => Coverage::Set(ecu_set(names)),
    }
}

fn ecu_set(names: &BTreeSet<String>) -> EcuSet {
    let mut set = EcuSet::default();
    for name in names {
        set.insert(number(name, "ecu"));
    }
    set
}

fn tester_present(kind: &TesterPresentType) -> TesterPresent {
    match kind {
        TesterPresentType::Ecu(name) => TesterPresent::Ecu(number(name, "ecu")),
        TesterPresentType::Functional(name) => TesterPresent::Functional(number(name, "grp")),
    }
}

fn tester_present_type(kind: TesterPresent) -> TesterPresentType {
    match kind {
        TesterPresent::Ecu(ecu) => TesterPresentType::Ecu(ecu_name(ecu)),
        TesterPresent::Functional(group) => TesterPresentType::Functional(group_name(group)),
    }
}

/// An opaque number as the original keeps such data: a JSON object.
fn opaque(number: u32) -> Map<String, Value> {
    Map::from([("number".to_owned(), Value::Number(number.into()))])
}

fn opaque_number(map: &Map<String, Value>) -> u32 {
    match map.get("number") {
        Some(Value::Number(number)) if map.len() == 1 => (*number).try_into().expect("made here"),
        _ => panic!("opaque data made here: {map:?}"),
    }
}

fn lock_principal(lock: &Lock) -> LockPrincipal {
    LockPrincipal {
        subject: subject_text(lock.subject),
        claims: opaque(lock.principal),
    }
}

fn active_lock(active: &Active) -> ActiveLock {
    let lock = &active.lock;
    ActiveLock {
        id: lock_id(lock.id),
        scope: scope_key(lock.scope),
        coverage: lock_coverage(&lock.coverage),
        principal: lock_principal(lock),
        metadata: opaque(lock.metadata),
        exclusive: lock.exclusive,
        expires_at: time(active.expires),
        parent_vehicle_lock_id: active.parent.map(lock_id),
    }
}

fn active(original: &ActiveLock) -> Active {
    Active {
        lock: Lock {
            id: id_of(&original.id),
            scope: scope(&original.scope),
            exclusive: original.exclusive,
            coverage: coverage(&original.coverage),
            subject: subject_number(&original.principal.subject),
            principal: opaque_number(&original.principal.claims),
            metadata: opaque_number(&original.metadata),
        },
        expires: millis(original.expires_at),
        parent: original.parent_vehicle_lock_id.as_ref().map(id_of),
    }
}

fn defunct_lock(defunct: &Defunct) -> DefunctLock {
    let lock = &defunct.lock;
    DefunctLock {
        id: lock_id(lock.id),
        scope: scope_key(lock.scope),
        coverage: lock_coverage(&lock.coverage),
        principal: lock_principal(lock),
        metadata: opaque(lock.metadata),
        exclusive: lock.exclusive,
        original_expires_at: time(defunct.expires),
        broken_at: time(defunct.broken_at),
        broken_by: defunct.broken_by.to_string(),
        replacement_lock_id: lock_id(defunct.target),
        replacement_holder: subject_text(defunct.holder),
    }
}

fn defunct(original: &DefunctLock) -> Defunct {
    Defunct {
        lock: Lock {
            id: id_of(&original.id),
            scope: scope(&original.scope),
            exclusive: original.exclusive,
            coverage: coverage(&original.coverage),
            subject: subject_number(&original.principal.subject),
            principal: opaque_number(&original.principal.claims),
            metadata: opaque_number(&original.metadata),
        },
        expires: millis(original.original_expires_at),
        broken_at: millis(original.broken_at),
        broken_by: number(&original.broken_by, ""),
        target: id_of(&original.replacement_lock_id),
        holder: subject_number(&original.replacement_holder),
    }
}

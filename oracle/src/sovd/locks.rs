// SPDX-License-Identifier: Apache-2.0
//! The five functions of 001, cut from its text by build.rs and unchanged: `delete_defunct`,
//! `prepare_runtime_update`, `vehicle_lock_owner_sub`, `has_non_vehicle_locks` and
//! `map_state_error` (with `LockUpdateError`). Around them stand-ins for the store and its gates
//! that never wait: here one caller has the state to itself.

use std::{
    cell::{RefCell, RefMut},
    future::Future,
    pin::pin,
    rc::Rc,
    task::{Context, Poll, Waker},
};

use cda_interfaces::lock_priority_api::LockScope;
use serde_json::{Map, Value};

use super::lock_state::{LockState, ScopeKey, StateError};

include!(concat!(env!("OUT_DIR"), "/locks.rs"));

/// As in locks/policy.rs, lines 68 to 88; there only an evaluated request makes one.
#[derive(Debug)]
pub(crate) struct EvaluatedMetadata(Map<String, Value>);

impl EvaluatedMetadata {
    pub(crate) fn new(metadata: Map<String, Value>) -> Self {
        Self(metadata)
    }

    pub(crate) fn into_inner(self) -> Map<String, Value> {
        self.0
    }
}

/// The cases of the real type that the five functions make.
#[derive(Debug, PartialEq, Eq)]
pub(crate) enum ApiError {
    BadRequest(String),
    Conflict(String),
    InternalServerError(Option<String>),
    Forbidden(Option<String>),
}

trait Claims {
    fn sub(&self) -> &str;
}

struct Subject<'a>(&'a str);

impl Claims for Subject<'_> {
    fn sub(&self) -> &str {
        self.0
    }
}

struct LockStore {
    state: LockState,
    generation: u64,
}

struct LockCore(Rc<RefCell<LockStore>>);

impl LockCore {
    async fn reserve_transition(&self) -> TransitionReservation {
        TransitionReservation(Rc::clone(&self.0))
    }

    async fn read_store<T>(&self, read: impl FnOnce(&LockStore) -> T) -> T {
        read(&self.0.borrow())
    }
}

struct TransitionReservation(Rc<RefCell<LockStore>>);

impl TransitionReservation {
    async fn write_store(&self) -> RefMut<'_, LockStore> {
        self.0.borrow_mut()
    }
}

struct Locks {
    core: LockCore,
}

impl Locks {
    fn new(state: LockState, generation: u64) -> Self {
        let store = LockStore { state, generation };
        Self {
            core: LockCore(Rc::new(RefCell::new(store))),
        }
    }

    fn into_store(self) -> LockStore {
        Rc::into_inner(self.core.0)
            .expect("no reservation is left")
            .into_inner()
    }
}

/// Runs what never waits.
fn run<T>(future: impl Future<Output = T>) -> T {
    match pin!(future).poll(&mut Context::from_waker(Waker::noop())) {
        Poll::Ready(output) => output,
        Poll::Pending => unreachable!("nothing here waits"),
    }
}

/// Lends a state to a function that wants the store, and takes it back.
fn with_store<T>(
    state: &mut LockState,
    generation: u64,
    call: impl AsyncFnOnce(&Locks) -> T,
) -> (T, u64) {
    let locks = Locks::new(std::mem::take(state), generation);
    let output = run(call(&locks));
    let store = locks.into_store();
    *state = store.state;
    (output, store.generation)
}

pub(super) fn delete_defunct(
    state: &mut LockState,
    lock_id: &str,
    scope: &LockScope,
    subject: &str,
) -> Result<bool, ApiError> {
    with_store(state, 0, async |locks| {
        let reservation = locks.core.reserve_transition().await;
        Locks::delete_defunct(lock_id, scope, &Subject(subject), &reservation).await
    })
    .0
}

pub(super) fn prepare_runtime_update(
    state: &mut LockState,
    generation: u64,
) -> (Result<(), LockUpdateError>, u64) {
    with_store(state, generation, async |locks| {
        locks.prepare_runtime_update().await
    })
}

pub(super) fn vehicle_lock_owner_sub(state: &mut LockState) -> Option<String> {
    with_store(state, 0, async |locks| locks.vehicle_lock_owner_sub().await).0
}

pub(super) fn has_non_vehicle_locks(state: &mut LockState) -> bool {
    with_store(state, 0, async |locks| locks.has_non_vehicle_locks().await).0
}

pub(super) fn response(error: &StateError) -> ApiError {
    map_state_error(error)
}

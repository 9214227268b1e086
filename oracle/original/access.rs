// SPDX-License-Identifier: Apache-2.0
// Appended to a generated copy of lock_state.rs as a child module: it puts a state together
// from its locks, and reads out the private indexes. It decides nothing.

use super::*;

/// The state with these locks; both indexes are read off the locks, the child index off the
/// parents.
pub(in crate::sovd) fn build(
    revision: u64,
    active: Vec<ActiveLock>,
    defunct: Vec<DefunctLock>,
) -> LockState {
    LockState {
        revision,
        active_by_scope: scope_index(active.iter()),
        children_by_vehicle: child_index(active.iter()),
        active_by_id: active.into_iter().map(|lock| (lock.id.clone(), lock)).collect(),
        defunct_by_id: defunct.into_iter().map(|lock| (lock.id.clone(), lock)).collect(),
    }
}

/// Whether both indexes and all keys are what the locks say. If so, the locks and the revision
/// are the whole state.
pub(in crate::sovd) fn indexes_agree(state: &LockState) -> bool {
    state.active_by_scope.len() == state.active_by_id.len()
        && state.active_by_id.iter().all(|(id, lock)| {
            *id == lock.id && state.active_by_scope.get(&lock.scope) == Some(id)
        })
        && state.defunct_by_id.iter().all(|(id, lock)| *id == lock.id)
        && state.children_by_vehicle == child_index(state.active_by_id.values())
}

fn scope_index<'a>(
    active: impl Iterator<Item = &'a ActiveLock>,
) -> BTreeMap<ScopeKey, LockId> {
    active.map(|lock| (lock.scope.clone(), lock.id.clone())).collect()
}

fn child_index<'a>(
    active: impl Iterator<Item = &'a ActiveLock>,
) -> BTreeMap<LockId, BTreeSet<LockId>> {
    let mut index: BTreeMap<LockId, BTreeSet<LockId>> = BTreeMap::new();
    for lock in active {
        if let Some(parent) = &lock.parent_vehicle_lock_id {
            index.entry(parent.clone()).or_default().insert(lock.id.clone());
        }
    }
    index
}

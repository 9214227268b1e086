// SPDX-License-Identifier: Apache-2.0
//! The sound-state test. Each rule is one plain function, as document 01 says it.

use crate::model::{ACTIVE_LIMIT, Active, DEFUNCT_LIMIT, Scope, State};

/// The lowest broken rule; none when the state is sound.
#[must_use]
pub fn broken_rule(state: &State) -> Option<u8> {
    let rules: [fn(&State) -> bool; 10] = [
        counts_and_order,
        ids_apart,
        one_lock_a_scope,
        parents_active,
        parents_are_vehicles,
        parents_own,
        parents_contain,
        vehicles_are_roots,
        overlaps_owned_alike,
        no_ring,
    ];
    (0..10).find(|rule| !rules[usize::from(*rule)](state))
}

/// 0: counts within the limits, each list strictly ascending by id. Blanks and parts that don't
/// apply have no place in the model.
fn counts_and_order(state: &State) -> bool {
    state.active.len() <= ACTIVE_LIMIT
        && state.defunct.len() <= DEFUNCT_LIMIT
        && state.active.is_sorted_by(|a, b| a.lock.id < b.lock.id)
        && state.defunct.is_sorted_by(|a, b| a.lock.id < b.lock.id)
}

/// 1: no id both active and defunct.
fn ids_apart(state: &State) -> bool {
    state
        .active
        .iter()
        .all(|a| state.defunct_at(a.lock.id).is_none())
}

/// 2: one active lock a scope.
fn one_lock_a_scope(state: &State) -> bool {
    pairs(&state.active).all(|(a, b)| a.lock.scope != b.lock.scope)
}

/// 3: a parent is active.
fn parents_active(state: &State) -> bool {
    state
        .active
        .iter()
        .filter_map(|child| child.parent)
        .all(|parent| state.active_at(parent).is_some())
}

/// 4: a parent is a vehicle lock.
fn parents_are_vehicles(state: &State) -> bool {
    families(state).all(|(_, parent)| parent.lock.scope == Scope::Vehicle)
}

/// 5: a parent has the child's subject.
fn parents_own(state: &State) -> bool {
    families(state).all(|(child, parent)| parent.lock.subject == child.lock.subject)
}

/// 6: a parent's coverage contains the child's.
fn parents_contain(state: &State) -> bool {
    families(state).all(|(child, parent)| parent.lock.coverage.contains(&child.lock.coverage))
}

/// 7: a vehicle lock has no parent.
fn vehicles_are_roots(state: &State) -> bool {
    state
        .active
        .iter()
        .all(|a| a.lock.scope != Scope::Vehicle || a.parent.is_none())
}

/// 8: two active non-vehicle locks whose coverages overlap have one subject.
fn overlaps_owned_alike(state: &State) -> bool {
    pairs(&state.active)
        .filter(|(a, b)| a.lock.scope != Scope::Vehicle && b.lock.scope != Scope::Vehicle)
        .all(|(a, b)| {
            a.lock.subject == b.lock.subject || !a.lock.coverage.overlaps(&b.lock.coverage)
        })
}

/// 9: following the replacement id from any defunct entry through defunct entries meets no id
/// twice, the start included. Asked only when rule 0 holds, so entries are found by bisection.
fn no_ring(state: &State) -> bool {
    let entries = &state.defunct;
    let next: Vec<Option<usize>> = entries
        .iter()
        .map(|d| entries.binary_search_by_key(&d.target, |e| e.lock.id).ok())
        .collect();
    (0..entries.len()).all(|start| walk_ends(&next, start))
}

/// A walk that meets no entry twice leaves the entries within as many steps as there are.
fn walk_ends(next: &[Option<usize>], start: usize) -> bool {
    let mut at = start;
    for _ in 0..next.len() {
        match next[at] {
            Some(place) => at = place,
            None => return true,
        }
    }
    false
}

/// Every child with its parent; a missing parent is rule 3's matter.
fn families(state: &State) -> impl Iterator<Item = (&Active, &Active)> {
    state
        .active
        .iter()
        .filter_map(|child| Some((child, state.active_at(child.parent?)?)))
}

fn pairs(locks: &[Active]) -> impl Iterator<Item = (&Active, &Active)> {
    locks
        .iter()
        .enumerate()
        .flat_map(|(i, a)| locks[i + 1..].iter().map(move |b| (a, b)))
}

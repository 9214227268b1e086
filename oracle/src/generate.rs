// SPDX-License-Identifier: Apache-2.0
//! Seeded random sound states, operations, reads, feeds and damage. (`gen` is a keyword.)
//!
//! States are built so that they are sound by construction, far beyond what operations reach
//! from empty; numbers come from small pools, so that ids, scopes, sets and times meet.

use crate::{
    judge::{Judge, links},
    model::{
        ACTIVE_LIMIT, Active, Coverage, DEFUNCT_LIMIT, Defunct, EcuSet, Id, IdList, Lock,
        Operation, Read, Scope, State, TesterPresent,
    },
    wire,
};

/// SplitMix64: small, and the same on every machine.
#[derive(Clone, Debug)]
pub struct Rng(u64);

impl Rng {
    #[must_use]
    pub fn new(seed: u64) -> Self {
        Self(seed)
    }

    pub fn word(&mut self) -> u64 {
        self.0 = self.0.wrapping_add(0x9e37_79b9_7f4a_7c15);
        let mut z = self.0;
        z = (z ^ z >> 30).wrapping_mul(0xbf58_476d_1ce4_e5b9);
        z = (z ^ z >> 27).wrapping_mul(0x94d0_49bb_1331_11eb);
        z ^ z >> 31
    }

    /// Below n, which isn't 0.
    pub fn below(&mut self, n: usize) -> usize {
        (self.word() % n as u64) as usize
    }

    pub fn percent(&mut self, chance: usize) -> bool {
        self.below(100) < chance
    }

    pub fn pick<T: Copy>(&mut self, list: &[T]) -> Option<T> {
        if list.is_empty() {
            None
        } else {
            Some(list[self.below(list.len())])
        }
    }

    fn shuffle<T>(&mut self, list: &mut [T]) {
        for i in (1..list.len()).rev() {
            list.swap(i, self.below(i + 1));
        }
    }

    fn byte(&mut self) -> u8 {
        self.word() as u8
    }
}

/// The pools numbers are drawn from.
#[derive(Clone, Debug)]
pub struct World {
    pub ids: Vec<Id>,
    pub subjects: Vec<u16>,
    pub ecus: Vec<u8>,
    pub groups: Vec<u8>,
    pub times: Vec<u64>,
    /// Whether rare long sets may occur; they make the original slow.
    long_sets: bool,
}

impl World {
    /// Pools of about these sizes.
    pub fn new(rng: &mut Rng, ids: usize, subjects: usize, ecus: usize) -> Self {
        Self {
            ids: ids_of(rng, ids),
            subjects: (0..subjects.max(1)).map(|_| subject(rng)).collect(),
            ecus: (0..ecus.max(1)).map(|_| ecu(rng)).collect(),
            groups: (0..ecus.max(1)).map(|_| ecu(rng)).collect(),
            times: vec![
                0,
                1,
                2,
                3,
                4,
                5,
                100,
                1 << 40,
                u64::MAX - 1,
                u64::MAX,
                rng.word(),
            ],
            long_sets: rng.percent(3),
        }
    }

    fn id(&self, rng: &mut Rng) -> Id {
        rng.pick(&self.ids).unwrap_or_default()
    }

    fn subject(&self, rng: &mut Rng) -> u16 {
        rng.pick(&self.subjects).unwrap_or_default()
    }

    fn ecu(&self, rng: &mut Rng) -> u8 {
        rng.pick(&self.ecus).unwrap_or_default()
    }

    fn time(&self, rng: &mut Rng) -> u64 {
        // Mostly the first few, so that "at", "before" and "after" all happen.
        let near = if rng.percent(80) { 6 } else { self.times.len() };
        self.times[rng.below(near)]
    }

    fn scope(&self, rng: &mut Rng) -> Scope {
        match rng.below(10) {
            0 => Scope::Vehicle,
            1..=5 => Scope::Ecu(self.ecu(rng)),
            _ => Scope::Group(rng.pick(&self.groups).unwrap_or_default()),
        }
    }

    fn set(&self, rng: &mut Rng) -> EcuSet {
        let length = match rng.below(20) {
            0..=2 => 0,
            3..=17 => 1 + rng.below(4),
            _ => rng.below(self.ecus.len() + 1),
        };
        let mut set = EcuSet::default();
        for _ in 0..length {
            set.insert(self.ecu(rng));
        }
        if self.long_sets && rng.percent(20) {
            set = EcuSet([rng.word(), rng.word(), rng.word(), rng.word()]);
        }
        set
    }

    /// A coverage for a scope: mostly what a client would ask for, but not always.
    fn coverage(&self, rng: &mut Rng, scope: Scope) -> Coverage {
        match (scope, rng.below(10)) {
            (Scope::Vehicle, 0..=5) | (_, 0) if rng.percent(90) => Coverage::Vehicle,
            (Scope::Ecu(ecu), 1..=4) => Coverage::of(&[ecu]),
            _ => Coverage::Set(self.set(rng)),
        }
    }

    fn lock(&self, rng: &mut Rng, id: Id, scope: Scope) -> Lock {
        Lock {
            id,
            scope,
            exclusive: rng.percent(50),
            coverage: self.coverage(rng, scope),
            subject: self.subject(rng),
            principal: rng.below(4) as u32 * 0x5555_5555,
            metadata: rng.below(4) as u32 * 0x5555_5555,
        }
    }
}

/// Distinct ids: zero, all ones, ids that differ in one half or in one byte, random ones.
fn ids_of(rng: &mut Rng, count: usize) -> Vec<Id> {
    let mut ids: Vec<Id> = Vec::with_capacity(count);
    while ids.len() < count {
        let n = rng.below(count * 4 + 8) as u128;
        let id = Id::from_number(match rng.below(8) {
            0 => 0,
            1 => u128::MAX - n,
            2..=3 => n,
            4 => n << 64,
            5 => n.rotate_right(8),
            _ => u128::from(rng.word()) << 64 | u128::from(rng.word()),
        });
        if !ids.contains(&id) {
            ids.push(id);
        }
    }
    ids
}

fn subject(rng: &mut Rng) -> u16 {
    match rng.below(4) {
        0 => rng.word() as u16,
        1 => u16::MAX,
        _ => rng.below(4) as u16,
    }
}

/// Mostly low numbers and the edges of bytes and words.
fn ecu(rng: &mut Rng) -> u8 {
    match rng.below(4) {
        0 => rng.byte(),
        1 => [7, 8, 63, 64, 127, 128, 191, 192, 255][rng.below(9)],
        _ => rng.below(8) as u8,
    }
}

fn revision(rng: &mut Rng) -> u64 {
    match rng.below(20) {
        0..=1 => u64::MAX,
        2 => u64::MAX - 1,
        3 => u64::MAX - 2,
        4 => rng.word(),
        _ => rng.below(1000) as u64,
    }
}

/// What kind of state to make.
#[derive(Clone, Copy, Debug, PartialEq, Eq)]
pub enum Profile {
    /// No locks at all.
    Empty,
    /// A handful of locks from pools so small that nearly everything meets.
    Tiny,
    /// Up to a dozen of each.
    Small,
    /// Any number up to the limits.
    Wide,
    /// At the limits or one or two below, in either list or both.
    Full,
    /// Few active locks and one long chain of defunct ones.
    Chain,
    /// What operations make from empty.
    Reachable,
}

impl Profile {
    /// Mostly small states, since those are quick and meet most often.
    pub fn draw(rng: &mut Rng) -> Self {
        match rng.below(100) {
            0..=3 => Self::Empty,
            4..=48 => Self::Tiny,
            49..=78 => Self::Small,
            79..=83 => Self::Wide,
            84..=90 => Self::Full,
            91..=93 => Self::Chain,
            _ => Self::Reachable,
        }
    }

    fn world(self, rng: &mut Rng) -> World {
        let few = 1 + rng.below(4);
        match self {
            Self::Empty | Self::Tiny | Self::Reachable => {
                let ecus = 1 + rng.below(6);
                let ids = 4 + rng.below(12);
                World::new(rng, ids, few, ecus)
            }
            Self::Small => World::new(rng, 32, few, 10),
            Self::Wide | Self::Full | Self::Chain => {
                let subjects = 1 + rng.below(8);
                let ids = ACTIVE_LIMIT + DEFUNCT_LIMIT + 16;
                World::new(rng, ids, subjects, 80)
            }
        }
    }

    fn counts(self, rng: &mut Rng) -> (usize, usize) {
        match self {
            Self::Empty | Self::Reachable => (0, 0),
            Self::Tiny => (rng.below(5), rng.below(5)),
            Self::Small => (rng.below(13), rng.below(13)),
            Self::Wide => (rng.below(ACTIVE_LIMIT + 1), rng.below(DEFUNCT_LIMIT + 1)),
            Self::Full => full_counts(rng),
            Self::Chain => (
                rng.below(4),
                DEFUNCT_LIMIT - if rng.percent(50) { 0 } else { rng.below(30) },
            ),
        }
    }
}

fn full_counts(rng: &mut Rng) -> (usize, usize) {
    let active = ACTIVE_LIMIT - rng.below(3) / 2;
    let defunct = DEFUNCT_LIMIT - rng.below(6) / 3;
    match rng.below(3) {
        0 => (active, rng.below(6)),
        1 => (1 + rng.below(6), defunct),
        _ => (active, defunct),
    }
}

/// A sound state and the pools it was made from.
#[derive(Clone, Debug)]
pub struct Case {
    pub profile: Profile,
    pub world: World,
    pub state: State,
}

impl Case {
    pub fn draw(rng: &mut Rng) -> Self {
        let profile = Profile::draw(rng);
        Self::of(rng, profile)
    }

    pub fn of(rng: &mut Rng, profile: Profile) -> Self {
        let world = profile.world(rng);
        let mut case = Self {
            profile,
            world,
            state: State::default(),
        };
        if profile == Profile::Reachable {
            case.reach(rng);
        } else {
            let (active, defunct) = profile.counts(rng);
            case.state = Builder::new(rng, &case.world, profile).state(active, defunct);
        }
        case
    }

    /// Runs operations from empty through the original.
    fn reach(&mut self, rng: &mut Rng) {
        for _ in 0..rng.below(40) {
            let operation = operation(rng, self);
            self.state = Judge::new(&self.state).apply(&operation).state;
        }
    }
}

struct Builder<'a> {
    rng: &'a mut Rng,
    world: &'a World,
    profile: Profile,
    /// Ids not yet given away.
    free: Vec<Id>,
    active: Vec<Active>,
}

impl<'a> Builder<'a> {
    fn new(rng: &'a mut Rng, world: &'a World, profile: Profile) -> Self {
        let mut free = world.ids.clone();
        rng.shuffle(&mut free);
        Self {
            rng,
            world,
            profile,
            free,
            active: Vec::new(),
        }
    }

    fn state(mut self, active: usize, defunct: usize) -> State {
        if active > 0 && self.rng.percent(60) {
            self.vehicle();
        }
        let mut tries = 0;
        while self.active.len() < active && tries < 20 * ACTIVE_LIMIT {
            self.narrow();
            tries += 1;
        }
        self.active.sort_by_key(|a| a.lock.id);
        let defunct = self.defunct(defunct);
        State {
            revision: revision(self.rng),
            active: self.active,
            defunct,
        }
    }

    fn vehicle(&mut self) {
        let Some(id) = self.free.pop() else { return };
        let lock = self.world.lock(self.rng, id, Scope::Vehicle);
        let expires = self.world.time(self.rng);
        self.active.push(Active {
            lock,
            expires,
            parent: None,
        });
    }

    /// Adds one lock that isn't a vehicle lock, if the one drawn can be made to fit.
    fn narrow(&mut self) {
        let scope = self.world.scope(self.rng);
        if scope == Scope::Vehicle || self.active.iter().any(|a| a.lock.scope == scope) {
            return;
        }
        let Some(id) = self.free.pop() else { return };
        let mut lock = self.world.lock(self.rng, id, scope);
        self.make_fit(&mut lock);
        let parent = self.parent_for(&lock);
        let expires = self.world.time(self.rng);
        self.active.push(Active {
            lock,
            expires,
            parent,
        });
    }

    /// Rule 8: takes over the subject of what it overlaps; if two subjects claim it, the empty
    /// set overlaps nobody, except a narrow lock of the whole vehicle, whose subject it takes.
    fn make_fit(&mut self, lock: &mut Lock) {
        for _ in 0..2 {
            let mut owners: Vec<u16> = self
                .active
                .iter()
                .filter(|a| a.lock.scope != Scope::Vehicle)
                .filter(|a| a.lock.coverage.overlaps(&lock.coverage))
                .map(|a| a.lock.subject)
                .collect();
            owners.sort_unstable();
            owners.dedup();
            match owners[..] {
                [] => return,
                [owner] => return lock.subject = owner,
                _ => lock.coverage = Coverage::of(&[]),
            }
        }
    }

    fn parent_for(&mut self, lock: &Lock) -> Option<Id> {
        let vehicle = self
            .active
            .iter()
            .find(|a| a.lock.scope == Scope::Vehicle)?
            .lock;
        let fits = vehicle.subject == lock.subject && vehicle.coverage.contains(&lock.coverage);
        (fits && self.rng.percent(75)).then_some(vehicle.id)
    }

    /// Entries point at entries made before them, at active locks or at ids that are nowhere,
    /// so no ring closes. Ids are drawn in random order, so links go up and down.
    fn defunct(&mut self, count: usize) -> Vec<Defunct> {
        // A chain is unbroken every other time, so that the longest walks occur.
        let chain = self.profile == Profile::Chain || self.rng.percent(10);
        let held = if self.rng.percent(50) { 100 } else { 98 };
        let mut entries: Vec<Defunct> = Vec::new();
        while entries.len() < count {
            let Some(id) = self.free.pop() else { break };
            let target = match entries.last() {
                Some(last) if chain && self.rng.percent(held) => last.lock.id,
                _ => self.target(&entries, id),
            };
            entries.push(self.entry(id, target));
        }
        entries.sort_by_key(|d| d.lock.id);
        entries
    }

    fn target(&mut self, entries: &[Defunct], id: Id) -> Id {
        let placed = match self.rng.below(10) {
            0..=3 => self.rng.pick(entries).map(|d| d.lock.id),
            4..=7 => self.rng.pick(&self.active).map(|a| a.lock.id),
            _ => None,
        };
        // What is left of the free ids may become an entry later, and then a ring: an id that
        // no pool holds can't.
        placed.unwrap_or_else(|| self.absent(id))
    }

    fn absent(&mut self, id: Id) -> Id {
        loop {
            let absent = Id::from_words(self.rng.word(), id.words()[1]);
            if !self.world.ids.contains(&absent) {
                return absent;
            }
        }
    }

    fn entry(&mut self, id: Id, target: Id) -> Defunct {
        let scope = self.world.scope(self.rng);
        Defunct {
            lock: self.world.lock(self.rng, id, scope),
            expires: self.world.time(self.rng),
            broken_at: self.world.time(self.rng),
            broken_by: self.rng.below(4) as u32 * 0x5555_5555,
            target,
            holder: self.world.subject(self.rng),
        }
    }
}

/// Ids in all their roles.
struct Names {
    active: Vec<Id>,
    defunct: Vec<Id>,
    targets: Vec<Id>,
    free: Vec<Id>,
}

impl Names {
    fn of(case: &Case) -> Self {
        let active: Vec<Id> = case.state.active.iter().map(|a| a.lock.id).collect();
        let defunct: Vec<Id> = case.state.defunct.iter().map(|d| d.lock.id).collect();
        let targets = case.state.defunct.iter().map(|d| d.target).collect();
        let used = |id: &Id| active.contains(id) || defunct.contains(id);
        let free = case
            .world
            .ids
            .iter()
            .copied()
            .filter(|id| !used(id))
            .collect();
        Self {
            active,
            defunct,
            targets,
            free,
        }
    }

    /// An id to insert: mostly a free one, sometimes one that defunct entries wait for.
    fn new_id(&self, rng: &mut Rng) -> Id {
        let drawn = match rng.below(100) {
            0..=4 => rng.pick(&self.active),
            5..=8 => rng.pick(&self.defunct),
            9..=18 => rng.pick(&self.targets),
            19..=88 => rng.pick(&self.free),
            _ => None,
        };
        drawn.unwrap_or_else(|| Id::from_words(rng.word(), rng.word()))
    }

    fn active_id(&self, rng: &mut Rng) -> Id {
        let drawn = match rng.below(100) {
            0..=84 => rng.pick(&self.active),
            85..=89 => rng.pick(&self.defunct),
            90..=94 => rng.pick(&self.free),
            _ => None,
        };
        drawn.unwrap_or_else(|| Id::from_words(rng.word(), rng.word()))
    }

    fn defunct_id(&self, rng: &mut Rng) -> Id {
        let drawn = match rng.below(100) {
            0..=84 => rng.pick(&self.defunct),
            85..=89 => rng.pick(&self.active),
            90..=94 => rng.pick(&self.targets),
            _ => rng.pick(&self.free),
        };
        drawn.unwrap_or_else(|| Id::from_words(rng.word(), rng.word()))
    }
}

/// Any operation on the case's state, leaning towards each refusal.
pub fn operation(rng: &mut Rng, case: &Case) -> Operation {
    let kind = [0, 0, 0, 1, 1, 2, 3, 4, 5, 5, 5, 5, 6, 7, 8][rng.below(15)];
    operation_of(rng, case, kind)
}

/// An operation of a kind 0..=8, in the order of [`Operation`].
pub fn operation_of(rng: &mut Rng, case: &Case, kind: usize) -> Operation {
    let names = Names::of(case);
    let world = &case.world;
    match kind {
        0 => Operation::InsertActive {
            lock: newcomer(rng, case, &names, None),
        },
        1 => insert_vehicle(rng, case, &names),
        2 => renew(rng, case, &names),
        3 => Operation::Delete {
            id: names.active_id(rng),
        },
        4 => begin_expiration(rng, case, &names),
        5 => commit_replacement(rng, case, &names),
        6 => Operation::AcknowledgeDefunct {
            id: names.defunct_id(rng),
        },
        7 => Operation::ExpireDefunct {
            now: world.time(rng),
        },
        _ => delete_defunct(rng, case, &names),
    }
}

/// A lock to insert. With a scope given it takes that one.
fn newcomer(rng: &mut Rng, case: &Case, names: &Names, scope: Option<Scope>) -> Active {
    let world = &case.world;
    let scope = scope.unwrap_or_else(|| free_scope(rng, case));
    let id = names.new_id(rng);
    let mut lock = world.lock(rng, id, scope);
    let parent = parent(rng, case, names, &mut lock);
    match rng.below(10) {
        0..=3 => befriend(rng, case, &mut lock),
        // Meets nobody's set, so that a full table is what is left to refuse it.
        4..=6 if case.state.active.len() > 12 => lock.coverage = Coverage::of(&[]),
        _ => {}
    }
    Active {
        lock,
        expires: world.time(rng),
        parent,
    }
}

/// Mostly a scope nobody holds.
fn free_scope(rng: &mut Rng, case: &Case) -> Scope {
    let mut scope = case.world.scope(rng);
    for _ in 0..4 {
        if case.state.holder_of(scope).is_none() || rng.percent(15) {
            break;
        }
        scope = case.world.scope(rng);
    }
    scope
}

/// None, the vehicle lock (with its subject, mostly, and often inside its set), another active
/// lock, an id that isn't active, or the lock itself.
fn parent(rng: &mut Rng, case: &Case, names: &Names, lock: &mut Lock) -> Option<Id> {
    match rng.below(100) {
        0..=39 => {
            let vehicle = case.state.holder_of(Scope::Vehicle)?.lock;
            if rng.percent(80) {
                lock.subject = vehicle.subject;
            }
            if let (Coverage::Set(outer), true) = (vehicle.coverage, rng.percent(60)) {
                lock.coverage = Coverage::Set(part(rng, outer));
            }
            Some(vehicle.id)
        }
        40..=44 => rng.pick(&names.active),
        45..=46 => Some(names.new_id(rng)),
        47 => Some(lock.id),
        _ => None,
    }
}

fn part(rng: &mut Rng, set: EcuSet) -> EcuSet {
    let mut part = EcuSet::default();
    for ecu in set.iter() {
        if rng.percent(60) {
            part.insert(ecu);
        }
    }
    part
}

/// Gives the lock the subject of the first other lock it overlaps, so that it gets past 7.
fn befriend(rng: &mut Rng, case: &Case, lock: &mut Lock) {
    let start = rng.below(case.state.active.len() + 1);
    let meets = |a: &&Active| a.lock.coverage.overlaps(&lock.coverage);
    if let Some(other) = case
        .state
        .active
        .iter()
        .cycle()
        .skip(start)
        .take(64)
        .find(meets)
    {
        lock.subject = other.lock.subject;
    }
}

fn insert_vehicle(rng: &mut Rng, case: &Case, names: &Names) -> Operation {
    let scope = if rng.percent(92) {
        Scope::Vehicle
    } else {
        case.world.scope(rng)
    };
    let mut lock = newcomer(rng, case, names, Some(scope));
    if rng.percent(95) {
        lock.parent = None;
    }
    // Mostly the subject's own parentless locks, as the caller in 001 lists them.
    let willing = |a: &&Active| a.lock.scope != Scope::Vehicle && a.parent.is_none();
    let roots: Vec<&Active> = case.state.active.iter().filter(willing).collect();
    if let Some(first) = rng.pick(&roots)
        && rng.percent(80)
    {
        lock.lock.subject = first.lock.subject;
    }
    let mut children: Vec<Id> = roots
        .iter()
        .filter(|a| a.lock.subject == lock.lock.subject)
        .map(|a| a.lock.id)
        .filter(|_| rng.percent(70))
        .collect();
    if rng.percent(25) {
        children.push(names.active_id(rng));
    }
    Operation::InsertVehicle {
        lock,
        children: list(rng, children),
    }
}

/// Shuffled, sometimes with repeats, rarely with a word too many.
fn list(rng: &mut Rng, mut ids: Vec<Id>) -> IdList {
    if rng.percent(20)
        && let Some(again) = rng.pick(&ids)
    {
        ids.push(again);
    }
    rng.shuffle(&mut ids);
    let mut list = IdList::of(&ids);
    if rng.percent(2) {
        list.0.push(rng.word());
    }
    list
}

/// A time at, one before, one after this one, or any.
fn near(rng: &mut Rng, world: &World, time: u64) -> u64 {
    match rng.below(8) {
        0..=1 => time,
        2..=3 => time.saturating_sub(1),
        4..=5 => time.saturating_add(1),
        _ => world.time(rng),
    }
}

fn renew(rng: &mut Rng, case: &Case, names: &Names) -> Operation {
    let id = names.active_id(rng);
    let old = case.state.active_at(id).map_or(0, |a| a.expires);
    let now = if rng.percent(60) {
        old.saturating_sub(1)
    } else {
        near(rng, &case.world, old)
    };
    let expires = near(rng, &case.world, old);
    let metadata = rng.percent(50).then(|| rng.below(3) as u32);
    Operation::Renew {
        id,
        expires,
        now,
        metadata,
    }
}

fn begin_expiration(rng: &mut Rng, case: &Case, names: &Names) -> Operation {
    let id = names.active_id(rng);
    let due = case.state.active_at(id).map_or(0, |a| a.expires);
    Operation::BeginExpiration {
        id,
        now: near(rng, &case.world, due),
    }
}

fn commit_replacement(rng: &mut Rng, case: &Case, names: &Names) -> Operation {
    let nested = if rng.percent(25) {
        nested_roots(rng, case)
    } else {
        None
    };
    let (mut roots, scope) = nested.unwrap_or_else(|| any_roots(rng, case, names));
    let mut lock = newcomer(rng, case, names, scope);
    if scope == Some(Scope::Vehicle) && rng.percent(90) {
        lock.parent = None;
    }
    if scope == Some(Scope::Vehicle) && rng.percent(60) {
        roots.extend(case.state.holder_of(Scope::Vehicle).map(|a| a.lock.id));
    }
    Operation::CommitReplacement {
        roots: list(rng, roots),
        lock,
        broken_by: rng.below(3) as u32,
        broken_at: case.world.time(rng),
    }
}

/// Any roots, and mostly the scope of something that goes, so that 6 stays rare.
fn any_roots(rng: &mut Rng, case: &Case, names: &Names) -> (Vec<Id>, Option<Scope>) {
    let mut roots: Vec<Id> = Vec::new();
    let count = [0, 1, 1, 1, 1, 2, 2, 3, 5, 64][rng.below(10)];
    for _ in 0..count {
        roots.extend(rng.pick(&names.active));
    }
    if rng.percent(6) {
        roots.push(names.active_id(rng));
    }
    let going = rng.pick(&roots).and_then(|id| case.state.active_at(id));
    let scope = match rng.below(10) {
        0..=4 => going.map(|a| a.lock.scope),
        5..=6 => Some(Scope::Vehicle),
        7 => rng.pick(&case.state.active).map(|a| a.lock.scope),
        _ => None,
    };
    (roots, scope)
}

/// A vehicle and a group under it as roots, and the scope of an ECU lock that goes only with
/// the group: whether it goes depends on which root has the lower id.
fn nested_roots(rng: &mut Rng, case: &Case) -> Option<(Vec<Id>, Option<Scope>)> {
    let active = &case.state.active;
    let groups: Vec<&Active> = active.iter().filter(|a| a.parent.is_some()).collect();
    let group = rng.pick(&groups)?;
    let goes_along = |a: &&Active| match a.lock.scope {
        Scope::Ecu(ecu) => {
            a.parent.is_none()
                && a.lock.subject == group.lock.subject
                && group.lock.coverage.covers(ecu)
        }
        _ => false,
    };
    let alone: Vec<&Active> = active.iter().filter(goes_along).collect();
    let scope = rng.pick(&alone)?.lock.scope;
    Some((vec![group.parent?, group.lock.id], Some(scope)))
}

fn delete_defunct(rng: &mut Rng, case: &Case, names: &Names) -> Operation {
    let id = names.defunct_id(rng);
    let entry = case.state.defunct_at(id).map(|d| d.lock);
    let scope = entry.filter(|_| rng.percent(80)).map(|lock| lock.scope);
    let subject = entry.filter(|_| rng.percent(70)).map(|lock| lock.subject);
    Operation::DeleteDefunct {
        id,
        scope: scope.unwrap_or_else(|| case.world.scope(rng)),
        subject: subject.unwrap_or_else(|| case.world.subject(rng)),
    }
}

/// Any read on the case's state.
pub fn read(rng: &mut Rng, case: &Case) -> Read {
    let kind = rng.below(14);
    read_of(rng, case, kind)
}

/// A read of a kind 0..=13, in the order of [`Read`].
pub fn read_of(rng: &mut Rng, case: &Case, kind: usize) -> Read {
    let (names, world) = (Names::of(case), &case.world);
    match kind {
        0 => Read::Revision,
        1 => Read::ActiveForScope(held_scope(rng, case)),
        2 => Read::ActiveById(names.active_id(rng)),
        3 => Read::DefunctById(names.defunct_id(rng)),
        4 => Read::ActiveAt(rng.below(case.state.active.len() + 2)),
        5 => Read::DefunctAt(rng.below(case.state.defunct.len() + 2)),
        6 => Read::CoveredNarrowLocks(broad(rng, case, &names)),
        7 => Read::CoveringFunctionalGroup {
            subject: world.subject(rng),
            ecu: world.ecu(rng),
        },
        8 => Read::TesterPresentFor {
            subject: world.subject(rng),
            scope: held_scope(rng, case),
        },
        9 => Read::TesterPresentNeeded(tester_present(rng, case)),
        10 => uncovered(rng, case),
        11 => Read::CurrentHolder(record(rng, case, &names)),
        12 => Read::VehicleLockOwnerSub,
        _ => Read::HasNonVehicleLocks,
    }
}

fn held_scope(rng: &mut Rng, case: &Case) -> Scope {
    match rng.pick(&case.state.active) {
        Some(active) if rng.percent(50) => active.lock.scope,
        _ => case.world.scope(rng),
    }
}

fn tester_present(rng: &mut Rng, case: &Case) -> TesterPresent {
    match held_scope(rng, case) {
        Scope::Ecu(ecu) => TesterPresent::Ecu(ecu),
        Scope::Group(group) => TesterPresent::Functional(group),
        Scope::Vehicle => TesterPresent::Ecu(case.world.ecu(rng)),
    }
}

/// A lock of the state, or one that isn't there.
fn broad(rng: &mut Rng, case: &Case, names: &Names) -> Active {
    match rng.pick(&case.state.active) {
        Some(active) if rng.percent(50) => active,
        _ => {
            let group = Scope::Group(rng.pick(&case.world.groups).unwrap_or_default());
            let scope = rng.percent(80).then_some(group);
            let mut lock = newcomer(rng, case, names, scope);
            befriend(rng, case, &mut lock.lock);
            lock
        }
    }
}

fn uncovered(rng: &mut Rng, case: &Case) -> Read {
    let entry = rng.pick(&case.state.defunct);
    let scope = match entry {
        Some(d) if rng.percent(30) => d.lock.scope,
        _ => case.world.scope(rng),
    };
    let due = entry.map_or(0, |d| d.expires);
    Read::UncoveredDefunct {
        subject: entry.map_or_else(|| case.world.subject(rng), |d| d.lock.subject),
        scope,
        coverage: case.world.coverage(rng, scope),
        now: if rng.percent(50) {
            0
        } else {
            near(rng, &case.world, due)
        },
    }
}

/// An entry of the state, one changed to point elsewhere, or one that isn't there.
fn record(rng: &mut Rng, case: &Case, names: &Names) -> Defunct {
    let id = names.new_id(rng);
    let foreign = Defunct {
        lock: case.world.lock(rng, id, Scope::Vehicle),
        expires: 0,
        broken_at: 0,
        broken_by: 0,
        target: names.defunct_id(rng),
        holder: case.world.subject(rng),
    };
    if rng.percent(25)
        && let Some(longest) = case
            .state
            .defunct
            .iter()
            .max_by_key(|d| links(&case.state, d))
    {
        // The longest walk of a stored record, and one longer from outside.
        let outside = Defunct {
            target: longest.lock.id,
            ..foreign
        };
        return if rng.percent(50) { *longest } else { outside };
    }
    match rng.pick(&case.state.defunct) {
        Some(entry) if rng.percent(60) => entry,
        Some(entry) if rng.percent(50) => Defunct {
            target: foreign.target,
            ..entry
        },
        _ => foreign,
    }
}

/// A feed for this case: records mostly in turn from `expected`, with lost, repeated and
/// reordered ones, and rarely damaged bytes.
pub fn feed(rng: &mut Rng, case: &Case, expected: u32, records: usize) -> Vec<u8> {
    let mut case = case.clone();
    let mut sequence = expected;
    let mut feed = Vec::new();
    for _ in 0..records {
        let operation = operation(rng, &case);
        let number = match rng.below(20) {
            0 => sequence.wrapping_sub(1 + rng.below(3) as u32),
            1 => sequence.wrapping_add(1 + rng.below(3) as u32),
            2 => sequence.wrapping_add(0x7fff_fffe + rng.below(4) as u32),
            _ => sequence,
        };
        let Some(record) = wire::write_feed(&operation, number) else {
            continue;
        };
        feed.extend(record);
        if number == sequence {
            case.state = Judge::new(&case.state).apply(&operation).state;
            sequence = sequence.wrapping_add(1);
        }
    }
    if rng.percent(20) {
        damage(rng, &mut feed);
    }
    feed
}

/// Changes bytes: a bit, a byte, a cut, an extra byte, two records' worth swapped.
pub fn damage(rng: &mut Rng, bytes: &mut Vec<u8>) {
    if bytes.is_empty() {
        return bytes.push(rng.byte());
    }
    let at = rng.below(bytes.len());
    match rng.below(7) {
        0 => bytes[at] ^= 1 << rng.below(8),
        1 => bytes[at] = rng.byte(),
        2 => bytes[at] = [0, 1, 2, 3, 255][rng.below(5)],
        3 => bytes.truncate(at),
        4 => bytes.insert(at, rng.byte()),
        5 => bytes.push(rng.byte()),
        _ => {
            bytes.remove(at);
        }
    }
}

/// A state that may break any rule: a sound one with one or two fields changed. For 12.
pub fn unsound(rng: &mut Rng, case: &Case) -> State {
    let mut state = case.state.clone();
    for _ in 0..1 + rng.below(2) {
        spoil(rng, case, &mut state);
    }
    state
}

fn spoil(rng: &mut Rng, case: &Case, state: &mut State) {
    let ids: Vec<Id> = state
        .active
        .iter()
        .map(|a| a.lock.id)
        .chain(state.defunct.iter().map(|d| d.lock.id))
        .collect();
    let id = rng.pick(&ids).unwrap_or_else(|| case.world.id(rng));
    let (subject, scope) = (case.world.subject(rng), case.world.scope(rng));
    let coverage = case.world.coverage(rng, scope);
    let actives = state.active.len();
    let defuncts = state.defunct.len();
    match rng.below(8) {
        0..=4 if actives > 0 => {
            let active = &mut state.active[rng.below(actives)];
            match rng.below(5) {
                0 => active.parent = Some(id),
                1 => active.lock.subject = subject,
                2 => active.lock.coverage = coverage,
                3 => active.lock.scope = scope,
                _ => active.lock.id = id,
            }
            resort(rng, state);
        }
        5..=6 if defuncts > 0 => {
            let entry = &mut state.defunct[rng.below(defuncts)];
            match rng.below(3) {
                0 => entry.lock.id = id,
                _ => entry.target = id,
            }
            resort(rng, state);
        }
        _ => {
            if let Some(again) = rng.pick(&state.active) {
                state.active.push(again);
            }
        }
    }
}

/// Mostly puts the lists back in order, so that a rule above 0 is the lowest broken.
fn resort(rng: &mut Rng, state: &mut State) {
    if rng.percent(90) {
        state.active.sort_by_key(|a| a.lock.id);
        state.active.dedup_by_key(|a| a.lock.id);
        state.defunct.sort_by_key(|d| d.lock.id);
        state.defunct.dedup_by_key(|d| d.lock.id);
    }
}

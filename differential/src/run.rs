// SPDX-License-Identifier: Apache-2.0
//! What the differential run does. It goes by blocks: a block has its own seed, so that any
//! number of threads gives the same run and a block that failed can be run alone.

use cablegorse::{Refusal, Replica};
use oracle::{
    board,
    boundary::{self, Full, Own, Told},
    generate::{self, Case, Profile, Rng},
    judge::{Judge, Spare},
    model::{Operation, State},
    names, paper, small,
    stories::Retold,
    wire,
};

use crate::{
    boards,
    pair::{self, Buffers, Question, Subject},
    stories::Both,
    tally::{ENTRIES, Tally, label},
};

/// Sound states in a block.
pub const STATES: usize = 64;

/// Kinds of operation tried on every state, in the order of [`Operation`]; those with the most
/// answers twice or thrice.
const KINDS: [usize; 14] = [0, 0, 0, 1, 1, 2, 3, 4, 5, 5, 5, 6, 7, 8];

/// Percent of the tiny universe's operations, and of the stories, that are gone over with a board:
/// every operation on the other states is.
const WITH_A_BOARD: usize = 15;

/// The same of damaged and unsound images.
const DAMAGED_WITH_A_BOARD: usize = 10;

/// One kind is drawn for a state's stories.
const STORY_KINDS: [usize; 16] = [0, 0, 0, 1, 1, 1, 2, 3, 4, 4, 5, 5, 6, 6, 7, 8];

/// Entries of a state that are asked for their story.
const ASKED: usize = 4;

/// Percent of the damaged and unsound images that are gone over as a primary does; every operation
/// on a sound state is.
const AS_A_PRIMARY: usize = 15;

/// The operations that go through a feed, by kind from 16 on.
pub const FEED_NAMES: [&str; 8] = [
    "insert_active",
    "insert_vehicle",
    "renew",
    "delete",
    "begin_expiration",
    "commit_replacement",
    "acknowledge_defunct",
    "expire_defunct",
];

/// One thread's state.
pub struct Run {
    rng: Rng,
    /// For what is done with boards, so that the rest is the same without it.
    boards: Rng,
    /// The same for what is done as a primary.
    pub(crate) writer: Rng,
    pub(crate) buffers: Buffers,
    pub(crate) tally: Tally,
}

/// Enough for any next image, removed locks, expired ids and record.
const AMPLE: [usize; 4] = [20_000, 6_000, 2_100, 1_200];

/// Lengths of the output buffers: mostly longer than needed, some exact, some short.
pub(crate) fn lengths<const N: usize>(rng: &mut Rng, needed: [usize; N]) -> [usize; N] {
    let mut lengths = match rng.below(8) {
        0 => needed,
        1..=2 => std::array::from_fn(|place| AMPLE[place]),
        _ => needed.map(|bytes| bytes + rng.below(40)),
    };
    if rng.percent(6) {
        let which = rng.below(N);
        lengths[which] = match rng.below(3) {
            0 => 0,
            1 => needed[which].saturating_sub(1),
            _ => rng.below(needed[which] + 1),
        };
    }
    lengths
}

impl Run {
    pub(crate) fn new(seed: u64) -> Self {
        // Neighbouring seeds give unrelated blocks.
        let mut rng = Rng::new(seed);
        let [rng, boards, writer] = [(); 3].map(|()| Rng::new(rng.word()));
        Self {
            rng,
            boards,
            writer,
            buffers: Buffers::default(),
            tally: Tally::default(),
        }
    }

    /// Random sound states, everything on each.
    #[must_use]
    pub fn block(seed: u64) -> Tally {
        let mut run = Self::new(seed);
        for _ in 0..STATES {
            run.state();
        }
        run.tables();
        run.tally
    }

    fn state(&mut self) {
        let case = Case::draw(&mut self.rng);
        let expected = self.number();
        let image = wire::write_image(&case.state, expected).expect("a sound state");
        let kept = image.clone();
        let mut judge = Judge::new(&case.state);
        let mut subject = Subject::new(&image, &mut judge, expected);
        self.tally.states += 1;
        let told = pair::test(&image);
        self.tally.see("test", label(&told));
        self.board(&subject);
        for kind in KINDS {
            let operation = generate::operation_of(&mut self.rng, &case, kind);
            self.operation(&subject, &operation);
        }
        for kind in 0..14 {
            self.read(&case, &mut subject, kind);
        }
        self.prepare(&subject);
        self.odd_scope(&subject);
        assert_eq!(image, kept, "a lent image was written");
        let board = subject.board;
        self.stories(&case);
        self.damaged(&case, &image, &board);
        self.unsound(&case, expected, &board);
        if matches!(
            case.profile,
            Profile::Tiny | Profile::Small | Profile::Empty
        ) {
            self.feed(&case, expected);
        }
        if self.rng.percent(25) {
            self.chunk(&case, expected);
        }
    }

    /// An expected number: often at the wrap.
    fn number(&mut self) -> u32 {
        match self.rng.below(6) {
            0 => 0,
            1 => u32::MAX - self.rng.below(4) as u32,
            2 => 0x7fff_ffff + self.rng.below(3) as u32,
            _ => self.rng.word() as u32,
        }
    }

    fn operation(&mut self, subject: &Subject<'_>, operation: &Operation) {
        let rng = &mut self.rng;
        if matches!(operation, Operation::DeleteDefunct { .. }) {
            let applied = pair::delete_defunct(&mut self.buffers, subject, operation, |needed| {
                lengths(rng, [needed, 0, 0])[0]
            });
            self.tally.operations += 1;
            self.tally.see("delete_defunct", label(&applied.told));
            return self.deletion_with_a_board(subject, operation);
        }
        let sequence = match rng.below(24) {
            0 => subject.expected.wrapping_add(1 + rng.below(3) as u32),
            1 => subject.expected.wrapping_sub(1 + rng.below(3) as u32),
            2 => subject
                .expected
                .wrapping_add(0x7fff_fffe + rng.below(4) as u32),
            _ => subject.expected,
        };
        let own = self.as_a_primary(subject, operation, sequence);
        // No record holds half an id or more than 64 of them.
        let Some(record) = wire::write_feed(operation, sequence) else {
            return;
        };
        let rng = &mut self.rng;
        // A record in the middle of other bytes is the same record.
        let before = if rng.percent(20) { rng.below(70) } else { 0 };
        let mut feed: Vec<u8> = (0..before).map(|_| rng.word() as u8).collect();
        feed.extend_from_slice(&record);
        if rng.percent(20) {
            feed.extend((0..rng.below(9)).map(|_| rng.word() as u8));
        }
        let (applied, full) = pair::apply(&mut self.buffers, subject, &feed, before, |needed| {
            lengths(rng, needed)
        });
        self.tally.operations += 1;
        let name = FEED_NAMES[usize::from(operation.kind().unwrap_or(16) - 16)];
        self.tally.see(name, answer(&applied.told, operation));
        self.with_a_board(subject, name, (&feed, before), &full);
        if sequence == subject.expected {
            same_step(&own, &full);
        }
    }

    /// The board of a state: 02, C-11.
    fn board(&mut self, subject: &Subject<'_>) {
        let short = self.boards.below(board::SIZE);
        let length = [board::SIZE, board::SIZE, 5000, short][self.boards.below(4)];
        let told = boards::board(&mut self.buffers, subject, length);
        self.tally.calls += 1;
        self.tally.see("board", label(&told));
    }

    /// A record once more, with the image's board lent; now and then with another board too.
    fn with_a_board(
        &mut self,
        subject: &Subject<'_>,
        name: &'static str,
        record: (&[u8], usize),
        full: &Full,
    ) {
        let another = self.another(subject);
        for lent in another.iter().chain([&subject.board]) {
            let needed = [&full.next, &full.removed, &full.expired].map(Vec::len);
            let lengths = lengths(&mut self.boards, needed);
            let (applied, entries) =
                boards::apply(&mut self.buffers, subject, lent, record, full, lengths);
            self.tally.calls += 1;
            self.tally.see("apply_board", label(&applied.told));
            self.tally.see_many(ENTRIES, name.to_owned(), entries);
        }
    }

    fn deletion_with_a_board(&mut self, subject: &Subject<'_>, operation: &Operation) {
        let another = self.another(subject);
        for lent in another.iter().chain([&subject.board]) {
            let length = lengths(&mut self.boards, [subject.image.len(), 0, 0])[0];
            let applied =
                boards::delete_defunct(&mut self.buffers, subject, lent, operation, length);
            self.tally.calls += 1;
            self.tally.see("delete_defunct_board", label(&applied.told));
        }
    }

    fn another(&mut self, subject: &Subject<'_>) -> Option<Vec<u8>> {
        let rng = &mut self.boards;
        rng.percent(10)
            .then(|| boards::another(rng, &subject.board))
    }

    fn read(&mut self, case: &Case, subject: &mut Subject<'_>, kind: usize) {
        let read = generate::read_of(&mut self.rng, case, kind);
        let (mut number, mut x, mut y, mut record) = boundary::question(&read);
        // Bytes after a record are ignored.
        if self.rng.percent(10) {
            record.push(self.rng.word() as u8);
        }
        if self.rng.percent(12) {
            let odd = [0, 1, 3, 255, 256, 511, 512, 768, 65_535, 65_536, u64::MAX];
            match self.rng.below(4) {
                0 => x = odd[self.rng.below(odd.len())],
                1 => y = odd[self.rng.below(odd.len())],
                2 => generate::damage(&mut self.rng, &mut record),
                _ => number = [0, 15, 16, u32::MAX, number][self.rng.below(5)],
            }
        }
        let length =
            [0, 15, 16, 90, 91, 103, 104, 1024, 1024, 1024, 2000, 2000][self.rng.below(12)];
        let asked = Question {
            number,
            x,
            y,
            record: &record,
        };
        let told = pair::read(&mut self.buffers, subject, asked, length);
        self.tally.calls += 1;
        self.tally.see(read.name(), label(&told));
    }

    /// An operation, and what is told of some of the entries that it leaves: 02, C-20.
    fn stories(&mut self, case: &Case) {
        if case.state.defunct.is_empty() {
            return;
        }
        let kind = STORY_KINDS[self.rng.below(STORY_KINDS.len())];
        let mut operation = generate::operation_of(&mut self.rng, case, kind);
        // Now and then a lock comes with an id that an entry names.
        if let Operation::InsertActive { lock } | Operation::InsertVehicle { lock, .. } =
            &mut operation
            && self.rng.percent(30)
        {
            lock.lock.id = case.state.defunct[self.rng.below(case.state.defunct.len())].target;
        }
        let mut before = Both::new(&case.state);
        if self.boards.percent(WITH_A_BOARD) {
            before.watch();
        }
        let Some(mut after) = before.after(&operation) else {
            return;
        };
        self.tally.operations += 1;
        if after.state() == before.state() {
            return;
        }
        let mut left = after.state().defunct.clone();
        let first = self.rng.below(left.len().max(1));
        left.rotate_left(first);
        // Entries that are new or took over a target come first.
        left.sort_by_key(|entry| case.state.defunct.contains(entry));
        for entry in left.iter().take(ASKED) {
            let id = entry.lock.id;
            let was = before.told(id);
            let now = after.told(id).expect("it remains");
            let retold = Retold::of(was, now);
            retold.check(&operation, before.state(), after.state());
            self.tally.calls += if was.is_some() { 4 } else { 3 };
            let label = retold.label(&operation, before.state(), after.state());
            self.tally.see("stories", label);
        }
    }

    fn prepare(&mut self, subject: &Subject<'_>) {
        let generation = [0, 1, u64::MAX - 1, u64::MAX][self.rng.below(4)];
        let told = pair::prepare(subject, generation);
        self.tally.calls += 1;
        self.tally.see("prepare_runtime_update", label(&told));
    }

    /// A scope kind that can't be, or a vehicle with a number.
    fn odd_scope(&mut self, subject: &Subject<'_>) {
        let image = subject.image;
        let scope = [(3, 0), (255, 7), (0, 1), (0, 255)][self.rng.below(4)];
        let id = [self.rng.word(), self.rng.word()];
        let length = self.rng.below(2) * 20_000;
        let applied = pair::delete_defunct_bytes(&mut self.buffers, image, id, scope, 1, length);
        self.tally.calls += 1;
        self.tally
            .see("delete_defunct, odd scope", label(&applied.told));
        if let Some(another) = self.another(subject) {
            let lent = (image, &another[..]);
            let applied =
                boards::delete_defunct_bytes(&mut self.buffers, lent, id, scope, 1, length);
            self.tally.calls += 1;
            self.tally
                .see("delete_defunct_board, odd scope", label(&applied.told));
        }
    }

    /// Damaged images in every function that takes one.
    fn damaged(&mut self, case: &Case, image: &[u8], board: &[u8]) {
        let operation = generate::operation(&mut self.rng, case);
        let record = wire::write_feed(&operation, 0).unwrap_or_default();
        for _ in 0..3 {
            let mut bytes = image.to_vec();
            for _ in 0..1 + self.rng.below(2) {
                generate::damage(&mut self.rng, &mut bytes);
            }
            self.bytes(&bytes, &record);
            if self.boards.percent(DAMAGED_WITH_A_BOARD) {
                self.bytes_with_a_board(&bytes, &record, board);
            }
            if self.writer.percent(AS_A_PRIMARY) {
                self.performed_on_bytes(&bytes, &operation);
            }
        }
    }

    /// States that break a rule, as images.
    fn unsound(&mut self, case: &Case, expected: u32, board: &[u8]) {
        let operation = generate::operation(&mut self.writer, case);
        for _ in 0..3 {
            let state: State = generate::unsound(&mut self.rng, case);
            let bytes = wire::write_records(&state, expected);
            self.bytes(&bytes, &[]);
            if self.boards.percent(DAMAGED_WITH_A_BOARD) {
                // 12 comes first, with its own board and with another.
                let own = paper::board(&state);
                let lent = if self.boards.percent(50) { board } else { &own };
                self.bytes_with_a_board(&bytes, &[], lent);
            }
            if self.writer.percent(AS_A_PRIMARY) {
                self.performed_on_bytes(&bytes, &operation);
            }
        }
    }

    fn bytes(&mut self, image: &[u8], record: &[u8]) {
        let told = pair::test(image);
        self.tally.calls += 1;
        self.tally.see("damaged image", label(&told));
        match self.rng.below(5) {
            0 => {
                let lengths = [self.rng.below(20_000), 5824, 2048];
                let applied = pair::apply_bytes(&mut self.buffers, image, record, 0, lengths);
                self.tally
                    .see("apply to a damaged image", label(&applied.told));
            }
            1 => {
                let asked = Question {
                    number: 1 + self.rng.below(14) as u32,
                    x: 0,
                    y: 0,
                    record,
                };
                let told = pair::read_bytes(&mut self.buffers, image, asked, 1024);
                self.tally.see("read of a damaged image", label(&told));
            }
            2 => {
                let length = self.rng.below(20_000);
                let followed = pair::follow_bytes(&mut self.buffers, image, record, length);
                self.tally
                    .see("follow from a damaged image", label(&followed.told));
            }
            3 => {
                let told = pair::prepare_bytes(image, 3);
                self.tally.see("update on a damaged image", label(&told));
            }
            _ => {
                let id = [0, self.rng.below(4) as u64];
                let applied =
                    pair::delete_defunct_bytes(&mut self.buffers, image, id, (1, 0), 1, 20_000);
                self.tally
                    .see("delete_defunct, damaged image", label(&applied.told));
            }
        }
    }

    /// The same with a board lent.
    fn bytes_with_a_board(&mut self, image: &[u8], record: &[u8], board: &[u8]) {
        let rng = &mut self.boards;
        self.tally.calls += 1;
        let length = [0, board::SIZE, 20_000, 20_000][rng.below(4)];
        let (function, told) = match rng.below(3) {
            0 => {
                let told = boards::board_bytes(&mut self.buffers, image, length);
                ("board of a damaged image", told)
            }
            1 => {
                let lengths = [length, 5824, 2048];
                let feed = (record, 0);
                let applied = boards::apply_bytes(&mut self.buffers, image, board, feed, lengths);
                ("apply_board to a damaged image", applied.told)
            }
            _ => {
                let id = [0, rng.below(4) as u64];
                let scope = (rng.below(4) as u8, 0);
                let lent = (image, board);
                let applied =
                    boards::delete_defunct_bytes(&mut self.buffers, lent, id, scope, 1, length);
                ("delete_defunct_board, damaged image", applied.told)
            }
        };
        self.tally.see(function, label(&told));
    }

    /// A feed over a link that loses, repeats, reorders and damages, followed by the boundary
    /// and by the safe wrapper: record by record, and whole.
    fn feed(&mut self, case: &Case, expected: u32) {
        if self.rng.percent(60) {
            return;
        }
        let feed = self.through_a_link(case, expected);
        let image = wire::write_image(&case.state, expected).expect("a sound state");
        let mut spare = Replica::from_image(&image).expect("a sound state");
        let mut whole = spare.clone();
        // A replica with a board goes other ways through the library.
        for replica in [&mut spare, &mut whole] {
            if self.boards.percent(50) {
                replica.watch();
            }
        }
        let (mut state, mut number, mut at) = (case.state.clone(), expected, 0);
        loop {
            let image = spare.image().to_vec();
            let mut judge = Judge::new(&state);
            let subject = Subject::new(&image, &mut judge, number);
            self.kept_board(&spare, &subject.board);
            let rng = &mut self.rng;
            let (_, full) = pair::apply(&mut self.buffers, &subject, &feed, at, |needed| {
                needed.map(|bytes| bytes + rng.below(3))
            });
            let step = spare.apply(&feed, at);
            self.tally.operations += 1;
            self.tally.see("feed", label(&full.applied.told));
            check_step(&step, &full, &spare, &image);
            if full.applied.part != 2 && step.place == at {
                break;
            }
            if full.applied.part == 2 {
                let next = wire::read_image(spare.image()).expect("an image it wrote");
                (state, number) = next;
            }
            at = step.place;
        }
        let run = self.followed(&image, case, expected, &feed);
        check_run(&whole.follow(&feed), &run, &whole);
        assert_eq!(whole.image(), spare.image(), "a chunk isn't its records");
        let board = board::board(&state);
        self.kept_board(&spare, &board);
        self.kept_board(&whole, &board);
    }

    /// The board that a replica kept over its records, where it keeps one.
    fn kept_board(&mut self, replica: &Replica, due: &[u8]) {
        if let Some(board) = replica.board() {
            assert_eq!(board[..], *due, "a kept board isn't the state's");
            self.tally.see("boards of replicas", "the same".to_owned());
        }
    }

    /// A chunk on any state, cut at a random place more often than not.
    fn chunk(&mut self, case: &Case, expected: u32) {
        let mut chunk = self.through_a_link(case, expected);
        match self.rng.below(8) {
            0 => chunk.clear(),
            1..=4 => chunk.truncate(self.rng.below(chunk.len() + 1)),
            _ => {}
        }
        if self.rng.percent(10) {
            chunk.extend((0..self.rng.below(40)).map(|_| self.rng.word() as u8));
        }
        let image = wire::write_image(&case.state, expected).expect("a sound state");
        let kept = (image.clone(), chunk.clone());
        self.followed(&image, case, expected, &chunk);
        assert_eq!((image, chunk), kept, "a lent slice was written");
    }

    /// A chunk on both sides, into a buffer of some length; now and then into every shorter one.
    fn followed(
        &mut self,
        image: &[u8],
        case: &Case,
        expected: u32,
        chunk: &[u8],
    ) -> boundary::Run {
        let spare = Spare {
            state: case.state.clone(),
            expected,
        };
        let rng = &mut self.rng;
        let every = rng.percent(2);
        let (followed, run) = pair::follow(&mut self.buffers, image, spare, chunk, |needed| {
            let some = lengths(rng, [needed, 0, 0])[0];
            if every && needed < 1000 {
                (0..needed).chain([some]).collect()
            } else {
                vec![some]
            }
        });
        self.tally.calls += 1;
        self.tally.see("follow", label(&followed.told));
        let many = match run.followed.applied {
            0 => "none applied",
            1..=4 => "1 to 4 applied",
            5..=9 => "5 to 9 applied",
            _ => "more applied",
        };
        self.tally.see("follow, its records", many.to_owned());
        run
    }

    fn through_a_link(&mut self, case: &Case, expected: u32) -> Vec<u8> {
        let mut case = case.clone();
        let mut records: Vec<Vec<u8>> = Vec::new();
        let mut sequence = expected;
        for _ in 0..12 {
            let operation = generate::operation(&mut self.rng, &case);
            if let Some(record) = wire::write_feed(&operation, sequence) {
                case.state = Judge::new(&case.state).apply(&operation).state;
                sequence = sequence.wrapping_add(1);
                records.push(record);
            }
        }
        let mut sent: Vec<Vec<u8>> = Vec::new();
        for record in &records {
            match self.rng.below(20) {
                0 => {}
                1 | 2 => sent.extend([record.clone(), record.clone()]),
                3 => {
                    let earlier = self.rng.below(sent.len() + 1);
                    sent.insert(earlier, record.clone());
                }
                _ => sent.push(record.clone()),
            }
        }
        // What was lost or came early is sent again.
        if self.rng.percent(60) {
            sent.extend(records);
        }
        let mut feed = sent.concat();
        if self.rng.percent(30) {
            generate::damage(&mut self.rng, &mut feed);
        }
        feed
    }

    /// A feed for the program `replay`, which begins empty at number 0: records over a bad link,
    /// now and then too many of them, or none.
    #[must_use]
    pub fn feed_from_empty(seed: u64) -> Vec<u8> {
        let mut run = Self::new(seed);
        let mut case = Case::of(&mut run.rng, Profile::Tiny);
        case.state = State::default();
        let mut feed = match run.rng.below(8) {
            0 => Vec::new(),
            1 => generate::feed(&mut run.rng, &case, 0, 60),
            _ => run.through_a_link(&case, 0),
        };
        if !feed.is_empty() && run.rng.percent(3) {
            let length = 65_535 + run.rng.below(3);
            feed = feed.into_iter().cycle().take(length).collect();
        }
        feed
    }

    /// A base image, sometimes damaged, and a feed for it, for the program `spare`.
    #[must_use]
    pub fn base_and_feed(seed: u64) -> (Vec<u8>, Vec<u8>) {
        let mut run = Self::new(seed);
        let profile = [Profile::Tiny, Profile::Small, Profile::Full][run.rng.below(3)];
        let case = Case::of(&mut run.rng, profile);
        let expected = run.number();
        let mut base = wire::write_image(&case.state, expected).expect("a sound state");
        if run.rng.percent(15) {
            generate::damage(&mut run.rng, &mut base);
        }
        (base, run.through_a_link(&case, expected))
    }

    /// Name tables: growing, full, damaged.
    fn tables(&mut self) {
        let folding = self.rng.percent(50);
        let mut table = vec![0; names::SIZE];
        let count = [0, 3, 254, 255, 256][self.rng.below(5)];
        for number in 0..count {
            let name = format!("n{number}");
            names::number(&mut table, name.as_bytes(), folding).expect("room");
        }
        for _ in 0..4 {
            let name = self.name();
            let (told, after) = pair::name_number(&table, &name, folding);
            self.tally.calls += 1;
            self.tally.see("name_number", label(&told));
            table = after;
            let number = self.rng.below(300) as u16;
            self.name_at(&table, number, folding, "name_at");
        }
        for _ in 0..2 {
            let mut bytes = table.clone();
            match self.rng.below(5) {
                0 => generate::damage(&mut self.rng, &mut bytes),
                1 => bytes[0] = bytes[0].wrapping_add(1),
                // A name twice.
                2 => bytes.copy_within(2..67, 67),
                3 => bytes[3] = bytes[3].to_ascii_uppercase(),
                _ => bytes[2] = 65,
            }
            let name = self.name();
            let (told, _) = pair::name_number(&bytes, &name, folding);
            self.tally.calls += 1;
            self.tally.see("name_number (damaged)", label(&told));
            self.name_at(&bytes, 0, folding, "name_at (damaged)");
        }
    }

    fn name_at(&mut self, table: &[u8], number: u16, folding: bool, function: &'static str) {
        let length = [0, 1, 4, 64, 64, 70][self.rng.below(6)];
        let told = pair::name_at(&mut self.buffers, table, number, folding, length);
        self.tally.calls += 1;
        self.tally.see(function, label(&told));
    }

    fn name(&mut self) -> Vec<u8> {
        let length = [0, 1, 2, 63, 64, 65, 200][self.rng.below(7)];
        match self.rng.below(3) {
            0 => format!("N{}", self.rng.below(260)).into_bytes(),
            1 => (0..length).map(|_| self.rng.word() as u8).collect(),
            _ => (0..length).map(|i| b'A' + (i % 60) as u8).collect(),
        }
    }

    /// Every `step`-th state of the tiny universe from a start on, with every operation on it.
    #[must_use]
    pub fn small(states: &[State], operations: &[Operation]) -> Tally {
        let mut run = Self::new(7);
        for state in states {
            run.tally.states += 1;
            let image = wire::write_image(state, 0).expect("a sound state");
            let mut judge = Judge::new(state);
            let subject = Subject::new(&image, &mut judge, 0);
            for operation in operations {
                if matches!(operation, Operation::DeleteDefunct { .. }) {
                    let applied =
                        pair::delete_defunct(&mut run.buffers, &subject, operation, |needed| {
                            needed
                        });
                    run.tally.see("tiny: delete_defunct", label(&applied.told));
                } else if let Some(record) = wire::write_feed(operation, 0) {
                    let (applied, full) =
                        pair::apply(&mut run.buffers, &subject, &record, 0, |needed| {
                            needed.map(|bytes| bytes + 1)
                        });
                    run.tally.see("tiny: apply", label(&applied.told));
                    if run.boards.percent(WITH_A_BOARD) {
                        run.with_a_board(&subject, "tiny: apply", (&record, 0), &full);
                    }
                    same_step(&run.as_a_primary(&subject, operation, 0), &full);
                }
                run.tally.operations += 1;
            }
        }
        run.tally
    }

    /// Every change of one byte, and every cut, of an image with every kind of record in it.
    #[must_use]
    pub fn every_byte(image: &[u8], from: usize, to: usize) -> Tally {
        let mut run = Self::new(9);
        for at in from..to.min(image.len()) {
            let mut bytes = image.to_vec();
            for change in 1..=255 {
                bytes[at] = image[at].wrapping_add(change);
                let told = pair::test(&bytes);
                run.tally.see("one byte changed", label(&told));
                run.tally.calls += 1;
            }
            let cut = &image[..at];
            let told = pair::test(cut);
            run.tally.see("cut", label(&told));
            let applied = pair::apply_bytes(&mut run.buffers, cut, &[], 0, [100, 0, 0]);
            assert_eq!(applied.part, 0);
            let followed = pair::follow_bytes(&mut run.buffers, cut, &[], 100);
            assert_eq!(followed.part, 0);
            run.performed_on_a_cut(cut);
        }
        run.tally
    }

    /// The same for a feed record on a state: every byte changed, every cut.
    #[must_use]
    pub fn every_record_byte(image: &[u8], record: &[u8]) -> Tally {
        let mut run = Self::new(11);
        let (state, expected) = wire::read_image(image).expect("an image");
        let mut judge = Judge::new(&state);
        let subject = Subject::new(image, &mut judge, expected);
        let longer = |needed: [usize; 3]| needed.map(|bytes| bytes + 2);
        for at in 0..record.len() {
            let mut bytes = record.to_vec();
            for change in 1..=255 {
                bytes[at] = record[at].wrapping_add(change);
                let (applied, _) = pair::apply(&mut run.buffers, &subject, &bytes, 0, longer);
                run.tally
                    .see("record, one byte changed", label(&applied.told));
                run.tally.operations += 1;
                run.again(&bytes);
            }
            let (applied, _) = pair::apply(&mut run.buffers, &subject, &record[..at], 0, longer);
            run.tally.see("record, cut", label(&applied.told));
        }
        run.tally
    }
}

impl Run {
    /// Every length of a record of this kind, whole and one byte short, with a body of zeros.
    #[must_use]
    pub fn every_length(image: &[u8], kind: u16) -> Tally {
        let mut run = Self::new(13);
        let (state, expected) = wire::read_image(image).expect("an image");
        let mut judge = Judge::new(&state);
        let subject = Subject::new(image, &mut judge, expected);
        let longer = |needed: [usize; 3]| needed.map(|bytes| bytes + 2);
        // The longest record says 1131: a replacement with 64 roots.
        for length in (0u16..1160).chain([65_535]) {
            let mut feed = vec![0; 2 + usize::from(length)];
            feed[..2].copy_from_slice(&length.to_le_bytes());
            if let Some(field) = feed.get_mut(2..4) {
                field.copy_from_slice(&kind.to_le_bytes());
            }
            if let Some(field) = feed.get_mut(4..8) {
                field.copy_from_slice(&expected.to_le_bytes());
            }
            // The count of ids that the length says, where there is one.
            let (at, base) = if kind == 17 { (97, 95) } else { (109, 107) };
            if length >= base
                && let Some(field) = feed.get_mut(at - 2..at)
            {
                field.copy_from_slice(&((length - base) / 16).to_le_bytes());
            }
            for cut in [0, 1] {
                let feed = &feed[..feed.len() - cut];
                let (applied, _) = pair::apply(&mut run.buffers, &subject, feed, 0, longer);
                run.tally.see("every length", label(&applied.told));
                run.tally.operations += 1;
            }
        }
        run.tally
    }

    /// Every byte of the image's board changed, and every other size, with a record that is due.
    #[must_use]
    pub fn every_board_byte(image: &[u8], record: &[u8]) -> Tally {
        let mut run = Self::new(19);
        let (state, expected) = wire::read_image(image).expect("an image");
        let mut judge = Judge::new(&state);
        let subject = Subject::new(image, &mut judge, expected);
        let full = boundary::step(subject.judge, expected, record, 0);
        assert_eq!(full.applied.part, 2, "it is due");
        let own = subject.board.clone();
        let changed = (0..own.len()).map(|at| {
            let mut board = own.clone();
            board[at] = own[at].wrapping_add(1 + (at % 255) as u8);
            board
        });
        let sizes = (0..own.len() + 20).filter(|size| *size != own.len());
        let resized = sizes.map(|size| {
            let mut board = own.clone();
            board.resize(size, 0);
            board
        });
        for lent in changed.chain(resized) {
            let lengths = [20_000, 6_000, 2_100];
            let (applied, _) = boards::apply(
                &mut run.buffers,
                &subject,
                &lent,
                (record, 0),
                &full,
                lengths,
            );
            assert_eq!(applied.told.number, 28);
            run.tally
                .see("board, one byte or its size changed", label(&applied.told));
            run.tally.calls += 1;
        }
        run.tally
    }

    /// Every cut of a chunk, and every short buffer for the whole of it.
    #[must_use]
    pub fn every_cut(image: &[u8], chunk: &[u8]) -> Tally {
        let mut run = Self::new(15);
        let (state, expected) = wire::read_image(image).expect("an image");
        let spare = Spare { state, expected };
        for cut in 0..=chunk.len() {
            let part = &chunk[..cut];
            let (followed, _) =
                pair::follow(&mut run.buffers, image, spare.clone(), part, |needed| {
                    if cut == chunk.len() {
                        (0..=needed).collect()
                    } else {
                        vec![needed + 2]
                    }
                });
            run.tally.see("chunk, cut", label(&followed.told));
            run.tally.calls += 1;
        }
        run.tally
    }

    /// Every scope, ECU, group and question number, in and out of range; every refusal number.
    #[must_use]
    pub fn every_argument(image: &[u8]) -> Tally {
        let mut run = Self::new(17);
        let (state, expected) = wire::read_image(image).expect("an image");
        let mut judge = Judge::new(&state);
        let mut subject = Subject::new(image, &mut judge, expected);
        let subjects: Vec<u64> = state
            .active
            .iter()
            .map(|a| a.lock.subject.into())
            .chain([0, 65_535, 65_536])
            .collect();
        let mut asked: Vec<(u32, u64, u64)> = Vec::new();
        for y in 0..=260 {
            asked.extend((0..=4).flat_map(|x| [(2, x, y), (10, x, y)]));
            asked.extend(subjects.iter().map(|x| (8, *x, y)));
            asked.extend([(5, y, 0), (6, y, 0)]);
        }
        for y in 0..=800 {
            asked.extend(subjects.iter().map(|x| (9, *x, y)));
        }
        asked.extend((0..=40).map(|question| (question, 0, 0)));
        for (number, x, y) in asked {
            let record = &[];
            let question = Question {
                number,
                x,
                y,
                record,
            };
            let told = pair::read(&mut run.buffers, &mut subject, question, 104);
            run.tally.see("every argument", label(&told));
            run.tally.calls += 1;
        }
        for number in (0..=300).chain([u64::MAX, 1 << 32, (1 << 32) + 2, 1 << 8]) {
            pair::response_class(number);
            run.tally.calls += 1;
        }
        run.tally
    }
}

/// States and operations of the tiny universe.
#[must_use]
pub fn tiny_universe(step: usize) -> (Vec<State>, Vec<Operation>) {
    let states = small::states().into_iter().step_by(step).collect();
    (states, small::operations())
}

/// An image with children, defunct chains and both kinds of coverage, of moderate length, and a
/// record of each kind for it.
#[must_use]
pub fn rich() -> (Vec<u8>, Vec<Vec<u8>>) {
    let mut rng = Rng::new(3);
    loop {
        let case = Case::of(&mut rng, Profile::Small);
        let (active, defunct) = (&case.state.active, &case.state.defunct);
        let child = active.iter().any(|a| a.parent.is_some());
        let linked = defunct
            .iter()
            .any(|d| case.state.defunct_at(d.target).is_some());
        if !child || !linked || case.state.revision > 1000 {
            continue;
        }
        if active.len() != 5 || defunct.len() != 4 {
            continue;
        }
        let image = wire::write_image(&case.state, 77).expect("a sound state");
        let records = (0..8)
            .filter_map(|kind| {
                let operation = generate::operation_of(&mut rng, &case, kind);
                wire::write_feed(&operation, 77)
            })
            .collect();
        return (image, records);
    }
}

fn answer(told: &Told, operation: &Operation) -> String {
    match (told.number, operation, told.values[0]) {
        (0, Operation::BeginExpiration { .. }, 1) => "0 stale".to_owned(),
        (0, Operation::BeginExpiration { .. }, 2) => "0 not due".to_owned(),
        (0, Operation::AcknowledgeDefunct { .. }, 0) => "0 false".to_owned(),
        _ => label(told),
    }
}

/// What a primary's own operation gives is what its record gives.
fn same_step(own: &Own, full: &Full) {
    let mut performed = own.full.clone();
    // The one says how long the record is, the other where the next one begins.
    performed.applied.place = full.applied.place;
    assert_eq!(performed, *full);
}

/// The wrapper of a chunk says what the boundary said.
fn check_run(run: &cablegorse::Run, due: &boundary::Run, spare: &Replica) {
    let followed = &due.followed;
    assert_eq!(run.stop.map_or(0, |r| r.number()), followed.told.number);
    assert_eq!(run.place as u64, followed.place);
    assert_eq!(
        (run.read as u64, run.applied as u64),
        (followed.read, followed.applied)
    );
    assert_eq!(spare.image(), due.next);
}

/// The wrapper says what the boundary said, and keeps the image that was written.
pub(crate) fn check_step(
    step: &cablegorse::Step,
    full: &boundary::Full,
    spare: &Replica,
    before: &[u8],
) {
    let applied = &full.applied;
    assert_eq!(step.number(), applied.told.number);
    if let Err(Refusal::CoverageConflict { id, ecu }) = step.answer {
        let [first, second] = id.halves();
        let (named, ecu) = ecu.map_or((0, 0), |ecu| (1, ecu.into()));
        assert_eq!(applied.told, Told::new(7, &[first, second, named, ecu]));
    }
    assert_eq!(step.applied, applied.part == 2);
    assert_eq!(step.sequence, applied.sequence);
    assert_eq!(step.place as u64, applied.place);
    let removed: Vec<u8> = step.removed.iter().flat_map(|a| a.encode()).collect();
    let expired: Vec<u8> = step.expired.iter().flat_map(|id| id.0).collect();
    assert_eq!(
        (removed, expired),
        (full.removed.clone(), full.expired.clone())
    );
    let due = if applied.part == 2 {
        &full.next
    } else {
        before
    };
    assert_eq!(spare.image(), due);
}

// SPDX-License-Identifier: Apache-2.0
//! 02, C-20: what a host is told of its defunct entries before and after an operation, each looked
//! up anew by its id. By the library through the safe crate, and by the original.

use cablegorse::{LockId, Replica};
use oracle::{
    judge::Judge,
    model::{Id, Operation, State},
    stories::{self, Story},
    wire,
};

use crate::words;

/// A state in the library and in the original.
pub struct Both {
    library: Replica,
    original: Judge,
}

impl Both {
    /// # Panics
    ///
    /// On a state that isn't sound.
    #[must_use]
    pub fn new(state: &State) -> Self {
        let image = wire::write_image(state, 0).expect("a sound state");
        Self {
            library: Replica::from_image(&image).expect("a sound state"),
            original: Judge::new(state),
        }
    }

    /// From now on the library's side keeps a board (02, C-11).
    pub fn watch(&mut self) {
        self.library.watch();
    }

    #[must_use]
    pub fn state(&self) -> &State {
        self.original.state()
    }

    /// The same after an operation, or nothing where no record holds it.
    ///
    /// # Panics
    ///
    /// Where the two images differ, or the two boards where one is kept.
    #[must_use]
    pub fn after(&self, operation: &Operation) -> Option<Self> {
        let original = Judge::new(&self.original.apply(operation).state);
        let mut library = self.library.clone();
        match operation {
            Operation::DeleteDefunct { id, scope, subject } => {
                // The answer is compared elsewhere; what is left is compared here.
                let _ = library.delete_defunct(LockId(id.0), words::scope(*scope), *subject);
            }
            _ => {
                library.apply(&wire::write_feed(operation, 0)?, 0);
            }
        }
        let image = wire::write_image(original.state(), library.expected());
        assert_eq!(image.as_deref(), Ok(library.image()), "{operation:?}");
        if let Some(board) = library.board() {
            assert_eq!(board[..], original.board(), "{operation:?}");
        }
        Some(Self { library, original })
    }

    /// What both tell of the entry that they find by its id.
    ///
    /// # Panics
    ///
    /// Where they differ.
    pub fn told(&mut self, id: Id) -> Option<Story> {
        let found = self.library.defunct_by_id(LockId(id.0));
        let ours = found.map(|entry| {
            let held = self.library.current_holder(&entry);
            let (subject, links) = (held.subject, held.links.into());
            Story { subject, links }
        });
        let theirs = stories::told(&mut self.original, id);
        assert_eq!(
            ours,
            theirs,
            "the library's and the original's story of {id} in {:?}",
            self.state()
        );
        theirs
    }
}

// SPDX-License-Identifier: Apache-2.0
//! The primary's process: it begins with an image from standard input, performs what testers ask
//! for, writes the record that each gives into its book and then to standard output, and resends
//! what the spare misses. It packs no record itself. It never ends by itself: it is killed.

use std::{
    collections::VecDeque,
    fs::File,
    io::{self, Read, Write},
    sync::mpsc::{Receiver, RecvTimeoutError, TryRecvError, channel},
    thread,
    time::Duration,
};

use cablegorse::Replica;

use drill::{rng::Rng, work};

use crate::wire::{Entry, Made, Wish};

/// Records in flight, at most.
const WINDOW: usize = 24;
/// How long a primary waits for word from its spare before it resends.
const PATIENCE: Duration = Duration::from_millis(2);

struct Primary {
    state: Replica,
    book: File,
    out: io::Stdout,
    /// Records that the spare hasn't confirmed, the first with this number.
    flight: VecDeque<Vec<u8>>,
    first: u32,
}

/// Runs until the pipe breaks or it is killed.
pub fn run(seed: u64, clock: u64, book: &str) -> io::Result<()> {
    let mut input = io::stdin();
    let mut length = [0; 4];
    input.read_exact(&mut length)?;
    let mut image = vec![0; u32::from_le_bytes(length) as usize];
    input.read_exact(&mut image)?;
    let mut state = Replica::from_image(&image).map_err(io::Error::other)?;
    // Half of the primaries keep a board.
    if seed.is_multiple_of(2) {
        state.watch();
    }
    let wishes = listen(input);
    let first = state.expected();
    let mut primary = Primary {
        state,
        book: File::create(book)?,
        out: io::stdout(),
        flight: VecDeque::new(),
        first,
    };
    primary.serve(&mut Rng::new(seed), clock, &wishes)
}

fn listen(mut input: io::Stdin) -> Receiver<Wish> {
    let (send, wishes) = channel();
    thread::spawn(move || {
        let mut bytes = [0; 5];
        while input.read_exact(&mut bytes).is_ok() && send.send(Wish::decode(bytes)).is_ok() {}
    });
    wishes
}

impl Primary {
    fn serve(&mut self, rng: &mut Rng, mut clock: u64, wishes: &Receiver<Wish>) -> io::Result<()> {
        loop {
            loop {
                match wishes.try_recv() {
                    Ok(wish) => self.heed(wish)?,
                    Err(TryRecvError::Empty) => break,
                    Err(TryRecvError::Disconnected) => return Ok(()),
                }
            }
            if self.flight.len() < WINDOW {
                clock += rng.below(4) as u64;
                self.perform(rng, clock)?;
                continue;
            }
            match wishes.recv_timeout(PATIENCE) {
                Ok(wish) => self.heed(wish)?,
                Err(RecvTimeoutError::Timeout) => self.resend()?,
                Err(RecvTimeoutError::Disconnected) => return Ok(()),
            }
        }
    }

    /// Book first, then the link: what the spare has is in the book.
    fn perform(&mut self, rng: &mut Rng, clock: u64) -> io::Result<()> {
        let operation = work::operation(rng, &self.state, clock);
        let (record, _) = self.state.perform(&operation).map_err(io::Error::other)?;
        let made = Entry::Made(Made {
            record: record.clone(),
            image: self.state.image().to_vec(),
            board: self
                .state
                .board()
                .map_or(Vec::new(), |board| board.to_vec()),
        });
        self.book.write_all(&made.encode())?;
        self.out.write_all(&record)?;
        self.out.flush()?;
        self.flight.push_back(record);
        Ok(())
    }

    fn heed(&mut self, wish: Wish) -> io::Result<()> {
        // How many of the records in flight the spare has; a stale word says a huge number.
        let has = wish.expected.wrapping_sub(self.first) as usize;
        if has > self.flight.len() {
            return Ok(());
        }
        if has > 0 {
            self.flight.drain(..has);
            self.first = wish.expected;
            // Only now would testers be told.
            let confirmed = Entry::Confirmed {
                expected: self.first,
            };
            self.book.write_all(&confirmed.encode())?;
        }
        if wish.resend { self.resend() } else { Ok(()) }
    }

    fn resend(&mut self) -> io::Result<()> {
        for record in &self.flight {
            self.out.write_all(record)?;
        }
        self.out.flush()
    }
}

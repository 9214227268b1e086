// SPDX-License-Identifier: Apache-2.0
//! A bad link: it loses, repeats, delays and so reorders whole records, by a seed.

use crate::rng::Rng;

/// What a link does, each in percent of the records.
#[derive(Clone, Copy)]
pub struct Weather {
    pub lost: usize,
    pub repeated: usize,
    pub delayed: usize,
}

/// What a link did.
#[derive(Clone, Copy, Default)]
pub struct Done {
    pub lost: u64,
    pub repeated: u64,
    pub delayed: u64,
}

/// Records go in at one end and come out at the other, or not.
pub struct Link {
    rng: Rng,
    weather: Weather,
    /// Records on their way, each with the number of records that will overtake it.
    late: Vec<(usize, Vec<u8>)>,
    pub done: Done,
}

impl Link {
    pub fn new(seed: u64, weather: Weather) -> Self {
        Self {
            rng: Rng::new(seed),
            weather,
            late: Vec::new(),
            done: Done::default(),
        }
    }

    /// One record in; what comes out now, in order of arrival.
    pub fn carry(&mut self, record: Vec<u8>) -> Vec<Vec<u8>> {
        let mut out = Vec::new();
        if self.rng.percent(self.weather.lost) {
            self.done.lost += 1;
        } else if self.rng.percent(self.weather.delayed) {
            self.done.delayed += 1;
            let overtaken = 1 + self.rng.below(8);
            self.late.push((overtaken, record));
        } else {
            out.push(record.clone());
            if self.rng.percent(self.weather.repeated) {
                self.done.repeated += 1;
                let overtaken = self.rng.below(12);
                self.late.push((overtaken, record));
            }
        }
        self.late.retain_mut(|(overtaken, record)| {
            if *overtaken == 0 {
                out.push(std::mem::take(record));
                return false;
            }
            *overtaken -= 1;
            true
        });
        out
    }
}

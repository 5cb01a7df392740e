//! One who climbs: an input is changed at random, and what takes longer is kept.
//! Where nothing is gained any more, another hill is begun.

use crate::input::Input;
use crate::random::Dice;
use crate::shapes::Shape;
use crate::starts::{Kind, KINDS, WALKED};
use crate::steps;
use crate::stopwatch::{Entry, Timed};
use std::io;
use std::time::{Duration, Instant};

/// Inputs drawn for the foot of a hill, which is the slowest of them.
const DRAWN: usize = 16;

/// After so many steps without a gain of a hundredth a hill is at its end.
const IDLE: usize = 300;

/// Changes from an input found before to a foot near it: none to go on there.
const NEAR: [usize; 5] = [0, 1, 2, 4, 8];

/// How many hills of a hundred begin so.
const NEAR_SHARE: usize = 50;

/// What the climbs are given for a cost.
pub type Cost<'a> = dyn FnMut(Entry, &Input) -> io::Result<Timed> + 'a;

/// The slowest input of a hill.
#[derive(Clone)]
pub struct Found {
    /// Climber and number of the hill. A hill that begins near what was found on
    /// another has that one's, so that it does not count twice.
    pub hill: (usize, usize),
    /// The kind it began with.
    pub kind: &'static str,
    pub entry: Entry,
    pub shape: Shape,
    pub timed: Timed,
}

impl Found {
    pub fn input(&self) -> Input {
        let Shape { book, heap, query } = &self.shape;
        Input::new(book, heap, query)
    }
}

/// Where a hill begins.
enum Foot {
    Drawn(&'static Kind),
    Near(Shape),
}

struct Hill {
    number: (usize, usize),
    kind: &'static str,
    foot: Foot,
    /// How many inputs are still to be drawn for the foot.
    drawn: usize,
    /// What is changed next.
    here: Option<Shape>,
    best: Option<(Shape, Timed)>,
    idle: usize,
    spent: Duration,
}

pub struct Climber {
    dice: Dice,
    number: usize,
    pub entry: Entry,
    /// No hill is climbed for longer.
    longest: Duration,
    pub hills: usize,
    hill: Option<Hill>,
    pub spent: Duration,
}

impl Climber {
    pub fn new(seed: u64, number: usize, entry: Entry, longest: Duration) -> Climber {
        Climber {
            dice: Dice::new(seed, number as u64),
            number,
            entry,
            longest,
            hills: 0,
            hill: None,
            spent: Duration::ZERO,
        }
    }

    /// One input more. It is given back if it is the slowest of its hill.
    pub fn turn(&mut self, cost: &mut Cost, found: &[Found]) -> io::Result<Option<Found>> {
        let start = Instant::now();
        let mut hill = match self.hill.take() {
            Some(hill) => hill,
            None => self.begin(found),
        };
        let shape = hill.next(&mut self.dice);
        let Shape { book, heap, query } = &shape;
        let timed = cost(self.entry, &Input::new(book, heap, query))?;
        let gained = hill.take(shape, timed);
        let spent = start.elapsed();
        hill.spent += spent;
        self.spent += spent;
        let slowest = gained.then(|| hill.found(self.entry)).flatten();
        // Beyond what was stopped there is nothing to be told apart.
        if hill.idle < IDLE && hill.spent < self.longest && timed.reply.is_some() {
            self.hill = Some(hill);
        }
        Ok(slowest)
    }

    /// The kinds take turns; of the later hills, some begin near a found input
    /// that was not stopped.
    fn begin(&mut self, found: &[Found]) -> Hill {
        let kinds: &'static [Kind] = match self.entry {
            Entry::Walk => &WALKED,
            _ => &KINDS,
        };
        let own = |found: &&Found| found.entry == self.entry && found.timed.reply.is_some();
        let own: Vec<&Found> = found.iter().filter(own).collect();
        let drawn = &kinds[(self.number + self.hills) % kinds.len()];
        self.hills += 1;
        let (number, kind, foot) =
            if self.hills > 2 && !own.is_empty() && self.dice.chance(NEAR_SHARE) {
                let near = self.dice.pick(&own);
                (near.hill, near.kind, Foot::Near(near.shape.clone()))
            } else {
                ((self.number, self.hills), drawn.name, Foot::Drawn(drawn))
            };
        Hill {
            number,
            kind,
            foot,
            drawn: DRAWN,
            here: None,
            best: None,
            idle: 0,
            spent: Duration::ZERO,
        }
    }
}

impl Hill {
    fn next(&mut self, dice: &mut Dice) -> Shape {
        match (&self.here, &self.foot) {
            (Some(here), _) if self.drawn == 0 => steps::step(dice, here),
            (_, Foot::Drawn(kind)) => (kind.draw)(dice),
            (_, Foot::Near(shape)) => {
                let changes = dice.pick(&NEAR);
                steps::far(dice, shape, changes)
            }
        }
    }

    /// Whether it is slower than all before. A little way down is gone too, since
    /// a way further up may begin there.
    fn take(&mut self, shape: Shape, timed: Timed) -> bool {
        let best = self.best.as_ref();
        let before = best.map_or(Duration::ZERO, |best| best.1.time);
        let gained = timed.time > before;
        if gained || self.drawn == 0 && timed.time > before * 9 / 10 {
            self.here = Some(shape.clone());
        }
        if gained {
            self.best = Some((shape, timed));
        }
        self.drawn = self.drawn.saturating_sub(1);
        self.idle = match timed.time > before * 101 / 100 {
            true => 0,
            false => self.idle + 1,
        };
        gained
    }

    fn found(&self, entry: Entry) -> Option<Found> {
        let (shape, timed) = self.best.clone()?;
        Some(Found {
            hill: self.number,
            kind: self.kind,
            entry,
            shape,
            timed,
        })
    }
}

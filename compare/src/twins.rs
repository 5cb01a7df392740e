//! Two spellings of one input: all that the proved program gives back for them
//! must be the same, to the last bit of the memory it was lent.

use crate::desk;
use crate::input::Input;
use crate::judge::says;
use crate::lent::{self, About, Answer, Block, Checked, Manner, Sizes};
use crate::unfoldings::bytes_of;

/// What every spelling is asked with.
pub struct Asked {
    pub sizes: Sizes,
    pub manner: Manner,
    /// An unfolding for the check, and a part.
    pub words: Vec<u64>,
    pub part: u16,
}

/// All that came back.
#[derive(Clone)]
pub struct Replies {
    /// Of the desk's engine and check.
    pub desk: [u64; 2],
    pub whole: Answer,
    pub some_part: Answer,
    /// Of the walk: refusal and verdict.
    pub walked: (u64, Block),
    pub check: Checked,
    pub check_part: Checked,
}

impl Replies {
    pub fn of(input: &Input, asked: &Asked) -> Replies {
        let Asked {
            sizes,
            manner,
            words,
            part,
        } = asked;
        let [book, snapshot, question] = input.sections();
        let unfolding = bytes_of(words);
        let decide = |about| lent::decide(about, input, *sizes, *manner);
        let check = |part| lent::check(part, input, words, *manner);
        let walked = lent::walk(input, *manner);
        Replies {
            desk: [
                desk::decide(book, snapshot, question),
                desk::check(book, snapshot, question, &unfolding),
            ],
            whole: decide(About::Whole),
            some_part: decide(About::SomePart),
            walked: (walked.refusal, walked.verdict),
            check: check(None),
            check_part: check(Some(*part)),
        }
    }

    pub fn refusal(&self) -> u64 {
        self.whole.refusal
    }

    pub fn fits(&self) -> bool {
        self.refusal() == 0 && self.whole.numbers[0].lent()[0] == 1
    }

    /// Or which entry tells the two apart.
    pub fn same(&self, other: &Replies) -> Result<(), String> {
        let entries = [
            ("desk_decide", self.desk[0] == other.desk[0]),
            ("desk_check", self.desk[1] == other.desk[1]),
            ("shapes_decide", self.whole == other.whole),
            ("shapes_part", self.some_part == other.some_part),
            ("shapes_walk", self.walked == other.walked),
            ("shapes_check", self.check == other.check),
            ("shapes_check_part", self.check_part == other.check_part),
        ];
        let apart = entries.iter().find(|(_, same)| !same);
        let entry = apart.map_or("", |(entry, _)| entry);
        says(
            apart.is_none(),
            &format!("{entry} gives something else than with 0"),
        )
    }
}

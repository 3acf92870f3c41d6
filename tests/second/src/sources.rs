//! What a comparison draws its inputs from: the random cases of a kind, plans, boards, books
//! and contents at the limits of length, or lists of changeovers.

use crate::frames;
use crate::inputs;
use crate::kinds::Kind;
use crate::large;
use crate::list_inputs;
use crate::lists;
use crate::random::Random;

#[derive(Clone, Copy, Debug, PartialEq, Eq)]
pub enum Source {
    Cases(Kind),
    LargestPlans,
    LongPlans,
    LargestBoards,
    LongBoards,
    LongRewrites,
    LongContents,
    Lists,
}

impl Source {
    /// The source of a name, and whether its inputs go in framed streams.
    pub fn named(name: &str) -> Option<(Source, bool)> {
        match name {
            "largest_plan" => Some((Source::LargestPlans, false)),
            "largest_plans" => Some((Source::LargestPlans, true)),
            "long_plan" => Some((Source::LongPlans, false)),
            "largest_board" => Some((Source::LargestBoards, false)),
            "largest_boards" => Some((Source::LargestBoards, true)),
            "long_board" => Some((Source::LongBoards, false)),
            "long_rewrite" => Some((Source::LongRewrites, false)),
            "long_write_book" => Some((Source::LongContents, false)),
            "plan_lists" => Some((Source::Lists, true)),
            _ => {
                let single = Kind::named(name).map(|kind| (Source::Cases(kind), false));
                let stream = || Kind::stream_named(name).map(|kind| (Source::Cases(kind), true));
                single.or_else(stream)
            }
        }
    }

    /// The kind of its cases; none for lists, whose frames have no kind.
    pub fn kind(self) -> Option<Kind> {
        match self {
            Source::Cases(kind) => Some(kind),
            Source::LargestPlans | Source::LongPlans => Some(Kind::Plan),
            Source::LargestBoards | Source::LongBoards => Some(Kind::Board),
            Source::LongRewrites => Some(Kind::Rewrite),
            Source::LongContents => Some(Kind::WriteBook),
            Source::Lists => None,
        }
    }

    /// The input of a seed and an index.
    pub fn case(self, seed: u64, index: u64) -> Vec<u8> {
        // The kinds' words are small.
        let random = |word: u64| Random::new(&[1_000 + word, seed, index]);
        match self {
            Source::Cases(kind) => inputs::case(kind, seed, index),
            Source::LargestPlans => large::largest_plan(&mut random(0)),
            Source::LongPlans => large::long_plan(&mut random(1), index),
            Source::LargestBoards => large::largest_board(&mut random(2)),
            Source::LongBoards => large::long_board(&mut random(3), index),
            Source::LongRewrites => large::long_book(&mut random(4), index),
            Source::LongContents => large::long_content(&mut random(5), index),
            Source::Lists => list_inputs::case(seed, index),
        }
    }

    /// What a program prints for a case by itself.
    pub fn answer(self, case: &[u8]) -> Vec<u8> {
        match self.kind() {
            Some(kind) => kind.output(case),
            None => lists::run_frame(case).into(),
        }
    }

    /// The framed stream of cases.
    pub fn join(self, cases: &[Vec<u8>]) -> Vec<u8> {
        match self.kind() {
            Some(kind) => frames::join(kind, cases),
            None => lists::join(cases),
        }
    }

    /// What a program prints for such a stream.
    pub fn answers(self, stream: &[u8]) -> Vec<u8> {
        match self.kind() {
            Some(_) => frames::run(stream).into(),
            None => lists::run(stream).into(),
        }
    }
}

//! The correlations of one configuration.

use crate::board::{counted, Board};
use crate::record::{Entry, Field};
use crate::source::{Bounds, Done, Source, Values};
use crate::trouble::Trouble;
use crate::values::spelled_signs;
use copperhook::Rng;

/// One configuration: the sign of each kept edge, true for minus.
pub struct Configuration {
    minus: Vec<bool>,
    seed: Option<u64>,
    title: String,
}

impl Configuration {
    pub fn plus(kept: usize) -> Configuration {
        Configuration { minus: vec![false; kept], seed: None, title: "all signs plus".to_string() }
    }

    pub fn drawn(seed: u64, kept: usize) -> Configuration {
        Configuration { minus: drawn(seed, kept), seed: Some(seed), title: format!("signs drawn with seed {seed}") }
    }

    pub fn given(minus: &[bool], kept: usize) -> Result<Configuration, Trouble> {
        if minus.len() != kept {
            let (signs, edges) = (counted(minus.len(), "sign", "signs"), counted(kept, "kept edge", "kept edges"));
            return Err(Trouble::asked(format!("--signs has {signs}; this strip has {edges}, and each needs one")));
        }
        Ok(Configuration { minus: minus.to_vec(), seed: None, title: spelled(minus) })
    }
}

/// The signs themselves, where a line has room for them.
fn spelled(minus: &[bool]) -> String {
    if minus.len() <= 64 {
        format!("signs {}", spelled_signs(minus))
    } else {
        format!("{} signs as given", minus.len())
    }
}

/// As the first sample of chunk 0: a new word every 64 edges, lowest bit first, 0 for plus.
fn drawn(seed: u64, kept: usize) -> Vec<bool> {
    let mut rng = Rng::stream(seed, 0);
    let words: Vec<u64> = (0..kept.div_ceil(64)).map(|_| rng.next_u64()).collect();
    (0..kept).map(|e| words[e / 64] >> (e % 64) & 1 == 1).collect()
}

impl Source for Configuration {
    fn title(&self) -> String {
        self.title.clone()
    }

    fn record(&self) -> [Entry; 6] {
        [
            ("configurations", Field::text("one")),
            ("signs", Field::text(spelled_signs(&self.minus))),
            ("seed", self.seed.map_or(Field::Nothing, Field::number)),
            ("chunks", Field::Nothing),
            ("samples", Field::Nothing),
            ("count", Field::number(1)),
        ]
    }

    fn columns(&self) -> &'static [&'static str] {
        &["correlation"]
    }

    fn sweeps(&self) -> f64 {
        1.0
    }

    fn bounds(&self, board: &Board) -> Result<Bounds, Trouble> {
        let bound = |i| {
            let factors = board.factors.of_signs(i, &self.minus);
            board.graph().error_bound(&factors).map_err(|refusal| board.refused_signs(i, &self.minus, refusal))
        };
        (0..board.betas.len()).map(bound).collect()
    }

    /// The run itself begins with the strongest beta.
    fn tried(&self, _: &Board, _: &mut [f64]) -> Result<(), Trouble> {
        Ok(())
    }

    fn values(&self, board: &Board, work: &mut [f64], done: Done) -> Result<Values, Trouble> {
        let mut values = vec![Vec::new(); board.betas.len()];
        for (so_far, i) in board.strongest_first().into_iter().enumerate() {
            let mut results = vec![0.0; board.pairs.len()];
            let call = board.correlations(i, &self.minus, &mut results, work);
            call.map_err(|refusal| board.refused_signs(i, &self.minus, refusal))?;
            values[i] = results.into_iter().map(|x| vec![x]).collect();
            done(so_far as u64 + 1, board.betas.len() as u64, "betas");
        }
        Ok(values)
    }
}

#[cfg(test)]
mod tests {
    use super::*;

    #[test]
    fn signs_are_drawn_as_samples_are() {
        let mut rng = oracle::rng::Rng::stream(9, 0);
        let (first, second) = (rng.next_u64(), rng.next_u64());
        let minus = drawn(9, 70);
        assert!((0..64).all(|e| minus[e] == (first >> e & 1 == 1)));
        assert!((64..70).all(|e| minus[e] == (second >> (e - 64) & 1 == 1)));
    }

    #[test]
    fn signs_that_do_not_fit_are_told() {
        let why = Configuration::given(&[true], 4).err().unwrap();
        assert_eq!(why.to_string(), "--signs has 1 sign; this strip has 4 kept edges, and each needs one");
    }
}

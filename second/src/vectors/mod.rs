//! A set of calls for another program: fixed calls, single calls, lists, pairs of lists.

mod singles;
pub mod text;

use crate::call::{Request, StorageImage};
use crate::fixed::{self, FixedList};
use crate::generate::{generate_chain_of_size, generate_pair, Random, SizeBudget};
use crate::report::{TableWords, Tally};
use singles::Singles;
use text::CallFile;

/// Fewest calls of a set, without and with `--large`.
pub const FEWEST_CALLS: usize = 2_000;
pub const FEWEST_LARGE_CALLS: usize = 50;

/// Which set: its contents depend on nothing else.
#[derive(Clone, Copy, Debug)]
pub struct SetOptions {
    pub seed: u64,
    pub calls: usize,
    pub large: bool,
}

/// How many calls are of which part.
#[derive(Clone, Copy, Debug, Default, PartialEq, Eq)]
pub struct Shares {
    pub figures: usize,
    pub single: usize,
    pub in_lists: usize,
    pub in_pairs: usize,
}

/// The two texts of a set, and what its calls reached.
pub struct VectorSet {
    options: SetOptions,
    file: CallFile,
    sizes: SizeBudget,
    random: Random,
    pub tally: Tally,
    pub shares: Shares,
}

impl VectorSet {
    pub fn new(options: SetOptions) -> VectorSet {
        let mut set = VectorSet {
            options,
            file: CallFile::default(),
            sizes: SizeBudget::new(options.calls, options.large),
            random: Random::new(options.seed ^ 0x7665_6374_6F72_7300, 0),
            tally: Tally::default(),
            shares: Shares::default(),
        };
        if !options.large {
            set.fixed_calls();
        }
        let left = options.calls - set.file.calls as usize;
        let (in_lists, in_pairs) = lists_and_pairs(options.calls, left);
        set.single_calls(left - in_lists - in_pairs);
        set.lists(in_lists);
        set.pairs(in_pairs);
        set.file.end();
        set
    }

    pub fn stdin(&self) -> &str {
        &self.file.stdin
    }

    pub fn stdout(&self) -> &str {
        &self.file.stdout
    }

    /// The report over the calls of the set.
    pub fn report(&self) -> String {
        let Shares { figures, single, in_lists, in_pairs } = self.shares;
        let seed = self.options.seed;
        let lists = format!("{in_lists} in lists, {in_pairs} in pairs of lists");
        format!("seed {seed}: {single} single calls, {lists}, {figures} in figures\n{}", self.tally.text())
    }

    fn call(&mut self, request: &Request) {
        let words = TableWords::of(&self.file.storage, request);
        let answer = self.file.call(request);
        self.tally.add(request, words, &answer);
    }

    fn list(&mut self, image: &StorageImage, requests: &[Request]) {
        self.file.storage(image);
        for request in requests {
            self.call(request);
        }
    }

    /// Figures, then single calls, at last lists.
    fn fixed_calls(&mut self) {
        for (title, lists) in fixed::all() {
            let calls = self.fixed_lists(title, &lists);
            match title {
                title if title.starts_with("Figure") => self.shares.figures += calls,
                title if title.starts_with("Lists") => self.shares.in_lists += calls,
                _ => self.shares.single += calls,
            }
        }
    }

    /// Gives the number of calls.
    fn fixed_lists(&mut self, title: &str, lists: &[FixedList]) -> usize {
        self.file.comment(title);
        for list in lists {
            self.fixed_list(list);
        }
        lists.iter().map(|list| list.calls.len()).sum()
    }

    fn fixed_list(&mut self, list: &FixedList) {
        for (position, call) in list.calls.iter().enumerate() {
            self.file.comment(&format!("{} {}", call.mnemonic(), call.case));
            if position == 0 {
                self.file.storage(&list.image);
            }
            self.call(&call.request);
        }
    }

    fn single_calls(&mut self, calls: usize) {
        self.file.comment("Single calls");
        let mut singles = Singles::new(self.options.seed, self.options.large);
        for _ in 0..calls {
            let size = self.sizes.draw(&mut self.random, 1);
            let call = singles.next(size);
            self.list(&call.image, &[call.request]);
        }
        self.shares.single += calls;
    }

    /// Lists of 2 to 12 calls.
    fn lists(&mut self, calls: usize) {
        self.file.comment("Lists of calls on one storage");
        let mut left = calls;
        for index in 0.. {
            if left == 0 {
                break;
            }
            let length = piece(&mut self.random, left, 2, 12);
            let size = self.sizes.draw(&mut self.random, length);
            let chain = generate_chain_of_size(self.options.seed, index, length, size);
            self.list(&chain.image, &chain.requests);
            left -= length;
        }
        self.shares.in_lists += calls;
    }

    /// For each pair: one list alone, the other alone, both in one order, each time on the same storage.
    fn pairs(&mut self, calls: usize) {
        self.file.comment("Pairs of lists: one alone, the other alone, both in one order");
        let mut left = calls / 2;
        for index in 0.. {
            if left == 0 {
                break;
            }
            let both = piece(&mut self.random, left, 4, 12);
            let first = 2 + self.random.below(both as u32 - 3) as usize;
            let size = self.sizes.draw_for_pair(&mut self.random, 2 * both);
            let pair = generate_pair(self.options.seed, index, [first, both - first], size);
            self.list(&pair.image, &pair.lists[0]);
            self.list(&pair.image, &pair.lists[1]);
            self.list(&pair.image, &pair.requests_in_order());
            left -= both;
        }
        self.shares.in_pairs = calls;
    }
}

/// How many calls are in lists and in pairs of lists: 45 % and 25 % of all, but in a small set, of which the fixed
/// calls take much, no more than nine and five of sixteen that are left.
fn lists_and_pairs(calls: usize, left: usize) -> (usize, usize) {
    let in_lists = (calls * 45 / 100).min(left * 9 / 16);
    let in_pairs = (calls / 4).min(left * 5 / 16) / 2 * 2;
    (in_lists, in_pairs)
}

/// A number from `least` to `most` that leaves zero or at least `least`; more than `most` if it must be.
fn piece(random: &mut Random, left: usize, least: usize, most: usize) -> usize {
    let drawn = least + random.below((most - least + 1) as u32) as usize;
    if left < drawn + least {
        left
    } else {
        drawn
    }
}

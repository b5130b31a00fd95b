//! The pairs of lists as they stand in the file: three times one storage, then what demand 3 says of the answers.

use crate::stored_set;

/// Calls on one storage: the lines that give it, and the answers without number and checksum.
#[derive(Default)]
struct Block<'a> {
    image: Vec<&'a str>,
    answers: Vec<&'a str>,
}

fn blocks_of_pairs() -> Vec<Block<'static>> {
    let (stdin, stdout) = (stored_set().stdin(), stored_set().stdout());
    let title = "# Pairs of lists";
    let lines = stdin.lines().skip_while(|line| !line.starts_with(title)).skip(1);
    let mut answers = stdout.lines().skip_while(|line| !line.starts_with(title)).skip(1);
    let mut blocks: Vec<Block> = Vec::new();
    for line in lines {
        match &line[..1] {
            "s" => blocks.push(Block { image: vec![line], ..Block::default() }),
            "a" => {
                let answer = answers.next().expect("an answer for each call");
                let (_, after_number) = answer.split_once(' ').expect("fields");
                let (carried, _) = after_number.rsplit_once(' ').expect("fields");
                blocks.last_mut().expect("a storage").answers.push(carried);
            }
            "r" | "e" => {}
            _ => blocks.last_mut().expect("a storage").image.push(line),
        }
    }
    blocks
}

/// Whether `all` is an order of `one` and `other` in which each keeps its own order.
fn is_order_of(all: &[&str], one: &[&str], other: &[&str]) -> bool {
    let Some((first, rest)) = all.split_first() else {
        return one.is_empty() && other.is_empty();
    };
    (one.first() == Some(first) && is_order_of(rest, &one[1..], other))
        || (other.first() == Some(first) && is_order_of(rest, one, &other[1..]))
}

#[test]
fn each_pair_stands_in_the_file_three_times() {
    let blocks = blocks_of_pairs();
    assert_eq!(blocks.iter().map(|block| block.answers.len()).sum::<usize>(), 2_500);
    let (mut pairs, mut completed) = (0, 0);
    for three in blocks.chunks(3) {
        let [one, other, both] = three else { panic!("blocks come in threes") };
        assert!(one.image == other.image && one.image == both.image);
        assert!(is_order_of(&both.answers, &one.answers, &other.answers));
        completed += both.answers.iter().filter(|answer| answer.starts_with("0 ")).count();
        pairs += 1;
    }
    assert!(pairs > 120 && completed > 900, "{pairs} {completed}");
}

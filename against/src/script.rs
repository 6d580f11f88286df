//! The script of the program `cases`, run through the model: what the program must print for it.
//!
//! A line is a word and numbers. A tree, metres for its nodes, and bytes in hand (a string, a pack, an image or a
//! text), stay from line to line. Each line is printed, and below it what the call answered and every list that it
//! wrote to, which held 9s before. What the words mean is the program's to say (`main.rt` of crate `cases`,
//! `material.rt` of `cases_script`); what the calls answer and write comes from the model alone.

use crate::model::answers::{number, Answer, Counts, Refusal};
use crate::model::calls;
use crate::model::images::{seal, BLOCK_BYTES, MOST_BLOCKS};
use crate::model::texts::MOST_TEXT_BYTES;
use crate::model::trees::MOST_NODES;

/// One node and one byte more than a tree and a text may have; an image has fewer bytes.
const NODES: usize = MOST_NODES + 1;
const BYTES: usize = MOST_TEXT_BYTES + 1;
/// The longest list that a call can be lent to write numbers to; each of the two of a split.
const MOST_WORDS: usize = 65_536;
const MOST_PARTS: usize = 300;
/// The most numbers of a line that are read.
const MOST_NUMBERS: usize = 1_024;
/// A longer list is shown by how many 9s it has, and two sums.
const MOST_SHOWN: usize = 300;
/// The most bytes of a script that are read.
const MOST_TEXT: usize = 65_536;

/// What the program prints for this script.
pub fn printed(script: &str) -> String {
    assert!(script.len() <= MOST_TEXT, "the program reads no more than {MOST_TEXT} bytes of a script");
    let mut run =
        Run { parents: vec![0; NODES], metres: vec![0; NODES], bytes: vec![0; BYTES], printed: String::new() };
    for line in script.split_inclusive('\n') {
        run.printed += line;
        run.obey(line);
    }
    run.printed
}

/// The numbers of a line, each as its lowest 32 bits. One that the line lacks is 0.
struct Numbers(Vec<u32>);

impl Numbers {
    fn of(line: &str) -> Numbers {
        let words = line.split_ascii_whitespace().skip(1).take(MOST_NUMBERS);
        Numbers(words.map(|word| word.parse().map_or(0, |number: i64| number as u32)).collect())
    }

    fn at(&self, index: usize) -> u32 {
        self.0.get(index).copied().unwrap_or(0)
    }

    /// As a count: a number below 0 is as far below 2^64.
    fn size(&self, index: usize) -> usize {
        self.at(index) as i32 as isize as usize
    }

    /// As a count, cut to what there is.
    fn room(&self, index: usize, most: usize) -> usize {
        self.size(index).min(most)
    }

    /// Those from number `first` on, as signed ones.
    fn signed_from(&self, first: usize) -> Vec<i32> {
        self.0.iter().skip(first).map(|&number| number as i32).collect()
    }
}

struct Run {
    parents: Vec<u32>,
    metres: Vec<u32>,
    bytes: Vec<u8>,
    printed: String,
}

impl Run {
    /// A line that begins with none of these words is a remark.
    fn obey(&mut self, line: &str) {
        let word = line.split([' ', '\n']).next().unwrap_or("");
        let numbers = Numbers::of(line);
        match word {
            "parents" | "grow" | "branches" | "mixed" => self.parents = planted(word, &numbers),
            "metres" => self.metres = (0..NODES).map(|index| numbers.at(index)).collect(),
            "rise" => self.metres = (0..number(NODES)).map(|before| risen(before, &numbers)).collect(),
            "hold" => {
                self.bytes.fill(9);
                self.bytes.iter_mut().zip(&numbers.0).for_each(|(byte, &number)| *byte = number as u8);
            }
            "flip" => {
                if let Some(byte) = self.bytes.get_mut(numbers.size(0)) {
                    *byte ^= numbers.at(1) as u8;
                }
            }
            "reseal" => {
                let blocks = numbers.room(0, BYTES / BLOCK_BYTES);
                if blocks <= MOST_BLOCKS {
                    seal(&mut self.bytes[..blocks * BLOCK_BYTES]);
                }
            }
            "pad" => {
                let end = numbers.room(0, BYTES);
                let begin = numbers.room(1, end);
                self.bytes[begin..end].fill(numbers.at(2) as u8);
            }
            "encode" | "image" | "survey" | "text" | "join" => self.make(word, &numbers),
            "decode" | "unseal" | "distances" | "ask" | "list" | "untext" => self.read(word, &numbers),
            "check" => {
                let result = calls::check_image(self.lent(&numbers));
                self.answered(result);
            }
            "nodes" => self.nodes(&numbers),
            "split" => self.split(&numbers),
            "view" => {
                let lent = self.lent(&numbers);
                let shown = lent[numbers.room(1, lent.len())..].to_vec();
                self.list("bytes", &shown);
            }
            _ => {}
        }
    }

    /// As many of the bytes in hand as the first number of the line says.
    fn lent(&self, numbers: &Numbers) -> &[u8] {
        &self.bytes[..numbers.room(0, BYTES)]
    }

    /// The tree's string in hand, its image without metres or with so many, its text, or its string after the pack in
    /// hand.
    fn make(&mut self, word: &str, numbers: &Numbers) {
        let parents = &self.parents[..numbers.room(0, NODES)];
        let room = numbers.room(1, BYTES);
        if word != "join" {
            // 9s as far as the room goes, and zeros after
            self.bytes[..room].fill(9);
            self.bytes[room..].fill(0);
        }
        let output = &mut self.bytes[..room];
        let result = match word {
            "encode" => calls::string_of_parents(parents, output),
            "image" => calls::image_of_parents(parents, output),
            "survey" => calls::image_with_metres(parents, &self.metres[..numbers.room(2, NODES)], output),
            "text" => calls::text_of_parents(parents, output),
            _ => calls::join(output, numbers.size(2), numbers.size(3), parents),
        };
        let written = output.to_vec();
        self.answered(result);
        self.list("bytes", &written);
    }

    fn read(&mut self, word: &str, numbers: &Numbers) {
        let lent = self.lent(numbers);
        let mut list = vec![9; numbers.room(1, MOST_WORDS)];
        let result = match word {
            "decode" => calls::parents_of_string(lent, numbers.size(2), &mut list),
            "unseal" => calls::parents_of_image(lent, &mut list),
            "distances" => calls::metres_of_image(lent, &mut list),
            "ask" => calls::ask(lent, &numbers.signed_from(2), &mut list),
            "untext" => calls::parents_of_text(lent, &mut list),
            _ => calls::list(lent, numbers.at(2), &mut list),
        };
        self.answered(result);
        self.list("list", &list);
        let planted = match word {
            "unseal" | "untext" => &self.parents,
            "distances" => &self.metres,
            _ => return,
        };
        let equal = planted.iter().zip(&list).filter(|(planted, read)| planted == read).count();
        self.printed += &format!("  equal {equal}\n");
    }

    /// The same questions about each of some nodes, all answers in sum.
    fn nodes(&mut self, numbers: &Numbers) {
        let mut questions = numbers.signed_from(3);
        questions.resize(78, 0);
        let mut all = Vec::new();
        for node in 0..numbers.at(2) {
            let node = numbers.at(1).wrapping_add(node) as i32;
            questions.iter_mut().skip(1).step_by(3).for_each(|asked| *asked = node);
            let mut answers = [9; 27];
            // a refusal leaves the 9s, and they are counted
            let _ = calls::ask(self.lent(numbers), &questions, &mut answers);
            all.extend(answers);
        }
        self.summed(&all);
    }

    fn split(&mut self, numbers: &Numbers) {
        let [mut starts, mut sizes] = [1, 2].map(|index| vec![9; numbers.room(index, MOST_PARTS)]);
        let (bits, trees) = (numbers.size(3), numbers.size(4));
        let result = calls::split(self.lent(numbers), bits, trees, &mut starts, &mut sizes);
        self.answered(result);
        self.list("list", &starts);
        self.list("list", &sizes);
    }

    fn answered(&mut self, result: Result<Counts, Refusal>) {
        let Answer { code, place, first, second } = Answer::of(result);
        self.printed += &format!("  answer {code} {place} {first} {second}\n");
    }

    fn list<N: Copy + Into<u32>>(&mut self, name: &str, list: &[N]) {
        let numbers: Vec<u32> = list.iter().map(|&number| number.into()).collect();
        if numbers.len() > MOST_SHOWN {
            return self.summed(&numbers);
        }
        let shown: String = numbers.iter().map(|number| format!(" {number}")).collect();
        self.printed += &format!("  {name}{shown}\n");
    }

    /// How many numbers are 9, and two sums, made as those of a block are made of its words.
    fn summed(&mut self, numbers: &[u32]) {
        let nines = numbers.iter().filter(|&&number| number == 9).count();
        let (mut s, mut t) = (0u32, 0u32);
        for number in numbers {
            s = s.wrapping_add(*number);
            t = t.wrapping_add(s);
        }
        self.printed += &format!("  nines and sums {nines} {s} {t}\n");
    }
}

/// The tree that a line asks for, as the parents of all nodes that there can be; its first entries are a smaller tree.
fn planted(word: &str, numbers: &Numbers) -> Vec<u32> {
    let mut parents = Vec::new();
    let (mut parent, mut seed) = (0, 1);
    for (index, before) in (0..NODES).zip(0u32..) {
        parent = match word {
            "parents" => numbers.at(index),
            // a path, whose last node has all later ones as children
            "grow" => before.min(numbers.at(0)),
            "branches" => branched(before, numbers.at(0), numbers.at(1)),
            _ => mixed(before, parent, seed),
        };
        parents.push(parent);
        seed = (seed * 75 + 74) % 65_537;
    }
    parents
}

/// The metres of the node that has so many before it: those of the first node, and as many more for each, modulo 2^32.
fn risen(before: u32, numbers: &Numbers) -> u32 {
    numbers.at(0).wrapping_add(before.wrapping_mul(numbers.at(1)))
}

/// The parent of the node that has so many before it: branches side by side below the root, of which only the last
/// goes on from the node with `both` before it.
fn branched(before: u32, branches: u32, both: u32) -> u32 {
    if before >= both {
        before
    } else if before > branches {
        before - branches + 1
    } else {
        before.min(1)
    }
}

/// The parent of the node that has so many before it, where `last` is the parent of the node before: a path, then steps
/// by chance, one node with some thousand children, and a leap over nodes that get none.
fn mixed(before: u32, last: u32, seed: usize) -> u32 {
    const STEPS: [u32; 8] = [0, 0, 0, 0, 1, 0, 2, 3];
    match before {
        0..=20 => before,
        4_601 => 3_950,
        3_501..=4_500 => last,
        _ => before.min(last + STEPS[seed % 8]),
    }
}

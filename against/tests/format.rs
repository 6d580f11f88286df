//! Every number in docs/FORMAT.md is right: the tables, the dump and the sentences are compared with what the model and
//! the library say, and the formulas are run. A number that nothing here looks at is an error too.
//!
//! [`Known`] is what is right, made once from the model, the library and the header; [`check`] goes from the text of
//! the document to the first thing that is wrong in it. So the last tests can try it on texts with one digit changed.

use against::compare::call::Call;
use against::compare::layout::{place_of_bit, Layout};
use against::compare::random::Random;
use against::compare::shapes::{parent_list, Shape};
use against::compare::twelve_cases::{METRES_OF_T, T};
use against::library::Library;
use against::model::answers::Answer;
use against::model::bits::{bits_of_bytes, bytes_for, bytes_of_bits};
use against::model::images::{
    candidate, image_of_strings, image_of_tree, ones_in, partition, seal, sums_of_block, BITS_IN_BLOCK, BLOCK_BYTES,
    MOST_BLOCKS, PAYLOAD_BYTES, PAYLOAD_WORDS, SAMPLE_STEP, WITHOUT_METRES, WITH_METRES,
};
use against::model::outline::{MOST_BLOCKS_READ, MOST_NODES_LISTED};
use against::model::packs::{parts_of_bits, MOST_TREES};
use against::model::questions::MOST_QUESTIONS;
use against::model::strings::{string_of_tree, MOST_BITS};
use against::model::texts::{text_of_tree, BLANKS, CLOSES, MOST_TEXT_BYTES, OPENS};
use against::model::trees::{Tree, MOST_NODES};
use std::collections::{BTreeMap, BTreeSet};
use std::iter::Peekable;
use std::ops::Range;
use std::path::Path;
use std::sync::LazyLock;
use std::vec::IntoIter;
use std::{fs, iter};

/// Nothing, or what is wrong.
type Checked = Result<(), String>;

fn read(path: &str) -> String {
    let path = Path::new(env!("CARGO_MANIFEST_DIR")).join("..").join(path);
    fs::read_to_string(&path).unwrap_or_else(|problem| panic!("{}: {problem}", path.display()))
}

// ---- the document, and the numbers in it

/// Where a number is put in a sentence of [`Known::sentences`].
const HOLE: &str = "{}";
/// A cell of a table whose words are not compared. A number in them must be checked in another way.
const WORDS: &str = "..";

struct Document<'t> {
    text: &'t str,
    /// Where each number is, in order.
    numbers: Vec<Range<usize>>,
    checked: Vec<bool>,
    /// The text with a hole for each number.
    with_holes: String,
}

/// All numbers of the text: words that begin with a digit or are hexadecimal, but for the numbers of headings.
fn numbers_in(text: &str) -> Vec<Range<usize>> {
    let mut numbers = Vec::new();
    for (begin, line) in lines_of(text) {
        let mut at = 0;
        while !line.starts_with('#') && at < line.len() {
            let word = &line[at..at + word_length(&line[at..])];
            if is_number(word) {
                numbers.push(begin + at..begin + at + word.len());
            }
            // what is no word is passed over by one character
            at += word.len().max(line[at..].chars().next().map_or(1, char::len_utf8));
        }
    }
    numbers
}

/// Each line and where it begins.
fn lines_of(text: &str) -> impl Iterator<Item = (usize, &str)> {
    let mut next = 0;
    text.split_inclusive('\n').map(move |line| {
        let begin = next;
        next += line.len();
        (begin, line.trim_end_matches('\n'))
    })
}

/// How long the word is that the text begins with. A comma belongs to it between digits, as in 65,535.
fn word_length(text: &str) -> usize {
    let bytes = text.as_bytes();
    let digit = |at: usize| bytes.get(at).is_some_and(u8::is_ascii_digit);
    let goes_on = |at: &usize| {
        let byte = bytes[*at];
        byte.is_ascii_alphanumeric() || byte == b'_' || byte == b',' && *at > 0 && digit(at - 1) && digit(at + 1)
    };
    (0..bytes.len()).take_while(goes_on).count()
}

fn is_number(word: &str) -> bool {
    let hexadecimal = word.bytes().all(|byte| byte.is_ascii_hexdigit());
    let capitals = word.bytes().all(|byte| byte.is_ascii_uppercase());
    let some_digit = word.bytes().any(|byte| byte.is_ascii_digit());
    word.starts_with(|first: char| first.is_ascii_digit()) || hexadecimal && (some_digit || capitals && word.len() == 2)
}

/// A cell of a table, and where it is.
struct Cell<'t> {
    text: &'t str,
    place: Range<usize>,
}

impl<'t> Document<'t> {
    fn new(text: &'t str) -> Document<'t> {
        let numbers = numbers_in(text);
        let mut with_holes = String::new();
        let mut end = 0;
        for number in &numbers {
            with_holes += &text[end..number.start];
            with_holes += HOLE;
            end = number.end;
        }
        with_holes += &text[end..];
        Document { text, checked: vec![false; numbers.len()], numbers, with_holes }
    }

    /// Counts the numbers within this place as checked.
    fn mark(&mut self, place: &Range<usize>) {
        let first = self.numbers.partition_point(|number| number.start < place.start);
        let end = self.numbers.partition_point(|number| number.start < place.end);
        self.checked[first..end].fill(true);
    }

    /// The rows of the table with this heading.
    fn table(&self, heading: &str) -> Result<Vec<Vec<Cell<'t>>>, String> {
        let mut lines = lines_of(self.text).skip_while(|(_, line)| *line != heading);
        lines.next().ok_or(format!("there is no table {heading}"))?;
        let rows = lines.skip(1).take_while(|(_, line)| line.starts_with('|'));
        Ok(rows.map(|(begin, line)| cells_of(begin, line)).collect())
    }

    /// The fenced blocks of this kind.
    fn fenced(&self, kind: &str) -> Vec<(Range<usize>, &'t str)> {
        let fence = format!("```{kind}\n");
        let blocks = self.text.match_indices(&fence).map(|(at, _)| {
            let begin = at + fence.len();
            let end = self.text[begin..].find("```").map_or(self.text.len(), |length| begin + length);
            (begin..end, &self.text[begin..end])
        });
        blocks.collect()
    }

    fn line_number(&self, at: usize) -> usize {
        1 + self.text[..at].matches('\n').count()
    }
}

fn cells_of(line_begin: usize, line: &str) -> Vec<Cell<'_>> {
    let mut begin = line_begin + 1;
    let inside = line.trim_start_matches('|').trim_end_matches('|');
    let cells = inside.split('|').map(|cell| {
        let place = begin..begin + cell.len();
        begin = place.end + 1;
        Cell { text: cell.trim().trim_matches('`'), place }
    });
    cells.collect()
}

// ---- the checks, each from the document to what is wrong in it

fn check(text: &str, known: &Known) -> Checked {
    let mut document = Document::new(text);
    check_dump(&mut document, known)?;
    check_tables(&mut document, known)?;
    check_sentences(&mut document, known)?;
    check_steps(&mut document)?;
    check_sums(&mut document, known)?;
    check_formulas(&mut document, known)?;
    check_rest(&document)
}

fn check_dump(document: &mut Document, known: &Known) -> Checked {
    let [(place, dump)] = &document.fenced("hexdump")[..] else { return Err("there is not one dump".into()) };
    for (line, right) in dump.lines().zip(known.dump.lines()) {
        if line != right {
            return Err(format!("the dump has\n{line}\nand not\n{right}"));
        }
    }
    if *dump != known.dump {
        return Err("the dump has more lines or fewer".into());
    }
    document.mark(place);
    Ok(())
}

fn check_tables(document: &mut Document, known: &Known) -> Checked {
    for (heading, rows) in &known.tables {
        let cells_of_rows = document.table(heading)?;
        if cells_of_rows.len() != rows.len() {
            return Err(format!("the table {heading} has {} rows, not {}", cells_of_rows.len(), rows.len()));
        }
        for (cells, row) in cells_of_rows.iter().zip(rows) {
            if cells.len() != row.len() {
                return Err(format!("a row of the table {heading} has {} cells", cells.len()));
            }
            for (cell, right) in cells.iter().zip(row).filter(|(_, right)| *right != WORDS) {
                if cell.text != right {
                    let line = document.line_number(cell.place.start);
                    return Err(format!("line {line}, table {heading}: '{}', not '{right}'", cell.text));
                }
                document.mark(&cell.place);
            }
        }
    }
    Ok(())
}

fn check_sentences(document: &mut Document, known: &Known) -> Checked {
    for (sentence, values) in &known.sentences {
        let places: Vec<usize> = document.with_holes.match_indices(sentence).map(|(at, _)| at).collect();
        if places.is_empty() {
            return Err(format!("it does not say: {sentence}"));
        }
        for place in places {
            let first = document.with_holes[..place].matches(HOLE).count();
            for (index, value) in (first..).zip(values) {
                let number = document.numbers[index].clone();
                let said = document.text[number.clone()].replace(',', "");
                if said != *value {
                    let line = document.line_number(number.start);
                    return Err(format!("line {line}: {said}, not {value}, in: {sentence}"));
                }
                document.checked[index] = true;
            }
        }
    }
    Ok(())
}

/// The items of a numbered list count from 1.
fn check_steps(document: &mut Document) -> Checked {
    let mut last = 0;
    for (begin, line) in lines_of(document.text) {
        let digits = line.bytes().take_while(u8::is_ascii_digit).count();
        if digits == 0 || !line[digits..].starts_with(". ") {
            last = 0;
            continue;
        }
        last += 1;
        if line[..digits] != last.to_string() {
            return Err(format!("line {}: not item {last}", document.line_number(begin)));
        }
        document.mark(&(begin..begin + digits));
    }
    Ok(())
}

/// Runs the few lines that compute s and t.
fn check_sums(document: &mut Document, known: &Known) -> Checked {
    let [(place, lines)] = &document.fenced("sums")[..] else { return Err("the sums are not there once".into()) };
    let (each_word, before): (Vec<&str>, Vec<&str>) = lines.lines().partition(|line| line.starts_with(' '));
    let assignments = |lines: Vec<&str>| -> Result<Vec<(String, Formula)>, String> {
        let set = lines.into_iter().filter(|line| !line.starts_with("for ")).map(|line| {
            let (name, formula) = line.split_once('=').ok_or(format!("sums: {line}"))?;
            Ok((name.trim().to_string(), formula_of(formula)?))
        });
        set.collect()
    };
    let (before, each_word) = (assignments(before)?, assignments(each_word)?);
    let no_definitions = Definitions::new();
    for (block, payload) in &known.payloads {
        let mut names = Names::from([("b".to_string(), *block as i128)]);
        let mut run = |steps: &[(String, Formula)], word: Option<u32>| -> Checked {
            names.extend(word.map(|word| ("w".to_string(), i128::from(word))));
            for (name, formula) in steps {
                let value = Scope { example: None, definitions: &no_definitions }.value(formula, &names)?;
                names.insert(name.clone(), value);
            }
            Ok(())
        };
        run(&before, None)?;
        for word in payload.chunks(4) {
            run(&each_word, Some(word_at(word, 0)?))?;
        }
        let (s, t) = sums_of_block(*block, payload);
        if (names.get("s"), names.get("t")) != (Some(&s.into()), Some(&t.into())) {
            return Err(format!("the lines for s and t do not give {s} and {t} but {names:?}"));
        }
    }
    // the words in its line `for each ..` are one of the sentences, so all of it is looked at
    document.mark(place);
    Ok(())
}

fn check_rest(document: &Document) -> Checked {
    let unchecked = document.numbers.iter().zip(&document.checked).filter(|(_, checked)| !**checked);
    let places = unchecked.map(|(number, _)| {
        let line = document.line_number(number.start);
        format!(
            "line {line}: {}: {}",
            &document.text[number.clone()],
            document.text.lines().nth(line - 1).unwrap_or("")
        )
    });
    let places: Vec<String> = places.collect();
    if places.is_empty() {
        return Ok(());
    }
    Err(format!("numbers that nothing checks:\n{}", places.join("\n")))
}

// ---- formulas

enum Formula {
    Number(i128),
    /// A name, or a function and its arguments.
    Named(String, Vec<Formula>),
    Two(Box<Formula>, String, Box<Formula>),
    /// value, condition, other value: `value if condition else other`
    Choice(Box<[Formula; 3]>),
}

/// What binds less comes first.
const OPERATORS: [&[&str]; 5] = [&["and"], &["=", "!=", "<", "<=", ">", ">="], &["+", "-"], &["*", "/", "%"], &["^"]];

type Words<'t> = Peekable<IntoIter<&'t str>>;

fn formula_of(text: &str) -> Result<Formula, String> {
    let mut list = Vec::new();
    let mut rest = text.trim();
    while !rest.is_empty() {
        let two_signs = ["<=", ">=", "!="].iter().any(|sign| rest.starts_with(sign));
        let (word, after) = rest.split_at(word_length(rest).max(if two_signs { 2 } else { 1 }));
        list.push(word);
        rest = after.trim_start();
    }
    let mut words = list.into_iter().peekable();
    let formula = choice(&mut words)?;
    if let Some(word) = words.next() {
        return Err(format!("'{word}' too many in: {text}"));
    }
    Ok(formula)
}

fn choice(words: &mut Words) -> Result<Formula, String> {
    let value = operation(words, 0)?;
    if words.next_if_eq(&"if").is_none() {
        return Ok(value);
    }
    let condition = operation(words, 0)?;
    words.next_if_eq(&"else").ok_or("an if without else")?;
    Ok(Formula::Choice(Box::new([value, condition, choice(words)?])))
}

fn operation(words: &mut Words, level: usize) -> Result<Formula, String> {
    let Some(operators) = OPERATORS.get(level) else { return operand(words) };
    let mut formula = operation(words, level + 1)?;
    while let Some(operator) = words.next_if(|word| operators.contains(word)) {
        formula = Formula::Two(Box::new(formula), operator.to_string(), Box::new(operation(words, level + 1)?));
    }
    Ok(formula)
}

fn operand(words: &mut Words) -> Result<Formula, String> {
    let word = words.next().ok_or("a formula that ends too early")?;
    if word == "(" {
        let formula = choice(words)?;
        words.next_if_eq(&")").ok_or("a bracket that is not closed")?;
        return Ok(formula);
    }
    if word.starts_with(|first: char| first.is_ascii_digit()) {
        return word.parse().map(Formula::Number).map_err(|_| format!("'{word}' is no number"));
    }
    let mut arguments = Vec::new();
    if words.next_if_eq(&"(").is_some() {
        arguments.push(choice(words)?);
        while words.next_if_eq(&",").is_some() {
            arguments.push(choice(words)?);
        }
        words.next_if_eq(&")").ok_or("a bracket that is not closed")?;
    }
    Ok(Formula::Named(word.to_string(), arguments))
}

/// A formula's line: the names of its arguments, and what it is.
struct Definition {
    arguments: Vec<String>,
    formula: Formula,
    place: Range<usize>,
}

type Definitions = BTreeMap<String, Definition>;
type Names = BTreeMap<String, i128>;

fn definitions_of(document: &Document) -> Result<Definitions, String> {
    let mut definitions = Definitions::new();
    for (block, lines) in document.fenced("formula") {
        for (begin, line) in lines_of(lines).filter(|(_, line)| !line.is_empty()) {
            let (head, formula) = line.split_once(" = ").ok_or(format!("no formula: {line}"))?;
            let (name, arguments) = head.split_once('(').unwrap_or((head, ""));
            let arguments = arguments.trim_end_matches(')').split(", ").filter(|argument| !argument.is_empty());
            let arguments = arguments.map(str::to_string).collect();
            let place = block.start + begin..block.start + begin + line.len();
            let definition = Definition { arguments, formula: formula_of(formula)?, place };
            if definitions.insert(name.to_string(), definition).is_some() {
                return Err(format!("{name} is defined twice"));
            }
        }
    }
    Ok(definitions)
}

/// What the names of a formula mean: those of the document, and those of a tree.
struct Scope<'a> {
    example: Option<&'a Example>,
    definitions: &'a Definitions,
}

impl Scope<'_> {
    fn value(&self, formula: &Formula, names: &Names) -> Result<i128, String> {
        match formula {
            Formula::Number(number) => Ok(*number),
            Formula::Choice(parts) => {
                let [value, condition, other] = &**parts;
                self.value(if self.value(condition, names)? != 0 { value } else { other }, names)
            }
            Formula::Two(one, operator, other) => {
                let (one, other) = (self.value(one, names)?, self.value(other, names)?);
                let value = match operator.as_str() {
                    "+" => one.checked_add(other),
                    "-" => one.checked_sub(other),
                    "*" => one.checked_mul(other),
                    "/" => one.checked_div(other),
                    "%" => one.checked_rem(other),
                    "^" => u32::try_from(other).ok().and_then(|power| one.checked_pow(power)),
                    "=" => Some((one == other).into()),
                    "!=" => Some((one != other).into()),
                    "<" => Some((one < other).into()),
                    "<=" => Some((one <= other).into()),
                    ">" => Some((one > other).into()),
                    ">=" => Some((one >= other).into()),
                    _ => Some((one != 0 && other != 0).into()),
                };
                value.ok_or(format!("{one} {operator} {other} cannot be computed"))
            }
            Formula::Named(name, arguments) => self.named(name, arguments, names),
        }
    }

    fn named(&self, name: &str, arguments: &[Formula], names: &Names) -> Result<i128, String> {
        if let (Some(value), []) = (names.get(name), arguments) {
            return Ok(*value);
        }
        let index = |formula| self.value(formula, names).map(|value| usize::try_from(value).unwrap_or(usize::MAX));
        let of_tree = match (self.example, arguments) {
            (Some(example), [Formula::Named(string, _), place]) if ["R1", "R0"].contains(&string.as_str()) => {
                Some(example.of_string(name, string, index(place)?))
            }
            (Some(example), [node]) if ["entry", "degree", "metres"].contains(&name) => {
                Some(example.of_node(name, index(node)?))
            }
            _ => None,
        };
        if let Some(value) = of_tree {
            return value.map(|value| value as i128).ok_or(format!("{name} of something that is not there"));
        }
        let unknown = format!("what is {name} with {} arguments?", arguments.len());
        let definition = self.definitions.get(name).ok_or(unknown.clone())?;
        if definition.arguments.len() != arguments.len() {
            return Err(unknown);
        }
        let mut inner = self.sizes();
        for (name, argument) in definition.arguments.iter().zip(arguments) {
            inner.insert(name.clone(), self.value(argument, names)?);
        }
        self.value(&definition.formula, &inner)
    }

    /// n and m, which every formula may use.
    fn sizes(&self) -> Names {
        let sizes = self.example.map(|example| [("n".to_string(), example.n()), ("m".to_string(), example.m())]);
        sizes.into_iter().flatten().map(|(name, size)| (name, size as i128)).collect()
    }
}

/// The position in a string, from 1, of a one with this number; 0 for number 0.
fn position(string: &[bool], number: usize) -> Option<usize> {
    if number == 0 {
        return Some(0);
    }
    (1..=string.len()).filter(|&at| string[at - 1]).nth(number - 1)
}

/// Formulas of the document being tried; remembers which.
struct Trial<'a> {
    definitions: &'a Definitions,
    tried: BTreeSet<String>,
}

impl Trial<'_> {
    fn value(&mut self, example: &Example, name: &str, arguments: &[usize]) -> Result<i128, String> {
        self.tried.insert(name.to_string());
        let arguments: Vec<Formula> = arguments.iter().map(|&number| Formula::Number(number as i128)).collect();
        let scope = Scope { example: Some(example), definitions: self.definitions };
        scope.value(&Formula::Named(name.to_string(), arguments), &scope.sizes())
    }

    fn expect(&mut self, example: &Example, name: &str, arguments: &[usize], right: usize) -> Checked {
        let value = self.value(example, name, arguments)?;
        if value != right as i128 {
            let tree = format!("n = {}, m = {}", example.n(), example.m());
            return Err(format!("{name} {arguments:?} is {value}, not {right}, where {tree}"));
        }
        Ok(())
    }
}

fn check_formulas(document: &mut Document, known: &Known) -> Checked {
    let definitions = definitions_of(document)?;
    let mut trial = Trial { definitions: &definitions, tried: BTreeSet::new() };
    try_bits(&mut trial, known)?;
    for example in &known.small {
        try_strings(&mut trial, example, known)?;
        try_layout(&mut trial, example)?;
    }
    try_runs(&mut trial, known)?;
    for example in &known.large {
        try_layout(&mut trial, example)?;
    }
    let Trial { tried, .. } = trial;
    for name in tried {
        document.mark(&definitions[&name].place);
    }
    check_kinds(document, &definitions, known)
}

/// Formulas that do not depend on a tree.
fn try_bits(trial: &mut Trial, known: &Known) -> Checked {
    let any = &known.small[0];
    for bits in 0..=40 {
        trial.expect(any, "bytes_of_bits", &[bits], bytes_for(bits))?;
    }
    for bit in 1..=40 {
        let mut bits = vec![false; bit];
        bits[bit - 1] = true;
        let bytes = bytes_of_bits(&bits);
        trial.expect(any, "byte_of_bit", &[bit], bytes.len() - 1)?;
        trial.expect(any, "value_of_bit", &[bit], bytes[bytes.len() - 1].into())?;
    }
    for (one, other) in [(0, 1), (1, 1), (1, 5), (5, 5), (6, 5), (9, 5), (10, 5), (11, 5), (12, 1)] {
        trial.expect(any, "up", &[one, other], one.div_ceil(other))?;
    }
    let sampled: Vec<usize> = (1..=MOST_NODES).step_by(SAMPLE_STEP).collect();
    for number in [1, 2, 63, 64, 65, 66, 128, 129, 130, 8_064, 8_065, MOST_NODES] {
        let before = sampled.iter().filter(|&&one| one <= number).count();
        trial.expect(any, "sample_before", &[number], before)?;
        trial.expect(any, "ones_still_to_pass", &[number], number - sampled[before - 1])?;
        trial.expect(any, "one_of_sample", &[before], sampled[before - 1])?;
    }
    let pack: Vec<bool> = known.small.iter().flat_map(|example| example.string.clone()).collect();
    let parts = parts_of_bits(&pack).expect("strings end to end");
    for pair in parts.windows(2) {
        trial.expect(any, "next_start", &[pair[0].first_bit, pair[0].tree.node_count()], pair[1].first_bit)?;
    }
    Ok(())
}

/// Where everything is in the image of a tree.
fn try_layout(trial: &mut Trial, example: &Example) -> Checked {
    let layout = Layout::of(example.n(), example.m(), true);
    let Example { image, with_metres, .. } = example;
    for (name, right) in [
        ("ones_in_string", ones_in(&example.string)),
        ("zeros_in_string", example.string.len() - ones_in(&example.string)),
        ("string_bits", example.string.len()),
        ("string_bytes", bytes_for(example.string.len())),
        ("r1_bits", example.r1.len()),
        ("r0_bits", example.r0.len()),
        ("r1_blocks", layout.r1.len()),
        ("r0_blocks", layout.r0.len()),
        ("samples", layout.samples),
        ("sample_blocks", layout.r1_samples.len()),
        ("r1_first", layout.r1.start),
        ("r0_first", layout.r0.start),
        ("r1_samples_first", layout.r1_samples.start),
        ("r0_samples_first", layout.r0_samples.start),
        ("blocks", layout.r0_samples.end),
        ("image_bytes", image.len()),
        ("metres_first", layout.metres.start),
        ("metre_blocks", layout.metres.len()),
        ("blocks_with_metres", layout.blocks()),
        ("image_bytes_with_metres", with_metres.len()),
    ] {
        trial.expect(example, name, &[], right)?;
    }
    for block in [0, layout.r1.start, layout.r0.start, layout.r0_samples.end - 1] {
        let (s, t) = sums_of_block(block, &image[block * BLOCK_BYTES..][..PAYLOAD_BYTES]);
        for (name, right) in [("s_at", s), ("t_at", t)] {
            let offset = trial.value(example, name, &[block])?;
            if word_at(image, offset)? != right {
                return Err(format!("{name} is not there in block {block}"));
            }
        }
        for word in [0, 1, 2, PAYLOAD_WORDS - 1] {
            trial.expect(example, "word_at", &[block, word], BLOCK_BYTES * block + 4 * word)?;
        }
    }
    let strings = [(layout.r1.start, &example.r1), (layout.r0.start, &example.r0)];
    for (first, string) in strings {
        let edges =
            [1, 2, 8, 9, BITS_IN_BLOCK, BITS_IN_BLOCK + 1, BITS_IN_BLOCK + 9, 2 * BITS_IN_BLOCK + 1, string.len()];
        for bit in edges.into_iter().filter(|&bit| bit <= string.len()) {
            let (offset, mask) = place_of_bit(first, bit - 1);
            assert_eq!(image[offset] & mask != 0, string[bit - 1], "a bit of the model's image");
            trial.expect(example, "bit_at", &[first, bit], offset)?;
            trial.expect(example, "block_of_bit", &[first, bit], offset / BLOCK_BYTES)?;
            trial.expect(example, "value_of_bit", &[bit], mask.into())?;
        }
    }
    for (first, (_, string)) in [layout.r1_samples.start, layout.r0_samples.start].into_iter().zip(strings) {
        for sample in [1, 2, 3, 126, 127, 128, layout.samples].into_iter().filter(|&sample| sample <= layout.samples) {
            let offset = trial.value(example, "sample_at", &[first, sample])?;
            let one = trial.value(example, "one_of_sample", &[sample])?;
            let right = usize::try_from(one).ok().and_then(|one| position(string, one));
            if right != Some(word_at(image, offset)? as usize) {
                return Err(format!("sample {sample} is not where sample_at says"));
            }
        }
    }
    for node in [1, 2, 125, 126, 127, 252, 253, example.n()].into_iter().filter(|&node| node <= example.n()) {
        let offset = trial.value(example, "metres_at", &[node])?;
        if word_at(with_metres, offset)? != example.metres[node - 1] {
            return Err(format!("the metres of node {node} are not where metres_at says"));
        }
    }
    Ok(())
}

/// What R1 and R0 are, and positions in the tree string.
fn try_strings(trial: &mut Trial, example: &Example, known: &Known) -> Checked {
    let same_size = || known.small.iter().filter(|other| other.n() == example.n()).map(Example::m);
    if same_size().count() > 1 || example.n() < 3 {
        // all trees of this size are among the examples
        trial.expect(example, "least_m", &[], same_size().min().expect("the example itself"))?;
        trial.expect(example, "most_m", &[], same_size().max().expect("the example itself"))?;
    }
    for (index, &bit) in example.r1.iter().enumerate() {
        trial.expect(example, "r1_bit", &[index + 1], bit.into())?;
    }
    for (index, &bit) in example.r0.iter().enumerate() {
        trial.expect(example, "r0_bit", &[index + 1], bit.into())?;
    }
    let (mut ones, mut zeros) = (0, 0);
    for (index, &bit) in example.string.iter().enumerate() {
        if bit {
            ones += 1;
            trial.expect(example, "one_in_string", &[ones], index + 1)?;
        } else {
            zeros += 1;
            trial.expect(example, "zero_in_string", &[zeros], index + 1)?;
            trial.expect(example, "ones_before_zero", &[zeros], ones)?;
        }
    }
    Ok(())
}

/// The points for R1 and R0 hold exactly if a tree gives them.
fn try_runs(trial: &mut Trial, known: &Known) -> Checked {
    for (pair, of_tree) in &known.pairs {
        let (r1, r0) = (&pair.r1, &pair.r0);
        let mut points = r1[0] && r1[r1.len() - 1] && r0[r0.len() - 1] && ones_in(r1) == ones_in(r0);
        if points {
            for run in 1..ones_in(r1) {
                points &= trial.value(pair, "runs_fit", &[run])? != 0;
            }
        }
        if points != *of_tree {
            return Err(format!("the points for {} and {} say {points}", bit_text(r1), bit_text(r0)));
        }
    }
    Ok(())
}

/// The formulas in the table of kinds give the answers of model and library.
fn check_kinds(document: &mut Document, definitions: &Definitions, known: &Known) -> Checked {
    let cells = document.table(KINDS)?.into_iter().filter_map(|mut row| row.pop());
    let formulas: Vec<(Formula, Range<usize>)> =
        cells.map(|cell| Ok((formula_of(cell.text)?, cell.place))).collect::<Result<_, String>>()?;
    for example in &known.small {
        let scope = Scope { example: Some(example), definitions };
        for (question, right) in &example.answers {
            let [kind, node, argument] = question.map(i128::from);
            let mut names = scope.sizes();
            names.extend([("x".to_string(), node), ("a".to_string(), argument)]);
            let value = scope.value(&formulas[kind as usize - 1].0, &names)?;
            if value != i128::from(*right) {
                return Err(format!("kind {kind}, node {node}, argument {argument}: {value}, not {right}"));
            }
        }
    }
    for (_, place) in formulas {
        document.mark(&place);
    }
    Ok(())
}

/// The word at an offset of a file.
fn word_at(bytes: &[u8], offset: impl TryInto<usize>) -> Result<u32, String> {
    let word = offset.try_into().ok().and_then(|offset| bytes.get(offset..)?.first_chunk());
    word.map(|word| u32::from_le_bytes(*word)).ok_or("an offset outside the file".into())
}

// ---- what is right

/// A tree in all its forms.
struct Example {
    tree: Tree,
    string: Vec<bool>,
    r1: Vec<bool>,
    r0: Vec<bool>,
    m: usize,
    image: Vec<u8>,
    metres: Vec<u32>,
    with_metres: Vec<u8>,
    /// Questions with their answers, where there are metres.
    answers: Vec<([i32; 3], u32)>,
}

impl Example {
    fn of(parents: &[u32]) -> Example {
        let tree = Tree::of_parent_list(parents).expect("a parent list");
        let string = string_of_tree(&tree);
        let (r1, r0) = partition(&string);
        let (m, image) = (ones_in(&r1), image_of_tree(&tree, None));
        let metres: Vec<u32> = (1..).take(parents.len()).map(|node| 10 * node).collect();
        let with_metres = image_of_tree(&tree, Some(&metres));
        Example { tree, string, r1, r0, m, image, metres, with_metres, answers: Vec::new() }
    }

    /// `bit(S, i)`, `left(S, i)` and `position(S, k)`, where the string has such a place.
    fn of_string(&self, function: &str, string: &str, number: usize) -> Option<usize> {
        let string = if string == "R1" { &self.r1 } else { &self.r0 };
        match function {
            "position" => position(string, number),
            "left" => string.get(..number.checked_sub(1)?).map(ones_in),
            "bit" => string.get(number.checked_sub(1)?).map(|&bit| bit.into()),
            _ => None,
        }
    }

    /// `entry(i)`, `degree(x)` and `metres(x)`, where the tree has such a node.
    fn of_node(&self, function: &str, node: usize) -> Option<usize> {
        let known = self.tree.nodes().contains(&node);
        known.then(|| match function {
            "entry" => self.tree.parent(node),
            "degree" => self.tree.children(node).len(),
            _ => self.metres[node - 1] as usize,
        })
    }

    fn n(&self) -> usize {
        self.r1.len()
    }

    fn m(&self) -> usize {
        self.m
    }
}

struct Known {
    dump: String,
    /// The heading of each table, and its rows.
    tables: Vec<(&'static str, Vec<Vec<String>>)>,
    /// Parts of sentences with holes, and the numbers for the holes.
    sentences: Vec<(&'static str, Vec<String>)>,
    /// Numbers of blocks, and payloads.
    payloads: Vec<(usize, Vec<u8>)>,
    /// T and all trees of up to five nodes, with answers to questions.
    small: Vec<Example>,
    /// Trees around the sizes where an image gets another block.
    large: Vec<Example>,
    /// Strings for R1 and R0, and whether a tree gives them.
    pairs: Vec<(Example, bool)>,
}

/// The model and the library, which must agree.
struct Both {
    library: Library,
}

impl Both {
    /// The answer to a call, and the call with its lists as they are after it.
    fn run(&mut self, call: Call) -> (Answer, Call) {
        let (mut by_library, mut by_model) = (call.clone(), call);
        let returned = self.library.run(&mut by_library);
        let answer = by_model.by_model();
        assert_eq!(returned.answer, answer, "library and model: {by_model}");
        assert!(returned.neighbours_kept && by_library == by_model, "library and model: {by_model}");
        (answer, by_model)
    }

    fn check_image(&mut self, image: Vec<u8>) -> Answer {
        self.run(Call::CheckImage { image }).0
    }

    fn image(&mut self, parents: &[u32], metres: Option<&[u32]>) -> (Answer, Vec<u8>) {
        let right = image_of_tree(&Tree::of_parent_list(parents).expect("a parent list"), metres);
        let (parents, image) = (parents.to_vec(), vec![0xEE; right.len()]);
        let call = match metres {
            None => Call::ImageOfParents { parents, image },
            Some(metres) => Call::ImageWithMetres { parents, metres: metres.to_vec(), image },
        };
        let (answer, call) = self.run(call);
        let (Call::ImageOfParents { image, .. } | Call::ImageWithMetres { image, .. }) = call else {
            unreachable!("the same call")
        };
        (answer, image)
    }

    fn string(&mut self, parents: &[u32]) -> (Answer, Vec<u8>) {
        let bytes = vec![0xEE; bytes_for(2 * parents.len() + 1)];
        let (answer, call) = self.run(Call::StringOfParents { parents: parents.to_vec(), bytes });
        let Call::StringOfParents { bytes, .. } = call else { unreachable!("the same call") };
        (answer, bytes)
    }

    fn ask(&mut self, image: &[u8], questions: &[[i32; 3]]) -> Vec<u32> {
        let (image, answers) = (image.to_vec(), vec![0; questions.len()]);
        let (answer, call) = self.run(Call::Ask { image, questions: questions.concat(), answers });
        let Call::Ask { answers, .. } = call else { unreachable!("the same call") };
        assert_eq!(answer.code, 0, "questions that are allowed");
        answers
    }

    /// The first bits and node counts of a pack, if it is split.
    fn split(&mut self, bits: &[bool], trees: usize) -> (Answer, Vec<u32>, Vec<u32>) {
        let (starts, sizes) = (vec![0; trees], vec![0; trees]);
        let (answer, call) =
            self.run(Call::Split { bytes: bytes_of_bits(bits), bits: bits.len(), trees, starts, sizes });
        let Call::Split { starts, sizes, .. } = call else { unreachable!("the same call") };
        if answer.code == 0 {
            (answer, starts, sizes)
        } else {
            (answer, Vec::new(), Vec::new())
        }
    }

    /// The greatest depth that a listing can have, by trying paths.
    fn greatest_depth(&mut self) -> usize {
        let listed = |both: &mut Both, n: usize| {
            let image = image_of_shape(Shape::Path, n);
            both.run(Call::List { image, node: 1, pairs: vec![0; 2 * n] }).0.code == 0
        };
        (1..).find(|&n| !listed(self, n + 1)).expect("some path is too deep") - 1
    }

    /// The most levels that a text can have, by trying paths.
    fn most_levels(&mut self) -> usize {
        let read = |both: &mut Both, n: usize| {
            let text = ["(".repeat(n), ")".repeat(n)].concat().into_bytes();
            both.run(Call::ParentsOfText { text, parents: vec![0; n] }).0.code == 0
        };
        (1..).find(|&n| !read(self, n + 1)).expect("some path has too many levels")
    }
}

fn image_of_shape(shape: Shape, n: usize) -> Vec<u8> {
    image_of_tree(&Tree::of_parent_list(&parents_of_shape(shape, n)).expect("made as a tree"), None)
}

fn parents_of_shape(shape: Shape, n: usize) -> Vec<u32> {
    parent_list(shape, n, &mut Random::new(n as u64))
}

fn bit_text(bits: &[bool]) -> String {
    or_none(bits.iter().map(|&bit| if bit { '1' } else { '0' }).collect())
}

fn bits_of_text(text: &str) -> Vec<bool> {
    text.bytes().map(|bit| bit == b'1').collect()
}

fn byte_text(bytes: &[u8]) -> String {
    let bytes: Vec<String> = bytes.iter().map(|byte| format!("{byte:02X}")).collect();
    or_none(bytes.join(" "))
}

fn list_text<N: ToString>(numbers: &[N]) -> String {
    let numbers: Vec<String> = numbers.iter().map(N::to_string).collect();
    or_none(numbers.join(" "))
}

fn or_none(text: String) -> String {
    if text.is_empty() {
        "none".into()
    } else {
        text
    }
}

/// A number with commas, as in 65,535.
fn grouped(number: usize) -> String {
    if number < 1_000 {
        number.to_string()
    } else {
        format!("{},{:03}", grouped(number / 1_000), number % 1_000)
    }
}

/// As `hexdump -C` prints it: of equal lines only the first, then `*`.
fn hexdump(bytes: &[u8]) -> String {
    let mut text = String::new();
    let mut last: Option<&[u8]> = None;
    let mut left_out = false;
    for (index, line) in bytes.chunks(16).enumerate() {
        if last == Some(line) {
            text += if left_out { "" } else { "*\n" };
            left_out = true;
            continue;
        }
        (last, left_out) = (Some(line), false);
        let half = |bytes: &[u8]| bytes.iter().map(|byte| format!(" {byte:02x}")).collect::<String>();
        let printed: String =
            line.iter().map(|&byte| if (32..127).contains(&byte) { byte as char } else { '.' }).collect();
        text += &format!("{:08x} {} {}  |{printed}|\n", 16 * index, half(&line[..8]), half(&line[8..]));
    }
    text + &format!("{:08x}\n", bytes.len())
}

/// Every parent list of so many numbers.
fn every_tree(n: usize) -> Vec<Vec<u32>> {
    if n == 1 {
        return vec![vec![0]];
    }
    let shorter = every_tree(n - 1);
    let longer = shorter.iter().flat_map(|list| {
        let last = list[list.len() - 1].max(1);
        (last..n as u32).map(move |parent| [&list[..], &[parent]].concat())
    });
    longer.collect()
}

/// Every string of so many bits.
fn every_string(bits: usize) -> impl Iterator<Item = Vec<bool>> {
    (0..1usize << bits).map(move |number| (0..bits).map(|bit| number >> bit & 1 == 1).collect())
}

const KINDS: &str = "| kind | in C | answer for node x |";

impl Known {
    fn new() -> Known {
        let mut both = Both { library: Library::new() };
        let header = read("include/parlaqen.h");
        let t = Example::of(&T);
        let image = both.image(&T, None).1;
        assert!(image == t.image && image.len() == 5 * BLOCK_BYTES);
        assert!(both.image(&T, Some(&METRES_OF_T)).1 == t.with_metres && t.metres == METRES_OF_T);

        let mut small = vec![Example::of(&T)];
        small.extend((1..=5).flat_map(every_tree).map(|parents| Example::of(&parents)));
        for example in &mut small {
            example.answers = every_answer(&mut both, example);
        }
        let sizes = [
            63, 64, 65, 125, 126, 127, 128, 129, 252, 253, 3_999, 4_000, 4_001, 7_999, 8_000, 8_001, 8_064, 8_065,
            16_128, 16_129, MOST_NODES,
        ];
        let shapes = [Shape::Path, Shape::Star, Shape::Comb, Shape::Bushy];
        let large = sizes.into_iter().flat_map(|n| shapes.map(|shape| Example::of(&parents_of_shape(shape, n))));

        let mut random = Random::new(1);
        let mut payloads: Vec<(usize, Vec<u8>)> =
            image.chunks(BLOCK_BYTES).map(|block| block[..PAYLOAD_BYTES].to_vec()).enumerate().collect();
        payloads.extend((0..MOST_BLOCKS).rev().step_by(11).map(|block| (block, random.bytes(PAYLOAD_BYTES))));

        let pairs = (1..=5).flat_map(|n| every_string(n).flat_map(move |r1| iter::repeat(r1).zip(every_string(n + 1))));
        let pairs = pairs.map(|(r1, r0)| {
            let image = image_of_strings(&r1, &r0, None);
            let of_tree = candidate(&image).is_some_and(|tree| image_of_tree(&tree, None) == image);
            (Example { m: ones_in(&r1), r1, r0, ..Example::of(&[0]) }, of_tree)
        });

        let tables = [
            tables_of_forms(&mut both),
            tables_of_images(&mut both),
            tables_of_t(&mut both, &t),
            tables_of_packs(&mut both),
            tables_of_texts(&mut both, &t),
            tables_of_numbers(&mut both, &header),
            tables_of_damage(&mut both),
        ];
        Known {
            dump: hexdump(&image),
            tables: tables.into_iter().flatten().collect(),
            sentences: sentences(&mut both, &header, &t),
            payloads,
            small,
            large: large.collect(),
            pairs: pairs.collect(),
        }
    }
}

/// The answers to all kinds of questions about all nodes.
fn every_answer(both: &mut Both, example: &Example) -> Vec<([i32; 3], u32)> {
    let nodes = 1..=example.n() as i32;
    let kinds = (1..=11).flat_map(|kind| {
        let arguments = if kind == 8 || kind == 10 { -3..=4 } else { 0..=0 };
        arguments.map(move |argument| (kind, argument))
    });
    let questions: Vec<[i32; 3]> =
        kinds.flat_map(|(kind, argument)| nodes.clone().map(move |node| [kind, node, argument])).collect();
    let answered =
        |some: &[[i32; 3]]| some.iter().copied().zip(both.ask(&example.with_metres, some)).collect::<Vec<_>>();
    questions.chunks(MOST_QUESTIONS).flat_map(answered).collect()
}

type Tables = Vec<(&'static str, Vec<Vec<String>>)>;

macro_rules! row {
    ($($cell:expr),* $(,)?) => { vec![$($cell.to_string()),*] };
}

fn tables_of_forms(both: &mut Both) -> Tables {
    let trees: [&[u32]; 5] = [&[0], &[0, 1], &[0, 1, 2], &[0, 1, 1, 1], &T];
    let examples = trees.map(|parents| {
        let Example { string, r1, r0, image, .. } = Example::of(parents);
        let (made, bytes) = both.string(parents);
        let (sealed, by_both) = both.image(parents, None);
        assert!(bytes == bytes_of_bits(&string) && by_both == image);
        let (bits, ones, zeros) = (bit_text(&string), bit_text(&r1), bit_text(&r0));
        row![list_text(parents), sealed.first, made.first, bits, byte_text(&bytes), ones, zeros, sealed.second]
    });
    let lists: [&[u32]; 5] = [&[], &[1], &[0, 0], &[0, 2], &[0, 1, 2, 1]];
    let no_parents = lists.map(|list| {
        let answer = both.string(list).0;
        row![list_text(list), answer.code, answer.place, WORDS]
    });
    let strings: [(&[u8], usize); 12] = [
        (&[0xBB, 0x20], 15),
        (&[0xBB, 0x21], 15),
        (&[0xBB, 0x20, 0x00], 15),
        (&[0xBB], 15),
        (&[0xBB, 0x20], 16),
        (&[0xBB, 0x00], 9),
        (&[], 0),
        (&[0x00], 1),
        (&[0xC0], 3),
        (&[0x80], 2),
        (&[0x80], 4),
        (&[0x90], 5),
    ];
    let strings = strings.map(|(bytes, bits)| {
        let call = Call::ParentsOfString { bytes: bytes.to_vec(), bits, parents: vec![0; 100] };
        let answer = both.run(call).0;
        let shown: Vec<bool> = bits_of_bytes(bytes).into_iter().take(bits).collect();
        row![byte_text(bytes), bits, bit_text(&shown), answer.code, answer.place, WORDS]
    });
    vec![
        ("| parent list | n | L | tree string | bytes | R1 | R0 | m |", examples.to_vec()),
        ("| list | code | place | why |", no_parents.to_vec()),
        ("| bytes | L | bits | code | place | why |", strings.to_vec()),
    ]
}

fn tables_of_images(both: &mut Both) -> Tables {
    let word = |place: usize| format!("{} to {}", 4 * place, 4 * place + 3);
    let block = vec![
        row![format!("0 to {}", PAYLOAD_BYTES - 1), "payload"],
        row![word(PAYLOAD_WORDS), "s"],
        row![word(PAYLOAD_WORDS + 1), "t"],
    ];
    let [without, with] = [None, Some(METRES_OF_T.as_slice())].map(|metres| {
        let image = both.image(&T, metres).1;
        (0..PAYLOAD_WORDS).map(|word| word_at(&image, 4 * word).expect("in the header")).collect::<Vec<u32>>()
    });
    assert!(without[1..4] == [7, 4, 5] && with[1..4] == [7, 4, 6]);
    assert!(without[4..].iter().chain(&with[4..]).all(|&reserved| reserved == 0));
    let header = vec![
        row![0, word(0), format!("{}, the version; {} where there are metres", without[0], with[0])],
        row![1, word(1), "n"],
        row![2, word(2), "m"],
        row![3, word(3), WORDS],
        row![format!("4 to {}", PAYLOAD_WORDS - 1), format!("16 to {}", PAYLOAD_BYTES - 1), "0, reserved"],
    ];
    let trees = [
        (Shape::Path, 1),
        (Shape::Star, 3_999),
        (Shape::Star, 4_000),
        (Shape::Star, 4_001),
        (Shape::Path, 8_064),
        (Shape::Path, 8_065),
        (Shape::Star, MOST_NODES),
        (Shape::Path, MOST_NODES),
    ];
    let sizes = trees.map(|(shape, n)| {
        let (sealed, image) = both.image(&parents_of_shape(shape, n), None);
        let m = sealed.second as usize;
        let Layout { r1, r0, r1_samples, samples, .. } = Layout::of(n, m, false);
        let blocks = image.len() / BLOCK_BYTES;
        assert_eq!(word_at(&image, 12), Ok(blocks as u32));
        let parts = [r1.len(), r0.len(), samples, r1_samples.len()].map(grouped);
        let name = name_of(shape);
        [vec![name, grouped(n), grouped(m)], parts.to_vec(), vec![grouped(blocks), grouped(image.len())]].concat()
    });
    let heading =
        "| tree | n | m | blocks of R1 | blocks of R0 | samples of each | blocks for them, each | blocks | bytes |";
    let measured = [
        (Shape::Path, 1),
        (Shape::Star, 126),
        (Shape::Star, 127),
        (Shape::Star, 4_000),
        (Shape::Star, 10_962),
        (Shape::Star, 10_963),
        (Shape::Star, MOST_NODES),
        (Shape::Path, MOST_NODES),
    ];
    let measured = measured.map(|(shape, n)| {
        let parents = parents_of_shape(shape, n);
        let before = both.image(&parents, None).1.len() / BLOCK_BYTES;
        let image = both.image(&parents, Some(&vec![1; n])).1;
        let blocks = image.len() / BLOCK_BYTES;
        assert_eq!(word_at(&image, 12), Ok(blocks as u32));
        let numbers = [n, before, blocks - before, blocks, image.len()].map(grouped);
        [vec![name_of(shape)], numbers.to_vec()].concat()
    });
    vec![
        ("| bytes of a block | what |", block),
        ("| word of the header | its bytes | value |", header),
        (heading, sizes.to_vec()),
        ("| tree | n | blocks without metres | blocks of metres | blocks | bytes |", measured.to_vec()),
    ]
}

/// A shape as the document calls it.
fn name_of(shape: Shape) -> String {
    format!("{shape:?}").to_lowercase()
}

/// A row for each word of an image, the sums among them, that is not zero and is in one of these blocks.
fn rows_of_words(image: &[u8], blocks: &[usize]) -> Vec<Vec<String>> {
    let words_of_block = BLOCK_BYTES / 4;
    let words = image.chunks(4).enumerate().map(|(index, word)| (index / words_of_block, index % words_of_block, word));
    let words = words.filter(|(block, _, word)| blocks.contains(block) && **word != [0; 4]);
    let rows = words.map(|(block, in_block, word)| {
        let value = word_at(word, 0).expect("four bytes");
        row![format!("{:08X}", BLOCK_BYTES * block + 4 * in_block), block, in_block, byte_text(word), value, WORDS]
    });
    rows.collect()
}

fn tables_of_t(both: &mut Both, t: &Example) -> Tables {
    let mut nodes = vec![row!["super-root", "none", 1, bit_text(&t.string[..2]), "none", "none"]];
    let mut end = 2;
    for node in t.tree.nodes() {
        let children = t.tree.children(node);
        let part = &t.string[end..end + children.len() + 1];
        end += part.len();
        let (r1, r0) = (u8::from(t.r1[node - 1]), u8::from(t.r0[node - 1]));
        nodes.push(row![node, t.tree.parent(node), list_text(children), bit_text(part), r1, r0]);
    }
    assert_eq!(end, t.string.len());

    let words = rows_of_words(&t.image, &[0, 1, 2, 3, 4]);
    let words_with_metres = rows_of_words(&t.with_metres, &[0, 5]);
    assert_eq!(t.with_metres[BLOCK_BYTES..5 * BLOCK_BYTES], t.image[BLOCK_BYTES..], "the blocks between them");
    let steps = [0, 1, 2, 3, 4, 5, PAYLOAD_WORDS].map(|words| {
        let (s, t) = sums_of_block(0, &t.image[..4 * words]);
        row![words, s, t]
    });

    let questions = [
        [1, 7, 0],
        [1, 1, 0],
        [2, 2, 0],
        [3, 2, 0],
        [4, 2, 0],
        [5, 2, 0],
        [6, 1, 0],
        [7, 4, 0],
        [7, 1, 0],
        [8, 2, 2],
        [9, 3, 0],
        [10, 2, 2],
        [10, 2, 3],
        [10, 2, -1],
        [11, 1, 0],
        [11, 7, 0],
    ];
    let answers = both.ask(&t.with_metres, &questions);
    let asked =
        questions.iter().zip(answers).map(|([kind, node, argument], answer)| row![kind, node, argument, answer]);

    // the paper's rule for both: the position of the one numbered by the ones to the left, with -1 for number 0
    let by_letter = |runs_left: &[bool], other: &[bool], number: usize| match ones_in(&runs_left[..number - 1]) {
        0 => number as i64 - 1,
        ones => (number + position(other, ones).expect("a run of the other kind")) as i64,
    };
    let flipped: Vec<bool> = t.string.iter().map(|bit| !bit).collect();
    let corners = [("one", 1), ("one", 2), ("zero", 1), ("zero", 2)].map(|(bit, number)| {
        let (letter, string) = match bit {
            "one" => (by_letter(&t.r1, &t.r0, number), &t.string),
            _ => (by_letter(&t.r0, &t.r1, number), &flipped),
        };
        let right = position(string, number).expect("in the string");
        row![bit, number, letter, right, right]
    });
    vec![
        ("| node | parent | children | its part of the tree string | its bit of R1 | its bit of R0 |", nodes),
        ("| offset | block | word | bytes | as a number | what |", words),
        ("| offset | block | word | bytes | as a number | with metres |", words_with_metres),
        ("| words added | s | t |", steps.to_vec()),
        ("| kind | node | argument | answer |", asked.collect()),
        ("| asked of T | number | by the paper's letter | by this page | in the tree string |", corners.to_vec()),
    ]
}

fn tables_of_packs(both: &mut Both) -> Tables {
    let bits = bits_of_text("101100100");
    let mut count = 1;
    let pending = bits.iter().map(|&bit| {
        count = if bit { count + 1 } else { count - 1 };
        count.to_string()
    });
    let pending: Vec<String> = iter::once("pending after it".to_string()).chain(pending).collect();
    let bits: Vec<String> =
        iter::once("bit".to_string()).chain(bits.iter().map(|&bit| u8::from(bit).to_string())).collect();
    let cases = [
        ("", 0),
        ("", 1),
        ("100100", 2),
        ("100100", 1),
        ("101100100", 1),
        ("100100100", 1),
        ("100100100", 3),
        ("101110110010000100", 2),
        ("1001", 1),
        ("100110", 2),
    ];
    let cases = cases.map(|(text, trees)| {
        let bits = bits_of_text(text);
        let (answer, starts, sizes) = both.split(&bits, trees);
        let bytes = byte_text(&bytes_of_bits(&bits));
        row![bit_text(&bits), bytes, trees, answer.code, answer.place, list_text(&starts), list_text(&sizes)]
    });
    vec![
        ("| | | | | | | | | | |", vec![bits, pending]),
        ("| bits | bytes | k | code | place | first bits | node counts |", cases.to_vec()),
    ]
}

fn tables_of_texts(both: &mut Both, t: &Example) -> Tables {
    let bytes = [OPENS, CLOSES].into_iter().chain(BLANKS);
    let bytes = bytes.map(|byte| row![byte_text(&[byte]), byte, WORDS, WORDS]);

    let of_t = String::from_utf8(text_of_tree(&t.tree).expect("on few levels")).expect("brackets");
    let listing = both.run(Call::List { image: t.image.clone(), node: 1, pairs: vec![0; 2 * t.n()] }).1;
    let Call::List { pairs, .. } = listing else { unreachable!("the same call") };
    let opening = of_t.match_indices('(').map(|(before, _)| before + 1);
    let brackets = opening.zip(pairs.chunks(2)).enumerate().map(|(index, (byte, listed))| {
        let (node, depth) = (listed[0] as usize, listed[1]);
        row![index + 1, byte, depth + 1, node, t.tree.parent(node)]
    });

    let levels = both.most_levels();
    let mut read = |text: &str| {
        let call = Call::ParentsOfText { text: text.as_bytes().to_vec(), parents: vec![0; MOST_NODES] };
        both.run(call).0
    };
    let small = [&of_t, "( (() ()) () (()) )", "", "(", ")", "()(", "(()))", "( )x", "[()]", &of_t[..of_t.len() - 1]];
    let small = small.map(|text| {
        let answer = read(text);
        row![or_none(text.into()), answer.code, answer.place, WORDS]
    });

    let (open, close) = (|count| "(".repeat(count), |count| ")".repeat(count));
    let nested = |levels: usize| open(levels) + &close(levels);
    let star = |leaves: usize| ["(", &"()".repeat(leaves), ")"].concat();
    let one_node = |bytes: usize| "()".to_string() + &" ".repeat(bytes - 2);
    let (more, most_leaves) = (levels + 1, MOST_NODES - 1);
    let too_many = grouped(most_leaves + 1);
    let whole = [
        ("three blanks".into(), " \r\n".into()),
        (format!("{levels} opening brackets, then {levels} closing ones"), nested(levels)),
        (format!("{more} opening brackets, then {more} closing ones"), nested(more)),
        (format!("{more} opening brackets, then a wrong byte"), open(more) + "x"),
        (format!("{levels} opening brackets, then a wrong byte"), open(levels) + "x"),
        (format!("{levels} opening brackets alone"), open(levels)),
        (format!("a root with {} leaves", grouped(most_leaves)), star(most_leaves)),
        (format!("a root with {too_many} leaves"), star(most_leaves + 1)),
        (format!("a root with {too_many} leaves, then a bracket too many"), star(most_leaves + 1) + ")"),
        ("one node, then blanks".into(), one_node(MOST_TEXT_BYTES)),
        ("one node, then blanks, one more of them".into(), one_node(MOST_TEXT_BYTES + 1)),
        ("wrong bytes alone, as many".into(), "x".repeat(MOST_TEXT_BYTES + 1)),
    ];
    let whole = whole.map(|(name, text): (String, String)| {
        let answer = read(&text);
        row![name, grouped(text.len()), answer.code, grouped(answer.place as usize)]
    });
    vec![
        ("| byte | in decimal | what it is | what it means |", bytes.collect()),
        ("| bracket | its byte | level of its node | node | parent |", brackets.collect()),
        ("| text | code | place | why |", small.to_vec()),
        ("| text in words | bytes | code | place |", whole.to_vec()),
    ]
}

/// The number that the header gives to a name.
fn constant(header: &str, name: &str) -> usize {
    let after = header.split(&format!(" {name} = ")).nth(1).unwrap_or_else(|| panic!("no {name} in the header"));
    let digits = after.find(|next: char| !next.is_ascii_digit()).expect("not the end");
    after[..digits].parse().expect("a number")
}

/// The names with numbers in an enumeration of the header, in its order.
fn names_of(header: &str, enumeration: &str) -> Vec<String> {
    let begin = header.find(enumeration).expect("in the header");
    let lines = header[begin..].lines().skip(1).take_while(|line| !line.starts_with('}'));
    lines.filter_map(|line| line.split_once(" = ")).map(|(name, _)| name.trim().to_string()).collect()
}

fn tables_of_numbers(both: &mut Both, header: &str) -> Tables {
    let (one_node, most_nodes) = (Example::of(&[0]), Example::of(&parents_of_shape(Shape::Path, MOST_NODES)));
    assert!(one_node.string.len() == 3 && most_nodes.string.len() == MOST_BITS);
    let (least_bytes, most_bytes) = (one_node.image.len(), most_nodes.image.len());
    let (least_with_metres, most_with_metres) = (one_node.with_metres.len(), most_nodes.with_metres.len());
    assert_eq!(most_with_metres, BLOCK_BYTES * MOST_BLOCKS);
    let one_node_as_text = text_of_tree(&one_node.tree).expect("of one level");
    let limits = [
        ("nodes of a tree, n", 1, MOST_NODES, "PLQ_MOST_NODES"),
        ("m", one_node.m, most_nodes.m, ""),
        ("bits of a tree string", 3, MOST_BITS, "PLQ_MOST_BITS"),
        ("bytes of a tree string", bytes_for(3), bytes_for(MOST_BITS), ""),
        ("trees of a pack, k", 0, MOST_TREES, "PLQ_MOST_TREES"),
        ("trees of a pack that one more is joined to", 0, MOST_TREES - 1, ""),
        ("bits of a pack", 0, MOST_BITS, "PLQ_MOST_BITS"),
        ("bytes of a block", BLOCK_BYTES, BLOCK_BYTES, "PLQ_BLOCK_BYTES"),
        ("blocks of an image without metres", least_bytes / BLOCK_BYTES, most_bytes / BLOCK_BYTES, ""),
        ("bytes of an image without metres", least_bytes, most_bytes, "PLQ_MOST_TREE_IMAGE_BYTES"),
        ("blocks of an image with metres", least_with_metres / BLOCK_BYTES, MOST_BLOCKS, ""),
        ("bytes of an image with metres", least_with_metres, most_with_metres, "PLQ_MOST_IMAGE_BYTES"),
        ("metres of a node", u32::MIN as usize, u32::MAX as usize, ""),
        ("questions in one call", 0, MOST_QUESTIONS, "PLQ_MOST_QUESTIONS"),
        ("depth of a node in a listing, from the node that is listed", 0, both.greatest_depth(), ""),
        ("bytes of a text", one_node_as_text.len(), MOST_TEXT_BYTES, "PLQ_MOST_TEXT"),
        ("levels of a text", 1, both.most_levels(), ""),
    ];
    let limits = limits.map(|(what, least, most, name)| {
        assert!(name.is_empty() || constant(header, name) == most, "{name} in the header");
        row![what, grouped(least), grouped(most), name]
    });

    let codes = names_of(header, "enum plq_code {").into_iter().map(|name| {
        let place = match name.as_str() {
            "PLQ_DONE" | "PLQ_WRONG_SIZE" | "PLQ_OTHER_VERSION" | "PLQ_WRONG_HEADER" => "0",
            "PLQ_LEFTOVER_SET" | "PLQ_NO_ROOM" => "0",
            "PLQ_WRONG_STRINGS" => "1, the first block of R1",
            _ => WORDS,
        };
        row![constant(header, &name), name, WORDS, place]
    });
    let kinds = names_of(header, "enum plq_kind {").into_iter().map(|name| row![constant(header, &name), name, WORDS]);
    vec![
        ("| what | least | most | in C |", limits.to_vec()),
        ("| code | in C | given exactly when | place |", codes.collect()),
        (KINDS, kinds.collect()),
        ("| call | codes | first count | second count |", rows_of_calls(both, header)),
    ]
}

/// Each call made to T, so that its counts show what they count.
fn rows_of_calls(both: &mut Both, header: &str) -> Vec<Vec<String>> {
    let (string, parents) = (both.string(&T).1, T.to_vec());
    let [image_of_t, with_metres] = [None, Some(METRES_OF_T.as_slice())].map(|metres| both.image(&T, metres).1);
    let (bytes, bytes_with_metres) = (vec![0; image_of_t.len()], vec![0; with_metres.len()]);
    let measured =
        Call::ImageWithMetres { parents: T.to_vec(), metres: METRES_OF_T.to_vec(), image: bytes_with_metres };
    let pack = bits_of_text("101110110010000100");
    let room = || vec![0; 100];
    let listing = Call::List { image: image_of_t.clone(), node: 2, pairs: room() };
    let join = Call::Join { pack: [string.clone(), vec![0]].concat(), bits: 15, trees: 1, parents: vec![0] };
    let split = Call::Split { bytes: bytes_of_bits(&pack), bits: 18, trees: 2, starts: room(), sizes: room() };
    let ask = Call::Ask { image: image_of_t.clone(), questions: vec![1, 1, 0, 1, 2, 0], answers: room() };
    let text = b"((()())()(()))".to_vec();
    let calls = [
        (Call::StringOfParents { parents: parents.clone(), bytes: vec![0; 2] }, ("L", 15), ("1", 1)),
        (Call::ParentsOfString { bytes: string, bits: 15, parents: room() }, ("n", 7), ("0", 0)),
        (Call::ImageOfParents { parents, image: bytes }, ("n", 7), ("m", 4)),
        (measured, ("n", 7), ("m", 4)),
        (Call::ParentsOfImage { image: image_of_t.clone(), parents: room() }, ("n", 7), ("0", 0)),
        (Call::MetresOfImage { image: with_metres, metres: room() }, ("n", 7), ("0", 0)),
        (Call::CheckImage { image: image_of_t }, ("n", 7), ("m", 4)),
        (ask, ("questions", 2), ("0", 0)),
        (split, ("L", 18), ("k", 2)),
        (join, ("new L", 18), ("k + 1", 2)),
        (listing, ("nodes listed", 3), ("0", 0)),
        (Call::ParentsOfText { text: text.clone(), parents: room() }, ("n", 7), ("0", 0)),
        (Call::TextOfParents { parents: T.to_vec(), text: vec![0; text.len()] }, ("bytes of the text", 14), ("0", 0)),
    ];
    let rows = calls.map(|(call, first, second)| {
        let name = call.name();
        let declared = header.find(&format!("plq_answer {name}(")).expect("declared");
        let comment = &header[header[..declared].rfind("Refusals: ").expect("said before it")..declared];
        // they may go on in the next line of the comment
        let names = comment["Refusals: ".len()..].split('.').next().expect("up to the full stop").replace("\n *", "");
        // of those with "or" between them neither is before the other
        let code_of = |name: &str| constant(header, name).to_string();
        let either = |names: &str| names.split(" or ").map(code_of).collect::<Vec<String>>().join(" or ");
        let codes: Vec<String> = names.split(", ").map(either).collect();
        let answer = both.run(call).0;
        assert_eq!(answer, Answer { code: 0, place: 0, first: first.1, second: second.1 }, "{name}");
        assert_eq!(counts_in_header(header, name), [first.0, second.0], "the header's counts of {name}");
        row![name, codes.join(", "), first.0, second.0]
    });
    rows.to_vec()
}

/// What the two counts of a call are by the header's table of them, in the words of docs/FORMAT.md.
fn counts_in_header<'h>(header: &'h str, name: &str) -> Vec<&'h str> {
    let row = header.lines().find_map(|line| line.strip_prefix(&format!(" *   {name} ")));
    let cells = row.unwrap_or_else(|| panic!("no row for {name}")).trim_end_matches("*/").split("  ");
    let words = cells.map(str::trim).filter(|cell| !cell.is_empty()).map(|cell| match cell {
        "bits of the string" | "bits of the pack" => "L",
        "bits of the pack, new" => "new L",
        "n, the number of nodes" => "n",
        "m, one more than there are nodes with children" => "m",
        "questions answered" => "questions",
        "trees" => "k",
        "trees, new" => "k + 1",
        other => other,
    });
    words.collect()
}

fn tables_of_damage(both: &mut Both) -> Tables {
    let at = |block: usize, word: usize| BLOCK_BYTES * block + 4 * word;
    let (s, t) = (PAYLOAD_WORDS, PAYLOAD_WORDS + 1);
    let [image, with_metres] = [None, Some(METRES_OF_T.as_slice())].map(|metres| both.image(&T, metres).1);
    let edits = [
        (at(0, 0), 0x00, false),
        (at(0, s), 0x10, false),
        (at(1, 64), 0x80, false),
        (at(4, t), 0x77, false),
        (at(0, 0), 0x00, true),
        (at(0, 0), 0x02, true),
        (at(0, 1), 0x08, true),
        (at(0, 2), 0x01, true),
        (at(0, 2), 0x03, true),
        (at(0, 3), 0x06, true),
        (at(0, 4), 0x01, true),
        (at(1, 0), 0x01, true),
        (at(1, 1), 0x97, true),
        (at(1, 1), image[at(1, 1)].reverse_bits(), true),
        (at(2, 1), 0x8B, true),
        (at(3, 0), 0x00, true),
        (at(3, 1), 0x01, true),
        (at(1, 1), 0xA6, true),
    ];
    let edits_with_metres = [
        (at(0, 0), 0x01, true),
        (at(0, 0), 0x03, true),
        (at(0, 3), 0x05, true),
        (at(5, 0), 0x0B, false),
        (at(5, 7), 0x01, true),
        (at(5, 0), 0x0B, true),
    ];
    let mut edited = |image: &[u8], (offset, byte, made_right): (usize, u8, bool)| {
        let mut edited = image.to_vec();
        edited[offset] = byte;
        if made_right {
            seal(&mut edited);
        }
        let answer = both.check_image(edited);
        let (was, is) = (byte_text(&image[offset..=offset]), byte_text(&[byte]));
        let sums = if made_right { "made right" } else { "as they were" };
        row![format!("{offset:08X}"), was, is, sums, answer.code, answer.place, WORDS]
    };
    let edits = edits.map(|edit| edited(&image, edit));
    let edits_with_metres = edits_with_metres.map(|edit| edited(&with_metres, edit));

    let blocks: Vec<&[u8]> = image.chunks(BLOCK_BYTES).collect();
    let mut longer = [&image[..], &[0; BLOCK_BYTES]].concat();
    seal(&mut longer);
    let no_header = [&[0; BLOCK_BYTES], &image[BLOCK_BYTES..]].concat();
    let begun_at_zero = |block: &[u8]| {
        let mut block = block.to_vec();
        seal(&mut block); // as if it were block 0
        block
    };
    let other_order = image.chunks(4).flat_map(|word| word.iter().rev().copied());
    let files = [
        ("nothing", Vec::new()),
        ("T's image without its last byte", image[..image.len() - 1].to_vec()),
        ("the first four blocks of T's image", blocks[..4].concat()),
        ("zeros, as many as T's image has bytes", vec![0; image.len()]),
        ("T's image with its last two blocks exchanged", [&blocks[..3], &[blocks[4], blocks[3]]].concat().concat()),
        (
            "T's image with s begun at zero in every block",
            blocks.iter().flat_map(|block| begun_at_zero(block)).collect(),
        ),
        ("T's image with the four bytes of every word in the other order", other_order.collect()),
        ("T's image twice", image.repeat(2)),
        ("T's image and a block of zeros with right sums", longer),
        ("T's image with zeros in the place of its header", no_header),
        ("T's image with metres, without its last block", with_metres[..image.len()].to_vec()),
        (
            "T's image with metres and the header of T's image without",
            [blocks[0], &with_metres[BLOCK_BYTES..]].concat(),
        ),
        ("zeros, as many as the largest image has bytes", vec![0; BLOCK_BYTES * MOST_BLOCKS]),
        ("zeros, a block more than the largest image", vec![0; BLOCK_BYTES * (MOST_BLOCKS + 1)]),
    ];
    let files = files.map(|(name, file)| {
        let bytes = grouped(file.len());
        let answer = both.check_image(file);
        row![name, bytes, answer.code, answer.place]
    });
    vec![
        ("| field | where it is | code | place |", rows_of_fields(both)),
        ("| offset | byte | changed to | sums | code | place | what it is |", edits.to_vec()),
        ("| offset | byte | changed to | sums | code | place | what it is with metres |", edits_with_metres.to_vec()),
        ("| file | bytes | code | place |", files.to_vec()),
    ]
}

/// The fields of an image: where each is, and what is answered where one of them is changed and the sums are right.
fn rows_of_fields(both: &mut Both) -> Vec<Vec<String>> {
    let mut fields: BTreeMap<usize, Vec<(usize, Answer)>> = BTreeMap::new();
    for example in [Example::of(&T), Example::of(&parents_of_shape(Shape::Path, 8_065))] {
        for (image, measured) in [(&example.image, false), (&example.with_metres, true)] {
            for (field, byte, bits) in changes_of_fields(&example, measured) {
                let block = byte / BLOCK_BYTES;
                let mut image = image.clone();
                image[byte] ^= bits;
                let damaged = both.check_image(image.clone());
                assert_eq!((damaged.code, damaged.place as usize), (6, block), "with the sums as they were");
                seal(&mut image);
                fields.entry(field).or_default().push((block, both.check_image(image)));
            }
        }
    }
    let reserved = format!("words 4 to {} of the header", PAYLOAD_WORDS - 1);
    let where_they_are = [
        "word 0 of the header",
        "word 0 of the header",
        "words 1 and 2 of the header",
        "words 1 and 2 of the header",
        "word 3 of the header",
        &reserved,
        WORDS,
        "word 0 of a block of R1 or R0",
        WORDS,
        WORDS,
        WORDS,
        WORDS,
    ];
    let rows = fields.into_values().zip(where_they_are).map(|(answers, place_of_field)| {
        let codes: BTreeSet<u32> = answers.iter().map(|(_, answer)| answer.code).collect();
        assert_eq!(codes.len(), 1, "one code for {place_of_field}: {answers:?}");
        let places: BTreeSet<u32> = answers.iter().map(|(_, answer)| answer.place).collect();
        let place = match places.len() {
            1 => answers[0].1.place.to_string(),
            _ if answers.iter().all(|(block, answer)| answer.place as usize == *block) => "its block".to_string(),
            _ => panic!("the places for {place_of_field}: {answers:?}"),
        };
        row![WORDS, place_of_field, answers[0].1.code, place]
    });
    rows.collect()
}

/// Changes of single bytes of a tree's image: the number of the field, from 0 in the order of the table, the byte, and
/// its bits that change.
fn changes_of_fields(example: &Example, measured: bool) -> Vec<(usize, usize, u8)> {
    let layout = Layout::of(example.n(), example.m(), measured);
    let Layout { r1, r0, metres, n, .. } = &layout;
    let at = |block: usize, word: usize| BLOCK_BYTES * (block + word / PAYLOAD_WORDS) + 4 * (word % PAYLOAD_WORDS);
    let bit = |field: usize, first_block: usize, index: usize| {
        let (byte, mask) = place_of_bit(first_block, index);
        (field, byte, mask)
    };
    let mut changes = vec![
        (0, at(0, 0), 1), // to 0 and 3
        (0, at(0, 0), 2),
        (1, at(0, 0), (WITHOUT_METRES ^ WITH_METRES) as u8),
        (2, at(0, 1) + 2, 1), // 65,536 nodes more
        (2, at(0, 2) + 3, 1),
        (3, at(0, 1), 8), // 8 nodes more in both trees, and as many blocks as before
        (4, at(0, 3), 1),
        (5, at(0, 4), 1),
        (5, at(0, 64), 1),
        (5, at(0, PAYLOAD_WORDS - 1) + 3, 0x80),
    ];
    if example.m() + 1 < example.n() {
        changes.push((3, at(0, 2), 1));
    }
    for (first, blocks, bits) in [(r1.start, r1.len(), *n), (r0.start, r0.len(), n + 1)] {
        changes.extend([0, bits / 2, bits - 1].map(|index| bit(6, first, index)));
        changes.extend((first..first + blocks).map(|block| (7, at(block, 0), 1)));
        changes.extend([bits, blocks * BITS_IN_BLOCK - 1].map(|index| bit(8, first, index)));
    }
    for (blocks, words) in layout.lists().into_iter().filter(|(blocks, _)| !blocks.is_empty()) {
        let (first, all) = (blocks.start, blocks.len() * PAYLOAD_WORDS);
        let element = if blocks == metres { 11 } else { 9 };
        changes.extend(blocks.clone().map(|block| (element, at(block, 0), 1)));
        changes.push((element, at(first, words - 1), 2));
        changes.extend([words, all - 1].map(|word| (10, at(first, word), 1)));
    }
    changes
}

/// The numbers in sentences: what is said, and the numbers that must be in the holes.
fn sentences(both: &mut Both, header: &str, t: &Example) -> Vec<(&'static str, Vec<String>)> {
    let code = |name: &str| constant(header, name);
    let (size, sums) = (code("PLQ_WRONG_SIZE"), code("PLQ_WRONG_SUMS"));
    let (other_version, wrong_header) = (code("PLQ_OTHER_VERSION"), code("PLQ_WRONG_HEADER"));
    let (strings, counts, samples) = (code("PLQ_WRONG_STRINGS"), code("PLQ_WRONG_COUNTS"), code("PLQ_WRONG_SAMPLES"));
    let (not_text, too_nested, room) = (code("PLQ_NOT_TEXT"), code("PLQ_TOO_NESTED"), code("PLQ_NO_ROOM"));
    let levels = both.most_levels();
    let codes: Vec<usize> = names_of(header, "enum plq_code {").iter().map(|name| code(name)).collect();
    let [retired] = (0..codes.len()).filter(|code| !codes.contains(code)).collect::<Vec<usize>>()[..] else {
        panic!("one number is no code any more, up to {}", codes.len())
    };
    let (least_bytes, most_bytes) = (Example::of(&[0]).image.len(), constant(header, "PLQ_MOST_IMAGE_BYTES"));
    let least_blocks = least_bytes / BLOCK_BYTES;
    let most_of_tree = constant(header, "PLQ_MOST_TREE_IMAGE_BYTES");
    let last_word = PAYLOAD_WORDS - 1;
    let too_deep = both.greatest_depth() + 1;
    let [version, with_metres] = [&t.image, &t.with_metres].map(|image| image[0].into());
    let with_children = t.tree.nodes().filter(|&node| !t.tree.children(node).is_empty()).count();
    let over_at = parts_of_bits(&bits_of_text("100")).map_or(0, |parts| 2 * parts[0].tree.node_count() + 1);
    let value_of_bit = |bit: usize| bytes_of_bits(&bits_of_text(&format!("{}1", "0".repeat(bit - 1))))[(bit - 1) / 8];
    let values = [1, 8, 9].map(|bit| value_of_bit(bit).into());
    let rank_of_root = both.ask(&t.image, &[[7, 1, 0]])[0] as usize;
    let alone = ["PLQ_NEXT_SIBLING", "PLQ_PREVIOUS_SIBLING", "PLQ_SIBLING_AT"].map(code);
    let numbers: &[(&str, &[usize])] = &[
        ("questions and samples are numbered from {}.", &[1]),
        ("- Blocks, words of a block and bytes are numbered from {}.", &[0]),
        ("as {} hexadecimal digits, an offset in a file as {}.", &[byte_text(&[0]).len(), hexdump(&[]).trim().len()]),
        ("| {} bytes read as one unsigned number", &[size_of::<u32>()]),
        ("a comparison is {} where it holds and {} where it does not", &[true.into(), false.into()]),
        ("A tree has {} to {} nodes.", &[1, MOST_NODES]),
        ("so the root is node {} and", &[1]),
        ("Number {} is never a node; where a node is asked for, the answer {} means", &[0, 0]),
        ("n unsigned numbers of {} bits", &[u32::BITS as usize]),
        ("exactly if its first entry is {} and each later entry i is at least {}, at most i - {}, and", &[0, 1, 1]),
        ("begins with the bits {} for the super-root", &[10]),
        ("is zero number x + {}.", &[1]),
        ("bit {} has the value {} in the first byte", &[1, values[0]]),
        ("bit {} the value {}, and bit {} the value {} in the second byte", &[8, values[1], 9, values[2]]),
        ("The count begins at {}, for the super-root; a one adds {} to it, and a zero takes {} away.", &[1, 1, 1]),
        ("the first bit where the count is {}, and that must be the last bit", &[0]),
        ("No tree has more than {} ones", &[MOST_NODES]),
        ("{} has {} ones and {} zeros, as a tree string would, but", &[10010, 2, 3]),
        ("its tree is over at bit {}.", &[over_at]),
        ("becomes l - {} zeros, and then a one", &[1]),
        ("m is {} more than the number of nodes with children", &[1]),
        ("blocks of {} bytes, numbered from {}.", &[BLOCK_BYTES, 0]),
        ("a payload of {} bytes, read as {} words", &[PAYLOAD_BYTES, PAYLOAD_WORDS]),
        ("for each payload word w, from word {} to word {}:", &[0, last_word]),
        ("| block {}; see below |", &[0]),
        ("and then {} bits in {} bytes |", &[BITS_IN_BLOCK, BITS_IN_BLOCK / 8]),
        ("ones number {}, {}, {} and so on up to m", &[1, 1 + SAMPLE_STEP, 1 + 2 * SAMPLE_STEP]),
        ("one word each, {} to a block", &[PAYLOAD_WORDS]),
        ("A sample is a position in the whole string, from {}, not in a block.", &[1]),
        ("The smallest image has {} blocks.", &[least_blocks]),
        ("The number of blocks is all of word {}: its", &[3]),
        ("The largest has {} blocks, which are {} bytes.", &[MOST_BLOCKS, most_bytes]),
        ("Without metres the largest has {} blocks, which are {} bytes.", &[most_of_tree / BLOCK_BYTES, most_of_tree]),
        ("In T {} nodes have children, so m is {}.", &[with_children, t.m]),
        ("The sums of block {}, after some of its words:", &[0]),
        ("and it is {} for k = {}.", &[0, 0]),
        ("up to `ones_before_zero(x + {})`.", &[1]),
        ("An answer {} for a node means", &[0]),
        ("for kinds {}, {} and {} it is a", &[code("PLQ_DEGREE"), code("PLQ_LEAF"), code("PLQ_METRES")]),
        ("Kind {} is not allowed where the image has no metres.", &[code("PLQ_METRES")]),
        ("no rank: kind {} answers {} for node {}, and", &[code("PLQ_CHILD_RANK"), rank_of_root, 1]),
        ("its place among its siblings, from {}.", &[1]),
        ("For kinds {}, {} and {} the root is an only child.", &alone),
        ("Kinds {} and {} take", &[code("PLQ_CHILD_NUMBER"), code("PLQ_SIBLING_AT")]),
        ("take every argument, the others only {}.", &[0]),
        ("lets select answer -{} for one number {}.", &[1, 0]),
        ("for i = {} it is then wrong", &[1]),
        ("Here the position of one number {} is {}.", &[0, 0]),
        ("hence the `{} +` in", &[1]),
        ("take word {} of the block that has bit i", &[0]),
        ("over fewer than {} more ones", &[SAMPLE_STEP]),
        ("Where the next block's word {} is below k", &[0]),
        ("A pack is a number k of trees, from {} to {},", &[0, MOST_TREES]),
        ("end to end, at most {} bits in all", &[MOST_BITS]),
        ("egin at bit {}", &[1]),
        ("up to the bit where the count is {}.", &[0]),
        ("go on with step {}.", &[2]),
        ("The cases {} and {} differ in bit {} alone", &[101100100, 100100100, 3]),
        ("of {} tree and of {} trees", &[1, 3]),
        ("A text has at most {} bytes, its blanks counted, and at most {} levels.", &[MOST_TEXT_BYTES, levels]),
        ("It has at most {} bytes; else code {}, with place {}.", &[MOST_TEXT_BYTES, size, 0]),
        ("and on at most {} levels; else code {} or {}, whichever", &[levels, not_text, too_nested]),
        ("Its tree has at most {} nodes; else code {}, with place {}.", &[MOST_NODES, size, 0]),
        ("room for the parent list; else code {}, with place {}.", &[room, 0]),
        ("Code {} names the first byte up to which", &[not_text]),
        ("Code {} names the `(` that comes where {} nodes are open", &[too_nested, levels]),
        ("is refused with code {}, and the place is one more", &[not_text]),
        ("of codes {} and {} the one with the earlier byte wins", &[not_text, too_nested]),
        ("and code {} for too many nodes comes after both.", &[size]),
        ("On a refusal both counts are {},", &[0]),
        ("a text over {} bytes;", &[MOST_TEXT_BYTES]),
        ("one tree, on at most {} levels, of over {} nodes;", &[levels, MOST_NODES]),
        ("the number of bytes + {} if there is no such p |", &[1]),
        ("comes where {} nodes are open | that byte, from {} |", &[levels, 1]),
        ("a parent list not of {} to {} numbers; L over {};", &[1, MOST_NODES, MOST_BITS]),
        ("k over {} (joining: over {}); a joined length over {};", &[MOST_TREES, MOST_TREES - 1, MOST_BITS]),
        ("or not of {} to {}; questions", &[least_blocks, MOST_BLOCKS]),
        ("questions not in threes, or over {} |", &[MOST_QUESTIONS]),
        ("| the lowest such block, from {} |", &[0]),
        ("| the version is neither {} nor {} |", &[version, with_metres]),
        ("begin no string of a tree of {} to {} nodes (pack", &[1, MOST_NODES]),
        ("L + {} if there is no such p", &[1]),
        ("| the lowest offending entry, from {} |", &[1]),
        ("a listing of a node not from {} to n | the lowest such question, from {};", &[1, 1]),
        ("for a listing, and for metres read back, {} |", &[1]),
        ("at depth {}", &[too_deep]),
        ("Code {} is retired: no call answers it", &[retired]),
        ("for what codes {} to {} tell apart", &[other_version, samples]),
        ("whole blocks of {} bytes, and of {} to {} of them;", &[BLOCK_BYTES, least_blocks, MOST_BLOCKS]),
        ("of them; else code {}.", &[size]),
        ("in the file; else code {}, with", &[sums]),
        ("The version, in word {} of the header, is {} or {}; else", &[0, version, with_metres]),
        ("is {} or {}; else code {}, with place {}.", &[version, with_metres, other_version, 0]),
        ("of this version and length; else code {}, with place {}.", &[wrong_header, 0]),
        ("with this n and m; else code {}, with place {} in", &[strings, 1]),
        ("unused payload is zero; else code {}, with", &[counts]),
        ("the samples are right; else code {}, with", &[samples]),
        ("Points for code {}:\n\n- n, in word {}, is from {} to {}, and", &[wrong_header, 1, 1, MOST_NODES]),
        ("and m, in word {}, is from `least_m` to `most_m`.", &[2]),
        ("the same in word {}, by", &[3]),
        ("- Words {} to {} of the header are zero.", &[4, last_word]),
        ("Points for code {}, with n and m as in the header", &[strings]),
        ("at bit n, and R0 at bit n + {}.", &[1]),
        ("for each k from {} to m - {}.", &[1, 1]),
        ("Points for code {}:\n\n- Word {} of each block of R1 and R0 is", &[counts, 0]),
        ("so it is {} in the first.", &[0]),
        ("Point for code {}:", &[samples]),
        ("left as they were the code is {}, and the place", &[sums]),
        ("Then the code is {} or {} if a count or a sample", &[counts, samples]),
        ("first, {} to a block, after one word", &[BITS_IN_BLOCK]),
        ("as positions from {} in the whole string", &[1]),
        ("Where n is at most {}, a line for each node follows:", &[MOST_NODES_LISTED]),
        ("of up to {} blocks, which are {} bytes, and", &[MOST_BLOCKS_READ, BLOCK_BYTES * MOST_BLOCKS_READ]),
        ("refuses longer ones with code {} and place {}, also", &[size, 0]),
        ("- Code {}: the length of the file.", &[size]),
        ("a multiple of {}, or below {}, or above {}:", &[BLOCK_BYTES, least_bytes, most_bytes]),
        ("- Code {}: the block in the place, from offset `word_at(place, {})`", &[sums, 0]),
        ("with its last {} bytes.", &[BLOCK_BYTES - PAYLOAD_BYTES]),
        ("- Code {} with place {}: look at the header.", &[sums, 0]),
        ("- Code {} with place {}: look whether the file is all zeros", &[sums, 1]),
        ("are right in block {}, and in no other", &[0]),
        ("- Codes {} to {}: all sums are right", &[other_version, samples]),
        ("- Code {}: the version, in word {} of the header.", &[other_version, 0]),
        ("If block {} is not zeros", &[0]),
        ("If block {} is all zeros", &[0]),
        ("- Code {}: words {} to {} of the header, and the length", &[wrong_header, 1, 3]),
        ("If word {} agrees with it and the file does not", &[3]),
        ("- Code {}: R1 and R0, from the place on, against the points for code {}.", &[strings, strings]),
        ("- Code {}: the block in the place.\n  In R1 and R0 compare its word {} with", &[counts, 0]),
        ("- Code {}: the block in the place.\n  Compare its words", &[samples]),
        ("- Codes {} and {}: the strings are those of a tree", &[counts, samples]),
        ("and section {} says how to get it from them", &[1]),
        ("- Code {} from `outline`:", &[code("PLQ_TOO_DEEP")]),
        ("codes {}, {} and {} are about", &[code("PLQ_NOT_ALLOWED"), code("PLQ_TOO_DEEP"), code("PLQ_NO_ROOM")]),
    ];
    let in_decimal = numbers
        .iter()
        .map(|(sentence, values)| (*sentence, values.iter().map(usize::to_string).collect::<Vec<String>>()));
    let words = |text: String| text.split(' ').map(str::to_string).collect::<Vec<String>>();
    let [pairs, pairs_with_metres] = [&t.image, &t.with_metres].map(|image| {
        let sums_of =
            |block| [PAYLOAD_BYTES, PAYLOAD_BYTES + 4].map(|at| word_at(block, at).expect("a sum").to_string());
        image.chunks(BLOCK_BYTES).flat_map(sums_of)
    });
    let of_t = [
        ("T has the parent list {} {} {} {} {} {} {}.", words(list_text(&T))),
        ("The metres of T's nodes are {} {} {} {} {} {} {}.", words(list_text(&METRES_OF_T))),
        ("The tree string is {}, in", vec![bit_text(&t.string)]),
        ("in the bytes {} {}.", words(byte_text(&both.string(&T).1))),
        ("R1 is {}, and R0 is {}, which", vec![bit_text(&t.r1), bit_text(&t.r0)]),
        (
            "of the blocks from {} on: ({}, {}), ({}, {}), ({}, {}), ({}, {}), ({}, {}).",
            iter::once("0".to_string()).chain(pairs).collect(),
        ),
        (
            "With metres, the pairs (s, t) of all blocks: ({}, {}), ({}, {}), ({}, {}), ({}, {}), ({}, {}), ({}, {}).",
            pairs_with_metres.collect(),
        ),
    ];
    in_decimal.chain(of_t).collect()
}

// ---- the tests

/// The document, and what is right, made once for all tests.
static KNOWN: LazyLock<(String, Known)> = LazyLock::new(|| (read("docs/FORMAT.md"), Known::new()));

#[test]
fn every_number_is_right() {
    let (text, known) = &*KNOWN;
    if let Err(problem) = check(text, known) {
        panic!("docs/FORMAT.md: {problem}");
    }
}

#[test]
fn every_changed_digit_is_noticed() {
    let (text, known) = &*KNOWN;
    let mut missed = Vec::new();
    for at in numbers_in(text).into_iter().flatten() {
        let other = match text.as_bytes()[at] {
            b',' => continue,
            b'9' => b'0',
            b'F' => b'A',
            b'f' => b'a',
            digit => digit + 1,
        };
        let changed = [&text[..at], &char::from(other).to_string(), &text[at + 1..]].concat();
        if check(&changed, known).is_ok() {
            missed.push(changed.lines().nth(text[..at].matches('\n').count()).unwrap_or("").to_string());
        }
    }
    assert!(missed.is_empty(), "no check notices these lines:\n{}", missed.join("\n"));
}

#[test]
fn a_number_that_nothing_checks_is_noticed() {
    let (text, known) = &*KNOWN;
    for more in ["An image has 7 corners.", "Its byte is BC.", "Its byte is 0x1f.", "There are 65,535n of them."] {
        let problem = check(&format!("{text}\n{more}\n"), known).expect_err(more);
        assert!(problem.starts_with("numbers that nothing checks") && problem.contains(more), "{problem}");
    }
}

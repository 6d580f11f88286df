//! A screen that keeps a checked diary, scrolls through it by children and siblings, and finds its place again in a
//! diary that was sealed anew.
//!
//! It saves its place as a path, which is the number of each node among its siblings, from the root down. The numbers
//! of nodes shift when a longer diary is sealed, since they count level by level; the path of what was there before
//! stays.

use parlaqen::{seal, Image, Node, Question, Result};

/// The diary as it was copied out of its container: the tree, and the name of each node in level order.
struct Screen {
    diary: Image<Vec<u8>>,
    names: Vec<&'static str>,
    at: Node,
}

impl Screen {
    /// Checks the copy of a diary and begins at its root.
    fn open(copy: Vec<u8>, names: &[&'static str]) -> Result<Self> {
        Ok(Self { diary: Image::check(copy)?, names: names.to_vec(), at: Node::ROOT })
    }

    fn name(&self) -> &'static str {
        self.names[self.at.index()]
    }

    /// Goes to the first child, if there is one.
    fn enter(&mut self) -> Result<()> {
        self.at = self.diary.first_child(self.at)?.unwrap_or(self.at);
        Ok(())
    }

    /// Scrolls that many lines down, up where negative, and not beyond the first and the last line.
    fn scroll(&mut self, lines: i32) -> Result<()> {
        let siblings = self.diary.siblings(self.at)?;
        let end = if lines < 0 { siblings.leftmost() } else { siblings.rightmost() };
        self.at = self.diary.sibling_at(self.at, lines)?.or(end).unwrap_or(self.at);
        Ok(())
    }

    /// One line for each sibling, with its number of children and a mark at the one that the screen is at. The numbers
    /// come from one call for all lines, since every call makes the whole check.
    fn lines(&self) -> Result<String> {
        let siblings = self.diary.siblings(self.at)?;
        let asked: Vec<Question> = siblings.clone().map(Question::Degree).collect();
        let mut lines = String::new();
        for (node, answer) in siblings.zip(self.diary.ask(&asked)?) {
            let mark = if node == self.at { '>' } else { ' ' };
            let children = answer.number().unwrap_or_default();
            lines += &format!("{mark} {} ({children})\n", self.names[node.index()]);
        }
        Ok(lines)
    }

    /// The path to where the screen is. The root is where every path begins and is no part of it: it has no rank.
    fn place(&self) -> Result<Vec<u32>> {
        let mut path = Vec::new();
        let mut node = self.at;
        while let Some(rank) = self.diary.child_rank(node)? {
            path.push(rank);
            node = self.diary.parent(node)?.unwrap_or(Node::ROOT);
        }
        path.reverse();
        Ok(path)
    }

    /// Goes along a path from the root, as far as this diary has it.
    fn find(&mut self, path: &[u32]) -> Result<()> {
        self.at = Node::ROOT;
        for number in path {
            let Some(child) = self.diary.child(self.at, *number)? else { break };
            self.at = child;
        }
        Ok(())
    }
}

/// What the screen shows before and after the diary was sealed anew.
fn shown() -> Result<String> {
    let before = seal(&[0, 1, 1, 2, 2, 3])?.into_bytes();
    let names = ["season", "week 1", "week 2", "Monday", "Thursday", "Tuesday"];
    let mut screen = Screen::open(before, &names)?;
    screen.enter()?;
    screen.scroll(5)?;
    let weeks = screen.lines()?;
    screen.enter()?;
    let place = screen.place()?;
    let first = format!("{weeks}node {} is {}, on the path {place:?}\n", screen.at, screen.name());

    // a third week has begun, and the second one has one more run
    let after = seal(&[0, 1, 1, 1, 2, 2, 3, 3, 4])?.into_bytes();
    let names = ["season", "week 1", "week 2", "week 3", "Monday", "Thursday", "Tuesday", "Friday", "Sunday"];
    let mut screen = Screen::open(after, &names)?;
    screen.find(&place)?;
    assert_eq!(screen.place()?, place);
    Ok(format!("{first}sealed anew:\n{}node {} is {}\n", screen.lines()?, screen.at, screen.name()))
}

fn main() -> Result<()> {
    print!("{}", shown()?);
    Ok(())
}

#[test]
fn the_screen_finds_its_place_again() {
    let expected = "  week 1 (2)
> week 2 (1)
node 6 is Tuesday, on the path [2, 1]
sealed anew:
> Tuesday (0)
  Friday (0)
node 7 is Tuesday
";
    assert_eq!(shown().unwrap(), expected);
}

#[test]
fn a_path_is_followed_as_far_as_there_is_one() {
    let mut screen = Screen::open(seal(&[0, 1, 1]).unwrap().into_bytes(), &["season", "week 1", "week 2"]).unwrap();
    screen.find(&[2, 7, 1]).unwrap();
    assert_eq!(screen.name(), "week 2");
    screen.scroll(-9).unwrap();
    assert_eq!(screen.name(), "week 1");
}

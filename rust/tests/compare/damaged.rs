//! Damaged node tables lent to each call that reads one: the crate's `planner`, whose refusals are `told` in numbers, answers as the independent one
//! does and leaves the same tables.
use crate::damage::{damage_nodes, Choose};
use crate::planner::{self, Layout, Node};
use crate::told;

/// Chooses everything, turn by turn. Of more than `most` numbers it takes so many, the first and the last among them.
struct Every {
    most: usize,
    /// This turn's choices, each with how many there are, and how many of them were made.
    choices: Vec<(usize, usize)>,
    made: usize,
}

impl Every {
    /// This turn's next choice, below k.
    fn choice(&mut self, k: usize) -> usize {
        if self.made == self.choices.len() {
            self.choices.push((0, k));
        }
        self.made += 1;
        self.choices[self.made - 1].0
    }

    /// Goes to the next turn; says whether there is one.
    fn turn(&mut self) -> bool {
        self.made = 0;
        while let Some((choice, k)) = self.choices.pop() {
            if choice + 1 < k {
                self.choices.push((choice + 1, k));
                return true;
            }
        }
        false
    }
}

impl Choose for Every {
    fn below(&mut self, k: usize) -> usize {
        if k <= self.most {
            return self.choice(k);
        }
        self.choice(self.most) * (k - 1) / (self.most - 1)
    }

    fn pick<T: Copy>(&mut self, from: &[T]) -> T {
        from[self.choice(from.len())]
    }
}

/// The tables that one side's calls are lent.
#[derive(Clone, PartialEq)]
struct Tables<N> {
    nodes: Vec<N>,
    other: Vec<N>,
    third: Vec<N>,
    book: Vec<u64>,
    order: Vec<u16>,
    bytes: Vec<u8>,
}

/// The answers of each call that reads a node table, one after another on the same tables; a trial of each list.
macro_rules! answers {
    ($planner:ident, $told:expr, $layout:expr, $n:expr, $lists:expr, $tables:expr) => {{
        let (layout, n, lists, t) = ($layout, $n, $lists, $tables);
        let mut answers = lists.map(|list| $planner::trial(layout, n, &t.nodes, &t.book, 1, list)).to_vec();
        answers.extend([
            $planner::order(layout, n, &t.nodes, &mut t.order),
            $planner::aim(layout, n, &t.nodes, &t.book, 1, 1),
            $planner::write(layout, n, &t.nodes, &mut t.bytes),
            $planner::intersect(layout, n, &t.nodes, layout, n, &t.other, &mut t.third),
            $planner::intersect(layout, n, &t.other, layout, n, &t.nodes, &mut t.third),
            $planner::join(layout, n, &mut t.nodes, &mut t.book, 1, lists[0]),
        ]);
        answers.into_iter().map(|answer| answer.map_err($told)).collect::<Vec<_>>()
    }};
}

/// How many bins the calls are told, of a tree of so many leaves.
fn bins(layout: Layout, leaves: usize) -> usize {
    match layout {
        Layout::Ring => leaves,
        Layout::Rack => leaves - 1,
    }
}

pub fn plain_layout(layout: Layout) -> plain::Layout {
    match layout {
        Layout::Ring => plain::Layout::Ring,
        Layout::Rack => plain::Layout::Rack,
    }
}

fn plain_node(node: &Node) -> plain::Node {
    plain::Node { kind: node.kind as _, count: node.count, items: node.items }
}

/// A tree in a ring or a rack: what is lent to both sides, and what each side has of it.
struct Tree {
    layout: Layout,
    leaves: usize,
    lent: Tables<Node>,
    ours: Tables<Node>,
    theirs: Tables<plain::Node>,
}

impl Tree {
    /// The tree of a text with so many leaves, of which the last one is a rack's hidden end. Its book has one group, all other leaves.
    fn of_text(layout: Layout, leaves: usize, text: &str) -> Tree {
        let (mut nodes, mut book) = (vec![Node::UNUSED; 256], vec![0; 384]);
        let n = bins(layout, leaves);
        assert_eq!(planner::read(layout, n, &mut nodes, &mut book, text.as_bytes()), Ok(0), "{text}");
        (0..n).for_each(|mark| book[mark / 64] |= 1 << (mark % 64));
        let third = vec![Node { kind: 7, count: 77, items: [777; 255] }; 256];
        let lent = Tables { other: nodes.clone(), nodes, third, book, order: vec![777; n], bytes: vec![7; 2048] };
        Tree { layout, leaves, ours: lent.clone(), theirs: plain_tables(&lent), lent }
    }

    /// Damages the node table.
    fn damage(&mut self, choose: &mut impl Choose) {
        self.lent.nodes.copy_from_slice(&self.lent.other);
        damage_nodes(choose, self.leaves, &mut self.lent.nodes);
        self.ours.nodes.copy_from_slice(&self.lent.nodes);
        self.theirs.nodes.iter_mut().zip(&self.lent.nodes).for_each(|(theirs, node)| *theirs = plain_node(node));
    }

    /// Whether every table is the same on both sides, whole.
    fn same(&self) -> bool {
        let (a, b) = (&self.ours, &self.theirs);
        let nodes = [(&a.nodes, &b.nodes), (&a.other, &b.other), (&a.third, &b.third)];
        nodes.iter().all(|(a, b)| a.iter().map(plain_node).eq(b.iter().copied()))
            && (&a.book, &a.order, &a.bytes) == (&b.book, &b.order, &b.bytes)
    }

    /// Makes the calls on both sides, and compares answers and tables. Returns whether the node table is refused: by all calls, else by none.
    fn refused(&mut self, what: &str) -> bool {
        let n = bins(self.layout, self.leaves);
        let (theirs, last) = (plain_layout(self.layout), n as u16);
        let (half, odd): (Vec<u16>, Vec<u16>) = ((last / 2 + 1..=last).collect(), (1..=last).step_by(2).collect());
        let lists = [&half[..], &odd, &[], &[1, last + 1], &[1, 1]];
        let answers = answers!(planner, told, self.layout, n, lists, &mut self.ours);
        let wanted = answers!(plain, |refused: plain::Refused| (refused.number, refused.place), theirs, n, lists, &mut self.theirs);
        assert_eq!(answers, wanted, "{what}");
        assert!(self.same(), "tables differ: {what}");
        let refused = answers[0] == Err((3, 0));
        assert!(answers.iter().all(|answer| (*answer == Err((3, 0))) == refused), "{answers:?}: {what}");
        if refused {
            assert!(self.ours == self.lent, "refused and changed: {what}");
        } else {
            (self.ours, self.theirs) = (self.lent.clone(), plain_tables(&self.lent));
        }
        refused
    }
}

/// The tables as the independent planner is lent them.
fn plain_tables(tables: &Tables<Node>) -> Tables<plain::Node> {
    let Tables { nodes, other, third, book, order, bytes } = tables.clone();
    let [nodes, other, third] = [nodes, other, third].map(|nodes| nodes.iter().map(plain_node).collect());
    Tables { nodes, other, third, book, order, bytes }
}

/// Tree texts, each with its number of leaves and the most numbers that are chosen of any.
fn trees() -> Vec<(usize, String, usize)> {
    let small = [
        (1, "1"),
        (2, "1 2"),
        (3, "1 P(2 3)"),
        (4, "1 C(2 3 4)"),
        (5, "1 C(P(2 4) 5 3)"),
        (7, "1 P(2 C(3 P(4 5) 6) 7)"),
        (12, "1 P(2 C(3 P(4 12) 11) P(5 C(6 10 9)) P(7 8))"),
    ];
    let leaves: String = (2..=255).map(|leaf| format!("{leaf} ")).collect();
    let before: String = (3..256).step_by(2).map(|leaf| format!(" {leaf} {})", leaf + 1)).collect();
    let after: String = (2..=255).map(|leaf| format!("P({leaf} ")).collect();
    let large = [
        format!("1 P({leaves}256)"),
        format!("1 C({leaves}256)"),
        format!("1 {}2{before}", "C(".repeat(127)),
        format!("1 {after}256{}", ")".repeat(254)),
    ];
    let small = small.map(|(n, text)| (n, text.to_string(), 20));
    small.into_iter().chain(large.map(|text| (256, text, 9))).collect()
}

/// Lends the tree's table in every way damaged. Returns how many were accepted, and how many refused.
fn damaged(mut tree: Tree, text: &str, most: usize) -> [usize; 2] {
    let mut tables = [0, 0];
    let mut every = Every { most, choices: Vec::new(), made: 0 };
    loop {
        tree.damage(&mut every);
        tables[tree.refused(&format!("{:?}, {text}, damaged by {:?}", tree.layout, every.choices)) as usize] += 1;
        if !every.turn() {
            return tables;
        }
    }
}

/// Checks the damaged tables of these trees.
fn check_damaged(layout: Layout, trees: &[(usize, String, usize)]) {
    let tables = trees.iter().map(|(leaves, text, most)| damaged(Tree::of_text(layout, *leaves, text), text, *most));
    let [accepted, refused] = tables.fold([0, 0], |[accepted, refused], [more, others]| [accepted + more, refused + others]);
    println!("{layout:?}: {accepted} tables accepted, {refused} refused");
    assert!(accepted > 100 && refused > 5 * accepted, "{accepted} tables accepted, {refused} refused");
}

#[test]
fn damaged_rings_are_refused_alike() {
    check_damaged(Layout::Ring, &trees());
}

/// A rack has at least two leaves.
#[test]
fn damaged_racks_are_refused_alike() {
    check_damaged(Layout::Rack, &trees()[1..]);
}

//! Times the proved planner's calls and those of the independent planner `plain`, on the same rings and tables, in one run; then the proved planner's
//! calls on a rack of n leaves and on a ring of n + 1 with the same groups, which has the same tree.
//!
//! Both sides make whole calls on lent tables, and each checks what it is lent. A call's time is its median over the rounds; in a round each
//! side makes the same calls, one side after the other.
use std::hint::black_box;
use std::time::Instant;
use tokuwhape::Layout::{self, Rack, Ring};

const SIZES: [usize; 3] = [8, 64, 256];
const RACK_SIZES: [usize; 3] = [8, 64, 255];
/// Rounds over the growth of a book, of the other calls, and of the longest call.
const ROUNDS: usize = 41;
const CALLS: usize = 201;
const LONGEST: usize = 9;
/// How often a call that leaves the ring as it is, a conflict call apart, is made in a round.
const TIMES: usize = 10;
const GROUPS: usize = 96;
/// First states of the generator.
const SEED: u32 = 2_463_534_242;
const OTHER_SEED: u32 = 362_436_069;

/// A planner with the tables of one ring or rack, and two node tables more: the other tree of an intersection, and the table that it fills.
trait Planner {
    fn open(&mut self);
    fn join(&mut self, list: &[u16]);
    fn trial(&mut self, list: &[u16]);
    fn order(&mut self);
    fn write(&mut self);
    fn aim(&mut self);
    fn read(&mut self, text: &[u8]);
    fn conflict(&mut self, list: &[u16]) -> usize;
    /// Whether the tree and the other one have an intersection.
    fn intersect(&mut self) -> bool;
    /// Makes the tree the other one, and opens the ring or rack again.
    fn set_other(&mut self);
    fn scan(&mut self, file: &[u8]) -> usize;
    /// The ring file's last name.
    fn name(&mut self, file: &[u8]);
    /// The group of the ring file's last line, 96 in all after a names line of `head` bytes.
    fn group(&mut self, file: &[u8], head: usize);
    /// Puts the list's group into the book's next place, whatever the tree.
    fn book(&mut self, list: &[u16]);
    /// The tree text.
    fn text(&mut self) -> Vec<u8>;
}

macro_rules! planner {
    ($name:ident, $planner:ident, $group_of:path) => {
        struct $name {
            layout: $planner::Layout,
            n: usize,
            nodes: Vec<$planner::Node>,
            other: Vec<$planner::Node>,
            third: Vec<$planner::Node>,
            book: Vec<u64>,
            count: usize,
            order: Vec<u16>,
            conflicts: Vec<u16>,
            bytes: Vec<u8>,
        }

        impl $name {
            /// A ring or a rack of n leaves, opened, in tables of its own.
            fn fresh(layout: $planner::Layout, n: usize) -> Box<dyn Planner> {
                let nodes = vec![$planner::Node { kind: 0, count: 0, items: [0; 255] }; 256];
                let (other, third, book) = (nodes.clone(), nodes.clone(), vec![0; 4 * GROUPS]);
                let (order, conflicts, bytes) = (vec![0; n], vec![0; GROUPS], vec![0; 2048]);
                let mut fresh = $name { layout, n, nodes, other, third, book, count: 0, order, conflicts, bytes };
                fresh.open();
                Box::new(fresh)
            }
        }

        impl Planner for $name {
            fn open(&mut self) {
                self.count = $planner::open(self.layout, self.n, &mut self.nodes, &mut self.book).expect("opened");
            }
            fn join(&mut self, list: &[u16]) {
                self.count = $planner::join(self.layout, self.n, &mut self.nodes, &mut self.book, self.count, list).expect("kept");
            }
            fn trial(&mut self, list: &[u16]) {
                black_box($planner::trial(self.layout, self.n, &self.nodes, &self.book, self.count, list).expect("kept"));
            }
            fn order(&mut self) {
                black_box($planner::order(self.layout, self.n, &self.nodes, &mut self.order).expect("in form"));
            }
            fn aim(&mut self) {
                black_box($planner::aim(self.layout, self.n, &self.nodes, &self.book, self.count, self.count).expect("in form"));
            }
            fn write(&mut self) {
                black_box($planner::write(self.layout, self.n, &self.nodes, &mut self.bytes).expect("in form"));
            }
            fn read(&mut self, text: &[u8]) {
                self.count = $planner::read(self.layout, self.n, &mut self.nodes, &mut self.book, text).expect("a text");
            }
            fn conflict(&mut self, list: &[u16]) -> usize {
                $planner::conflict(self.layout, self.n, &self.book, self.count, list, &mut self.conflicts).expect("in form")
            }
            fn intersect(&mut self) -> bool {
                $planner::intersect(self.layout, self.n, &self.nodes, self.layout, self.n, &self.other, &mut self.third).is_ok()
            }
            fn set_other(&mut self) {
                self.other.copy_from_slice(&self.nodes);
                self.open();
            }
            fn scan(&mut self, file: &[u8]) -> usize {
                $planner::scan(file).expect("a ring file").head
            }
            fn name(&mut self, file: &[u8]) {
                black_box($planner::name_of(file, self.n - 1));
            }
            fn group(&mut self, file: &[u8], head: usize) {
                black_box($group_of(file, self.n, head, GROUPS - 1, &mut self.order));
            }
            fn book(&mut self, list: &[u16]) {
                self.book[4 * self.count..4 * self.count + 4].copy_from_slice(&marks(list));
                self.count += 1;
            }
            fn text(&mut self) -> Vec<u8> {
                let length = $planner::write(self.layout, self.n, &self.nodes, &mut self.bytes).expect("in form");
                self.bytes[..length].to_vec()
            }
        }
    };
}

planner!(Proved, tokuwhape, proved_group);
planner!(Plain, plain, plain::group_of);

/// The proved planner's group of a ring file's line.
fn proved_group(file: &[u8], names: usize, head: usize, line: usize, list: &mut [u16]) -> usize {
    tokuwhape::group_of(file, tokuwhape::File { names, head, lines: GROUPS }, line, list)
}

/// The mark words of a group.
fn marks(list: &[u16]) -> [u64; 4] {
    let mut words = [0; 4];
    for &leaf in list {
        let mark = leaf as usize - 1;
        words[mark / 64] |= 1 << (mark % 64);
    }
    words
}

/// The next state of a xorshift32 generator, modulo k.
fn draw(state: &mut u32, k: usize) -> usize {
    *state ^= *state << 13;
    *state ^= *state >> 17;
    *state ^= *state << 5;
    *state as usize % k
}

/// So many groups that are runs of one random order: of a circular one, of 1 to n - 1 leaves each; of a straight one, up to its end at the most.
fn runs(layout: Layout, seed: u32, n: usize, many: usize) -> Vec<Vec<u16>> {
    let mut state = seed;
    let mut order: Vec<u16> = (1..=n as u16).collect();
    for i in (1..n).rev() {
        order.swap(i, draw(&mut state, i + 1));
    }
    let mut groups = Vec::new();
    for _ in 0..many {
        let start = draw(&mut state, n);
        let length = 1 + draw(&mut state, if layout == Ring { n - 1 } else { n - start });
        groups.push((start..start + length).map(|i| order[i % n]).collect());
    }
    groups
}

/// A book of 96 groups and a group that cannot join it. The leaves from 1 on, one left over, stand in blocks of these sizes in turn, 97 blocks at the
/// most. The book has whole rings, and then every two neighbouring blocks, of which each is needed; the new group is the first block and the last.
fn chain(n: usize, sizes: &[usize]) -> (Vec<Vec<u16>>, Vec<u16>) {
    let mut blocks: Vec<Vec<u16>> = Vec::new();
    let mut next = 1;
    for &size in sizes.iter().cycle().take(GROUPS + 1) {
        if next + size > n {
            break;
        }
        blocks.push((next..next + size).map(|leaf| leaf as u16).collect());
        next += size;
    }
    let whole: Vec<u16> = (1..=n as u16).collect();
    let mut book = vec![whole; GROUPS + 1 - blocks.len()];
    book.extend(blocks.windows(2).map(|pair| pair.concat()));
    (book, [blocks[0].as_slice(), &blocks[blocks.len() - 1]].concat())
}

/// A ring file with these names and groups.
fn ring_file(names: &[String], groups: &[Vec<u16>]) -> Vec<u8> {
    let (n, line) = (names.len(), |values: Vec<String>| values.join(" ") + "\n");
    let mut file = line(names.to_vec());
    for group in groups {
        let marks = marks(group);
        file += &line((0..n).map(|mark| (marks[mark / 64] >> (mark % 64) & 1).to_string()).collect());
    }
    file.into_bytes()
}

/// Nanoseconds that f takes.
fn timed(f: impl FnOnce()) -> f64 {
    let start = Instant::now();
    f();
    start.elapsed().as_nanos() as f64
}

fn median(mut times: Vec<f64>) -> f64 {
    times.sort_by(f64::total_cmp);
    times[times.len() / 2]
}

/// Two planners that are timed side by side.
type Sides = [Box<dyn Planner>; 2];

/// Makes two such planners for groups of n leaves, opened.
type Opened = fn(usize) -> Sides;

/// The proved planner and the plain one, each with a ring of n leaves.
fn both_planners(n: usize) -> Sides {
    [Proved::fresh(Ring, n), Plain::fresh(plain::Layout::Ring, n)]
}

/// The proved planner with a rack of n leaves, and with a ring of n + 1.
fn rack_and_ring(n: usize) -> Sides {
    [Proved::fresh(Rack, n), Proved::fresh(Ring, n + 1)]
}

/// Both sides after this change.
fn changed(mut sides: Sides, change: impl Fn(&mut dyn Planner)) -> Sides {
    sides.iter_mut().for_each(|side| change(side.as_mut()));
    sides
}

/// The time of a call for each side. A round times the same calls each time; each call's time is its median over the rounds, and what is
/// returned is the mean over the round's calls.
fn both(rounds: usize, mut sides: Sides, round: impl Fn(&mut dyn Planner) -> Vec<f64>) -> [f64; 2] {
    let mut times = [Vec::new(), Vec::new()];
    for _ in 0..rounds {
        for (ring, times) in sides.iter_mut().zip(&mut times) {
            times.push(round(ring.as_mut()));
        }
    }
    times.map(|rounds: Vec<Vec<f64>>| {
        let calls = rounds[0].len();
        (0..calls).map(|call| median(rounds.iter().map(|round| round[call]).collect())).sum::<f64>() / calls as f64
    })
}

/// One call, made so many times in each round.
fn repeated(rounds: usize, times: usize, sides: Sides, call: impl Fn(&mut dyn Planner)) -> [f64; 2] {
    both(rounds, sides, |ring| vec![timed(|| (0..times).for_each(|_| call(ring))) / times as f64])
}

/// One short call.
fn short(sides: Sides, call: impl Fn(&mut dyn Planner)) -> [f64; 2] {
    repeated(CALLS, TIMES, sides, call)
}

/// Joins, over the growth of the book.
fn joins(ring: &mut dyn Planner, groups: &[Vec<u16>]) -> Vec<f64> {
    ring.open();
    groups.iter().map(|group| timed(|| ring.join(black_box(group)))).collect()
}

/// Trials, over the growth of the book: each group is tried before it joins.
fn trials(ring: &mut dyn Planner, groups: &[Vec<u16>]) -> Vec<f64> {
    ring.open();
    let mut times = Vec::new();
    for group in groups {
        times.push(timed(|| ring.trial(black_box(group))));
        ring.join(group);
    }
    times
}

/// A call's name, and the times of both sides.
type Row = (&'static str, [f64; 2]);

/// The calls on a book of these groups, all but the last one, of n leaves.
fn book_rows(opened: Opened, n: usize, groups: &[Vec<u16>]) -> Vec<Row> {
    let (last, groups) = groups.split_last().expect("97 groups");
    let grown = || changed(opened(n), joining(groups));
    let text = grown()[0].text();
    vec![
        ("open", short(opened(n), |ring| ring.open())),
        ("join", both(ROUNDS, opened(n), |ring| joins(ring, groups))),
        ("trial", both(ROUNDS, opened(n), |ring| trials(ring, groups))),
        ("order", short(grown(), |ring| ring.order())),
        ("aim", short(grown(), |ring| ring.aim())),
        ("write", short(grown(), |ring| ring.write())),
        ("read", short(grown(), |ring| ring.read(black_box(&text)))),
        ("conflict, empty list", repeated(CALLS, 1, grown(), |ring| assert_eq!(ring.conflict(black_box(last)), 0))),
    ]
}

/// A conflict call that names every group of a chain of blocks.
fn chain_conflict(opened: Opened, n: usize, sizes: &[usize]) -> [f64; 2] {
    let (book, ends) = chain(n, sizes);
    let named = book.iter().filter(|group| group.len() < n).count();
    let booked = changed(opened(n), |ring| book.iter().for_each(|group| ring.book(group)));
    repeated(LONGEST, 1, booked, |ring| assert_eq!(ring.conflict(black_box(&ends)), named))
}

/// The conflict calls that name the most groups.
fn conflict_rows(opened: Opened, n: usize) -> Vec<Row> {
    vec![("conflict, longest list", chain_conflict(opened, n, &[1])), ("conflict, list of blocks", chain_conflict(opened, n, &[2, 3]))]
}

/// The text of n leaves with one P-node in another, n - 2 deep, each before its leaf.
fn deepest(n: usize) -> Vec<u8> {
    let closed: String = (3..=n).map(|leaf| format!(" {leaf})")).collect();
    format!("1 {}2{closed}", "P(".repeat(n - 2)).into_bytes()
}

/// The text of n leaves with one P-node in another, n - 2 deep, each after its leaf.
fn deepest_after(n: usize) -> Vec<u8> {
    let opened: String = (2..n).map(|leaf| format!("P({leaf} ")).collect();
    format!("1 {opened}{n}{}", ")".repeat(n - 2)).into_bytes()
}

/// The text of n leaves, an even number, with one C-node in another, n / 2 - 1 deep, each before its two leaves.
fn deepest_of_c_nodes(n: usize) -> Vec<u8> {
    let closed: String = (3..n).step_by(2).map(|leaf| format!(" {leaf} {})", leaf + 1)).collect();
    format!("1 {}2{closed}", "C(".repeat(n / 2 - 1)).into_bytes()
}

/// The text of n leaves with one C-node.
fn rigid(n: usize) -> Vec<u8> {
    let leaves: Vec<String> = (2..=n).map(|leaf| leaf.to_string()).collect();
    format!("1 C({})", leaves.join(" ")).into_bytes()
}

/// Joins the groups to a ring.
fn joining(groups: &[Vec<u16>]) -> impl Fn(&mut dyn Planner) + '_ {
    |ring| groups.iter().for_each(|group| ring.join(group))
}

/// Reads a ring's tree from a text.
fn reading(text: &[u8]) -> impl Fn(&mut dyn Planner) + '_ {
    |ring| ring.read(text)
}

/// An intersection of two trees, each made by a change of these opened ones; whether there is one.
fn intersection(sides: Sides, one: impl Fn(&mut dyn Planner), other: impl Fn(&mut dyn Planner), possible: bool) -> [f64; 2] {
    let two = changed(sides, |ring| {
        other(ring);
        ring.set_other();
        one(ring);
    });
    repeated(ROUNDS, 1, two, |ring| assert_eq!(black_box(ring.intersect()), possible))
}

/// The intersection of two trees of 96 groups each, all runs of one order, and of such trees of two orders, which have none.
fn intersection_rows(opened: Opened, layout: Layout, n: usize) -> Vec<Row> {
    let groups = runs(layout, SEED, n, 2 * GROUPS);
    let (one, other) = groups.split_at(GROUPS);
    let foreign = runs(layout, OTHER_SEED, n, GROUPS);
    vec![
        ("intersect", intersection(opened(n), joining(one), joining(other), true)),
        ("intersect, none", intersection(opened(n), joining(one), joining(&foreign), false)),
    ]
}

/// The intersections of one C-node with itself, and of the deepest trees.
fn text_intersection_rows(n: usize) -> Vec<Row> {
    let (before, after, rigid) = (deepest(n), deepest_after(n), rigid(n));
    let of = |one: &[u8], other: &[u8]| intersection(both_planners(n), reading(one), reading(other), true);
    vec![
        ("intersect, one C-node and itself", of(&rigid, &rigid)),
        ("intersect, deepest trees", of(&before, &after)),
        ("intersect, deepest tree and itself", of(&before, &before)),
    ]
}

/// One join, each to the tree of a text that is read before it.
fn read_and_joined(n: usize, text: &[u8], group: &[u16]) -> [f64; 2] {
    both(CALLS, both_planners(n), |ring| {
        ring.read(text);
        vec![timed(|| ring.join(black_box(group)))]
    })
}

/// The calls on the deepest tree of n leaves: the innermost pair, which it keeps together already; the next one, which changes the nodes at its end;
/// and the pair with all nodes between. Of the deepest tree of C-nodes: the last two pairs, and reading it.
fn deep_rows(n: usize) -> Vec<Row> {
    let (text, of_c_nodes, last) = (deepest(n), deepest_of_c_nodes(n), n as u16);
    let deep = || changed(both_planners(n), reading(&text));
    let (inner, next, ends) = ([2, 3], [3, 4], [2, last]);
    vec![
        ("join, deepest tree, inner pair", read_and_joined(n, &text, &inner)),
        ("join, deepest tree, next pair", read_and_joined(n, &text, &next)),
        ("join, deepest tree, outer pair", read_and_joined(n, &text, &ends)),
        ("join, deepest of C-nodes, next pair", read_and_joined(n, &of_c_nodes, &[4, 5])),
        ("join, deepest of C-nodes, outer pair", read_and_joined(n, &of_c_nodes, &[2, last - 1])),
        ("trial, deepest tree, inner pair", short(deep(), |ring| ring.trial(black_box(&inner)))),
        ("trial, deepest tree, outer pair", short(deep(), |ring| ring.trial(black_box(&ends)))),
        ("order, deepest tree", short(deep(), |ring| ring.order())),
        ("write, deepest tree", short(deep(), |ring| ring.write())),
        ("read, deepest tree", short(deep(), |ring| ring.read(black_box(&text)))),
        ("read, deepest of C-nodes", short(deep(), |ring| ring.read(black_box(&of_c_nodes)))),
    ]
}

/// The order of the deepest trees of n leaves and a hidden end, which stands at the root or farthest from it, and there the aim of all leaves.
fn deep_rack_rows(n: usize) -> Vec<Row> {
    let (near, far) = (deepest(n + 1), deepest_after(n + 1));
    let whole: Vec<u16> = (1..=n as u16).collect();
    let read = |text: &[u8]| changed(rack_and_ring(n), reading(text));
    vec![
        ("order, deepest tree, hidden end at the root", short(read(&near), |rack| rack.order())),
        ("order, deepest tree, hidden end farthest", short(read(&far), |rack| rack.order())),
        ("aim, deepest tree, hidden end farthest", short(changed(read(&far), |rack| rack.join(&whole)), |rack| rack.aim())),
    ]
}

/// The calls on a ring file with n names.
fn file_rows(n: usize) -> Vec<Row> {
    let opened = both_planners;
    let groups = &runs(Ring, SEED, n, GROUPS);
    let file = ring_file(&(1..=n).map(|leaf| format!("B{leaf}")).collect::<Vec<_>>(), groups);
    let long = ring_file(&(1..=n).map(|leaf| format!("{leaf:08}")).collect::<Vec<_>>(), groups);
    let head = opened(n)[0].scan(&file);
    vec![
        ("scan, names of 8 bytes", short(opened(n), |ring| assert_eq!(ring.scan(black_box(&long)), 9 * n))),
        ("scan", short(opened(n), |ring| assert_eq!(ring.scan(black_box(&file)), head))),
        ("name", short(opened(n), |ring| ring.name(black_box(&file)))),
        ("group", short(opened(n), |ring| ring.group(black_box(&file), head))),
    ]
}

/// The rows of both planners on rings of n leaves.
fn ring_rows(n: usize) -> Vec<Row> {
    [
        book_rows(both_planners, n, &runs(Ring, SEED, n, GROUPS + 1)),
        conflict_rows(both_planners, n),
        intersection_rows(both_planners, Ring, n),
        text_intersection_rows(n),
        deep_rows(n),
        file_rows(n),
    ]
    .concat()
}

/// The rows of a rack of n leaves beside a ring of n + 1.
fn rack_rows(n: usize) -> Vec<Row> {
    [
        book_rows(rack_and_ring, n, &runs(Rack, SEED, n, GROUPS + 1)),
        conflict_rows(rack_and_ring, n),
        intersection_rows(rack_and_ring, Rack, n),
        deep_rack_rows(n),
    ]
    .concat()
}

/// Prints the rows of each size, a call's one after another, with the ratio of the first side to the second.
fn print(sides: [&str; 2], sizes: [usize; 3], tables: &[Vec<Row>; 3]) {
    println!("| call | n | {}, ns | {}, ns | ratio |\n|---|---|---|---|---|", sides[0], sides[1]);
    for call in 0..tables[0].len() {
        for (n, table) in sizes.iter().zip(tables) {
            let (name, [one, other]) = table[call];
            println!("| {name} | {n} | {one:.0} | {other:.0} | {:.2} |", one / other);
        }
    }
}

fn main() {
    let tables = SIZES.map(ring_rows);
    print(["proved", "plain"], SIZES, &tables);
    println!("\n| call | proved, 256 over 64 | plain, 256 over 64 |\n|---|---|---|");
    for (small, large) in tables[1].iter().zip(&tables[2]) {
        println!("| {} | {:.2} | {:.2} |", small.0, large.1[0] / small.1[0], large.1[1] / small.1[1]);
    }
    println!();
    print(["rack", "ring of n + 1"], RACK_SIZES, &RACK_SIZES.map(rack_rows));
}

//! petgraph: astar on a built graph, with hash maps inside.    petgraph_astar MAP SCEN [timed]

use petgraph::graph::{NodeIndex, UnGraph};

extern "C" {
    /// The processor time of the process, in microseconds on Linux.
    fn clock() -> i64;
}

/// The processor time of the process, in seconds.
fn now() -> f64 {
    // SAFETY: it has no parameters and changes nothing.
    unsafe { clock() as f64 / 1e6 }
}

const SQRT2: f64 = std::f64::consts::SQRT_2;

type Cell = (u16, u16);

fn octile(one: Cell, other: Cell) -> f64 {
    let (columns, rows) = (one.0.abs_diff(other.0), one.1.abs_diff(other.1));
    f64::from(columns.max(rows) - columns.min(rows)) + f64::from(columns.min(rows)) * SQRT2
}

struct Map {
    width: usize,
    height: usize,
    cells: Vec<bool>,
}

impl Map {
    fn read(name: &str) -> Map {
        let text = std::fs::read_to_string(name).expect("the map can be read");
        let side = |line: usize| -> usize {
            let last = text.lines().nth(line).and_then(|it| it.split_whitespace().last());
            last.and_then(|it| it.parse().ok()).expect("the map has a head")
        };
        let (height, width) = (side(1), side(2));
        let rows = text.lines().skip(4).take(height);
        let cells = rows.flat_map(|row| row.bytes().map(|byte| matches!(byte, b'.' | b'G' | b'S'))).collect();
        Map { width, height, cells }
    }

    /// The number of the cell that lies `(dx, dy)` from `(x, y)`, where it is free.
    fn free(&self, x: usize, y: usize, dx: isize, dy: isize) -> Option<usize> {
        let (x, y) = (x.checked_add_signed(dx)?, y.checked_add_signed(dy)?);
        let is_free = x < self.width && y < self.height && self.cells[y * self.width + x];
        is_free.then_some(y * self.width + x)
    }

    fn graph(&self) -> UnGraph<Cell, f64> {
        let mut graph = UnGraph::with_capacity(self.cells.len(), self.cells.len() * 4);
        for cell in 0..self.cells.len() {
            graph.add_node(((cell % self.width) as u16, (cell / self.width) as u16));
        }
        for cell in (0..self.cells.len()).filter(|&cell| self.cells[cell]) {
            let free = |dx, dy| self.free(cell % self.width, cell / self.width, dx, dy);
            let mut link = |to: Option<usize>, length| {
                if let Some(to) = to {
                    graph.add_edge(NodeIndex::new(cell), NodeIndex::new(to), length);
                }
            };
            link(free(1, 0), 1.0);
            link(free(0, 1), 1.0);
            link(free(1, 1).filter(|_| free(1, 0).is_some() && free(0, 1).is_some()), SQRT2);
            link(free(-1, 1).filter(|_| free(-1, 0).is_some() && free(0, 1).is_some()), SQRT2);
        }
        graph
    }
}

fn main() {
    let words: Vec<String> = std::env::args().collect();
    let began = now();
    let map = Map::read(&words[1]);
    let graph = map.graph();
    let scenario = std::fs::read_to_string(&words[2]).expect("the scenario can be read");
    let prepared = now() - began;
    let is_timed = words.get(3).is_some_and(|it| it == "timed");
    if is_timed {
        println!("prepared {:.0}", prepared * 1e9);
    }
    let (mut count, mut sum, mut wrong) = (0, 0.0, 0);
    for line in scenario.lines().skip(1) {
        let fields: Vec<&str> = line.split('\t').collect();
        let number = |place: usize| fields[place].parse::<usize>().expect("an entry has numbers");
        let length: f64 = fields[8].parse().expect("an entry has a length");
        let start = NodeIndex::new(number(5) * map.width + number(4));
        let goal = NodeIndex::new(number(7) * map.width + number(6));
        let before = now();
        let place = graph[goal];
        let found = petgraph::algo::astar(&graph, start, |it| it == goal, |edge| *edge.weight(), |it| octile(graph[it], place));
        let spent = now() - before;
        sum += spent;
        count += 1;
        if is_timed {
            let cells = found.as_ref().map_or(&[][..], |it| &it.1);
            let walk: Vec<String> = cells.iter().map(|&it| format!("{},{}", graph[it].0, graph[it].1)).collect();
            println!("{} {:.0}", if found.is_some() { walk.join(" ") } else { "none".into() }, spent * 1e9);
        }
        let told = found.map_or(-1.0, |it| it.0);
        wrong += usize::from((told - length).abs() > 1e-6 * (1.0 + length));
    }
    if is_timed {
        return;
    }
    println!("{{\"queries\": {count}, \"prepared\": {prepared:.6}, \"mean\": {:.9}, \"wrong\": {wrong}}}", sum / f64::from(count));
}

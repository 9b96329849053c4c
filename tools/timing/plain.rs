// The same work as crates/timing in plain Rust: vectors that grow, the same recurrence in the same row order.
// Arguments: LINES VERTICES LEVELS, and then perhaps `time`; it prints what crates/timing prints.
use std::time::Instant;

#[derive(Clone, Copy)]
struct Vertex {
    x: i16,
    y: i16,
}

struct Draws(u64);

impl Draws {
    fn next(&mut self) -> i16 {
        self.0 = self.0.wrapping_mul(6364136223846793005).wrapping_add(1442695040888963407);
        ((self.0 >> 33) & 127) as i16
    }
}

fn walk(draws: &mut Draws, n: usize) -> Vec<Vertex> {
    let (mut x, mut y) = (-16000i16, 0i16);
    let mut line = Vec::new();
    for _ in 0..n {
        line.push(Vertex { x, y });
        x = x.saturating_add(draws.next()).min(16383);
        y = y.saturating_add(draws.next()).saturating_sub(63).max(-16384).min(16383);
    }
    line
}

trait Measure {
    // The first level that allows the link, counted from 1, or one more than there are levels.
    fn grade(line: &[Vertex], tolerances: &[u32], i: usize, j: usize) -> u8;
}

struct Segment;
struct Strip;
struct Area;

fn way(p: Vertex, q: Vertex) -> (i64, i64) {
    (q.x as i64 - p.x as i64, q.y as i64 - p.y as i64)
}

fn dot(a: (i64, i64), b: (i64, i64)) -> i64 {
    a.0 * b.0 + a.1 * b.1
}

fn cross(a: (i64, i64), b: (i64, i64)) -> i64 {
    a.0 * b.1 - a.1 * b.0
}

// One pass over the skipped vertices in which the level only climbs, stopping past the top level.
fn climb(line: &[Vertex], tolerances: &[u32], i: usize, j: usize, near: impl Fn(Vertex, i64) -> bool) -> u8 {
    let mut level = 0;
    for k in i + 1..j {
        while level < tolerances.len() && !near(line[k], tolerances[level] as i64) {
            level += 1;
        }
        if level == tolerances.len() {
            break;
        }
    }
    level as u8 + 1
}

impl Measure for Segment {
    fn grade(line: &[Vertex], tolerances: &[u32], i: usize, j: usize) -> u8 {
        let (p, q) = (line[i], line[j]);
        let a = way(p, q);
        let length = dot(a, a);
        climb(line, tolerances, i, j, |v, t| {
            let b = way(p, v);
            let d = dot(a, b);
            if d <= 0 {
                dot(b, b) <= t * t
            } else if d >= length {
                let e = way(q, v);
                dot(e, e) <= t * t
            } else {
                let c = cross(a, b);
                c * c <= t * t * length
            }
        })
    }
}

impl Measure for Strip {
    fn grade(line: &[Vertex], tolerances: &[u32], i: usize, j: usize) -> u8 {
        let (p, q) = (line[i], line[j]);
        let a = way(p, q);
        let length = dot(a, a);
        climb(line, tolerances, i, j, |v, t| {
            let b = way(p, v);
            if length == 0 {
                dot(b, b) <= t * t
            } else {
                let c = cross(a, b);
                c * c <= t * t * length
            }
        })
    }
}

fn area(line: &[Vertex], i: usize, j: usize) -> u64 {
    let step = |p: Vertex, q: Vertex| p.x as i64 * q.y as i64 - q.x as i64 * p.y as i64;
    let mut sum = 0;
    for k in i..j {
        sum += step(line[k], line[k + 1]);
    }
    sum += step(line[j], line[i]);
    sum.unsigned_abs()
}

impl Measure for Area {
    fn grade(line: &[Vertex], tolerances: &[u32], i: usize, j: usize) -> u8 {
        let area = area(line, i, j);
        let mut level = 0;
        while level < tolerances.len() && area > tolerances[level] as u64 {
            level += 1;
        }
        level as u8 + 1
    }
}

trait Price: Copy {
    fn neutral() -> Self;
    fn join(self, other: Self) -> Self;
    fn not_dearer(self, other: Self) -> bool;
    fn of_link(line: &[Vertex], i: usize, j: usize, weight: u32) -> Self;
    fn form(self) -> (u32, u64);
}

#[derive(Clone, Copy)]
struct Count(u32);

#[derive(Clone, Copy)]
struct CountThenArea(u32, u64);

impl Price for Count {
    fn neutral() -> Self {
        Count(0)
    }
    fn join(self, other: Self) -> Self {
        Count(self.0.saturating_add(other.0))
    }
    fn not_dearer(self, other: Self) -> bool {
        self.0 <= other.0
    }
    fn of_link(_line: &[Vertex], _i: usize, _j: usize, weight: u32) -> Self {
        Count(weight)
    }
    fn form(self) -> (u32, u64) {
        (self.0, 0)
    }
}

impl CountThenArea {
    fn area(self) -> u64 {
        if self.0 == u32::MAX { u64::MAX } else { self.1 }
    }
}

impl Price for CountThenArea {
    fn neutral() -> Self {
        CountThenArea(0, 0)
    }
    fn join(self, other: Self) -> Self {
        CountThenArea(self.0.saturating_add(other.0), self.1.saturating_add(other.1))
    }
    fn not_dearer(self, other: Self) -> bool {
        self.0 < other.0 || self.0 == other.0 && self.area() <= other.area()
    }
    fn of_link(line: &[Vertex], i: usize, j: usize, weight: u32) -> Self {
        CountThenArea(weight, area(line, i, j))
    }
    fn form(self) -> (u32, u64) {
        (self.0, self.area())
    }
}

// The grades, row by row.
fn grades<M: Measure>(line: &[Vertex], tolerances: &[u32]) -> Vec<Vec<u8>> {
    let n = line.len();
    let mut rows = Vec::new();
    for i in 0..n {
        let mut row = Vec::new();
        for j in 0..n {
            row.push(if i < j { M::grade(line, tolerances, i, j) } else { 0 });
        }
        rows.push(row);
    }
    rows
}

// The least totals: one vector of rows for each level, row i for the start i.
fn prices<P: Price>(line: &[Vertex], weights: &[u32], grades: &[Vec<u8>]) -> Vec<Vec<Vec<P>>> {
    let n = line.len();
    let mut table: Vec<Vec<Vec<P>>> = Vec::new();
    for k in 0..weights.len() {
        let mut level: Vec<Vec<P>> = vec![Vec::new(); n];
        for i in (0..n).rev() {
            let mut row = vec![P::neutral(); i + 1];
            for v in i + 1..n {
                if grades[i][v] as usize > k + 1 {
                    continue;
                }
                let link = P::of_link(line, i, v, weights[k]);
                let under = if k == 0 { P::neutral() } else { table[k - 1][i][v] };
                let head = link.join(under);
                let rest = &level[v];
                if v == i + 1 {
                    for j in v..n {
                        row.push(head.join(rest[j]));
                    }
                } else {
                    for j in v..n {
                        let other = head.join(rest[j]);
                        if !row[j].not_dearer(other) {
                            row[j] = other;
                        }
                    }
                }
            }
            level[i] = row;
        }
        table.push(level);
    }
    table
}

// Walks the first least family of levels 1 to k between i and j.
fn mark<P: Price>(line: &[Vertex], weights: &[u32], grades: &[Vec<u8>], table: &[Vec<Vec<P>>], stays: &mut [u8], k: usize, i: usize, j: usize) {
    if k == 0 {
        return;
    }
    let mut at = i;
    while at < j {
        let best = table[k - 1][at][j];
        let mut next = j;
        for v in at + 1..j {
            if grades[at][v] as usize > k {
                continue;
            }
            let under = if k == 1 { P::neutral() } else { table[k - 2][at][v] };
            let way = P::of_link(line, at, v, weights[k - 1]).join(under).join(table[k - 1][v][j]);
            if way.not_dearer(best) {
                next = v;
                break;
            }
        }
        if next < j {
            stays[next] = k as u8;
        }
        mark(line, weights, grades, table, stays, k - 1, at, next);
        at = next;
    }
}

fn least<M: Measure, P: Price>(line: &[Vertex], tolerances: &[u32], weights: &[u32]) -> (P, Vec<u8>) {
    let (n, m) = (line.len(), weights.len());
    let grades = grades::<M>(line, tolerances);
    let table = prices::<P>(line, weights, &grades);
    let mut stays = vec![0; n];
    stays[0] = m as u8;
    stays[n - 1] = m as u8;
    mark(line, weights, &grades, &table, &mut stays, m, 0, n - 1);
    (table[m - 1][0][n - 1], stays)
}

fn timed<M: Measure, P: Price>(name: &str, task: &[usize], shown: bool, first: u32, factor: u32) {
    let (count, n, m) = (task[0], task[1], task[2]);
    let mut draws = Draws(20261118);
    let mut lines = Vec::new();
    for _ in 0..count {
        lines.push(walk(&mut draws, n));
    }
    let mut tolerances = Vec::new();
    let mut t = first;
    for _ in 0..m {
        tolerances.push(t);
        t = t.saturating_mul(factor);
    }
    let weights = vec![1u32; m];
    let start = Instant::now();
    for line in &lines {
        std::hint::black_box(grades::<M>(line, &tolerances));
    }
    let grading = start.elapsed().as_micros();
    let start = Instant::now();
    let mut sums = (0u64, 0u64);
    for line in &lines {
        let (total, stays) = least::<M, P>(line, &tolerances, &weights);
        std::hint::black_box(stays);
        let (f, s) = total.form();
        sums.0 = sums.0.wrapping_add(f as u64);
        sums.1 = sums.1.wrapping_add(s);
    }
    let whole = start.elapsed().as_micros();
    println!("{name} total {} {}", sums.0, sums.1);
    if shown {
        println!("{name} grading {grading} whole {whole}");
    }
}

fn main() {
    let args: Vec<String> = std::env::args().skip(1).collect();
    let task: Vec<usize> = args.iter().take(3).map(|a| a.parse().unwrap()).collect();
    let shown = args.len() > 3;
    timed::<Segment, Count>("segment count", &task, shown, 8, 2);
    timed::<Strip, Count>("strip count", &task, shown, 8, 2);
    timed::<Area, Count>("area count", &task, shown, 500, 4);
    timed::<Segment, CountThenArea>("segment count-area", &task, shown, 8, 2);
    timed::<Strip, CountThenArea>("strip count-area", &task, shown, 8, 2);
    timed::<Area, CountThenArea>("area count-area", &task, shown, 500, 4);
}

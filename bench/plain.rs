// The same work in plain Rust: groups of a plan listed by a depth-first search, and differences by listing both plans.
// `same` is the algorithm that the proved code has, `best` the fastest that we could write.

#[derive(Clone, Copy, PartialEq, Eq, PartialOrd, Ord, Debug)]
#[repr(C)]
pub struct Group {
    pub keys: u64,
    pub doors: u64,
}

pub fn first(n: usize) -> u64 {
    if n >= 64 { u64::MAX } else { (1 << n) - 1 }
}

pub fn columns(rows: &[u64], doors: usize) -> Vec<u64> {
    let mut columns = vec![0; doors];
    for (k, row) in rows.iter().enumerate() {
        for (d, column) in columns.iter_mut().enumerate() {
            *column |= (row >> d & 1) << k;
        }
    }
    columns
}

// The keys that open all of the doors, and those that open some.
fn close(columns: &[u64], doors: u64) -> (u64, u64) {
    let (mut all, mut some, mut rest) = (u64::MAX, 0, doors);
    while rest != 0 {
        let column = columns[rest.trailing_zeros() as usize];
        all &= column;
        some |= column;
        rest &= rest - 1;
    }
    (all, some)
}

pub mod same {
    use super::*;

    struct Search<'a> {
        rows: &'a [u64],
        columns: &'a [u64],
        found: Vec<Group>,
    }

    impl Search<'_> {
        fn run(&mut self, keys: u64, out: u64, doors: u64, left: u64) {
            if keys != 0 {
                self.found.push(Group { keys, doors });
            }
            let mut rest = left;
            while rest != 0 {
                let j = rest.trailing_zeros();
                rest &= rest - 1;
                let with = doors & self.rows[j as usize];
                let (all, some) = close(self.columns, with);
                if all & (out | rest) == 0 {
                    self.run(all, out | rest, with, some & !all & left & ((1 << j) - 1));
                }
            }
        }
    }

    pub fn groups(rows: &[u64], doors: usize) -> Vec<Group> {
        let columns = columns(rows, doors);
        let every = first(doors);
        let (all, some) = close(&columns, every);
        let keys = all & first(rows.len());
        let mut search = Search { rows, columns: &columns, found: Vec::new() };
        if every != 0 {
            search.run(keys, 0, every, some & !keys);
        }
        search.found
    }
}

pub mod best {
    use super::*;

    // Keys are tried in ascending order of what they leave, a candidate that can never pass the test again is dropped for
    // the whole branch, and the closures of a level are computed once; the result is sorted at the end.
    struct Search<'a> {
        rows: &'a [u64; 64],
        columns: &'a [u64; 64],
        found: Vec<Group>,
    }

    impl Search<'_> {
        fn run(&mut self, keys: u64, out: u64, doors: u64, left: u64) {
            if keys != 0 {
                self.found.push(Group { keys, doors });
            }
            let mut tried = [(0u64, 0u64, 0u64); 64];
            let mut alive = 0u64;
            let mut dead = 0u64;
            let mut rest = left;
            while rest != 0 {
                let j = rest.trailing_zeros() as usize;
                rest &= rest - 1;
                let with = doors & self.rows[j];
                let (mut all, mut some, mut bits) = (u64::MAX, 0, with);
                while bits != 0 {
                    let column = self.columns[bits.trailing_zeros() as usize & 63];
                    all &= column;
                    some |= column;
                    bits &= bits - 1;
                }
                if all & out == 0 {
                    tried[j] = (with, all, some);
                    alive |= 1 << j;
                } else {
                    dead |= 1 << j;
                }
            }
            let out = out | dead;
            let mut rest = alive;
            while rest != 0 {
                let j = rest.trailing_zeros() as usize;
                rest &= rest - 1;
                let (with, all, some) = tried[j];
                if all & (out | rest) == 0 {
                    self.run(all, out | rest, with, some & !all & alive & ((1 << j) - 1));
                }
            }
        }
    }

    pub fn groups(rows: &[u64], doors: usize) -> Vec<Group> {
        let columns = columns(rows, doors);
        let mut row_table = [0; 64];
        let mut column_table = [0; 64];
        row_table[..rows.len()].copy_from_slice(rows);
        column_table[..doors].copy_from_slice(&columns);
        let every = first(doors);
        let (all, some) = close(&columns, every);
        let keys = all & first(rows.len());
        let mut search = Search { rows: &row_table, columns: &column_table, found: Vec::new() };
        search.run(keys, 0, every, some & !keys);
        search.found
    }
}

// The groups of `after` that are none of `before`, both listed anew.
pub fn difference(before: &[Group], after: &[Group]) -> Vec<Group> {
    let mut new = Vec::new();
    let mut i = 0;
    for group in after {
        while i < before.len() && before[i] < *group {
            i += 1;
        }
        if i == before.len() || before[i] != *group {
            new.push(*group);
        }
    }
    new
}

// The groups of `after` that are none of `before`, by the keys and doors that touch them: what the proved difference does.
pub mod touched {
    use super::*;

    #[derive(Clone, Copy)]
    pub struct Tables {
        rows: [u64; 64],
        columns: [u64; 64],
    }

    impl Tables {
        pub fn new(rows: &[u64]) -> Tables {
            let mut tables = Tables { rows: [0; 64], columns: [0; 64] };
            for (k, row) in rows.iter().enumerate() {
                tables.rows[k] = *row;
                for d in bits(*row) {
                    tables.columns[d] |= 1 << k;
                }
            }
            tables
        }

        fn turned(&self) -> Tables {
            Tables { rows: self.columns, columns: self.rows }
        }
    }

    fn bits(mut set: u64) -> impl Iterator<Item = usize> {
        std::iter::from_fn(move || {
            if set == 0 {
                return None;
            }
            let bit = set.trailing_zeros() as usize;
            set &= set - 1;
            Some(bit)
        })
    }

    fn common(rows: &[u64; 64], start: u64, set: u64) -> u64 {
        bits(set).fold(start, |shared, k| shared & rows[k])
    }

    struct Search<'a> {
        plan: &'a Tables,
        watch: &'a [u64; 64],
        found: &'a mut Vec<Group>,
    }

    impl Search<'_> {
        fn start(&mut self, key: usize) {
            let doors = self.plan.rows[key];
            if doors == 0 {
                return;
            }
            let (keys, near) = close(&self.plan.columns, doors);
            let marks = common(self.watch, u64::MAX, keys);
            if marks != 0 {
                let bare = bits(near & !keys).filter(|k| self.watch[*k] & marks == 0).fold(0, |set, k| set | 1 << k);
                self.run(keys, bare, doors, marks, near & !(keys | bare));
            }
        }

        fn run(&mut self, keys: u64, out: u64, doors: u64, marks: u64, left: u64) {
            self.found.push(Group { keys, doors });
            let mut rest = left;
            while rest != 0 {
                let j = rest.trailing_zeros() as usize;
                rest &= rest - 1;
                let with = doors & self.plan.rows[j];
                let (all, some) = close(&self.plan.columns, with);
                if all & (out | rest) == 0 {
                    let shared = common(self.watch, marks, all & !keys);
                    if shared != 0 {
                        self.run(all, out | rest, with, shared, some & left & !(all | rest));
                    }
                }
            }
        }
    }

    pub fn new(before: &Tables, after: &Tables) -> Vec<Group> {
        let mut found: Vec<Group> = Vec::new();
        let changed = (0..64).filter(|k| before.rows[*k] != after.rows[*k]).fold(0, |set, k| set | 1 << k);
        let losing = (0..64).filter(|d| before.columns[*d] & !after.columns[*d] != 0).fold(0, |set, d| set | 1 << d);
        let by_key = |g: &Group, keys: u64| {
            let asked = g.keys & keys;
            asked != 0 && {
                let shared = common(&before.rows, u64::MAX, g.keys);
                bits(asked).any(|k| g.doors & !before.rows[k] | shared & !after.rows[k] != 0)
            }
        };
        let by_door = |g: &Group, doors: u64| {
            let asked = g.doors & doors;
            asked != 0 && {
                let shared = common(&before.columns, u64::MAX, g.doors);
                bits(asked).any(|d| shared & !after.columns[d] != 0)
            }
        };
        for u in bits(changed) {
            let (gained, lost) = (after.rows[u] & !before.rows[u], before.rows[u] & !after.rows[u]);
            let watch = std::array::from_fn(|k| after.rows[k] & gained | before.rows[k] & lost);
            let start = found.len();
            Search { plan: after, watch: &watch, found: &mut found }.start(u);
            let mut end = start;
            for i in start..found.len() {
                let g = found[i];
                if !by_key(&g, changed & first(u)) {
                    found[end] = g;
                    end += 1;
                }
            }
            found.truncate(end);
        }
        let turned = after.turned();
        for v in bits(losing) {
            let lost = before.columns[v] & !after.columns[v];
            let watch = std::array::from_fn(|d| before.columns[d] & lost);
            let start = found.len();
            Search { plan: &turned, watch: &watch, found: &mut found }.start(v);
            let mut end = start;
            for i in start..found.len() {
                let g = Group { keys: found[i].doors, doors: found[i].keys };
                if !by_key(&g, changed) && !by_door(&g, losing & first(v)) {
                    found[end] = g;
                    end += 1;
                }
            }
            found.truncate(end);
        }
        found.sort();
        found
    }

    pub fn both(before: &[u64], after: &[u64]) -> (Vec<Group>, Vec<Group>) {
        let (before, after) = (Tables::new(before), Tables::new(after));
        (new(&before, &after), new(&after, &before))
    }
}

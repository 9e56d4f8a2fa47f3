// Times the proved search and difference beside plain Rust on the same plans, and checks that they agree.
mod plain;

use plain::Group;
use std::time::Instant;

unsafe extern "C" {
    fn bench_groups(rows: *const u64, keys: usize, doors: usize, table: *mut Group, room: usize) -> usize;
    fn bench_difference(
        before: *const u64,
        before_keys: usize,
        after: *const u64,
        after_keys: usize,
        doors: usize,
        new: *mut Group,
        new_room: usize,
        lapsed: *mut Group,
        lapsed_room: usize,
        limit: usize,
        ends: *mut usize,
        ends_room: usize,
    );
}

const NONE: Group = Group { keys: 0, doors: 0 };

// It answers usize::MAX where the groups do not fit.
fn proved_groups(rows: &[u64], doors: usize, table: &mut [Group]) -> usize {
    unsafe { bench_groups(rows.as_ptr(), rows.len(), doors, table.as_mut_ptr(), table.len()) }
}

// Both lists, in the two halves of the table.
fn proved_difference(before: &[u64], after: &[u64], table: &mut [Group], limit: usize) -> (usize, usize) {
    let half = table.len() / 2;
    let (new, lapsed) = table.split_at_mut(half);
    let mut ends = [0; 2];
    unsafe {
        bench_difference(
            before.as_ptr(),
            before.len(),
            after.as_ptr(),
            after.len(),
            64,
            new.as_mut_ptr(),
            new.len(),
            lapsed.as_mut_ptr(),
            lapsed.len(),
            limit,
            ends.as_mut_ptr(),
            ends.len(),
        );
    }
    (ends[0], ends[1])
}

struct Random(u64);

impl Random {
    fn next(&mut self) -> u64 {
        self.0 ^= self.0 << 13;
        self.0 ^= self.0 >> 7;
        self.0 ^= self.0 << 17;
        self.0
    }

    fn plan(&mut self, percent: u64) -> Vec<u64> {
        (0..64)
            .map(|_| (0..64).fold(0, |row, d| row | u64::from(self.next() % 100 < percent) << d))
            .collect()
    }

    fn changed(&mut self, rows: &[u64], pairs: usize) -> Vec<u64> {
        let mut after = rows.to_vec();
        for _ in 0..pairs {
            let (k, d) = (self.next() % 64, self.next() % 64);
            after[k as usize] ^= 1 << d;
        }
        after
    }
}

// The least of several runs, in microseconds.
fn time<T>(mut run: impl FnMut() -> T) -> (f64, T) {
    let mut least = f64::INFINITY;
    let start = Instant::now();
    loop {
        let t = Instant::now();
        let result = run();
        least = least.min(t.elapsed().as_secs_f64() * 1e6);
        if start.elapsed().as_millis() > 20 {
            return (least, result);
        }
    }
}

fn main() {
    let mut random = Random(88172645463325252);
    let mut table = vec![NONE; 400_000];
    println!("whole plans           groups    proved µs   same µs   ratio   best µs   ratio");
    let mut plans: Vec<(String, Vec<u64>, usize)> =
        [10, 25, 30].iter().map(|p| (format!("64 x 64, {p} %"), random.plan(*p), 64)).collect();
    plans.push(("12 x 12, all but own".into(), (0..12).map(|k| 0xfff & !(1 << k)).collect(), 12));
    for (name, rows, doors) in &plans {
        let (proved, count) = time(|| proved_groups(rows, *doors, &mut table));
        let (same, expected) = time(|| plain::same::groups(rows, *doors));
        let (best, again) = time(|| plain::best::groups(rows, *doors));
        assert!(table[..count] == expected[..] && expected == again, "the lists differ");
        println!("{name:20} {count:7} {proved:12.1} {same:9.1} {:7.2} {best:9.1} {:7.2}", proved / same, proved / best);
    }
    println!();
    println!("changed pairs, the mean of many changes    new  lapsed    proved µs  plain µs   ratio   anew µs   times faster");
    for percent in [10, 25, 30, 50] {
        let before = random.plan(percent);
        for pairs in [1, 8, 64] {
            // Listing such a plan takes too long, and 64 changes are more than the table holds.
            let (list_anew, fits) = (percent < 50, percent < 50 || pairs < 64);
            let changes = if pairs == 1 { 64 } else { 4 };
            let label = format!("64 x 64, {percent} %, {pairs}");
            let (mut news, mut lapses, mut proved, mut plain, mut anew) = (0, 0, 0.0, 0.0, 0.0);
            for _ in 0..changes {
                let after = random.changed(&before, pairs);
                let half = table.len() / 2;
                let (time_proved, (new, lapsed)) = time(|| proved_difference(&before, &after, &mut table, half / 2));
                proved += time_proved;
                news += new.min(half);
                lapses += lapsed.min(half);
                if fits {
                    let (time_plain, (expected_new, expected_lapsed)) = time(|| plain::touched::both(&before, &after));
                    plain += time_plain;
                    assert!(table[..new] == expected_new[..], "the new groups differ");
                    assert!(table[half..half + lapsed] == expected_lapsed[..], "the lapsed groups differ");
                }
                if list_anew {
                    let (time_anew, (expected_new, expected_lapsed)) = time(|| {
                        let (b, a) = (plain::same::groups(&before, 64), plain::same::groups(&after, 64));
                        (plain::difference(&b, &a), plain::difference(&a, &b))
                    });
                    anew += time_anew;
                    assert!(table[..new] == expected_new[..], "the new groups differ");
                    assert!(table[half..half + lapsed] == expected_lapsed[..], "the lapsed groups differ");
                }
            }
            let mean = |sum: f64| sum / changes as f64;
            print!("{label:38} {:7} {:7} {:12.1}", news / changes, lapses / changes, mean(proved));
            if fits {
                print!(" {:9.1} {:7.2}", mean(plain), proved / plain);
            }
            if list_anew {
                print!(" {:9.1} {:14.1}", mean(anew), anew / proved);
            }
            println!();
        }
    }
    let own: Vec<u64> = (0..64).map(|k| !(1u64 << k)).collect();
    let mut after = own.clone();
    after[5] |= 1 << 5;
    let (proved, (new, _)) = time(|| proved_difference(&own, &after, &mut table, 4096));
    println!("64 x 64, all but own, 1: {} in {proved:.1} µs", if new == usize::MAX { "more than 4,096".into() } else { new.to_string() });
}

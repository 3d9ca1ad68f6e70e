// Measures the proved arrangers against ordinary ones: time per call, and the ratio of the two.
//
// Both are called in the same way. A call hands over the lines as bytes, makes one arranger, decodes the lines and has it
// arrange them `times` times over, which is what is timed: `times` is so large that the making and decoding do not count.
// Nothing is cleared or made anew between the repetitions: each arranger keeps its work space, and what it must clear it
// clears itself, within the time. For each input the two take turns; of the rounds the best counts, and of the inputs
// the median.

mod independent;

use std::time::Instant;

extern "C" {
    #[link_name = "chain_arrange"]
    fn proved_chain(bytes: *mut u8, len: usize, c: u8, times: u32) -> u8;
    #[link_name = "euler_arrange"]
    fn proved_euler(bytes: *mut u8, len: usize, c: u8, times: u32) -> u8;
}

type Arrange = fn(&mut [u8], u8, u32) -> u8;

fn chain_arrange(bytes: &mut [u8], c: u8, times: u32) -> u8 {
    unsafe { proved_chain(bytes.as_mut_ptr(), bytes.len(), c, times) }
}

fn euler_arrange(bytes: &mut [u8], c: u8, times: u32) -> u8 {
    unsafe { proved_euler(bytes.as_mut_ptr(), bytes.len(), c, times) }
}

#[derive(Clone, Copy)]
struct Job {
    name: &'static str,
    proved: Arrange,
    independent: Arrange,
}

const CHAIN: Job = Job { name: "chain", proved: chain_arrange, independent: independent::chain_arrange };
const EULER: Job = Job { name: "euler", proved: euler_arrange, independent: independent::euler_arrange };

const INPUTS: usize = 7;
const ROUNDS: usize = 15;
const ROUND_MICROS: f64 = 4000.0;

// A xorshift generator.
struct Random(u64);

impl Random {
    fn next(&mut self) -> u64 {
        self.0 ^= self.0 << 13;
        self.0 ^= self.0 >> 7;
        self.0 ^= self.0 << 17;
        self.0
    }

    fn below(&mut self, n: usize) -> usize {
        ((self.next() >> 32) as usize * n) >> 32
    }

    fn shuffle<T>(&mut self, items: &mut [T]) {
        for i in (1..items.len()).rev() {
            items.swap(i, self.below(i + 1));
        }
    }

    // `n` of the 512 ends
    fn ends(&mut self, n: usize) -> Vec<u16> {
        let mut ends: Vec<u16> = (0..512).collect();
        self.shuffle(&mut ends);
        ends.truncate(n);
        ends
    }
}

type Ends = (u16, u16);

// Every end has c lines: c random permutations between lines / c ends on each side.
fn full(random: &mut Random, lines: usize, c: usize) -> Vec<Ends> {
    let n = lines / c;
    let left = random.ends(n);
    let mut out = Vec::new();
    let mut right = random.ends(n);
    for _ in 0..c {
        random.shuffle(&mut right);
        out.extend(left.iter().copied().zip(right.iter().copied()));
    }
    random.shuffle(&mut out);
    out
}

// Random lines, taken while both ends have fewer than c, until three quarters of the places at the ends are filled.
fn sparse(random: &mut Random, lines: usize, c: usize) -> Vec<Ends> {
    let n = (lines * 4).div_ceil(c * 3).min(512);
    let lines = lines.min(n * c * 3 / 4);
    let left = random.ends(n);
    let right = random.ends(n);
    let mut counts = [[0; 512]; 2];
    let mut out = Vec::new();
    while out.len() < lines {
        let (l, r) = (left[random.below(n)], right[random.below(n)]);
        if counts[0][l as usize] < c && counts[1][r as usize] < c {
            counts[0][l as usize] += 1;
            counts[1][r as usize] += 1;
            out.push((l, r));
        }
    }
    out
}

// Lines between any of the 512 ends; some may be crowded.
fn wild(random: &mut Random, lines: usize, ends: usize) -> Vec<Ends> {
    (0..lines).map(|_| (random.below(ends) as u16, random.below(ends) as u16)).collect()
}

fn encode(random: &mut Random, lines: &[Ends]) -> Vec<u8> {
    let mut bytes = Vec::new();
    for (l, r) in lines {
        bytes.extend(l.to_le_bytes());
        bytes.extend(r.to_le_bytes());
        bytes.push(random.next() as u8);
    }
    bytes
}

// Whether the ends are as they were, and the colours are below c and differ at each end.
fn proper(before: &[u8], after: &[u8], c: u8) -> bool {
    let mut seen = vec![[false; 256]; 1024];
    before.len() == after.len()
        && before.chunks_exact(5).zip(after.chunks_exact(5)).all(|(b, a)| {
            let left = u16::from_le_bytes([a[0], a[1]]) as usize;
            let right = u16::from_le_bytes([a[2], a[3]]) as usize + 512;
            let colour = a[4] as usize;
            let fresh = !seen[left][colour] && !seen[right][colour];
            seen[left][colour] = true;
            seen[right][colour] = true;
            b[..4] == a[..4] && a[4] < c && fresh
        })
}

// Runs both on the same bytes, and holds each answer to the other and to what it says.
fn compare(job: Job, bytes: &[u8], c: u8) -> u8 {
    let mut answers = [0; 2];
    for (answer, arrange) in answers.iter_mut().zip([job.proved, job.independent]) {
        let mut after = bytes.to_vec();
        *answer = arrange(&mut after, c, 1);
        match *answer {
            0 => assert!(proper(bytes, &after, c), "{}: not a proper colouring", job.name),
            _ => assert!(bytes == after, "{}: refused, and changed", job.name),
        }
    }
    assert!(answers[0] == answers[1], "{}: {} and {}", job.name, answers[0], answers[1]);
    answers[0]
}

// Compares the two on many small inputs, and on inputs that each refusal is due for.
fn compare_all(random: &mut Random) {
    let mut counts = [0; 256];
    for job in [CHAIN, EULER] {
        for _ in 0..3000 {
            let lines = random.below(200);
            let ends = 1 + random.below(60);
            let input = wild(random, lines, ends);
            let c = if random.below(4) == 0 { random.below(70) as u8 } else { 1 << random.below(7) };
            let bytes = encode(random, &input);
            counts[compare(job, &bytes, c) as usize] += 1;
        }
        for c in [1, 2, 4, 8, 16, 32, 64] {
            let input = full(random, 1024, c.max(2));
            let c = c as u8;
            counts[compare(job, &encode(random, &input), c) as usize] += 1;
            let mut damaged = input.clone();
            damaged[random.below(1024)].0 = 512;
            counts[compare(job, &encode(random, &damaged), c) as usize] += 1;
            damaged = input.clone();
            damaged.push(input[0]);
            counts[compare(job, &encode(random, &damaged), c) as usize] += 1;
            damaged = input.clone();
            damaged[random.below(1024)].1 = input[random.below(1024)].1;
            counts[compare(job, &encode(random, &damaged), c) as usize] += 1;
        }
        let mut bytes = encode(random, &[(1, 2), (2, 1)]);
        bytes.pop();
        counts[compare(job, &bytes, 1) as usize] += 1;
    }
    let told: Vec<String> =
        counts.iter().enumerate().filter(|(_, n)| **n > 0).map(|(answer, n)| format!("{answer}: {n}")).collect();
    println!("answers that agree: {}", told.join(", "));
}

// Microseconds of one arrangement.
fn time(arrange: Arrange, bytes: &[u8], c: u8, times: u32) -> f64 {
    let mut bytes = bytes.to_vec();
    let start = Instant::now();
    let answer = arrange(&mut bytes, c, times);
    let taken = start.elapsed();
    assert!(answer == 0);
    taken.as_secs_f64() * 1e6 / f64::from(times)
}

fn median(mut values: Vec<f64>) -> f64 {
    values.sort_by(f64::total_cmp);
    values[values.len() / 2]
}

fn row(job: Job, kind: &str, make: fn(&mut Random, usize, usize) -> Vec<Ends>, lines: usize, c: u8) {
    let mut random = Random(0x9E37_79B9_7F4A_7C15 ^ (lines as u64) << 20 ^ u64::from(c));
    let (mut proved, mut independent, mut ratios) = (Vec::new(), Vec::new(), Vec::new());
    let mut count = 0;
    for _ in 0..INPUTS {
        let input = make(&mut random, lines, usize::from(c));
        let bytes = encode(&mut random, &input);
        count = input.len();
        assert!(compare(job, &bytes, c) == 0);
        let rough = time(job.proved, &bytes, c, 20).max(time(job.independent, &bytes, c, 20));
        let times = (ROUND_MICROS / rough).max(20.0) as u32;
        let (mut best_proved, mut best_independent) = (f64::MAX, f64::MAX);
        for _ in 0..ROUNDS {
            best_proved = best_proved.min(time(job.proved, &bytes, c, times));
            best_independent = best_independent.min(time(job.independent, &bytes, c, times));
        }
        proved.push(best_proved);
        independent.push(best_independent);
        ratios.push(best_proved / best_independent);
    }
    println!(
        "{:<6} {:<7} {:>5} {:>8} {:>10.1} {:>15.1} {:>7.2}",
        job.name,
        kind,
        count,
        c,
        median(proved),
        median(independent),
        median(ratios)
    );
}

// With the name of a job as its argument, only that job's rows.
fn main() {
    let only = std::env::args().nth(1);
    compare_all(&mut Random(20_260_415));
    println!("{:<6} {:<7} {:>5} {:>8} {:>10} {:>15} {:>7}", "job", "input", "lines", "colours", "proved us", "independent us", "ratio");
    let jobs = [(EULER, 512, 16), (CHAIN, 1024, 64)]
        .into_iter()
        .chain([2, 4, 8, 16, 32, 64].map(|c| (EULER, 1024, c)))
        .chain([2, 16].map(|c| (CHAIN, 1024, c)));
    for (job, lines, c) in jobs.filter(|(job, ..)| only.as_deref().is_none_or(|name| name == job.name)) {
        row(job, "full", full, lines, c);
        row(job, "sparse", sparse, lines, c);
    }
}

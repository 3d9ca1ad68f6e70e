// Measures the proved book against an ordinary one, in the same way as the arrangers: time per turn, and the ratio of the two.
//
// A call hands over the transfers as bytes, makes a book with its two arrangers, decodes the transfers and has so many turns,
// which are what is timed. A turn books all of them one by one, issues the timetable, and takes them out again one by one, the
// last ticket first; the last turn takes none out, and its seats are put into the bytes.
//
// It is a program of its own, with its own copy of the random numbers: what is linked beside an arranger moves the code of the
// arranger, and a move alone has changed its time by a fifth.

#[allow(dead_code)]
mod independent;
mod independent_book;

use std::time::Instant;

extern "C" {
    #[link_name = "chain_euler_book"]
    fn proved_chain_euler(bytes: *mut u8, len: usize, m: u8, n: u8, rounds: u8, times: u8) -> u8;
    #[link_name = "euler_chain_book"]
    fn proved_euler_chain(bytes: *mut u8, len: usize, m: u8, n: u8, rounds: u8, times: u8) -> u8;
}

// The lines, the nodes on a line and the number of rounds.
type Sizes = [u8; 3];
type Fill = fn(&mut [u8], Sizes, u8) -> u8;

fn chain_euler_book(bytes: &mut [u8], [m, n, rounds]: Sizes, times: u8) -> u8 {
    unsafe { proved_chain_euler(bytes.as_mut_ptr(), bytes.len(), m, n, rounds, times) }
}

fn euler_chain_book(bytes: &mut [u8], [m, n, rounds]: Sizes, times: u8) -> u8 {
    unsafe { proved_euler_chain(bytes.as_mut_ptr(), bytes.len(), m, n, rounds, times) }
}

// Which arranger gives rounds, and which gives spines.
#[derive(Clone, Copy)]
struct Job {
    rounds_by: &'static str,
    spines_by: &'static str,
    proved: Fill,
    independent: Fill,
}

const JOBS: [Job; 2] = [
    Job {
        rounds_by: "chain",
        spines_by: "euler",
        proved: chain_euler_book,
        independent: independent_book::chain_euler_book,
    },
    Job {
        rounds_by: "euler",
        spines_by: "chain",
        proved: euler_chain_book,
        independent: independent_book::euler_chain_book,
    },
];

const INPUTS: usize = 7;
const ROUNDS: usize = 15;
// so few that the tickets last for 1,024 transfers
const TURNS: u8 = 50;

// A xorshift generator.
struct Random(u64);

impl Random {
    fn next(&mut self) -> u64 {
        self.0 ^= self.0 << 13;
        self.0 ^= self.0 >> 7;
        self.0 ^= self.0 << 17;
        self.0
    }

    fn below(&mut self, n: usize) -> usize {
        ((self.next() >> 32) as usize * n) >> 32
    }

    fn shuffle<T>(&mut self, items: &mut [T]) {
        for i in (1..items.len()).rev() {
            items.swap(i, self.below(i + 1));
        }
    }

    // `n` of the 512 nodes
    fn nodes(&mut self, n: usize) -> Vec<u16> {
        let mut nodes: Vec<u16> = (0..512).collect();
        self.shuffle(&mut nodes);
        nodes.truncate(n);
        nodes
    }
}

// Sender and receiver.
type Ends = (u16, u16);

// Every node that sends sends c, and every node that receives receives c: c random permutations.
fn full(random: &mut Random, count: usize, c: usize) -> Vec<Ends> {
    let n = count / c;
    let senders = random.nodes(n);
    let mut out = Vec::new();
    let mut receivers = random.nodes(n);
    for _ in 0..c {
        random.shuffle(&mut receivers);
        out.extend(senders.iter().copied().zip(receivers.iter().copied()));
    }
    random.shuffle(&mut out);
    out
}

fn encode(random: &mut Random, transfers: &[Ends]) -> Vec<u8> {
    let mut bytes = Vec::new();
    for (sender, receiver) in transfers {
        bytes.extend(sender.to_le_bytes());
        bytes.extend(receiver.to_le_bytes());
        bytes.extend([random.next() as u8, random.next() as u8]);
    }
    bytes
}

// Whether the nodes are as they were, each round and spine is there, and no two transfers of a round meet: their senders
// and receivers differ, and where they go by one spine, their send lines and receive lines do.
fn clash_free(before: &[u8], after: &[u8], [m, n, rounds]: Sizes) -> bool {
    let (nodes, n) = (usize::from(m) * usize::from(n), usize::from(n));
    let mut nodes_seen = vec![[false; 2]; nodes * 64];
    let mut lines_seen = vec![[false; 2]; usize::from(m) * 64 * n];
    before.len() == after.len()
        && before.chunks_exact(6).zip(after.chunks_exact(6)).all(|(b, a)| {
            let ends = [u16::from_le_bytes([a[0], a[1]]), u16::from_le_bytes([a[2], a[3]])].map(usize::from);
            let (round, spine) = (usize::from(a[4]), usize::from(a[5]));
            b[..4] == a[..4]
                && a[4] < rounds
                && spine < n
                && (0..2).all(|side| {
                    let node = &mut nodes_seen[round * nodes + ends[side]][side];
                    let line = &mut lines_seen[(round * n + spine) * usize::from(m) + ends[side] / n][side];
                    !std::mem::replace(node, true) && !std::mem::replace(line, true)
                })
        })
}

// Runs both on the same bytes, and holds each answer to the other and to what it says.
fn compare(job: Job, bytes: &[u8], sizes: Sizes, times: u8) -> u8 {
    let mut answers = [0; 2];
    for (answer, fill) in answers.iter_mut().zip([job.proved, job.independent]) {
        let mut after = bytes.to_vec();
        *answer = fill(&mut after, sizes, times);
        match *answer {
            0 if times > 0 => assert!(clash_free(bytes, &after, sizes), "{} {}: they meet", job.rounds_by, job.spines_by),
            _ => assert!(bytes == after, "{} {}: changed", job.rounds_by, job.spines_by),
        }
    }
    assert!(answers[0] == answers[1], "{} {}: {} and {}", job.rounds_by, job.spines_by, answers[0], answers[1]);
    answers[0]
}

// Sizes that most often are those of a cabinet.
fn some_sizes(random: &mut Random) -> Sizes {
    let m = if random.below(12) == 0 { random.below(40) as u8 } else { 1 + random.below(8) as u8 };
    let n = if random.below(12) == 0 { random.below(20) as u8 } else { 1 << random.below(5) };
    let rounds = match random.below(6) {
        0 => random.below(70) as u8,
        1 => 1 + random.below(5) as u8,
        _ => 1 << random.below(7),
    };
    [m, n, rounds]
}

// Random transfers between the nodes of a cabinet, now and then one that has an end beyond them.
fn some_transfers(random: &mut Random, [m, n, _rounds]: Sizes) -> Vec<Ends> {
    let nodes = (usize::from(m) * usize::from(n)).max(1);
    let mut transfers: Vec<Ends> =
        (0..random.below(200)).map(|_| (random.below(nodes) as u16, random.below(nodes) as u16)).collect();
    if !transfers.is_empty() && random.below(6) == 0 {
        let place = random.below(transfers.len());
        let end = (nodes + random.below(3)) as u16;
        if random.below(2) == 0 {
            transfers[place].0 = end;
        } else {
            transfers[place].1 = end;
        }
    }
    transfers
}

// Compares the two on many small inputs, and on some that the rarer refusals are due for.
fn compare_all(random: &mut Random) {
    let mut counts = [0; 256];
    for job in JOBS {
        for _ in 0..6000 {
            let sizes = some_sizes(random);
            let transfers = some_transfers(random, sizes);
            let bytes = encode(random, &transfers);
            counts[usize::from(compare(job, &bytes, sizes, random.below(4) as u8))] += 1;
        }
        let transfers = full(random, 1024, 32);
        let mut bytes = encode(random, &transfers);
        // the tickets last for 63 turns
        counts[usize::from(compare(job, &bytes, [32, 16, 64], 63))] += 1;
        counts[usize::from(compare(job, &bytes, [32, 16, 64], 64))] += 1;
        bytes.extend([0; 6]);
        counts[usize::from(compare(job, &bytes, [32, 16, 64], 1))] += 1;
        bytes.pop();
        counts[usize::from(compare(job, &bytes, [32, 16, 64], 1))] += 1;
    }
    let told: Vec<String> =
        counts.iter().enumerate().filter(|(_, n)| **n > 0).map(|(answer, n)| format!("{answer}: {n}")).collect();
    println!("answers that agree: {}", told.join(", "));
}

fn median(mut values: Vec<f64>) -> f64 {
    values.sort_by(f64::total_cmp);
    values[values.len() / 2]
}

// Microseconds of one turn.
fn time(fill: Fill, bytes: &[u8], sizes: Sizes) -> f64 {
    let mut bytes = bytes.to_vec();
    let start = Instant::now();
    let answer = fill(&mut bytes, sizes, TURNS);
    let taken = start.elapsed();
    assert!(answer == 0);
    taken.as_secs_f64() * 1e6 / f64::from(TURNS)
}

// A full book: each of 1,024 / rounds nodes sends as many transfers as there are rounds, and as many nodes receive as many.
fn row(job: Job, rounds: u8) {
    let mut random = Random(0x9E37_79B9_7F4A_7C15 ^ u64::from(rounds));
    let sizes = [32, 16, rounds];
    let (mut proved, mut independent, mut ratios) = (Vec::new(), Vec::new(), Vec::new());
    for _ in 0..INPUTS {
        let transfers = full(&mut random, 1024, usize::from(rounds));
        let bytes = encode(&mut random, &transfers);
        assert!(compare(job, &bytes, sizes, TURNS) == 0);
        let (mut best_proved, mut best_independent) = (f64::MAX, f64::MAX);
        for _ in 0..ROUNDS {
            best_proved = best_proved.min(time(job.proved, &bytes, sizes));
            best_independent = best_independent.min(time(job.independent, &bytes, sizes));
        }
        proved.push(best_proved);
        independent.push(best_independent);
        ratios.push(best_proved / best_independent);
    }
    println!(
        "{:<6} {:<9} {:<9} {:>9} {:>6} {:>10.1} {:>15.1} {:>7.2}",
        "book",
        job.rounds_by,
        job.spines_by,
        1024,
        rounds,
        median(proved),
        median(independent),
        median(ratios)
    );
}

fn main() {
    compare_all(&mut Random(20_260_416));
    println!(
        "{:<6} {:<9} {:<9} {:>9} {:>6} {:>10} {:>15} {:>7}",
        "job", "rounds by", "spines by", "transfers", "rounds", "proved us", "independent us", "ratio"
    );
    for job in JOBS {
        for rounds in [64, 2] {
            row(job, rounds);
        }
    }
}

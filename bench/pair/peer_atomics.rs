// Partitioned communication between threads of one process by bare atomics: nothing is checked of how it is called.
//
//   peer_atomics flags|ahead|steps|packed --send-parts P --recv-parts Q --bytes B --grain G --depth D --rounds N
//     --markers M --watchers W [--pause U]
//
// A send partition has B bytes. Each of the M marking threads, the sending one among them, fills and marks a run of
// neighbouring partitions; with a pause it marks half of them, sleeps U microseconds and marks the rest. A mark copies
// the partition into a buffer that both sides share, one for each round in flight. The receiving thread asks for the
// partitions in order, and checks every byte where it lies. Each of the W watching threads asks for a run of
// neighbouring partitions besides. The status is 1 where a byte or the number of pieces is wrong, and 2 where the
// words are.
//
// `flags` is the least that works: a mark stores the round in the partition's flag, and the release is one word. The
// grain is not used. A round is started by one thread, once all marks of the round before are made. `ahead` is `flags`
// without that: a marking thread goes on to later rounds, as many as may be in flight, while others are still behind,
// so there is no request that is started and completed. `steps` makes the atomic steps that calls with refusals need,
// each sequentially consistent: words of a round and bits for claims, pieces, takes and returns. Each kind of word has
// cache lines of its own. `packed` is `steps` with all words side by side.
use std::ops::Range;
use std::sync::atomic::{AtomicU64, Ordering::*};
use std::sync::Barrier;
use std::time::{Duration, Instant};
use std::{array, env, hint, process, slice, thread};

const NAMES: [&str; 9] =
    ["--send-parts", "--recv-parts", "--bytes", "--grain", "--depth", "--rounds", "--markers", "--watchers", "--pause"];
const SAMPLES: u64 = 1000;
const SPAN: u64 = 64;
// How many looks in vain pass with a pause; after each further one the thread lets another one run.
const TRIES: u32 = 8;

struct Plan {
    send_parts: usize,
    recv_parts: usize,
    send_bytes: usize,
    recv_bytes: usize,
    grain: usize,
    depth: u64,
    rounds: u64,
    markers: usize,
    watchers: usize,
    pause: Duration,
}

impl Plan {
    fn read(words: &[String]) -> Option<Plan> {
        let mut values = [1, 1, 8, 1, 1, 1, 1, 0, 0];
        for pair in words.chunks(2) {
            values[NAMES.iter().position(|name| *name == pair[0])?] = pair.get(1)?.parse::<usize>().ok()?;
        }
        let [send_parts, recv_parts, send_bytes, grain, depth, rounds, markers, watchers, pause] = values;
        let right = values[..7].iter().all(|value| *value > 0) && depth <= 4;
        if !right || send_parts * send_bytes % recv_parts != 0 {
            return None;
        }
        let (recv_bytes, pause) = (send_parts * send_bytes / recv_parts, Duration::from_micros(pause as u64));
        let (depth, rounds) = (depth as u64, rounds as u64);
        Some(Plan { send_parts, recv_parts, send_bytes, recv_bytes, grain, depth, rounds, markers, watchers, pause })
    }

    fn total(&self) -> usize {
        self.send_parts * self.send_bytes
    }

    // The send partitions over a receive partition.
    fn parts_over(&self, part: usize) -> Range<usize> {
        part * self.recv_bytes / self.send_bytes..((part + 1) * self.recv_bytes - 1) / self.send_bytes + 1
    }

    // As many as the depth, or a power of two above it.
    fn places(&self) -> usize {
        (self.depth as usize).next_power_of_two()
    }
}

// The part of `count` things that thread `number` of `threads` has.
fn run_of(number: usize, threads: usize, count: usize) -> Range<usize> {
    number * count / threads..(number + 1) * count / threads
}

// The word at a place of 8 bytes in a round. Each of its bytes differs from that of the 4 rounds before.
fn word_of(round: u64, word: usize) -> u64 {
    round.wrapping_mul(0x9E37_79B9_7F4A_7C15).wrapping_add((word as u64).wrapping_mul(0xD1B5_4A32_D192_ED03))
}

fn byte_of(round: u64, place: usize) -> u8 {
    word_of(round, place / 8).to_le_bytes()[place % 8]
}

// How many of the bytes from a place on lie before the next whole word.
fn head_of(place: usize, count: usize) -> usize {
    (place.wrapping_neg() % 8).min(count)
}

// Not inlined, so that all programs run the same code.
#[inline(never)]
fn fill(bytes: &mut [u8], place: usize, round: u64) {
    let (head, rest) = bytes.split_at_mut(head_of(place, bytes.len()));
    head.iter_mut().enumerate().for_each(|(at, byte)| *byte = byte_of(round, place + at));
    let body = place + head.len();
    let mut chunks = rest.chunks_exact_mut(8);
    let mut word = word_of(round, body / 8);
    let tail = body + chunks.len() * 8;
    for chunk in &mut chunks {
        chunk.copy_from_slice(&word.to_le_bytes());
        word = word.wrapping_add(word_of(0, 1));
    }
    chunks.into_remainder().iter_mut().enumerate().for_each(|(at, byte)| *byte = byte_of(round, tail + at));
}

// Whether the bytes are those that `fill` makes.
#[inline(never)]
fn check(bytes: &[u8], place: usize, round: u64) -> bool {
    let (head, rest) = bytes.split_at(head_of(place, bytes.len()));
    let body = place + head.len();
    let chunks = rest.chunks_exact(8);
    let mut word = word_of(round, body / 8);
    let tail = body + chunks.len() * 8;
    let mut right = head.iter().enumerate().all(|(at, byte)| *byte == byte_of(round, place + at));
    right &= chunks.remainder().iter().enumerate().all(|(at, byte)| *byte == byte_of(round, tail + at));
    let mut wrong = 0;
    for chunk in chunks {
        wrong |= u64::from_le_bytes(chunk.try_into().unwrap()) ^ word;
        word = word.wrapping_add(word_of(0, 1));
    }
    right && wrong == 0
}

fn wait_until(ready: impl Fn() -> bool) {
    let mut tries = 0;
    while !ready() {
        if tries < TRIES {
            tries += 1;
            hint::spin_loop();
        } else {
            thread::yield_now();
        }
    }
}

// Two cache lines, which a processor fetches together.
#[repr(align(128))]
struct Lines<T>(T);

// The bytes that both sides share: a buffer for each place.
struct Shared {
    start: *mut u8,
    stride: usize,
}

unsafe impl Sync for Shared {}

impl Shared {
    fn new(plan: &Plan) -> Shared {
        let lines = plan.total().div_ceil(128);
        let buffers: Vec<Lines<[u8; 128]>> = (0..lines * plan.places()).map(|_| Lines([0; 128])).collect();
        Shared { start: buffers.leak().as_mut_ptr().cast(), stride: lines * 128 }
    }

    // No other thread may read or write there now.
    unsafe fn put(&self, place: usize, at: usize, bytes: &[u8]) {
        unsafe { bytes.as_ptr().copy_to_nonoverlapping(self.start.add(place * self.stride + at), bytes.len()) }
    }

    // No thread may write there while the slice is in use.
    unsafe fn get(&self, place: usize, at: usize, count: usize) -> &[u8] {
        unsafe { slice::from_raw_parts(self.start.add(place * self.stride + at), count) }
    }
}

// Words in groups. Each group has cache lines of its own, or all stand side by side.
struct Table {
    lines: Vec<Lines<[AtomicU64; 16]>>,
    words: usize,
    packed: bool,
}

impl Table {
    fn new(packed: bool) -> Table {
        Table { lines: Vec::new(), words: 0, packed }
    }

    // Adds a group, and gives the number of its first word.
    fn group(&mut self, count: usize) -> usize {
        let first = if self.packed { self.words } else { self.words.next_multiple_of(16) };
        self.words = first + count;
        self.lines.resize_with(self.words.div_ceil(16), || Lines(array::from_fn(|_| AtomicU64::new(0))));
        first
    }

    fn word(&self, number: usize) -> &AtomicU64 {
        &self.lines[number / 16].0[number % 16]
    }
}

// Where marking threads wait for each other, so that they don't look at the words that the others change all the time:
// the last round that was started, and for each marking thread but the starting one the last round that it has marked.
struct Meeting(Vec<Lines<AtomicU64>>);

impl Meeting {
    fn new(plan: &Plan) -> Meeting {
        Meeting((0..plan.markers).map(|_| Lines(AtomicU64::new(0))).collect())
    }

    fn tell(&self, number: usize, round: u64) {
        self.0[number].0.store(round, SeqCst);
    }

    fn wait(&self, number: usize, round: u64) {
        wait_until(|| self.0[number].0.load(SeqCst) >= round);
    }
}

// The calls of both sides. Each comes from a thread that may make it, and at its time.
trait Pair: Sync {
    // Whether the marking threads meet: a round is opened by one thread, and all marks of it come before the test.
    const MEETS: bool;
    fn pieces(&self) -> usize;
    fn start(&self, round: u64);
    fn is_open(&self, round: u64) -> bool;
    // How many pieces went out by the mark.
    fn mark(&self, round: u64, part: usize, bytes: &[u8]) -> usize;
    fn is_sent(&self, round: u64) -> bool;
    fn start_receive(&self, round: u64);
    fn arrived(&self, round: u64, part: usize) -> bool;
    fn take(&self, round: u64, part: usize) -> &[u8];
    fn give_back(&self, part: usize);
    fn release(&self, round: u64);
}

struct Flags<'a, const MEETS: bool> {
    plan: &'a Plan,
    shared: Shared,
    table: Table,
    release: usize,
    flags: Vec<usize>,
    parts_over: Vec<Range<usize>>,
}

impl<const MEETS: bool> Flags<'_, MEETS> {
    fn new(plan: &Plan) -> Flags<'_, MEETS> {
        let mut table = Table::new(false);
        let release = table.group(1);
        let flags = (0..plan.places()).map(|_| table.group(plan.send_parts)).collect();
        let parts_over = (0..plan.recv_parts).map(|part| plan.parts_over(part)).collect();
        Flags { plan, shared: Shared::new(plan), table, release, flags, parts_over }
    }

    fn place(&self, round: u64) -> usize {
        round as usize & (self.flags.len() - 1)
    }

    fn flag(&self, round: u64, part: usize) -> &AtomicU64 {
        self.table.word(self.flags[self.place(round)] + part)
    }
}

impl<const MEETS: bool> Pair for Flags<'_, MEETS> {
    const MEETS: bool = MEETS;

    fn pieces(&self) -> usize {
        self.plan.send_parts
    }

    fn start(&self, _: u64) {}

    fn is_open(&self, round: u64) -> bool {
        round <= self.table.word(self.release).load(Acquire) + self.plan.depth
    }

    fn mark(&self, round: u64, part: usize, bytes: &[u8]) -> usize {
        unsafe { self.shared.put(self.place(round), part * self.plan.send_bytes, bytes) }
        self.flag(round, part).store(round, Release);
        1
    }

    fn is_sent(&self, round: u64) -> bool {
        self.is_open(round + 1)
    }

    fn start_receive(&self, _: u64) {}

    fn arrived(&self, round: u64, part: usize) -> bool {
        self.parts_over[part].clone().all(|part| self.flag(round, part).load(Acquire) >= round)
    }

    fn take(&self, round: u64, part: usize) -> &[u8] {
        let count = self.plan.recv_bytes;
        unsafe { self.shared.get(self.place(round), part * count, count) }
    }

    fn give_back(&self, _: usize) {}

    fn release(&self, round: u64) {
        self.table.word(self.release).store(round, Release);
    }
}

// A word of a round, a bit that says that the round is shut, and a bit for each of 32 things.
fn pack(round: u64, shut: bool, bits: u64) -> u64 {
    round << 33 | (shut as u64) << 32 | bits
}

fn low_bits(count: usize) -> u64 {
    (1 << count) - 1
}

// A run of bytes that goes out once all its send partitions are marked.
struct Piece {
    bytes: Range<usize>,
    first_part: usize,
    need: u64,
}

// The pieces of a round. Each ends at a bound of a partition: where it has `grain` bytes or 32 send partitions.
fn pieces_of(plan: &Plan) -> Vec<Piece> {
    let (send, recv, mut pieces, mut start, mut end) = (plan.send_bytes, plan.recv_bytes, Vec::new(), 0, 0);
    while end < plan.total() {
        end = ((end / send + 1) * send).min((end / recv + 1) * recv);
        let parts = (end - 1) / send + 1 - start / send;
        if end - start >= plan.grain || parts == 32 || end == plan.total() {
            pieces.push(Piece { bytes: start..end, first_part: start / send, need: low_bits(parts) });
            start = end;
        }
    }
    pieces
}

// The pieces over each of so many partitions of so many bytes.
fn pieces_over(pieces: &[Piece], count: usize, bytes: usize) -> Vec<Range<usize>> {
    let first = |part: usize| pieces.partition_point(|piece| piece.bytes.end <= part * bytes);
    let past = |part: usize| pieces.partition_point(|piece| piece.bytes.start < (part + 1) * bytes);
    (0..count).map(|part| first(part)..past(part)).collect()
}

struct Steps<'a> {
    plan: &'a Plan,
    shared: Shared,
    table: Table,
    claims: Range<usize>,
    release: usize,
    takes: Range<usize>,
    returns: Range<usize>,
    marks: Vec<usize>,
    pieces: Vec<Piece>,
    over_send: Vec<Range<usize>>,
    over_recv: Vec<Range<usize>>,
}

impl Steps<'_> {
    fn new(plan: &Plan, packed: bool) -> Steps<'_> {
        let pieces = pieces_of(plan);
        let mut table = Table::new(packed);
        let mut group = |count: usize| {
            let first = table.group(count);
            first..first + count
        };
        let claims = group(plan.send_parts.div_ceil(32));
        let release = group(1).start;
        let (takes, returns) = (group(plan.recv_parts.div_ceil(32)), group(plan.recv_parts.div_ceil(32)));
        let marks = (0..plan.places()).map(|_| group(pieces.len()).start).collect();
        let over_send = pieces_over(&pieces, plan.send_parts, plan.send_bytes);
        let over_recv = pieces_over(&pieces, plan.recv_parts, plan.recv_bytes);
        let shared = Shared::new(plan);
        Steps { plan, shared, table, claims, release, takes, returns, marks, pieces, over_send, over_recv }
    }

    fn place(&self, round: u64) -> usize {
        round as usize & (self.marks.len() - 1)
    }

    fn piece(&self, round: u64, piece: usize) -> &AtomicU64 {
        self.table.word(self.marks[self.place(round)] + piece)
    }

    fn full(&self, round: u64, piece: usize) -> u64 {
        pack(round, false, self.pieces[piece].need)
    }

    // The claim word of a round that is open, with all its bits.
    fn all_claimed(&self, round: u64, claim: usize) -> u64 {
        pack(round, false, low_bits((self.plan.send_parts - 32 * (claim - self.claims.start)).min(32)))
    }
}

impl Pair for Steps<'_> {
    const MEETS: bool = true;

    fn pieces(&self) -> usize {
        self.pieces.len()
    }

    fn start(&self, round: u64) {
        (0..self.pieces.len()).for_each(|piece| self.piece(round, piece).store(pack(round, false, 0), SeqCst));
        self.claims.clone().for_each(|claim| self.table.word(claim).store(pack(round, false, 0), SeqCst));
    }

    fn is_open(&self, round: u64) -> bool {
        self.table.word(self.claims.end - 1).load(SeqCst) >> 32 == round << 1
    }

    fn mark(&self, round: u64, part: usize, bytes: &[u8]) -> usize {
        let (claim, bit) = (self.table.word(self.claims.start + part / 32), 1 << (part % 32));
        let mut shown = claim.load(SeqCst);
        while shown >> 32 == round << 1 && shown & bit == 0 {
            let Err(found) = claim.compare_exchange(shown, shown | bit, SeqCst, SeqCst) else {
                unsafe { self.shared.put(self.place(round), part * self.plan.send_bytes, bytes) }
                let fills = |piece: &usize| {
                    let bit = 1 << (part - self.pieces[*piece].first_part);
                    self.piece(round, *piece).fetch_or(bit, SeqCst) | bit == self.full(round, *piece)
                };
                return self.over_send[part].clone().filter(fills).count();
            };
            shown = found;
        }
        0
    }

    fn is_sent(&self, round: u64) -> bool {
        let marked = |claim| self.table.word(claim).load(SeqCst) == self.all_claimed(round, claim);
        let out = |piece| self.piece(round, piece).load(SeqCst) == self.full(round, piece);
        let released = || self.table.word(self.release).load(SeqCst) >> 33;
        let sent = self.claims.clone().all(marked)
            && (0..self.pieces.len()).all(out)
            && round < released() + self.plan.depth;
        if sent {
            for claim in self.claims.clone() {
                self.table.word(claim).fetch_or(pack(0, true, 0), SeqCst);
            }
        }
        sent
    }

    fn start_receive(&self, round: u64) {
        let words = self.returns.clone().chain(self.takes.clone());
        words.for_each(|word| self.table.word(word).store(pack(round, false, 0), SeqCst));
    }

    fn arrived(&self, round: u64, part: usize) -> bool {
        self.over_recv[part].clone().all(|piece| {
            let shown = self.piece(round, piece).load(SeqCst);
            shown == self.full(round, piece) || shown >> 33 > round
        })
    }

    fn take(&self, round: u64, part: usize) -> &[u8] {
        self.table.word(self.takes.start + part / 32).fetch_or(1 << (part % 32), SeqCst);
        let count = self.plan.recv_bytes;
        unsafe { self.shared.get(self.place(round), part * count, count) }
    }

    fn give_back(&self, part: usize) {
        self.table.word(self.returns.start + part / 32).fetch_or(1 << (part % 32), SeqCst);
    }

    fn release(&self, round: u64) {
        self.table.word(self.release).store(pack(round, false, 0), SeqCst);
    }
}

// The times of some rounds: when the last mark over the first receive partition began, and when it was taken.
struct Times {
    base: Instant,
    shift: u32,
    marked: Vec<AtomicU64>,
    taken: Vec<AtomicU64>,
}

impl Times {
    fn new(rounds: u64) -> Times {
        let every = if rounds < 4 * SPAN { 1 } else { (rounds / SAMPLES).max(SPAN) };
        let shift = every.next_power_of_two().trailing_zeros();
        let room = || (0..=rounds >> shift).map(|_| AtomicU64::new(0)).collect();
        Times { base: Instant::now(), shift, marked: room(), taken: room() }
    }

    fn stamp(&self, stamps: &[AtomicU64], round: u64) {
        if round & ((1 << self.shift) - 1) == 0 {
            stamps[(round >> self.shift) as usize].store(self.base.elapsed().as_nanos() as u64, Relaxed);
        }
    }

    fn median(&self) -> i64 {
        let stamps = self.taken.iter().zip(&self.marked).skip(1);
        let mut times: Vec<i64> = stamps.map(|(take, mark)| (take.load(Relaxed) - mark.load(Relaxed)) as i64).collect();
        times.sort();
        times[(times.len() - 1) / 2]
    }

    // The rounds a second of the quickest twentieth of the spans between two timed rounds. In spans of few rounds it
    // would tell how fast a receiver takes what has piled up.
    fn quick(&self) -> Option<f64> {
        if 1 << self.shift < SPAN {
            return None;
        }
        let spans = self.taken.windows(2).skip(1).map(|ends| ends[1].load(Relaxed) - ends[0].load(Relaxed));
        let mut spans: Vec<u64> = spans.collect();
        spans.sort();
        spans.get(spans.len() / 20).map(|span| (1e9 * (1 << self.shift) as f64) / *span as f64)
    }
}

// Opens a round, or waits until it is open.
fn open<P: Pair>(pair: &P, meeting: &Meeting, marker: usize, round: u64) {
    if marker == 0 {
        pair.start(round);
        meeting.tell(0, round);
        return;
    }
    if P::MEETS {
        meeting.wait(0, round);
    }
    wait_until(|| pair.is_open(round));
}

// After the marks of a round: tests until it is sent, or says that this thread's marks are made.
fn close<P: Pair>(pair: &P, plan: &Plan, meeting: &Meeting, marker: usize, round: u64) {
    if marker > 0 {
        meeting.tell(marker, round);
        return;
    }
    if P::MEETS {
        let others = (1..plan.markers).filter(|marker| !run_of(*marker, plan.markers, plan.send_parts).is_empty());
        others.for_each(|marker| meeting.wait(marker, round));
    }
    wait_until(|| pair.is_sent(round));
}

// The work of one marking thread. Gives how many pieces went out by its marks.
fn send<P: Pair>(pair: &P, plan: &Plan, times: &Times, meeting: &Meeting, marker: usize) -> u64 {
    let run = run_of(marker, plan.markers, plan.send_parts);
    if marker > 0 && run.is_empty() {
        return 0;
    }
    let half = (!plan.pause.is_zero()).then(|| run.start + run.len() / 2);
    let timed = plan.parts_over(0).end - 1;
    let (mut bytes, mut sent) = (vec![0; plan.send_bytes], 0);
    for round in 1..=plan.rounds {
        open(pair, meeting, marker, round);
        for part in run.clone() {
            if half == Some(part) {
                thread::sleep(plan.pause);
            }
            fill(&mut bytes, part * plan.send_bytes, round);
            if part == timed {
                times.stamp(&times.marked, round);
            }
            sent += pair.mark(round, part, &bytes) as u64;
        }
        close(pair, plan, meeting, marker, round);
    }
    sent
}

fn watch<P: Pair>(pair: &P, plan: &Plan, watcher: usize) {
    for round in 1..=plan.rounds {
        for part in run_of(watcher, plan.watchers, plan.recv_parts) {
            wait_until(|| pair.arrived(round, part));
        }
    }
}

fn receive<P: Pair>(pair: &P, plan: &Plan, times: &Times) {
    for round in 1..=plan.rounds {
        pair.start_receive(round);
        for part in 0..plan.recv_parts {
            wait_until(|| pair.arrived(round, part));
            let bytes = pair.take(round, part);
            if part == 0 {
                times.stamp(&times.taken, round);
            }
            if !check(bytes, part * plan.recv_bytes, round) {
                eprintln!("round {round}, partition {part}: a wrong byte");
                process::exit(1);
            }
            pair.give_back(part);
        }
        pair.release(round);
    }
}

fn run<P: Pair>(pair: &P, plan: &Plan) {
    let (times, meeting) = (&Times::new(plan.rounds), &Meeting::new(plan));
    let ready = &Barrier::new(1 + plan.markers + plan.watchers);
    let (time, sent) = thread::scope(|threads| {
        let marker = |marker| threads.spawn(move || (ready.wait(), send(pair, plan, times, meeting, marker)).1);
        let markers: Vec<_> = (0..plan.markers).map(marker).collect();
        for watcher in 0..plan.watchers {
            threads.spawn(move || (ready.wait(), watch(pair, plan, watcher)));
        }
        ready.wait();
        let start = Instant::now();
        receive(pair, plan, times);
        (start.elapsed(), markers.into_iter().map(|marker| marker.join().unwrap()).sum::<u64>())
    });
    if sent != plan.rounds * pair.pieces() as u64 {
        eprintln!("{sent} pieces went out");
        process::exit(1);
    }
    let rate = plan.rounds as f64 / time.as_secs_f64();
    println!("rounds {rate:.0} a second");
    println!("marks {:.0} a second", rate * plan.send_parts as f64);
    println!("bytes {:.0} a second", rate * plan.total() as f64);
    println!("first {} ns after its mark", times.median());
    if let Some(quick) = times.quick() {
        println!("quick {quick:.0} rounds a second in the quickest twentieth");
    }
}

fn main() {
    let words: Vec<String> = env::args().skip(1).collect();
    match (words.first().map(String::as_str), words.get(1..).and_then(Plan::read)) {
        (Some("flags"), Some(plan)) => run(&Flags::<true>::new(&plan), &plan),
        (Some("ahead"), Some(plan)) => run(&Flags::<false>::new(&plan), &plan),
        (Some("steps"), Some(plan)) => run(&Steps::new(&plan, false), &plan),
        (Some("packed"), Some(plan)) => run(&Steps::new(&plan, true), &plan),
        _ => process::exit(2),
    }
}

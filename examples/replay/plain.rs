//! A plain replay of journals: it reads a journal on standard input and writes its report on standard output, as
//! `kact replay` does. Nothing in it is proved. The verified program's speed is measured beside it, so it is written
//! for speed, with vectors and plain structs. All requests that ever were stay in memory. It ignores its arguments.
//!
//!     rustc -O -C target-cpu=x86-64 plain.rs
//!     rustfmt --config max_width=120,use_small_heuristics=Max plain.rs
//!
//! Refused, with a status and words of its own: what `kact` refuses; bundles of journals; of a scaled revision's
//! settings all but those that `Settings::scale` reads; and perhaps an event's line of more than 128 bytes, which has
//! many carriage returns. The form of a setup's JSON and the ranges of its numbers aren't judged.

use std::collections::VecDeque;
use std::error::Error;
use std::io::{self, Read, Write};

/// The greatest time, in milliseconds.
const LATEST: u64 = 1 << 42;
/// How many requests may be live.
const MOST_LIVE: u64 = 20_000;
/// How many pods may be wanted, and so how many may be Ready.
const MOST_PODS: u64 = 500;

/// A text of why a run ended early.
type Fault = Box<dyn Error>;
const NO_END: &str = "input ends without end";
const REFUSED: &str = "a line is refused";

// ---- input

/// Bytes that are read at once, and the longest line of a setup.
const CHUNK: usize = 1 << 16;
/// An event's line is read in place where so many bytes stand in the buffer, or all that come.
const LONGEST_EVENT: usize = 128;
/// Bytes behind the end of what was read, so that no look ahead leaves the buffer.
const PADDING: usize = 32;

struct Input {
    buffer: Vec<u8>,
    at: usize,
    end: usize,
    at_end: bool,
}

impl Input {
    /// Makes so many bytes stand in the buffer from the current place on, or all that come. Answers whether any do.
    fn fill(&mut self, wanted: usize) -> Result<bool, Fault> {
        if self.end - self.at < wanted && !self.at_end {
            self.refill(wanted)?;
        }
        Ok(self.at < self.end)
    }

    /// An LF is put behind the last byte, which ends a last line that has none.
    #[cold]
    fn refill(&mut self, wanted: usize) -> io::Result<()> {
        self.buffer.copy_within(self.at..self.end, 0);
        self.end -= self.at;
        self.at = 0;
        while self.end < wanted && !self.at_end {
            let count = io::stdin().lock().read(&mut self.buffer[self.end..self.end + CHUNK])?;
            self.end += count;
            self.at_end = count == 0;
        }
        self.buffer[self.end] = b'\n';
        Ok(())
    }

    /// A line of the setup, without its end.
    fn setup_line(&mut self) -> Result<String, Fault> {
        if !self.fill(CHUNK)? {
            return Err(NO_END.into());
        }
        let rest = &self.buffer[self.at..self.end];
        let length = rest.iter().position(|byte| *byte == b'\n').unwrap_or(rest.len());
        self.at = (self.at + length + 1).min(self.end);
        Ok(String::from_utf8_lossy(&rest[..length]).trim_end_matches('\r').to_string())
    }
}

/// A place in an event's line. Every look stays in the buffer: the place moves past no byte that wasn't seen, nor
/// past a line's end but at last, and the buffer has an LF and padding behind what was read.
struct Cursor<'a> {
    bytes: &'a [u8],
    at: usize,
}

impl Cursor<'_> {
    /// The next N bytes, N at most half of the padding; those behind the line's end mean nothing.
    fn ahead<const N: usize>(&self) -> [u8; N] {
        unsafe { *self.bytes.as_ptr().add(self.at).cast::<[u8; N]>() }
    }

    /// Steps over these bytes, where they come next.
    fn take<const N: usize>(&mut self, text: &[u8; N]) -> bool {
        let found = self.ahead::<N>() == *text;
        self.at += if found { N } else { 0 };
        found
    }

    /// A number without a leading zero.
    #[inline(always)]
    fn number(&mut self) -> Option<u64> {
        let (mut value, mut length) = leading_digits(self.ahead());
        if length == 0 || (self.ahead::<1>()[0] == b'0' && length > 1) {
            return None;
        }
        self.at += length;
        while length == 8 {
            let more;
            (more, length) = leading_digits(self.ahead());
            value = value.checked_mul(POWERS_OF_TEN[length])?.checked_add(more)?;
            self.at += length;
        }
        Some(value)
    }

    fn line_ends(&mut self) -> bool {
        while self.ahead::<1>()[0] == b'\r' {
            self.at += 1;
        }
        self.at += 1;
        self.bytes[self.at - 1] == b'\n'
    }
}

const POWERS_OF_TEN: [u64; 9] = [1, 10, 100, 1000, 10_000, 100_000, 1_000_000, 10_000_000, 100_000_000];

/// How many of the eight bytes are digits before the first that is none, and their value; all at once, as the
/// parts of one word.
fn leading_digits(bytes: [u8; 8]) -> (u64, usize) {
    // digits become 0 to 9, and every first other byte gets its highest bit set
    let digits = u64::from_le_bytes(bytes) ^ 0x3030_3030_3030_3030;
    let others = (digits.wrapping_add(0x7676_7676_7676_7676) | digits) & 0x8080_8080_8080_8080;
    let bits = others.trailing_zeros() & !7;
    // zeros go before the digits, so that there are eight; then two, four and eight are joined
    let eight = if bits == 0 { 0 } else { digits << (64 - bits) };
    let twos = eight.wrapping_mul(10).wrapping_add(eight >> 8);
    let upper = (twos & 0x0000_00ff_0000_00ff).wrapping_mul(1_000_000 << 32 | 100);
    let lower = (twos >> 16 & 0x0000_00ff_0000_00ff).wrapping_mul(10_000 << 32 | 1);
    (upper.wrapping_add(lower) >> 32, bits as usize / 8)
}

// ---- output

const REPORT_ROOM: usize = 1 << 16;
const LONGEST_ROW: usize = 1 << 10;

#[derive(Default)]
struct Report {
    buffer: Vec<u8>,
    used: usize,
    /// The time of the current event and a space, which each row begins with.
    time: [u8; 16],
    time_length: usize,
}

impl Report {
    fn flush(&mut self) {
        io::stdout().write_all(&self.buffer[..self.used]).expect("the report can't be written");
        self.used = 0;
    }

    fn row(&mut self) -> Row<'_> {
        if self.used > REPORT_ROOM - LONGEST_ROW {
            self.flush();
        }
        let (time, length) = (self.time, self.time_length);
        let at = unsafe { self.buffer.as_mut_ptr().add(self.used) };
        let mut row = Row { report: self, at };
        row.text(&time);
        row.at = unsafe { at.add(length) };
        row
    }
}

/// A row that is being written. There is room for `LONGEST_ROW` bytes, and no row has more.
struct Row<'a> {
    report: &'a mut Report,
    at: *mut u8,
}

/// The numbers from 0 to 99, two digits each.
static PAIRS: &[u8; 200] = b"\
    0001020304050607080910111213141516171819202122232425262728293031323334353637383940414243444546474849\
    5051525354555657585960616263646566676869707172737475767778798081828384858687888990919293949596979899";

impl Row<'_> {
    fn text<const N: usize>(&mut self, text: &[u8; N]) {
        unsafe {
            self.at.cast::<[u8; N]>().write_unaligned(*text);
            self.at = self.at.add(N);
        }
    }

    #[inline(always)]
    fn number(&mut self, mut value: u64) {
        // the digits end at 20; from the first one on, 20 bytes are copied
        let mut digits = [0; 40];
        let mut first = 20;
        while value >= 10 {
            let pair = 2 * (value % 100) as usize;
            first -= 2;
            digits[first..first + 2].copy_from_slice(&PAIRS[pair..pair + 2]);
            value /= 100;
        }
        if value > 0 || first == 20 {
            first -= 1;
            digits[first] = b'0' + value as u8;
        }
        let copied: [u8; 20] = unsafe { *digits.as_ptr().add(first).cast() };
        self.text(&copied);
        self.at = unsafe { self.at.sub(first) };
    }

    fn field<const N: usize>(&mut self, word: &[u8; N], value: u64) {
        self.text(word);
        self.number(value);
    }

    fn words(&mut self, text: &str) {
        unsafe { text.as_ptr().copy_to_nonoverlapping(self.at, text.len()) };
        self.at = unsafe { self.at.add(text.len()) };
    }

    fn flag<const N: usize>(&mut self, word: &[u8; N], value: bool) {
        self.text(word);
        self.words(if value { "yes" } else { "no" });
    }

    fn end(mut self) {
        self.text(b"\n");
        self.report.used = self.at as usize - self.report.buffer.as_ptr() as usize;
    }
}

// ---- setups

/// What is divided, and by what.
type Fraction = (u64, u64);

/// All that a revision is told at its start; milli values are thousandths.
#[derive(Default)]
struct Settings {
    version: u64,
    scaled: bool,
    /// The containerConcurrency, and each new pod's limit; 0 is none.
    concurrency: u64,
    depth: u64,
    most_in_use: u64,
    seed: u64,
    timeout_ms: u64,
    /// The pods of a fixed revision.
    pods: u64,
    // what follows is for scaled ones
    total_milli: u64,
    target: Fraction,
    /// None is an unlimited one.
    burst_milli: Option<u64>,
    min: u64,
    initial: u64,
}

// the defaults of settings that aren't read
const STABLE_S: u64 = 60;
const PANIC_S: u64 = 6;
const PANIC_THRESHOLD_MILLI: u64 = 200_000;
const UP_MILLI: u64 = 1_000_000;
const DOWN_MILLI: u64 = 2000;
const GRACE_MS: u64 = 30_000;

/// The value behind a quoted name in a JSON text.
fn value_behind<'a>(text: &'a str, name: &str) -> Option<&'a str> {
    let quoted = format!("\"{name}\"");
    let behind = text[text.find(&quoted)? + quoted.len()..].trim_start().strip_prefix(':')?.trim_start();
    let value = behind.strip_prefix('"').unwrap_or(behind);
    Some(&value[..value.find(|c: char| "\",}".contains(c) || c.is_whitespace())?])
}

impl Settings {
    /// A fixed revision, or the numbers that a scaled one has in common with it.
    fn from_fields(version: u64, line: &str) -> Option<Settings> {
        let value = |name: &str| line.split(' ').find_map(|field| field.strip_prefix(name)?.parse::<u64>().ok());
        let scaled = line.starts_with("kpa ");
        let only_fixed = |name: &str| if scaled { Some(0) } else { value(name) };
        Some(Settings {
            version,
            scaled,
            concurrency: only_fixed("limit=")?,
            depth: value("depth=")?,
            most_in_use: value("max=")?,
            seed: value("seed=")?,
            timeout_ms: 1000 * only_fixed("timeout=")?,
            pods: only_fixed("pods=").filter(|pods| *pods <= MOST_PODS)?,
            ..Settings::default()
        })
    }

    /// What a Revision says of a scaled revision, and the defaults. None where it says something else.
    fn scale(&mut self, config: &str, revision: &str) -> Option<()> {
        const PREFIX: &str = "autoscaling.knative.dev/";
        const KNOWN: [&str; 3] = ["initial-scale", "min-scale", "target-burst-capacity"];
        let is_known =
            |rest: &str| KNOWN.iter().any(|name| rest.strip_prefix(name).is_some_and(|r| r.starts_with('"')));
        let bare: String = config.split_whitespace().collect();
        if bare != "{\"data\":{}}" || !revision.split(PREFIX).skip(1).all(is_known) {
            return None;
        }
        let annotation = |name: &str| value_behind(revision, &format!("{PREFIX}{name}"));
        let whole = |found: Option<&str>, default: u64| found.map_or(Some(default), |text| text.parse().ok());
        self.concurrency = whole(value_behind(revision, "containerConcurrency"), 0)?;
        self.timeout_ms = 1000 * whole(value_behind(revision, "timeoutSeconds"), 300)?;
        self.min = whole(annotation("min-scale"), 0)?;
        self.initial = whole(annotation("initial-scale"), 1)?;
        self.burst_milli = match annotation("target-burst-capacity") {
            Some("-1") => None,
            found => Some(1000 * whole(found, 211)?),
        };
        self.total_milli = if self.concurrency == 0 { 100_000 } else { 1000 * self.concurrency };
        // 70 per cent of the total
        self.target = (7 * self.total_milli, 10_000);
        (self.min.max(self.initial) <= MOST_PODS).then_some(())
    }

    fn read(input: &mut Input) -> Result<Settings, Fault> {
        let version = match input.setup_line()?.as_str() {
            "kact journal 1" => 1,
            "kact journal 2" => 2,
            _ => return Err(REFUSED.into()),
        };
        let line = input.setup_line()?;
        let mut settings = Settings::from_fields(version, &line).ok_or(REFUSED)?;
        if settings.scaled {
            let config = read_block(input, "config")?;
            let revision = read_block(input, "revision")?;
            settings.scale(&config, &revision).ok_or(REFUSED)?;
        }
        Ok(settings)
    }
}

/// The lines of a JSON object between its name and a line of one point.
fn read_block(input: &mut Input, name: &str) -> Result<String, Fault> {
    if input.setup_line()? != name {
        return Err(REFUSED.into());
    }
    let mut text = String::new();
    loop {
        match input.setup_line()?.as_str() {
            "." => return Ok(text),
            line => text = text + line + "\n",
        }
    }
}

// ---- the random choice's generator

const PCG_FACTOR: u64 = 6_364_136_223_846_793_005;

#[derive(Default)]
struct Pcg32 {
    state: u64,
    step: u64,
}

impl Pcg32 {
    fn output(state: u64) -> u32 {
        let mixed = (((state >> 18) ^ state) >> 27) as u32;
        mixed.rotate_right((state >> 59) as u32)
    }

    /// A seed of 16 bytes is made of the number by the same generator with another step.
    fn from_number(mut number: u64) -> Pcg32 {
        let mut word = || {
            number = number.wrapping_mul(PCG_FACTOR).wrapping_add(11_634_580_027_462_260_723);
            u64::from(Pcg32::output(number))
        };
        let state = word() | word() << 32;
        let step = (word() | word() << 32) | 1;
        let mut made = Pcg32 { state: state.wrapping_add(step), step };
        made.next();
        made
    }

    fn next(&mut self) -> u32 {
        let state = self.state;
        self.state = state.wrapping_mul(PCG_FACTOR).wrapping_add(self.step);
        Pcg32::output(state)
    }
}

// ---- what decisions look back on

/// The values of the last seconds, and their average over those that count.
#[derive(Default)]
struct Window {
    seconds: u64,
    ring: Vec<u64>,
    total: u64,
    /// The total is over the seconds from this one up to the last; outside of these the ring has zeros.
    tail: u64,
    last: Option<u64>,
    /// The last sample without another one in the window before it.
    first: u64,
}

impl Window {
    fn drop_before(&mut self, second: u64) {
        let end = self.last.map_or(0, |last| second.min(last + 1));
        while self.tail < end {
            let place = (self.tail % self.seconds) as usize;
            self.total -= self.ring[place];
            self.ring[place] = 0;
            self.tail += 1;
        }
    }

    /// Each second at most once, and in order.
    fn record(&mut self, second: u64, value: u64) {
        self.drop_before((second + 1).saturating_sub(self.seconds));
        match self.last {
            Some(last) if second - last < self.seconds => {}
            _ => {
                self.first = second;
                self.tail = second;
            }
        }
        self.ring[(second % self.seconds) as usize] = value;
        self.total += value;
        self.last = Some(second);
    }

    /// Of the window before this second; none where it has no sample.
    fn average(&mut self, now: u64) -> Option<Fraction> {
        let begin = now.saturating_sub(self.seconds);
        self.drop_before(begin);
        let last = self.last.filter(|last| *last >= begin)?;
        Some((self.total, 1000 * (last - self.first.max(begin) + 1)))
    }
}

// ---- a revision

const NONE: u32 = u32::MAX;

/// A request is held at the activator, queued at a pod that it was sent straight to, at work after an assignment or
/// after it was sent straight, or has ended; a refused one has.
#[derive(Clone, Copy, PartialEq)]
enum Stage {
    Held,
    Queued,
    Assigned,
    Direct,
    Ended,
}

struct Request {
    arrived: u64,
    pod: u32,
    stage: Stage,
}

#[derive(Clone, Copy, PartialEq)]
enum State {
    Starting,
    Ready,
    Draining,
    Gone,
}

struct Pod {
    limit: u32,
    running: u32,
    queue: VecDeque<u32>,
    /// Its position among the Ready pods, or `NONE`.
    place: u32,
    state: State,
}

impl Pod {
    fn has_free_seat(&self) -> bool {
        self.limit == 0 || self.running < self.limit
    }

    fn requests(&self) -> u32 {
        self.running + self.queue.len() as u32
    }
}

#[derive(Clone, Copy, PartialEq, Default)]
enum Phase {
    Activating,
    Active,
    #[default]
    Inactive,
}

enum Act {
    Arrive(u64),
    Finish(u64, bool),
    Cancel(u64),
    Pass,
    Ready(u64),
    Limit(u64, u64),
    Lost(u64),
    Tick,
}

#[derive(Default)]
struct Totals {
    events: u64,
    admitted: u64,
    direct: u64,
    assigned: u64,
    finished: u64,
    failed: u64,
    expired: u64,
    cancelled: u64,
    queue_full: u64,
    overload: u64,
    decisions: u64,
    lost: u64,
}

/// Words of bits, one for each pod that may be Ready.
const WORDS: usize = 512 / 64;

#[derive(Default)]
struct Revision {
    settings: Settings,
    report: Report,
    totals: Totals,
    now: u64,
    /// All that arrived, by number.
    requests: Vec<Request>,
    live: u64,
    held: u64,
    /// Assigned ones that haven't ended.
    in_use: u64,
    /// No request below this one is held.
    first_held: usize,
    /// No request below this one waits, and none expires before the time.
    first_waiting: usize,
    next_expiry: u64,
    /// All that were created, by number.
    pods: Vec<Pod>,
    starting: u64,
    /// The numbers of the Ready ones, ascending, and a bit for each position that has a free seat.
    ready: Vec<u32>,
    free: [u64; WORDS],
    free_count: u32,
    /// The seats of all Ready pods.
    seats: u64,
    /// Draining pods that have no request since this event.
    emptied: Vec<u32>,
    /// The round robin's place, the random choice's generator, and the turns of those that go straight to pods.
    place: usize,
    generator: Pcg32,
    turns: u64,
    /// The end of the second that is being counted, and the milliseconds of load that it will have if no further
    /// request comes or ends.
    second_end: u64,
    load: u64,
    stable: Window,
    panic: Window,
    /// The last decision that was over, and the greatest count of the panic.
    last_over: Option<u64>,
    greatest: u64,
    phase: Phase,
    phase_since: u64,
    /// Whether requests go straight to the pods, and since when.
    serves: bool,
    mode_since: u64,
    want: u64,
    initial_reached: bool,
}

impl Revision {
    fn new(settings: Settings, start: u64) -> Revision {
        let scaled = settings.scaled;
        let want = if scaled { settings.initial.max(settings.min) } else { settings.pods };
        let mut made = Revision {
            now: start,
            next_expiry: start + settings.timeout_ms,
            generator: Pcg32::from_number(settings.seed),
            // a fixed revision counts no seconds
            second_end: if scaled { (start / 1000 + 1) * 1000 } else { u64::MAX },
            stable: Window { seconds: STABLE_S, ring: vec![0; STABLE_S as usize], ..Window::default() },
            panic: Window { seconds: PANIC_S, ring: vec![0; PANIC_S as usize], ..Window::default() },
            mode_since: start,
            want,
            initial_reached: settings.initial == 0,
            settings,
            ..Revision::default()
        };
        made.report.buffer = vec![0; REPORT_ROOM];
        let text = format!("{start} ");
        made.report.time[..text.len()].copy_from_slice(text.as_bytes());
        made.report.time_length = text.len();
        if scaled {
            made.enter(if want == 0 { Phase::Inactive } else { Phase::Activating });
        }
        made.create_pods(want);
        made
    }

    fn row_of_none(&mut self, words: &str) {
        let mut row = self.report.row();
        row.words(words);
        row.end();
    }

    #[inline(always)]
    fn row_of_one<const N: usize>(&mut self, word: &[u8; N], number: u64) {
        let mut row = self.report.row();
        row.field(word, number);
        row.end();
    }

    #[inline(always)]
    fn row_of_two<const N: usize>(&mut self, word: &[u8; N], first: u64, second: u64) {
        let mut row = self.report.row();
        row.field(word, first);
        row.field(b" ", second);
        row.end();
    }

    fn enter(&mut self, phase: Phase) {
        self.phase = phase;
        self.phase_since = self.now;
        self.row_of_none(match phase {
            Phase::Activating => "phase activating",
            Phase::Active => "phase active",
            Phase::Inactive => "phase inactive",
        });
    }

    fn seats_of(&self, p: u32) -> u64 {
        match self.pods[p as usize].limit {
            0 => self.settings.most_in_use,
            limit => u64::from(limit),
        }
    }

    fn create_pods(&mut self, count: u64) {
        for _ in 0..count {
            self.row_of_two(b"create ", self.pods.len() as u64, self.settings.concurrency);
            let limit = self.settings.concurrency as u32;
            self.pods.push(Pod { limit, running: 0, queue: VecDeque::new(), place: NONE, state: State::Starting });
        }
        self.starting += count;
    }

    /// Sets the bit of a pod that may have got its last seat taken, or one given back.
    fn update_seat(&mut self, p: u32) {
        let pod = &self.pods[p as usize];
        if pod.place != NONE {
            let word = &mut self.free[pod.place as usize / 64];
            let bit = 1 << (pod.place % 64);
            let is_free = pod.has_free_seat();
            if (*word & bit != 0) != is_free {
                *word ^= bit;
                self.free_count = if is_free { self.free_count + 1 } else { self.free_count - 1 };
            }
        }
    }

    /// Sets the places and the bits of the Ready pods from this position on.
    fn place_ready(&mut self, from: usize) {
        for index in from..self.ready.len() {
            let p = self.ready[index];
            self.pods[p as usize].place = index as u32;
            self.update_seat(p);
        }
    }

    /// A pod that is Starting or Ready is no more.
    fn leave(&mut self, p: u32) {
        let at = self.pods[p as usize].place as usize;
        if at == NONE as usize {
            self.starting -= 1;
            return;
        }
        self.pods[p as usize].place = NONE;
        self.seats -= self.seats_of(p);
        self.ready.remove(at);
        let last = self.ready.len();
        self.free_count -= (self.free[last / 64] >> (last % 64) & 1) as u32;
        self.free[last / 64] &= !(1 << (last % 64));
        self.place_ready(at);
    }

    fn drain(&mut self, p: u32) {
        self.row_of_one(b"drain ", u64::from(p));
        self.leave(p);
        self.pods[p as usize].state = State::Draining;
        if self.pods[p as usize].requests() == 0 {
            self.emptied.push(p);
        }
    }

    /// Creates or drains pods, so that so many are there that don't drain.
    fn scale_to(&mut self, want: u64) {
        let standing = self.starting + self.ready.len() as u64;
        self.create_pods(want.saturating_sub(standing));
        for _ in want..standing {
            let is_starting = |p: &u32| self.pods[*p as usize].state == State::Starting;
            let last_ready = self.ready.last().copied().filter(|_| self.starting == 0);
            let p = last_ready.or_else(|| (0..self.pods.len() as u32).rev().find(is_starting));
            self.drain(p.unwrap_or(NONE));
        }
    }

    #[inline(always)]
    fn run_queued(&mut self, p: u32) {
        while self.pods[p as usize].has_free_seat() {
            let pod = &mut self.pods[p as usize];
            let Some(r) = pod.queue.pop_front() else { break };
            pod.running += 1;
            self.requests[r as usize].stage = Stage::Direct;
            self.row_of_one(b"run ", u64::from(r));
        }
    }

    /// The first position from this one on that has a free seat.
    fn free_from(&self, place: usize) -> Option<usize> {
        let mut index = place / 64;
        let mut word = self.free.get(index)? & (!0 << (place % 64));
        while word == 0 {
            index += 1;
            word = *self.free.get(index)?;
        }
        Some(64 * index + word.trailing_zeros() as usize)
    }

    /// The position that has a free seat and so many such ones before it.
    fn free_at(&self, rank: u32) -> usize {
        if self.free_count as usize == self.ready.len() {
            return rank as usize;
        }
        let is_free = |place: &usize| self.free[place / 64] >> (place % 64) & 1 == 1;
        (0..self.ready.len()).filter(is_free).nth(rank as usize).unwrap_or(0)
    }

    /// One of two that the generator names, where two are free.
    fn random_choice(&mut self) -> Option<usize> {
        let count = self.free_count;
        if count == 0 {
            return None;
        }
        let (first, second) = (self.generator.next(), self.generator.next());
        if count == 1 {
            return self.free_from(0);
        }
        let i = first % count;
        let j = second % (count - 1);
        let (i, j) = (self.free_at(i), self.free_at(if j >= i { j + 1 } else { j }));
        let running = |place: usize| self.pods[self.ready[place] as usize].running;
        Some(if running(j) < running(i) { j } else { i })
    }

    /// The position of the Ready pod that the next held request goes to.
    fn choice(&mut self) -> Option<usize> {
        match self.settings.concurrency {
            0 => self.random_choice(),
            1..=3 => self.free_from(0),
            _ => {
                let found = self.free_from(self.place).or_else(|| self.free_from(0))?;
                self.place = found + 1;
                Some(found)
            }
        }
    }

    /// One event, whose time is spelled so, with a space.
    #[inline(always)]
    fn step(&mut self, time: u64, spelled: [u8; 16], length: usize, act: Act) {
        self.now = time;
        self.report.time = spelled;
        self.report.time_length = length;
        self.totals.events += 1;
        if time >= self.second_end {
            self.close_seconds();
        }
        if time >= self.next_expiry {
            self.expire();
        }
        match act {
            Act::Arrive(tag) => self.arrive(tag),
            Act::Finish(r, ok) => self.finish(r, ok),
            Act::Cancel(r) => self.cancel(r),
            Act::Ready(p) => self.pod_ready(p),
            Act::Limit(p, limit) => self.set_limit(p, limit),
            Act::Lost(p) => self.pod_lost(p),
            Act::Tick if self.settings.scaled => self.tick(),
            Act::Tick | Act::Pass => {}
        }
        // what follows: held requests are assigned, then empty draining pods go; queued ones run already
        while self.held > 0 && self.in_use < self.settings.most_in_use.min(self.seats) {
            let Some(place) = self.choice() else { break };
            self.assign_to(self.ready[place]);
        }
        if !self.emptied.is_empty() {
            self.emptied.sort_unstable();
            for p in std::mem::take(&mut self.emptied) {
                self.pods[p as usize].state = State::Gone;
                self.row_of_one(b"remove ", u64::from(p));
            }
        }
    }

    fn expire(&mut self) {
        let timeout = self.settings.timeout_ms;
        while let Some(request) = self.requests.get(self.first_waiting) {
            if request.arrived + timeout > self.now {
                self.next_expiry = request.arrived + timeout;
                return;
            }
            if matches!(request.stage, Stage::Held | Stage::Queued) {
                self.totals.expired += 1;
                self.row_of_one(b"expire ", self.first_waiting as u64);
                self.end_waiting(self.first_waiting as u32);
            }
            self.first_waiting += 1;
        }
        self.next_expiry = self.now + timeout;
    }

    fn end_waiting(&mut self, r: u32) {
        if self.requests[r as usize].stage == Stage::Held {
            self.held -= 1;
        } else {
            self.pods[self.requests[r as usize].pod as usize].queue.retain(|queued| *queued != r);
        }
        self.end_live(r);
    }

    fn end_live(&mut self, r: u32) {
        self.requests[r as usize].stage = Stage::Ended;
        self.live -= 1;
        self.load = self.load.wrapping_sub(self.second_end - self.now);
    }

    fn take_in(&mut self) {
        self.live += 1;
        self.load = self.load.wrapping_add(self.second_end - self.now);
    }

    fn assign_to(&mut self, p: u32) {
        while self.requests[self.first_held].stage != Stage::Held {
            self.first_held += 1;
        }
        let request = &mut self.requests[self.first_held];
        request.stage = Stage::Assigned;
        request.pod = p;
        self.pods[p as usize].running += 1;
        self.update_seat(p);
        self.held -= 1;
        self.in_use += 1;
        self.totals.assigned += 1;
        self.row_of_two(b"assign ", self.first_held as u64, u64::from(p));
    }

    fn arrive(&mut self, tag: u64) {
        let r = self.requests.len();
        self.requests.push(Request { arrived: self.now, pod: NONE, stage: Stage::Ended });
        if self.live >= MOST_LIVE {
            self.totals.overload += 1;
            self.row_of_one(b"overload ", r as u64);
        } else if self.serves && !self.ready.is_empty() {
            self.send_straight(r);
        } else if self.held + self.in_use == self.settings.depth + self.settings.most_in_use {
            self.totals.queue_full += 1;
            let mut row = self.report.row();
            row.field(b"queue-full ", r as u64);
            row.text(b" -");
            row.end();
        } else {
            self.totals.admitted += 1;
            self.requests[r].stage = Stage::Held;
            self.held += 1;
            self.take_in();
            self.row_of_two(b"admit ", r as u64, tag);
            if self.want == 0 && self.settings.scaled {
                self.decide((1, 1), (1, 1));
            }
        }
    }

    fn send_straight(&mut self, r: usize) {
        let p = self.ready[(self.turns % self.ready.len() as u64) as usize];
        self.turns += 1;
        let pod = &mut self.pods[p as usize];
        if pod.limit > 0 && pod.requests() >= 11 * pod.limit {
            self.totals.queue_full += 1;
            self.row_of_two(b"queue-full ", r as u64, u64::from(p));
            return;
        }
        self.requests[r].pod = p;
        self.requests[r].stage = Stage::Queued;
        pod.queue.push_back(r as u32);
        self.totals.direct += 1;
        self.take_in();
        self.row_of_two(b"direct ", r as u64, u64::from(p));
        self.run_queued(p);
        self.update_seat(p);
    }

    #[inline(always)]
    fn finish(&mut self, r: u64, ok: bool) {
        let (p, assigned) = match self.requests.get(r as usize) {
            Some(request) if request.stage == Stage::Assigned => (request.pod, true),
            Some(request) if request.stage == Stage::Direct => (request.pod, false),
            _ => return self.row_of_one(b"not-running ", r),
        };
        self.totals.finished += u64::from(ok);
        self.totals.failed += u64::from(!ok);
        let mut row = self.report.row();
        row.field(b"finish ", r);
        row.words(if ok { " ok" } else { " fail" });
        row.end();
        self.in_use -= u64::from(assigned);
        self.end_live(r as u32);
        self.pods[p as usize].running -= 1;
        self.run_queued(p);
        self.update_seat(p);
        let pod = &self.pods[p as usize];
        if pod.state == State::Draining && pod.requests() == 0 {
            self.emptied.push(p);
        }
    }

    fn cancel(&mut self, r: u64) {
        match self.requests.get(r as usize).map(|request| request.stage) {
            Some(Stage::Held | Stage::Queued) => {
                self.totals.cancelled += 1;
                self.row_of_one(b"cancel ", r);
                self.end_waiting(r as u32);
            }
            _ => self.row_of_one(b"not-waiting ", r),
        }
    }

    fn state_of(&self, p: u64) -> State {
        self.pods.get(p as usize).map_or(State::Gone, |pod| pod.state)
    }

    fn pod_ready(&mut self, p: u64) {
        match self.state_of(p) {
            State::Gone => self.row_of_one(b"no-pod ", p),
            State::Starting => {
                self.row_of_one(b"ready ", p);
                self.starting -= 1;
                self.pods[p as usize].state = State::Ready;
                let at = self.ready.partition_point(|q| u64::from(*q) < p);
                self.ready.insert(at, p as u32);
                self.seats += self.seats_of(p as u32);
                self.place_ready(at);
                self.initial_reached |= self.ready.len() as u64 >= self.settings.initial;
                if self.phase == Phase::Activating && self.settings.scaled {
                    self.enter(Phase::Active);
                }
            }
            _ => self.row_of_one(b"not-starting ", p),
        }
    }

    fn set_limit(&mut self, p: u64, limit: u64) {
        let state = self.state_of(p);
        if state == State::Gone {
            return self.row_of_one(b"no-pod ", p);
        }
        self.row_of_two(b"limit ", p, limit);
        let before = self.seats_of(p as u32);
        self.pods[p as usize].limit = limit as u32;
        if state == State::Ready {
            self.seats = self.seats - before + self.seats_of(p as u32);
        }
        self.run_queued(p as u32);
        self.update_seat(p as u32);
    }

    fn pod_lost(&mut self, p: u64) {
        let state = self.state_of(p);
        if state == State::Gone {
            return self.row_of_one(b"no-pod ", p);
        }
        for r in 0..self.requests.len() {
            let request = &self.requests[r];
            if u64::from(request.pod) == p && request.stage != Stage::Ended {
                self.totals.lost += 1;
                self.in_use -= u64::from(request.stage == Stage::Assigned);
                self.end_live(r as u32);
                self.row_of_one(b"lost-request ", r as u64);
            }
        }
        self.row_of_one(b"lost-pod ", p);
        if state != State::Draining {
            self.leave(p as u32);
        }
        self.pods[p as usize].state = State::Gone;
    }

    fn tick(&mut self) {
        let second = self.now / 1000;
        let Some(stable) = self.stable.average(second) else { return self.row_of_none("no-data") };
        let panic = self.panic.average(second);
        self.decide(stable, panic.unwrap_or((0, 1)));
    }

    fn close_seconds(&mut self) {
        let current = self.now / 1000;
        let ended = self.second_end / 1000 - 1;
        let ready = !self.ready.is_empty();
        // a request that lives on lives in all of the seconds between; what lies before the window counts no more
        let later = (ended + 1).max(current.saturating_sub(STABLE_S + 1))..current;
        for second in std::iter::once(ended).chain(later) {
            if self.load > 0 || ready {
                self.stable.record(second, self.load);
                self.panic.record(second, self.load);
            }
            self.load = 1000 * self.live;
        }
        self.second_end = 1000 * (current + 1);
    }

    /// How many pods an average asks for, and how many of these the rates allow.
    fn counts(&self, average: Fraction, ready: u64) -> (u64, u64) {
        let target = self.settings.target;
        let pods = (average.0 * target.1).div_ceil(average.1 * target.0);
        let most = (UP_MILLI * ready).div_ceil(1000);
        (pods, pods.max(1000 * ready / DOWN_MILLI).min(most))
    }

    /// The burst capacity that is left over, rounded down.
    fn excess(&self, ready: u64, panic: Fraction) -> i64 {
        match self.settings.burst_milli {
            None => -1,
            Some(0) => 0,
            Some(burst) => {
                let seats = (ready * self.settings.total_milli) as i64 - burst as i64;
                let bottom = panic.1 as i64;
                (seats * bottom - 1000 * panic.0 as i64).div_euclid(1000 * bottom)
            }
        }
    }

    /// How many pods are wanted, whether pods change now, and the phase.
    fn zero_rule(&self, bounded: u64) -> (u64, bool, Phase) {
        let standing = if self.ready.is_empty() { Phase::Activating } else { Phase::Active };
        let in_phase = self.now - self.phase_since;
        match self.phase {
            _ if bounded > 0 => (bounded, true, standing),
            Phase::Activating => (self.want, false, Phase::Activating),
            Phase::Active if in_phase < 1000 * STABLE_S => (1, true, standing),
            Phase::Active => (0, false, Phase::Inactive),
            // without a retention period, the grace in the mode or in the phase is enough
            Phase::Inactive => {
                let proxied = !self.serves && self.now - self.mode_since >= GRACE_MS;
                (0, proxied || in_phase >= GRACE_MS, Phase::Inactive)
            }
        }
    }

    fn decide(&mut self, stable: Fraction, panic: Fraction) {
        let ready = self.ready.len() as u64;
        let or_one = ready.max(1);
        let (dspc, stable_count) = self.counts(stable, or_one);
        let (dppc, panic_count) = self.counts(panic, or_one);
        let over = dppc * 100_000 >= PANIC_THRESHOLD_MILLI * or_one;
        if over {
            self.last_over = Some(self.now);
        }
        let panicking = self.last_over.is_some_and(|last| self.now - last <= 1000 * STABLE_S);
        self.greatest = if panicking { self.greatest.max(stable_count).max(panic_count) } else { 0 };
        let undelayed = if panicking { self.greatest } else { stable_count };
        let excess = self.excess(ready, panic);
        let low = if self.initial_reached { self.settings.min } else { self.settings.min.max(self.settings.initial) };
        let bounded = undelayed.max(low).min(MOST_PODS);
        let (want, applied, phase) = self.zero_rule(bounded);
        let serves = want > 0 && excess >= 0 && phase != Phase::Activating;
        let mut row = self.report.row();
        row.field(b"decision stable=", stable.0);
        row.field(b"/", stable.1);
        row.field(b" panic=", panic.0);
        row.field(b"/", panic.1);
        row.field(b" ready=", ready);
        row.field(b" dspc=", dspc);
        row.field(b" dppc=", dppc);
        row.flag(b" over=", over);
        row.flag(b" panicking=", panicking);
        row.field(b" undelayed=", undelayed);
        row.field(b" delayed=", undelayed);
        row.words(if excess < 0 { " excess=-" } else { " excess=" });
        row.number(excess.unsigned_abs());
        row.field(b" bounded=", bounded);
        row.field(b" want=", want);
        row.flag(b" applied=", applied);
        row.words(if serves { " mode=serve" } else { " mode=proxy" });
        row.end();
        self.totals.decisions += 1;
        self.want = want;
        if phase != self.phase {
            self.enter(phase);
        }
        if serves != self.serves {
            self.serves = serves;
            self.mode_since = self.now;
            self.row_of_none(if serves { "mode serve" } else { "mode proxy" });
        }
        if applied {
            self.scale_to(want);
        }
    }

    fn last_line(&self) {
        let Totals { events, admitted, direct, assigned, finished, failed, expired, cancelled, .. } = self.totals;
        let Totals { queue_full, overload, decisions, lost, .. } = self.totals;
        print!("end events={events} admitted={admitted} direct={direct} assigned={assigned} finished={finished}");
        print!(" failed={failed} expired={expired} cancelled={cancelled} queue-full={queue_full}");
        print!(" overload={overload} decisions={decisions}");
        println!("{}", if self.settings.version == 2 { format!(" lost={lost}") } else { String::new() });
    }
}

// ---- the program

/// What stands behind an event's time and the space.
fn read_act(line: &mut Cursor, version: u64) -> Option<Act> {
    if line.take(b"arrive ") {
        return Some(Act::Arrive(line.number()?));
    }
    if line.take(b"finish ") {
        let r = line.number()?;
        let ok = line.take(b" ok");
        return (ok || line.take(b" fail")).then_some(Act::Finish(r, ok));
    }
    if line.take(b"ready ") {
        return Some(Act::Ready(line.number()?));
    }
    if line.take(b"cancel ") {
        return Some(Act::Cancel(line.number()?));
    }
    if line.take(b"limit ") {
        let p = line.number()?;
        let limit = if line.take(b" ") { line.number()? } else { return None };
        return (limit <= 1000).then_some(Act::Limit(p, limit));
    }
    if version == 2 && line.take(b"lost ") {
        return Some(Act::Lost(line.number()?));
    }
    if line.take(b"tick") {
        return Some(Act::Tick);
    }
    line.take(b"pass").then_some(Act::Pass)
}

/// Reads the line of one event and does it: false at the line `end`. None where the line is refused.
#[inline(always)]
fn read_event(input: &mut Input, revision: &mut Revision) -> Option<bool> {
    let mut line = Cursor { bytes: &input.buffer, at: input.at };
    let is_end = line.take(b"end");
    if !is_end {
        let spelled = line.ahead::<16>();
        let time = line.number()?;
        let length = line.at - input.at + 1;
        let act = if line.take(b" ") { read_act(&mut line, revision.settings.version)? } else { return None };
        if !line.line_ends() || time < revision.now || time > LATEST {
            return None;
        }
        revision.step(time, spelled, length, act);
    } else if !line.line_ends() {
        return None;
    }
    input.at = line.at.min(input.end);
    Some(!is_end)
}

fn read_events(input: &mut Input, revision: &mut Revision) -> Result<(), Fault> {
    while input.fill(LONGEST_EVENT)? {
        if !read_event(input, revision).ok_or(REFUSED)? {
            return if input.fill(1)? { Err(REFUSED.into()) } else { Ok(()) };
        }
    }
    Err(NO_END.into())
}

fn main() -> Result<(), Fault> {
    let mut input = Input { buffer: vec![0; 2 * CHUNK + PADDING], at: 0, end: 0, at_end: false };
    let settings = Settings::read(&mut input)?;
    let line = input.setup_line()?;
    let start = line.strip_prefix("start ").and_then(|time| time.parse().ok()).filter(|time| *time <= LATEST);
    let mut revision = Revision::new(settings, start.ok_or(REFUSED)?);
    let outcome = read_events(&mut input, &mut revision);
    revision.report.flush();
    if outcome.is_ok() {
        revision.last_line();
    }
    outcome
}

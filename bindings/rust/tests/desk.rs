//! The desk: what it refuses, and that it replies to made-up events what the command `script` answers to them as lines.
use domreth::desk::{CacheId, CallId, Desk, DeskError, HandleId, Loader, Reply, Ticket, Why};
use domreth::{Command, run};
use std::fmt::Write;
use std::num::NonZeroU32;
use std::time::{Duration, SystemTime, UNIX_EPOCH};

/// A desk with two caches, the second with a chain of two, and with two handles on the first.
fn desk() -> (Desk, [CacheId; 2], [HandleId; 3]) {
    let mut desk = Desk::open().unwrap();
    let single = desk.add_cache(Loader::Single).unwrap();
    let chain = desk.add_cache(Loader::Chain(NonZeroU32::new(2).unwrap())).unwrap();
    let rule = desk.add_rule(Duration::ZERO).unwrap();
    let handles = [single, single, chain].map(|cache| desk.add_handle(cache, rule).unwrap());
    (desk, [single, chain], handles)
}

const SETUP: &str = "signctl 2\ncache single\ncache chain 2\nhandle 0 now\nhandle 0 now\nhandle 1 now\n";
const SET_UP: &str = "cache 0\ncache 1\nhandle 0\nhandle 1\nhandle 2\n";

/// Numbers that look like chance, by xorshift.
struct Chance(u64);

impl Chance {
    fn below(&mut self, limit: u64) -> u64 {
        self.0 ^= self.0 << 13;
        self.0 ^= self.0 >> 7;
        self.0 ^= self.0 << 17;
        (self.0 >> 16) % limit
    }
}

/// A moment by its half seconds.
fn moment(halves: u64) -> SystemTime {
    UNIX_EPOCH + Duration::from_millis(500 * halves)
}

/// As a script spells it.
fn spelled(halves: u64) -> String {
    format!("{}{}", halves / 2, if halves % 2 == 0 { "" } else { ".5" })
}

/// A desk, and the calls that are live at it.
struct Play {
    desk: Desk,
    caches: [CacheId; 2],
    handles: [HandleId; 3],
    live: Vec<CallId>,
    begun: u64,
    /// How many events were told: time goes on with them, and now and then back.
    told: u64,
    chance: Chance,
}

impl Play {
    fn new(seed: u64) -> Self {
        let (desk, caches, handles) = desk();
        let chance = Chance(seed.wrapping_mul(0x9e37_79b9_7f4a_7c15));
        Play { desk, caches, handles, live: Vec::new(), begun: 0, told: 0, chance }
    }

    /// Mostly a live call, and else one that may be over, or not begun.
    fn call(&mut self) -> CallId {
        let other =
            CallId { handle: self.handles[self.chance.below(3) as usize], number: self.chance.below(self.begun + 2) };
        let place = self.chance.below(self.live.len() as u64 + 1) as usize;
        self.live.get(place).copied().unwrap_or(other)
    }

    /// One event, told to the desk: its reply, and its line.
    fn event(&mut self) -> (Reply, String) {
        self.told += 1;
        let (now, other) = (self.told / 4 + self.chance.below(40), self.chance.below(9));
        let (reply, line) = match self.chance.below(16) {
            0 | 1 if self.live.len() < 9 => self.begin(other),
            kind => {
                let call = self.call();
                self.event_of(call, kind, now, other)
            }
        };
        (reply, line)
    }

    fn begin(&mut self, halves: u64) -> (Reply, String) {
        self.begun += 1;
        let call = CallId { handle: self.handles[self.chance.below(3) as usize], number: self.begun };
        let duration = (halves > 3).then(|| Duration::from_millis(500 * halves));
        let spelled = if halves > 3 { spelled(halves) } else { "-".into() };
        let reply = self.desk.begin(call, duration).unwrap();
        self.live.push(call);
        (reply, format!("begin {} {} {spelled} GET https://e.x/ 1.1", call.handle.number(), call.number))
    }

    fn event_of(&mut self, call: CallId, kind: u64, now: u64, other: u64) -> (Reply, String) {
        let at = moment(now);
        let (handle, number, desk) = (call.handle.number(), call.number, &mut self.desk);
        let (reply, line) = match kind {
            0..=6 => (desk.poll(call, at), format!("poll {handle} {number} {}", spelled(now))),
            7 | 8 => {
                let (fresh, lasts) = (now + self.chance.below(60), now + self.chance.below(60));
                let ticket = Ticket { number: other, fresh: moment(fresh), lasts: moment(lasts) };
                let [now, fresh, lasts] = [now, fresh, lasts].map(spelled);
                (desk.found(call, at, ticket), format!("found {handle} {number} {now} {other} {fresh} {lasts} 0"))
            }
            9 => (desk.missing(call, at), format!("missing {handle} {number} {}", spelled(now))),
            10 => (desk.failed(call, at, other), format!("failed {handle} {number} {} {other}", spelled(now))),
            11..=13 => (desk.accept(call), format!("accept {handle} {number} GET https://e.x/ 1.1")),
            14 => (desk.reject(call, other), format!("reject {handle} {number} {other}")),
            _ => (desk.cancel(call), format!("cancel {handle} {number}")),
        };
        let reply = reply.unwrap();
        if matches!(reply, Reply::Done | Reply::Refused { .. } | Reply::Cancelled { .. }) {
            self.live.retain(|&live| live != call);
        }
        (reply, line)
    }
}

/// The line by which a script answers so.
fn answer(reply: Reply) -> String {
    let mut line = match reply {
        Reply::Begun => "begun".into(),
        Reply::Pending => "pending".into(),
        Reply::NotNow => "not now".into(),
        Reply::OutOfMemory => "out of memory".into(),
        Reply::Ask { provider } => format!("ask {provider}"),
        Reply::Sign { credential, .. } => format!("sign {credential}"),
        Reply::Refused { why, .. } => match why {
            Why::Missing => "refused missing".into(),
            Why::Short(_) => "refused short".into(),
            Why::Range => "refused range".into(),
            Why::Loader(failure) => format!("refused loader {failure}"),
            Why::Service(failure) => format!("refused service {failure}"),
        },
        Reply::Done => "done GET https://e.x/ 1.1".into(),
        Reply::Cancelled { .. } => "cancelled".into(),
    };
    if let Some(call) = reply.wake() {
        write!(line, " wake {} {}", call.handle.number(), call.number).unwrap();
    }
    line
}

fn final_line(desk: &Desk, cache: CacheId) -> String {
    let halves = |moment: SystemTime| moment.duration_since(UNIX_EPOCH).unwrap().as_millis() as u64 / 500;
    match desk.cached(cache).unwrap() {
        None => format!("final {} empty", cache.number()),
        Some(Ticket { number, fresh, lasts }) => {
            format!("final {} {number} {} {} 0", cache.number(), spelled(halves(fresh)), spelled(halves(lasts)))
        }
    }
}

#[test]
fn a_desk_replies_what_a_script_answers() {
    let mut seen = std::collections::BTreeSet::new();
    for seed in 1..=40 {
        let mut play = Play::new(seed);
        let (mut lines, mut answers) = (SETUP.to_owned(), SET_UP.to_owned());
        for _ in 0..3000 {
            let (reply, line) = play.event();
            let answer = answer(reply);
            seen.insert(
                answer.split(' ').filter(|word| !word.starts_with(char::is_numeric)).collect::<Vec<_>>().join(" "),
            );
            writeln!(lines, "{line}").unwrap();
            writeln!(answers, "{answer}").unwrap();
        }
        for cache in play.caches {
            writeln!(answers, "{}", final_line(&play.desk, cache)).unwrap();
        }
        let by_script = String::from_utf8(run(Command::Script, lines.as_bytes()).unwrap()).unwrap();
        for ((ours, its), line) in answers.lines().zip(by_script.lines()).zip(lines.lines().skip(1)) {
            assert_eq!(ours, its, "{line}, of seed {seed}");
        }
        assert_eq!(answers.lines().count(), by_script.lines().count());
    }
    let kinds = [
        "ask",
        "begun",
        "cancelled",
        "cancelled wake",
        "done GET https://e.x/",
        "not now",
        "pending",
        "refused loader",
        "refused loader wake",
        "refused missing",
        "refused missing wake",
        "refused service",
        "refused short",
        "refused short wake",
        "sign",
        "sign wake",
    ];
    assert!(seen.iter().eq(kinds.iter()), "{seen:?}");
}

#[test]
fn a_deadline_past_the_last_moment_is_refused_and_one_before_it_is_named() {
    let last = UNIX_EPOCH + Duration::new(253_402_207_200, 999_999_999);
    let ticket = |lasts| Ticket { number: 1, fresh: last, lasts };
    for (margin, duration, now, why) in [
        (0, 10, moment(0), Why::Short(moment(20))),
        (7, 10, moment(3), Why::Short(moment(37))),
        (1, 0, last, Why::Range),
        (u64::MAX, u64::MAX, moment(0), Why::Range),
        // Halves of seconds before 1970.
        (0, 1, UNIX_EPOCH - Duration::from_millis(2500), Why::Short(UNIX_EPOCH - Duration::from_millis(1500))),
        (0, 2, UNIX_EPOCH - Duration::from_millis(2500), Why::Short(UNIX_EPOCH - Duration::from_millis(500))),
    ] {
        let mut desk = Desk::open().unwrap();
        let cache = desk.add_cache(Loader::Single).unwrap();
        let rule = desk.add_rule(Duration::from_secs(margin)).unwrap();
        let call = CallId { handle: desk.add_handle(cache, rule).unwrap(), number: 1 };
        desk.begin(call, Some(Duration::from_secs(duration))).unwrap();
        assert_eq!(desk.poll(call, now), Ok(Reply::Ask { provider: 0 }));
        let short = UNIX_EPOCH - Duration::from_secs(1000);
        assert_eq!(desk.found(call, now, ticket(short)), Ok(Reply::Refused { why, wake: None }));
        assert_eq!(desk.cached(cache), Ok(None));
    }
}

#[test]
fn what_does_not_fit_changes_nothing() {
    let (mut desk, [single, _], [handle, ..]) = desk();
    let call = CallId { handle, number: 1 };
    let year_10000 = UNIX_EPOCH + Duration::from_secs(253_402_300_800);
    let now = UNIX_EPOCH;
    let ticket = Ticket { number: 1, fresh: year_10000, lasts: now };
    assert_eq!(desk.begin(call, None), Ok(Reply::Begun));
    assert_eq!(desk.add_cache(Loader::Single), Err(DeskError::Late));
    assert_eq!(desk.add_rule(Duration::ZERO), Err(DeskError::Late));
    assert_eq!(desk.poll(call, year_10000), Err(DeskError::Moment));
    assert_eq!(desk.poll(call, now), Ok(Reply::Ask { provider: 0 }));
    assert_eq!(desk.found(call, now, ticket), Err(DeskError::Moment));
    assert_eq!(desk.missing(call, year_10000), Err(DeskError::Moment));
    assert_eq!(desk.failed(call, year_10000, 1), Err(DeskError::Moment));
    assert_eq!(desk.accept(call), Ok(Reply::NotNow));
    assert_eq!(desk.failed(call, now, 9), Ok(Reply::Refused { why: Why::Loader(9), wake: None }));
    assert_eq!(desk.cancel(call), Ok(Reply::NotNow));
    let mut small = Desk::open().unwrap();
    let rule = small.add_rule(Duration::ZERO).unwrap();
    assert_eq!(small.add_handle(single, rule), Err(DeskError::NoCache));
    assert_eq!(small.cached(single), Err(DeskError::NoCache));
    let cache = small.add_cache(Loader::Single).unwrap();
    let mut other = Desk::open().unwrap();
    other.add_rule(Duration::ZERO).unwrap();
    let second = other.add_rule(Duration::ZERO).unwrap();
    assert_eq!(small.add_handle(cache, second), Err(DeskError::NoRule));
}

#[test]
fn a_desk_goes_to_another_thread() {
    let (mut desk, _, [handle, ..]) = desk();
    let call = CallId { handle, number: 1 };
    desk.begin(call, None).unwrap();
    let mut desk = std::thread::spawn(move || {
        desk.poll(call, UNIX_EPOCH).unwrap();
        desk
    })
    .join()
    .unwrap();
    assert_eq!(desk.missing(call, UNIX_EPOCH), Ok(Reply::Refused { why: Why::Missing, wake: None }));
}

//! The yardstick of `bench/manager`: the work of `scmd generate` and `scmd replay` as a plain program, without proofs.
//! Left out are the test of room (`full`), changes and queries of
//! configurations, failure actions, notifications and triggers, so the only due rows are deadlines of plans.

use std::collections::{HashMap, HashSet, VecDeque};
use std::ops::Deref;
use std::hash::{Hash, Hasher};
use std::io::{self, BufRead, BufReader, BufWriter, Write};
use std::process::ExitCode;

mod code {
    pub const ACCESS_DENIED: u32 = 5;
    pub const INVALID_HANDLE: u32 = 6;
    pub const INVALID_DATA: u32 = 13;
    pub const INVALID_PARAMETER: u32 = 87;
    pub const INSUFFICIENT_BUFFER: u32 = 122;
    pub const INVALID_NAME: u32 = 123;
    pub const CANTWRITE: u32 = 1013;
    pub const DEPENDENT_SERVICES_RUNNING: u32 = 1051;
    pub const INVALID_SERVICE_CONTROL: u32 = 1052;
    pub const REQUEST_TIMEOUT: u32 = 1053;
    pub const NO_THREAD: u32 = 1054;
    pub const DATABASE_LOCKED: u32 = 1055;
    pub const ALREADY_RUNNING: u32 = 1056;
    pub const INVALID_ACCOUNT: u32 = 1057;
    pub const DISABLED: u32 = 1058;
    pub const CIRCULAR_DEPENDENCY: u32 = 1059;
    pub const DOES_NOT_EXIST: u32 = 1060;
    pub const CANNOT_ACCEPT_CTRL: u32 = 1061;
    pub const NOT_ACTIVE: u32 = 1062;
    pub const DATABASE_DOES_NOT_EXIST: u32 = 1065;
    pub const PROCESS_ABORTED: u32 = 1067;
    pub const DEPENDENCY_FAIL: u32 = 1068;
    pub const INVALID_LOCK: u32 = 1071;
    pub const MARKED_FOR_DELETE: u32 = 1072;
    pub const EXISTS: u32 = 1073;
    pub const DEPENDENCY_DELETED: u32 = 1075;
    pub const NEVER_STARTED: u32 = 1077;
    pub const DUPLICATE_NAME: u32 = 1078;
    pub const NOT_ENOUGH_QUOTA: u32 = 1816;
}

const STOPPED: u32 = 1;
const START_PENDING: u32 = 2;
const STOP_PENDING: u32 = 3;
const RUNNING: u32 = 4;
const CONTINUE_PENDING: u32 = 5;
const PAUSE_PENDING: u32 = 6;
const PAUSED: u32 = 7;

const MAX_SERVICES: usize = 1024;
const MAX_HANDLES: usize = 1024;
const MAX_CALLERS: usize = 64;
const MAX_PROCESSES: usize = 128;
const MAX_CONTROLS: usize = 16;
const DEADLINE: u64 = 120_000;
const DISABLED_START: u32 = 4;

// ---- Texts ----

/// UTF-16 units, compared and hashed with A to Z read as a to z.
#[derive(Clone, Default)]
struct Text(Vec<u16>);

fn fold(unit: u16) -> u16 {
    match unit {
        0x41..=0x5A => unit + 0x20,
        _ => unit,
    }
}

impl PartialEq for Text {
    fn eq(&self, other: &Text) -> bool {
        self.0.len() == other.0.len() && self.0.iter().zip(&other.0).all(|(&a, &b)| fold(a) == fold(b))
    }
}

impl Eq for Text {}

impl Hash for Text {
    fn hash<H: Hasher>(&self, state: &mut H) {
        state.write_usize(self.0.len());
        self.0.iter().for_each(|&unit| state.write_u16(fold(unit)));
    }
}

impl Deref for Text {
    type Target = [u16];

    fn deref(&self) -> &[u16] {
        &self.0
    }
}

impl From<&str> for Text {
    fn from(text: &str) -> Text {
        Text(text.encode_utf16().collect())
    }
}

impl Text {
    fn is_well_formed(&self) -> bool {
        char::decode_utf16(self.0.iter().copied()).all(|unit| unit.is_ok())
    }

    /// Whether a command line has a first word that isn't empty once its quotes are dropped.
    fn has_word(&self) -> bool {
        let mut quoted = false;
        for &unit in self.0.iter().skip_while(|&&unit| unit == 0x20) {
            match unit {
                0x22 => quoted = !quoted,
                0x20 if !quoted => return false,
                _ => return true,
            }
        }
        false
    }
}

// ---- Rows ----

#[derive(Clone, Copy, PartialEq, Eq)]
enum Principal {
    Admin,
    User,
}

#[derive(Clone, Copy, Default)]
struct Status {
    kind: u32,
    state: u32,
    accepted: u32,
    win32: u32,
    specific: u32,
    checkpoint: u32,
    hint: u32,
}

impl Status {
    fn from_numbers([kind, state, accepted, win32, specific, checkpoint, hint]: [u32; 7]) -> Status {
        Status { kind, state, accepted, win32, specific, checkpoint, hint }
    }

    fn numbers(&self) -> [u32; 7] {
        [self.kind, self.state, self.accepted, self.win32, self.specific, self.checkpoint, self.hint]
    }

    fn in_state(kind: u32, state: u32, win32: u32) -> Status {
        Status { kind, state, win32, ..Status::default() }
    }

    /// Whether a report is well formed and its move is one that there is.
    fn takes(&self, report: &Status) -> bool {
        if report.kind != self.kind || report.accepted & !0x7FF != 0 {
            return false;
        }
        let to = report.state;
        let stops = to == STOP_PENDING || to == STOPPED;
        match self.state {
            START_PENDING => stops || matches!(to, START_PENDING | RUNNING),
            RUNNING => stops || matches!(to, RUNNING | PAUSE_PENDING | PAUSED),
            PAUSE_PENDING => stops || matches!(to, PAUSE_PENDING | PAUSED | RUNNING),
            PAUSED => stops || matches!(to, PAUSED | CONTINUE_PENDING | RUNNING),
            CONTINUE_PENDING => stops || matches!(to, CONTINUE_PENDING | RUNNING | PAUSED),
            STOP_PENDING => stops,
            _ => false,
        }
    }
}

enum Need {
    Service(Text),
    Group(Text),
}

struct Config {
    name: Text,
    display: Text,
    kind: u32,
    start: u32,
    error: u32,
    path: Text,
    group: Text,
    tag: u32,
    needs: Vec<Need>,
}

impl Config {
    /// The first rule on configurations that is broken.
    fn check(&self, account: Option<&Text>, is_request_sound: bool) -> Result<(), u32> {
        if !is_name(&self.name) || self.display.len() > 256 {
            return Err(code::INVALID_NAME);
        }
        let is_need_long = |need: &Need| match need {
            Need::Service(name) | Need::Group(name) => name.len() > 256,
        };
        let is_sound = is_request_sound
            && matches!(self.kind, 0x10 | 0x20)
            && matches!(self.start, 2..=4)
            && self.error <= 3
            && self.path.has_word()
            && self.path.len() <= 2048
            && self.path.is_well_formed()
            && self.group.len() <= 256
            && self.needs.len() <= 512
            && !self.needs.iter().any(is_need_long);
        if !is_sound {
            return Err(code::INVALID_PARAMETER);
        }
        match account {
            Some(account) if !account.is_empty() && *account != Text::from("LocalSystem") => Err(code::INVALID_ACCOUNT),
            _ => Ok(()),
        }
    }
}

fn is_name(name: &Text) -> bool {
    matches!(name.len(), 1..=256) && !name.0.iter().any(|&unit| unit == 0x2F || unit == 0x5C)
}

/// The needs that the bytes of a call name, or none where they can't be read.
fn read_needs(bytes: &[u8]) -> Option<Vec<Need>> {
    if bytes.len() % 2 != 0 {
        return None;
    }
    let mut needs = Vec::new();
    let mut name = Vec::new();
    for pair in bytes.chunks_exact(2) {
        match u16::from_le_bytes([pair[0], pair[1]]) {
            0 if name.is_empty() => return Some(needs),
            0 if name == [0x2B] => return None,
            0 if name[0] == 0x2B => needs.push(Need::Group(Text(std::mem::take(&mut name).split_off(1)))),
            0 => needs.push(Need::Service(Text(std::mem::take(&mut name)))),
            unit => name.push(unit),
        }
    }
    None
}

struct Service {
    number: u64,
    config: Config,
    status: Status,
    marked: bool,
    process: u64,
    handles: u32,
}

impl Service {
    fn fall(&mut self, win32: u32) {
        self.status = Status::in_state(self.status.kind, STOPPED, win32);
        self.process = 0;
    }

    fn take(&mut self, report: &Status) -> Result<(), u32> {
        if !self.status.takes(report) {
            return Err(code::INVALID_DATA);
        }
        self.status = *report;
        if report.state == STOPPED {
            self.process = 0;
        }
        Ok(())
    }
}

enum HandleKind {
    Manager,
    Service(u64),
    Lock,
}

struct Handle {
    kind: HandleKind,
    granted: u32,
}

struct Caller {
    principal: Principal,
    handles: HashMap<u64, Handle>,
}

#[derive(PartialEq, Eq)]
enum Phase {
    Wanted,
    Taken,
    Launched,
}

/// The process id is for those who ask of it, which no call here does.
#[allow(dead_code)]
struct Process {
    number: u64,
    service: u64,
    phase: Phase,
    pid: u32,
    controls: VecDeque<u32>,
}

/// The words are for whoever launches it.
#[allow(dead_code)]
struct Wanted {
    process: u64,
    words: Vec<Text>,
}

struct Plan {
    number: u64,
    caller: u64,
    target: u64,
    entries: VecDeque<u64>,
    /// Whether this plan entered the service at its front.
    tried: bool,
    words: Vec<Text>,
    deadline: u64,
    code: Option<u32>,
}

struct Lock {
    caller: u64,
    since: u64,
}

/// What becomes of a plan's front entry.
enum Fate {
    Runs,
    Waits,
    Enters,
    Fails(u32),
}

// ---- Requests and replies ----

struct NewService {
    handle: u64,
    name: Text,
    display: Option<Text>,
    access: u32,
    kind: u32,
    start: u32,
    error: u32,
    path: Text,
    group: Option<Text>,
    tag: Option<u32>,
    needs: Option<Vec<u8>>,
    account: Option<Text>,
}

enum Request {
    Close { handle: u64 },
    Control { handle: u64, control: u32 },
    Delete { handle: u64 },
    Lock { handle: u64 },
    QueryStatus { handle: u64 },
    SetStatus { handle: u64, status: Status },
    Unlock { handle: u64 },
    Create(Box<NewService>),
    OpenManager { database: Option<Text>, access: u32 },
    OpenService { handle: u64, name: Text, access: u32 },
    QueryLock { handle: u64, size: u32 },
    Start { handle: u64, words: Option<Vec<Text>> },
    DisplayName { handle: u64, name: Text, size: u32 },
    KeyName { handle: u64, name: Text, size: u32 },
}

enum Reply {
    Handle(u64, u32),
    State(Status, u32),
    Code(u32),
    Made(Option<u32>, u64, u32),
    LockState { held: u32, owner: Option<Text>, seconds: u32, needed: u32, code: u32 },
    Name(Text, u32, u32),
}

enum Answer {
    Caller(u64),
    TooMany,
    Reply(Reply),
    Plan(u64),
    Again,
    Launch(u64),
    Control(u32),
    Empty,
    Over,
    Done,
    Refused(u32),
    Stale,
    Idle,
}

// ---- Access ----

fn granted(principal: Principal, manager: bool, desired: u32) -> Option<u32> {
    const MAXIMUM_ALLOWED: u32 = 0x0200_0000;
    let rules = match (principal, manager) {
        (Principal::Admin, true) => 0xF003F,
        (Principal::User, true) => 0x20015,
        (Principal::Admin, false) => 0xF81FF,
        (Principal::User, false) => 0x2008D,
    };
    let mappings = if manager { [0x20014, 0x20022, 0x20009, 0xF003F] } else { [0x2008D, 0x20002, 0x20170, 0xF01FF] };
    let generic = [0x8000_0000, 0x4000_0000, 0x2000_0000, 0x1000_0000];
    let mapped = generic.iter().zip(mappings).filter(|(&bit, _)| desired & bit != 0).fold(desired & 0x0FFF_FFFF, |mask, (_, more)| mask | more);
    let asked = mapped & !MAXIMUM_ALLOWED;
    if asked & !rules != 0 {
        None
    } else if desired & MAXIMUM_ALLOWED != 0 {
        Some(rules)
    } else {
        Some(asked)
    }
}

fn require(granted: u32, right: u32) -> Result<(), u32> {
    if granted & right == right { Ok(()) } else { Err(code::ACCESS_DENIED) }
}

/// The right and the accepted bit that a control needs, if it is one.
fn control_needs(control: u32) -> Option<(u32, u32)> {
    Some(match control {
        1 => (0x20, 1),
        2 | 3 => (0x40, 2),
        4 => (0x80, 0),
        6 => (0x40, 8),
        7..=10 => (0x40, 0x10),
        128..=255 => (0x100, 0),
        _ => return None,
    })
}

// ---- The manager ----

#[derive(Default)]
struct Next {
    service: u64,
    handle: u64,
    process: u64,
    plan: u64,
    caller: u64,
}

/// Counts one on, and gives the number.
fn next(counter: &mut u64) -> u64 {
    *counter += 1;
    *counter
}

/// Steps whose condition isn't met give None and change nothing.
#[derive(Default)]
struct Manager {
    /// In order of number.
    services: Vec<Service>,
    by_name: HashMap<Text, u64>,
    by_display: HashMap<Text, u64>,
    marked: Vec<u64>,
    callers: HashMap<u64, Caller>,
    processes: Vec<Process>,
    wanted: VecDeque<Wanted>,
    /// In order of number.
    plans: Vec<Plan>,
    lock: Option<Lock>,
    moment: u64,
    steps: u64,
    launches: u64,
    /// The numbers given last.
    last: Next,
}

impl Manager {
    // -- Rows --

    fn place(&self, service: u64) -> Option<usize> {
        self.services.binary_search_by_key(&service, |row| row.number).ok()
    }

    fn service(&self, number: u64) -> Option<&Service> {
        self.place(number).map(|place| &self.services[place])
    }

    fn named(&self, name: &Text) -> Option<&Service> {
        self.by_name.get(name).and_then(|&number| self.service(number))
    }

    fn members<'a>(&'a self, group: &'a Text) -> impl Iterator<Item = &'a Service> {
        self.services.iter().filter(|row| row.config.group == *group)
    }

    fn process(&mut self, number: u64, phase: Phase) -> Option<&mut Process> {
        self.processes.iter_mut().find(|row| row.number == number && row.phase == phase)
    }

    /// The service whose current process this is.
    fn current_service(&mut self, process: u64, service: u64) -> Option<&mut Service> {
        let place = self.place(service)?;
        Some(&mut self.services[place]).filter(|row| row.process == process)
    }

    fn handle(&self, caller: u64, handle: u64) -> Result<&Handle, u32> {
        self.callers.get(&caller).and_then(|row| row.handles.get(&handle)).ok_or(code::INVALID_HANDLE)
    }

    fn manager_mask(&self, caller: u64, handle: u64) -> Result<u32, u32> {
        match self.handle(caller, handle)? {
            Handle { kind: HandleKind::Manager, granted } => Ok(*granted),
            _ => Err(code::INVALID_HANDLE),
        }
    }

    fn opened_manager(&self, caller: u64, handle: u64, right: u32) -> Result<(), u32> {
        require(self.manager_mask(caller, handle)?, right)
    }

    /// The place of the service that a handle names, and what the handle grants.
    fn service_at(&self, caller: u64, handle: u64) -> Result<(usize, u32), u32> {
        match self.handle(caller, handle)? {
            Handle { kind: HandleKind::Service(number), granted } => Ok((self.place(*number).ok_or(code::INVALID_HANDLE)?, *granted)),
            _ => Err(code::INVALID_HANDLE),
        }
    }

    fn opened(&self, caller: u64, handle: u64, right: u32) -> Result<usize, u32> {
        let (place, granted) = self.service_at(caller, handle)?;
        require(granted, right)?;
        Ok(place)
    }

    fn principal(&self, caller: u64) -> Principal {
        self.callers[&caller].principal
    }

    fn has_handle_room(&self, caller: u64) -> Result<(), u32> {
        if self.callers[&caller].handles.len() < MAX_HANDLES { Ok(()) } else { Err(code::NOT_ENOUGH_QUOTA) }
    }

    fn add_handle(&mut self, caller: u64, kind: HandleKind, granted: u32) -> u64 {
        if let HandleKind::Service(number) = kind {
            self.count_handle(number, |count| count + 1);
        }
        let number = next(&mut self.last.handle);
        if let Some(row) = self.callers.get_mut(&caller) {
            row.handles.insert(number, Handle { kind, granted });
        }
        number
    }

    fn count_handle(&mut self, service: u64, change: impl Fn(u32) -> u32) {
        if let Some(place) = self.place(service) {
            let row = &mut self.services[place];
            row.handles = change(row.handles);
        }
    }

    fn next_tag(&self, group: &Text) -> u32 {
        self.members(group).map(|row| row.config.tag).max().unwrap_or(0).saturating_add(1)
    }

    // -- Needs --

    /// The services that a configuration needs, in its order.
    fn needs_of<'a>(&'a self, config: &'a Config) -> impl Iterator<Item = &'a Service> {
        config.needs.iter().flat_map(|need| {
            let (name, group) = match need {
                Need::Service(name) => (self.named(name), None),
                Need::Group(group) => (None, Some(self.members(group))),
            };
            name.into_iter().chain(group.into_iter().flatten())
        })
    }

    /// Whether needs would have a cycle with a new service. As they have none yet, it would lead through this service.
    fn makes_cycle(&self, new: &Config) -> bool {
        let needs_new = |need: &Need| match need {
            Need::Service(name) => *name == new.name,
            Need::Group(group) => *group == new.group,
        };
        let mut seen = HashSet::new();
        let mut pending = vec![new];
        while let Some(config) = pending.pop() {
            if config.needs.iter().any(needs_new) {
                return true;
            }
            pending.extend(self.needs_of(config).filter(|row| seen.insert(row.number)).map(|row| &row.config));
        }
        false
    }

    /// What a service needs and that isn't RUNNING, each after its own needs, the service last.
    fn start_order(&self, target: &Service) -> VecDeque<u64> {
        let mut order = VecDeque::new();
        self.visit(target, &mut HashSet::new(), &mut order);
        order
    }

    fn visit(&self, row: &Service, seen: &mut HashSet<u64>, order: &mut VecDeque<u64>) {
        if row.status.state != RUNNING && seen.insert(row.number) {
            self.needs_of(&row.config).for_each(|need| self.visit(need, seen, order));
            order.push_back(row.number);
        }
    }

    fn is_ready(&self, config: &Config) -> bool {
        config.needs.iter().all(|need| match need {
            Need::Service(name) => self.named(name).is_some_and(|row| !row.marked && row.status.state == RUNNING),
            Need::Group(group) => self.members(group).any(|row| row.status.state == RUNNING),
        })
    }

    // -- Settling and leaving --

    fn settle(&mut self) {
        let mut plans = std::mem::take(&mut self.plans);
        plans.iter_mut().filter(|plan| plan.code.is_none()).for_each(|plan| self.settle_plan(plan));
        self.plans = plans;
    }

    fn settle_plan(&mut self, plan: &mut Plan) {
        while let Some(&front) = plan.entries.front() {
            let outcome = match self.fate(front, plan.tried) {
                Fate::Waits => return,
                Fate::Enters => {
                    let words = if front == plan.target { std::mem::take(&mut plan.words) } else { Vec::new() };
                    self.enter(front, words);
                    plan.tried = true;
                    return;
                }
                Fate::Runs => 0,
                Fate::Fails(code) => code,
            };
            plan.entries.pop_front();
            plan.tried = false;
            if front == plan.target {
                plan.code = Some(outcome);
                return;
            }
        }
    }

    fn fate(&self, number: u64, tried: bool) -> Fate {
        let Some(row) = self.service(number) else { return Fate::Fails(code::MARKED_FOR_DELETE) };
        match row.status.state {
            RUNNING => Fate::Runs,
            START_PENDING | STOP_PENDING | CONTINUE_PENDING | PAUSE_PENDING => Fate::Waits,
            _ if row.marked => Fate::Fails(code::MARKED_FOR_DELETE),
            _ if row.config.start == DISABLED_START => Fate::Fails(code::DISABLED),
            state if state == PAUSED || tried || !self.is_ready(&row.config) => Fate::Fails(code::DEPENDENCY_FAIL),
            _ if self.processes.len() >= MAX_PROCESSES => Fate::Fails(code::NO_THREAD),
            _ if self.lock.is_some() => Fate::Waits,
            _ => Fate::Enters,
        }
    }

    fn enter(&mut self, number: u64, words: Vec<Text>) {
        let Some(place) = self.place(number) else { return };
        let process = next(&mut self.last.process);
        let row = &mut self.services[place];
        row.status = Status::in_state(row.status.kind, START_PENDING, 0);
        row.process = process;
        self.processes.push(Process { number: process, service: number, phase: Phase::Wanted, pid: 0, controls: VecDeque::new() });
        self.wanted.push_back(Wanted { process, words });
    }

    fn purge(&mut self) {
        if self.marked.is_empty() {
            return;
        }
        let marked = std::mem::take(&mut self.marked);
        let (free, kept): (Vec<u64>, Vec<u64>) =
            marked.into_iter().partition(|&number| self.service(number).is_some_and(|row| row.status.state == STOPPED && row.handles == 0));
        self.marked = kept;
        for place in free.into_iter().filter_map(|number| self.place(number)).collect::<Vec<_>>().into_iter().rev() {
            let row = self.services.remove(place);
            self.by_name.remove(&row.config.name);
            self.by_display.remove(&row.config.display);
        }
    }

    /// One step: its effect, then the plans are settled, then marked services leave.
    fn step(&mut self, moment: u64, effect: impl FnOnce(&mut Self) -> Answer) -> Option<Answer> {
        self.moment = self.moment.max(moment);
        self.steps += 1;
        let answer = effect(self);
        self.settle();
        let answer = match answer {
            Answer::Plan(number) => self.take_decided(number).map_or(answer, |code| Answer::Reply(Reply::Code(code))),
            _ => answer,
        };
        self.purge();
        Some(answer)
    }

    fn decide(&mut self, target: u64, code: u32) {
        self.plans.iter_mut().filter(|plan| plan.target == target && plan.code.is_none()).for_each(|plan| plan.code = Some(code));
    }

    // -- Steps --

    fn join(&mut self, moment: u64, principal: Principal) -> Option<Answer> {
        if self.callers.len() >= MAX_CALLERS {
            return Some(Answer::TooMany);
        }
        self.step(moment, |m| {
            let number = next(&mut m.last.caller);
            m.callers.insert(number, Caller { principal, handles: HashMap::new() });
            Answer::Caller(number)
        })
    }

    fn call(&mut self, moment: u64, caller: u64, request: Request, fails: bool) -> Option<Answer> {
        self.callers.get(&caller)?;
        self.step(moment, |m| m.answer(caller, request, fails))
    }

    /// The code of a plan that is decided. It leaves.
    fn take_decided(&mut self, number: u64) -> Option<u32> {
        let place = self.plans.iter().position(|plan| plan.number == number)?;
        let code = self.plans[place].code?;
        self.plans.remove(place);
        Some(code)
    }

    fn end_start(&mut self, moment: u64, caller: u64, number: u64) -> Option<Answer> {
        let plan = self.plans.iter().find(|plan| plan.number == number)?;
        if plan.code.is_none() {
            return Some(Answer::Again);
        }
        if plan.caller != caller {
            return None;
        }
        let code = self.take_decided(number)?;
        self.step(moment, |_| Answer::Reply(Reply::Code(code)))
    }

    fn take_launch(&mut self, moment: u64) -> Option<Answer> {
        let Some(Wanted { process, .. }) = self.wanted.pop_front() else { return Some(Answer::Empty) };
        self.process(process, Phase::Wanted)?.phase = Phase::Taken;
        self.launches += 1;
        self.step(moment, |_| Answer::Launch(process))
    }

    fn launched(&mut self, moment: u64, number: u64, pid: u32) -> Option<Answer> {
        let process = self.process(number, Phase::Taken)?;
        (process.phase, process.pid) = (Phase::Launched, pid);
        let service = process.service;
        self.step(moment, |m| {
            m.decide(service, 0);
            Answer::Done
        })
    }

    fn launch_failed(&mut self, moment: u64, number: u64, code: u32) -> Option<Answer> {
        let service = self.process(number, Phase::Taken).filter(|_| code != 0)?.service;
        self.step(moment, |m| {
            m.decide(service, code);
            m.end_process(number, service, code)
        })
    }

    fn report(&mut self, moment: u64, number: u64, status: Status) -> Option<Answer> {
        let service = self.process(number, Phase::Launched)?.service;
        self.step(moment, |m| match m.current_service(number, service).map(|row| row.take(&status)) {
            None => Answer::Stale,
            Some(Ok(())) => Answer::Done,
            Some(Err(code)) => Answer::Refused(code),
        })
    }

    fn ended(&mut self, moment: u64, number: u64) -> Option<Answer> {
        let service = self.process(number, Phase::Launched)?.service;
        self.step(moment, |m| m.end_process(number, service, code::PROCESS_ABORTED))
    }

    /// A process leaves, and the service falls whose current one it was.
    fn end_process(&mut self, number: u64, service: u64, win32: u32) -> Answer {
        self.processes.retain(|row| row.number != number);
        self.current_service(number, service).map_or(Answer::Stale, |row| {
            row.fall(win32);
            Answer::Done
        })
    }

    fn take_control(&mut self, moment: u64, number: u64) -> Option<Answer> {
        let Some(process) = self.processes.iter_mut().find(|row| row.number == number) else { return Some(Answer::Over) };
        let Some(control) = process.controls.pop_front() else { return Some(Answer::Empty) };
        self.step(moment, |_| Answer::Control(control))
    }

    fn tick(&mut self, moment: u64) -> Option<Answer> {
        let now = self.moment.max(moment);
        let is_due = |plan: &Plan| plan.code.is_none() && plan.deadline <= now;
        if !self.plans.iter().any(is_due) {
            return Some(Answer::Idle);
        }
        self.step(moment, |m| {
            m.plans.iter_mut().filter(|plan| is_due(plan)).for_each(|plan| plan.code = Some(code::REQUEST_TIMEOUT));
            Answer::Done
        })
    }

    fn gone(&mut self, moment: u64, caller: u64) -> Option<Answer> {
        let row = self.callers.remove(&caller)?;
        self.step(moment, |m| {
            for handle in row.handles.into_values() {
                if let HandleKind::Service(number) = handle.kind {
                    m.count_handle(number, |count| count - 1);
                }
            }
            m.plans.retain(|plan| plan.caller != caller);
            m.lock.take_if(|lock| lock.caller == caller);
            Answer::Done
        })
    }

    fn no_memory(&mut self, caller: u64) -> Option<Answer> {
        self.callers.get(&caller)?;
        self.step(0, |_| Answer::Done)
    }

    // -- Calls --

    fn answer(&mut self, caller: u64, request: Request, fails: bool) -> Answer {
        fn code_of(result: Result<(), u32>) -> Reply {
            Reply::Code(result.err().unwrap_or(0))
        }
        fn handle_or(result: Result<u64, u32>, refused: u64) -> Reply {
            result.map_or_else(|code| Reply::Handle(refused, code), |handle| Reply::Handle(handle, 0))
        }
        Answer::Reply(match request {
            Request::Close { handle } => handle_or(self.close(caller, handle).map(|()| 0), handle),
            Request::Control { handle, control } => self.control(caller, handle, control),
            Request::Delete { handle } => code_of(self.delete(caller, handle, fails)),
            Request::Lock { handle } => handle_or(self.lock(caller, handle), 0),
            Request::QueryStatus { handle } => match self.opened(caller, handle, 4) {
                Ok(place) => Reply::State(self.services[place].status, 0),
                Err(code) => Reply::State(Status::default(), code),
            },
            Request::SetStatus { handle, status } => code_of(self.set_status(caller, handle, &status)),
            Request::Unlock { handle } => handle_or(self.unlock(caller, handle).map(|()| 0), handle),
            Request::Create(new) => {
                let asked = new.tag;
                match self.create(caller, *new, fails) {
                    Ok((tag, handle)) => Reply::Made(asked.map(|_| tag), handle, 0),
                    Err(code) => Reply::Made(asked, 0, code),
                }
            }
            Request::OpenManager { database, access } => handle_or(self.open_manager(caller, database, access), 0),
            Request::OpenService { handle, name, access } => handle_or(self.open_service(caller, handle, &name, access), 0),
            Request::QueryLock { handle, size } => self.query_lock(caller, handle, size),
            Request::Start { handle, words } => match self.start(caller, handle, words) {
                Ok(plan) => return Answer::Plan(plan),
                Err(code) => Reply::Code(code),
            },
            Request::DisplayName { handle, name, size } => {
                self.other_name(caller, handle, size, self.named(&name).map(|row| &row.config.display))
            }
            Request::KeyName { handle, name, size } => {
                let number = self.by_display.get(&name);
                self.other_name(caller, handle, size, number.and_then(|&number| self.service(number)).map(|row| &row.config.name))
            }
        })
    }

    fn close(&mut self, caller: u64, handle: u64) -> Result<(), u32> {
        match self.handle(caller, handle)?.kind {
            HandleKind::Manager => {}
            HandleKind::Service(number) => self.count_handle(number, |count| count - 1),
            HandleKind::Lock => return Err(code::INVALID_HANDLE),
        }
        self.drop_handle(caller, handle);
        Ok(())
    }

    fn drop_handle(&mut self, caller: u64, handle: u64) {
        if let Some(row) = self.callers.get_mut(&caller) {
            row.handles.remove(&handle);
        }
    }

    fn control(&mut self, caller: u64, handle: u64, control: u32) -> Reply {
        let judged = self.service_at(caller, handle).map(|(place, granted)| (place, self.judge(place, granted, control)));
        match judged {
            Err(code) => Reply::State(Status::default(), code),
            Ok((place, Err(code @ (code::INVALID_SERVICE_CONTROL | code::CANNOT_ACCEPT_CTRL | code::NOT_ACTIVE)))) => {
                Reply::State(self.services[place].status, code)
            }
            Ok((_, Err(code))) => Reply::State(Status::default(), code),
            Ok((place, Ok(process))) => {
                self.processes[process].controls.push_back(control);
                Reply::State(self.services[place].status, 0)
            }
        }
    }

    /// The place of the process that the control goes to, or what it is refused with.
    fn judge(&self, place: usize, granted: u32, control: u32) -> Result<usize, u32> {
        let row = &self.services[place];
        let (right, accepted) = control_needs(control).ok_or(code::INVALID_PARAMETER)?;
        require(granted, right)?;
        match row.status.state {
            STOPPED => return Err(code::NOT_ACTIVE),
            START_PENDING | STOP_PENDING => return Err(code::CANNOT_ACCEPT_CTRL),
            _ if row.status.accepted & accepted != accepted => return Err(code::INVALID_SERVICE_CONTROL),
            _ => {}
        }
        if control == 1 && self.has_active_dependents(&row.config.name) {
            return Err(code::DEPENDENT_SERVICES_RUNNING);
        }
        let process = self.processes.iter().position(|process| process.number == row.process);
        process.filter(|&process| self.processes[process].controls.len() < MAX_CONTROLS).ok_or(code::CANNOT_ACCEPT_CTRL)
    }

    fn has_active_dependents(&self, name: &Text) -> bool {
        let names_it = |need: &Need| matches!(need, Need::Service(needed) if needed == name);
        self.services.iter().any(|row| row.status.state != STOPPED && row.config.needs.iter().any(names_it))
    }

    fn delete(&mut self, caller: u64, handle: u64, fails: bool) -> Result<(), u32> {
        let place = self.opened(caller, handle, 0x10000)?;
        let row = &mut self.services[place];
        if row.marked {
            return Err(code::MARKED_FOR_DELETE);
        }
        if fails {
            return Err(code::CANTWRITE);
        }
        row.marked = true;
        let number = row.number;
        let among = self.marked.partition_point(|&marked| marked < number);
        self.marked.insert(among, number);
        Ok(())
    }

    fn lock(&mut self, caller: u64, handle: u64) -> Result<u64, u32> {
        self.opened_manager(caller, handle, 8)?;
        if self.lock.is_some() {
            return Err(code::DATABASE_LOCKED);
        }
        self.has_handle_room(caller)?;
        self.lock = Some(Lock { caller, since: self.moment });
        Ok(self.add_handle(caller, HandleKind::Lock, 0))
    }

    fn unlock(&mut self, caller: u64, handle: u64) -> Result<(), u32> {
        match self.handle(caller, handle) {
            Ok(Handle { kind: HandleKind::Lock, .. }) => {
                self.lock = None;
                self.drop_handle(caller, handle);
                Ok(())
            }
            _ => Err(code::INVALID_LOCK),
        }
    }

    fn query_lock(&self, caller: u64, handle: u64, size: u32) -> Reply {
        let refused = |needed, code| Reply::LockState { held: 0, owner: None, seconds: 0, needed, code };
        if let Err(code) = self.opened_manager(caller, handle, 0x10) {
            return refused(0, code);
        }
        let owner = Text::from(match self.lock.as_ref().map(|lock| self.principal(lock.caller)) {
            None => "",
            Some(Principal::Admin) => "admin",
            Some(Principal::User) => "user",
        });
        let needed = 12 + 2 * (owner.len() as u32 + 1);
        if size < needed {
            return refused(needed, code::INSUFFICIENT_BUFFER);
        }
        let seconds = self.lock.as_ref().map_or(0, |lock| (self.moment - lock.since) / 1000);
        let seconds = u32::try_from(seconds).unwrap_or(u32::MAX);
        Reply::LockState { held: u32::from(self.lock.is_some()), owner: Some(owner), seconds, needed, code: 0 }
    }

    fn set_status(&mut self, caller: u64, handle: u64, status: &Status) -> Result<(), u32> {
        let place = self.opened(caller, handle, 0x8000)?;
        let current = self.services[place].process;
        self.process(current, Phase::Launched).ok_or(code::INVALID_DATA)?;
        self.services[place].take(status)
    }

    fn create(&mut self, caller: u64, new: NewService, fails: bool) -> Result<(u32, u64), u32> {
        self.opened_manager(caller, new.handle, 2)?;
        let granted = granted(self.principal(caller), false, new.access).ok_or(code::ACCESS_DENIED)?;
        let group = new.group.unwrap_or_default();
        let needs = new.needs.map_or(Some(Vec::new()), |bytes| read_needs(&bytes));
        let is_request_sound = needs.is_some() && (new.tag.is_none() || !group.is_empty());
        let config = Config {
            display: new.display.filter(|display| !display.is_empty()).unwrap_or_else(|| new.name.clone()),
            name: new.name,
            kind: new.kind,
            start: new.start,
            error: new.error,
            path: new.path,
            tag: new.tag.map_or(0, |_| self.next_tag(&group)),
            group,
            needs: needs.unwrap_or_default(),
        };
        config.check(new.account.as_ref(), is_request_sound)?;
        match self.named(&config.name) {
            Some(row) if row.marked => return Err(code::MARKED_FOR_DELETE),
            Some(_) => return Err(code::EXISTS),
            None if self.by_name.contains_key(&config.display) => return Err(code::DUPLICATE_NAME),
            None if self.by_display.contains_key(&config.display) => return Err(code::DUPLICATE_NAME),
            None => {}
        }
        if self.makes_cycle(&config) {
            return Err(code::CIRCULAR_DEPENDENCY);
        }
        if self.services.len() >= MAX_SERVICES {
            return Err(code::NOT_ENOUGH_QUOTA);
        }
        self.has_handle_room(caller)?;
        if fails {
            return Err(code::CANTWRITE);
        }
        let number = next(&mut self.last.service);
        let tag = config.tag;
        self.by_name.insert(config.name.clone(), number);
        self.by_display.insert(config.display.clone(), number);
        let status = Status::in_state(config.kind, STOPPED, code::NEVER_STARTED);
        self.services.push(Service { number, config, status, marked: false, process: 0, handles: 0 });
        Ok((tag, self.add_handle(caller, HandleKind::Service(number), granted)))
    }

    fn open_manager(&mut self, caller: u64, database: Option<Text>, access: u32) -> Result<u64, u32> {
        match database {
            Some(name) if name == Text::from("ServicesFailed") => return Err(code::DATABASE_DOES_NOT_EXIST),
            Some(name) if !name.is_empty() && name != Text::from("ServicesActive") => return Err(code::INVALID_NAME),
            _ => {}
        }
        let granted = granted(self.principal(caller), true, access).ok_or(code::ACCESS_DENIED)?;
        self.has_handle_room(caller)?;
        Ok(self.add_handle(caller, HandleKind::Manager, granted | 1))
    }

    fn open_service(&mut self, caller: u64, handle: u64, name: &Text, access: u32) -> Result<u64, u32> {
        self.manager_mask(caller, handle)?;
        if !is_name(name) {
            return Err(code::INVALID_NAME);
        }
        let number = self.named(name).ok_or(code::DOES_NOT_EXIST)?.number;
        let granted = granted(self.principal(caller), false, access).ok_or(code::ACCESS_DENIED)?;
        self.has_handle_room(caller)?;
        Ok(self.add_handle(caller, HandleKind::Service(number), granted))
    }

    fn start(&mut self, caller: u64, handle: u64, words: Option<Vec<Text>>) -> Result<u64, u32> {
        let (place, granted) = self.service_at(caller, handle)?;
        let words = words.filter(|words| words.iter().all(Text::is_well_formed)).ok_or(code::INVALID_PARAMETER)?;
        require(granted, 0x10)?;
        let row = &self.services[place];
        let target = row.number;
        let is_missing = |need: &Need| matches!(need, Need::Service(name) if self.named(name).is_none_or(|row| row.marked));
        if row.marked {
            return Err(code::MARKED_FOR_DELETE);
        } else if self.lock.is_some() {
            return Err(code::DATABASE_LOCKED);
        } else if row.status.state != STOPPED || self.plans.iter().any(|plan| plan.target == target && plan.code.is_none()) {
            return Err(code::ALREADY_RUNNING);
        } else if row.config.start == DISABLED_START {
            return Err(code::DISABLED);
        } else if row.config.needs.iter().any(is_missing) {
            return Err(code::DEPENDENCY_DELETED);
        }
        let entries = self.start_order(row);
        let number = next(&mut self.last.plan);
        let deadline = self.moment.saturating_add(DEADLINE);
        self.plans.push(Plan { number, caller, target, entries, tried: false, words, deadline, code: None });
        Ok(number)
    }

    fn other_name(&self, caller: u64, handle: u64, size: u32, other: Option<&Text>) -> Reply {
        match (self.manager_mask(caller, handle), other) {
            (Err(code), _) => Reply::Name(Text::default(), 0, code),
            (Ok(_), None) => Reply::Name(Text::default(), 0, code::DOES_NOT_EXIST),
            (Ok(_), Some(name)) if (size as usize) <= name.len() => {
                Reply::Name(Text::default(), name.len() as u32, code::INSUFFICIENT_BUFFER)
            }
            (Ok(_), Some(name)) => Reply::Name(name.clone(), name.len() as u32, 0),
        }
    }
}

// ---- Bodies ----

/// Reads the items of a body; None where one can't be read.
struct Reader<'a> {
    body: &'a [u8],
    at: usize,
}

impl<'a> Reader<'a> {
    fn take(&mut self, count: usize) -> Option<&'a [u8]> {
        let taken = self.body.get(self.at..)?.get(..count)?;
        self.at += count;
        Some(taken)
    }

    fn u32(&mut self) -> Option<u32> {
        self.at = self.at.next_multiple_of(4);
        self.take(4).map(|bytes| u32::from_le_bytes([bytes[0], bytes[1], bytes[2], bytes[3]]))
    }

    fn handle(&mut self) -> Option<u64> {
        let [attributes, low, high, third, fourth] = [self.u32()?, self.u32()?, self.u32()?, self.u32()?, self.u32()?];
        let is_ours = attributes == 0 && third == 0 && fourth == 0;
        Some(if is_ours { u64::from(high) << 32 | u64::from(low) } else { 0 })
    }

    fn status(&mut self) -> Option<Status> {
        let mut numbers = [0; 7];
        for number in &mut numbers {
            *number = self.u32()?;
        }
        Some(Status::from_numbers(numbers))
    }

    fn text(&mut self) -> Option<Text> {
        let (most, offset, count) = (self.u32()?, self.u32()?, self.u32()?);
        if offset != 0 || count == 0 || count > most {
            return None;
        }
        let bytes = self.take(2 * count as usize)?;
        let mut units: Vec<u16> = bytes.chunks_exact(2).map(|pair| u16::from_le_bytes([pair[0], pair[1]])).collect();
        (units.pop() == Some(0) && !units.contains(&0)).then_some(Text(units))
    }

    fn bytes(&mut self) -> Option<&'a [u8]> {
        let count = self.u32()?;
        self.take(count as usize)
    }

    fn some<T>(&mut self, read: impl FnOnce(&mut Self) -> Option<T>) -> Option<Option<T>> {
        match self.u32()? {
            0 => Some(None),
            _ => read(self).map(Some),
        }
    }

    /// Bytes that may be absent, and their size behind them.
    fn sized_bytes(&mut self) -> Option<Option<Vec<u8>>> {
        let bytes = self.some(Self::bytes)?;
        let size = self.u32()?;
        bytes.is_none_or(|bytes| bytes.len() == size as usize).then(|| bytes.map(<[u8]>::to_vec))
    }

    /// The words of a start: present, or absent where a pointer is missing.
    fn words(&mut self) -> Option<Option<Vec<Text>>> {
        let argc = self.u32()?;
        if argc > 1024 {
            return None;
        }
        if self.u32()? == 0 {
            return Some((argc == 0).then(Vec::new));
        }
        if self.u32()? != argc {
            return None;
        }
        let pointers = (0..argc).map(|_| self.u32()).collect::<Option<Vec<u32>>>()?;
        let words = pointers.iter().filter(|&&pointer| pointer != 0).map(|_| self.text()).collect::<Option<Vec<Text>>>()?;
        Some((words.len() == pointers.len()).then_some(words))
    }

    fn finish(&self) -> Option<()> {
        let rest = self.body.len() - self.at;
        (rest == 0 || rest <= 3 && self.body.len() % 4 == 0).then_some(())
    }
}

fn read_request(opnum: u16, body: &[u8]) -> Option<Request> {
    let mut r = Reader { body, at: 0 };
    let request = match opnum {
        0 => Request::Close { handle: r.handle()? },
        1 => Request::Control { handle: r.handle()?, control: r.u32()? },
        2 => Request::Delete { handle: r.handle()? },
        3 => Request::Lock { handle: r.handle()? },
        6 => Request::QueryStatus { handle: r.handle()? },
        7 => Request::SetStatus { handle: r.handle()?, status: r.status()? },
        8 => Request::Unlock { handle: r.handle()? },
        12 => {
            let (handle, name, display) = (r.handle()?, r.text()?, r.some(Reader::text)?);
            let (access, kind, start, error) = (r.u32()?, r.u32()?, r.u32()?, r.u32()?);
            let (path, group, tag) = (r.text()?, r.some(Reader::text)?, r.some(Reader::u32)?);
            let (needs, account) = (r.sized_bytes()?, r.some(Reader::text)?);
            r.sized_bytes()?;
            Request::Create(Box::new(NewService { handle, name, display, access, kind, start, error, path, group, tag, needs, account }))
        }
        15 => {
            r.some(Reader::text)?;
            Request::OpenManager { database: r.some(Reader::text)?, access: r.u32()? }
        }
        16 => Request::OpenService { handle: r.handle()?, name: r.text()?, access: r.u32()? },
        18 => Request::QueryLock { handle: r.handle()?, size: r.u32().filter(|&size| size <= 4096)? },
        19 => Request::Start { handle: r.handle()?, words: r.words()? },
        20 => Request::DisplayName { handle: r.handle()?, name: r.text()?, size: r.u32()? },
        21 => Request::KeyName { handle: r.handle()?, name: r.text()?, size: r.u32()? },
        _ => return None,
    };
    r.finish()?;
    Some(request)
}

struct Writer<'a> {
    out: &'a mut Vec<u8>,
    referent: u32,
}

impl Writer<'_> {
    fn u32(&mut self, value: u32) -> &mut Self {
        self.out.resize(self.out.len().next_multiple_of(4), 0);
        self.out.extend(value.to_le_bytes());
        self
    }

    fn handle(&mut self, number: u64) -> &mut Self {
        self.u32(0).u32(number as u32).u32((number >> 32) as u32).u32(0).u32(0)
    }

    fn text(&mut self, text: &Text) -> &mut Self {
        let count = text.len() as u32 + 1;
        self.u32(count).u32(0).u32(count);
        self.out.extend(text.0.iter().chain(&[0]).flat_map(|unit| unit.to_le_bytes()));
        self
    }

    fn referent(&mut self) -> &mut Self {
        let referent = self.referent;
        self.referent += 4;
        self.u32(referent)
    }

    fn some_u32(&mut self, value: Option<u32>) -> &mut Self {
        match value {
            None => self.u32(0),
            Some(value) => self.referent().u32(value),
        }
    }
}

fn write_reply(reply: &Reply, out: &mut Vec<u8>) {
    let mut w = Writer { out, referent: 0x20000 };
    match reply {
        Reply::Handle(handle, code) => w.handle(*handle).u32(*code),
        Reply::State(status, code) => {
            status.numbers().into_iter().for_each(|number| {
                w.u32(number);
            });
            w.u32(*code)
        }
        Reply::Code(code) => w.u32(*code),
        Reply::Made(tag, handle, code) => w.some_u32(*tag).handle(*handle).u32(*code),
        Reply::LockState { held, owner, seconds, needed, code } => {
            w.u32(*held);
            match owner {
                None => w.u32(0).u32(*seconds),
                Some(owner) => w.referent().u32(*seconds).text(owner),
            };
            w.u32(*needed).u32(*code)
        }
        Reply::Name(name, size, code) => w.text(name).u32(*size).u32(*code),
    };
}

// ---- Replay ----

/// A decimal number without a sign or a leading zero.
fn number<T: TryFrom<u64>>(word: &[u8]) -> Option<T> {
    if word.is_empty() || word.len() > 1 && word[0] == b'0' {
        return None;
    }
    let value = word.iter().try_fold(0u64, |value, &byte| {
        let digit = byte.is_ascii_digit().then(|| u64::from(byte - b'0'))?;
        value.checked_mul(10)?.checked_add(digit)
    })?;
    T::try_from(value).ok()
}

fn decode_hex(text: &[u8]) -> Option<Vec<u8>> {
    fn nibble(digit: u8) -> Option<u8> {
        match digit {
            b'0'..=b'9' => Some(digit - b'0'),
            b'a'..=b'f' => Some(digit - b'a' + 10),
            _ => None,
        }
    }
    if text.len() % 2 != 0 {
        return None;
    }
    text.chunks_exact(2).map(|pair| Some(nibble(pair[0])? << 4 | nibble(pair[1])?)).collect()
}

fn encode_hex(bytes: &[u8], out: &mut Vec<u8>) {
    const DIGITS: &[u8; 16] = b"0123456789abcdef";
    out.extend(bytes.iter().flat_map(|&byte| [DIGITS[usize::from(byte >> 4)], DIGITS[usize::from(byte & 15)]]));
}

/// Makes the step of a line; None where it isn't one, or where its condition isn't met.
fn answer_line(manager: &mut Manager, line: &[u8]) -> Option<Answer> {
    let words: Vec<&[u8]> = line.split(|&byte| byte == b' ').collect();
    let (moment, words) = words.split_first()?;
    let moment = number(moment)?;
    match *words {
        [b"join", b"admin"] => manager.join(moment, Principal::Admin),
        [b"join", b"user"] => manager.join(moment, Principal::User),
        [verb @ (b"call" | b"failcall"), caller, opnum, body] => {
            let request = read_request(number(opnum)?, &decode_hex(body)?)?;
            manager.call(moment, number(caller)?, request, verb == b"failcall")
        }
        [b"end", caller, plan] => manager.end_start(moment, number(caller)?, number(plan)?),
        [b"take"] => manager.take_launch(moment),
        [b"launched", process, pid] => manager.launched(moment, number(process)?, number(pid)?),
        [b"unlaunched", process, code] => manager.launch_failed(moment, number(process)?, number(code)?),
        [b"report", process, ref numbers @ ..] => {
            let numbers: Vec<u32> = numbers.iter().map(|word| number(word)).collect::<Option<_>>()?;
            manager.report(moment, number(process)?, Status::from_numbers(numbers.try_into().ok()?))
        }
        [b"ended", process] => manager.ended(moment, number(process)?),
        [b"control", process] => manager.take_control(moment, number(process)?),
        [b"tick"] => manager.tick(moment),
        [b"gone", caller] => manager.gone(moment, number(caller)?),
        [b"nomem", caller] => manager.no_memory(number(caller)?),
        _ => None,
    }
}

fn write_answer(answer: &Answer, body: &mut Vec<u8>, text: &mut Vec<u8>) -> io::Result<()> {
    match answer {
        Answer::Caller(number) => writeln!(text, "caller {number}"),
        Answer::TooMany => writeln!(text, "toomany"),
        Answer::Reply(reply) => {
            body.clear();
            write_reply(reply, body);
            text.extend(b"reply ");
            encode_hex(body, text);
            writeln!(text)
        }
        Answer::Plan(number) => writeln!(text, "plan {number}"),
        Answer::Again => writeln!(text, "again"),
        Answer::Launch(number) => writeln!(text, "launch {number}"),
        Answer::Control(control) => writeln!(text, "control {control}"),
        Answer::Empty => writeln!(text, "empty"),
        Answer::Over => writeln!(text, "over"),
        Answer::Done => writeln!(text, "done"),
        Answer::Refused(code) => writeln!(text, "refused {code}"),
        Answer::Stale => writeln!(text, "stale"),
        Answer::Idle => writeln!(text, "idle"),
    }
}

const READ_FAULT: u8 = 1;
const WRITE_FAULT: u8 = 2;
const NO_JOB: u8 = 5;
const TRUNCATED: u8 = 6;
const BAD_LINE: u8 = 11;

fn replay(input: impl BufRead, output: &mut impl Write) -> Result<(), u8> {
    let mut manager = Manager::default();
    let ended = replay_lines(&mut manager, input, output);
    output.flush().map_err(|_| WRITE_FAULT)?;
    ended
}

fn replay_lines(manager: &mut Manager, mut input: impl BufRead, output: &mut impl Write) -> Result<(), u8> {
    let (mut line, mut body, mut text) = (Vec::new(), Vec::new(), Vec::new());
    for count in 1u64.. {
        line.clear();
        if input.read_until(b'\n', &mut line).map_err(|_| READ_FAULT)? == 0 {
            break;
        }
        let line = line.strip_suffix(b"\n").ok_or(TRUNCATED)?;
        text.clear();
        let answer = answer_line(manager, line);
        match &answer {
            Some(answer) => write_answer(answer, &mut body, &mut text),
            None => writeln!(text, "bad line {count}"),
        }
        .and_then(|()| output.write_all(&text))
        .map_err(|_| WRITE_FAULT)?;
        answer.ok_or(BAD_LINE)?;
    }
    Ok(())
}

// ---- Generate ----

/// The stated list of steps; None would mean that a step was refused.
fn generate(count: usize) -> Option<Manager> {
    fn opened(answer: Answer) -> Option<u64> {
        match answer {
            Answer::Reply(Reply::Handle(handle, 0) | Reply::Made(_, handle, 0)) => Some(handle),
            _ => None,
        }
    }
    let stopped = Status { kind: 0x10, state: STOPPED, ..Status::default() };
    let running = Status { kind: 0x10, state: RUNNING, ..Status::default() };
    let mut manager = Manager::default();
    let Answer::Caller(caller) = manager.join(0, Principal::Admin)? else { return None };
    let handle = opened(manager.call(0, caller, Request::OpenManager { database: None, access: 0x0200_0000 }, false)?)?;
    let mut handles = Vec::with_capacity(count);
    for i in 1..=count {
        let new = NewService {
            handle,
            name: Text::from(format!("S{i}").as_str()),
            display: None,
            access: 0xF01FF,
            kind: 0x10,
            start: 3,
            error: 1,
            path: Text::from("/bin/true"),
            group: None,
            tag: None,
            needs: (i > 1).then(|| format!("S{}\0\0", i / 2).encode_utf16().flat_map(u16::to_le_bytes).collect()),
            account: None,
        };
        handles.push(opened(manager.call(0, caller, Request::Create(Box::new(new)), false)?)?);
    }
    let mut processes = Vec::new();
    for &handle in handles.iter().rev() {
        let Answer::Plan(plan) = manager.call(0, caller, Request::Start { handle, words: Some(Vec::new()) }, false)? else { return None };
        while let Answer::Launch(process) = manager.take_launch(0)? {
            manager.launched(0, process, process as u32)?;
            manager.report(0, process, running)?;
            processes.push(process);
        }
        manager.end_start(0, caller, plan)?;
        for process in processes.drain(..).rev() {
            manager.report(0, process, stopped)?;
            manager.ended(0, process)?;
        }
    }
    manager.gone(0, caller)?;
    Some(manager)
}

fn print_summary(manager: &Manager, output: &mut impl Write) -> io::Result<()> {
    writeln!(output, "steps {}", manager.steps)?;
    writeln!(output, "services {}", manager.services.len())?;
    writeln!(output, "launches {}", manager.launches)?;
    writeln!(output, "running {}", manager.services.iter().filter(|row| row.status.state == RUNNING).count())?;
    output.flush()
}

fn run(words: &[String]) -> Result<(), u8> {
    let mut output = BufWriter::with_capacity(1 << 16, io::stdout().lock());
    match words {
        [mode] if mode == "replay" => replay(BufReader::with_capacity(1 << 16, io::stdin().lock()), &mut output),
        [mode, count] if mode == "generate" => {
            let count = number::<usize>(count.as_bytes()).filter(|count| (1..=512).contains(count)).ok_or(NO_JOB)?;
            let manager = generate(count).ok_or(NO_JOB)?;
            print_summary(&manager, &mut output).map_err(|_| WRITE_FAULT)
        }
        _ => Err(NO_JOB),
    }
}

fn main() -> ExitCode {
    let words: Vec<String> = std::env::args_os().skip(1).map(|word| word.to_string_lossy().into_owned()).collect();
    match run(&words) {
        Ok(()) => ExitCode::SUCCESS,
        Err(status) => ExitCode::from(status),
    }
}

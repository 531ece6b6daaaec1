//! The proved library, asked through a pipe or in this process: `serve.c` lends its calls, this module speaks to it. What comes back of each call is its outcome and
//! the contents of every buffer that it could write.

pub mod compare;
pub mod inputs;
pub mod texts;

use compare::Input;
use independent::{host, Added, Answer, Counts, Form, Refusal, Rule, FORM_1, FORM_2, FORM_4};
use std::io::{BufReader, Read, Write};
use std::os::unix::process::ExitStatusExt;
use std::process::{Child, ChildStdin, ChildStdout, Command, Stdio};

/// The library, with the request that is being put together and the reply to it as far as it has not been read.
pub struct Library {
    server: Server,
    request: Vec<u8>,
    reply: Vec<u8>,
    read: usize,
    /// The bytes of stack that a call is made on, over a page that nothing may touch; 0 is the process's own.
    pub stack: u32,
}

/// What holds the library: a process behind a pipe, or this one.
enum Server {
    Pipe { child: Child, to: ChildStdin, from: BufReader<ChildStdout> },
    Here(Serve),
}

/// serve.h's call: a request and its length, and where its reply stands; the length of that.
pub type Serve = unsafe extern "C" fn(*const u8, usize, *mut *const u8) -> usize;

/// What a call returned: the numbers of its answer, or its refusal.
pub type Outcome<T> = Result<T, Refusal>;

/// Who a call is made of: the calls that Rattle code makes, which take forms 1 and 2, the C host's, which take form 1 and are lent no words, those on a turned index,
/// which take form 3, or those on a plain hierarchy, which take form 4. The host has no list and no build; there is no call for all pairs on the last two, and no list of a
/// plain hierarchy.
#[derive(Clone, Copy, Debug, PartialEq, Eq)]
pub enum Face {
    Ordinary,
    Host,
    Turned,
    Hierarchy,
}

/// Those that take ordinary indexes.
pub const FACES: [Face; 2] = [Face::Ordinary, Face::Host];

/// What the independent program does in its place.
impl Face {
    pub fn open(self, index: &[u8], marks: &mut [u8], words: &mut [u32]) -> Outcome<Counts> {
        match self {
            Face::Ordinary => independent::open(index, marks, words),
            Face::Host => host::open(index, marks),
            Face::Turned => independent::open_turned(index, marks, words),
            Face::Hierarchy => independent::open_hierarchy(index, marks, words),
        }
    }

    pub fn ask(self, index: &[u8], source: u32, target: u32, marks: &mut [u8], words: &mut [u32]) -> Outcome<Answer> {
        match self {
            Face::Ordinary => independent::ask(index, source, target, marks, words),
            Face::Host => host::ask(index, source, target, marks),
            Face::Turned => independent::ask_turned(index, source, target, marks, words),
            Face::Hierarchy => independent::ask_hierarchy(index, source, target, marks, words),
        }
    }

    pub fn ask_all(self, index: &[u8], sources: &[u32], targets: &[u32], marks: &mut [u8], words: &mut [u32], answers: &mut [u32]) -> Outcome<u32> {
        match self {
            Face::Ordinary => independent::ask_all(index, sources, targets, marks, words, answers),
            Face::Host => host::ask_all(index, sources, targets, marks, answers),
            Face::Turned | Face::Hierarchy => unreachable!("it has no call for all pairs"),
        }
    }

    pub fn list(self, index: &[u8], vertex: u32, marks: &mut [u8], words: &mut [u32], out: &mut [u32]) -> Outcome<u32> {
        match self {
            Face::Ordinary => independent::list(index, vertex, marks, words, out),
            Face::Host | Face::Hierarchy => unreachable!("it has no list"),
            Face::Turned => independent::list_turned(index, vertex, marks, words, out),
        }
    }

    /// The builds of a turned index and of a plain hierarchy are told no form.
    pub fn build(self, input: &Input, work: &mut [u32], out: &mut [u8]) -> Outcome<u32> {
        let Input { form, n, sources, targets, orders, d } = input;
        match self {
            Face::Ordinary => independent::build(*form, *n, sources, targets, orders, *d, work, out),
            Face::Host => unreachable!("it has no build"),
            Face::Turned => independent::build_turned(*n, sources, targets, orders, *d, work, out),
            Face::Hierarchy => independent::build_hierarchy(*n, sources, targets, orders, *d, work, out),
        }
    }
}

/// The conversions that there are, each a form and the one that it is turned into.
#[derive(Clone, Copy, Debug, PartialEq, Eq)]
pub enum Way {
    Up,
    Down,
    ToHierarchy,
    FromHierarchy,
}

impl Way {
    pub fn from(self) -> Form {
        match self {
            Way::Up => FORM_1,
            Way::Down | Way::ToHierarchy => FORM_2,
            Way::FromHierarchy => FORM_4,
        }
    }

    pub fn to(self) -> Form {
        self.back().from()
    }

    pub fn back(self) -> Way {
        match self {
            Way::Up => Way::Down,
            Way::Down => Way::Up,
            Way::ToHierarchy => Way::FromHierarchy,
            Way::FromHierarchy => Way::ToHierarchy,
        }
    }

    fn call(self) -> u32 {
        match self {
            Way::Up => CONVERT_UP,
            Way::Down => CONVERT_DOWN,
            Way::ToHierarchy => TO_HIERARCHY,
            Way::FromHierarchy => FROM_HIERARCHY,
        }
    }

    /// What the independent program does in its place.
    pub fn convert(self, index: &[u8], marks: &mut [u8], words: &mut [u32], out: &mut [u8]) -> Outcome<u32> {
        match self {
            Way::Up => independent::convert_up(index, marks, out),
            Way::Down => independent::convert_down(index, marks, words, out),
            Way::ToHierarchy => independent::to_hierarchy(index, marks, words, out),
            Way::FromHierarchy => independent::from_hierarchy(index, marks, words, out),
        }
    }
}

/// An answer with the marks after it, how many words at the front are 0 then, and how many behind them are not as they were.
pub struct Reply {
    pub said: Outcome<Answer>,
    pub marks: Vec<u8>,
    pub cleared: usize,
    pub altered: usize,
}

const OPEN: u32 = 1;
const ASK: u32 = 2;
const LIST: u32 = 3;
const BUILD: u32 = 4;
const ASK_MANY: u32 = 5;
const RUN: u32 = 6;
const ASK_ALL: u32 = 7;
const CONVERT_UP: u32 = 8;
const CONVERT_DOWN: u32 = 9;
const CHAIN: u32 = 10;
const ADD: u32 = 22;
const ASK_ADDED: u32 = 23;
const SETTLE_LISTS: u32 = 11;
const SETTLE_RULES: u32 = 12;
const READ_MATRIX: u32 = 18;
const WRITE_MATRIX: u32 = 19;
const BUILD_LISTS: u32 = 14;
const OPEN_LISTS: u32 = 15;
const ASK_LISTS: u32 = 16;
const ASK_ALL_LISTS: u32 = 17;
const TO_HIERARCHY: u32 = 20;
const FROM_HIERARCHY: u32 = 21;

/// The signal of a touch that is forbidden.
const SIGSEGV: i32 = 11;

/// What a server that has ended leaves to say.
const UNANSWERED: &str = "the library answers, and touches nothing but what it was lent";

/// The server that `outside/make` made, unless the environment names another.
fn server() -> String {
    std::env::var("DROBISTEN_SERVER").unwrap_or_else(|_| concat!(env!("CARGO_MANIFEST_DIR"), "/../target/outside/serve").to_string())
}

impl Library {
    /// Behind a pipe.
    pub fn start() -> Library {
        let mut child = Command::new(server())
            .stdin(Stdio::piped())
            .stdout(Stdio::piped())
            .spawn()
            .expect("the server starts: run outside/make first");
        let to = child.stdin.take().unwrap();
        let from = BufReader::with_capacity(1 << 20, child.stdout.take().unwrap());
        Library::over(Server::Pipe { child, to, from })
    }

    /// In this process, which ends where a call touches what it was not lent.
    ///
    /// # Safety
    /// The function is that of serve.h, and no other thread calls it.
    pub unsafe fn here(serve: Serve) -> Library {
        Library::over(Server::Here(serve))
    }

    fn over(server: Server) -> Library {
        Library { server, request: Vec::new(), reply: Vec::new(), read: 0, stack: 0 }
    }

    /// Begins a request.
    fn call(&mut self, call: u32, face: Face) {
        assert!(self.request.is_empty() && self.read == self.reply.len(), "the last request is made, and its reply read to the end");
        for x in [call, face as u32, self.stack] {
            self.number(x);
        }
    }

    fn number(&mut self, x: u32) {
        self.request.extend_from_slice(&x.to_le_bytes());
    }

    fn bytes(&mut self, b: &[u8]) {
        self.number(b.len() as u32);
        self.request.extend_from_slice(b);
    }

    fn words(&mut self, ws: &[u32]) {
        self.number(ws.len() as u32);
        self.numbers(ws);
    }

    fn numbers(&mut self, xs: &[u32]) {
        self.request.reserve(4 * xs.len());
        for &x in xs {
            self.number(x);
        }
    }

    /// Makes the request; none where the server has ended.
    fn ask_server(&mut self) -> Option<()> {
        self.read = 0;
        match &mut self.server {
            Server::Pipe { to, from, .. } => {
                to.write_all(&(self.request.len() as u32).to_le_bytes()).unwrap();
                to.write_all(&self.request).unwrap();
                let mut size = [0; 4];
                from.read_exact(&mut size).ok()?;
                self.reply.resize(u32::from_le_bytes(size) as usize, 0);
                from.read_exact(&mut self.reply).ok()?;
            }
            Server::Here(serve) => {
                let mut said = std::ptr::null();
                self.reply.clear();
                // SAFETY: the reply stands where it is until the next request; where there are no bytes of it, it may stand nowhere
                unsafe {
                    let size = serve(self.request.as_ptr(), self.request.len(), &mut said);
                    if size > 0 {
                        self.reply.extend_from_slice(std::slice::from_raw_parts(said, size));
                    }
                }
            }
        }
        self.request.clear();
        Some(())
    }

    /// The next numbers of the reply, for which the request is made where that is still to do; none where the server has ended.
    fn reply_if_any<const N: usize>(&mut self) -> Option<[u32; N]> {
        if !self.request.is_empty() {
            self.ask_server()?;
        }
        let mut numbers = [0; N];
        self.words_back(&mut numbers);
        Some(numbers)
    }

    /// The same. A server that has ended has touched what was not lent.
    fn reply<const N: usize>(&mut self) -> [u32; N] {
        self.reply_if_any().expect(UNANSWERED)
    }

    /// The next bytes of the reply.
    fn next(&mut self, size: usize) -> &[u8] {
        self.read += size;
        &self.reply[self.read - size..self.read]
    }

    fn bytes_back(&mut self, b: &mut [u8]) {
        b.copy_from_slice(self.next(b.len()));
    }

    fn words_back(&mut self, ws: &mut [u32]) {
        let bytes = self.next(4 * ws.len());
        for (w, four) in ws.iter_mut().zip(bytes.chunks_exact(4)) {
            *w = u32::from_le_bytes(four.try_into().unwrap());
        }
    }

    /// What every call on stored bytes is lent.
    fn index(&mut self, index: &[u8], marks: &[u8], words: &[u32]) {
        self.bytes(index);
        self.bytes(marks);
        self.words(words);
    }

    fn marks_back(&mut self, marks: &mut [u8], words: &mut [u32]) {
        self.bytes_back(marks);
        self.words_back(words);
    }

    pub fn open(&mut self, face: Face, index: &[u8], marks: &mut [u8], words: &mut [u32]) -> Outcome<Counts> {
        self.call(OPEN, face);
        self.index(index, marks, words);
        let [refusal, extra, n, k, c, d] = self.reply();
        self.marks_back(marks, words);
        let counts = Counts { n: n as usize, k: k as usize, c: c as usize, d: d as usize };
        outcome(refusal, extra, [n, k, c, d].iter().all(|&x| x == 0), counts)
    }

    fn answer([refusal, extra, yes, reason, opened, labelling]: [u32; 6]) -> Outcome<Answer> {
        assert!(yes <= 1, "yes is 0 or 1");
        let nothing = [yes, reason, opened, labelling].iter().all(|&x| x == 0);
        outcome(refusal, extra, nothing, Answer { yes: yes == 1, reason, opened, labelling })
    }

    pub fn ask(&mut self, face: Face, index: &[u8], source: u32, target: u32, marks: &mut [u8], words: &mut [u32]) -> Outcome<Answer> {
        self.ask_if_it_ends(face, index, source, target, marks, words).expect(UNANSWERED)
    }

    /// The same; none where the question has touched the forbidden page below its stack, which ends the server.
    pub fn ask_if_it_ends(&mut self, face: Face, index: &[u8], source: u32, target: u32, marks: &mut [u8], words: &mut [u32]) -> Option<Outcome<Answer>> {
        self.call(ASK, face);
        self.number(source);
        self.number(target);
        self.index(index, marks, words);
        let Some(reply) = self.reply_if_any() else {
            let Server::Pipe { child, .. } = &mut self.server else { unreachable!("this process has not ended") };
            assert_eq!(child.wait().expect("the server has ended").signal(), Some(SIGSEGV));
            return None;
        };
        self.marks_back(marks, words);
        Some(Self::answer(reply))
    }

    /// Many questions of one index, each with the same marks and words lent.
    pub fn ask_many(&mut self, face: Face, index: &[u8], marks: &[u8], words: &[u32], pairs: &[(u32, u32)]) -> Vec<Reply> {
        self.call(ASK_MANY, face);
        self.index(index, marks, words);
        self.words(&pairs.iter().flat_map(|&(u, v)| [u, v]).collect::<Vec<u32>>());
        let [] = self.reply();
        pairs
            .iter()
            .map(|_| {
                let said = Self::answer(self.reply());
                let mut after = vec![0; marks.len()];
                self.bytes_back(&mut after);
                let [cleared, altered] = self.reply();
                Reply { said, marks: after, cleared: cleared as usize, altered: altered as usize }
            })
            .collect()
    }

    /// All pairs of two lists in one call, six numbers a pair.
    pub fn ask_all(&mut self, face: Face, index: &[u8], sources: &[u32], targets: &[u32], marks: &mut [u8], words: &mut [u32], answers: &mut [u32]) -> Outcome<u32> {
        self.call(ASK_ALL, face);
        self.index(index, marks, words);
        self.words(sources);
        self.words(targets);
        self.words(answers);
        let [refusal, extra, count] = self.reply();
        self.marks_back(marks, words);
        self.words_back(answers);
        outcome(refusal, extra, count == 0, count)
    }

    pub fn list(&mut self, face: Face, index: &[u8], vertex: u32, marks: &mut [u8], words: &mut [u32], out: &mut [u32]) -> Outcome<u32> {
        self.call(LIST, face);
        self.number(vertex);
        self.index(index, marks, words);
        self.words(out);
        let [refusal, extra, count] = self.reply();
        self.marks_back(marks, words);
        self.words_back(out);
        outcome(refusal, extra, count == 0, count)
    }

    /// The chain into a list of steps: how many it has, or none for a no.
    pub fn chain(&mut self, index: &[u8], source: u32, target: u32, marks: &mut [u8], words: &mut [u32], steps: &mut [u32]) -> Outcome<Option<u32>> {
        self.call(CHAIN, Face::Ordinary);
        self.number(source);
        self.number(target);
        self.index(index, marks, words);
        self.words(steps);
        let [refusal, extra, yes, count] = self.reply();
        self.marks_back(marks, words);
        self.words_back(steps);
        assert!(yes <= 1 && (yes == 1 || count == 0), "a no has no steps");
        outcome(refusal, extra, yes == 0, (yes == 1).then_some(count))
    }

    /// A state of added edges, as 256 sources, 256 targets and a count.
    fn added(&mut self, state: &Added) {
        for &x in state.sources.iter().chain(&state.targets).chain([&state.count]) {
            self.number(x);
        }
    }

    /// Adds an edge beside an index of n vertices.
    pub fn add(&mut self, state: &mut Added, n: u32, from: u32, to: u32) -> Outcome<()> {
        self.call(ADD, Face::Ordinary);
        self.added(state);
        for x in [n, from, to] {
            self.number(x);
        }
        let [refusal, extra] = self.reply();
        self.words_back(&mut state.sources);
        self.words_back(&mut state.targets);
        [state.count] = self.reply();
        outcome(refusal, extra, true, ())
    }

    /// The question over an index and the edges added beside it.
    pub fn ask_added(&mut self, index: &[u8], state: &Added, source: u32, target: u32, marks: &mut [u8], words: &mut [u32]) -> Outcome<bool> {
        self.call(ASK_ADDED, Face::Ordinary);
        self.number(source);
        self.number(target);
        self.added(state);
        self.index(index, marks, words);
        let [refusal, extra, yes] = self.reply();
        self.marks_back(marks, words);
        assert!(yes <= 1, "yes is 0 or 1");
        outcome(refusal, extra, yes == 0, yes == 1)
    }

    /// The states of a table by its vertices, over parallel lists.
    pub fn settle_lists(&mut self, index: &[u8], changed: &[u32], marks: &mut [u8], words: &mut [u32], vertices: &[u32], states: &mut [u32]) -> Outcome<()> {
        self.call(SETTLE_LISTS, Face::Ordinary);
        self.index(index, marks, words);
        self.words(changed);
        self.words(vertices);
        self.words(states);
        let [refusal, extra] = self.reply();
        self.marks_back(marks, words);
        self.words_back(states);
        outcome(refusal, extra, true, ())
    }

    /// The same of a table of records, as C lends it.
    pub fn settle_rules(&mut self, index: &[u8], changed: &[u32], marks: &mut [u8], words: &mut [u32], rules: &mut [Rule]) -> Outcome<()> {
        let mut numbers: Vec<u32> = rules.iter().flat_map(|record| [record.rule, record.vertex, record.state]).collect();
        self.call(SETTLE_RULES, Face::Ordinary);
        self.index(index, marks, words);
        self.words(changed);
        self.number(rules.len() as u32);
        self.numbers(&numbers);
        let [refusal, extra] = self.reply();
        self.marks_back(marks, words);
        self.words_back(&mut numbers);
        for (record, three) in rules.iter_mut().zip(numbers.chunks_exact(3)) {
            *record = Rule { rule: three[0], vertex: three[1], state: three[2] };
        }
        outcome(refusal, extra, true, ())
    }

    /// An index of one form turned into another. Form 1 is lent no words.
    pub fn convert(&mut self, way: Way, index: &[u8], marks: &mut [u8], words: &mut [u32], out: &mut [u8]) -> Outcome<u32> {
        self.call(way.call(), Face::Ordinary);
        self.index(index, marks, words);
        self.bytes(out);
        let [refusal, extra, total] = self.reply();
        self.marks_back(marks, words);
        self.bytes_back(out);
        outcome(refusal, extra, total == 0, total)
    }

    pub fn build(&mut self, face: Face, input: &Input, work: &mut [u32], out: &mut [u8]) -> Outcome<u32> {
        self.call(BUILD, face);
        self.number(input.form);
        self.number(input.n);
        self.number(input.d);
        self.words(&input.sources);
        self.words(&input.targets);
        self.words(&input.orders);
        self.words(work);
        self.bytes(out);
        let [refusal, extra, total] = self.reply();
        self.words_back(work);
        self.bytes_back(out);
        outcome(refusal, extra, total == 0, total)
    }

    /// The bytes that an accepted build stores.
    pub fn built(&mut self, face: Face, input: &Input) -> Vec<u8> {
        let (mut work, mut out) = (vec![0; input.work_needed()], vec![0; input.room()]);
        let total = self.build(face, input, &mut work, &mut out).expect("it is built");
        out.truncate(total as usize);
        out
    }

    /// A Matrix Market text into two lists: n and the number of entries.
    pub fn read_matrix(&mut self, text: &[u8], sources: &mut [u32], targets: &mut [u32]) -> Outcome<(u32, u32)> {
        self.call(READ_MATRIX, Face::Ordinary);
        self.bytes(text);
        self.words(sources);
        self.words(targets);
        let [refusal, extra, n, edges] = self.reply();
        self.words_back(sources);
        self.words_back(targets);
        outcome(refusal, extra, n == 0 && edges == 0, (n, edges))
    }

    /// An edge list as a Matrix Market text: its length.
    pub fn write_matrix(&mut self, n: u32, sources: &[u32], targets: &[u32], out: &mut [u8]) -> Outcome<u32> {
        self.call(WRITE_MATRIX, Face::Ordinary);
        self.number(n);
        self.words(sources);
        self.words(targets);
        self.bytes(out);
        let [refusal, extra, length] = self.reply();
        self.bytes_back(out);
        outcome(refusal, extra, length == 0, length)
    }

    /// What every call on exception lists is lent.
    fn beside(&mut self, index: &[u8], marks: &[u8]) {
        self.bytes(index);
        self.bytes(marks);
    }

    pub fn build_exceptions(&mut self, index: &[u8], marks: &mut [u8], out: &mut [u8]) -> Outcome<u32> {
        self.call(BUILD_LISTS, Face::Ordinary);
        self.beside(index, marks);
        self.bytes(out);
        let [refusal, extra, length] = self.reply();
        self.bytes_back(marks);
        self.bytes_back(out);
        outcome(refusal, extra, length == 0, length)
    }

    /// The numbers of groups and of entries.
    pub fn open_exceptions(&mut self, index: &[u8], lists: &[u8], marks: &mut [u8]) -> Outcome<(u32, u32)> {
        self.call(OPEN_LISTS, Face::Ordinary);
        self.beside(index, marks);
        self.bytes(lists);
        let [refusal, extra, groups, entries] = self.reply();
        self.bytes_back(marks);
        outcome(refusal, extra, groups == 0 && entries == 0, (groups, entries))
    }

    pub fn ask_exceptions(&mut self, index: &[u8], lists: &[u8], source: u32, target: u32, marks: &mut [u8]) -> Outcome<bool> {
        self.call(ASK_LISTS, Face::Ordinary);
        self.number(source);
        self.number(target);
        self.beside(index, marks);
        self.bytes(lists);
        let [refusal, extra, yes] = self.reply();
        self.bytes_back(marks);
        assert!(yes <= 1, "yes is 0 or 1");
        outcome(refusal, extra, yes == 0, yes == 1)
    }

    /// All pairs of two lists in one call, three numbers a pair.
    pub fn ask_all_exceptions(&mut self, index: &[u8], lists: &[u8], sources: &[u32], targets: &[u32], marks: &mut [u8], answers: &mut [u32]) -> Outcome<u32> {
        self.call(ASK_ALL_LISTS, Face::Ordinary);
        self.beside(index, marks);
        self.bytes(lists);
        self.words(sources);
        self.words(targets);
        self.words(answers);
        let [refusal, extra, count] = self.reply();
        self.bytes_back(marks);
        self.words_back(answers);
        outcome(refusal, extra, count == 0, count)
    }

    /// The text program's run on a text: what it prints. The output behind that is as it was.
    pub fn run(&mut self, text: &[u8]) -> Vec<u8> {
        self.call(RUN, Face::Ordinary);
        self.bytes(text);
        let [printed, altered] = self.reply();
        let mut out = vec![0; printed as usize];
        self.bytes_back(&mut out);
        assert_eq!(altered, 0, "the output behind what is printed keeps its contents");
        out
    }
}

/// The text program itself, fed piece by piece through a pipe and read the same way: what it writes.
pub fn run_program(text: &[u8], piece: usize) -> Vec<u8> {
    let mut child = Command::new(concat!(env!("CARGO_MANIFEST_DIR"), "/../target/outside/answers"))
        .stdin(Stdio::piped())
        .stdout(Stdio::piped())
        .spawn()
        .expect("the program starts: run outside/make first");
    let (mut to, mut from) = (child.stdin.take().unwrap(), child.stdout.take().unwrap());
    let fed = text.to_vec();
    // a program that has seen too many bytes reads no more
    let feeder = std::thread::spawn(move || fed.chunks(piece).try_for_each(|part| to.write_all(part)).is_ok());
    let (mut printed, mut part) = (Vec::new(), vec![0; piece]);
    loop {
        match from.read(&mut part).expect("its output is read") {
            0 => break,
            size => printed.extend(&part[..size]),
        }
    }
    let whole = feeder.join().expect("its input is written");
    assert!(whole || text.len() > 32_768, "it reads its input to the end");
    assert!(child.wait().expect("it ends").success());
    printed
}

/// Refusal 0 is none; with a refusal the numbers of the answer are 0.
fn outcome<T>(number: u32, extra: u32, nothing: bool, answer: T) -> Outcome<T> {
    if number == 0 {
        assert_eq!(extra, 0, "no refusal, no extra number");
        Ok(answer)
    } else {
        assert!(nothing, "a refusal carries no answer");
        Err(Refusal { number, extra })
    }
}

impl Drop for Server {
    fn drop(&mut self) {
        if let Server::Pipe { child, .. } = self {
            let _ = child.kill();
            let _ = child.wait();
        }
    }
}

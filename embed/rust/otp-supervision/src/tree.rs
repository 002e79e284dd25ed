//! The tree: what happened goes in, orders come out.

use crate::call::{Answer, Call, ChildLine, Counts, RawKind, Reply, kind_of};
use crate::clock::Reading;
use crate::draft::Draft;
use crate::fault::{ChangeError, Fault, OpenError, STRANGE, TreeFault};
use crate::ids::{CallId, ProcessId, SupervisorId};
use crate::look::{Child, ChildState, Supervisor};
use crate::name::{Name, Reason};
use crate::order::{EndRef, Note, Order, OrderRef, Process, ProcessRef};
use crate::spec::ChildSpec;
use crate::sys::{
    self, Handle, Plain, RawAnswer, RawChild, RawFault, RawLine, RawName, RawOrder, RawSpec, RawSupervisor,
};
use crate::tags::Tags;
use crate::watch::{Looks, Watch};
use std::time::Duration;

/// A whole tree of supervisors, whose processes are the caller's.
///
/// The tree decides; it reads no clock and starts no process. Tell it what happened ([`note`](Tree::note),
/// [`stop`](Tree::stop) and the calls) and what time it is ([`tick`](Tree::tick)), and carry out what it orders
/// ([`next_order`](Tree::next_order)). It is `Send`, and used by one caller at a time.
///
/// What is told carries the [`Reading`] of the clock at which it happens: restarts and deadlines are counted from it, however long
/// nothing was told before. So take it after the wait, not before. The tree's clock never goes back: a reading below an earlier one
/// counts as that one.
///
/// What is told waits here until it is taken:
///
/// ```
/// use otp_supervision::{Fault, Note, Order, ProcessId, Reading, Reason, SupervisorId, Tree};
/// use std::collections::VecDeque;
///
/// struct Program {
///     tree: Tree,
///     /// What has happened and wasn't told yet: when, to which supervisor, and what.
///     untold: VecDeque<(Reading, SupervisorId, Note)>,
///     done: Vec<String>,
/// }
///
/// impl Program {
///     /// Tells what has happened, and carries out each order before the next one is taken. So nothing is lost where a call is
///     /// refused: call it again.
///     fn go_on(&mut self, now: Reading) -> Result<(), Fault> {
///         loop {
///             while let Some(order) = self.tree.next_order()? {
///                 self.done.push(order.to_string());
///                 if let Order::Start(process) = order {
///                     // Here the process is started.
///                     self.untold.push_back((now, process.supervisor, Note::Up(process.number)));
///                 }
///             }
///             let Some(&(reading, supervisor, note)) = self.untold.front() else { return Ok(()) };
///             self.tree.note(reading, supervisor, note)?;
///             self.untold.pop_front();
///         }
///     }
/// }
///
/// let tree = Tree::open(
///     r#"
///     intensity = 1
///     period = 5
///     [[child]]
///     id = "db"
///     start = "postgres"
///     shutdown = 2000
///     "#,
/// )?;
/// let mut program = Program { tree, untold: VecDeque::new(), done: Vec::new() };
/// program.go_on(Reading::ZERO)?;
///
/// // It crashes after 9 seconds, and again 11 seconds later: more than the period lies between.
/// for (number, now) in [(1, 9_000), (2, 20_000)] {
///     let (now, crash) = (Reading::from_millis(now), Reason::error("signal_11"));
///     program.untold.push_back((now, SupervisorId::ROOT, Note::Exit(ProcessId::new(number), crash)));
///     program.go_on(now)?;
/// }
///
/// // After a quiet minute the tree is to stop. The process has two seconds, and doesn't heed it.
/// let (stop, late) = (Reading::from_millis(80_000), Reading::from_millis(82_000));
/// program.tree.stop(stop)?;
/// program.go_on(stop)?;
/// assert_eq!(program.tree.next_deadline(), Some(late));
/// program.tree.tick(late)?;
/// program.go_on(late)?;
/// assert_eq!(program.done, ["start db #1", "ready", "start db #2", "start db #3", "ask db #3", "kill db #3"]);
/// # Ok::<(), Box<dyn std::error::Error>>(())
/// ```
#[derive(Debug)]
pub struct Tree {
    handle: Handle,
    /// Where the library writes each order, so that none is cleared first.
    order: RawOrder,
    /// An order stands there that wasn't handed out yet, since what became of nested supervisors comes first.
    is_held: bool,
    tags: Tags,
    watch: Option<Box<Watch>>,
}

impl Tree {
    /// Opens the tree of a tree file (TOML). The root starts, so that orders come at once.
    ///
    /// # Errors
    /// [`OpenError::Refused`] says what is wrong in the file, and where.
    pub fn open(text: impl AsRef<[u8]>) -> Result<Self, OpenError> {
        let text = text.as_ref();
        Tree::open_with(text, Tags::beside(text))
    }

    /// Opens the tree of a draft. The root starts, so that orders come at once.
    ///
    /// # Errors
    /// [`OpenError::Period`], and [`OpenError::Refused`], which says what is wrong in the draft, and where.
    pub fn of_draft(draft: &Draft) -> Result<Self, OpenError> {
        let mut tags = Tags::default();
        let text = draft.to_toml_with(&mut |spec| tags.hide(spec))?;
        Tree::open_with(text.as_bytes(), tags).map_err(|error| match error {
            // Nobody has seen the text that was made of the draft.
            OpenError::Refused(fault) => OpenError::Refused(fault.without_line()),
            error => error,
        })
    }

    fn open_with(text: &[u8], tags: Tags) -> Result<Self, OpenError> {
        if !sys::fits() {
            return Err(OpenError::Version(sys::version()));
        }
        let mut handle = Handle::empty();
        let mut fault = RawFault::zeroed();
        match handle.open(text, &mut fault) {
            sys::OK => Ok(Tree { handle, order: RawOrder::zeroed(), is_held: false, tags, watch: None }),
            sys::MEMORY => Err(OpenError::Memory),
            sys::BAD_TREE => Err(OpenError::Refused(TreeFault::from_raw(&fault, text))),
            status => Err(OpenError::Unknown(status)),
        }
    }

    /// The tree goes on under another tree file, as OTP's supervisors do after a change of code. It is for a moment at which nothing is
    /// under way: no order waits, and each child is up or has no process.
    ///
    /// A supervisor of both files, by the ids from the root on, keeps its restarts, as many of the last as its new intensity bears. A
    /// child of both keeps its process with its number, and has its new specification from then on. What is new has no process until
    /// [`restart_child`](Tree::restart_child) starts it; what is gone has to be terminated before. Supervisors may have other numbers
    /// afterwards ([`supervisors`](Tree::supervisors)); so have the [`Process`]es in hand that are told of later.
    ///
    /// ```
    /// use otp_supervision::{Name, Order, Reading, Reason, SupervisorId, Tree};
    ///
    /// let (db, web) = ("[[child]]\nid = \"db\"\nstart = \"db\"\n", "[[child]]\nid = \"web\"\nstart = \"web\"\n");
    /// let mut tree = Tree::open(format!("period = 60\n{db}"))?;
    /// let mut go_on = |tree: &mut Tree| -> Result<String, Box<dyn std::error::Error>> {
    ///     let mut told = Vec::new();
    ///     while let Some(order) = tree.next_order()? {
    ///         told.push(order.to_string());
    ///         if let Order::Start(process) = order {
    ///             tree.up(Reading::ZERO, &process)?;
    ///             if process.number.number() == 1 {
    ///                 tree.exited(Reading::ZERO, &process, Reason::error("crash"))?;
    ///             }
    ///         }
    ///     }
    ///     Ok(told.join(", "))
    /// };
    /// assert_eq!(go_on(&mut tree)?, "start db #1, ready, start db #2");
    ///
    /// tree.change(format!("period = 60\n{web}{db}"))?;
    /// let root = tree.supervisor(SupervisorId::ROOT)?;
    /// assert_eq!((root.in_period, root.counts.specs, root.counts.active), (1, 2, 1));
    /// tree.restart_child(Reading::ZERO, SupervisorId::ROOT, Name::new("web")?)?;
    /// assert_eq!(go_on(&mut tree)?, "start web #3, reply 1 ok #3");
    /// # Ok::<(), Box<dyn std::error::Error>>(())
    /// ```
    ///
    /// # Errors
    /// [`ChangeError`] says why it isn't done. The tree is then as it was.
    pub fn change(&mut self, text: impl AsRef<[u8]>) -> Result<(), ChangeError> {
        let text = text.as_ref();
        let tags = self.tags.and_beside(text).ok_or(ChangeError::Word)?;
        self.change_with(text, tags)
    }

    /// The tree goes on under a draft ([`Tree::change`]).
    ///
    /// # Errors
    /// [`ChangeError`] says why it isn't done. The tree is then as it was.
    pub fn change_to(&mut self, draft: &Draft) -> Result<(), ChangeError> {
        let mut tags = self.tags.clone();
        let text = draft.to_toml_with(&mut |spec| tags.hide(spec)).map_err(|_| ChangeError::Period)?;
        self.change_with(text.as_bytes(), tags).map_err(|error| match error {
            // Nobody has seen the text that was made of the draft.
            ChangeError::Refused(fault) => ChangeError::Refused(fault.without_line()),
            error => error,
        })
    }

    fn change_with(&mut self, text: &[u8], tags: Tags) -> Result<(), ChangeError> {
        if let Some(watch) = &mut self.watch {
            watch.look(&Sight { handle: &self.handle, tags: &self.tags });
            if self.is_held || !watch.untold.is_empty() {
                let of_order = if self.is_held { SupervisorId::new(self.order.supervisor) } else { SupervisorId::ROOT };
                let first = watch.untold.front().map_or(of_order, |(supervisor, _)| *supervisor);
                return Err(ChangeError::Busy(first));
            }
        }
        let mut fault = RawFault::zeroed();
        match self.handle.change(text, &mut fault) {
            sys::OK => {}
            status => return Err(ChangeError::of(status, &fault, text)),
        }
        self.tags = tags;
        if self.watch.is_some() {
            self.watch = Some(Box::new(Watch::of(&self.looks(), self.supervisor_count())));
        }
        Ok(())
    }

    /// Watches the tree from now on: orders tell what becomes of nested supervisors ([`Order::Nested`](crate::Order::Nested)), and an
    /// end the child on which the root ended ([`End::last`](crate::End::last)). It takes memory for each process, and looks at each
    /// supervisor before an order.
    pub fn watch(&mut self) {
        if self.watch.is_none() {
            self.watch = Some(Box::new(Watch::of(&self.looks(), self.supervisor_count())));
        }
    }

    fn looks(&self) -> Sight<'_> {
        Sight { handle: &self.handle, tags: &self.tags }
    }

    /// The clock is read: what is due by then comes with the next orders.
    ///
    /// # Errors
    /// [`Fault::BadReading`] for one above 2^62.
    #[inline]
    pub fn tick(&mut self, reading: Reading) -> Result<(), Fault> {
        Fault::check(self.handle.tick(reading.as_millis()))
    }

    /// At this reading a process tells the supervisor that ordered its start how it stands. A number that no child has changes
    /// nothing.
    ///
    /// # Errors
    /// [`Fault::BadReading`], [`Fault::Memory`], [`Fault::Full`], [`Fault::Spent`], [`Fault::NoSupervisor`],
    /// [`Fault::Nested`].
    #[inline]
    pub fn note(&mut self, reading: Reading, supervisor: SupervisorId, note: Note) -> Result<(), Fault> {
        let (kind, number) = (note.kind_number(), note.number().number());
        let (reason, text): (u32, &[u8]) = match &note {
            Note::Up(_) | Note::Ignored(_) => (0, b""),
            Note::Failed(_, reason) | Note::Exit(_, reason) => reason.as_raw(),
        };
        let (reading, supervisor) = (reading.as_millis(), supervisor.number());
        Fault::check(self.handle.note(reading, supervisor, kind, number, reason, text))?;
        if let Some(watch) = &mut self.watch {
            watch.noted(&Sight { handle: &self.handle, tags: &self.tags }, &note);
        }
        Ok(())
    }

    /// At this reading a process is up that was ordered to start.
    ///
    /// # Errors
    /// As those of [`note`](Tree::note).
    pub fn up(&mut self, reading: Reading, process: &Process) -> Result<(), Fault> {
        self.note(reading, process.supervisor, Note::Up(process.number))
    }

    /// At this reading the start of a process was ignored: there is none, and that is well.
    ///
    /// # Errors
    /// As those of [`note`](Tree::note).
    pub fn ignored(&mut self, reading: Reading, process: &Process) -> Result<(), Fault> {
        self.note(reading, process.supervisor, Note::Ignored(process.number))
    }

    /// At this reading the start of a process failed.
    ///
    /// # Errors
    /// As those of [`note`](Tree::note).
    pub fn failed(&mut self, reading: Reading, process: &Process, reason: Reason) -> Result<(), Fault> {
        self.note(reading, process.supervisor, Note::Failed(process.number, reason))
    }

    /// At this reading a process has ended.
    ///
    /// # Errors
    /// As those of [`note`](Tree::note).
    pub fn exited(&mut self, reading: Reading, process: &Process, reason: Reason) -> Result<(), Fault> {
        self.note(reading, process.supervisor, Note::Exit(process.number, reason))
    }

    /// The root is wanted to shut down from this reading on, and with it the tree.
    ///
    /// # Errors
    /// [`Fault::BadReading`].
    pub fn stop(&mut self, reading: Reading) -> Result<(), Fault> {
        Fault::check(self.handle.stop(reading.as_millis()))
    }

    /// `start_child/2` with a specification. The answer is the number of the process, or nothing where its start was ignored.
    ///
    /// # Errors
    /// As those of [`note`](Tree::note), but for `Nested`; and [`Fault::TooManyModules`]. A specification that the rules refuse
    /// is answered so.
    pub fn start_child(
        &mut self,
        reading: Reading,
        supervisor: SupervisorId,
        spec: &ChildSpec,
    ) -> Result<Call<Option<ProcessId>>, Fault> {
        let mut raw = spec.to_raw().ok_or(Fault::TooManyModules)?;
        raw.start = self.tags.word_of(spec.start, spec.tag).to_raw();
        let mut number = 0;
        Fault::check(self.handle.start_child(reading.as_millis(), supervisor.number(), &raw, &mut number))?;
        Ok(Call::new(number))
    }

    /// `start_child/2` under `simple_one_for_one`: one more child.
    ///
    /// # Errors
    /// As those of [`note`](Tree::note), but for `Nested`.
    pub fn start_dynamic(
        &mut self,
        reading: Reading,
        supervisor: SupervisorId,
    ) -> Result<Call<Option<ProcessId>>, Fault> {
        self.call(reading, supervisor, 1, None, 0)
    }

    /// `restart_child/2`: a child without a process is started again.
    ///
    /// # Errors
    /// As those of [`note`](Tree::note), but for `Nested`.
    pub fn restart_child(
        &mut self,
        reading: Reading,
        supervisor: SupervisorId,
        id: Name,
    ) -> Result<Call<Option<ProcessId>>, Fault> {
        self.call(reading, supervisor, 2, Some(id), 0)
    }

    /// `delete_child/2`: a child without a process is forgotten.
    ///
    /// # Errors
    /// As those of [`note`](Tree::note), but for `Nested`.
    pub fn delete_child(&mut self, reading: Reading, supervisor: SupervisorId, id: Name) -> Result<Call<()>, Fault> {
        self.call(reading, supervisor, 3, Some(id), 0)
    }

    /// `terminate_child/2` by id: the child is shut down, and stays without a process until it is started by a call.
    ///
    /// # Errors
    /// As those of [`note`](Tree::note), but for `Nested`.
    pub fn terminate_child(&mut self, reading: Reading, supervisor: SupervisorId, id: Name) -> Result<Call<()>, Fault> {
        self.call(reading, supervisor, 4, Some(id), 0)
    }

    /// `terminate_child/2` by process, under `simple_one_for_one`.
    ///
    /// # Errors
    /// As those of [`note`](Tree::note), but for `Nested`.
    pub fn terminate_process(
        &mut self,
        reading: Reading,
        supervisor: SupervisorId,
        process: ProcessId,
    ) -> Result<Call<()>, Fault> {
        self.call(reading, supervisor, 5, None, process.number())
    }

    /// `which_children/1`.
    ///
    /// # Errors
    /// As those of [`note`](Tree::note), but for `Nested`.
    pub fn which_children(
        &mut self,
        reading: Reading,
        supervisor: SupervisorId,
    ) -> Result<Call<Vec<ChildLine>>, Fault> {
        self.call(reading, supervisor, 6, None, 0)
    }

    /// `count_children/1`.
    ///
    /// # Errors
    /// As those of [`note`](Tree::note), but for `Nested`.
    pub fn count_children(&mut self, reading: Reading, supervisor: SupervisorId) -> Result<Call<Counts>, Fault> {
        self.call(reading, supervisor, 7, None, 0)
    }

    /// `get_childspec/2`.
    ///
    /// # Errors
    /// As those of [`note`](Tree::note), but for `Nested`.
    pub fn get_childspec(
        &mut self,
        reading: Reading,
        supervisor: SupervisorId,
        id: Name,
    ) -> Result<Call<ChildSpec>, Fault> {
        self.call(reading, supervisor, 8, Some(id), 0)
    }

    fn call<T>(
        &mut self,
        reading: Reading,
        supervisor: SupervisorId,
        kind: u32,
        id: Option<Name>,
        number: u64,
    ) -> Result<Call<T>, Fault> {
        let id = id.map_or_else(RawName::zeroed, Name::to_raw);
        let mut call = 0;
        let (reading, supervisor) = (reading.as_millis(), supervisor.number());
        Fault::check(self.handle.call(reading, supervisor, kind, &id, number, &mut call))?;
        Ok(Call::new(call))
    }

    /// The next order, if there is one. Each comes once, and counts as carried out from then on: so carry it out before the
    /// next one is taken.
    ///
    /// What follows by itself from what was told (a deadline that has come, a retry, what waited, the start and the end of
    /// a nested supervisor) happens here. After an `Err` the same order comes again with the next call.
    ///
    /// # Errors
    /// [`Fault::Memory`], [`Fault::Full`], [`Fault::Spent`].
    #[inline]
    pub fn next_order(&mut self) -> Result<Option<Order>, Fault> {
        match self.next_order_ref()? {
            Some(order) => order.into_order().map(Some),
            None => Ok(None),
        }
    }

    /// The next order, if there is one, read where the library has written it: nothing of it is copied.
    ///
    /// # Errors
    /// [`Fault::Memory`], [`Fault::Full`], [`Fault::Spent`].
    #[inline]
    pub fn next_order_ref(&mut self) -> Result<Option<OrderRef<'_>>, Fault> {
        if self.watch.is_some() {
            return self.next_watched();
        }
        match self.handle.next(&mut self.order) {
            sys::OK => self.told_order().map(Some),
            sys::NONE => Ok(None),
            status => Err(Fault::of(status)),
        }
    }

    /// The next order of a tree that is watched: what became of nested supervisors on the way to the next order comes before it.
    fn next_watched(&mut self) -> Result<Option<OrderRef<'_>>, Fault> {
        let Some(watch) = &mut self.watch else { return Ok(None) };
        if !self.is_held && watch.untold.is_empty() {
            match self.handle.next(&mut self.order) {
                sys::OK => self.is_held = true,
                sys::NONE => {}
                status => return Err(Fault::of(status)),
            }
            watch.look(&Sight { handle: &self.handle, tags: &self.tags });
        }
        if let Some((supervisor, became)) = watch.untold.pop_front() {
            return Ok(Some(OrderRef::Nested(supervisor, became)));
        }
        if !std::mem::take(&mut self.is_held) {
            return Ok(None);
        }
        match self.order.kind {
            1 => watch.started(ProcessRef::of(&self.order, &self.tags).ok_or(STRANGE)?.to_process()),
            2 | 3 => watch.ordered_to_end(ProcessId::new(self.order.number)),
            _ => {}
        }
        self.told_order().map(Some)
    }

    /// The order that was told last.
    #[inline]
    fn told_order(&mut self) -> Result<OrderRef<'_>, Fault> {
        let process = ProcessRef::of(&self.order, &self.tags).ok_or(STRANGE);
        Ok(match self.order.kind {
            1 => OrderRef::Start(process?),
            2 => {
                let deadline = (self.order.has_deadline != 0).then_some(Reading::from_millis(self.order.deadline));
                OrderRef::Ask { process: process?, deadline }
            }
            3 => OrderRef::Kill(process?),
            4 => OrderRef::Reply(ReplyRef { tree: self }),
            5 => OrderRef::Ready,
            6 => OrderRef::End(EndRef::of(&self.order, self.watch.as_deref())),
            _ => return Err(STRANGE),
        })
    }

    /// The answer of the reply that was told last.
    fn answer(&self) -> Option<Answer> {
        let mut raw = RawAnswer::zeroed();
        Fault::check(self.handle.answer(&mut raw)).ok()?;
        match kind_of(&raw)? {
            RawKind::Whole(answer) => Some(answer),
            RawKind::Lines(count) => (0..count).map(|index| self.line(index)).collect::<Option<_>>().map(Answer::Which),
            RawKind::Spec => {
                let mut spec = RawSpec::zeroed();
                Fault::check(self.handle.answer_spec(&mut spec)).ok()?;
                ChildSpec::from_raw(&spec).map(|spec| Answer::Spec(Box::new(self.tags.show(spec))))
            }
        }
    }

    fn line(&self, index: u32) -> Option<ChildLine> {
        let mut line = RawLine::zeroed();
        Fault::check(self.handle.answer_line(index, &mut line)).ok()?;
        ChildLine::from_raw(&line)
    }

    /// The reading at which the clock is to be read again at the latest. It is right once no order is left.
    pub fn next_deadline(&self) -> Option<Reading> {
        let mut reading = 0;
        (self.handle.deadline(&mut reading) == sys::OK).then_some(Reading::from_millis(reading))
    }

    /// How long may be waited from this reading on until the clock is to be read again; nothing where nothing is due. It is right
    /// once no order is left.
    pub fn time_left(&self, reading: Reading) -> Option<Duration> {
        self.next_deadline().map(|due| due.since(reading))
    }

    /// The supervisors of the tree, each parent before its children: the root is the first.
    pub fn supervisors(&self) -> impl DoubleEndedIterator<Item = SupervisorId> + ExactSizeIterator + use<> {
        (0..self.supervisor_count()).map(SupervisorId::new)
    }

    fn supervisor_count(&self) -> u32 {
        let mut count = 0;
        self.handle.supervisors(&mut count);
        count
    }

    /// A supervisor as it stands.
    ///
    /// # Errors
    /// [`Fault::NoSupervisor`].
    pub fn supervisor(&self, number: SupervisorId) -> Result<Supervisor, Fault> {
        self.looks().supervisor(number)
    }

    /// A child of a supervisor as it stands, in start order from 0; nothing where there are no more.
    ///
    /// # Errors
    /// [`Fault::NoSupervisor`].
    pub fn child(&self, supervisor: SupervisorId, index: u32) -> Result<Option<Child>, Fault> {
        self.looks().child(supervisor, index)
    }

    /// The children of a supervisor as they stand, in start order.
    ///
    /// # Errors
    /// [`Fault::NoSupervisor`].
    pub fn children(&self, supervisor: SupervisorId) -> Result<Vec<Child>, Fault> {
        self.looks().children(supervisor)
    }

    /// The path of a supervisor: the ids from the root's child on, each with a `/` behind it, so that a child's id makes
    /// it the child's path. That of the root is empty.
    ///
    /// # Errors
    /// [`Fault::NoSupervisor`].
    pub fn path_of(&self, supervisor: SupervisorId) -> Result<String, Fault> {
        let (mut path, mut at) = (String::new(), supervisor);
        while !at.is_root() {
            let one = self.supervisor(at)?;
            let id = one.id.map_or_else(String::new, |id| id.to_string());
            path = format!("{id}/{path}");
            // A parent stands before its children.
            at = one.parent.min(SupervisorId::new(at.number() - 1));
        }
        Ok(path)
    }
}

/// A tree that is only looked at.
struct Sight<'a> {
    handle: &'a Handle,
    tags: &'a Tags,
}

impl Sight<'_> {
    fn supervisor(&self, number: SupervisorId) -> Result<Supervisor, Fault> {
        let mut raw = RawSupervisor::zeroed();
        Fault::check(self.handle.look(number.number(), &mut raw))?;
        Supervisor::from_raw(&raw).ok_or(STRANGE)
    }

    fn child(&self, supervisor: SupervisorId, index: u32) -> Result<Option<Child>, Fault> {
        let mut raw = RawChild::zeroed();
        match self.handle.look_child(supervisor.number(), index, &mut raw) {
            sys::NONE => return Ok(None),
            status => Fault::check(status)?,
        }
        let mut child = Child::from_raw(&raw).ok_or(STRANGE)?;
        child.spec = self.tags.show(child.spec);
        Ok(Some(child))
    }

    fn children(&self, supervisor: SupervisorId) -> Result<Vec<Child>, Fault> {
        let mut children = Vec::new();
        while let Some(child) = self.child(supervisor, children.len() as u32)? {
            children.push(child);
        }
        Ok(children)
    }
}

impl Looks for Sight<'_> {
    fn at(&self, number: SupervisorId) -> Option<Supervisor> {
        self.supervisor(number).ok()
    }

    fn processes_of(&self, number: SupervisorId) -> Vec<(Process, ChildState)> {
        let of_child = |child: &Child| {
            let number_of = child.number.filter(|_| child.nested.is_none())?;
            let (id, start, tag) = (child.id, child.spec.start, child.spec.tag);
            Some((Process { supervisor: number, id, start, tag, number: number_of }, child.state))
        };
        let is_there =
            |(_, state): &(Process, ChildState)| !matches!(state, ChildState::Undefined | ChildState::Restarting);
        let children = self.children(number).unwrap_or_default();
        children.iter().filter_map(of_child).filter(is_there).collect()
    }
}

/// A reply as it was told, whose answer is read where it is wanted.
#[derive(Debug)]
pub struct ReplyRef<'a> {
    tree: &'a Tree,
}

impl ReplyRef<'_> {
    /// The supervisor.
    pub fn supervisor(&self) -> SupervisorId {
        SupervisorId::new(self.tree.order.supervisor)
    }

    /// The call.
    pub fn call(&self) -> CallId {
        CallId::new(self.tree.order.number)
    }

    /// The reply with its answer.
    ///
    /// # Errors
    /// [`Fault::Unknown`], where library and crate don't belong together.
    pub fn into_reply(self) -> Result<Reply, Fault> {
        let (supervisor, call) = (self.supervisor(), self.call());
        Ok(Reply { supervisor, call, answer: self.tree.answer().ok_or(STRANGE)? })
    }
}

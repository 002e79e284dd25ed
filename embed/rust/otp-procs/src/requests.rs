//! What clients ask for: questions are answered at once, and calls once the tree has replied.

use crate::control::Answered;
use crate::daemon::{Daemon, Untold, Waiter};
use crate::http::{self, Head};
use crate::log::{Class, Record};
use crate::metrics;
use crate::named::Named;
use crate::peer::Follows;
use crate::plan::Output;
use crate::request::{Request, request_of};
use crate::status;
use crate::told::{CallKind, Told};
use otp_supervision::{Answer, Name, Reply, Restart, Strategy, SupervisorId};

/// The text form of Prometheus, and a page.
const METRICS: &str = "text/plain; version=0.0.4; charset=utf-8";
pub const PAGE: &str = "text/html; charset=utf-8";
/// A client that has waited for so many milliseconds is told for what.
const LONG: u64 = 1_000;

/// What a client wants of a child.
#[derive(Clone, Copy, Debug, PartialEq, Eq)]
enum Wish {
    Start,
    Stop,
    Restart,
}

impl Daemon {
    /// A client asks for something.
    pub(crate) fn request(&mut self, token: u64, line: &str) {
        let request = match request_of(line) {
            Ok(request) => request,
            Err(text) => return self.answer(token, Err(&text)),
        };
        // Whoever looks every second fills no log.
        if !request.is_question() {
            self.remark(Record::new(Class::Remark, "asked").text("line", line));
        }
        match request {
            Request::Start(path) => self.ask_each(token, &path, Request::Start),
            Request::Stop(path) => self.ask_each(token, &path, Request::Stop),
            Request::Restart(path) => self.ask_each(token, &path, Request::Restart),
            Request::Signal(path, signal, to_group) => {
                self.ask_each(token, &path, |path| Request::Signal(path, signal, to_group));
            }
            Request::StatusOf(path, is_json) => {
                self.tell_time();
                self.status_of(token, &path, is_json);
            }
            Request::Wait(path, wanted) => self.watch(token, &path, wanted),
            Request::Tail(path, count, true) => self.follow(token, path.as_deref(), count),
            Request::Events(head, true) => self.follow_events(token, head),
            Request::Shutdown => {
                let told_at = Some(self.reading.saturating_add(LONG));
                self.waiters.push(Waiter { told_at, ..Waiter::new(token, "the end") });
                self.stop();
            }
            Request::PageParts(Some(mark)) => self.look_for_page(token, mark),
            Request::Reexec(within) => self.reexec(token, within.as_millis() as u64),
            Request::Reload(wish) => {
                self.tell_time();
                self.reload(token, &wish);
            }
            question => {
                let text = self.look(&question);
                self.answer(token, text.as_deref().map_err(String::as_str));
            }
        }
    }

    /// A client asks for something by HTTP.
    pub(crate) fn request_http(&mut self, token: u64, head: &Head) {
        self.tell_time();
        let (status, kind, text) = match head.path() {
            Ok("/metrics") => (http::Status::Fine, METRICS, metrics::text_of(self)),
            Ok("/page") => (http::Status::Fine, PAGE, self.page_alone()),
            Ok(path) => {
                let text = format!("there is no {path} here; GET /metrics and GET /page are all that is answered\n");
                (http::Status::Missing, http::PLAIN, text)
            }
            Err(status) => (status, http::PLAIN, "nothing but GET and HEAD is answered\n".to_string()),
        };
        if let Some(control) = &mut self.control {
            control.answer_http(self.reading, token, status, kind, &text);
        }
    }

    /// One wish of a client about one path.
    pub(crate) fn wish_for(&mut self, token: u64, request: &Request) {
        let (path, wish) = match request {
            Request::Start(path) => (path, Wish::Start),
            Request::Stop(path) => (path, Wish::Stop),
            Request::Restart(path) => (path, Wish::Restart),
            Request::Signal(path, signal, to_group) => {
                let answer = self.send_signal(path, *signal, *to_group);
                return self.answer(token, answer.as_deref().map_err(String::as_str));
            }
            _ => return,
        };
        if let Err(text) = self.named(path).and_then(|named| self.wish(token, path, wish, named)) {
            self.answer(token, Err(&text));
        }
    }

    /// The answer of a question. The tree isn't called: it is looked at, so that nothing is waited for, nor told to the log.
    fn look(&mut self, question: &Request) -> Result<String, String> {
        self.tell_time();
        match question {
            Request::Status(true) => Ok(status::as_json(self)),
            Request::Which(path) => self.running(path).map(|number| status::which(&mut self.tree, number)),
            Request::Count(path) => {
                let number = self.running(path)?;
                let found = self.tree.supervisor(number).map_err(|fault| fault.to_string())?;
                Ok(found.counts.to_string())
            }
            Request::Metrics => Ok(metrics::text_of(self)),
            Request::Page => Ok(self.page_alone()),
            Request::PageParts(_) => Ok(self.page_parts()),
            Request::Events(head, _) => Ok(self.log.events(head)),
            Request::Tail(None, count, _) => Ok(self.last_lines(*count)),
            Request::Tail(Some(path), count, _) => self.last_of(path, *count).map(|(_, text)| text),
            _ => Ok(status::as_text(self)),
        }
    }

    fn last_lines(&self, count: usize) -> String {
        self.log.last(count).map(|line| format!("{line}\n")).collect()
    }

    /// The last lines that the process of a path has written, and the path as `status` prints it.
    fn last_of(&mut self, path: &str, count: usize) -> Result<(String, String), String> {
        let (path, start) = match self.named(path)? {
            Named::Child(supervisor, id) => {
                let above = self.paths.get(supervisor.index()).map_or("", String::as_str);
                let path = format!("{above}{id}");
                (path, self.child(supervisor, id).map(|child| child.spec.start))
            }
            Named::Dynamic(supervisor, number) => {
                let live = self.live.get(&number).filter(|live| live.process.supervisor == supervisor);
                let live = live.ok_or_else(|| format!("{path} doesn't run"))?;
                (live.path.clone(), Some(live.process.start))
            }
            Named::Supervisor(_) => return Err(format!("{path} is a supervisor; say the path of a child")),
        };
        if let Some(text) = self.tails.last(&path, count) {
            return Ok((path, text));
        }
        let plan = start.and_then(|start| self.plans.get(start.as_str()));
        match plan.map(|plan| (&plan.output, plan.is_read())) {
            Some((_, true)) => Ok((path, String::new())),
            Some((Output::File(file, _), false)) => Err(format!(
                "{path} writes to {} by itself: tail that; with output_max the daemon writes it, and keeps lines",
                file.display()
            )),
            _ => Err(format!(
                "{path}: its output doesn't come by the daemon; with output = \"log\" it does, as with output_max"
            )),
        }
    }

    fn follow_events(&mut self, token: u64, head: String) {
        let text = self.log.events(&head);
        // What the text has is not told again.
        self.tell_followers();
        if let Some(control) = &mut self.control {
            control.follow(self.reading, token, &text, Follows::Events(head));
        }
    }

    fn follow(&mut self, token: u64, path: Option<&str>, count: usize) {
        if let Some(path) = path {
            let last = self.last_of(path, count);
            return match (last, &mut self.control) {
                (Ok((path, text)), Some(control)) => {
                    control.follow(self.reading, token, &text, Follows::Process(path));
                }
                (last, _) => self.answer(token, last.as_ref().map(|(_, text)| text.as_str()).map_err(String::as_str)),
            };
        }
        let text = self.last_lines(count);
        // What the text has is not told again.
        self.tell_followers();
        if let Some(control) = &mut self.control {
            control.follow(self.reading, token, &text, Follows::Log);
            self.log.is_followed = true;
        }
    }

    /// Calls the supervisor of what was named, or says why not.
    fn wish(&mut self, token: u64, path: &str, wish: Wish, named: Named) -> Result<(), String> {
        match named {
            Named::Supervisor(number)
                if wish == Wish::Start && self.strategy_of(number) == Some(Strategy::SimpleOneForOne) =>
            {
                let number = self.running(path)?;
                self.call(Told::Call(number, CallKind::StartDynamic), Waiter::new(token, path));
                Ok(())
            }
            Named::Supervisor(SupervisorId::ROOT) if wish == Wish::Start => {
                Err("the root runs; start PATH starts a child, as ctl status names them".to_string())
            }
            Named::Supervisor(SupervisorId::ROOT) => {
                Err("the root is the whole tree; ctl shutdown stops it".to_string())
            }
            Named::Supervisor(number) => {
                let (above, id) = self.as_child(number).ok_or_else(|| format!("{path} is no child"))?;
                self.wish_of_child(token, path.trim_end_matches('/'), wish, above, id)
            }
            Named::Child(supervisor, id) => self.wish_of_child(token, path, wish, supervisor, id),
            Named::Dynamic(supervisor, number) if wish == Wish::Stop => {
                self.call(Told::Call(supervisor, CallKind::TerminateProcess(number)), Waiter::new(token, path));
                Ok(())
            }
            Named::Dynamic(supervisor, _) => {
                let above = self.paths.get(supervisor.index()).map(String::as_str).filter(|path| !path.is_empty());
                let above = above.unwrap_or("/");
                let what = if wish == Wish::Start {
                    "is not started by its number; "
                } else {
                    "is not restarted: stop it, and "
                };
                Err(format!("{path}: a dynamic child {what}start {above} starts one more"))
            }
        }
    }

    fn wish_of_child(
        &mut self,
        token: u64,
        path: &str,
        wish: Wish,
        supervisor: SupervisorId,
        id: Name,
    ) -> Result<(), String> {
        let is_temporary = self.child(supervisor, id).is_some_and(|child| child.spec.restart == Restart::Temporary);
        let start = Told::Call(supervisor, CallKind::Restart(id));
        // A restart is one request: whoever wants a start while the process is being stopped gets that one.
        if let Some(waiter) = self.restart_of(&start).filter(|_| wish != Wish::Stop) {
            waiter.tokens.push(token);
            return Ok(());
        }
        let stop = Told::Call(supervisor, CallKind::Terminate(id));
        let waiter = Waiter::new(token, path);
        match wish {
            Wish::Restart if is_temporary => {
                return Err(format!(
                    "{path} is temporary: its supervisor forgets it at its end, so that nothing is left to be started again; \
                     a transient child can be restarted"
                ));
            }
            Wish::Start => {
                self.keeper.force(supervisor, id);
                self.call(start, waiter);
            }
            Wish::Stop => {
                self.keeper.stop(supervisor, id);
                self.unstarted.remove(path.trim_start_matches('/'));
                // Who asks for a stop last is not told that it is done, and then sees the start of an earlier restart.
                if let Some(restart) = self.restart_of(&start) {
                    (restart.then, restart.is_overtaken) = (None, true);
                }
                let more = if is_temporary { "; it was temporary, and is gone for good" } else { "" };
                self.call(stop, Waiter { more, ..waiter });
            }
            Wish::Restart => {
                self.keeper.force(supervisor, id);
                self.call(stop, Waiter { then: Some(start), ..waiter });
            }
        }
        Ok(())
    }

    /// The restart that has stopped a child, or does so, and will start it by this call.
    fn restart_of(&mut self, start: &Told) -> Option<&mut Waiter> {
        let untold = self.untold.iter_mut().filter_map(|untold| untold.waiter.as_mut());
        self.waiters.iter_mut().chain(untold).find(|waiter| waiter.then.as_ref() == Some(start))
    }

    fn call(&mut self, told: Told, waiter: Waiter) {
        let record = told.record(&waiter.path);
        let told_at = Some(self.reading.saturating_add(LONG));
        let waiter = Waiter { supervisor: told.supervisor(), told_at, ..waiter };
        self.untold.push_back(Untold { told, record, waiter: Some(waiter) });
        self.go_on();
    }

    /// A supervisor has answered a call.
    pub(crate) fn reply(&mut self, reply: Reply) {
        let answer = reply.answer.to_string();
        let record =
            Record::new(Class::Order, "reply").number("call", reply.call.number()).text("answer", answer.as_str());
        self.remark(record.number("supervisor", u64::from(reply.supervisor.number())));
        self.keeper.is_answered(reply.call);
        let Some(at) = self.waiters.iter().position(|waiter| waiter.call == reply.call) else {
            return;
        };
        let waiter = self.waiters.remove(at);
        if waiter.is_of_reload {
            return self.reload_answered(Ok(&reply.answer));
        }
        let path = &waiter.path;
        let text = match (&reply.answer, &waiter.then) {
            // A child that had no process is started all the same.
            (_, Some(told)) => {
                let (told, record) = (told.clone(), told.record(path));
                let waiter = Waiter { then: None, ..waiter };
                self.untold.push_back(Untold { told, record, waiter: Some(waiter) });
                return;
            }
            (Answer::Refused(refusal), None) => Err(format!("{path}: {refusal}")),
            (_, None) if waiter.is_overtaken => {
                Err(format!("{path}: another client has stopped it meanwhile, so it isn't started again"))
            }
            (_, None) => Ok(format!("{path}: {answer}{}", waiter.more)),
        };
        self.answer_all(&waiter.tokens, text.as_deref().map_err(String::as_str));
    }

    /// The whole answer of a client.
    pub(crate) fn answer(&mut self, token: u64, answer: Result<&str, &str>) {
        self.answer_all(&[token], answer);
    }

    /// The whole answer of some clients.
    pub(crate) fn answer_all(&mut self, tokens: &[u64], answer: Result<&str, &str>) {
        // What was done for them can be read in the log by then.
        self.log.flush();
        for &token in tokens {
            let Some(batch) = self.batches.get_mut(&token) else {
                self.answer_with(token, answer.into());
                continue;
            };
            if batch.add(answer)
                && let Some(batch) = self.batches.remove(&token)
            {
                let whole = batch.whole();
                self.answer_with(token, whole.as_deref().map_err(String::as_str).into());
            }
        }
    }

    /// The whole answer of a client, with its exit status.
    pub(crate) fn answer_with(&mut self, token: u64, answer: Answered<'_>) {
        if let Some(control) = &mut self.control {
            control.answer(self.reading, token, answer);
        }
    }

    /// Clients that have waited for a while are told for what: a call has its turn once its supervisor has done what it does.
    pub(crate) fn tell_waiters(&mut self) {
        if self.end.is_some() {
            return;
        }
        let now = self.reading;
        let late = self.waiters.iter_mut().filter(|waiter| waiter.told_at.is_some_and(|at| at <= now));
        let late: Vec<(Vec<u64>, String, SupervisorId)> = late
            .map(|waiter| {
                waiter.told_at = None;
                (waiter.tokens.clone(), waiter.path.clone(), waiter.supervisor)
            })
            .collect();
        for (tokens, path, supervisor) in late {
            let text = format!("{path} waits: {}", status::work_of(self, supervisor));
            if let Some(control) = &mut self.control {
                for token in tokens {
                    control.say_why(now, token, &text);
                }
            }
        }
    }
}

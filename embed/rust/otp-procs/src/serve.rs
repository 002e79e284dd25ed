//! `ctl page --serve`: a page that follows what happens, for browsers.
//!
//! It is a process of its own, so that whoever visits it keeps no daemon waiting: of all visitors together the daemon sees two clients
//! at the most, who ask as `ctl` does. One asks for a page, the other for the page that comes once something has happened. What
//! differs is told to all who follow.

pub mod link;
pub mod news;
pub mod place;
pub mod visitor;

use crate::client;
use crate::http::{self, Head, Status};
use crate::os::{self, READABLE, Waited};
use crate::page::frame::{Frame, around, policy};
use crate::requests::PAGE;
use crate::serve::link::{Link, Page};
use crate::serve::place::{Listener, Place, random};
use crate::serve::visitor::{EVENTS, Stage, Visitor};
use std::error::Error;
use std::io::{self, Write};
use std::path::{Path, PathBuf};
use std::rc::Rc;
use std::time::{Duration, Instant, SystemTime, UNIX_EPOCH};

/// So many visitors are served at once, and so many of them may follow.
const MOST: usize = 64;
const FOLLOWERS: usize = 48;
/// So many milliseconds a page that was asked for is waited for.
const PATIENCE: u64 = 10_000;
/// A page that is younger than so many milliseconds is shown to others, too. It takes one more for each KiB until another is asked
/// for, so that the daemon has other things to do.
const YOUNG: u64 = 250;
/// So long is waited before a daemon that has gone is looked for, or visitors are accepted that the system has refused.
const PAUSE: u64 = 2_000;
/// Those who follow are told so often that the connection lives.
const BEAT: u64 = 20_000;

/// All that is served.
struct Server {
    folder: PathBuf,
    listener: Listener,
    begun: Instant,
    visitors: Vec<Visitor>,
    /// The last page, and when it came.
    page: Option<(Page, u64)>,
    /// A page that visitors wait for.
    fresh: Option<Link>,
    /// The page that comes next, for those who follow.
    next: Option<Link>,
    /// None is asked for before this reading.
    next_at: u64,
    /// Why the daemon can't be asked, as those who follow were told.
    gone: Option<String>,
    beat_at: u64,
    /// Nobody is accepted before this reading.
    paused: u64,
}

/// What a visitor wants.
enum Wish {
    /// The page; where true the head of the answer alone.
    Page(bool),
    /// What happens from the page with this mark on.
    Events(String),
    /// The head of that.
    EventsHead,
}

/// Serves the page of the daemon of a folder until a signal ends it; says first where.
pub fn serve(folder: Option<&Path>, place: &Place) -> Result<u8, Box<dyn Error>> {
    let folder = folder.map_or_else(client::folder_of_daemon, |folder| Ok(folder.to_path_buf()))?;
    let signals =
        os::signals_as_descriptor().map_err(|error| format!("there is no descriptor for signals: {error}"))?;
    let listener = Listener::open(place, &folder).map_err(|error| format!("the page can't be served: {error}"))?;
    let mut out = io::stdout();
    let _ = writeln!(out, "{}", listener.words()?).and_then(|()| out.flush());
    let mut server = Server::new(folder, listener);
    while !has_to_end(&signals) {
        server.turn(&signals)?;
    }
    server.listener.close();
    Ok(0)
}

fn has_to_end(signals: &std::os::fd::OwnedFd) -> bool {
    while let Some(sent) = os::next_signal(signals) {
        if matches!(sent.signal, os::SIGTERM | os::SIGINT) {
            return true;
        }
    }
    false
}

impl Server {
    fn new(folder: PathBuf, listener: Listener) -> Self {
        Server {
            folder,
            listener,
            begun: Instant::now(),
            visitors: Vec::new(),
            page: None,
            fresh: None,
            next: None,
            next_at: 0,
            gone: None,
            beat_at: 0,
            paused: 0,
        }
    }

    fn now(&self) -> u64 {
        u64::try_from(self.begun.elapsed().as_millis()).unwrap_or(u64::MAX)
    }

    /// Waits until something happens, and does what comes of it.
    fn turn(&mut self, signals: &impl std::os::fd::AsRawFd) -> io::Result<()> {
        let now = self.now();
        let accepts = if now < self.paused { -1 } else { self.listener.descriptor() };
        let mut waited = vec![Waited::new(signals.as_raw_fd(), READABLE), Waited::new(accepts, READABLE)];
        let links = [&self.fresh, &self.next];
        waited.extend(links.map(|link| link.as_ref().map_or(Waited::new(-1, READABLE), Link::waited)));
        waited.extend(self.visitors.iter().map(Visitor::waited));
        os::wait(&mut waited, self.time_left(now))?;
        let now = self.now();
        self.take_requests(now, &waited[4..]);
        if waited[1].is_seen() {
            self.accept(now);
        }
        self.take_fresh(now, waited[2].is_seen());
        self.take_next(now, waited[3].is_seen());
        self.look(now);
        self.tell(now);
        for visitor in &mut self.visitors {
            visitor.take_due(now);
        }
        self.visitors.retain(|visitor| visitor.stage != Stage::Gone);
        Ok(())
    }

    fn time_left(&self, now: u64) -> Option<Duration> {
        let visitors = self.visitors.iter().filter_map(|visitor| visitor.until);
        let links = [&self.fresh, &self.next].into_iter().flatten().filter_map(|link| link.until);
        let looks = (self.has_followers() && self.next.is_none()).then_some(self.next_at);
        let beats = self.has_followers().then_some(self.beat_at);
        let paused = (now < self.paused).then_some(self.paused);
        let due = visitors.chain(links).chain(looks).chain(beats).chain(paused).min()?;
        Some(Duration::from_millis(due.saturating_sub(now)))
    }

    fn followers(&self) -> usize {
        self.visitors.iter().filter(|visitor| visitor.stage == Stage::Following).count()
    }

    fn has_followers(&self) -> bool {
        self.followers() > 0
    }

    /// As many are accepted as there is room for. Where there is none, one that has said nothing yet makes room.
    fn accept(&mut self, now: u64) {
        for _ in 0..MOST {
            let stream = match self.listener.accept() {
                Ok(stream) => stream,
                Err(error) if error.kind() == io::ErrorKind::WouldBlock => return,
                Err(_) => {
                    self.paused = now + PAUSE;
                    return;
                }
            };
            let mut visitor = Visitor::new(stream, now);
            if self.visitors.len() >= MOST {
                let idle = self.visitors.iter().position(|visitor| visitor.stage == Stage::Asking);
                if let Some(idle) = idle {
                    std::mem::swap(&mut self.visitors[idle], &mut visitor);
                }
                // What it has said is read, so that the system doesn't take the answer back.
                let _ = visitor.read();
                visitor.refuse(now, Status::Busy, "too many visitors; try again");
                continue;
            }
            self.visitors.push(visitor);
            // Most have said what they want.
            let index = self.visitors.len() - 1;
            if let Some(asked) = self.visitors[index].read() {
                self.take_request(now, index, asked);
            }
        }
    }

    fn take_requests(&mut self, now: u64, seen: &[Waited]) {
        let turns = self.visitors.iter_mut().zip(seen).map(|(visitor, seen)| visitor.turn(now, seen));
        let asked: Vec<(usize, Result<Head, Status>)> =
            turns.enumerate().filter_map(|(index, asked)| Some((index, asked?))).collect();
        for (index, asked) in asked {
            self.take_request(now, index, asked);
        }
        // Whoever is gone leaves its place to who comes now.
        self.visitors.retain(|visitor| visitor.stage != Stage::Gone);
    }

    fn take_request(&mut self, now: u64, index: usize, asked: Result<Head, Status>) {
        let wish = self.wish_of(asked);
        let visitor = &mut self.visitors[index];
        match wish {
            Ok(Wish::Page(is_bodiless)) => visitor.wait(is_bodiless),
            Ok(Wish::EventsHead) => {
                let head = http::head_of(Status::Fine, EVENTS, None, "");
                visitor.answer(now, [head.into_bytes().into()]);
            }
            Ok(Wish::Events(mark)) => {
                visitor.follow(now, &mark);
                if let Some(why) = &self.gone {
                    visitor.tell(now, news::gone(why).into_bytes().into());
                }
            }
            Err((status, text)) => visitor.refuse(now, status, text),
        }
    }

    /// What is wanted by a request; else its status, and why.
    fn wish_of(&self, asked: Result<Head, Status>) -> Result<Wish, (Status, &'static str)> {
        let head = asked.map_err(|status| (status, "that is no request that is answered here"))?;
        if !self.listener.admits(&head) {
            return Err((Status::Forbidden, "the token is wrong or missing; take the address that was printed"));
        }
        match head.path().map_err(|status| (status, "nothing but GET and HEAD is answered"))? {
            "/" => Ok(Wish::Page(head.is_bodiless())),
            "/events" if head.is_bodiless() => Ok(Wish::EventsHead),
            "/events" if self.followers() >= FOLLOWERS => Err((Status::Busy, "too many follow already")),
            // One that comes again tells what it had last.
            "/events" => {
                Ok(Wish::Events(head.field("last-event-id").or(head.word("after")).unwrap_or_default().to_string()))
            }
            _ => Err((Status::Missing, "there is / and /events")),
        }
    }

    /// Asks the daemon for what visitors want.
    fn look(&mut self, now: u64) {
        if self.visitors.iter().any(|visitor| matches!(visitor.stage, Stage::Waiting(_))) {
            self.look_for_visitors(now);
        }
        if self.has_followers() && self.next.is_none() && now >= self.next_at {
            self.look_for_followers(now);
        }
    }

    /// A daemon that stands still isn't asked again: what was asked is waited for.
    fn look_for_visitors(&mut self, now: u64) {
        if let Some(link) = &mut self.fresh {
            link.until.get_or_insert(now + PATIENCE);
        } else if self.page.as_ref().is_some_and(|(_, at)| now < at + YOUNG) {
            self.show(now);
        } else {
            match Link::ask(&self.folder, None, Some(now + PATIENCE)) {
                Ok(link) => self.fresh = Some(link),
                Err(text) => self.refuse(now, Status::Busy, &text),
            }
        }
    }

    /// For a page that is so for a while alone another one is asked for then, whatever has happened.
    fn look_for_followers(&mut self, now: u64) {
        let lasts = self.page.as_ref().filter(|(page, _)| page.lasts > 0).map(|(page, at)| at + page.lasts);
        let is_over = lasts.is_some_and(|until| now >= until);
        let mark = self.page.as_ref().map(|(page, _)| page.mark.as_str()).filter(|_| !is_over);
        match Link::ask(&self.folder, mark, lasts.filter(|_| !is_over)) {
            Ok(link) => self.next = Some(link),
            Err(text) => self.lose(now, &text),
        }
    }

    fn take_fresh(&mut self, now: u64, is_seen: bool) {
        let Some(link) = &mut self.fresh else { return };
        let told = if is_seen { link.read() } else { None };
        let is_late = link.until.is_some_and(|until| now >= until);
        match told {
            Some(Ok(page)) => {
                self.take_page(now, page);
                self.fresh = None;
                self.show(now);
            }
            Some(Err(text)) => {
                self.fresh = None;
                self.refuse(now, Status::Busy, &text);
            }
            None if is_late => {
                link.until = None;
                self.refuse(now, Status::Silent, "the daemon says nothing");
            }
            None => {}
        }
    }

    fn take_next(&mut self, now: u64, is_seen: bool) {
        let Some(link) = &mut self.next else { return };
        let told = if is_seen { link.read() } else { None };
        let is_late = link.until.is_some_and(|until| now >= until);
        match told {
            Some(Ok(page)) => {
                self.next_at = now + YOUNG + page.body.len() as u64 / 1024;
                self.take_page(now, page);
                self.next = None;
            }
            Some(Err(text)) => self.lose(now, &text),
            // It is asked for anew, whatever has happened.
            None if is_late => self.next = None,
            None => {}
        }
    }

    /// The daemon has gone: those who follow are told once.
    fn lose(&mut self, now: u64, text: &str) {
        (self.next, self.next_at) = (None, now + PAUSE);
        if self.gone.is_none() {
            self.gone = Some(text.to_string());
            let event: Rc<[u8]> = news::gone(text).into_bytes().into();
            for visitor in self.visitors.iter_mut().filter(|visitor| visitor.stage == Stage::Following) {
                visitor.tell(now, Rc::clone(&event));
            }
        }
    }

    /// A page has come. Whoever has the one before is told what differs.
    fn take_page(&mut self, now: u64, page: Page) {
        self.gone = None;
        if let Some((old, _)) = &self.page {
            let news = news::between(&old.body, &page.body, &page.mark).map(|text| Rc::from(text.into_bytes()));
            let has_old = |visitor: &&mut Visitor| {
                visitor.stage == Stage::Following && visitor.has == old.mark && visitor.has_read_all()
            };
            for visitor in self.visitors.iter_mut().filter(has_old) {
                visitor.has.clone_from(&page.mark);
                if let Some(news) = &news {
                    visitor.tell(now, Rc::clone(news));
                }
            }
        }
        self.page = Some((page, now));
    }

    /// Whoever follows, has read all, and has another page gets the whole of this one. All others are told from time to time that
    /// the connection lives.
    fn tell(&mut self, now: u64) {
        let is_beat = now >= self.beat_at;
        if is_beat {
            self.beat_at = now + BEAT;
        }
        let page = self.page.as_ref().filter(|_| self.gone.is_none()).map(|(page, _)| page);
        let mut whole: Option<Rc<[u8]>> = None;
        let is_free = |visitor: &&mut Visitor| visitor.stage == Stage::Following && visitor.has_read_all();
        for visitor in self.visitors.iter_mut().filter(is_free) {
            match page {
                Some(page) if page.mark != visitor.has => {
                    let text = whole.get_or_insert_with(|| news::whole(&page.body, &page.mark).into_bytes().into());
                    visitor.has.clone_from(&page.mark);
                    visitor.tell(now, Rc::clone(text));
                }
                _ if is_beat => visitor.tell(now, Rc::from(&b":\n\n"[..])),
                _ => {}
            }
        }
    }

    /// Shows the last page to all who wait for one.
    fn show(&mut self, now: u64) {
        let Some((page, _)) = &self.page else { return };
        let body: Rc<[u8]> = Rc::from(page.body.as_bytes());
        for visitor in &mut self.visitors {
            let Stage::Waiting(is_bodiless) = visitor.stage else { continue };
            let Ok(nonce) = random() else {
                visitor.refuse(now, Status::Busy, "there is no chance in /dev/urandom");
                continue;
            };
            let (start, end) = around(Frame::Served { mark: &page.mark, nonce: &nonce, now: calendar() });
            let more = format!("Content-Security-Policy: {}\r\nReferrer-Policy: no-referrer\r\n", policy(&nonce));
            let head = http::head_of(Status::Fine, PAGE, Some(start.len() + body.len() + end.len()), &more);
            if is_bodiless {
                visitor.answer(now, [head.into_bytes().into()]);
            } else {
                visitor.answer(now, [(head + &start).into_bytes().into(), Rc::clone(&body), end.into_bytes().into()]);
            }
        }
    }

    /// There is no page for all who wait for one.
    fn refuse(&mut self, now: u64, status: Status, text: &str) {
        for visitor in self.visitors.iter_mut().filter(|visitor| matches!(visitor.stage, Stage::Waiting(_))) {
            visitor.refuse(now, status, text);
        }
    }
}

/// Milliseconds from 1970 to now.
fn calendar() -> u64 {
    SystemTime::now().duration_since(UNIX_EPOCH).unwrap_or_default().as_millis() as u64
}

//! A small web service under supervision: a pool of two workers that gives up when they crash too often, and a server.
//!
//! usage: shop PORT     then: curl localhost:PORT/tea ; curl localhost:PORT/crash
//!        shop          asks itself, prints what comes, and stops

use otp_threads::{Child, Outcome, Stop, Strategy, Supervisor};
use std::error::Error;
use std::io::{ErrorKind, Read, Write};
use std::net::{SocketAddr, TcpListener, TcpStream};
use std::sync::mpsc::{Receiver, RecvTimeoutError, Sender, channel};
use std::sync::{Arc, Mutex, PoisonError};
use std::time::Duration;

/// What is wanted, and where the answer goes.
type Order = (String, Sender<String>);

const TURN: Duration = Duration::from_millis(20);

/// Does one order after another. A crash loses the one in hand, and says so to who waits.
fn worker(orders: &Mutex<Receiver<Order>>, stop: &Stop) -> Outcome {
    while !stop.is_wanted() {
        let order = orders.lock().unwrap_or_else(PoisonError::into_inner).recv_timeout(TURN);
        match order {
            Ok((what, answer)) if what == "crash" => {
                answer.send("crashes".into())?;
                return Err("a bad order".into());
            }
            Ok((what, answer)) => answer.send(format!("did {what}"))?,
            Err(RecvTimeoutError::Timeout) => {}
            Err(RecvTimeoutError::Disconnected) => return Ok(()),
        }
    }
    Ok(())
}

/// One request of HTTP, whose path is the order.
fn serve(mut stream: TcpStream, orders: &Sender<Order>) -> Outcome {
    stream.set_nonblocking(false)?;
    stream.set_read_timeout(Some(Duration::from_secs(5)))?;
    let mut bytes = [0; 1024];
    let length = stream.read(&mut bytes)?;
    let text = String::from_utf8_lossy(&bytes[..length]).into_owned();
    let what = text.split(' ').nth(1).unwrap_or("/").trim_matches('/').to_string();
    let (answer, waits) = channel();
    orders.send((what, answer))?;
    let text = waits.recv().unwrap_or_else(|_| "was lost".into());
    write!(stream, "HTTP/1.0 200 OK\r\ncontent-length: {}\r\n\r\n{text}\n", text.len() + 1)?;
    Ok(())
}

/// The server. A request that fails is that client's matter.
fn web(listener: &TcpListener, orders: &Sender<Order>, stop: &Stop) -> Outcome {
    while !stop.is_wanted() {
        match listener.accept() {
            Ok((stream, _)) => drop(serve(stream, orders)),
            Err(error) if error.kind() == ErrorKind::WouldBlock => drop(stop.wait(TURN)),
            Err(error) => return Err(error.into()),
        }
    }
    Ok(())
}

fn ask(address: SocketAddr, what: &str) -> Result<String, Box<dyn Error>> {
    let mut stream = TcpStream::connect(address)?;
    stream.set_read_timeout(Some(Duration::from_secs(10)))?;
    write!(stream, "GET /{what} HTTP/1.0\r\n\r\n")?;
    let mut text = String::new();
    stream.read_to_string(&mut text)?;
    text.lines().last().map(str::to_string).ok_or_else(|| "no answer".into())
}

/// The pool bears one crash in a minute: at the second it gives up, and is started anew; the third time is one too many for the
/// root, too. Then nobody listens.
fn tour(address: SocketAddr) -> Result<(), Box<dyn Error>> {
    println!("{}", ask(address, "tea")?);
    println!("{}", ask(address, "crash")?);
    println!("{}", ask(address, "cake")?);
    while ask(address, "crash").is_ok() {}
    Ok(())
}

fn main() -> Result<(), Box<dyn Error>> {
    let port = std::env::args().nth(1);
    let listener = TcpListener::bind(("127.0.0.1", port.as_deref().unwrap_or("0").parse()?))?;
    listener.set_nonblocking(true)?;
    let address = listener.local_addr()?;
    // What stays when a child crashes is what isn't its own: the queue of orders, and the listener.
    let (orders, waiting) = channel();
    let waiting = Arc::new(Mutex::new(waiting));
    let (first, second) = (waiting.clone(), waiting);
    let pool = Supervisor::new()
        .strategy(Strategy::OneForAll)
        .intensity(1, Duration::from_secs(60))
        .child("a", move |stop| worker(&first, stop))
        .child("b", move |stop| worker(&second, stop));
    let server = Child::new(move |stop| web(&listener, &orders, stop)).shutdown(Duration::from_secs(1));
    let is_tour = port.is_none();
    let shop =
        Supervisor::new().intensity(2, Duration::from_secs(60)).supervisor("pool", pool).add("web", server).events(
            move |event| {
                if !is_tour {
                    println!("{event}");
                }
            },
        );
    let handle = shop.handle();
    let asking = is_tour.then(|| {
        std::thread::spawn(move || {
            if let Err(why) = tour(address) {
                println!("the tour was cut off: {why}");
                handle.stop();
            }
        })
    });
    let ended = shop.run()?;
    if let Some(asking) = asking {
        let _ = asking.join();
    }
    println!("the shop has ended: {}", ended.cause);
    Ok(())
}

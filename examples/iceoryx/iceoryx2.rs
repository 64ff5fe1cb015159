//! NEVER RUN: a sketch of an adapter for iceoryx2 0.9.3 itself, whose crates can't be had where this repository is checked.
//!
//! It was compiled only against stubs of the functions that it calls.
//! `docs/ICEORYX.md` says what to do with it, and where to tell the result.
//! It answers the lines of `docs/FORMATS.md` for `./iox --against`: a line in, its reply out; `:reset` begins anew.
//! All ports are in one process, of the service `ipc_threadsafe`, so that a send may wait in a thread of its own.
use iceoryx2::port::update_connections::UpdateConnections;
use iceoryx2::port::{BackpressureAction, BackpressureInfo, SendError};
use iceoryx2::port::{publisher, subscriber};
use iceoryx2::prelude::*;
use iceoryx2::service::port_factory::publish_subscribe::PortFactory;
use iceoryx2::{sample, sample_mut, sample_mut_uninit};
use std::fmt::Display;
use std::io::{BufRead, Write};
use std::mem::MaybeUninit;
use std::sync::Mutex;
use std::sync::mpsc::{Receiver, Sender, channel};
use std::thread::JoinHandle;

type Service = ipc_threadsafe::Service;
/// All services of a script have slices of 64-bit numbers as payload, and a 64-bit number as user header.
type Header = u64;
type Factory = PortFactory<Service, [u64], Header>;
type Publisher = publisher::Publisher<Service, [u64], Header>;
type Subscriber = subscriber::Subscriber<Service, [u64], Header>;
type Written = sample_mut::SampleMut<Service, [u64], Header>;
type Unwritten = sample_mut_uninit::SampleMutUninit<Service, [MaybeUninit<u64>], Header>;
type Sample = sample::Sample<Service, [u64], Header>;

/// Why a line has no reply of its own.
enum Other {
    Skip,
    Refused(String),
    Unsupported(String),
}

type Reply = Result<String, Other>;

fn unsupported<T>(why: &str) -> Result<T, Other> {
    Err(Other::Unsupported(why.to_string()))
}

/// iceoryx2's errors display as `Type::Variant`, an inner variant in parentheses.
fn refused(error: impl Display) -> Other {
    Other::Refused(error.to_string())
}

/// What the thread of a send tells: it waits at a full mailbox, or has ended.
enum Sending {
    Waits,
    Ended(Result<usize, SendError>),
}

struct Port {
    publisher: Publisher,
    told: Receiver<Sending>,
    tell: Sender<Sending>,
    goes_on: Sender<()>,
    thread: Option<JoinHandle<()>>,
}

enum Loan {
    Written(Written),
    Unwritten(Unwritten),
}

struct Loaned {
    publisher: usize,
    loan: Loan,
}

/// What was made of one kind, by its numbers from 1 on.
struct Made<T> {
    letter: char,
    values: Vec<Option<T>>,
}

impl<T> Made<T> {
    fn new(letter: char) -> Self {
        Made {
            letter,
            values: Vec::new(),
        }
    }

    fn add(&mut self, value: T) -> String {
        self.values.push(Some(value));
        format!("ok {}{}", self.letter, self.values.len())
    }

    fn place(&self, word: &str) -> Result<usize, Other> {
        let number = word.strip_prefix(self.letter).and_then(|it| it.parse::<usize>().ok());
        number.map_or_else(|| unsupported(word), |it| it.checked_sub(1).ok_or(Other::Skip))
    }

    fn at(&mut self, place: usize) -> Result<&mut T, Other> {
        self.values.get_mut(place).and_then(Option::as_mut).ok_or(Other::Skip)
    }

    fn get(&mut self, word: &str) -> Result<&mut T, Other> {
        self.at(self.place(word)?)
    }

    fn take(&mut self, word: &str) -> Result<T, Other> {
        let place = self.place(word)?;
        self.values.get_mut(place).and_then(Option::take).ok_or(Other::Skip)
    }
}

fn number(word: &str) -> Result<u64, Other> {
    word.parse().or_else(|_| unsupported(word))
}

fn numbers(words: &[&str]) -> Result<Vec<u64>, Other> {
    words.iter().map(|it| number(it)).collect()
}

fn word<'a>(words: &[&'a str], at: usize) -> Result<&'a str, Other> {
    words.get(at).copied().map_or_else(|| unsupported("a word is missing"), Ok)
}

/// The options behind the words that a line must have.
fn options<'a>(words: &[&'a str], from: usize) -> Result<Vec<(&'a str, &'a str)>, Other> {
    words
        .iter()
        .skip(from)
        .map(|it| it.split_once('=').map_or_else(|| unsupported(it), Ok))
        .collect()
}

fn with_values(reply: String, values: &[u64]) -> String {
    values.iter().fold(reply, |said, it| format!("{said} {it}"))
}

struct Script {
    nodes: Vec<Node<Service>>,
    factories: Made<Factory>,
    publishers: Made<Port>,
    subscribers: Made<Subscriber>,
    loans: Made<Loaned>,
    samples: Made<Sample>,
}

impl Script {
    fn new() -> Self {
        Script {
            nodes: Vec::new(),
            factories: Made::new('f'),
            publishers: Made::new('p'),
            subscribers: Made::new('s'),
            loans: Made::new('l'),
            samples: Made::new('m'),
        }
    }

    fn answer(&mut self, line: &str) -> Reply {
        let words: Vec<&str> = line.split(' ').collect();
        match words[0] {
            "node" => self.node(),
            "create" | "open" | "open_or_create" => self.agree(&words),
            "publisher" => self.publisher(&words),
            "subscriber" => self.subscriber(&words),
            "leave" => self.leave(word(&words, 1)?),
            "update" => self.update(word(&words, 1)?),
            "loan" | "loan_uninit" => self.loan(&words),
            "set" => self.set(&words),
            "fill" => self.fill(&words),
            "drop" => self.loans.take(word(&words, 1)?).map(|_| "ok".to_string()),
            "send" => self.send_loan(word(&words, 1)?),
            "put" => self.put(&words),
            "retry" => self.retry(word(&words, 1)?),
            "receive" => self.receive(word(&words, 1)?),
            "read" => Ok(with_values("ok".to_string(), self.samples.get(word(&words, 1)?)?.payload())),
            "release" => self.samples.take(word(&words, 1)?).map(|_| "ok".to_string()),
            "has" => self
                .subscribers
                .get(word(&words, 1)?)?
                .has_samples()
                .map(|it| format!("ok {it}"))
                .map_err(refused),
            // `sequence`, `giveup` and `foreign` are this port's own, and a factory of iceoryx2 is dropped rather than closed.
            other => unsupported(other),
        }
    }

    fn node(&mut self) -> Reply {
        let made = NodeBuilder::new().create::<Service>().map_err(refused)?;
        self.nodes.push(made);
        Ok(format!("ok n{}", self.nodes.len()))
    }

    fn agree(&mut self, words: &[&str]) -> Reply {
        let at = word(words, 1)?.strip_prefix('n').map_or_else(|| unsupported("a node"), number)? as usize;
        let node = at.checked_sub(1).and_then(|it| self.nodes.get(it)).ok_or(Other::Skip)?;
        if word(words, 2)? != "ps" {
            return unsupported("pattern");
        }
        let name: ServiceName = word(words, 3)?.try_into().or_else(|_| unsupported("name"))?;
        let mut builder = node.service_builder(&name).publish_subscribe::<[u64]>().user_header::<Header>();
        for (key, value) in options(words, 4)? {
            let size = number(value)? as usize;
            builder = match key {
                "buffer" => builder.subscriber_max_buffer_size(size),
                "history" => builder.history_size(size),
                "borrowed" => builder.subscriber_max_borrowed_samples(size),
                "publishers" => builder.max_publishers(size),
                "subscribers" => builder.max_subscribers(size),
                "nodes" => builder.max_nodes(size),
                "overflow" => builder.enable_safe_overflow(size == 1),
                _ => return unsupported(key),
            };
        }
        let factory = match words[0] {
            "create" => builder.create().map_err(refused)?,
            "open" => builder.open().map_err(refused)?,
            _ => builder.open_or_create().map_err(refused)?,
        };
        Ok(self.factories.add(factory))
    }

    fn publisher(&mut self, words: &[&str]) -> Reply {
        let (tell, told) = channel();
        let (goes_on, may_go_on) = channel();
        let (waits, may_go_on) = (Mutex::new(tell.clone()), Mutex::new(may_go_on));
        let mut builder = self.factories.get(word(words, 1)?)?.publisher_builder();
        for (key, value) in options(words, 2)? {
            builder = match key {
                "loans" => builder.max_loaned_samples(number(value)? as usize),
                "slice" => builder.initial_max_slice_len(number(value)? as usize),
                _ => return unsupported(key),
            };
        }
        // The send's thread meets the script at each try: it tells that it waits, and tries again when the script says `retry`.
        builder = builder.set_backpressure_handler(move |_: &BackpressureInfo| {
            let is_told = waits.lock().is_ok_and(|it| it.send(Sending::Waits).is_ok());
            let is_asked = is_told
                && may_go_on
                    .lock()
                    .is_ok_and(|it: std::sync::MutexGuard<'_, Receiver<()>>| it.recv().is_ok());
            if is_asked {
                BackpressureAction::Retry
            } else {
                BackpressureAction::DiscardData
            }
        });
        let publisher = builder.create().map_err(refused)?;
        Ok(self.publishers.add(Port {
            publisher,
            told,
            tell,
            goes_on,
            thread: None,
        }))
    }

    fn subscriber(&mut self, words: &[&str]) -> Reply {
        let mut builder = self.factories.get(word(words, 1)?)?.subscriber_builder();
        for (key, value) in options(words, 2)? {
            builder = match key {
                "buffer" => builder.buffer_size(number(value)? as usize),
                _ => return unsupported(key),
            };
        }
        let made = builder.create().map_err(refused)?;
        Ok(self.subscribers.add(made))
    }

    fn leave(&mut self, name: &str) -> Reply {
        if name.starts_with('p') {
            self.free_publisher(name)?;
            self.publishers.take(name).map(|_| "ok".to_string())
        } else {
            self.subscribers.take(name).map(|_| "ok".to_string())
        }
    }

    fn update(&mut self, name: &str) -> Reply {
        let updated = if name.starts_with('p') {
            self.free_publisher(name)?.publisher.update_connections()
        } else {
            self.subscribers.get(name)?.update_connections()
        };
        updated.map(|()| "ok".to_string()).map_err(refused)
    }

    /// A publisher of which no send waits.
    fn free_publisher(&mut self, name: &str) -> Result<&mut Port, Other> {
        let port = self.publishers.get(name)?;
        if port.thread.is_some() { Err(Other::Skip) } else { Ok(port) }
    }

    fn loan(&mut self, words: &[&str]) -> Reply {
        let (name, length) = (word(words, 1)?, number(word(words, 2)?)? as usize);
        let publisher = self.publishers.place(name)?;
        let from = &self.free_publisher(name)?.publisher;
        let loan = if words[0] == "loan" {
            Loan::Written(from.loan_slice(length).map_err(refused)?)
        } else {
            Loan::Unwritten(from.loan_slice_uninit(length).map_err(refused)?)
        };
        Ok(self.loans.add(Loaned { publisher, loan }))
    }

    fn set(&mut self, words: &[&str]) -> Reply {
        let (place, value) = (number(word(words, 2)?)? as usize, number(word(words, 3)?)?);
        let Loan::Written(loan) = &mut self.loans.get(word(words, 1)?)?.loan else {
            return Err(Other::Skip);
        };
        *loan.payload_mut().get_mut(place).ok_or(Other::Skip)? = value;
        Ok("ok".to_string())
    }

    fn fill(&mut self, words: &[&str]) -> Reply {
        let (name, values) = (word(words, 1)?, numbers(&words[2..])?);
        let length = match &self.loans.get(name)?.loan {
            Loan::Written(loan) => loan.payload().len(),
            Loan::Unwritten(loan) => loan.payload().len(),
        };
        if length != values.len() {
            return Err(Other::Skip);
        }
        let place = self.loans.place(name)?;
        let Loaned { publisher, loan } = self.loans.take(name)?;
        let written = match loan {
            Loan::Unwritten(loan) => loan.write_from_slice(&values),
            Loan::Written(mut loan) => {
                loan.payload_mut().copy_from_slice(&values);
                loan
            }
        };
        self.loans.values[place] = Some(Loaned {
            publisher,
            loan: Loan::Written(written),
        });
        Ok("ok".to_string())
    }

    fn send_loan(&mut self, name: &str) -> Reply {
        let Loaned { publisher, loan } = self.loans.get(name)?;
        let (publisher, is_written) = (*publisher, matches!(loan, Loan::Written(_)));
        let waits = self.publishers.at(publisher).is_ok_and(|it| it.thread.is_some());
        if !is_written || waits {
            return Err(Other::Skip);
        }
        match self.loans.take(name)?.loan {
            Loan::Written(loan) => self.send(publisher, loan),
            Loan::Unwritten(_) => Err(Other::Skip),
        }
    }

    fn put(&mut self, words: &[&str]) -> Reply {
        let (name, values) = (word(words, 1)?, numbers(&words[2..])?);
        let place = self.publishers.place(name)?;
        let loan = self.free_publisher(name)?.publisher.loan_slice_uninit(values.len());
        let loan = loan.map_err(|it| refused(SendError::LoanError(it)))?;
        self.send(place, loan.write_from_slice(&values))
    }

    fn send(&mut self, publisher: usize, loan: Written) -> Reply {
        let Ok(port) = self.publishers.at(publisher) else {
            return loan.send().map(|it| format!("ok {it}")).map_err(refused);
        };
        let tell = port.tell.clone();
        port.thread = Some(std::thread::spawn(move || {
            // Who no longer hears it has ended the script.
            let _ = tell.send(Sending::Ended(loan.send()));
        }));
        Self::outcome(port)
    }

    fn retry(&mut self, name: &str) -> Reply {
        let port = self.publishers.get(name)?;
        if port.thread.is_none() || port.goes_on.send(()).is_err() {
            return Err(Other::Skip);
        }
        Self::outcome(port)
    }

    fn outcome(port: &mut Port) -> Reply {
        match port.told.recv() {
            Ok(Sending::Waits) => Ok("blocked".to_string()),
            Ok(Sending::Ended(sent)) => {
                if let Some(thread) = port.thread.take() {
                    thread.join().or_else(|_| unsupported("the thread of a send ended"))?;
                }
                sent.map(|it| format!("ok {it}")).map_err(refused)
            }
            Err(_) => unsupported("the thread of a send ended"),
        }
    }

    fn receive(&mut self, name: &str) -> Reply {
        match self.subscribers.get(name)?.receive().map_err(refused)? {
            None => Ok("none".to_string()),
            Some(sample) => {
                let values = sample.payload().to_vec();
                Ok(with_values(self.samples.add(sample), &values))
            }
        }
    }
}

fn main() {
    let mut script = Script::new();
    for line in std::io::stdin().lock().lines().map_while(Result::ok) {
        let said = if line == ":reset" {
            script = Script::new();
            "ok".to_string()
        } else {
            match script.answer(&line) {
                Ok(reply) => reply,
                Err(Other::Skip) => "skip".to_string(),
                Err(Other::Refused(error)) => format!("err {error}"),
                Err(Other::Unsupported(why)) => format!("unsupported {why}"),
            }
        };
        println!("{said}");
        if std::io::stdout().flush().is_err() {
            break;
        }
    }
}

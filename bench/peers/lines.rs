//! What a line spells, and the bytes of its reply.
use crate::hub::{Asked, Disagreed, Hub, SETTINGS, Stop, Way};

/// The line spells no command.
struct Faulty;

impl From<Faulty> for Stop {
    fn from(_: Faulty) -> Self {
        Stop::Faulty
    }
}

/// The options of a line by key. A number has no words, and of words the place counts.
type Keys<const N: usize> = [(&'static str, &'static [&'static str]); N];

const SWITCH: &[&str] = &["0", "1"];
const DEGRADE: (&str, &[&str]) = ("degrade", &["ignore", "warn", "fail"]);
const OF_SUBSCRIBERS: Keys<2> = [("buffer", &[]), DEGRADE];
const OF_PUBLISHERS: Keys<7> = [
    ("loans", &[]),
    ("slots", &[]),
    ("slice", &[]),
    ("alloc", &["static", "best", "power"]),
    ("strategy", &["retry", "discard"]),
    ("handler", &["follow", "retry", "discard", "fail"]),
    DEGRADE,
];

/// The digits of each number below 100.
const PAIRS: &[u8; 200] = b"0001020304050607080910111213141516171819202122232425262728293031323334353637383940414243444546474849\
5051525354555657585960616263646566676869707172737475767778798081828384858687888990919293949596979899";

/// What is left of a line: each word after the space before it.
struct Words<'a>(&'a [u8]);

impl<'a> Words<'a> {
    fn word(&mut self) -> Result<&'a [u8], Faulty> {
        let [b' ', rest @ ..] = self.0 else { return Err(Faulty) };
        let (word, rest) = rest.split_at(rest.iter().position(|it| *it == b' ').unwrap_or(rest.len()));
        self.0 = rest;
        Ok(word)
    }

    #[inline(always)]
    fn digits(&mut self) -> Result<u64, Faulty> {
        let (mut value, mut count) = (0u64, 0);
        while let Some(digit @ b'0'..=b'9') = self.0.get(count) {
            value = value.wrapping_mul(10).wrapping_add(u64::from(digit - b'0'));
            count += 1;
        }
        let (digits, rest) = self.0.split_at(count);
        if matches!(digits, [] | [b'0', _, ..]) || !matches!(rest, [] | [b' ', ..]) {
            return Err(Faulty);
        }
        // Nineteen digits are never too many.
        if count > 19 {
            value = str::from_utf8(digits).ok().and_then(|it| it.parse().ok()).ok_or(Faulty)?;
        }
        self.0 = rest;
        Ok(value)
    }

    #[inline]
    fn number(&mut self) -> Result<u64, Faulty> {
        let [b' ', rest @ ..] = self.0 else { return Err(Faulty) };
        self.0 = rest;
        self.digits()
    }

    /// The number behind this letter.
    #[inline]
    fn of(&mut self, letter: u8) -> Result<u64, Faulty> {
        let [b' ', first, rest @ ..] = self.0 else { return Err(Faulty) };
        self.0 = rest;
        if *first == letter { self.digits() } else { Err(Faulty) }
    }

    /// What was read, where nothing is left.
    #[inline]
    fn last<T>(&self, it: T) -> Result<T, Faulty> {
        if self.0.is_empty() { Ok(it) } else { Err(Faulty) }
    }

    /// The number behind this letter, in the last word.
    #[inline]
    fn only(&mut self, letter: u8) -> Result<u64, Faulty> {
        let number = self.of(letter)?;
        self.last(number)
    }

    #[inline]
    fn numbers<'b>(&mut self, values: &'b mut Vec<u64>) -> Result<&'b [u64], Faulty> {
        values.clear();
        while !self.0.is_empty() {
            values.push(self.number()?);
        }
        Ok(values)
    }

    fn options<const N: usize>(&mut self, keys: &Keys<N>) -> Result<[Option<u64>; N], Faulty> {
        let mut options = [None; N];
        while !self.0.is_empty() {
            let word = self.word()?;
            let (key, value) = word.split_at(word.iter().position(|it| *it == b'=').ok_or(Faulty)?);
            let at = keys.iter().position(|it| it.0.as_bytes() == key).ok_or(Faulty)?;
            let value = match keys[at].1 {
                [] => Words(&value[1..]).digits_alone()?,
                words => words.iter().position(|it| it.as_bytes() == &value[1..]).ok_or(Faulty)? as u64,
            };
            if options[at].replace(value).is_some() {
                return Err(Faulty);
            }
        }
        Ok(options)
    }

    fn digits_alone(mut self) -> Result<u64, Faulty> {
        let number = self.digits()?;
        self.last(number)
    }
}

enum Reply<'a> { Text(&'static str), Number(&'static str, u64), Message(u64, &'a [u64]), Values(&'a [u64]), Disagreement(String) }

fn taken(count: Option<u64>) -> Reply<'static> {
    count.map_or(Reply::Text("blocked"), |it| Reply::Number("ok ", it))
}

fn decimal(mut value: u64, out: &mut Vec<u8>) {
    let (mut digits, mut start) = ([0; 20], 20);
    while value >= 10 {
        start -= 2;
        digits[start..start + 2].copy_from_slice(&PAIRS[2 * (value % 100) as usize..][..2]);
        value /= 100;
    }
    if value > 0 || start == 20 {
        start -= 1;
        digits[start] = b'0' + value as u8;
    }
    out.extend_from_slice(&digits[start..]);
}

#[inline(always)]
fn print(reply: Reply, out: &mut Vec<u8>) {
    let values = match reply {
        Reply::Text(text) => {
            out.extend_from_slice(text.as_bytes());
            &[]
        }
        Reply::Number(text, number) => {
            out.extend_from_slice(text.as_bytes());
            decimal(number, out);
            &[]
        }
        Reply::Message(sample, values) => {
            out.extend_from_slice(b"ok m");
            decimal(sample, out);
            values
        }
        Reply::Values(values) => {
            out.extend_from_slice(b"ok");
            values
        }
        Reply::Disagreement(why) => {
            out.extend_from_slice(why.as_bytes());
            &[]
        }
    };
    for value in values {
        out.push(b' ');
        decimal(*value, out);
    }
}

/// A hub, and the values of the line that is read.
#[derive(Default)]
pub struct Script { hub: Hub, values: Vec<u64> }

impl Script {
    pub fn answer(&mut self, line: &[u8], out: &mut Vec<u8>) {
        match self.reply(line) {
            Ok(reply) => print(reply, out),
            Err(Stop::Faulty) => out.extend_from_slice(b"err faulty line"),
            Err(Stop::Skipped) => out.extend_from_slice(b"skip"),
            Err(Stop::Refused(why)) => {
                out.extend_from_slice(b"err ");
                out.extend_from_slice(why.as_bytes());
            }
        }
    }

    #[inline]
    fn reply(&mut self, line: &[u8]) -> Result<Reply<'_>, Stop> {
        let Script { hub, values } = self;
        let (verb, rest) = line.split_at(line.iter().position(|it| *it == b' ').unwrap_or(line.len()));
        let mut words = Words(rest);
        let is_publisher = rest.starts_with(b" p");
        Ok(match verb {
            b"put" => taken(hub.put(words.of(b'p')?, words.numbers(values)?)?),
            b"receive" => hub.receive(words.only(b's')?)?.map_or(Reply::Text("none"), |(sample, values)| Reply::Message(sample, values)),
            b"release" => done(hub.release(words.only(b'm')?)?),
            b"read" => Reply::Values(hub.read(words.only(b'm')?)?),
            b"sequence" => hub.sequence(words.only(b'm')?)?.map_or(Reply::Text("ok none"), |it| Reply::Number("ok ", it)),
            b"loan" | b"loan_uninit" => {
                let (publisher, length) = (words.of(b'p')?, words.number()?);
                Reply::Number("ok l", hub.loan(publisher, words.last(length)?, verb == b"loan")?)
            }
            b"set" => {
                let (loan, place, value) = (words.of(b'l')?, words.number()?, words.number()?);
                done(hub.set(loan, place, words.last(value)?)?)
            }
            b"fill" => done(hub.fill(words.of(b'l')?, words.numbers(values)?)?),
            b"send" => taken(hub.send(words.only(b'l')?)?),
            b"drop" => done(hub.drop_loan(words.only(b'l')?)?),
            b"retry" => {
                let (publisher, time) = (words.of(b'p')?, words.number()?);
                words.last(time)?;
                taken(hub.retry(publisher)?)
            }
            b"giveup" => Reply::Number("ok ", hub.give_up(words.only(b'p')?)?),
            b"has" => Reply::Text(if hub.has(words.only(b's')?)? { "ok true" } else { "ok false" }),
            b"update" if is_publisher => done(hub.update_publisher(words.only(b'p')?)?),
            b"update" => done(hub.update_subscriber(words.only(b's')?)?),
            b"leave" if is_publisher => done(hub.leave_publisher(words.only(b'p')?)?),
            b"leave" => done(hub.leave_subscriber(words.only(b's')?)?),
            b"publisher" => Reply::Number("ok p", hub.publisher(words.of(b'f')?, words.options(&OF_PUBLISHERS)?)?),
            b"subscriber" => Reply::Number("ok s", hub.subscriber(words.of(b'f')?, words.options(&OF_SUBSCRIBERS)?)?),
            b"node" => Reply::Number("ok n", words.last(hub).map(Hub::node)?),
            b"create" => agree(hub, Way::Create, words)?,
            b"open" => agree(hub, Way::Open, words)?,
            b"open_or_create" => agree(hub, Way::OpenOrCreate, words)?,
            b"close" => done(hub.close(words.only(b'f')?)?),
            _ => return Err(Stop::Faulty),
        })
    }
}

fn done((): ()) -> Reply<'static> {
    Reply::Text("ok")
}

fn agree(hub: &mut Hub, way: Way, mut words: Words) -> Result<Reply<'static>, Stop> {
    let (node, pattern, name) = (words.of(b'n')?, words.word()?, words.word()?);
    if pattern != b"ps" || !(1..=255).contains(&name.len()) || !name.iter().all(u8::is_ascii_graphic) {
        return Err(Stop::Faulty);
    }
    let asked: Asked = words.options(&SETTINGS.map(|(key, is_switch, ..)| (key, if is_switch { SWITCH } else { &[] })))?;
    let (kind, why) = match hub.agree(way, node, name, &asked) {
        Ok(factory) => return Ok(Reply::Number("ok f", factory)),
        Err(Disagreed::Skipped) => return Err(Stop::Skipped),
        Err(Disagreed::Create(why)) => ("Create", why),
        Err(Disagreed::Open(why)) => ("Open", why),
    };
    Ok(Reply::Disagreement(match way {
        Way::OpenOrCreate => format!("err PublishSubscribeOpenOrCreateError::PublishSubscribe{kind}Error({why})"),
        _ => format!("err PublishSubscribe{kind}Error::{why}"),
    }))
}

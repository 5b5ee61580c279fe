//! The program `script`: a line is a command, which is answered.

use crate::edit::{Edit, Operator};
use crate::fault::Fault;
use crate::listing::listing;
use crate::text::{lines, number, numbers};
use crate::witness::{Begun, Idle, Opened};

/// The stop count of an open for which no `power` was given.
const NO_STOP: u32 = 999_999_999;

enum Command<'a> {
    Blank { count: usize },
    Power { stop: u32 },
    Open,
    Begin,
    Edit(Edit),
    Commit,
    Abandon,
    Show,
    Close,
    Cut { letters: &'a [u8] },
}

/// What is wrong with a line; its place is the line.
#[derive(Clone, Copy)]
enum Misuse {
    NoCommand,
    WrongArguments,
    NotNow,
}

impl Misuse {
    fn number(self) -> u32 {
        match self {
            Misuse::NoCommand => 40,
            Misuse::WrongArguments => 41,
            Misuse::NotNow => 42,
        }
    }
}

fn command<'a>(words: &[&'a [u8]]) -> Result<Command<'a>, Misuse> {
    let [first, arguments @ ..] = words else { return Err(Misuse::NoCommand) };
    let plain = |command| if arguments.is_empty() { Some(command) } else { None };
    let read = match *first {
        b"blank" => blank(arguments),
        b"power" => power(arguments),
        b"open" => plain(Command::Open),
        b"begin" => plain(Command::Begin),
        b"commit" => plain(Command::Commit),
        b"abandon" => plain(Command::Abandon),
        b"show" => plain(Command::Show),
        b"close" => plain(Command::Close),
        b"cut" => cut(arguments),
        name => edit(Operator::by_name(name).ok_or(Misuse::NoCommand)?, arguments),
    };
    read.ok_or(Misuse::WrongArguments)
}

fn blank<'a>(arguments: &[&'a [u8]]) -> Option<Command<'a>> {
    let [count] = arguments else { return None };
    let count = usize::try_from(number(count)?).ok()?;
    (1..=200).contains(&count).then_some(Command::Blank { count })
}

fn power<'a>(arguments: &[&'a [u8]]) -> Option<Command<'a>> {
    let [stop] = arguments else { return None };
    let stop = u32::try_from(number(stop)?).ok()?;
    Some(Command::Power { stop })
}

fn cut<'a>(arguments: &[&'a [u8]]) -> Option<Command<'a>> {
    let [letters] = arguments else { return None };
    Some(Command::Cut { letters })
}

fn edit<'a>(operator: Operator, arguments: &[&'a [u8]]) -> Option<Command<'a>> {
    Edit::new(operator, &numbers(arguments)?).map(Command::Edit)
}

/// What a command that is carried out is answered with.
enum Reply {
    Done,
    Number(usize),
    Listing(String),
    Refused(Fault),
}

fn number_or_fault(answer: Result<usize, Fault>) -> Reply {
    match answer {
        Ok(number) => Reply::Number(number),
        Err(fault) => Reply::Refused(fault),
    }
}

enum State {
    NoDisk,
    Idle(Idle),
    Session(Opened),
    Batch(Begun),
    /// After a 20 only `cut` and `blank` go.
    PowerGone(Idle),
}

/// The state behind an open or a commit.
fn opened(session: Opened, answer: Result<usize, Fault>) -> (State, Reply) {
    let state = match answer {
        Err(fault) if fault.is_power_gone() => State::PowerGone(session.close()),
        _ => State::Session(session),
    };
    (state, number_or_fault(answer))
}

impl State {
    /// Carries the command out, unless this state does not allow it. The
    /// count that `power` gives waits in `stop` for the next open.
    fn step(self, command: Command, stop: &mut Option<u32>) -> (State, Result<Reply, Misuse>) {
        let (state, reply) = match (self, command) {
            (_, Command::Blank { count }) => (State::Idle(Idle::blank(count)), Reply::Done),
            (State::Idle(disk), Command::Power { stop: count }) => {
                *stop = Some(count);
                (State::Idle(disk), Reply::Done)
            }
            (State::Idle(disk), Command::Open) => {
                let (session, answer) = disk.open(stop.take().unwrap_or(NO_STOP));
                opened(session, answer)
            }
            (State::Session(session), Command::Begin) => {
                (State::Batch(session.begin()), Reply::Done)
            }
            (State::Session(session), Command::Show) => {
                let text = listing(session.solid());
                (State::Session(session), Reply::Listing(text))
            }
            (State::Session(session), Command::Close) => {
                (State::Idle(session.close()), Reply::Done)
            }
            (State::Batch(batch), command) => return batch_step(batch, command),
            (State::Session(session), Command::Cut { letters }) => {
                (State::Idle(session.close().lose(letters)), Reply::Done)
            }
            (State::Idle(disk) | State::PowerGone(disk), Command::Cut { letters }) => {
                (State::Idle(disk.lose(letters)), Reply::Done)
            }
            (state, _) => return (state, Err(Misuse::NotNow)),
        };
        (state, Ok(reply))
    }
}

fn batch_step(mut batch: Begun, command: Command) -> (State, Result<Reply, Misuse>) {
    let (state, reply) = match command {
        Command::Edit(edit) => {
            let answer = batch.edit(&edit);
            (State::Batch(batch), number_or_fault(answer))
        }
        Command::Commit => {
            let (session, answer) = batch.commit();
            opened(session, answer)
        }
        Command::Abandon => (State::Session(batch.abandon()), Reply::Done),
        Command::Cut { letters } => (State::Idle(batch.lose(letters)), Reply::Done),
        _ => return (State::Batch(batch), Err(Misuse::NotNow)),
    };
    (state, Ok(reply))
}

fn written(reply: Result<Reply, Misuse>, line: usize) -> String {
    match reply {
        Ok(Reply::Done) => "ok\n".to_string(),
        Ok(Reply::Number(number)) => format!("ok {number}\n"),
        Ok(Reply::Listing(text)) => text + "ok\n",
        Ok(Reply::Refused(fault)) => format!("no {} {}\n", fault.number(), fault.place()),
        Err(misuse) => format!("no {} {line}\n", misuse.number()),
    }
}

/// The replies to all lines that have a word.
pub fn script(input: &[u8]) -> String {
    let mut state = State::NoDisk;
    let mut stop = None;
    let mut text = String::new();
    for line in lines(input) {
        let reply = match command(&line.words) {
            Ok(command) => {
                let (next, reply) = state.step(command, &mut stop);
                state = next;
                reply
            }
            Err(misuse) => Err(misuse),
        };
        text += &written(reply, line.number);
    }
    text
}

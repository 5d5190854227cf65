//! One `ReceiveHandler` over a pipe in memory with a stopped clock, driven event by event.
use std::{
    cell::RefCell,
    future::{Future as _, poll_fn},
    pin::pin,
    rc::Rc,
    sync::{
        Arc,
        atomic::{AtomicBool, AtomicUsize, Ordering},
    },
    task::Poll,
    time::Duration,
};

use tokio::{
    io::{AsyncReadExt as _, AsyncWriteExt as _, DuplexStream, ReadHalf, WriteHalf},
    runtime::Runtime,
    select_order,
    sync::{mpsc, oneshot},
    task::LocalSet,
};

use crate::{
    Connection,
    asdu::Asdu,
    config::ProtocolConfig,
    error::Error,
    errors,
    receive_handler::{
        ReceiveHandler, ReceiveHandlerCallback, ReceiveHandlerCommand as Command,
        SendAsduCommandAck,
    },
};

#[derive(Debug, Clone)]
pub enum Event {
    /// A chunk from the peer. The handler takes at most 255 bytes at a time: a longer one takes several reads.
    Receive(Vec<u8>),
    /// The peer closes.
    End,
    Send(Asdu),
    Stop,
    Test,
    /// The clock jumps by so many milliseconds, then the timers may fire.
    Advance(u64),
    /// The clock jumps, and nothing runs until the next event.
    Skip(u64),
    /// Which branch of the handler's `select!` is polled first from here on, which settles ties: 0 read, 1 command,
    /// 2 t3, 3 t2, 4 t1 of U, 5 t1 of I frames.
    PollFirst(u32),
}

#[derive(Debug, Clone, PartialEq, Eq)]
pub enum State {
    Open,
    Ended,
    Failed(String),
    Panicked,
}

/// What an event brought about.
#[derive(Debug, Clone, PartialEq, Eq)]
pub struct Step {
    pub written: Vec<u8>,
    /// How many ASDUs were handed to the callback.
    pub came: usize,
    /// Whether an ASDU to send was taken; none where the event was another, or no answer came.
    pub taken: Option<bool>,
    pub window_full: bool,
    pub state: State,
}

/// Rounds of giving way after an event. Each lets every task that can run run. While a round is under way the
/// runtime is not idle, so that it does not move the stopped clock by itself.
const ROUNDS: usize = 16;

#[derive(Default)]
struct Callback(AtomicUsize);

#[async_trait::async_trait]
impl ReceiveHandlerCallback for Callback {
    async fn on_new_objects(&self, _: Asdu) {
        self.0.fetch_add(1, Ordering::Relaxed);
    }
}

/// What the tasks beside the driver leave for it to look at.
struct Seen {
    came: Arc<Callback>,
    window_full: Arc<AtomicBool>,
    written: RefCell<Vec<u8>>,
    state: RefCell<State>,
}

/// Frames that went and came before a link is driven, all confirmed but the last `unconfirmed` of those that came.
#[derive(Debug, Clone, Copy, Default)]
pub struct Start {
    pub sent: u16,
    pub received: u16,
    pub unconfirmed: u16,
}

pub struct Link {
    runtime: Runtime,
    tasks: LocalSet,
    to_handler: Option<WriteHalf<DuplexStream>>,
    commands: mpsc::Sender<Command>,
    seen: Rc<Seen>,
}

impl Link {
    /// A link just opened, as if so many frames had gone and come already.
    pub fn open(config: &ProtocolConfig, start: Start) -> Link {
        select_order::set_first(0);
        let runtime = tokio::runtime::Builder::new_current_thread()
            .enable_time()
            .start_paused(true)
            .build()
            .expect("a runtime");
        let (ours, theirs) = tokio::io::duplex(1 << 20);
        let (from_handler, to_handler) = tokio::io::split(theirs);
        let (commands, received_commands) = mpsc::channel(64);
        let seen = Rc::new(Seen {
            came: Arc::default(),
            window_full: Arc::default(),
            written: RefCell::default(),
            state: RefCell::new(State::Open),
        });
        let tasks = LocalSet::new();
        let handler = handle(seen.clone(), config.clone(), start, ours, received_commands);
        tasks.spawn_local(watch(seen.clone(), handler));
        tasks.spawn_local(collect(seen.clone(), from_handler));
        tasks.block_on(&runtime, settle());
        Link { runtime, tasks, to_handler: Some(to_handler), commands, seen }
    }

    pub fn step(&mut self, event: Event) -> Step {
        let Link { runtime, tasks, to_handler, commands, seen } = self;
        let open = *seen.state.borrow() == State::Open;
        let taken = tasks.block_on(runtime, async {
            let runs = !matches!(event, Event::Skip(_) | Event::PollFirst(_));
            let answer = put_in(event, to_handler, commands, open).await;
            if runs {
                settle().await;
            }
            answer.and_then(|mut answer| answer.try_recv().ok())
        });
        Step {
            written: seen.written.take(),
            came: seen.came.0.swap(0, Ordering::Relaxed),
            taken: taken.map(|answer| answer.is_ok()),
            window_full: seen.window_full.load(Ordering::Relaxed),
            state: seen.state.borrow().clone(),
        }
    }
}

async fn put_in(
    event: Event,
    to_handler: &mut Option<WriteHalf<DuplexStream>>,
    commands: &mpsc::Sender<Command>,
    open: bool,
) -> Option<oneshot::Receiver<SendAsduCommandAck>> {
    let command = match event {
        Event::Receive(bytes) => {
            if let (true, Some(to_handler)) = (open, to_handler) {
                to_handler.write_all(&bytes).await.expect("room in the pipe");
            }
            return None;
        }
        Event::End => {
            if let Some(mut to_handler) = to_handler.take() {
                to_handler.shutdown().await.expect("a pipe that can be closed");
            }
            return None;
        }
        Event::Advance(milliseconds) | Event::Skip(milliseconds) => {
            jump(milliseconds).await;
            return None;
        }
        Event::PollFirst(branch) => {
            select_order::set_first(branch);
            return None;
        }
        Event::Stop => Command::Stop,
        Event::Test => Command::Test,
        Event::Send(asdu) => {
            let (reply, answer) = oneshot::channel();
            // A handler that has ended takes no command, and then gives no answer.
            let _ = commands.send(Command::Asdu { asdu, reply }).await;
            return Some(answer);
        }
    };
    let _ = commands.send(command).await;
    None
}

async fn handle(
    seen: Rc<Seen>,
    config: ProtocolConfig,
    start: Start,
    connection: DuplexStream,
    mut commands: mpsc::Receiver<Command>,
) -> Result<(), Error> {
    let (mut from, mut to) = tokio::io::split(Connection::Memory(connection));
    let (came, full) = (seen.came.clone(), seen.window_full.clone());
    let handler = ReceiveHandler::new(&mut from, &mut to, came, config, &mut commands, full);
    handler.starting_at(start).receive_task().await
}

async fn watch(seen: Rc<Seen>, handler: impl Future<Output = Result<(), Error>> + 'static) {
    // In a task of its own, a panic of the handler is an answer.
    let end = match tokio::task::spawn_local(handler).await {
        Ok(Ok(())) => State::Ended,
        Ok(Err(error)) => State::Failed(errors::path(&error)),
        Err(_) => State::Panicked,
    };
    seen.state.replace(end);
}

async fn collect(seen: Rc<Seen>, mut from_handler: ReadHalf<DuplexStream>) {
    let mut buffer = [0; 4096];
    while let Ok(count @ 1..) = from_handler.read(&mut buffer).await {
        seen.written.borrow_mut().extend_from_slice(&buffer[..count]);
    }
}

async fn settle() {
    for _ in 0..ROUNDS {
        tokio::task::yield_now().await;
    }
}

/// Moves the clock and gives way to no task: `advance` moves it at its first poll and gives way only then.
async fn jump(milliseconds: u64) {
    let mut advance = pin!(tokio::time::advance(Duration::from_millis(milliseconds)));
    poll_fn(|context| {
        let _ = advance.as_mut().poll(context);
        Poll::Ready(())
    })
    .await;
}

//! The Rust crate iec104 0.6.0 as the judge. Its modules are the unchanged sources (build.rs); this file stands in
//! for its lib.rs, which opens sockets: `Connection` is a pipe in memory. `errors` and `link` drive it.
// Of the sources that are not ours, and of the parts of them that nothing here calls.
#![allow(dead_code, private_interfaces)]

use std::{
    io,
    pin::Pin,
    task::{Context, Poll},
};

use lazy_static::lazy_static;
use tokio::io::{AsyncRead, AsyncWrite, DuplexStream, ReadBuf};

use crate::apdu::{Frame, UFrame};

pub mod errors;
pub mod link;

include!(concat!(env!("OUT_DIR"), "/iec104/modules.rs"));

/// The unchanged text, and beside it what has to stand inside it to reach its private parts.
pub mod receive_handler {
    include!(concat!(env!("OUT_DIR"), "/iec104/receive_handler.rs"));

    pub mod opened {
        use super::*;
        use crate::link::Start;

        impl<'a, C: ReceiveHandlerCallback> ReceiveHandler<'a, C> {
            /// As if so many frames had gone and come already.
            pub fn starting_at(mut self, start: Start) -> Self {
                self.sent_counter = start.sent;
                self.received_counter = start.received;
                self.unacknowledged_rcv_frames = start.unconfirmed;
                self
            }
        }

        /// How many of the outstanding frames `acknowledged..sent` (by 32,768) a receive number frees.
        pub fn acknowledge(acknowledged: u16, sent: u16, number: u16) -> Result<usize, Error> {
            let outstanding = (sent + 32768 - acknowledged) % 32768;
            let sending = (1..=outstanding).map(|i| ((acknowledged + i) % 32768, Instant::now()));
            let mut queue: VecDeque<_> = sending.collect();
            check_sequence_acknowledge(&mut queue, number, sent)?;
            Ok(usize::from(outstanding) - queue.len())
        }

        struct Nobody;

        #[async_trait::async_trait]
        impl ReceiveHandlerCallback for Nobody {
            async fn on_new_objects(&self, _: Asdu) {}
        }

        /// One step of assembling, as `receive_task` takes it.
        pub fn pick(buffer: &mut VecDeque<u8>) -> Result<Option<Apdu>, Error> {
            if buffer.len() <= APDU_HEADER_SIZE {
                return Ok(None);
            }
            ReceiveHandler::<Nobody>::try_parse_apdu(buffer)
        }
    }
}

macro_rules! u_frames {
    ($($name:ident: $flag:ident),*) => {
        lazy_static! {
            $(static ref $name: Frame = Frame::U(UFrame { $flag: true, ..Default::default() });)*
        }
    };
}

u_frames! {
    START_DT_ACT_FRAME: start_dt_activation,
    START_DT_CON_FRAME: start_dt_confirmation,
    STOP_DT_ACT_FRAME: stop_dt_activation,
    STOP_DT_CON_FRAME: stop_dt_confirmation,
    TEST_FR_ACT_FRAME: test_fr_activation,
    TEST_FR_CON_FRAME: test_fr_confirmation
}

#[derive(Debug)]
pub enum Connection {
    Memory(DuplexStream),
}

impl Connection {
    fn stream(self: Pin<&mut Self>) -> Pin<&mut DuplexStream> {
        let Connection::Memory(stream) = self.get_mut();
        Pin::new(stream)
    }
}

impl AsyncRead for Connection {
    fn poll_read(
        self: Pin<&mut Self>,
        context: &mut Context<'_>,
        buffer: &mut ReadBuf<'_>,
    ) -> Poll<io::Result<()>> {
        self.stream().poll_read(context, buffer)
    }
}

impl AsyncWrite for Connection {
    fn poll_write(
        self: Pin<&mut Self>,
        context: &mut Context<'_>,
        bytes: &[u8],
    ) -> Poll<io::Result<usize>> {
        self.stream().poll_write(context, bytes)
    }

    fn poll_flush(self: Pin<&mut Self>, context: &mut Context<'_>) -> Poll<io::Result<()>> {
        self.stream().poll_flush(context)
    }

    fn poll_shutdown(self: Pin<&mut Self>, context: &mut Context<'_>) -> Poll<io::Result<()>> {
        self.stream().poll_shutdown(context)
    }
}

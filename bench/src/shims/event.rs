//! Stands for openjp2's `event`, which is not among the files given: the record that carries message
//! handlers, and the macro that sends a message. Here a message is kept for whoever asks for the last one.

use std::cell::Cell;

pub(crate) use crate::consts::event::*;

/// openjp2 keeps three message handlers here; the packet iterators only copy it.
#[derive(Copy, Clone, Default)]
pub(crate) struct opj_event_mgr;

thread_local! {
    static LAST: Cell<Option<&'static str>> = const { Cell::new(None) };
}

impl opj_event_mgr {
    pub(crate) fn keep(&self, _kind: EventType, message: &'static str) {
        LAST.set(Some(message));
    }
}

/// The last message since this was asked before.
pub(crate) fn take_last_message() -> Option<&'static str> {
    LAST.take()
}

macro_rules! event_msg {
    ($manager:expr, $kind:expr, $message:expr $(,)?) => {
        $manager.keep($kind, $message)
    };
}
pub(crate) use event_msg;

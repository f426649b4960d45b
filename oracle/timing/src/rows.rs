//! The rows: what each calls, and in which state. Both sides run the same rows on the same bytes.

use crate::clock::opaque;
use crate::side::{give_up, Call, Side, Sizes};
use crate::stand::{blank, Row, Stand, INTERVAL, NONE};
use crate::wire::{acks, add, datagram_of, raise, HEADER, KIB, PUSH, TELL};

/// The blocks that a stretch of short calls is spread over: enough for the clock's grain, and few enough to stay in the
/// nearest cache and for the C library's allocator to serve the Rust from its quickest lists, which hold seven of a size.
const SOME: usize = 6;
/// How often a stretch makes a call that leaves its block as it was, or nearly so.
const OFTEN: usize = 64;

/// Every row, in the order of the table.
pub fn all<S: Side>() -> Vec<Row<S>> {
    vec![
        loopback("loopback-128", 128),
        loopback("loopback-512", 512),
        input_push("input-push-1400", 0),
        input_push("input-push-1400-of-1024", 1024),
        input_repeat(),
        input_50_acks("input-50-acks", 0),
        input_50_acks("input-50-acks-of-1024", 1024),
        input_50_acks_newest_first("input-50-acks-newest-first", 0),
        input_50_acks_newest_first("input-50-acks-newest-first-of-1024", 1024),
        input_dearest_acks(),
        input_dearest_pushes(),
        send("send-1k", KIB, 1, 0),
        send("send-1k-of-1024", KIB, 1, 1024),
        send("send-100k", 100 * KIB, 75, 0),
        send("send-100k-of-1024", 100 * KIB, 75, 1024),
        flush_idle(),
        flush_none_due(),
        flush_sending(),
        update_idle(),
        check(),
        recv("recv-1k", 0),
        recv("recv-1k-of-1024", 1024),
        recv_queued("recv-1k-128-queued", 0),
        recv_queued("recv-1k-128-queued-of-1024", 1024),
        flush_acks(),
    ]
}

/// Messages of 1 KiB from one end to the other, a whole window in flight at once: all are sent and flushed by update, each
/// datagram is input at the far end and its message received at once, and the far end's update sends the acks back.
fn loopback<S: Side>(name: &'static str, window: u16) -> Row<S> {
    Row {
        name,
        needs: &[Call::Send, Call::Input, Call::Recv, Call::Update],
        blocks: 2,
        window,
        calls: window as usize,
        answer: window as usize * KIB,
        start: |s| {
            let tell = datagram_of(TELL, 0, s.window, &[]);
            for b in &mut s.blocks {
                b.input(&tell);
            }
        },
        run: |s| {
            let (near, far) = s.blocks.split_at_mut(1);
            let (near, far) = (&mut near[0], &mut far[0]);
            let (message, into) = (&s.message, &mut s.into);
            let mut received = 0;
            s.now += INTERVAL;
            for _ in 0..s.window {
                near.send(message);
            }
            near.update_to(s.now, &mut |datagram| {
                far.input(datagram);
                received += far.recv(into);
            });
            far.update_to(s.now, &mut |datagram| {
                near.input(datagram);
            });
            s.answer = received;
            near.forget();
            far.forget();
        },
        settle: expect_message,
        ..blank()
    }
}

/// The push that is next, 1,400 bytes in all, with nothing held, readable or to be acked.
fn input_push<S: Side>(name: &'static str, slots: usize) -> Row<S> {
    Row {
        name,
        needs: &[Call::Input, Call::Recv],
        blocks: SOME,
        slots,
        calls: SOME,
        after: Sizes { readable: 1, acks: 1, ..NONE },
        answer: 1400,
        start: |s| s.datagram = datagram_of(PUSH, 0, s.window, &[7; 1400 - HEADER]),
        run: input_each,
        settle: |s| {
            for b in &mut s.blocks {
                b.recv(&mut s.into);
                b.forget_acks();
            }
            raise(&mut s.datagram, 1);
        },
        ..blank()
    }
}

/// Numbers 1 to 511 held and 0 missing at window 512; number 1 again, which a search from the newest finds last. The acks
/// of some calls gather before they are gone.
fn input_repeat<S: Side>() -> Row<S> {
    Row {
        name: "input-repeat-511-held",
        needs: &[Call::Input],
        window: 512,
        calls: OFTEN,
        before: Sizes { held: 511, ..NONE },
        after: Sizes { held: 511, acks: OFTEN, ..NONE },
        answer: 1400,
        start: |s| {
            for number in (1..512).rev() {
                s.datagram = datagram_of(PUSH, number, s.window, &[7; 1400 - HEADER]);
                s.blocks[0].input(&s.datagram);
            }
            s.blocks[0].forget_acks();
        },
        run: |s| {
            for _ in 0..OFTEN {
                s.answer = s.blocks[0].input(&s.datagram);
            }
        },
        settle: |s| s.blocks[0].forget_acks(),
        ..blank()
    }
}

/// 50 segments of 1 KiB in flight; one datagram of their 50 acks, oldest first. una takes none of them, so that each is
/// looked for by its number.
fn input_50_acks<S: Side>(name: &'static str, slots: usize) -> Row<S> {
    Row {
        name,
        needs: &[Call::Input, Call::Send],
        blocks: 4,
        slots,
        calls: 4,
        before: Sizes { in_flight: 50, ..NONE },
        answer: 50 * HEADER,
        start: |s| s.datagram = acks(0..50),
        prepare: |s| fly(s, 50),
        run: input_each,
        settle: |s| raise(&mut s.datagram, 50),
        ..blank()
    }
}

/// 128 segments of 1 KiB in flight; one datagram of the acks of the newest 50, newest first, una taking none. The other 78
/// each gain a fastack.
fn input_50_acks_newest_first<S: Side>(name: &'static str, slots: usize) -> Row<S> {
    Row {
        name,
        needs: &[Call::Input, Call::Send],
        blocks: 2,
        slots,
        calls: 2,
        before: Sizes { in_flight: 128, ..NONE },
        after: Sizes { in_flight: 78, ..NONE },
        answer: 50 * HEADER,
        start: |s| s.datagram = acks((78..128).rev()),
        prepare: |s| fly(s, 128),
        run: input_each,
        settle: |s| {
            arrive(s, 128);
            raise(&mut s.datagram, 128);
        },
        ..blank()
    }
}

/// What a peer can make us do with one datagram of acks: 62 of them, newest first, with 1,024 segments in flight, una taking none.
/// The other 962 each gain a fastack.
fn input_dearest_acks<S: Side>() -> Row<S> {
    Row {
        name: "input-62-acks-1024-in-flight",
        needs: &[Call::Input, Call::Send],
        flight: 1024,
        slots: 1024,
        before: Sizes { in_flight: 1024, ..NONE },
        after: Sizes { in_flight: 962, ..NONE },
        answer: 62 * HEADER,
        start: |s| {
            s.datagram = acks((962..1024).rev());
            arrive(s, 0);
        },
        prepare: |s| fly(s, 1024),
        run: input_each,
        settle: |s| {
            arrive(s, 1024);
            raise(&mut s.datagram, 1024);
        },
        ..blank()
    }
}

/// The numbers behind a whole window of 512 that `input_dearest_pushes` is about: every eighth, 62 of them.
fn far_apart(next: u32) -> impl Iterator<Item = u32> {
    (0..62).map(move |i| next + 512 + 8 * i)
}

/// What a peer can make us do with one datagram of pushes: 62 of them, far apart. A window of 512 is readable and as many numbers stand
/// behind it, those missing that are pushed.
fn input_dearest_pushes<S: Side>() -> Row<S> {
    Row {
        name: "input-62-pushes-450-held",
        needs: &[Call::Input, Call::Recv],
        window: 512,
        slots: 1024,
        before: Sizes { readable: 512, held: 450, ..NONE },
        after: Sizes { readable: 512, held: 512, acks: 62, ..NONE },
        answer: 62 * HEADER,
        prepare: |s| {
            s.datagram = far_apart(s.next).flat_map(|sn| datagram_of(PUSH, sn, 512, &[])).collect();
            for sn in s.next..s.next + 1024 {
                if far_apart(s.next).all(|missing| missing != sn) {
                    s.blocks[0].input(&datagram_of(PUSH, sn, 512, &[]));
                    s.blocks[0].forget_acks();
                }
            }
        },
        run: input_each,
        settle: |s| {
            for _ in 0..1024 {
                s.blocks[0].recv(&mut s.into);
            }
            s.blocks[0].forget_acks();
            s.next += 1024;
        },
        ..blank()
    }
}

/// One message into an empty queue, which it fills with `segments`.
fn send<S: Side>(name: &'static str, length: usize, segments: usize, slots: usize) -> Row<S> {
    let blocks = if segments == 1 { SOME } else { 1 };
    Row {
        name,
        needs: &[Call::Send, Call::Input],
        blocks,
        slots,
        calls: blocks,
        after: Sizes { queued: segments, ..NONE },
        answer: length,
        start: if segments == 1 { |_| {} } else { |s| s.message = vec![7; 100 * KIB] },
        run: |s| {
            for b in &mut s.blocks {
                s.answer = b.send(&s.message);
            }
        },
        settle: |s| {
            s.blocks.iter_mut().for_each(S::flush);
            arrive(s, (s.message.len() as u32 + 1375) / 1376);
        },
        ..blank()
    }
}

/// Nothing to send, to resend or to ack.
fn flush_idle<S: Side>() -> Row<S> {
    Row { name: "flush-idle", needs: &[Call::Flush], calls: OFTEN, run: flush_often, ..blank() }
}

/// 128 segments of 1 KiB in flight, sent by the flush before.
fn flush_none_due<S: Side>() -> Row<S> {
    Row {
        name: "flush-128-none-due",
        needs: &[Call::Flush, Call::Send],
        calls: OFTEN,
        before: Sizes { in_flight: 128, ..NONE },
        after: Sizes { in_flight: 128, ..NONE },
        start: |s| fly(s, 128),
        run: flush_often,
        ..blank()
    }
}

/// 128 queued segments of 1 KiB leave, each in its own datagram.
fn flush_sending<S: Side>() -> Row<S> {
    Row {
        name: "flush-128x1k",
        needs: &[Call::Flush, Call::Send, Call::Input],
        before: Sizes { queued: 128, ..NONE },
        after: Sizes { in_flight: 128, datagrams: 128, bytes: 128 * (HEADER + KIB), ..NONE },
        prepare: |s| {
            for _ in 0..128 {
                s.blocks[0].send(&s.message);
            }
        },
        run: |s| s.blocks[0].flush(),
        settle: |s| arrive(s, 128),
        ..blank()
    }
}

/// Nothing to do, and the clock an interval later at each call, so that each runs its flush.
fn update_idle<S: Side>() -> Row<S> {
    Row {
        name: "update-idle",
        needs: &[Call::Update],
        calls: OFTEN,
        run: |s| {
            for _ in 0..OFTEN {
                s.now += INTERVAL;
                s.blocks[0].update(s.now);
            }
        },
        ..blank()
    }
}

/// 128 segments in flight, none due, and the next flush not due either, so that all are looked at.
fn check<S: Side>() -> Row<S> {
    Row {
        name: "check-128",
        needs: &[Call::Check, Call::Send],
        calls: OFTEN,
        before: Sizes { in_flight: 128, ..NONE },
        after: Sizes { in_flight: 128, ..NONE },
        answer: INTERVAL as usize - 1,
        start: |s| fly(s, 128),
        run: |s| {
            for _ in 0..OFTEN {
                s.answer = s.blocks[0].check(opaque(s.now + 1)) as usize;
            }
        },
        ..blank()
    }
}

/// One message of 1 KiB readable, nothing held behind it, and its ack gone.
fn recv<S: Side>(name: &'static str, slots: usize) -> Row<S> {
    Row {
        name,
        needs: &[Call::Recv, Call::Input],
        blocks: SOME,
        slots,
        calls: SOME,
        before: Sizes { readable: 1, ..NONE },
        answer: KIB,
        start: push_of_message,
        prepare: push_each,
        run: recv_each,
        settle: expect_message,
        ..blank()
    }
}

/// One message of 1 KiB, with 128 readable and none held; the queue is as long as the window.
fn recv_queued<S: Side>(name: &'static str, slots: usize) -> Row<S> {
    Row {
        name,
        needs: &[Call::Recv, Call::Input],
        blocks: SOME,
        slots,
        calls: SOME,
        before: Sizes { readable: 128, ..NONE },
        after: Sizes { readable: 127, ..NONE },
        answer: KIB,
        start: |s| {
            push_of_message(s);
            for _ in 0..127 {
                push_each(s);
            }
        },
        prepare: push_each,
        run: recv_each,
        settle: expect_message,
        ..blank()
    }
}

/// 128 acks gathered, from pushes already received: 58 to a datagram, so three datagrams.
fn flush_acks<S: Side>() -> Row<S> {
    Row {
        name: "flush-128-acks",
        needs: &[Call::Flush, Call::Input, Call::Recv],
        before: Sizes { acks: 128, ..NONE },
        after: Sizes { datagrams: 3, bytes: 128 * HEADER, ..NONE },
        start: |s| {
            s.datagram = datagram_of(PUSH, 0, s.window, &[]);
            s.blocks[0].input(&s.datagram);
            s.blocks[0].recv(&mut s.into);
            s.blocks[0].flush();
        },
        prepare: |s| {
            for _ in 0..128 {
                s.blocks[0].input(&s.datagram);
            }
        },
        run: |s| s.blocks[0].flush(),
        ..blank()
    }
}

fn input_each<S: Side>(s: &mut Stand<S>) {
    for b in &mut s.blocks {
        s.answer = b.input(&s.datagram);
    }
}

fn recv_each<S: Side>(s: &mut Stand<S>) {
    for b in &mut s.blocks {
        s.answer = b.recv(&mut s.into);
    }
}

fn push_of_message<S>(s: &mut Stand<S>) {
    s.datagram = datagram_of(PUSH, 0, s.window, &s.message);
}

/// Has each block receive the message, whose ack is gone at once.
fn push_each<S: Side>(s: &mut Stand<S>) {
    for b in &mut s.blocks {
        b.input(&s.datagram);
        b.forget_acks();
    }
    raise(&mut s.datagram, 1);
}

fn flush_often<S: Side>(s: &mut Stand<S>) {
    for _ in 0..OFTEN {
        s.blocks[0].flush();
    }
}

/// Puts `count` segments of the message in flight at each block.
fn fly<S: Side>(s: &mut Stand<S>, count: usize) {
    for b in &mut s.blocks {
        for _ in 0..count {
            b.send(&s.message);
        }
        b.flush();
        b.forget();
    }
}

/// Lets everything in flight at each block arrive; that was the next `count` numbers.
fn arrive<S: Side>(s: &mut Stand<S>, count: u32) {
    add(&mut s.arrived[16..20], count);
    for b in &mut s.blocks {
        b.input(&s.arrived);
    }
}

fn expect_message<S>(s: &mut Stand<S>) {
    if s.into[..KIB] != s.message[..] {
        give_up("a message was not received as it was sent");
    }
}

/* The functions of libkcp_c.a, which ./build makes. A slice of Rattle's is a pointer and a length.
   None keeps a pointer, allocates, or can be broken by what a pointer leads to; each pointer must lead to as many elements as
   the length beside it, or the array's bounds, say. */
#ifndef KCP_C_H
#define KCP_C_H

#include <stdbool.h>
#include <stddef.h>
#include <stdint.h>

#ifdef __cplusplus
extern "C" {
#endif

/* a - b modulo 2^32, read as signed */
int32_t kcp_timediff(uint32_t a, uint32_t b);

/* x raised to low, then cut to high */
uint32_t kcp_bound(uint32_t low, uint32_t x, uint32_t high);

/* The header at the front of buf: 0, or 16 (ShortHeader) under 24 bytes, which leaves all as it was. */
uint32_t kcp_get_conv(const uint8_t *buf, size_t len, uint32_t *conv);
uint32_t kcp_get_sn(const uint8_t *buf, size_t len, uint32_t *sn);
uint32_t kcp_set_conv(uint8_t *buf, size_t len, uint32_t conv);

/* A header's 24 bytes, and its numbers in the order conv, cmd, frg, wnd, ts, sn, una, len. */
void kcp_header_bytes(uint8_t out[24], uint32_t conv, uint8_t cmd, uint8_t frg, uint16_t wnd, uint32_t ts, uint32_t sn,
                      uint32_t una, uint32_t len);
void kcp_header_numbers(const uint8_t bytes[24], uint32_t out[8]);

/* The estimator srtt, rttval, rto, minrto after a round trip of rtt. */
void kcp_measured(uint32_t e[4], uint32_t rtt, uint32_t interval);

/* A control block is 35 words, in this order, which the host keeps; it may read and copy them, and needs no getter for them. Two
   numbers of 16 bits share a word, the first named in the low half: the receive window and the largest one yet set, the send window
   and the peer's, cwnd and ssthresh. incr has 64 bits, in two words. The flags share the first word. Any number is a block's, but for
   the first word, whose bits past the flags are 0: words that are no block are refused by 15 (BadPool), which leaves all as it was. */
enum {
    KCP_FLAGS, KCP_MTU, KCP_MSS, KCP_PROBE_WAIT, KCP_RCV_NXT, KCP_RCV_WND_LARGEST, KCP_RCV_START, KCP_QUEUED, KCP_RCV_REACH,
    KCP_SND_START, KCP_SND_REACH, KCP_FLYING, KCP_UNSENT, KCP_ACKS, KCP_WAITING, KCP_PROBE, KCP_CONV, KCP_SND_UNA, KCP_SND_NXT,
    KCP_SND_WND_RMT_WND, KCP_CWND_SSTHRESH, KCP_INCR_LOW, KCP_INCR_HIGH, KCP_RX_SRTT, KCP_RX_RTTVAL, KCP_RX_RTO, KCP_RX_MINRTO,
    KCP_CURRENT, KCP_INTERVAL, KCP_TS_FLUSH, KCP_TS_PROBE, KCP_XMIT, KCP_FASTRESEND, KCP_FASTLIMIT, KCP_DEAD_LINK, KCP_WORDS
};

/* The flags of the first word: nodelay; nocwnd; a stream; the next input's conv is adopted; there was an update; the link is dead. */
enum {
    KCP_FLAG_NODELAY = 1, KCP_FLAG_NOCWND = 2, KCP_FLAG_STREAM = 4, KCP_FLAG_INPUT_CONV = 8, KCP_FLAG_UPDATED = 16, KCP_FLAG_DEAD = 32
};

/* What is lent, beside the words. Each side is lent a ring of slots: records, and a room of 1,476 bytes for each slot. Index i of a ring
   stands at the slot (start + i) modulo the slots; a slot has a mark, 0 where nothing stands and n + 1 where a payload of n bytes does.
   The receive ring has 256 to 1,024 slots and one number for each, its mark * 65,536 + frg. Its first KCP_QUEUED indices are the queue;
   the KCP_RCV_REACH behind them are the numbers from rcv_nxt on, each held or, with a mark of 0, not yet.
   The send ring has 128 to 1,024 slots and nine numbers for each: first the marks of all slots, then eight numbers for each slot: conv,
   frg, sn, ts, resendts, rto, fastack, xmit. Its first KCP_SND_REACH indices are in flight, with gaps, whose marks are 0, where an ack
   took a segment out of the middle: KCP_FLYING of them are segments. The KCP_UNSENT behind them wait to be sent.
   The ack list has 2 numbers for each of 128 to 4,096 pairs, and 1,500 bytes are for what waits.
   What stands at indices that are not in use is no fault. A ring with nothing in use may start anywhere, and a call that empties it
   leaves its start at slot 0.
   A slot's place hangs on the count of slots, so a ring keeps its size while anything of it is in use.

   15 (BadPool) is for words that are no block, a size outside these limits, and what is not well formed. A call that is handed any of
   this memory tests it, and the block's own numbers: mtu from 50 to 1,500 and mss = mtu - 24; probe_wait 0, or from 7,000 to 120,000;
   rcv_wnd from 128 to the largest window, which is at most 512 and at most half of the receive slots; queue and reach of the receive ring
   at most that window; in flight at least one segment where the send ring reaches at all, its front one, and as many as KCP_FLYING says;
   each start within the slots, and no more in use than there are; marks of at most 1,477, and none of 0 in the queue and in what waits;
   no more acks than pairs, and at most 1,500 waiting bytes. */

/* A fresh block, that keeps messages apart, or that carries a stream of bytes: 0, or 15 where there are not KCP_WORDS words or a
   size is outside the limits, which leaves all as it was. What the lent memory holds is no fault, and stays. */
uint32_t kcp_new(uint32_t *words, size_t count, uint32_t conv, const uint32_t *rcv_records, size_t rcv_numbers,
                 const uint8_t *rcv_room, size_t rcv_bytes, const uint32_t *snd_records, size_t snd_numbers,
                 const uint8_t *snd_room, size_t snd_bytes, const uint32_t *acks, size_t acks_numbers, const uint8_t *waiting,
                 size_t waiting_bytes);
uint32_t kcp_new_stream(uint32_t *words, size_t count, uint32_t conv, const uint32_t *rcv_records, size_t rcv_numbers,
                        const uint8_t *rcv_room, size_t rcv_bytes, const uint32_t *snd_records, size_t snd_numbers,
                        const uint8_t *snd_room, size_t snd_bytes, const uint32_t *acks, size_t acks_numbers,
                        const uint8_t *waiting, size_t waiting_bytes);

/* mtu, and mss = mtu - 24: 0, 10 (InvalidMtu) under 50 or over 1,500, which leaves all as it was, or 15 */
uint32_t kcp_set_mtu(uint32_t *words, size_t count, size_t mtu);

/* the interval, raised to 10 and cut to 5,000; the next flush stays: 0, or 15 */
uint32_t kcp_set_interval(uint32_t *words, size_t count, uint32_t interval);

/* nodelay, with rx_minrto 30 or else 100; the interval, from 10 to 5,000; fastresend unless it is negative; nocwnd: 0, or 15 */
uint32_t kcp_set_nodelay(uint32_t *words, size_t count, bool nodelay, int32_t interval, int32_t resend, bool nc);

/* rx_minrto; rx_rto stays: 0, or 15 */
uint32_t kcp_set_rx_minrto(uint32_t *words, size_t count, uint32_t rto);

/* fastresend, how many acks of later segments have a segment resent, 0 for never: 0, or 15 */
uint32_t kcp_set_fast_resend(uint32_t *words, size_t count, uint32_t fr);

/* dead_link, after how many transmissions of one segment the link is dead: 0, or 15 */
uint32_t kcp_set_maximum_resend_times(uint32_t *words, size_t count, uint32_t dead_link);

/* the next input's conv is adopted: 0, or 15 */
uint32_t kcp_input_conv(uint32_t *words, size_t count);

/* the block's conv, while kcp_set_conv sets that of a header: 0, or 15 */
uint32_t kcp_set_block_conv(uint32_t *words, size_t count, uint32_t conv);

/* The calls that are handed the receive memory alone, to which none of them writes. 15 (BadPool) where the block or that memory is not well
   formed; a refused call leaves all as it was. */

/* held segments move to the queue while the front is rcv_nxt and the queue is shorter than rcv_wnd, which changes numbers of the block
   alone: 0, or 15 */
uint32_t kcp_move_buf(uint32_t *words, size_t count, const uint32_t *records, size_t numbers, const uint8_t *room, size_t bytes);

/* the length of the message at the front of the queue, put into length: 0, or 5 (RecvQueueEmpty), 6 (ExpectingFragment) or 15 */
uint32_t kcp_peeksize(const uint32_t *words, size_t count, const uint32_t *records, size_t numbers, const uint8_t *room, size_t bytes,
                      size_t *length);

/* that message, put into buf, and its length into length; bytes of buf past it stay: 0, or 5, 6, 7 (UserBufTooSmall) or 15 */
uint32_t kcp_recv(uint32_t *words, size_t count, const uint32_t *records, size_t numbers, const uint8_t *room, size_t bytes, uint8_t *buf,
                  size_t len, size_t *length);

/* both windows, a receive window raised to 128; 0 leaves a window: 0, or 14 (WindowTooLarge) where twice the receive window exceeds
   the slots, which leaves both, or 15 */
uint32_t kcp_set_wndsize(uint32_t *words, size_t count, uint16_t sndwnd, uint16_t rcvwnd, const uint32_t *records, size_t numbers,
                         const uint8_t *room, size_t bytes);

/* One datagram, with the memory of both sides, the acks and what waits: 0 with values[0] = the bytes consumed and values[1] = 0; or 15,
   11 (DatagramTooBig) or 1 (InvalidSegmentSize), which leave all as it was, or 2 (ConvInconsistent), 3 (InvalidSegmentDataSize) or
   4 (UnsupportedCmd), which leave what the segments before the refused one did, and after 3 and 4 the conv adopted; values are then what
   goes with the refusal: 1 the size; 2 the own and the met conv; 3 len and the bytes left; 4 the cmd; 0 where there is none.
   skipped = how many pushes were skipped for want of room in the ack list, 0 to 62, also beside a refusal. A segment that is stored or
   acknowledged moves no other. */
uint32_t kcp_input(uint32_t *words, size_t count, uint32_t *rcv_records, size_t rcv_numbers, uint8_t *rcv_room, size_t rcv_bytes,
                   uint32_t *snd_records, size_t snd_numbers, const uint8_t *snd_room, size_t snd_bytes, uint32_t *acks,
                   size_t acks_numbers, const uint8_t *waiting, size_t waiting_bytes, const uint8_t *data, size_t len, size_t values[2],
                   uint32_t *skipped);

/* The call that is handed the send memory. */

/* queues len bytes; the bytes queued are put into queued: 0, or 8 (UserBufTooBig), 12 (SendPoolFull) where there are more new segments
   than slots that hold none, or 15, which leave queued as it was. 8 in a stream: what joined the last segment stays; else a refusal leaves
   all as it was. Where the slots behind what waits are too few, the segments in flight are moved to close their gaps, which else stay */
uint32_t kcp_send(uint32_t *words, size_t count, uint32_t *snd_records, size_t snd_numbers, uint8_t *snd_room, size_t snd_bytes,
                  const uint8_t *data, size_t len, size_t *queued);

/* What goes out. Datagrams are put end to end into out, their lengths into lengths, and how many they are into datagrams; bytes and lengths past those
   written stay. A refusal leaves all as it was, datagrams too: 9 (NeedUpdate) before the first update, 13 (OutTooSmall) where the datagrams of the call
   exceed the lent bytes or lengths, or 15. What one flush can need at most: 1,500 + 24 * (acks + 2) + 1,500 * send slots bytes, and as many lengths as
   2 + (acks + 2) / 2 + send slots. */

/* puts the acks out behind the bytes that wait; what does not fill a datagram stays waiting: 0, or 9, 13 or 15 */
uint32_t kcp_flush_ack(uint32_t *words, size_t count, const uint32_t *acks, size_t acks_numbers, uint8_t *waiting, size_t waiting_bytes,
                       uint8_t *out, size_t out_bytes, uint16_t *lengths, size_t lengths_count, size_t *datagrams);

/* puts out what waits, the acks, the probes, and the segments that are fresh or to be resent: 0, or 9, 13 or 15 */
uint32_t kcp_flush(uint32_t *words, size_t count, uint32_t *snd_records, size_t snd_numbers, const uint8_t *snd_room, size_t snd_bytes,
                   const uint32_t *acks, size_t acks_numbers, const uint8_t *waiting, size_t waiting_bytes, uint8_t *out, size_t out_bytes,
                   uint16_t *lengths, size_t lengths_count, size_t *datagrams);

/* sets the clock to current milliseconds, and flushes where a flush is due: 0, or 13 or 15, which leave the clock too */
uint32_t kcp_update(uint32_t *words, size_t count, uint32_t current, uint32_t *snd_records, size_t snd_numbers, const uint8_t *snd_room,
                    size_t snd_bytes, const uint32_t *acks, size_t acks_numbers, const uint8_t *waiting, size_t waiting_bytes, uint8_t *out,
                    size_t out_bytes, uint16_t *lengths, size_t lengths_count, size_t *datagrams);

/* puts into wait how many milliseconds until the next update, 0 before the first one: 0, or 15, which leaves it */
uint32_t kcp_check(const uint32_t *words, size_t count, uint32_t current, const uint32_t *snd_records, size_t snd_numbers,
                   const uint8_t *snd_room, size_t snd_bytes, uint32_t *wait);

/* Whether the block and the receive memory, or the send memory, are well formed, as the calls above test it: 0, or 15. They are there to be
   timed; no call needs them. */
uint32_t kcp_receive_test(const uint32_t *words, size_t count, const uint32_t *records, size_t numbers, const uint8_t *room,
                          size_t bytes);
uint32_t kcp_send_test(const uint32_t *words, size_t count, const uint32_t *snd_records, size_t snd_numbers, const uint8_t *snd_room,
                       size_t snd_bytes);

#ifdef __cplusplus
}
#endif

#endif

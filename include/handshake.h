/* The handshake checker from C: link libhandshake.a (x86-64 Linux).
 *
 * Each buffer is a pointer and then a length: bytes for uint8_t, numbers for uint32_t. A buffer of length 0 is never looked at and may be
 * NULL; any other points to as many elements as its length says, aligned for its type. A job may be any bytes and a buffer may be of any
 * length: nothing is asked of either, and every call ends with an answer.
 * What is written (table, links, schedule and index of a search, answer) overlaps no other buffer of the call. What is only read may overlap.
 * Nothing is kept between calls and nothing is allocated, so threads may call at the same time on buffers of their own.
 *
 * answer is never NULL: it points to four uint64_t, 32 bytes in a row, aligned for uint64_t (to 8 bytes on x86-64), and every call sets
 * all four. A refusal is 0, number, offset, 0, and then no other buffer was written.
 * The numbers, with the offset in the job, counted from 0 (docs/JOBS.md has the fields):
 *   1  fewer than 3 bytes, more than 1,109 (where the version byte is 3: 1,389), or length wrong: 0
 *   2  version none of 1, 2 and 3: 2
 *   3  model, C, T or V out of range: that byte
 *   4  n above 64: that n; an instruction with a bad operation (10 and 11 are none in version 1), operand or zero byte: its first byte
 *   5  flag not 0 or 1, or K, the number of clauses, not 1 to 16: that byte; a bad clause: its first byte
 *   6  a field, instruction or clause isn't wholly there: where it begins; bytes left over: the first of them
 *   7  the two searches only, no slot (N is 0): 0
 * 1 is judged first, then the fields from the front, of each item first whether it is wholly there; the first fault wins. 7 comes last. */
#ifndef HANDSHAKE_H
#define HANDSHAKE_H

#include <stddef.h>
#include <stdint.h>

#ifdef __cplusplus
extern "C" {
#endif

/* Searches the job with N slots: the smallest of table_length / 152, links_length, schedule_length and 65536.
 * A slot has 152 bytes, whatever the job's version: 4 places, 16 registers thread by thread and 8 variables of two bytes each, then for each
 * thread 25: a count, and eight entries of three bytes (variable, and a value of two), unused ones 0. Values have their high byte first; in
 * versions 1 and 2 it is 0. Under PSO a WFENCE parts a thread's stores into groups: the variable byte has 16 times the group's number added
 * (the oldest group there is 0), and the count has 128 added while a WFENCE stands after the newest store.
 * answer: 0, number, offset, 0: refused
 *         1, d, states, 0:      reachable in d steps, which are the schedule's first d bytes
 *         2, states, 0, 0:      unreachable
 *         3, N, 0, 0:           unknown: N slots do not suffice. Unknown means not ready. */
void handshake_search(const uint8_t *job, size_t job_length, uint8_t *table, size_t table_length, uint32_t *links, size_t links_length,
                      uint8_t *schedule, size_t schedule_length, uint64_t answer[4]);

/* The same search with an index, by which states are looked up faster. N is here also at most index_length / 2, rounded down, so an index of 0
 * or 1 has no slot. At the same N answer, table, links and schedule are those of handshake_search. Nothing is asked of what the index holds:
 * after a refusal it is unchanged, after an answer its contents are open. */
void handshake_search_indexed(const uint8_t *job, size_t job_length, uint8_t *table, size_t table_length, uint32_t *links, size_t links_length,
                              uint8_t *schedule, size_t schedule_length, uint32_t *index, size_t index_length, uint64_t answer[4]);

/* Runs the schedule on the job.
 * answer: 0, number, offset, 0: refused
 *         1, 0, 0, 0:           reaches a goal
 *         2, 0, 0, 0:           falls short
 *         3, i, reason, 0:      stuck at step i, counted from 0: it can't be taken there
 * The reason is the first of these that applies, in this order:
 *   1  no such step: the number is above 35, or its thread is not below T, or its variable not below V. Correct the
 *      number, or the job's T or V.
 *   2  thread ended: an execute step of a thread that is at its end. Leave it out; what is still pending can be flushed.
 *   3  buffer full: a store, while C stores of its thread are pending (TSO, PSO). Flush one of them first, under TSO the oldest,
 *      under PSO one of the oldest group.
 *   4  buffer not empty: FENCE, XCHG or CMPX, while a store of its thread is pending (TSO, PSO). Flush all of them first,
 *      under TSO oldest first, under PSO oldest group first.
 *   5  nothing to flush: no store of that thread to that variable is pending; under SC there never is. Either it was not
 *      executed yet, and then execute it first, or it was flushed already, and then leave the flush out.
 *   6  not the oldest: there is such a store, but the oldest of the thread is to another variable (TSO), or there is one only in
 *      a later group, behind a WFENCE (PSO). Flush the older ones first, under TSO oldest first, under PSO oldest group first. */
void handshake_replay(const uint8_t *job, size_t job_length, const uint8_t *schedule, size_t schedule_length, uint64_t answer[4]);

/* Looks in each thread for a store and a later load with no FENCE, XCHG or CMPX between; WFENCE is no fence here. A store counts only if it
 * stands at place 0 of its thread or moves lead to it from there.
 * answer: 0, number, offset, 0:   refused
 *         1, 0, 0, 0:             FENCED
 *         2, thread, store, load: OPEN, the least such places */
void handshake_fences(const uint8_t *job, size_t job_length, uint64_t answer[4]);

#ifdef __cplusplus
}
#endif

#endif

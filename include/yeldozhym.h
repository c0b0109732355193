/*
 * Yeldozhym: a day of call lines worked as a whole, and the line of a call written from its numbers, for hosts in C (C11), in C++ (C++11) and
 * in whatever calls C. No state crosses to C yet: yeldozhym_day works a whole day at once, from the fresh state to its last line. A harness
 * that wants the answer to each line before it sends the next runs the program crates/day/out/day over pipes, as examples/c/harness.c does.
 *
 * Link libyeldozhym.a, which `rt lib` in crates/yeldozhym proves and writes to crates/yeldozhym/out (Linux on x86-64-v2, that is with SSE4.2
 * and POPCNT); it needs memcpy, memmove and memset of the C library.
 */
#ifndef YELDOZHYM_H
#define YELDOZHYM_H

#include <stddef.h>
#include <stdint.h>

#ifdef __cplusplus
extern "C" {
#endif

/* The version of the tree that this header is from: what its file VERSION has. The archive carries none: take both from one tree. */
#define YELDOZHYM_VERSION "4.0.0"

/* No answer line is longer, its byte 10 included. The header before the first answer line takes YELDOZHYM_HEADER bytes. */
#define YELDOZHYM_LONGEST_ANSWER 35UL
#define YELDOZHYM_HEADER 23UL

/* No line of a call is longer, its byte 10 included. Kinds that are added may raise it, so a host names the macro and not its number. */
#define YELDOZHYM_LONGEST_CALL 68UL

/*
 * The stack that a call of any of these functions may take below the frame that makes it, in bytes. tests/library measures about 27 KB at
 * most and fails above this figure; the rest is room for other C libraries and processors. No contract can say what a call takes. The measure
 * has in it what memcpy and its like take, and the dynamic linker where it binds them at their first call.
 *
 * A thread's stack holds more than this: the thread's own block, its thread-local storage and the frames down to the caller's. So a thread
 * that makes the call and does little else is given YELDOZHYM_STACK + PTHREAD_STACK_MIN bytes, and as many more as the program's
 * thread-local variables take, which glibc has on each thread's stack.
 */
#define YELDOZHYM_STACK 65536UL

/*
 * Works the day that the input_len bytes at input hold, from the fresh state on: call lines, each ended by byte 10; a last line without
 * byte 10 counts if it has bytes. The day's text is the header and one answer line for each line, up to line 4,294,967,295. Call lines, the
 * header and answer lines are those of document 01, "Day lines", and docs/FORMAT.md. A line of kind 11, leave, of document 02 is a call since
 * version 2.0.0; before it was 20. The text is not ended by byte 0.
 *
 * Answers the length of that text. Where it is at most out_len, the text is at the start of out and no byte after it has changed. Where it
 * is more, no byte of out has changed. So the text was written exactly where the answer is at most out_len, and a call with out_len 0 asks
 * for the room. YELDOZHYM_HEADER + YELDOZHYM_LONGEST_ANSWER * lines bytes are always enough, where lines counts a last line without byte 10
 * too. Any bytes will do as input: the call has no other way to fail. This is proved; the text is `day_of` of crates/replay/specs/Days.antt.
 *
 * NEITHER POINTER MAY BE NULL, EVEN WHERE ITS LENGTH IS 0. The data of an empty vector may be null: hand that to yeldozhym_work_day, below.
 * What else a caller must keep to, which nothing checks: input points to input_len bytes that may be read, out to out_len bytes that may be
 * read and written, the two do not overlap, and nothing else writes to either, or reads out, before the call returns. Nothing unwinds
 * through the call, for the archive has no unwind tables: no signal handler throws out of it, and no thread is cancelled asynchronously in
 * it, or the destructors of its callers do not run.
 *
 * It keeps nothing between calls and no pointer after them, makes no system call and takes no memory but the stack (YELDOZHYM_STACK). So
 * threads may call it at the same time, each with buffers of its own. It works the day twice, once for the room; the first time alone
 * where out is too short.
 */
size_t yeldozhym_day(const uint8_t *input, size_t input_len, uint8_t *out, size_t out_len);

/*
 * The same, of pointers that may be null where their length is 0: such a pointer is not handed on, whatever it is. A null pointer with
 * another length is as wrong as it is above. This is C, compiled with the caller: no proof covers it, tests/library tries it.
 */
#ifndef __cplusplus
static
#endif
inline size_t yeldozhym_work_day(const uint8_t *input, size_t input_len, uint8_t *out, size_t out_len)
{
    uint8_t no_input = 0, no_out = 0;

    return yeldozhym_day(input_len == 0 ? &no_input : input, input_len, out_len == 0 ? &no_out : out, out_len);
}

/*
 * Writes the line of the call that a kind number and count fields are, its byte 10 included, into the out_len bytes at out, from byte number
 * place on; 0 is the first. Kind numbers, fields and their order are those of docs/FORMAT.md: kinds 1 to 10 of document 01, "The ten calls",
 * and kind 11, leave, of document 02.
 *
 * Answers the line's length, byte 10 included, which is never 0; the bytes of out outside the line have not changed. Room for just the line is
 * enough. Answers 0, and no byte of out has changed, where place is past the end of out or what follows it is too short, which is 21 in
 * document 02, or where no kind has this number with so many fields. Where place <= out_len and out_len - place >= YELDOZHYM_LONGEST_CALL, 0
 * means the last alone; yeldozhym_put_call, below, tells the two apart. Any place up to SIZE_MAX will do. No field is tested: any numbers are
 * written, and the day refuses what is out of range. This is proved; what is answered is `written_length` of
 * crates/call_writer/specs/Writing.antt, the buffer after it `put_from`.
 *
 * NEITHER POINTER MAY BE NULL, EVEN WHERE ITS LENGTH IS 0: hand such pointers to yeldozhym_write_line, below. fields points to count numbers
 * that may be read, at an address that is aligned for uint32_t. All else is as for yeldozhym_day, with fields for input: what nothing checks,
 * that nothing is kept between calls, and that threads may call it at the same time.
 */
size_t yeldozhym_call_line(uint32_t kind, const uint32_t *fields, size_t count, uint8_t *out, size_t out_len, size_t place);

/* The same, of pointers that may be null where their length is 0, as yeldozhym_work_day has them; no proof covers it, tests/library tries it. */
#ifndef __cplusplus
static
#endif
inline size_t yeldozhym_write_line(uint32_t kind, const uint32_t *fields, size_t count, uint8_t *out, size_t out_len, size_t place)
{
    uint32_t no_field = 0;
    uint8_t no_out = 0;

    return yeldozhym_call_line(kind, count == 0 ? &no_field : fields, count, out_len == 0 ? &no_out : out, out_len, place);
}

/* What yeldozhym_put_call answers: a code of the documents, and how many bytes were written. */
struct yeldozhym_put {
    uint32_t code;
    size_t length;
};

/*
 * The same as yeldozhym_call_line, with a code beside the length:
 *
 *   0   the line was written; length is what yeldozhym_call_line answers, never 0
 *   20  no kind has this number with so many fields, so there is no line, whatever room there is; length is 0
 *   21  it is a call, and place is past the end of out or what follows it is too short; length is 0
 *
 * No byte of out has changed with 20 and 21. This is proved; what is answered is `put_of` of crates/call_writer/specs/Writing.antt, and code by
 * code `PutTells` of crates/call_writer/specs/Putting.antt. All else is as for yeldozhym_call_line, null pointers too: hand those to
 * yeldozhym_put_line, below.
 */
struct yeldozhym_put yeldozhym_put_call(uint32_t kind, const uint32_t *fields, size_t count, uint8_t *out, size_t out_len, size_t place);

/* The same, of pointers that may be null where their length is 0, as yeldozhym_work_day has them; no proof covers it, tests/library tries it. */
#ifndef __cplusplus
static
#endif
inline struct yeldozhym_put yeldozhym_put_line(uint32_t kind, const uint32_t *fields, size_t count, uint8_t *out, size_t out_len, size_t place)
{
    uint32_t no_field = 0;
    uint8_t no_out = 0;

    return yeldozhym_put_call(kind, count == 0 ? &no_field : fields, count, out_len == 0 ? &no_out : out, out_len, place);
}

#ifdef __cplusplus
}
#endif

#endif

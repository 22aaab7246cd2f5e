/* cue: what a cue sheet, a text in MML, sounds like as a WAV file (16-bit mono, 44,100 Hz), for a program in C or C++.
 *
 * Link the archive that `rt lib` writes in crates/station, out/libstation.a; it asks nothing of its surroundings but memcpy and
 * memset. It is for x86-64 Linux programs alone.
 *
 * Every call takes
 *   source, source_len   the text: so many bytes, of any value; no byte ends it, so a C string goes with its strlen.
 *   mode                 how its numbers are read: CUE_PLAIN, or CUE_STRICT, which refuses a number or a key with a tail, as `0,7`. Every number but
 *                        CUE_PLAIN stands for strict.
 *   riff_size            in cue_wav and cue_header, which number the header's RIFF size is: CUE_PUBLISHED_SIZE, 36 + 2n for n samples, which counts
 *                        every byte behind it as the published WAVE form does, or CUE_OLD_SIZE, 32 + 2n, which files had before. Every number but
 *                        CUE_OLD_SIZE stands for the published one. Nothing else differs, neither the other bytes nor the answer nor a refusal.
 *   buffer, buffer_len   where bytes are written, in the calls that write: so many bytes.
 *   refusal              where the number of a refusal goes: 0 exactly where nothing was refused, else 1 to 32 (see below).
 *   line                 where the line of a refusal goes: counted from 1, or 0 where the refusal has none; 0 without a refusal.
 * and gives its answer for every text, every mode, every size, every length, every start and every place. *refusal and *line are written by every call, whatever
 * stood there. After a refusal no byte of the buffer is changed; else only the bytes that the call names are.
 * The answer depends on nothing but the arguments, where a caller keeps to what it owes: the bytes of the text, the mode, the size, the lengths, start and
 * place. Nothing is kept from one call to
 * the next, nothing is allocated and no file is touched, so several threads may call at once, each with its own buffer, refusal and line.
 *
 * What a caller owes, since C cannot show it: source points to source_len bytes that may be read, buffer to buffer_len bytes that may be
 * written, refusal to a uint32_t and line to a size_t, each aligned for its type; the buffer, *refusal and *line overlap neither each other
 * nor the text, and no other thread writes the text or touches the rest during the call. refusal and line are never NULL. An empty text or buffer
 * (length 0) is not read or written through its pointer, and NULL there is tried by the tests; a slice of Rust, which the pointer and the length
 * become, is not to be NULL, so rather pass the address of any byte.
 * The thread's floating-point state is the one in which every C program starts: rounding to nearest, all exceptions masked, and no small number flushed to
 * zero (of MXCSR the rounding bits, the masks, FTZ and DAZ; fesetround(FE_TONEAREST), no feenableexcept). In another state the answer may be another, or a
 * call raises SIGFPE.
 * A call takes some 1,020,000 bytes of stack, whether the text is accepted or refused and whatever its length, and nothing of the heap;
 * a thread that calls has CUE_STACK bytes left.
 *
 * Refusals: 1 to 27 are the text's, in the order in which document 01 asks them, each with its line, and in strict mode 32 too, a number or key with
 * a tail in an operator line, `#tempo`, `#denom` or `#key`. A text that is accepted in strict mode is accepted in plain mode with the same sound, and one
 * that is refused in plain mode is refused in strict mode. Then come
 *   29   the window's start is past the number of samples,
 *   30   the buffer is too short, or the window's place is past its end,
 * both with line 0. 28, which is for a sheet that is handed in as numbers, and 31 are none of these. A text that is refused is told so by all four
 * calls alike, whatever the buffer is.
 *
 *   #include <stdio.h>
 *   #include <stdlib.h>
 *   #include <string.h>
 *   #include "cue.h"
 *
 *   int main(void) {
 *     const char *text = "p t120 a";
 *     const uint8_t *source = (const uint8_t *)text;
 *     uint32_t refusal;
 *     size_t line;
 *     uint8_t none;
 *     size_t size = cue_wav(source, strlen(text), CUE_STRICT, CUE_PUBLISHED_SIZE, &none, 0, &refusal, &line);
 *     if (size == 0) {
 *       printf("refused %u %zu\n", (unsigned)refusal, line);
 *       return 1;
 *     }
 *     uint8_t *file = malloc(size);
 *     if (file == NULL) return 1;
 *     cue_wav(source, strlen(text), CUE_STRICT, CUE_PUBLISHED_SIZE, file, size, &refusal, &line);
 *     fwrite(file, 1, size, stdout);
 *     free(file);
 *     return 0;
 *   }
 */
#ifndef CUE_H
#define CUE_H

#include <stddef.h>
#include <stdint.h>

#ifdef __cplusplus
extern "C" {
#endif

/* The bytes of a file's header. */
#define CUE_HEADER 44

/* Enough stack for any call, in bytes. */
#define CUE_STACK 1048576

/* The modes. */
enum { CUE_PLAIN = 0, CUE_STRICT = 1 };

/* The RIFF sizes. */
enum { CUE_PUBLISHED_SIZE = 0, CUE_OLD_SIZE = 1 };

/* How many samples the sheet has: at most 2,000,000,000, and 0 also for a sheet without notes.
 * A text that is refused: 0, its number and its line. */
size_t cue_samples(const uint8_t *source, size_t source_len, uint32_t mode, uint32_t *refusal, size_t *line);

/* Writes the whole WAV file of the sheet, 44 + 2n bytes for n samples, to the buffer's start, and answers that size.
 * A buffer of fewer bytes, none among them: the size all the same, with refusal 30 and line 0, and nothing is written; so a call with an
 * empty buffer tells how many bytes are needed. Bytes of a longer buffer behind the file keep their values.
 * A text that is refused: 0, its number and its line, and nothing is written. */
size_t cue_wav(const uint8_t *source, size_t source_len, uint32_t mode, uint32_t riff_size, uint8_t *buffer, size_t buffer_len,
               uint32_t *refusal, size_t *line);

/* Writes the header of the sheet's file, the first 44 bytes of what cue_wav writes with the same RIFF size, to the buffer's start, and answers 44.
 * A buffer of fewer bytes: 0, refusal 30, line 0, and nothing is written. Bytes behind the header keep their values.
 * A text that is refused: 0, its number and its line, and nothing is written. */
size_t cue_header(const uint8_t *source, size_t source_len, uint32_t mode, uint32_t riff_size, uint8_t *buffer, size_t buffer_len,
                  uint32_t *refusal, size_t *line);

/* Writes samples, from number `start` of the sheet on (the first is 0), as two bytes each from place `place` of the buffer on: those that exist and
 * fit whole. Answers how many samples these are. Bytes before them, and behind them, keep their values.
 * start past the number of samples: 0, refusal 29, line 0. start at that number, and place not past buffer_len: 0 and no refusal.
 * place past buffer_len, or a sample exists and under two bytes are left: 0, refusal 30, line 0. Where both 29 and 30 hold it is 29.
 * A text that is refused: 0, its number and its line. After every refusal nothing is written.
 * The header and then windows, each from where the last one ended, give the bytes of cue_wav with the same RIFF size; each call reads the text anew. */
size_t cue_window(const uint8_t *source, size_t source_len, uint32_t mode, size_t start, uint8_t *buffer, size_t buffer_len, size_t place,
                  uint32_t *refusal, size_t *line);

#ifdef __cplusplus
}
#endif

#endif

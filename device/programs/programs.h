/* What the programs of this folder share. They use no C library, so that they run where there is none. */
#ifndef PROGRAMS_H
#define PROGRAMS_H

#include "ergo_token.h"

/* How much is asked. Where little memory is, smaller numbers are set when the programs are compiled. */
#ifndef SCRIPTS
#define SCRIPTS 100000u /* generated scripts, of which each function is asked */
#endif
#ifndef LONGEST
#define LONGEST 4400u /* bytes of a generated script at most: more than a contact may have */
#endif
#ifndef STACK_SCRIPTS
#define STACK_SCRIPTS 3000u /* generated scripts whose stack is measured */
#endif
#ifndef PAINTED
#define PAINTED 20000u /* bytes that are painted below the stack pointer */
#endif
#ifndef REPLAY_BYTES
#define REPLAY_BYTES 10744u /* room for records: the most that a case of crates/replay lends */
#endif
#ifndef REPLAY_NUMBERS
#define REPLAY_NUMBERS 512u /* the same for the index of a case of crates/line_replay */
#endif

/* Memory that the programs lend by turns, so that little is enough. */
#define GUARD 16u  /* bytes before and behind each lent part */
#define SHIFTS 8u  /* a part of bytes may begin anywhere, so it begins at each of so many places */
#define LARGER(a, b) ((a) > (b) ? (a) : (b))
#define RECORD_ROOM ((uint32_t)ERGO_RECORD_BOUND(LONGEST))
#define INDEX_ROOM ((uint32_t)ERGO_INDEX_BOUND(LONGEST))
#define RECORD_AREA LARGER(GUARD + SHIFTS + RECORD_ROOM + GUARD, REPLAY_BYTES)
#define INDEX_AREA LARGER(GUARD / 4 + INDEX_ROOM + GUARD / 4, REPLAY_NUMBERS)
extern uint8_t record_area[RECORD_AREA];
extern uint32_t index_area[INDEX_AREA];

/* Prints a text. Each target has its own: bare.c, start.c, or the page around the WebAssembly module. */
void put(const char *text);

/* text.c */
void put_number(uint32_t value);
void put_digits(uint64_t value); /* sixteen hexadecimal digits */
uint32_t four(const uint8_t *at);
void fill(uint8_t *bytes, uint32_t length, uint8_t value);

/* scripts.c */
void begin_chance(uint32_t number);
uint32_t chance(void);
uint32_t below(uint32_t limit);
uint32_t make_script(uint32_t number);   /* makes the script of a number, and says its length */
uint32_t repeat_text(const char *text, uint32_t length); /* makes a script of one text again and again, whole ones only */
uint8_t *script_bytes(void);             /* where both make it */
extern const uint8_t LONG_CONTACT[];     /* ERGO_CONTACT_BYTES bytes and a 0 */
extern const uint8_t MANY_TOKENS[];      /* ERGO_CONTACT_TOKENS bytes and a 0 */

/* What is run. Each prints its lines. */
void run_answers(void);                  /* answers.c */
void run_limit(void);                    /* limit.c */
void run_stack(void);                    /* stack.c */
void replay_scripts(const uint8_t *list, const uint8_t *end); /* replay.c */
void replay_rolls(const uint8_t *list, const uint8_t *end);
void replay_lines(const uint8_t *list, const uint8_t *end);
void run_all(void);                      /* run.c */

#endif

/* Gishwarem: key records and data segment headers of encrypted files, group key envelopes, security descriptors, the GetKey
 * decision, and the replay of recorded requests.
 *
 * Every function answers by value, the refusal's number first: 0 is accepted. On a refusal every other field is zero, but for
 * the index of a list's entry, the place that a step was asked at, and what stands beside the answer of a replayed record. A
 * part is a place in the caller's own bytes; those of a step count from the entry's first byte, which stands at `at` in the
 * list. gw_descriptor_check answers a code alone, and gw_replay and gw_tally_merge have one first, which is no refusal's
 * number. Nothing is kept between calls, nothing is allocated, and any bytes and numbers get an answer.
 *
 * What the caller owes: a pointer and its length name bytes that may be read for the length of the call (written, for `out`),
 * no other thread changes them meanwhile, and `out` shares no byte with what is handed in beside it. `sizes` and `blocks` name
 * numbers, and that pointer is aligned for uint32_t. A length of 0 goes with any pointer, NULL too.
 *
 * Codes: 0 is none, refused or the weakest; real cases count from 1. A code handed in that is not listed is the weakest one,
 * but for root_given: every value but 0 names a root key. */
#ifndef GISHWAREM_H
#define GISHWAREM_H

#include <stddef.h>
#include <stdint.h>

#ifdef __cplusplus
extern "C" {
#endif

/* The version of this header. It is raised where an answer or a signature changes; the built library has its own, which
 * gw_version answers: a host may compare them once.
 * 2: zeros in place of a SID, which were refused with 12, are accepted, with the kind GW_SID_NO_HINT.
 * 3: a public envelope at L2 index 31 with a key of its public key length, which was refused with 11, is accepted and written.
 * 4: gw_decide takes the security descriptor's bytes, a pointer and a length, in place of the verdict on it. What it was stands
 * under the name gw_decide_by_verdict.
 * 5: an envelope with an unpaired surrogate in a text, which was accepted and written, is refused with 24, and serves nothing. */
#define GW_VERSION 5u

/* Lengths in bytes. */
#define GW_TRACE_RECORD 37u /* a record of a trace */
#define GW_REPLAY_LINE 128u /* the room that a line of a replay needs; no line is longer */

/* Refusal numbers. */
#define GW_ACCEPTED 0u            /* not refused */
#define GW_TOO_LONG 1u            /* record or list longer than 65,535 bytes */
#define GW_SHORT 2u               /* shorter than its fixed head: list 4, entry 20, EfsKey 32, segment 28, envelope 80 */
#define GW_LENGTHS_DISAGREE 3u    /* a length field or the sum of lengths disagrees with the bytes */
#define GW_WRONG_MARK 4u          /* fixed mark wrong */
#define GW_INDEX_ABOVE_31 5u      /* L1 or L2 index above 31 */
#define GW_MISPLACED 6u           /* an item not at a permitted place */
#define GW_EMPTY_ITEM 7u          /* an item empty, or a public key item's length below 4 */
#define GW_OVERLAP 8u             /* items overlap */
#define GW_UNUSED_RUN 9u          /* unused run over 8 bytes */
#define GW_MALFORMED_TEXT 10u     /* text malformed */
#define GW_KEY_LENGTH 11u         /* key length breaks the key rules */
#define GW_MALFORMED_SID 12u      /* SID malformed */
#define GW_NO_ROOM 13u            /* output buffer shorter than the record */
#define GW_INDEX_OUT_OF_RANGE 14u /* requested index out of range */
#define GW_MIXED_INDICES 15u      /* requested indices mix -1 with others */
#define GW_VERDICT_NO 16u         /* security descriptor not sound, or the verdict on it no */
#define GW_LATER_THAN_NOW 17u     /* request later than now */
#define GW_RIGHTS_TOO_LOW 18u     /* rights too low */
#define GW_NO_ROOT_KEY 19u        /* no suitable root key */
#define GW_TABLE_LENGTH 20u       /* root table length no multiple of 32, or over 64 rows */
#define GW_START_PAST_TIME 21u    /* identifier's start time exceeds 64 bits */
#define GW_BYTES_LEFT 22u         /* bytes left after the last list entry */
#define GW_NEITHER_SERVES 23u     /* neither envelope serves */
#define GW_UNPAIRED_SURROGATE 24u /* text with an unpaired surrogate */
#define GW_WRONG_SHIFTS 25u       /* chunk and data unit shift differ, or a shift is over 31 */
#define GW_MALFORMED_RECORD 26u   /* trace record cut, a spare bit set, rights 3, or identifier bits while no root is given */

/* Algorithms of an entry's FEK. */
#define GW_ALGORITHM_RSA 1u         /* Flags 0 */
#define GW_ALGORITHM_AES256 2u      /* Flags 1 */
#define GW_ALGORITHM_UNSUPPORTED 3u /* any other Flags */

/* What a step of a list's walk finds. */
#define GW_STEP_ENTRY 1u /* an entry */
#define GW_STEP_END 2u   /* the end of the list */

/* The SID of an EfsKey. */
#define GW_SID_NONE 0u    /* there is none */
#define GW_SID_GIVEN 1u   /* there is one */
#define GW_SID_NO_HINT 2u /* zeros in its place: no hint given */

/* Forms: the keys that an envelope carries, or that a request is granted. */
#define GW_FORM_KEYLESS 0u /* NOKEY: none */
#define GW_FORM_L1ONLY 1u  /* an L1 seed key */
#define GW_FORM_L2ONLY 2u  /* an L2 seed key */
#define GW_FORM_BOTH 3u    /* an L1 and an L2 seed key */
#define GW_FORM_PUBLIC 4u  /* a public key */

/* Rights of a caller. */
#define GW_RIGHTS_NONE 0u   /* nothing */
#define GW_RIGHTS_PUBLIC 1u /* public keys */
#define GW_RIGHTS_SEED 2u   /* seed keys */

/* The verdict on a security descriptor. */
#define GW_ACCESS_DENIED 0u  /* no */
#define GW_ACCESS_ALLOWED 1u /* yes */

/* What the check of a security descriptor finds. */
#define GW_DESCRIPTOR_SOUND 0u /* no part fails */
#define GW_DESCRIPTOR_HEAD 1u  /* its head fails first: length, revision, or control bit 0x8000 */
#define GW_DESCRIPTOR_OWNER 2u /* its owner */
#define GW_DESCRIPTOR_GROUP 3u /* its group */
#define GW_DESCRIPTOR_SACL 4u  /* its system list */
#define GW_DESCRIPTOR_DACL 5u  /* its discretionary list */

/* The root key of a request. */
#define GW_ROOT_NONE 0u  /* none is named */
#define GW_ROOT_GIVEN 1u /* the one in `root`, as by every value but 0 */

/* What a decision grants. */
#define GW_GRANTED_ROW 1u    /* a key under the root key in `row` */
#define GW_GRANTED_CREATE 2u /* a key under a root key that is yet to be created */

/* Whether a tally has clocks. */
#define GW_CLOCKS_NONE 0u  /* no record had one */
#define GW_CLOCKS_GIVEN 1u /* those in `first` and `last` */

/* Whether a trace ends with a chunk. */
#define GW_CHUNK_GOES_ON 0u /* no: a part of a record at the chunk's end is left to the next one */
#define GW_CHUNK_ENDS 1u    /* yes: it is a record that was cut */

/* Why a replay stopped. */
#define GW_REPLAY_RECORDS 1u /* the chunk has no further record */
#define GW_REPLAY_ROOM 2u    /* less than GW_REPLAY_LINE bytes of the output are left */
#define GW_REPLAY_FULL 3u    /* a count would not fit in 64 bits */

/* Which envelope serves, and by which key. */
#define GW_CACHED 1u  /* the cached one */
#define GW_FETCHED 2u /* the fetched one */
#define GW_KEY_L1 1u  /* its L1 key */
#define GW_KEY_L2 2u  /* its L2 key */

/* A part of the caller's bytes. Both are 0 beside a refusal, at the end of a list, and with GW_SID_NONE; an absent body of an
 * envelope, and the sizes of no block, have length 0 at their place in the layout. */
typedef struct gw_part {
    size_t at;  /* offset of its first byte */
    size_t len; /* its length */
} gw_part;

/* A group key identifier. */
typedef struct gw_identifier {
    uint32_t l0; /* L0 index */
    uint32_t l1; /* L1 index; in an answer 0 to 31 */
    uint32_t l2; /* L2 index; in an answer 0 to 31 */
} gw_identifier;

/* A root key identifier. */
typedef struct gw_root {
    uint8_t bytes[16]; /* as they stand in an envelope and in a row of the root table */
} gw_root;

/* What a writer answers. */
typedef struct gw_written_answer {
    uint32_t refusal;  /* refusal number */
    uint32_t reserved; /* 0 */
    size_t len;        /* length of the record that was written */
} gw_written_answer;

/* A Key List Entry. */
typedef struct gw_entry_answer {
    uint32_t refusal;   /* refusal number */
    uint32_t algorithm; /* GW_ALGORITHM_.. */
    uint32_t flags;     /* Flags, as they stand */
    uint32_t reserved;  /* 0 */
    gw_part item;       /* the public key item */
    gw_part fek;        /* the FEK */
} gw_entry_answer;

/* A list of entries, judged whole. */
typedef struct gw_list_answer {
    uint32_t refusal; /* refusal number */
    uint32_t count;   /* number of entries */
    uint32_t index;   /* on a refusal that is given for an entry, that entry's index */
} gw_list_answer;

/* A step of a list's walk. */
typedef struct gw_step_answer {
    uint32_t refusal;    /* refusal number */
    uint32_t found;      /* GW_STEP_.. */
    uint32_t index;      /* the entry's index, also on a refusal that is given for it */
    uint32_t algorithm;  /* GW_ALGORITHM_.. */
    uint32_t flags;      /* Flags, as they stand */
    uint32_t next_index; /* index to go on at; at the end and on a refusal the one asked at */
    size_t next_at;      /* offset to go on at; at the end and on a refusal the one asked at */
    size_t at;           /* offset of the entry in the list */
    gw_part item;        /* the public key item, counted from the entry's first byte */
    gw_part fek;         /* the FEK, counted from the entry's first byte */
} gw_step_answer;

/* An EfsKey. */
typedef struct gw_efskey_answer {
    uint32_t refusal;    /* refusal number */
    uint32_t kind;       /* GW_SID_.. */
    gw_part sid;         /* the SID, or the zeros in its place */
    gw_part certificate; /* the certificate */
} gw_efskey_answer;

/* A Data Segment Encryption Header. */
typedef struct gw_segment_answer {
    uint32_t refusal;         /* refusal number */
    uint32_t length;          /* Length: that of the whole record */
    uint64_t start_offset;    /* starting file offset */
    uint32_t bytes_in_stream; /* bytes within the stream size */
    uint32_t bytes_in_vdl;    /* bytes within the valid data length */
    uint32_t unit_shift;      /* data unit shift, 0 to 31 */
    uint32_t chunk_shift;     /* chunk shift: the data unit shift again */
    uint32_t cluster_shift;   /* cluster shift, 0 to 31 */
    uint32_t blocks;          /* number of data blocks */
    uint32_t larger;          /* how many of them are larger than the data unit, 2 to the unit shift */
    uint32_t reserved;        /* 0 */
    gw_part sizes;            /* the block sizes, four bytes each; what follows them is ignored */
} gw_segment_answer;

/* The size of a data block, or none. */
typedef struct gw_size_answer {
    uint32_t refusal; /* refusal number */
    uint32_t found;   /* 1 where there is such a block */
    uint32_t size;    /* its size in bytes */
} gw_size_answer;

/* The head of a Group Key Envelope. */
typedef struct gw_head {
    uint32_t version;        /* Version */
    uint32_t flags;          /* dwFlags; the value 1 is public */
    gw_identifier at;        /* the identifier of its keys */
    gw_root root;            /* the root key identifier */
    uint32_t private_length; /* private key length */
    uint32_t public_length;  /* public key length */
} gw_head;

/* The bodies of a Group Key Envelope, in their order. A text of an accepted envelope is 16-bit units, the lower byte first: sound
 * UTF-16, so that it converts to characters without loss, and a terminator, which is its one zero unit. */
typedef struct gw_bodies {
    gw_part kdf;                  /* KDF algorithm, a text */
    gw_part kdf_parameters;       /* KDF parameters */
    gw_part agreement;            /* secret agreement algorithm, a text */
    gw_part agreement_parameters; /* secret agreement parameters */
    gw_part domain;               /* domain name, a text */
    gw_part forest;               /* forest name, a text */
    gw_part l1_key;               /* L1 key; a public envelope has none */
    gw_part l2_key;               /* L2 key, or the public key of a public envelope */
} gw_bodies;

/* A Group Key Envelope. */
typedef struct gw_envelope_answer {
    uint32_t refusal;   /* refusal number */
    uint32_t form;      /* GW_FORM_.., by the keys present */
    uint32_t is_public; /* 1 for a public envelope, with a key or without */
    gw_head head;       /* the head's values */
    gw_bodies bodies;   /* where the bodies stand */
} gw_envelope_answer;

/* A reach: which identifiers of an L0 group keys open. */
typedef struct gw_reach_answer {
    uint32_t refusal;  /* refusal number */
    uint32_t total;    /* number of set bits in rows */
    uint32_t rows[32]; /* a row for each L1 index; L2 index 0 is the most significant bit */
} gw_reach_answer;

/* An identifier, or none. */
typedef struct gw_identifier_answer {
    uint32_t refusal; /* refusal number */
    uint32_t found;   /* 1 where there is one */
    gw_identifier at; /* that one */
} gw_identifier_answer;

/* The start of an identifier. */
typedef struct gw_start_answer {
    uint32_t refusal;  /* refusal number */
    uint32_t reserved; /* 0 */
    uint64_t time;     /* FILETIME at which it starts */
} gw_start_answer;

/* A request for a group key. */
typedef struct gw_request {
    uint32_t root_given; /* GW_ROOT_..: 0, or any other value for the one in `root` */
    int32_t l0;          /* L0 index, or -1 in all three for the latest */
    int32_t l1;          /* L1 index */
    int32_t l2;          /* L2 index */
    gw_root root;        /* the root key, where one is given */
} gw_request;

/* A decision on a request. */
typedef struct gw_decision_answer {
    uint32_t refusal; /* refusal number */
    uint32_t granted; /* GW_GRANTED_.. */
    uint32_t form;    /* GW_FORM_.. */
    gw_identifier at; /* the identifier granted */
    size_t row;       /* row of the root table, counted from 0; 0 beside GW_GRANTED_CREATE */
} gw_decision_answer;

/* A recorded request. */
typedef struct gw_trace_answer {
    uint32_t refusal;   /* refusal number */
    uint32_t verdict;   /* GW_ACCESS_.. */
    uint32_t rights;    /* GW_RIGHTS_.. */
    uint32_t reserved;  /* 0 */
    uint64_t clock;     /* the clock, a FILETIME */
    gw_request request; /* what was asked */
} gw_trace_answer;

/* The counts of a replay, and two of its clocks. Clocks are those of the records that are not refused 26. */
typedef struct gw_tally {
    uint64_t accepted; /* records accepted */
    uint64_t refused;  /* records refused, 26 included */
    uint64_t earlier;  /* times a clock was earlier than the one before it */
    uint64_t first;    /* the first clock; 0 beside GW_CLOCKS_NONE */
    uint64_t last;     /* the last clock; 0 beside GW_CLOCKS_NONE */
    uint32_t clocks;   /* GW_CLOCKS_..; handed in, `first` and `last` are looked at beside GW_CLOCKS_GIVEN alone */
    uint32_t reserved; /* 0; handed in, it is not looked at */
} gw_tally;

/* Where a replay stands. One that starts inside of a trace has the number of its first record in `next`. */
typedef struct gw_replay_state {
    uint64_t next;  /* number of the next line */
    gw_tally tally; /* that of the records so far */
} gw_replay_state;

/* A replayed record. Where a count would not fit in 64 bits, the number and all of the answer are 0, and the state is the one
 * handed in. */
typedef struct gw_replay_line {
    gw_decision_answer answer; /* the decision, or 26 */
    uint64_t number;           /* number of its line */
    gw_replay_state state;     /* the state behind it */
} gw_replay_line;

/* A replayed chunk. */
typedef struct gw_replay_answer {
    uint32_t stopped;      /* GW_REPLAY_.. */
    uint32_t reserved;     /* 0 */
    size_t used;           /* bytes of the chunk whose records are replayed */
    size_t written;        /* bytes of the output that their lines have */
    gw_replay_state state; /* the state behind them */
} gw_replay_answer;

/* Two tallies as one. */
typedef struct gw_merge_answer {
    uint32_t full;     /* 1 where a sum would not fit in 64 bits; the tally is zeros then */
    uint32_t reserved; /* 0 */
    gw_tally tally;    /* that of the whole */
} gw_merge_answer;

/* A choice between two envelopes. */
typedef struct gw_choice_answer {
    uint32_t refusal;  /* refusal number */
    uint32_t which;    /* GW_CACHED or GW_FETCHED */
    uint32_t key;      /* GW_KEY_L1 or GW_KEY_L2 */
    uint32_t reserved; /* 0 */
    gw_part place;     /* where that key stands in that envelope */
} gw_choice_answer;

/* The version of the built library: GW_VERSION of the header that it was built with. */
uint32_t gw_version(void);

/* Reads a Key List Entry. */
gw_entry_answer gw_entry_read(const uint8_t *entry, size_t len);

/* Writes a Key List Entry at the start of `out`; a refusal changes no byte of it. */
gw_written_answer gw_entry_write(uint8_t *out, size_t room, uint32_t flags, const uint8_t *item, size_t item_len,
                                 const uint8_t *fek, size_t fek_len);

/* Judges a list of entries whole. */
gw_list_answer gw_list_judge(const uint8_t *list, size_t len);

/* One step of a list's walk, which starts at offset 4 and index 0 and goes on at next_at and next_index. At the end and on a
 * refusal that is the place asked at: asked again there, it answers that again. */
gw_step_answer gw_list_step(const uint8_t *list, size_t len, size_t at, uint32_t index);

/* Reads an EfsKey. */
gw_efskey_answer gw_efskey_read(const uint8_t *key, size_t len);

/* Writes an EfsKey at the start of `out`; an empty SID means none, zeros no hint. A refusal changes no byte of `out`. */
gw_written_answer gw_efskey_write(uint8_t *out, size_t room, const uint8_t *sid, size_t sid_len, const uint8_t *certificate,
                                  size_t certificate_len);

/* Reads a Data Segment Encryption Header. */
gw_segment_answer gw_segment_read(const uint8_t *segment, size_t len);

/* The size of the data block at an index from 0; there is none from the count on, which is no refusal. It is refused what
 * gw_segment_read refuses. */
gw_size_answer gw_segment_size(const uint8_t *segment, size_t len, size_t index);

/* Writes a Data Segment Encryption Header at the start of `out`, with nothing behind its sizes: one for each of `blocks` data
 * blocks. Refused 1, then 25, then 13; a refusal changes no byte of `out`. */
gw_written_answer gw_segment_write(uint8_t *out, size_t room, uint64_t start_offset, uint32_t bytes_in_stream,
                                   uint32_t bytes_in_vdl, uint32_t unit_shift, uint32_t chunk_shift,
                                   uint32_t cluster_shift, const uint32_t *sizes, size_t blocks);

/* Reads a Group Key Envelope. Refused 1, 2, 4, 5, 3, then 10 and 24 of each text in body order, then 11. */
gw_envelope_answer gw_envelope_read(const uint8_t *envelope, size_t len);

/* Writes a Group Key Envelope at the start of `out`. Refused 1, 5, then 10 and 24 of each text in body order, 11, 13; a refusal
 * changes no byte of `out`. */
gw_written_answer gw_envelope_write(uint8_t *out, size_t room, gw_head head, const uint8_t *kdf, size_t kdf_len,
                                    const uint8_t *kdf_parameters, size_t kdf_parameters_len, const uint8_t *agreement,
                                    size_t agreement_len, const uint8_t *agreement_parameters,
                                    size_t agreement_parameters_len, const uint8_t *domain, size_t domain_len,
                                    const uint8_t *forest, size_t forest_len, const uint8_t *l1_key, size_t l1_key_len,
                                    const uint8_t *l2_key, size_t l2_key_len);

/* What an envelope's keys reach: nothing if it is public or keyless. It is refused what gw_envelope_read refuses. */
gw_reach_answer gw_envelope_reach(const uint8_t *envelope, size_t len);

/* What a form reaches at an identifier: the reach of a seed envelope there with just those keys; refused 5, then 11, as that
 * would be. */
gw_reach_answer gw_form_reach(uint32_t form, gw_identifier at);

/* The identifier of a FILETIME reading. */
gw_identifier_answer gw_time_identifier(uint64_t time);

/* The reading at which an identifier starts; refused 5, then 21. */
gw_start_answer gw_identifier_start(gw_identifier at);

/* The next older identifier of the same L0 group; (L0, 0, 0) has none, which is no refusal. Refused 5. */
gw_identifier_answer gw_identifier_older(gw_identifier at);

/* Whether bytes are a sound self-relative security descriptor: GW_DESCRIPTOR_.., for a log. gw_decide asks the same. */
uint32_t gw_descriptor_check(const uint8_t *descriptor, size_t len);

/* The GetKey decision: the security descriptor, refused 16 where gw_descriptor_check does not find it sound; GW_RIGHTS_.., a
 * request, the clock as a FILETIME, and the root table: rows of 32 bytes, each a root key identifier (16), its use-start time (8)
 * and its create time (8), times with the most significant byte first. */
gw_decision_answer gw_decide(const uint8_t *descriptor, size_t descriptor_len, uint32_t rights, gw_request request,
                             uint64_t clock, const uint8_t *table, size_t table_len);

/* The same with GW_ACCESS_.. in place of the descriptor: what a record of past requests has of it. */
gw_decision_answer gw_decide_by_verdict(uint32_t verdict, uint32_t rights, gw_request request, uint64_t clock,
                                        const uint8_t *table, size_t len);

/* Reads the record at the start of `record`: GW_TRACE_RECORD bytes, bit-packed, most significant bit first: the clock 64 bits,
 * root given 1, rights 2 (0 none, 1 public, 2 seed), the verdict 1, spare 4, three indices of 32 each in two's complement, the
 * root key 128. Bytes behind them are not looked at. Refused 26 where there are fewer, a spare bit is set, rights are 3, or bits
 * of the root key are set while none is given. */
gw_trace_answer gw_trace_read(const uint8_t *record, size_t len);

/* The state that a replay starts from: line 1 is next, and the tally is empty. */
gw_replay_state gw_replay_start(void);

/* Replays one record, read as gw_trace_read reads it and decided as by gw_decide_by_verdict with this root table: the number of
 * its line, its answer, and the state to go on with. A refusal has its line too. */
gw_replay_line gw_replay_step(gw_replay_state state, const uint8_t *table, size_t table_len, const uint8_t *record,
                              size_t len);

/* Replays the records of a chunk of a trace: puts a line for each at the start of `out`, which keeps its bytes behind them. The
 * records are the chunk's whole ones and, with GW_CHUNK_ENDS, the part of one at its end. Lines are such as
 *     1 5 3 7 BOTH ROW 0
 *     2 5 3 7 BOTH CREATE
 *     3 REFUSED 17
 * and each ends in a newline. Before each record it stops where there is none left, else where less than GW_REPLAY_LINE bytes
 * of `out` are left, else where a count would not fit in 64 bits; `stopped` says which. A host goes on with the state, behind
 * the bytes that were used. */
gw_replay_answer gw_replay(uint8_t *out, size_t room, gw_replay_state state, const uint8_t *table, size_t table_len,
                           const uint8_t *chunk, size_t len, uint32_t ends);

/* Writes the line of a total at the start of `out`, such as
 *     TOTAL 2 1 0
 * with a newline: accepted, refused, earlier. Refused 13; a refusal changes no byte of `out`. */
gw_written_answer gw_replay_total(uint8_t *out, size_t room, gw_tally tally);

/* The tally of a trace from those of its two parts, so that parts can be replayed apart. A clock is earlier between them too:
 * the second's first one, where it is before the first's last one. */
gw_merge_answer gw_tally_merge(gw_tally first, gw_tally second);

/* Which of two envelopes serves an identifier under a root key: the cached one if that serves, else the fetched one, else 23. */
gw_choice_answer gw_choose(gw_root root, gw_identifier wanted, const uint8_t *cached, size_t cached_len,
                           const uint8_t *fetched, size_t fetched_len);

/* A refusal number in words, for logs. */
static inline const char *gw_refusal_text(uint32_t number)
{
    switch (number) {
    case GW_ACCEPTED: return "accepted";
    case GW_TOO_LONG: return "record or list longer than 65,535 bytes";
    case GW_SHORT: return "shorter than its fixed head";
    case GW_LENGTHS_DISAGREE: return "a length field or the sum of lengths disagrees with the bytes";
    case GW_WRONG_MARK: return "fixed mark wrong";
    case GW_INDEX_ABOVE_31: return "L1 or L2 index above 31";
    case GW_MISPLACED: return "an item not at a permitted place";
    case GW_EMPTY_ITEM: return "an item empty, or a public key item's length below 4";
    case GW_OVERLAP: return "items overlap";
    case GW_UNUSED_RUN: return "unused run over 8 bytes";
    case GW_MALFORMED_TEXT: return "text malformed";
    case GW_KEY_LENGTH: return "key length breaks the key rules";
    case GW_MALFORMED_SID: return "SID malformed";
    case GW_NO_ROOM: return "output buffer shorter than the record";
    case GW_INDEX_OUT_OF_RANGE: return "requested index out of range";
    case GW_MIXED_INDICES: return "requested indices mix -1 with others";
    case GW_VERDICT_NO: return "security descriptor not sound, or the verdict on it no";
    case GW_LATER_THAN_NOW: return "request later than now";
    case GW_RIGHTS_TOO_LOW: return "rights too low";
    case GW_NO_ROOT_KEY: return "no suitable root key";
    case GW_TABLE_LENGTH: return "root table length no multiple of 32, or over 64 rows";
    case GW_START_PAST_TIME: return "identifier's start time exceeds 64 bits";
    case GW_BYTES_LEFT: return "bytes left after the last list entry";
    case GW_NEITHER_SERVES: return "neither envelope serves";
    case GW_UNPAIRED_SURROGATE: return "text with an unpaired surrogate";
    case GW_WRONG_SHIFTS: return "chunk and data unit shift differ, or a shift is over 31";
    case GW_MALFORMED_RECORD: return "trace record cut, a spare bit set, rights 3, or identifier bits while no root is given";
    default: return "no such refusal number";
    }
}

/* The layout that the library was built for: x86-64, with no padding in any answer. */
#if defined(__cplusplus) && __cplusplus >= 201103L
#define GW_ASSERT(name, fact) static_assert(fact, #name)
#elif defined(__STDC_VERSION__) && __STDC_VERSION__ >= 201112L
#define GW_ASSERT(name, fact) _Static_assert(fact, #name)
#else
#define GW_ASSERT(name, fact) typedef char gw_assert_##name[(fact) ? 1 : -1]
#endif
#define GW_SIZE(type, size) GW_ASSERT(type##_size, sizeof(type) == size)
#define GW_AT(type, field, place) GW_ASSERT(type##_at_##field, offsetof(type, field) == place)
GW_SIZE(size_t, 8);
GW_SIZE(gw_part, 16);
GW_AT(gw_part, at, 0);
GW_AT(gw_part, len, 8);
GW_SIZE(gw_identifier, 12);
GW_AT(gw_identifier, l0, 0);
GW_AT(gw_identifier, l1, 4);
GW_AT(gw_identifier, l2, 8);
GW_SIZE(gw_root, 16);
GW_AT(gw_root, bytes, 0);
GW_SIZE(gw_written_answer, 16);
GW_AT(gw_written_answer, refusal, 0);
GW_AT(gw_written_answer, reserved, 4);
GW_AT(gw_written_answer, len, 8);
GW_SIZE(gw_entry_answer, 48);
GW_AT(gw_entry_answer, refusal, 0);
GW_AT(gw_entry_answer, algorithm, 4);
GW_AT(gw_entry_answer, flags, 8);
GW_AT(gw_entry_answer, reserved, 12);
GW_AT(gw_entry_answer, item, 16);
GW_AT(gw_entry_answer, fek, 32);
GW_SIZE(gw_list_answer, 12);
GW_AT(gw_list_answer, refusal, 0);
GW_AT(gw_list_answer, count, 4);
GW_AT(gw_list_answer, index, 8);
GW_SIZE(gw_step_answer, 72);
GW_AT(gw_step_answer, refusal, 0);
GW_AT(gw_step_answer, found, 4);
GW_AT(gw_step_answer, index, 8);
GW_AT(gw_step_answer, algorithm, 12);
GW_AT(gw_step_answer, flags, 16);
GW_AT(gw_step_answer, next_index, 20);
GW_AT(gw_step_answer, next_at, 24);
GW_AT(gw_step_answer, at, 32);
GW_AT(gw_step_answer, item, 40);
GW_AT(gw_step_answer, fek, 56);
GW_SIZE(gw_efskey_answer, 40);
GW_AT(gw_efskey_answer, refusal, 0);
GW_AT(gw_efskey_answer, kind, 4);
GW_AT(gw_efskey_answer, sid, 8);
GW_AT(gw_efskey_answer, certificate, 24);
GW_SIZE(gw_segment_answer, 64);
GW_AT(gw_segment_answer, refusal, 0);
GW_AT(gw_segment_answer, length, 4);
GW_AT(gw_segment_answer, start_offset, 8);
GW_AT(gw_segment_answer, bytes_in_stream, 16);
GW_AT(gw_segment_answer, bytes_in_vdl, 20);
GW_AT(gw_segment_answer, unit_shift, 24);
GW_AT(gw_segment_answer, chunk_shift, 28);
GW_AT(gw_segment_answer, cluster_shift, 32);
GW_AT(gw_segment_answer, blocks, 36);
GW_AT(gw_segment_answer, larger, 40);
GW_AT(gw_segment_answer, reserved, 44);
GW_AT(gw_segment_answer, sizes, 48);
GW_SIZE(gw_size_answer, 12);
GW_AT(gw_size_answer, refusal, 0);
GW_AT(gw_size_answer, found, 4);
GW_AT(gw_size_answer, size, 8);
GW_SIZE(gw_head, 44);
GW_AT(gw_head, version, 0);
GW_AT(gw_head, flags, 4);
GW_AT(gw_head, at, 8);
GW_AT(gw_head, root, 20);
GW_AT(gw_head, private_length, 36);
GW_AT(gw_head, public_length, 40);
GW_SIZE(gw_bodies, 128);
GW_AT(gw_bodies, kdf, 0);
GW_AT(gw_bodies, kdf_parameters, 16);
GW_AT(gw_bodies, agreement, 32);
GW_AT(gw_bodies, agreement_parameters, 48);
GW_AT(gw_bodies, domain, 64);
GW_AT(gw_bodies, forest, 80);
GW_AT(gw_bodies, l1_key, 96);
GW_AT(gw_bodies, l2_key, 112);
GW_SIZE(gw_envelope_answer, 184);
GW_AT(gw_envelope_answer, refusal, 0);
GW_AT(gw_envelope_answer, form, 4);
GW_AT(gw_envelope_answer, is_public, 8);
GW_AT(gw_envelope_answer, head, 12);
GW_AT(gw_envelope_answer, bodies, 56);
GW_SIZE(gw_reach_answer, 136);
GW_AT(gw_reach_answer, refusal, 0);
GW_AT(gw_reach_answer, total, 4);
GW_AT(gw_reach_answer, rows, 8);
GW_SIZE(gw_identifier_answer, 20);
GW_AT(gw_identifier_answer, refusal, 0);
GW_AT(gw_identifier_answer, found, 4);
GW_AT(gw_identifier_answer, at, 8);
GW_SIZE(gw_start_answer, 16);
GW_AT(gw_start_answer, refusal, 0);
GW_AT(gw_start_answer, reserved, 4);
GW_AT(gw_start_answer, time, 8);
GW_SIZE(gw_request, 32);
GW_AT(gw_request, root_given, 0);
GW_AT(gw_request, l0, 4);
GW_AT(gw_request, l1, 8);
GW_AT(gw_request, l2, 12);
GW_AT(gw_request, root, 16);
GW_SIZE(gw_decision_answer, 32);
GW_AT(gw_decision_answer, refusal, 0);
GW_AT(gw_decision_answer, granted, 4);
GW_AT(gw_decision_answer, form, 8);
GW_AT(gw_decision_answer, at, 12);
GW_AT(gw_decision_answer, row, 24);
GW_SIZE(gw_trace_answer, 56);
GW_AT(gw_trace_answer, refusal, 0);
GW_AT(gw_trace_answer, verdict, 4);
GW_AT(gw_trace_answer, rights, 8);
GW_AT(gw_trace_answer, reserved, 12);
GW_AT(gw_trace_answer, clock, 16);
GW_AT(gw_trace_answer, request, 24);
GW_SIZE(gw_tally, 48);
GW_AT(gw_tally, accepted, 0);
GW_AT(gw_tally, refused, 8);
GW_AT(gw_tally, earlier, 16);
GW_AT(gw_tally, first, 24);
GW_AT(gw_tally, last, 32);
GW_AT(gw_tally, clocks, 40);
GW_AT(gw_tally, reserved, 44);
GW_SIZE(gw_replay_state, 56);
GW_AT(gw_replay_state, next, 0);
GW_AT(gw_replay_state, tally, 8);
GW_SIZE(gw_replay_line, 96);
GW_AT(gw_replay_line, answer, 0);
GW_AT(gw_replay_line, number, 32);
GW_AT(gw_replay_line, state, 40);
GW_SIZE(gw_replay_answer, 80);
GW_AT(gw_replay_answer, stopped, 0);
GW_AT(gw_replay_answer, reserved, 4);
GW_AT(gw_replay_answer, used, 8);
GW_AT(gw_replay_answer, written, 16);
GW_AT(gw_replay_answer, state, 24);
GW_SIZE(gw_merge_answer, 56);
GW_AT(gw_merge_answer, full, 0);
GW_AT(gw_merge_answer, reserved, 4);
GW_AT(gw_merge_answer, tally, 8);
GW_SIZE(gw_choice_answer, 32);
GW_AT(gw_choice_answer, refusal, 0);
GW_AT(gw_choice_answer, which, 4);
GW_AT(gw_choice_answer, key, 8);
GW_AT(gw_choice_answer, reserved, 12);
GW_AT(gw_choice_answer, place, 16);
#undef GW_AT
#undef GW_SIZE
#undef GW_ASSERT

#ifdef __cplusplus
}
#endif

#endif

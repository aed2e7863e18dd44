/* SPDX-License-Identifier: Apache-2.0 */
/* The posting store for programs in C: the words of an index are checked once, and every later call takes them and gives its
 * answer in room that the caller lends. No call keeps anything for the next, and none writes anything but what its last parameters
 * point to; so any number of threads may call over the same words at once.
 *
 * What every caller owes:
 *
 * - `words` points to `count` words of 64 bits, aligned to 8 bytes, in the byte order of the machine, which must be little-endian. They are
 *   the bytes of an index file, for example a map of the file, and do not change during a call.
 * - Every call but pefidx_check, pefidx_check_segments, pefidx_join_top, pefidx_build and
 *   pefidx_pack takes words that pefidx_check has accepted and that have not changed since; the
 *   calls named _segments take words and segments that pefidx_check_segments has accepted, and
 *   pefidx_merge segments of which pefidx_check has accepted the words of each. This is not checked
 *   again: with other words anything may happen. A file that is mapped must not be changed or cut
 *   by others meanwhile; the program pefidx never does that, since it replaces files whole.
 * - `kept` points to the `kept_count` numbers that pefidx_keep gave for just these words, all of
 *   them, or `kept_count` is 0. This is not checked either. Numbers that are kept make calls
 *   faster and change no answer. They do not change during a call.
 * - `maxima` points to the `maxima_count` bytes that pefidx_maxima gave for just these words, or
 *   pefidx_maxima_segments for just these words and segments, all of them, or `maxima_count` is 0;
 *   likewise.
 * - No pointer is null, even where it points to 0 items, and what a call writes overlaps nothing else that it is given.
 * - Calls that take memory, named below, take it by malloc and give it back before they return.
 *   No call is for signal handlers, nor for the forked child of a process with threads.
 *
 * What a caller gets is a status. If it is neither PEFIDX_DONE nor PEFIDX_ROOM, nothing was written except what is named with the status.
 */
#ifndef PEFIDX_H
#define PEFIDX_H

#include <stddef.h>
#include <stdint.h>

#ifdef __cplusplus
extern "C" {
#endif

/* How a call ended. */
enum {
    /* All was given. */
    PEFIDX_DONE = 0,
    /* The list has no posting from there on. */
    PEFIDX_END = 1,
    /* There is more than there is room for: the first were given, and the count is that of all. */
    PEFIDX_ROOM = 2,
    /* The words are no index: the fault is their first check that breaks. */
    PEFIDX_NO_INDEX = 3,
    /* The index has no such term: it is not below pefidx_terms. */
    PEFIDX_NO_TERM = 4,
    /* The index has no such document: it is not below pefidx_documents. */
    PEFIDX_NO_DOCUMENT = 5,
    /* More than PEFIDX_MOST_TERMS terms were asked together. */
    PEFIDX_TOO_MANY_TERMS = 6,
    /* Not one weight for each term, a weight of 0, or weights whose sum is 2^26 or more. */
    PEFIDX_BAD_WEIGHTS = 7,
    /* The number is no plan's. */
    PEFIDX_NO_PLAN = 8,
    /* Memory was refused. */
    PEFIDX_NO_MEMORY = 9,
    /* To check: 2^57 words or more. To build, to pack and to merge: there would be more than 2^37
     * words, and the count is how many. */
    PEFIDX_TOO_LARGE = 10,
    /* To build: 2^32 lists or more, or 2^32 documents or more, in the first format 2^28 documents or more.
     * To join: 2^32 ranges or more, or so many documents. To check segments, and to merge: more
     * than PEFIDX_MOST_SEGMENTS. */
    PEFIDX_TOO_MANY = 11,
    /* To build: the lengths do not add up to the number of documents in the lists, or there is not one frequency for each.
     * To join: the counts do not add up to what was given, or there is not one for each range.
     * To check segments, and to merge: a segment is not within the words. */
    PEFIDX_NOT_WHOLE = 12,
    /* To build: a posting cannot stand in its list, and is told. */
    PEFIDX_BAD_POSTING = 13,
    /* To build: the number is no format's. */
    PEFIDX_NO_FORMAT = 14,
    /* To keep: the number is no sum of flags. */
    PEFIDX_NO_FLAG = 15,
    /* Segments cannot be joined: the first that breaks a rule is told. */
    PEFIDX_NO_JOIN = 16,
    /* To pack: the bytes are of no collection: the fault is the first rule that breaks. */
    PEFIDX_NO_COLLECTION = 17
};

/* The most terms that are asked together. */
#define PEFIDX_MOST_TERMS 1024

/* The most segments of a call. */
#define PEFIDX_MOST_SEGMENTS 64

/* The plans of pefidx_top, and of `top` in pefidx_reply. No answer depends on the plan. */
enum {
    /* Every document that has a term is scored. */
    PEFIDX_EXHAUSTIVE = 0,
    PEFIDX_WAND = 1,
    PEFIDX_MAXSCORE = 2,
    /* By the interval maxima; without them this is PEFIDX_MAXSCORE. */
    PEFIDX_INTERVALS = 3
};

/* What pefidx_keep keeps, as flags that are added up: 0 is nothing. */
enum {
    /* Where the lists of a packed file begin, and what the head of each says: two numbers for each
     * list and two more, no more than there are words. Of a plain file, and of one with fewer words,
     * it is one number. */
    PEFIDX_STARTS = 1
};

/* The formats of pefidx_build. The third is that of the packed file, which is the smallest; every call reads all three. */
enum {
    PEFIDX_FORMAT_ONE = 1,
    PEFIDX_FORMAT_TWO = 2,
    PEFIDX_PACKED = 3
};

/* The first check that breaks: its number, 1 to 13 for K1 to K13; the term, counted from 0; and the part of its list, those of its
 * documents first. The term is the number of terms where all lists are right, and both are 0 where no list is concerned. */
typedef struct pefidx_fault {
    uint32_t check;
    uint32_t term;
    uint64_t part;
} pefidx_fault;

/* A document, counted from 0, with how often a term occurs in it, at least 1. */
typedef struct pefidx_posting {
    uint32_t doc;
    uint32_t freq;
} pefidx_posting;

/* A document with its score, below 2^58. */
typedef struct pefidx_scored {
    uint32_t doc;
    uint64_t score;
} pefidx_scored;

/* A posting that cannot stand in its list: the term, and how many postings of its list stand before it. */
typedef struct pefidx_bad_posting {
    uint32_t term;
    uint64_t place;
} pefidx_bad_posting;

/* Where the words of an index are among others: the place of the first, and how many they are. */
typedef struct pefidx_segment {
    uint64_t first;
    uint64_t count;
} pefidx_segment;

/* The first segment, counted from 0, that is no index or cannot be joined. Of one that is no index
 * `rule` is 0 and the rest as of pefidx_fault; of another `rule` is 1 to 3 for G1 to G3, and the
 * rest is 0. */
typedef struct pefidx_segment_fault {
    uint32_t segment;
    uint32_t rule;
    uint32_t check;
    uint32_t term;
    uint64_t part;
} pefidx_segment_fault;

/* The files of a collection, as a fault names them. */
enum {
    PEFIDX_DOCS = 0,
    PEFIDX_FREQS = 1,
    PEFIDX_SIZES = 2
};

/* The first rule that the files of a collection break, as the program tells it: its number, 1 to 12
 * for C1 to C12; the file in which it breaks; the term whose list breaks it, counted from 0, which
 * is 0 in the head, and behind the lists how many there are; and the place of the number in its
 * sequence, counted from 0, or 0 where the head or a sequence as a whole breaks it. */
typedef struct pefidx_collection_fault {
    uint32_t rule;
    uint32_t file;
    uint32_t term;
    uint32_t place;
} pefidx_collection_fault;

/* Checks every word, and tells whether the words are an index, plain or packed. It takes no memory,
 * and its time depends on the number of words and on the kind: 19 ns for each of a plain file and
 * 150 ns for each of a packed one were measured. Any words may be given.
 *
 * PEFIDX_DONE: they are one, and may be given to the calls below.
 * PEFIDX_NO_INDEX: they are none, and *fault is the first check that breaks.
 * PEFIDX_TOO_LARGE: there are 2^57 words or more. */
uint32_t pefidx_check(const uint64_t *words, size_t count, pefidx_fault *fault);

/* The numbers that a caller may keep beside the words of an index, for as long as these stay, and
 * lend to each call that asks. Any number of threads may share them.
 *
 * PEFIDX_DONE: they stand in `kept`, and *given is how many they are.
 * PEFIDX_ROOM: *given is how many they are, which is more than room; the first `room` of them stand
 *   in `kept`, and are of no use. With room for as many as there are words they always fit.
 * PEFIDX_NO_FLAG: exactly where `what` is no sum of flags.
 * PEFIDX_NO_MEMORY: memory is taken for them. */
uint32_t pefidx_keep(const uint64_t *words, size_t count, uint32_t what, uint64_t *kept,
    size_t room, size_t *given);

/* The interval maxima of the longer lists, as bytes that a caller may keep in the same way and lend
 * to the calls that ask by PEFIDX_INTERVALS. They are made in one pass over the postings of these
 * lists.
 *
 * PEFIDX_DONE: they stand in `maxima`, and *given is how many bytes they are, at least 8.
 * PEFIDX_ROOM: *given is how many they are, which is more than room; the first `room` of them stand
 *   in `maxima`, and are of no use. It is then to be called again with that room, and does its work
 *   again. With room for 8 bytes and 4 for each word this has not been seen to happen.
 * PEFIDX_NO_MEMORY: memory is taken for as many bytes, and for a list. */
uint32_t pefidx_maxima(const uint64_t *words, size_t count, const uint64_t *kept,
    size_t kept_count, uint8_t *maxima, size_t room, size_t *given);

/* How many documents the index has. */
uint32_t pefidx_documents(const uint64_t *words, size_t count);

/* How many terms it has. */
uint32_t pefidx_terms(const uint64_t *words, size_t count);

/* PEFIDX_DONE: *size is the size of the document.
 * PEFIDX_NO_DOCUMENT: exactly where doc is not below pefidx_documents. */
uint32_t pefidx_size_of(const uint64_t *words, size_t count, uint32_t doc, uint32_t *size);

/* PEFIDX_DONE: *found is the first posting of the term's list whose document is at least doc.
 * PEFIDX_END: the list has none. PEFIDX_NO_TERM: exactly where term is not below pefidx_terms.
 * It takes no memory. */
uint32_t pefidx_next(const uint64_t *words, size_t count, const uint64_t *kept,
    size_t kept_count, uint32_t term, uint32_t doc, pefidx_posting *found);

/* PEFIDX_DONE: *postings is how many postings the term's list has.
 * PEFIDX_NO_TERM: exactly where term is not below pefidx_terms.
 * It takes no memory. */
uint32_t pefidx_count(const uint64_t *words, size_t count, const uint64_t *kept,
    size_t kept_count, uint32_t term, uint32_t *postings);

/* PEFIDX_DONE: the postings of the term's list from `place` on stand in `postings`, as many as there are or there is room for, and *given
 * is how many these are: 0 from the end of the list on. Places count from 0, so the next block begins at place + *given.
 * PEFIDX_NO_TERM: exactly where term is not below pefidx_terms.
 * It takes no memory. */
uint32_t pefidx_postings(const uint64_t *words, size_t count, const uint64_t *kept,
    size_t kept_count, uint32_t term, uint32_t place, pefidx_posting *postings, size_t room,
    size_t *given);

/* The documents that are in the lists of all the terms, rising; none where there are 0 terms. A term may stand more than once.
 *
 * PEFIDX_DONE: they all stand in `docs`, and *found is how many they are.
 * PEFIDX_ROOM: *found is how many they are, which is more than room; the first `room` of them stand in `docs`.
 * PEFIDX_TOO_MANY_TERMS, PEFIDX_NO_TERM: exactly then, and in this order. PEFIDX_NO_MEMORY: memory is taken for all of them. */
uint32_t pefidx_and(const uint64_t *words, size_t count, const uint64_t *kept,
    size_t kept_count, const uint32_t *terms, size_t terms_count, uint32_t *docs, size_t room,
    size_t *found);

/* The documents that are in the list of at least one of the terms, rising, each once; the rest as of pefidx_and. */
uint32_t pefidx_or(const uint64_t *words, size_t count, const uint64_t *kept,
    size_t kept_count, const uint32_t *terms, size_t terms_count, uint32_t *docs, size_t room,
    size_t *found);

/* The first k of the documents that pefidx_or gives, by score falling and then by document rising. The score of a document is the sum over
 * the terms of the term's weight times its frequency in that document.
 *
 * PEFIDX_DONE: they all stand in `best`, and *found is how many they are: k, or fewer where there are fewer documents.
 * PEFIDX_ROOM: *found is how many they are, which is more than room; the first `room` of them stand in `best`.
 * PEFIDX_NO_PLAN, PEFIDX_TOO_MANY_TERMS, PEFIDX_NO_TERM, PEFIDX_BAD_WEIGHTS: exactly then, and in this order.
 * PEFIDX_NO_MEMORY: memory is taken for them, for the terms, and for a window of scores, by
 *   PEFIDX_INTERVALS also for 8 bytes for each 32 documents. */
uint32_t pefidx_top(const uint64_t *words, size_t count, const uint64_t *kept,
    size_t kept_count, const uint8_t *maxima, size_t maxima_count, uint32_t plan,
    const uint32_t *terms, size_t terms_count, const uint32_t *weights, size_t weights_count,
    uint32_t k, pefidx_scored *best, size_t room, size_t *found);

/* The first k of what pefidx_top gave for ranges of documents, by the same terms and weights and by
 * k or more, as it gives them for the whole: the documents of a range are counted on from those of
 * the ranges before it. documents[i] is how many documents range i has, and counts[i] how many of
 * them stand in `given`, those of one range after those of the other. Where each range gave its own
 * first k, what is given is what pefidx_top_segments gives of the ranges as segments.
 *
 * No range gave a document twice, or one that it has not; that is not checked. Else:
 * PEFIDX_DONE: they all stand in `best`, and *found is how many they are.
 * PEFIDX_ROOM: *found is how many they are, which is more than room; the first `room` of them stand
 *   in `best`.
 * PEFIDX_TOO_MANY: exactly where there are 2^32 ranges or more, or the ranges have 2^32 documents or
 *   more together.
 * PEFIDX_NOT_WHOLE: exactly where, but for so many ranges, there is not one count for each, or the
 *   counts do not add up to given_count; it comes before too many documents.
 * PEFIDX_NO_MEMORY: memory is taken for all that was given, and for what is. */
uint32_t pefidx_join_top(const uint32_t *documents, size_t documents_count, const uint32_t *counts,
    size_t counts_count, const pefidx_scored *given, size_t given_count, uint32_t k,
    pefidx_scored *best, size_t room, size_t *found);

/* The reply to a query line, of `length` bytes without its newline, as `pefidx query` writes it: also to a line that breaks a rule.
 *
 * PEFIDX_DONE: the reply and its newline stand in `text`, and *written is how many bytes they are.
 * PEFIDX_ROOM: *written is how many they are, which is more than room; the first `room` of them stand in `text`.
 * PEFIDX_NO_PLAN: exactly then. PEFIDX_NO_MEMORY: memory is taken for what is asked, and for the reply. */
uint32_t pefidx_reply(const uint64_t *words, size_t count, const uint64_t *kept,
    size_t kept_count, const uint8_t *maxima, size_t maxima_count, uint32_t plan,
    const char *line, size_t length, char *text, size_t room, size_t *written);

/* How many bytes the reply to a query line takes at most, with its newline, found from the lengths of
 * the lists: 11 for a line that breaks a rule, 22 for `next`; else 11, and for `and` 11 for each
 * posting of its shortest list, for `or` 11 for each document that there can be, for `top` 30 for
 * each of these up to K. There can be as many as the lists have postings, and no more than
 * pefidx_documents.
 *
 * PEFIDX_DONE: that is *bytes, and the reply that pefidx_reply gives to this line by any plan has no
 *   more.
 * PEFIDX_NO_MEMORY: memory is taken for the terms. */
uint32_t pefidx_room(const uint64_t *words, size_t count, const uint64_t *kept, size_t kept_count,
    const char *line, size_t length, size_t *bytes);

/* The calls for several indexes as one take them as segments of one slice of words, for example a
 * reserved range of addresses in which each file is mapped at a page's border. Their documents are
 * counted on from those of the segments before; every term's list is their lists of it, one after
 * the other. `kept` is what pefidx_keep gave for the words of each segment, by PEFIDX_STARTS, one
 * after the other, or `kept_count` is 0. */

/* Checks segments in turn, each as pefidx_check does and then whether it can be joined to those
 * before it, as `pefidx segments` does. Words between segments are not read. Any words and any
 * segments may be given; these may overlap. It takes no memory.
 *
 * PEFIDX_DONE: they may be given to the calls named _segments, with these words.
 * PEFIDX_TOO_LARGE, PEFIDX_TOO_MANY, PEFIDX_NOT_WHOLE: exactly where there are 2^57 words or more,
 *   more than 64 segments, or a segment is not within the words, and in this order.
 * PEFIDX_NO_INDEX: but for these, a segment is no index, and those before it can be joined; *fault
 *   has its number and its first check that breaks.
 * PEFIDX_NO_JOIN: but for these, a segment is an index, and breaks a rule: it has another number of
 *   terms than the first (1, for G1), or else there would be 2^32 documents or more with those
 *   before it (2, for G2); *fault has its number and the rule. */
uint32_t pefidx_check_segments(const uint64_t *words, size_t count,
    const pefidx_segment *segments, size_t segments_count, pefidx_segment_fault *fault);

/* What pefidx_maxima gives for the one index, with its statuses: bytes that a caller may keep beside
 * the words of all segments, and lend to the two calls below. They are made in one pass over the
 * longer joined lists, with a cursor over each list; it takes far less time with `kept`. Memory is
 * taken for the segments too. */
uint32_t pefidx_maxima_segments(const uint64_t *words, size_t count,
    const pefidx_segment *segments, size_t segments_count, const uint64_t *kept,
    size_t kept_count, uint8_t *maxima, size_t room, size_t *given);

/* What pefidx_top gives for the one index, with its statuses; but PEFIDX_NO_MEMORY may come before
 * any other, since memory is taken for the segments too. */
uint32_t pefidx_top_segments(const uint64_t *words, size_t count, const pefidx_segment *segments,
    size_t segments_count, const uint64_t *kept, size_t kept_count, const uint8_t *maxima,
    size_t maxima_count, uint32_t plan, const uint32_t *terms, size_t terms_count,
    const uint32_t *weights, size_t weights_count, uint32_t k, pefidx_scored *best, size_t room,
    size_t *found);

/* What pefidx_reply gives for the one index, with its statuses: the reply of `pefidx segments`.
 * Memory is taken for the segments too. */
uint32_t pefidx_reply_segments(const uint64_t *words, size_t count,
    const pefidx_segment *segments, size_t segments_count, const uint64_t *kept,
    size_t kept_count, const uint8_t *maxima, size_t maxima_count, uint32_t plan,
    const char *line, size_t length, char *text, size_t room, size_t *written);

/* The words of the packed index file of the collection that segments are joined to, as
 * `pefidx merge` writes it: with as many terms as the most of them have, the lists of the others
 * being empty. Each segment within the words is an index that pefidx_check has accepted; that is
 * not checked.
 *
 * PEFIDX_DONE: the words stand in `merged`, and *given is how many they are; cut as those of
 *   pefidx_build.
 * PEFIDX_ROOM: *given is how many they are, which is more than room; the first `room` of them stand
 *   in `merged`. It is then to be called again with that room, and does its work again.
 * PEFIDX_TOO_MANY, PEFIDX_NOT_WHOLE: exactly where there are more than 64 segments, or one is not
 *   within the words, and in this order.
 * PEFIDX_NO_JOIN: but for these, there would be 2^32 documents or more with a segment and those
 *   before it (2, for G2), or else the frequencies of a joined list add up to more than 2^48 (3,
 *   for G3: of the first such term, with this segment); *fault has its number and the rule.
 * PEFIDX_TOO_LARGE: the words would be more than 2^37; *given is how many.
 * PEFIDX_NO_MEMORY: memory is taken for the words, and for a list while it is cut. */
uint32_t pefidx_merge(const uint64_t *words, size_t count, const pefidx_segment *segments,
    size_t segments_count, uint64_t *merged, size_t room, size_t *given,
    pefidx_segment_fault *fault);

/* The words of the index file, in a format, of some lists: a packed file in the third. lengths[t] is how many postings list t has; the
 * documents of all lists stand one after the other in docs, and their frequencies in freqs. There is a document for each size. In a list
 * documents rise, each is below the number of documents, and each frequency is at least 1; the frequencies of a list add up to at most 2^48,
 * in the first format to at most 2^36.
 *
 * PEFIDX_DONE: the words stand in `words`, and *count is how many they are. They are an index of just these lists and sizes, and every
 *   sequence of it is cut so that its bits in the file are at most 103/100 of those that it takes in any cut that may stand there.
 * PEFIDX_ROOM: *count is how many they are, which is more than room; the first `room` of them stand in `words`. It is then to be called
 *   again with that room, and does its work again. With room for 6 words, which an index of nothing has, and as many as there are postings,
 *   plus 16 for each list and 1 for each document, this has not been seen to happen.
 * PEFIDX_NO_FORMAT, PEFIDX_TOO_MANY, PEFIDX_NOT_WHOLE: exactly then, and in this order.
 * PEFIDX_BAD_POSTING: exactly where, but for these, a list is no posting list; *bad is the first posting that cannot stand in its list.
 *   It comes before memory is taken, so PEFIDX_NO_MEMORY and PEFIDX_TOO_LARGE are told of posting lists alone.
 * PEFIDX_TOO_LARGE: the words would be more than 2^37; *count is how many.
 * PEFIDX_NO_MEMORY: memory is taken for the words, and for a list while it is cut. */
uint32_t pefidx_build(uint32_t format, const uint32_t *lengths, size_t lengths_count, const uint32_t *docs, size_t docs_count,
    const uint32_t *freqs, size_t freqs_count, const uint32_t *sizes, size_t sizes_count, uint64_t *words, size_t room, size_t *count,
    pefidx_bad_posting *bad);

/* The words of the packed file of a collection, given as the bytes of its three files, as they are
 * mapped: NAME.docs, NAME.freqs, NAME.sizes. They are those that `pefidx pack NAME INDEX` writes.
 *
 * PEFIDX_DONE: the words stand in `words`, and *count is how many they are. They are an index of
 *   just the collection that the bytes spell, cut as pefidx_build cuts it.
 * PEFIDX_ROOM: *count is how many they are, which is more than room; the first `room` of them stand
 *   in `words`. It is then to be called again with that room, and does its work again. With room
 *   for 16 words, one for each 2 bytes of freqs and one for each 4 of sizes, this has not been seen
 *   to happen.
 * PEFIDX_NO_COLLECTION: exactly where the bytes are of no collection, unless memory was refused
 *   before; *fault is the first rule that breaks.
 * PEFIDX_TOO_LARGE: the bytes are of a collection, and the words would be more than 2^37; *count is
 *   how many.
 * PEFIDX_NO_MEMORY: memory is taken for a piece of each file, for the words, for the sizes, and for
 *   a list while it is cut. */
uint32_t pefidx_pack(const uint8_t *docs, size_t docs_length, const uint8_t *freqs,
    size_t freqs_length, const uint8_t *sizes, size_t sizes_length, uint64_t *words, size_t room,
    size_t *count, pefidx_collection_fault *fault);

#ifdef __cplusplus
}
#endif

#endif

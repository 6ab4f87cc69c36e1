/* Kehoraimo: a search over deduplicated backups that is proved right.
 *
 * Build the library by `make lib` (it is proved first): crates/vault_c/out/libvault_c.a, for x86-64 Linux.
 * Every function takes every input, ends, and answers 0 or the number of the refusal; README.md has the table of numbers. A refusal
 * changes no byte of a buffer and no number behind a pointer: these are told the length, the moves, the count or the lines where the work is
 * done (the four counts of a tally are added to), and stay as they were on a refusal. vault_search is two operations: where its join refuses, the index
 * that its scan wrote stays in the index buffer, and its length is told. A buffer or number must not overlap another argument. A null pointer may stand
 * only where the length beside it is 0.
 * Bytes of keywords and data compare by the keyword list's fold flag, which is its second byte: with 0 as they are; with 1, 41 to 5A and
 * C0 to DE except D7 (hexadecimal) compare as the byte 20 (hexadecimal) higher, so that A to Z and the accented capitals of Latin-1 (ISO/IEC
 * 8859-1) meet their small letters; D7, DF, F7 and FF compare as themselves. An index that an earlier version, which folded 41 to 5A only, wrote with
 * flag 1 has to be scanned anew: no call can tell it from a new one or refuses it for its age, and a join of it may lack occurrences.
 * The chunks of a store lie behind its directory, in the directory's order, and do not overlap. Between these, and behind the last one, the store may have
 * holes: unused bytes, of any number and content. On two accepted stores that differ only there, with the same other arguments, buffers of equal
 * length and equal tallies, every call answers and writes the same. Chunks end within 4,294,967,295 bytes; the store itself may be longer.
 * A chunk has 1 to 1,048,576 bytes. An index begins with its mark: a scan writes 44 4D 33 0A (hexadecimal; DM3), with which each offset inside a chunk
 * and each exact count takes 3 bytes. Of a keyword of n bytes and a chunk of at most n - 2 it has, behind their other record, the set of inner starts (kind
 * 4): bit p of 4 bytes, least significant first, says that the chunk is the keyword's bytes from p on, for p from 1 to n - 1 - the chunk's length. By these a
 * join lists keywords over any number of chunks. An index with an older mark is read too by every call that takes an index: 44 4D 32 0A (DM2) has the same
 * fields and no sets, 44 4D 31 0A (DM1) no sets, fields of 2 bytes and chunks of at most 65,535. These two know a keyword over two chunks only, so
 * a join or a query of them refuses with 17 where a chunk that is neither first nor last in its file is shorter than the longest keyword less one byte. With
 * the newest mark 17 never comes.
 * A call keeps nothing behind and touches only what it is lent, so calls may run at once from several threads, each with buffers of its own.
 * Stack that a call needs, about:
 *   600 KB   a check of a store or an index, a lookup
 *   650 KB   a compaction, a compaction's size
 *   1.2 MB   a count, a join, a query, a query's count
 *   1.3 MB   a scan, a scan's size
 *            a search: the larger of a scan's and a join's
 */
#ifndef KEHORAIMO_VAULT_H
#define KEHORAIMO_VAULT_H

#include <stddef.h>
#include <stdint.h>

#ifdef __cplusplus
extern "C" {
#endif

/* ---- checks: 0, or the number of the first test that fails */

/* A keyword list: 1 to 4. With fold flag 1, two keywords that differ only in case, as above, are alike (4). */
uint8_t vault_check_keywords(const uint8_t *list, size_t list_length);

/* A store: 5 to 8, and 20, an entry that ends beyond 4,294,967,295: entry by entry its length and its offset (7: one before the end of the entry before,
 * of the first before the directory's), then its end (20); behind the entries the last end (7: one beyond the store's), then 8. A store without chunks
 * may have any length from 8 on. */
uint8_t vault_check_store(const uint8_t *store, size_t store_length);

/* A match index, under any of the three marks: 10, 1 to 4, 11 to 13. */
uint8_t vault_check_index(const uint8_t *index, size_t index_length);

/* ---- scan: the match index of a store, for a keyword list */

/* The length of the index that a scan would write: 0 with the length, or 1 to 8, 20. */
uint8_t vault_scan_size(const uint8_t *list, size_t list_length, const uint8_t *store, size_t store_length, uint64_t *length);

/* Writes the index to the start of the buffer: 0 with its length and the moves, or 1 to 9, 20, and both numbers stay. Bytes behind the index are
 * unchanged.
 *
 * The moves are those in the trie of all keywords: its nodes are all beginnings of the keywords, compared under the fold flag, with the empty
 * one as root; a node's failure link leads to its longest proper ending that is a node. For each byte of a chunk: while the node isn't the root
 * and has no child by that byte, the link is followed, one move each; then the step to the child, or the stay at the root, is one move. Each
 * chunk starts at the root, and the moves are summed over all chunks: at most twice the bytes of the chunks. Not counted are the short
 * backward look for suffixes and a walk made only to measure.
 *
 * Where the buffer is at least as long as a bound that the call works out by itself from the lengths alone, each chunk is walked to write
 * only; else once to measure and, where a keyword occurs in it, to write. Writing walks a chunk of at most 65,536 bytes once and a longer one
 * twice; moves are counted for one walk. For c chunks the bound is
 *   8 + list_length + 32 c + keywords x (17 c + 3 x store_length),
 * holes counted, where that is at most 4,294,967,295. Answer, index and moves are the same either way. */
uint8_t vault_scan(const uint8_t *list, size_t list_length, const uint8_t *store, size_t store_length,
                   uint8_t *out, size_t out_length, uint64_t *length, uint64_t *moves);

/* ---- join: the occurrences in the files of the recipes, from an index alone */

/* The key and the tally. A join serves up to four clients, 0 to 3. The key says which client each keyword is of: 16 bytes, the k-th of them the client of
 * keyword number k. Entries from the keyword count on are ignored and may be any bytes. The tally is a count of 64 bits for each client, client0 to client3,
 * lent by four pointers: a join or a search that is accepted adds to each the number of occurrences in its list of that client's keywords; one that is
 * refused, with whatever number, leaves all four. Set the four to 0 at the start of a bill and pass them to each join that belongs to it: then each is the
 * number of occurrences of that client's keywords in the lists of the joins accepted. They are read too, so give them values before the first call. The four
 * have to be four different numbers, and other than the count and the index's length; elements of one array do. Who bills nobody passes 16 zero bytes and
 * four numbers of 0: neither 22 nor 23 comes then. The list does not depend on the key or the tally.
 * Both are tested last:
 *   22  the key is not 16 bytes, or has a client above 3 for one of the index's keywords, whether or not that keyword occurs; tested after 18;
 *   23  a client's count and its occurrences in this join are together more than 18,446,744,073,709,551,615; tested after 22. Reaching that number is
 *       accepted, and so is a full count of a client without occurrences in this join. All four are tested before any is changed. */

/* How many occurrences a join would list, whatever its key and tally: 0 with the count, or 10, 1 to 4, 11 to 16, and 17 of an index with an older mark. */
uint8_t vault_count(const uint8_t *index, size_t index_length, const uint8_t *recipes, size_t recipes_length, uint64_t *count);

/* Writes the list to the start of the buffer, 9 bytes an occurrence: file (4), offset (4), keyword (1), least significant byte first,
 * rising by file, offset, keyword: 0 with the count, and the tally added to; or 10, 1 to 4, 11 to 18 (17 of an index with an older mark only), 22, 23, and
 * the count and the tally stay. Bytes behind the list are unchanged. */
uint8_t vault_join(const uint8_t *index, size_t index_length, const uint8_t *recipes, size_t recipes_length,
                   const uint8_t *key, size_t key_length, uint8_t *out, size_t out_length, uint64_t *count,
                   uint64_t *client0, uint64_t *client1, uint64_t *client2, uint64_t *client3);

/* ---- query: the files that have several keywords in order, from an index alone */

/* A query is 2 to 8 keyword numbers of one byte each, repeats allowed. A file qualifies exactly when occurrences of these keywords exist in that order, each
 * starting at or after the end of the one before: adjacent ones do, overlapping ones do not. Of the ways to choose them its line has the one whose first
 * occurrence starts earliest, then the second, and so on. */

/* How many lines a query would write: 0 with the number; or 10, 1 to 4, 11 to 16, and 17 of an index with an older mark; then 21 (the query has another
 * length, or a number that is not below the keyword count). */
uint8_t vault_query_count(const uint8_t *index, size_t index_length, const uint8_t *recipes, size_t recipes_length,
                          const uint8_t *query, size_t query_length, uint64_t *lines);

/* Writes the lines to the start of the buffer, 4 + 4 x query_length bytes a line: file (4), then the offsets (4 each) in the query's order, least
 * significant byte first, rising by file: 0 with the number of lines, or the numbers above, then 18 (all lines together exceed the buffer), and the number
 * stays. No lines fit a buffer of 0. Bytes behind the lines are unchanged. */
uint8_t vault_query(const uint8_t *index, size_t index_length, const uint8_t *recipes, size_t recipes_length,
                    const uint8_t *query, size_t query_length, uint8_t *out, size_t out_length, uint64_t *lines);

/* ---- lookups by a fingerprint of 20 bytes */

/* The chunk in a store: 0 when found, or 5 to 8, 20, 19, 15; where it starts in the store and how long it is, without the hole behind it; both 0 on a
 * refusal. */
uint8_t vault_find_chunk(const uint8_t *store, size_t store_length, const uint8_t *key, size_t key_length);
uint64_t vault_chunk_start(const uint8_t *store, size_t store_length, const uint8_t *key, size_t key_length);
uint64_t vault_chunk_length(const uint8_t *store, size_t store_length, const uint8_t *key, size_t key_length);

/* The body in an index: 0 when found, or the index check's numbers, 19, 15; where it starts in the index and how long it is (a body may be
 * empty: only the number tells that from a refusal). */
uint8_t vault_find_body(const uint8_t *index, size_t index_length, const uint8_t *key, size_t key_length);
uint64_t vault_body_start(const uint8_t *index, size_t index_length, const uint8_t *key, size_t key_length);
uint64_t vault_body_length(const uint8_t *index, size_t index_length, const uint8_t *key, size_t key_length);

/* ---- compaction: a store without holes that has exactly the chunks that some recipe names, in their old order */

/* The length of the store that a compaction would write: 0 with the length, or 5 to 8, 20, 14, 15. */
uint8_t vault_compact_size(const uint8_t *store, size_t store_length, const uint8_t *recipes, size_t recipes_length, uint64_t *length);

/* Writes that store to the start of the buffer: 0 with its length, or 5 to 8, 20, 14, then 15 (a fingerprint that a recipe names is not in the store),
 * then 9 (the new store is longer than the buffer), and the length stays. Bytes behind the new store are unchanged. Neither 16 nor 17 is tested: recipes that
 * a join would refuse so, of some index, are compacted for. A buffer as long as the store itself is always enough.
 *
 * The new store is accepted, and compacting it for the same recipes gives it again. A search of these recipes for the same keyword list, with both index
 * files written in full, list buffers of equal length, the same key and equal tallies, gives the list or the refusal that it gave with the old store, and
 * leaves equal tallies. No other accepted store in which
 * each fingerprint that these recipes name has the same bytes is shorter. Chunks that these recipes do not name are gone: whoever has other recipes of this
 * store must give all of them, as one recipes file. */
uint8_t vault_compact(const uint8_t *store, size_t store_length, const uint8_t *recipes, size_t recipes_length,
                      uint8_t *out, size_t out_length, uint64_t *length);

/* ---- the search whole: a scan into the index buffer, whose moves are not told, then a join of that index into the list buffer */

/* 0 with the index's length and the count, and the tally added to; or the scan's number, and all of these stay; or the join's number, which is never 17,
 * with the index's length, and the count and the tally stay. Key and tally are the join's. */
uint8_t vault_search(const uint8_t *list, size_t list_length, const uint8_t *store, size_t store_length,
                     const uint8_t *recipes, size_t recipes_length, const uint8_t *key, size_t key_length,
                     uint8_t *index, size_t index_buffer_length, uint8_t *out, size_t out_length, uint64_t *index_length, uint64_t *count,
                     uint64_t *client0, uint64_t *client1, uint64_t *client2, uint64_t *client3);

#ifdef __cplusplus
}
#endif
#endif

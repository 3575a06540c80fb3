/* Merinocloud: one posting list, built and searched. Every function here is proved to meet its contract on every input: crates/merino/src
   states it, and the definitions that it cites say what each number and each buffer holds afterwards.

   A slice is a pointer and a number of elements. A pointer to no elements may be anything that is not null and suitably aligned.
   The caller owns every buffer; nothing is kept between calls, nothing is allocated. No two buffers that are written may overlap,
   and none may overlap one that is read. A pointer to a number that is written counts as a buffer of its own. A search needs about 140 KB
   of stack.

   Each function answers 0 where the call is accepted, else the number of its refusal (document 01, "Numbered refusals"): no refusal
   has the number 0, and no two have the same.

   A number that chooses (by_score, blocking, summarization) has a meaning for every value, and only those that are named here are meant
   for use: the others are reserved, do today what is said of them, and may choose something else in a later version. */
#ifndef MERINO_H
#define MERINO_H

#include <stddef.h>
#include <stdint.h>

#ifdef __cplusplus
extern "C" {
#endif

/* Pushes an entry onto a kept list: the k best entries so far, best first, as packed ranges and scores side by side.

   k                how many are kept
   length           how many are kept now; left with how many are kept afterwards
   packed, scores   the entries, in the first `length` places of both; need min(length + 1, k) places
   new_packed,
   new_score        the entry to push

   Refused, in this order, with nothing changed: 11 (k is 0); 12 (length above k or above a buffer's length, entries out of order, a NaN
   among them or pushed); 4 (a buffer has too few places). Accepted: the entries with the new one among them, cut to k; what lies past
   them is unchanged. */
uint64_t merino_push(
    uint64_t k,
    uint64_t *length,
    uint64_t *packed, size_t packed_len,
    float *scores, size_t scores_len,
    uint64_t new_packed,
    float new_score);

/* Searches a posting list for a query and goes on from the entries that the kept list holds.

   by_score                0: blocks have their turns in number order; 1: greater score first, then smaller block. Any other number does
                           as 1, and is reserved
   query_components,
   query_values            the query: components, strictly rising, and their values
   k, factor               how many are kept; a block is skipped at its turn if k are kept and its score < factor x worst kept score
   components, values      the terms of all documents, side by side
   postings                the list's packed ranges: start times 65,536 plus length
   block_offsets           where each block starts in the postings, one more than there are blocks
   summary_components,
   component_offsets       the components that some summary has, strictly rising, and where the entries of each start
   summary_ids, codes      the entries: number of a summary, and code
   minimums, steps         of each summary
   length, packed, scores  the kept list, as for merino_push; need k places
   visits                  a byte for each start from 0 to the number of terms; nonzero is visited, a visit writes 1
   block_scores            left with the score of each block, in the first places; needs one for each minimum
   block_order             where by_score is not 0: left with the block numbers in the order of their turns; needs one for each minimum
   position                left with the place in the postings at which 13 or 14 stopped the search, else 0
   evaluated, skipped      left with the number of postings evaluated and of blocks skipped; 0 where the search was refused or stopped

   These three numbers are written by every call. Accepted (0), or stopped by 13 or 14 at a posting: the kept list and the visit bytes
   stand as after the last posting that was evaluated, block_scores and block_order hold the blocks' scores and their turns, and what
   lies past these results is unchanged. Refused, in this order: 11, 10, 6 (terms differ in number), 9, 12, 4; then length, packed,
   scores, visits, block_scores and block_order are unchanged, and position, evaluated and skipped are 0. */
uint64_t merino_search(
    uint64_t by_score,
    const uint32_t *query_components, size_t query_components_len,
    const float *query_values, size_t query_values_len,
    uint64_t k,
    float factor,
    const uint32_t *components, size_t components_len,
    const float *values, size_t values_len,
    const uint64_t *postings, size_t postings_len,
    const uint64_t *block_offsets, size_t block_offsets_len,
    const uint32_t *summary_components, size_t summary_components_len,
    const uint64_t *component_offsets, size_t component_offsets_len,
    const uint16_t *summary_ids, size_t summary_ids_len,
    const uint8_t *codes, size_t codes_len,
    const float *minimums, size_t minimums_len,
    const float *steps, size_t steps_len,
    uint64_t *length,
    uint64_t *packed, size_t packed_len,
    float *scores, size_t scores_len,
    uint8_t *visits, size_t visits_len,
    float *block_scores, size_t block_scores_len,
    uint64_t *block_order, size_t block_order_len,
    uint64_t *position,
    uint64_t *evaluated,
    uint64_t *skipped);

/* Builds a posting list from the listed documents.

   dimension                 1 to 1,048,575; every component of a listed document is below it
   blocking                  0: blocks of a fixed size; 1: clusters by the dot product with each centroid; 2: clusters by a document's
                             largest terms. Any other number does as 2, and is reserved
   block_size                blocking 0 alone: how many postings a block has; the last one takes what is left over, up to twice as many
                             less 1. A list shorter than block_size has no block, so that a search finds nothing of it
   centroid_fraction         blocking other than 0: how many centroids there are for each posting; any float, a NaN too
   min_cluster_size          blocking other than 0: a group of at most so many postings dissolves
   doc_cut                   blocking other than 0 and 1: how many of a document's largest terms count
   summarization             0: summaries of a fixed size; 1: by energy. Any other number does as 1, and is reserved
   n_components              summarization 0 alone: how many terms a summary keeps
   summary_energy            summarization other than 0: a summary keeps as many terms as reach this fraction of the sum of all
   offsets                   where each document's terms start, one more than there are documents: first 0, never falling, last the number
                             of terms
   components, values        the terms of all documents, side by side
   ids                       the documents of the list, repeats allowed, at most 16,777,216
   centroids                 blocking other than 0 and a list that is not empty: documents, as many as the smaller of the list's length and
                             of the count, which is centroid_fraction times the length, cut to a whole number and at least 1
   A choice's settings are not looked at under another choice.

   The result, in eight buffers, as merino_search takes it under the same names, and how long it is:
   postings                  postings_written
   block_offsets             block_offsets_written: one more than there are blocks, or 0 for clusters of an empty list
   summary_components        summary_components_written
   component_offsets         summary_components_written + 1
   summary_ids, codes        entries_written each
   minimums, steps           summaries_written each: as many as there are blocks

   Scratch, eleven buffers, for n ids, C centroids given (0 where blocking is 0), T terms of these, and dimension D (docs/SCRATCH.md):
   order                     n
   blocks                    n + 1
   sorted                    n
   known                     C
   taken                     n
   counts                    max(C, D)
   starts                    D + 1
   slots                     T
   weights                   T
   sums                      max(C, D)
   keys                      D
   What these hold before the call does not matter.

   Accepted (0): each result stands in front of its buffer, what lies past it is unchanged, and all scratch is 0. The five numbers are the
   lengths above.
   Refused, in this order: 8 (length, dimension), 6, 14 (listed documents and centroids), 1, 2 (listed documents), 3 or 5, 8 (blocks),
   4 (scratch), 7, 4 (output). All eight outputs and all scratch are 0 over their whole length, and so are the five numbers. */
uint64_t merino_build(
    uint64_t dimension,
    uint64_t blocking,
    uint64_t block_size,
    float centroid_fraction,
    uint64_t min_cluster_size,
    uint64_t doc_cut,
    uint64_t summarization,
    uint64_t n_components,
    float summary_energy,
    const uint64_t *offsets, size_t offsets_len,
    const uint32_t *components, size_t components_len,
    const float *values, size_t values_len,
    const uint64_t *ids, size_t ids_len,
    const uint64_t *centroids, size_t centroids_len,
    uint64_t *postings, size_t postings_len,
    uint64_t *block_offsets, size_t block_offsets_len,
    uint32_t *summary_components, size_t summary_components_len,
    uint64_t *component_offsets, size_t component_offsets_len,
    uint16_t *summary_ids, size_t summary_ids_len,
    uint8_t *codes, size_t codes_len,
    float *minimums, size_t minimums_len,
    float *steps, size_t steps_len,
    uint64_t *order, size_t order_len,
    uint64_t *blocks, size_t blocks_len,
    uint64_t *sorted, size_t sorted_len,
    uint64_t *known, size_t known_len,
    uint64_t *taken, size_t taken_len,
    uint64_t *counts, size_t counts_len,
    uint64_t *starts, size_t starts_len,
    uint64_t *slots, size_t slots_len,
    float *weights, size_t weights_len,
    float *sums, size_t sums_len,
    uint64_t *keys, size_t keys_len,
    uint64_t *postings_written,
    uint64_t *block_offsets_written,
    uint64_t *summary_components_written,
    uint64_t *entries_written,
    uint64_t *summaries_written);

#ifdef __cplusplus
}
#endif

#endif

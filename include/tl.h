/* The calls of the library, for C and what speaks C. docs/API.md says what each answers.
 *
 * A call returns the number of its refusal, 0 if it is accepted:
 *   1 page over the profile's limit   2 table too small for the page
 *   3 table not sound for the page    4 handle is no tag's
 *   5 selector over 128 bytes         6 selector cannot be read
 *   7 answer longer than the buffer  14 profile outside its limits
 * 14 is tried before all others, and these in the order of their numbers.
 *
 * A refusal leaves what `count` or `answer` points to, and the buffer to be written, all zeros. An accepted call fills the
 * buffer's first entries and leaves the rest as it was. Nothing is kept between calls and nothing is allocated.
 *
 * A page, name, selector or buffer is a pointer and the number of its entries. The pointer must be one of as many entries,
 * aligned for their type, and not null even if there are none; a profile's pointer must be one of one profile; what is lent
 * to be written must overlap nothing else that is lent. These are the only conditions.
 */
#ifndef TL_H
#define TL_H

#include <stddef.h>
#include <stdint.h>

#ifdef __cplusplus
extern "C" {
#endif

/* What a counterparty's pages are like. Every call on a page and its table is given a profile, since it reads in the page again:
 * a table should be asked under the profile that its page was read with. Under another it is answered too, by what that one sets.
 *
 * limit: the most bytes of a page that is read, 1 to 65,536.
 * white: the white bytes, each 1 to 32; 0 in a place where there is none, which does not make byte 0 of a page white. They serve
 *   wherever white is skipped in a page, and they, '/' and '>' end an unquoted value. Under every profile class values are cut at
 *   HTML's five white bytes, and selectors skip space alone.
 * void_names: names of tags that are never open, each of 1 to 16 bytes (letters, digits, - _ : + /) with zeros behind them; all
 *   zeros in a place where there is none. The empty name is never void.
 *
 * Refused as 14: a limit of 0 or over 65,536; a white byte over 32; a name with a byte not listed, or that goes on after a zero. */
struct tl_profile {
    uint32_t limit;
    uint8_t white[4];
    char void_names[24][16];
};

/* This compiles only if a profile has 392 bytes. It is a typedef since C99 has no assertion for it. */
typedef char tl_profile_has_392_bytes[sizeof(struct tl_profile) == 392 ? 1 : -1];

/* tl's own profile: under it pages are read as tl reads them. A copy of it is a place to begin. */
static const struct tl_profile TL_PROFILE_DEFAULT = {
    65536u,
    {' ', '\n'},
    {"area", "base", "br", "col", "embed", "hr", "img", "input", "keygen", "link", "meta", "param", "source", "track", "wbr"},
};

/* The manners of a lookup: over all tags; or over the closed ones, in closing order. Any number but 0 is closed. */
#define TL_SCAN 0u
#define TL_CLOSED 1u

/* The views of a lookup in the scan, and of a query: all nodes; or the finished tags alone, which a closing tag with its '>' closed
 * or which were never open (word 8 of the row is 1 or 3). Any number but 0 is finished; in the closed manner it is ignored.
 * A tag that is finished in a page that broke off is the same finished tag in the whole page. */
#define TL_VIEW_ALL 0u
#define TL_VIEW_FINISHED 1u

/* A table: 8 words (node count, version, page length, 8, 9, three zeros), then 9 words a node: kind (1 tag, 2 text,
 * 3 comment), start, end, name start, name end, place after the opening '>', parent's handle plus 1, last descendant, how a
 * tag ended (0 for a text or comment). */
#define TL_HEADER 8u
#define TL_ROW 9u

/* How a tag ended, word 8 of its row: it is open at the end of the page; a closing tag with its '>' closed it; one that the
 * page's end cut short did; or it was never open, as its name is void or a '/' follows its name and attributes.
 * Of a page that broke off word 8 may differ from the whole page's: 1 may become 0 or 2, and 0 and 2 each other. */
#define TL_ENDED_OPEN 0u
#define TL_ENDED_CLOSED 1u
#define TL_ENDED_CUT_SHORT 2u
#define TL_ENDED_NEVER_OPENED 3u

/* The words of a table with so many rows. */
#define TL_WORDS(rows) (TL_HEADER + TL_ROW * (rows))

/* The most nodes that a page of so many bytes has: (2 * bytes + 1) / 3, rounded down, in a form that never wraps. It is proved
 * for every page, and for each length some page has as many (NodeBound in crates/maxnodes). So TL_WORDS(TL_MAX_NODES(bytes))
 * words are enough to read any page of so many bytes, up to the profile's limit, and for some page no fewer are. */
#define TL_MAX_NODES(bytes) ((bytes) / 3 * 2 + ((bytes) % 3 * 2 + 1) / 3)

/* Reads a page into a table. *count: its nodes. Refused as 14, 1, 2. */
uint32_t tl_parse(const struct tl_profile *profile, const uint8_t *page, size_t page_len, uint32_t *table, size_t table_len,
                  size_t *count);

/* The handles below a tag. answer: how many, the first, the last. Refused as 14, 1, 3, 4. */
uint32_t tl_range(const struct tl_profile *profile, const uint8_t *page, size_t page_len, const uint32_t *table,
                  size_t table_len, size_t handle, size_t answer[3]);

/* What a tag holds for an attribute name. answer: 0 absent, 1 without a value, 2 with a value; where that starts in the page,
 * and ends. A caller with a fallback of its own takes the bytes from page + answer[1] up to page + answer[2] if answer[0] is 2,
 * even where there are none, and else the whole fallback; a refusal, which leaves 0 there, is told by its number.
 * Refused as 14, 1, 3, 4. */
uint32_t tl_attribute(const struct tl_profile *profile, const uint8_t *page, size_t page_len, const uint32_t *table,
                      size_t table_len, size_t handle, const uint8_t *name, size_t name_len, size_t answer[3]);

/* The text below a tag; in a page that broke off, a beginning of its text in the whole page. *count: its bytes.
 * Refused as 14, 1, 3, 4, 7. */
uint32_t tl_inner_text(const struct tl_profile *profile, const uint8_t *page, size_t page_len, const uint32_t *table,
                       size_t table_len, size_t handle, uint8_t *out, size_t out_len, size_t *count);

/* The tag with an id: in the scan the lowest handle that the view shows, else the one closed last. answer: how many (0 or 1),
 * the handle. Refused as 14, 1, 3. */
uint32_t tl_get_element_by_id(const struct tl_profile *profile, const uint8_t *page, size_t page_len, const uint32_t *table,
                              size_t table_len, uint32_t manner, uint32_t view, const uint8_t *id, size_t id_len,
                              size_t answer[2]);

/* The tags with a class: in the scan those that the view shows, each once, in handle order; else in closing order, once for each
 * time. *count: the handles written. Refused as 14, 1, 3, 7. */
uint32_t tl_get_elements_by_class_name(const struct tl_profile *profile, const uint8_t *page, size_t page_len,
                                       const uint32_t *table, size_t table_len, uint32_t manner, uint32_t view,
                                       const uint8_t *name, size_t name_len, uint32_t *out, size_t out_len,
                                       size_t *count);

/* Reads a selector into 6 words a piece: kind (1 tag, 2 #, 3 ., 4 *, 5 [k], 6 [k=v], 7 ~=, 8 ^=, 9 $=, 10 *=), start and end
 * of the first name, of the second, joiner (0 end, 1 and, 2 or, 3 descendant, 4 parent). *count: its pieces.
 * Refused as 5, 6, 7. */
uint32_t tl_parse_query_selector(const uint8_t *selector, size_t selector_len, uint32_t *out, size_t out_len,
                                 size_t *count);

/* The nodes that the view shows and a selector finds, in handle order. *count: the handles written.
 * Refused as 14, 1, 3, 5, 6, 7. */
uint32_t tl_query_selector(const struct tl_profile *profile, const uint8_t *page, size_t page_len, const uint32_t *table,
                           size_t table_len, uint32_t view, const uint8_t *selector, size_t selector_len, uint32_t *out,
                           size_t out_len, size_t *count);

/* The same of the nodes below a tag, which need not be finished. Refused as 14, 1, 3, 4, 5, 6, 7. */
uint32_t tl_query_selector_below(const struct tl_profile *profile, const uint8_t *page, size_t page_len,
                                 const uint32_t *table, size_t table_len, size_t handle, uint32_t view,
                                 const uint8_t *selector, size_t selector_len, uint32_t *out, size_t out_len,
                                 size_t *count);

/* What each tag of a list of handles holds for an attribute name, as tl_attribute answers: 3 words a handle.
 * *count: the handles. Refused as 14, 1, 3, 4 (a handle of the list is no tag's), 7. */
uint32_t tl_attributes(const struct tl_profile *profile, const uint8_t *page, size_t page_len, const uint32_t *table,
                       size_t table_len, const uint32_t *handles, size_t handles_len, const uint8_t *name, size_t name_len,
                       uint32_t *out, size_t out_len, size_t *count);

/* What each tag of a list of handles holds for each of several attribute names: 3 words a name, a handle's words together.
 * names is one text: name j stands from the end of the one before (0 for the first) up to ends[j]; places past the text's end
 * count as its end. *count: the handles. Refused as 14, 1, 3, 4 (a handle of the list is no tag's), 7. */
uint32_t tl_attributes_for_names(const struct tl_profile *profile, const uint8_t *page, size_t page_len,
                                 const uint32_t *table, size_t table_len, const uint32_t *handles, size_t handles_len,
                                 const uint8_t *names, size_t names_len, const size_t *ends, size_t ends_len, uint32_t *out,
                                 size_t out_len, size_t *count);

/* The texts below each tag of a list of handles, one after the other in out, and where each ends. *count: the handles.
 * A refusal leaves both ends and out all zeros. Refused as 14, 1, 3, 4 (a handle of the list is no tag's), 7. */
uint32_t tl_inner_texts(const struct tl_profile *profile, const uint8_t *page, size_t page_len, const uint32_t *table,
                        size_t table_len, const uint32_t *handles, size_t handles_len, size_t *ends, size_t ends_len,
                        uint8_t *out, size_t out_len, size_t *count);

#ifdef __cplusplus
}
#endif

#endif

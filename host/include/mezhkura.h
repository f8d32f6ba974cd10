/* The marking engine for C, over the archive libmezhkura.a.
 *
 * A desk is a value: a call takes it, and the calls that change it return the desk after the call. A call that
 * is turned down returns the desk as it was, and changes no byte of a lent buffer. Every bit pattern of a struct
 * has a meaning, so a call has no condition on its arguments but that pointers and counts belong together.
 *
 * A load, and a change of the facts, works out M and N and leaves them in the lesson, with the rounds that it took and
 * the literals whose verdicts are refused by 24. Verdict, model and listing read what the last change or load left
 * there, so a screen of verdicts after one fact costs one model.
 *
 * number: 0 if the call is accepted; 1 to 9 for a refused file; 20 no book is loaded; 21 no such literal; 22 put
 * in now; 23 not put in; 24 contradictory; 25 buffer or run of entries too short; 26, 27 and 28 for a proof sheet (below).
 *
 * 24 is given to a verdict, where the literal's name, or a name that it reaches (below), has both literals in M, and
 * nowhere else. The other verdicts of a contradictory lesson are given. Its listing has the header `contradiction`, with
 * the lowest-numbered name that has both literals in M, and then a line for each name, with the word `contradictory`
 * where 24 would be given. The longest listing that calls can lead to has 6,209 bytes.
 *
 * A file of no bytes is a book of no names and no rules: it loads.
 *
 * Names that differ only in case are one name. The listing has the spelling of the line that declares it.
 *
 * mezhkura_size takes no desk. It says how many names, rules and body literals a file fills, and refuses exactly the
 * files that a load refuses, with the same number and line.
 *
 * mezhkura_preview_put_in and mezhkura_preview_take_out write the listing that would follow if the literal were put in or
 * taken out. They answer and write what the change on a copy of the desk and the listing of that copy give: 20, 21, then 22
 * (put in) or 23 (take out), then 25 where the buffer is shorter than the listing that would follow. The desk is not
 * changed. No preview is longer than the longest listing.
 *
 * mezhkura_working_order gives the names of the book in the order in which they can be settled. A name reaches itself
 * and every name in the bodies of the rules for either of its literals, and so on from there. Names that reach each
 * other form a group; a name alone is a group too. Whatever else a group reaches comes earlier, and of the groups that
 * may come next the one with the lowest name number comes. Inside a group names go by number. Facts don't change it.
 *
 * mezhkura_model_by_groups works out M and N group by group in that order. They are those of the whole book and the
 * facts put in. It reads the book and the facts, and not the model that stands in the lesson.
 *
 * mezhkura_check_sheet says whether a proof sheet shows a claim: that a literal is true, which is to lie in M, or that it is
 * false, which is to lie outside N. No matter who wrote the sheet, what is accepted is so. A sheet is a run of entries. A
 * "true" entry names a rule of its literal whose positive body literals are earlier "true" entries and whose "not" literals
 * are earlier "false" ones, or it names the literal put in as a fact. "False" entries side by side with one group number are
 * a group. No other group may have that number, and a group is judged whole: each rule of each literal in it, a fact put in
 * too, has its head's complement true before the group, or a body literal "not C" with C true before it, or a positive body
 * literal that is false before it or in the group. The numbers, in their order: 20 and 21 for the claim; 26 for no entries or
 * more than 512; 27 with the index of the first entry that does not follow; 28 where the claim is not among the entries. An
 * entry does not follow if it is of another kind, if the book does not have its literal (which stays in its group), if its
 * group has the number of an earlier one, if it is "true" and names no such rule, or if it is "false" with a rule left open.
 *
 * mezhkura_make_sheet writes a sheet for a claim, which the check accepts, to the first places of a lent run, and gives the
 * count of its entries, at most two per literal. The entries after them stay. The numbers, in their order: 20; 21; 28 where
 * the claim is not so; 25 where the run is shorter than two entries per literal, 4 * names. Which of the sheets for a claim
 * is written is the engine's choice. Both calls read the book and the facts, and not the marks that stand in the lesson; 24
 * never applies, and in a contradictory lesson both claims about a literal may be so.
 *
 * Every call runs on a stack of 512 KB.
 */
#ifndef MEZHKURA_H
#define MEZHKURA_H

#include <stddef.h>
#include <stdint.h>

#ifdef __cplusplus
extern "C" {
#endif

/* A set of literals: bit l % 64 of word l / 64 says whether l is a member. */
typedef struct {
    uint64_t words[4];
} mezhkura_litset;

/* How much a book has room for: names, rules, and body literals of all rules together. */
enum { MEZHKURA_MOST_NAMES = 128, MEZHKURA_MOST_RULES = 512, MEZHKURA_MOST_BODY_LITERALS = 2048 };

/* How many entries a proof sheet has room for: two per literal of the largest book. */
enum { MEZHKURA_MOST_SHEET = 4 * MEZHKURA_MOST_NAMES };

/* A loaded marking book. */
typedef struct {
    size_t names;
    size_t rules;
    uint8_t text[16 * MEZHKURA_MOST_NAMES];
    uint8_t lengths[MEZHKURA_MOST_NAMES];
    uint16_t heads[MEZHKURA_MOST_RULES];
    uint16_t starts[MEZHKURA_MOST_RULES + 1];
    uint16_t entries[MEZHKURA_MOST_BODY_LITERALS];
} mezhkura_book;

/* M, the literals that are true, and N, those that aren't false. It is written `struct mezhkura_model`, since
 * the name alone is that of the call.
 *
 * rounds: the least k with I(k) = I(k + 1), where I(0) is empty and I(k + 1) = Gamma(Gamma_s(I(k))). That I(k) is M.
 * It is never above the count of distinct heads of the rules and the facts put in. */
struct mezhkura_model {
    mezhkura_litset truths;
    mezhkura_litset nonfalse;
    size_t rounds;
};

/* The place of one book: 0 in `loaded` says that none is there. */
typedef struct {
    uint8_t loaded;
    mezhkura_book book;
} mezhkura_shelf;

/* What a lesson shows: M, N and the rounds, and both literals of each name of the book whose verdicts are refused by 24.
 * `contradictory` is empty where no name has both literals in M. */
typedef struct {
    struct mezhkura_model model;
    mezhkura_litset contradictory;
} mezhkura_marks;

/* A lesson beside a book: the facts put in, and the marks of the book with these facts. What stands in `marks` is the
 * engine's own: a caller who writes it gets the verdicts, the rounds and the refusals of what was written. */
typedef struct {
    mezhkura_litset facts;
    mezhkura_marks marks;
} mezhkura_lesson;

/* A desk: one book on its shelf and one lesson beside it. */
typedef struct {
    mezhkura_shelf shelf;
    mezhkura_lesson lesson;
} mezhkura_desk;

/* line: that of a refused file, 0 for the whole file. The figures of a refused file are 0. */
typedef struct {
    uint8_t number;
    size_t line;
    size_t names;
    size_t rules;
    size_t body_literals;
} mezhkura_size_reply;

/* line: that of a refused file, 0 for the whole file. desk: the desk after the call. */
typedef struct {
    uint8_t number;
    size_t line;
    mezhkura_desk desk;
} mezhkura_load_reply;

/* desk: the desk after the call. */
typedef struct {
    uint8_t number;
    mezhkura_desk desk;
} mezhkura_change_reply;

enum { MEZHKURA_FALSE = 0, MEZHKURA_TRUE = 1, MEZHKURA_UNDEFINED = 2 };

typedef struct {
    uint8_t number;
    uint8_t verdict;
} mezhkura_verdict_reply;

enum { MEZHKURA_T = 0, MEZHKURA_TU = 1 };

/* holds: 1 is yes, 0 is no. */
typedef struct {
    uint8_t number;
    uint8_t holds;
} mezhkura_search_reply;

/* M, N, 1 where the lesson is contradictory, and the rounds of `struct mezhkura_model`. A call that is turned down
 * gives empty sets and 0 rounds. */
typedef struct {
    uint8_t number;
    uint8_t contradictory;
    mezhkura_litset truths;
    mezhkura_litset nonfalse;
    size_t rounds;
} mezhkura_model_reply;

/* length: that of the listing which was written, 0 where the call is turned down. */
typedef struct {
    uint8_t number;
    size_t length;
} mezhkura_listing_reply;

/* The names of a book in working order. Place p has the name with number name[p], of the group with number group[p];
 * groups count from 0 in working order. Places from `names` on are 0. */
typedef struct {
    size_t names;
    size_t groups;
    uint16_t name[MEZHKURA_MOST_NAMES];
    uint16_t group[MEZHKURA_MOST_NAMES];
} mezhkura_order;

/* A call that is turned down has an order of zeros. */
typedef struct {
    uint8_t number;
    mezhkura_order order;
} mezhkura_order_reply;

/* M, N, and 1 where the lesson is contradictory. A call that is turned down gives empty sets. */
typedef struct {
    uint8_t number;
    uint8_t contradictory;
    mezhkura_litset truths;
    mezhkura_litset nonfalse;
} mezhkura_groups_reply;

/* kind: MEZHKURA_TRUE or MEZHKURA_FALSE; an entry of another kind never follows. rule: the number of a rule, counted from 0
 * in file order, or MEZHKURA_MOST_RULES + literal for the literal put in as a fact; read in "true" entries only. group: read
 * in "false" entries only. */
typedef struct {
    uint16_t kind;
    uint16_t literal;
    uint16_t rule;
    uint16_t group;
} mezhkura_sheet_entry;

/* index: that of the first entry which does not follow where the number is 27, and 0 with every other number. */
typedef struct {
    uint8_t number;
    size_t index;
} mezhkura_check_reply;

/* count: how many entries were written, 0 where the call is turned down. */
typedef struct {
    uint8_t number;
    size_t count;
} mezhkura_make_reply;

mezhkura_size_reply mezhkura_size(const uint8_t *file, size_t file_len);
/* Literal 2n is name n, and 2n + 1 its explicit negation ("shown not to be"). */
mezhkura_desk mezhkura_fresh(void);
mezhkura_load_reply mezhkura_load(mezhkura_desk desk, const uint8_t *file, size_t file_len);
mezhkura_change_reply mezhkura_put_in(mezhkura_desk desk, size_t literal);
mezhkura_change_reply mezhkura_take_out(mezhkura_desk desk, size_t literal);
mezhkura_verdict_reply mezhkura_verdict(mezhkura_desk desk, size_t literal);
/* is_default: 1 where `~` stands before the literal, else 0. tree: MEZHKURA_T or MEZHKURA_TU. */
mezhkura_search_reply mezhkura_search(mezhkura_desk desk, size_t literal, uint8_t is_default, uint8_t tree);
mezhkura_model_reply mezhkura_model(mezhkura_desk desk);
mezhkura_listing_reply mezhkura_listing(mezhkura_desk desk, uint8_t *buffer, size_t buffer_len);
mezhkura_listing_reply mezhkura_preview_put_in(mezhkura_desk desk, size_t literal, uint8_t *buffer, size_t buffer_len);
mezhkura_listing_reply mezhkura_preview_take_out(mezhkura_desk desk, size_t literal, uint8_t *buffer, size_t buffer_len);
mezhkura_order_reply mezhkura_working_order(mezhkura_desk desk);
mezhkura_groups_reply mezhkura_model_by_groups(mezhkura_desk desk);
/* truth: 0 where the claim is that the literal is false, any other number where it is that the literal is true. */
mezhkura_check_reply mezhkura_check_sheet(mezhkura_desk desk, size_t literal, uint8_t truth,
                                          const mezhkura_sheet_entry *entries, size_t length);
mezhkura_make_reply mezhkura_make_sheet(mezhkura_desk desk, size_t literal, uint8_t truth, mezhkura_sheet_entry *entries,
                                        size_t length);

#ifdef __cplusplus
}
#endif

#endif

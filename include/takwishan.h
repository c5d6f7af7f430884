/*
 * Takwishan for C: a union of conjunctive queries written for rules and question, or checked against them, answers drawn with it from
 * facts, an answer explained by the rules behind it, a member of a union shown, and two questions compared. Link with
 * target/lib/libtakwishan.a, which `make lib` writes (x86-64 Linux).
 *
 * A sheet or a tuple is a pointer and a length in bytes. The pointer must not be null and must be good for reading so many bytes, also
 * where the length is 0; nothing may write them during the call. What is lent for writing, a list, the steps or the union's sheet, must be
 * good for writing and must not overlap what is read. Every sheet of every length and every content is answered: none of these functions
 * fails, allocates, or keeps a pointer. They need less than one megabyte of stack and may be called from several threads at once.
 */
#ifndef TAKWISHAN_H
#define TAKWISHAN_H

#include <stddef.h>
#include <stdint.h>

#ifdef __cplusplus
extern "C" {
#endif

/* The version of header and library; CHANGELOG.md says what changed. */
#define TAKWISHAN_VERSION "0.13.0"

/* The longest sheets, in bytes; a longer one is refused. */
enum {
    TAKWISHAN_MOST_RULE_BYTES = 2048,     /* 512 records of 4 bytes */
    TAKWISHAN_MOST_QUESTION_BYTES = 61,   /* 1 byte, 4 answer terms of 3 bytes, 8 atoms of 6 bytes */
    TAKWISHAN_MOST_UNION_BYTES = 33282,   /* 2 bytes, 512 members of 4 bytes and a question */
    TAKWISHAN_MOST_FACT_BYTES = 60000     /* 10,000 facts of 6 bytes */
};

/* What a sheet may hold. */
enum {
    TAKWISHAN_MOST_RULES = 512,           /* as read: a kind 3 and its kind 4 count as three */
    TAKWISHAN_MOST_TERMS = 4,
    TAKWISHAN_MOST_ATOMS = 8,
    TAKWISHAN_MOST_VARIABLE = 31,
    TAKWISHAN_MOST_OBJECT = 65535,
    TAKWISHAN_MOST_MEMBERS = 512,
    TAKWISHAN_MOST_FACTS = 10000,
    TAKWISHAN_OBJECT_BYTES = 2            /* of an object in an answer list, high byte first */
};

/* Lost tags: gear without a tag is entered under these objects and those between. They may help a match and are in no answer. */
enum {
    TAKWISHAN_FIRST_LOST_TAG = 65024,
    TAKWISHAN_LAST_LOST_TAG = 65535
};

/*
 * Helpers: a rule of kind 3 and its kind 4 are read as three rules over a helper role. The first such pair of a sheet has role 4,095, the
 * next 4,094, and so on down. Members of a union may use them; as a role of a written rule, the question or a fact one is refused (18).
 */
enum {
    TAKWISHAN_FIRST_HELPER = 4095
};

/* What a renaming has in place of a target: no variable has this number. */
enum {
    TAKWISHAN_NO_TARGET = 32
};

/* An explanation: a member's parent is an earlier member and member 0 takes no place, so there are at most 511 steps. */
enum {
    TAKWISHAN_STEP_BYTES = 40,
    TAKWISHAN_MOST_STEPS = 511,
    TAKWISHAN_MOST_EXPLANATION_BYTES = 20440  /* room for every explanation */
};

/*
 * What is refused: the first entry whose condition holds decides, for the earlier ones not holding. The order is that of the numbers, but
 * 17 comes after 2, and 18 after 13 when drawing or explaining, after 11 when checking, and after 5 when writing a union. Explaining has
 * the refusals of drawing without 14, then 19 and 20. Of two questions that are compared the first is judged by 3 to 5 before the second.
 */
enum takwishan_number {
    /* Not refused. */
    TAKWISHAN_ACCEPTED = 0,
    /* The rule sheet's length is no multiple of 4 or exceeds 2,048 bytes. */
    TAKWISHAN_RULE_SHEET_LENGTH = 1,
    /* A rule has a kind or form not named above. (01 names kind 1 with forms 0 to 2, and kind 2 with left form 0 and right form 0 or 1. Of
     * kinds 3 and 4 this judges nothing: see 17.) */
    TAKWISHAN_NO_SUCH_RULE = 2,
    /* The question has a count out of range, a set bit that must be zero, a variable above 31, or a wrong length. */
    TAKWISHAN_QUESTION_MALFORMED = 3,
    /* An answer variable stands in no atom of the question. */
    TAKWISHAN_ANSWER_VARIABLE_NOWHERE = 4,
    /* The question, as read, has one atom twice. */
    TAKWISHAN_ATOM_TWICE = 5,
    /* The union's count is out of range, its bytes end early or run on, a member would meet 3, 4 or 5, or a member's answer-term count
     * differs from the question's. */
    TAKWISHAN_UNION_MALFORMED = 6,
    /* Member 0 has a nonzero step, or answer terms or atoms that differ from the question's in their order. */
    TAKWISHAN_FIRST_MEMBER_NOT_QUESTION = 7,
    /* A later member's step has kind 0 or 3, a parent not earlier, an index that doesn't exist, or doesn't apply. */
    TAKWISHAN_STEP_DOES_NOT_APPLY = 8,
    /* A step's result isn't alike to its member. */
    TAKWISHAN_STEP_GIVES_ANOTHER = 9,
    /* Two members are alike. */
    TAKWISHAN_MEMBERS_ALIKE = 10,
    /* A step from some member leads to no question alike to a member. */
    TAKWISHAN_UNION_OPEN = 11,
    /* The fact sheet's length is no multiple of 6 or exceeds 60,000 bytes. */
    TAKWISHAN_FACT_SHEET_LENGTH = 12,
    /* A fact has a set bit that must be zero. */
    TAKWISHAN_FACT_MALFORMED = 13,
    /* The answer list is shorter than 2 x terms x answers bytes. (Tuples that are left out for a lost tag take no room.) */
    TAKWISHAN_LIST_TOO_SHORT = 14,
    /* More than 512 unlike questions. (They are counted from the question on, by zero or more steps; only writing a union meets this.) */
    TAKWISHAN_TOO_MANY_QUESTIONS = 15,
    /* The lent sheet is shorter than the union. (Only writing a union meets this.) */
    TAKWISHAN_SHEET_TOO_SHORT = 16,
    /* A kind 3 without its kind 4, a kind 4 by itself, a form or zero field in either that isn't as said, or over 512 rules as read.
     * (Kind 3 has left form 0, 1 or 2 and right form 1 or 2; the next record is its kind 4, with left form 0 and zeros on the right.) */
    TAKWISHAN_PAIR_MALFORMED = 17,
    /* A helper number as a role in a written rule, the question or a fact. (Only helpers in use count; a concept of that number is no
     * clash, and members are not judged.) */
    TAKWISHAN_HELPER_AS_ROLE = 18,
    /* The tuple is no answer or has the wrong length. (Two bytes for each answer term; a tuple that holds a lost tag is no answer. Only
     * explaining meets this.) */
    TAKWISHAN_NO_ANSWER = 19,
    /* The list of steps is too short. (It has fewer than 40 bytes for each step. Only explaining meets this.) */
    TAKWISHAN_STEPS_TOO_SHORT = 20
};

/* What a call that draws answers gives beside the list. */
struct takwishan_answers {
    uint32_t number; /* 0, or the number of the refusal */
    uint64_t count;  /* how many answers the list has; 0 on a refusal */
};

/* What a call that writes a union gives beside the sheet. */
struct takwishan_written {
    uint32_t number; /* 0, or the number of the refusal */
    uint64_t count;  /* how many members the union has; 0 on a refusal */
    uint64_t length; /* how many bytes of the sheet the union takes; 0 on a refusal */
};

/* What a call that explains an answer gives beside the steps. */
struct takwishan_explained {
    uint32_t number; /* 0, or the number of the refusal */
    uint64_t count;  /* how many steps there are; 0 on a refusal, and where the question itself yields the tuple */
};

/* Where a part of a sheet begins, and how many bytes it has. */
struct takwishan_part {
    size_t start;
    size_t length;
};

/* What a call that compares two questions gives. */
struct takwishan_renaming {
    uint32_t number;     /* 0, or the number of the refusal */
    uint32_t found;      /* 1 if there is a renaming; 0 if there is none, and on a refusal */
    uint8_t targets[32]; /* where variable 0, 1, .., 31 of the first question goes, or TAKWISHAN_NO_TARGET */
};

/*
 * Checks a union against rules and question: the number of the first refusal of 1, 2, 17, 3 to 11 and 18 that applies, in this order, or 0
 * where the union is accepted. There are no facts here: where only a fact has a helper for its role this gives 0, and drawing gives 18.
 */
uint32_t takwishan_check(const uint8_t *rules, size_t rules_length, const uint8_t *question, size_t question_length,
                         const uint8_t *union_sheet, size_t union_length);

/*
 * Draws the answers into the list. Where the number is 0, the list holds `count` tuples, each with as many objects of two bytes as the
 * question has answer terms, ascending, each once: exactly those that facts and rules bear out and that hold no lost tag. The bytes after
 * them are zero. On a refusal, the first of 1, 2, 17, 3 to 13, 18 and 14 in this order, the count is 0 and the whole list is zeros. A lost
 * tag among the answer terms is no refusal: such a question has no answers.
 */
struct takwishan_answers takwishan_answer(const uint8_t *rules, size_t rules_length, const uint8_t *question, size_t question_length,
                                          const uint8_t *union_sheet, size_t union_length, const uint8_t *facts, size_t facts_length,
                                          uint8_t *list, size_t list_length);

/*
 * Explains an answer: which rules put it on the list. The tuple is packed as in the list, two bytes an object with the high byte first. The
 * lowest member that yields it from the facts alone stands in the first place of the steps, then its parent, and so on back to the member
 * whose parent is 0; member 0, the question itself, takes no place. A place has TAKWISHAN_STEP_BYTES bytes, each number with its high byte
 * first:
 *
 *     bytes 0 and 1   the member
 *     byte  2         kind: 1 for a rule used on an atom, 2 for two atoms merged
 *     bytes 3 and 4   the parent
 *     byte  5         the parent's atom
 *     bytes 6 and 7   other: the rule, counted among the rules as read, or the later atom
 *     bytes 8 to 39   the renaming from the step's result to the member as it stands: where variable 0, 1, .., 31 of the result goes, or
 *                     TAKWISHAN_NO_TARGET where the result has no such variable
 *
 * The first five are the member's own in the union. The result is what the step makes of the parent as it stands, named as takwishan_write
 * names it, and the renaming is the one that takwishan_rename gives. Taken from the last place to the first, each step applied to the
 * member before it, its result renamed and its atoms put in the member's order, they lead from the question to the member that yields the
 * tuple. The bytes after the steps are zero. On a refusal, the first of 1, 2, 17, 3 to 13, 18, 19 and 20 in this order, the count is 0 and
 * all lent bytes are zero. For a question without answer terms the tuple has 0 bytes. TAKWISHAN_MOST_EXPLANATION_BYTES are enough for every
 * explanation.
 */
struct takwishan_explained takwishan_explain(const uint8_t *rules, size_t rules_length, const uint8_t *question, size_t question_length,
                                             const uint8_t *union_sheet, size_t union_length, const uint8_t *facts, size_t facts_length,
                                             const uint8_t *tuple, size_t tuple_length, uint8_t *steps, size_t steps_length);

/*
 * Writes the union of rules and question into the lent sheet. Where the number is 0, the first `length` bytes of the sheet are a union of
 * `count` members that is accepted for these rules and this question. The bytes after them are zero and no part of it: hand on `length`,
 * not the length that was lent. Members are taken in index order; for each, atoms in order with rules in order, then pairs of atoms by the
 * earlier and then the later one; a result alike to no member so far is appended. On a refusal, the first of 1, 2, 17, 3 to 5, 18, 15 and
 * 16 in this order, count and length are 0 and the whole sheet is zeros. 15 comes before 16 whatever length was lent;
 * TAKWISHAN_MOST_UNION_BYTES are enough for every union.
 */
struct takwishan_written takwishan_write(const uint8_t *rules, size_t rules_length, const uint8_t *question, size_t question_length,
                                         uint8_t *sheet, size_t sheet_length);

/* The part of a union sheet that holds the question of a member, counted from 0. Its length is 0, and its start too, if the sheet meets 6
 * on its own (term counts being compared with member 0's) or has no such member. */
struct takwishan_part takwishan_member(const uint8_t *union_sheet, size_t union_length, size_t member);

/*
 * Compares two questions: whether they are alike, and by which names. A renaming goes from the first to the second. It gives each variable
 * of the first a variable of the second, no two the same one, so that the answer terms become the second's in their order, and the atoms
 * become its atoms in whatever order; objects stay what they are. Both are compared as read: driven by(x,y) is drives(y,x). Where there is
 * a renaming `found` is 1 and targets[v] is the variable that v goes to, or TAKWISHAN_NO_TARGET if v does not stand in the first question.
 * Of several it is the one whose list of targets, taken by rising v, is smallest. Where there is none `found` is 0 and every place is
 * TAKWISHAN_NO_TARGET; so it is on a refusal. Refusals are 3, 4 and 5 for the first sheet and then 3, 4 and 5 for the second, in this
 * order: 5 of the first comes before 3 of the second. The two sheets may be one.
 */
struct takwishan_renaming takwishan_rename(const uint8_t *first, size_t first_length, const uint8_t *second, size_t second_length);

#ifdef __cplusplus
}
#endif

#endif

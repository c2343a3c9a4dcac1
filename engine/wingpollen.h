/* wingpollen.h: every call that the game engine makes of the proved library, in plain C.

   THE ENGINE'S ONE DUTY: a slice that a call may write shares no byte with another slice of that call.
   A slice is a pointer and, behind it, how many bytes there are the caller's to lend for the time of the call;
   one that a call may write is the one whose pointer is not const. No call can see whether two slices overlap,
   so no call checks it. wingpollen.hpp keeps this duty for C++ programs.

   Nothing else is to be checked first. Any bytes, any lengths and any numbers may be handed in, f and the bench
   too: a call answers with the thing asked for (number 0, place 0) or with one refusal and its place, and always
   returns. An empty slice has any pointer but NULL; it is not followed.

   What is lent comes back like this:
     work     the first WP_WORK bytes are zero, the rest is untouched; with refusal 20 all of it is untouched
     out      the form, then the old rest; untouched on refusal
     list     what mending tells, then the old rest; untouched on refusal
     floor    an edit or undo writes four bytes, a put-back four for each record it takes out; untouched on refusal
     journal  an edit writes one record; an undo or put-back moves records down into the room of those it takes out,
              and the bytes past the last one stay; untouched on refusal
   A put-back that stops (43 or 27) is the one refusal that keeps what it did: floor, journal and f are where it
   stopped.

   The calls keep nothing between them, so threads may call at once, each with memory of its own to lend.
   TWO BENCHES AT ONE FLOOR TAKE TURNS: they share the floor, the journal and f, and what is lent to one call is not
   there to be lent to another. So no two calls that are lent that floor or that journal may run at once, whichever
   bench they are for, and those that only read are no exception: no query of a floor while the other bench paints it.
   And the f that a call answers is to be handed in with the next call of either bench.

   No call takes memory from the heap, and 16 KiB of stack are plenty (10 KiB measured, on a tree 64 steps deep).
   The numbers of the refusals and their places are those of documents 01 and 02; wingpollen.hpp has words for them. */
#ifndef WINGPOLLEN_H
#define WINGPOLLEN_H

#include <stddef.h>
#include <stdint.h>

/* Work memory that the calls over a floor ask for; what is always enough for a mended floor and for its list, whatever
   the floor (the largest tables that are accepted; every corner changed and every link lost), the first of them for a
   floor with its tree too, since no floor's fixed form is longer; bytes of a journal's record, the most records kept,
   and how many benches share them; the longest text; how many rooms a layout has at most. */
#define WP_WORK 65536u
#define WP_MENDED 737372u
#define WP_LIST 270336u
#define WP_RECORD 16u
#define WP_RECORDS 4096u
#define WP_BENCHES 2u
#define WP_TEXT 65536u
#define WP_ROOMS 64u

#ifdef __cplusplus
extern "C" {
#endif

/* The link check's answer. In every answer number is 0 or the refusal, and place is what that refusal points at. */
typedef struct wp_answer {
    uint32_t number;
    uint32_t place;
} wp_answer;

/* The reader's answer. The counts are 0 on refusal. */
typedef struct wp_floor {
    uint32_t number;
    uint32_t place;
    uint32_t faces;
    uint32_t walkable;
    uint32_t edges;
    uint32_t perimeters;
} wp_floor;

/* The answer of rewriting, and of giving a floor its tree: how many bytes of the output are the form, 0 on refusal. */
typedef struct wp_form {
    uint32_t number;
    uint32_t place;
    uint32_t length;
} wp_form;

/* The answer of mending: how many bytes of the output are the mended floor, and how many of the list tell what came of
   it. Both are 0 on refusal. */
typedef struct wp_mended {
    uint32_t number;
    uint32_t place;
    uint32_t length;
    uint32_t listed;
} wp_mended;

/* The query's answer: found is 1 if a face holds the point, and face is the lowest such face; else both are 0.
   visited is how many nodes of the tree were visited. */
typedef struct wp_point {
    uint32_t number;
    uint32_t place;
    uint32_t found;
    uint32_t face;
    uint32_t visited;
} wp_point;

/* The answer of every call with a journal. f is how many records are kept, those of both benches. */
typedef struct wp_session {
    uint32_t number;
    uint32_t place;
    uint32_t f;
} wp_session;

/* What a room sees: mark j of row is set if it sees room j. seen counts the marks. */
typedef struct wp_row {
    uint32_t number;
    uint32_t place;
    uint64_t row;
    uint32_t seen;
} wp_row;

/* Where a room's name stands: in the house text if house is 1, else in the visitor's. A caption has no place. */
typedef struct wp_caption_at {
    uint32_t number;
    uint32_t house;
    uint32_t start;
    uint32_t length;
} wp_caption_at;

/* Floors: read, rewritten in the fixed form, asked which face holds a point given in sixty-fourths. */
wp_floor wp_read(const uint8_t *bytes, size_t bytes_length, uint8_t *work, size_t work_length);
wp_form wp_rewrite(const uint8_t *bytes, size_t bytes_length, uint8_t *work, size_t work_length,
                   uint8_t *out, size_t out_length);
wp_point wp_query(const uint8_t *bytes, size_t bytes_length, uint8_t *work, size_t work_length,
                  int32_t x, int32_t y);

/* A floor with split seams mended. Every corner becomes the lowest vertex with equal coordinates (-0 is 0), and adjacency,
   edges and perimeters are worked out afresh: those of the floor handed in may be wrong, 16 to 19 are not asked. An edge
   keeps its transition if its half-edge had just one entry with a transition from -1 to 63; else it leads nowhere.
   All else stays. The mended floor is written to out, in the fixed form; it is accepted, and mending it again writes the
   same bytes and an empty list. The list has records like a journal's, but of no bench: a tag, a length in two bytes, and
   numbers of four bytes, the lowest byte first. First, by place, 15 bytes for each corner changed: 1, 12, then
   3 * face + corner, old vertex, new vertex. Then, in order, 7 bytes for each half-edge that led to a room and no longer
   does: 2, 4, half-edge. A floor that the changed corners would make wrong is refused with 8 or 15; 40 means that out or
   list is too short. */
wp_mended wp_mend(const uint8_t *bytes, size_t bytes_length, uint8_t *work, size_t work_length,
                  uint8_t *out, size_t out_length, uint8_t *list, size_t list_length);

/* A floor without nodes given its tree. Faces stand in it in number order: a range of them is cut in half, the lower half,
   rounded down, on the left, and one face is a leaf; nodes are numbered parent, left subtree, right subtree. Boxes are as
   tight as can be and have no -0. A plane is 1, 2 or 3, the axis of the box's longest side by float subtraction, the first
   on a tie; an infinite side is longest. The unknown number is 4 in every node; the root is 0, whatever was handed in.
   All else stays. The floor with its tree is written to out, in the fixed form; it is accepted, and no leaf is more than
   12 steps down. A floor without faces gets no nodes. The refusals in their order: 20, 1 to 10, 49 (place 100) if the floor
   has nodes, 15 to 19, and 40 if out is too short; 11 to 14 are not asked. Nodes that are there are read by 4 to 7 before
   49 refuses them; whether they are right is not asked. So the call refuses its own result with 49, but for one without
   faces, which it writes again as it is. */
wp_form wp_tree(const uint8_t *bytes, size_t bytes_length, uint8_t *work, size_t work_length,
                uint8_t *out, size_t out_length);

/* Edits by bench 0 or 1, each of which may hold half of the records that fit into the journal. A nudge's place is 0 to
   11, one of the floats of the use positions; its step is in sixty-fourths. Two edits, of one bench or of both, that
   differ in call or place, each accepted on the same floor with journal room for both, leave the same floor in either
   order. Of two paints of one face, or two links of one entry, the later counts; two nudges of one place add up. */
wp_session wp_paint(uint8_t *floor, size_t floor_length, uint8_t *journal, size_t journal_length,
                    uint32_t f, uint32_t bench, uint32_t face, uint32_t material);
wp_session wp_link(uint8_t *floor, size_t floor_length, uint8_t *journal, size_t journal_length,
                   uint32_t f, uint32_t bench, uint32_t entry, int32_t transition);
wp_session wp_nudge(uint8_t *floor, size_t floor_length, uint8_t *journal, size_t journal_length,
                    uint32_t f, uint32_t bench, uint32_t place, int32_t step);

/* The bench's latest edit undone, and all its edits put back, as far as the other bench has not changed the same places
   since (43). Neither takes out a record of the other bench. */
wp_session wp_undo(uint8_t *floor, size_t floor_length, uint8_t *journal, size_t journal_length,
                   uint32_t f, uint32_t bench);
wp_session wp_put_back(uint8_t *floor, size_t floor_length, uint8_t *journal, size_t journal_length,
                       uint32_t f, uint32_t bench);

/* Layout texts (LYT) in their fixed form, as they are or with one room renamed: names in lower case, and every number
   with the digits typed after its point. Door hooks are kept: a room of the layout, a door, seven numbers or twelve. At
   most 64 hooks, no door twice in any letters (37, by the line), and a room that the layout has (39); a door may have a
   room's name. Renaming a room renames it in its hooks too, and nothing else; a name that only doors have is free. No
   layout's form is longer than 24,340 bytes. A typed name makes no line: the form has the lines of the plain form and
   differs from it in those alone that hold the room's name. A name with a line break is no name (34). */
wp_form wp_layout_rewrite(const uint8_t *text, size_t text_length, uint8_t *out, size_t out_length);
wp_form wp_layout_rename(const uint8_t *text, size_t text_length, uint32_t room,
                         const uint8_t *name, size_t name_length, uint8_t *out, size_t out_length);

/* Sight texts (VIS), each read with its layout. A sight text with a room renamed belongs to the layout with the
   same room renamed. A row asked of no room is empty and no refusal. */
wp_form wp_sight_rewrite(const uint8_t *layout, size_t layout_length, const uint8_t *vis, size_t vis_length,
                         uint8_t *out, size_t out_length);
wp_form wp_sight_rename(const uint8_t *layout, size_t layout_length, const uint8_t *vis, size_t vis_length,
                        uint32_t room, const uint8_t *name, size_t name_length, uint8_t *out, size_t out_length);
wp_row wp_sight_row(const uint8_t *layout, size_t layout_length, const uint8_t *vis, size_t vis_length,
                    uint32_t room);

/* Whether every transition of a floor leads to a room of the layout. */
wp_answer wp_link_check(const uint8_t *bytes, size_t bytes_length, uint8_t *work, size_t work_length,
                        const uint8_t *layout, size_t layout_length);

/* Room's name as typed: a part of the visitor's text, otherwise of the house text; else 41 and the empty start. It is at
   most 16 bytes long, each a letter, a digit or an underscore. Between two layouts that are alike but for one room's name,
   there and in its hooks, every other room's caption has the same bytes, wherever they stand. Every link check is the same
   too, and, with sight texts alike but for that name, every row. */
wp_caption_at wp_caption(const uint8_t *visitor, size_t visitor_length, const uint8_t *house, size_t house_length,
                         uint32_t room);

#ifdef __cplusplus
}
#endif

#endif

/* The check of load factor certificates on quadrilateral soil meshes, for C.

   One archive has every call: target/staticlib/libpechuvo.a, which tests/archive builds from
   crates/pechuvo_c; 'make install' puts it, a shared library and this header where a compiler finds
   them. Of other libraries it takes memcpy and memset.

   The columns of the files, and which row, column or line is whose: docs/FILES.md of the repository,
   share/doc/pechuvo/FILES.md where it is installed. tools/explain.py of the repository says why a claim
   is refused, in words and figures.

   The calls take every input, whatever its bytes or numbers, and answer in bounded time. They
   read only what is lent, keep nothing from call to call, allocate nothing and write nothing but
   reports, so calls in several threads do not disturb each other.

   What the caller sees to:
   - Each pointer goes with the length of what it points to, in elements. A length of 0 goes with
     any pointer; nothing is read or written through it.
   - Numbers are aligned as int64_t is.
   - 68 KiB of the thread's stack are left for the call: its arrays are there.
   - The report buffer overlaps no input, and nothing else writes to the inputs or touches the buffer
     during the call. The inputs may overlap.

   What no answer says:
   - An outer side without an edge line may carry anything. A forgotten line for a free surface raises
     the load and is accepted: 55.85 instead of 50.09 on a small footing. tools/explain.py warns of each
     such side.
   - A load is a load of its mesh: rows balance each element as a whole, so it is no strict bound for
     the ground.

   What is returned as number and place:

     number  place     when
      0      0         accepted: each part that the claim has passes its checks
      1      line      mesh or table form: length, character, spelling, bytes missing or left over
      2      line      mesh or table number outside its limits; a soil of kind 1 on a mesh with 108 sides
      3      line      p^2 + q^2 is not h^2
      4      line      names a node or soil that isn't there
     46      line      table: the first whose top isn't above its bottom; if there is none, the first
                       that shares a height of the mesh with an earlier one
     45      height    table: the lowest height of the mesh in no layer, in quarters of a unit
      5      element   not a left turn at all corners: four, or three of a triangle
      6      element   a directed side that a lower element has
      7      node      in no element
     47      element   shares a point inside both with a lower element; touching is fine
      8      line      edge is no element's side, or its reverse is one, or an earlier edge has it
     44      line      jump: its two sides are not outer sides that face each other, or one is used
                       by an edge or an earlier jump
     42      node      brings the 101st pair of a node and a soil of the elements around it, or
                       the 41st on a mesh with 108 sides
     11      line      claim form
     12      line      claim number outside its limits
     13      line 1    both parts absent; field with n = 0; no field and n or l not 0
     21      row       equality fails (balance, side and jump rows, counted together from 1)
     22      row       strength fails (strength rows, counted from 1, by pairs)
     31      row       nonzero multiplier on an unfixed row
     32      column    column sum not 0
     33      column 0  m is 0 or less
     41      0         report buffer under 113 bytes; pechuvo_check only
     43      0         number of decimals other than 0 to 7; pechuvo_check only
     48      0         the book takes no such call; the two calls of a book only, before all else
     49      0         no next strength; pechuvo_next_strength only

   The first that applies is returned, in this order: 43; 41; the mesh's lines front to back, in
   each line 1, 2, 3, 4; the table's lines front to back, in each line 1, 2, 4; then 46 and 45; then
   5, 6, 7, 47, 8, 44 and 42, each over the whole mesh; the claim's lines front to back, in each line
   11, 12, and 13 straight after line 1; then 21, 22, 31, 32 and 33. Of one number the lowest place
   comes first. Lines, elements, nodes, rows and columns are counted from 1, the table's lines from 1,001.

   A node makes a pair with each soil of the elements around it. Pairs are numbered from 1, nodes
   ascending and at a node soils ascending; a mesh has at most 100. A claim's strength multipliers
   are a line for each pair, and the strength row of side k of pair a is (a - 1) * sides + k.

   A soil's line ends with a kind and cv, 0 to 10,000. Kind 0 has one cohesion, and cv is not read.
   Kind 1 is ground that is stronger one way: its cohesion is ch along level beds (the line's fourth
   number) and cv across them. A pair of such a soil has as many rows as any other. Corner j of the
   polygon, from 1 to sides / 2, the first being (r, 0), is (a, b), and rows 2j - 1 and 2j of the pair
   are p*N + q*T and p*N - q*T, each at most q*n*(r^2*ch + (cv - ch)*a^2), where
   N = a^2*sx + 2ab*t + b^2*sy and T = ab*(sy - sx) + (a^2 - b^2)*t: the strength of the plane with the
   normal (a, b)/r, in both senses of shear. No other plane is looked at, so a field that meets these
   rows may lie outside the criterion. On a mesh that lists a soil of kind 1, whether an element has it
   or not, no carried load is told: the report's lower load reads none, and a book takes none from it.
   The limit and the open rows keep their meaning, against these rows.

   A mesh has 12, 20, 36 or 108 sides. With 108 it has at most 40 nodes (2, line 1) and 40 pairs
   (42), and its strength multipliers are at most 300 (12), not 10,000.

   The mesh's header has six columns, the sixth its number of jumps, 0 to 60; a line for each
   follows the edges: from and to on one side of a joint, then the two facing nodes in the same
   order. Its four rows follow those of the edges, in an edge's order, and so does its line of four
   multipliers.

   Every call that takes a mesh takes a borehole table right after it: 1 to 32 lines, each a layer's
   bottom and top (-1,000 to 2,000) and its soil. An empty one, of length 0, is no table. Where there
   is a table, an element whose soil is 0 has the soil of the layer with bottom <= height < top, its
   height being the mean of its four corners' y, a repeated corner counted twice. The heights of a
   mesh are the quarters of a unit from its lowest node to its highest, both counted; a height's place
   is counted in quarters from 0. Layers that overlap or leave a gap outside of these heights pass. A
   table is judged even where no element has soil 0. */
#ifndef PECHUVO_H
#define PECHUVO_H

#include <stddef.h>
#include <stdint.h>

#ifdef __cplusplus
extern "C" {
#endif

/* The version of this header and of the archive that goes with it; the shared library's name has its first figure. */
#define PECHUVO_VERSION_MAJOR 1
#define PECHUVO_VERSION_MINOR 0
#define PECHUVO_VERSION_PATCH 0
#define PECHUVO_VERSION "1.0.0"

/* The bytes of a report line. */
#define PECHUVO_REPORT 113

/* The most decimals, and those that pechuvo_check_run writes. */
#define PECHUVO_MOST_DECIMALS 7
#define PECHUVO_USUAL_DECIMALS 6

/* The most of each that passes. With 108 sides, the most there are, fewer nodes and pairs pass. */
#define PECHUVO_MOST_NODES 100
#define PECHUVO_MOST_ELEMENTS 100
#define PECHUVO_MOST_SOILS 16
#define PECHUVO_MOST_EDGES 60
#define PECHUVO_MOST_JUMPS 60
#define PECHUVO_MOST_PAIRS 100
#define PECHUVO_MOST_LAYERS 32
#define PECHUVO_MOST_SIDES 108
#define PECHUVO_MOST_NODES_WITH_108 40
#define PECHUVO_MOST_PAIRS_WITH_108 40

/* The first line of a table, as a place. */
#define PECHUVO_TABLE_LINE 1001

/* No mesh, table or claim that is accepted has more numbers, and no such file has more bytes: what follows from the
   limits above, 12 bytes a number and 1 a line. (A claim has the most with 108 sides.) */
#define PECHUVO_MOST_MESH_NUMBERS 1526
#define PECHUVO_MOST_TABLE_NUMBERS 96
#define PECHUVO_MOST_CLAIM_NUMBERS 5124
#define PECHUVO_MOST_MESH_BYTES 18649
#define PECHUVO_MOST_TABLE_BYTES 1184
#define PECHUVO_MOST_CLAIM_BYTES 61789

/* A book with so many commits takes no more. */
#define PECHUVO_MOST_COMMITS 1000000

/* What is returned as number. */
enum pechuvo_number {
  PECHUVO_ACCEPTED = 0,
  PECHUVO_MESH_FORM = 1,
  PECHUVO_MESH_LIMIT = 2,
  PECHUVO_NO_RIGHT_ANGLE = 3,
  PECHUVO_UNKNOWN_NAME = 4,
  PECHUVO_NO_LEFT_TURN = 5,
  PECHUVO_SIDE_TWICE = 6,
  PECHUVO_NODE_UNUSED = 7,
  PECHUVO_WRONG_EDGE = 8,
  PECHUVO_CLAIM_FORM = 11,
  PECHUVO_CLAIM_LIMIT = 12,
  PECHUVO_WRONG_PARTS = 13,
  PECHUVO_EQUALITY_FAILS = 21,
  PECHUVO_STRENGTH_FAILS = 22,
  PECHUVO_UNFIXED_MULTIPLIER = 31,
  PECHUVO_COLUMN_SUM = 32,
  PECHUVO_LOAD_SUM = 33,
  PECHUVO_SHORT_BUFFER = 41,
  PECHUVO_TOO_MANY_PAIRS = 42,
  PECHUVO_WRONG_DECIMALS = 43,
  PECHUVO_WRONG_JUMP = 44,
  PECHUVO_LAYER_MISSING = 45,
  PECHUVO_WRONG_LAYER = 46,
  PECHUVO_ELEMENTS_OVERLAP = 47,
  PECHUVO_BOOK_TAKES_NONE = 48,
  PECHUVO_NO_NEXT_STRENGTH = 49
};

/* What a place counts. */
enum pechuvo_kind {
  PECHUVO_KIND_NONE,
  PECHUVO_KIND_LINE,
  PECHUVO_KIND_HEIGHT,
  PECHUVO_KIND_ELEMENT,
  PECHUVO_KIND_NODE,
  PECHUVO_KIND_ROW,
  PECHUVO_KIND_COLUMN
};

/* What the place beside this number counts. */
static inline enum pechuvo_kind pechuvo_kind_of(uint32_t number) {
  switch (number) {
  case PECHUVO_MESH_FORM:
  case PECHUVO_MESH_LIMIT:
  case PECHUVO_NO_RIGHT_ANGLE:
  case PECHUVO_UNKNOWN_NAME:
  case PECHUVO_WRONG_EDGE:
  case PECHUVO_CLAIM_FORM:
  case PECHUVO_CLAIM_LIMIT:
  case PECHUVO_WRONG_PARTS:
  case PECHUVO_WRONG_JUMP:
  case PECHUVO_WRONG_LAYER:
    return PECHUVO_KIND_LINE;
  case PECHUVO_LAYER_MISSING:
    return PECHUVO_KIND_HEIGHT;
  case PECHUVO_NO_LEFT_TURN:
  case PECHUVO_SIDE_TWICE:
  case PECHUVO_ELEMENTS_OVERLAP:
    return PECHUVO_KIND_ELEMENT;
  case PECHUVO_NODE_UNUSED:
  case PECHUVO_TOO_MANY_PAIRS:
    return PECHUVO_KIND_NODE;
  case PECHUVO_EQUALITY_FAILS:
  case PECHUVO_STRENGTH_FAILS:
  case PECHUVO_UNFIXED_MULTIPLIER:
    return PECHUVO_KIND_ROW;
  case PECHUVO_COLUMN_SUM:
  case PECHUVO_LOAD_SUM:
    return PECHUVO_KIND_COLUMN;
  default:
    return PECHUVO_KIND_NONE;
  }
}

struct pechuvo_answer {
  uint32_t number; /* of enum pechuvo_number */
  uint32_t place;
};

/* Checks a mesh file, a table file and a claim file. The first 113 bytes of the report buffer become the report:
   four columns of 28 bytes, right-justified in spaces, and byte 10; no other byte of it is written.
   Accepted: 0, the open rows, the load l/n rounded down, the limit W/m rounded up, each with as
   many decimals as are asked for, 0 to 7, and no point at 0; each is off by less than one in its
   last place; `none` for what the claim lacks, and for l/n on a mesh that lists a soil of kind 1.
   Refused: number, place, none, none. With another number of decimals, or under 113 bytes, the buffer
   is left untouched. */
struct pechuvo_answer pechuvo_check(const uint8_t *mesh, size_t mesh_length,
                                    const uint8_t *table, size_t table_length,
                                    const uint8_t *claim, size_t claim_length,
                                    int64_t decimals,
                                    uint8_t *report, size_t report_length);

struct pechuvo_run {
  uint64_t reports; /* reports written */
  uint64_t bytes;   /* claim bytes taken */
};

/* Checks claims for one mesh and its table, written one after another with nothing between, and writes their
   reports in turn, each as pechuvo_check writes it with six decimals: report i stands at byte
   113 * i of the buffer, and no byte after the last is written. Mesh and table are read and judged
   once. A claim has as many bytes as its header and the mesh say; where fewer are left it is judged
   on those.
   At each step, in this order:
   - The buffer lacks 113 bytes for the next report: the run ends. There is no 41.
   - The mesh or its table is refused: the report is written once, no claim is taken, and the run ends.
   - No claim byte is left: the run ends.
   - Else the next claim is judged and its report written. Refused with 11, 12 or 13 it ends the
     run, and its bytes are not taken; else they are, and the run goes on. */
struct pechuvo_run pechuvo_check_run(const uint8_t *mesh, size_t mesh_length,
                                     const uint8_t *table, size_t table_length,
                                     const uint8_t *claims, size_t claims_length,
                                     uint8_t *reports, size_t reports_length);

/* What a mesh asks room for. All sizes are 0 where number is not 0. */
struct pechuvo_sizes {
  uint32_t number; /* 0, or the refusal of the mesh or its table with its place */
  uint32_t place;
  uint64_t balance_rows; /* rows of each kind, unfixed ones counted */
  uint64_t side_rows;
  uint64_t jump_rows;
  uint64_t strength_rows;
  uint64_t columns;           /* three for each node */
  uint64_t field_bytes;       /* of a claim file with a field alone */
  uint64_t multipliers_bytes; /* with multipliers alone */
  uint64_t both_bytes;        /* with both */
};

/* The sizes of a mesh file with a table, from these alone, for a caller who lends buffers. Every claim
   file that passes 11, 12 and 13 has exactly the length said for its kind. */
struct pechuvo_sizes pechuvo_mesh_sizes(const uint8_t *mesh, size_t mesh_length,
                                        const uint8_t *table, size_t table_length);

/* A book of the best bracket of the claims for one mesh: the highest carried load, the lowest limit,
   each as an exact fraction and not reduced, and how many accepted claims were committed. A book of
   zeros is empty. A bound is there unless its first field, lower_there or upper_there, is 0; a book
   that follows an accepted claim has 1 there, and zeros for a bound that it has not. */
struct pechuvo_book {
  uint32_t lower_there;
  uint32_t upper_there;
  int64_t lower_numerator;
  int64_t lower_denominator;
  int64_t upper_numerator;
  int64_t upper_denominator;
  uint64_t count;
};

struct pechuvo_book_answer {
  uint32_t number;
  uint32_t place;
  struct pechuvo_book book;
};

/* Judges a claim file on a mesh file and a table file and tells the book that would follow. An
   accepted claim moves each bound only if its own is strictly better, any is better than none, and
   adds one to the count; at a refused one the book comes back as it was. 48, place 0: the count is
   1,000,000 or more, or a bound that is there has a denominator not above 0; then the claim is not
   judged, and the book comes back as it was. On a mesh that lists a soil of kind 1 a claim moves no
   lower bound. No report is written. */
struct pechuvo_book_answer pechuvo_book_ask(struct pechuvo_book book,
                                            const uint8_t *mesh, size_t mesh_length,
                                            const uint8_t *table, size_t table_length,
                                            const uint8_t *claim, size_t claim_length);

/* The same, and the book that comes back is the next one to hand over. The count is the one that the
   ask saw; 48 also where it is not the book's. */
struct pechuvo_book_answer pechuvo_book_commit(struct pechuvo_book book, uint64_t count,
                                               const uint8_t *mesh, size_t mesh_length,
                                               const uint8_t *table, size_t table_length,
                                               const uint8_t *claim, size_t claim_length);

/* The loads of an accepted claim as exact fractions, l/n and w/m, as they stand and not reduced. */
struct pechuvo_numbers {
  uint32_t number;
  uint32_t place;
  uint32_t field;       /* 1 where an accepted claim has a field, else 0 */
  uint32_t multipliers; /* 1 where an accepted claim has multipliers, else 0 */
  int64_t l;            /* l and n: 0 unless field is 1, and 0 on a mesh that lists a soil of kind 1 */
  int64_t n;
  int64_t w;            /* w and m: 0 unless multipliers is 1 */
  int64_t m;
  uint64_t open_rows;   /* 0 unless both are 1 */
};

/* Checks the numbers of a mesh, of a table and of a claim, each list in the order of the file, line
   after line as docs/FILES.md has them; an empty list is no table. They get the refusals that
   files of them would get: 1 and 11 come from a list that is too short or too long, at the line where
   that shows. */
struct pechuvo_numbers pechuvo_check_numbers(const int64_t *mesh, size_t mesh_count,
                                             const int64_t *table, size_t table_count,
                                             const int64_t *claim, size_t claim_count);

struct pechuvo_next {
  uint32_t number; /* 0 or 49 */
  uint32_t place;  /* 0 */
  double strength; /* 0 unless number is 0 */
};

/* The next strength to try, by the hyperbola through two trials: strength k1 with the load factor
   l1, and k2 with l2. From left to right (1-l2)*l1*k1, then (1-l1)*l2*k2, their difference, then
   divided by (l1-l2), each operation rounded once, to nearest and at a tie to even, in binary64.
   Where all four are whole 64ths above 0 and up to 16, the division is the only rounding. Refused:
   49, place 0, when an input is not finite and above 0, when l1 = l2, or when the result is not
   finite and above 0. It reads no mesh and no claim, and no check reads it. The processor rounds
   to nearest and flushes no subnormal to zero, as C programs have it unless they change it. */
struct pechuvo_next pechuvo_next_strength(double k1, double l1, double k2, double l2);

#ifdef __cplusplus
}
#endif

#endif

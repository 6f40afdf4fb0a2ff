/*
 * cundzeli.h: the register pass `build_initial_vregs`, the cut finder `find_optimal_split_point`, and what would move a
 * cut, `find_cut_moves`, proved in Rattle, for C99 and C++.
 *
 * `tools/archives.sh`, at the top of the repository, writes target/staticlib/libbuild.a, libfind_cut.a and
 * libcut_moves.a, one for each function. They link into x86-64 Linux programs and call nothing but memcpy and memset.
 * docs/TABLES.md has every table with a worked example, docs/SHEETS.md says what the fields mean, and
 * include/example.c is a whole program.
 *
 * This holds of all three:
 *
 * - Any bytes and any numbers are taken. What is not in order is refused by a number, and nothing else happens.
 * - A slice is an address and a length in bytes: so many bytes lie there. An address is not NULL, even where the
 *   length is 0. No alignment is asked.
 * - Slices do not overlap: what is written (`out`, `list`, `work`) shares no byte with any other slice of the call. The
 *   proofs are about separate tables, and nothing is said of others.
 * - No global state, no heap, no pointer kept, no callback, no input or output, no errno. Threads may call at once
 *   without a lock, each with an `out` or `list` and a `work` of its own; what is only read they may share.
 * - Running out of stack is the one thing that no number is given for: CUNDZELI_BUILD_STACK, CUNDZELI_CUT_STACK,
 *   CUNDZELI_MOVES_STACK.
 */
#ifndef CUNDZELI_H
#define CUNDZELI_H

#include <stddef.h>
#include <stdint.h>
#include <string.h>

#ifdef __cplusplus
extern "C" {
#define CUNDZELI_RESTRICT
#else
#define CUNDZELI_RESTRICT restrict
#endif

/* --------------------------------------------------------------------------------- the three functions */

/*
 * The bytes of work space that a call is lent. What it holds before does not matter, and one serves any number of
 * calls. What the builder and `find_cut_moves` leave in it is not said.
 */
#define CUNDZELI_BUILD_WORK 110600
#define CUNDZELI_CUT_WORK 4104
#define CUNDZELI_MOVES_WORK 4104

/*
 * The bytes of free stack that are enough for a call. The builder's go by the class uses (kinds 4 to 7) of the set
 * that has most; for every job 1,589,248, so a thread of 2 MB will do. Measured, not proved: include/stack.c does it
 * anew, and docs/TABLES.md has what was seen.
 */
#define CUNDZELI_BUILD_STACK(class_uses) (16384 + 384 * (size_t)(class_uses))
#define CUNDZELI_CUT_STACK 4096
#define CUNDZELI_MOVES_STACK 4096

/* Number 0 and how many registers and groups there are; or a refusal's number (enum cundzeli_number), and zeros. */
struct cundzeli_end {
    uint32_t number;
    uint32_t registers;
    uint32_t groups;
};

/* Number 0 and an instruction; or a refusal's number, and 0. */
struct cundzeli_cut {
    uint32_t number;
    uint32_t inst;
};

/* Number 0 and how many rows the list has; or a refusal's number, and 0. */
struct cundzeli_moves {
    uint32_t number;
    uint32_t count;
};

/*
 * Builds the virtual registers of a binary job, into tables that the caller lends.
 *
 * Reads:  `job`, `job_length` bytes. They stay as they are, and may lie in memory that can't be written.
 * Writes: `out`, all `out_length` bytes, whatever they held. It is cut from the front into four tables, with as many
 *         rows as are named: `registers`, `segments`, `uses`, `groups`. Where it is too short, a table has as many
 *         whole rows as are left for it. Behind the last row of each table, and behind the tables, all is zero.
 * Refuses by 1 to 9. Then all of `out` is zero, and so are the counts.
 *
 * cundzeli_rows_for_job names rows that are never too few where the usual ones are enough.
 */
struct cundzeli_end build_initial_vregs(
    const uint8_t *CUNDZELI_RESTRICT job, size_t job_length,
    uint8_t *CUNDZELI_RESTRICT out, size_t out_length,
    uint32_t registers, uint32_t segments, uint32_t uses, uint32_t groups,
    uint8_t *CUNDZELI_RESTRICT work /* CUNDZELI_BUILD_WORK bytes */);

enum cundzeli_side { CUNDZELI_SIDE_EARLY = 0, CUNDZELI_SIDE_LATE = 1 };

/*
 * Finds the instruction before which a cut between the instructions `after` and `before` is best made. Early: among
 * `after` + 1 and the block starts above it up to `before`, the earliest whose block frequency is least. Late: among
 * `before` and the block ends (the instruction after the last) from `after` + 1 to it, the latest whose preceding
 * instruction's block frequency is least.
 *
 * Reads:  `blocks`, `length` bytes: CUNDZELI_BLOCK_ROW words for each block of the function, in order.
 * Writes: nothing but `work`.
 * Refuses by 1 (a side off its list, bytes that are no whole rows, no block), 2 (more than 512 blocks or 4,096
 *         instructions) or 4 (a block empty or of bad frequency; ends not after < before < instructions), the lowest
 *         that applies. Then `work` is as it was, and `inst` is 0.
 */
struct cundzeli_cut find_optimal_split_point(
    const uint8_t *CUNDZELI_RESTRICT blocks, size_t length,
    uint32_t after, uint32_t before, uint32_t side,
    uint8_t *CUNDZELI_RESTRICT work /* CUNDZELI_CUT_WORK bytes */);

/*
 * Names each block whose frequency by itself could move the cut that find_optimal_split_point answers to the same
 * blocks, ends and side, with the way that it has to go and the fewest steps: the difference of its bits and those of
 * the nearest frequency at which another instruction is answered. A block that is not named can't, by any finite
 * frequency from zero up; a list without rows says so of all blocks.
 *
 * Reads:  `blocks`, `blocks_length` bytes, as find_optimal_split_point does.
 * Writes: `list`, all `list_length` bytes, whatever they held: rows of CUNDZELI_MOVES_ROW words from the front, by
 *         rising steps, equal ones by rising block, and zeros behind the last. And `work`.
 * Refuses by 1, 2 and 4 exactly where find_optimal_split_point does, then by 9 if the list has fewer whole rows than
 *         there are blocks (cundzeli_list_bytes). Then all of `list` is zero, and so is the count.
 */
struct cundzeli_moves find_cut_moves(
    const uint8_t *CUNDZELI_RESTRICT blocks, size_t blocks_length,
    uint32_t after, uint32_t before, uint32_t side,
    uint8_t *CUNDZELI_RESTRICT list, size_t list_length,
    uint8_t *CUNDZELI_RESTRICT work /* CUNDZELI_MOVES_WORK bytes */);

/*
 * The refusals. Tests 1 to 7 are taken by number, lowest first; 8 and 9 come as they are met while registers are
 * placed, 8 if one register meets both. cundzeli_cause has the words of the definition for each. In find_cut_moves 9 is
 * tested last, before anything is looked for.
 */
enum cundzeli_number {
    CUNDZELI_OK = 0,
    CUNDZELI_NOT_A_RECORD = 1, /* the form of the job: see docs/TABLES.md */
    CUNDZELI_OVER_A_LIMIT = 2, /* counts, k */
    CUNDZELI_BAD_BOOK = 3,     /* banks, classes, scales; the bank of a value */
    CUNDZELI_BAD_FUNCTION = 4, /* blocks, leaders, vgroups, operands; the ends of a cut */
    CUNDZELI_BAD_HINT = 5,
    CUNDZELI_BAD_SEGMENT = 6,
    CUNDZELI_BAD_USE = 7,
    CUNDZELI_STOPPED = 8,      /* the pass has no answer for the job */
    CUNDZELI_FULL = 9          /* too few rows in a table of `out`, or in a list of moves */
};

/* --------------------------------------------------------------------------------- the limits of a job */

#define CUNDZELI_MOST_INSTS 4096
#define CUNDZELI_MOST_BANKS 8
#define CUNDZELI_MOST_CLASSES 32
#define CUNDZELI_MOST_REGS 256
#define CUNDZELI_MOST_BLOCKS 512
#define CUNDZELI_MOST_VALUES 1024
#define CUNDZELI_MOST_VGROUPS 256
#define CUNDZELI_MOST_OPERANDS 1024
#define CUNDZELI_MOST_HINTS 1024
#define CUNDZELI_MOST_SEGMENTS 1024
#define CUNDZELI_MOST_USES 4096
#define CUNDZELI_MOST_K 65535

/* ---------------------------------------------------------------------------------------- a binary job */

/*
 * Little-endian words of 32 bits; floats as their bits. A header of CUNDZELI_HEADER words, then the ten tables in the
 * order of their counts in the header, with nothing between and nothing behind them. A name that ends in ROW is the
 * number of words in a row of its table; the others are places of words in the header or in a row.
 */
#define CUNDZELI_HEADER 14
#define CUNDZELI_HEADER_BANKS 0 /* 0 to 9: how many rows each table has */
#define CUNDZELI_HEADER_CLASSES 1
#define CUNDZELI_HEADER_REGS 2
#define CUNDZELI_HEADER_BLOCKS 3
#define CUNDZELI_HEADER_VALUES 4
#define CUNDZELI_HEADER_VGROUPS 5
#define CUNDZELI_HEADER_OPERANDS 6
#define CUNDZELI_HEADER_HINTS 7
#define CUNDZELI_HEADER_SEGMENTS 8
#define CUNDZELI_HEADER_USES 9
#define CUNDZELI_HEADER_K 10        /* the weight adjust */
#define CUNDZELI_HEADER_MOVE 11     /* float: the scale of a value that is cheaper to make again than to move */
#define CUNDZELI_HEADER_LOAD 12     /* float: the same, than to load */
#define CUNDZELI_HEADER_INDIRECT 13 /* float */

#define CUNDZELI_BANK_ROW 1
#define CUNDZELI_BANK_TOP 0 /* a class */

#define CUNDZELI_CLASS_ROW 4
#define CUNDZELI_CLASS_MASK 0       /* bit c: class c is a subclass */
#define CUNDZELI_CLASS_COST 1       /* float */
#define CUNDZELI_CLASS_GROUP_SIZE 2 /* 1 to 8 */
#define CUNDZELI_CLASS_SPILLSLOTS 3 /* 0 or 1 */

#define CUNDZELI_REG_ROW 1
#define CUNDZELI_REG_MEMORY 0 /* 0 or 1 */

#define CUNDZELI_BLOCK_ROW 2 /* the row of find_optimal_split_point and find_cut_moves too */
#define CUNDZELI_BLOCK_INSTS 0
#define CUNDZELI_BLOCK_FREQUENCY 1 /* float */

#define CUNDZELI_VALUE_ROW 3
#define CUNDZELI_VALUE_BANK 0
#define CUNDZELI_VALUE_LEADER 1 /* a value */
#define CUNDZELI_VALUE_REMAT 2  /* enum cundzeli_remat */

#define CUNDZELI_VGROUP_ROW 9
#define CUNDZELI_VGROUP_SIZE 0   /* 2 to 8, or the job is refused by 4 */
#define CUNDZELI_VGROUP_MEMBER 1 /* the first of eight values; those behind the size are not read */

#define CUNDZELI_OPERAND_ROW 4
#define CUNDZELI_OPERAND_INST 0
#define CUNDZELI_OPERAND_SLOT 1
#define CUNDZELI_OPERAND_VGROUP 2
#define CUNDZELI_OPERAND_CLASS 3

#define CUNDZELI_HINT_ROW 3
#define CUNDZELI_HINT_VALUE 0
#define CUNDZELI_HINT_INST 1
#define CUNDZELI_HINT_INCOMING 2 /* 0 or 1 */

#define CUNDZELI_SEGMENT_ROW 5
#define CUNDZELI_SEGMENT_VALUE 0
#define CUNDZELI_SEGMENT_FROM 1 /* a point: 4 * instruction + slot (enum cundzeli_slot) */
#define CUNDZELI_SEGMENT_TO 2   /* the first point behind it */
#define CUNDZELI_SEGMENT_FLAGS 3 /* a sum of enum cundzeli_flag */
#define CUNDZELI_SEGMENT_USES_BEFORE 4 /* how many rows of the use table come before its own */

#define CUNDZELI_USE_ROW 6
#define CUNDZELI_USE_KIND 0 /* enum cundzeli_kind */
#define CUNDZELI_USE_INST 1
#define CUNDZELI_USE_FIELD 2 /* the first of four; those behind the kind's own are not read, and zero in a result */

enum cundzeli_remat {
    CUNDZELI_REMAT_NONE = 0,
    CUNDZELI_REMAT_MOVE = 1,
    CUNDZELI_REMAT_LOAD = 2,
    CUNDZELI_REMAT_INDIRECT = 3
};

enum cundzeli_slot { CUNDZELI_SLOT_BOUNDARY = 0, CUNDZELI_SLOT_EARLY = 1, CUNDZELI_SLOT_NORMAL = 2 };

enum cundzeli_flag {
    CUNDZELI_FLAG_LIVE_IN = 1,
    CUNDZELI_FLAG_LIVE_OUT = 2,
    CUNDZELI_FLAG_FIXED_HINT = 4,
    CUNDZELI_FLAG_FIXED_DEF = 8
};

/* The kinds, with their fields. */
enum cundzeli_kind {
    CUNDZELI_KIND_FIXED_DEF = 0,       /* reg */
    CUNDZELI_KIND_FIXED_USE = 1,       /* reg */
    CUNDZELI_KIND_TIED_USE = 2,        /* use slot, def slot, class, group index */
    CUNDZELI_KIND_CONFLICT = 3,        /* none; in results alone */
    CUNDZELI_KIND_CLASS_USE = 4,       /* slot, class */
    CUNDZELI_KIND_CLASS_DEF = 5,       /* slot, class */
    CUNDZELI_KIND_GROUP_CLASS_USE = 6, /* slot, class, group index */
    CUNDZELI_KIND_GROUP_CLASS_DEF = 7, /* slot, class, group index */
    CUNDZELI_KIND_BLOCKPARAM_IN = 8,   /* block parameter */
    CUNDZELI_KIND_BLOCKPARAM_OUT = 9   /* none */
};

/* ----------------------------------------------------------------------------------- the result tables */

/* The usual rows: those of the program `vregs`, 460,800 bytes. Any other numbers may be named. */
#define CUNDZELI_USUAL_REGISTERS 4096
#define CUNDZELI_USUAL_SEGMENTS 4096
#define CUNDZELI_USUAL_USES 8192
#define CUNDZELI_USUAL_GROUPS 512

/* Registers, segments, uses (with rows as in a job) and groups, in this order. */
#define CUNDZELI_OUT_REGISTER_ROW 8
#define CUNDZELI_OUT_REGISTER_SET 0
#define CUNDZELI_OUT_REGISTER_CLASS 1
#define CUNDZELI_OUT_REGISTER_WEIGHT 2 /* float */
#define CUNDZELI_OUT_REGISTER_GROUP 3  /* group + 1, or 0 */
#define CUNDZELI_OUT_REGISTER_GROUP_INDEX 4
#define CUNDZELI_OUT_REGISTER_FIXED_HINT 5 /* 0 or 1 */
#define CUNDZELI_OUT_REGISTER_FIRST 6      /* its first row in the segments */
#define CUNDZELI_OUT_REGISTER_COUNT 7      /* how many rows it has there */

#define CUNDZELI_OUT_SEGMENT_ROW 7
#define CUNDZELI_OUT_SEGMENT_VALUE 0
#define CUNDZELI_OUT_SEGMENT_FROM 1
#define CUNDZELI_OUT_SEGMENT_TO 2
#define CUNDZELI_OUT_SEGMENT_FLAGS 3
#define CUNDZELI_OUT_SEGMENT_ORIGIN 4 /* enum cundzeli_origin */
#define CUNDZELI_OUT_SEGMENT_FIRST 5  /* its first row in the uses */
#define CUNDZELI_OUT_SEGMENT_COUNT 6  /* how many rows it has there */

#define CUNDZELI_OUT_GROUP_ROW 9
#define CUNDZELI_OUT_GROUP_SIZE 0   /* the number of its places */
#define CUNDZELI_OUT_GROUP_MEMBER 1 /* the first of eight: register + 1, or 0 for an empty place */

enum cundzeli_origin { CUNDZELI_ORIGIN_OWN = 0, CUNDZELI_ORIGIN_CONFLICT = 1 };

/* ------------------------------------------------------------------------------------ the list of moves */

#define CUNDZELI_MOVES_ROW 3
#define CUNDZELI_MOVES_BLOCK 0
#define CUNDZELI_MOVES_WAY 1   /* enum cundzeli_way */
#define CUNDZELI_MOVES_STEPS 2 /* 1 at least */

/* To a greater frequency, or to a lesser one. */
enum cundzeli_way { CUNDZELI_WAY_UP = 0, CUNDZELI_WAY_DOWN = 1 };

/* --------------------------------------------------------------------------------------------- helpers */

/* Word number `at` of some bytes. */
static inline uint32_t cundzeli_word(const uint8_t *bytes, size_t at)
{
    const uint8_t *b = bytes + 4 * at;
    return (uint32_t)b[0] | (uint32_t)b[1] << 8 | (uint32_t)b[2] << 16 | (uint32_t)b[3] << 24;
}

static inline void cundzeli_put(uint8_t *bytes, size_t at, uint32_t word)
{
    uint8_t *b = bytes + 4 * at;
    b[0] = (uint8_t)word;
    b[1] = (uint8_t)(word >> 8);
    b[2] = (uint8_t)(word >> 16);
    b[3] = (uint8_t)(word >> 24);
}

/* The bits of a float, and the float of its bits. */
static inline uint32_t cundzeli_bits(float value)
{
    uint32_t bits;
    memcpy(&bits, &value, sizeof bits);
    return bits;
}

static inline float cundzeli_float(uint32_t bits)
{
    float value;
    memcpy(&value, &bits, sizeof value);
    return value;
}

/* How many fields a use of a kind has behind its instruction; 0 for a kind above 9. */
static inline uint32_t cundzeli_kind_fields(uint32_t kind)
{
    static const uint8_t fields[10] = {1, 1, 4, 0, 2, 2, 3, 3, 1, 0};
    return kind < 10 ? fields[kind] : 0;
}

/* How many rows each result table has; the first word of each in `out`, if `out` is long enough for all of them. */
struct cundzeli_rows {
    uint32_t registers, segments, uses, groups;
};

struct cundzeli_places {
    size_t registers, segments, uses, groups, end;
};

static inline struct cundzeli_places cundzeli_places_of(struct cundzeli_rows rows)
{
    struct cundzeli_places places;
    places.registers = 0;
    places.segments = (size_t)rows.registers * CUNDZELI_OUT_REGISTER_ROW;
    places.uses = places.segments + (size_t)rows.segments * CUNDZELI_OUT_SEGMENT_ROW;
    places.groups = places.uses + (size_t)rows.uses * CUNDZELI_USE_ROW;
    places.end = places.groups + (size_t)rows.groups * CUNDZELI_OUT_GROUP_ROW;
    return places;
}

/* The bytes of `out` for so many rows. */
static inline size_t cundzeli_out_bytes(struct cundzeli_rows rows)
{
    return 4 * cundzeli_places_of(rows).end;
}

static inline uint32_t cundzeli_at_most(uint64_t count, uint32_t most)
{
    return count < most ? (uint32_t)count : most;
}

/*
 * Rows by the counts in the header of a job (CUNDZELI_HEADER words at `job`), each at most the usual number. They are
 * never too few where those are enough: the answer is the same as with the usual rows, and only these are set to zero.
 * Why: beyond one for each segment, a register or a piece more comes of a cut or of a turned use, and each of these
 * uses up a class use. A turned use is written twice, and its conflict piece may begin with a block parameter. A new
 * group maps an operand that was not mapped.
 */
static inline struct cundzeli_rows cundzeli_rows_for_job(const uint8_t *job)
{
    uint64_t segments = cundzeli_word(job, CUNDZELI_HEADER_SEGMENTS);
    uint64_t uses = cundzeli_word(job, CUNDZELI_HEADER_USES);
    struct cundzeli_rows rows;
    rows.registers = cundzeli_at_most(segments + uses, CUNDZELI_USUAL_REGISTERS);
    rows.segments = cundzeli_at_most(segments + uses, CUNDZELI_USUAL_SEGMENTS);
    rows.uses = cundzeli_at_most(3 * uses, CUNDZELI_USUAL_USES);
    rows.groups = cundzeli_at_most(cundzeli_word(job, CUNDZELI_HEADER_OPERANDS), CUNDZELI_USUAL_GROUPS);
    return rows;
}

/* The bytes of a list of moves for so many blocks. */
static inline size_t cundzeli_list_bytes(size_t blocks)
{
    return 4 * CUNDZELI_MOVES_ROW * blocks;
}

/* The frequency that so many steps lead to from a block's own one, which it had in the call. */
static inline float cundzeli_target(float own, uint32_t way, uint32_t steps)
{
    uint32_t bits = cundzeli_bits(own);
    return cundzeli_float(way == CUNDZELI_WAY_UP ? bits + steps : bits - steps);
}

/* The cause that a number stands for. */
static inline const char *cundzeli_cause(uint32_t number)
{
    static const char *const causes[10] = {
        "no refusal",
        "line not a record, unknown kind, wrong order, number form, choice off its list",
        "a count or k above its limit",
        "unknown top class, value's bank or mask bit; bad cost, scale; group size not 1 to 8; "
        "class of size 2 or more with a subclass of another size",
        "block empty or of bad frequency; leader not leading itself; vgroup not 2 to 8 known values; operand twice, "
        "out of range, or class size not the vgroup's; cut ends not `after` < `before` < instructions",
        "hint's value unknown, instruction above the count; keys falling",
        "segment empty, of no value, slot 3, past the last instruction, overlapping or unsorted in its set; "
        "sets not rising",
        "use falling in position, unknown instruction, class or register, field beyond its UseKind type, kind 3; "
        "`from` not below the next Boundary, or `end_point` above `to`; group use without its operand, of another "
        "class, or whose index has no member or another value",
        "no start in the backward scan; the use to turn is a definition; conflict uses of one instruction differ in "
        "value; one operand mapped twice; an old piece of a merged register ends after the first new piece starts and "
        "starts before the last new one ends; a round that admits none of the conflict uses left",
        "a register to be placed, with its pieces, their uses and new group, overfills a lent table (merging adds no "
        "register; moved pieces count once)",
    };
    return number < 10 ? causes[number] : "no number of these functions";
}

#ifdef __cplusplus
}
#endif

#endif

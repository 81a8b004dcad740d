/*
 * Rimesatchel: a sender and a receiver of spoken-book readings over ATM cells (IEC 62365).
 *
 * The sender packs samples into cells of 48 octets; the receiver takes cells and writes samples, ancillary bits and
 * marks. Nothing here allocates, keeps anything between two calls, or reads or writes anything but what it is lent:
 * all state is the caller's, in the arrays below, and may hold any octets whatever.
 *
 * Every call but rime_check_character and rime_receiver_placed returns a refusal number, RIME_DONE (0) where there is none.
 * A call never does half of its work. Only the calls over many records, rime_receive_log, rime_judge_log and rime_send_log, do as
 * many as they can and say where they stopped; each record is done whole or not at all. A refusal leaves every lent run and the
 * state as they were, and fills `report`, `out` of rime_status_step and rime_status_run, `facts`, `header`, `*next`, `counts`,
 * `totals`, `row`, `units`, `*entries`, `answer`, `slip`, `*written` and `written` or the two entries or halves of a frame with
 * zeros; an opening that is refused fills `state` with zeros, which is itself refused 1.
 * Where several refusals apply, the first in the order of the list at each function is given.
 *
 * Lent memory: a run is a pointer and the number of its entries. A pointer is never NULL (a run of no entries may
 * point anywhere else), and no two arguments of one call overlap.
 */
#ifndef RIMESATCHEL_H
#define RIMESATCHEL_H

#include <stdbool.h>
#include <stddef.h>
#include <stdint.h>

/*
 * What this header and its library are, for a caller that asks: they belong together. The shared library bears the first
 * number; docs/LINKING.md says what stays while that number stays.
 */
#define RIME_VERSION "2.0.0"

#ifdef __cplusplus
extern "C" {
#endif

/* Lengths, in octets or numbers. */
enum {
    RIME_CELL_OCTETS = 48,
    RIME_SENDER_STATE = 7,
    RIME_RECEIVER_STATE = 9,
    RIME_REPORT = 4,
    RIME_SLIP = 7,                /* a watch over second numbers */
    RIME_SLIPPED = 2,             /* what it tells */
    RIME_BLOCK = 25,
    RIME_OUT = 25,
    RIME_STATUS_OCTETS = 24,
    RIME_HEADER = 4,
    RIME_RECORD = 4,
    RIME_HEADER_OCTETS = 3,       /* of a log's header, as rime_log_put_header writes it */
    RIME_RECORD_OCTETS = 49,      /* of a record: the indication, then the cell */
    RIME_LISTED = 2,
    RIME_COUNTS = 3,
    RIME_UNITS = 3,
    RIME_ANSWER = 2,
    RIME_FORMAT = 4,
    RIME_JUDGED_LOG = 3,
    RIME_RECEIVED_LOG = 9,
    RIME_JUDGEMENT = 5,           /* of a record, in what rime_judge_log writes */
    RIME_SENT_LOG = 4,
    RIME_MOST_SLOTS = 48,
    RIME_MOST_MISSING = 14
};

/*
 * The formats, by their subframe octet: sample bits, and S, the slots in a cell.
 *   02, 04, 06, 08 hex   8, 16, 24, 32 bits   S = 48, 24, 16, 12   neither ancillary nor overhead
 *   43, 45, 47 hex       12, 20, 28 bits      S = 24, 16, 12       ancillary
 *   13, 15, 17 hex       12, 20, 28 bits      S = 24, 16, 12       overhead
 *   52, 54, 56, 5A hex   8, 16, 24, 40 bits   S = 24, 16, 12, 8    ancillary and overhead
 *
 * C channels (1 to S) share a cell. T = S / C, rounded down, is the number of sample times in it, and C * T the
 * number of entries that a cell carries. A run holds time after time, channels side by side: channel c at time t is
 * entry t * C + c in either order. The order says which slot of the cell carries it: in order 0 slot t * C + c, in
 * order 1 slot c * T + t.
 *
 * A sample is the unsigned reading of its two's complement bits. An ancillary number is 0 to 15: B is worth 8, C 4,
 * U 2 and V 1; it is 0 where the format has none.
 */

/* A mark says what an entry that the receiver wrote is worth. */
enum {
    RIME_MARK_SOUND = 0,    /* the sample as it was sent, as far as its protection bits tell */
    RIME_MARK_DOUBTFUL = 1, /* the three protection bits disagree; the sample is given as it came */
    RIME_MARK_MISSING = 2   /* an entry of a cell that did not come or was refused; sample and ancillary are 0 */
};

/* Refusal numbers. */
enum {
    RIME_DONE = 0,
    RIME_REFUSED_FORMAT = 1,      /* the octet is none of the fourteen */
    RIME_REFUSED_CHANNELS = 2,    /* C is 0 or above S */
    RIME_REFUSED_ORDER = 3,       /* order above 1 */
    RIME_REFUSED_STATE = 4,       /* a number in a state, or a start number, that cannot be */
    RIME_REFUSED_LENGTH = 5,      /* a cell not of 48 octets, or runs of a wrong or unequal length */
    RIME_REFUSED_SAMPLE = 6,      /* a sample or an ancillary number too large for the format */
    RIME_REFUSED_INDICATION = 7,  /* sending indication 1 where the number isn't a multiple of 8 */
    RIME_REFUSED_NUMBER = 8,      /* the cell's eight number bits are in no entry of Table A.1 */
    RIME_REFUSED_REPEAT = 9,      /* the cell has the number of the last one */
    RIME_REFUSED_ROOM = 10,       /* too little room for the missing cells and this one */
    RIME_REFUSED_LOG_NUMBER = 11, /* a log number not in its shortest form, too long or cut; an indication above 1 */
    RIME_REFUSED_LOG_RECORD = 12, /* a record cut before its 48 octets end */
    RIME_REFUSED_LOG_LENGTH = 13, /* in a list alone: the log has an octet past 4,294,967,295 */
    RIME_REFUSED_STATUS = 14,     /* a channel status input that cannot be */
    RIME_REFUSED_INDICATED = 15,  /* a cell that comes with indication 1 where its number isn't a multiple of 8 */
    RIME_REFUSED_PREAMBLES = 16,  /* the preambles of a frame aren't X then Y, or Z then Y */
    RIME_REFUSED_PARITY = 17,     /* odd parity over slots 4 to 31 in either half of a frame */
    RIME_REFUSED_LOGS = 18,       /* a sheet over more than 4,096 logs */
    RIME_REFUSED_TOTAL = 19,      /* a sheet with a total above 4,294,967,295 */
    RIME_REFUSED_COUNT = 20,      /* the count of cells placed would pass 4,294,967,295 */
    RIME_REFUSED_OUTPUT = 21,     /* an output of a salvage, or of a list in pieces, is shorter than what can go into it */
    RIME_REFUSED_PLAN = 22,       /* more than 64 circuits or 1,024 channels */
    RIME_REFUSED_FREQUENCY = 23,  /* a sampling frequency of 0 or above 1,000,000 */
    /* 24 and 25 are the management port's: rime_management.h */
    RIME_REFUSED_OVERHEAD = 26,   /* data units: a format with overhead */
    RIME_REFUSED_UNIT_SIZE = 27,  /* data units: a size below one frame */
    RIME_REFUSED_UNIT_ROOM = 28,  /* data units: too little room */
    RIME_REFUSED_BLOCKS = 29,     /* the B bits of a frame's halves differ */
    RIME_REFUSED_CIRCUITS = 30,   /* S times the circuits is below the channels */
    RIME_REFUSED_REPORT = 31      /* a report that can't follow the cells that the watch has seen */
};

/* What a refusal number means, in words that a user can be shown. Never NULL, whatever the number. */
static inline const char *rime_refusal_text(unsigned number) {
    switch (number) {
    case 0: return "done";
    case 1: return "there is no such format";
    case 2: return "there are no channels, or more than slots";
    case 3: return "the order is above 1";
    case 4: return "a state or start number cannot be";
    case 5: return "a cell or a run has the wrong length";
    case 6: return "a sample or an ancillary number is too large";
    case 7: return "the indication may be 1 only where the number is a multiple of 8";
    case 8: return "the cell's number is damaged";
    case 9: return "the cell has the number of the last one";
    case 10: return "the runs have too little room";
    case 11: return "a number or an indication in the log is wrong";
    case 12: return "a record of the log is cut";
    case 13: return "the log is too long";
    case 14: return "a channel status input cannot be";
    case 15: return "the cell came with indication 1, and its number isn't a multiple of 8";
    case 16: return "the preambles of the frame are neither X then Y nor Z then Y";
    case 17: return "the parity of the frame is odd";
    case 18: return "there are more than 4,096 logs";
    case 19: return "a total would pass 4,294,967,295";
    case 20: return "the count of cells placed would pass 4,294,967,295";
    case 21: return "there is too little room for the new log or its list";
    case 22: return "there are more than 64 circuits or 1,024 channels";
    case 23: return "the sampling frequency is 0 or above 1,000,000";
    case 24: return "the message has no octets";
    case 25: return "the answer has too little room";
    case 26: return "the format has overhead, and can't leave in data units";
    case 27: return "a data unit is too small for one frame";
    case 28: return "there is too little room for the data units";
    case 29: return "a block begins in one half of the frame and not in the other";
    case 30: return "the circuits are too few for the channels";
    case 31: return "the report can't follow the cell before it";
    default: return "there is no such refusal";
    }
}

/* Places in a sender's state. The three yes-or-no octets here and below: 0 is no, any other octet is yes. */
enum {
    RIME_SENDER_FORMAT = 0,
    RIME_SENDER_CHANNELS = 1,
    RIME_SENDER_ORDER = 2,
    RIME_SENDER_NUMBER = 3,       /* of the next cell */
    RIME_SENDER_WANTED = 4,       /* yes: second numbers are kept */
    RIME_SENDER_SECOND = 5,       /* the second number's last value; before the first cell, its start */
    RIME_SENDER_SENT = 6          /* yes: a cell was sent */
};

/* Places in a receiver's state. */
enum {
    RIME_RECEIVER_FORMAT = 0,
    RIME_RECEIVER_CHANNELS = 1,
    RIME_RECEIVER_ORDER = 2,
    RIME_RECEIVER_STARTED = 3,    /* yes: a cell was accepted */
    RIME_RECEIVER_LAST = 4,       /* number of the last accepted cell, 0 before it and without overhead */
    RIME_RECEIVER_COUNT = 5       /* four octets, least significant first: cells placed since the opening */
};

/* Places in what rime_format says. */
enum { RIME_FORMAT_SAMPLE_BITS = 0, RIME_FORMAT_ANCILLARY_BITS = 1, RIME_FORMAT_OVERHEAD_BITS = 2, RIME_FORMAT_SLOTS = 3 };

/* Places in what rime_receive reports. */
enum { RIME_REPORT_MISSING = 0, RIME_REPORT_NUMBER = 1, RIME_REPORT_SECOND = 2, RIME_REPORT_INDICATION = 3 };

/* Places in a watch over second numbers. A yes or no here is 1 or 0, and any other octet is refused. */
enum {
    RIME_SLIP_STARTED = 0,        /* yes: a cell was taken */
    RIME_SLIP_NUMBER = 1,         /* number of the cell taken last */
    RIME_SLIP_SURE = 2,           /* yes: two cells one after the other agreed */
    RIME_SLIP_SECOND = 3,         /* second number of the last cell in step */
    RIME_SLIP_MAY = 4,            /* block starts since that cell, 15 where there are more */
    RIME_SLIP_WAITS = 5,          /* yes: the cell taken last is out of step, or none was sure yet */
    RIME_SLIP_OTHER = 6           /* second number of the cell taken last, where it waits */
};

/* Places in what rime_slip tells, and what it tells. */
enum { RIME_SLIPPED_WHAT = 0, RIME_SLIPPED_CELLS = 1 };
enum {
    RIME_SLIP_NOTHING = 0,
    RIME_SLIP_BEFORE = 1,         /* so many cells more are missing before the cell taken before this one */
    RIME_SLIP_ALONE = 2,          /* the cell taken before this one was out of step alone */
    RIME_SLIP_PERHAPS = 3         /* this cell is out of step: perhaps so many cells more are missing before it */
};

/* Places in a channel status block under assembly and in what rime_status_step hands out. */
enum { RIME_BLOCK_BITS = 0, RIME_BLOCK_OCTETS = 1, RIME_OUT_ANSWER = 0, RIME_OUT_OCTETS = 1 };

/* The answers of rime_status_step. */
enum { RIME_STATUS_NONE = 0, RIME_STATUS_DOES_NOT_FIT = 1, RIME_STATUS_FITS = 2, RIME_STATUS_NONE_CARRIED = 3 };

/* Places in what is read of a log. */
enum { RIME_HEADER_PLACE = 0, RIME_HEADER_FORMAT = 1, RIME_HEADER_CHANNELS = 2, RIME_HEADER_ORDER = 3 };
enum { RIME_RECORD_WHAT = 0, RIME_RECORD_INDICATION = 1, RIME_RECORD_START = 2, RIME_RECORD_NEXT = 3 };
enum { RIME_RECORD_IS_END = 0, RIME_RECORD_IS_CELL = 1 };

/* Places in what rime_salvage counts. */
enum { RIME_COUNTS_OCTETS = 0, RIME_COUNTS_LEFT_OUT = 1, RIME_COUNTS_CUT = 2 };

/* Places in what rime_units_export tells. */
enum { RIME_UNITS_OCTETS = 0, RIME_UNITS_FULL = 1, RIME_UNITS_COUNT = 2 };

/*
 * Says what a subframe octet means, as the table above has it. Leaves in `facts` the bits of a sample, the ancillary bits and
 * the overhead bits beside it (each 0 or 4), and S, the slots in a cell. The octet is judged as it stands, never cut.
 * Refused, with `facts` zeros: 1, the octet is none of the fourteen.
 */
uint8_t rime_format(uint32_t format, uint32_t facts[RIME_FORMAT]);

/*
 * Opens a sender. Its first cell will have `number`. With `wanted` it keeps second numbers: `second` goes out in the
 * first cell and in those after it, and each later cell with indication 1 adds 1 modulo 16. Without, it sends 0.
 * Leaves in `state` a sender that has sent no cell. All numbers are judged as they stand, never cut: 342 (156 hex)
 * is not 56 hex.
 * Refused: 1, the octet is none of the fourteen; 2, `channels` is 0 or above S; 3, `order` is above 1; 4, `number` or
 * `second` is above 15, or second numbers are wanted without overhead or with S = 8, or `second` isn't 0 and they
 * aren't wanted.
 */
uint8_t rime_sender_open(uint32_t format, uint32_t channels, uint32_t order, uint32_t number, bool wanted,
                         uint32_t second, uint8_t state[RIME_SENDER_STATE]);

/*
 * Packs one cell. Reads C * T samples and as many ancillary numbers, and writes all 48 octets of `cell`: unused slots
 * go out as zeros with their protection and sequencing bits. Leaves in `state` the number one higher modulo 16, the
 * second number that went out, a cell sent, and the yes-or-no octets as 0 or 1.
 * The number counts in formats without overhead too, so that the indication keeps its rule.
 * Refused, with `state` and `cell` untouched: 1, 2, 3 and 4, as for the opening, of what stands in `state`; 5, `cell`
 * isn't 48 octets, or `samples` or `ancillary` isn't C * T long (also where the format has no ancillary); 6, a sample
 * too large for its bits, an ancillary number above 15, or not 0 where the format has none; 7, `indication` is true
 * where the cell's number isn't a multiple of 8.
 */
uint8_t rime_send(uint8_t state[RIME_SENDER_STATE], bool indication, const uint64_t *samples, size_t samples_len,
                  const uint8_t *ancillary, size_t ancillary_len, uint8_t *cell, size_t cell_len);

/*
 * Opens a receiver: leaves in `state` one that is not started, with last number 0 and count 0. The first cell that it
 * accepts starts it, whatever its number. Numbers are judged as they stand, never cut.
 * Refused: 1, the octet is none of the fourteen; 2, `channels` is 0 or above S; 3, `order` is above 1.
 */
uint8_t rime_receiver_open(uint32_t format, uint32_t channels, uint32_t order, uint8_t state[RIME_RECEIVER_STATE]);

/*
 * Takes one cell. With d the difference modulo 16 of its number and the last one, d - 1 cells are missing (none at
 * the first cell, nor ever without overhead). Writes from the start of the three runs C * T entries of sample 0,
 * ancillary 0 and mark 2 for each missing cell, then the cell's own C * T entries with mark 0, or 1 where the three
 * protection bits disagree. Entries past these stay. 15 * C * T entries are always room enough. Leaves in `state` the
 * cell's number, started as 1 and the count greater by d (by 1 at the first cell and without overhead); in `report` the
 * missing count, the number, the second number (each 0 where the format has none), and `indication` as it came.
 * Refused, with `state` and the runs untouched: 1, 2 and 3 of what stands in `state`; 4, a last number above 15, or not
 * 0 in a state not started or without overhead, or a count that isn't 0 in a state not started; 5, `cell` isn't 48
 * octets or the runs aren't equally long; 8, with overhead, the eight number bits are in no entry of Table A.1; 15, with
 * overhead, `indication` is true and the number isn't a multiple of 8, at the first cell too; 9, d is 0; 20, the count
 * would pass 4,294,967,295, which itself is reached; 10, the runs are shorter than d * C * T (C * T at the first cell):
 * the same cell may be given again with more room.
 *
 * Before you connect another maker's sender: by clause 4.5.3 of the standard it sets the indication in the last cell of
 * every block, which has number 7 or 15. This receiver refuses those cells, 15: every eighth cell of such a sender is
 * turned down and stands in the reading as missing. The senders here set it in the first cell of a block, 0 or 8.
 */
uint8_t rime_receive(uint8_t state[RIME_RECEIVER_STATE], const uint8_t *cell, size_t cell_len, bool indication,
                     uint64_t *samples, size_t samples_len, uint8_t *ancillary, size_t ancillary_len,
                     uint8_t *marks, size_t marks_len, uint8_t report[RIME_REPORT]);

/*
 * Returns how many cells the receiver has placed since it was opened, sound and missing together: the sound cells plus
 * the missing counts of the calls made since, as the count in `state` has it. A refused call doesn't move it. Any nine
 * octets will do: nothing is refused, and nothing else of the state is looked at.
 */
uint32_t rime_receiver_placed(const uint8_t state[RIME_RECEIVER_STATE]);

/*
 * Brings a watch over second numbers forward by one cell that the receiver took, by its `report` as rime_receive left it.
 * `watch` is seven zeros at first. A cell number tells at most fourteen lost cells; second numbers tell more where the
 * sender keeps them. Sixteen cells have two block starts (numbers 0 and 8), and only there may the second number go up:
 * where it went up by more than the numbers allow, whole sixteens of cells are missing beside those that the report tells.
 * Leaves in `slip` what it tells and how many cells, a multiple of 16 up to 128:
 *   RIME_SLIP_NOTHING   0
 *   RIME_SLIP_BEFORE    at least so many cells more are missing before the cell that was taken before this one, and before
 *                       those that its own report told missing
 *   RIME_SLIP_ALONE     0: that cell was out of step alone. Second numbers are unprotected, and this one was false
 *   RIME_SLIP_PERHAPS   this cell is out of step, and the next one decides: perhaps so many cells more are missing before
 *                       it; 0, none whatever comes. A caller that puts silence in holds the cell back where they are above 0
 * The cells told are never more than the cells lost, whatever the sender sent as indications. They are exact where it keeps
 * second numbers, gives the indication in every cell whose number is a multiple of 8, and at most 119 cells were sent
 * between two taken ones, with two cells in step before and two behind: docs/LOSSES.md. The indication of the report isn't
 * looked at.
 * Refused, with `watch` untouched and `slip` zeros: 4, a watch that can't be (a yes or no above 1, a number above 15, not
 * started and not all zeros, not sure and not waiting or with a second number or block starts, sure and not waiting with
 * block starts or another second number); 31, a report that can't follow (missing above 14, a number above 15, missing cells
 * at the first cell, later missing plus 1 not the difference of the numbers modulo 16). A format without overhead has no
 * numbers: its second report is refused 31.
 */
uint8_t rime_slip(uint8_t watch[RIME_SLIP], const uint8_t report[RIME_REPORT], uint8_t slip[RIME_SLIPPED]);

/*
 * Brings one channel's status block forward by one entry that the receiver wrote. `block` is the count of bits begun
 * and the 24 octets under assembly, 25 zeros at first. B = 1 begins a block with the entry's C bit as bit 0, dropping
 * an unfinished one; B = 0 adds the C bit to a begun block and otherwise changes nothing; mark 2 drops the block,
 * whatever B. Bit k is bit k mod 8 of octet k / 8, the lowest being bit 0.
 * Leaves in `out` an answer and 24 octets: RIME_STATUS_NONE and zeros, unless this was the 192nd bit. Then the octets
 * are the finished block and the answer says whether octet 23 is the check character of octets 0 to 22; it is
 * RIME_STATUS_NONE_CARRIED where bit 0 of octet 0 is 0, since such a block, of consumer use, carries none. Dropping or
 * finishing leaves `block` as 25 zeros.
 * Refused, with `block` untouched and `out` zeros: 14, `mark` above 2, `ancillary` above 15 or more than 191 bits
 * begun.
 */
uint8_t rime_status_step(uint8_t block[RIME_BLOCK], uint8_t ancillary, uint8_t mark, uint8_t out[RIME_OUT]);

/*
 * Brings one channel's status block forward as rime_status_step would, by the entries `from`, `from` + `step`, .. of two runs
 * that the receiver wrote, until one hands out a block or the runs end: with C channels side by side, channel c is `from` c and
 * `step` C. Leaves in `out` what that entry hands out, else RIME_STATUS_NONE and zeros, and in `*next` the last entry used plus
 * `step`, cut at 18,446,744,073,709,551,615; `from` where none was used. The next call goes on from there.
 * Refused, with `block` untouched, `out` zeros and `*next` 0: 5, the runs aren't equally long or `step` is 0; 14, as for
 * rime_status_step, at any entry that the call would use.
 */
uint8_t rime_status_run(uint8_t block[RIME_BLOCK], const uint8_t *ancillary, size_t ancillary_len, const uint8_t *marks,
                        size_t marks_len, uint64_t from, uint64_t step, uint8_t out[RIME_OUT], uint64_t *next);

/*
 * Returns the check character of octets 0 to 22 of a channel status block (EBU Tech 3250, Appendix 2), in the bit
 * order of the block: a block fits where its octet 23 equals it. Octet 23 is not read. Nothing is written and nothing
 * refused.
 */
uint8_t rime_check_character(const uint8_t block[RIME_STATUS_OCTETS]);

/*
 * Reads the header of a log: three numbers, each in groups of seven bits, low group first, top bit set where more
 * follow. Leaves in `header` the place after it, where the first record starts, and the subframe octet, C and order,
 * with which a receiver can then be opened. The log may be of any length.
 * Refused, with `header` zeros: 11, one of the three isn't in its shortest form, has over three groups or is cut (an
 * empty log too); then 1, 2 and 3, of the three numbers as they stand.
 */
uint8_t rime_log_header(const uint8_t *log, size_t log_len, uint32_t header[RIME_HEADER]);

/*
 * Reads the record at `place` of a log: an indication, then a cell. Leaves in `answer` that it is a cell, its
 * indication, the place where its 48 octets start in `log`, and the next place. A place at the log's end or past it,
 * however large, leaves the end: 0, 0, 0 and `place` as given.
 * Refused, with `answer` zeros: 11, the octet of the indication is above 1; 12, the log ends before the 48 octets do.
 */
uint8_t rime_log_record(const uint8_t *log, size_t log_len, size_t place, uint64_t answer[RIME_RECORD]);

/*
 * Writes a log's header at the start of `log`: three octets, the rest stays. Leaves in `*next` the place after it, where
 * the first record goes.
 * Refused, with `log` untouched and `*next` 0: 1, 2 and 3, as for an opening; then 11, `log` is shorter than the header.
 */
uint8_t rime_log_put_header(uint8_t *log, size_t log_len, uint32_t format, uint32_t channels, uint32_t order,
                            uint64_t *next);

/*
 * Writes a record at `place` of a log: the indication, then the cell's 48 octets; all else stays. Leaves in `*next` the
 * place after it, where the next record goes. The log need not be there from its start: a caller that writes it to a
 * file may lend 49 octets and place 0 for each record.
 * Refused, with `log` untouched and `*next` 0: 5, `cell` isn't 48 octets; then 12, `log` has not 49 octets from `place`.
 */
uint8_t rime_log_put_record(uint8_t *log, size_t log_len, size_t place, const uint8_t *cell, size_t cell_len,
                            bool indication, uint64_t *next);

/* Places in what rime_judge_log counts, and in what it writes for each record. */
enum { RIME_LOG_NEXT = 0, RIME_LOG_RECORDS = 1, RIME_LOG_STOP = 2 };
enum { RIME_JUDGEMENT_REFUSAL = 0, RIME_JUDGEMENT_REPORT = 1 };

/*
 * Judges the records of a log from `place` on, one after the other, as rime_log_record and rime_receive would with room for
 * all, and unpacks nothing. Writes RIME_JUDGEMENT octets a record into `reports`: its refusal (0, 8, 15, 9 or 20), then the four
 * of rime_receive's report, zeros where it is refused; what stands past the last one stays. A refused record is passed over.
 * Leaves in `state` the receiver's behind the last record, with its yes-or-no octet as 0 or 1; in `counts` the next place, the
 * records judged, and why it stopped, which is what the next single call would answer: 0, the log's end; 11, a first octet
 * above 1; 12, a record that is cut; 10, no RIME_JUDGEMENT octets are left in `reports`; of several the first in this order.
 * After 10 the same place goes on with a new run. Of a log in pieces, after 12 the octets from the next place on, at most 48, go
 * to the front of the next piece. A place at the end or past it, however large, is the end, and comes back as it was.
 * Refused, with `state` and `reports` untouched and `counts` zeros: 1 to 4 of what stands in `state`, as for rime_receive, also
 * where no record is there.
 */
uint8_t rime_judge_log(uint8_t state[RIME_RECEIVER_STATE], const uint8_t *log, size_t log_len, size_t place,
                       uint8_t *reports, size_t reports_len, uint64_t counts[RIME_JUDGED_LOG]);

/* Places in what rime_send_log counts. */
enum { RIME_SENT_NEXT = 0, RIME_SENT_ENTRIES = 1, RIME_SENT_STOP = 2, RIME_SENT_CELLS = 3 };

/*
 * Sends cell after cell, each of the next C * T entries, and writes its record into a log from `place` on, as rime_send and
 * rime_log_put_record would; all else in `log` stays. The indication is 1 in every cell whose number is a multiple of 8 where
 * `indications` says yes, else in none.
 * Leaves in `state` the sender's behind the last cell, with its yes-or-no octets as 0 or 1; in `counts` the next place, the
 * entries taken, why it stopped, and the cells. It stops by 0, fewer than C * T entries are left; 12, no record fits any more, a
 * place at the end or past it too; 6, the next cell has a number too large; of several the first in this order.
 * After 12 the entries that are left go on in a new log or with more room; after 0 what is left goes to the front of the next runs.
 * Refused, with `state` and `log` untouched and `counts` zeros: 1 to 4 of what stands in `state`; then 5, the two runs aren't
 * equally long.
 */
uint8_t rime_send_log(uint8_t state[RIME_SENDER_STATE], bool indications, const uint64_t *samples, size_t samples_len,
                      const uint8_t *ancillary, size_t ancillary_len, uint8_t *log, size_t log_len, size_t place,
                      uint64_t counts[RIME_SENT_LOG]);

/* Places in what rime_receive_log counts. */
enum {
    RIME_BATCH_NEXT = 0,
    RIME_BATCH_ENTRIES = 1,
    RIME_BATCH_STOP = 2,
    RIME_BATCH_TAKEN = 3,
    RIME_BATCH_MISSING = 4,
    RIME_BATCH_REFUSED_8 = 5,
    RIME_BATCH_REFUSED_9 = 6,
    RIME_BATCH_REFUSED_15 = 7,
    RIME_BATCH_REFUSED_20 = 8
};

/*
 * Receives the records of a log from `place` on, one after the other, as rime_log_record and rime_receive would: each
 * cell's entries, with those of the cells missing before it, go into the three runs behind the last one's; what
 * stands past them stays. A record that the receiver refuses by 8, 15, 9 or 20 is passed over and counted, and needs
 * no room. It stops at the first record whose entries, with those of the missing cells, don't fit into what is left
 * of the runs: it is done whole or not at all. With 15 * RIME_MOST_SLOTS entries in each run every call goes on or
 * comes to the end or a record that is broken.
 * Leaves in `state` the receiver's behind the last record, with its yes-or-no octet as 0 or 1; in `counts`, all of
 * this call: the next place; the entries written to each run; why it stopped; cells taken; cells missing before them;
 * records refused by 8, by 9, by 15 and by 20. Why it stopped is what the next single call would answer: 0, the log's
 * end; 11, a first octet above 1; 12, a record that is cut; 10, no room; of several the first in this order. After 10
 * the same place is given again with new runs. Of a log in pieces, after 12 the octets from the next place on, at
 * most 48, go to the front of the next piece. A place at the end or past it, however large, is the end, and comes
 * back as it was.
 * Refused, with `state` and the runs untouched and `counts` zeros: 1 to 4 of what stands in `state`, as for
 * rime_receive; then 5, the three runs aren't equally long; also where no record is there.
 */
uint8_t rime_receive_log(uint8_t state[RIME_RECEIVER_STATE], const uint8_t *log, size_t log_len, size_t place,
                         uint64_t *samples, size_t samples_len, uint8_t *ancillary, size_t ancillary_len,
                         uint8_t *marks, size_t marks_len, uint64_t counts[RIME_RECEIVED_LOG]);

/* Places in what rime_log_list says. */
enum { RIME_LISTED_OCTETS = 0, RIME_LISTED_WHOLE = 1 };

/*
 * Writes the list of a log, the text that the program linelist prints, from the start of `run` as far as it goes; what
 * is past it stays. Leaves in `listed` how many octets were written, and 1 where they are the whole list, else 0.
 * Refuses nothing and returns 0: a log that can't be read has a list that says so.
 */
uint8_t rime_log_list(const uint8_t *log, size_t log_len, uint8_t *run, size_t run_len, uint64_t listed[RIME_LISTED]);

/*
 * Is there anything on it at all? Reads the records of a log, as a fresh receiver with room hands them out, up to the
 * first framing fault or the end, and stops at the first with a sample marked RIME_MARK_SOUND that isn't zero. Leaves in
 * `answer` 1 and that record, counted from 0; or 0 and how many whole records were read, refused ones too. A sample with
 * another mark, an unused slot, a refused record and ancillary bits are nothing. The log may be of any length.
 * Refused, with `answer` zeros: 11, 1, 2 and 3, as rime_log_header has them. A framing fault is no refusal here.
 */
uint8_t rime_anything(const uint8_t *log, size_t log_len, uint64_t answer[RIME_ANSWER]);

/*
 * Salvages a log: writes into `out` a new one with the same header and, as they stand and in their order, exactly the
 * records that a receiver answers as sound, run from fresh with room up to the first framing fault or the end. Writes into
 * `list` two numbers for each whole record that it leaves out: the record, counted from 0, and its refusal.
 * What is past the new log and past the list stays. Leaves in `counts` the octets of the new log, the records left out,
 * and the octets cut, from the first of a faulty record to the end. The log may be of any length; `log_len` octets and
 * 2 * (`log_len` / 49) numbers are always room enough, and with so much room it is read once and not twice. A receiver
 * that runs over the new log hands out what it hands out over the old one up to its first framing fault, and ends in the
 * same state. A new log salvaged again stays as it is: nothing is left out and nothing cut. `log_len` is the octets of the
 * new log, 49 for each record left out, and the octets cut.
 * Refused, with `out` and `list` untouched and `counts` zeros: 11, 1, 2 and 3, as for rime_log_header; then 21, `out` is
 * shorter than the new log or `list` than two numbers for each record left out.
 */
uint8_t rime_salvage(const uint8_t *log, size_t log_len, uint8_t *out, size_t out_len, uint64_t *list, size_t list_len,
                     uint64_t counts[RIME_COUNTS]);

/*
 * A log in pieces, as it comes off a disk or a line: its list, its salvage, whether there is anything on it and its figures, each
 * by three calls. _start makes `state` and `held` ready; _take is given piece after piece, each of any length; _end is called
 * where the log ends. What they write and answer together is that of the whole log, however it is divided. All that is known
 * between two calls stands in `state`, which is numbers of 64 bits, and in `held`, the octets of a header or a record that isn't
 * whole yet. Behind a fault, stages 2 and 3, nothing more is read.
 * No state is refused: a number in it is taken modulo its width, and of a yes or no 0 is no and any other number yes. A state that
 * no call left has answers that mean nothing, refusal numbers among them, and never more octets than is said below.
 */

/* Places in each of the four states: where the log stands, then the receiver's state. */
enum {
    RIME_PIECES_STAGE = 0,        /* 0 in the header, 1 among the records, 2 the header was refused, 3 a record was broken */
    RIME_PIECES_FAULT = 1,        /* the refusal at stages 2 and 3, else 0; stage and fault are numbers of 8 bits */
    RIME_PIECES_HELD = 2,         /* how many octets are held */
    RIME_PIECES_LEFT = 3,         /* how many octets may still come */
    RIME_PIECES_RECORDS = 4,      /* whole records so far */
    RIME_PIECES_FORMAT = 5,       /* format, channels, order and last number have 8 bits */
    RIME_PIECES_CHANNELS = 6,
    RIME_PIECES_ORDER = 7,
    RIME_PIECES_STARTED = 8,      /* a yes or no */
    RIME_PIECES_LAST = 9,
    RIME_PIECES_COUNT = 10        /* 32 bits */
};

/* Then what each counts itself, and how many numbers its state has. */
enum { RIME_LIST_RECORDS = 11, RIME_LIST_SOUND = 12, RIME_LIST_MISSING = 13, RIME_LIST_REFUSED = 14, RIME_LIST_STATE = 15 };
enum {
    RIME_SALVAGE_OCTETS = 11,     /* of the log so far */
    RIME_SALVAGE_REFUSAL = 12,    /* of the header: 8 bits */
    RIME_SALVAGE_TAKEN = 13,      /* octets of the header and of the whole records */
    RIME_SALVAGE_KEPT = 14,       /* records */
    RIME_SALVAGE_LEFT_OUT = 15,
    RIME_SALVAGE_STATE = 16
};
enum {
    RIME_ANYTHING_REFUSAL = 11,   /* of the header: 8 bits */
    RIME_ANYTHING_FOUND = 12,     /* a yes or no */
    RIME_ANYTHING_NUMBER = 13,    /* for a yes the first such record, else how many whole records were read */
    RIME_ANYTHING_STATE = 14
};
enum { RIME_FIGURES_COUNTS = 11, /* nine, in the order of a row of rime_sheet */ RIME_FIGURES_STATE = 20 };

/*
 * The room that a piece needs: so many octets, and so many more for each of `piece_len` / 49 + 1 records. An end needs the first
 * of the two alone.
 */
enum {
    RIME_TEXT_ROOM = 216,
    RIME_TEXT_RECORD = 76,
    RIME_OUT_ROOM = 3,
    RIME_OUT_RECORD = 49,
    RIME_NOTES_ROOM = 216,
    RIME_NOTES_RECORD = 50
};

/* Places in what rime_salvage_take says it wrote. */
enum { RIME_WRITTEN_OUT = 0, RIME_WRITTEN_NOTES = 1, RIME_WRITTEN = 2 };

/*
 * The list of a log in pieces, as rime_log_list writes it of the whole log. A log of more than 4,294,967,295 octets is refused 13
 * in the list. rime_list_take writes from the start of `text` the lines that the piece makes whole, and rime_list_end what ends
 * the list: nothing where a fault ended it before. What is past them stays. Both leave in `*written` how many octets they are.
 * Refused, with all else untouched and `*written` 0: 21, `text` is shorter than 216 + 76 * (`piece_len` / 49 + 1) octets, at the
 * end than 216. So no line is ever cut. rime_list_start refuses nothing.
 */
uint8_t rime_list_start(uint64_t state[RIME_LIST_STATE], uint8_t held[RIME_RECORD_OCTETS]);
uint8_t rime_list_take(uint64_t state[RIME_LIST_STATE], uint8_t held[RIME_RECORD_OCTETS], const uint8_t *piece, size_t piece_len,
                       uint8_t *text, size_t text_len, uint64_t *written);
uint8_t rime_list_end(const uint64_t state[RIME_LIST_STATE], const uint8_t held[RIME_RECORD_OCTETS], uint8_t *text,
                      size_t text_len, uint64_t *written);

/*
 * The salvage of a log in pieces, of any length. rime_salvage_take writes from the start of `out` what the piece makes of the new
 * log, as rime_salvage has it, and from the start of `notes` a line for each whole record that is left out, as `1 refused 9`;
 * rime_salvage_end writes the last line, as `end 5 kept 2 left out 17 cut` (records, records, octets), or `log refused 11` where
 * the header is refused. What is past them stays. They leave in `written` and `*written` how many octets that is. Octets behind a
 * fault are counted, so all of the log must be taken.
 * Refused, with all else untouched and `written` or `*written` zeros: 21, `out` is shorter than 3 + 49 * (`piece_len` / 49 + 1)
 * octets or `notes` than 216 + 50 * (`piece_len` / 49 + 1), at the end than 216. rime_salvage_start refuses nothing.
 */
uint8_t rime_salvage_start(uint64_t state[RIME_SALVAGE_STATE], uint8_t held[RIME_RECORD_OCTETS]);
uint8_t rime_salvage_take(uint64_t state[RIME_SALVAGE_STATE], uint8_t held[RIME_RECORD_OCTETS], const uint8_t *piece,
                          size_t piece_len, uint8_t *out, size_t out_len, uint8_t *notes, size_t notes_len,
                          uint64_t written[RIME_WRITTEN]);
uint8_t rime_salvage_end(const uint64_t state[RIME_SALVAGE_STATE], const uint8_t held[RIME_RECORD_OCTETS], uint8_t *notes,
                         size_t notes_len, uint64_t *written);

/*
 * Is there anything on a log in pieces, of any length? rime_anything_take leaves in `*more` 1 where more octets could change the
 * answer, else 0: behind the first yes, and behind a fault, nothing more need be read. rime_anything_end leaves in `answer` what
 * rime_anything does of the whole log.
 * Refused, by rime_anything_end alone, with `answer` zeros: 11, 1, 2 and 3, as rime_log_header has them.
 */
uint8_t rime_anything_start(uint64_t state[RIME_ANYTHING_STATE], uint8_t held[RIME_RECORD_OCTETS]);
uint8_t rime_anything_take(uint64_t state[RIME_ANYTHING_STATE], uint8_t held[RIME_RECORD_OCTETS], const uint8_t *piece,
                           size_t piece_len, uint64_t *more);
uint8_t rime_anything_end(const uint64_t state[RIME_ANYTHING_STATE], const uint8_t held[RIME_RECORD_OCTETS],
                          uint64_t answer[RIME_ANSWER]);

/*
 * The figures of one log in pieces, of any length. rime_figures_end leaves in `row` the ten numbers that rime_sheet has for it.
 * Refused, by rime_figures_end alone, with `row` zeros: 19, one of the first nine is above 4,294,967,295.
 */
uint8_t rime_figures_start(uint64_t state[RIME_FIGURES_STATE], uint8_t held[RIME_RECORD_OCTETS]);
uint8_t rime_figures_take(uint64_t state[RIME_FIGURES_STATE], uint8_t held[RIME_RECORD_OCTETS], const uint8_t *piece,
                          size_t piece_len);
uint8_t rime_figures_end(const uint64_t state[RIME_FIGURES_STATE], uint32_t row[10]);

/* The preambles of an AES3 frame's halves, by their letters. */
enum { RIME_PREAMBLE_X = 0x58, RIME_PREAMBLE_Y = 0x59, RIME_PREAMBLE_Z = 0x5A };

/*
 * Takes one frame off an AES3 cable into two entries of format 56 hex: the first half into entry 0, the second into
 * entry 1. In a subframe slot k is the bit worth 2^k: the sample in slots 4 to 27, low bit first, V in 28, U in 29, C in
 * 30, and in 31 what makes the count of ones in slots 4 to 31 even. Slots 0 to 3 aren't read. Z then Y begins a block for
 * both channels: B is 1 in both entries; X then Y leaves it 0 in both.
 * Refused, with `samples` and `ancillary` zeros: 16, the preambles are neither X then Y nor Z then Y; 17, the count of
 * ones in slots 4 to 31 is odd in either half.
 */
uint8_t rime_aes3_import(const uint8_t preambles[2], const uint32_t subframes[2], uint64_t samples[2],
                         uint8_t ancillary[2]);

/*
 * Makes one frame for an AES3 cable of two entries of format 56 hex: Z then Y where B is 1 in both, X then Y where it is
 * 0 in both. Slots 0 to 3 are 0. An imported frame goes out with the slots 4 to 31 and the preambles that it came with.
 * Refused, with `preambles` and `subframes` zeros: 6, a sample of more than 24 bits or an ancillary number above 15 in
 * either half; 29, the two B bits differ: blocks that begin at different times in the two channels can't leave by AES3.
 */
uint8_t rime_aes3_export(const uint64_t samples[2], const uint8_t ancillary[2], uint8_t preambles[2],
                         uint32_t subframes[2]);

/*
 * Writes entries that the receiver wrote as data units of IEC 62379-5-2 (7.3), with synchronisation information absent, for
 * the seven formats without overhead. `samples` and `ancillary` hold time after time, channels side by side, in whole
 * times. A frame is one subframe for each channel at one time, channel 0 first; a subframe is the sample, most
 * significant bit first, then B, C, U and V where the format has them. A unit holds as many whole frames as fit `size`
 * octets, the last one perhaps fewer. The units go end to end from the start of `out`; octets past them stay. Leaves in
 * `units` the octets written, the octets of a full unit, and how many units there are. Without entries there are none.
 *
 * MARKS DON'T TRAVEL. An entry of a missing cell, mark 2, leaves as the zeros that it is: at the other end a gap is
 * silence that looks like sound. Nor does a mark 1 leave. Who needs them must carry them beside the units.
 *
 * Refused, with `out` untouched and `units` zeros: 1, the octet is none of the fourteen; 2, `channels` is 0 or above S; 5,
 * the runs aren't equally long, or their length isn't a multiple of `channels`; 6, a sample too large for its bits, an
 * ancillary number above 15, or not 0 where the format has none; 26, the format has overhead; 27, `size` is below one
 * frame; 28, `out` is shorter than all units together.
 */
uint8_t rime_units_export(uint32_t format, uint32_t channels, size_t size, const uint64_t *samples, size_t samples_len,
                          const uint8_t *ancillary, size_t ancillary_len, uint8_t *out, size_t out_len,
                          uint64_t units[RIME_UNITS]);

/*
 * Reads one data unit back. Writes its samples and ancillary numbers (0 where the format has none) from the start of the
 * two runs; entries past them stay. Leaves in `entries` how many there were: the frames of the unit times `channels`. The
 * units of an export, read one after the other, give back all that was exported. Nothing in a unit says its format or
 * number of channels: both ends must be told the same.
 * Refused, with the runs untouched and `*entries` 0: 1, the octet is none of the fourteen; 2, `channels` is 0 or above S; 5,
 * the runs aren't equally long, the unit is empty, or it isn't whole frames; 26, the format has overhead; 28, the runs are
 * shorter than the unit's entries.
 */
uint8_t rime_unit_read(uint32_t format, uint32_t channels, const uint8_t *unit, size_t unit_len, uint64_t *samples,
                       size_t samples_len, uint8_t *ancillary, size_t ancillary_len, uint64_t *entries);

/* Places in what rime_circuits_check answers, and its answers. */
enum { RIME_PLAN_ANSWER = 0, RIME_PLAN_CIRCUIT = 1 };
enum { RIME_PLAN_YES = 1, RIME_PLAN_SHARE = 2, RIME_PLAN_ALLOWANCE = 3, RIME_PLAN_SUM = 4 };

/*
 * Judges a plan, anyone's: `channels` channels in one format at a sampling `frequency`, shared out over circuits.
 * `shares` is how many of them each circuit carries, `allowances` the cells per second that each circuit may carry. A
 * circuit with a share of C needs `frequency` / T cells per second, rounded up, with T = S / C rounded down.
 * Leaves in `answer` RIME_PLAN_YES and 0 exactly when each share is 1 to S, the shares add up to `channels`, and each
 * circuit's cells per second are within its allowance. A no names the first fault, circuit by circuit the share, then
 * the allowance: RIME_PLAN_SHARE or RIME_PLAN_ALLOWANCE and the circuit, counted from 0; last RIME_PLAN_SUM and 0. No
 * circuits and no channels is a yes.
 * Refused, with `answer` zeros: 1, the octet is none of the fourteen; 5, the two runs aren't equally long; 22, more than
 * 64 circuits or 1,024 channels; 23, `frequency` is 0 or above 1,000,000.
 */
uint8_t rime_circuits_check(uint32_t format, uint32_t channels, uint32_t frequency, const uint32_t *shares,
                            size_t shares_len, const uint32_t *allowances, size_t allowances_len, uint32_t answer[2]);

/*
 * A plain planner: fills circuits in the given order as far as S allows, allowances left aside. Writes all of `shares`,
 * a number for each circuit: S for those that are full, the rest for one, and 0 for those left over, which the checker
 * calls a fault: hand it the circuits that were filled.
 * Refused, with `shares` untouched: 1, the octet is none of the fourteen; 22, more than 64 circuits or 1,024 channels; 30,
 * S times the circuits is below `channels`: nobody's plan could carry them.
 */
uint8_t rime_circuits_plan(uint32_t format, uint32_t channels, uint32_t *shares, size_t shares_len);

/* Places in a row of a sheet, and how many numbers a row has. */
enum {
    RIME_SHEET_SOUND = 0,
    RIME_SHEET_MISSING = 1,
    RIME_SHEET_REFUSED_8 = 2,
    RIME_SHEET_REFUSED_9 = 3,
    RIME_SHEET_REFUSED_15 = 4,
    RIME_SHEET_REFUSED_20 = 5,
    RIME_SHEET_MARKED_0 = 6,
    RIME_SHEET_MARKED_1 = 7,
    RIME_SHEET_MARKED_2 = 8,
    RIME_SHEET_PER_MILLION = 9,
    RIME_SHEET_ROW = 10
};

/*
 * Draws up one sheet over many logs. They lie end to end in `octets`, and `lengths` has the octets of each. Each log is read
 * up to its first framing fault by a fresh receiver with room; a refused header, as that of a log of no octets, counts
 * nothing. A row has the cells sound, missing, and refused by 8, 9, 15 and 20, the samples marked 0, 1 and 2, and the missing
 * cells per million of sound plus missing, rounded down, 0 where that sum is 0.
 * Leaves a row a log in `rows`, RIME_SHEET_ROW numbers each, and in `totals` the row of all logs together, its per million
 * worked out from its sound and missing. Where it isn't refused, the sheet of two lists of logs joined has the rows of both,
 * and the first nine numbers of its totals are the sums of theirs. It takes some 160 KiB of stack.
 * Refused, with `rows` untouched and `totals` zeros: 18, more than 4,096 logs; 5, the lengths don't add up to `octets_len`, or
 * `rows_len` isn't ten times `lengths_len`; 19, one of the first nine totals is above 4,294,967,295.
 */
uint8_t rime_sheet(const uint8_t *octets, size_t octets_len, const uint64_t *lengths, size_t lengths_len, uint32_t *rows,
                   size_t rows_len, uint32_t totals[10]);

#ifdef __cplusplus
}
#endif

#endif

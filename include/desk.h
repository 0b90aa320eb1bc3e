/* The network solver, as C calls it: link with libdesk.a (tools/library.py makes it).

   A buffer is its start and its length in entries. An empty buffer may have any start, a null one too.
   Buffers must not overlap one another, the sheet, the text or a state. Nothing is kept between two calls but what the
   caller keeps, and nothing but what is lent is written: several threads may call at the same time, each with
   buffers and a state of its own (several may lend the same sheet or text).

   Stack that a call needs below its caller's frame, whatever the sheet or the text: 24 KiB for desk_solve and
   desk_verdict, 36 KiB for desk_evening and desk_evening_verdict, 84 KiB for desk_text (17,663, 30,159 and 81,991
   bytes at most were measured in the x86-64 library). A thread needs some KiB more for itself: lend it 64 KiB,
   and 128 KiB where it calls desk_text. */
#ifndef DESK_H
#define DESK_H

#include <stddef.h>
#include <stdint.h>

#ifdef __cplusplus
extern "C" {
#endif

/* Solves the network of a sheet: one OP record, a PD or none, then all ND, then all LK, and nothing after. Any
   bytes of any length are taken; a sheet that is not good is refused by its number.

   Lent, with the entries that each needs (n nodes, k links, m allowed trials):
     heads      n   on 0: the head of each node, in feet
     demands    n   on 0: the demand of each node, in cubic feet per second; where a PD stands, what it draws
     flows      k   on 0: the flow of each link, in cubic feet per second
     statuses   k   on 0: the status of each link, 0 Closed, 1 Open, 2 Active, 3 TempClosed, 4 FixedClosed,
                    5 FixedOpen, 6 XPressure, 7 Xhead
     record    4m   an entry of 4 bytes a trial: a mark of two letters and a number, the lower byte first.
                    VF link freed, GN node grounded, SG node of number 6, NF place of number 7, OK for the
                    converged trial, ST for another stepped trial. The number of OK and ST is 0, or the lowest
                    link whose status the trial's flow update changed plus 1 in the low byte and the cause in the
                    high byte: 1 reverse flow, 2 inlet too low, 3 outlet too high, 4 reopened (it had been shut).
                    What a tank shuts is not told
     scratch 4096   room to work in
   A good sheet has 1 to 64 nodes, 0 to 128 links and 1 to 200 trials, so that 64, 64, 128, 128, 800 and 4,096
   entries are enough for every sheet.

   Told in any case:
     counts      number, place, trials, freed valves, grounded nodes
     totals      total demand, total supply, error

     number                                                          place
     0  converged                                                    0
     1  a record can't be read as the layout says                    its byte offset
     2  node count wrong, else link count wrong                      0, 1
     3  a field outside its bounds or codes                          offset of the first such record
     4  a link from a node to itself; a PRV that ends at, or a PSV
        that starts at, a reservoir, a tank or a disabled junction   offset of the first
     5  heads, demands, flows, statuses, record or scratch too
        short                                                        0 to 5, the lowest
     6  singular                                                     node
     7  after a stepped trial a head, a flow or, where a PD
        stands, a drawn flow is NaN, infinite or at least 2^64 in    first such node, else 64 + first such link,
        magnitude                                                    else 256 + first such node
     8  trial limit used up                                          the limit

   Changed: on 1 to 5 nothing lent, and trials, freed and grounded are 0. On 6, 7 and 8 only record and scratch.
   On 0 heads, demands, flows, statuses, record and scratch; entries past n or k stay. On 0, 6, 7 and 8 record
   holds an entry for each of the trials told, bytes past them stay, and the first 4,096 numbers of scratch are
   +0.0, later ones stay. All but 0 tell totals of +0.0. */
void desk_solve(const uint8_t *sheet, size_t sheet_length,
                double *heads, size_t heads_length,
                double *demands, size_t demands_length,
                double *flows, size_t flows_length,
                uint8_t *statuses, size_t statuses_length,
                uint8_t *record, size_t record_length,
                double *scratch, size_t scratch_length,
                uint64_t counts[5], double totals[3]);

/* The same solve, and whether its answer may be sold. A pressure must be offered only at verdict 0.

   Limits: the lowest pressure that is sold, in feet; how far a head may be off its law, in feet; how far a
   flow may be off its law, in cubic feet per second. Nothing is within a head or flow that is NaN or below
   0, and no pressure is at least a lowest pressure of NaN. 0, 0.1 and 0.001 are what the desk takes
   (docs/DESK.md says why).

   verdict[0] is the first line that holds, verdict[1] its place:
     1  the solve's number is not 0                                  that number
     2  the record shows a repair: VF or GN                          the first such entry, from 0
     3  nothing determines a head: a junction in service that no
        way of conducting links joins to a reservoir, a tank or a
        node that an Active regulator holds                          the lowest such node
     4  at a junction in service what flows in, less what flows out
        and the demand, is not within flow of 0                      the lowest such node
     5  a link in service that its own law would move by more than
        flow, and by more than head times its conductance            the lowest such link
     6  an Active PRV or PSV in service whose node's head is not
        within head of its set head                                  the lowest such link
     7  where a PD stands: a drawn flow that is not within flow of
        what its pressure allows                                     the lowest such node
     8  a junction in service whose pressure is not at least 0, or
        that asks and whose pressure is not at least the lowest      the lowest such node
     0  none of these: it may be sold                                0
   Everything else is as desk_solve has it. */
void desk_verdict(const uint8_t *sheet, size_t sheet_length,
                  double lowest_pressure, double head, double flow,
                  double *heads, size_t heads_length,
                  double *demands, size_t demands_length,
                  double *flows, size_t flows_length,
                  uint8_t *statuses, size_t statuses_length,
                  uint8_t *record, size_t record_length,
                  double *scratch, size_t scratch_length,
                  uint64_t counts[5], double totals[3], uint64_t verdict[2]);

/* An evening of turns in one call: each row of a table of demands is put into the sheet and solved, in order. What
   is left in a row's room is what desk_solve with that row's demands in the sheet leaves there.

   The table has one row a pattern and one entry a node: rows * n entries, those of row r from r * n on. Every other
   buffer has one solve's room a row, the scratch apart, which all rows share (n nodes, k links, m allowed trials):
     heads, demands   n   of row r: from r * n on
     flows, statuses  k   from r * k on
     record          4m   from r * 4m on
     counts           5   from r * 5 on: number, place, trials, freed valves, grounded nodes, as desk_solve tells them
     totals           3   from r * 3 on: total demand, total supply, error
     scratch       4096   once
   32 rows of every sheet have room in 2,048, 2,048, 4,096, 4,096, 25,600, 160, 96 and 4,096 entries.

   called[0] and called[1], of the call: 0 at 0, and every row was solved; else the call is refused:
     1 to 4  the sheet as it stands, its own demands too, with desk_solve's places
     5       scratch too short; place 5
     14      no rows, more than 32 rows, the table or a result buffer too short; place 0, 1, 2
   A refused call changes nothing lent but called.

   A demand of the table that is no good number (NaN, infinite, above 2^40 in magnitude) is number 3 of its row alone, with
   the offset of its node's record, and the other rows go on. A row whose number is not 0 changes of its room what
   desk_solve would, and its counts and totals. Entries past the rows' rooms stay. */
void desk_evening(const uint8_t *sheet, size_t sheet_length,
                  size_t rows, const double *table, size_t table_length,
                  double *heads, size_t heads_length,
                  double *demands, size_t demands_length,
                  double *flows, size_t flows_length,
                  uint8_t *statuses, size_t statuses_length,
                  uint8_t *record, size_t record_length,
                  double *scratch, size_t scratch_length,
                  uint64_t *counts, size_t counts_length,
                  double *totals, size_t totals_length,
                  uint64_t called[2]);

/* The same, and each row judged under desk_verdict's limits. A row has 7 counts, from r * 7 on: the five, then the
   verdict's number and place; 224 entries are enough for 32 rows. */
void desk_evening_verdict(const uint8_t *sheet, size_t sheet_length,
                          double lowest_pressure, double head, double flow,
                          size_t rows, const double *table, size_t table_length,
                          double *heads, size_t heads_length,
                          double *demands, size_t demands_length,
                          double *flows, size_t flows_length,
                          uint8_t *statuses, size_t statuses_length,
                          uint8_t *record, size_t record_length,
                          double *scratch, size_t scratch_length,
                          uint64_t *counts, size_t counts_length,
                          double *totals, size_t totals_length,
                          uint64_t called[2]);

/* The same solve one trial at a time, so that a screen can be drawn between trials: start once, then take trials
   until the answer is told. Taken so, the trials come to desk_solve's answer, record and results, after as many
   calls as it counts trials.

   What the caller keeps between calls, and no one else writes:
     the sheet     the same bytes for the start and for every trial
     the state     as the start and the trials before left it. After each trial it holds what the trial came to,
                   one entry a node or a link of the sheet: heads in feet, demands (what is asked) and drawn flows in
                   cubic feet per second, flows, statuses, and grounded, which is not 0 for a node tied to a
                   reservoir that is not there
     the record    its first 4 bytes a trial taken; a trial writes the next 4 and no others
   The buffers are desk_solve's, of at least the same lengths. They may be other ones in each call if the bytes of
   the record above go with them; of scratch and of the four results nothing is kept from one call to the next.
   Bytes of the state that no start and trials left are safe too (no call writes outside what it is lent), but what
   is told of them means nothing.

   told, in any case:
     told[0]  0  the state is ready, or a trial was taken: more are to be taken. told[3] to told[5] so far
              1  the answer: told[1] to told[5] are desk_solve's counts, and the state's sums end with its totals
              2  refused: told[1] and told[2] are desk_solve's number, 1 to 5, and place
     told[1] to told[5]  number, place, trials, freed valves, grounded nodes

   Changed: on 2 nothing, neither the state nor a buffer; it is not the answer, and the next trial goes on as if that
   call had not been. On 0 the state, 4 bytes of the record, and the first 4,096 numbers of scratch, which are +0.0.
   On 1 these, and where the number is 0 the four results, as desk_solve leaves them. Once the answer was told every
   trial tells it again, whatever the sheet and the buffers, and nothing changes. The start refuses with 1 to 4 and
   leaves the state as it was: take no trial after that, since a state whose counts do not begin with 0 is taken for
   one that has its answer. */
typedef struct desk_state {
    double heads[64], demands[64], drawn[64], flows[128];
    double sums[5];     /* damping factor, previous change, total demand, total supply, error */
    uint64_t counts[6]; /* what the last trial told */
    uint8_t statuses[128], grounded[64];
} desk_state;

void desk_start(const uint8_t *sheet, size_t sheet_length,
                double state_heads[64], double state_demands[64], double state_drawn[64], double state_flows[128],
                uint8_t state_statuses[128], uint8_t state_grounded[64], double state_sums[5], uint64_t state_counts[6],
                uint64_t told[6]);

void desk_trial(const uint8_t *sheet, size_t sheet_length,
                double state_heads[64], double state_demands[64], double state_drawn[64], double state_flows[128],
                uint8_t state_statuses[128], uint8_t state_grounded[64], double state_sums[5], uint64_t state_counts[6],
                double *heads, size_t heads_length,
                double *demands, size_t demands_length,
                double *flows, size_t flows_length,
                uint8_t *statuses, size_t statuses_length,
                uint8_t *record, size_t record_length,
                double *scratch, size_t scratch_length,
                uint64_t told[6]);

static inline void desk_start_state(const uint8_t *sheet, size_t sheet_length, desk_state *s, uint64_t told[6])
{
    desk_start(sheet, sheet_length, s->heads, s->demands, s->drawn, s->flows, s->statuses, s->grounded, s->sums,
               s->counts, told);
}

static inline void desk_trial_state(const uint8_t *sheet, size_t sheet_length, desk_state *s,
                                    double *heads, size_t heads_length,
                                    double *demands, size_t demands_length,
                                    double *flows, size_t flows_length,
                                    uint8_t *statuses, size_t statuses_length,
                                    uint8_t *record, size_t record_length,
                                    double *scratch, size_t scratch_length,
                                    uint64_t told[6])
{
    desk_trial(sheet, sheet_length, s->heads, s->demands, s->drawn, s->flows, s->statuses, s->grounded, s->sums,
               s->counts, heads, heads_length, demands, demands_length, flows, flows_length, statuses,
               statuses_length, record, record_length, scratch, scratch_length, told);
}

/* An EPANET input text made into a sheet, and the names of its nodes and links. Any bytes of any length are taken;
   docs/INP.md says what of a text is read, and what becomes of it.

   Lent, with the bytes that always suffice (47 + 45 * 512 + 49 * 1,024, and 32 for each of 1,536 names):
     sheet  73,263   on 0: the sheet, from the first byte on; desk_solve takes it as it is, with the length told, and
                     solves or refuses it as any other (512 nodes and 1,024 links are read here, 64 and 128 solved)
     names  49,152   on 0: the names of the nodes, then those of the links, each in the order of the sheet and with a
                     newline behind it; no name holds a newline

   counts, told in any case: number, place, nodes, links, bytes of the sheet, bytes of the names

     number                                                          place
     0   read                                                        0
     10  a line cannot be read                                       the line, from 1
     11  a line has a name that is not known                         the line, from 1
     12  a data line of a section that is not carried                the line, from 1
     5   sheet or names too short                                    6
   The earliest line counts, and in one line 10 before 11; 5 is told of a text that is not refused by a line.

   Changed: on 0 as many bytes of sheet and names as are told; those behind them stay. Else nothing but counts, whose
   last four are 0. */
void desk_text(const uint8_t *text, size_t text_length,
               uint8_t *sheet, size_t sheet_length,
               uint8_t *names, size_t names_length,
               uint64_t counts[6]);

#ifdef __cplusplus
}
#endif

#endif

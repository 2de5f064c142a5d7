/* Damage to a tournament: mostly one that the checks over the whole file find (11 to 17), now and then one that leaves it lawful. */
#include "damage.h"

static uint32_t any_player(chance *c, const reading *r) { return below(c, r->answer.players); }
static uint32_t any_round(chance *c, const reading *r) { return below(c, r->answer.rounds); }
static size_t any_entry(chance *c, const reading *r) { return entry_cell(any_player(c, r), any_round(c, r)); }

static const char RESULTS_OF_ALL[] = "1=0WDL+-HFUZ?";

static void change_result(chance *c, tournament *to) { to->r.t.results[any_entry(c, &to->r)] = byte_of(c, RESULTS_OF_ALL); }

static void change_colour(chance *c, tournament *to) { to->r.t.colours[any_entry(c, &to->r)] = byte_of(c, "wb- "); }

static void change_opponent(chance *c, tournament *to)
{
    reading *r = &to->r;
    uint32_t player = any_player(c, r), *cell = &r->t.opponents[entry_cell(player, any_round(c, r))];
    switch (below(c, 8)) {
    case 0: *cell = 0; break;
    case 1: *cell = r->t.starts[player]; break;
    case 2: *cell = between(c, 1, 9999); break;
    default: *cell = r->t.starts[any_player(c, r)];
    }
}

/* Other results on both sides of a game: at times two that fit each other, else any two. */
static void change_game(chance *c, tournament *to)
{
    static const char OF_GAMES[] = "1=0WDL+-?";
    reading *r = &to->r;
    const char *fit = FITS[below(c, FITTING)];
    uint8_t own = (uint8_t)fit[0], others = (uint8_t)fit[1];
    if (!one_in(c, 3)) own = byte_of(c, OF_GAMES), others = byte_of(c, OF_GAMES);
    uint32_t player = any_player(c, r), round = any_round(c, r), other = place_of(r, r->t.opponents[entry_cell(player, round)]);
    if (other == r->answer.players) return;
    r->t.results[entry_cell(player, round)] = own;
    r->t.results[entry_cell(other, round)] = others;
}

/* Two players change entries, so that each may stand against a third who names somebody else. */
static void swap_entries(chance *c, tournament *to)
{
    tables *t = &to->r.t;
    uint32_t round = any_round(c, &to->r);
    size_t one = entry_cell(any_player(c, &to->r), round), other = entry_cell(any_player(c, &to->r), round);
    uint32_t opponent = t->opponents[one];
    uint8_t colour = t->colours[one], result = t->results[one];
    t->opponents[one] = t->opponents[other], t->colours[one] = t->colours[other], t->results[one] = t->results[other];
    t->opponents[other] = opponent, t->colours[other] = colour, t->results[other] = result;
}

static void make_bye(tables *t, size_t at, uint8_t letter)
{
    t->opponents[at] = 0;
    t->colours[at] = '-';
    t->results[at] = letter;
}

/* The cells of both sides of a game, of an unknown one if there is any; 0 where nobody plays. */
static int find_unknown(chance *c, const reading *r, size_t *own, size_t *others)
{
    uint32_t rounds = r->answer.rounds, entries = r->answer.players * rounds, first = below(c, entries);
    int is_found = 0;
    for (uint32_t i = 0; i < entries; i++) {
        uint32_t at = (first + i) % entries, round = at % rounds;
        size_t cell = entry_cell(at / rounds, round);
        if (r->t.opponents[cell] == 0 || (is_found && r->t.results[cell] != '?')) continue;
        uint32_t other = place_of(r, r->t.opponents[cell]);
        if (other == r->answer.players) continue;
        *own = cell;
        *others = entry_cell(other, round);
        is_found = 1;
        if (r->t.results[cell] == '?') break;
    }
    return is_found;
}

/* An unknown game, made so where there is none, against a rule that it must keep, mostly on one side; or its round past 142. */
static void damage_unknown(chance *c, tournament *to)
{
    tables *t = &to->r.t;
    size_t own, others;
    if (!find_unknown(c, &to->r, &own, &others)) return;
    uint32_t player = (uint32_t)(own / TRF_MOST_ROUNDS), round = (uint32_t)(own % TRF_MOST_ROUNDS);
    t->results[own] = t->results[others] = '?';
    switch (below(c, 9)) {
    case 0: case 1: t->results[own] = byte_of(c, "1=0WDL+-"); break;
    case 2: t->colours[own] = byte_of(c, "- "); break;
    case 3: t->colours[own] = t->colours[others]; break;
    case 4: t->opponents[own] = one_in(c, 2) ? 0 : t->starts[player]; break;
    case 5: t->opponents[own] = one_in(c, 2) ? between(c, 1, 9999) : t->starts[any_player(c, &to->r)]; break;
    case 6: make_bye(t, others, byte_of(c, "HFUZ")); break;
    case 7: to->stated_rounds = round; break;
    default: t->colours[own] = t->colours[others] = byte_of(c, "- ");
    }
}

/* A game becomes two byes; with U on both sides it is refusal 15. */
static void unpair(chance *c, tournament *to)
{
    reading *r = &to->r;
    uint32_t player = any_player(c, r), round = any_round(c, r), other = place_of(r, r->t.opponents[entry_cell(player, round)]);
    uint8_t letter = byte_of(c, "UUUUHFZ");
    if (other < r->answer.players) make_bye(&r->t, entry_cell(other, round), letter);
    make_bye(&r->t, entry_cell(player, round), letter);
}

/* Every bye of a round is U, or some are. */
static void give_u(chance *c, tournament *to)
{
    reading *r = &to->r;
    uint32_t round = any_round(c, r), share = between(c, 1, 2);
    for (uint32_t i = 0; i < r->answer.players; i++) {
        size_t at = entry_cell(i, round);
        if (r->t.opponents[at] == 0 && one_in(c, share)) r->t.results[at] = 'U';
    }
}

/* Off by a little, by what an unknown result earns, or at large. */
static void change_points(chance *c, tournament *to)
{
    uint32_t x = to->r.answer.values[VALUE_X] % 1000, steps[] = {1, 5, 10, 999, 995, 990, x, 1000 - x};
    uint32_t *points = &to->r.t.points[any_player(c, &to->r)];
    *points = one_in(c, 5) ? below(c, 1000) : (*points + steps[below(c, COUNT_OF(steps))]) % 1000;
}

static void change_value(chance *c, tournament *to)
{
    to->r.answer.values[below(c, 6)] = one_in(c, 3) ? below(c, 1000) : 5 * below(c, 8);
}

static void change_rank(chance *c, tournament *to)
{
    static const uint32_t RANKS_TRIED[] = {0, 1, 9999, 10000};
    to->r.t.ranks[any_player(c, &to->r)] = RANKS_TRIED[below(c, COUNT_OF(RANKS_TRIED))];
}

static void change_start(chance *c, tournament *to)
{
    reading *r = &to->r;
    uint32_t *start = &r->t.starts[any_player(c, r)];
    *start = one_in(c, 8) ? 0 : one_in(c, 2) ? between(c, 1, 9999) : r->t.starts[any_player(c, r)];
}

/* Another start number, in every entry that names it too: lawful if nobody had it. */
static void renumber(chance *c, tournament *to)
{
    reading *r = &to->r;
    uint32_t player = any_player(c, r), old = r->t.starts[player], fresh = between(c, 1, 9999);
    r->t.starts[player] = fresh;
    for (size_t i = 0; i < TRF_ENTRY_CELLS; i++)
        if (old != 0 && r->t.opponents[i] == old) r->t.opponents[i] = fresh;
}

/* A record beside an earlier one: its edges meet, pass or miss by one. */
static void add_acceleration(chance *c, tournament *to)
{
    reading *r = &to->r;
    trf_acceleration a = draw_acceleration(c, r);
    if (r->answer.accelerations == TRF_MOST_ACCELERATIONS) return;
    if (r->answer.accelerations > 0 && !one_in(c, 4)) {
        const trf_acceleration *beside = &r->t.accelerations[below(c, r->answer.accelerations)];
        a = *beside;
        if (one_in(c, 2)) a.first_round = beside->last_round + below(c, 2), a.last_round = a.first_round + below(c, 3);
        if (one_in(c, 2)) a.first_start = beside->last_start + below(c, 2), a.last_start = a.first_start + below(c, 3);
        if (one_in(c, 3) && beside->first_round > 1) a.first_round = 1, a.last_round = beside->first_round - below(c, 2);
        if (one_in(c, 3) && beside->first_start > 1) a.first_start = 1, a.last_start = beside->first_start - below(c, 2);
    }
    r->t.accelerations[r->answer.accelerations++] = a;
}

static void add_two_accelerations(chance *c, tournament *to)
{
    add_acceleration(c, to);
    add_acceleration(c, to);
}

/* A bound or the points of a record, by one or at large. */
static void change_acceleration(chance *c, tournament *to)
{
    reading *r = &to->r;
    trf_acceleration *a = &r->t.accelerations[below(c, r->answer.accelerations)];
    uint32_t *parts[] = {&a->points, &a->first_round, &a->last_round, &a->first_start, &a->last_start};
    uint32_t *part = parts[below(c, 5)];
    if (r->answer.accelerations == 0) return;
    *part = one_in(c, 3) ? below(c, 10001) : one_in(c, 2) ? *part + 1 : *part - (*part > 0);
}

static void state_rounds(chance *c, tournament *to)
{
    uint32_t rounds = to->r.answer.rounds;
    to->stated_rounds = one_in(c, 8) ? between(c, 19, 22) : rounds - (rounds > 0 && !one_in(c, 4) ? between(c, 1, rounds) : 0);
}

/* One round more, in which everybody has a bye. */
static void add_round(chance *c, tournament *to)
{
    reading *r = &to->r;
    if (r->answer.rounds == TRF_MOST_ROUNDS) return;
    for (uint32_t i = 0; i < r->answer.players; i++) make_bye(&r->t, entry_cell(i, r->answer.rounds), byte_of(c, "ZZHF"));
    r->answer.rounds++;
    if (to->stated_rounds != NOT_STATED) to->stated_rounds = r->answer.rounds;
}

static void swap_players(chance *c, tournament *to)
{
    tables *t = &to->r.t;
    uint32_t one = any_player(c, &to->r), other = any_player(c, &to->r);
    for (int i = STARTS; i <= RESULTS; i++) {
        size_t cells = TABLE[i].listed / TRF_MOST_PLAYERS, bytes = cells * TABLE[i].cell;
        uint8_t saved[TRF_MOST_ROUNDS * sizeof(uint32_t)];
        memcpy(saved, cell_of(t, i, one * cells), bytes);
        memcpy(cell_of(t, i, one * cells), cell_of(t, i, other * cells), bytes);
        memcpy(cell_of(t, i, other * cells), saved, bytes);
    }
}

typedef void change(chance *c, tournament *to);

static change *const OF_ENTRIES[] = {change_result, change_colour, change_opponent, change_game, swap_entries, unpair, unpair, give_u, damage_unknown};
static change *const OF_THE_REST[] = {change_points, change_value, change_rank, change_start, renumber, add_acceleration, add_two_accelerations,
                                      change_acceleration, state_rounds, state_rounds, add_round, swap_players};

void damage_tournament(chance *c, tournament *to)
{
    const trf_answer *a = &to->r.answer;
    if (a->players == 0 || a->players > TRF_MOST_PLAYERS || a->rounds > TRF_MOST_ROUNDS || a->accelerations > TRF_MOST_ACCELERATIONS) return;
    if (a->rounds > 0 && !one_in(c, 3)) {
        OF_ENTRIES[below(c, COUNT_OF(OF_ENTRIES))](c, to);
        if (!one_in(c, 4)) fix_points(&to->r);
        return;
    }
    OF_THE_REST[below(c, COUNT_OF(OF_THE_REST))](c, to);
    if (one_in(c, 2)) fix_points(&to->r);
}

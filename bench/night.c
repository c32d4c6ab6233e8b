/* The night program in plain C, the yardstick for speed. It reads a night
   file on standard input and writes the run's lines on standard output. Rules
   and names are those of the build paper (01), with busy steps as request 1,
   rules 3 and 4 as request 4, junctions inside subrings as request 6 (02, and
   docs/NESTED.md) and H lines as request 13 has them. Refusals 13 to 15 are not
   tested: from the start state they never occur. */

#include <stdbool.h>
#include <stdint.h>
#include <stdio.h>

enum {
    CEILING = 1000000,
    FILE_LEAST = 11,
    FILE_MOST = 65535,
    LOCKS_MOST = 64,
    POSITIONS_MOST = 16,
    VALUES_MOST = 352,
    LEVELS_MOST = 3,
    NODES_MOST = 64,
    JUNCTIONS_MOST = 144,
    QUEUE_MOST = 65,
    LINE_MOST = 60 /* five numbers of at most 10 digits, a letter, spaces, newline */
};

enum { STEPS, TAKE, RELEASE, FORCE };
enum { IDLE, TOKEN, NULL_CAR, REQP, FAILP, DOV, GOTP, DIDV };
enum { NO_ACTIVITY, SEND_REQP, SEND_DOV, WAIT_REQP, WAIT_DOV };

struct car {
    int kind, lock, source;
};

struct node {
    struct car car;
    bool in_train;
    int activity, activity_lock;
    uint64_t held, letting_go;
};

struct junction {
    struct car main_car, sub_car;
    bool train, tour;
    uint64_t word;
};

/* A queue in a circle: its first car is at place head. */
struct zero_node {
    struct car car;
    struct car queue[QUEUE_MOST];
    int head, count;
};

/* Rules 1 and 3 are ring rules, 2 and 4 multiring rules; under 1 and 2 a release needs an idle activity.
   Junctions are numbered from 0, an outer one before those within it. */
struct plan {
    int rules, locks, positions, users, junctions;
    bool multiring, release_needs_idle;
    int value[VALUES_MOST];
    int within[JUNCTIONS_MOST]; /* the user nodes within each junction */
};

struct run {
    struct plan plan;
    struct zero_node zero;
    struct node nodes[NODES_MOST + 1]; /* numbered from 1 */
    struct junction junctions[JUNCTIONS_MOST];
    int steps;
    int busy[LOCKS_MOST], grants[LOCKS_MOST], fails[LOCKS_MOST];
};

static const struct car idle_car = {IDLE, 0, 0};
static const struct car token_car = {TOKEN, 0, 0};
static const struct car null_car = {NULL_CAR, 0, 0};

/* Lines */

static char out[1 << 16];
static size_t out_length;

static void flush(void)
{
    fwrite(out, 1, out_length, stdout);
    out_length = 0;
}

static void put_number(int number)
{
    char digits[10];
    int count = 0;
    do {
        digits[count++] = (char)('0' + number % 10);
        number /= 10;
    } while (number != 0);
    while (count > 0)
        out[out_length++] = digits[--count];
}

static void put_next(int number)
{
    out[out_length++] = ' ';
    put_number(number);
}

static void begin_line(int steps, char letter, int first, int second)
{
    if (out_length > sizeof out - LINE_MOST)
        flush();
    put_number(steps);
    out[out_length++] = ' ';
    out[out_length++] = letter;
    put_next(first);
    put_next(second);
}

static void line(int steps, char letter, int first, int second)
{
    begin_line(steps, letter, first, second);
    out[out_length++] = '\n';
}

static void lock_line(int steps, int lock, int busy, int grants, int fails)
{
    begin_line(steps, 'H', lock, busy);
    put_next(grants);
    put_next(fails);
    out[out_length++] = '\n';
}

/* Sets of locks */

static uint64_t bit(int lock)
{
    return (uint64_t)1 << lock;
}

/* The lowest lock of a set that is not empty (a GCC and Clang builtin). */
static int lowest(uint64_t set)
{
    return __builtin_ctzll(set);
}

/* One step. Each turn takes the car that arrives and answers the car sent
   before the step, which arrives at the next sender. So the state is changed
   in place, in travelling order. */

static struct car carrying(int kind, int lock, int source)
{
    struct car car = {kind, lock, source};
    return car;
}

/* Rules 1 to 3. */
static struct car join_train(struct run *run, struct node *node, int number)
{
    if (node->activity == SEND_REQP) {
        node->activity = WAIT_REQP;
        return carrying(REQP, node->activity_lock, number);
    }
    if (node->activity == SEND_DOV) {
        node->activity = WAIT_DOV;
        return carrying(DOV, node->activity_lock, number);
    }
    if (node->letting_go != 0) {
        int lock = lowest(node->letting_go);
        node->letting_go &= ~bit(lock);
        line(run->steps, 'D', number, lock);
        return carrying(DIDV, lock, number);
    }
    return idle_car;
}

/* Rules 4, 5 and 7: an own car returns. */
static struct car own_returns(struct run *run, struct node *node, int number, struct car car)
{
    node->activity = NO_ACTIVITY;
    if (car.kind == REQP) {
        node->held |= bit(car.lock);
        run->grants[car.lock]++;
        line(run->steps, 'G', number, car.lock);
        if (run->plan.multiring)
            return carrying(GOTP, car.lock, number);
    } else if (car.kind == FAILP) {
        run->fails[car.lock]++;
        line(run->steps, 'N', number, car.lock);
    } else {
        line(run->steps, 'B', number, car.lock);
    }
    return null_car;
}

/* Rules 6 and 8: another's car. */
static struct car pass_on(struct run *run, struct node *node, int number, struct car car)
{
    if (car.kind == REQP && node->in_train && ((node->held | node->letting_go) & bit(car.lock))) {
        car.kind = FAILP;
    } else if (car.kind == DOV && (node->held & bit(car.lock))) {
        node->held &= ~bit(car.lock);
        if (run->plan.multiring)
            node->letting_go |= bit(car.lock);
        line(run->steps, 'L', number, car.lock);
    }
    return car;
}

static inline struct car user_turn(struct run *run, int number, struct car car)
{
    struct node *node = &run->nodes[number];
    struct car before = node->car;
    if (car.kind == IDLE) {
        if (node->in_train)
            car = join_train(run, node, number);
    } else if (car.kind == REQP || car.kind == FAILP || car.kind == DOV) {
        if (car.source == number)
            car = own_returns(run, node, number, car);
        else
            car = pass_on(run, node, number, car);
    }
    if (car.kind == TOKEN)
        node->in_train = true;
    else if (car.kind == IDLE)
        node->in_train = false;
    node->car = car;
    return before;
}

static bool wants_train(const struct run *run, int first, int size)
{
    for (int number = first; number < first + size; number++)
        if (run->nodes[number].activity != NO_ACTIVITY || run->nodes[number].letting_go != 0)
            return true;
    return false;
}

/* A reqp is rewritten by a junction on the main ring, and by an inner one whose train flag says that the car is on a train. */
static void outside_tour(struct junction *junction, struct car car, bool wanted, bool inner)
{
    if (car.kind == TOKEN && wanted) {
        junction->tour = true;
        junction->sub_car = token_car;
        junction->main_car = idle_car;
        return;
    }
    junction->sub_car = car.kind == TOKEN ? idle_car : car;
    if (car.kind == REQP && (junction->word & bit(car.lock)) && (!inner || junction->train))
        car.kind = FAILP;
    junction->main_car = car;
}

static void in_tour(struct junction *junction, struct car car, struct car from_sub, bool own)
{
    junction->sub_car = car;
    if (from_sub.kind == TOKEN)
        junction->train = true;
    if (!junction->train) {
        junction->main_car = idle_car;
        return;
    }
    junction->main_car = from_sub;
    if (from_sub.kind == IDLE)
        junction->train = junction->tour = false;
    else if (from_sub.kind == GOTP && own)
        junction->word |= bit(from_sub.lock);
    else if (from_sub.kind == DIDV && own)
        junction->word &= ~bit(from_sub.lock);
}

static void junction_turn(struct junction *junction, int first, int size, bool wanted, bool inner,
                          struct car car, struct car from_sub)
{
    if (junction->tour)
        in_tour(junction, car, from_sub, from_sub.source >= first && from_sub.source < first + size);
    else
        outside_tour(junction, car, wanted, inner);
    if (inner && junction->main_car.kind == TOKEN)
        junction->train = true;
    else if (inner && junction->main_car.kind == IDLE)
        junction->train = false;
}

/* Where a step has come to: the next byte of the positions, the next user node and the next junction. */
struct place {
    int value, number, junction;
};

static struct car ring_turn(struct run *run, struct place *at, int count, bool inner, struct car car);

/* A junction with so many user nodes on its subring, or (0) with the list of positions that follows. */
static struct car subring_turn(struct run *run, struct place *at, int users, bool inner, struct car car)
{
    int first = at->number, size = run->plan.within[at->junction];
    struct junction *junction = &run->junctions[at->junction++];
    struct car main_before = junction->main_car;
    struct car from_sub = junction->sub_car;
    bool wanted = car.kind == TOKEN && !junction->tour && wants_train(run, first, size);
    if (users == 0)
        from_sub = ring_turn(run, at, run->plan.value[at->value++], true, from_sub);
    for (; users > 0; users--)
        from_sub = user_turn(run, at->number++, from_sub);
    junction_turn(junction, first, size, wanted, inner, car, from_sub);
    return main_before;
}

/* So many positions of a ring, the main ring or (inner) a subring. */
static struct car ring_turn(struct run *run, struct place *at, int count, bool inner, struct car car)
{
    for (; count > 0; count--) {
        int value = run->plan.value[at->value++];
        if (value == 0)
            car = user_turn(run, at->number++, car);
        else
            car = subring_turn(run, at, value == 5 ? 0 : value, inner, car);
    }
    return car;
}

static void zero_turn(struct zero_node *zero, struct car car)
{
    zero->car = idle_car;
    if (zero->count > 0 && (zero->queue[zero->head].kind != TOKEN || car.kind == IDLE)) {
        zero->car = zero->queue[zero->head];
        zero->head = (zero->head + 1) % QUEUE_MOST;
        zero->count--;
    }
    if (car.kind != IDLE && car.kind != NULL_CAR && car.kind != GOTP && car.kind != DIDV) {
        zero->queue[(zero->head + zero->count) % QUEUE_MOST] = car;
        zero->count++;
    }
}

/* The locks that some node holds or is letting go. */
static uint64_t all_had(const struct run *run)
{
    uint64_t had = 0;
    for (int number = 1; number <= run->plan.users; number++)
        had |= run->nodes[number].held | run->nodes[number].letting_go;
    return had;
}

static void step(struct run *run)
{
    struct place start = {0, 1, 0};
    run->steps++;
    zero_turn(&run->zero, ring_turn(run, &start, run->plan.positions, false, run->zero.car));
    for (uint64_t had = all_had(run); had != 0; had &= had - 1)
        run->busy[lowest(had)]++;
}

/* Actions */

/* The refusal's number, or 0 where the action is accepted. */
static int refusal(const struct run *run, int action, int number, int lock)
{
    if (number < 1 || number > run->plan.users)
        return 7;
    if (lock >= run->plan.locks)
        return 8;
    const struct node *node = &run->nodes[number];
    bool holds = node->held & bit(lock);
    if (node->activity != NO_ACTIVITY && (action != RELEASE || run->plan.release_needs_idle))
        return 9;
    if (action == RELEASE)
        return holds ? 0 : 12;
    if (holds)
        return 10;
    return node->letting_go & bit(lock) ? 11 : 0;
}

static void act(struct run *run, int action, int number, int lock)
{
    struct node *node = &run->nodes[number];
    if (action == RELEASE) {
        node->held &= ~bit(lock);
        if (run->plan.multiring)
            node->letting_go |= bit(lock);
    } else {
        node->activity = action == TAKE ? SEND_REQP : SEND_DOV;
        node->activity_lock = lock;
    }
    line(run->steps, " TRF"[action], number, lock);
}

/* The night file */

static int pair(const uint8_t *bytes)
{
    return bytes[0] + 256 * bytes[1];
}

static bool contents_right(const uint8_t *file, int length)
{
    int plan_length = pair(file + 4), schedule_length = pair(file + 9);
    return file[0] == 2 && file[1] == 1 && pair(file + 2) == FILE_LEAST
        && file[6] == 2 && pair(file + 7) == FILE_LEAST + plan_length
        && FILE_LEAST + plan_length + schedule_length == length;
}

/* Whether the bytes of the positions end exactly where the positions do, whatever their values are. */
static bool ends_exactly(const uint8_t *bytes, int length, int positions)
{
    int place = 0;
    for (; positions > 0 && place < length; positions--)
        if (bytes[place++] == 5) {
            if (place == length)
                return false;
            positions += bytes[place++];
        }
    return positions == 0 && place == length;
}

/* Reads so many positions, from a byte on; the byte behind them, or -1 where a value is outside its range. */
static int read_positions(struct plan *plan, const uint8_t *bytes, int place, int count, int levels)
{
    for (; count > 0; count--) {
        int value = bytes[place++];
        if (value == 0) {
            plan->users++;
            continue;
        }
        if (value > 5 || levels == 0 || !plan->multiring || plan->junctions == JUNCTIONS_MOST)
            return -1;
        int before = plan->users, junction = plan->junctions++;
        if (value < 5) {
            plan->users += value;
        } else {
            int listed = bytes[place++];
            if (listed < 1 || listed > 4)
                return -1;
            place = read_positions(plan, bytes, place, listed, levels - 1);
            if (place < 0)
                return -1;
        }
        plan->within[junction] = plan->users - before;
    }
    return place;
}

/* Reads a plan whose bytes end with its positions; false where a value is outside its range. */
static bool read_plan(struct plan *plan, const uint8_t *body)
{
    plan->rules = body[0];
    plan->locks = body[1];
    plan->positions = body[2];
    if (plan->rules < 1 || plan->rules > 4)
        return false;
    plan->multiring = plan->rules % 2 == 0;
    plan->release_needs_idle = plan->rules <= 2;
    if (plan->locks < 1 || plan->locks > LOCKS_MOST)
        return false;
    if (plan->positions < 1 || plan->positions > POSITIONS_MOST)
        return false;
    int end = read_positions(plan, body + 3, 0, plan->positions, LEVELS_MOST);
    if (end < 0 || plan->users > NODES_MOST)
        return false;
    for (int place = 0; place < end; place++)
        plan->value[place] = body[3 + place];
    return true;
}

/* The refusal's number, or 0 with the plan read. With 6 the place of the first bad item, counted from 0. */
static int read_file(struct plan *plan, const uint8_t *file, int length, int *bad)
{
    if (length < FILE_LEAST || length > FILE_MOST)
        return 1;
    if (!contents_right(file, length))
        return 2;
    const uint8_t *body = file + FILE_LEAST;
    int plan_length = pair(file + 4), schedule_length = pair(file + 9);
    if (plan_length < 3 || !ends_exactly(body + 3, plan_length - 3, body[2]))
        return 3;
    if (!read_plan(plan, body))
        return 4;
    if (schedule_length % 3 != 0)
        return 5;
    for (int place = 0; place < schedule_length / 3; place++)
        if (body[plan_length + 3 * place] > FORCE) {
            *bad = place;
            return 6;
        }
    return 0;
}

/* The run. All of the start state is zero, but for the token. */

static bool do_steps(struct run *run, int count)
{
    for (; count > 0; count--) {
        if (run->steps == CEILING)
            return false;
        step(run);
    }
    return true;
}

/* False where the ceiling stopped the run. */
static bool do_items(struct run *run, const uint8_t *schedule, int count)
{
    for (int place = 0; place < count; place++) {
        const uint8_t *item = schedule + 3 * place;
        if (item[0] == STEPS) {
            if (!do_steps(run, pair(item + 1)))
                return false;
        } else {
            int number = refusal(run, item[0], item[1], item[2]);
            if (number == 0)
                act(run, item[0], item[1], item[2]);
            else
                line(run->steps, 'X', number, place);
        }
    }
    return true;
}

int main(void)
{
    static uint8_t file[FILE_MOST + 1];
    static struct run run;
    int length = (int)fread(file, 1, sizeof file, stdin);
    int bad = 0;
    int refused = read_file(&run.plan, file, length, &bad);
    if (refused != 0) {
        line(0, 'Q', refused, bad);
    } else {
        run.zero.car = token_car;
        const uint8_t *schedule = file + FILE_LEAST + pair(file + 4);
        bool all = do_items(&run, schedule, pair(file + 9) / 3);
        int grants = 0, fails = 0;
        for (int lock = 0; lock < run.plan.locks; lock++) {
            lock_line(run.steps, lock, run.busy[lock], run.grants[lock],
                      run.fails[lock]);
            grants += run.grants[lock];
            fails += run.fails[lock];
        }
        line(run.steps, all ? 'E' : 'C', grants, fails);
    }
    flush();
    return fflush(stdout) != 0 || ferror(stdout) != 0;
}

/* A small game server in C, with the engine in its process: scripts of its admin and of players, one that runs away,
   one that is replaced, and one whose ask is never answered.

       make check

   Prints what stands in ../game.expected, as the hosts of the other folders do over asremote. */
#include "bustlebrick.h"

#include <inttypes.h>
#include <stdio.h>
#include <stdlib.h>
#include <string.h>

enum { PLAYERS = 1, STAFF = 2, BOTH = PLAYERS | STAFF };
enum { MOST_MONSTERS = 16, MONSTER_DRIVER = 1 };

/* ---- What scripts may use. The number of an entry is also its `F`. */

enum entry { MONSTER, HEALTH, SAY, PURSE, ROLL, OPEN, MAKE, HIT, ARMOR, STRONGER, GRANT, PRICE, ENTRIES };

static const struct {
    unsigned mask;
    const char *line, *declaration;
} entries[ENTRIES] = {
    [MONSTER] = {BOTH, "type Monster 1", NULL},
    [HEALTH] = {BOTH, "method Monster", "int health() const"},
    [SAY] = {BOTH, "function 0", "void say(int64)"},
    [PURSE] = {BOTH, "function 0", "int64 purse(int64)"},
    [ROLL] = {BOTH, "function 0", "uint8 roll(uint8)"},
    [OPEN] = {BOTH, "global 0", "const bool open"},
    [MAKE] = {STAFF, "factory Monster", "Monster@ f(int)"},
    [HIT] = {STAFF, "method Monster", "void hit(int)"},
    [ARMOR] = {STAFF, "property Monster", "int armor"},
    [STRONGER] = {STAFF, "function 1", "Monster@+ stronger(Monster@+, Monster@+)"},
    [GRANT] = {STAFF, "function 0", "void grant(int64, int64)"},
    [PRICE] = {STAFF, "global 0", "int64 price"},
};

static const char admin_script[] = "Monster@ troll = Monster(30);\n"
                                   "\n"
                                   "int wound(int n) {\n"
                                   "  troll.hit(n);\n"
                                   "  return troll.health();\n"
                                   "}\n"
                                   "int armored(int n) {\n"
                                   "  troll.armor += n;\n"
                                   "  return troll.armor;\n"
                                   "}\n"
                                   "bool wins(int health) {\n"
                                   "  Monster other(health);\n"
                                   "  return stronger(troll, other) is troll;\n"
                                   "}\n"
                                   "int64 reward(int64 player, int64 gold) {\n"
                                   "  grant(player, gold);\n"
                                   "  price += gold;\n"
                                   "  return price;\n"
                                   "}\n"
                                   "void retire() { @troll = null; }\n";

/* The player's script, before and after how strong it strikes. */
static const char player_script[] = "import int wound(int) from \"admin\";\n"
                                    "\n"
                                    "int attack(int n) {\n"
                                    "  say(n);\n"
                                    "  return wound(%s);\n"
                                    "}\n"
                                    "int64 gold() { return purse(1); }\n"
                                    "uint8 luck(uint8 sides) { return roll(sides); }\n"
                                    "bool may_enter() { return open; }\n"
                                    "void spin() { while (true) {} }\n";

static const char cheat[] = "void cheat() { grant(1, 1000); }";

/* ---- The host's things, and what it answers */

struct monster {
    int left, armor;
};

struct game {
    bb_engine *engine;
    const char *player; /* the script of that module */
    struct monster monsters[MOST_MONSTERS]; /* by their keys */
    int made, living;
    int64_t purse, price;
};

static void gives(bb_answer *answer, int64_t number)
{
    answer->kind = BB_GAVE;
    answer->value.kind = BB_INT;
    answer->value.as.i64 = number;
}

static void make(struct game *game, int health, bb_answer *answer)
{
    if (game->made + 1 == MOST_MONSTERS) {
        answer->kind = BB_NOTHING;
        return;
    }
    game->made++;
    game->living++;
    game->monsters[game->made] = (struct monster){health, 0};
    answer->kind = BB_MADE;
    answer->value.as.key = (uint64_t)game->made;
}

static void hit(struct monster *monster, int n, bb_answer *answer)
{
    if (n < 0) {
        answer->kind = BB_FAULT;
        answer->fault = 7;
    } else if (n > monster->armor)
        monster->left -= n - monster->armor;
}

static void armor(struct monster *monster, const bb_ask *ask, bb_answer *answer)
{
    if (ask->kind == BB_WRITE)
        monster->armor = (int)ask->values[0].as.i64;
    else
        gives(answer, monster->armor);
}

static void price(struct game *game, const bb_ask *ask, bb_answer *answer)
{
    if (ask->kind == BB_WRITE)
        game->price = ask->values[0].as.i64;
    else
        gives(answer, game->price);
}

/* What the library calls. The values are of the kinds that the entry declares. */
static void answer_ask(void *data, const bb_ask *ask, bb_answer *answer)
{
    struct game *game = data;
    struct monster *monsters = game->monsters, *monster = ask->has_object ? &monsters[ask->object] : NULL;
    const bb_value *values = ask->values;
    switch (ask->function) {
    case HEALTH:
        gives(answer, monster->left);
        break;
    case SAY:
        printf("say %" PRId64 "\n", values[0].as.i64);
        break;
    case PURSE:
        gives(answer, game->purse);
        break;
    case ROLL:
        answer->kind = BB_GAVE;
        answer->value.kind = BB_UINT;
        answer->value.as.u64 = values[0].as.u64 - 1;
        break;
    case OPEN:
        answer->kind = BB_GAVE;
        answer->value.kind = BB_BOOL;
        answer->value.as.truth = true;
        break;
    case MAKE:
        make(game, (int)values[0].as.i64, answer);
        break;
    case HIT:
        hit(monster, (int)values[0].as.i64, answer);
        break;
    case ARMOR:
        armor(monster, ask, answer);
        break;
    case STRONGER:
        answer->kind = BB_GAVE;
        answer->value = values[monsters[values[0].as.key].left < monsters[values[1].as.key].left];
        break;
    case GRANT:
        game->purse += values[1].as.i64;
        break;
    case PRICE:
        price(game, ask, answer);
        break;
    }
}

/* ---- Engines */

static void put_profile(char *text, size_t room)
{
    size_t at = 0;
    for (int entry = 0; entry < ENTRIES && at < room; entry++) {
        at += (size_t)snprintf(text + at, room - at, "mask %08x\n%s", entries[entry].mask, entries[entry].line);
        if (entries[entry].declaration && at < room)
            at += (size_t)snprintf(text + at, room - at, " %d %s", entry, entries[entry].declaration);
        if (at < room)
            at += (size_t)snprintf(text + at, room - at, "\n");
    }
}

static void start(struct game *game)
{
    char profile[2000];
    put_profile(profile, sizeof profile);
    bb_options options = {.profile = profile, .profile_bytes = strlen(profile), .drivers = 2, .budget = 10000};
    options.host = answer_ask;
    options.data = game;
    game->engine = bb_new(&options);
    if (!game->engine || bb_state_of(game->engine) != BB_DONE) {
        fputs("game: no engine\n", stderr);
        exit(1);
    }
    game->made = game->living = 0; /* no script holds what an engine before this one asked for */
}

/* ---- Commands and their replies */

/* The next line of a text, without its LF; its bytes are 0 behind the last one. */
static const char *next_line(const char **at, const char *end, size_t *bytes)
{
    const char *line = *at, *line_end = memchr(line, '\n', (size_t)(end - line));
    *bytes = line_end ? (size_t)(line_end - line) : 0;
    *at = line_end ? line_end + 1 : end;
    return line;
}

static bool begins_with(const char *line, size_t bytes, const char *word)
{
    return bytes >= strlen(word) && memcmp(line, word, strlen(word)) == 0;
}

/* Lets go of the monsters whose end the reply tells. */
static void count_ends(struct game *game)
{
    size_t bytes, line_bytes;
    const char *at = bb_reply(game->engine, &bytes), *end = at + bytes;
    while (at < end) {
        const char *line = next_line(&at, end, &line_bytes);
        game->living -= begins_with(line, line_bytes, "end 1 ");
    }
}

/* Does a command, by the callback. */
static void command(struct game *game, const char *text)
{
    if (bb_command(game->engine, text, strlen(text)) != BB_DONE) {
        fprintf(stderr, "game: %s was not done\n", text);
        exit(1);
    }
    count_ends(game);
}

static void section(struct game *game, const char *module, const char *text)
{
    if (bb_section(game->engine, module, text, strlen(text)) != BB_DONE)
        exit(1);
}

static void print_outcome(const struct game *game, const char *what)
{
    size_t bytes;
    const char *outcome = bb_outcome(game->engine, &bytes);
    bool has_value = begins_with(outcome, bytes, "ok ");
    printf("%s: %.*s\n", what, (int)(has_value ? bytes - 3 : bytes), has_value ? outcome + 3 : outcome);
}

/* A denial with the declaration of its entry: `denied PLACE ENTRY EMASK MMASK`. */
static void print_denial(const char *line)
{
    char place[64];
    unsigned entry;
    if (sscanf(line, "denied %63s %u", place, &entry) == 2 && entry < ENTRIES)
        printf("  denied %s %s\n", place, entries[entry].declaration);
}

static void build(struct game *game, const char *module)
{
    char text[100];
    size_t bytes, line_bytes;
    snprintf(text, sizeof text, "build %s", module);
    command(game, text);
    print_outcome(game, module);
    const char *at = bb_reply(game->engine, &bytes), *end = at + bytes;
    while (at < end) {
        const char *line = next_line(&at, end, &line_bytes);
        if (begins_with(line, line_bytes, "denied "))
            print_denial(line);
        else if (at < end)
            printf("  %.*s\n", (int)line_bytes, line);
    }
}

static void make_module(struct game *game, const char *name, unsigned mask, const char *script)
{
    char text[100];
    snprintf(text, sizeof text, "module %s %08x", name, mask);
    command(game, text);
    section(game, name, script);
    build(game, name);
}

/* A function in which a command ended with a fault, its place, and the line there: the host has the texts of its
   modules, the engine none. */
static void print_frame(const struct game *game, const char *module, const char *name, const char *place)
{
    const char *script = strcmp(module, "admin") == 0 ? admin_script : game->player, *end;
    unsigned line = 1;
    sscanf(place, "%*u:%u", &line);
    for (; line > 1 && (end = strchr(script, '\n')); line--)
        script = end + 1;
    script += strspn(script, " ");
    printf("  in %s %s %s: %.*s\n", module, name, place, (int)strcspn(script, "\n"), script);
}

/* The trace: lines `at MODULE NAME PLACE AT`, with the place of the name and that of the statement, or `-`. */
static void print_trace(struct game *game)
{
    char module[64], name[64], declared[64], statement[64];
    size_t bytes, line_bytes;
    command(game, "trace");
    const char *at = bb_reply(game->engine, &bytes), *end = at + bytes;
    while (at < end) {
        const char *line = next_line(&at, end, &line_bytes);
        if (sscanf(line, "at %63s %63s %63s %63s", module, name, declared, statement) == 4)
            print_frame(game, module, name, strcmp(statement, "-") == 0 ? declared : statement);
    }
}

/* Does a call, and prints what it gave, or how it ended. */
static void tell(struct game *game, const char *what, const char *text)
{
    size_t bytes;
    command(game, text);
    print_outcome(game, what);
    const char *outcome = bb_outcome(game->engine, &bytes);
    if (begins_with(outcome, bytes, "fault "))
        print_trace(game);
}

static void call(struct game *game, const char *what, const char *module_and_values, const char *declaration)
{
    char text[200];
    snprintf(text, sizeof text, "call %s %s", module_and_values, declaration);
    tell(game, what, text);
}

/* The number of a function that is looked up, to be called again and again without its text. */
static unsigned prepare(struct game *game, const char *module_and_declaration)
{
    char text[200];
    size_t bytes;
    unsigned number = 0;
    snprintf(text, sizeof text, "prepare %s", module_and_declaration);
    command(game, text);
    if (sscanf(bb_reply(game->engine, &bytes), "prepared %u", &number) != 1)
        exit(1);
    return number;
}

static void run(struct game *game, const char *what, unsigned number, const char *values)
{
    char text[200];
    snprintf(text, sizeof text, "run %u %s", number, values);
    tell(game, what, text);
}

/* ---- The game */

static void print_ends(struct game *game, const char *what)
{
    size_t bytes, line_bytes;
    const char *at = bb_reply(game->engine, &bytes), *end = at + bytes;
    while (at < end) {
        const char *line = next_line(&at, end, &line_bytes);
        if (begins_with(line, line_bytes, "end "))
            printf("%s: %.*s\n", what, (int)line_bytes, line);
    }
}

/* An ask that is not answered: the script waits, and the engine is given up. The next one has no modules. */
static void hang(struct game *game)
{
    static const char text[] = "call admin (1) int wound(int)";
    section(game, "admin", admin_script);
    command(game, "build admin"); /* the troll that was retired is made anew */
    if (bb_begin(game->engine, text, sizeof text - 1) == BB_ASKS)
        puts("the engine hung");
    bb_free(game->engine);
    start(game);
}

static void play_players(struct game *game, const char *stronger)
{
    call(game, "may enter", "player ()", "bool may_enter()");
    call(game, "luck of 6", "player (6u)", "uint8 luck(uint8)");
    call(game, "attack with 4, unbound", "player (4)", "int attack(int)");
    command(game, "bind player 0 admin int wound(int)");
    unsigned attack = prepare(game, "player int attack(int)");
    run(game, "attack with 4", attack, "(4)");
    run(game, "attack with -1", attack, "(-1)");
    call(game, "gold", "player ()", "int64 gold()");
    call(game, "reward", "admin (1,50)", "int64 reward(int64, int64)");
    call(game, "gold", "player ()", "int64 gold()");
    call(game, "heal", "player ()", "void heal()");

    /* A script that asks for what its mask hides, and one that doesn't end. */
    make_module(game, "cheater", PLAYERS, cheat);
    command(game, "discard cheater");
    call(game, "spin", "player ()", "void spin()");

    /* A new script for the player, while the admin's goes on with its troll. The import is to be bound anew, and what was
       looked up is to be prepared anew. */
    game->player = stronger;
    section(game, "player", stronger);
    build(game, "player");
    command(game, "bind player 0 admin int wound(int)");
    attack = prepare(game, "player int attack(int)");
    run(game, "attack with 4", attack, "(4)");
    call(game, "armor", "admin (3)", "int armored(int)");
    run(game, "attack with 4", attack, "(4)");
}

static void play(struct game *game)
{
    char player[1000], stronger[1000];
    snprintf(player, sizeof player, player_script, "n");
    snprintf(stronger, sizeof stronger, player_script, "n * 2");
    make_module(game, "admin", BOTH, admin_script);
    game->player = player;
    make_module(game, "player", PLAYERS, player);
    play_players(game, stronger);

    /* The host keeps an object as long as scripts hold it. */
    call(game, "wins over 10", "admin (10)", "bool wins(int)");
    call(game, "wins over 20", "admin (20)", "bool wins(int)");
    printf("monsters: %d\n", game->living);
    command(game, "call admin () void retire()");
    print_ends(game, "retire");
    printf("monsters: %d\n", game->living);

    hang(game);
    call(game, "wound with 1", "admin (1)", "int wound(int)");
    make_module(game, "admin", BOTH, admin_script);
    call(game, "wound with 1", "admin (1)", "int wound(int)");
    printf("monsters: %d\n", game->living);

    /* A line that no command spells. */
    command(game, "nonsense");
    print_outcome(game, "nonsense");
    call(game, "wound with 1", "admin (1)", "int wound(int)");
}

int main(void)
{
    struct game game = {.purse = 100, .price = 5};
    start(&game);
    play(&game);
    bb_free(game.engine);
    return 0;
}

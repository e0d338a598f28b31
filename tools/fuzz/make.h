/* Makes lists by the grammar of docs/RULES.md for libFuzzer, as bytes of fuzz.c: a kind less one, and 128 for a line break before the token. */
#include <stddef.h>
#include <stdint.h>
#include <string.h>

#define HEAD 4 /* the bytes before a list that say what is done */

/* The rules: a capital letter is a rule's name, and any other sign a token or one of several (`token`). The first choice of a rule is a short one.
 * A choice after `#` is a fault, for which a refusal or a record is due, and rarely taken. */
static const char *const rules[26][10] = {
    ['E' - 'A'] = {"A", "A", "A,E"},                                                         /* Expression */
    ['A' - 'A'] = {"B", "B", "T=A", "S%A", "B?A:A", "x>C", "(F)>C", "ax>C", "a(F)>C"},       /* AssignmentExpression */
    ['B' - 'A'] = {"U", "U", "U*B"},                                                         /* operators */
    ['C' - 'A'] = {"x", "(A)", "!U", "x*B", "x=A", "(F)>C", "#{O}"},                         /* bodies of arrows */
    ['U' - 'A'] = {"P", "P", "P", "!U", "+S", "S+", "#P+"},                                  /* UnaryExpression */
    ['P' - 'A'] = {"x", "1", "(E)", "[L]", "{O}", "P.w", "P[E]", "P(N)", "a(N)"},            /* LeftHandSideExpression */
    ['L' - 'A'] = {"", "A", "A,L", "_A", ",L", "_A,L"},                                      /* elements */
    ['N' - 'A'] = {"", "A", "A,N", "_A", "_A,N", "#,N"},                                     /* arguments */
    ['O' - 'A'] = {"", "K", "K,O"},                                                          /* properties */
    ['K' - 'A'] = {"x", "w:A", "s:A", "[A]:A", "_A", "#x=A"},                                /* one property */
    ['S' - 'A'] = {"x", "P.w", "P[E]", "(S)"},                                               /* simple targets */
    ['T' - 'A'] = {"S", "[M]", "{Q}", "#P"},                                                 /* targets */
    ['V' - 'A'] = {"T", "T=A"},                                                              /* a target with a default */
    ['M' - 'A'] = {"", "V", "V,M", ",M", "_T", "#_V,M"},                                     /* parts of an array target */
    ['Q' - 'A'] = {"", "x", "x=A", "w:V", "x,Q", "w:V,Q", "_S", "#_T,Q"},                    /* parts of an object target */
    ['D' - 'A'] = {"x", "[H]", "{J}"},                                                       /* bindings */
    ['G' - 'A'] = {"D", "D=A"},                                                              /* a binding with a default */
    ['F' - 'A'] = {"", "G", "G,F", "_D", "#_G,F"},                                           /* parameters */
    ['H' - 'A'] = {"", "G", "G,H", ",H", "_D", "#_G,H"},                                     /* parts of an array binding */
    ['J' - 'A'] = {"", "x", "x=A", "w:G", "x,J", "w:G,J", "_x", "#_D"},                      /* parts of an object binding */
};

/* A list while it is made: up to `most` bytes, and short choices alone once `room` are there. */
typedef struct {
    uint8_t *bytes;
    size_t length, room, most;
    uint64_t random;
} made_t;

/* A number below `n`. */
static unsigned below(made_t *made, unsigned n) {
    made->random = made->random * 6364136223846793005u + 1442695040888963407u;
    return (unsigned)(made->random >> 33) % n;
}

/* The kind of a rule's sign. */
static unsigned token(made_t *made, char sign) {
    static const char fixed[] = "()[]{},:?._>";
    switch (sign) {
    case 'x': return below(made, 6) ? 1 : 1 + below(made, 5);   /* a name */
    case 'a': return 2;                                         /* async */
    case 'w': return (13 + below(made, 14)) % 17 + 1;           /* a word: kinds 11 to 13 are none */
    case 's': return 11 + below(made, 2);                       /* a string or a number */
    case '1': return 7 + below(made, 7);                        /* a literal */
    case '!': return below(made, 4) ? 30 + below(made, 5) : 57 + below(made, 2); /* a prefix operator */
    case '+': return 36 + below(made, 2);                       /* an update */
    case '*': return 38 + below(made, 25);                      /* an operator */
    case '=': return 63;
    case '%': return 64 + below(made, 15);                      /* a compound assignment */
    default: return 18 + (unsigned)(strchr(fixed, sign) - fixed); /* brackets and signs, kinds 18 to 29 */
    }
}

/* A token, now and then with a break before it, more rarely where a break counts. */
static void put(made_t *made, char sign) {
    if (made->length == made->most) return;
    unsigned kind = token(made, sign);
    int counts = sign == '>' || sign == '+' || (made->length && made->bytes[made->length - 1] % 128 == 1);
    made->bytes[made->length++] = (uint8_t)(kind - 1 + (below(made, counts ? 400 : 24) ? 0 : 128));
}

/* One of a rule's choices. */
static const char *choice_of(made_t *made, char rule, int is_short) {
    const char *const *choices = rules[rule - 'A'];
    unsigned count = 0;
    while (count < 10 && choices[count]) count++;
    const char *choice = choices[is_short ? 0 : below(made, count)];
    if (*choice != '#') return choice;
    return below(made, 16) ? choices[0] : choice + 1;
}

/* Writes what a text of rules and tokens stands for. */
static void grow(made_t *made, const char *text, int depth) {
    for (; *text; text++) {
        if (*text < 'A' || *text > 'Z')
            put(made, *text);
        else
            grow(made, choice_of(made, *text, made->length >= made->room || depth > 120), depth + 1);
    }
}

/* One Expression of about `room` bytes, or, where it is short, one binding. */
static size_t make(uint8_t *bytes, size_t room, size_t most, uint64_t random) {
    made_t made = {bytes, 0, room, most, random};
    grow(&made, room > 64 || below(&made, 4) ? "E" : "G", 0);
    while (made.length < room) grow(&made, ",A", 0);
    return made.length;
}

size_t LLVMFuzzerMutate(uint8_t *data, size_t size, size_t max_size);

/* Once in four times a list made anew, once in four a made piece put in the place of another, else libFuzzer's own changes. */
size_t LLVMFuzzerCustomMutator(uint8_t *data, size_t size, size_t max_size, unsigned seed) {
    made_t random = {.random = seed};
    unsigned how = below(&random, 4);
    if (how > 1 || size < HEAD || max_size <= HEAD) return LLVMFuzzerMutate(data, size, max_size);
    data[0] = (uint8_t)below(&random, 6), data[1] = (uint8_t)below(&random, 256);
    data[2] = (uint8_t)below(&random, 256), data[3] = (uint8_t)below(&random, 256);
    uint8_t *list = data + HEAD;
    size_t length = size - HEAD, most = max_size - HEAD, from = how ? below(&random, (unsigned)length + 1) : 0;
    static uint8_t rest[1 << 16];
    size_t kept = length - from, left_out = how ? below(&random, 8) : kept;
    if (left_out > kept) left_out = kept;
    kept -= left_out;
    if (kept > sizeof rest) return size;
    memcpy(rest, list + from + left_out, kept);
    size_t space = most - from - kept, room = below(&random, (unsigned)(how ? 8 : 1 + below(&random, (unsigned)most)));
    size_t made = make(list + from, room < space ? room : space, space, random.random);
    memcpy(list + from + made, rest, kept);
    return HEAD + from + made + kept;
}

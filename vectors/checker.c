/* A checker in C, from docs/CERTIFICATES.md: checker check BOOK CERT | weigh-check BOOK WEIGHTS CERT | place-check SLOTS CERT
   cc -O2 -o checker vectors/checker.c; vectors/run --only check,weigh-check,place-check ./checker
   Numbers have 128 bits, which is enough in the order of the tests that the page has. */
#include <stdarg.h>
#include <stdio.h>
#include <stdlib.h>
#include <string.h>

typedef __int128 wide;
#define WIDE ((wide)1 << 120)
enum { MOST_BIDDERS = 16, MOST_BIDS = 600, MOST_CATEGORIES = 6, MOST_ROWS = 10 };
typedef struct { int number[MOST_BIDDERS], order[MOST_BIDDERS]; } choice;
typedef struct { int lots[MOST_CATEGORIES]; long long amount, reserve; } bid; /* in a band lots[0] is the start */
typedef struct { int is_member[MOST_BIDDERS]; wide first, second; choice of_others; } row;

static int is_band, categories, supply[MOST_CATEGORIES], states = 1, lines, bidders, band;
static long long reserves[MOST_CATEGORIES], weights[MOST_BIDDERS], widths[MOST_BIDDERS];
static char names[MOST_BIDDERS + 1][24];
static bid bids[MOST_BIDDERS][MOST_BIDS];
static int count_of[MOST_BIDDERS];

static void stop(int status, const char *form, ...) {
  va_list list;
  va_start(list, form);
  vprintf(form, list);
  putchar('\n');
  exit(fflush(stdout) ? 5 : status);
}

/* ---- texts ---- */

static const char *kind;
static char *text;
static long size, at, begin, end;

static void need(int right) {
  if (!right) stop(3, "cca: refused %s %ld", kind, begin);
}

static void load(const char *what, const char *name, long most) {
  FILE *file = fopen(name, "rb");
  kind = what, size = at = begin = 0, text = malloc(most + 2);
  if (!file) stop(4, "cca: read fault %s", what);
  size = fread(text, 1, most + 1, file);
  if (ferror(file)) stop(4, "cca: read fault %s", what);
  fclose(file);
  if (size > most) stop(7, "cca: limit bytes %ld", size);
}

/* the next line, from begin to end */
static void line(void) {
  begin = end = at;
  while (end < size && text[end] != '\n') end++;
  need(end < size);
  at = end + 1;
}

static void done(void) {
  begin = at;
  need(at == size);
}

/* whether the next field of the line begins with this word, which is then behind; the rest begins at *from */
static int word(long *from, const char *what) {
  long length = strlen(what);
  if (end - *from < length || memcmp(text + *from, what, length)) return 0;
  if (*from + length < end && text[*from + length] != ' ') return 0;
  *from += length;
  return 1;
}

static void take(const char *what) {
  line();
  need(end - begin == (long)strlen(what) && !memcmp(text + begin, what, end - begin));
}

static int has_more(long from) { return from < end; }

/* the next number after one space, from low to high */
static wide number(long *from, wide low, wide high) {
  long start = *from + 1;
  int is_negative = start < end && text[start] == '-';
  long place = start + is_negative;
  wide value = 0;
  need(*from < end && text[*from] == ' ' && place < end);
  for (*from = place; *from < end && text[*from] != ' '; ++*from) {
    need(text[*from] >= '0' && text[*from] <= '9');
    if (value < WIDE) value = 10 * value + (text[*from] - '0');
  }
  need(*from > place && (text[place] != '0' || *from == place + 1));
  need(!is_negative || (low < 0 && value > 0));
  if (is_negative) value = -value;
  need(low <= value && value <= high);
  return value;
}

static void rest(long from) { need(from == end); }

static void name(long *from) {
  long start = *from + 1, length;
  need(*from < end && text[*from] == ' ');
  for (*from = start; *from < end && text[*from] != ' '; ++*from) {
    char c = text[*from];
    need((c >= 'a' && c <= 'z') || (*from > start && ((c >= '0' && c <= '9') || c == '_')));
  }
  length = *from - start;
  need(length >= 1 && length <= 20);
  memcpy(names[bidders], text + start, length), names[bidders][length] = 0;
  for (int j = 0; j < bidders; j++) need(strcmp(names[j], names[bidders]));
}

static void within(const char *what, long count, long most) {
  if (count > most) stop(7, "cca: limit %s %ld", what, count);
}

/* ---- books, weights and slots ---- */

static void read_supply(void) {
  long from, lots = 0, product = 1;
  int all[4096], count = 0;
  line(), from = begin;
  need(word(&from, "supply") && has_more(from));
  for (; has_more(from); count++) {
    int most = number(&from, 1, 999);
    if (count < 4096) all[count] = most;
    lots += most;
    if (product < 1000000000) product *= most + 1;
  }
  within("categories", count, MOST_CATEGORIES);
  within("lots", lots, 40);
  within("states", product, 16384);
  categories = count, states = product;
  memcpy(supply, all, sizeof supply);
}

static void read_book(const char *file) {
  long from;
  load("book", file, 1048576);
  take("book 1");
  read_supply();
  line(), from = begin;
  need(word(&from, "reserve"));
  for (int c = 0; c < categories; c++) reserves[c] = number(&from, 0, (wide)1 << 36);
  rest(from);
  for (line(); !(end - begin == 3 && !memcmp(text + begin, "end", 3)); line()) {
    from = begin;
    if (bidders && word(&from, "bid")) {
      bid *all = bids[bidders - 1], one = {{0}, 0, 0};
      int n = count_of[bidders - 1], any = 0, rises = n == 0;
      for (int c = 0; c < categories; c++) {
        one.lots[c] = number(&from, 0, supply[c]), one.reserve += one.lots[c] * reserves[c], any |= one.lots[c];
      }
      one.amount = number(&from, one.reserve, (wide)1 << 42);
      rest(from);
      for (int c = 0; c < categories && !rises; c++) {
        if (one.lots[c] < all[n - 1].lots[c]) break;
        rises = one.lots[c] > all[n - 1].lots[c];
      }
      need(any && rises);
      within("bids", n + 1, MOST_BIDS);
      all[n] = one, count_of[bidders - 1]++;
    } else {
      need(word(&from, "bidder"));
      name(&from), rest(from);
      within("bidders", bidders + 1, MOST_BIDDERS);
      weights[bidders++] = 1;
    }
  }
  done();
  lines = bidders + 1;
}

static void read_weights(const char *file) {
  load("weights", file, 65536);
  take("weights 1");
  for (int j = 0; j < bidders; j++) {
    char head[32];
    long from;
    line(), from = begin;
    snprintf(head, sizeof head, "weight %s", names[j]);
    need(word(&from, head));
    weights[j] = number(&from, 1, 20);
    rest(from);
  }
  take("end");
  done();
}

static void read_slots(const char *file) {
  long from, used = 0;
  is_band = 1, categories = 1, lines = 1;
  load("slots", file, 65536);
  take("slots 1");
  line(), from = begin;
  need(word(&from, "band"));
  band = number(&from, 1, 999), rest(from);
  within("lots", band, 40);
  for (line(); !(end - begin == 3 && !memcmp(text + begin, "end", 3)); line()) {
    from = begin;
    if (bidders && word(&from, "place")) {
      int n = count_of[bidders - 1], before = n ? bids[bidders - 1][n - 1].lots[0] : 0;
      bid one = {{number(&from, before + 1, band - widths[bidders - 1] + 1)}, 0, 0};
      one.amount = number(&from, 0, (wide)1 << 42);
      rest(from);
      bids[bidders - 1][n] = one, count_of[bidders - 1]++;
    } else {
      need(word(&from, "bidder"));
      name(&from);
      widths[bidders] = number(&from, 1, band - used), rest(from);
      used += widths[bidders];
      within("bidders", bidders + 1, 6);
      weights[bidders++] = 1;
    }
  }
  done();
  states = 1 << bidders;
}

/* ---- choices and tables ---- */

static wide net(int j, int n) { return bids[j][n - 1].amount - bids[j][n - 1].reserve; }
static wide worth(const choice *c, int j) { return c->number[j] ? net(j, c->number[j]) : 0; }

static wide value(const choice *c) {
  wide sum = 0;
  for (int j = 0; j < bidders; j++) sum += worth(c, j);
  return sum;
}

static int is_known(const choice *c) {
  for (int j = 0; j < bidders; j++)
    if (c->number[j] > count_of[j]) return 0;
  return 1;
}

static int start_of(const choice *c, int j) {
  int start = 1;
  for (int k = 0; k < bidders && c->order[k] - 1 != j; k++) start += widths[c->order[k] - 1];
  return start;
}

/* whether a known choice fits, or its order allows it */
static int fits(const choice *c) {
  if (is_band) {
    int seen = 0;
    for (int k = 0; k < bidders; k++) {
      if (c->order[k] < 1 || c->order[k] > bidders || seen >> c->order[k] & 1) return 0;
      seen |= 1 << c->order[k];
    }
    for (int j = 0; j < bidders; j++)
      if (c->number[j] && bids[j][c->number[j] - 1].lots[0] != start_of(c, j)) return 0;
    return 1;
  }
  for (int k = 0; k < categories; k++) {
    int lots = 0;
    for (int j = 0; j < bidders; j++)
      if (c->number[j]) lots += bids[j][c->number[j] - 1].lots[k];
    if (lots > supply[k]) return 0;
  }
  return 1;
}

static int place_of(const int *counts) {
  int place = 0;
  for (int c = 0; c < categories; c++) place = place * (supply[c] + 1) + counts[c];
  return place;
}

static int has_lots(int place, const int *lots) {
  for (int c = categories - 1; c >= 0; c--) {
    if (place % (supply[c] + 1) < lots[c]) return 0;
    place /= supply[c] + 1;
  }
  return 1;
}

/* the first place at which a table doesn't obey the rules where a bid is worth den times its net amount less what its bidder loses; or -1 */
static long breach(const wide *table, wide den, const wide *loss, int without) {
  if (is_band) {
    for (int s = 0; s < states; s++) {
      int start = 1;
      for (int j = 0; j < bidders; j++)
        if (s >> j & 1) start += widths[j];
      if (s == states - 1 && table[s] < 0) return s;
      for (int j = 0; j < bidders; j++) {
        if (s >> j & 1) continue;
        wide after = table[s | 1 << j];
        if (table[s] < after) return s;
        for (int n = 0; n < count_of[j] && j != without; n++)
          if (bids[j][n].lots[0] == start && table[s] < den * bids[j][n].amount - loss[j] + after) return s;
      }
    }
    return -1;
  }
  for (int k = 0; k <= bidders; k++) {
    const wide *here = table + (long)k * states, *after = here + states;
    for (int s = 0; s < states; s++) {
      if (here[s] < (k < bidders ? after[s] : 0)) return (long)k * states + s;
      for (int n = 1; k < bidders && k != without && n <= count_of[k]; n++) {
        const int *lots = bids[k][n - 1].lots;
        if (has_lots(s, lots) && here[s] < den * net(k, n) - loss[k] + after[s - place_of(lots)]) return (long)k * states + s;
      }
    }
  }
  return -1;
}

/* ---- the certificate ---- */

static wide den, total, pay[MOST_BIDDERS], *table, *tables[MOST_BIDDERS], *lowered;
static choice best, others[MOST_BIDDERS];
static row rows[MOST_ROWS];
static int row_count;

static void read_numbers(const char *what, int *into) {
  long from;
  line(), from = begin;
  need(word(&from, what));
  for (int j = 0; j < bidders; j++) into[j] = number(&from, 0, 65535);
  rest(from);
}

static void read_choice(choice *c) {
  if (is_band) read_numbers("order", c->order);
  read_numbers("choice", c->number);
}

static wide signed_number(long *from) { return number(from, 1 - WIDE, WIDE - 1); }

static wide one_number(const char *what) {
  long from;
  line(), from = begin;
  need(word(&from, what));
  wide found = signed_number(&from);
  rest(from);
  return found;
}

static wide *read_table(const char *what) {
  wide *entries = malloc(sizeof(wide) * lines * states), *next = entries;
  take(what);
  for (int k = 0; k < lines; k++) {
    long from;
    line(), from = begin;
    need(word(&from, "t"));
    for (int s = 0; s < states; s++) *next++ = signed_number(&from);
    rest(from);
  }
  return entries;
}

static void read_row(row *r) {
  long from;
  int last = 0;
  line(), from = begin;
  need(word(&from, "row") && has_more(from));
  while (has_more(from)) last = number(&from, last + 1, bidders), r->is_member[last - 1] = 1;
  line(), from = begin;
  need(word(&from, "mult"));
  r->first = signed_number(&from), r->second = signed_number(&from), rest(from);
  read_choice(&r->of_others);
}

static void read_certificate(const char *file) {
  long from;
  load("cert", file, 67108864);
  if (is_band) take("pcert 1");
  else if (bidders <= 12 && states <= 4096) take("cert 1");
  else take("cert 2"), take("limits 16 16384");
  den = one_number("den"), total = one_number("value");
  read_choice(&best);
  table = read_table("table");
  for (int j = 0; j < bidders; j++) {
    char head[32];
    if (!best.number[j]) continue;
    snprintf(head, sizeof head, "without %d", j + 1);
    take(head);
    read_choice(&others[j]);
    tables[j] = read_table("table");
  }
  line(), from = begin;
  need(word(&from, "pay"));
  for (int j = 0; j < bidders; j++) pay[j] = signed_number(&from);
  rest(from);
  line(), from = begin;
  need(word(&from, "rows"));
  row_count = number(&from, 0, bidders ? MOST_ROWS : 0), rest(from);
  for (int r = 0; r < row_count; r++) read_row(&rows[r]);
  lowered = read_table("lowered");
  take("end");
  done();
}

static void test(int number_of, long place, int holds) {
  if (!holds) stop(1, "no %c%d %ld", is_band ? 'P' : 'C', number_of, place);
}

static wide top(const wide *of) { return is_band ? of[0] : of[states - 1]; }
static wide vickrey(int j) { return value(&others[j]) - total + worth(&best, j); }

static void test_ties(long past) {
  choice before = best;
  for (int j = bidders - 1; j >= 0; j--) before.number[j] = 0;
  for (int j = 0; j < bidders; before.number[j] = best.number[j], j++) {
    for (int n = 1; n <= (best.number[j] ? best.number[j] - 1 : count_of[j]); n++) {
      int left[MOST_CATEGORIES];
      choice with = before;
      with.number[j] = n;
      if (!fits(&with)) continue;
      for (int c = 0; c < categories; c++) {
        left[c] = supply[c];
        for (int k = 0; k <= j; k++)
          if (with.number[k]) left[c] -= bids[k][with.number[k] - 1].lots[c];
      }
      test(3, past + j + 1, net(j, n) + table[(long)(j + 1) * states + place_of(left)] < total - value(&before));
    }
  }
}

static void run_tests(void) {
  wide none[MOST_BIDDERS] = {0}, loss[MOST_BIDDERS] = {0}, paid = 0;
  long past = (long)lines * states, place;
  test(1, 1, den >= 1);
  test(1, 2, total >= 0);
  test(1, 3, total < (WIDE - 1) / den);
  for (int j = 0; j < bidders; j++) test(2, j + 1, best.number[j] <= count_of[j]);
  test(2, bidders + 1, fits(&best));
  test(2, bidders + 2, value(&best) == total);
  place = breach(table, 1, none, -1);
  test(3, place, place < 0);
  test(3, past, top(table) <= total);
  if (!is_band) test_ties(past);
  for (int j = 0; j < bidders; j++) {
    if (!best.number[j]) continue;
    test(4, j + 1, is_known(&others[j]) && fits(&others[j]) && !others[j].number[j]);
    test(4, j + 1, breach(tables[j], 1, none, j) < 0 && top(tables[j]) <= value(&others[j]));
  }
  for (int j = 0; j < bidders; j++) {
    wide most = den * worth(&best, j);
    test(5, j + 1, best.number[j] ? 0 <= pay[j] && pay[j] <= most : pay[j] == 0);
    loss[j] = best.number[j] ? most - pay[j] : 0, paid += pay[j];
  }
  for (int r = 0; r < row_count; r++) {
    wide asked = 0, of_members = 0;
    const choice *c = &rows[r].of_others;
    for (int j = 0; j < bidders; j++) {
      if (rows[r].is_member[j]) test(6, r + 1, best.number[j]);
      if (rows[r].is_member[j]) of_members += pay[j];
      else asked += worth(&best, j);
    }
    test(6, r + 1, is_known(c) && fits(c));
    for (int j = 0; j < bidders; j++) test(6, r + 1, !rows[r].is_member[j] || !c->number[j]);
    test(6, r + 1, of_members == den * (value(c) - asked));
  }
  for (int r = 0; r < row_count; r++) test(7, r + 1, rows[r].first >= 0);
  for (int j = 0; j < bidders; j++) {
    wide sum = 0;
    for (int r = 0; r < row_count; r++) sum += rows[r].is_member[j] ? rows[r].first : 0;
    if (best.number[j]) test(7, row_count + j + 1, sum == den);
  }
  for (int r = 0; r < row_count; r++) test(8, r + 1, rows[r].second >= 0 || rows[r].first > 0);
  for (int j = 0; j < bidders; j++) {
    wide sum = 0;
    if (!best.number[j]) continue;
    for (int r = 0; r < row_count; r++) sum += rows[r].is_member[j] ? rows[r].second : 0;
    wide above = pay[j] - den * vickrey(j);
    test(8, row_count + j + 1, above % weights[j] == 0 && above / weights[j] == sum);
  }
  place = breach(lowered, den, loss, -1);
  test(9, place, place < 0);
  test(9, past, top(lowered) <= paid);
}

/* ---- what is printed ---- */

static void print_wide(wide n) {
  if (n >= 10) print_wide(n / 10);
  putchar('0' + (int)(n % 10));
}

static void print_fraction(wide n) {
  wide a = n % den, b = den, rest_of = a;
  print_wide(n / den);
  while (a) {
    wide c = b % a;
    b = a, a = c;
  }
  if (rest_of) putchar('+'), print_wide(rest_of / b), putchar('/'), print_wide(den / b);
}

static int print_yes(void) {
  wide revenue = 0;
  puts("yes");
  for (int k = 0; is_band && k < bidders; k++) {
    int j = best.order[k] - 1;
    printf("placed %s %d %lld\n", names[j], start_of(&best, j), widths[j]);
  }
  for (int j = 0; j < bidders; j++) {
    if (!best.number[j]) continue;
    const bid *won = &bids[j][best.number[j] - 1];
    printf("winner %s", names[j]);
    for (int c = 0; c < categories; c++) printf(" %d", won->lots[c]);
    printf(" bid %lld vickrey ", won->amount), print_wide(vickrey(j) + won->reserve);
    printf(" pays "), print_fraction(pay[j] + den * won->reserve), putchar('\n');
    revenue += pay[j] + den * won->reserve;
  }
  printf(is_band ? "value " : "net "), print_wide(total);
  printf("\nrevenue "), print_fraction(revenue), putchar('\n');
  return fflush(stdout) ? 5 : 0;
}

int main(int count, char **words) {
  int weighs = count > 1 && !strcmp(words[1], "weigh-check"), places = count > 1 && !strcmp(words[1], "place-check");
  if (count != (weighs ? 5 : 4) || !(weighs || places || !strcmp(words[1], "check"))) stop(2, "cca: words");
  for (int i = 2; i < count; i++) {
    if (!words[i][0] || words[i][0] == '-') stop(2, "cca: words");
    for (int k = 2; k < i; k++)
      if (!strcmp(words[i], words[k])) stop(2, "cca: words");
  }
  if (places) read_slots(words[2]);
  else read_book(words[2]);
  if (weighs) read_weights(words[3]);
  read_certificate(words[count - 1]);
  run_tests();
  return print_yes();
}

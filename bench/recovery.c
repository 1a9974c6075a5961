// What a recovery does, for a journal of a drill's commands: gauges, samples, and openings and closings of receipts and deliveries.
//
// `recovery FILE` reads the file whole, takes the site from its header, and checks gates, lengths and forms (docs/formats.md). Each entry has
// a new key, which is hashed, no moment below the last, and keeps the rules. The ten figures are calculated once at both ends of each
// movement, in 128-bit integers, and what moved is added to its tank's book. It prints the answer to `total`, or ends with 1 at the first
// record that isn't such an entry. Tanks, parties and products are found by their numbers in tables, and nothing is looked for twice.
#include <fcntl.h>
#include <inttypes.h>
#include <stdio.h>
#include <stdlib.h>
#include <string.h>
#include <sys/stat.h>
#include <unistd.h>

typedef __int128 i128;

enum { NUMBERS = 65536, RULES = 12, LIMIT = 200000 };

struct figures { int64_t tov, fw, ctsh, vcf, fra, gov, gsv, nsv, swv, mass; };

struct product {
  uint32_t density_count, temperature_count;
  int64_t *densities, *temperatures, *factors;
};

struct tank {
  const struct product *product;
  int insulated, roof;
  int64_t coefficient, reference, roof_mass, low, high, litres, kg;
  uint32_t row_count, open, used;
  int64_t *rows;
};

// What is kept of an entry: of a gauge or a sample its numbers, of an opening the net standard volume and the mass at its beginning.
struct note {
  uint8_t tag, tank, inward;
  uint32_t account;
  uint64_t key;
  union {
    struct { int32_t level, water, temperature, ambient; } reading;
    struct { int32_t density, sw; } sample;
    struct { int64_t nsv, mass; } opening;
  };
};

static const unsigned char *at, *end;
static struct product *products[NUMBERS];
static struct tank *tanks[256];
static uint8_t tank_of[NUMBERS], has_party[NUMBERS];
static int64_t steps[RULES], modes[RULES];
static struct note *notes;
static uint32_t *slots, mask, entries;

static void end_at(const char *why) {
  printf("%s at entry %" PRIu32 "\n", why, entries + 1);
  exit(1);
}

static uint64_t number(int count) {
  uint64_t value = 0;
  if (end - at < count) end_at("cut short");
  for (; count > 0; count--) value = value << 8 | *at++;
  return value;
}

static void pass(uint64_t count) {
  if ((uint64_t)(end - at) < count) end_at("cut short");
  at += count;
}

static void *room(size_t count, size_t size) {
  void *bytes = calloc(count ? count : 1, size);
  if (!bytes) exit(7);
  return bytes;
}

// num / den to a multiple of a rule's step, by its mode.
static int64_t rounded(i128 num, i128 den, int rule) {
  i128 magnitude = num < 0 ? -num : num, whole = den * steps[rule - 1];
  i128 count = magnitude / whole, left = magnitude % whole;
  if (modes[rule - 1] == 0 && whole <= 2 * left) count++;
  return (int64_t)(num < 0 ? -(count * steps[rule - 1]) : count * steps[rule - 1]);
}

static int64_t *list(uint32_t count, int bytes) {
  int64_t *values = room(count, sizeof *values);
  for (uint32_t i = 0; i < count; i++) values[i] = bytes == 2 ? (int16_t)number(2) : (int64_t)number(bytes);
  return values;
}

static void read_products(void) {
  for (uint64_t count = number(1); count > 0; count--) {
    struct product *product = room(1, sizeof *product);
    products[number(2)] = product;
    pass(number(1));
    product->densities = list(product->density_count = (uint32_t)number(4), 2);
    product->temperatures = list(product->temperature_count = (uint32_t)number(4), 2);
    product->factors = list(product->density_count * product->temperature_count, 4);
  }
}

static void read_tank(uint8_t index) {
  struct tank *tank = tanks[index] = room(1, sizeof *tank);
  tank_of[number(2)] = index;
  tank->product = products[number(2)];
  tank->insulated = (int)number(1);
  tank->coefficient = (int64_t)number(2);
  tank->reference = (int16_t)number(2);
  pass(2);
  tank->roof = (int)number(1);
  if (tank->roof) {
    tank->roof_mass = (int64_t)number(4);
    tank->low = (int64_t)number(2);
    tank->high = (int64_t)number(2);
  }
  tank->rows = list(tank->row_count = (uint32_t)number(2), 4);
  tank->litres = (int64_t)number(8);
  tank->kg = (int64_t)number(8);
}

// The site up to its tanks; gauge lines say nothing of entries.
static uint8_t read_site(void) {
  if (number(1) != 1) end_at("no site");
  pass(number(1));
  for (int i = 0; i < RULES; i++) steps[i] = (int64_t)number(1), modes[i] = (int64_t)number(1);
  read_products();
  for (uint64_t count = number(2); count > 0; count--) {
    has_party[number(2)] = 1;
    pass(number(1));
  }
  uint8_t count = (uint8_t)number(1);
  for (uint8_t i = 1; i <= count; i++) read_tank(i);
  return count;
}

static int64_t magnitude_of(int64_t value) { return value < 0 ? -value : value; }

// Which listed value is the nearest, or -1 outside the list. Ties go by the mode of rule 7.
static int64_t nearest(const int64_t *values, uint32_t count, int64_t value) {
  if (count == 0 || value < values[0] || value > values[count - 1]) return -1;
  uint32_t above = 0;
  while (values[above] < value) above++;
  if (values[above] == value) return above;
  int64_t low = values[above - 1], high = values[above], nearer = (high - value) - (value - low);
  if (nearer) return nearer < 0 ? above : above - 1;
  int high_is_greater = magnitude_of(high) >= magnitude_of(low);
  return (magnitude_of(high) == magnitude_of(low) || high_is_greater == (modes[6] == 0)) ? above : above - 1;
}

static int64_t volume(const struct tank *tank, int64_t level) {
  int64_t row = level / 10, rest = level % 10;
  if (rest == 0) return rounded(tank->rows[row], 1, 5);
  return rounded((i128)10 * tank->rows[row] + (i128)(tank->rows[row + 1] - tank->rows[row]) * rest, 10, 5);
}

static struct figures figures(const struct tank *tank, const struct note *gauge, const struct note *sample) {
  struct figures q;
  int64_t liquid = rounded(gauge->reading.temperature, 1, 2), density = sample->sample.density, floating = 0;
  q.tov = volume(tank, gauge->reading.level);
  q.fw = volume(tank, gauge->reading.water);
  int64_t row = nearest(tank->product->densities, tank->product->density_count, density);
  int64_t column = nearest(tank->product->temperatures, tank->product->temperature_count, liquid);
  if (row < 0 || column < 0) end_at("rule 16");
  q.vcf = tank->product->factors[row * tank->product->temperature_count + column];
  if (tank->roof && gauge->reading.level >= tank->low) {
    if (gauge->reading.level <= tank->high) end_at("rule 17");
    floating = tank->roof_mass;
  }
  int64_t difference = tank->insulated ? 8 * liquid - 8 * tank->reference : 7 * liquid + gauge->reading.ambient - 8 * tank->reference;
  i128 growth = 8000000000 + (i128)tank->coefficient * difference;
  q.ctsh = rounded(growth * growth * 100000, (i128)64 * 1000000000000000000, 6);
  q.fra = floating == 0 ? 0 : -rounded((i128)floating * 1000000000, (i128)density * q.vcf, 8);
  q.gov = rounded((i128)(q.tov - q.fw) * q.ctsh + (i128)q.fra * 100000, 100000, 9);
  if (q.gov < 0) end_at("rule 18");
  q.gsv = rounded((i128)q.gov * q.vcf, 100000, 10);
  q.nsv = rounded((i128)q.gsv * (100000 - sample->sample.sw), 100000, 11);
  q.swv = q.gsv - q.nsv;
  q.mass = rounded((i128)q.nsv * density, 10000, 12);
  return q;
}

static void enter_key(const struct note *note) {
  uint64_t hash = (note->key ^ (uint64_t)note->account * 0x9e3779b97f4a7c15u) * 0xd6e8feb86659fd93u;
  uint32_t slot = (uint32_t)(hash >> 32) & mask;
  for (; slots[slot]; slot = (slot + 1) & mask) {
    const struct note *other = &notes[slots[slot]];
    if (other->key == note->key && other->account == note->account) end_at("rule 1");
  }
  slots[slot] = entries + 1;
}

static int32_t within(int64_t least, int64_t most) {
  int64_t value = (int64_t)number(8);
  if (value < least || value > most) end_at("rule 5");
  return (int32_t)value;
}

static struct tank *read_tank_number(struct note *note) {
  note->tank = tank_of[number(2)];
  if (!note->tank) end_at("rule 3");
  return tanks[note->tank];
}

static void gauge(struct note *note) {
  const struct tank *tank = read_tank_number(note);
  note->reading.level = within(0, 50000);
  note->reading.water = within(0, 50000);
  note->reading.temperature = within(-10000, 30000);
  note->reading.ambient = within(-10000, 30000);
  if (note->reading.level > 10 * (int64_t)(tank->row_count - 1)) end_at("rule 7");
  if (note->reading.water > note->reading.level) end_at("rule 8");
}

static void sample(struct note *note) {
  read_tank_number(note);
  note->sample.density = within(4000, 12000);
  note->sample.sw = within(0, 100000);
}

// The figures on a reading and a sample of a tank that are named.
static struct figures named(uint8_t tank, uint64_t reading, uint64_t sample) {
  if (reading > entries || notes[reading].tag != 1 || notes[reading].tank != tank) end_at("rule 13");
  if (sample > entries || notes[sample].tag != 3 || notes[sample].tank != tank) end_at("rule 14");
  return figures(tanks[tank], &notes[reading], &notes[sample]);
}

static void opening(struct note *note) {
  uint64_t way = number(1);
  if (way != 1 && way != 2) end_at("no receipt and no delivery");
  note->inward = way == 1;
  struct tank *tank = read_tank_number(note);
  if (!has_party[number(2)]) end_at("rule 4");
  uint64_t reading = number(4), sampled = number(4);
  if (tank->open) end_at("rule 11");
  struct figures q = named(note->tank, reading, sampled);
  if (reading < tank->used) end_at("rule 15");
  note->opening.nsv = q.nsv;
  note->opening.mass = q.mass;
  tank->open = entries + 1;
}

static void closing(struct note *note) {
  uint64_t movement = number(4), reading = number(4), sampled = number(4);
  if (number(1) != 0) end_at("a second tank");
  if (movement == 0 || movement > entries || notes[movement].tag != 4) end_at("rule 12");
  const struct note *opened = &notes[movement];
  note->tank = opened->tank;
  struct tank *tank = tanks[note->tank];
  if (tank->open != movement) end_at("rule 12");
  struct figures q = named(note->tank, reading, sampled);
  if (reading <= movement) end_at("rule 15");
  int64_t nsv = q.nsv - opened->opening.nsv, mass = q.mass - opened->opening.mass;
  if (opened->inward ? nsv < 0 : nsv > 0) end_at("rule 19");
  tank->litres += nsv;
  tank->kg += mass;
  tank->open = 0;
  tank->used = (uint32_t)reading;
}

static void entry(uint64_t *moment) {
  struct note *note = &notes[entries + 1];
  if (entries == LIMIT) end_at("rule 2");
  number(4);
  note->account = (uint32_t)number(4);
  note->key = number(8);
  uint64_t now = number(8);
  if (now > 253000000000u || now < *moment) end_at("no moment");
  *moment = now;
  enter_key(note);
  note->tag = (uint8_t)number(1);
  switch (note->tag) {
    case 1: gauge(note); break;
    case 3: sample(note); break;
    case 4: opening(note); break;
    case 5: closing(note); break;
    default: end_at("another command");
  }
}

static const unsigned char *read_file(const char *path, size_t *size) {
  struct stat about;
  int file = open(path, O_RDONLY);
  if (file < 0 || fstat(file, &about)) exit(1);
  unsigned char *bytes = malloc((size_t)about.st_size + 1);
  size_t had = 0;
  for (ssize_t more; bytes && (more = read(file, bytes + had, (size_t)about.st_size - had)) > 0;) had += (size_t)more;
  close(file);
  *size = had;
  return bytes;
}

int main(int count, char **words) {
  size_t size;
  if (count != 2) return 1;
  const unsigned char *bytes = at = read_file(words[1], &size), *last = bytes + size;
  if (!bytes || size < 13 || memcmp(bytes, "\1FARMJNL1", 9)) return 1;
  end = last;
  at = bytes + 9;
  uint64_t length = number(4);
  pass(length);
  const unsigned char *first = at;
  at = bytes + 13;
  end = first;
  uint8_t tank_count = read_site();
  // A record has 30 bytes at least; the table of keys is at most half full.
  size_t most = (size_t)(last - first) / 30 + 2;
  for (mask = 1; mask < 2 * most; mask *= 2) continue;
  slots = room(mask--, sizeof *slots);
  notes = room(most, sizeof *notes);
  uint64_t moment = 0;
  for (at = first, end = last; number(1) == 1; entries++) {
    length = number(4);
    if (length > 16777216) end_at("too long");
    const unsigned char *body = at;
    pass(length);
    end = at;
    at = body;
    entry(&moment);
    if (at != end) end_at("bytes left");
    end = last;
  }
  int64_t litres = 0, kg = 0;
  for (uint8_t i = 1; i <= tank_count; i++) litres += tanks[i]->litres, kg += tanks[i]->kg;
  printf("{\"entries\":%" PRIu32 ",\"kg\":%" PRId64 ",\"litres\":%" PRId64 "}\n", entries, kg, litres);
  return 0;
}

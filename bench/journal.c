// What `farm batch` and a recovery do to the file of a journal, and nothing else. docs/formats.md has the bytes.
//
// `journal put FILE COUNT` puts COUNT gauge readings on a journal that has no record: for each one the same two writes at the same growing
// offsets, each followed by fdatasync. `journal walk FILE` reads a journal in pieces of 1 MiB and prints how many records it has.
#include <fcntl.h>
#include <inttypes.h>
#include <stdio.h>
#include <stdlib.h>
#include <string.h>
#include <unistd.h>

enum { BODY = 59, RECORD = 5 + BODY };

static int put_all(int file, long count) {
  unsigned char record[RECORD] = {0, 0, 0, BODY}, open_gate = 1;
  off_t gate = lseek(file, 0, SEEK_END) - 1;
  if (gate < 0) return 0;
  for (; count > 0; count--, gate += RECORD) {
    if (pwrite(file, record, RECORD, gate + 1) != RECORD || fdatasync(file)) return 0;
    if (pwrite(file, &open_gate, 1, gate) != 1 || fdatasync(file)) return 0;
  }
  return 1;
}

static unsigned char piece[1 << 20];
static size_t at, end;

static int fill(int file) {
  ssize_t count = read(file, piece, sizeof piece);
  at = 0;
  end = count > 0 ? (size_t)count : 0;
  return count > 0;
}

static int take(int file, unsigned char *into, size_t count) {
  for (size_t i = 0; i < count; i++) {
    if (at == end && !fill(file)) return 0;
    into[i] = piece[at++];
  }
  return 1;
}

static int skip(int file, size_t count) {
  while (count > end - at) {
    count -= end - at;
    if (!fill(file)) return 0;
  }
  at += count;
  return 1;
}

static size_t number(const unsigned char *bytes) {
  return (size_t)bytes[0] << 24 | (size_t)bytes[1] << 16 | (size_t)bytes[2] << 8 | bytes[3];
}

// The number of records, or -1 where the file is no whole journal.
static long walk(int file) {
  unsigned char head[13], gate, length[4];
  long records = 0;
  if (!take(file, head, sizeof head) || memcmp(head, "\1FARMJNL1", 9) || !skip(file, number(head + 9))) return -1;
  for (;; records++) {
    if (!take(file, &gate, 1)) return -1;
    if (gate != 1) return records;
    if (!take(file, length, sizeof length) || !skip(file, number(length))) return -1;
  }
}

int main(int count, char **words) {
  int puts_records = count == 4 && !strcmp(words[1], "put"), walks = count == 3 && !strcmp(words[1], "walk");
  int file = puts_records || walks ? open(words[2], puts_records ? O_RDWR : O_RDONLY) : -1;
  if (file < 0) return 1;
  if (puts_records) return !put_all(file, atol(words[3]));
  // As the disk of a journal does when it opens its file, so that both read from the disk.
  posix_fadvise(file, 0, 0, POSIX_FADV_DONTNEED);
  printf("%ld\n", walk(file));
  return 0;
}

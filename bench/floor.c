// A floor for what judging a capture can cost: reads one on standard input, and only finds the lines of both streams and
// those that are a dot alone. It prints how many there are of each, and judges nothing.
#include <stdio.h>
#include <stdlib.h>
#include <string.h>

// What is counted of a stream. A line that no LF has ended yet goes on in the next piece.
struct counts {
  size_t lines;
  size_t dots;
  // The first octets of the line that isn't ended yet, and how many octets it has.
  char front[3];
  size_t length;
};

// Goes through a piece of the stream.
static void count(struct counts *stream, const char *octets, size_t length) {
  const char *end = octets + length;
  while (octets < end) {
    const char *found = memchr(octets, '\n', (size_t)(end - octets));
    const char *behind = found ? found + 1 : end;
    size_t part = (size_t)(behind - octets);
    for (size_t i = 0; i < part && stream->length + i < sizeof stream->front; i++)
      stream->front[stream->length + i] = octets[i];
    stream->length += part;
    if (found) {
      stream->lines++;
      stream->dots += stream->length == 3 && memcmp(stream->front, ".\r\n", 3) == 0;
      stream->length = 0;
    }
    octets = behind;
  }
}

int main(void) {
  static char octets[1 << 16];
  struct counts client = {0}, server = {0}, spool = {0};
  char name[8];
  size_t left;
  while (scanf("%7[a-z] %zu", name, &left) == 2 && getchar() == '\n') {
    struct counts *stream = name[0] == 'c' ? &client : name[1] == 'e' ? &server : &spool;
    while (left > 0) {
      size_t length = fread(octets, 1, left < sizeof octets ? left : sizeof octets, stdin);
      if (length == 0)
        return 1;
      count(stream, octets, length);
      left -= length;
    }
  }
  printf("client lines=%zu dots=%zu\nserver lines=%zu dots=%zu\n", client.lines, client.dots, server.lines, server.dots);
  return 0;
}

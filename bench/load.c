/* Load on one node of the DHT on this machine, for bench/peers, which builds and runs it:
 *
 *     load HOST PORT ping|find_node|get_peers OUTSTANDING SECONDS
 *     load HOST PORT METHOD OUTSTANDING SECONDS HEX
 *
 * It keeps so many queries open: an answer, or half a second without one, makes room for the next. Each query is read-only
 * (BEP 43), so that who is asked keeps no contact of it, and asks for a drawn identifier; or it has these bytes behind the
 * identifier of who asks, its other arguments as bencode has them. It prints one line:
 *
 *     answers N errors N lost N seconds S median US p99 US
 *
 * Latencies are in microseconds, from the call that sends to the call that receives. */
#define _GNU_SOURCE
#include <arpa/inet.h>
#include <poll.h>
#include <stdint.h>
#include <stdio.h>
#include <stdlib.h>
#include <string.h>
#include <sys/socket.h>
#include <time.h>
#include <unistd.h>

enum { SOCKETS = 64, EACH = 16, ROOM = 4096, LATENCIES = 1 << 22, WAIT = 500000000 };

struct open_query {
  uint64_t sent; /* 0: none is open */
  uint32_t number;
};

static struct {
  int file, width;
  struct open_query open[EACH];
} line[SOCKETS];
static int lines;
static const char *method;
static uint8_t rest[2048];
static int rest_length;
static uint64_t drawn = 88172645463325252u;
static uint32_t sent, latency[LATENCIES];
static long answers, errors, lost;

static uint64_t now(void) {
  struct timespec moment;
  clock_gettime(CLOCK_MONOTONIC, &moment);
  return (uint64_t)moment.tv_sec * 1000000000u + moment.tv_nsec;
}

static uint64_t draw(void) {
  drawn ^= drawn << 13, drawn ^= drawn >> 7, drawn ^= drawn << 17;
  return drawn;
}

static void give_up(const char *what) {
  perror(what);
  exit(1);
}

static int put(uint8_t *to, const char *text) {
  int length = strlen(text);
  memcpy(to, text, length);
  return length;
}

static int put_drawn(uint8_t *to) {
  for (int i = 0; i < 20; i++) to[i] = draw() >> 24;
  return 20;
}

/* The query; its transaction id is the place of the open query and its number. */
static int write_query(uint8_t *to, uint8_t place, uint32_t number) {
  int at = put(to, "d1:ad2:id20:");
  at += put_drawn(to + at);
  if (rest_length) {
    memcpy(to + at, rest, rest_length);
    at += rest_length;
  } else if (strcmp(method, "ping")) {
    at += put(to + at, strcmp(method, "find_node") ? "9:info_hash20:" : "6:target20:");
    at += put_drawn(to + at);
  }
  at += sprintf((char *)to + at, "e1:q%zu:%s2:roi1e1:t5:", strlen(method), method);
  to[at++] = place;
  memcpy(to + at, &number, 4);
  return at + 4 + put(to + at + 4, "1:y1:qe");
}

/* Sends as many queries as there is room for. */
static void fill(int on) {
  static uint8_t text[EACH][sizeof rest + 256];
  struct mmsghdr batch[EACH];
  struct iovec part[EACH];
  int count = 0;
  memset(batch, 0, sizeof batch);
  uint64_t moment = now();
  for (int place = 0; place < line[on].width; place++) {
    struct open_query *it = &line[on].open[place];
    if (it->sent) continue;
    it->sent = moment, it->number = ++sent;
    part[count] = (struct iovec){text[count], write_query(text[count], place, it->number)};
    batch[count].msg_hdr.msg_iov = &part[count];
    batch[count++].msg_hdr.msg_iovlen = 1;
  }
  for (int done = 0; done < count;) {
    int more = sendmmsg(line[on].file, batch + done, count - done, 0);
    if (more < 0) give_up("send");
    done += more;
  }
}

/* Takes one message: an answer ends with `1:t5:` its transaction id `1:y1:re`, maybe with a client's own keys between and
 * before, and an error message with `1:y1:ee`. */
static void take(int on, uint8_t *text, int length, uint64_t moment) {
  uint8_t *tx = memmem(text, length, "1:t5:", 5), *kind = 0;
  for (uint8_t *next = tx; next && (next = memmem(next, text + length - next, "1:y1:", 5)); next++) kind = next;
  if (!tx || !kind || kind + 5 >= text + length || tx[5] >= line[on].width) return;
  struct open_query *it = &line[on].open[tx[5]];
  if (!it->sent || memcmp(tx + 6, &it->number, 4)) return;
  if (kind[5] == 'e') errors++;
  if (kind[5] == 'r') latency[answers++ % LATENCIES] = (moment - it->sent) / 10;
  it->sent = 0;
}

static void receive(int on) {
  static uint8_t text[EACH][ROOM];
  struct mmsghdr batch[EACH];
  struct iovec part[EACH];
  memset(batch, 0, sizeof batch);
  for (int i = 0; i < EACH; i++) {
    part[i] = (struct iovec){text[i], ROOM};
    batch[i].msg_hdr.msg_iov = &part[i];
    batch[i].msg_hdr.msg_iovlen = 1;
  }
  int count = recvmmsg(line[on].file, batch, EACH, MSG_DONTWAIT, NULL);
  uint64_t moment = now();
  for (int i = 0; i < count; i++) take(on, text[i], batch[i].msg_len, moment);
}

static void forget(uint64_t before) {
  for (int on = 0; on < lines; on++)
    for (int place = 0; place < line[on].width; place++)
      if (line[on].open[place].sent && line[on].open[place].sent < before) lost++, line[on].open[place].sent = 0;
}

static int is_hex_of_rest(const char *hex) {
  for (; hex[0] && hex[1] && rest_length < (int)sizeof rest; hex += 2)
    if (sscanf(hex, "%2hhx", &rest[rest_length++]) != 1) return 0;
  return !hex[0];
}

static int by_size(const void *a, const void *b) {
  uint32_t one = *(const uint32_t *)a, other = *(const uint32_t *)b;
  return one < other ? -1 : one > other;
}

int main(int count, char **words) {
  struct sockaddr_in to = {.sin_family = AF_INET};
  struct pollfd wait[SOCKETS];
  if ((count != 6 && count != 7) || inet_pton(AF_INET, words[1], &to.sin_addr) != 1) return 2;
  if (count == 7 && !is_hex_of_rest(words[6])) return 2;
  to.sin_port = htons(atoi(words[2]));
  method = words[3];
  int outstanding = atoi(words[4]);
  if (outstanding < 1 || outstanding > SOCKETS * EACH) return 2;
  for (; lines * EACH < outstanding; lines++) {
    int file = socket(AF_INET, SOCK_DGRAM, 0), room = 1 << 22;
    if (file < 0 || connect(file, (void *)&to, sizeof to)) give_up("socket");
    setsockopt(file, SOL_SOCKET, SO_RCVBUF, &room, sizeof room);
    line[lines].file = file;
    line[lines].width = outstanding - lines * EACH < EACH ? outstanding - lines * EACH : EACH;
    wait[lines] = (struct pollfd){file, POLLIN, 0};
  }
  uint64_t began = now(), end = began + (uint64_t)(atof(words[5]) * 1e9), moment;
  drawn ^= began;
  while ((moment = now()) < end) {
    for (int on = 0; on < lines; on++) fill(on);
    if (poll(wait, lines, 5) > 0)
      for (int on = 0; on < lines; on++)
        if (wait[on].revents) receive(on);
    forget(now() - WAIT);
  }
  long kept = answers < LATENCIES ? answers : LATENCIES;
  qsort(latency, kept, sizeof *latency, by_size);
  printf("answers %ld errors %ld lost %ld seconds %.3f median %.2f p99 %.2f\n", answers, errors, lost, (moment - began) * 1e-9,
         kept ? latency[kept / 2] / 100.0 : 0, kept ? latency[(long)(kept * 0.99)] / 100.0 : 0);
  return 0;
}

/* Partitioned communication of MPI between two processes: rank 0 sends, rank 1 receives.
 *
 *   mpiexec -n 2 peer_mpich --send-parts P --recv-parts Q --bytes B --grain G --depth D --rounds N --markers M
 *     --watchers W [--pause U]
 *
 * A send partition has B bytes. A depth of D is D requests a side with a buffer each, which take turns. The grain is
 * read and not used, since MPI has none. Each of the M marking threads, the sending one among them, fills and marks a
 * run of neighbouring partitions; with a pause it marks half of them, sleeps U microseconds and marks the rest. The
 * receiving thread asks for the partitions in order, and checks every byte. Each of the W watching threads asks for a
 * run of neighbouring partitions besides. The status is 1 where a byte is wrong, and 2 where the words are.
 */
#include <mpi.h>
#include <pthread.h>
#include <sched.h>
#include <stdatomic.h>
#include <stdint.h>
#include <stdio.h>
#include <stdlib.h>
#include <string.h>
#include <time.h>

#define SAMPLES 1000
#define SPAN 64
#define TRIES 8
#define MOST_THREADS 64

typedef struct {
  long send_parts, recv_parts, bytes, grain, depth, rounds, markers, watchers, pause;
} plan;

static plan p = {1, 1, 8, 1, 1, 1, 1, 0, 0};
static size_t recv_bytes;
static long timed_part;  /* the last send partition over the first receive partition */
static long every;       /* one round in so many is timed; a power of two */
static long places;      /* as many as the depth, or a power of two above it */
static MPI_Request requests[4];
static uint8_t *buffers[4];
static int64_t stamps[2 * SAMPLES + 1];
static _Atomic long open_round;
static struct { _Alignas(128) _Atomic long round; } finished[MOST_THREADS];  /* the last round that each thread did */

/* The word at a place of 8 bytes in a round. Each of its bytes differs from that of the 4 rounds before. */
static inline uint64_t word_of(long round, size_t word) {
  return (uint64_t)round * 0x9E3779B97F4A7C15u + word * 0xD1B54A32D192ED03u;
}

static inline uint8_t byte_of(long round, size_t place) {
  return (uint8_t)(word_of(round, place / 8) >> (place % 8 * 8));
}

static void fill(uint8_t *to, size_t place, size_t count, long round) {
  size_t at = 0;
  for (; at < count && (place + at) % 8; at++) to[at] = byte_of(round, place + at);
  size_t words = (count - at) / 8;
  uint64_t word = word_of(round, (place + at) / 8);
  for (size_t i = 0; i < words; i++, word += word_of(0, 1)) memcpy(to + at + 8 * i, &word, 8);
  for (at += 8 * words; at < count; at++) to[at] = byte_of(round, place + at);
}

/* Whether the bytes are those that `fill` makes. */
static int check(const uint8_t *from, size_t place, size_t count, long round) {
  size_t at = 0;
  uint64_t wrong = 0;
  for (; at < count && (place + at) % 8; at++) wrong |= from[at] ^ byte_of(round, place + at);
  size_t words = (count - at) / 8;
  uint64_t word = word_of(round, (place + at) / 8);
  for (size_t i = 0; i < words; i++, word += word_of(0, 1)) {
    uint64_t got;
    memcpy(&got, from + at + 8 * i, 8);
    wrong |= got ^ word;
  }
  for (at += 8 * words; at < count; at++) wrong |= from[at] ^ byte_of(round, place + at);
  return !wrong;
}

static int64_t now(void) {
  struct timespec t;
  clock_gettime(CLOCK_MONOTONIC, &t);
  return t.tv_sec * 1000000000LL + t.tv_nsec;
}

static long place_of(long round) { return round & (places - 1); }

static void stamp(long round) {
  if (!(round & (every - 1))) stamps[round / every] = now();
}

static void pause_or_yield(long tries) {
  if (tries > TRIES) sched_yield();
  else __builtin_ia32_pause();
}

static void wait_for(_Atomic long *word, long value) {
  for (long tries = 1; atomic_load_explicit(word, memory_order_acquire) < value; tries++) pause_or_yield(tries);
}

/* Waits until the threads from `first` on have done a round. */
static void wait_for_all(long first, long threads, long round) {
  for (long i = first; i < threads; i++) wait_for(&finished[i].round, round);
}

/* Fills and marks the partitions of one marking thread. */
static void mark_run(long marker, long round) {
  long low = marker * p.send_parts / p.markers, high = (marker + 1) * p.send_parts / p.markers;
  long half = p.pause ? low + (high - low) / 2 : -1, place = place_of(round);
  for (long part = low; part < high; part++) {
    if (part == half) nanosleep(&(struct timespec){p.pause / 1000000, p.pause % 1000000 * 1000}, NULL);
    fill(buffers[place] + part * p.bytes, (size_t)(part * p.bytes), (size_t)p.bytes, round);
    if (part == timed_part) stamp(round);
    MPI_Pready((int)part, requests[place]);
  }
}

static void *marker(void *number) {
  long m = (long)(intptr_t)number;
  for (long round = 1; round <= p.rounds; round++) {
    wait_for(&open_round, round);
    mark_run(m, round);
    atomic_store_explicit(&finished[m].round, round, memory_order_release);
  }
  return NULL;
}

static void send_all(void) {
  for (long round = 1; round <= p.rounds; round++) {
    long place = place_of(round), last = round - p.depth;
    if (last >= 1) {
      wait_for_all(1, p.markers, last);
      MPI_Wait(&requests[place_of(last)], MPI_STATUS_IGNORE);
    }
    MPI_Start(&requests[place]);
    atomic_store_explicit(&open_round, round, memory_order_release);
    mark_run(0, round);
  }
  for (long place = 0; place < places; place++) MPI_Wait(&requests[place], MPI_STATUS_IGNORE);
}

static void look(long part, long round) {
  int here = 0;
  for (long tries = 1; MPI_Parrived(requests[place_of(round)], (int)part, &here), !here; tries++)
    pause_or_yield(tries);
}

static void *watcher(void *number) {
  long w = (long)(intptr_t)number, low = w * p.recv_parts / p.watchers, high = (w + 1) * p.recv_parts / p.watchers;
  for (long round = 1; round <= p.rounds; round++) {
    wait_for(&open_round, round);
    for (long part = low; part < high; part++) look(part, round);
    atomic_store_explicit(&finished[w].round, round, memory_order_release);
  }
  return NULL;
}

static void start_receive(long round) {
  if (round > p.rounds) return;
  MPI_Start(&requests[place_of(round)]);
  atomic_store_explicit(&open_round, round, memory_order_release);
}

static void receive_all(void) {
  for (long round = 1; round <= p.depth; round++) start_receive(round);
  for (long round = 1; round <= p.rounds; round++) {
    for (long part = 0; part < p.recv_parts; part++) {
      look(part, round);
      if (part == 0) stamp(round);
      size_t place = (size_t)part * recv_bytes;
      if (!check(buffers[place_of(round)] + place, place, recv_bytes, round)) {
        fprintf(stderr, "round %ld, partition %ld: a wrong byte\n", round, part);
        MPI_Abort(MPI_COMM_WORLD, 1);
      }
    }
    wait_for_all(0, p.watchers, round);
    MPI_Wait(&requests[place_of(round)], MPI_STATUS_IGNORE);
    start_receive(round + p.depth);
  }
}

static int later(const void *a, const void *b) {
  int64_t x = *(const int64_t *)a, y = *(const int64_t *)b;
  return (x > y) - (x < y);
}

/* Prints the rates, the median of the times from a mark to its take, and the rounds a second of the quickest
   twentieth of the spans between two timed rounds. In spans of few rounds it would tell how fast a receiver takes what
   has piled up. */
static void report(int64_t time) {
  int64_t marked[2 * SAMPLES + 1], spans[2 * SAMPLES + 1];
  long count = p.rounds / every;
  MPI_Recv(marked, (int)count + 1, MPI_INT64_T, 0, 9, MPI_COMM_WORLD, MPI_STATUS_IGNORE);
  for (long i = 1; i < count; i++) spans[i - 1] = stamps[i + 1] - stamps[i];
  for (long i = 1; i <= count; i++) stamps[i] -= marked[i];
  qsort(spans, (size_t)count - 1, sizeof *spans, later);
  qsort(stamps + 1, (size_t)count, sizeof *stamps, later);
  double rate = (double)p.rounds * 1e9 / (double)time;
  printf("rounds %.0f a second\nmarks %.0f a second\nbytes %.0f a second\nfirst %lld ns after its mark\n", rate,
         rate * (double)p.send_parts, rate * (double)(p.send_parts * p.bytes), (long long)stamps[1 + (count - 1) / 2]);
  if (every >= SPAN)
    printf("quick %.0f rounds a second in the quickest twentieth\n",
           (double)every * 1e9 / (double)spans[(count - 1) / 20]);
}

static int read_words(int count, char **words) {
  const char *names[] = {"--send-parts", "--recv-parts", "--bytes", "--grain", "--depth",
                         "--rounds", "--markers", "--watchers", "--pause"};
  long *values = &p.send_parts;
  for (int i = 1; i < count; i += 2) {
    size_t name = 0;
    while (name < 9 && strcmp(words[i], names[name])) name++;
    if (name == 9 || i + 1 == count) return 0;
    values[name] = atol(words[i + 1]);
  }
  long total = p.send_parts * p.bytes;
  if (p.send_parts < 1 || p.recv_parts < 1 || p.bytes < 1 || total % p.recv_parts || p.depth < 1 || p.depth > 4 ||
      p.rounds < 1 || p.markers < 1 || p.markers > MOST_THREADS || p.watchers < 0 || p.watchers > MOST_THREADS ||
      p.pause < 0)
    return 0;
  recv_bytes = (size_t)(total / p.recv_parts);
  timed_part = ((long)recv_bytes - 1) / p.bytes;
  places = p.depth < 3 ? p.depth : 4;
  every = p.rounds < 4 * SPAN ? 1 : SPAN;
  while (every < p.rounds / SAMPLES) every *= 2;
  return 1;
}

/* A request and a buffer for each place that a round may have. */
static void make_requests(int rank) {
  size_t total = (size_t)(p.send_parts * p.bytes);
  for (long place = 0; place < places; place++) {
    buffers[place] = aligned_alloc(64, (total + 63) / 64 * 64);
    if (!buffers[place]) MPI_Abort(MPI_COMM_WORLD, 6);
    memset(buffers[place], 0, total);
    if (rank == 0)
      MPI_Psend_init(buffers[place], (int)p.send_parts, p.bytes, MPI_BYTE, 1, (int)place, MPI_COMM_WORLD,
                     MPI_INFO_NULL, &requests[place]);
    else
      MPI_Precv_init(buffers[place], (int)p.recv_parts, (MPI_Count)recv_bytes, MPI_BYTE, 0, (int)place,
                     MPI_COMM_WORLD, MPI_INFO_NULL, &requests[place]);
  }
}

int main(int count, char **words) {
  if (!read_words(count, words)) return 2;
  int rank, given, threads = p.markers > 1 || p.watchers ? MPI_THREAD_MULTIPLE : MPI_THREAD_SINGLE;
  MPI_Init_thread(&count, &words, threads, &given);
  MPI_Comm_rank(MPI_COMM_WORLD, &rank);
  if (given < threads) MPI_Abort(MPI_COMM_WORLD, 2);
  make_requests(rank);
  pthread_t others[MOST_THREADS];
  long first = rank ? 0 : 1, last = rank ? p.watchers : p.markers;
  MPI_Barrier(MPI_COMM_WORLD);
  int64_t start = now();
  for (long i = first; i < last; i++) pthread_create(&others[i], NULL, rank ? watcher : marker, (void *)(intptr_t)i);
  if (rank) receive_all();
  else send_all();
  int64_t time = now() - start;
  for (long i = first; i < last; i++) pthread_join(others[i], NULL);
  if (rank) report(time);
  else MPI_Send(stamps, (int)(p.rounds / every) + 1, MPI_INT64_T, 1, 9, MPI_COMM_WORLD);
  for (long place = 0; place < places; place++) MPI_Request_free(&requests[place]);
  MPI_Finalize();
  return 0;
}

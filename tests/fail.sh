#!/usr/bin/env bash
# Asks `test_jobs` two questions with each request for memory refused: where memory for a step of a replica or an archive is
# refused, the later answers should be as if that step weren't there. Then it runs `hubsync` on a bundle of two profiles with each
# request for memory refused in turn, each read and each write failing: nothing stands before the line of the fault, and a failed
# write leaves a prefix of the right text. It refuses each request for memory in a second, small bundle, too: there each of the two
# jobs brings a file to the other side.
#
# tests/refuse.py does this for the other commands, for one and three jobs, and for calls that the test programs make.
#
# `hubsync` runs two jobs, by one worker and by two. Its requests are numbered in each thread apart. A refused request of the first
# thread gives the fault, unless it belongs to the start of a thread: then it should refuse the thread. A refused request of a worker
# should stop the job that it steps, which may be either, and no other. Both have status 3. Where a job is stopped, the state is
# what the other job leaves, with or without the one change of the job that was stopped. One worker makes the same requests in each
# run, so there each of them is refused once. With two, it depends on the run which worker steps which job, and how many requests it
# makes: each number that one worker comes to is tried once with either, and a run in which it isn't come to has the right text.
#
#     tests/fail.sh
#
# All must have been built, by `rt run` in crates/test_jobs and crates/hubsync. A C compiler is needed, since
# a few lines of C take the place of the C library's `malloc`, `calloc`, `realloc`, `read`, `write` and `pthread_create`. As many
# runs go on at a time as there are processors, and a run that takes a minute is ended. For each kind of call a line gives the
# number of runs, how many ended with the fault, how many with a refused thread, a stopped job or a refused step, how many with
# the right text, and in how many the worker didn't make the call. The status is 1 if an answer is wrong.
set -euo pipefail
# shellcheck source=bench/head.sh
source "$(dirname "$(readlink -f "${BASH_SOURCE[0]}")")/../bench/head.sh"
questions=$(built test_jobs)
hubsync=$(built hubsync)
need "$questions" "$hubsync"
lanes=$(nproc)
bound=''

# Has the call fail whose number is in a variable, and says so on file 9. FAIL_ALLOC is for requests for memory of the first
# thread, FAIL_ALLOC_A and FAIL_ALLOC_B are for those of the two that it starts, FAIL_READ and FAIL_WRITE for reads and writes. If
# SAY_STARTS is there, it says the numbers of the first thread's requests that belong to the start of a thread: the last one before
# the call, which the program makes for what the thread runs, and those of the C library in the call. A thread waits until as many
# are there as THREADS says, for 20 ms at most, so that no worker has done all before the other one comes.
cat >"$folder/failing.c" <<'C'
#define _GNU_SOURCE
#include <dlfcn.h>
#include <errno.h>
#include <pthread.h>
#include <stdio.h>
#include <stdlib.h>
#include <unistd.h>

struct job {
    void *(*run)(void *);
    void *with;
    int number;
};

static struct job jobs[2];
static int started, arrived;
static __thread int own __attribute__((tls_model("initial-exec")));
static long allocs[3], reads, writes;

__attribute__((constructor)) static void begin(void) {
    alarm(60);
}

static int fails(const char *name, long *calls) {
    const char *number = getenv(name);
    *calls += 1;
    return number != NULL && atol(number) == *calls;
}

static ssize_t say(const char *text, size_t count) {
    static ssize_t (*next)(int, const void *, size_t);
    if (next == NULL)
        next = dlsym(RTLD_NEXT, "write");
    return next(9, text, count);
}

static int refuses(void) {
    static const char *const names[] = {"FAIL_ALLOC", "FAIL_ALLOC_A", "FAIL_ALLOC_B"};
    if (!fails(names[own], &allocs[own]))
        return 0;
    say("failed\n", 7);
    errno = ENOMEM;
    return 1;
}

void *malloc(size_t size) {
    static void *(*next)(size_t);
    if (next == NULL)
        next = dlsym(RTLD_NEXT, "malloc");
    return refuses() ? NULL : next(size);
}

void *calloc(size_t count, size_t size) {
    static void *(*next)(size_t, size_t);
    if (next == NULL)
        next = dlsym(RTLD_NEXT, "calloc");
    return refuses() ? NULL : next(count, size);
}

void *realloc(void *block, size_t size) {
    static void *(*next)(void *, size_t);
    if (next == NULL)
        next = dlsym(RTLD_NEXT, "realloc");
    return refuses() ? NULL : next(block, size);
}

static void *run_job(void *at) {
    struct job *job = at;
    const char *threads = getenv("THREADS");
    own = job->number;
    __atomic_add_fetch(&arrived, 1, __ATOMIC_SEQ_CST);
    for (int turn = 0; threads != NULL && turn < 200 && __atomic_load_n(&arrived, __ATOMIC_SEQ_CST) < atoi(threads); turn++)
        usleep(100);
    return job->run(job->with);
}

int pthread_create(pthread_t *thread, const pthread_attr_t *how, void *(*run)(void *), void *with) {
    int (*next)(pthread_t *, const pthread_attr_t *, void *(*)(void *), void *) = dlsym(RTLD_NEXT, "pthread_create");
    long number = allocs[0], result;
    char line[24];
    if (started == 2)
        abort();
    struct job *job = &jobs[started++];
    *job = (struct job){run, with, started};
    result = next(thread, how, run_job, job);
    for (; getenv("SAY_STARTS") != NULL && number <= allocs[0]; number++)
        say(line, (size_t)snprintf(line, sizeof line, "%ld\n", number));
    return (int)result;
}

ssize_t read(int file, void *bytes, size_t count) {
    ssize_t (*next)(int, void *, size_t) = dlsym(RTLD_NEXT, "read");
    if (file == 0 && fails("FAIL_READ", &reads)) {
        say("failed\n", 7);
        errno = EIO;
        return -1;
    }
    return next(file, bytes, count);
}

ssize_t write(int file, const void *bytes, size_t count) {
    ssize_t (*next)(int, const void *, size_t) = dlsym(RTLD_NEXT, "write");
    if (file == 1 && fails("FAIL_WRITE", &writes)) {
        say("failed\n", 7);
        errno = EIO;
        return -1;
    }
    return next(file, bytes, count);
}
C
cc -O1 -shared -fPIC -o "$folder/failing.so" "$folder/failing.c" -ldl

# Sets a variable to all that a file has.
take() {
    IFS= read -r -d '' "$1" <"$2" || true
}

# Runs a program with the words of `words` on an input with a variable set, in the folder of the lane. Sets `status`, `answer` and
# `errors`, and `said` to what was said on file 9.
run() {
    local -x "$1"
    status=0
    LD_PRELOAD=$folder/failing.so "$3" "${words[@]}" <"$folder/$2" >"$lane/answer" 2>"$lane/errors" 9>"$lane/said" || status=$?
    take answer "$lane/answer"
    take errors "$lane/errors"
    take said "$lane/said"
}

# Each of the functions that follow sets `told` to a word for what a run told: `right` for the right text, `fault`, and so on.
# It is `wrong` if the answer may not come.

# `hubsync` writes the line of the fault and nothing else, or a prefix of the right text if a write failed. A thread is refused by
# the requests of its start and by no others. A job is stopped by a request of a worker.
judge_hubsync() {
    told=wrong
    case $kind-$status in
        *-0) [ "$answer" != "$safe" ] || told=right ;;
        FAIL_ALLOC-2) [ "$answer" != $'fault: out of memory\n' ] || told=fault ;;
        FAIL_READ-2) [ "$answer" != $'fault: bundle line 0: ReadFailed\n' ] || told=fault ;;
        FAIL_WRITE-2) [[ $safe != "$answer"* ]] || told=fault ;;
        FAIL_ALLOC-3) [ "$answer" != "$refused" ] || told=refused ;;
        FAIL_ALLOC_[AB]-3) ! is_stopped || told=stopped ;;
    esac
    if [ "$kind" = FAIL_ALLOC ] && is_of_start "$number"; then
        [ "$told" = refused ] || told=wrong
    elif [ "$told" = refused ]; then
        told=wrong
    fi
}

# Whether the answer says that one job was stopped.
is_stopped() {
    case $answer in
        "$stopped_a" | "$stopped_a_late" | "$stopped_b" | "$stopped_b_late") return 0 ;;
    esac
    return 1
}

# Whether the request of the first thread with this number belongs to the start of a thread.
is_of_start() {
    [[ $starts == *$'\n'$1$'\n'* ]]
}

# `test_jobs` answers one line. The answer is one of those given, the first with ample memory, or it ends with the fault and no
# answer.
judge_question() {
    told=wrong
    answer=${answer%$'0 right\n'}
    if [ "$status" = 0 ] && [ "$answer" = "$first" ]; then
        told=right
    elif [ "$status" = 0 ] && [[ $answer == *$'\n' && $'\n'$answers == *$'\n'"$answer"* ]]; then
        told=step
    elif [ "$status" = 1 ] && [ -z "$answer" ] && [[ ${errors,,} =~ outofmemory|out\ of\ memory|memory\ allocation\ failed ]]; then
        told=fault
    fi
}

# Runs a program on an input with each call of a kind failing, until there is no such call, or up to the number `bound` if there is
# one. Then the file `told` has the word of each run, and `runs` is their number.
fail_each() {
    local judge=$1 program=$2 input=$3 kind=$4 number lane begun=() each
    for ((number = 1; number <= lanes; number++)); do
        lane=$folder/lane$number
        mkdir -p "$lane"
        fail_in_lane &
        begun+=($!)
    done
    for each in "${begun[@]}"; do
        wait "$each" || touch "$folder/wrong"
    done
    [ ! -e "$folder/wrong" ] || exit 1
    cat "$folder"/lane*/told >"$folder/told"
    runs=$(wc -l <"$folder/told")
}

# Takes each so-many-th number, from the lane's own on. Without a failing call the text is right.
fail_in_lane() {
    : >"$lane/told"
    while [ ! -e "$folder/wrong" ] && [ "$number" -le "${bound:-$number}" ]; do
        run "$kind=$number" "$input" "$program"
        "$judge"
        if [ -z "$said" ]; then
            [ "$told" = right ] || is_wrong
            [ -n "$bound" ] || return 0
            told=missed
        fi
        [ "$told" != wrong ] || is_wrong
        echo "$told" >>"$lane/told"
        number=$((number + lanes))
    done
}

# Ends the lane, and soon the others, since an answer is wrong.
is_wrong() {
    touch "$folder/wrong"
    echo "$script: $(basename "$program"): $kind $number: status $status, ${errors:0:200}${answer:0:200}" >&2
    exit 1
}

# How many runs told this word.
count() {
    grep -cx "$1" "$folder/told" || true
}

# Runs a program on an input with each call of a kind failing, and says what the answers told.
say_each() {
    fail_each "$@"
    echo "$(basename "$2"): $4: $runs runs, $(count fault) with $5, $(count refused) with a refused thread," \
        "$(count stopped) with a stopped job, $(count right) with the right text, $(count missed) without the call"
}

# Asks `test_jobs` a question with each request for memory refused. Its answers are given.
say_each_in_question() {
    local question=$1 first answers
    shift
    echo "$question" >"$folder/question"
    answers=$(printf '%s\n' "${@/#/$question => }")$'\n'
    first="$question => $1"$'\n'
    fail_each judge_question "$questions" question FAIL_ALLOC 'the fault'
    echo "test_jobs ${question%% *}: $runs runs, $(count fault) with the fault, $(count step) with a refused step," \
        "$(count right) with the right answer"
}

# Refuses each request for memory of a run of `hubsync` by a number of workers, in each of its threads. Each start of a thread makes
# two requests, as the first run says: one of the program for what the thread runs, and one of the C library for the table of the
# thread's own variables. For two workers `requests` has to be how many requests one worker makes, as the call for one leaves it.
say_each_in_run() {
    local input=$1 workers=$2 thread threads=(_A)
    local -x THREADS=$workers
    words=(run --workers "$workers")
    lane=$folder
    run SAY_STARTS=1 "$input" "$hubsync"
    starts=$'\n'$said
    echo "hubsync $input, workers: $workers"
    say_each judge_hubsync "$hubsync" "$input" FAIL_ALLOC OutOfMemory
    if [ "$workers" = 2 ]; then
        threads=(_A _B)
        bound=$requests
    fi
    for thread in "${threads[@]}"; do
        say_each judge_hubsync "$hubsync" "$input" "FAIL_ALLOC$thread" OutOfMemory
    done
    requests=$runs
    bound=''
    words=()
}

{
    printf 'hubsync state 1\nreplica /srv/hub\ndir a\nfile - a/b\nfile 6869 a/c\ndir a/d\ndir a/d/e\n'
    seq -f 'file 6869 a/d/e/%02.0f' 40
    printf 'file %0100000d a/z\nfile 6869 b\n' 0
    seq -f 'replica /srv/spoke%02.0f' 20
    printf 'archive /srv/hub\nwith /srv/spoke01\ndir a\nfile %064d a/b\nend\n' 1
} | in_version_2 >"$folder/text"

{
    for name in a b; do
        printf '%%profile %s\nroot = /srv/hub\nroot = /srv/spoke01\npath = %s\nignore = Name {x*,[0-9]y}\n' "$name" "$name"
    done
    printf '%%rules\nroot = /srv/hub\nnolose = BelowPath c\n%%state\n'
    cat "$folder/text"
} >"$folder/bundle"
# The job of `b` brings the file `b` to the spoke. That of `a` skips it all: the spoke has deleted the directory `a`, and the
# hub has changed `a/b`.
digest=$(printf hi | sha256sum | cut -d ' ' -f 1)
sed "s|^replica /srv/spoke01\$|&\nfile $digest b|" "$folder/text" >"$folder/brought"
sed "s|^end\$|file $digest b\n&|" "$folder/brought" >"$folder/after"
safe=$(printf 'safe\njob a finished\nskip Conflict a\njob b finished\nto /srv/spoke01 b\n' && cat "$folder/after")$'\n'
refused=$'safe\nrun fault: ThreadRefused\n'
stopped_a=$(printf 'safe\njob a stopped\njob b finished\nto /srv/spoke01 b\n' && cat "$folder/after")$'\n'
stopped_b=$(printf 'safe\njob a finished\nskip Conflict a\njob b stopped\n' && cat "$folder/text")$'\n'
stopped_a_late=$stopped_a
stopped_b_late=$(printf 'safe\njob a finished\nskip Conflict a\njob b stopped\n' && cat "$folder/brought")$'\n'

words=()
# The second answer is that where memory for the first step was refused, and so on.
a=$(printf a | sha256sum | cut -d ' ' -f 1)
abc=$(printf abc | sha256sum | cut -d ' ' -f 1)
no_memory='memory allocation failed'
say_each_in_question 'tree set a d; set a/b f:abc; set a/c f:a; mark a/c; count; copy; swap; count; swap; count; mark a/b' \
    "ok; ok; ok; $a; 3; ok; ok; 3; ok; 3; $abc" \
    "OutOfMemory; NoParent; NoParent; -; 0; ok; ok; 0; ok; 0; -" \
    "ok; OutOfMemory; ok; $a; 2; ok; ok; 2; ok; 2; -" \
    "ok; ok; OutOfMemory; -; 2; ok; ok; 2; ok; 2; $abc" \
    "ok; ok; ok; $a; 3; $no_memory; ok; 0; ok; 3; $abc"
say_each_in_question 'marks set a/b d; mark a/b' 'ok; d' "$no_memory; -"

say_each_in_run bundle 1
say_each_in_run bundle 2
say_each judge_hubsync "$hubsync" bundle FAIL_READ ReadFailed
say_each judge_hubsync "$hubsync" bundle FAIL_WRITE WriteFailed

# The text of a state: the names of the files that the hub has, those that the spoke has, and those of the archive. Each file has
# its own name as its only byte.
exchanged() {
    exchanged_in_version_1 "$@" | in_version_2
}
exchanged_in_version_1() {
    local name
    printf 'hubsync state 1\nreplica /srv/hub\n'
    for name in $1; do printf 'file %x %s\n' "'$name" "$name"; done
    echo 'replica /srv/s1'
    for name in $2; do printf 'file %x %s\n' "'$name" "$name"; done
    [ -z "$3" ] || printf 'archive /srv/hub\nwith /srv/s1\n'
    for name in $3; do printf 'file %s %s\n' "$(printf %s "$name" | sha256sum | cut -d ' ' -f 1)" "$name"; done
    echo end
}
{
    printf '%%profile %s\nroot = /srv/hub\nroot = /srv/s1\npath = %s\n' a a b b
    echo %state
    exchanged a b ''
} >"$folder/exchange"
finished_a=$'job a finished\nto /srv/s1 a\n'
finished_b=$'job b finished\nto /srv/hub b\n'
safe=$'safe\n'$finished_a$finished_b$(exchanged 'a b' 'a b' 'a b')$'\n'
stopped_a=$'safe\njob a stopped\n'$finished_b$(exchanged 'a b' b b)$'\n'
stopped_a_late=$'safe\njob a stopped\n'$finished_b$(exchanged 'a b' 'a b' b)$'\n'
stopped_b=$'safe\n'$finished_a$'job b stopped\n'$(exchanged a 'a b' a)$'\n'
stopped_b_late=$'safe\n'$finished_a$'job b stopped\n'$(exchanged 'a b' 'a b' a)$'\n'
say_each_in_run exchange 1
say_each_in_run exchange 2

// Runs programs under ptrace, one for each request that comes on the standard input, a socket: see traced.py, which compiles and starts this.
#define _GNU_SOURCE
#include <errno.h>
#include <grp.h>
#include <linux/filter.h>
#include <linux/seccomp.h>
#include <signal.h>
#include <stddef.h>
#include <stdint.h>
#include <stdio.h>
#include <stdlib.h>
#include <string.h>
#include <sys/prctl.h>
#include <sys/ptrace.h>
#include <sys/resource.h>
#include <sys/socket.h>
#include <sys/syscall.h>
#include <sys/time.h>
#include <sys/uio.h>
#include <sys/user.h>
#include <sys/wait.h>
#include <unistd.h>

#define NAMES 512
#define MOST_CALLS 3000

enum { TRACED = 1, CLOSED = 2, NO_XFSZ = 4, NO_ERRORS = 8 };
enum { ANSWER, SHORT, SIGNAL };
enum { STREAMS = 3, WORDS = 32, MOST_OTHERS = 1000 };

struct fault { int64_t number, first, last, kind, value; };
struct request { int64_t milliseconds, user, flags, resource, limit, begin, faults, names; };
struct call { int64_t number, count, file, fault, answer, has_answer; };
struct reply { int64_t status, is_late, has_begun, calls; int64_t counts[NAMES]; };

static char buffer[65536];
static struct { struct reply head; struct call calls[MOST_CALLS]; } told;
static struct request *request;
static struct fault *faults;
static int64_t *names;
static char *words[WORDS + 1], *folder, *begin;
// The program, and the threads and processes that it started.
static pid_t child, others[MOST_OTHERS];
static int count_of_others;

static void stop(int number) {
    (void)number;
    told.head.is_late = 1;
    kill(child, SIGKILL);
}

// Takes a request and the standard streams of the program; 0 at the end.
static int take(int streams[STREAMS]) {
    union { struct cmsghdr align; char room[CMSG_SPACE(STREAMS * sizeof(int))]; } control;
    struct iovec piece = {buffer, sizeof buffer - 1};
    struct msghdr message = {.msg_iov = &piece, .msg_iovlen = 1, .msg_control = &control, .msg_controllen = sizeof control};
    ssize_t size = recvmsg(0, &message, MSG_CMSG_CLOEXEC);
    if (size <= 0) return 0;
    memcpy(streams, CMSG_DATA(CMSG_FIRSTHDR(&message)), STREAMS * sizeof(int));
    request = (struct request *)buffer;
    faults = (struct fault *)(request + 1);
    names = (int64_t *)(faults + request->faults);
    begin = (char *)(names + request->names);
    buffer[size] = 0;
    folder = begin + strlen(begin) + 1;
    int count = 0;
    for (char *word = folder + strlen(folder) + 1; word < buffer + size && count < WORDS; word += strlen(word) + 1) words[count++] = word;
    words[count] = NULL;
    return 1;
}

// Stops the process before the calls of the names alone.
static int filter(void) {
    struct sock_filter all[NAMES + 3];
    unsigned short n = (unsigned short)request->names;
    all[0] = (struct sock_filter)BPF_STMT(BPF_LD | BPF_W | BPF_ABS, offsetof(struct seccomp_data, nr));
    for (unsigned short k = 0; k < n; k++)
        all[1 + k] = (struct sock_filter)BPF_JUMP(BPF_JMP | BPF_JEQ | BPF_K, (unsigned)names[k], (unsigned char)(n - k), 0);
    all[1 + n] = (struct sock_filter)BPF_STMT(BPF_RET | BPF_K, SECCOMP_RET_ALLOW);
    all[2 + n] = (struct sock_filter)BPF_STMT(BPF_RET | BPF_K, SECCOMP_RET_TRACE);
    struct sock_fprog program = {(unsigned short)(n + 3), all};
    return prctl(PR_SET_NO_NEW_PRIVS, 1, 0, 0, 0) || prctl(PR_SET_SECCOMP, SECCOMP_MODE_FILTER, &program);
}

static void become(int streams[STREAMS]) {
    for (int k = 0; k < STREAMS; k++) if (dup2(streams[k], k) < 0) _exit(126);
    for (int number = 1; number < NSIG; number++) signal(number, SIG_DFL);
    if (request->flags & NO_XFSZ) signal(SIGXFSZ, SIG_IGN);
    if (chdir(folder)) _exit(126);
    if (request->flags & CLOSED) close(1);
    if (request->flags & NO_ERRORS) close(2);
    if (request->user >= 0 && (setgroups(0, NULL) || setgid((gid_t)request->user) || setuid((uid_t)request->user))) _exit(126);
    struct rlimit limit = {(rlim_t)request->limit, (rlim_t)request->limit};
    if (request->resource >= 0 && setrlimit((int)request->resource, &limit)) _exit(126);
    if (request->flags & TRACED) {
        if (ptrace(PTRACE_TRACEME, 0, NULL, NULL)) _exit(126);
        raise(SIGSTOP);
        if (filter()) _exit(126);
    }
    execv(words[0], words);
    _exit(127);
}

// Whether a call is the one with which the program begins: it has this number, and its second argument is this path.
static int is_begin(pid_t process, const struct user_regs_struct *at) {
    static char text[4096];
    size_t size = strlen(begin) + 1;
    struct iovec here = {text, size}, there = {(void *)at->rsi, size};
    return (int64_t)at->orig_rax == request->begin && size <= sizeof text && process_vm_readv(process, &here, 1, &there, 1, 0) == (ssize_t)size && !memcmp(text, begin, size);
}

static struct call *noted(const struct user_regs_struct *at, int64_t fault) {
    static struct call spare;
    int64_t number = (int64_t)at->orig_rax;
    struct call *call = told.head.calls < MOST_CALLS ? &told.calls[told.head.calls++] : &spare;
    *call = (struct call){number, told.head.counts[number], (int)at->rdi, fault, 0, 0};
    return call;
}

// Before a call of the program, in any of its threads: has happen to it what is to happen, and gives how the thread goes on. `waiting` is the call of the first thread whose answer is waited for.
static enum __ptrace_request enter(pid_t thread, struct call **waiting) {
    struct user_regs_struct at;
    if (ptrace(PTRACE_GETREGS, thread, NULL, &at)) return PTRACE_CONT;
    told.head.has_begun |= is_begin(thread, &at);
    int64_t number = (int64_t)at.orig_rax, k = 0;
    if (!told.head.has_begun || number < 0 || number >= NAMES) return PTRACE_CONT;
    int64_t count = ++told.head.counts[number];
    while (k < request->faults && !(faults[k].number == number && faults[k].first <= count && count <= faults[k].last)) k++;
    int is_met = k < request->faults, is_answered = number == SYS_write || number == SYS_fsync;
    if (!is_met && !is_answered && number != SYS_exit_group) return PTRACE_CONT;
    struct call *call = noted(&at, is_met ? k : -1);
    if (is_met && faults[k].kind == ANSWER) {
        at.orig_rax = (unsigned long long)-1;
        at.rax = (unsigned long long)faults[k].value;
        ptrace(PTRACE_SETREGS, thread, NULL, &at);
        call->answer = faults[k].value;
        call->has_answer = 1;
        return PTRACE_CONT;
    }
    if (is_met && faults[k].kind == SHORT && at.rdx > (unsigned long long)faults[k].value) {
        at.rdx = (unsigned long long)faults[k].value;
        ptrace(PTRACE_SETREGS, thread, NULL, &at);
    }
    if (is_met && faults[k].kind == SIGNAL) kill(child, (int)faults[k].value);
    if (thread != child) return PTRACE_CONT;
    *waiting = call;
    return is_answered ? PTRACE_SYSCALL : PTRACE_CONT;
}

static void leave(struct call *call) {
    struct user_regs_struct at;
    if (!call || ptrace(PTRACE_GETREGS, child, NULL, &at)) return;
    call->answer = (int64_t)at.rax;
    call->has_answer = 1;
}

// Whether a thread or process was seen before. The first stop of a new one is that of its start.
static int is_known(pid_t one) {
    for (int k = 0; k < count_of_others; k++) if (others[k] == one) return 1;
    if (count_of_others < MOST_OTHERS) others[count_of_others++] = one;
    return 0;
}

static int is_of_program(pid_t one) {
    char path[64];
    snprintf(path, sizeof path, "/proc/%d/task/%d", (int)child, (int)one);
    return one == child || !access(path, F_OK);
}

// How a process or thread that has stopped goes on, and with which signal.
static enum __ptrace_request after_stop(pid_t one, int status, struct call **waiting, int *passed) {
    int event = status >> 16;
    if (event == PTRACE_EVENT_SECCOMP) return is_of_program(one) ? enter(one, waiting) : PTRACE_CONT;
    if (WSTOPSIG(status) == (SIGTRAP | 0x80)) leave(*waiting);
    else if (event == 0) *passed = WSTOPSIG(status);
    return PTRACE_CONT;
}

// Follows the program, which has stopped itself, to its end; what it started is ended with it.
static int follow(void) {
    int status, end = 0, has_ended = 0, is_first = 1;
    struct call *waiting = NULL;
    count_of_others = 0;
    for (pid_t one; (one = waitpid(-1, &status, __WALL)) > 0;) {
        int passed = 0, is_new = one != child && !is_known(one);
        if (!WIFSTOPPED(status)) {
            if (one != child) continue;
            end = status;
            has_ended = 1;
            for (int k = 0; k < count_of_others; k++) kill(others[k], SIGKILL);
            continue;
        }
        enum __ptrace_request goes_on = PTRACE_CONT;
        if (has_ended) kill(one, SIGKILL);
        else if (one == child && is_first) ptrace(PTRACE_SETOPTIONS, child, NULL, PTRACE_O_EXITKILL | PTRACE_O_TRACEEXEC | PTRACE_O_TRACESECCOMP | PTRACE_O_TRACESYSGOOD | PTRACE_O_TRACEFORK | PTRACE_O_TRACEVFORK | PTRACE_O_TRACECLONE);
        else if (!is_new) goes_on = after_stop(one, status, &waiting, &passed);
        is_first &= one != child;
        ptrace(goes_on, one, NULL, passed);
    }
    return end;
}

int main(void) {
    int streams[STREAMS], status;
    struct sigaction late = {.sa_handler = stop, .sa_flags = SA_RESTART};
    sigaction(SIGALRM, &late, NULL);
    int room = 1 << 20;
    setsockopt(0, SOL_SOCKET, SO_SNDBUF, &room, sizeof room);
    while (take(streams)) {
        memset(&told.head, 0, sizeof told.head);
        child = fork();
        if (child == 0) become(streams);
        struct itimerval time = {.it_value = {request->milliseconds / 1000, request->milliseconds % 1000 * 1000}}, none = {0};
        setitimer(ITIMER_REAL, &time, NULL);
        if (request->flags & TRACED) status = follow();
        else waitpid(child, &status, 0);
        setitimer(ITIMER_REAL, &none, NULL);
        for (int k = 0; k < STREAMS; k++) close(streams[k]);
        told.head.status = WIFSIGNALED(status) ? -WTERMSIG(status) : WEXITSTATUS(status);
        if (send(0, &told, sizeof told.head + (size_t)told.head.calls * sizeof *told.calls, 0) < 0) return 1;
    }
    return 0;
}

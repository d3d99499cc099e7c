// lwIP as a firmware: lwIP with its slipif and its httpd, on the board of board.h. A script page has tags of httpd in place of the lines of
// the site's scripts (build.py rewrites the site), which make the same text.
#include "board.h"
#include "pages.h"
#include "lwip/apps/fs.h"
#include "lwip/apps/httpd.h"
#include "lwip/init.h"
#include "lwip/netif.h"
#include "lwip/priv/tcp_priv.h"
#include "lwip/sio.h"
#include "lwip/stats.h"
#include "lwip/timeouts.h"
#include "netif/slipif.h"

static u32_t hits[FILES];

u32_t sys_now(void) { return clock_ticks() * 500; }

// ---- the line

sio_fd_t sio_open(u8_t number) { return (sio_fd_t)(uintptr_t)(number + 1); }

void sio_send(u8_t byte, sio_fd_t line) {
    (void)line;
    port_put(byte);
}

// Bytes of the ring are given back when all of a run are read.
u32_t sio_tryread(sio_fd_t line, u8_t *to, u32_t room) {
    static port_bytes came;
    static size_t at;
    u32_t count = 0;
    (void)line;
    if (at == came.len) {
        if (at) port_taken(at);
        at = 0;
        came = port_waiting();
    }
    while (count < room && at < came.len) to[count++] = came.at[at++];
    return count;
}

u32_t sio_read(sio_fd_t line, u8_t *to, u32_t room) { return sio_tryread(line, to, room); }

// ---- files and tags

int fs_open_custom(struct fs_file *file, const char *name) {
    page_file found;
    int number = find_file(name, strlen(name), &found);
    if (number < 0) return 0;
    hits[number]++;
    memset(file, 0, sizeof *file);
    file->data = (const char *)found.data;
    file->len = file->index = (int)found.len;
    if (ends_with(&found, ".shtml")) file->flags |= FS_FILE_FLAGS_SSI;
    return 1;
}

void fs_close_custom(struct fs_file *file) { (void)file; }

int fs_read_custom(struct fs_file *file, char *to, int room) {
    (void)file, (void)to, (void)room;
    return FS_READ_EOF;
}

enum { COUNTS = 20, NUMBER_LEN = 10, IN_A_PART = 5 };

static u16_t put_counters(char *to, u16_t part, u16_t *next) {
    static const STAT_COUNTER *const all[COUNTS] = {
        &lwip_stats.ip.recv, &lwip_stats.ip.xmit, &lwip_stats.ip.drop, &lwip_stats.ip.lenerr, &lwip_stats.ip.opterr, &lwip_stats.ip.chkerr,
        &lwip_stats.ip.proterr, &lwip_stats.icmp.recv, &lwip_stats.icmp.xmit, &lwip_stats.icmp.drop, &lwip_stats.icmp.proterr,
        &lwip_stats.tcp.recv, &lwip_stats.tcp.xmit, &lwip_stats.tcp.drop, &lwip_stats.tcp.chkerr, &lwip_stats.tcp.err,
        &lwip_stats.tcp.proterr, &lwip_stats.tcp.rterr, &lwip_stats.tcp.memerr, &lwip_stats.tcp.cachehit};
    char *end = to;
    for (int k = part * IN_A_PART; k < (part + 1) * IN_A_PART; k++) {
        end = put_number(end, *all[k], NUMBER_LEN);
        *end++ = '\n';
    }
    if ((part + 1) * IN_A_PART < COUNTS) *next = part + 1;
    return (u16_t)(end - to);
}

// The row of the connection of this number: first those that are open, then those in TIME-WAIT.
static u16_t put_connection(char *to, u16_t number, u16_t *next) {
    struct tcp_pcb *at = tcp_active_pcbs ? tcp_active_pcbs : tcp_tw_pcbs;
    for (u16_t k = 0; at && k < number; k++) at = at->next || at->state == TIME_WAIT ? at->next : tcp_tw_pcbs;
    if (!at) return 0;
    const u8_t *address = (const u8_t *)&at->remote_ip;
    page_row row = {number, at->remote_port, at->nrtx, (u16_t)at->rtime, address, tcp_debug_state_str(at->state), at->unacked != NULL};
    if (at->next || (at->state != TIME_WAIT && tcp_tw_pcbs)) *next = number + 1;
    return (u16_t)(put_row(to, &row) - to);
}

static const char *tags[] = {"ticks", "net", "conns", "h0", "h1", "h2", "h3", "h4", "h5", "h6", "h7", "h8", "h9"};

static u16_t put_tag(int tag, char *to, int room, u16_t part, u16_t *next) {
    (void)room;
    if (tag == 1) return put_counters(to, part, next);
    if (tag == 2) return put_connection(to, part, next);
    return (u16_t)(put_number(to, tag ? hits[tag - 3] : clock_ticks(), NUMBER_LEN) - to);
}

int main(void) {
    static struct netif line;
    ip4_addr_t own, mask, router;
    board_start();
    lwip_init();
    IP4_ADDR(&own, 10, 0, 0, 1);
    IP4_ADDR(&mask, 255, 255, 255, 0);
    IP4_ADDR(&router, 0, 0, 0, 0);
    netif_add(&line, &own, &mask, &router, NULL, slipif_init, netif_input);
    netif_set_default(&line);
    netif_set_up(&line);
    netif_set_link_up(&line);
    httpd_init();
    http_set_ssi_handler(put_tag, tags, sizeof tags / sizeof *tags);
    for (unsigned t = 0;; board_sleep(t)) {
        slipif_poll(&line);
        tick_is_due(&t);
        sys_check_timeouts();
    }
}

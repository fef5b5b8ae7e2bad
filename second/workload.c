/* The workloads: the mix, each kind alone, deep nesting, the search's two ends, and postings. */
#include "workload.h"

#include "generate.h"

#include <string.h>

#define OPEN_BOUNDARY gg_boundary(GG_IF, GG_ACTIVE)

static void add(struct workload *w, struct gg_event event)
{
    w->events[w->count++] = event;
}

static void put_vector(struct workload *w, uint32_t base, uint32_t vector)
{
    w->page[base + 16 * (vector / 32) + vector % 32 / 8] |= (uint8_t)(1u << vector % 8);
}

static void self_ipi(struct workload *w, uint32_t vector)
{
    add(w, gg_memory_write(GG_VICR_LO, 4, SELF_IPI | vector, 0));
}

/* One interrupt from its self-IPI to its EOI. */
static void whole_interrupt(struct workload *w, uint32_t vector)
{
    self_ipi(w, vector);
    add(w, OPEN_BOUNDARY);
    add(w, gg_memory_write(GG_VEOI, 4, 0, 0));
}

static void mix(struct workload *w)
{
    whole_interrupt(w, 0x71);
    add(w, gg_memory_write(GG_VTPR, 4, 0x20, 0));
    add(w, gg_memory_read(GG_VTPR, 4, 0));
}

static void entry(struct workload *w)
{
    w->record.mode = GG_ROOT;
    w->restores_mode = true;
    add(w, gg_entry(CONTROLS_M, 0, NULL));
}

static void memory_read(struct workload *w)
{
    add(w, gg_memory_read(GG_VTPR, 4, 0));
}

static void memory_write(struct workload *w)
{
    add(w, gg_memory_write(GG_VTPR, 4, 0x20, 0));
}

static void to_cr8(struct workload *w)
{
    add(w, gg_to_cr8(2, 0));
}

static void from_cr8(struct workload *w)
{
    add(w, gg_from_cr8(0));
}

static void rdmsr(struct workload *w)
{
    w->record.flags = CONTROLS_X2;
    add(w, gg_rdmsr(0x808));
}

static void wrmsr(struct workload *w)
{
    w->record.flags = CONTROLS_X2;
    add(w, gg_wrmsr(0x808, 0x20));
}

static void boundary(struct workload *w)
{
    add(w, OPEN_BOUNDARY);
}

static void request(struct workload *w)
{
    w->record.mode = GG_ROOT;
    add(w, gg_request(0x60));
}

static void nesting(struct workload *w)
{
    for (uint32_t priority = 1; priority < 16; priority++) {
        self_ipi(w, 16 * priority);
        add(w, OPEN_BOUNDARY);
    }
    for (uint32_t priority = 1; priority < 16; priority++)
        add(w, gg_memory_write(GG_VEOI, 4, 0, 0));
}

/* Only vector 0 is set beside the one served, so that a search runs to the end. */
static void near_empty(struct workload *w)
{
    put_vector(w, GG_VISR, 0);
    put_vector(w, GG_VIRR, 0);
    whole_interrupt(w, 0xF0);
}

/* Every vector below the one served is set, so that a search ends early. */
static void full(struct workload *w)
{
    for (uint32_t vector = 0; vector < 0xF0; vector++) {
        put_vector(w, GG_VISR, vector);
        put_vector(w, GG_VIRR, vector);
    }
    w->record.rvi = w->record.svi = 0xEF;
    w->page[GG_VPPR] = 0xE0;
    whole_interrupt(w, 0xF0);
}

/* A notification that finds the outstanding bit and nothing else; the next two post vectors besides. */
static void posting_none(struct workload *w)
{
    w->posts = true;
    w->count = 1;
    w->record.flags |= CONTROLS_POSTING;
    w->record.notification_vector = 0xF2;
    w->descriptor[32] = 1;
}

static void posting(struct workload *w)
{
    posting_none(w);
    gg_post(w->descriptor, 0x31);
    gg_post(w->descriptor, 0x71);
}

static void posting_full(struct workload *w)
{
    posting_none(w);
    memset(w->descriptor, 0xFF, 32);
}

static const struct {
    const char *name, *words;
    void (*make)(struct workload *w);
} rows[WORKLOADS] = {
    {"mix", "self-IPI write, boundary, EOI write, TPR write, TPR read", mix},
    {"entry", "entry with VID", entry},
    {"request", "request from root", request},
    {"memory-read", "read of VTPR", memory_read},
    {"memory-write", "write of VTPR with VID", memory_write},
    {"to-cr8", "MOV to CR8 with VID", to_cr8},
    {"from-cr8", "MOV from CR8", from_cr8},
    {"rdmsr", "RDMSR 808H", rdmsr},
    {"wrmsr", "WRMSR 808H with VID", wrmsr},
    {"boundary", "boundary with nothing recognised", boundary},
    {"nesting", "fifteen nested interrupts and their EOIs", nesting},
    {"near-empty", "self-IPI, boundary, EOI over nearly empty registers", near_empty},
    {"full", "self-IPI, boundary, EOI over full registers", full},
    {"posting-none", "external interrupt with nothing posted", posting_none},
    {"posting", "external interrupt with two vectors posted", posting},
    {"posting-full", "external interrupt with every vector posted", posting_full},
};

void workload_make(struct workload *w, unsigned which)
{
    memset(w, 0, sizeof *w);
    w->name = rows[which].name;
    w->words = rows[which].words;
    w->record.mode = GG_GUEST;
    w->record.flags = CONTROLS_M;
    rows[which].make(w);
}

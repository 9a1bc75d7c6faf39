/* A cluster of two nodes: node 1 fails, and node 2 has what was synced. */
#include <assise.h>
#include <inttypes.h>
#include <stdio.h>
#include <stdlib.h>

static struct assise_desk desk;

static int64_t seen(const char *what, int64_t result) {
    if (result >= 0) return result;
    fprintf(stderr, "%s: %s\n", what, assise_text(result));
    exit(1);
}

int main(void) {
    assise_begin(&desk);
    seen("make", assise_make(&desk, 2, 64, 64));
    uint32_t writer = (uint32_t)seen("open", assise_open(&desk, 1, ASSISE_LEAST));
    seen("create", assise_create(&desk, writer, "/letter"));
    seen("write", assise_write(&desk, writer, "/letter", "synced", 6, 0));
    seen("fsync", assise_fsync(&desk, writer));
    seen("write", assise_write(&desk, writer, "/letter", ", and lost", 10, 6));

    int64_t losers = seen("fail", assise_fail(&desk, 1));
    for (uint32_t place = 0; place < losers; place++) {
        struct assise_loss loss = assise_loss(&desk, place);
        printf("client %" PRIu32 " loses its calls from %" PRIu64 " on\n", loss.client, loss.call);
    }

    uint32_t reader = (uint32_t)seen("open", assise_open(&desk, 2, ASSISE_LEAST));
    char text[64];
    int64_t bytes = seen("read", assise_read(&desk, reader, "/letter", text, sizeof text, 0));
    printf("%.*s\n", (int)bytes, text);
    assise_free(&desk);
    return 0;
}

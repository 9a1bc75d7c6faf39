#include "operations.h"

struct mount *take_turn(void) {
    struct mount *mount = fuse_get_context()->private_data;
    pthread_mutex_lock(&mount->cluster->turn);
    return mount;
}

int end_turn(struct mount *mount, int result) {
    pthread_mutex_unlock(&mount->cluster->turn);
    return result;
}

int answered(int64_t result) {
    return -assise_errno(result);
}

bool is_of_now(const struct mount *mount, const struct fuse_file_info *file) {
    return !file || file->fh == mount->generation;
}

#include "streams.h"

#include <fcntl.h>
#include <unistd.h>

bool streams_take(void) {
    for (int file = STDIN_FILENO; file <= STDERR_FILENO; file++) {
        if (fcntl(file, F_GETFD) >= 0)
            continue;
        int mode = file == STDIN_FILENO ? O_WRONLY : O_RDONLY;
        if (open("/dev/null", mode) != file)
            return false;
    }
    return true;
}

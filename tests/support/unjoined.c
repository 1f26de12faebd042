/* The sweep has to reject this program: it starts six threads, as lrupd does for three streams, and
   if one isn't started, it says so without waiting for the others. It tests the tests, and isn't
   part of lrupd. */
#include <pthread.h>
#include <stdio.h>
#include <unistd.h>

static void *leave(void *nothing) { return nothing; }

int main(void) {
    for (int number = 0; number < 6; number++) {
        pthread_t thread;
        if (pthread_create(&thread, NULL, leave, NULL) != 0) {
            char text[64];
            int length =
                snprintf(text, sizeof text, "lrupd: worker %d not started\n", number % 3 + 1);
            return write(STDERR_FILENO, text, (size_t)length) == length ? 6 : 1;
        }
        pthread_detach(thread);
    }
    return 0;
}

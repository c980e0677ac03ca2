/* Four threads answer two books at once, each many times: every call has the answers of a call alone.
   usage: threads BOOK */
#include "doughpillar.h"

#include <pthread.h>
#include <stdio.h>
#include <string.h>

static uint8_t book[DOUGHPILLAR_LARGEST_BOOK], alone[DOUGHPILLAR_MOST_ATOMS];
static size_t length;

/* Even threads have the book, odd ones a book that is cut by one byte. */
static void *call(void *cut)
{
    size_t mine = length - (cut != NULL);
    for (int calls = 0; calls < 200; calls++) {
        uint8_t room[DOUGHPILLAR_MOST_ATOMS] = {0};
        uint32_t packed = doughpillar_answer(book, mine, room, sizeof room);
        int right = cut != NULL ? packed == 30000000 : packed == 0 && memcmp(room, alone, sizeof room) == 0;
        if (!right)
            return "wrong";
    }
    return NULL;
}

int main(int count, char **words)
{
    FILE *file = count == 2 ? fopen(words[1], "rb") : NULL;
    pthread_t threads[4];
    int faults = 0;
    if (file == NULL)
        return 2;
    length = fread(book, 1, sizeof book, file);
    fclose(file);
    faults += doughpillar_answer(book, length, alone, sizeof alone) != 0;
    for (int i = 0; i < 4; i++)
        faults += pthread_create(&threads[i], NULL, call, i % 2 == 0 ? NULL : "cut") != 0;
    for (int i = 0; i < 4; i++) {
        void *wrong = NULL;
        faults += pthread_join(threads[i], &wrong) != 0 || wrong != NULL;
    }
    printf("four threads: %d faults\n", faults);
    return faults != 0;
}

#include "library.h"

#include <stdlib.h>

size_t library_words(const struct library *library)
{
    return library->steps + library->uses + library->sequences +
           library->alternatives + library->entries;
}

const struct alternative *library_alternative(const struct library *library,
                                              uint32_t sequence,
                                              uint32_t alternative)
{
    return library->alternative +
           library->sequence[sequence].alternatives.begin + alternative;
}

void library_free(struct library *library)
{
    free(library->names);
    free(library->claim);
    library->names = NULL;
    library->claim = NULL;
}

// The header is for C++ too: a call from C++, and the version's parts make its text.
#include "doughpillar.h"

#include <string>

int main()
{
    const std::string version = std::to_string(DOUGHPILLAR_VERSION_MAJOR) + "." + std::to_string(DOUGHPILLAR_VERSION_MINOR)
        + "." + std::to_string(DOUGHPILLAR_VERSION_PATCH);
    const std::uint32_t packed = doughpillar_answer(nullptr, 0, nullptr, 0);
    const bool refused = DOUGHPILLAR_NUMBER(packed) == 1 && doughpillar_record_sort(packed) == std::string("book");
    return refused && version == DOUGHPILLAR_VERSION ? 0 : 1;
}

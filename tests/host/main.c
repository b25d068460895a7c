/* The slave as a C host sees it. Prints what failed, then 'N passed, M failed'. */
#include "host.h"

int main(void)
{
    static void (*const tests[])(void) = {
        test_calls,          test_line,   test_session, test_shut,   test_commands,
        test_short_download, test_memory, test_pool,    test_shapes, test_lists,
        test_events,         test_state,  test_started, test_bench,  test_several,
        test_guns,           test_slices, test_longest_slice,
    };
    return check_main(tests, COUNT(tests));
}

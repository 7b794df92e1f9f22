/* All that is run where the lists can be in the program, in the order in which it prints. */
#include "programs.h"

#ifdef LISTS /* lists.S */
extern const uint8_t scripts_list[], scripts_end[], rolls_list[], rolls_end[], lines_list[], lines_end[];

static void run_lists(void)
{
    replay_scripts(scripts_list, scripts_end);
    replay_rolls(rolls_list, rolls_end);
    replay_lines(lines_list, lines_end);
}
#else
static void run_lists(void)
{
    put("lists: not here\n");
}
#endif

void run_all(void)
{
#ifdef LIMIT
    run_limit();
#endif
    run_lists();
    run_answers();
    run_stack();
    put("end\n");
}

// The header as C++ gets it: every part of a struct has exactly this type, and so has every call, which links under its plain name.
#include "planner.h"

// A part of a struct has the type T: it is compiled for no other part.
template <class T, class Struct> constexpr bool has(T Struct::*)
{
    return true;
}

static_assert(has<uint32_t>(&planner_task::release), "planner_task::release");
static_assert(has<uint32_t>(&planner_task::deadline), "planner_task::deadline");
static_assert(has<uint32_t>(&planner_task::mandatory), "planner_task::mandatory");
static_assert(has<uint32_t>(&planner_task::optional), "planner_task::optional");
static_assert(has<uint32_t>(&planner_table::count), "planner_table::count");
static_assert(has<uint32_t>(&planner_table::p), "planner_table::p");
static_assert(has<uint32_t>(&planner_table::q), "planner_table::q");
static_assert(has<planner_task[PLANNER_MAX_TASKS]>(&planner_table::tasks), "planner_table::tasks");
static_assert(has<planner_table>(&planner_weighted_table::table), "planner_weighted_table::table");
static_assert(has<uint32_t[PLANNER_MAX_TASKS]>(&planner_weighted_table::weights), "planner_weighted_table::weights");
static_assert(has<uint32_t>(&planner_run::start), "planner_run::start");
static_assert(has<uint32_t>(&planner_run::end), "planner_run::end");
static_assert(has<uint32_t>(&planner_run::task), "planner_run::task");
static_assert(has<uint32_t>(&planner_table_read::number), "planner_table_read::number");
static_assert(has<size_t>(&planner_table_read::place), "planner_table_read::place");
static_assert(has<planner_table>(&planner_table_read::table), "planner_table_read::table");
static_assert(has<uint32_t>(&planner_weighted_table_read::number), "planner_weighted_table_read::number");
static_assert(has<size_t>(&planner_weighted_table_read::place), "planner_weighted_table_read::place");
static_assert(has<planner_weighted_table>(&planner_weighted_table_read::table), "planner_weighted_table_read::table");
static_assert(has<uint32_t>(&planner_written::number), "planner_written::number");
static_assert(has<size_t>(&planner_written::place), "planner_written::place");
static_assert(has<size_t>(&planner_written::bytes), "planner_written::bytes");
static_assert(has<uint32_t>(&planner_planned::number), "planner_planned::number");
static_assert(has<size_t>(&planner_planned::place), "planner_planned::place");
static_assert(has<uint32_t>(&planner_planned::kept), "planner_planned::kept");
static_assert(has<uint32_t>(&planner_planned::discarded), "planner_planned::discarded");
static_assert(has<size_t>(&planner_planned::runs), "planner_planned::runs");
static_assert(has<uint32_t>(&planner_judged::number), "planner_judged::number");
static_assert(has<size_t>(&planner_judged::place), "planner_judged::place");
static_assert(has<bool>(&planner_judged::yes), "planner_judged::yes");
static_assert(has<uint32_t>(&planner_judged::kept), "planner_judged::kept");
static_assert(has<uint32_t>(&planner_judged::discarded), "planner_judged::discarded");
static_assert(has<uint32_t>(&planner_busy_count::number), "planner_busy_count::number");
static_assert(has<size_t>(&planner_busy_count::place), "planner_busy_count::place");
static_assert(has<uint64_t>(&planner_busy_count::ticks), "planner_busy_count::ticks");
static_assert(has<uint32_t>(&planner_checked::number), "planner_checked::number");
static_assert(has<size_t>(&planner_checked::place), "planner_checked::place");
static_assert(has<uint32_t>(&planner_found::number), "planner_found::number");
static_assert(has<size_t>(&planner_found::place), "planner_found::place");
static_assert(has<bool>(&planner_found::found), "planner_found::found");
static_assert(has<planner_run>(&planner_found::run), "planner_found::run");
static_assert(has<size_t>(&planner_part::first), "planner_part::first");
static_assert(has<size_t>(&planner_part::runs), "planner_part::runs");

typedef planner_table_read (*read_call)(const uint8_t *, size_t);
typedef planner_written (*write_call)(planner_table, uint8_t *, size_t);
typedef planner_written (*shift_call)(const uint8_t *, size_t, int32_t, uint8_t *, size_t);
typedef planner_planned (*plan_call)(const uint8_t *, size_t, uint32_t, uint8_t *, size_t, uint32_t *, size_t, uint32_t *, size_t, uint32_t *, size_t);
typedef planner_judged (*judge_call)(const uint8_t *, size_t, uint32_t, const uint8_t *, size_t, const planner_run *, size_t);
typedef planner_weighted_table_read (*weighted_read_call)(const uint8_t *, size_t);
typedef planner_written (*weighted_write_call)(planner_weighted_table, uint8_t *, size_t);
typedef planner_checked (*check_call)(const planner_run *, size_t);
typedef planner_busy_count (*busy_call)(const planner_run *, size_t, uint32_t, uint32_t);
typedef planner_found (*found_call)(const planner_run *, size_t, uint32_t);
typedef planner_part (*part_call)(const planner_run *, size_t, uint32_t, uint32_t);

static const volatile read_call read_table = planner_read;
static const volatile write_call write_table = planner_write;
static const volatile shift_call shift = planner_shift;
static const volatile plan_call plan = planner_plan;
static const volatile judge_call judge = planner_judge;
static const volatile weighted_read_call weighted_read = planner_weighted_read;
static const volatile weighted_write_call weighted_write = planner_weighted_write;
static const volatile plan_call weighted_plan = planner_weighted_plan;
static const volatile judge_call weighted_judge = planner_weighted_judge;
static const volatile check_call check = planner_check_runs;
static const volatile busy_call busy = planner_busy;
static const volatile found_call run_at = planner_run_at;
static const volatile found_call run_from = planner_run_from;
static const volatile part_call touching = planner_runs_touching;

// Status 0 where all fourteen are there.
int main()
{
    return !(read_table && write_table && shift && plan && judge && weighted_read && weighted_write && weighted_plan && weighted_judge && check && busy &&
             run_at && run_from && touching);
}

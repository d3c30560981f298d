"""The calls that take memory, and what reaches each: scenarios of crates/scenarios, and tests of other crates."""

# Where every nth allocation alone is refused: runs of a thousand steps by chance, each of which takes so many.
SELDOM = "oracle-"

EACH_SELDOM = 20

# What is said by clients and what scripts give, a file a topic: lines are fed and read, sessions opened, lines
# decided, their deliveries prepared and rendered, ended sessions swept, who is silent pinged, and steps taken.
BY_SCENARIOS = ["feed", "parse", "read", "decide", "prepare", "render", "open", "line", "sweep", "tick", "Play::step"]

# Calls by the tests that reach them: of a crate, each test named by its module and its function.
BY_TESTS = {
    "text_tests": {
        "feed": ["lines::feeds_after_a_refused_growth"],
        "parse": ["lines::reads_commands", "lines::reads_sources_and_tags", "lines::a_line_that_is_read_is_written"],
        "parse, read": ["lines::finds_and_keeps_the_parts_of_messages"],
        "Accounts::read": ["enrolling::files_are_read"],
        "time_text": ["moments::moments_are_told", "growths::moments_are_texts"],
        "render": ["growths::answers_are_whole", "growths::answers_are_spelled_whole"],
    },
    "hall_tests": {
        "Register::new, pair, Hall::new, open, line, sweep": ["growths::a_refused_growth_changes_nothing"],
        "roll, Roster::copy": ["rolled::a_rolled_hall_goes_on"],
        "line, and none by hang, take_now, write_out": ["wanting::who_is_hung_for_memory_is_told_without_any"],
    },
    "play_tests": {"Play::step": ["growths::a_labelled_line_without_memory_changes_nothing"]},
    "crew_tests": {
        "work_one": [
            "wanting::who_finds_no_memory_is_ended",
            "wanting::who_finds_no_memory_for_a_roll_is_ended",
            "wanting::a_line_without_memory_is_done_when_it_comes_again",
        ],
        "beat, close_now": ["wanting::who_is_silent_goes_though_memory_is_wanting"],
    },
}

# Tests that mark a part of themselves in which no memory is asked for: its begin and its end ask for so many octets.
MARK = 77_777

MARKED = {"hall_tests": ["wanting::who_is_hung_for_memory_is_told_without_any"]}

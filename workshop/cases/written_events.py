"""Events as they are read, and as they are written into the log."""

from __future__ import annotations

from workshop.cases.case import Case
from workshop.cases.line_cases import written_as
from workshop.cases.made import ONE_TEST, bundle, log_of, logged_bundle, session, store
from workshop.cases.texts import COUNTED_MANIFEST, LOG_LINES, RUN_STARTED

RUN_STARTS = [(RUN_STARTED.decode(), LOG_LINES[0].decode())]

# With all members, with the least, and by time.
SUB_RUN_STARTS = [
    (
        '{"timestamp":{"secs":1000,"nanos":5,"offset":3600},"elapsed":{"secs":1,"nanos":7},'
        '"kind":"stress-sub-run-started","progress":{"count":{"total":4,"elapsed":{"secs":2,'
        '"nanos":3},"completed":1}}}',
        '{"elapsed":{"nanos":7,"secs":1},"kind":"stress-sub-run-started",'
        '"progress":{"count":{"completed":1,"elapsed":{"nanos":3,"secs":2},"total":4}},'
        '"timestamp":{"nanos":5,"offset":3600,"secs":1000}}',
    ),
    (
        '{"timestamp":{"secs":-1,"nanos":0,"offset":-3600},"elapsed":{"secs":0,"nanos":0},'
        '"kind":"stress-sub-run-started","progress":{"count":{"elapsed":{"secs":0,"nanos":0},'
        '"completed":0}}}',
        '{"elapsed":{"nanos":0,"secs":0},"kind":"stress-sub-run-started",'
        '"progress":{"count":{"completed":0,"elapsed":{"nanos":0,"secs":0}}},'
        '"timestamp":{"nanos":0,"offset":-3600,"secs":-1}}',
    ),
    (
        '{"timestamp":{"secs":0,"nanos":0,"offset":0},"elapsed":{"secs":0,"nanos":0},'
        '"kind":"stress-sub-run-started","progress":{"count":{"total":null,"elapsed":{"secs":0,'
        '"nanos":0},"completed":4294967295}}}',
        '{"elapsed":{"nanos":0,"secs":0},"kind":"stress-sub-run-started",'
        '"progress":{"count":{"completed":4294967295,"elapsed":{"nanos":0,"secs":0}}},'
        '"timestamp":{"nanos":0,"offset":0,"secs":0}}',
    ),
    (
        '{"timestamp":{"secs":0,"nanos":0,"offset":0},"elapsed":{"secs":3,"nanos":0},'
        '"kind":"stress-sub-run-started","progress":{"time":{"total":{"secs":60,"nanos":1},'
        '"elapsed":{"secs":2,"nanos":5},"completed":0}}}',
        '{"elapsed":{"nanos":0,"secs":3},"kind":"stress-sub-run-started",'
        '"progress":{"time":{"completed":0,"elapsed":{"nanos":5,"secs":2},"total":{"nanos":1,'
        '"secs":60}}},"timestamp":{"nanos":0,"offset":0,"secs":0}}',
    ),
]

# Setup scripts start and are slow: with all members, and with the least.
SCRIPTS = [
    (
        '{"timestamp":{"secs":1000,"nanos":0,"offset":0},"elapsed":{"secs":1,"nanos":2},'
        '"kind":"setup-script-started","stress-index":{"current":1,"total":4},"index":2,"total":3,'
        '"script-id":"db","program":"sh","args":["-c","é"],"no-capture":true}',
        '{"args":["-c","é"],"elapsed":{"nanos":2,"secs":1},"index":2,'
        '"kind":"setup-script-started","no-capture":true,"program":"sh","script-id":"db",'
        '"stress-index":{"current":1,"total":4},"timestamp":{"nanos":0,"offset":0,"secs":1000},'
        '"total":3}',
    ),
    (
        '{"timestamp":{"secs":1000,"nanos":0,"offset":0},"elapsed":{"secs":0,"nanos":0},'
        '"kind":"setup-script-started","index":0,"total":18446744073709551615,"script-id":"",'
        '"program":"","args":[],"no-capture":false}',
        '{"args":[],"elapsed":{"nanos":0,"secs":0},"index":0,"kind":"setup-script-started",'
        '"no-capture":false,"program":"","script-id":"","timestamp":{"nanos":0,"offset":0,'
        '"secs":1000},"total":18446744073709551615}',
    ),
    (
        '{"timestamp":{"secs":1000,"nanos":0,"offset":0},"elapsed":{"secs":61,"nanos":2},'
        '"kind":"setup-script-slow","stress-index":{"current":1},"script-id":"db","program":"sh",'
        '"args":["-c"],"slow-elapsed":{"secs":60,"nanos":9},"will-terminate":true}',
        '{"args":["-c"],"elapsed":{"nanos":2,"secs":61},"kind":"setup-script-slow","program":"sh",'
        '"script-id":"db","slow-elapsed":{"nanos":9,"secs":60},"stress-index":{"current":1},'
        '"timestamp":{"nanos":0,"offset":0,"secs":1000},"will-terminate":true}',
    ),
    (
        '{"timestamp":{"secs":1000,"nanos":0,"offset":0},"elapsed":{"secs":0,"nanos":0},'
        '"kind":"setup-script-slow","stress-index":null,"script-id":"db","program":"sh","args":[],'
        '"slow-elapsed":{"secs":0,"nanos":0},"will-terminate":false}',
        '{"args":[],"elapsed":{"nanos":0,"secs":0},"kind":"setup-script-slow","program":"sh",'
        '"script-id":"db","slow-elapsed":{"nanos":0,"secs":0},"timestamp":{"nanos":0,"offset":0,'
        '"secs":1000},"will-terminate":false}',
    ),
]

# Tests are slow, and further attempts of them start: with all members, and with the least.
ATTEMPTS = [
    (
        '{"timestamp":{"secs":1000,"nanos":0,"offset":0},"elapsed":{"secs":61,"nanos":0},'
        '"kind":"test-slow","stress-index":{"current":0,"total":1},'
        '"test-instance":{"binary-id":"alpha::a","test-name":"t1"},"retry-data":{"attempt":1,'
        '"total-attempts":3},"slow-elapsed":{"secs":60,"nanos":4},"will-terminate":true}',
        '{"elapsed":{"nanos":0,"secs":61},"kind":"test-slow","retry-data":{"attempt":1,'
        '"total-attempts":3},"slow-elapsed":{"nanos":4,"secs":60},"stress-index":{"current":0,'
        '"total":1},"test-instance":{"binary-id":"alpha::a","test-name":"t1"},'
        '"timestamp":{"nanos":0,"offset":0,"secs":1000},"will-terminate":true}',
    ),
    (
        '{"timestamp":{"secs":1000,"nanos":0,"offset":0},"elapsed":{"secs":61,"nanos":0},'
        '"kind":"test-slow","test-instance":{"binary-id":"","test-name":""},'
        '"retry-data":{"attempt":0,"total-attempts":4294967295},'
        '"slow-elapsed":{"secs":18446744073709551615,"nanos":999999999},"will-terminate":false}',
        '{"elapsed":{"nanos":0,"secs":61},"kind":"test-slow","retry-data":{"attempt":0,'
        '"total-attempts":4294967295},"slow-elapsed":{"nanos":999999999,'
        '"secs":18446744073709551615},"test-instance":{"binary-id":"","test-name":""},'
        '"timestamp":{"nanos":0,"offset":0,"secs":1000},"will-terminate":false}',
    ),
    (
        '{"timestamp":{"secs":1000,"nanos":0,"offset":0},"elapsed":{"secs":0,"nanos":0},'
        '"kind":"test-retry-started","stress-index":{"current":2,"total":3},'
        '"test-instance":{"binary-id":"alpha::a","test-name":"t1"},'
        '"slot-assignment":{"global-slot":4,"group-slot":5,"test-group":"serial"},'
        '"retry-data":{"attempt":6,"total-attempts":7},"running":8,"command-line":["t","--exact"]}',
        '{"command-line":["t","--exact"],"elapsed":{"nanos":0,"secs":0},'
        '"kind":"test-retry-started","retry-data":{"attempt":6,"total-attempts":7},"running":8,'
        '"slot-assignment":{"global-slot":4,"group-slot":5,"test-group":"serial"},'
        '"stress-index":{"current":2,"total":3},"test-instance":{"binary-id":"alpha::a",'
        '"test-name":"t1"},"timestamp":{"nanos":0,"offset":0,"secs":1000}}',
    ),
    (
        '{"timestamp":{"secs":1000,"nanos":0,"offset":0},"elapsed":{"secs":0,"nanos":0},'
        '"kind":"test-retry-started","test-instance":{"binary-id":"alpha::a","test-name":"t1"},'
        '"slot-assignment":{"global-slot":0,"group-slot":null,"test-group":"@global"},'
        '"retry-data":{"attempt":2,"total-attempts":2},"running":0,"command-line":[]}',
        '{"command-line":[],"elapsed":{"nanos":0,"secs":0},"kind":"test-retry-started",'
        '"retry-data":{"attempt":2,"total-attempts":2},"running":0,'
        '"slot-assignment":{"global-slot":0,"test-group":"@global"},'
        '"test-instance":{"binary-id":"alpha::a","test-name":"t1"},"timestamp":{"nanos":0,'
        '"offset":0,"secs":1000}}',
    ),
]

# As it is logged.
TEST_START = (
    '{"command-line":["t","--exact"],"current-stats":{"cancel-reason":"test-failure",'
    '"exec-failed":0,"failed":0,"failed-slow":0,"failed-timed-out":0,"finished-count":0,"flaky":0,'
    '"initial-run-count":1,"leaky":0,"leaky-failed":0,"passed":0,"passed-slow":0,'
    '"passed-timed-out":0,"setup-scripts-exec-failed":0,"setup-scripts-failed":0,'
    '"setup-scripts-finished-count":0,"setup-scripts-initial-count":0,"setup-scripts-passed":0,'
    '"setup-scripts-timed-out":0,"skipped":0},"elapsed":{"nanos":0,"secs":0},"kind":"test-started",'
    '"running":1,"slot-assignment":{"global-slot":0,"group-slot":1,"test-group":"serial"},'
    '"stress-index":{"current":0,"total":1},"test-instance":{"binary-id":"alpha::a",'
    '"test-name":"t1"},"timestamp":{"nanos":0,"offset":0,"secs":1001}}'
)

# With all members, with the least, and for each reason.
SKIPPED = [
    (
        '{"timestamp":{"secs":1,"nanos":0,"offset":0},"elapsed":{"secs":0,"nanos":0},'
        '"kind":"test-skipped","stress-index":{"current":0,"total":9},'
        '"test-instance":{"binary-id":"a","test-name":"t"},"reason":"not-benchmark",'
        '"junit-report-skipped":"none"}',
        '{"elapsed":{"nanos":0,"secs":0},"junit-report-skipped":"none","kind":"test-skipped",'
        '"reason":"not-benchmark","stress-index":{"current":0,"total":9},'
        '"test-instance":{"binary-id":"a","test-name":"t"},"timestamp":{"nanos":0,"offset":0,'
        '"secs":1}}',
    ),
    (
        '{"timestamp":{"secs":1,"nanos":0,"offset":0},"elapsed":{"secs":0,"nanos":0},'
        '"kind":"test-skipped","test-instance":{"binary-id":"a","test-name":"t"},'
        '"reason":"ignored","junit-report-skipped":"ignored"}',
        '{"elapsed":{"nanos":0,"secs":0},"junit-report-skipped":"ignored","kind":"test-skipped",'
        '"reason":"ignored","test-instance":{"binary-id":"a","test-name":"t"},'
        '"timestamp":{"nanos":0,"offset":0,"secs":1}}',
    ),
    (
        '{"timestamp":{"secs":1,"nanos":0,"offset":0},"elapsed":{"secs":0,"nanos":0},'
        '"kind":"test-skipped","test-instance":{"binary-id":"a","test-name":"t"},'
        '"reason":"string","junit-report-skipped":"all"}',
        '{"elapsed":{"nanos":0,"secs":0},"junit-report-skipped":"all","kind":"test-skipped",'
        '"reason":"string","test-instance":{"binary-id":"a","test-name":"t"},'
        '"timestamp":{"nanos":0,"offset":0,"secs":1}}',
    ),
    (
        '{"timestamp":{"secs":1,"nanos":0,"offset":0},"elapsed":{"secs":0,"nanos":0},'
        '"kind":"test-skipped","test-instance":{"binary-id":"a","test-name":"t"},'
        '"reason":"expression","junit-report-skipped":"all"}',
        '{"elapsed":{"nanos":0,"secs":0},"junit-report-skipped":"all","kind":"test-skipped",'
        '"reason":"expression","test-instance":{"binary-id":"a","test-name":"t"},'
        '"timestamp":{"nanos":0,"offset":0,"secs":1}}',
    ),
    (
        '{"timestamp":{"secs":1,"nanos":0,"offset":0},"elapsed":{"secs":0,"nanos":0},'
        '"kind":"test-skipped","test-instance":{"binary-id":"a","test-name":"t"},'
        '"reason":"partition","junit-report-skipped":"all"}',
        '{"elapsed":{"nanos":0,"secs":0},"junit-report-skipped":"all","kind":"test-skipped",'
        '"reason":"partition","test-instance":{"binary-id":"a","test-name":"t"},'
        '"timestamp":{"nanos":0,"offset":0,"secs":1}}',
    ),
    (
        '{"timestamp":{"secs":1,"nanos":0,"offset":0},"elapsed":{"secs":0,"nanos":0},'
        '"kind":"test-skipped","test-instance":{"binary-id":"a","test-name":"t"},'
        '"reason":"rerun-already-passed","junit-report-skipped":"all"}',
        '{"elapsed":{"nanos":0,"secs":0},"junit-report-skipped":"all","kind":"test-skipped",'
        '"reason":"rerun-already-passed","test-instance":{"binary-id":"a","test-name":"t"},'
        '"timestamp":{"nanos":0,"offset":0,"secs":1}}',
    ),
    (
        '{"timestamp":{"secs":1,"nanos":0,"offset":0},"elapsed":{"secs":0,"nanos":0},'
        '"kind":"test-skipped","test-instance":{"binary-id":"a","test-name":"t"},'
        '"reason":"default-filter","junit-report-skipped":"all"}',
        '{"elapsed":{"nanos":0,"secs":0},"junit-report-skipped":"all","kind":"test-skipped",'
        '"reason":"default-filter","test-instance":{"binary-id":"a","test-name":"t"},'
        '"timestamp":{"nanos":0,"offset":0,"secs":1}}',
    ),
]

# Runs are cancelled, paused and continued.
STOPS = [
    (
        '{"timestamp":{"secs":1000,"nanos":0,"offset":0},"elapsed":{"secs":0,"nanos":0},'
        '"kind":"run-begin-cancel","setup-scripts-running":1,"running":2,"reason":"second-signal"}',
        '{"elapsed":{"nanos":0,"secs":0},"kind":"run-begin-cancel","reason":"second-signal",'
        '"running":2,"setup-scripts-running":1,"timestamp":{"nanos":0,"offset":0,"secs":1000}}',
    ),
    (
        '{"timestamp":{"secs":1000,"nanos":0,"offset":0},"elapsed":{"secs":0,"nanos":0},'
        '"kind":"run-begin-cancel","setup-scripts-running":0,"running":0,'
        '"reason":"setup-script-failure"}',
        '{"elapsed":{"nanos":0,"secs":0},"kind":"run-begin-cancel",'
        '"reason":"setup-script-failure","running":0,"setup-scripts-running":0,'
        '"timestamp":{"nanos":0,"offset":0,"secs":1000}}',
    ),
    (
        '{"timestamp":{"secs":1000,"nanos":0,"offset":0},"elapsed":{"secs":0,"nanos":0},'
        '"kind":"run-paused","setup-scripts-running":3,"running":4,"x":[null]}',
        '{"elapsed":{"nanos":0,"secs":0},"kind":"run-paused","running":4,'
        '"setup-scripts-running":3,"timestamp":{"nanos":0,"offset":0,"secs":1000}}',
    ),
    (
        '{"timestamp":{"secs":1000,"nanos":0,"offset":0},"elapsed":{"secs":0,"nanos":0},'
        '"kind":"run-continued","setup-scripts-running":5,"running":18446744073709551615,'
        '"reason":"signal"}',
        '{"elapsed":{"nanos":0,"secs":0},"kind":"run-continued","running":18446744073709551615,'
        '"setup-scripts-running":5,"timestamp":{"nanos":0,"offset":0,"secs":1000}}',
    ),
]

# With all members, and with the least.
SUB_RUN_ENDS = [
    (
        '{"timestamp":{"secs":1000,"nanos":0,"offset":0},"elapsed":{"secs":9,"nanos":8},'
        '"kind":"stress-sub-run-finished","progress":{"count":{"total":4,"elapsed":{"secs":7,'
        '"nanos":6},"completed":2}},"sub-elapsed":{"secs":5,"nanos":4},'
        '"sub-stats":{"initial-run-count":1,"finished-count":2,"setup-scripts-initial-count":3,'
        '"setup-scripts-finished-count":4,"setup-scripts-passed":5,"setup-scripts-failed":6,'
        '"setup-scripts-exec-failed":7,"setup-scripts-timed-out":8,"passed":9,"passed-slow":10,'
        '"passed-timed-out":11,"flaky":12,"failed":13,"failed-slow":14,"failed-timed-out":15,'
        '"leaky":16,"leaky-failed":17,"exec-failed":18,"skipped":19,'
        '"cancel-reason":"test-failure"}}',
        '{"elapsed":{"nanos":8,"secs":9},"kind":"stress-sub-run-finished",'
        '"progress":{"count":{"completed":2,"elapsed":{"nanos":6,"secs":7},"total":4}},'
        '"sub-elapsed":{"nanos":4,"secs":5},"sub-stats":{"cancel-reason":"test-failure",'
        '"exec-failed":18,"failed":13,"failed-slow":14,"failed-timed-out":15,"finished-count":2,'
        '"flaky":12,"initial-run-count":1,"leaky":16,"leaky-failed":17,"passed":9,'
        '"passed-slow":10,"passed-timed-out":11,"setup-scripts-exec-failed":7,'
        '"setup-scripts-failed":6,"setup-scripts-finished-count":4,'
        '"setup-scripts-initial-count":3,"setup-scripts-passed":5,"setup-scripts-timed-out":8,'
        '"skipped":19},"timestamp":{"nanos":0,"offset":0,"secs":1000}}',
    ),
    (
        '{"timestamp":{"secs":1000,"nanos":0,"offset":0},"elapsed":{"secs":0,"nanos":0},'
        '"kind":"stress-sub-run-finished","progress":{"time":{"total":{"secs":3,"nanos":2},'
        '"elapsed":{"secs":1,"nanos":0},"completed":1}},"sub-elapsed":{"secs":0,"nanos":0},'
        '"sub-stats":{"initial-run-count":0,"finished-count":0,"setup-scripts-initial-count":0,'
        '"setup-scripts-finished-count":0,"setup-scripts-passed":0,"setup-scripts-failed":0,'
        '"setup-scripts-exec-failed":0,"setup-scripts-timed-out":0,"passed":0,"passed-slow":0,'
        '"passed-timed-out":0,"flaky":0,"failed":0,"failed-slow":0,"failed-timed-out":0,"leaky":0,'
        '"leaky-failed":0,"exec-failed":0,"skipped":18446744073709551615}}',
        '{"elapsed":{"nanos":0,"secs":0},"kind":"stress-sub-run-finished",'
        '"progress":{"time":{"completed":1,"elapsed":{"nanos":0,"secs":1},"total":{"nanos":2,'
        '"secs":3}}},"sub-elapsed":{"nanos":0,"secs":0},"sub-stats":{"exec-failed":0,"failed":0,'
        '"failed-slow":0,"failed-timed-out":0,"finished-count":0,"flaky":0,"initial-run-count":0,'
        '"leaky":0,"leaky-failed":0,"passed":0,"passed-slow":0,"passed-timed-out":0,'
        '"setup-scripts-exec-failed":0,"setup-scripts-failed":0,"setup-scripts-finished-count":0,'
        '"setup-scripts-initial-count":0,"setup-scripts-passed":0,"setup-scripts-timed-out":0,'
        '"skipped":18446744073709551615},"timestamp":{"nanos":0,"offset":0,"secs":1000}}',
    ),
]

# With all members, and with the least.
RUN_ENDS = [
    (
        '{"timestamp":{"secs":1009,"nanos":0,"offset":0},"elapsed":{"secs":9,"nanos":8},'
        '"kind":"run-finished","run-id":"550e8400-e29b-41d4-a716-446655440000",'
        '"start-time":{"secs":1000,"nanos":1,"offset":-7200},"run-elapsed":{"secs":7,"nanos":6},'
        '"run-stats":{"single":{"initial-run-count":1,"finished-count":2,'
        '"setup-scripts-initial-count":3,"setup-scripts-finished-count":4,'
        '"setup-scripts-passed":5,"setup-scripts-failed":6,"setup-scripts-exec-failed":7,'
        '"setup-scripts-timed-out":8,"passed":9,"passed-slow":10,"passed-timed-out":11,"flaky":12,'
        '"failed":13,"failed-slow":14,"failed-timed-out":15,"leaky":16,"leaky-failed":17,'
        '"exec-failed":18,"skipped":19,"cancel-reason":"global-timeout"}},'
        '"outstanding-not-seen":{"not-seen":[{"binary-id":"b","test-name":"t2"},{"binary-id":"a",'
        '"test-name":"t1"}],"total-not-seen":5}}',
        '{"elapsed":{"nanos":8,"secs":9},"kind":"run-finished",'
        '"outstanding-not-seen":{"not-seen":[{"binary-id":"b","test-name":"t2"},{"binary-id":"a",'
        '"test-name":"t1"}],"total-not-seen":5},"run-elapsed":{"nanos":6,"secs":7},'
        '"run-id":"550e8400-e29b-41d4-a716-446655440000",'
        '"run-stats":{"single":{"cancel-reason":"global-timeout","exec-failed":18,"failed":13,'
        '"failed-slow":14,"failed-timed-out":15,"finished-count":2,"flaky":12,'
        '"initial-run-count":1,"leaky":16,"leaky-failed":17,"passed":9,"passed-slow":10,'
        '"passed-timed-out":11,"setup-scripts-exec-failed":7,"setup-scripts-failed":6,'
        '"setup-scripts-finished-count":4,"setup-scripts-initial-count":3,'
        '"setup-scripts-passed":5,"setup-scripts-timed-out":8,"skipped":19}},'
        '"start-time":{"nanos":1,"offset":-7200,"secs":1000},"timestamp":{"nanos":0,"offset":0,'
        '"secs":1009}}',
    ),
    (
        '{"timestamp":{"secs":1000,"nanos":0,"offset":0},"elapsed":{"secs":0,"nanos":0},'
        '"kind":"run-finished","run-id":"550e8400-e29b-41d4-a716-446655440000",'
        '"start-time":{"secs":1000,"nanos":0,"offset":0},"run-elapsed":{"secs":0,"nanos":0},'
        '"run-stats":{"stress":{"completed":{"current":1,"total":4},"success-count":2,'
        '"failed-count":3,"last-final-stats":"failed"}}}',
        '{"elapsed":{"nanos":0,"secs":0},"kind":"run-finished","run-elapsed":{"nanos":0,"secs":0},'
        '"run-id":"550e8400-e29b-41d4-a716-446655440000",'
        '"run-stats":{"stress":{"completed":{"current":1,"total":4},"failed-count":3,'
        '"last-final-stats":"failed","success-count":2}},"start-time":{"nanos":0,"offset":0,'
        '"secs":1000},"timestamp":{"nanos":0,"offset":0,"secs":1000}}',
    ),
    (
        '{"timestamp":{"secs":1000,"nanos":0,"offset":0},"elapsed":{"secs":0,"nanos":0},'
        '"kind":"run-finished","run-id":"550E8400E29B41D4A716446655440000",'
        '"start-time":{"secs":1000,"nanos":0,"offset":0},"run-elapsed":{"secs":0,"nanos":0},'
        '"run-stats":{"stress":{"completed":{"current":4294967295},"success-count":0,'
        '"failed-count":4294967295,"last-final-stats":"no-tests-run"}},'
        '"outstanding-not-seen":null}',
        '{"elapsed":{"nanos":0,"secs":0},"kind":"run-finished","run-elapsed":{"nanos":0,"secs":0},'
        '"run-id":"550e8400-e29b-41d4-a716-446655440000",'
        '"run-stats":{"stress":{"completed":{"current":4294967295},"failed-count":4294967295,'
        '"last-final-stats":"no-tests-run","success-count":0}},"start-time":{"nanos":0,"offset":0,'
        '"secs":1000},"timestamp":{"nanos":0,"offset":0,"secs":1000}}',
    ),
    (
        '{"timestamp":{"secs":1000,"nanos":0,"offset":0},"elapsed":{"secs":0,"nanos":0},'
        '"kind":"run-finished","run-id":"550e8400-e29b-41d4-a716-446655440000",'
        '"start-time":{"secs":1000,"nanos":0,"offset":0},"run-elapsed":{"secs":0,"nanos":0},'
        '"run-stats":{"stress":{"completed":{"current":0},"success-count":0,"failed-count":0,'
        '"last-final-stats":"cancelled"}},"outstanding-not-seen":{"not-seen":[],'
        '"total-not-seen":18446744073709551615}}',
        '{"elapsed":{"nanos":0,"secs":0},"kind":"run-finished",'
        '"outstanding-not-seen":{"not-seen":[],"total-not-seen":18446744073709551615},'
        '"run-elapsed":{"nanos":0,"secs":0},"run-id":"550e8400-e29b-41d4-a716-446655440000",'
        '"run-stats":{"stress":{"completed":{"current":0},"failed-count":0,'
        '"last-final-stats":"cancelled","success-count":0}},"start-time":{"nanos":0,"offset":0,'
        '"secs":1000},"timestamp":{"nanos":0,"offset":0,"secs":1000}}',
    ),
]

# At the ends of what numbers can be.
EARLIEST_START = (
    '{"cli-args":["-j","é"],"elapsed":{"nanos":999999999,"secs":18446744073709551615},'
    '"kind":"run-started","profile-name":"","run-id":"00000000-0000-0000-0000-000000000000",'
    '"stress-condition":{"count":null},"timestamp":{"nanos":999999999,"offset":-2147483648,'
    '"secs":-9223372036854775808}}'
)

LAST_SLOT = (
    '{"timestamp":{"secs":1001,"nanos":0,"offset":0},"elapsed":{"secs":1,"nanos":0},'
    '"kind":"test-started","stress-index":null,"test-instance":{"binary-id":"alpha::a",'
    '"test-name":"t1"},"slot-assignment":{"global-slot":18446744073709551615,'
    '"test-group":"@global"},"current-stats":{"initial-run-count":1,"finished-count":2,'
    '"setup-scripts-initial-count":3,"setup-scripts-finished-count":4,"setup-scripts-passed":5,'
    '"setup-scripts-failed":6,"setup-scripts-exec-failed":7,"setup-scripts-timed-out":8,"passed":9,'
    '"passed-slow":10,"passed-timed-out":11,"flaky":12,"failed":13,"failed-slow":14,'
    '"failed-timed-out":15,"leaky":16,"leaky-failed":17,"exec-failed":18,"skipped":19,'
    '"cancel-reason":null},"running":20,"command-line":[]}'
)
EARLIEST_REPLAY = (
    b"header 550e8400-e29b-41d4-a716-446655440000 incomplete\n-9223372036854775808.999999999 "
    b"run-started\n"
)
LAST_ROW = b"RowOutOfRange event=1 number=18446744073709551615\n"

CASES = [
    *written_as("start of a run", RUN_STARTS),
    *written_as("start of a sub-run", SUB_RUN_STARTS),
    *written_as("setup script", SCRIPTS),
    *written_as("slow test or retry", ATTEMPTS),
    *written_as("start of a test", [(TEST_START, TEST_START)]),
    *written_as("skipped test", SKIPPED),
    *written_as("cancel, pause or continuation", STOPS),
    *written_as("end of a sub-run", SUB_RUN_ENDS),
    *written_as("end of a run", RUN_ENDS),
    Case(
        "earliest instant, recorded",
        ("record", "b"),
        session(EARLIEST_START),
        9,
        err=b"TimestampOutOfRange event=1\n",
    ),
    Case(
        "earliest instant, replayed",
        ("replay",),
        bundle(log_of(EARLIEST_START), store(tests=ONE_TEST), COUNTED_MANIFEST),
        out=EARLIEST_REPLAY,
    ),
    Case("last slot, recorded", ("record", "b"), session(LAST_SLOT), 9, err=LAST_ROW),
    Case("last slot, of a log", ("trace",), logged_bundle(log_of(LAST_SLOT)), 9, err=LAST_ROW),
]

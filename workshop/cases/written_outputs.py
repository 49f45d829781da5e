"""Ends of setup scripts and of attempts, with their outputs, as they are read, and as they are
written into the log.
"""

from __future__ import annotations

from workshop.cases.line_cases import (
    read_of_log,
    read_of_session,
    refused_in_log,
    refused_in_session,
    written_as,
)
from workshop.cases.texts import attempt_with, end_after

# Without outputs the line of a session and that of a log are alike.
SCRIPTS_NOT_STARTED = [
    (
        '{"timestamp":{"secs":1005,"nanos":0,"offset":0},"elapsed":{"secs":5,"nanos":0},'
        '"kind":"setup-script-finished","index":0,"total":1,"script-id":"db","program":"sh",'
        '"args":[],"no-capture":false,"run-status":{"output":{"start-error":"no such file"},'
        '"result":"exec-fail","start-time":{"secs":1001,"nanos":0,"offset":0},'
        '"time-taken":{"secs":0,"nanos":0},"is-slow":false,"x":1}}',
        '{"args":[],"elapsed":{"nanos":0,"secs":5},"index":0,"kind":"setup-script-finished",'
        '"no-capture":false,"program":"sh","run-status":{"is-slow":false,'
        '"output":{"start-error":"no such file"},"result":"exec-fail","start-time":{"nanos":0,'
        '"offset":0,"secs":1001},"time-taken":{"nanos":0,"secs":0}},"script-id":"db",'
        '"timestamp":{"nanos":0,"offset":0,"secs":1005},"total":1}',
    )
]

# Outputs as they were captured: with all members, and with the least.
CAPTURED_OF_SCRIPTS = [
    '{"timestamp":{"secs":1005,"nanos":0,"offset":0},"elapsed":{"secs":5,"nanos":6},'
    '"kind":"setup-script-finished","stress-index":{"current":1,"total":4},"index":2,"total":3,'
    '"script-id":"db","program":"sh","args":["-c","é"],"no-capture":true,'
    '"run-status":{"output":{"output":{"result":{"leak":"fail"},'
    '"output":{"split":{"stdout":"6F6b","stderr":""}},"errors":["one","two"]}},'
    '"result":{"timeout":"fail"},"start-time":{"secs":1001,"nanos":2,"offset":60},'
    '"time-taken":{"secs":3,"nanos":4},"is-slow":true,"env-map":{"b":"2","B":"","a":"é"},'
    '"error-summary":{"short-message":"short","description":"long"}}}',
    '{"timestamp":{"secs":1005,"nanos":0,"offset":0},"elapsed":{"secs":5,"nanos":0},'
    '"kind":"setup-script-finished","index":0,"total":1,"script-id":"db","program":"sh","args":[],'
    '"no-capture":false,"run-status":{"output":{"output":{"output":{"split":{}}}},"result":"pass",'
    '"start-time":{"secs":1001,"nanos":0,"offset":0},"time-taken":{"secs":4,"nanos":0},'
    '"is-slow":false}}',
    '{"timestamp":{"secs":1005,"nanos":0,"offset":0},"elapsed":{"secs":5,"nanos":0},'
    '"kind":"setup-script-finished","stress-index":null,"index":0,"total":1,"script-id":"db",'
    '"program":"sh","args":[],"no-capture":false,"run-status":{"output":{"output":{"result":null,'
    '"output":{"combined":"00fF"},"errors":null}},"result":"exec-fail","start-time":{"secs":1001,'
    '"nanos":0,"offset":0},"time-taken":{"secs":4,"nanos":0},"is-slow":false,"env-map":null,'
    '"error-summary":null}}',
]

CAPTURED = [
    '{"timestamp":{"secs":1002,"nanos":0,"offset":0},"elapsed":{"secs":2,"nanos":0},'
    '"kind":"test-attempt-failed-will-retry","stress-index":{"current":1,"total":4},'
    '"test-instance":{"binary-id":"alpha::a","test-name":"t1"},'
    '"run-status":{"retry-data":{"attempt":1,"total-attempts":3},'
    '"output":{"output":{"result":"pass","output":{"combined":"6f6b0a"},"errors":["late"]}},'
    '"result":{"fail":{"failure":{"abort":{"signal":6,"name":"SIGABRT"}},"leaked":true}},'
    '"start-time":{"secs":1001,"nanos":2,"offset":60},"time-taken":{"secs":3,"nanos":4},'
    '"is-slow":true,"delay-before-start":{"secs":5,"nanos":6},'
    '"error-summary":{"short-message":"short","description":"long"},'
    '"output-error-slice":{"slice":"é","start":7}},"delay-before-next-attempt":{"secs":8,'
    '"nanos":9},"failure-output":"immediate-final","running":10}',
    '{"timestamp":{"secs":1002,"nanos":0,"offset":0},"elapsed":{"secs":2,"nanos":0},'
    '"kind":"test-attempt-failed-will-retry","test-instance":{"binary-id":"alpha::a",'
    '"test-name":"t1"},"run-status":{"retry-data":{"attempt":1,"total-attempts":2},'
    '"output":{"output":{"output":{"split":{"stderr":"00"}}}},'
    '"result":{"fail":{"failure":{"exit-code":-2147483648},"leaked":false}},'
    '"start-time":{"secs":1001,"nanos":0,"offset":0},"time-taken":{"secs":1,"nanos":0},'
    '"is-slow":false,"delay-before-start":{"secs":0,"nanos":0}},'
    '"delay-before-next-attempt":{"secs":0,"nanos":0},"failure-output":"never","running":0}',
    '{"timestamp":{"secs":1002,"nanos":0,"offset":0},"elapsed":{"secs":2,"nanos":0},'
    '"kind":"test-finished","stress-index":{"current":0,"total":2},'
    '"test-instance":{"binary-id":"alpha::a","test-name":"t1"},"success-output":"final",'
    '"failure-output":"immediate","junit-store-success-output":true,'
    '"junit-store-failure-output":false,"junit-flaky-fail-status":"failure",'
    '"run-statuses":{"statuses":[{"retry-data":{"attempt":2,"total-attempts":3},'
    '"output":{"output":{"result":"pass","output":{"split":{"stdout":"6f6b0a","stderr":"00ff"}},'
    '"errors":["late",""]}},"result":{"fail":{"failure":{"abort":{"signal":6,"name":"SIGABRT"}},'
    '"leaked":true}},"start-time":{"secs":1001,"nanos":2,"offset":60},"time-taken":{"secs":3,'
    '"nanos":4},"is-slow":true,"delay-before-start":{"secs":5,"nanos":6},'
    '"error-summary":{"short-message":"short","description":"long"},'
    '"output-error-slice":{"slice":"é","start":7}},{"retry-data":{"attempt":2,"total-attempts":3},'
    '"output":{"output":{"result":"pass","output":{"combined":"c3a9"},"errors":["late",""]}},'
    '"result":"pass","start-time":{"secs":1001,"nanos":2,"offset":60},"time-taken":{"secs":3,'
    '"nanos":4},"is-slow":true,"delay-before-start":{"secs":5,"nanos":6},'
    '"error-summary":{"short-message":"short","description":"long"},'
    '"output-error-slice":{"slice":"é","start":7}}],"flaky-result":"pass"},'
    '"current-stats":{"initial-run-count":1,"finished-count":2,"setup-scripts-initial-count":3,'
    '"setup-scripts-finished-count":4,"setup-scripts-passed":5,"setup-scripts-failed":6,'
    '"setup-scripts-exec-failed":7,"setup-scripts-timed-out":8,"passed":9,"passed-slow":10,'
    '"passed-timed-out":11,"flaky":12,"failed":13,"failed-slow":14,"failed-timed-out":15,'
    '"leaky":16,"leaky-failed":17,"exec-failed":18,"skipped":19,"cancel-reason":"interrupt"},'
    '"running":20}',
]

# The same with outputs in a store.
STORED = [
    '{"timestamp":{"secs":1005,"nanos":0,"offset":0},"elapsed":{"secs":5,"nanos":6},'
    '"kind":"setup-script-finished","stress-index":{"current":1,"total":4},"index":2,"total":3,'
    '"script-id":"db","program":"sh","args":["-c","é"],"no-capture":true,'
    '"run-status":{"output":{"output":{"result":{"leak":"fail"},'
    '"output":{"split":{"stdout":{"truncated":{"original-size":20000000,'
    '"file-name":"0123456789abcdef-stdout"}},"stderr":"empty"}},"errors":["one","two"]}},'
    '"result":{"timeout":"fail"},"start-time":{"secs":1001,"nanos":2,"offset":60},'
    '"time-taken":{"secs":3,"nanos":4},"is-slow":true,"env-map":{},'
    '"error-summary":{"short-message":"short","description":"long"}}}',
    '{"timestamp":{"secs":1005,"nanos":0,"offset":0},"elapsed":{"secs":5,"nanos":0},'
    '"kind":"setup-script-finished","index":0,"total":1,"script-id":"db","program":"sh","args":[],'
    '"no-capture":false,"run-status":{"output":{"output":{"output":{"combined":{"full":'
    '"0123456789abcdef-combined"}}}},"result":"pass","start-time":{"secs":1001,"nanos":0,'
    '"offset":0},"time-taken":{"secs":4,"nanos":0},"is-slow":false}}',
    '{"timestamp":{"secs":1005,"nanos":0,"offset":0},"elapsed":{"secs":5,"nanos":0},'
    '"kind":"setup-script-finished","index":0,"total":1,"script-id":"db","program":"sh","args":[],'
    '"no-capture":false,"run-status":{"output":{"output":{"output":{"combined":"empty"}}},'
    '"result":"pass","start-time":{"secs":1001,"nanos":0,"offset":0},"time-taken":{"secs":4,'
    '"nanos":0},"is-slow":false}}',
    '{"timestamp":{"secs":1002,"nanos":0,"offset":0},"elapsed":{"secs":2,"nanos":0},'
    '"kind":"test-attempt-failed-will-retry","stress-index":{"current":1,"total":4},'
    '"test-instance":{"binary-id":"alpha::a","test-name":"t1"},'
    '"run-status":{"retry-data":{"attempt":1,"total-attempts":3},'
    '"output":{"output":{"result":"pass","output":{"split":{"stdout":{"full":"0123456789abcdef-'
    'stdout"},"stderr":{"full":"fedcba9876543210-stderr"}}},"errors":[]}},'
    '"result":{"fail":{"failure":{"abort":{"signal":6}},"leaked":true}},"start-time":{"secs":1001,'
    '"nanos":2,"offset":60},"time-taken":{"secs":3,"nanos":4},"is-slow":true,'
    '"delay-before-start":{"secs":5,"nanos":6},"error-summary":{"short-message":"short",'
    '"description":"long"},"output-error-slice":{"slice":"é","start":7}},'
    '"delay-before-next-attempt":{"secs":8,"nanos":9},"failure-output":"final","running":10}',
    '{"timestamp":{"secs":1002,"nanos":0,"offset":0},"elapsed":{"secs":2,"nanos":0},'
    '"kind":"test-finished","stress-index":{"current":0,"total":2},'
    '"test-instance":{"binary-id":"alpha::a","test-name":"t1"},"success-output":"final",'
    '"failure-output":"immediate","junit-store-success-output":true,'
    '"junit-store-failure-output":false,"junit-flaky-fail-status":"failure",'
    '"run-statuses":{"statuses":[{"retry-data":{"attempt":2,"total-attempts":3},'
    '"output":{"output":{"result":"pass","output":{"split":{"stdout":{"full":"0123456789abcdef-'
    'stdout"},"stderr":{"truncated":{"file-name":"fedcba9876543210-stderr",'
    '"original-size":18446744073709551615}}}},"errors":["late",""]}},'
    '"result":{"fail":{"failure":{"abort":{"signal":6,"name":"SIGABRT"}},"leaked":true}},'
    '"start-time":{"secs":1001,"nanos":2,"offset":60},"time-taken":{"secs":3,"nanos":4},'
    '"is-slow":true,"delay-before-start":{"secs":5,"nanos":6},'
    '"error-summary":{"short-message":"short","description":"long"},'
    '"output-error-slice":{"slice":"é","start":7}},{"retry-data":{"attempt":2,"total-attempts":3},'
    '"output":{"output":{"result":"pass","output":{"combined":{"full":"00112233445566ff-combined"}'
    '},"errors":["late",""]}},"result":"pass","start-time":{"secs":1001,"nanos":2,"offset":60},'
    '"time-taken":{"secs":3,"nanos":4},"is-slow":true,"delay-before-start":{"secs":5,"nanos":6},'
    '"error-summary":{"short-message":"short","description":"long"},'
    '"output-error-slice":{"slice":"é","start":7}}],"flaky-result":"pass"},'
    '"current-stats":{"initial-run-count":1,"finished-count":2,"setup-scripts-initial-count":3,'
    '"setup-scripts-finished-count":4,"setup-scripts-passed":5,"setup-scripts-failed":6,'
    '"setup-scripts-exec-failed":7,"setup-scripts-timed-out":8,"passed":9,"passed-slow":10,'
    '"passed-timed-out":11,"flaky":12,"failed":13,"failed-slow":14,"failed-timed-out":15,'
    '"leaky":16,"leaky-failed":17,"exec-failed":18,"skipped":19,"cancel-reason":"interrupt"},'
    '"running":20}',
]

# Without outputs the line of a session and that of a log are alike.
NOT_STARTED_ATTEMPTS = [
    (
        '{"timestamp":{"secs":1002,"nanos":0,"offset":0},"elapsed":{"secs":2,"nanos":0},'
        '"kind":"test-attempt-failed-will-retry","test-instance":{"binary-id":"alpha::a",'
        '"test-name":"t1"},"run-status":{"retry-data":{"attempt":1,"total-attempts":2},'
        '"output":{"start-error":""},"result":"exec-fail","start-time":{"secs":1001,"nanos":0,'
        '"offset":0},"time-taken":{"secs":0,"nanos":0},"is-slow":false,'
        '"delay-before-start":{"secs":0,"nanos":0}},"delay-before-next-attempt":{"secs":0,'
        '"nanos":0},"failure-output":"immediate","running":0}',
        '{"delay-before-next-attempt":{"nanos":0,"secs":0},"elapsed":{"nanos":0,"secs":2},'
        '"failure-output":"immediate","kind":"test-attempt-failed-will-retry",'
        '"run-status":{"delay-before-start":{"nanos":0,"secs":0},"is-slow":false,'
        '"output":{"start-error":""},"result":"exec-fail","retry-data":{"attempt":1,'
        '"total-attempts":2},"start-time":{"nanos":0,"offset":0,"secs":1001},'
        '"time-taken":{"nanos":0,"secs":0}},"running":0,"test-instance":{"binary-id":"alpha::a",'
        '"test-name":"t1"},"timestamp":{"nanos":0,"offset":0,"secs":1002}}',
    )
]

WHOLE_ATTEMPT = (
    '{"delay-before-start":{"nanos":0,"secs":1},"error-summary":{"description":"long",'
    '"short-message":"short"},"is-slow":false,"output":{"output":{"errors":["late"],'
    '"output":{"combined":""},"result":"exec-fail"}},"output-error-slice":{"slice":"é",'
    '"start":18446744073709551615},"result":{"timeout":"pass"},"retry-data":{"attempt":2,'
    '"total-attempts":2},"start-time":{"nanos":0,"offset":0,"secs":1004},"time-taken":{"nanos":0,'
    '"secs":0}}'
)
CAPTURED_ATTEMPTS = end_after(
    attempt_with('{"output":{"output":{"split":{"stdout":"6f6b0a"}}}}'), WHOLE_ATTEMPT
)

STORED_ATTEMPTS = end_after(
    attempt_with('{"start-error":"no such file"}'),
    attempt_with(
        '{"output":{"output":{"split":{"stderr":"empty",'
        '"stdout":{"full":"0123456789abcdef-stdout"}}}}}'
    ),
)

CASES = [
    *written_as("setup script that did not start", SCRIPTS_NOT_STARTED),
    *written_as("attempt that did not start", NOT_STARTED_ATTEMPTS),
    *(
        read_of_session(f"captured outputs of a script {number}", line)
        for number, line in enumerate(CAPTURED_OF_SCRIPTS)
    ),
    *(
        read_of_session(f"captured outputs {number}", line)
        for number, line in enumerate([*CAPTURED, CAPTURED_ATTEMPTS])
    ),
    *(
        refused_in_log(f"captured outputs {number}", line)
        for number, line in enumerate([*CAPTURED, CAPTURED_ATTEMPTS])
    ),
    *(
        read_of_log(f"stored outputs {number}", line)
        for number, line in enumerate([*STORED, STORED_ATTEMPTS])
    ),
    *(
        refused_in_session(f"stored outputs {number}", line)
        for number, line in enumerate([*STORED, STORED_ATTEMPTS])
    ),
]

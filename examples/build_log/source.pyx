(log
Aproject orchard
(step
(name
-fetch
)name
(state
-ok
)state
)step
(step
(name
-compile
)name
(state
-ok
)state
(warning
-unused name 'old_price' in basket.c, line 40
)warning
(warning
-comparison of signed & unsigned in basket.c, line 88
)warning
)step
(step
(name
-unit tests
)name
(state
-failed
)state
(reason
-2 of 310 tests: total_of_none, total_of_two
)reason
)step
(step
(name
-package
)name
(state
-skipped
)state
)step
(step
(name
-publish
)name
(state
-failed
)state
(warning
-no package was made
)warning
(reason
-nothing to publish
)reason
)step
)log

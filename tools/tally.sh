# Sourced by the trials in bash: how many passed, and the last line that says so.
passed=0 failed=0
# tell STATUS: a trial passed where this is 0
tell() { if [ "$1" = 0 ]; then passed=$((passed + 1)); else failed=$((failed + 1)); fi; }
# end_tally: the last line; the status is 1 where something failed or nothing was tried
end_tally() { echo "$passed passed, $failed failed"; [ "$failed" = 0 ] && [ "$passed" != 0 ]; }

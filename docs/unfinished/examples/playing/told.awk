# Prints the story of a recording: a comment as it is, a call after a mark, below it what replay printed, and below that the same in words.
# Needs calls.awk, fault.awk and words.awk.

# One call.
function print_call(i) {
	print "> " line
	if (!silent) print "  " came
	for (i = 1; i <= tellings; i++) print "    " told[i]
}

BEGIN {
	begin_telling()
	while (next_line()) {
		if (is_call(line)) { tell_call(); print_call() }
		else print line ~ /^#/ ? line : ""
	}
	complain()
	exit
}

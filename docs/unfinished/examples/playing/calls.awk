# Reads a recording in step with what its two players printed. The folder FOLDER of the environment has these files:
#   recording   the lines of the recording, without carriage returns
#   replay      what replay printed: the eight processes, and then for each call its answer and the eight processes after it
#   desk        what desk printed, two parts for each call
# asked.awk writes what both programs are asked.

# Says what went wrong and ends with 2.
function give_up(text) {
	print "examples/play: " text >"/dev/stderr"
	exit 2
}

# The next line of a file of the folder, into the variable got; whether there is one.
function next_of(name, status) {
	status = (getline got <(ENVIRON["FOLDER"] "/" name))
	if (status < 0) give_up("the file " name " of its temporary folder cannot be read")
	return status
}

# The next line of what a program printed, which has to have one.
function another_of(program) {
	if (!next_of(program)) give_up("target/bin/" program " printed too few lines")
	return got
}

# Whether a line of a recording is a call: no comment, and not blank.
function is_call(text) { return text !~ /^#/ && text !~ /^[ \t]*$/ }

# The next line of the recording, into the variable line; of a call, also what came of it. Whether there is one.
function next_line() {
	if (!next_of("recording")) return 0
	line = got
	line_number++
	if (is_call(line)) read_call()
	return 1
}

# ---- a call

# Takes a call apart: its words, and what replay printed for it. A start that is granted prints nothing, and the processes follow at once.
function read_call(p) {
	call_number++
	arguments = split(substr(line, 1, 4000), argument, " ")
	word = argument[1]
	another_of("replay")
	silent = word == "start" && got ~ / begin [0-9]+$/
	came = silent ? "" : got
	answers = split(came, answer, " ")
	for (p = 0; p < 8; p++) was[p] = now[p]
	read_processes(silent)
}

# Reads the eight processes as they are now. The line of the first is read already where `begun` is 1.
function read_processes(begun, p) {
	for (p = 0; p < 8; p++) now[p] = p == 0 && begun ? got : another_of("replay")
}

# Whether a line has the form of a start. Its sizes go to size_of, by process, and the process of the Pup door to start_door; the last mention counts.
function read_start(text, part, n, i) {
	split("", size_of)
	start_door = 255
	if (text !~ /^start( [0-7](:(0|[1-9][0-9]*))?)*( pup (0|[1-9][0-9]*))?$/) return 0
	if (match(text, / pup [0-9]+$/)) {
		start_door = substr(text, RSTART + 5) + 0
		text = substr(text, 1, RSTART - 1)
	}
	n = split(text, part, " ")
	for (i = 2; i <= n; i++) size_of[substr(part[i], 1, 1)] = length(part[i]) > 1 ? substr(part[i], 3) + 0 : 4096
	return 1
}

# How many bytes in hex stand in a line after its first word.
function bytes_in(text) { return int((length(text) - index(text, " ") + 1) / 3) }

# All that stands in a line after its first word and a blank.
function after_word(text) { return substr(text, index(text, " ") + 1) }

# ---- what is known of a process

# Takes the line of a process apart: its fields go to the array `is`, by name, registers and breakpoints by number.
function know(text, f, part, fields, n, i) {
	split("", is)
	fields = split(text, f, " ")
	is["there"] = f[1]; is["host"] = f[2]; is["run"] = f[3]
	for (i = 0; i < 9; i++) is["register", i] = f[4 + i]
	for (i = 21; i < fields; i += 2) is[f[i]] = f[i + 1]
	n = 0
	for (i = 13; i < 21; i++) {
		split(f[i], part, ":")
		if (part[1] == 0) continue
		n++
		is["address", n] = part[2]; is["count", n] = part[3]; is["saved", n] = part[4]
		is["lifted", n] = part[5]; is["owner", n] = part[6]
	}
	is["breakpoints"] = n
	split(is["go"], part, ":")
	is["id"] = part[1]; is["ticks"] = part[2] + 0
}

# The number of its breakpoint at an address, or 0.
function breakpoint_at(address, i) {
	for (i = 1; i <= is["breakpoints"]; i++) if (is["address", i] + 0 == address + 0) return i
	return 0
}

# ---- the desk, which tells messages in words. For each call it is asked twice at most: for the words of a request, and to carry out the call. What
# it says is separated by the answer to a command that does nothing else.

# Asks it: the bytes of a request, and the line to carry out; nothing where they are empty.
function ask_desk(request, carried) {
	if (request != "") print "request " request
	print "host 255"
	if (carried != "") print "gateway " carried
	print "host 255"
}

# Reads what it said up to the next separation into the array said, from 1 on; how many lines there are.
function desk_said(n) {
	split("", said)
	while (another_of("desk") != "host 255 asks from now on") said[++n] = got
	return n + 0
}
